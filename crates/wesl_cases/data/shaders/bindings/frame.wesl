import package::light::types::Light;
import package::config::max_lights;

struct Frame {
    view_projection: mat4x4f,
    light_projection: mat4x4f,
    eye: vec3f,
    exposure: f32,
    fog: vec3f,
    light_count: u32,
    lights: array<Light, max_lights>,
}

@group(0) @binding(0) var<uniform> frame: Frame;
