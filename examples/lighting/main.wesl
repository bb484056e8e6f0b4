import package::lights::{Light, falloff, shade};
import package::surface::{sample_albedo, Surface};
import package::tone;

struct Globals {
    eye: vec3f,
    exposure: f32,
    light: Light,
}

@group(0) @binding(0) var<uniform> globals: Globals;

@fragment fn main(@location(0) position: vec3f, @location(1) normal: vec3f, @location(2) uv: vec2f) -> @location(0) vec4f {
    let surface = Surface(sample_albedo(uv), normalize(normal), 0.5);
    let towards = globals.light.position - position;
    let lit = shade(surface, normalize(towards), normalize(globals.eye - position));
    let color = globals.light.color * lit * falloff(length(towards), globals.light.range);
    @if(tone_mapping) {
        return vec4f(tone::mapped(color * globals.exposure), 1.0);
    }
    return vec4f(color, 1.0);
}
