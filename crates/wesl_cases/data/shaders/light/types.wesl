struct Light {
    position: vec3f,
    range: f32,
    direction: vec3f,
    kind: u32,
    color: vec3f,
    intensity: f32,
    cone: vec2f,
}
