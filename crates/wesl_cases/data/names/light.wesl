struct Light {
    position: vec3f,
    power: f32,
}

fn shade(light: Light, distance: f32) -> f32 {
    return light.power * clamp(distance, 0.0, 1.0) / length(light.position);
}
