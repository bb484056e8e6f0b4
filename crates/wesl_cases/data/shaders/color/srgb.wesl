fn channel_to_srgb(x: f32) -> f32 {
    if x <= 0.0031308 {
        return x * 12.92;
    }
    return 1.055 * pow(x, 1.0 / 2.4) - 0.055;
}

fn to_srgb(color: vec3f) -> vec3f {
    return vec3f(channel_to_srgb(color.r), channel_to_srgb(color.g), channel_to_srgb(color.b));
}

fn from_srgb(color: vec3f) -> vec3f {
    let low = color / 12.92;
    let high = pow((color + 0.055) / 1.055, vec3f(2.4));
    return select(high, low, color <= vec3f(0.04045));
}
