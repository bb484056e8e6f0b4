const weights = vec3f(0.2126, 0.7152, 0.0722);

fn luminance(color: vec3f) -> f32 {
    return dot(color, weights);
}
