fn clamped(x: f32) -> f32 {
    return max(clamp(x, 0.0), 1.0);
}
