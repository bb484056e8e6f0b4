fn smooth_falloff(distance: f32, range: f32) -> f32 {
    let x = saturate(1.0 - distance / range);
    return x * x;
}

fn hard_falloff(distance: f32, range: f32) -> f32 {
    return select(0.0, 1.0, distance < range);
}
