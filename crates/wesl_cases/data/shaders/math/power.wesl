fn pow2(x: f32) -> f32 {
    return x * x;
}

fn pow4(x: f32) -> f32 {
    return pow2(pow2(x));
}

fn pow5(x: f32) -> f32 {
    return pow4(x) * x;
}
