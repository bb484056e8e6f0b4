import super::super::math::constants::pi;

fn distribution(n_dot_h: f32, roughness: f32) -> f32 {
    let a2 = roughness * roughness * roughness * roughness;
    let d = n_dot_h * n_dot_h * (a2 - 1.0) + 1.0;
    return a2 / (pi * d * d);
}

/// Smith's term, over four times the two cosines.
fn visibility(n_dot_v: f32, n_dot_l: f32, roughness: f32) -> f32 {
    let a = roughness * roughness;
    let v = n_dot_l * (n_dot_v * (1.0 - a) + a);
    let l = n_dot_v * (n_dot_l * (1.0 - a) + a);
    return 0.5 / max(v + l, 0.0001);
}
