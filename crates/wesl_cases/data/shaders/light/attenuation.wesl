import package::math::power::{pow2, pow4};

fn attenuation(distance: f32, range: f32) -> f32 {
    let window = pow2(saturate(1.0 - pow4(distance / range)));
    return window / max(pow2(distance), 0.01);
}
