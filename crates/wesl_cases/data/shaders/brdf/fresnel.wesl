import package::math::power::pow5;

fn schlick(f0: vec3f, cosine: f32) -> vec3f {
    return f0 + (1.0 - f0) * pow5(1.0 - cosine);
}

fn reflectance(index: f32) -> f32 {
    let r = (index - 1.0) / (index + 1.0);
    return r * r;
}
