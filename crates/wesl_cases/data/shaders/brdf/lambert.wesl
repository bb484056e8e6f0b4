import package::math::constants::inverse_pi as over_pi;

fn diffuse(albedo: vec3f, fresnel: vec3f, metallic: f32) -> vec3f {
    return albedo * (1.0 - fresnel) * (1.0 - metallic) * over_pi;
}
