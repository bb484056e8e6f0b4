alias Basis = mat3x3<f32>;

fn tangent_space(normal: vec3f, tangent: vec4f) -> Basis {
    let n = normalize(normal);
    let t = normalize(tangent.xyz - n * dot(n, tangent.xyz));
    return Basis(t, cross(n, t) * tangent.w, n);
}
