struct Surface {
    albedo: vec3f,
    normal: vec3f,
    gloss: f32,
}

@group(1) @binding(0) var albedo_map: texture_2d<f32>;
@group(1) @binding(1) var albedo_sampler: sampler;

fn sample_albedo(uv: vec2f) -> vec3f {
    return textureSample(albedo_map, albedo_sampler, uv).rgb;
}
