import package::color::srgb::from_srgb;
import package::math::matrix::tangent_space;

struct Material {
    tint: vec4f,
    roughness: f32,
    metallic: f32,
    normal_scale: f32,
}

@group(1) @binding(0) var<uniform> material: Material;
@group(1) @binding(1) var base_map: texture_2d<f32>;
@group(1) @binding(2) var normal_map: texture_2d<f32>;
@group(1) @binding(3) var linear_sampler: sampler;

fn base_color(uv: vec2f) -> vec3f {
    return from_srgb(textureSample(base_map, linear_sampler, uv).rgb) * material.tint.rgb;
}

fn surface_normal(normal: vec3f, tangent: vec4f, uv: vec2f) -> vec3f {
    let texel = textureSample(normal_map, linear_sampler, uv).xyz * 2.0 - 1.0;
    let scaled = vec3f(texel.xy * material.normal_scale, texel.z);
    return normalize(tangent_space(normal, tangent) * scaled);
}
