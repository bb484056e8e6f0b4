// Physically based shading of a mesh with maps, a directional light with cascades and point lights.
const pi: f32 = 3.14159265359;
const cascade_count = 4u;
const max_lights: u32 = 16u;

struct Camera {
    view_projection: mat4x4<f32>,
    view: mat4x4<f32>,
    eye: vec3<f32>,
    exposure: f32,
}

struct PointLight {
    position: vec3f,
    radius: f32,
    color: vec3f,
    intensity: f32,
}

struct Sun {
    direction: vec3f,
    bias: f32,
    color: vec3f,
    cascades: array<mat4x4f, cascade_count>,
    splits: vec4f,
}

struct Lights {
    sun: Sun,
    count: u32,
    points: array<PointLight, max_lights>,
}

struct Material {
    base_color: vec4f,
    emissive: vec3f,
    roughness: f32,
    metallic: f32,
    occlusion_strength: f32,
    alpha_cutoff: f32,
}

struct VertexInput {
    @location(0) position: vec3f,
    @location(1) normal: vec3f,
    @location(2) tangent: vec4f,
    @location(3) uv: vec2f,
}

struct VertexOutput {
    @builtin(position) clip_position: vec4f,
    @location(0) world_position: vec3f,
    @location(1) normal: vec3f,
    @location(2) tangent: vec4f,
    @location(3) uv: vec2f,
    @location(4) @interpolate(flat) instance: u32,
}

struct Instance {
    model: mat4x4f,
    normal_matrix: mat3x3f,
}

@group(0) @binding(0) var<uniform> camera: Camera;
@group(0) @binding(1) var<uniform> lights: Lights;
@group(0) @binding(2) var shadow_map: texture_depth_2d_array;
@group(0) @binding(3) var shadow_sampler: sampler_comparison;
@group(1) @binding(0) var<uniform> material: Material;
@group(1) @binding(1) var base_color_map: texture_2d<f32>;
@group(1) @binding(2) var normal_map: texture_2d<f32>;
@group(1) @binding(3) var metallic_roughness_map: texture_2d<f32>;
@group(1) @binding(4) var occlusion_map: texture_2d<f32>;
@group(1) @binding(5) var linear_sampler: sampler;
@group(2) @binding(0) var<storage, read> instances: array<Instance>;

@vertex
fn vertex_main(input: VertexInput, @builtin(instance_index) instance_index: u32) -> VertexOutput {
    let instance = &instances[instance_index];
    let world = (*instance).model * vec4f(input.position, 1.0);
    var output: VertexOutput;
    output.clip_position = camera.view_projection * world;
    output.world_position = world.xyz / world.w;
    output.normal = normalize((*instance).normal_matrix * input.normal);
    output.tangent = vec4f(normalize((*instance).normal_matrix * input.tangent.xyz), input.tangent.w);
    output.uv = input.uv;
    output.instance = instance_index;
    return output;
}

fn distribution_ggx(n_dot_h: f32, roughness: f32) -> f32 {
    let alpha = roughness * roughness;
    let alpha_squared = alpha * alpha;
    let denominator = n_dot_h * n_dot_h * (alpha_squared - 1.0) + 1.0;
    return alpha_squared / (pi * denominator * denominator);
}

fn visibility_smith(n_dot_v: f32, n_dot_l: f32, roughness: f32) -> f32 {
    let alpha = roughness * roughness;
    let view_term = n_dot_l * sqrt(n_dot_v * n_dot_v * (1.0 - alpha) + alpha);
    let light_term = n_dot_v * sqrt(n_dot_l * n_dot_l * (1.0 - alpha) + alpha);
    return 0.5 / max(view_term + light_term, 0.0001);
}

fn fresnel_schlick(cosine: f32, f0: vec3f) -> vec3f {
    return f0 + (vec3f(1.0) - f0) * pow(clamp(1.0 - cosine, 0.0, 1.0), 5.0);
}

struct Surface {
    albedo: vec3f,
    normal: vec3f,
    view: vec3f,
    roughness: f32,
    metallic: f32,
    f0: vec3f,
}

fn shade(surface: Surface, light: vec3f, radiance: vec3f) -> vec3f {
    let halfway = normalize(surface.view + light);
    let n_dot_l = max(dot(surface.normal, light), 0.0);
    let n_dot_v = max(dot(surface.normal, surface.view), 0.0001);
    let n_dot_h = max(dot(surface.normal, halfway), 0.0);
    let fresnel = fresnel_schlick(max(dot(halfway, surface.view), 0.0), surface.f0);
    let specular = fresnel * distribution_ggx(n_dot_h, surface.roughness) * visibility_smith(n_dot_v, n_dot_l, surface.roughness);
    let diffuse = (vec3f(1.0) - fresnel) * (1.0 - surface.metallic) * surface.albedo / pi;
    return (diffuse + specular) * radiance * n_dot_l;
}

fn cascade_of(depth: f32) -> u32 {
    var cascade = 0u;
    for (var i = 0u; i < cascade_count - 1u; i++) {
        if (depth > lights.sun.splits[i]) {
            cascade = i + 1u;
        }
    }
    return cascade;
}

fn shadow(world_position: vec3f, depth: f32) -> f32 {
    let cascade = cascade_of(depth);
    let projected = lights.sun.cascades[cascade] * vec4f(world_position, 1.0);
    let coordinates = projected.xyz / projected.w;
    let uv = coordinates.xy * vec2f(0.5, -0.5) + 0.5;
    let texel = 1.0 / vec2f(textureDimensions(shadow_map));
    var sum = 0.0;
    for (var x = -1; x <= 1; x++) {
        for (var y = -1; y <= 1; y++) {
            let offset = vec2f(f32(x), f32(y)) * texel;
            sum += textureSampleCompareLevel(shadow_map, shadow_sampler, uv + offset, cascade, coordinates.z - lights.sun.bias);
        }
    }
    return sum / 9.0;
}

fn perturbed_normal(input: VertexOutput) -> vec3f {
    let sampled = textureSample(normal_map, linear_sampler, input.uv).xyz * 2.0 - 1.0;
    let bitangent = cross(input.normal, input.tangent.xyz) * input.tangent.w;
    let frame = mat3x3f(input.tangent.xyz, bitangent, input.normal);
    return normalize(frame * sampled);
}

@fragment
fn fragment_main(input: VertexOutput) -> @location(0) vec4f {
    let base = textureSample(base_color_map, linear_sampler, input.uv) * material.base_color;
    let packed = textureSample(metallic_roughness_map, linear_sampler, input.uv);
    let occlusion = mix(1.0, textureSample(occlusion_map, linear_sampler, input.uv).r, material.occlusion_strength);
    let normal = perturbed_normal(input);
    if (base.a < material.alpha_cutoff) {
        discard;
    }
    var surface: Surface;
    surface.albedo = base.rgb;
    surface.normal = normal;
    surface.view = normalize(camera.eye - input.world_position);
    surface.roughness = clamp(packed.g * material.roughness, 0.04, 1.0);
    surface.metallic = packed.b * material.metallic;
    surface.f0 = mix(vec3f(0.04), surface.albedo, surface.metallic);

    let depth = -(camera.view * vec4f(input.world_position, 1.0)).z;
    var color = shade(surface, -lights.sun.direction, lights.sun.color * shadow(input.world_position, depth));
    for (var i = 0u; i < min(lights.count, max_lights); i++) {
        let light = lights.points[i];
        let towards = light.position - input.world_position;
        let distance_squared = dot(towards, towards);
        let window = saturate(1.0 - pow(distance_squared / (light.radius * light.radius), 2.0));
        let radiance = light.color * light.intensity * window * window / max(distance_squared, 0.01);
        color += shade(surface, normalize(towards), radiance);
    }
    color += surface.albedo * 0.03 * occlusion + material.emissive;
    return vec4f(color * camera.exposure, base.a);
}
