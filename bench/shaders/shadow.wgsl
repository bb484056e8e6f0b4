// Depth of casters into a cube and a map, and soft shadows that read it.
struct Caster {
    light_matrix: mat4x4f,
    position: vec4f,
    range: f32,
    softness: f32,
}

struct Model {
    matrix: mat4x4f,
}

@group(0) @binding(0) var<uniform> caster: Caster;
@group(0) @binding(1) var<uniform> model: Model;
@group(1) @binding(0) var depth_cube: texture_depth_cube;
@group(1) @binding(1) var depth_map: texture_depth_2d;
@group(1) @binding(2) var comparison: sampler_comparison;
@group(1) @binding(3) var nearest: sampler;

const taps = 16;
var<private> disk: array<vec2f, taps> = array<vec2f, taps>(
    vec2f(-0.94201624, -0.39906216), vec2f(0.94558609, -0.76890725), vec2f(-0.094184101, -0.9293887), vec2f(0.34495938, 0.29387760),
    vec2f(-0.91588581, 0.45771432), vec2f(-0.81544232, -0.87912464), vec2f(-0.38277543, 0.27676845), vec2f(0.97484398, 0.75648379),
    vec2f(0.44323325, -0.97511554), vec2f(0.53742981, -0.47373420), vec2f(-0.26496911, -0.41893023), vec2f(0.79197514, 0.19090188),
    vec2f(-0.24188840, 0.99706507), vec2f(-0.81409955, 0.91437590), vec2f(0.19984126, 0.78641367), vec2f(0.14383161, -0.14100790),
);

struct Depth {
    @builtin(position) position: vec4f,
    @location(0) world: vec3f,
}

@vertex
fn cast_depth(@location(0) position: vec3f) -> Depth {
    var result_depth: Depth;
    let world = model.matrix * vec4f(position, 1.0);
    result_depth.world = world.xyz;
    result_depth.position = caster.light_matrix * world;
    return result_depth;
}

@fragment
fn write_depth(in: Depth) -> @builtin(frag_depth) f32 {
    return length(in.world - caster.position.xyz) / caster.range;
}

fn blocker_depth(uv: vec2f, receiver: f32, search: f32) -> vec2f {
    var sum = 0.0;
    var count = 0.0;
    for (var i = 0; i < taps; i++) {
        let sampled = textureSampleLevel(depth_map, nearest, uv + disk[i] * search, 0);
        if (sampled < receiver) {
            sum += sampled;
            count += 1.0;
        }
    }
    return vec2f(sum / max(count, 1.0), count);
}

fn soft_shadow(world: vec3f, normal: vec3f) -> f32 {
    let projected = caster.light_matrix * vec4f(world + normal * 0.01, 1.0);
    let ndc = projected.xyz / projected.w;
    if (any(abs(ndc.xy) > vec2f(1.0))) {
        return 1.0;
    }
    let uv = ndc.xy * vec2f(0.5, -0.5) + vec2f(0.5);
    let blockers = blocker_depth(uv, ndc.z, caster.softness / caster.range);
    if (blockers.y < 1.0) {
        return 1.0;
    }
    let penumbra = (ndc.z - blockers.x) * caster.softness / blockers.x;
    var lit = 0.0;
    for (var tap = 0; tap < taps; tap += 1) {
        lit += textureSampleCompareLevel(depth_map, comparison, uv + disk[tap] * penumbra, ndc.z - 0.001);
    }
    return lit / f32(taps);
}

fn cube_shadow(world: vec3f) -> f32 {
    let towards = world - caster.position.xyz;
    let receiver = length(towards) / caster.range;
    return textureSampleCompareLevel(depth_cube, comparison, towards, receiver - 0.002);
}

@fragment
fn lit(in: Depth, @location(1) normal: vec3f, @builtin(front_facing) front: bool) -> @location(0) vec4f {
    let facing = select(-normal, normal, front);
    let shadow = min(soft_shadow(in.world, facing), cube_shadow(in.world));
    return vec4f(vec3f(shadow), 1.0);
}
