// Skinned and morphed vertices, with dual quaternions as an option.
override use_dual_quaternions: bool = false;
@id(7) override morph_weight_limit: f32 = 1.0;

struct Joint {
    real: vec4f,
    dual: vec4f,
    matrix: mat4x4<f32>,
}

struct Morph {
    target_count: u32,
    vertex_count: u32,
    weights: array<f32, 8>,
}

struct SkinnedVertex {
    position: vec3f,
    normal: vec3f,
}

struct Attributes {
    @location(0) position: vec3f,
    @location(1) normal: vec3f,
    @location(2) joints: vec4u,
    @location(3) weights: vec4f,
    @builtin(vertex_index) index: u32,
}

struct Rasterized {
    @builtin(position) @invariant clip: vec4f,
    @location(0) normal: vec3f,
    @location(1) @interpolate(perspective, centroid) world: vec3f,
}

@group(0) @binding(0) var<storage, read> joints: array<Joint>;
@group(0) @binding(1) var<storage, read> morph: Morph;
@group(0) @binding(2) var<storage, read> deltas: array<SkinnedVertex>;
@group(0) @binding(3) var<uniform> projection: mat4x4f;

fn skin_matrix(indices: vec4u, weights: vec4f) -> mat4x4f {
    return joints[indices.x].matrix * weights.x + joints[indices.y].matrix * weights.y + joints[indices.z].matrix * weights.z + joints[indices.w].matrix * weights.w;
}

fn blended(indices: vec4u, weights: vec4f) -> Joint {
    var mixed: Joint;
    let pivot = joints[indices.x].real;
    for (var i = 0u; i < 4u; i++) {
        let joint = joints[indices[i]];
        let sign_of = select(1.0, -1.0, dot(pivot, joint.real) < 0.0);
        mixed.real += joint.real * (weights[i] * sign_of);
        mixed.dual += joint.dual * (weights[i] * sign_of);
    }
    let norm = length(mixed.real);
    mixed.real /= norm;
    mixed.dual /= norm;
    return mixed;
}

fn rotated(q: vec4f, v: vec3f) -> vec3f {
    let t = 2.0 * cross(q.xyz, v);
    return v + q.w * t + cross(q.xyz, t);
}

fn moved(joint: Joint, v: vec3f) -> vec3f {
    let translation = 2.0 * (joint.real.w * joint.dual.xyz - joint.dual.w * joint.real.xyz + cross(joint.real.xyz, joint.dual.xyz));
    return rotated(joint.real, v) + translation;
}

fn morphed(input: Attributes) -> SkinnedVertex {
    var vertex = SkinnedVertex(input.position, input.normal);
    for (var target_index = 0u; target_index < morph.target_count; target_index++) {
        let weight = min(morph.weights[target_index], morph_weight_limit);
        if (weight == 0.0) {
            continue;
        }
        let delta = deltas[target_index * morph.vertex_count + input.index];
        vertex.position += delta.position * weight;
        vertex.normal += delta.normal * weight;
    }
    return vertex;
}

@vertex
fn skinned(input: Attributes) -> Rasterized {
    let vertex = morphed(input);
    var out: Rasterized;
    if use_dual_quaternions {
        let joint = blended(input.joints, input.weights);
        out.world = moved(joint, vertex.position);
        out.normal = rotated(joint.real, vertex.normal);
    } else {
        let skin = skin_matrix(input.joints, input.weights);
        out.world = (skin * vec4f(vertex.position, 1.0)).xyz;
        out.normal = normalize((skin * vec4f(vertex.normal, 0.0)).xyz);
    }
    out.clip = projection * vec4f(out.world, 1.0);
    return out;
}
