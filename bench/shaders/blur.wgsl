// A separable blur of an image, with the row or column of a workgroup in shared memory.
override radius: i32 = 4;
const tile_size = 128u;
const channels: u32 = 4;

struct Parameters {
    direction: vec2<i32>,
    sigma: f32,
    strength: f32,
}

alias Row = array<vec4<f32>, 160>;

@group(0) @binding(0) var source: texture_2d<f32>;
@group(0) @binding(1) var target_image: texture_storage_2d<rgba8unorm, write>;
@group(0) @binding(2) var<uniform> parameters: Parameters;

var<workgroup> row: Row;

fn weight(distance: i32) -> f32 {
    let x = f32(distance) / parameters.sigma;
    return exp(-0.5 * x * x);
}

fn clamped(position: vec2i, size: vec2i) -> vec2i {
    return clamp(position, vec2i(0), size - vec2i(1, 1));
}

@compute @workgroup_size(128, 1, 1)
fn blur(@builtin(local_invocation_index) local_index: u32, @builtin(workgroup_id) group: vec3u, @builtin(num_workgroups) groups: vec3<u32>) {
    let size = vec2i(textureDimensions(source, 0));
    let across = parameters.direction.yx;
    let start = i32(group.x * tile_size);
    let line = i32(group.y);
    for (var at = local_index; at < 160u; at += tile_size) {
        let along = start + i32(at) - 16;
        let position = parameters.direction * along + across * line;
        row[at] = textureLoad(source, clamped(position, size), 0);
    }
    workgroupBarrier();

    var sum = vec4f();
    var total: f32 = 0;
    for (var offset = -radius; offset <= radius; offset = offset + 1) {
        let w = weight(offset);
        sum += row[i32(local_index) + 16 + offset] * w;
        total += w;
    }
    let position = parameters.direction * (start + i32(local_index)) + across * line;
    if (all(position < size)) {
        let original = textureLoad(source, position, 0);
        let blurred = sum / total;
        textureStore(target_image, position, mix(original, blurred, parameters.strength));
    }
    _ = groups.z * channels;
}
