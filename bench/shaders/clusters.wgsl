// Lights sorted into clusters of the view, by a scan in shared memory.
const group_size = 64u;
const max_per_cluster: u32 = 32;
const grid = vec3u(16, 9, 24);

struct Box { low: vec3f, high: vec3f }

struct Sphere {
    center: vec3f,
    radius: f32,
}

struct Cluster {
    offset: u32,
    count: u32,
}

struct Frustum {
    inverse_projection: mat4x4f,
    near: f32,
    far: f32,
    screen: vec2f,
    light_count: u32,
}

@group(0) @binding(0) var<uniform> frustum: Frustum;
@group(0) @binding(1) var<storage, read> spheres: array<Sphere>;
@group(0) @binding(2) var<storage, read_write> clusters: array<Cluster>;
@group(0) @binding(3) var<storage, read_write> indices: array<u32>;
@group(0) @binding(4) var<storage, read_write> next: atomic<u32>;

var<workgroup> partial_sums: array<u32, group_size>;
var<workgroup> base: u32;

fn unprojected(screen_position: vec2f) -> vec3f {
    let ndc = vec4f(screen_position / frustum.screen * 2.0 - 1.0, 0.0, 1.0);
    let view = frustum.inverse_projection * ndc;
    return view.xyz / view.w;
}

fn at_depth(ray: vec3f, depth: f32) -> vec3f {
    return ray * (depth / ray.z);
}

fn slice_depth(slice: u32) -> f32 {
    return -frustum.near * pow(frustum.far / frustum.near, f32(slice) / f32(grid.z));
}

fn cluster_box(id: vec3u) -> Box {
    let tile = frustum.screen / vec2f(grid.xy);
    let low_ray = unprojected(vec2f(id.xy) * tile);
    let high_ray = unprojected(vec2f(id.xy + 1u) * tile);
    let near = slice_depth(id.z);
    let far = slice_depth(id.z + 1u);
    let a = at_depth(low_ray, near);
    let b = at_depth(low_ray, far);
    let c = at_depth(high_ray, near);
    let d = at_depth(high_ray, far);
    return Box(min(min(a, b), min(c, d)), max(max(a, b), max(c, d)));
}

fn touches(box: Box, sphere: Sphere) -> bool {
    let closest = clamp(sphere.center, box.low, box.high);
    let away = closest - sphere.center;
    return dot(away, away) <= sphere.radius * sphere.radius;
}

fn exclusive_scan(local: u32, value: u32) -> u32 {
    partial_sums[local] = value;
    workgroupBarrier();
    for (var step_size = 1u; step_size < group_size; step_size <<= 1u) {
        var added = 0u;
        if local >= step_size {
            added = partial_sums[local - step_size];
        }
        workgroupBarrier();
        partial_sums[local] += added;
        workgroupBarrier();
    }
    return partial_sums[local] - value;
}

@compute @workgroup_size(group_size)
fn assign(@builtin(global_invocation_id) global: vec3u, @builtin(local_invocation_index) local: u32) {
    let number = global.x;
    let id = vec3u(number % grid.x, (number / grid.x) % grid.y, number / (grid.x * grid.y));
    let box = cluster_box(id);
    var found: array<u32, max_per_cluster>;
    var count = 0u;
    for (var light = 0u; light < frustum.light_count && count < max_per_cluster; light++) {
        if (touches(box, spheres[light])) {
            found[count] = light;
            count++;
        }
    }
    let offset = exclusive_scan(local, count);
    if (local == group_size - 1u) {
        base = atomicAdd(&next, offset + count);
    }
    let start = workgroupUniformLoad(&base);
    for (var i = 0u; i < count; i++) {
        indices[start + offset + i] = found[i];
    }
    clusters[number] = Cluster(start + offset, count);
}
