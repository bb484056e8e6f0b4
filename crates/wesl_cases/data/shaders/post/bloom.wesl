// A compute pass of its own: what is brighter than the threshold, at half the size.
import package::color::luminance::luminance;

override threshold: f32 = 1.0;

@group(0) @binding(0) var source: texture_2d<f32>;
@group(0) @binding(1) var result: texture_storage_2d<rgba16float, write>;

const tile = 8u;

var<workgroup> shared_tile: array<vec3f, tile * tile>;

@compute @workgroup_size(tile, tile)
fn bright(@builtin(global_invocation_id) id: vec3u, @builtin(local_invocation_index) index: u32) {
    let color = textureLoad(source, id.xy * 2u, 0).rgb;
    let weight = smoothstep(threshold, threshold * 2.0, luminance(color));
    shared_tile[index] = color * weight;
    workgroupBarrier();
    textureStore(result, id.xy, vec4f(shared_tile[index], 1.0));
}
