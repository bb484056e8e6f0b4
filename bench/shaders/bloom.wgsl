// Bloom: a threshold, halving with thirteen taps, and doubling with a tent.
struct Bloom {
    threshold: f32,
    knee: f32,
    radius: f32,
    mip: u32,
}

@group(0) @binding(0) var<uniform> bloom: Bloom;
@group(0) @binding(1) var input: texture_2d<f32>;
@group(0) @binding(2) var edge: sampler;
@group(0) @binding(3) var result_texture: texture_storage_2d<rgba16float, write>;

fn brightness(color: vec3<f32>) -> f32 {
    return max(color.r, max(color.g, color.b));
}

fn thresholded(color: vec3<f32>) -> vec3<f32> {
    let bright = brightness(color);
    var soft = clamp(bright - bloom.threshold + bloom.knee, 0.0, 2.0 * bloom.knee);
    soft = soft * soft / (4.0 * bloom.knee + 0.00001);
    let contribution = max(soft, bright - bloom.threshold) / max(bright, 0.00001);
    return color * contribution;
}

fn karis(color: vec3<f32>) -> f32 {
    return 1.0 / (1.0 + brightness(color));
}

fn tap(uv: vec2<f32>, offset: vec2<f32>, texel: vec2<f32>) -> vec3<f32> {
    return textureSampleLevel(input, edge, uv + offset * texel, 0.0).xyz;
}

fn box_of(a: vec3f, b: vec3f, c: vec3f, d: vec3f) -> vec3f {
    let weights = vec4f(karis(a), karis(b), karis(c), karis(d));
    let sum = a * weights.x + b * weights.y + c * weights.z + d * weights.w;
    return sum / dot(weights, vec4f(1.0));
}

fn halved(uv: vec2f, texel: vec2f) -> vec3f {
    let a = tap(uv, vec2f(-2.0, 2.0), texel);
    let b = tap(uv, vec2f(0.0, 2.0), texel);
    let c = tap(uv, vec2f(2.0, 2.0), texel);
    let d = tap(uv, vec2f(-2.0, 0.0), texel);
    let e = tap(uv, vec2f(), texel);
    let f = tap(uv, vec2f(2.0, 0.0), texel);
    let g = tap(uv, vec2f(-2.0, -2.0), texel);
    let h = tap(uv, vec2f(0.0, -2.0), texel);
    let i = tap(uv, vec2f(2.0, -2.0), texel);
    let inner = box_of(tap(uv, vec2f(-1.0, 1.0), texel), tap(uv, vec2f(1.0, 1.0), texel), tap(uv, vec2f(-1.0), texel), tap(uv, vec2f(1.0, -1.0), texel));
    return inner * 0.5 + (box_of(a, b, d, e) + box_of(b, c, e, f) + box_of(d, e, g, h) + box_of(e, f, h, i)) * 0.125;
}

@compute @workgroup_size(8, 8, 1)
fn downsample(@builtin(global_invocation_id) pixel: vec3<u32>) {
    let size = textureDimensions(result_texture);
    if (pixel.x >= size.x || pixel.y >= size.y) {
        return;
    }
    let uv = (vec2f(pixel.xy) + 0.5) / vec2f(size);
    let texel = 1.0 / vec2f(textureDimensions(input));
    var color = halved(uv, texel);
    if (bloom.mip == 0u) {
        color = thresholded(color);
    }
    textureStore(result_texture, pixel.xy, vec4f(max(color, vec3f(0.0001)), 1.0));
}

@compute @workgroup_size(8, 8)
fn upsample(@builtin(global_invocation_id) pixel: vec3<u32>) {
    let size = textureDimensions(result_texture);
    let uv = (vec2f(pixel.xy) + 0.5) / vec2f(size);
    let reach = vec2f(bloom.radius, bloom.radius * f32(size.x) / f32(size.y));
    var sum = tap(uv, vec2f(), reach) * 4.0;
    for (var i = 0; i < 4; i++) {
        let side = select(-1.0, 1.0, (i & 1) == 1);
        let straight = select(vec2f(side, 0.0), vec2f(0.0, side), i > 1);
        sum += tap(uv, straight, reach) * 2.0;
        sum += tap(uv, vec2f(side, select(1.0, -1.0, i > 1)), reach);
    }
    textureStore(result_texture, vec2i(pixel.xy), vec4f(sum / 16.0, 1.0));
}
