// Ambient occlusion in screen space, and a bilateral filter of it.
struct Frame {
    projection: mat4x4f,
    inverse_projection: mat4x4f,
    radius: f32,
    bias: f32,
    power: f32,
    samples: u32,
}

@group(0) @binding(0) var<uniform> frame: Frame;
@group(0) @binding(1) var depth_texture: texture_depth_2d;
@group(0) @binding(2) var normal_texture: texture_2d<f32>;
@group(0) @binding(3) var<storage> kernel: array<vec4f>;
@group(0) @binding(4) var clamping: sampler;
@group(1) @binding(0) var raw_occlusion: texture_2d<f32>;

struct Fragment {
    @builtin(position) position: vec4f,
    @location(0) uv: vec2f,
}

fn view_position(uv: vec2f, depth: f32) -> vec3f {
    let clip = vec4f(uv.x * 2.0 - 1.0, 1.0 - uv.y * 2.0, depth, 1.0);
    let view = frame.inverse_projection * clip;
    return view.xyz / view.w;
}

fn depth_at(uv: vec2f) -> f32 {
    let size = vec2f(textureDimensions(depth_texture));
    return textureLoad(depth_texture, vec2i(uv * size), 0);
}

fn noise_vector(pixel: vec2f) -> vec3f {
    let angle = fract(52.9829189 * fract(dot(pixel, vec2f(0.06711056, 0.00583715)))) * radians(360.0);
    return vec3f(cos(angle), sin(angle), 0.0);
}

fn tangent_frame(normal: vec3f, random: vec3f) -> mat3x3<f32> {
    let tangent = normalize(random - normal * dot(random, normal));
    return mat3x3<f32>(tangent, cross(normal, tangent), normal);
}

@fragment
fn occlusion(in: Fragment) -> @location(0) vec4f {
    let depth = depth_at(in.uv);
    if (depth >= 1.0) {
        return vec4f(1.0);
    }
    let origin = view_position(in.uv, depth);
    let normal = normalize(textureSampleLevel(normal_texture, clamping, in.uv, 0.0).xyz * 2.0 - 1.0);
    let basis = tangent_frame(normal, noise_vector(in.position.xy));
    var occluded = 0.0;
    for (var i: u32 = 0; i < frame.samples; i++) {
        let offset = basis * kernel[i].xyz;
        let sampled = origin + offset * frame.radius;
        let projected = frame.projection * vec4f(sampled, 1.0);
        let uv = projected.xy / projected.w * vec2f(0.5, -0.5) + 0.5;
        let seen = view_position(uv, depth_at(uv)).z;
        let in_range = smoothstep(0.0, 1.0, frame.radius / abs(origin.z - seen));
        occluded += select(0.0, 1.0, seen >= sampled.z + frame.bias) * in_range;
    }
    let open = 1.0 - occluded / f32(frame.samples);
    return vec4f(pow(open, frame.power), depth, 0.0, 1.0);
}

@fragment
fn filtered(in: Fragment) -> @location(0) vec4f {
    let size = vec2i(textureDimensions(raw_occlusion));
    let center = vec2i(in.position.xy);
    let middle = textureLoad(raw_occlusion, center, 0).rg;
    var sum = middle.x;
    var total = 1.0;
    for (var y = -2; y <= 2; y++) {
        for (var x = -2; x <= 2; x++) {
            if (x == 0 && y == 0) {
                continue;
            }
            let at = clamp(center + vec2i(x, y), vec2i(), size - 1);
            let tap = textureLoad(raw_occlusion, at, 0).rg;
            let weight = exp(-abs(tap.y - middle.y) * 400.0) / f32(1 + x * x + y * y);
            sum += tap.x * weight;
            total += weight;
        }
    }
    return vec4f(vec3f(sum / total), 1.0);
}
