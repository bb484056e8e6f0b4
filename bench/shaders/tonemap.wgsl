// A triangle over the screen: exposure, bloom, tone curve, grading by a table, vignette, grain and dithering.
struct Settings {
    exposure: f32,
    bloom: f32,
    vignette: f32,
    grain: f32,
    time: f32,
    curve: u32,
    resolution: vec2f,
}

@group(0) @binding(0) var hdr: texture_2d<f32>;
@group(0) @binding(1) var bloom: texture_2d<f32>;
@group(0) @binding(2) var table: texture_3d<f32>;
@group(0) @binding(3) var bilinear: sampler;
@group(0) @binding(4) var<uniform> settings: Settings;

struct Screen {
    @builtin(position) position: vec4f,
    @location(0) uv: vec2f,
}

@vertex
fn screen(@builtin(vertex_index) index: u32) -> Screen {
    let x = f32((index << 1u) & 2u);
    let y = f32(index & 2u);
    return Screen(vec4f(x * 2.0 - 1.0, 1.0 - y * 2.0, 0.0, 1.0), vec2f(x, y));
}

fn luminance(color: vec3f) -> f32 {
    return dot(color, vec3f(0.2126, 0.7152, 0.0722));
}

fn reinhard(color: vec3f) -> vec3f {
    return color / (1.0 + luminance(color));
}

fn aces(color: vec3f) -> vec3f {
    const input = mat3x3f(0.59719, 0.076, 0.0284, 0.35458, 0.90834, 0.13383, 0.04823, 0.01566, 0.83777);
    const output = mat3x3f(1.60475, -0.10208, -0.00327, -0.53108, 1.10813, -0.07276, -0.07367, -0.00605, 1.07602);
    let v = input * color;
    let a = v * (v + 0.0245786) - 0.000090537;
    let b = v * (0.983729 * v + 0.4329510) + 0.238081;
    return saturate(output * (a / b));
}

fn filmic(x: vec3f) -> vec3f {
    let shifted = max(vec3f(), x - 0.004);
    return (shifted * (6.2 * shifted + 0.5)) / (shifted * (6.2 * shifted + 1.7) + 0.06);
}

fn to_srgb(linear: vec3f) -> vec3f {
    let low = linear * 12.92;
    let high = 1.055 * pow(linear, vec3f(1.0 / 2.4)) - 0.055;
    return select(high, low, linear <= vec3f(0.0031308));
}

fn hash(position: vec2f) -> f32 {
    let p = fract(vec3f(position.xyx) * 0.1031);
    let q = p + dot(p, p.yzx + 33.33);
    return fract((q.x + q.y) * q.z);
}

fn graded(color: vec3f) -> vec3f {
    let size = vec3f(textureDimensions(table));
    let scaled = color * (size - 1.0) / size + 0.5 / size;
    return textureSampleLevel(table, bilinear, scaled, 0.0).rgb;
}

@fragment
fn post(in: Screen) -> @location(0) vec4f {
    let scene = textureSample(hdr, bilinear, in.uv).rgb;
    let glow = textureSample(bloom, bilinear, in.uv).rgb;
    let exposed = mix(scene, glow, settings.bloom) * exp2(settings.exposure);
    var color: vec3f;
    switch settings.curve {
        case 0u: {
            color = reinhard(exposed);
        }
        case 1u, 2u: {
            color = aces(exposed);
        }
        default: {
            color = filmic(exposed);
        }
    }
    let centered = in.uv - vec2f(0.5);
    let shade = 1.0 - settings.vignette * dot(centered, centered);
    let noise = hash(in.position.xy + fract(settings.time) * 61.0) - 0.5;
    color = graded(saturate(color * shade + noise * settings.grain));
    let dithered = to_srgb(color) + (hash(in.position.yx) - 0.5) / 255.0;
    return vec4f(dithered, 1.0);
}
