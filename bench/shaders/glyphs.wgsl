// Text by distance fields, and shapes with rounded corners.
diagnostic(off, derivative_uniformity);

struct Canvas {
    size: vec2f,
    scale: f32,
    gamma: f32,
}

struct Glyph {
    @location(0) rectangle: vec4f,
    @location(1) atlas: vec4f,
    @location(2) color: vec4f,
    @location(3) flags: u32,
}

struct Interpolated {
    @builtin(position) position: vec4f,
    @location(0) uv: vec2f,
    @location(1) color: vec4f,
    @location(2) local: vec2f,
    @location(3) @interpolate(flat, either) flags: u32,
    @location(4) half_size: vec2f,
}

@group(0) @binding(0) var<uniform> canvas: Canvas;
@group(0) @binding(1) var atlas: texture_2d<f32>;
@group(0) @binding(2) var smoothing: sampler;

const rounded_flag: u32 = 1u << 0u;
const outline_flag: u32 = 1u << 1u;

@vertex
fn place(glyph: Glyph, @builtin(vertex_index) index: u32) -> Interpolated {
    let corner = vec2f(f32(index & 1u), f32(index >> 1u));
    let pixel = (glyph.rectangle.xy + glyph.rectangle.zw * corner) * canvas.scale;
    let ndc = pixel / canvas.size * vec2f(2.0, -2.0) + vec2f(-1.0, 1.0);
    var out: Interpolated;
    out.position = vec4f(ndc, 0.0, 1.0);
    out.uv = mix(glyph.atlas.xy, glyph.atlas.zw, corner);
    out.color = glyph.color;
    out.flags = glyph.flags;
    out.half_size = glyph.rectangle.zw * 0.5;
    out.local = (corner - 0.5) * glyph.rectangle.zw;
    return out;
}

fn median(r: f32, g: f32, b: f32) -> f32 {
    return max(min(r, g), min(max(r, g), b));
}

fn rounded_box(point: vec2f, half_size: vec2f, radius: f32) -> f32 {
    let q = abs(point) - half_size + radius;
    return min(max(q.x, q.y), 0.0) + length(max(q, vec2f())) - radius;
}

fn coverage(distance: f32) -> f32 {
    let width = fwidth(distance);
    return 1.0 - smoothstep(-width, width, distance);
}

@fragment
fn ink(in: Interpolated) -> @location(0) vec4f {
    let texel = textureSample(atlas, smoothing, in.uv);
    let distance = 0.5 - median(texel.r, texel.g, texel.b);
    var alpha = coverage(distance);
    if ((in.flags & rounded_flag) != 0u) {
        alpha = coverage(rounded_box(in.local, in.half_size, 6.0));
    }
    if ((in.flags & outline_flag) != 0u) {
        let edge = abs(distance) - dpdx(in.uv.x) - dpdy(in.uv.y);
        alpha = max(alpha, coverage(edge));
    }
    let corrected = pow(alpha, 1.0 / canvas.gamma);
    let parts = modf(corrected * 255.0);
    return vec4f(in.color.rgb, in.color.a * (parts.whole + parts.fract) / 255.0);
}
