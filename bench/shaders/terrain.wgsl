// A terrain by noise: heights in a compute pass, normals by differences, and layered materials.
struct Region {
    origin: vec2f,
    scale: f32,
    amplitude: f32,
    octaves: i32,
    lacunarity: f32,
    gain: f32,
}

struct Layer {
    color: vec3f,
    start: f32,
    slope: f32,
}

@group(0) @binding(0) var<uniform> region: Region;
@group(0) @binding(1) var heights: texture_storage_2d<r32float, write>;
@group(0) @binding(2) var<uniform> layers: array<Layer, 4>;
@group(0) @binding(3) var height_map: texture_2d<f32>;
@group(0) @binding(4) var detail: texture_2d_array<f32>;
@group(0) @binding(5) var repeating: sampler;

fn permute(x: vec4f) -> vec4f {
    return ((x * 34.0 + 1.0) * x) % vec4f(289.0);
}

fn fade(t: vec2f) -> vec2f {
    return t * t * t * (t * (t * 6.0 - 15.0) + 10.0);
}

fn perlin(point: vec2f) -> f32 {
    var cell = floor(point.xyxy) + vec4f(0.0, 0.0, 1.0, 1.0);
    let inside = fract(point.xyxy) - vec4f(0.0, 0.0, 1.0, 1.0);
    cell = cell % vec4f(289.0);
    let ix = cell.xzxz;
    let iy = cell.yyww;
    let fx = inside.xzxz;
    let fy = inside.yyww;
    let hashed = permute(permute(ix) + iy);
    var gx = 2.0 * fract(hashed * 0.0243902439) - 1.0;
    let gy = abs(gx) - 0.5;
    gx = gx - floor(gx + 0.5);
    let norm = inverseSqrt(gx * gx + gy * gy);
    let corners = (gx * fx + gy * fy) * norm;
    let eased = fade(inside.xy);
    let along = mix(corners.xz, corners.yw, eased.xx);
    return 2.3 * mix(along.x, along.y, eased.y);
}

fn fbm(point: vec2f) -> f32 {
    var sum = 0.0;
    var amplitude = 1.0;
    var position = point;
    var octave = 0;
    loop {
        if (octave >= region.octaves) {
            break;
        }
        sum += amplitude * perlin(position);
        amplitude *= region.gain;
        position *= region.lacunarity;
        continuing {
            octave++;
        }
    }
    return sum;
}

fn ridged(point: vec2f) -> f32 {
    return 1.0 - abs(fbm(point));
}

@compute @workgroup_size(8, 8)
fn generate(@builtin(global_invocation_id) id: vec3u) {
    let size = textureDimensions(heights);
    if (any(id.xy >= size)) {
        return;
    }
    let uv = vec2f(id.xy) / vec2f(size);
    let world = region.origin + uv * region.scale;
    let height = mix(fbm(world), ridged(world * 0.5), smoothstep(-0.2, 0.4, perlin(world * 0.1)));
    textureStore(heights, id.xy, vec4f(height * region.amplitude, 0.0, 0.0, 1.0));
}

fn normal_at(texel: vec2i) -> vec3f {
    let left = textureLoad(height_map, texel - vec2i(1, 0), 0).r;
    let right = textureLoad(height_map, texel + vec2i(1, 0), 0).r;
    let below = textureLoad(height_map, texel - vec2i(0, 1), 0).r;
    let above = textureLoad(height_map, texel + vec2i(0, 1), 0).r;
    return normalize(vec3f(left - right, 2.0, below - above));
}

@fragment
fn surface(@builtin(position) position: vec4f, @location(0) world: vec3f) -> @location(0) vec4f {
    let normal = normal_at(vec2i(position.xy));
    var color = layers[0].color;
    for (var i = 1; i < 4; i += 1) {
        let layer = layers[i];
        let height_weight = smoothstep(layer.start - 2.0, layer.start + 2.0, world.y);
        let slope_weight = 1.0 - smoothstep(layer.slope, layer.slope + 0.1, 1.0 - normal.y);
        let texel = textureSample(detail, repeating, world.xz * 0.25, i);
        color = mix(color, layer.color * texel.rgb, height_weight * slope_weight);
    }
    let shade = 0.25 + 0.75 * max(dot(normal, normalize(vec3f(0.4, 0.8, 0.3))), 0.0);
    return vec4f(color * shade, 1.0);
}
