import package::noise::hash::hash2;

fn value(p: vec2f) -> f32 {
    let i = vec2i(floor(p));
    let f = fract(p);
    let u = f * f * (3.0 - 2.0 * f);
    let low = mix(hash2(i), hash2(i + vec2i(1, 0)), u.x);
    let high = mix(hash2(i + vec2i(0, 1)), hash2(i + vec2i(1, 1)), u.x);
    return mix(low, high, u.y);
}
