// Plain WGSL: it imports nothing.
fn pcg(seed: u32) -> u32 {
    let state = seed * 747796405u + 2891336453u;
    let word = ((state >> ((state >> 28u) + 4u)) ^ state) * 277803737u;
    return (word >> 22u) ^ word;
}

fn hash2(p: vec2i) -> f32 {
    let h = pcg(u32(p.x) ^ pcg(u32(p.y)));
    return f32(h) / 4294967295.0;
}
