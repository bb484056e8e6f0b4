// What the whole library is tuned by.
const max_lights: u32 = 16u;
const fog_density = 0.015;
const shadow_texel = 1.0 / 2048.0;
const shadow_bias = 0.002;
const octaves = 5u;
const_assert max_lights > 0u;
