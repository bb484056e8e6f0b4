// Plain WGSL: it imports nothing.
const factor = 25173;
const shift = 13849;
