// What the whole library is tuned by.
const frame_rate = 60;
const levels: u32 = 256;
const one = 4096;
