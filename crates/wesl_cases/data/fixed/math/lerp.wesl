import package::math::scale::scaled;

fn lerp(a: u32, b: u32, t: u32) -> u32 {
    return a + scaled(b, t) - scaled(a, t);
}
