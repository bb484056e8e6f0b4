import package::config::one;

fn scaled(x: u32, t: u32) -> u32 {
    return x * t / one;
}
