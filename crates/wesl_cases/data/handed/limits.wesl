const limit = 100;

fn limited(x: u32) -> u32 {
    if x > limit {
        return limit;
    }
    return x;
}
