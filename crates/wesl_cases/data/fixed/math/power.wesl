fn square(x: u32) -> u32 {
    return x * x;
}

fn cube(x: u32) -> u32 {
    return square(x) * x;
}
