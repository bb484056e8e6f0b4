import package::long::two;
fn main() -> u32 { return two; }
