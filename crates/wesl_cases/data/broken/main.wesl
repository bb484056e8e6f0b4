import package::gone::two;
fn main() -> u32 { return two; }
