import package::inside::two;
fn main() -> u32 { return two; }
