import package::bytes::two;
fn main() -> u32 { return two; }
