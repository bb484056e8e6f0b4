import super::super::other::two;
fn main() -> u32 { return two; }
