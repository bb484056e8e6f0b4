import super::super::super::values::two;
fn main() -> u32 { return two; }
