import package::values::ring;
fn main() -> u32 { return ring; }
