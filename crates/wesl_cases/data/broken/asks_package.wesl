import noise::simplex::two;
fn main() -> u32 { return two; }
