import package::outside::two;
fn main() -> u32 { return two; }
