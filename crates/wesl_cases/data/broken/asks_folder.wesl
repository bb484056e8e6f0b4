import package::folder::two;
fn main() -> u32 { return two; }
