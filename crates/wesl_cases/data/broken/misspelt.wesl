import package::values::tow;
fn main() -> u32 { return tow; }
