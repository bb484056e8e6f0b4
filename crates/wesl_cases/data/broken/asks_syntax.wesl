import package::syntax::main as other;
fn main() -> u32 { return other(); }
