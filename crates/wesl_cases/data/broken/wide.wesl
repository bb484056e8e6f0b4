// Grüße: columns count characters.
fn main() -> u32 { /* … */ let äö = 1; return äö + ; }
