import noise::simplex::two;

fn main() -> u32 {
    return 1;
}

fn other() -> u32 {
    return two;
}
