import package::m::two;

fn g() -> u32 {
    return two + 1;
}
