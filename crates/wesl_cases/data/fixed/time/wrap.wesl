import package::time::day::day;

fn wrapped(time: u32) -> u32 {
    return time % day;
}
