import package::random::hash::hashed;
import package::config::levels;

fn corner(x: u32, time: u32) -> u32 {
    return hashed(x + time * 57) % levels;
}
