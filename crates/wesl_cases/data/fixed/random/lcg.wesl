import package::random::constants::factor;
import package::random::constants::shift;

fn step(x: u32) -> u32 {
    return x % 65536 * factor + shift;
}
