import package::random::lcg::step;
import package::random::seed::seed;

fn hashed(x: u32) -> u32 {
    return step(step(x + seed));
}
