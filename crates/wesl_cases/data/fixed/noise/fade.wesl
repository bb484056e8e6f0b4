import package::math::power::cube;
import package::config::one;

// How far between two corners, in parts of `one`.
fn faded(x: u32) -> u32 {
    return cube(x) * one / 4096;
}
