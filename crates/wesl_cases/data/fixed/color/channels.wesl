import package::math::power::square;
import package::config::levels;

fn red(level: u32) -> u32 {
    return square(level) / levels;
}

fn green(level: u32) -> u32 {
    return level * 3 / 4;
}
