import package::color::channels::red;
import package::color::channels::green;
import package::color::pack::packed;

fn shade(level: u32) -> u32 {
    return packed(red(level), green(level), 255 - level);
}
