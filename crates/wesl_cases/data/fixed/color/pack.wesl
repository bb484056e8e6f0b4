import package::color::order::first;
import package::color::order::second;

fn packed(r: u32, g: u32, b: u32) -> u32 {
    return r * first + g * second + b;
}
