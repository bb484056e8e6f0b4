// A shader of whole numbers: colours by a noise that moves with time.
import package::noise::value::at;
import package::color::palette::shade;
import package::time::clock::seconds;
import package::unused::lost;

@fragment
fn main(@location(0) pixel: u32, @location(1) frame: u32) -> @location(0) u32 {
    return shade(at(pixel, seconds(frame)));
}

fn preview(pixel: u32) -> u32 {
    return at(pixel, 0);
}
