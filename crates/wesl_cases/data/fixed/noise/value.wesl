import package::noise::lattice::corner;
import package::noise::fade::faded;
import package::math::lerp::lerp;

// The noise at a pixel, at a time.
fn at(pixel: u32, time: u32) -> u32 {
    return lerp(corner(pixel / 16, time), corner(pixel / 16 + 1, time), faded(pixel % 16));
}
