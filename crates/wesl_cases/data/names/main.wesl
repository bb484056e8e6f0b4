import package::light::{Light, shade};

fn main(light: Light) -> f32 {
    return shade(light, 1.0);
}
