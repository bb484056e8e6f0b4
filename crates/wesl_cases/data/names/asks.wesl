import package::member::power_of;
import package::light::Light;

fn main() -> u32 {
    return 1;
}

fn other(light: Light) -> f32 {
    return power_of(light);
}
