import package::light::Light;

fn power_of(light: Light) -> f32 {
    return light.position.x + light.powr;
}
