import package::light::shade;

fn main() -> f32 {
    return shad();
}
