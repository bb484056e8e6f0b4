const unit = normalize(vec3f(1.0, 0.0, 0.0));
const half = f16(0.5h);

fn main() -> vec3f {
    return unit * f32(half);
}
