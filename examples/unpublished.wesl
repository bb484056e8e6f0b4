import package::lighting::lights::Surface;

fn brightness(surface: Surface) -> f32 {
    return dot(surface.albedo, vec3f(0.2126, 0.7152, 0.0722));
}
