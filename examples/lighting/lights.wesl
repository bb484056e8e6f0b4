@publish import super::falloff::smooth_falloff as falloff;
import super::surface::Surface;

struct Light {
    position: vec3f,
    color: vec3f,
    range: f32,
}

const_assert ambient >= 0.0;
const ambient = 0.04;

fn shade(surface: Surface, light: vec3f, view: vec3f) -> vec3f {
    let diffuse = max(dot(surface.normal, light), 0.0);
    let halfway = normalize(light + view);
    let specular = pow(max(dot(surface.normal, halfway), 0.0), 32.0) * surface.gloss;
    return surface.albedo * (ambient + diffuse) + specular;
}
