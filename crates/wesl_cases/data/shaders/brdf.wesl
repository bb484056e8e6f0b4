// The module of the folder `brdf`: what of it the rest of the library asks for.
import package::brdf::{ggx, lambert::diffuse};
@publish import package::brdf::fresnel::reflectance;

struct Surface {
    albedo: vec3f,
    normal: vec3f,
    roughness: f32,
    metallic: f32,
}

fn shade(surface: Surface, view: vec3f, light: vec3f) -> vec3f {
    let halfway = normalize(view + light);
    let n_dot_l = saturate(dot(surface.normal, light));
    let n_dot_v = max(dot(surface.normal, view), 0.0001);
    let n_dot_h = saturate(dot(surface.normal, halfway));
    let f0 = mix(vec3f(0.04), surface.albedo, surface.metallic);
    let f = package::brdf::fresnel::schlick(f0, saturate(dot(view, halfway)));
    let specular = ggx::distribution(n_dot_h, surface.roughness) * ggx::visibility(n_dot_v, n_dot_l, surface.roughness);
    return (diffuse(surface.albedo, f, surface.metallic) + f * specular) * n_dot_l;
}
