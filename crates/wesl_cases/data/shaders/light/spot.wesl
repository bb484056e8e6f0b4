import super::types::Light;
import super::point;

fn radiance(light: Light, position: vec3f) -> vec3f {
    let towards = normalize(position - light.position);
    let cosine = dot(towards, light.direction);
    let cone = smoothstep(light.cone.y, light.cone.x, cosine);
    return point::radiance(light, position) * cone;
}
