import super::attenuation::attenuation;
import super::types::Light;

fn radiance(light: Light, position: vec3f) -> vec3f {
    let d = distance(light.position, position);
    return light.color * light.intensity * attenuation(d, light.range);
}
