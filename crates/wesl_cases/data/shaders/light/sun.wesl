import super::types::Light;

fn radiance(light: Light) -> vec3f {
    return light.color * light.intensity;
}
