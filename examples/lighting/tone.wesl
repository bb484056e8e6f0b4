@if(fast) fn mapped(color: vec3f) -> vec3f {
    return color / (color + 1.0);
}
@else fn mapped(color: vec3f) -> vec3f {
    return curve(color * 0.6);
}

fn curve(x: vec3f) -> vec3f {
    return clamp((x * (2.51 * x + 0.03)) / (x * (2.43 * x + 0.59) + 0.14), vec3f(), vec3f(1.0));
}
