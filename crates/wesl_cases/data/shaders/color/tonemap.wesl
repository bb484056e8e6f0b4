import super::luminance::luminance;

@if(aces) fn mapped(color: vec3f) -> vec3f {
    let a = color * (2.51 * color + 0.03);
    let b = color * (2.43 * color + 0.59) + 0.14;
    return saturate(a / b);
}
@elif(reinhard) fn mapped(color: vec3f) -> vec3f {
    let l = luminance(color);
    return color / (1.0 + l);
}
@else fn mapped(color: vec3f) -> vec3f {
    return saturate(color);
}
