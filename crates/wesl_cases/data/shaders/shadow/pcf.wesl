import package::bindings::frame::frame;
import package::config::shadow_texel;
import super::map::depth_test;

const radius = 1;

fn shadowed(position: vec3f, normal: vec3f) -> f32 {
    let offset = position + normal * shadow_texel;
    let clip = frame.light_projection * vec4f(offset, 1.0);
    let place = clip.xyz / clip.w;
    let uv = place.xy * vec2f(0.5, -0.5) + 0.5;
    @if(soft_shadows) {
        var sum = 0.0;
        for (var x = -radius; x <= radius; x++) {
            for (var y = -radius; y <= radius; y++) {
                sum += depth_test(uv + vec2f(f32(x), f32(y)) * shadow_texel, place.z);
            }
        }
        return sum / 9.0;
    }
    return depth_test(uv, place.z);
}
