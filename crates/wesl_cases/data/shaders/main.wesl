// A forward renderer: one pass over meshes, with lights, shadows and fog.
import package::bindings::frame::{frame, Frame};
import package::bindings::material::{base_color, surface_normal, material};
import package::brdf::{Surface, shade};
import package::color::{srgb::to_srgb, tonemap};
import package::light::{point, spot, sun, types::Light};
import package::shadow::pcf::shadowed;
import package::config::{max_lights, fog_density};
import package::noise::fbm::fbm;

struct VertexInput {
    @location(0) position: vec3f,
    @location(1) normal: vec3f,
    @location(2) tangent: vec4f,
    @location(3) uv: vec2f,
}

struct VertexOutput {
    @builtin(position) clip: vec4f,
    @location(0) position: vec3f,
    @location(1) normal: vec3f,
    @location(2) tangent: vec4f,
    @location(3) uv: vec2f,
}

@group(2) @binding(0) var<uniform> model: mat4x4f;

@vertex
fn vertex(input: VertexInput) -> VertexOutput {
    let world = model * vec4f(input.position, 1.0);
    var output: VertexOutput;
    output.clip = frame.view_projection * world;
    output.position = world.xyz;
    output.normal = (model * vec4f(input.normal, 0.0)).xyz;
    output.tangent = vec4f((model * vec4f(input.tangent.xyz, 0.0)).xyz, input.tangent.w);
    output.uv = input.uv;
    return output;
}

fn light_from(light: Light, position: vec3f, surface: Surface) -> vec3f {
    switch light.kind {
        case 0u: {
            return sun::radiance(light) * shadowed(position, surface.normal);
        }
        case 1u: {
            return point::radiance(light, position);
        }
        default: {
            return spot::radiance(light, position);
        }
    }
}

fn fogged(color: vec3f, position: vec3f) -> vec3f {
    let depth = distance(position, frame.eye);
    let amount = 1.0 - exp(-fog_density * depth);
    return mix(color, frame.fog, amount);
}

@fragment
fn fragment(input: VertexOutput) -> @location(0) vec4f {
    let normal = surface_normal(input.normal, input.tangent, input.uv);
    var surface = Surface(base_color(input.uv), normal, material.roughness, material.metallic);
    @if(weathered) {
        surface.roughness = saturate(surface.roughness + 0.2 * fbm(input.position.xz));
    }
    let view = normalize(frame.eye - input.position);
    var color = vec3f();
    for (var i = 0u; i < min(frame.light_count, max_lights); i++) {
        let light = frame.lights[i];
        let towards = select(normalize(light.position - input.position), -light.direction, light.kind == 0u);
        color += shade(surface, view, towards) * light_from(light, input.position, surface);
    }
    @if(fog) {
        color = fogged(color, input.position);
    }
    return vec4f(to_srgb(tonemap::mapped(color * frame.exposure)), 1.0);
}
