// A scene of distance functions, marched by rays, with soft shadows, ambient occlusion and reflections.
const max_steps = 96;
const far_plane = 60.0;
const epsilon = 0.0005;

struct Uniforms {
    resolution: vec2f,
    mouse: vec2f,
    time: f32,
    frame: u32,
}

struct Hit {
    distance: f32,
    material: i32,
}

struct Ray {
    origin: vec3f,
    direction: vec3f,
}

@group(0) @binding(0) var<uniform> uniforms: Uniforms;
@group(0) @binding(1) var output: texture_storage_2d<rgba16float, write>;

fn sphere(p: vec3f, radius: f32) -> f32 {
    return length(p) - radius;
}

fn box(p: vec3f, half_size: vec3f) -> f32 {
    let q = abs(p) - half_size;
    return length(max(q, vec3f(0.0))) + min(max(q.x, max(q.y, q.z)), 0.0);
}

fn torus(p: vec3f, radii: vec2f) -> f32 {
    let q = vec2f(length(p.xz) - radii.x, p.y);
    return length(q) - radii.y;
}

fn smooth_union(a: f32, b: f32, k: f32) -> f32 {
    let h = clamp(0.5 + 0.5 * (b - a) / k, 0.0, 1.0);
    return mix(b, a, h) - k * h * (1.0 - h);
}

fn rotation(angle: f32) -> mat2x2f {
    let c = cos(angle);
    let s = sin(angle);
    return mat2x2f(c, s, -s, c);
}

fn closer(a: Hit, b: Hit) -> Hit {
    if (a.distance < b.distance) {
        return a;
    }
    return b;
}

fn scene(point: vec3f) -> Hit {
    var turned = point - vec3f(0.0, 1.0, 0.0);
    let flat_turned = rotation(uniforms.time) * turned.xz;
    turned = vec3f(flat_turned.x, turned.y, flat_turned.y);
    let blob = smooth_union(sphere(turned, 0.8), box(turned - vec3f(0.6, 0.2, 0.0), vec3f(0.4)), 0.3);
    var nearest = Hit(point.y, 0);
    nearest = closer(nearest, Hit(blob, 1));
    nearest = closer(nearest, Hit(torus(point - vec3f(0.0, 1.0, 0.0), vec2f(1.6, 0.12)), 2));
    return nearest;
}

fn normal_of(point: vec3f) -> vec3f {
    let e = vec2f(1.0, -1.0) * epsilon;
    return normalize(e.xyy * scene(point + e.xyy).distance + e.yyx * scene(point + e.yyx).distance + e.yxy * scene(point + e.yxy).distance + e.xxx * scene(point + e.xxx).distance);
}

fn march(ray: Ray) -> Hit {
    var travelled = 0.0;
    for (var i = 0; i < max_steps; i++) {
        let hit = scene(ray.origin + ray.direction * travelled);
        if (hit.distance < epsilon * travelled) {
            return Hit(travelled, hit.material);
        }
        travelled += hit.distance;
        if (travelled > far_plane) { break; }
    }
    return Hit(-1.0, -1);
}

fn soft_shadow(origin: vec3f, light: vec3f, sharpness: f32) -> f32 {
    var light_left = 1.0;
    var travelled = 0.02;
    while (travelled < 10.0) {
        let distance = scene(origin + light * travelled).distance;
        light_left = min(light_left, sharpness * distance / travelled);
        if (light_left < 0.001) {
            return 0.0;
        }
        travelled += clamp(distance, 0.01, 0.25);
    }
    return light_left;
}

fn occlusion(point: vec3f, normal: vec3f) -> f32 {
    var sum = 0.0;
    var scale = 1.0;
    for (var i = 0u; i < 5u; i++) {
        let height = 0.01 + 0.03 * f32(i);
        sum += (height - scene(point + normal * height).distance) * scale;
        scale *= 0.95;
    }
    return saturate(1.0 - 3.0 * sum);
}

fn albedo(material: i32, point: vec3f) -> vec3f {
    switch (material) {
        case 0: {
            let cell = floor(point.xz);
            return select(vec3f(0.2), vec3f(0.6), (i32(cell.x) + i32(cell.y)) % 2 == 0);
        }
        case 1: { return vec3f(0.8, 0.3, 0.2); }
        default: { return vec3f(0.2, 0.5, 0.8); }
    }
}

fn sky(direction: vec3f) -> vec3f {
    return mix(vec3f(0.7, 0.8, 0.9), vec3f(0.2, 0.4, 0.8), max(direction.y, 0.0));
}

fn shaded(ray: Ray, hit: Hit) -> vec3f {
    if (hit.material < 0) {
        return sky(ray.direction);
    }
    let point = ray.origin + ray.direction * hit.distance;
    let normal = normal_of(point);
    let light = normalize(vec3f(0.6, 0.7, -0.4));
    let halfway = normalize(light - ray.direction);
    let diffuse = max(dot(normal, light), 0.0) * soft_shadow(point + normal * 0.01, light, 12.0);
    let specular = pow(max(dot(normal, halfway), 0.0), 64.0) * diffuse;
    let ambient = 0.3 * occlusion(point, normal);
    return albedo(hit.material, point) * (diffuse + ambient) + specular;
}

fn camera_ray(pixel: vec2f) -> Ray {
    let ndc = (2.0 * pixel - uniforms.resolution) / uniforms.resolution.y;
    let angles = uniforms.mouse * vec2f(6.28, 1.5);
    let eye = vec3f(5.0 * cos(angles.x), 2.0 + angles.y, 5.0 * sin(angles.x));
    let forward = normalize(vec3f(0.0, 0.8, 0.0) - eye);
    let right = normalize(cross(forward, vec3f(0.0, 1.0, 0.0)));
    let up = cross(right, forward);
    return Ray(eye, normalize(ndc.x * right + ndc.y * up + 1.8 * forward));
}

@compute @workgroup_size(8, 8, 1)
fn render(@builtin(global_invocation_id) id: vec3<u32>) {
    let ray = camera_ray(vec2f(id.xy) + 0.5);
    let hit = march(ray);
    var color = shaded(ray, hit);
    if (hit.material == 2) {
        let point = ray.origin + ray.direction * hit.distance;
        let mirrored = Ray(point, reflect(ray.direction, normal_of(point)));
        color = mix(color, shaded(mirrored, march(mirrored)), 0.4);
    }
    textureStore(output, vec2i(id.xy), vec4f(sqrt(color), 1.0));
}
