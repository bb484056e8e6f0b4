// Particles: emission by an atomic counter, integration in a noise field, and billboards.
struct Particle {
    position: vec3f,
    life: f32,
    velocity: vec3f,
    size: f32,
    color: vec4f,
}

struct Emitter {
    origin: vec3f,
    spread: f32,
    gravity: vec3f,
    drag: f32,
    delta: f32,
    seed: u32,
    rate: u32,
    maximum: u32,
}

struct Counters {
    alive: atomic<u32>,
    dead: atomic<u32>,
    emitted: atomic<u32>,
}

struct View {
    projection: mat4x4f,
    right: vec3f,
    up: vec3f,
}

@group(0) @binding(0) var<storage, read_write> particles: array<Particle>;
@group(0) @binding(1) var<storage, read_write> free_list: array<u32>;
@group(0) @binding(2) var<storage, read_write> counters: Counters;
@group(0) @binding(3) var<uniform> emitter: Emitter;
@group(1) @binding(0) var<uniform> view: View;
@group(1) @binding(1) var<storage, read> drawn: array<Particle>;

var<private> state: u32;

fn pcg() -> u32 {
    let previous = state;
    state = state * 747796405u + 2891336453u;
    let word = ((previous >> ((previous >> 28u) + 4u)) ^ previous) * 277803737u;
    return (word >> 22u) ^ word;
}

fn random() -> f32 {
    return f32(pcg()) / 4294967295.0;
}

fn random_direction() -> vec3f {
    let angle = random() * 6.2831853;
    let height = random() * 2.0 - 1.0;
    let width = sqrt(1.0 - height * height);
    return vec3f(cos(angle) * width, sin(angle) * width, height);
}

fn curl(p: vec3f) -> vec3f {
    let a = sin(p.yzx * 1.7 + p.zxy);
    let b = cos(p.zxy * 2.3 - p.xyz);
    return cross(a, b);
}

@compute @workgroup_size(64)
fn emit(@builtin(global_invocation_id) id: vec3u) {
    if (id.x >= emitter.rate) {
        return;
    }
    state = emitter.seed ^ (id.x * 1973u);
    let available = atomicLoad(&counters.dead);
    let slot = atomicAdd(&counters.emitted, 1u);
    if (slot >= available || slot >= arrayLength(&free_list)) {
        return;
    }
    let index = free_list[slot];
    let direction = random_direction();
    particles[index] = Particle(emitter.origin, 1.0 + random(), direction * emitter.spread, mix(0.02, 0.1, random()), vec4f(1.0));
    atomicSub(&counters.dead, 1u);
}

fn integrate(particle: ptr<function, Particle>, dt: f32) {
    let force = emitter.gravity + curl((*particle).position) - (*particle).velocity * emitter.drag;
    (*particle).velocity += force * dt;
    (*particle).position += (*particle).velocity * dt;
    (*particle).life -= dt;
    (*particle).color.a = smoothstep(0.0, 0.3, (*particle).life);
}

@compute @workgroup_size(64)
fn simulate(@builtin(global_invocation_id) id: vec3u) {
    let index = id.x;
    if (index >= emitter.maximum) { return; }
    var particle = particles[index];
    if (particle.life <= 0.0) { return; }
    integrate(&particle, emitter.delta);
    if (particle.life <= 0.0) {
        let slot = atomicAdd(&counters.dead, 1u);
        free_list[slot] = index;
    } else {
        _ = atomicAdd(&counters.alive, 1u);
    }
    particles[index] = particle;
}

struct Varyings {
    @builtin(position) position: vec4f,
    @location(0) corner: vec2f,
    @location(1) color: vec4f,
}

@vertex
fn billboard(@builtin(vertex_index) vertex: u32, @builtin(instance_index) instance: u32) -> Varyings {
    var corners = array<vec2f, 4>(vec2f(-1, -1), vec2f(1, -1), vec2f(-1, 1), vec2f(1, 1));
    let corner = corners[vertex];
    let particle = drawn[instance];
    let world = particle.position + (view.right * corner.x + view.up * corner.y) * particle.size;
    return Varyings(view.projection * vec4f(world, 1), corner, particle.color);
}

@fragment
fn glow(in: Varyings) -> @location(0) vec4f {
    let falloff = max(1.0 - length(in.corner), 0.0);
    return vec4f(in.color.rgb * falloff, in.color.a * falloff);
}
