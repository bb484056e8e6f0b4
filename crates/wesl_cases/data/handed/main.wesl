import package::limits::limited;

override scale: u32;
@group(0) @binding(0) var<storage, read_write> sums: array<u32, 3>;

// Adds the place of an invocation, scaled.
@compute @workgroup_size(1)
fn add(@builtin(global_invocation_id) id: vec3u) {
    for (var i = 0; i < 3; i++) {
        sums[i] = limited(sums[i] + id[i] * scale);
    }
}

@fragment
fn shade(@location(0) level: u32, @builtin(front_facing) is_front: bool) -> @location(0) u32 {
    if is_front {
        return level;
    }
    return level / 2;
}

@const fn power(x: u32, n: u32) -> u32 {
    var y = 1u;
    for (var i = 0u; i < n; i++) {
        y *= x;
    }
    return y;
}

@if(wide) @const fn size() -> i32 { return 64; }
@else @const fn size() -> i32 { return 16; }

const squared = power(5, 2);
