// A radix sort of keys with values: counting, a scan, and scattering.
const bits = 4u;
const buckets = 1u << bits;
const threads = 256u;

struct Pass {
    shift: u32,
    count: u32,
    blocks: u32,
}

struct Pair {
    key: u32,
    value: u32,
}

@group(0) @binding(0) var<uniform> current: Pass;
@group(0) @binding(1) var<storage, read> source: array<Pair>;
@group(0) @binding(2) var<storage, read_write> destination: array<Pair>;
@group(0) @binding(3) var<storage, read_write> histogram: array<atomic<u32>>;
@group(0) @binding(4) var<storage, read_write> offsets: array<u32>;

var<workgroup> local_counts: array<atomic<u32>, buckets>;
var<workgroup> scan: array<vec2u, threads>;

fn digit(key: u32) -> u32 {
    return extractBits(key, current.shift, bits);
}

fn sortable(value: f32) -> u32 {
    let raw = bitcast<u32>(value);
    let mask = bitcast<u32>(bitcast<i32>(raw) >> 31u) | 0x80000000u;
    return raw ^ mask;
}

@compute @workgroup_size(threads)
fn count(@builtin(global_invocation_id) global: vec3u, @builtin(local_invocation_index) local: u32, @builtin(workgroup_id) block: vec3u) {
    if (local < buckets) {
        atomicStore(&local_counts[local], 0u);
    }
    workgroupBarrier();
    if (global.x < current.count) {
        atomicAdd(&local_counts[digit(source[global.x].key)], 1u);
    }
    workgroupBarrier();
    if (local < buckets) {
        let sum = atomicLoad(&local_counts[local]);
        atomicStore(&histogram[local * current.blocks + block.x], sum);
    }
}

@compute @workgroup_size(threads)
fn prefix(@builtin(local_invocation_index) local: u32) {
    let total = buckets * current.blocks;
    var carried = 0u;
    for (var start = 0u; start < total; start += threads) {
        let at = start + local;
        var value = 0u;
        if (at < total) {
            value = atomicLoad(&histogram[at]);
        }
        scan[local] = vec2u(value, 0u);
        workgroupBarrier();
        for (var reach = 1u; reach < threads; reach *= 2u) {
            var sum = scan[local].x;
            if (local >= reach) {
                sum += scan[local - reach].x;
            }
            workgroupBarrier();
            scan[local].x = sum;
            workgroupBarrier();
        }
        if (at < total) {
            offsets[at] = carried + scan[local].x - value;
        }
        carried += scan[threads - 1u].x;
        workgroupBarrier();
    }
}

@compute @workgroup_size(1)
fn scatter(@builtin(workgroup_id) block: vec3u) {
    var next: array<u32, buckets>;
    for (var bucket = 0u; bucket < buckets; bucket++) {
        next[bucket] = offsets[bucket * current.blocks + block.x];
    }
    let first = block.x * threads;
    let last = min(first + threads, current.count);
    for (var at = first; at < last; at++) {
        let pair = source[at];
        let bucket = digit(pair.key);
        destination[next[bucket]] = pair;
        next[bucket]++;
    }
}

@compute @workgroup_size(threads)
fn convert(@builtin(global_invocation_id) id: vec3u) {
    let at = id.x;
    if (at < arrayLength(&destination)) {
        let exchanged = atomicCompareExchangeWeak(&histogram[0], 0u, at);
        if (exchanged.exchanged && exchanged.old_value == 0u) {
            destination[at].key = sortable(f32(source[at].key));
        }
        destination[at].value = countOneBits(source[at].value) + firstLeadingBit(at);
    }
}
