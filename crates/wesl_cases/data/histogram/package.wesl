import package::bins::{bin_of, bins};
import package::sums::prefix_sum;

@group(0) @binding(0) var<storage, read> values: array<u32>;
@group(0) @binding(1) var<storage, read_write> counts: array<u32, bins>;
@group(0) @binding(2) var<storage, read_write> starts: array<u32, bins>;

// Counts the values of each bin, and says where each bin begins in a sorted list.
@compute @workgroup_size(1)
fn main() {
    for (var i = 0u; i < 8u; i++) {
        counts[bin_of(values[i])]++;
    }
    prefix_sum(&counts, &starts);
}
