import package::bins::bins;

// The sums of all that stand before each place.
fn prefix_sum(counted: ptr<storage, array<u32, bins>, read_write>, sums: ptr<storage, array<u32, bins>, read_write>) {
    var sum = 0u;
    for (var i = 0u; i < bins; i++) {
        (*sums)[i] = sum;
        sum += (*counted)[i];
    }
}
