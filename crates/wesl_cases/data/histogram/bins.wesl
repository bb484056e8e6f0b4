// Values below `width` go to the first bin, and so on; all that are too large go to the last.
const bins = 4u;
override width = 10u;

fn bin_of(value: u32) -> u32 {
    let bin = value / width;
    if bin < bins {
        return bin;
    }
    return bins - 1;
}
