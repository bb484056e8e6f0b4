import super::sizes::tile;

fn tiles(size: u32) -> u32 {
    return (size + tile - 1) / tile;
}
