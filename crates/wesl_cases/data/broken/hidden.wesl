fn main() -> u32 {
    /* ‮ nothing [31m */ return (1 + ;
}
