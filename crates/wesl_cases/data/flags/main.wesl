@if(fast) fn main() -> u32 {
    return 1;
}
@else fn main() -> u32 {
    return 2;
}
