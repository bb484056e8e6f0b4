import package::m::scale;

@const fn area(width: u32, height: u32) -> u32 {
    return width * height * scale * scale;
}
