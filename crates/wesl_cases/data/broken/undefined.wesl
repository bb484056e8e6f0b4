import package::values::two;
@fragment fn main() { _ = two + missing; }
