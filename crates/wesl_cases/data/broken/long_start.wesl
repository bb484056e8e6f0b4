fn main() -> u32 { return ; ) // a comment that goes on and on, a comment that goes on and on, a comment that goes on and on, a comment that goes on and on, a comment that goes on and on, a comment that goes on and on, 
}
