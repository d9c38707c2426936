//! The program: the library harness linked with libzagvulem.a.

fn main() {
    harness::main()
}
