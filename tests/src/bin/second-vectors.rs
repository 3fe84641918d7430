//! Prints what the Rattle program `vectors` must print, from this implementation.

fn main() {
    print!("{}", second::vectors::vectors());
}
