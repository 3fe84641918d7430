//! "The listing program reads the card from pool.card and reads from standard
//! input".

use std::io::{Read, Write};

fn main() {
    // A pool.card that cannot be read counts as missing.
    let pool_card = std::fs::read("pool.card").ok();
    let mut standard_input = Vec::new();
    std::io::stdin()
        .read_to_end(&mut standard_input)
        .expect("standard input can be read");
    let text = second::listing(pool_card.as_deref(), &standard_input);
    std::io::stdout()
        .write_all(text.as_bytes())
        .expect("standard output can be written");
}
