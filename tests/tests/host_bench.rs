//! What the C hosts must print for the bench reads (`host/bench.expected`) and for pairs of calls (`host/bench.pairs.expected`), by this
//! implementation's read check and its choice between two base callers.

use second::{call_letters, read_check};
use std::fs;
use std::path::PathBuf;

fn host(name: &str) -> Vec<u8> {
    let path = PathBuf::from(env!("CARGO_MANIFEST_DIR"))
        .join("../host")
        .join(name);
    fs::read(&path).unwrap_or_else(|e| panic!("{}: {e}", path.display()))
}

#[test]
fn expected_output_of_the_host() {
    let card = host("bench.card");
    let accepted = second::read_card(&card).expect("the bench card is accepted");
    let handed = accepted.handed(&card);
    let reads = host("bench.reads");
    let mut printed = String::new();
    for line in second::listing::lines(&reads) {
        match read_check(&handed, line) {
            Ok(droplet) => {
                printed += &format!("0 {:08X} ", droplet.seed);
                for byte in &droplet.payload[..usize::from(accepted.l)] {
                    printed += &format!("{byte:02X}");
                }
                printed += "\n";
            }
            Err(refusal) => printed += &format!("{}\n", refusal.0),
        }
    }
    assert_eq!(printed, String::from_utf8(host("bench.expected")).unwrap());
}

#[test]
fn expected_letters_of_pairs() {
    let card = host("bench.card");
    let accepted = second::read_card(&card).expect("the bench card is accepted");
    let handed = accepted.handed(&card);
    let calls = host("bench.calls");
    let mut printed = Vec::new();
    for pair in second::listing::lines(&calls).chunks(2) {
        printed.extend_from_slice(call_letters(&handed, pair[0], pair[1]));
        printed.push(b'\n');
    }
    assert!(
        printed == host("bench.pairs.expected"),
        "{}",
        String::from_utf8_lossy(&printed)
    );
}
