//! Writes cases of the read check for the C programs in host/, and what these must print by the second implementation.
//!
//!   check-read-cases COUNT FOLDER
//!
//! FOLDER/cases: a case a line, F L R m lo hi dealt width weights read out, the last three in hex; '-' stands for NULL and '.' for
//! no bytes.
//! FOLDER/cases.expected: the number returned, and the out buffer after the call in hex, '-' if it has no bytes.
//! FOLDER/card, reads and reads.expected: a pool card, a read a line, and what the C host prints for each.

#[path = "../../tests/differential/mod.rs"]
mod differential;

use differential::cards;
use differential::check_read::Case;
use differential::random::Random;
use differential::reads;
use second::read_check;
use std::env;
use std::fs;
use std::io::Error;
use std::path::Path;

fn hex(bytes: &[u8]) -> String {
    bytes.iter().map(|byte| format!("{byte:02X}")).collect()
}

fn hex_or(bytes: &[u8], none: &str) -> String {
    if bytes.is_empty() {
        return String::from(none);
    }
    hex(bytes)
}

/// The same cases as those of the differential test.
fn write_cases(count: u64, folder: &Path) -> Result<(), Error> {
    let mut cases = String::new();
    let mut expected = String::new();
    for number in 0..count {
        let mut random = Random::of_case("check_read", number);
        let case = Case::any(&mut random);
        let n = &case.numbers;
        cases += &format!("{} {} {} {} {} {}", n.f, n.l, n.r, n.m, n.lo, n.hi);
        cases += &format!(" {} {}", n.dealt, n.width);
        for bytes in [&n.weights, &case.read.letters, &case.out] {
            let none = random.one_of(&["-", "."]);
            cases += &format!(" {}", hex_or(bytes, none));
        }
        cases += "\n";
        let (answer, out) = case.expected();
        expected += &format!("{answer} {}\n", hex_or(&out, "-"));
    }
    fs::write(folder.join("cases"), cases)?;
    fs::write(folder.join("cases.expected"), expected)
}

/// Reads under one card, which has a fourth field. A read that has a newline in it cannot stand on a line.
fn write_reads(count: u64, folder: &Path) -> Result<(), Error> {
    let mut random = Random::of_case("reads under one card", 0);
    let mut numbers = cards::accepted(&mut random, 64, cards::K_MOST, cards::D_MOST);
    (numbers.m, numbers.lo, numbers.hi) = (6, 440, 560);
    (numbers.dealt, numbers.width) = (1, 1_000);
    let mut lines = Vec::new();
    let mut expected = String::new();
    for _ in 0..count {
        let read = reads::any_read(&mut random, &mut numbers.clone()).letters;
        if read.contains(&b'\n') {
            continue;
        }
        match read_check(&numbers.handed(), &read) {
            Ok(droplet) => {
                let payload = &droplet.payload[..usize::from(numbers.l)];
                expected += &format!("0 {:08X} {}\n", droplet.seed, hex(payload));
            }
            Err(refusal) => expected += &format!("{}\n", refusal.0),
        }
        lines.extend(read);
        lines.push(b'\n');
    }
    fs::write(folder.join("card"), numbers.card())?;
    fs::write(folder.join("reads"), lines)?;
    fs::write(folder.join("reads.expected"), expected)
}

fn main() -> Result<(), Error> {
    let words: Vec<String> = env::args().collect();
    let [_, count, folder] = &words[..] else {
        panic!("usage: check-read-cases COUNT FOLDER");
    };
    let count = count.parse().expect("COUNT is a number");
    write_cases(count, Path::new(folder))?;
    write_reads(count, Path::new(folder))
}
