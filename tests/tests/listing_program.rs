//! The listing program, run as a program.

use second::check_bytes_letters_screen::{letters_of_bytes, strand_bytes};
use std::io::Write;
use std::path::PathBuf;
use std::process::{Command, Stdio};

const P: [u8; 28] = [
    0x01, 0x00, 0x06, 0x00, 0x00, 0x00, 0x04, 0x01, 0x02, //
    0x02, 0x00, 0x05, 0x0F, 0x00, 0xD6, 0x03, 0xE8, //
    0x03, 0x00, 0x08, 0x00, 0x00, 0x00, 0x01, 0x00, 0x00, 0x00, 0x01,
];

fn run(folder: &str, card: Option<&[u8]>, input: &[u8]) -> String {
    let mut place = PathBuf::from(env!("CARGO_TARGET_TMPDIR"));
    place.push(folder);
    let _ = std::fs::remove_dir_all(&place);
    std::fs::create_dir_all(&place).unwrap();
    if let Some(bytes) = card {
        std::fs::write(place.join("pool.card"), bytes).unwrap();
    }
    let mut child = Command::new(env!("CARGO_BIN_EXE_second-listing"))
        .current_dir(&place)
        .stdin(Stdio::piped())
        .stdout(Stdio::piped())
        .spawn()
        .unwrap();
    child.stdin.take().unwrap().write_all(input).unwrap();
    let output = child.wait_with_output().unwrap();
    assert!(output.status.success());
    String::from_utf8(output.stdout).unwrap()
}

#[test]
fn bench_listing() {
    let input = b"AAAAAAAAAAAAAAAGCGGCGTCCTCTG
AAAAAAAAAAAAAAACTGCAATCGTCAT
AAAAAAAAAAAAAAATAGCTCGAACACA
AAAAAAAAAAAAAAACTGCAATCGTCAT
AAAN
";
    assert_eq!(
        run("bench", Some(&P), input),
        "reads 5 accepted 3 repeated 1 refused 1\n\
         segments 4 present 3 sweeps 3 contradictions 0\n\
         behind 4\n"
    );
}

/// A fourth field of a legal width changes nothing; one of another width is refused.
#[test]
fn cards_with_a_width() {
    let with_width = |width: u8| [&P[..], &[4, 0, 4, 0, 0, 0, width]].concat();
    for width in [2, 4] {
        assert_eq!(
            run(
                "width",
                Some(&with_width(width)),
                b"AAAAAAAAAAAAAAACTGCAATCGTCAT"
            ),
            "reads 1 accepted 1 repeated 0 refused 0\n\
             segments 4 present 1 sweeps 2 contradictions 0\n\
             behind 1\n"
        );
    }
    for width in [0, 1, 5] {
        assert_eq!(run("width", Some(&with_width(width)), b""), "card 27\n");
    }
}

/// Document 02, Item 5: a clean read after a mended one of its seed is listed as
/// repeated, and so are those after it, mended or not. Item 6: all four are behind the
/// one record.
#[test]
fn clean_after_mended() {
    let input = b"TAAAAAAAAAAAAAACTGCAATCGTCAT
AAAAAAAAAAAAAAACTGCAATCGTCAT
AAAAAAAAAAAAAAACTGCAATCGTCAC
AAAAAAAAAAAAAAACTGCAATCGTCAT
";
    assert_eq!(
        run("clean", Some(&P), input),
        "reads 4 accepted 1 repeated 3 refused 0\n\
         segments 4 present 1 sweeps 2 contradictions 0\n\
         behind 4\n"
    );
}

/// Document 02, Item 6: a read with another payload and one that is no strand are not
/// behind any record.
#[test]
fn refused_reads_are_not_behind() {
    let mut card = P;
    (card[13], card[14]) = (0, 0); // lo
    let other = letters_of_bytes(&strand_bytes(1, &[0x1B], 2));
    let mut input = b"AAAAAAAAAAAAAAACTGCAATCGTCAT\nAAAN\n".to_vec();
    input.extend(other);
    assert_eq!(
        run("refused", Some(&card), &input),
        "reads 3 accepted 1 repeated 0 refused 2\n\
         segments 4 present 1 sweeps 2 contradictions 0\n\
         behind 1\n"
    );
}

#[test]
fn missing_card() {
    assert_eq!(run("missing", None, b"AAAN\n"), "card 1\n");
}

#[test]
fn card_too_long() {
    assert_eq!(run("long", Some(&[1; 8193]), b"AAAN\n"), "card 1\n");
}

#[test]
fn no_reads() {
    assert_eq!(
        run("none", Some(&P), b""),
        "reads 0 accepted 0 repeated 0 refused 0\n\
         segments 4 present 0 sweeps 1 contradictions 0\n\
         behind 0\n"
    );
}
