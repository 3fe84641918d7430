//! The built listing program, `target/bin/listing`, run in folders of its own. Its whole output and its exit status are held to
//! the text of documents 01 and 02, to numbers that follow from how the input was made, and to `second::listing`.

use second::check_bytes_letters_screen::{letters_of_bytes, strand_bytes};
use second::mending::all_words_nearby;
use std::fs::{self, File};
use std::io::{ErrorKind, Write};
use std::path::{Path, PathBuf};
use std::process::{Child, Command, Stdio};
use std::thread::sleep;
use std::time::Duration;

/// Card P of document 01.
const P: [u8; 28] = [
    0x01, 0x00, 0x06, 0x00, 0x00, 0x00, 0x04, 0x01, 0x02, //
    0x02, 0x00, 0x05, 0x0F, 0x00, 0xD6, 0x03, 0xE8, //
    0x03, 0x00, 0x08, 0x00, 0x00, 0x00, 0x01, 0x00, 0x00, 0x00, 0x01,
];

const SEED_2: &str = "AAAAAAAAAAAAAAAGCGGCGTCCTCTG";
const SEED_1: &str = "AAAAAAAAAAAAAAACTGCAATCGTCAT";
const SEED_3: &str = "AAAAAAAAAAAAAAATAGCTCGAACACA";

const FIVE_LINES: &str = "AAAAAAAAAAAAAAAGCGGCGTCCTCTG
AAAAAAAAAAAAAAACTGCAATCGTCAT
AAAAAAAAAAAAAAATAGCTCGAACACA
AAAAAAAAAAAAAAACTGCAATCGTCAT
AAAN
";

const THREE_LINES: &str = "reads 5 accepted 3 repeated 1 refused 1
segments 4 present 3 sweeps 3 contradictions 0
behind 4
";

/// A folder of this test's own, with its pool.card.
fn folder(name: &str, card: Option<&[u8]>) -> PathBuf {
    let place = Path::new(env!("CARGO_TARGET_TMPDIR"))
        .join("listing")
        .join(name);
    let _ = fs::remove_dir_all(&place);
    fs::create_dir_all(&place).unwrap();
    if let Some(bytes) = card {
        fs::write(place.join("pool.card"), bytes).unwrap();
    }
    place
}

fn started(place: &Path, input: Stdio) -> Child {
    let program = Path::new(env!("CARGO_MANIFEST_DIR")).join("../target/bin/listing");
    let program = program
        .canonicalize()
        .unwrap_or_else(|e| panic!("{}: {e}: run `host/build listing`", program.display()));
    Command::new(program)
        .current_dir(place)
        .stdin(input)
        .stdout(Stdio::piped())
        .stderr(Stdio::piped())
        .spawn()
        .unwrap()
}

fn printed(child: Child) -> String {
    let output = child.wait_with_output().unwrap();
    assert_eq!(output.status.code(), Some(0));
    assert_eq!(String::from_utf8_lossy(&output.stderr), "");
    String::from_utf8(output.stdout).unwrap()
}

/// What the program prints for input through a pipe, piece by piece.
fn piped<'a>(
    name: &str,
    card: Option<&[u8]>,
    pieces: impl IntoIterator<Item = &'a [u8]>,
    pause: Duration,
) -> String {
    let mut child = started(&folder(name, card), Stdio::piped());
    let mut pipe = child.stdin.take().unwrap();
    for piece in pieces {
        match pipe.write_all(piece) {
            // A program that refused its card reads nothing.
            Err(e) if e.kind() == ErrorKind::BrokenPipe => break,
            written => written.unwrap(),
        }
        pipe.flush().unwrap();
        sleep(pause);
    }
    drop(pipe);
    printed(child)
}

/// What it prints for input from a file.
fn from_file(name: &str, card: Option<&[u8]>, input: &[u8]) -> String {
    let place = folder(name, card);
    let path = place.join("reads");
    fs::write(&path, input).unwrap();
    printed(started(&place, File::open(path).unwrap().into()))
}

/// What it prints: from a file and through a pipe alike, and as the second implementation says.
fn run(name: &str, card: Option<&[u8]>, input: &[u8]) -> String {
    let text = from_file(name, card, input);
    let pipe = piped(&format!("{name}-pipe"), card, [input], Duration::ZERO);
    assert_eq!(pipe, text);
    assert_eq!(second::listing(card, input), text);
    behind_is_what_was_answered(&text);
    text
}

/// Document 02, Item 6: the total on the third line "equals the reads answered without a refusal", accepted and repeated. What is
/// printed of a card that is refused or too large is one line alone.
fn behind_is_what_was_answered(text: &str) {
    if text.starts_with("card ") {
        assert_eq!(text.lines().count(), 1, "{text}");
        return;
    }
    let words: Vec<&str> = text.split_whitespace().collect();
    let number_after = |word: &str| {
        let place = words.iter().position(|&there| there == word).unwrap();
        words[place + 1].parse::<u64>().unwrap()
    };
    let answered = number_after("accepted") + number_after("repeated");
    assert_eq!(text.lines().count(), 3, "{text}");
    assert!(text.ends_with(&format!("\nbehind {answered}\n")), "{text}");
}

/// The three lines: how the reads were answered, the second line as it is, and all reads that were not refused.
fn three_lines(
    reads: usize,
    accepted: usize,
    repeated: usize,
    refused: usize,
    segments: &str,
) -> String {
    let behind = accepted + repeated;
    format!(
        "reads {reads} accepted {accepted} repeated {repeated} refused {refused}\n\
         {segments}behind {behind}\n"
    )
}

/// A card with R = 4, m = 20 and no GC limits, and D weights of 1.
fn card_with(f: u32, l: u8, d: usize) -> Vec<u8> {
    let mut card = vec![1, 0, 6];
    card.extend_from_slice(&f.to_be_bytes());
    card.extend_from_slice(&[l, 4]);
    card.extend_from_slice(&[2, 0, 5, 20, 0, 0, 3, 0xE8]);
    card.push(3);
    card.extend_from_slice(&((4 * d) as u16).to_be_bytes());
    for _ in 0..d {
        card.extend_from_slice(&[0, 0, 0, 1]);
    }
    card
}

/// The card with a fourth field of this width behind it.
fn with_width(card: &[u8], width: u32) -> Vec<u8> {
    let mut card = card.to_vec();
    card.extend_from_slice(&[4, 0, 4]);
    card.extend_from_slice(&width.to_be_bytes());
    card
}

/// A legal read under such a card, if no run is too long.
fn legal(seed: u32, payload: &[u8]) -> Vec<u8> {
    letters_of_bytes(&strand_bytes(seed, payload, 4))
}

#[test]
fn five_lines() {
    assert_eq!(run("five", Some(&P), FIVE_LINES.as_bytes()), THREE_LINES);
}

#[test]
fn last_line_without_newline_counts() {
    let input = FIVE_LINES.trim_end().as_bytes();
    assert_eq!(run("unended", Some(&P), input), THREE_LINES);
}

#[test]
fn no_input() {
    let sheet = "segments 4 present 0 sweeps 1 contradictions 0\n";
    assert_eq!(run("none", Some(&P), b""), three_lines(0, 0, 0, 0, sheet));
}

#[test]
fn empty_lines_are_reads() {
    let sheet = "segments 4 present 0 sweeps 1 contradictions 0\n";
    assert_eq!(
        run("empty-1", Some(&P), b"\n"),
        three_lines(1, 0, 0, 1, sheet)
    );
    assert_eq!(
        run("empty-2", Some(&P), b"\n\n"),
        three_lines(2, 0, 0, 2, sheet)
    );
    let input = format!("\n{SEED_1}\n\n{SEED_1}");
    let sheet = "segments 4 present 1 sweeps 2 contradictions 0\n";
    assert_eq!(
        run("empty-3", Some(&P), input.as_bytes()),
        three_lines(4, 1, 1, 2, sheet)
    );
}

#[test]
fn carriage_returns_are_bytes_of_the_read() {
    let input = FIVE_LINES.replace('\n', "\r\n");
    let sheet = "segments 4 present 0 sweeps 1 contradictions 0\n";
    assert_eq!(
        run("cr", Some(&P), input.as_bytes()),
        three_lines(5, 0, 0, 5, sheet)
    );
    let sheet = "segments 4 present 1 sweeps 2 contradictions 0\n";
    let input = format!("\r\n{SEED_1}\n\r");
    assert_eq!(
        run("cr-alone", Some(&P), input.as_bytes()),
        three_lines(3, 1, 0, 2, sheet)
    );
}

#[test]
fn any_bytes() {
    let mut input = b"\0\nAA\0A\n\xFF\xFE\x80\n\x0B\x0C \t\n".to_vec();
    input.extend_from_slice(SEED_1.as_bytes());
    input.extend_from_slice(b"\0\n");
    input.extend_from_slice(&vec![0; 28]);
    input.push(b'\n');
    input.extend((0..=255).filter(|&b| b != b'\n'));
    input.push(b'\n');
    input.extend_from_slice(SEED_3.as_bytes());
    let sheet = "segments 4 present 1 sweeps 2 contradictions 0\n";
    assert_eq!(
        run("bytes", Some(&P), &input),
        three_lines(8, 1, 0, 7, sheet)
    );
}

#[test]
fn missing_card() {
    assert_eq!(run("missing", None, FIVE_LINES.as_bytes()), "card 1\n");
    assert_eq!(run("hollow", Some(b""), FIVE_LINES.as_bytes()), "card 1\n");
    // A folder of that name is no card either.
    let place = folder("folder", None);
    fs::create_dir(place.join("pool.card")).unwrap();
    assert_eq!(printed(started(&place, Stdio::null())), "card 1\n");
}

#[test]
fn refused_cards() {
    let input = FIVE_LINES.as_bytes();
    let changed = |at: usize, to: u8| {
        let mut card = P;
        card[at] = to;
        card
    };
    assert_eq!(run("card-1", Some(&changed(0, 2)), input), "card 1\n");
    assert_eq!(run("card-1-cut", Some(&P[..27]), input), "card 1\n");
    assert_eq!(run("card-2", Some(&changed(8, 3)), input), "card 2\n");
    assert_eq!(run("card-3", Some(&changed(12, 0)), input), "card 3\n");
    let mut card = P;
    (card[23], card[27]) = (0, 0);
    assert_eq!(run("card-4", Some(&card), input), "card 4\n");
    for (name, width) in [("0", 0), ("1", 1), ("5", 5), ("most", u32::MAX)] {
        let card = with_width(&P, width);
        let name = format!("card-27-{name}");
        assert_eq!(run(&name, Some(&card), input), "card 27\n");
    }
    // No input at all is read after a refusal.
    assert_eq!(run("card-2-alone", Some(&changed(7, 0)), b""), "card 2\n");
}

#[test]
fn cards_with_a_width() {
    // A legal width changes nothing of the sheet: it speaks of dealt segments.
    let input = FIVE_LINES.as_bytes();
    for width in [2, 3, 4] {
        let name = format!("width-{width}");
        assert_eq!(run(&name, Some(&with_width(&P, width)), input), THREE_LINES);
    }
    // The field is whole, stands once and last.
    let card = with_width(&P, 2);
    for end in 29..35 {
        let name = format!("width-cut-{end}");
        assert_eq!(run(&name, Some(&card[..end]), input), "card 1\n");
    }
    assert_eq!(
        run("width-twice", Some(&with_width(&card, 2)), input),
        "card 1\n"
    );
    let mut early = P[..17].to_vec();
    early.extend_from_slice(&card[28..]);
    early.extend_from_slice(&P[17..]);
    assert_eq!(run("width-early", Some(&early), input), "card 1\n");
    // The questions before it come first, and "card too large" after it.
    let mut zeros = P;
    (zeros[23], zeros[27]) = (0, 0);
    assert_eq!(
        run("width-4", Some(&with_width(&zeros, 1)), input),
        "card 4\n"
    );
    let large = card_with(32_769, 1, 1);
    assert_eq!(
        run("width-27", Some(&with_width(&large, 32_770)), input),
        "card 27\n"
    );
    assert_eq!(
        run("width-large", Some(&with_width(&large, 32_769)), input),
        "card too large\n"
    );
}

#[test]
fn length_of_the_card() {
    // 8,192 bytes are read whole: D is too large.
    let mut card = card_with(32_768, 1, 2043);
    assert_eq!(card.len(), 8_192);
    assert_eq!(run("8192", Some(&card), b""), "card 4\n");
    // A byte more, and the card counts as empty.
    card.push(0);
    assert_eq!(run("8193", Some(&card), b""), "card 1\n");
    let card = card_with(32_768, 1, 2044);
    assert_eq!(run("8196", Some(&card), b""), "card 1\n");
    let card = vec![1; 1_000_000];
    assert_eq!(run("million", Some(&card), b""), "card 1\n");
    // The longest card that is accepted.
    let card = card_with(32_768, 1, 1024);
    assert_eq!(card.len(), 4_116);
    let sheet = "segments 32768 present 0 sweeps 1 contradictions 0\n";
    assert_eq!(
        run("4116", Some(&card), b""),
        three_lines(0, 0, 0, 0, sheet)
    );
    let card = with_width(&card, 32_768);
    assert_eq!(card.len(), 4_123);
    assert_eq!(
        run("4123", Some(&card), b""),
        three_lines(0, 0, 0, 0, sheet)
    );
    // With the field too, 8,192 bytes are read whole and a byte more counts as empty: D is too large, and then there is no card.
    let card = with_width(&card_with(32_768, 1, 2041), 2);
    assert_eq!(card.len(), 8_191);
    assert_eq!(run("8191", Some(&card), b""), "card 4\n");
    let card = with_width(&card_with(32_768, 1, 2042), 2);
    assert_eq!(card.len(), 8_195);
    assert_eq!(run("8195", Some(&card), b""), "card 1\n");
}

#[test]
fn card_too_large() {
    for (name, f, l, text) in [
        (
            "taken-1",
            32_768,
            1,
            "segments 32768 present 0 sweeps 1 contradictions 0\n",
        ),
        (
            "taken-64",
            32_768,
            64,
            "segments 512 present 0 sweeps 1 contradictions 0\n",
        ),
        // K·L counts, not F.
        (
            "taken-63",
            32_760,
            63,
            "segments 520 present 0 sweeps 1 contradictions 0\n",
        ),
    ] {
        assert_eq!(
            run(name, Some(&card_with(f, l, 1)), b""),
            three_lines(0, 0, 0, 0, text)
        );
    }
    for (name, f, l) in [
        ("large-1", 32_769, 1),
        ("large-64", 32_769, 64),
        ("large-63", 32_761, 63),
        ("largest", 8_388_608, 64),
    ] {
        assert_eq!(
            run(name, Some(&card_with(f, l, 1)), b"A\n"),
            "card too large\n"
        );
    }
    // A refusal comes first.
    assert_eq!(
        run("refused", Some(&card_with(8_388_608, 1, 1)), b""),
        "card 2\n"
    );
}

#[test]
fn runs_over_the_joints() {
    // Strands of file 27 at m = 3: those that end in TTT or start with CCC are refused, with ATT and GCC they pass.
    let mut card = card_with(1, 1, 1);
    (card[8], card[12]) = (2, 3);
    let input = b"TTACGTGTTATCGAGAAGCTGCCTGTTT
AAGGACGGCTTAGACGAGCTTAAGAATT
CCCGTGAGCTTCCCGCAGCTAGCCGCAG
GCCACTTATGTAGGTTAGCTCGTGTGAG
";
    let sheet = "segments 1 present 1 sweeps 2 contradictions 0\n";
    assert_eq!(
        run("joints", Some(&card), input),
        three_lines(4, 2, 0, 2, sheet)
    );
    // At m = 4 all of them pass.
    card[12] = 4;
    assert_eq!(
        run("joints-4", Some(&card), input),
        three_lines(4, 4, 0, 0, sheet)
    );
}

#[test]
fn misread_lines() {
    // A wrong letter in each of the first four lines of document 01, which is mended: the same sheet.
    let input = b"AAAAAAAAAAAAAAAGCGGCGTCCTCTA
TAAAAAAAAAAAAAACTGCAATCGTCAT
AAAAAAAAAAAAAAATAACTCGAACACA
AAAAAAAAAAAAAAAATGCAATCGTCAT
AAAN
";
    assert_eq!(run("misread", Some(&P), input), THREE_LINES);
    // 28 letters A but for one are mended to a seed of 0.
    let input = b"AAAAAAAAAAAAAAACAAAAAAAAAAAA";
    let sheet = "segments 4 present 0 sweeps 1 contradictions 0\n";
    assert_eq!(
        run("misread-12", Some(&P), input),
        three_lines(1, 0, 0, 1, sheet)
    );
    // With four check bytes two wrong bytes are mended; three are too many, as no strand is near to them.
    let card = card_with(1, 1, 1);
    let strand = strand_bytes(0x1234_5678, &[0x1B], 4);
    let lines: Vec<Vec<u8>> = [2, 0, 1, 3]
        .iter()
        .map(|&wrong| {
            let mut bytes = strand.clone();
            for place in 0..wrong {
                bytes[3 * place] ^= 0x21;
            }
            let nearby = all_words_nearby(&bytes, 4);
            assert_eq!(nearby.iter().any(|near| near.word == strand), wrong < 3);
            assert_eq!(nearby.len(), usize::from(wrong < 3));
            letters_of_bytes(&bytes)
        })
        .collect();
    let sheet = "segments 1 present 1 sweeps 2 contradictions 0\n";
    assert_eq!(
        run("misread-4", Some(&card), &lines.join(&b'\n')),
        three_lines(4, 1, 2, 1, sheet)
    );
}

#[test]
fn full_shelf() {
    // 65,536 bytes hold 897 records of 73 bytes; the reads past them are refused, repeats of those on the shelf are not.
    let card = card_with(64, 64, 1);
    let mut input = Vec::new();
    for seed in (1..=1_000u32).chain(1..=10) {
        input.extend_from_slice(&legal(seed.wrapping_mul(0x9E37_79B1), &[0x1B; 64]));
        input.push(b'\n');
    }
    let sheet = "segments 1 present 1 sweeps 2 contradictions 0\n";
    assert_eq!(
        run("full", Some(&card), &input),
        three_lines(1_010, 897, 10, 103, sheet)
    );
}

#[test]
fn contradictory_reads() {
    // Another payload for a seed on the shelf is refused.
    let card = card_with(2, 1, 1);
    let lines: Vec<Vec<u8>> = [(7, 0x1B), (7, 0x1B), (7, 0x2B), (7, 0x1B)]
        .iter()
        .map(|&(seed, byte)| legal(0x9E37_79B1u32.wrapping_mul(seed), &[byte]))
        .collect();
    let sheet = "segments 2 present 1 sweeps 2 contradictions 0\n";
    assert_eq!(
        run("fifteen", Some(&card), &lines.join(&b'\n')),
        three_lines(4, 1, 2, 1, sheet)
    );
    // Two seeds of one segment that contradict each other both stay.
    let card = card_with(1, 1, 1);
    let lines = [legal(0x1234_5678, &[0x1B]), legal(0x8765_4321, &[0x2B])];
    let sheet = "segments 1 present 1 sweeps 2 contradictions 1\n";
    assert_eq!(
        run("contradiction", Some(&card), &lines.join(&b'\n')),
        three_lines(2, 2, 0, 0, sheet)
    );
}

/// A read of this strand with its first byte wrong.
fn misread(seed: u32, payload: &[u8]) -> Vec<u8> {
    let mut bytes = strand_bytes(seed, payload, 4);
    bytes[0] ^= 0x21;
    letters_of_bytes(&bytes)
}

#[test]
fn clean_beats_mended() {
    // One segment, seen by two seeds. Of the second one there is a read that was mended to another byte, which contradicts.
    let card = card_with(1, 1, 1);
    let (first, other) = (0x1234_5678, 0x8765_4321);
    let mut lines = vec![legal(first, &[0x1B]), misread(other, &[0x2B])];
    let mut input = lines.join(&b'\n');
    let sheet =
        |contradictions| format!("segments 1 present 1 sweeps 2 contradictions {contradictions}\n");
    assert_eq!(
        run("mended", Some(&card), &input),
        three_lines(2, 2, 0, 0, &sheet(1))
    );
    // A mended read with the right byte is refused, and a clean one takes its place, listed as repeated.
    lines.push(misread(other, &[0x1B]));
    input = lines.join(&b'\n');
    assert_eq!(
        run("mended-15", Some(&card), &input),
        three_lines(3, 2, 0, 1, &sheet(1))
    );
    lines.push(legal(other, &[0x1B]));
    input = lines.join(&b'\n');
    assert_eq!(
        run("replaced", Some(&card), &input),
        three_lines(4, 2, 1, 1, &sheet(0))
    );
    // After that the mended read that was there first is refused, and so is a clean one with its byte; the others are repeats.
    lines.extend([misread(other, &[0x2B]), legal(other, &[0x2B])]);
    lines.extend([misread(other, &[0x1B]), legal(other, &[0x1B])]);
    input = lines.join(&b'\n');
    assert_eq!(
        run("replaced-once", Some(&card), &input),
        three_lines(8, 2, 3, 3, &sheet(0))
    );
}

#[test]
fn full_shelf_of_mended_reads() {
    // 897 records that were mended to a wrong payload, then all the clean reads, those of new seeds and of the old ones in turn:
    // the old ones are replaced, listed as repeated, and the new ones find no space. Nothing contradicts then.
    let card = card_with(64, 64, 1);
    let seed_of = |i: u32| i.wrapping_mul(0x9E37_79B1);
    let mut lines: Vec<Vec<u8>> = (1..=897u32)
        .map(|i| {
            let mut payload = [0x1B; 64];
            payload[0] ^= 1 + (i % 250) as u8;
            misread(seed_of(i), &payload)
        })
        .collect();
    // The first one fills the segment, and the 251st, 501st and 751st agree with it.
    let sheet = "segments 1 present 1 sweeps 2 contradictions 893\n";
    assert_eq!(
        run("full-mended", Some(&card), &lines.join(&b'\n')),
        three_lines(897, 897, 0, 0, sheet)
    );
    for i in 1..=897 {
        lines.push(legal(seed_of(897 + i), &[0x1B; 64]));
        lines.push(legal(seed_of(i), &[0x1B; 64]));
    }
    let sheet = "segments 1 present 1 sweeps 2 contradictions 0\n";
    assert_eq!(
        run("full-replaced", Some(&card), &lines.join(&b'\n')),
        three_lines(3 * 897, 897, 897, 897, sheet)
    );
}

#[test]
fn long_lines() {
    // The longest strand has 288 letters. Longer lines are one read each, whatever stands in them.
    let card = card_with(64, 64, 1);
    let strand = legal(0x9E37_79B1, &[0x1B; 64]);
    assert_eq!(strand.len(), 288);
    let sheet = "segments 1 present 1 sweeps 2 contradictions 0\n";
    let mut input = strand.clone();
    let mut lines = 1;
    for length in [
        287, 289, 511, 512, 513, 576, 800, 801, 1_024, 4_096, 65_535, 65_536, 65_537,
    ] {
        // a strand at the front of the line, and one at its end
        let mut line = vec![b'A'; length];
        line[..length.min(288)].copy_from_slice(&strand[..length.min(288)]);
        let end = length.saturating_sub(288);
        line[end..].copy_from_slice(&strand[288 - (length - end)..]);
        input.push(b'\n');
        input.extend_from_slice(&line);
        lines += 1;
    }
    assert_eq!(
        run("long", Some(&card), &input),
        three_lines(lines, 1, 0, lines - 1, sheet)
    );
    input.push(b'\n');
    input.extend_from_slice(&strand);
    assert_eq!(
        run("long-repeat", Some(&card), &input),
        three_lines(lines + 1, 1, 1, lines - 1, sheet)
    );
}

#[test]
fn a_line_of_a_million_bytes() {
    let sheet = "segments 4 present 1 sweeps 2 contradictions 0\n";
    let mut input = vec![b'A'; 1 << 20];
    input.push(b'\n');
    input.extend_from_slice(SEED_1.as_bytes());
    assert_eq!(
        run("million-first", Some(&P), &input),
        three_lines(2, 1, 0, 1, sheet)
    );
    input.push(b'\n');
    input.extend_from_slice(&vec![b'\r'; 1 << 20]);
    assert_eq!(
        run("million-last", Some(&P), &input),
        three_lines(3, 1, 0, 2, sheet)
    );
}

#[test]
fn a_hundred_thousand_reads() {
    let four = format!("{SEED_2}\n{SEED_1}\n{SEED_3}\nAAAN\n");
    let input = four.repeat(25_000);
    let sheet = "segments 4 present 3 sweeps 3 contradictions 0\n";
    let expected = three_lines(100_000, 3, 74_997, 25_000, sheet);
    assert_eq!(from_file("many", Some(&P), input.as_bytes()), expected);
    let pipe = piped(
        "many-pipe",
        Some(&P),
        input.as_bytes().chunks(997),
        Duration::ZERO,
    );
    assert_eq!(pipe, expected);
}

#[test]
fn many_reads_of_one_seed() {
    // Counts that need a second byte and a third, beside a seed that was read once.
    let sheet = "segments 4 present 2 sweeps 2 contradictions 0\n";
    for (name, times) in [("256", 256), ("65535", 65_535), ("65536", 65_536)] {
        let input = format!("{SEED_3}\n") + &format!("{SEED_1}\n").repeat(times);
        assert_eq!(
            run(&format!("one-seed-{name}"), Some(&P), input.as_bytes()),
            three_lines(times + 1, 2, times - 1, 0, sheet)
        );
    }
}

#[test]
fn input_in_small_pieces() {
    let pause = Duration::from_millis(1);
    let bytes = FIVE_LINES.as_bytes();
    assert_eq!(
        piped("one-byte", Some(&P), bytes.chunks(1), pause),
        THREE_LINES
    );
    for size in [2, 3, 5, 7, 28, 29, 30, 58] {
        let text = piped(
            &format!("pieces-{size}"),
            Some(&P),
            bytes.chunks(size),
            pause,
        );
        assert_eq!(text, THREE_LINES);
    }
}

#[test]
fn a_pool_with_damage() {
    // Strands of a whole file by the second implementation's writer, some of them lost, repeated, cut or changed.
    let card = card_with(5_000, 16, 40);
    let file: Vec<u8> = (0..5_000u32)
        .map(|i| (i.wrapping_mul(2_654_435_761) >> 24) as u8)
        .collect();
    let handed = second::Handed {
        f: 5_000,
        l: 16,
        r: 4,
        m: 20,
        lo: 0,
        hi: 1000,
        dealt: false,
        width: 0,
        weights: &card[20..],
    };
    let n = handed.n_bases();
    let mut strands = vec![0; 600 * (n + 1)];
    second::write(
        &handed,
        &file,
        0xACE1_2357,
        600,
        100_000,
        &mut strands,
        &mut [0; 40],
    )
    .unwrap();
    let strands: Vec<&[u8]> = strands.chunks(n + 1).map(|line| &line[..n]).collect();
    let mut state = 1u32;
    let mut next = |below: usize| {
        state = state.wrapping_mul(1_664_525).wrapping_add(1_013_904_223);
        (state >> 4) as usize % below
    };
    let mut input = Vec::new();
    for _ in 0..1_500 {
        let mut read = strands[next(strands.len())].to_vec();
        match next(10) {
            0 => read.truncate(next(n)),
            1 => read[next(n)] = b"ACGTN\r"[next(6)],
            2 => read.push(b'A'),
            _ => {}
        }
        input.extend_from_slice(&read);
        input.push(b'\n');
    }
    let text = run("damage", Some(&card), &input);
    assert!(text.starts_with("reads 1500 accepted "), "{text}");
}
