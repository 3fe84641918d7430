//! The listing program (described in section "Bench examples").

use crate::pool_card::{k_of, read_card};
use crate::questions::Refusal;
use crate::read_counts::total_behind;
use crate::restorer::restore;
use crate::shelf::{records, shelve, Shelved};

/// "reads from standard input, one a line (a last line without newline counts;
/// an empty line is a read of length 0)"
///
/// A line is the bytes up to a newline byte, hex 0A. Nothing else is stripped.
pub fn lines(standard_input: &[u8]) -> Vec<&[u8]> {
    let mut lines: Vec<&[u8]> = standard_input.split(|&byte| byte == 0x0A).collect();
    // What stands after the last newline is a line only if it is not empty.
    if lines.last().is_some_and(|last| last.is_empty()) {
        lines.pop();
    }
    lines
}

/// "The listing program reads the card from pool.card and reads from standard
/// input": from the bytes of pool.card, if it is there, and those of standard
/// input to the text printed.
pub fn listing(pool_card: Option<&[u8]>, standard_input: &[u8]) -> String {
    // "A missing pool.card, or one of more than 8,192 bytes, counts as empty."
    let card_bytes = match pool_card {
        Some(bytes) if bytes.len() <= 8_192 => bytes,
        _ => &[],
    };

    // "A refused card prints "card", a blank and its number, and nothing more"
    let card = match read_card(card_bytes) {
        Ok(card) => card,
        Err(Refusal(number)) => return format!("card {number}\n"),
    };

    // "then K·L over 32,768 prints "card too large"."
    let k = k_of(card.f, card.l);
    let file_bytes = k * usize::from(card.l);
    if file_bytes > 32_768 {
        return "card too large\n".to_string();
    }

    // The sheet speaks of dealt segments, so that a fourth field on the card
    // changes nothing of it.
    let handed = card.handed(card_bytes);

    // "Its shelf is 65,536 bytes; reads past that are refused under 16."
    let mut shelf = vec![0; 65_536];
    let mut count = 0;
    let mut reads = 0;
    let mut accepted = 0;
    let mut repeated = 0;
    let mut refused = 0;
    for line in lines(standard_input) {
        reads += 1;
        match shelve(&handed, line, &mut shelf, count) {
            Ok(Shelved::Accepted { count: after }) => {
                accepted += 1;
                count = after;
            }
            // Document 02, Item 5: "the answer is "replaced", listed as repeated".
            Ok(Shelved::Repeat { count: after } | Shelved::Replaced { count: after }) => {
                repeated += 1;
                count = after;
            }
            Err(_) => refused += 1,
        }
    }

    let mut file = vec![0; file_bytes];
    let mut marks = vec![0; k];
    let mut number_list = vec![0; card.d];
    let restored = restore(
        &handed,
        &shelf,
        count,
        &mut file,
        &mut marks,
        &mut number_list,
    )
    .expect("the card is accepted, the shelf is ours and the buffers are as long as asked");

    // "print two lines: lines read and how they were answered; then K and the
    // restore's three numbers." Document 02, Item 6: "The listing gains a third line,
    // "behind", a blank and the total over all records".
    let behind = total_behind(&records(&shelf, count, card.l));
    format!(
        "reads {reads} accepted {accepted} repeated {repeated} refused {refused}\n\
         segments {k} present {} sweeps {} contradictions {}\n\
         behind {behind}\n",
        restored.present, restored.sweeps, restored.contradictions
    )
}

#[cfg(test)]
mod tests {
    use super::*;
    use crate::check_bytes_letters_screen::{letters_of_bytes, strand_bytes};
    use crate::droplet::set_of_segments;

    const P: [u8; 28] = [
        0x01, 0x00, 0x06, 0x00, 0x00, 0x00, 0x04, 0x01, 0x02, //
        0x02, 0x00, 0x05, 0x0F, 0x00, 0xD6, 0x03, 0xE8, //
        0x03, 0x00, 0x08, 0x00, 0x00, 0x00, 0x01, 0x00, 0x00, 0x00, 0x01,
    ];

    const FIVE_LINES: &[u8] = b"AAAAAAAAAAAAAAAGCGGCGTCCTCTG
AAAAAAAAAAAAAAACTGCAATCGTCAT
AAAAAAAAAAAAAAATAGCTCGAACACA
AAAAAAAAAAAAAAACTGCAATCGTCAT
AAAN
";

    /// The listing of the bench examples, and document 02, Item 6: "The listing gains a
    /// third line, "behind", a blank and the total over all records". Seed 1 was read
    /// twice, seeds 2 and 3 once each.
    #[test]
    fn bench_listing() {
        let expected = "reads 5 accepted 3 repeated 1 refused 1\n\
                        segments 4 present 3 sweeps 3 contradictions 0\n\
                        behind 4\n";
        assert_eq!(listing(Some(&P), FIVE_LINES), expected);
        // "a last line without newline counts"
        assert_eq!(
            listing(Some(&P), &FIVE_LINES[..FIVE_LINES.len() - 1]),
            expected
        );
    }

    /// Document 02, Item 3: one wrong letter in each of the first four lines changes
    /// nothing, as each is mended.
    #[test]
    fn mended_lines() {
        let lines = b"AAAAAAAAAAAAAAAGCGGCGTCCTCTA
TAAAAAAAAAAAAAACTGCAATCGTCAT
AAAAAAAAAAAAAAATAACTCGAACACA
AAAAAAAAAAAAAAAATGCAATCGTCAT
AAAN
";
        assert_eq!(
            listing(Some(&P), lines),
            "reads 5 accepted 3 repeated 1 refused 1\n\
             segments 4 present 3 sweeps 3 contradictions 0\n\
             behind 4\n"
        );
    }

    /// Bench example: "An empty shelf: present 0, sweeps 1."
    #[test]
    fn bench_empty_shelf() {
        assert_eq!(
            listing(Some(&P), b""),
            "reads 0 accepted 0 repeated 0 refused 0\n\
             segments 4 present 0 sweeps 1 contradictions 0\n\
             behind 0\n"
        );
    }

    #[test]
    fn what_lines_are() {
        assert_eq!(lines(b""), Vec::<&[u8]>::new());
        assert_eq!(lines(b"\n"), [b""]);
        assert_eq!(lines(b"\n\n"), [b"", b""]);
        assert_eq!(lines(b"A"), [b"A"]);
        assert_eq!(lines(b"A\n"), [b"A"]);
        assert_eq!(lines(b"A\n\nB"), [&b"A"[..], b"", b"B"]);
        assert_eq!(lines(b"A\r\n\0 B"), [&b"A\r"[..], b"\0 B"]);
        assert_eq!(
            listing(Some(&P), b"\n\nAAAAAAAAAAAAAAACTGCAATCGTCAT\r\n"),
            "reads 3 accepted 0 repeated 0 refused 3\n\
             segments 4 present 0 sweeps 1 contradictions 0\n\
             behind 0\n"
        );
    }

    #[test]
    fn refused_cards() {
        assert_eq!(listing(None, FIVE_LINES), "card 1\n");
        assert_eq!(listing(Some(&[]), FIVE_LINES), "card 1\n");
        let mut card = P;
        card[8] = 5;
        assert_eq!(listing(Some(&card), FIVE_LINES), "card 2\n");
        let mut card = P;
        card[12] = 0;
        assert_eq!(listing(Some(&card), FIVE_LINES), "card 3\n");
        let mut card = P;
        card[20] = 255;
        card[24] = 255;
        assert_eq!(listing(Some(&card), FIVE_LINES), "card 4\n");
    }

    /// Card P with a fourth field of this width.
    fn p_dealt(width: u32) -> Vec<u8> {
        let mut card = P.to_vec();
        card.extend([4, 0, 4]);
        card.extend(width.to_be_bytes());
        card
    }

    /// Document 02, Item 14: a card with a legal W lists as the same card without
    /// it, and one with another W is refused.
    #[test]
    fn cards_with_a_width() {
        let expected = "reads 5 accepted 3 repeated 1 refused 1\n\
                        segments 4 present 3 sweeps 3 contradictions 0\n\
                        behind 4\n";
        for width in [2, 3, 4] {
            assert_eq!(listing(Some(&p_dealt(width)), FIVE_LINES), expected);
        }
        for width in [0, 1, 5, u32::MAX] {
            assert_eq!(listing(Some(&p_dealt(width)), FIVE_LINES), "card 27\n");
        }
        let mut longer = p_dealt(2);
        longer.push(0);
        assert_eq!(listing(Some(&longer), FIVE_LINES), "card 1\n");
    }

    fn card_with(f: u32, l: u8, d: usize) -> Vec<u8> {
        let mut card = vec![1, 0, 6];
        card.extend_from_slice(&f.to_be_bytes());
        card.extend_from_slice(&[l, 2]);
        card.extend_from_slice(&[2, 0, 5, 20, 0, 0, 3, 0xE8]);
        card.push(3);
        card.extend_from_slice(&((4 * d) as u16).to_be_bytes());
        for _ in 0..d {
            card.extend_from_slice(&[0, 0, 0, 1]);
        }
        card
    }

    /// Exactly 8,192 bytes are read (and then D is too large); more count as
    /// empty.
    #[test]
    fn length_of_the_card() {
        let card = card_with(32_768, 1, 2043);
        assert_eq!(card.len(), 8192);
        assert_eq!(listing(Some(&card), b""), "card 4\n");
        let card = card_with(32_768, 1, 2044);
        assert_eq!(card.len(), 8196);
        assert_eq!(listing(Some(&card), b""), "card 1\n");
    }

    #[test]
    fn card_too_large() {
        assert_eq!(
            listing(Some(&card_with(32_768, 1, 1)), b""),
            "reads 0 accepted 0 repeated 0 refused 0\n\
             segments 32768 present 0 sweeps 1 contradictions 0\n\
             behind 0\n"
        );
        assert_eq!(
            listing(Some(&card_with(32_769, 1, 1)), b""),
            "card too large\n"
        );
        // K·L counts, not F: 32,768 is no multiple of 63.
        assert_eq!(
            listing(Some(&card_with(32_768, 63, 1)), b""),
            "card too large\n"
        );
        assert_eq!(
            listing(Some(&card_with(32_760, 63, 1)), b""),
            "reads 0 accepted 0 repeated 0 refused 0\n\
             segments 520 present 0 sweeps 1 contradictions 0\n\
             behind 0\n"
        );
        assert_eq!(
            listing(Some(&card_with(8_388_608, 64, 1)), b"A"),
            "card too large\n"
        );
        // A refusal comes before "too large".
        assert_eq!(listing(Some(&card_with(8_388_608, 1, 1)), b""), "card 2\n");
    }

    /// "Its shelf is 65,536 bytes; reads past that are refused under 16": with
    /// L = 64 there is space for 897 records of 73 bytes. Of the first ten seeds there is
    /// a second read each.
    #[test]
    fn full_shelf() {
        let card = card_with(64, 64, 1);
        let mut input = Vec::new();
        for seed in (1..=1000u32).chain(1..=10) {
            // A seed spread over all four bytes and a payload without long runs.
            let seed = seed.wrapping_mul(0x9E37_79B1);
            let payload = [0x1B; 64];
            input.extend_from_slice(&letters_of_bytes(&strand_bytes(seed, &payload, 2)));
            input.push(b'\n');
        }
        assert_eq!(
            listing(Some(&card), &input),
            "reads 1010 accepted 897 repeated 10 refused 103\n\
             segments 1 present 1 sweeps 2 contradictions 0\n\
             behind 907\n"
        );
    }

    /// Document 02, Item 5: "the answer is "replaced", listed as repeated". A mended read
    /// of seed 1, a clean one with the same payload, one with another payload, which is
    /// refused, and a mended one, which is a repeat.
    #[test]
    fn replaced_is_listed_as_repeated() {
        let mut card = P;
        card[13] = 0;
        card[14] = 0; // lo
        let other = letters_of_bytes(&strand_bytes(1, &[0x1B], 2));
        let lines: [&[u8]; 4] = [
            b"TAAAAAAAAAAAAAACTGCAATCGTCAT",
            b"AAAAAAAAAAAAAAACTGCAATCGTCAT",
            &other,
            b"AAAAAAAAAAAAAAACTGCAATCGTCAC",
        ];
        let sheet = "segments 4 present 1 sweeps 2 contradictions 0";
        for (reads, expected, behind) in [
            (1, "reads 1 accepted 1 repeated 0 refused 0", "behind 1"),
            (2, "reads 2 accepted 1 repeated 1 refused 0", "behind 2"),
            (3, "reads 3 accepted 1 repeated 1 refused 1", "behind 2"),
            (4, "reads 4 accepted 1 repeated 2 refused 1", "behind 3"),
        ] {
            let input = lines[..reads].join(&b'\n');
            let expected = format!("{expected}\n{sheet}\n{behind}\n");
            assert_eq!(listing(Some(&card), &input), expected);
        }
    }

    /// Another seed that picks segment 3 alone, as seed 1 does: a wrongly mended read of
    /// it contradicts seed 1, until a clean one takes its place.
    #[test]
    fn replaced_before_the_restore() {
        let mut card = P;
        card[13] = 0;
        card[14] = 0; // lo
        let other = (2..)
            .find(|&seed| set_of_segments(seed, &P[20..], 4) == [3])
            .unwrap();
        let strand = |seed: u32, payload: u8| strand_bytes(seed, &[payload], 2);
        let mut misread = strand(other, 0xE5);
        misread[0] ^= 0x21;
        let lines = [strand(1, 0xE4), misread, strand(other, 0xE4)].map(|s| letters_of_bytes(&s));
        assert_eq!(
            listing(Some(&card), &lines[..2].join(&b'\n')),
            "reads 2 accepted 2 repeated 0 refused 0\n\
             segments 4 present 1 sweeps 2 contradictions 1\n\
             behind 2\n"
        );
        assert_eq!(
            listing(Some(&card), &lines.join(&b'\n')),
            "reads 3 accepted 2 repeated 1 refused 0\n\
             segments 4 present 1 sweeps 2 contradictions 0\n\
             behind 3\n"
        );
    }

    /// Another payload under a seed already there is refused (15).
    #[test]
    fn other_payload_is_refused() {
        let mut input = FIVE_LINES.to_vec();
        input.extend_from_slice(&letters_of_bytes(&strand_bytes(1, &[0x1B], 2)));
        let mut card = P;
        card[13] = 0;
        card[14] = 0; // lo
        assert_eq!(
            listing(Some(&card), &input),
            "reads 6 accepted 3 repeated 1 refused 2\n\
             segments 4 present 3 sweeps 3 contradictions 0\n\
             behind 4\n"
        );
    }
}
