//! Published Reed-Solomon values, the examples of document 01 that are not starred, misread bytes put right (document 02, Item 3) and pairs
//! of calls (Item 8), run by this implementation. The text is what the Rattle program `vectors` must print.

use crate::check_bytes_letters_screen::{check_bytes, check_sums, order};
use crate::mending::mend;
use crate::{call_letters, read_check, restore, shelve, Handed};

/// ISO/IEC 18004, Annex I: the QR code symbol of "01234567", 16 data and 10 check bytes. A word that is 0 at a^0 .. a^9 has its
/// first 2 and its first 4 check sums 0.
const ISO: &str = "10200C566180EC11EC11EC11EC11EC11A524D4C1ED36C7872C55";

/// Wikiversity, "Reed-Solomon codes for coders": the encoded message of its examples, 16 data and 10 check bytes. The article
/// also gives the check sums after its first byte is lost: 64, 192, 93, 231, ..
const WIKIVERSITY: &str = "40D27547761732062726 96C6C69670EC BC2A90136BAFEFFD4BE0";

fn bytes(hex: &str) -> Vec<u8> {
    let digits: Vec<u8> = hex.bytes().filter(|b| *b != b' ').collect();
    digits
        .chunks(2)
        .map(|pair| u8::from_str_radix(std::str::from_utf8(pair).unwrap(), 16).unwrap())
        .collect()
}

fn hex(bytes: &[u8]) -> String {
    bytes.iter().map(|b| format!("{b:02x}")).collect()
}

/// Check bytes as four bytes, those past R being 0.
fn four(mut check_bytes: Vec<u8>) -> Vec<u8> {
    check_bytes.resize(4, 0);
    check_bytes
}

/// The check bytes of message 01 are the generator polynomial without its first coefficient, 1. For two check bytes it is in
/// ISO/IEC 18004, Annex A (x^2 + a^25 x + a); for four, and the message 12 34 56, in the Wikiversity article.
fn reed_solomon() -> String {
    let mut text = String::new();
    text += &format!("01 R=2 check bytes {}\n", hex(&four(check_bytes(&[1], 2))));
    text += &format!("01 R=4 check bytes {}\n", hex(&four(check_bytes(&[1], 4))));
    let message = [0x12, 0x34, 0x56];
    text += &format!(
        "12 34 56 R=4 check bytes {}\n",
        hex(&check_bytes(&message, 4))
    );
    for (name, word) in [
        ("ISO/IEC 18004 word", bytes(ISO)),
        ("Wikiversity word", bytes(WIKIVERSITY)),
        (
            "Wikiversity word with its first byte 0",
            wikiversity_lost(1),
        ),
    ] {
        for r in [2, 4] {
            text += &format!("{name} R={r} check sums {}\n", hex(&check_sums(&word, r)));
        }
    }
    text
}

/// The Wikiversity word with as many of its first bytes lost, that is 0.
fn wikiversity_lost(count: usize) -> Vec<u8> {
    let mut word = bytes(WIKIVERSITY);
    word[..count].fill(0);
    word
}

/// What published words become when their first bytes are lost (document 02, Item 3): none, one, two and three of them, where
/// one can be mended with R = 2 and two with R = 4.
fn mending() -> String {
    let mut text = String::new();
    for (name, word) in [
        ("ISO/IEC 18004 word", bytes(ISO)),
        (
            "Wikiversity word with its first byte 0",
            wikiversity_lost(1),
        ),
        (
            "Wikiversity word with its first two bytes 0",
            wikiversity_lost(2),
        ),
        (
            "Wikiversity word with its first three bytes 0",
            wikiversity_lost(3),
        ),
    ] {
        for r in [2, 4] {
            text += &match mend(&word, r) {
                Some(mended) => {
                    let first = hex(&mended.word[..4]);
                    format!("{name} R={r} mended {} first bytes {first}\n", mended.bytes)
                }
                None => format!("{name} R={r} mended none\n"),
            };
        }
    }
    text
}

/// Card P of document 01.
const P: Handed = Handed {
    f: 4,
    l: 1,
    r: 2,
    m: 15,
    lo: 214,
    hi: 1000,
    dealt: false,
    width: 0,
    weights: &[0, 0, 0, 1, 0, 0, 0, 1],
};

/// "An empty shelf: present 0, sweeps 1", and "(AAAN is refused with 9.)"
fn bench_examples() -> String {
    let card = P;
    let (mut file, mut marks, mut list) = ([255; 4], [255; 4], [0; 2]);
    let mut buffer = [255; 20];
    let restored = restore(&card, &buffer, 0, &mut file, &mut marks, &mut list)
        .expect("an empty shelf is restored");
    let mut text = format!(
        "empty shelf: present {} sweeps {} contradictions {}\n",
        restored.present, restored.sweeps, restored.contradictions
    );
    text += &format!("file {}\nmarks {}\n", hex(&file), hex(&marks));
    match shelve(&card, b"AAAN", &mut buffer, 0) {
        Ok(_) => text += "AAAN: taken\n",
        Err(refusal) => text += &format!("AAAN: refused {}\n", refusal.0),
    }
    text
}

/// The bench strand of seed 1 (document 01) as it is, with its first letter wrong, with its last one wrong, and with both.
fn mended_reads() -> String {
    let strand = "AAAAAAAAAAAAAAACTGCAATCGTCAT";
    let (first, last) = (format!("T{}", &strand[1..]), format!("{}C", &strand[..27]));
    let both = format!("T{}", &last[1..]);
    let mut text = String::new();
    for read in [strand, &first, &last, &both] {
        text += &match read_check(&P, read.as_bytes()) {
            Ok(droplet) => format!(
                "{read}: seed {} payload {} mended {}\n",
                hex(&droplet.seed.to_be_bytes()),
                hex(&droplet.payload[..1]),
                droplet.mended
            ),
            Err(refusal) => format!("{read}: refused {}\n", refusal.0),
        };
    }
    text
}

/// The letters handed back of two calls (document 02, Item 8) of the bench strand of seed 1: as it is and with its first letter misread, in
/// either order; then a first call with the last letter of a site wrong, and one with the first letter lost; and these two.
fn letters_of_pairs() -> String {
    let (clean, misread) = (
        order(b"AAAAAAAAAAAAAAACTGCAATCGTCAT"),
        order(b"TAAAAAAAAAAAAAACTGCAATCGTCAT"),
    );
    let (front, short) = (&clean[..clean.len() - 1], &clean[1..]);
    let site = [front, b"C"].concat();
    let mut text = String::new();
    for (first, second) in [
        (&clean[..], &misread[..]),
        (&misread, &clean),
        (&site, &misread),
        (short, &clean),
        (short, &site),
    ] {
        let letters = call_letters(&P, first, second);
        text += &format!("letters {}\n", String::from_utf8_lossy(letters));
    }
    text
}

/// All of them, a line each.
pub fn vectors() -> String {
    reed_solomon() + &mending() + &bench_examples() + &mended_reads() + &letters_of_pairs()
}

#[cfg(test)]
mod tests {
    use super::*;
    use crate::check_bytes_letters_screen::polynomial_at_roots;
    use crate::mending::{all_words_nearby, Mended};

    /// The words have 10 check bytes: more than this pool's codes ask of them, so that a byte noted wrongly would show.
    #[test]
    fn the_words_are_zero_at_all_ten_powers() {
        for word in [bytes(ISO), bytes(WIKIVERSITY)] {
            assert_eq!(word.len(), 26);
            assert_eq!(polynomial_at_roots(&word, 10), vec![0; 10]);
        }
    }

    /// The lost words by trying every value in every place: the whole word comes back where as few bytes are lost as can be
    /// mended, and where one more is lost there is nothing, or another word.
    #[test]
    fn lost_words_by_brute_force() {
        let whole = bytes(WIKIVERSITY);
        for lost in 0..=3 {
            for r in [2, 4] {
                let word = wikiversity_lost(lost);
                let nearby = all_words_nearby(&word, r);
                assert!(nearby.len() <= 1);
                if lost <= usize::from(r) / 2 {
                    let expected = Mended {
                        word: whole.clone(),
                        bytes: lost,
                    };
                    assert_eq!(nearby, [expected]);
                }
                assert_eq!(mend(&word, r), nearby.first().cloned(), "{lost} {r}");
            }
        }
    }
}
