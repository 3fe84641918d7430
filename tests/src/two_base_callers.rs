//! Item 8 of document 02, "Two base callers": "The instrument sends two calls of each
//! ordered strand, 48 bases longer than n, with sites as in Item 1." Such a call is the
//! letters that one base caller read, those of the sites included.

use crate::check_bytes_letters_screen::{questions_9_to_13, SITE_AFTER, SITE_BEFORE};
use crate::pool_card::Handed;
use crate::questions::{ask, question_21, Refusal};

/// Which of the two calls it is that passes, the first if both do.
#[derive(Clone, Copy, Debug, PartialEq, Eq)]
pub enum Choice {
    First,
    Second,
}

/// "One call gives the choice or the number": "the first call that has the right length
/// and sites and passes the read check; otherwise .. the second. .. If neither call
/// passes, the pair is refused as 21, after the card questions."
///
/// What the second one is does not matter if the first passes, even where the first is
/// mended and the second is not.
pub fn choose_call(handed: &Handed, first: &[u8], second: &[u8]) -> Result<Choice, Refusal> {
    handed.card_questions()?;
    let (first_passes, second_passes) = (passes(handed, first), passes(handed, second));
    ask(question_21(first_passes, second_passes), 21)?;
    if first_passes {
        Ok(Choice::First)
    } else {
        Ok(Choice::Second)
    }
}

/// "another the letters, an empty part on any refusal": "The letters handed back are that
/// part of the lent call itself, as read and before any mending."
///
/// They may be kept for as long as both calls are lent, and longer than the card.
pub fn call_letters<'a>(handed: &Handed, first: &'a [u8], second: &'a [u8]) -> &'a [u8] {
    let chosen = match choose_call(handed, first, second) {
        Ok(Choice::First) => first,
        Ok(Choice::Second) => second,
        Err(Refusal(_)) => return &first[..0],
    };
    middle(handed, chosen).expect("the chosen call has the right length and sites")
}

/// "has the right length and sites and passes the read check", whose questions 9 to 13 are
/// asked of the middle, as document 02, Item 3, has them. Needs questions 2 to 4 and 27 to
/// have said yes.
fn passes(handed: &Handed, call: &[u8]) -> bool {
    middle(handed, call).is_some_and(|letters| questions_9_to_13(handed, letters).is_ok())
}

/// "the middle n letters" of a call "48 bases longer than n, with sites as in Item 1":
/// what stands between the sites, which must be right to the letter. Nothing of a call
/// that has another length or other letters there.
fn middle<'a>(handed: &Handed, call: &'a [u8]) -> Option<&'a [u8]> {
    if call.len() != SITE_BEFORE.len() + handed.n_bases() + SITE_AFTER.len() {
        return None;
    }
    call.strip_prefix(SITE_BEFORE)?.strip_suffix(SITE_AFTER)
}

#[cfg(test)]
mod tests {
    use super::Choice::{First, Second};
    use super::*;
    use crate::check_bytes_letters_screen::{letters_of_bytes, order, read_check, strand_bytes};
    use std::ptr;

    const P_WEIGHTS: [u8; 8] = [0, 0, 0, 1, 0, 0, 0, 1];
    const P: Handed = Handed {
        f: 4,
        l: 1,
        r: 2,
        m: 15,
        lo: 214,
        hi: 1000,
        dealt: false,
        width: 0,
        weights: &P_WEIGHTS,
    };

    /// The bench strands of seeds 1, 2 and 3, with the payloads E4, 27 xor 4E, and 27.
    const SEED_1: &[u8; 28] = b"AAAAAAAAAAAAAAACTGCAATCGTCAT";
    const SEED_2: &[u8; 28] = b"AAAAAAAAAAAAAAAGCGGCGTCCTCTG";
    const SEED_3: &[u8; 28] = b"AAAAAAAAAAAAAAATAGCTCGAACACA";
    const BENCH: [(&[u8; 28], u32, u8); 3] =
        [(SEED_1, 1, 0xE4), (SEED_2, 2, 0x69), (SEED_3, 3, 0x27)];

    /// The first of them as it is ordered: 27, 28 and 21 letters.
    const ORDER_1: &[u8; 76] =
        b"GTTTCAGAGTTCTACAGTCCGACGATCAAAAAAAAAAAAAAACTGCAATCGTCATTGGAATTCTCGGGTGCCAAGG";

    /// Letters with another one at this place.
    fn with_letter(letters: &[u8], place: usize, letter: u8) -> Vec<u8> {
        assert_ne!(letters[place], letter, "{place}");
        let mut changed = letters.to_vec();
        changed[place] = letter;
        changed
    }

    /// A base or small letter other than the one there, every such and an N.
    fn other_letters(letter: u8) -> Vec<u8> {
        let all = b"ACGTacgtN".to_vec();
        all.into_iter().filter(|&other| other != letter).collect()
    }

    /// What both public calls say of a pair. The letters are always that part itself, from
    /// the 28th letter on, or empty.
    fn answers(handed: &Handed, first: &[u8], second: &[u8]) -> Result<Choice, Refusal> {
        let choice = choose_call(handed, first, second);
        let letters = call_letters(handed, first, second);
        let middle = 27..27 + handed.n_bases();
        match choice {
            Ok(First) => assert!(ptr::eq(letters, &first[middle])),
            Ok(Second) => assert!(ptr::eq(letters, &second[middle])),
            Err(_) => assert!(letters.is_empty()),
        }
        choice
    }

    /// All that can be said, under P, of a call that passes.
    fn is_chosen(call: &[u8]) {
        for other in [&b""[..], &ORDER_1[1..], &SEED_1[..], &order(&[b'A'; 28])] {
            assert_eq!(answers(&P, call, other), Ok(First));
            assert_eq!(answers(&P, other, call), Ok(Second));
        }
        assert_eq!(answers(&P, call, call), Ok(First));
        assert_eq!(answers(&P, call, ORDER_1), Ok(First));
        assert_eq!(answers(&P, ORDER_1, call), Ok(First));
    }

    /// All that can be said, under P, of a call that does not.
    fn is_passed_over(call: &[u8]) {
        for (strand, ..) in BENCH {
            let fine = order(strand);
            assert_eq!(answers(&P, call, &fine), Ok(Second));
            assert_eq!(answers(&P, &fine, call), Ok(First));
        }
        for other in [call, b"", &ORDER_1[1..], SEED_1, &order(&[b'A'; 28])] {
            assert_eq!(answers(&P, call, other), Err(Refusal(21)));
            assert_eq!(answers(&P, other, call), Err(Refusal(21)));
        }
    }

    #[test]
    fn bench_strand_as_ordered() {
        assert_eq!(order(SEED_1), ORDER_1);
        assert_eq!(choose_call(&P, ORDER_1, b""), Ok(First));
        assert_eq!(call_letters(&P, ORDER_1, b""), SEED_1);
        assert_eq!(choose_call(&P, b"", ORDER_1), Ok(Second));
        assert_eq!(call_letters(&P, b"", ORDER_1), SEED_1);
        assert_eq!(choose_call(&P, b"", b""), Err(Refusal(21)));
        assert_eq!(call_letters(&P, b"", b""), b"");
        for (strand, ..) in BENCH {
            is_chosen(&order(strand));
        }
    }

    /// "that part of the lent call itself": no copy, and of the chosen one where both calls
    /// have the same letters, or are one.
    #[test]
    fn the_letters_are_that_part_itself() {
        let (first, second) = (order(SEED_1), order(SEED_1));
        let letters = call_letters(&P, &first, &second);
        assert!(ptr::eq(letters, &first[27..55]));
        assert_eq!(letters.as_ptr(), first[27..].as_ptr());
        assert_eq!(letters.len(), 28);

        let damaged = with_letter(&first, 0, b'A');
        assert!(ptr::eq(
            call_letters(&P, &damaged, &second),
            &second[27..55]
        ));
        assert!(ptr::eq(call_letters(&P, &first, &first), &first[27..55]));
        assert!(call_letters(&P, &damaged, &damaged).is_empty());
    }

    /// They are the calls', and not the card's.
    #[test]
    fn the_letters_outlive_the_card() {
        let first = order(SEED_2);
        let letters = {
            let weights = P_WEIGHTS.to_vec();
            let card = Handed {
                weights: &weights,
                ..P
            };
            call_letters(&card, &first, b"")
        };
        assert_eq!(letters, SEED_2);
    }

    /// Both pass: "the first call", though the second is of another droplet.
    #[test]
    fn two_droplets() {
        for (strand, seed, byte) in BENCH {
            for (other, ..) in BENCH {
                let (first, second) = (order(strand), order(other));
                assert_eq!(answers(&P, &first, &second), Ok(First));
                let droplet = read_check(&P, call_letters(&P, &first, &second)).unwrap();
                assert_eq!((droplet.seed, droplet.payload[0]), (seed, byte));
            }
        }
    }

    /// "as read and before any mending": each letter of the middle misread as each other
    /// base. The read check still accepts the letters, with the droplet.
    #[test]
    fn one_mended_byte() {
        for (strand, seed, byte) in BENCH {
            for place in 0..28 {
                for letter in b"ACGT" {
                    if strand[place] == *letter {
                        continue;
                    }
                    let read = with_letter(strand, place, *letter);
                    let call = order(&read);
                    is_chosen(&call);
                    // A clean one does not beat it.
                    let clean = order(strand);
                    assert_eq!(call_letters(&P, &call, &clean), read);
                    assert_eq!(call_letters(&P, &clean, &call), strand);
                    assert_eq!(call_letters(&P, b"", &call), read);
                    let droplet = read_check(&P, call_letters(&P, &call, &clean)).unwrap();
                    assert_eq!((droplet.seed, droplet.payload[0]), (seed, byte));
                    assert_eq!(droplet.mended, 1);
                }
            }
        }
    }

    /// With R = 4 two wrong bytes, and not three. The strand is that of seed 1234 (hex) and
    /// payload 56: "Reed-Solomon codes for coders" (Wikiversity) has the message 12 34 56
    /// with the check bytes 37 E6 78 D9, and zeros before a message change none.
    #[test]
    fn two_mended_bytes() {
        let four = Handed { r: 4, ..P };
        let strand = b"AAAAAAAAACAGATCACCCGATCTTGCGCTGATCGC";
        let read = b"TAAAAAAAACAGATCACCCGATCTTGCGCTGATCGG";
        let three = b"TAAAAAAAACAGATCACCCTATCTTGCGCTGATCGG";
        assert_eq!((four.n_bases(), strand.len()), (36, 36));
        let (clean, mended, refused) = (order(strand), order(read), order(three));
        assert_eq!(read_check(&four, strand).unwrap().seed, 0x1234);
        assert_eq!(read_check(&four, three), Err(Refusal(11)));

        assert_eq!(answers(&four, &mended, &clean), Ok(First));
        assert_eq!(call_letters(&four, &mended, &clean), read);
        assert_eq!(answers(&four, &refused, &mended), Ok(Second));
        assert_eq!(call_letters(&four, &refused, &mended), read);
        assert_eq!(answers(&four, &refused, &refused), Err(Refusal(21)));
        let droplet = read_check(&four, call_letters(&four, &mended, &clean)).unwrap();
        assert_eq!((droplet.seed, droplet.payload[0]), (0x1234, 0x56));
        assert_eq!(droplet.mended, 2);
        // Of other lengths than n + 48 under a card with R = 2.
        is_passed_over(&clean);
        is_passed_over(&mended);
    }

    /// "48 bases longer than n": 76 under P, and no call of any other length passes,
    /// whichever of its letters are there.
    #[test]
    fn other_lengths() {
        for length in 0..76 {
            is_passed_over(&ORDER_1[..length]);
            is_passed_over(&ORDER_1[76 - length..]);
        }
        for more in 1..=76 {
            is_passed_over(&[&ORDER_1[..], &ORDER_1[..more]].concat());
            is_passed_over(&[&ORDER_1[76 - more..], &ORDER_1[..]].concat());
        }
        for place in 0..76 {
            let [before, after] = [&ORDER_1[..place], &ORDER_1[place + 1..]];
            is_passed_over(&[before, after].concat());
            for letter in b"ACGTN" {
                is_passed_over(&[before, &[*letter], &ORDER_1[place..]].concat());
            }
        }
    }

    /// "with sites as in Item 1": any letter of either that is another base, a small letter
    /// or N, around a middle that is fine.
    #[test]
    fn one_wrong_letter_in_a_site() {
        for (strand, ..) in BENCH {
            let call = order(strand);
            for place in (0..27).chain(55..76) {
                for letter in other_letters(call[place]) {
                    is_passed_over(&with_letter(&call, place, letter));
                }
            }
        }
    }

    #[test]
    fn other_sites() {
        let (before, after) = (&ORDER_1[..27], &ORDER_1[55..]);
        let (small_before, small_after) = (before.to_ascii_lowercase(), after.to_ascii_lowercase());
        is_chosen(&[before, SEED_1, after].concat());
        is_passed_over(&[after, SEED_1, before].concat());
        is_passed_over(&[&small_before, &SEED_1[..], after].concat());
        is_passed_over(&[before, SEED_1, &small_after].concat());
        is_passed_over(&[&small_before, &SEED_1[..], &small_after].concat());
        is_passed_over(&[&[b'N'; 27], &SEED_1[..], after].concat());
        is_passed_over(&[before, SEED_1, &[b'N'; 21]].concat());
        // No sites: the strand between letters of its own, or of no base.
        is_passed_over(&[&SEED_1[..27], SEED_1, &SEED_1[..21]].concat());
        is_passed_over(&[[0; 27].as_slice(), SEED_1, &[0; 21]].concat());
        let backwards: Vec<u8> = ORDER_1.iter().rev().copied().collect();
        is_passed_over(&backwards);
    }

    /// 76 letters, in which the strand stands one place early or late, with both sites or with
    /// one of them.
    #[test]
    fn shifted_by_one_letter() {
        let (before, after) = (&ORDER_1[..27], &ORDER_1[55..]);
        for (strand, ..) in BENCH {
            let call = order(strand);
            for letter in b"ACGT" {
                let letter = &[*letter][..];
                is_passed_over(&[&call[1..], letter].concat());
                is_passed_over(&[letter, &call[..75]].concat());
                is_passed_over(&[&call[1..55], letter, after].concat());
                is_passed_over(&[before, letter, &call[27..75]].concat());
            }
        }
    }

    /// The same between sites that stand where they should, so that the read check decides.
    /// Most are refused as 11; some are by chance within a byte of another strand.
    #[test]
    fn a_letter_lost_and_one_too_many() {
        let mut passed = 0;
        for (strand, ..) in BENCH {
            for letter in b"ACGT" {
                let letter = &[*letter][..];
                for middle in [
                    [&strand[1..], letter].concat(),
                    [letter, &strand[..27]].concat(),
                ] {
                    if read_check(&P, &middle).is_ok() {
                        is_chosen(&order(&middle));
                        passed += 1;
                    } else {
                        is_passed_over(&order(&middle));
                    }
                }
            }
        }
        assert!((1..12).contains(&passed), "{passed}");
    }

    /// "passes the read check": middles between the right sites that it refuses.
    #[test]
    fn refused_middles() {
        // 11: seven bytes 55 are not within one byte of a strand, as `mending` works out.
        // 12: a bench example. 13: seed 1 with the payload 00 has, as the message 01 00 in a
        // bench example, the check bytes 07 06; 4 of 28 letters are C or G.
        for (middle, number) in [
            (b"NAAAAAAAAAAAAAACTGCAATCGTCAT", 10),
            (b"AAAAAAAAAAAAAAACTGCAATCGTCAt", 10),
            (b"CCCCCCCCCCCCCCCCCCCCCCCCCCCC", 11),
            (b"AAAAAAAAAAAAAAAAAAAAAAAAAAAA", 12),
            (b"AAAAAAAAAAAAAAACAAAAAACTAACG", 13),
        ] {
            assert_eq!(read_check(&P, middle), Err(Refusal(number)));
            is_passed_over(&order(middle));
        }
        // The screen of the card that is handed: "m=14 gives 13, and so does lo=215."
        for strict in [Handed { m: 14, ..P }, Handed { lo: 215, ..P }] {
            assert_eq!(answers(&strict, ORDER_1, ORDER_1), Err(Refusal(21)));
        }
        let lo_215 = Handed { lo: 215, ..P };
        assert_eq!(answers(&lo_215, ORDER_1, &order(SEED_2)), Ok(Second));
        assert_eq!(answers(&lo_215, &order(SEED_2), ORDER_1), Ok(First));
    }

    /// A site is no part of what is mended: as many wrong letters as could be put right in
    /// the middle, one of them in a site.
    #[test]
    fn sites_are_not_mended() {
        is_passed_over(&with_letter(ORDER_1, 26, b'A'));
        is_passed_over(&with_letter(ORDER_1, 55, b'A'));
        is_chosen(&with_letter(ORDER_1, 27, b'T'));
        is_chosen(&with_letter(ORDER_1, 54, b'A'));
        let in_both = with_letter(&with_letter(ORDER_1, 27, b'T'), 26, b'A');
        is_passed_over(&in_both);
    }

    /// "after the card questions": 2, 3, 4 and 27 in that order, whatever the calls are, and
    /// no letters with any of them.
    #[test]
    fn card_questions_come_first() {
        let wrong_27 = Handed {
            dealt: true,
            width: 5,
            ..P
        };
        let wrong_4 = Handed { weights: &[], ..P };
        let wrong_4_27 = Handed {
            weights: &[],
            ..wrong_27
        };
        let wrong_3_27 = Handed { m: 21, ..wrong_27 };
        let wrong_3_4_27 = Handed { m: 0, ..wrong_4_27 };
        let wrong_2_3_4_27 = Handed {
            r: 3,
            ..wrong_3_4_27
        };
        for (handed, number) in [
            (Handed { f: 0, ..P }, 2),
            (Handed { l: 0, ..P }, 2),
            (Handed { l: 65, ..P }, 2),
            (Handed { r: 3, ..P }, 2),
            (wrong_2_3_4_27, 2),
            (Handed { m: 0, ..P }, 3),
            (Handed { hi: 1001, ..P }, 3),
            (wrong_3_27, 3),
            (wrong_3_4_27, 3),
            (wrong_4, 4),
            (wrong_4_27, 4),
            (wrong_27, 27),
            (
                Handed {
                    width: 1,
                    ..wrong_27
                },
                27,
            ),
        ] {
            for first in [ORDER_1, &b""[..], SEED_1, &[b'N'; 76]] {
                for second in [ORDER_1, &b""[..], SEED_1, &[b'N'; 76]] {
                    assert_eq!(answers(&handed, first, second), Err(Refusal(number)));
                }
            }
        }
    }

    /// The width takes no part once question 27 has said yes, and without the field any W is
    /// ignored.
    #[test]
    fn cards_with_a_width() {
        let damaged = with_letter(ORDER_1, 75, b'C');
        for (dealt, width) in [(true, 2), (true, 3), (true, 4), (false, 1), (false, 5)] {
            let card = Handed { dealt, width, ..P };
            assert_eq!(answers(&card, ORDER_1, &damaged), Ok(First));
            assert_eq!(answers(&card, &damaged, ORDER_1), Ok(Second));
            assert_eq!(answers(&card, &damaged, &damaged), Err(Refusal(21)));
        }
    }

    /// The longest strand has 4 times (4 + 64 + 4) letters, and its order 336.
    #[test]
    fn the_longest_strand() {
        let handed = Handed {
            f: 64,
            l: 64,
            r: 4,
            lo: 0,
            weights: &[0, 0, 0, 1],
            ..P
        };
        let payload: Vec<u8> = (0..64).map(|i| (i * 37 + 11) as u8).collect();
        let strand = letters_of_bytes(&strand_bytes(0x1234_5678, &payload, 4));
        let call = order(&strand);
        assert_eq!((strand.len(), call.len()), (288, 336));
        assert_eq!(answers(&handed, &call, &call[..335]), Ok(First));
        assert_eq!(answers(&handed, &call[1..], &call), Ok(Second));
        assert_eq!(call_letters(&handed, &call[1..], &call), strand);
        assert_eq!(answers(&handed, ORDER_1, &call[1..]), Err(Refusal(21)));
        let small_end = with_letter(&call, 335, b'g');
        assert_eq!(answers(&handed, &small_end, &call), Ok(Second));
        assert_eq!(answers(&handed, &small_end, &strand), Err(Refusal(21)));
    }
}
