//! Section "Questions in their order", and the questions that document 02 adds.
//!
//! Each question is one function that says yes (true) or no (false) and quotes
//! its line. The calls ask them in the order shown there.

use crate::check_bytes_letters_screen::Outcome;
use crate::clean_beats_mended::State;
use crate::mending::Mended;
use crate::pool_card::{k_of, numbers_of_weights, sum_of_weights};
use crate::shelf::Record;

/// "The first "no" gives the number; a refusal holds that number only, and
/// changes no buffer and no shelf count."
#[derive(Clone, Copy, Debug, PartialEq, Eq)]
pub struct Refusal(pub u8);

/// Turns a "no" into the refusal with the question's number.
pub(crate) fn ask(yes: bool, number: u8) -> Result<(), Refusal> {
    if yes {
        Ok(())
    } else {
        Err(Refusal(number))
    }
}

/// "Every other call has 2 to 4 first, then its own, in the order shown." Between
/// them document 02, Item 14, puts question 27.
///
/// May be handed any values and any length of weights.
pub fn questions_2_to_4(
    f: u32,
    l: u8,
    r: u8,
    m: u8,
    lo: u16,
    hi: u16,
    weights: &[u8],
) -> Result<(), Refusal> {
    ask(question_2(f, l, r), 2)?;
    ask(question_3(m, lo, hi), 3)?;
    ask(question_4(k_of(f, l), weights), 4)
}

/// "F 1 to 8,388,608, L 1 to 64, R 2 or 4, K at most 131,072? 2"
pub fn question_2(f: u32, l: u8, r: u8) -> bool {
    (1..=8_388_608).contains(&f)
        && (1..=64).contains(&l)
        && (r == 2 || r == 4)
        && k_of(f, l) <= 131_072
}

/// "m 1 to 20, lo ≤ hi ≤ 1000? 3"
pub fn question_3(m: u8, lo: u16, hi: u16) -> bool {
    (1..=20).contains(&m) && lo <= hi && hi <= 1000
}

/// "Bytes of the weights a multiple of 4, D from 1 to the smaller of K and
/// 1,024, weights summing to 1 to 4,294,967,295? 4"
pub fn question_4(k: usize, weights: &[u8]) -> bool {
    if weights.len() % 4 != 0 {
        return false;
    }
    let d = weights.len() / 4;
    if d < 1 || d > k.min(1024) {
        return false;
    }
    let sum = sum_of_weights(&numbers_of_weights(weights));
    (1..=4_294_967_295).contains(&sum)
}

/// "Writer: file length F? 5."
pub fn question_5(file_length: usize, f: u32) -> bool {
    file_length == f as usize
}

/// "Start not 0? 6."
pub fn question_6(start: u32) -> bool {
    start != 0
}

/// "Wanted at most 1,000,000 and buffer at least wanted times (n+1)? 7."
pub fn question_7(wanted: usize, buffer_length: usize, n_bases: usize) -> bool {
    wanted <= 1_000_000 && buffer_length as u128 >= wanted as u128 * (n_bases as u128 + 1)
}

/// "Number list at least D long? 8"
pub fn question_8(list_length: usize, d: usize) -> bool {
    list_length >= d
}

/// "Read check: n letters? 9."
pub fn question_9(read_length: usize, n_bases: usize) -> bool {
    read_length == n_bases
}

/// "All of A, C, G, T? 10."
pub fn question_10(read: &[u8]) -> bool {
    read.iter()
        .all(|&letter| letter == b'A' || letter == b'C' || letter == b'G' || letter == b'T')
}

/// "Check sums all 0? 11." In document 02, Item 3: "Question 11 now says no exactly
/// if there is no such word", that is, none that the read can be mended to.
pub fn question_11(mended: &Option<Mended>) -> bool {
    mended.is_some()
}

/// "Seed not 0? 12." In document 02, Item 3: "the seed and screen questions look at
/// the mended strand".
pub fn question_12(seed: u32) -> bool {
    seed != 0
}

/// "Screen passed? 13." Of the mended strand, as 12.
pub fn question_13(outcome: Outcome) -> bool {
    outcome == Outcome::Passes
}

/// "Shelving: count times (4+L) within the shelf? 14." The same of restoring. Document
/// 02, Item 6: "Records are 9 + L bytes, also for question 14 and shelving's 16."
pub fn question_14(count: usize, record_length: usize, shelf_length: usize) -> bool {
    count as u128 * record_length as u128 <= shelf_length as u128
}

/// "The first record of this seed, if any, has this payload? 15." Document 02, Item
/// 5: a clean read takes over what stands there as mended "even where the payloads
/// differ", and "every other one with a different payload is refused under 15".
pub fn question_15(first: Option<&Record>, payload: &[u8], state: State) -> bool {
    match first {
        None => true,
        Some(there) => state.takes_over(there.state) || there.payload == payload,
    }
}

/// Document 02, Item 6: "A repeat or replacement on a record whose count is
/// 4,294,967,295 is refused as 20, after question 15." A read whose seed stands there is
/// one of the two, once 15 has said yes.
pub fn question_20(first: Option<&Record>) -> bool {
    match first {
        None => true,
        Some(there) => there.behind != 4_294_967_295,
    }
}

/// "If the seed is new, space for a record? 16", a record of 9 + L bytes as in 14.
pub fn question_16_shelf(count: usize, record_length: usize, shelf_length: usize) -> bool {
    (count as u128 + 1) * record_length as u128 <= shelf_length as u128
}

/// "Then, in the C form alone: buffer at least 4 + L bytes? 16" Seed and payload go
/// there, no state and no count: document 02, Items 5 and 6, changes "shelving's 16"
/// alone.
pub fn question_16_c_form(buffer_length: usize, l: u8) -> bool {
    buffer_length >= 4 + usize::from(l)
}

/// "No seed 0 on the shelf? 17."
pub fn question_17(seeds_on_the_shelf: &[u32]) -> bool {
    seeds_on_the_shelf.iter().all(|&seed| seed != 0)
}

/// "File at least K·L, marks at least K? 18."
pub fn question_18(file_length: usize, marks_length: usize, k: usize, l: u8) -> bool {
    file_length >= k * usize::from(l) && marks_length >= k
}

/// Document 02, Item 2: "a buffer too short for the card is then refused as 19"
pub fn question_19(buffer_length: usize, card_length: usize) -> bool {
    buffer_length >= card_length
}

/// Document 02, Item 8: "If neither call passes, the pair is refused as 21, after the
/// card questions."
pub fn question_21(first_passes: bool, second_passes: bool) -> bool {
    first_passes || second_passes
}

/// Document 02, Item 14: "every call is handed both and checks W only if it is
/// there. Without it any W handed is ignored" and "right after question 4 in every
/// call, a W below 2 or above F is refused as 27"
pub fn question_27(f: u32, dealt: bool, width: u32) -> bool {
    !dealt || (2..=f).contains(&width)
}

/// Document 02, Item 14: "a source or target of fewer than F bytes comes next as
/// 28"
pub fn question_28(f: u32, source_length: usize, target_length: usize) -> bool {
    source_length >= f as usize && target_length >= f as usize
}

#[cfg(test)]
mod tests {
    use super::*;

    fn weights(numbers: &[u32]) -> Vec<u8> {
        numbers.iter().flat_map(|n| n.to_be_bytes()).collect()
    }

    fn two_to_four(f: u32, l: u8, r: u8, m: u8, lo: u16, hi: u16, w: &[u8]) -> u8 {
        match questions_2_to_4(f, l, r, m, lo, hi, w) {
            Ok(()) => 0,
            Err(Refusal(number)) => number,
        }
    }

    /// Bench example: "D=4 with K=4 is taken, D=5 is 4; weights all 0 are 4."
    #[test]
    fn bench_d_and_weights() {
        assert_eq!(two_to_four(4, 1, 2, 15, 214, 1000, &weights(&[1; 4])), 0);
        assert_eq!(two_to_four(4, 1, 2, 15, 214, 1000, &weights(&[1; 5])), 4);
        assert_eq!(two_to_four(4, 1, 2, 15, 214, 1000, &weights(&[0; 4])), 4);
        assert_eq!(two_to_four(4, 1, 2, 15, 214, 1000, &weights(&[0, 0])), 4);
    }

    #[test]
    fn question_2_edges() {
        let w = weights(&[1]);
        for (f, l, r, expected) in [
            (0, 1, 2, 2),
            (1, 1, 2, 0),
            (131_072, 1, 2, 0),
            (131_073, 1, 2, 2),
            (262_144, 2, 4, 0),
            (262_145, 2, 4, 2),
            (8_388_608, 64, 4, 0),
            (8_388_608, 63, 4, 2),
            (8_388_609, 64, 4, 2),
            (u32::MAX, 64, 4, 2),
            (u32::MAX, 0, 4, 2),
            (1, 0, 2, 2),
            (1, 64, 2, 0),
            (1, 65, 2, 2),
            (1, 255, 2, 2),
            (1, 1, 0, 2),
            (1, 1, 1, 2),
            (1, 1, 3, 2),
            (1, 1, 4, 0),
            (1, 1, 5, 2),
            (1, 1, 255, 2),
        ] {
            assert_eq!(
                two_to_four(f, l, r, 20, 0, 1000, &w),
                expected,
                "{f} {l} {r}"
            );
        }
    }

    #[test]
    fn question_3_edges() {
        let w = weights(&[1]);
        for (m, lo, hi, expected) in [
            (0, 0, 1000, 3),
            (1, 0, 1000, 0),
            (20, 0, 1000, 0),
            (21, 0, 1000, 3),
            (255, 0, 1000, 3),
            (5, 1000, 1000, 0),
            (5, 0, 0, 0),
            (5, 500, 499, 3),
            (5, 0, 1001, 3),
            (5, 1001, 1001, 3),
            (5, 65_535, 65_535, 3),
            (5, 1001, 1000, 3),
        ] {
            assert_eq!(
                two_to_four(1, 1, 2, m, lo, hi, &w),
                expected,
                "{m} {lo} {hi}"
            );
        }
    }

    #[test]
    fn question_4_edges() {
        let go = |k: u32, w: &[u8]| two_to_four(k, 1, 2, 20, 0, 1000, w);
        assert_eq!(go(4, &[]), 4);
        assert_eq!(go(4, &[0, 0, 1]), 4);
        assert_eq!(go(4, &[0, 0, 0, 1]), 0);
        assert_eq!(go(4, &[0, 0, 0, 1, 0]), 4);
        assert_eq!(go(2000, &weights(&[1; 1024])), 0);
        assert_eq!(go(2000, &weights(&[1; 1025])), 4);
        assert_eq!(go(1024, &weights(&[1; 1024])), 0);
        assert_eq!(go(1023, &weights(&[1; 1024])), 4);
        assert_eq!(go(4, &weights(&[u32::MAX])), 0);
        assert_eq!(go(4, &weights(&[u32::MAX, 0])), 0);
        assert_eq!(go(4, &weights(&[u32::MAX, 1])), 4);
        assert_eq!(go(4, &weights(&[u32::MAX - 1, 1])), 0);
        assert_eq!(go(4, &weights(&[u32::MAX; 4])), 4);
        assert_eq!(go(2000, &weights(&[u32::MAX; 1024])), 4);
        assert_eq!(go(4, &weights(&[0x8000_0000, 0x8000_0000])), 4);
        assert_eq!(go(4, &weights(&[0, 0, 0, 1])), 0);
    }

    /// "The first "no" gives the number": 2 before 3 before 4.
    #[test]
    fn lower_numbers_come_first() {
        assert_eq!(two_to_four(0, 0, 0, 0, 1, 0, &[]), 2);
        assert_eq!(two_to_four(1, 1, 2, 0, 1, 0, &[]), 3);
        assert_eq!(two_to_four(1, 1, 2, 1, 0, 0, &[]), 4);
    }

    /// From 2 to F, if the field is there.
    #[test]
    fn question_27_edges() {
        for (f, width, yes) in [
            (4, 0, false),
            (4, 1, false),
            (4, 2, true),
            (4, 4, true),
            (4, 5, false),
            (4, u32::MAX, false),
            (2, 2, true),
            (2, 1, false),
            (2, 3, false),
            (1, 0, false),
            (1, 1, false),
            (1, 2, false),
            (8_388_608, 8_388_608, true),
            (8_388_608, 8_388_609, false),
        ] {
            assert_eq!(question_27(f, true, width), yes, "{f} {width}");
            assert!(question_27(f, false, width), "{f} {width}");
        }
    }

    /// One call that passes is enough, and both are no more.
    #[test]
    fn question_21_edges() {
        assert!(question_21(true, true));
        assert!(question_21(true, false));
        assert!(question_21(false, true));
        assert!(!question_21(false, false));
    }

    #[test]
    fn question_28_edges() {
        for (source, target, yes) in [
            (4, 4, true),
            (3, 4, false),
            (4, 3, false),
            (3, 3, false),
            (5, 4, true),
            (4, 5, true),
            (5, 3, false),
            (3, 5, false),
            (0, 4, false),
            (usize::MAX, usize::MAX, true),
        ] {
            assert_eq!(question_28(4, source, target), yes, "{source} {target}");
        }
    }

    /// Clean or mended over clean or mended, with the same payload and another: 15 says
    /// no of another payload, but not of a clean read over a mended record.
    #[test]
    fn question_15_edges() {
        use State::{Clean, Mended};
        for (read, there, other_payload_is_fine) in [
            (Clean, Clean, false),
            (Clean, Mended, true),
            (Mended, Clean, false),
            (Mended, Mended, false),
        ] {
            let record = Record {
                seed: 1,
                payload: &[3, 4],
                state: there,
                behind: 1,
            };
            assert!(question_15(Some(&record), &[3, 4], read));
            for payload in [[3, 5], [2, 4], [0, 0]] {
                assert_eq!(
                    question_15(Some(&record), &payload, read),
                    other_payload_is_fine
                );
            }
        }
        assert!(question_15(None, &[3, 4], Clean));
        assert!(question_15(None, &[3, 4], Mended));
    }

    /// One below the largest count is the last that takes a read more, whatever else
    /// stands in the record.
    #[test]
    fn question_20_edges() {
        for state in [State::Clean, State::Mended] {
            for (behind, yes) in [
                (0, true),
                (1, true),
                (0x7FFF_FFFF, true),
                (0x8000_0000, true),
                (0x00FF_FFFF, true),
                (0xFFFF_FF00, true),
                (4_294_967_294, true),
                (4_294_967_295, false),
            ] {
                let record = Record {
                    seed: 1,
                    payload: &[3, 4],
                    state,
                    behind,
                };
                assert_eq!(question_20(Some(&record)), yes, "{behind}");
            }
        }
        assert!(question_20(None));
    }

    /// Records of 9 + L bytes: for L = 1 ten of them, one byte less is too few.
    #[test]
    fn space_for_records() {
        for count in [1, 2, 3, 1000] {
            assert!(question_14(count, 10, 10 * count));
            assert!(!question_14(count, 10, 10 * count - 1));
            assert!(question_16_shelf(count - 1, 10, 10 * count));
            assert!(!question_16_shelf(count - 1, 10, 10 * count - 1));
        }
        assert!(question_16_c_form(5, 1));
        assert!(!question_16_c_form(4, 1));
    }

    /// Largest numbers do not wrap.
    #[test]
    fn large_numbers() {
        assert!(!question_14(usize::MAX, 10, usize::MAX));
        assert!(!question_14(usize::MAX, 73, 65_536));
        assert!(question_14(0, 73, 0));
        assert!(!question_7(usize::MAX, usize::MAX, 288));
        assert!(!question_7(1_000_001, usize::MAX, 288));
        assert!(question_7(1_000_000, 289_000_000, 288));
        assert!(!question_7(1_000_000, 288_999_999, 288));
        assert!(!question_16_shelf(usize::MAX, 10, usize::MAX));
    }
}
