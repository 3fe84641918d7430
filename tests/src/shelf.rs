//! Section "Shelf", with the state byte of Item 5 of document 02, "Clean beats mended",
//! and the count of Item 6, "Read counts on the lane sheet".

use crate::check_bytes_letters_screen::questions_9_to_13;
use crate::clean_beats_mended::State;
use crate::pool_card::{number_of_bytes, record_bytes_of, Handed};
use crate::questions::{ask, question_14, question_15, question_16_shelf, question_20, Refusal};
use crate::read_counts::{behind_after, behind_of_record, write_behind};

/// "Every answer but a refusal carries the count after it, which the next call
/// is handed".
#[derive(Clone, Copy, Debug, PartialEq, Eq)]
pub enum Shelved {
    /// "None there: the record is appended (accepted)."
    Accepted { count: usize },
    /// "Same payload: the answer is "repeat"." Document 02, Item 5: "Every other read
    /// with the same payload is a repeat", that is, every one that does not take over.
    Repeat { count: usize },
    /// Document 02, Item 5: "A clean read whose seed stands there as mended takes over
    /// payload and state, even where the payloads differ, and the answer is
    /// "replaced"". The count is as it was.
    Replaced { count: usize },
}

/// What stands in a record: seed and payload, and in document 02 "a state byte after its
/// payload" (Item 5) and "a four-byte count, most significant byte first, after its
/// state" (Item 6).
#[derive(Clone, Copy, Debug, PartialEq, Eq)]
pub struct Record<'a> {
    pub seed: u32,
    pub payload: &'a [u8],
    pub state: State,
    /// The record's count, the reads behind it.
    pub behind: u32,
}

/// "A shelf is a lent buffer and a count of records from its start".
///
/// Needs question 14 to have said yes.
pub fn records(shelf: &[u8], count: usize, l: u8) -> Vec<Record<'_>> {
    let state_at = 4 + usize::from(l);
    let record_bytes = record_bytes_of(l);
    shelf[..count * record_bytes]
        .chunks_exact(record_bytes)
        .map(|record| Record {
            seed: number_of_bytes(&record[..4]),
            payload: &record[4..state_at],
            state: State::of_byte(record[state_at]),
            behind: behind_of_record(record),
        })
        .collect()
}

/// "Shelving: count times (4+L) within the shelf? 14. Then 9 to 13. The first
/// record of this seed, if any, has this payload? 15. If the seed is new, space
/// for a record? 16", with 15 as document 02, Item 5, has it, and its Item 6: "A repeat
/// or replacement on a record whose count is 4,294,967,295 is refused as 20, after
/// question 15."
pub fn shelve(
    handed: &Handed,
    read: &[u8],
    shelf: &mut [u8],
    count: usize,
) -> Result<Shelved, Refusal> {
    handed.card_questions()?;
    let record_bytes = handed.record_bytes();
    ask(question_14(count, record_bytes, shelf.len()), 14)?;
    let droplet = questions_9_to_13(handed, read)?;
    let payload = &droplet.payload[..usize::from(handed.l)];
    let state = State::of_read(&droplet);

    // "A read that passes the check is compared with the first record of its
    // seed."
    let on_shelf = records(shelf, count, handed.l);
    let place = on_shelf
        .iter()
        .position(|record| record.seed == droplet.seed);
    let first = place.map(|place| &on_shelf[place]);
    ask(question_15(first, payload, state), 15)?;
    ask(question_20(first), 20)?;
    let takes_over = first.is_some_and(|there| state.takes_over(there.state));
    let behind = behind_after(first);

    match place {
        Some(place) => {
            let record = &mut shelf[place * record_bytes..(place + 1) * record_bytes];
            write_behind(record, behind);
            if !takes_over {
                return Ok(Shelved::Repeat { count });
            }
            write_payload_and_state(record, payload, state);
            Ok(Shelved::Replaced { count })
        }
        None => {
            ask(question_16_shelf(count, record_bytes, shelf.len()), 16)?;
            let record = &mut shelf[count * record_bytes..(count + 1) * record_bytes];
            record[..4].copy_from_slice(&droplet.seed.to_be_bytes());
            write_payload_and_state(record, payload, state);
            write_behind(record, behind);
            Ok(Shelved::Accepted { count: count + 1 })
        }
    }
}

/// A record's bytes between its seed and its count become these.
fn write_payload_and_state(record: &mut [u8], payload: &[u8], state: State) {
    let state_at = 4 + payload.len();
    record[4..state_at].copy_from_slice(payload);
    record[state_at] = state.byte();
}

#[cfg(test)]
mod tests {
    use super::*;
    use crate::check_bytes_letters_screen::{letters_of_bytes, read_check, strand_bytes};

    const P_WEIGHTS: [u8; 8] = [0, 0, 0, 1, 0, 0, 0, 1];
    const P: Handed = Handed {
        f: 4,
        l: 1,
        r: 2,
        m: 15,
        lo: 214,
        hi: 1000,
        dealt: false,
        width: 0,
        weights: &P_WEIGHTS,
    };
    const SEED_2: &[u8] = b"AAAAAAAAAAAAAAAGCGGCGTCCTCTG";
    const SEED_1: &[u8] = b"AAAAAAAAAAAAAAACTGCAATCGTCAT";
    const SEED_3: &[u8] = b"AAAAAAAAAAAAAAATAGCTCGAACACA";

    #[test]
    fn bench_reads_are_shelved() {
        let mut shelf = [0x99; 32];
        assert_eq!(
            shelve(&P, SEED_2, &mut shelf, 0),
            Ok(Shelved::Accepted { count: 1 })
        );
        assert_eq!(
            shelve(&P, SEED_1, &mut shelf, 1),
            Ok(Shelved::Accepted { count: 2 })
        );
        assert_eq!(
            shelve(&P, SEED_3, &mut shelf, 2),
            Ok(Shelved::Accepted { count: 3 })
        );
        assert_eq!(
            shelve(&P, SEED_1, &mut shelf, 3),
            Ok(Shelved::Repeat { count: 3 })
        );
        assert_eq!(shelve(&P, b"AAAN", &mut shelf, 3), Err(Refusal(9)));
        assert_eq!(shelf[..10], [0, 0, 0, 2, 0x69, 0, 0, 0, 0, 1]);
        assert_eq!(shelf[10..20], [0, 0, 0, 1, 0xE4, 0, 0, 0, 0, 2]);
        assert_eq!(shelf[20..30], [0, 0, 0, 3, 0x27, 0, 0, 0, 0, 1]);
        assert_eq!(shelf[30..], [0x99; 2]);
    }

    #[test]
    fn refusals_in_their_order_change_nothing() {
        let loose = Handed { lo: 0, ..P };
        let other_payload = letters_of_bytes(&strand_bytes(1, &[0x1B], 2));
        assert!(read_check(&loose, &other_payload).is_ok());
        // One record, clean, and a byte less than another one takes.
        let mut start = [0x55; 19];
        start[..10].copy_from_slice(&[0, 0, 0, 1, 0xE4, 0, 0, 0, 0, 7]);
        let go = |handed: &Handed, read: &[u8], count: usize| {
            let mut shelf = start;
            match shelve(handed, read, &mut shelf, count) {
                Ok(_) => 0,
                Err(Refusal(number)) => {
                    assert_eq!(shelf, start);
                    number
                }
            }
        };
        assert_eq!(
            go(
                &Handed {
                    f: 0,
                    m: 0,
                    ..loose
                },
                b"",
                9
            ),
            2
        );
        assert_eq!(
            go(
                &Handed {
                    m: 0,
                    weights: &[],
                    ..loose
                },
                b"",
                9
            ),
            3
        );
        assert_eq!(
            go(
                &Handed {
                    weights: &[],
                    ..loose
                },
                b"",
                9
            ),
            4
        );
        let dealt = Handed {
            dealt: true,
            ..loose
        };
        for width in [0, 1, 5, u32::MAX] {
            assert_eq!(go(&Handed { width, ..dealt }, b"", 9), 27);
            let no_weights = Handed {
                width,
                weights: &[],
                ..dealt
            };
            assert_eq!(go(&no_weights, b"", 9), 4);
            assert_eq!(go(&Handed { width, ..loose }, b"", 9), 14);
        }
        for width in [2, 4] {
            assert_eq!(go(&Handed { width, ..dealt }, b"", 9), 14);
            assert_eq!(go(&Handed { width, ..dealt }, SEED_1, 1), 0);
        }
        assert_eq!(go(&loose, b"", 2), 14);
        assert_eq!(go(&loose, b"", usize::MAX), 14);
        assert_eq!(go(&loose, SEED_2, 2), 14);
        assert_eq!(go(&loose, b"", 1), 9);
        assert_eq!(go(&loose, &[b'n'; 28], 1), 10);
        assert_eq!(go(&loose, &[b'T'; 28], 1), 11);
        assert_eq!(go(&loose, &[b'A'; 28], 1), 12);
        assert_eq!(go(&Handed { m: 14, ..loose }, SEED_2, 1), 13);
        assert_eq!(go(&loose, &other_payload, 1), 15);
        assert_eq!(go(&loose, SEED_2, 1), 16);
        assert_eq!(go(&loose, SEED_1, 1), 0); // a repeat needs no space
    }

    /// Without limits for C and G, so that other payloads are legal too.
    const LOOSE: Handed = Handed { lo: 0, ..P };

    /// A clean read of seed 1 with this payload.
    fn clean(payload: u8) -> Vec<u8> {
        let read = letters_of_bytes(&strand_bytes(1, &[payload], 2));
        assert_eq!(read_check(&LOOSE, &read).map(|d| d.mended), Ok(0));
        read
    }

    /// A read that is mended to seed 1 with this payload.
    fn mended(payload: u8) -> Vec<u8> {
        let mut bytes = strand_bytes(1, &[payload], 2);
        bytes[6] ^= 0x21;
        let read = letters_of_bytes(&bytes);
        assert_eq!(read_check(&LOOSE, &read).map(|d| d.mended), Ok(1));
        read
    }

    /// A strand of seed 1 with payload E4, misread in two bytes, where R = 2 can mend
    /// one, so that it is mended to another payload.
    fn wrongly_mended() -> (Vec<u8>, u8) {
        let printed = strand_bytes(1, &[0xE4], 2);
        let other = strand_bytes(1, &[0xE5], 2);
        let read = letters_of_bytes(&[&printed[..5], &other[5..]].concat());
        let droplet = read_check(&LOOSE, &read).unwrap();
        assert_eq!((droplet.seed, droplet.mended), (1, 1));
        assert_eq!(droplet.payload[0], 0xE5);
        (read, 0xE5)
    }

    /// A record of seed 1, its last byte the count.
    fn record(payload: u8, state: u8, behind: u8) -> [u8; 10] {
        [0, 0, 0, 1, payload, state, 0, 0, 0, behind]
    }

    /// The same, and a byte past it.
    fn record_and_99(payload: u8, state: u8, behind: u8) -> [u8; 11] {
        [0, 0, 0, 1, payload, state, 0, 0, 0, behind, 0x99]
    }

    const ACCEPTED: Result<Shelved, Refusal> = Ok(Shelved::Accepted { count: 1 });
    const REPEAT: Result<Shelved, Refusal> = Ok(Shelved::Repeat { count: 1 });
    const REPLACED: Result<Shelved, Refusal> = Ok(Shelved::Replaced { count: 1 });

    /// Document 02, Item 3: "the strings accepted are those of n legal letters within R/2
    /// bytes of a legal strand", and the shelf takes what the read check accepts. A
    /// record has seed and payload of the mended strand and the state mended, until a
    /// clean read of it comes.
    #[test]
    fn mended_reads_are_shelved() {
        // The first letter of seed 1, its last one, and one in the byte of its seed.
        let wrong_first: &[u8] = b"TAAAAAAAAAAAAAACTGCAATCGTCAT";
        let wrong_last: &[u8] = b"AAAAAAAAAAAAAAACTGCAATCGTCAC";
        let wrong_seed: &[u8] = b"AAAAAAAAAAAAAAATTGCAATCGTCAT";
        let misread = [wrong_first, wrong_last, wrong_seed];
        for first in misread {
            let mut shelf = [0x99; 11];
            assert_eq!(shelve(&P, first, &mut shelf, 0), ACCEPTED);
            assert_eq!(shelf, record_and_99(0xE4, 1, 1));
            for (again, behind) in misread.into_iter().zip(2..) {
                assert_eq!(shelve(&P, again, &mut shelf, 1), REPEAT);
                assert_eq!(shelf, record_and_99(0xE4, 1, behind));
            }
            assert_eq!(shelve(&P, SEED_1, &mut shelf, 1), REPLACED);
            assert_eq!(shelf, record_and_99(0xE4, 0, 5));
            let more = [wrong_last, SEED_1, wrong_seed, wrong_first, SEED_1];
            for (again, behind) in more.into_iter().zip(6..) {
                assert_eq!(shelve(&P, again, &mut shelf, 1), REPEAT);
                assert_eq!(shelf, record_and_99(0xE4, 0, behind));
            }
        }
        // Another payload for its seed, and no space, are found out after mending.
        let mut shelf = record_and_99(0xE5, 1, 3);
        assert_eq!(shelve(&P, wrong_first, &mut shelf, 1), Err(Refusal(15)));
        assert_eq!(shelve(&P, wrong_first, &mut [0; 9], 0), Err(Refusal(16)));
        // 14 comes first, and a mended seed of 0 is refused.
        assert_eq!(shelve(&P, wrong_first, &mut shelf, 2), Err(Refusal(14)));
        let mut of_seed_0 = [b'A'; 28];
        of_seed_0[15] = b'C';
        assert_eq!(shelve(&P, &of_seed_0, &mut shelf, 1), Err(Refusal(12)));
        assert_eq!(shelf, record_and_99(0xE5, 1, 3));
    }

    /// Document 02, Item 5: "0 clean, 1 mended", whatever stood there before, and 1 for
    /// two bytes mended as for one. Item 6: the count is "1 when accepted", whatever
    /// stood there.
    #[test]
    fn state_and_count_of_an_accepted_read() {
        for lent in [0, 1, 2, 0xFF] {
            let mut shelf = [lent; 11];
            assert_eq!(shelve(&P, SEED_1, &mut shelf, 0), ACCEPTED);
            assert_eq!(shelf, [0, 0, 0, 1, 0xE4, 0, 0, 0, 0, 1, lent]);
            let mut shelf = [lent; 11];
            assert_eq!(shelve(&LOOSE, &mended(0xE4), &mut shelf, 0), ACCEPTED);
            assert_eq!(shelf, [0, 0, 0, 1, 0xE4, 1, 0, 0, 0, 1, lent]);
            let r_4 = Handed { r: 4, ..LOOSE };
            for wrong in 0..=2 {
                let mut bytes = strand_bytes(0x1234_5678, &[0x9A], 4);
                for place in 0..wrong {
                    bytes[4 * place] ^= 0xFF;
                }
                let mut shelf = [lent; 11];
                let read = letters_of_bytes(&bytes);
                assert_eq!(read_check(&r_4, &read).map(|d| d.mended), Ok(wrong));
                assert_eq!(shelve(&r_4, &read, &mut shelf, 0), ACCEPTED);
                let state = u8::from(wrong > 0);
                let seed_payload_state = [0x12, 0x34, 0x56, 0x78, 0x9A, state];
                assert_eq!(shelf[..6], seed_payload_state);
                assert_eq!(shelf[6..], [0, 0, 0, 1, lent]);
            }
        }
    }

    /// "A clean read whose seed stands there as mended takes over payload and state, even
    /// where the payloads differ, and the answer is "replaced"", for every byte that reads
    /// as mended: "any other byte reads as mended". The state left is 0, so that it is
    /// done once.
    #[test]
    fn clean_takes_over() {
        for state in 1..=255 {
            for there in [0xE4, 0xE5, 0x00, 0x1B] {
                let mut shelf = record_and_99(there, state, 40);
                assert_eq!(shelve(&P, SEED_1, &mut shelf, 1), REPLACED);
                assert_eq!(shelf, record_and_99(0xE4, 0, 41), "{there} {state}");
                assert_eq!(shelve(&P, SEED_1, &mut shelf, 1), REPEAT);
                assert_eq!(
                    shelve(&LOOSE, &clean(0x1B), &mut shelf, 1),
                    Err(Refusal(15))
                );
                assert_eq!(shelf, record_and_99(0xE4, 0, 42), "{there} {state}");
            }
        }
        let (read, payload) = wrongly_mended();
        let mut shelf = [0x99; 10];
        assert_eq!(shelve(&LOOSE, &read, &mut shelf, 0), ACCEPTED);
        assert_eq!(shelf, record(payload, 1, 1));
        assert_eq!(shelve(&LOOSE, SEED_1, &mut shelf, 1), REPLACED);
        assert_eq!(shelf, record(0xE4, 0, 2));
        assert_eq!(shelve(&LOOSE, &read, &mut shelf, 1), Err(Refusal(15)));
        assert_eq!(shelf, record(0xE4, 0, 2));
    }

    /// "Every other read with the same payload is a repeat, and every other one with a
    /// different payload is refused under 15": a mended read over any state, and a clean
    /// one over a clean record. A repeat changes the count alone, and no state byte; a
    /// refusal changes nothing.
    #[test]
    fn every_other_read() {
        for state in 0..=255 {
            let mut shelf = record_and_99(0xE4, state, 40);
            let there = record_and_99(0xE4, state, 41);
            assert_eq!(shelve(&LOOSE, &mended(0xE4), &mut shelf, 1), REPEAT);
            assert_eq!(shelf, there);
            for other in [0xE5, 0x00, 0x1B] {
                let refused = shelve(&LOOSE, &mended(other), &mut shelf, 1);
                assert_eq!(refused, Err(Refusal(15)));
                assert_eq!(shelf, there);
            }
            let refused = shelve(&LOOSE, &wrongly_mended().0, &mut shelf, 1);
            assert_eq!((refused, shelf), (Err(Refusal(15)), there));
        }
        let mut shelf = record_and_99(0xE4, 0, 40);
        let there = record_and_99(0xE4, 0, 41);
        assert_eq!(shelve(&LOOSE, &clean(0xE4), &mut shelf, 1), REPEAT);
        assert_eq!(
            shelve(&LOOSE, &clean(0xE5), &mut shelf, 1),
            Err(Refusal(15))
        );
        assert_eq!(shelf, there);
    }

    /// All of a payload is taken over, and nothing beside the record.
    #[test]
    fn long_payload_is_taken_over() {
        let handed = Handed {
            f: 64,
            l: 64,
            weights: &[0, 0, 0, 1],
            ..LOOSE
        };
        let payload: [u8; 64] = std::array::from_fn(|i| 0x1B ^ (37 * i) as u8);
        let read = letters_of_bytes(&strand_bytes(0x1234_5678, &payload, 2));
        // A clean stranger before it and one behind it, and bytes past the records.
        let stranger = [&[9, 9, 9, 9][..], &[0xAA; 64], &[0, 9, 9, 9, 9]].concat();
        let seed = [0x12, 0x34, 0x56, 0x78];
        let wrong = [&seed[..], &[0x55; 64], &[1, 0x01, 0x02, 0x03, 0xFF]].concat();
        let right = [&seed[..], &payload, &[0, 0x01, 0x02, 0x04, 0x00]].concat();
        let again = [&seed[..], &payload, &[0, 0x01, 0x02, 0x04, 0x01]].concat();
        let around = |record: &[u8]| [&stranger, record, &stranger, &[0x77; 80]].concat();
        let mut shelf = around(&wrong);
        let answer = shelve(&handed, &read, &mut shelf, 3);
        assert_eq!(answer, Ok(Shelved::Replaced { count: 3 }));
        assert_eq!(shelf, around(&right));
        let answer = shelve(&handed, &read, &mut shelf, 3);
        assert_eq!(answer, Ok(Shelved::Repeat { count: 3 }));
        assert_eq!(shelf, around(&again));
    }

    /// A replacement needs no space and is asked for after 14 and 9 to 13; 15 comes
    /// before 16.
    #[test]
    fn full_shelves_and_the_order_of_questions() {
        let there = record(0x1B, 1, 6);
        let mut shelf = there;
        assert_eq!(
            shelve(&LOOSE, &mended(0xE4), &mut shelf, 1),
            Err(Refusal(15))
        );
        assert_eq!(shelve(&LOOSE, SEED_2, &mut shelf, 1), Err(Refusal(16)));
        assert_eq!(shelve(&LOOSE, SEED_1, &mut shelf, 2), Err(Refusal(14)));
        assert_eq!(
            shelve(&LOOSE, &SEED_1[..27], &mut shelf, 1),
            Err(Refusal(9))
        );
        let screened = Handed { m: 14, ..LOOSE };
        assert_eq!(shelve(&screened, SEED_1, &mut shelf, 1), Err(Refusal(13)));
        assert_eq!(shelf, there);
        assert_eq!(shelve(&LOOSE, SEED_1, &mut shelf, 1), REPLACED);
        assert_eq!(shelf, record(0xE4, 0, 7));
        // 14 of one record, and space for the next, are 10 bytes each.
        for length in 0..=20 {
            let mut shelf = vec![9; length];
            let answer = shelve(&LOOSE, SEED_1, &mut shelf, 1);
            let expected = match length {
                0..10 => Err(Refusal(14)),
                10..20 => Err(Refusal(16)),
                _ => Ok(Shelved::Accepted { count: 2 }),
            };
            assert_eq!(answer, expected, "{length}");
        }
    }

    /// Only the first record of a seed counts, on a shelf that holds two: neither payload,
    /// state nor count of the second one is looked at or changed.
    #[test]
    fn compared_with_the_first_record_of_its_seed() {
        let two = |first: [u8; 2], first_behind: u8, second: [u8; 2], behind: u8| {
            let first = record(first[0], first[1], first_behind);
            [first, record(second[0], second[1], behind)].concat()
        };
        let (repeat, replaced) = (
            Ok(Shelved::Repeat { count: 2 }),
            Ok(Shelved::Replaced { count: 2 }),
        );
        for second in [[0xE4, 0], [0xE4, 1], [0x11, 0], [0x11, 1], [0x11, 7]] {
            for (first, answer, after, behind) in [
                ([0x11, 0], Err(Refusal(15)), [0x11, 0], 20),
                ([0xE4, 0], repeat, [0xE4, 0], 21),
                ([0x11, 1], replaced, [0xE4, 0], 21),
                ([0xE4, 1], replaced, [0xE4, 0], 21),
                ([0xE4, 9], replaced, [0xE4, 0], 21),
            ] {
                let mut shelf = two(first, 20, second, 30);
                assert_eq!(shelve(&P, SEED_1, &mut shelf, 2), answer);
                assert_eq!(shelf, two(after, behind, second, 30));
            }
            for (first, answer, behind) in [
                ([0x11, 0], Err(Refusal(15)), 20),
                ([0x11, 1], Err(Refusal(15)), 20),
                ([0xE4, 0], repeat, 21),
                ([0xE4, 1], repeat, 21),
                ([0xE4, 9], repeat, 21),
            ] {
                let mut shelf = two(first, 20, second, 30);
                assert_eq!(shelve(&LOOSE, &mended(0xE4), &mut shelf, 2), answer);
                assert_eq!(shelf, two(first, behind, second, 30));
            }
        }
        // Bytes past the count are no records.
        let mut shelf = two([0x11, 1], 20, [0xE4, 1], 30);
        assert_eq!(shelve(&P, SEED_1, &mut shelf, 0), ACCEPTED);
        assert_eq!(shelf, two([0xE4, 0], 1, [0xE4, 1], 30));
    }

    /// A record of seed 0 on a shelf lent by another hand does not hinder.
    #[test]
    fn seed_0_on_the_shelf_is_not_asked_for() {
        let mut shelf = [0; 20];
        assert_eq!(
            shelve(&P, SEED_1, &mut shelf, 1),
            Ok(Shelved::Accepted { count: 2 })
        );
        assert_eq!(shelf[..10], [0; 10]);
        assert_eq!(shelf[10..], record(0xE4, 0, 1));
    }

    /// An empty buffer is a shelf too: everything new is 16.
    #[test]
    fn shelf_of_length_0() {
        assert_eq!(shelve(&P, SEED_1, &mut [], 0), Err(Refusal(16)));
        assert_eq!(shelve(&P, b"", &mut [], 0), Err(Refusal(9)));
    }
}
