//! Item 6 of document 02, "Read counts on the lane sheet": "The lane crew want the reads
//! behind each droplet."
//!
//! A record's count is called `behind` here, after the word on the sheet; `count` is the
//! shelf's count of records, as in document 01. `shelve` itself is in the module `shelf`,
//! and question 20 in `questions`.

use crate::check_bytes_letters_screen::Droplet;
use crate::clean_beats_mended::State;
use crate::pool_card::number_of_bytes;
use crate::shelf::Record;

/// "A record gains a four-byte count, most significant byte first, after its state": its
/// last four bytes. Takes a record's bytes.
pub fn behind_of_record(record: &[u8]) -> u32 {
    number_of_bytes(&record[record.len() - 4..])
}

/// A record's count becomes this one, and its other bytes stay.
pub fn write_behind(record: &mut [u8], behind: u32) {
    let start = record.len() - 4;
    record[start..].copy_from_slice(&behind.to_be_bytes());
}

/// "1 when accepted, one more at each repeat or replacement". Takes the first record of
/// the read's seed, if there is one.
///
/// Needs question 20 to have said yes.
pub fn behind_after(first: Option<&Record>) -> u32 {
    match first {
        None => 1,
        Some(there) => there.behind + 1,
    }
}

/// "the total over all records", in a width that cannot overflow.
pub fn total_behind(records: &[Record]) -> u128 {
    records.iter().map(|record| u128::from(record.behind)).sum()
}

/// "1 when accepted, one more at each repeat or replacement", said of the whole list and
/// not of one call after the other: how many reads of a seed are answered without a
/// refusal, if the seed finds space on a shelf that was empty.
///
/// Takes the legal reads of the seed, in their order. Up to the first clean one the
/// record is the first mended one, and from then on it is that clean one (Item 5). So in
/// each of the two stretches the reads with the payload of the stretch's first are
/// accepted, replace or repeat, and the others are refused under 15.
///
/// Needs at most 4,294,967,295 reads, so that question 20 never says no.
pub fn answered_of_a_seed(legal: &[&Droplet]) -> usize {
    let first_clean = legal
        .iter()
        .position(|droplet| State::of_read(droplet) == State::Clean)
        .unwrap_or(legal.len());
    let (before, from_then_on) = legal.split_at(first_clean);
    as_the_first(before) + as_the_first(from_then_on)
}

/// How many have the payload of the first.
fn as_the_first(droplets: &[&Droplet]) -> usize {
    droplets
        .iter()
        .filter(|droplet| droplet.payload == droplets[0].payload)
        .count()
}

#[cfg(test)]
mod tests {
    use super::*;
    use crate::check_bytes_letters_screen::{letters_of_bytes, read_check, strand_bytes};
    use crate::clean_beats_mended::records_after_a_list;
    use crate::pool_card::Handed;
    use crate::questions::Refusal;
    use crate::shelf::{records, shelve, Shelved};
    use std::collections::HashMap;

    const P_WEIGHTS: [u8; 8] = [0, 0, 0, 1, 0, 0, 0, 1];
    const P: Handed = Handed {
        f: 4,
        l: 1,
        r: 2,
        m: 15,
        lo: 214,
        hi: 1000,
        dealt: false,
        width: 0,
        weights: &P_WEIGHTS,
    };
    /// Without limits for C and G, so that other payloads are legal too.
    const LOOSE: Handed = Handed { lo: 0, ..P };
    const SEED_2: &[u8] = b"AAAAAAAAAAAAAAAGCGGCGTCCTCTG";
    const SEED_1: &[u8] = b"AAAAAAAAAAAAAAACTGCAATCGTCAT";
    const SEED_3: &[u8] = b"AAAAAAAAAAAAAAATAGCTCGAACACA";

    const REPEAT: Result<Shelved, Refusal> = Ok(Shelved::Repeat { count: 1 });
    const REPLACED: Result<Shelved, Refusal> = Ok(Shelved::Replaced { count: 1 });
    const TWENTY: Result<Shelved, Refusal> = Err(Refusal(20));
    const FIFTEEN: Result<Shelved, Refusal> = Err(Refusal(15));

    /// A clean read of seed 1 with this payload.
    fn clean(payload: u8) -> Vec<u8> {
        let read = letters_of_bytes(&strand_bytes(1, &[payload], 2));
        assert_eq!(read_check(&LOOSE, &read).map(|d| d.mended), Ok(0));
        read
    }

    /// A read that is mended to seed 1 with this payload.
    fn mended(payload: u8) -> Vec<u8> {
        let mut bytes = strand_bytes(1, &[payload], 2);
        bytes[6] ^= 0x21;
        let read = letters_of_bytes(&bytes);
        assert_eq!(read_check(&LOOSE, &read).map(|d| d.mended), Ok(1));
        read
    }

    /// A record of seed 1 with L = 1: seed, payload, state and count.
    fn record(payload: u8, state: u8, behind: [u8; 4]) -> Vec<u8> {
        [&[0, 0, 0, 1, payload, state][..], &behind].concat()
    }

    const FULL: [u8; 4] = [0xFF; 4];

    /// "a four-byte count, most significant byte first, after its state"
    #[test]
    fn where_the_count_stands() {
        let mut bytes = record(0xE4, 7, [0x12, 0x34, 0x56, 0x78]);
        assert_eq!(behind_of_record(&bytes), 0x1234_5678);
        assert_eq!(records(&bytes, 1, 1)[0].behind, 305_419_896);
        write_behind(&mut bytes, 0x0102_0304);
        assert_eq!(bytes, [0, 0, 0, 1, 0xE4, 7, 1, 2, 3, 4]);
        write_behind(&mut bytes, 4_294_967_295);
        assert_eq!(bytes, [0, 0, 0, 1, 0xE4, 7, 0xFF, 0xFF, 0xFF, 0xFF]);
        assert_eq!(behind_of_record(&bytes), 4_294_967_295);
        // A payload of two bytes, and a record behind it.
        let two = [
            0, 0, 0, 1, 9, 9, 0, 0, 0, 1, 0, 0, 0, 0, 2, 9, 9, 1, 0, 2, 0, 0,
        ];
        let two = records(&two, 2, 2);
        assert_eq!((two[0].behind, two[1].behind), (256, 131_072));
    }

    /// "the total over all records" does not end where four bytes do.
    #[test]
    fn total_over_all_records() {
        let shelf = |counts: &[[u8; 4]]| -> Vec<u8> {
            counts.iter().flat_map(|&c| record(0xE4, 1, c)).collect()
        };
        let total = |counts: &[[u8; 4]]| total_behind(&records(&shelf(counts), counts.len(), 1));
        assert_eq!(total(&[]), 0);
        assert_eq!(total(&[[0, 0, 0, 0]]), 0);
        assert_eq!(total(&[[0, 0, 0, 3], [0, 0, 1, 0], [0, 0, 0, 0]]), 259);
        assert_eq!(total(&[FULL, [0, 0, 0, 1]]), 4_294_967_296);
        assert_eq!(total(&[FULL, FULL, FULL]), 12_884_901_885);
        // Bytes past the count are no records.
        let lent = shelf(&[[0, 0, 0, 5], FULL]);
        assert_eq!(total_behind(&records(&lent, 1, 1)), 5);
        assert_eq!(total_behind(&records(&lent, 0, 1)), 0);
    }

    /// The first four of document 01's five lines, and AAAN, which is refused: the counts
    /// are 1, 2 and 1, and their total is 4.
    #[test]
    fn five_lines() {
        let mut shelf = [0x99; 32];
        let mut count = 0;
        let mut answered = 0;
        for read in [SEED_2, SEED_1, SEED_3, SEED_1, b"AAAN"] {
            let answer = shelve(&P, read, &mut shelf, count);
            answered += u128::from(answer.is_ok());
            if let Ok(Shelved::Accepted { count: after }) = answer {
                count = after;
            }
        }
        let on_shelf = records(&shelf, count, 1);
        let counts: Vec<u32> = on_shelf.iter().map(|record| record.behind).collect();
        assert_eq!(counts, [1, 2, 1]);
        assert_eq!(total_behind(&on_shelf), 4);
        assert_eq!(answered, 4);
        assert_eq!(shelf[6..10], [0, 0, 0, 1]);
        assert_eq!(shelf[16..20], [0, 0, 0, 2]);
        assert_eq!(shelf[26..], [0, 0, 0, 1, 0x99, 0x99]);
    }

    /// Counts and the count of one read more, byte by byte.
    const ONE_MORE: [([u8; 4], [u8; 4]); 12] = [
        ([0, 0, 0, 0], [0, 0, 0, 1]),
        ([0, 0, 0, 1], [0, 0, 0, 2]),
        ([0, 0, 0, 0x7F], [0, 0, 0, 0x80]),
        ([0, 0, 0, 0xFF], [0, 0, 1, 0]),
        ([0, 0, 0xFF, 0xFF], [0, 1, 0, 0]),
        ([0, 0xFF, 0xFF, 0xFF], [1, 0, 0, 0]),
        ([0x7F, 0xFF, 0xFF, 0xFF], [0x80, 0, 0, 0]),
        ([0, 0, 0xFE, 0xFF], [0, 0, 0xFF, 0]),
        ([1, 0, 0, 0], [1, 0, 0, 1]),
        ([0xFF, 0xFF, 0, 0xFF], [0xFF, 0xFF, 1, 0]),
        ([0xFE, 0xFF, 0xFF, 0xFF], [0xFF, 0, 0, 0]),
        // 4,294,967,294 just fits.
        ([0xFF, 0xFF, 0xFF, 0xFE], [0xFF, 0xFF, 0xFF, 0xFF]),
    ];

    /// "one more at each repeat": the count's bytes change and nothing else, a state byte
    /// that is neither 0 nor 1 included, nor the bytes past the records.
    #[test]
    fn one_more_at_each_repeat() {
        for (there, after) in ONE_MORE {
            for state in [0, 1, 2, 128, 255] {
                let past = [0x99, 0xFF, 0xFF];
                let mut shelf = [&record(0xE4, state, there), &past[..]].concat();
                let expected = [&record(0xE4, state, after), &past[..]].concat();
                assert_eq!(shelve(&LOOSE, &mended(0xE4), &mut shelf, 1), REPEAT);
                assert_eq!(shelf, expected, "{there:?} {state}");
            }
            let mut shelf = record(0xE4, 0, there);
            assert_eq!(shelve(&LOOSE, &clean(0xE4), &mut shelf, 1), REPEAT);
            assert_eq!(shelf, record(0xE4, 0, after), "{there:?}");
        }
    }

    /// "one more at each .. replacement": payload, state and count, and nothing else.
    #[test]
    fn one_more_at_each_replacement() {
        for (there, after) in ONE_MORE {
            for state in [1, 2, 128, 255] {
                for payload in [0xE4, 0xE5, 0x00, 0xFF] {
                    let past = [0x99, 0xFF, 0xFF];
                    let mut shelf = [&record(payload, state, there), &past[..]].concat();
                    let expected = [&record(0xE4, 0, after), &past[..]].concat();
                    assert_eq!(shelve(&P, SEED_1, &mut shelf, 1), REPLACED);
                    assert_eq!(shelf, expected, "{there:?} {state} {payload}");
                }
            }
        }
    }

    /// "A repeat or replacement on a record whose count is 4,294,967,295 is refused as
    /// 20, after question 15": of the reads of its seed, those that 15 refuses are 15
    /// still, and all others 20. Nothing changes.
    #[test]
    fn full_counts() {
        for state in [0, 1, 2, 128, 255] {
            let there = [&record(0xE4, state, FULL)[..], &[0x99; 12]].concat();
            let of_a_clean_other = if state == 0 { FIFTEEN } else { TWENTY };
            for (read, answer) in [
                (clean(0xE4), TWENTY),
                (mended(0xE4), TWENTY),
                (clean(0xE5), of_a_clean_other),
                (clean(0x1B), of_a_clean_other),
                (mended(0xE5), FIFTEEN),
                (mended(0x1B), FIFTEEN),
            ] {
                let mut shelf = there.clone();
                assert_eq!(shelve(&LOOSE, &read, &mut shelf, 1), answer, "{state}");
                assert_eq!(shelf, there);
            }
        }
    }

    /// The questions before 20 come first, on a record that it would refuse; 16 is asked
    /// of new seeds alone, and other records' counts are not asked for.
    #[test]
    fn order_of_question_20() {
        let there = [&record(0xE4, 1, FULL)[..], &[0x99; 9]].concat();
        let go = |handed: &Handed, read: &[u8], count: usize| {
            let mut shelf = there.clone();
            let answer = shelve(handed, read, &mut shelf, count);
            assert_eq!(shelf, there);
            answer
        };
        assert_eq!(go(&LOOSE, SEED_1, 1), TWENTY);
        assert_eq!(go(&Handed { f: 0, ..LOOSE }, SEED_1, 1), Err(Refusal(2)));
        assert_eq!(go(&Handed { m: 0, ..LOOSE }, SEED_1, 1), Err(Refusal(3)));
        let no_weights = Handed {
            weights: &[],
            ..LOOSE
        };
        assert_eq!(go(&no_weights, SEED_1, 1), Err(Refusal(4)));
        let dealt = Handed {
            dealt: true,
            ..LOOSE
        };
        assert_eq!(go(&dealt, SEED_1, 1), Err(Refusal(27)));
        assert_eq!(go(&LOOSE, SEED_1, 2), Err(Refusal(14)));
        assert_eq!(go(&LOOSE, &SEED_1[..27], 1), Err(Refusal(9)));
        assert_eq!(go(&LOOSE, &[b'N'; 28], 1), Err(Refusal(10)));
        assert_eq!(go(&LOOSE, &[b'T'; 28], 1), Err(Refusal(11)));
        assert_eq!(go(&LOOSE, &[b'A'; 28], 1), Err(Refusal(12)));
        assert_eq!(go(&Handed { m: 14, ..LOOSE }, SEED_1, 1), Err(Refusal(13)));
        assert_eq!(go(&LOOSE, &mended(0x1B), 1), FIFTEEN);
        // A byte short of a second record.
        assert_eq!(go(&LOOSE, SEED_2, 1), Err(Refusal(16)));
        // With space for it, a new seed is accepted beside a full count.
        let mut shelf = [&there[..], &[0x99; 3]].concat();
        let accepted = Ok(Shelved::Accepted { count: 2 });
        assert_eq!(shelve(&LOOSE, SEED_2, &mut shelf, 1), accepted);
        assert_eq!(shelf[..10], there[..10]);
        assert_eq!(shelf[10..20], [0, 0, 0, 2, 0x69, 0, 0, 0, 0, 1]);
        assert_eq!(shelf[20..], [0x99; 2]);
        // Past the count no record is full: the read is accepted over one.
        let mut shelf = there.clone();
        let accepted = Ok(Shelved::Accepted { count: 1 });
        assert_eq!(shelve(&LOOSE, SEED_1, &mut shelf, 0), accepted);
        assert_eq!(shelf[..10], record(0xE4, 0, [0, 0, 0, 1]));
    }

    /// A count goes up to the largest and no further, by repeats and by a replacement.
    #[test]
    fn up_to_the_largest_count() {
        let last = |byte: u8| [0xFF, 0xFF, 0xFF, byte];
        let mut shelf = record(0xE4, 1, last(0xFC));
        assert_eq!(shelve(&LOOSE, &mended(0xE4), &mut shelf, 1), REPEAT);
        assert_eq!(shelf, record(0xE4, 1, last(0xFD)));
        assert_eq!(shelve(&LOOSE, &clean(0xE5), &mut shelf, 1), REPLACED);
        assert_eq!(shelf, record(0xE5, 0, last(0xFE)));
        assert_eq!(shelve(&LOOSE, &mended(0xE4), &mut shelf, 1), FIFTEEN);
        assert_eq!(shelve(&LOOSE, &clean(0xE5), &mut shelf, 1), REPEAT);
        for read in [clean(0xE5), mended(0xE5), clean(0xE5)] {
            assert_eq!(shelf, record(0xE5, 0, last(0xFF)));
            assert_eq!(shelve(&LOOSE, &read, &mut shelf, 1), TWENTY);
        }
        assert_eq!(shelf, record(0xE5, 0, last(0xFF)));
    }

    /// On a lent shelf with three records of one seed and a stranger between them, only
    /// the first one's count is asked for and changed.
    #[test]
    fn only_the_first_record_of_a_seed() {
        let stranger = vec![0, 0, 0, 9, 0xE4, 1, 0, 0, 0, 8];
        let around = |first: Vec<u8>, later: [u8; 4]| {
            let second = record(0xE4, 0, later);
            let third = record(0x11, 1, later);
            [
                &stranger,
                &first,
                &stranger,
                &second,
                &third,
                &vec![0x77; 9],
            ]
            .map(|bytes| bytes.as_slice())
            .concat()
        };
        let (repeat, replaced) = (
            Ok(Shelved::Repeat { count: 5 }),
            Ok(Shelved::Replaced { count: 5 }),
        );
        for later in [[0, 0, 0, 0], [0, 0, 0, 7], [0xFF, 0xFF, 0xFF, 0xFE], FULL] {
            for (state, behind, answer, state_after, behind_after) in [
                (0, [0, 0, 0, 0], repeat, 0, [0, 0, 0, 1]),
                (0, [0, 0, 0, 7], repeat, 0, [0, 0, 0, 8]),
                (0, [0xFF, 0xFF, 0xFF, 0xFE], repeat, 0, FULL),
                (0, FULL, TWENTY, 0, FULL),
                (1, [0, 0, 0, 0], replaced, 0, [0, 0, 0, 1]),
                (2, [0, 0, 0xFF, 0xFF], replaced, 0, [0, 1, 0, 0]),
                (255, [0xFF, 0xFF, 0xFF, 0xFE], replaced, 0, FULL),
                (1, FULL, TWENTY, 1, FULL),
                (255, FULL, TWENTY, 255, FULL),
            ] {
                let mut shelf = around(record(0xE4, state, behind), later);
                assert_eq!(shelve(&P, SEED_1, &mut shelf, 5), answer);
                let expected = around(record(0xE4, state_after, behind_after), later);
                assert_eq!(shelf, expected, "{state} {behind:?} {later:?}");
            }
        }
    }

    /// Lists of droplets of one seed, and how many of them are not refused: m and M are
    /// mended reads of two payloads, c and C clean ones of the same two.
    #[test]
    fn answered_reads_of_a_seed() {
        for (list, answered) in [
            ("", 0),
            ("m", 1),
            ("c", 1),
            ("mm", 2),
            ("cc", 2),
            ("mc", 2),
            ("cm", 2),
            ("mM", 1),
            ("mC", 2),
            ("cM", 1),
            ("cC", 1),
            // The second replaces, the third has the payload from before.
            ("mCm", 2),
            ("mCc", 2),
            ("mCM", 3),
            ("mCC", 3),
            ("mMmMC", 3),
            ("mMmMc", 3),
            ("MmcmCcMm", 5),
        ] {
            let droplets: Vec<Droplet> = list
                .chars()
                .map(|letter| {
                    let mut payload = [0; 64];
                    payload[0] = u8::from(letter.is_uppercase());
                    Droplet {
                        seed: 1,
                        payload,
                        mended: usize::from("mM".contains(letter)),
                    }
                })
                .collect();
            let droplets: Vec<&Droplet> = droplets.iter().collect();
            assert_eq!(answered_of_a_seed(&droplets), answered, "{list}");
        }
    }

    /// Numbers below a bound, one after the other.
    struct Numbers(u32);

    impl Numbers {
        fn below(&mut self, bound: u32) -> u32 {
            self.0 = self.0.wrapping_mul(1_664_525).wrapping_add(1_013_904_223);
            (self.0 >> 8) % bound
        }
    }

    /// What a read was made as. The account below goes by that alone.
    #[derive(Clone)]
    struct Made {
        letters: Vec<u8>,
        seed: u32,
        payload: Vec<u8>,
        clean: bool,
        legal: bool,
    }

    impl Made {
        /// A read of one of some seeds and payloads, three in four of them legal.
        fn any(numbers: &mut Numbers, l: u8, r: u8, seeds: u32) -> Made {
            let seed = (1 + numbers.below(seeds)).wrapping_mul(0x9E37_79B1);
            let mut payload: Vec<u8> = (0..l).map(|i| 0x1B ^ i.wrapping_mul(77)).collect();
            payload[usize::from(l) - 1] ^= 0x21 * (numbers.below(4) / 3) as u8;
            let mut bytes = strand_bytes(seed, &payload, r);
            let wrong = match numbers.below(3) {
                0 => 1 + numbers.below(u32::from(r / 2)) as usize,
                _ => 0,
            };
            for i in 0..wrong {
                bytes[3 * i + numbers.below(3) as usize] ^= 1 + numbers.below(255) as u8;
            }
            let mut letters = letters_of_bytes(&bytes);
            let legal = numbers.below(4) > 0;
            if !legal {
                match numbers.below(3) {
                    0 => letters.truncate(numbers.below(20) as usize),
                    1 => letters[numbers.below(20) as usize] = b'N',
                    _ => letters.fill(b'A'),
                }
            }
            Made {
                letters,
                seed,
                payload,
                clean: wrong == 0,
                legal,
            }
        }
    }

    /// How often the lists met each answer.
    #[derive(Default)]
    struct Met {
        accepted: u64,
        repeats: u64,
        replaced: u64,
        fifteen: u64,
        sixteen: u64,
        not_legal: u64,
    }

    /// What stands on the shelf of each seed, in a plain account beside it: its place, the
    /// payload and whether it is clean, and the reads counted.
    #[derive(Default)]
    struct Account(HashMap<u32, (usize, Vec<u8>, bool, u64)>);

    impl Account {
        /// Takes a read in, if it is not refused. Says whether it was.
        fn take(&mut self, made: &Made, fit: usize, met: &mut Met) -> bool {
            if !made.legal {
                met.not_legal += 1;
                return false;
            }
            let place = self.0.len();
            let Some((_, payload, clean, reads)) = self.0.get_mut(&made.seed) else {
                if place == fit {
                    met.sixteen += 1;
                    return false;
                }
                met.accepted += 1;
                let new = (place, made.payload.clone(), made.clean, 1);
                self.0.insert(made.seed, new);
                return true;
            };
            if made.clean && !*clean {
                met.replaced += 1;
                (*payload, *clean) = (made.payload.clone(), true);
            } else if *payload == made.payload {
                met.repeats += 1;
            } else {
                met.fifteen += 1;
                return false;
            }
            *reads += 1;
            true
        }

        /// The records' bytes.
        fn bytes(&self) -> Vec<u8> {
            let mut records = vec![Vec::new(); self.0.len()];
            for (seed, (place, payload, clean, reads)) in &self.0 {
                let seed = seed.to_be_bytes();
                let state = [u8::from(!*clean)];
                let count = &reads.to_be_bytes()[4..];
                records[*place] = [&seed, &payload[..], &state, count].concat();
            }
            records.concat()
        }
    }

    /// "for every list of reads from an empty shelf that total equals the reads answered
    /// without a refusal", and each record's count those of its seed: after every call of
    /// lists of all kinds, on shelves with space for all seeds, for some and for none.
    #[test]
    fn lists_from_an_empty_shelf() {
        let mut numbers = Numbers(2024);
        let mut met = Met::default();
        let (mut with_space, mut without) = (0, 0);
        for trial in 0..800usize {
            let handed = Handed {
                f: 64,
                l: [1, 2, 5, 33][trial % 4],
                r: [2, 4][trial / 4 % 2],
                m: 20,
                weights: &P_WEIGHTS[..4],
                ..LOOSE
            };
            let record_bytes = 9 + usize::from(handed.l);
            let seeds = 1 + numbers.below(8);
            let length = numbers.below(10 * record_bytes as u32);
            let lent: Vec<u8> = (0..length).map(|_| numbers.below(256) as u8).collect();
            let fit = lent.len() / record_bytes;
            let mut shelf = lent.clone();
            let (mut count, mut answered) = (0, 0);
            let mut account = Account::default();
            let mut reads = Vec::new();
            for _ in 0..numbers.below(60) {
                let made = Made::any(&mut numbers, handed.l, handed.r, seeds);
                reads.push(made.letters.clone());
                let answer = shelve(&handed, &made.letters, &mut shelf, count);
                answered += u128::from(answer.is_ok());
                if let Ok(Shelved::Accepted { count: after }) = answer {
                    count = after;
                }
                let taken = account.take(&made, fit, &mut met);
                assert_eq!(answer.is_ok(), taken, "{answer:?}");
                let expected = account.bytes();
                assert_eq!(shelf[..expected.len()], expected);
                assert_eq!(shelf[expected.len()..], lent[expected.len()..]);
                let on_shelf = records(&shelf, count, handed.l);
                assert_eq!(total_behind(&on_shelf), answered);
                for there in on_shelf {
                    assert_eq!(u64::from(there.behind), account.0[&there.seed].3);
                }
            }
            assert_eq!(count, account.0.len());
            let whole = records_after_a_list(&handed, &reads, fit);
            assert_eq!(whole.concat(), account.bytes());
            if count < fit {
                with_space += 1;
            } else {
                without += 1;
            }
        }
        // The lists have met each kind.
        assert!(met.accepted > 500 && met.repeats > 500 && met.replaced > 500);
        assert!(met.fifteen > 500 && met.sixteen > 500 && met.not_legal > 500);
        assert!(with_space > 100 && without > 100);
    }
}
