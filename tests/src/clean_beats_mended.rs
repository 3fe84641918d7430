//! Item 5 of document 02, "Clean beats mended": "A mended read and a clean read of
//! one droplet are not the same evidence."
//!
//! The states of reads and records, and what demand 3 says of the shelf after a list
//! of shelving calls. `shelve` itself is in the module `shelf`.

use crate::check_bytes_letters_screen::{read_check, Droplet};
use crate::pool_card::Handed;
use crate::read_counts::answered_of_a_seed;

/// "A record gains a state byte after its payload: 0 clean, 1 mended; any other byte
/// reads as mended."
#[derive(Clone, Copy, Debug, PartialEq, Eq)]
pub enum State {
    Clean,
    Mended,
}

impl State {
    /// How a record's state byte reads.
    pub fn of_byte(byte: u8) -> State {
        match byte {
            0 => State::Clean,
            _ => State::Mended,
        }
    }

    /// A read is mended if a byte of it was, whether one or two.
    pub fn of_read(droplet: &Droplet) -> State {
        match droplet.mended {
            0 => State::Clean,
            _ => State::Mended,
        }
    }

    /// The byte that a record of this state is given.
    pub fn byte(self) -> u8 {
        match self {
            State::Clean => 0,
            State::Mended => 1,
        }
    }

    /// "A clean read whose seed stands there as mended takes over payload and state".
    pub fn takes_over(self, there: State) -> bool {
        self == State::Clean && there == State::Mended
    }
}

/// Demand 3's opening sentence as document 02, Item 5, has it, said of the whole list
/// of reads and not of one call after the other: "In demand 3 the seeds still stand in
/// the order of their first legal reads. For each seed that found space, the record at
/// the end of the list is now its first clean read that was not refused, or its first
/// mended one if there is none." Its count is the number of reads behind it (Item 6).
///
/// Takes the reads offered, in their order, and how many whole records fit the buffer.
/// "A legal read is one that the read check accepts." The first clean read of a seed
/// that found space is not refused: its seed is new or stands there as mended, with a
/// count that is not full. So the first clean one among the legal reads is meant.
///
/// Needs questions 2 to 4 and 27 to have said yes, and at most 4,294,967,295 reads, so
/// that no count is full before the last of them.
pub fn records_after_a_list(handed: &Handed, reads: &[Vec<u8>], fit: usize) -> Vec<Vec<u8>> {
    let legal: Vec<Droplet> = reads
        .iter()
        .filter_map(|read| read_check(handed, read).ok())
        .collect();
    let mut seeds: Vec<u32> = Vec::new();
    for droplet in &legal {
        if !seeds.contains(&droplet.seed) {
            seeds.push(droplet.seed);
        }
    }
    seeds.truncate(fit);
    seeds
        .iter()
        .map(|&seed| {
            let of_seed: Vec<&Droplet> = legal.iter().filter(|d| d.seed == seed).collect();
            record_after_a_list(handed.l, &of_seed)
        })
        .collect()
}

/// The record at the end of the list, from all legal reads of its seed.
fn record_after_a_list(l: u8, of_seed: &[&Droplet]) -> Vec<u8> {
    let first = |state: State| {
        of_seed
            .iter()
            .find(|droplet| State::of_read(droplet) == state)
    };
    let (kept, state_byte) = match (first(State::Clean), first(State::Mended)) {
        (Some(clean), _) => (clean, 0),
        (None, Some(mended)) => (mended, 1),
        (None, None) => panic!("a seed that stands there has a legal read"),
    };
    let mut record = kept.seed.to_be_bytes().to_vec();
    record.extend(&kept.payload[..usize::from(l)]);
    record.push(state_byte);
    let behind = answered_of_a_seed(of_seed) as u32;
    record.extend(behind.to_be_bytes());
    record
}

#[cfg(test)]
mod tests {
    use super::*;
    use crate::check_bytes_letters_screen::{letters_of_bytes, strand_bytes};
    use crate::questions::Refusal;
    use crate::shelf::{shelve, Shelved};

    const WEIGHTS: [u8; 8] = [0, 0, 0, 1, 0, 0, 0, 1];
    /// Card P of document 01 with a screen that few of the reads below miss.
    const LOOSE: Handed = Handed {
        f: 4,
        l: 1,
        r: 2,
        m: 16,
        lo: 100,
        hi: 800,
        dealt: false,
        width: 0,
        weights: &WEIGHTS,
    };

    /// "0 clean, 1 mended; any other byte reads as mended."
    #[test]
    fn states() {
        assert_eq!(State::of_byte(0), State::Clean);
        for byte in 1..=255 {
            assert_eq!(State::of_byte(byte), State::Mended);
        }
        assert_eq!((State::Clean.byte(), State::Mended.byte()), (0, 1));
    }

    /// A mended read never takes over, and a clean record is never taken over.
    #[test]
    fn who_takes_over() {
        assert!(State::Clean.takes_over(State::Mended));
        assert!(!State::Clean.takes_over(State::Clean));
        assert!(!State::Mended.takes_over(State::Clean));
        assert!(!State::Mended.takes_over(State::Mended));
    }

    /// Numbers below a bound, one after the other.
    struct Numbers(u32);

    impl Numbers {
        fn below(&mut self, bound: u32) -> u32 {
            self.0 = self.0.wrapping_mul(1_664_525).wrapping_add(1_013_904_223);
            (self.0 >> 8) % bound
        }
    }

    /// A read of one of few seeds and payloads: clean, with one wrong byte, with as many
    /// wrong ones as bring it to another payload, or damaged.
    fn any_read(numbers: &mut Numbers, r: u8) -> Vec<u8> {
        let (seed, payload) = (numbers.below(7), numbers.below(3) as u8 * 77);
        let mut bytes = strand_bytes(seed, &[payload], r.into());
        let last = bytes.len() - 1;
        match numbers.below(8) {
            0..=2 => (),
            3 | 4 => bytes[numbers.below(7) as usize] ^= 1 + numbers.below(255) as u8,
            5 | 6 => {
                let other = strand_bytes(seed, &[payload ^ 0x21], r.into());
                let first = last - usize::from(r) / 2;
                bytes[first..].copy_from_slice(&other[first..]);
            }
            _ => {
                let mut read = letters_of_bytes(&bytes);
                match numbers.below(3) {
                    0 => read.truncate(numbers.below(28) as usize),
                    1 => read[numbers.below(28) as usize] = b'N',
                    _ => read = vec![b'T'; read.len()],
                }
                return read;
            }
        }
        letters_of_bytes(&bytes)
    }

    /// How often the lists below met each kind of answer.
    #[derive(Default)]
    struct Met {
        replaced_by_the_same: usize,
        replaced_by_another: usize,
        repeats: usize,
        sixteen: usize,
        fifteen_clean: usize,
        fifteen_mended: usize,
        not_legal: usize,
        still_mended: usize,
    }

    /// Offers the reads one by one, and holds the count to what each answer says.
    fn shelve_all(handed: &Handed, reads: &[Vec<u8>], shelf: &mut [u8], met: &mut Met) -> usize {
        let mut count = 0;
        for read in reads {
            let before = shelf.to_vec();
            let droplet = read_check(handed, read);
            let answer = shelve(handed, read, shelf, count);
            let changed = shelf.iter().zip(&before).filter(|(a, b)| a != b).count();
            match answer {
                Ok(Shelved::Accepted { count: after }) => {
                    assert_eq!(after, count + 1);
                    count = after;
                    continue;
                }
                Ok(Shelved::Replaced { count: after }) => {
                    assert_eq!(after, count);
                    // Whatever is taken over, the state byte and the last byte of the
                    // count are others than before.
                    match changed {
                        2 => met.replaced_by_the_same += 1,
                        _ => met.replaced_by_another += 1,
                    }
                    continue;
                }
                Ok(Shelved::Repeat { count: after }) => {
                    assert_eq!((after, changed), (count, 1));
                    met.repeats += 1;
                    continue;
                }
                Err(Refusal(15)) if droplet.unwrap().mended == 0 => met.fifteen_clean += 1,
                Err(Refusal(15)) => met.fifteen_mended += 1,
                Err(Refusal(16)) => met.sixteen += 1,
                Err(refusal) => {
                    assert_eq!(droplet, Err(refusal));
                    met.not_legal += 1;
                }
            }
            assert_eq!(shelf, before);
        }
        count
    }

    /// "For every list of shelving calls from an empty shelf under one accepted card":
    /// count, records and the bytes past them are those that the whole list gives.
    #[test]
    fn lists_of_shelving_calls() {
        let mut numbers = Numbers(99);
        let mut met = Met::default();
        for trial in 0..600usize {
            let handed = Handed {
                r: [2, 4][trial % 2],
                ..LOOSE
            };
            let lent: Vec<u8> = (0..numbers.below(75))
                .map(|_| numbers.below(256) as u8)
                .collect();
            let reads: Vec<Vec<u8>> = (0..numbers.below(40))
                .map(|_| any_read(&mut numbers, handed.r))
                .collect();
            let mut shelf = lent.clone();
            let count = shelve_all(&handed, &reads, &mut shelf, &mut met);

            let expected = records_after_a_list(&handed, &reads, lent.len() / 10);
            assert_eq!(count, expected.len());
            met.still_mended += expected.iter().filter(|record| record[5] == 1).count();
            let expected = expected.concat();
            assert_eq!(shelf[..expected.len()], expected);
            assert_eq!(shelf[expected.len()..], lent[expected.len()..]);
        }
        // The lists have met each kind.
        assert!(met.replaced_by_the_same > 50 && met.replaced_by_another > 50);
        assert!(met.repeats > 50 && met.sixteen > 50 && met.not_legal > 50);
        assert!(met.fifteen_clean > 50 && met.fifteen_mended > 50 && met.still_mended > 50);
    }

    /// Lists that document 02's words settle, with the records typed in: seed 1 of card P
    /// and its strands of payload E4 (clean, misread in its last byte) and of payload E5
    /// (misread so, and clean).
    #[test]
    fn records_after_short_lists() {
        let handed = Handed {
            m: 15,
            lo: 0,
            ..LOOSE
        };
        let strand = |payload: u8, wrong: u8| {
            let mut bytes = strand_bytes(1, &[payload], 2);
            bytes[6] ^= wrong;
            letters_of_bytes(&bytes)
        };
        let (clean, misread) = (strand(0xE4, 0), strand(0xE4, 0x21));
        let (other, other_misread) = (strand(0xE5, 0), strand(0xE5, 0x21));
        let seed_2 = b"AAAAAAAAAAAAAAAGCGGCGTCCTCTG".to_vec();
        let go = |reads: &[&Vec<u8>], fit: usize| {
            let reads: Vec<Vec<u8>> = reads.iter().copied().cloned().collect();
            records_after_a_list(&handed, &reads, fit).concat()
        };
        assert_eq!(go(&[], 9), []);
        assert_eq!(go(&[&clean], 0), []);
        assert_eq!(go(&[&misread], 9), [0, 0, 0, 1, 0xE4, 1, 0, 0, 0, 1]);
        assert_eq!(
            go(&[&misread, &clean], 9),
            [0, 0, 0, 1, 0xE4, 0, 0, 0, 0, 2]
        );
        assert_eq!(
            go(&[&clean, &misread], 9),
            [0, 0, 0, 1, 0xE4, 0, 0, 0, 0, 2]
        );
        // The second is refused under 15.
        assert_eq!(
            go(&[&other_misread, &misread], 9),
            [0, 0, 0, 1, 0xE5, 1, 0, 0, 0, 1]
        );
        // The second takes over and the third is refused.
        assert_eq!(
            go(&[&other_misread, &clean, &other], 9),
            [0, 0, 0, 1, 0xE4, 0, 0, 0, 0, 2]
        );
        // Of seed 1 a mended read, a clean one that takes over, and one that is refused.
        let record_of_2 = [0, 0, 0, 2, 0x69, 0, 0, 0, 0, 1];
        assert_eq!(
            go(&[&misread, &seed_2, &b"AAAN".to_vec(), &other, &clean], 9),
            [[0, 0, 0, 1, 0xE5, 0, 0, 0, 0, 2], record_of_2].concat()
        );
        assert_eq!(
            go(&[&misread, &seed_2, &other], 1),
            [0, 0, 0, 1, 0xE5, 0, 0, 0, 0, 2]
        );
    }
}
