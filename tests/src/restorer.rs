//! Section "Restorer".

use crate::droplet::{payload, set_of_segments, xor_into};
use crate::pool_card::Handed;
use crate::questions::{ask, question_14, question_17, question_18, question_8, Refusal};
use crate::shelf::{records, Record};

/// "The answer holds present (marks set), sweeps, and contradictions, counted
/// after the last sweep".
#[derive(Clone, Copy, Debug, PartialEq, Eq)]
pub struct Restored {
    pub present: usize,
    pub sweeps: usize,
    pub contradictions: usize,
}

/// "Restore: 14. No seed 0 on the shelf? 17. File at least K·L, marks at least
/// K? 18. Then 8." and the sweeps. Document 02, Item 6: "Records are 9 + L bytes, also
/// for question 14". What document 02 says of states and counts is said of shelving and
/// of the listing; here seed and payload alone are looked at: "The restore guarantee
/// covers these records" (Item 5).
///
/// "The lent list for segment numbers is the only memory left free, and only in
/// its first D places." Here only the list's length is asked for (question 8);
/// all its places keep what they had.
pub fn restore(
    handed: &Handed,
    shelf: &[u8],
    count: usize,
    file: &mut [u8],
    marks: &mut [u8],
    number_list: &mut [u32],
) -> Result<Restored, Refusal> {
    handed.card_questions()?;
    ask(question_14(count, handed.record_bytes(), shelf.len()), 14)?;
    let records = records(shelf, count, handed.l);
    let seeds: Vec<u32> = records.iter().map(|record| record.seed).collect();
    ask(question_17(&seeds), 17)?;
    let k = handed.k();
    ask(question_18(file.len(), marks.len(), k, handed.l), 18)?;
    ask(question_8(number_list.len(), handed.d()), 8)?;

    let l = usize::from(handed.l);

    // "The droplets on a shelf are its records, each with the set that its seed
    // picks."
    let droplets: Vec<(Vec<usize>, &[u8])> = records
        .iter()
        .map(|&Record { seed, payload, .. }| (set_of_segments(seed, handed.weights, k), payload))
        .collect();

    // "It sets the first K·L file bytes and K marks to 0." and "Bytes past K·L
    // and past K keep what they had."
    let file = &mut file[..k * l];
    let marks = &mut marks[..k];
    file.fill(0);
    marks.fill(0);

    // "Sweeps repeat until one fills nothing; that last one is counted too."
    let mut sweeps = 0;
    loop {
        let filled = sweep(&droplets, l, file, marks);
        sweeps += 1;
        if filled == 0 {
            break;
        }
    }

    let present = marks.iter().filter(|&&mark| mark == 1).count();
    let contradictions = droplets
        .iter()
        .filter(|(set, payload)| is_contradiction(set, payload, handed.l, file, marks))
        .count();
    Ok(Restored {
        present,
        sweeps,
        contradictions,
    })
}

/// "A sweep goes over the records in shelf order; a record with exactly one
/// segment still unmarked fills it with the payload XOR its marked segments,
/// and marks it 1."
///
/// Answers how many segments the sweep filled.
fn sweep(droplets: &[(Vec<usize>, &[u8])], l: usize, file: &mut [u8], marks: &mut [u8]) -> usize {
    let mut filled = 0;
    for (set, payload) in droplets {
        let unmarked: Vec<usize> = set.iter().copied().filter(|&i| marks[i] == 0).collect();
        if unmarked.len() != 1 {
            continue;
        }
        let mut segment = payload.to_vec();
        for &i in set {
            if marks[i] == 1 {
                xor_into(&mut segment, &file[i * l..(i + 1) * l]);
            }
        }
        let i = unmarked[0];
        file[i * l..(i + 1) * l].copy_from_slice(&segment);
        marks[i] = 1;
        filled += 1;
    }
    filled
}

/// "records whose segments are all marked but whose XOR differs from the
/// payload"
fn is_contradiction(set: &[usize], record: &[u8], l: u8, file: &[u8], marks: &[u8]) -> bool {
    let all_marked = set.iter().all(|&i| marks[i] == 1);
    all_marked && payload(set, file, l) != record
}

#[cfg(test)]
mod tests {
    use super::*;

    const P_WEIGHTS: [u8; 8] = [0, 0, 0, 1, 0, 0, 0, 1];
    const P: Handed = Handed {
        f: 4,
        l: 1,
        r: 2,
        m: 15,
        lo: 214,
        hi: 1000,
        dealt: false,
        width: 0,
        weights: &P_WEIGHTS,
    };

    /// A shelf of these records, all of them with this state byte and this count.
    fn shelf_with(state: u8, behind: u32, records: &[(u32, &[u8])]) -> Vec<u8> {
        let mut shelf = Vec::new();
        for (seed, payload) in records {
            shelf.extend_from_slice(&seed.to_be_bytes());
            shelf.extend_from_slice(payload);
            shelf.push(state);
            shelf.extend_from_slice(&behind.to_be_bytes());
        }
        shelf
    }

    /// A shelf of these records, clean, of one read each.
    fn shelf_of(records: &[(u32, &[u8])]) -> Vec<u8> {
        shelf_with(0, 1, records)
    }

    /// Bench example: "Reads of seeds 2, 1, 3 in that order: file 00 27 4E E4,
    /// marks 0 1 1 1, present 3, sweeps 3."
    #[test]
    fn bench_seeds_2_1_3() {
        let shelf = shelf_of(&[(2, &[0x69]), (1, &[0xE4]), (3, &[0x27])]);
        let mut file = [0xAB; 6];
        let mut marks = [0xCD; 5];
        let mut list = [7; 3];
        let answer = restore(&P, &shelf, 3, &mut file, &mut marks, &mut list);
        assert_eq!(
            answer,
            Ok(Restored {
                present: 3,
                sweeps: 3,
                contradictions: 0
            })
        );
        assert_eq!(file, [0x00, 0x27, 0x4E, 0xE4, 0xAB, 0xAB]);
        assert_eq!(marks, [0, 1, 1, 1, 0xCD]);
        assert_eq!(list[2], 7);
    }

    /// Document 02, Items 5 and 6, give state byte and count no meaning for a restore: the
    /// bench example with every state byte and with counts of every kind, one for all
    /// records or another one for each.
    #[test]
    fn states_and_counts_are_not_looked_at() {
        let records: [(u32, &[u8]); 3] = [(2, &[0x69]), (1, &[0xE4]), (3, &[0x27])];
        let counts = [0, 1, 2, 0xFF, 0x100, 0x0101_0101, u32::MAX - 1, u32::MAX];
        for state in 0..=255u8 {
            for behind in counts {
                let mut mixed = shelf_with(state, behind, &records);
                (mixed[5], mixed[15]) = (state ^ 1, state.wrapping_mul(3));
                (mixed[9], mixed[16]) = (mixed[9] ^ 1, mixed[16] ^ 0x80);
                for shelf in [shelf_with(state, behind, &records), mixed] {
                    let (mut file, mut marks) = ([0xAB; 5], [0xCD; 5]);
                    let answer =
                        restore(&P, &shelf, 3, &mut file, &mut marks, &mut [0; 2]).unwrap();
                    assert_eq!((answer.present, answer.sweeps), (3, 3));
                    assert_eq!(answer.contradictions, 0);
                    assert_eq!(file, [0x00, 0x27, 0x4E, 0xE4, 0xAB]);
                    assert_eq!(marks, [0, 1, 1, 1, 0xCD]);
                }
                // A seed 0 is one in a record of any state and count, and neither a
                // state of 0 nor a count of 0 is a seed.
                let seed_0 = shelf_with(state, behind, &[(1, &[0xE4]), (0, &[0xE4])]);
                let answer = restore(&P, &seed_0, 2, &mut [0; 4], &mut [0; 4], &mut [0; 2]);
                assert_eq!(answer, Err(Refusal(17)));
            }
        }
    }

    /// "Records are 9 + L bytes, also for question 14": 10 of them for each record here.
    #[test]
    fn records_within_the_shelf() {
        let shelf = shelf_of(&[(2, &[0x69]), (1, &[0xE4]), (3, &[0x27])]);
        assert_eq!(shelf.len(), 30);
        for length in 0..=30 {
            for count in 0..=4 {
                let lent = &shelf[..length];
                let answer = restore(&P, lent, count, &mut [0; 4], &mut [0; 4], &mut [0; 2]);
                let refused = answer == Err(Refusal(14));
                assert_eq!(refused, count * 10 > length, "{count} {length}");
                assert!(refused || answer.is_ok());
            }
        }
    }

    /// Bench example: "An empty shelf: present 0, sweeps 1."
    #[test]
    fn bench_empty_shelf() {
        for shelf in [&[][..], &[0; 20]] {
            let mut file = [0xAB; 5];
            let mut marks = [0xCD; 5];
            let answer = restore(&P, shelf, 0, &mut file, &mut marks, &mut [0; 2]);
            assert_eq!(
                answer,
                Ok(Restored {
                    present: 0,
                    sweeps: 1,
                    contradictions: 0
                })
            );
            assert_eq!(file, [0, 0, 0, 0, 0xAB]);
            assert_eq!(marks, [0, 0, 0, 0, 0xCD]);
        }
    }

    /// In the order 1, 3, 2 one sweep fills all three, and one more fills none.
    #[test]
    fn order_changes_the_sweeps() {
        let shelf = shelf_of(&[(1, &[0xE4]), (3, &[0x27]), (2, &[0x69])]);
        let mut file = [9; 4];
        let mut marks = [9; 4];
        let answer = restore(&P, &shelf, 3, &mut file, &mut marks, &mut [0; 2]);
        assert_eq!(
            answer,
            Ok(Restored {
                present: 3,
                sweeps: 2,
                contradictions: 0
            })
        );
        assert_eq!(file, [0x00, 0x27, 0x4E, 0xE4]);
        assert_eq!(marks, [0, 1, 1, 1]);
    }

    /// Two records of one seed with different payloads: the first fills, the
    /// second contradicts.
    #[test]
    fn contradictions_are_counted() {
        let shelf = shelf_of(&[(1, &[0xE4]), (1, &[0xE5]), (1, &[0xE4]), (1, &[0x00])]);
        let mut file = [9; 4];
        let mut marks = [9; 4];
        let answer = restore(&P, &shelf, 4, &mut file, &mut marks, &mut [0; 2]);
        assert_eq!(
            answer,
            Ok(Restored {
                present: 1,
                sweeps: 2,
                contradictions: 2
            })
        );
        assert_eq!(file, [0, 0, 0, 0xE4]);
        assert_eq!(marks, [0, 0, 0, 1]);
    }

    #[test]
    fn refusals_in_their_order_change_nothing() {
        let good = shelf_of(&[(2, &[0x69]), (1, &[0xE4])]);
        let seed_0 = shelf_of(&[(2, &[0x69]), (0, &[0xE4])]);
        let go = |handed: &Handed, shelf: &[u8], count, file: usize, marks: usize, list: usize| {
            let mut file = vec![0xAB; file];
            let mut marks = vec![0xCD; marks];
            let mut list = vec![0xEF; list];
            let answer = restore(handed, shelf, count, &mut file, &mut marks, &mut list);
            if answer.is_err() {
                assert!(file.iter().all(|&b| b == 0xAB));
                assert!(marks.iter().all(|&b| b == 0xCD));
                assert!(list.iter().all(|&b| b == 0xEF));
            }
            match answer {
                Ok(_) => 0,
                Err(Refusal(number)) => number,
            }
        };
        assert_eq!(go(&Handed { r: 3, m: 0, ..P }, &seed_0, 3, 0, 0, 0), 2);
        assert_eq!(
            go(
                &Handed {
                    m: 0,
                    weights: &[],
                    ..P
                },
                &seed_0,
                3,
                0,
                0,
                0
            ),
            3
        );
        assert_eq!(go(&Handed { weights: &[], ..P }, &seed_0, 3, 0, 0, 0), 4);
        let dealt = Handed { dealt: true, ..P };
        for width in [0, 1, 5, u32::MAX] {
            assert_eq!(go(&Handed { width, ..dealt }, &seed_0, 3, 0, 0, 0), 27);
            let no_weights = Handed {
                width,
                weights: &[],
                ..dealt
            };
            assert_eq!(go(&no_weights, &seed_0, 3, 0, 0, 0), 4);
            assert_eq!(go(&Handed { width, ..P }, &seed_0, 3, 0, 0, 0), 14);
        }
        for width in [2, 4] {
            assert_eq!(go(&Handed { width, ..dealt }, &seed_0, 3, 0, 0, 0), 14);
            assert_eq!(go(&Handed { width, ..dealt }, &good, 2, 4, 4, 2), 0);
        }
        assert_eq!(go(&P, &seed_0, 3, 0, 0, 0), 14);
        assert_eq!(go(&P, &seed_0, usize::MAX, 0, 0, 0), 14);
        assert_eq!(go(&P, &seed_0, 2, 0, 0, 0), 17);
        assert_eq!(go(&P, &seed_0, 1, 0, 0, 0), 18);
        assert_eq!(go(&P, &good, 2, 3, 4, 0), 18);
        assert_eq!(go(&P, &good, 2, 4, 3, 0), 18);
        assert_eq!(go(&P, &good, 2, 4, 4, 1), 8);
        assert_eq!(go(&P, &good, 2, 4, 4, 2), 0);
    }

    /// The last segment is restored whole, whatever stands past F.
    #[test]
    fn last_segment_past_f() {
        let handed = Handed {
            f: 3,
            l: 2,
            r: 2,
            m: 20,
            lo: 0,
            hi: 1000,
            dealt: false,
            width: 0,
            weights: &[0, 0, 0, 1],
        };
        let seed = (1..)
            .find(|&s| set_of_segments(s, handed.weights, 2) == [1])
            .unwrap();
        let shelf = shelf_of(&[(seed, &[0x12, 0x34])]);
        let mut file = [9; 5];
        let mut marks = [9; 2];
        let answer = restore(&handed, &shelf, 1, &mut file, &mut marks, &mut [0]);
        assert_eq!(
            answer,
            Ok(Restored {
                present: 1,
                sweeps: 2,
                contradictions: 0
            })
        );
        assert_eq!(file, [0, 0, 0x12, 0x34, 9]);
        assert_eq!(marks, [0, 1]);
    }

    /// Demand 3 over small shelves, each part by trying everything:
    /// - a segment is missing exactly when some set of segments holds it and no
    ///   droplet has exactly one segment in that set;
    /// - a present segment equals that segment in every file that gives all
    ///   these droplets;
    /// - the sweeps are at most the segments present, plus one;
    /// - with all K present, contradictions are 0 exactly when some list of K
    ///   segments gives every record.
    #[test]
    fn demand_3_on_small_shelves() {
        let mut x = 4242u32;
        let mut next = |below: u32| {
            x = x.wrapping_mul(1_664_525).wrapping_add(1_013_904_223);
            (x >> 8) % below
        };
        let (mut whole, mut whole_and_contradicted, mut partly) = (0, 0, 0);
        for _ in 0..3000 {
            let k = 1 + next(6) as usize;
            let d = 1 + next(k as u32);
            let mut weights: Vec<u8> = (0..d).flat_map(|_| next(3).to_be_bytes()).collect();
            weights[3] = 1;
            let handed = Handed {
                f: k as u32,
                l: 1,
                r: 2,
                m: 20,
                lo: 0,
                hi: 1000,
                dealt: false,
                width: 0,
                weights: &weights,
            };
            let true_file: Vec<u8> = (0..k).map(|_| next(256) as u8).collect();
            let count = next(10) as usize;
            let mut shelf = Vec::new();
            let mut droplets = Vec::new();
            for _ in 0..count {
                let seed = 1 + next(30);
                let set = set_of_segments(seed, &weights, k);
                let mut value = payload(&set, &true_file, 1)[0];
                if next(12) == 0 {
                    value ^= next(256) as u8;
                }
                shelf.extend_from_slice(&seed.to_be_bytes());
                shelf.push(value);
                shelf.push(next(3) as u8); // the state, whatever it is
                shelf.extend_from_slice(&next(3).to_be_bytes()); // and the count
                droplets.push((set, value));
            }

            let mut file = vec![0xAB; k];
            let mut marks = vec![0xCD; k];
            let mut list = vec![0; d as usize];
            let answer = restore(&handed, &shelf, count, &mut file, &mut marks, &mut list).unwrap();

            // Stopping sets, as bit masks.
            let mut stuck = 0u32;
            for mask in 1u32..1 << k {
                let holds_up = droplets
                    .iter()
                    .all(|(set, _)| set.iter().filter(|&&i| mask >> i & 1 == 1).count() != 1);
                if holds_up {
                    stuck |= mask;
                }
            }
            for i in 0..k {
                assert_eq!(marks[i] == 0, stuck >> i & 1 == 1);
                if marks[i] == 0 {
                    assert_eq!(file[i], 0);
                } else {
                    assert_eq!(marks[i], 1);
                }
            }
            assert_eq!(answer.present, marks.iter().filter(|&&m| m == 1).count());
            assert!(answer.sweeps >= 1 && answer.sweeps <= answer.present + 1);

            // Files that give all droplets, one bit of every byte at a time.
            let mut fits: Vec<Vec<u32>> = Vec::new();
            for bit in 0..8 {
                let of_this_bit = (0u32..1 << k)
                    .filter(|candidate| {
                        droplets.iter().all(|(set, value)| {
                            let xor = set.iter().fold(0, |xor, &i| xor ^ (candidate >> i & 1));
                            xor == u32::from(value >> bit & 1)
                        })
                    })
                    .collect();
                fits.push(of_this_bit);
            }
            let some_file_gives_all = fits.iter().all(|of_this_bit| !of_this_bit.is_empty());
            if some_file_gives_all {
                for (bit, of_this_bit) in fits.iter().enumerate() {
                    for candidate in of_this_bit {
                        for i in (0..k).filter(|&i| marks[i] == 1) {
                            assert_eq!(u32::from(file[i] >> bit & 1), candidate >> i & 1);
                        }
                    }
                }
            }
            if answer.present == k {
                assert_eq!(answer.contradictions == 0, some_file_gives_all);
                whole += 1;
                if !some_file_gives_all {
                    whole_and_contradicted += 1;
                }
            } else if answer.present > 0 {
                partly += 1;
            }
        }
        // The trial has met each kind.
        assert!(whole > 100 && whole_and_contradicted > 20 && partly > 100);
    }
}
