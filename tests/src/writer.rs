//! Section "Writer", and Item 12 of document 02, "Why strands were dropped".

use crate::check_bytes_letters_screen::{compare, letters_of_bytes, screen, strand_bytes, Outcome};
use crate::droplet::{payload, set_of_segments};
use crate::generator_and_seed_schedule::schedule_step;
use crate::pool_card::Handed;
use crate::questions::{ask, question_5, question_6, question_7, question_8, Refusal};

/// "It stops as "done" when made = wanted, otherwise as "spent" when tried =
/// budget; done comes first."
#[derive(Clone, Copy, Debug, PartialEq, Eq)]
pub enum Stop {
    Done,
    Spent,
}

/// "The answer holds the stop, made, tried and the next seed (the step after
/// the last one tried, or the start if none was)." In document 02, Item 12: "The
/// writer's answer gains two numbers: strands dropped for a run, and strands
/// dropped for GC alone. Tried equals made plus both, and each equals its count
/// over the seeds tried."
#[derive(Clone, Copy, Debug, PartialEq, Eq)]
pub struct Written {
    pub stop: Stop,
    pub made: usize,
    pub tried: u32,
    pub next_seed: u32,
    /// Over m in their longest run, whatever their C and G count is.
    pub dropped_run: u32,
    /// Within m, and outside of lo and hi.
    pub dropped_gc: u32,
}

/// "It takes card, file, start seed, wanted (strands) and budget (seeds; a
/// 32-bit number, as the start is)." and "Writer: file length F? 5. Start not
/// 0? 6. Wanted at most 1,000,000 and buffer at least wanted times (n+1)? 7.
/// Number list at least D long? 8"
///
/// Of the number list only its length is asked for; all its places keep what
/// they had.
pub fn write(
    handed: &Handed,
    file: &[u8],
    start: u32,
    wanted: usize,
    budget: u32,
    buffer: &mut [u8],
    number_list: &mut [u32],
) -> Result<Written, Refusal> {
    handed.card_questions()?;
    let n = handed.n_bases();
    ask(question_5(file.len(), handed.f), 5)?;
    ask(question_6(start), 6)?;
    ask(question_7(wanted, buffer.len(), n), 7)?;
    ask(question_8(number_list.len(), handed.d()), 8)?;

    let mut made = 0;
    let mut tried = 0;
    let mut dropped_run = 0;
    let mut dropped_gc = 0;
    let mut seed = start;
    let stop = loop {
        // "It stops as "done" when made = wanted, otherwise as "spent" when
        // tried = budget; done comes first." and "Wanted 0 is done with tried
        // 0."
        if made == wanted {
            break Stop::Done;
        }
        if tried == budget {
            break Stop::Spent;
        }

        // "Seeds are tried in schedule order, the start first. Each strand that
        // passes the screen is written as n letters and a newline byte."
        let letters = strand_letters(handed, file, seed);
        match compare(screen(&letters), n, handed.m, handed.lo, handed.hi) {
            Outcome::Passes => {
                // "Bytes past made times (n+1) keep what they had."
                let place = made * (n + 1);
                buffer[place..place + n].copy_from_slice(&letters);
                buffer[place + n] = b'\n';
                made += 1;
            }
            Outcome::DroppedForRun => dropped_run += 1,
            Outcome::DroppedForGcAlone => dropped_gc += 1,
        }
        tried += 1;
        seed = schedule_step(seed);
    };
    Ok(Written {
        stop,
        made,
        tried,
        next_seed: seed,
        dropped_run,
        dropped_gc,
    })
}

/// The strand of one seed in letters: its droplet's payload between seed and
/// check bytes. Needs an accepted card and a file of length F.
pub fn strand_letters(handed: &Handed, file: &[u8], seed: u32) -> Vec<u8> {
    let set = set_of_segments(seed, handed.weights, handed.k());
    let payload = payload(&set, file, handed.l);
    letters_of_bytes(&strand_bytes(seed, &payload, handed.r))
}

#[cfg(test)]
mod tests {
    use super::*;
    use crate::check_bytes_letters_screen::read_check;

    const P_WEIGHTS: [u8; 8] = [0, 0, 0, 1, 0, 0, 0, 1];
    const P: Handed = Handed {
        f: 4,
        l: 1,
        r: 2,
        m: 15,
        lo: 214,
        hi: 1000,
        dealt: false,
        width: 0,
        weights: &P_WEIGHTS,
    };
    const Q: [u8; 4] = [0x1B, 0x27, 0x4E, 0xE4];

    /// The strings of the bench examples are the strands of seeds 2, 1 and 3.
    #[test]
    fn bench_strings() {
        assert_eq!(strand_letters(&P, &Q, 2), b"AAAAAAAAAAAAAAAGCGGCGTCCTCTG");
        assert_eq!(strand_letters(&P, &Q, 1), b"AAAAAAAAAAAAAAACTGCAATCGTCAT");
        assert_eq!(strand_letters(&P, &Q, 3), b"AAAAAAAAAAAAAAATAGCTCGAACACA");
    }

    #[test]
    fn two_strands_from_seed_1() {
        let mut buffer = [b'?'; 60];
        let answer = write(&P, &Q, 1, 2, 2, &mut buffer, &mut [0; 2]);
        // Made = wanted and tried = budget together: done comes first.
        assert_eq!(
            answer,
            Ok(Written {
                stop: Stop::Done,
                made: 2,
                tried: 2,
                next_seed: 4,
                dropped_run: 0,
                dropped_gc: 0
            })
        );
        assert_eq!(
            &buffer,
            b"AAAAAAAAAAAAAAACTGCAATCGTCAT\nAAAAAAAAAAAAAAAGCGGCGTCCTCTG\n??"
        );
    }

    #[test]
    fn nothing_wanted_or_no_budget() {
        let mut buffer = [b'?'; 29];
        assert_eq!(
            write(&P, &Q, 5, 0, 0, &mut buffer, &mut [0; 2]),
            Ok(Written {
                stop: Stop::Done,
                made: 0,
                tried: 0,
                next_seed: 5,
                dropped_run: 0,
                dropped_gc: 0
            })
        );
        assert_eq!(
            write(&P, &Q, 5, 0, 9, &mut [], &mut [0; 2]),
            Ok(Written {
                stop: Stop::Done,
                made: 0,
                tried: 0,
                next_seed: 5,
                dropped_run: 0,
                dropped_gc: 0
            })
        );
        assert_eq!(
            write(&P, &Q, 5, 1, 0, &mut buffer, &mut [0; 2]),
            Ok(Written {
                stop: Stop::Spent,
                made: 0,
                tried: 0,
                next_seed: 5,
                dropped_run: 0,
                dropped_gc: 0
            })
        );
        assert_eq!(buffer, [b'?'; 29]);
    }

    /// A screen that nothing passes spends the whole budget and writes nothing.
    /// The longest runs of the three strands are 15, 12 and 11, within m.
    #[test]
    fn spent() {
        let none = Handed { lo: 1000, ..P };
        let mut buffer = [b'?'; 29];
        let answer = write(&none, &Q, 0x8000_0000, 1, 3, &mut buffer, &mut [0; 2]);
        assert_eq!(
            answer,
            Ok(Written {
                stop: Stop::Spent,
                made: 0,
                tried: 3,
                next_seed: 0xC5 << 2,
                dropped_run: 0,
                dropped_gc: 3
            })
        );
        assert_eq!(buffer, [b'?'; 29]);
    }

    #[test]
    fn refusals_in_their_order_change_nothing() {
        let go = |handed: &Handed, file: &[u8], start, wanted, buffer: usize, list: usize| {
            let mut buffer = vec![0xAB; buffer];
            let mut list = vec![0xEF; list];
            let answer = write(handed, file, start, wanted, 5, &mut buffer, &mut list);
            if answer.is_err() {
                assert!(buffer.iter().all(|&b| b == 0xAB));
                assert!(list.iter().all(|&b| b == 0xEF));
            }
            match answer {
                Ok(_) => 0,
                Err(Refusal(number)) => number,
            }
        };
        assert_eq!(go(&Handed { l: 0, m: 0, ..P }, &[], 0, 1, 0, 0), 2);
        assert_eq!(
            go(
                &Handed {
                    m: 0,
                    weights: &[],
                    ..P
                },
                &[],
                0,
                1,
                0,
                0
            ),
            3
        );
        assert_eq!(
            go(
                &Handed {
                    weights: &[0; 8],
                    ..P
                },
                &[],
                0,
                1,
                0,
                0
            ),
            4
        );
        let dealt = Handed { dealt: true, ..P };
        for width in [0, 1, 5, u32::MAX] {
            assert_eq!(go(&Handed { width, ..dealt }, &[], 0, 1, 0, 0), 27);
            let no_weights = Handed {
                width,
                weights: &[],
                ..dealt
            };
            assert_eq!(go(&no_weights, &[], 0, 1, 0, 0), 4);
            assert_eq!(go(&Handed { width, ..P }, &Q[..3], 0, 1, 0, 0), 5);
        }
        for width in [2, 4] {
            assert_eq!(go(&Handed { width, ..dealt }, &[], 0, 1, 0, 0), 5);
        }
        assert_eq!(go(&P, &Q[..3], 0, 1, 0, 0), 5);
        assert_eq!(go(&P, &[0; 5], 0, 1, 0, 0), 5);
        assert_eq!(go(&P, &Q, 0, 1, 0, 0), 6);
        assert_eq!(go(&P, &Q, 1, 1, 28, 0), 7);
        assert_eq!(go(&P, &Q, 1, 1_000_001, 29_000_029, 2), 7);
        assert_eq!(go(&P, &Q, 1, usize::MAX, 29, 2), 7);
        assert_eq!(go(&P, &Q, 1, 1, 29, 1), 8);
        assert_eq!(go(&P, &Q, 1, 0, 0, 0), 8);
        assert_eq!(go(&P, &Q, 1, 1, 29, 2), 0);
    }

    /// "The writer prints exactly the strands that document 01's Fountain steps
    /// give, in schedule order, none left out": the printed lines are those of
    /// the seeds tried that the read check accepts, and each gives back its
    /// seed and payload.
    #[test]
    fn printed_lines_are_the_legal_strands_of_the_seeds_tried() {
        let weights: Vec<u8> = [5u32, 9, 0, 3, 1]
            .iter()
            .flat_map(|w| w.to_be_bytes())
            .collect();
        let file: Vec<u8> = (0..41u32).map(|i| (i * i * 7 + 3) as u8).collect();
        for (r, m, lo, hi) in [(2, 4, 400, 600), (4, 3, 450, 550), (2, 20, 0, 1000)] {
            let handed = Handed {
                f: 41,
                l: 6,
                r,
                m,
                lo,
                hi,
                dealt: false,
                width: 0,
                weights: &weights,
            };
            let n = handed.n_bases();
            let start = 0xDEAD_BEEF;
            let mut buffer = vec![b'?'; 50 * (n + 1)];
            let answer = write(&handed, &file, start, 50, 300, &mut buffer, &mut [0; 5]).unwrap();

            let mut expected = Vec::new();
            let mut seed = start;
            for _ in 0..answer.tried {
                let letters = strand_letters(&handed, &file, seed);
                if let Ok(droplet) = read_check(&handed, &letters) {
                    assert_eq!(droplet.seed, seed);
                    let set = set_of_segments(seed, &weights, 7);
                    assert_eq!(droplet.payload[..6], payload(&set, &file, 6));
                    expected.extend_from_slice(&letters);
                    expected.push(b'\n');
                }
                seed = schedule_step(seed);
            }
            assert_eq!(answer.next_seed, seed);
            assert_eq!(answer.made * (n + 1), expected.len());
            assert_eq!(buffer[..expected.len()], expected);
            assert!(buffer[expected.len()..].iter().all(|&b| b == b'?'));
            match answer.stop {
                Stop::Done => assert_eq!(answer.made, 50),
                Stop::Spent => assert!(answer.made < 50 && answer.tried == 300),
            }

            // Two halves, the second from the next seed, give the same strands.
            let mut halves = vec![b'?'; 50 * (n + 1)];
            let first = write(&handed, &file, start, 50, 20, &mut halves, &mut [0; 5]).unwrap();
            let place = first.made * (n + 1);
            let second = write(
                &handed,
                &file,
                first.next_seed,
                50 - first.made,
                300 - first.tried,
                &mut halves[place..],
                &mut [0; 5],
            )
            .unwrap();
            assert_eq!(halves, buffer);
            assert_eq!(second.next_seed, answer.next_seed);
        }
    }

    // ------------------------------------------------------------ drops

    /// P's sizes and weights under tighter limits.
    const TIGHT: Handed = Handed {
        m: 3,
        lo: 450,
        hi: 550,
        ..P
    };
    const START: u32 = 0x1234_5678;

    /// The faults of a strand, looked for in its letters.
    #[derive(Clone, Copy, Debug, PartialEq, Eq)]
    struct Faults {
        /// In the order, m + 1 letters or more that follow each other are the
        /// same, and one of them is the strand's.
        run: bool,
        /// The strand's C and G are fewer than lo or more than hi allows.
        gc: bool,
    }

    const fn with(run: bool, gc: bool) -> Faults {
        Faults { run, gc }
    }
    const BOTH: Faults = with(true, true);
    const RUN_ALONE: Faults = with(true, false);
    const GC_ALONE: Faults = with(false, true);
    const NONE: Faults = with(false, false);

    fn faults(handed: &Handed, strand: &[u8]) -> Faults {
        let before = b"GTTTCAGAGTTCTACAGTCCGACGATC".as_slice();
        let after = b"TGGAATTCTCGGGTGCCAAGG".as_slice();
        let order = [before, strand, after].concat();
        let width = usize::from(handed.m) + 1;
        let run = order.windows(width).enumerate().any(|(place, window)| {
            let meets_the_strand = place + width > 27 && place < 27 + strand.len();
            meets_the_strand && window.iter().all(|&letter| letter == window[0])
        });
        let a_and_t = strand.iter().filter(|letter| b"AT".contains(letter));
        let (n, g) = (strand.len(), strand.len() - a_and_t.count());
        let gc = 1000 * g < usize::from(handed.lo) * n || 1000 * g > usize::from(handed.hi) * n;
        with(run, gc)
    }

    /// Both numbers, counted over as many seeds from the start.
    fn recount(handed: &Handed, file: &[u8], start: u32, tried: u32) -> (u32, u32) {
        let (mut for_a_run, mut for_gc_alone) = (0, 0);
        let mut seed = start;
        for _ in 0..tried {
            let faults = faults(handed, &strand_letters(handed, file, seed));
            if faults.run {
                for_a_run += 1;
            }
            if faults.gc && !faults.run {
                for_gc_alone += 1;
            }
            seed = schedule_step(seed);
        }
        (for_a_run, for_gc_alone)
    }

    /// The writer over Q.
    fn write_q(handed: &Handed, start: u32, wanted: usize, budget: u32) -> Written {
        let mut buffer = vec![b'?'; wanted * 29];
        write(handed, &Q, start, wanted, budget, &mut buffer, &mut [0; 2]).unwrap()
    }

    /// Seeds of the example below, one for each way to be dropped, and one that
    /// is printed: seed, letters, faults.
    const LOOKED_AT: [(u32, &[u8; 28], Faults); 6] = [
        // TTTT, and 16 of 28 are C or G: 571 thousandths.
        (0x3456_75DA, b"ATCACCCGCTCCTCGGTTTTCCTCCGTT", BOTH),
        // CCC, which the site makes CCCC, and 20 of 28.
        (0x5675_CDE4, b"CCCGCTCCTATCTGCACGGCGTCGTCCC", BOTH),
        // GGGG, and 14 of 28.
        (0x3AE6_EDC7, b"ATGGTGCGTGTCTACTGGGGTCTAGAAA", RUN_ALONE),
        // CCC, and 16 of 28.
        (0x1234_5678, b"ACAGATCACCCGCTGAAGCTTCCGTTGC", GC_ALONE),
        // AAA and TTT, and 12 of 28: 428 thousandths.
        (0x91A2_B3C0, b"GCACGGAGGTATTAAATGCACCGATTTA", GC_ALONE),
        // CCC, and 14 of 28.
        (0xA2B3_AE15, b"GGAGGTATGGTGACCCAGCTCTTCTTAA", NONE),
    ];

    #[test]
    fn each_way_to_be_dropped() {
        let answer = write_q(&TIGHT, START, 10, 1000);
        let mut tried = Vec::new();
        let mut seed = START;
        for _ in 0..answer.tried {
            tried.push(seed);
            seed = schedule_step(seed);
        }
        for (seed, letters, expected) in LOOKED_AT {
            assert!(tried.contains(&seed), "{seed:08X}");
            assert_eq!(strand_letters(&TIGHT, &Q, seed), letters);
            assert_eq!(faults(&TIGHT, letters), expected, "{seed:08X}");
        }
    }

    /// A strand with both faults counts as dropped for a run, and once. Here it is
    /// the last seed tried, too, on which the budget is spent.
    #[test]
    fn one_seed_tried() {
        for (seed, _, faults) in LOOKED_AT {
            let dropped_run = u32::from(faults.run);
            let dropped_gc = u32::from(faults.gc && !faults.run);
            let made = 1 - (dropped_run + dropped_gc) as usize;
            assert_eq!(
                write_q(&TIGHT, seed, 2, 1),
                Written {
                    stop: Stop::Spent,
                    made,
                    tried: 1,
                    next_seed: schedule_step(seed),
                    dropped_run,
                    dropped_gc
                }
            );
        }
    }

    /// With each further seed of the budget its own drop is counted, the last
    /// one's too. Of the last two budgets here, one ends with a drop and one with
    /// the tenth strand.
    #[test]
    fn the_last_seed_tried_is_counted() {
        for budget in 0..=62 {
            let answer = write_q(&TIGHT, START, 10, budget);
            assert_eq!(answer.tried, budget);
            assert_eq!(
                (answer.dropped_run, answer.dropped_gc),
                recount(&TIGHT, &Q, START, budget),
                "{budget}"
            );
            assert_eq!(
                answer.made as u32 + answer.dropped_run + answer.dropped_gc,
                budget
            );
        }
        assert_eq!(write_q(&TIGHT, START, 10, 61).stop, Stop::Spent);
        assert_eq!(write_q(&TIGHT, START, 10, 62).stop, Stop::Done);
    }

    /// One job under three sets of limits, and with a smaller budget. With m = 4
    /// fewer are dropped for a run, and more for GC alone; with wider limits for C
    /// and G fewer are dropped for GC alone, and the run is sooner done.
    #[test]
    fn one_job_under_three_limits() {
        let run_4 = Handed { m: 4, ..TIGHT };
        let wide = Handed {
            lo: 400,
            hi: 600,
            ..TIGHT
        };
        assert_eq!(
            write_q(&TIGHT, START, 10, 1000),
            Written {
                stop: Stop::Done,
                made: 10,
                tried: 62,
                next_seed: 0xD862_C7F9,
                dropped_run: 23,
                dropped_gc: 29
            }
        );
        assert_eq!(
            write_q(&run_4, START, 10, 1000),
            Written {
                stop: Stop::Done,
                made: 10,
                tried: 49,
                next_seed: 0x506E_C32B,
                dropped_run: 7,
                dropped_gc: 32
            }
        );
        assert_eq!(
            write_q(&wide, START, 10, 1000),
            Written {
                stop: Stop::Done,
                made: 10,
                tried: 13,
                next_seed: 0x8ACE_B9DE,
                dropped_run: 2,
                dropped_gc: 1
            }
        );
        // The twentieth seed's strand has both faults.
        assert_eq!(
            write_q(&TIGHT, START, 10, 20),
            Written {
                stop: Stop::Spent,
                made: 2,
                tried: 20,
                next_seed: 0x675C_DD91,
                dropped_run: 5,
                dropped_gc: 13
            }
        );
        for (handed, tried) in [(&TIGHT, 62), (&run_4, 49), (&wide, 13), (&TIGHT, 20)] {
            let answer = write_q(handed, START, 10, tried);
            assert_eq!(
                (answer.dropped_run, answer.dropped_gc),
                recount(handed, &Q, START, tried)
            );
        }
    }

    /// "Tried equals made plus both, and each equals its count over the seeds
    /// tried", for cards of other sizes; and in two parts, the second from the
    /// next seed, each of the two numbers is the sum of both parts.
    #[test]
    fn drops_are_counted_over_the_seeds_tried() {
        let weights: Vec<u8> = [5u32, 9, 0, 3, 1]
            .iter()
            .flat_map(|w| w.to_be_bytes())
            .collect();
        let file: Vec<u8> = (0..41u32).map(|i| (i * i * 7 + 3) as u8).collect();
        for (r, m, lo, hi) in [
            (2, 4, 400, 600),
            (4, 3, 450, 550),
            (2, 3, 500, 500),
            (4, 2, 0, 450),
            (4, 1, 0, 1000),
            (2, 20, 0, 1000),
            (2, 20, 1000, 1000),
        ] {
            let handed = Handed {
                f: 41,
                l: 6,
                r,
                m,
                lo,
                hi,
                dealt: false,
                width: 0,
                weights: &weights,
            };
            let go = |start, wanted, budget| {
                let mut buffer = vec![b'?'; wanted * (handed.n_bases() + 1)];
                write(
                    &handed,
                    &file,
                    start,
                    wanted,
                    budget,
                    &mut buffer,
                    &mut [0; 5],
                )
                .unwrap()
            };
            let answer = go(0xDEAD_BEEF, 90, 300);
            let both = (answer.dropped_run, answer.dropped_gc);
            assert_eq!(both, recount(&handed, &file, 0xDEAD_BEEF, answer.tried));
            assert_eq!(answer.tried, answer.made as u32 + both.0 + both.1);

            for budget in [0, 1, 30, 60, answer.tried] {
                let first = go(0xDEAD_BEEF, 90, budget);
                let rest = go(first.next_seed, 90 - first.made, 300 - first.tried);
                assert_eq!(answer.dropped_run, first.dropped_run + rest.dropped_run);
                assert_eq!(answer.dropped_gc, first.dropped_gc + rest.dropped_gc);
                if (m, budget) == (3, 60) {
                    assert!(first.dropped_run > 0 && first.dropped_gc > 0);
                    assert!(rest.dropped_run > 0 && rest.dropped_gc > 0);
                }
            }
        }
    }
}
