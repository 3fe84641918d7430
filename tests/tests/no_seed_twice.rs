//! Document 02, Item 7, "No seed twice": "Long jobs are split by schedule position,
//! and two writers must never print one seed in two places." Of the second
//! implementation alone; the differential tests compare the archive's writer and
//! its seeds at positions with it, call by call.

use second::*;
use std::collections::HashSet;
use std::hint::black_box;

/// "from any nonzero start the schedule comes back to it after 4,294,967,295 steps
/// and not sooner"
const ROUND: u32 = 4_294_967_295;

// ------------------------------------------------------------ the whole schedule

/// The step without a branch on the bit that falls out, so that a round takes seconds.
fn quick_step(seed: u32) -> u32 {
    let all_ones_if_a_one_fell_out = 0u32.wrapping_sub(seed >> 31);
    (seed << 1) ^ (all_ones_if_a_one_fell_out & 0xC5)
}

/// The seed from which the schedule steps to this one. Hex C5 is odd, so a seed is
/// odd just if a one fell out on the way to it.
fn seed_before(seed: u32) -> u32 {
    if seed % 2 == 1 {
        ((seed ^ 0xC5) >> 1) | 0x8000_0000
    } else {
        seed >> 1
    }
}

/// On all seeds whose low half or high half is 0, and on many others.
#[test]
fn quick_step_is_the_step() {
    let halves = (0..=0xFFFF).flat_map(|half: u32| [half, half << 16, half * 0x8001]);
    let others = (0..1_000_000).map(|i: u32| i.wrapping_mul(0x9E37_79B9));
    for seed in halves.chain(others) {
        assert_eq!(quick_step(seed), schedule_step(seed), "{seed:08X}");
        assert_eq!(seed_before(schedule_step(seed)), seed, "{seed:08X}");
        assert_eq!(schedule_step(seed_before(seed)), seed, "{seed:08X}");
    }
}

/// All steps of a round, one by one. The step can be undone, so the first seed that
/// is met again is the start. Then a round from one start has met all of the
/// 4,294,967,295 seeds that are not 0, and each of them comes back just as late.
#[test]
fn a_whole_round() {
    let start = black_box(0xACE1_2357);
    let mut seed = start;
    let comes_back = (1..=u64::from(ROUND) + 1).find(|_| {
        seed = quick_step(seed);
        seed == start
    });
    assert_eq!(comes_back, Some(4_294_967_295));
}

// ------------------------------------------------------------ one job in parts

/// Sizes and limits as in document 001's job: segments of 32 bytes, runs to 3, GC 450
/// to 550. The file is a short one.
const F: u32 = 3_990;
const K: usize = 125;
const D: usize = 40;
const LINE: usize = 153;

const START: u32 = 0xACE1_2357;

struct Job {
    file: Vec<u8>,
    weights: Vec<u8>,
}

/// What one run of the writer answers and prints.
#[derive(Debug, PartialEq)]
struct Run {
    written: Written,
    printed: Vec<u8>,
}

impl Job {
    fn new() -> Job {
        let mut weights = vec![60u32, 500, 170, 80, 50, 35, 25, 20];
        weights.resize(D, 2);
        Job {
            file: (0..F)
                .map(|i| (i.wrapping_mul(2_654_435_761) >> 24) as u8)
                .collect(),
            weights: weights.iter().flat_map(|w| w.to_be_bytes()).collect(),
        }
    }

    fn handed(&self) -> Handed<'_> {
        Handed {
            f: F,
            l: 32,
            r: 2,
            m: 3,
            lo: 450,
            hi: 550,
            dealt: false,
            width: 0,
            weights: &self.weights,
        }
    }

    fn run(&self, start: u32, wanted: usize, budget: u32) -> Run {
        let handed = self.handed();
        assert_eq!((handed.k(), handed.n_bases() + 1), (K, LINE));
        let mut printed = vec![0; wanted * LINE];
        let written = write(
            &handed,
            &self.file,
            start,
            wanted,
            budget,
            &mut printed,
            &mut [0; D],
        )
        .unwrap();
        printed.truncate(written.made * LINE);
        Run { written, printed }
    }

    /// A run for each stretch: it starts as many steps from the job's start as the
    /// stretches before it are long, its budget is the length of its own, and it may
    /// print as many strands as are wanted of each.
    fn runs_of_stretches(&self, start: u32, lengths: &[u32], wanted: usize) -> Vec<Run> {
        let mut before = 0;
        let mut runs = Vec::new();
        for &length in lengths {
            let start = seed_at(start, before).unwrap();
            runs.push(self.run(start, wanted, length));
            before += length;
        }
        runs
    }

    /// The seeds of all strands printed, as the read check gives them back.
    fn seeds(&self, runs: &[Run]) -> Vec<u32> {
        lines(runs)
            .map(|line| {
                assert_eq!(line[LINE - 1], b'\n');
                let droplet = read_check(&self.handed(), &line[..LINE - 1]).unwrap();
                droplet.seed
            })
            .collect()
    }

    /// The seeds that were printed before, in the order of their strands.
    fn seeds_printed_again(&self, runs: &[Run]) -> Vec<u32> {
        let mut met = HashSet::new();
        let mut seeds = self.seeds(runs);
        seeds.retain(|&seed| !met.insert(seed));
        seeds
    }

    /// Shelves the strands of all runs in mixed order. Each is new on the shelf, and
    /// the file is restored from them.
    fn restores(&self, runs: &[Run]) {
        let handed = self.handed();
        let mut strands: Vec<&[u8]> = lines(runs).map(|line| &line[..LINE - 1]).collect();
        let all = strands.len();
        let mut mixed = Vec::new();
        while !strands.is_empty() {
            mixed.push(strands.swap_remove(7_919 * mixed.len() % strands.len()));
        }
        let mut shelf = vec![0; all * 41];
        for (count, strand) in mixed.iter().enumerate() {
            let answer = shelve(&handed, strand, &mut shelf, count);
            assert_eq!(answer, Ok(Shelved::Accepted { count: count + 1 }));
        }
        let mut file = vec![0; K * 32];
        let mut marks = vec![0; K];
        let sheet = restore(&handed, &shelf, all, &mut file, &mut marks, &mut [0; D]).unwrap();
        assert_eq!((sheet.present, sheet.contradictions), (K, 0));
        assert_eq!(file[..F as usize], self.file);
    }
}

fn lines(runs: &[Run]) -> impl Iterator<Item = &[u8]> {
    runs.iter().flat_map(|run| run.printed.chunks(LINE))
}

fn printed_together(runs: &[Run]) -> Vec<u8> {
    runs.iter().flat_map(|run| run.printed.clone()).collect()
}

/// Each part spends its stretch. "no two strands of one writer run carry the same
/// seed, and the runs of consecutive stretches .. share none"; together they print
/// what one run over all of the stretches prints.
#[test]
fn parts_print_what_one_run_prints() {
    let job = Job::new();
    let more_than_enough = 1_000;
    let whole = [job.run(START, more_than_enough, 3_600)];
    assert_eq!(whole[0].written.stop, Stop::Spent);
    assert!(whole[0].written.made > 300);
    assert_eq!(job.seeds_printed_again(&whole), []);

    let stretches: [&[u32]; 5] = [
        &[3_600],
        &[1_800, 1_800],
        &[1, 999, 0, 1_500, 37, 63, 1_000],
        &[3_599, 1],
        &[100; 36],
    ];
    for lengths in stretches {
        assert_eq!(lengths.iter().sum::<u32>(), 3_600);
        let parts = job.runs_of_stretches(START, lengths, more_than_enough);
        assert_eq!(printed_together(&parts), whole[0].printed, "{lengths:?}");
        assert_eq!(job.seeds_printed_again(&parts), []);
        job.restores(&parts);

        let mut next_start = START;
        for (part, &length) in parts.iter().zip(lengths) {
            assert_eq!(
                (part.written.stop, part.written.tried),
                (Stop::Spent, length)
            );
            assert_eq!(part.written.next_seed, seed_at(next_start, length).unwrap());
            next_start = part.written.next_seed;
        }
        assert_eq!(next_start, whole[0].written.next_seed);
        let sum = |number: fn(&Written) -> u32| -> u32 {
            parts.iter().map(|part| number(&part.written)).sum()
        };
        assert_eq!(sum(|w| w.made as u32), whole[0].written.made as u32);
        assert_eq!(sum(|w| w.dropped_run), whole[0].written.dropped_run);
        assert_eq!(sum(|w| w.dropped_gc), whole[0].written.dropped_gc);
    }
}

/// Parts that are done before their budget is spent try only a front of their
/// stretch, and print a front of what the whole stretch would.
#[test]
fn parts_that_are_done_early() {
    let job = Job::new();
    for (lengths, wanted) in [
        (&[900, 900, 900, 900, 900, 900], 60),
        (&[1_300, 700, 1_100, 900, 1_200, 800], 55),
    ] {
        let spent = job.runs_of_stretches(START, lengths, 1_000);
        let done = job.runs_of_stretches(START, lengths, wanted);
        for (index, part) in done.iter().enumerate() {
            assert_eq!((part.written.stop, part.written.made), (Stop::Done, wanted));
            assert!(part.written.tried < lengths[index]);
            assert_eq!(part.printed, spent[index].printed[..wanted * LINE]);
        }
        assert_eq!(job.seeds_printed_again(&done), []);
        job.restores(&done);
    }
}

/// Parts of which some are done early and some spend their stretch.
#[test]
fn parts_done_and_spent() {
    let job = Job::new();
    let lengths = [1_200, 200, 1_200, 30, 1_200, 0, 1_200];
    let parts = job.runs_of_stretches(START, &lengths, 90);
    let stops: Vec<Stop> = parts.iter().map(|part| part.written.stop).collect();
    let (done, spent) = (Stop::Done, Stop::Spent);
    assert_eq!(stops, [done, spent, done, spent, done, spent, done]);
    assert_eq!(job.seeds_printed_again(&parts), []);
    job.restores(&parts);
}

/// Stretches that lie all round the schedule, "whose lengths sum to at most that
/// number", and here to just that. The last part spends its stretch, and its next
/// seed is the job's start.
#[test]
fn parts_all_round_the_schedule() {
    let job = Job::new();
    let lengths = [
        1 << 30,
        1 << 31,
        700,
        100_000_000,
        ROUND - (1 << 30) - (1 << 31) - 700 - 100_000_000 - 600,
        600,
    ];
    assert_eq!(lengths.iter().sum::<u32>(), ROUND);
    let parts = job.runs_of_stretches(START, &lengths, 150);
    let last = &parts[5].written;
    assert_eq!((last.stop, last.tried), (Stop::Spent, 600));
    assert_eq!(last.next_seed, START);
    assert_eq!(job.seeds_printed_again(&parts), []);
    job.restores(&parts);
}

// ------------------------------------------------------------ where seeds come twice

/// The first length, from this one on, of a stretch from the job's start whose last
/// seed is printed.
fn length_that_ends_with_a_strand(job: &Job, from: u32) -> u32 {
    (from..from + 1_000)
        .find(|length| {
            let last = seed_at(START, length - 1).unwrap();
            job.run(last, 1, 1).written.made == 1
        })
        .expect("some strand passes the screen")
}

/// Two starts one step apart, and stretches of 200: both runs try all but the first
/// seed of the one and the last of the other.
#[test]
fn starts_one_step_apart_print_seeds_twice() {
    let job = Job::new();
    let start = seed_at(START, length_that_ends_with_a_strand(&job, 1) - 1).unwrap();
    let runs = [
        job.run(start, 1_000, 200),
        job.run(schedule_step(start), 1_000, 200),
    ];
    let of_the_first = job.seeds(&runs[..1]);
    assert_eq!(of_the_first[0], start);
    let again = job.seeds_printed_again(&runs);
    assert!(again.len() > 10);
    assert_eq!(again, of_the_first[1..]);
}

/// A part that starts one step too soon prints the last seed of the part before it.
#[test]
fn a_part_one_step_too_soon_prints_a_seed_twice() {
    let job = Job::new();
    let length = length_that_ends_with_a_strand(&job, 500);
    let mut parts = job.runs_of_stretches(START, &[length, 300], 1_000);
    assert_eq!(job.seeds_printed_again(&parts), []);
    let too_soon = seed_at(START, length - 1).unwrap();
    parts[1] = job.run(too_soon, 1_000, 300);
    assert_eq!(job.seeds_printed_again(&parts), [too_soon]);
}

/// Stretches that sum to one more than a round meet the start again.
#[test]
fn one_seed_more_than_a_round_is_printed_twice() {
    let job = Job::new();
    let start = seed_at(START, length_that_ends_with_a_strand(&job, 1) - 1).unwrap();
    let mut parts = job.runs_of_stretches(start, &[ROUND - 300, 300], 100);
    assert_eq!(job.seeds_printed_again(&parts), []);
    parts[1] = job.run(seed_at(start, ROUND - 300).unwrap(), 100, 301);
    assert_eq!(job.seeds_printed_again(&parts), [start]);
}
