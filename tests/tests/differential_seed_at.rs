//! The seed at a schedule position by the archive `libcapi.a` beside the second implementation's, over random starts and steps. Each
//! jump is taken in two as well, and short ones, and those that end shortly before the start is met again, are walked, too.

mod differential;

use differential::lent::Lent;
use differential::random::Random;
use differential::run::{run, Regions};
use second::schedule_step;

#[cfg(capi_missing)]
compile_error!("target/staticlib/libcapi.a is missing: `host/build capi` makes it");

#[link(name = "capi", kind = "static")]
extern "C" {
    fn fountain_seed_at(start: u32, steps: u32, answer: *mut u64) -> u32;
}

/// "the schedule comes back to it after 4,294,967,295 steps"
const ROUND: u32 = 4_294_967_295;

/// As many steps are walked at most.
const WALKED_MOST: u32 = 300;

const TOP_BIT: u32 = 1 << 31;

fn walked(start: u32, steps: u32) -> u32 {
    (0..steps).fold(start, |seed, _| schedule_step(seed))
}

/// The archive's call, lent an answer that holds `before`, beside the second implementation's. Gives the seed, unless it is refused.
fn compare(
    random: &mut Random,
    start: u32,
    steps: u32,
    before: u64,
) -> Result<Option<u32>, String> {
    let mut answer = Lent::new(random, &[before]);
    // The answer has a place for one number.
    let got = unsafe { fountain_seed_at(start, steps, answer.pointer_mut()) };
    let expected = second::seed_at(start, steps);
    let (number, after) = match expected {
        Ok(seed) => (0, seed.into()),
        Err(refusal) => (refusal.0.into(), before),
    };
    let report = |what: &str| {
        format!(
            "{what}; start {start:08X} steps {steps} answer before {before:016X}: the archive answered {got} and {:016X}, \
             expected are {number} and {after:016X}",
            answer.items()[0]
        )
    };
    if got != number {
        return Err(report("number"));
    }
    answer.holds(&[after]).map_err(|e| report(&e))?;
    Ok(expected.ok())
}

struct Case {
    start: u32,
    steps: u32,
    /// What the lent answer holds before the call.
    before: u64,
}

impl Case {
    fn any(random: &mut Random) -> Case {
        let steps = any_steps(random);
        Case {
            start: any_start(random, steps),
            steps,
            before: any_before(random),
        }
    }

    fn compare(&self, random: &mut Random, regions: &mut Regions) -> Result<(), String> {
        let Case { start, steps, .. } = *self;
        let Some(seed) = compare(random, start, steps, self.before)? else {
            self.note_steps(regions, 6);
            return Ok(());
        };
        self.note_steps(regions, 0);
        self.note_seeds(regions, seed);
        self.compare_walked(regions, seed)?;
        self.compare_split(random, regions, seed)
    }

    /// A few steps from the start to the seed are walked, and so are a few from the seed round to the start again.
    fn compare_walked(&self, regions: &mut Regions, seed: u32) -> Result<(), String> {
        let Case { start, steps, .. } = *self;
        if steps <= WALKED_MOST {
            regions.note("walked");
            if walked(start, steps) != seed {
                return Err(format!("walked: start {start:08X} steps {steps}"));
            }
        }
        if ROUND - steps <= WALKED_MOST {
            regions.note("walked on to the start");
            if walked(seed, ROUND - steps) != start {
                return Err(format!("walked on: start {start:08X} steps {steps}"));
            }
        }
        Ok(())
    }

    /// The archive's call twice, for two parts of the steps, or of the steps and a round, gives the seed of one call.
    fn compare_split(
        &self,
        random: &mut Random,
        regions: &mut Regions,
        seed: u32,
    ) -> Result<(), String> {
        let Case { start, steps, .. } = *self;
        let once_round = random.once_in(3);
        let (first, second) = any_parts(random, steps, once_round);
        regions.note_if(first == 0, "split: first part 0");
        regions.note_if(second == 0, "split: second part 0");
        regions.note_if(first == second && first > 0, "split: halves");
        regions.note_if(first > 0 && second > 0 && !once_round, "split: two parts");
        regions.note_if(once_round && steps > 0, "split: once round");
        regions.note_if(first == TOP_BIT || second == TOP_BIT, "split: a part 2^31");
        regions.note_if(first == ROUND || second == ROUND, "split: a part 2^32 - 1");
        let between = compare(random, start, first, self.before)?;
        let between = between.expect("only start 0 is refused");
        let before = any_before(random);
        if compare(random, between, second, before)? != Some(seed) {
            return Err(format!(
                "split: start {start:08X} steps {steps} taken as {first} and {second}"
            ));
        }
        Ok(())
    }

    fn note_steps(&self, regions: &mut Regions, number: u32) {
        regions.note_answer(number);
        for kind in kinds_of_steps(self.steps) {
            regions.note(&format!("{number}: {kind}"));
        }
        regions.note_if(self.before >> 32 == 0, &format!("{number}: low answer"));
        regions.note_if(self.before >> 32 != 0, &format!("{number}: high answer"));
    }

    fn note_seeds(&self, regions: &mut Regions, seed: u32) {
        for kind in kinds_of_seed(self.start) {
            regions.note(&format!("start {kind}"));
        }
        for kind in kinds_of_seed(seed) {
            regions.note(&format!("gives {kind}"));
        }
        regions.note_if(seed == self.start, "gives the start");
        regions.note_if(self.start == self.steps, "start = steps");
        regions.note_if(
            self.start == ROUND && self.steps == ROUND,
            "start and steps FFFFFFFF",
        );
    }
}

/// Two parts of the steps; or two that sum to a round more.
fn any_parts(random: &mut Random, steps: u32, once_round: bool) -> (u32, u32) {
    let (least, most) = if once_round {
        (steps, ROUND)
    } else {
        (0, steps)
    };
    let middle = least + (most - least) / 2;
    let first = match random.below(8) {
        0 => least,
        1 => most,
        2 => middle,
        3 => TOP_BIT.clamp(least, most),
        _ => random.between(least as usize, most as usize) as u32,
    };
    let sum = if once_round {
        u64::from(steps) + u64::from(ROUND)
    } else {
        steps.into()
    };
    (first, (sum - u64::from(first)) as u32)
}

#[rustfmt::skip]
const STEPS: &[(u32, &str)] = &[
    (0, "steps 0"), (1, "steps 1"), (2, "steps 2"), (31, "steps 31"), (32, "steps 32"), (33, "steps 33"),
    (0xFFFF, "steps 2^16 - 1"), (0x1_0000, "steps 2^16"), (0x1_0001, "steps 2^16 + 1"),
    (TOP_BIT - 1, "steps 2^31 - 1"), (TOP_BIT, "steps 2^31"), (TOP_BIT + 1, "steps 2^31 + 1"),
    (ROUND - 1, "steps 2^32 - 2"), (ROUND, "steps 2^32 - 1"),
];

/// The low `count` bits, from none to all 32.
fn low_bits(count: usize) -> u32 {
    ((1u64 << count) - 1) as u32
}

fn any_steps(random: &mut Random) -> u32 {
    match random.below(8) {
        0 | 1 => random.one_of(STEPS).0,
        2 => 1 << random.below(32),
        3 => low_bits(random.between(1, 32)),
        4 if random.once_in(2) => !(1 << random.below(32)),
        4 => !low_bits(random.between(1, 31)),
        5 => random.below(WALKED_MOST as usize + 1) as u32,
        6 if random.once_in(2) => ROUND - random.below(WALKED_MOST as usize + 1) as u32,
        _ => random.word(),
    }
}

/// What the steps are, by their value.
fn kinds_of_steps(steps: u32) -> Vec<String> {
    let mut kinds = Vec::new();
    kinds.extend(named(STEPS, steps));
    if steps.count_ones() == 1 {
        kinds.push(format!("steps of bit {} alone", steps.trailing_zeros()));
    }
    if steps.count_zeros() == 1 {
        kinds.push(format!("steps of all but bit {}", steps.trailing_ones()));
    }
    let ones = steps.count_ones();
    if ones > 0 && steps.trailing_ones() == ones {
        kinds.push(format!("steps of the low {ones} bits"));
    }
    if ones > 0 && ones < 32 && steps.leading_ones() == ones {
        kinds.push(format!("steps of the high {ones} bits"));
    }
    if kinds.is_empty() {
        kinds.push(String::from(if steps <= WALKED_MOST {
            "other steps to walk"
        } else if ROUND - steps <= WALKED_MOST {
            "other steps that end near the start"
        } else {
            "other steps"
        }));
    }
    kinds
}

#[rustfmt::skip]
const SEEDS: &[(u32, &str)] = &[
    (1, "00000001"), (TOP_BIT, "80000000"), (TOP_BIT - 1, "7FFFFFFF"), (u32::MAX, "FFFFFFFF"), (0xC5, "000000C5"),
];

/// A start; now and then one from which as many steps give a seed that is itself of some kind.
fn any_start(random: &mut Random, steps: u32) -> u32 {
    if random.once_in(8) {
        return 0;
    }
    let seed = match random.below(8) {
        0 | 1 => random.one_of(SEEDS).0,
        2 | 3 => 1 << random.below(32),
        4 => random.below(255) as u32 + 1,
        5 => steps,
        _ => random.word(),
    };
    if seed == 0 {
        return 1;
    }
    if random.once_in(3) {
        return second::seed_at(seed, ROUND - steps).expect("the seed is not 0");
    }
    seed
}

fn kinds_of_seed(seed: u32) -> Vec<String> {
    let mut kinds = Vec::new();
    kinds.extend(named(SEEDS, seed));
    if seed.count_ones() == 1 {
        kinds.push(format!("of bit {} alone", seed.trailing_zeros()));
    }
    if kinds.is_empty() {
        kinds.push(String::from(if seed < 256 {
            "of one byte"
        } else {
            "of any bits"
        }));
    }
    kinds
}

fn named(names: &[(u32, &str)], number: u32) -> Option<String> {
    let (_, name) = names.iter().find(|&&(named, _)| named == number)?;
    Some(String::from(*name))
}

fn any_before(random: &mut Random) -> u64 {
    let any = random.number();
    random.one_of(&[any, any, any, any >> 32, 0, u64::MAX])
}

/// The regions that must be met: the kinds of steps with each answer, the kinds of start and of seed given, and the rest.
fn regions() -> Vec<String> {
    let mut kinds: Vec<String> = Vec::new();
    kinds.extend(STEPS.iter().map(|&(_, name)| String::from(name)));
    for bit in 0..32 {
        kinds.push(format!("steps of bit {bit} alone"));
        kinds.push(format!("steps of all but bit {bit}"));
        kinds.push(format!("steps of the low {} bits", bit + 1));
    }
    kinds.extend((1..=31).map(|count| format!("steps of the high {count} bits")));
    kinds.extend(OTHER_STEPS.iter().map(|&name| String::from(name)));

    let mut seeds: Vec<String> = Vec::new();
    seeds.extend(SEEDS.iter().map(|&(_, name)| String::from(name)));
    seeds.extend((0..32).map(|bit| format!("of bit {bit} alone")));
    seeds.extend(["of one byte", "of any bits"].map(String::from));

    let mut regions: Vec<String> = Vec::new();
    for number in [0, 6] {
        regions.push(format!("answer {number}"));
        regions.extend(kinds.iter().map(|kind| format!("{number}: {kind}")));
        regions.extend(BEFORE.iter().map(|kind| format!("{number}: {kind}")));
    }
    for what in ["start", "gives"] {
        regions.extend(seeds.iter().map(|kind| format!("{what} {kind}")));
    }
    regions.extend(REGIONS.iter().map(|&name| String::from(name)));
    regions
}

const OTHER_STEPS: &[&str] = &[
    "other steps to walk",
    "other steps that end near the start",
    "other steps",
];

/// What the lent answer holds before the call, by its high half.
const BEFORE: &[&str] = &["low answer", "high answer"];

#[rustfmt::skip]
const REGIONS: &[&str] = &[
    "gives the start", "start = steps", "start and steps FFFFFFFF", "walked", "walked on to the start",
    "split: first part 0", "split: second part 0", "split: halves", "split: two parts", "split: once round",
    "split: a part 2^31", "split: a part 2^32 - 1",
];

#[test]
fn seed_at() {
    let regions = regions();
    let wanted: Vec<&str> = regions.iter().map(String::as_str).collect();
    run("seed_at", &[&wanted], |random, regions| {
        Case::any(random).compare(random, regions)
    });
}

/// Every start of a single bit, of all bits and of none, which is refused, by every such number of steps.
#[test]
fn every_bit_of_start_by_every_bit_of_steps() {
    let random = &mut Random::of_case("every_bit_of_start_by_every_bit_of_steps", 0);
    let bits = || (0..32).map(|bit| 1 << bit);
    for start in bits().chain([0, u32::MAX]) {
        for steps in bits().chain([0, u32::MAX]) {
            let before = any_before(random);
            compare(random, start, steps, before).unwrap_or_else(|report| panic!("{report}"));
        }
    }
}

/// The archive's seeds at the first positions from a start are those that the schedule steps through.
#[test]
fn first_positions() {
    let random = &mut Random::of_case("first_positions", 0);
    for start in [1, TOP_BIT, u32::MAX, 0xACE1_2357] {
        let mut seed = start;
        for steps in 0..=70_000 {
            let before = any_before(random);
            let got = compare(random, start, steps, before);
            assert_eq!(got, Ok(Some(seed)), "{start:08X} {steps}");
            seed = schedule_step(seed);
        }
    }
}
