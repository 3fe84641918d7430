//! The writer of the archive `libcapi.a` beside the second implementation's, over random cases, some of them run in two parts.

mod differential;

use differential::cards::{self, Numbers};
use differential::drops::{self, Fault};
use differential::joints;
use differential::lent::{hex, Lent};
use differential::random::Random;
use differential::reads;
use differential::run::{run, Regions};
use differential::sizes;
use second::check_bytes_letters_screen::letters_of_bytes;
use second::droplet::{payload, set_of_segments};
use second::writer::strand_letters;
use second::{schedule_step, Stop};
use std::iter;

#[cfg(capi_missing)]
compile_error!("target/staticlib/libcapi.a is missing: `host/build capi` makes it");

#[link(name = "capi", kind = "static")]
extern "C" {
    fn fountain_write(
        f: u32,
        l: u8,
        r: u8,
        m: u8,
        lo: u16,
        hi: u16,
        dealt: u8,
        width: u32,
        weights: *const u8,
        weights_len: usize,
        file: *const u8,
        file_len: usize,
        start: u32,
        wanted: u32,
        budget: u32,
        out: *mut u8,
        out_len: usize,
        list: *mut u32,
        list_len: usize,
        answer: *mut u64,
    ) -> u32;
}

const WANTED_MOST: u32 = 1_000_000;

#[derive(Clone)]
struct Case {
    numbers: Numbers,
    file: Vec<u8>,
    start: u32,
    wanted: u32,
    budget: u32,
    /// Buffers as they are before the call.
    out: Vec<u8>,
    list: Vec<u32>,
    answer: [u64; 6],
}

/// A call's number and what it leaves in the buffers.
struct After {
    number: u32,
    out: Vec<u8>,
    answer: [u64; 6],
}

impl Case {
    fn any(random: &mut Random) -> Case {
        let mut numbers = sizes::any_accepted(random);
        let mut file = any_file(random, &numbers);
        let mut start = reads::any_seed(random);
        if random.once_in(6) {
            let seed = print_at_joint(random, &numbers, &mut file);
            start = (0..random.below(3)).fold(seed, |seed, _| seed_before(seed));
            fit_screen(random, &mut numbers, &file, seed);
        } else if random.once_in(3) {
            let seed = (0..random.below(4)).fold(start, |seed, _| schedule_step(seed));
            fit_screen(random, &mut numbers, &file, seed);
        }
        let mut wanted = random.one_of(&[0, 1, 1, 2, 3, 6]);
        let mut budget = random.one_of(&[0, 1, 1, 2, 3, 5, 8, 12]);
        if random.once_in(8) {
            // Long enough for drops of both kinds, in each of two parts too.
            drops::tighten(random, &mut numbers);
            wanted = random.one_of(&[1, 3, 6]);
            budget = random.one_of(&[5, 8, 12, 20]);
        }
        let out_length = sizes::lent_for(random, wanted as usize * (numbers.n() + 1));
        let list_length = sizes::lent_for(random, numbers.d());
        let mut case = Case {
            out: random.bytes(out_length),
            list: (0..list_length).map(|_| random.word()).collect(),
            answer: std::array::from_fn(|_| random.number()),
            numbers,
            file,
            start,
            wanted,
            budget,
        };
        case.turn_aside(random);
        if random.once_in(7) {
            cards::miss(random, &mut case.numbers);
        }
        case
    }

    /// Sends some cases to the regions that the plain ones do not reach.
    fn turn_aside(&mut self, random: &mut Random) {
        match random.below(80) {
            0 => self.file.truncate(self.file.len() - 1),
            1 => self.file.push(0),
            2 => self.file = random.bytes(random_length(self)),
            3..=5 => self.start = 0,
            6 => self.wanted = random.one_of(&[WANTED_MOST, WANTED_MOST + 1, u32::MAX, 1 << 31]),
            7..=9 => self.unbound_budget(random),
            10 if random.once_in(200) => self.want_most(random),
            _ => (),
        }
    }

    /// As many strands as may be wanted, or one over, in a buffer that is long enough.
    fn want_most(&mut self, random: &mut Random) {
        self.wanted = WANTED_MOST + random.below(2) as u32;
        self.out = random.bytes(self.wanted as usize * (self.numbers.n() + 1));
        self.list.resize(self.numbers.d(), 7);
    }

    /// A budget that is never reached, for a run that is known to be done before.
    fn unbound_budget(&mut self, random: &mut Random) {
        self.budget = 50;
        let after = self.expected();
        if after.number == 0 && after.answer[0] == 0 {
            self.budget = random.one_of(&[u32::MAX, 1 << 31, after.answer[2] as u32]);
        }
    }

    fn expected(&self) -> After {
        let mut out = self.out.clone();
        let mut list = self.list.clone();
        let wanted = self.wanted as usize;
        match second::write(
            &self.numbers.handed(),
            &self.file,
            self.start,
            wanted,
            self.budget,
            &mut out,
            &mut list,
        ) {
            Ok(written) => {
                let stop = if written.stop == Stop::Done { 0 } else { 1 };
                let answer = [
                    stop,
                    written.made as u64,
                    written.tried.into(),
                    written.next_seed.into(),
                    written.dropped_run.into(),
                    written.dropped_gc.into(),
                ];
                After {
                    number: 0,
                    out,
                    answer,
                }
            }
            Err(refusal) => After {
                number: refusal.0.into(),
                out,
                answer: self.answer,
            },
        }
    }

    /// Runs the archive's writer and compares all that it leaves with what is expected.
    fn compare(
        &self,
        random: &mut Random,
        regions: &mut Regions,
        expected: &After,
    ) -> Result<(), String> {
        let numbers = &self.numbers;
        let weights = Lent::new(random, &numbers.weights);
        let file = Lent::new(random, &self.file);
        let mut out = Lent::new(random, &self.out);
        let mut list = Lent::new(random, &self.list);
        let mut answer = Lent::new(random, &self.answer);
        regions.note_if(weights.is_null(), "weights NULL");
        regions.note_if(file.is_null(), "file NULL");
        regions.note_if(
            out.is_null() && expected.number == 0,
            "out NULL and accepted",
        );
        regions.note_if(list.is_null(), "list NULL");
        // Each pointer stands for as many items as its length says (six numbers for the answer), and nothing overlaps.
        let got = unsafe {
            fountain_write(
                numbers.f,
                numbers.l,
                numbers.r,
                numbers.m,
                numbers.lo,
                numbers.hi,
                numbers.dealt,
                numbers.width,
                weights.pointer(),
                weights.len(),
                file.pointer(),
                file.len(),
                self.start,
                self.wanted,
                self.budget,
                out.pointer_mut(),
                out.len(),
                list.pointer_mut(),
                list.len(),
                answer.pointer_mut(),
            )
        };
        let report = |what: String| {
            format!(
                "{what}; the archive answered {got}, expected is {}; {}",
                expected.number,
                self.report()
            )
        };
        if got != expected.number {
            return Err(report(String::from("answer")));
        }
        let free = if got == 0 { numbers.d() } else { 0 };
        weights
            .holds(&numbers.weights)
            .map_err(|e| report(format!("weights: {e}")))?;
        file.holds(&self.file)
            .map_err(|e| report(format!("file: {e}")))?;
        list.holds_past(free, &self.list)
            .map_err(|e| report(format!("list: {e}")))?;
        let numbers_differ = |e| {
            report(format!(
                "numbers {:?}, expected are {:?}: {e}",
                answer.items(),
                expected.answer
            ))
        };
        answer.holds(&expected.answer).map_err(numbers_differ)?;
        out.holds(&expected.out)
            .map_err(|e| report(format!("out {}: {e}", hex(out.items()))))
    }

    /// The same run in two parts, the second from the first one's next seed, gives the same strands, and as many of them, seeds
    /// and drops of each kind in sum.
    fn compare_resumed(
        &self,
        random: &mut Random,
        regions: &mut Regions,
        whole: &After,
    ) -> Result<(), String> {
        let mut first = self.clone();
        first.budget = random.below(whole.answer[2] as usize + 1) as u32;
        let after_first = first.expected();
        first.compare(random, regions, &after_first)?;
        let [_, made, tried, next, for_run, for_gc] = after_first.answer;
        let faults = self.faults(&self.strands_tried(whole));
        drops::note_resumed(regions, &faults, tried as usize);

        let place = made as usize * (self.numbers.n() + 1);
        let mut rest = self.clone();
        rest.start = next as u32;
        rest.wanted -= made as u32;
        rest.budget -= tried as u32;
        rest.out = self.out[place..].to_vec();
        let after_rest = rest.expected();
        rest.compare(random, regions, &after_rest)?;

        let mut strands = after_first.out[..place].to_vec();
        strands.extend_from_slice(&after_rest.out);
        let [stop, made_more, tried_more, next, for_run_more, for_gc_more] = after_rest.answer;
        let sums = [
            stop,
            made + made_more,
            tried + tried_more,
            next,
            for_run + for_run_more,
            for_gc + for_gc_more,
        ];
        if strands != whole.out || sums != whole.answer {
            return Err(format!(
                "resumed after {tried} seeds, the run differs from one run; {}",
                self.report()
            ));
        }
        Ok(())
    }

    fn report(&self) -> String {
        format!(
            "{} file {} start {:08X} wanted {} budget {} out of {} bytes, list of {}",
            self.numbers.report(),
            hex(&self.file),
            self.start,
            self.wanted,
            self.budget,
            self.out.len(),
            self.list.len()
        )
    }

    fn note(&self, regions: &mut Regions, after: &After) {
        cards::note(regions, &self.numbers, after.number);
        let needed = self.wanted as usize * (self.numbers.n() + 1);
        match after.number {
            0 => {
                self.note_written(regions, after.answer, needed);
                self.note_strands(regions, after);
            }
            27 => {
                let other_length = self.file.len() != self.numbers.f as usize;
                regions.note_if(other_length, "27: 5 too");
                regions.note_if(!other_length, "27: 5 fine");
            }
            5 => {
                regions.note_if(
                    self.file.len() + 1 == self.numbers.f as usize,
                    "5: a byte short",
                );
                regions.note_if(
                    self.file.len() == self.numbers.f as usize + 1,
                    "5: a byte over",
                );
                regions.note_if(self.file.is_empty(), "5: no file");
            }
            7 => {
                regions.note_if(
                    self.wanted <= WANTED_MOST && self.out.len() + 1 == needed,
                    "7: a byte short",
                );
                regions.note_if(
                    self.wanted <= WANTED_MOST && self.out.is_empty(),
                    "7: no bytes",
                );
                regions.note_if(
                    self.wanted == WANTED_MOST + 1 && self.out.len() >= needed,
                    "7: wanted 1,000,001 and room for them",
                );
                regions.note_if(self.wanted == u32::MAX, "7: wanted 4,294,967,295");
            }
            8 => {
                regions.note_if(self.list.len() + 1 == self.numbers.d(), "8: one short");
                regions.note_if(self.list.is_empty(), "8: no list");
            }
            _ => (),
        }
    }

    fn note_written(&self, regions: &mut Regions, answer: [u64; 6], needed: usize) {
        let [stop, made, tried, ..] = answer;
        sizes::note(regions, &self.numbers, self.start);
        regions.note_if(stop == 1, "spent");
        regions.note_if(
            stop == 0 && tried == self.budget.into(),
            "done and spent at once",
        );
        regions.note_if(
            stop == 0 && tried < self.budget.into(),
            "done before the budget",
        );
        regions.note_if(made > 0 && made < tried, "some seeds did not pass");
        regions.note_if(made == 0 && tried > 0, "no seed passed");
        regions.note_if(self.wanted == 0, "wanted 0");
        regions.note_if(self.wanted == WANTED_MOST, "wanted 1,000,000");
        regions.note_if(self.budget == 0 && self.wanted > 0, "budget 0");
        regions.note_if(self.budget == u32::MAX, "budget 4,294,967,295");
        regions.note_if(
            self.wanted > 0 && self.out.len() == needed,
            "out just long enough",
        );
        regions.note_if(self.out.len() > needed, "out longer");
        regions.note_if(self.list.len() == self.numbers.d(), "list just long enough");
        regions.note_if(self.list.len() > self.numbers.d(), "list longer");
        let one_fell_out = seeds_from(self.start)
            .take(tried as usize)
            .any(|seed| seed >= 1 << 31);
        regions.note_if(one_fell_out, "a one fell out of the seed");
    }

    /// The strands tried, and whether each passed: one did if the next line starts with its seed.
    fn strands_tried(&self, after: &After) -> Vec<(Vec<u8>, bool)> {
        let [_, made, tried, ..] = after.answer;
        let n = self.numbers.n();
        let mut lines = after.out.chunks(n + 1).take(made as usize).peekable();
        seeds_from(self.start)
            .take(tried as usize)
            .map(|seed| {
                let first_letters = letters_of_bytes(&seed.to_be_bytes());
                match lines.next_if(|line| line.starts_with(&first_letters)) {
                    Some(line) => (line[..n].to_vec(), true),
                    None => {
                        let strand = strand_letters(&self.numbers.handed(), &self.file, seed);
                        (strand, false)
                    }
                }
            })
            .collect()
    }

    /// Notes the joints and the faults of the strands tried. By these faults too strands were made or dropped, and counted.
    fn note_strands(&self, regions: &mut Regions, after: &After) {
        let strands = self.strands_tried(after);
        for (strand, passed) in &strands {
            joints::note(regions, &self.numbers, strand, *passed);
            drops::note_strand(regions, &self.numbers, strand);
        }
        let faults = self.faults(&strands);
        let [stop, made, tried, _, for_run, for_gc] = after.answer;
        assert_eq!([for_run, for_gc], drops::two_numbers(&faults), "the drops");
        assert_eq!(tried, made + for_run + for_gc, "the seeds tried");
        drops::note_run(regions, &faults, stop == 1);
    }

    fn faults(&self, strands: &[(Vec<u8>, bool)]) -> Vec<Fault> {
        strands
            .iter()
            .map(|(strand, _)| Fault::of(&self.numbers, strand))
            .collect()
    }
}

/// The seed that steps to this one. The low bit is 1 just if a one fell out.
fn seed_before(seed: u32) -> u32 {
    if seed & 1 == 1 {
        return (seed ^ 0xC5) >> 1 | 1 << 31;
    }
    seed >> 1
}

/// The schedule from a seed on.
fn seeds_from(start: u32) -> impl Iterator<Item = u32> {
    iter::successors(Some(start), |&seed| Some(schedule_step(seed)))
}

#[rustfmt::skip]
const REGIONS: &[&str] = &[
    "answer 5", "answer 6", "answer 7", "answer 8", "5: a byte short", "5: a byte over", "5: no file",
    "7: a byte short", "7: no bytes", "7: wanted 1,000,001 and room for them", "7: wanted 4,294,967,295",
    "8: one short", "8: no list", "spent", "done and spent at once", "done before the budget", "some seeds did not pass",
    "no seed passed", "wanted 0", "wanted 1,000,000", "budget 0", "budget 4,294,967,295", "out just long enough", "out longer",
    "file NULL", "out NULL and accepted", "list NULL", "list just long enough", "list longer", "a one fell out of the seed", "resumed",
    "27: 5 too", "27: 5 fine",
];

/// A file of F bytes: any, or of few different ones, so that long runs occur.
fn any_file(random: &mut Random, numbers: &Numbers) -> Vec<u8> {
    if random.once_in(8) {
        return reads::any_payload(random, numbers.f as usize);
    }
    random.bytes(numbers.f as usize)
}

/// A length that is not F, mostly K·L or 0.
fn random_length(case: &Case) -> usize {
    let whole = case.numbers.k() * usize::from(case.numbers.l);
    if whole == case.numbers.f as usize {
        0
    } else {
        whole
    }
}

/// A seed, and a file changed so that its strand has a run through a joint, if its set has a segment that lies within F.
fn print_at_joint(random: &mut Random, numbers: &Numbers, file: &mut [u8]) -> u32 {
    let l = usize::from(numbers.l);
    let (seed, wanted) = joints::any_droplet(random, l, numbers.r);
    let set = set_of_segments(seed, &numbers.weights, numbers.k());
    let now = payload(&set, file, numbers.l);
    let whole = file.len() / l;
    if let Some(&segment) = set.iter().find(|&&segment| segment < whole) {
        for i in 0..l {
            file[segment * l + i] ^= now[i] ^ wanted[i];
        }
    }
    seed
}

/// Sets the screen so that the seed's strand just passes it, just misses it, or misses GC, with its run over m or just m.
fn fit_screen(random: &mut Random, numbers: &mut Numbers, file: &[u8], seed: u32) {
    let strand = strand_letters(&numbers.handed(), file, seed);
    match random.below(9) {
        0..=2 => reads::let_miss(random, numbers, &strand),
        3 | 4 => drops::let_miss_gc(random, numbers, &strand),
        _ => reads::let_pass(random, numbers, &strand),
    }
}

fn case(random: &mut Random, regions: &mut Regions) -> Result<(), String> {
    let case = Case::any(random);
    let expected = case.expected();
    case.note(regions, &expected);
    case.compare(random, regions, &expected)?;
    if expected.number == 0 && random.once_in(4) {
        regions.note("resumed");
        case.compare_resumed(random, regions, &expected)?;
    }
    Ok(())
}

/// Seeds of degree 1,024 under the largest K, whose sets turn on a collision among the last segments.
#[test]
fn late_collisions() {
    let random = &mut Random::of_case("late_collisions", 0);
    let mut weights = vec![0; cards::D_MOST];
    weights[cards::D_MOST - 1] = 2;
    let mut numbers = cards::accepted(random, 1, cards::K_MOST, 1);
    (numbers.m, numbers.lo, numbers.hi) = (20, 0, 1000);
    numbers.weights = cards::bytes_of(&weights);
    let out = random.bytes(3 * (numbers.n() + 1));
    let mut case = Case {
        file: random.bytes(cards::K_MOST),
        start: 1,
        wanted: 2,
        budget: 3,
        out,
        list: vec![7; cards::D_MOST + 1],
        answer: [9; 6],
        numbers,
    };
    for _ in 0..20 {
        case.start = sizes::seed_of_late_collision(random);
        let expected = case.expected();
        assert_eq!((expected.number, expected.answer[1]), (0, 2));
        case.compare(random, &mut Regions::default(), &expected)
            .unwrap_or_else(|report| panic!("{report}"));
    }
}

#[test]
fn write() {
    run(
        "write",
        &[
            cards::REGIONS,
            cards::HANDED_REGIONS,
            sizes::REGIONS,
            joints::REGIONS,
            drops::REGIONS,
            REGIONS,
        ],
        case,
    );
}
