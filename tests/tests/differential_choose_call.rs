//! The choice between two base callers by the archive `libcapi.a` beside the second implementation's, over random pairs of calls. The
//! middle of the call that the archive chose must be the very part that the second implementation hands back, and the read check of
//! `libstrand.a` must accept it.

mod differential;

use differential::calls::{self, Verdict};
use differential::cards::{self, Numbers};
use differential::lent::{hex, Lent};
use differential::random::Random;
use differential::reads::{self, Read};
use differential::run::{run, Regions};
use differential::{joints, wrong_bytes};
use second::check_bytes_letters_screen::{letters_of_bytes, order, SITE_BEFORE};
use second::{call_letters, read_check, Choice, Refusal};
use std::ptr;

#[cfg(capi_missing)]
compile_error!("target/staticlib/libcapi.a is missing: `host/build capi` makes it");

#[cfg(strand_missing)]
compile_error!("target/staticlib/libstrand.a is missing: `host/build strand` makes it");

#[link(name = "capi", kind = "static")]
extern "C" {
    fn fountain_choose_call(
        f: u32,
        l: u8,
        r: u8,
        m: u8,
        lo: u16,
        hi: u16,
        dealt: u8,
        width: u32,
        weights: *const u8,
        weights_len: usize,
        first: *const u8,
        first_len: usize,
        second: *const u8,
        second_len: usize,
        answer: *mut u64,
    ) -> u32;
}

#[link(name = "strand", kind = "static")]
extern "C" {
    fn fountain_check_read(
        f: u32,
        l: u8,
        r: u8,
        m: u8,
        lo: u16,
        hi: u16,
        dealt: u8,
        width: u32,
        weights: *const u8,
        weights_len: usize,
        read: *const u8,
        read_len: usize,
        out: *mut u8,
        out_len: usize,
    ) -> u32;
}

/// What the archive is handed.
struct Pair {
    numbers: Numbers,
    first: Vec<u8>,
    second: Vec<u8>,
    /// Whether calls of the same letters are lent in one buffer.
    in_one: bool,
    /// What the lent answer holds before the call.
    before: u64,
}

impl Pair {
    fn expected(&self) -> Result<Choice, Refusal> {
        second::choose_call(&self.numbers.handed(), &self.first, &self.second)
    }

    /// Runs the archive's choice and compares all that it leaves with what is expected, and then the letters that it chose.
    fn compare(
        &self,
        random: &mut Random,
        regions: &mut Regions,
        expected: Result<Choice, Refusal>,
    ) -> Result<(), String> {
        let numbers = &self.numbers;
        let weights = Lent::new(random, &numbers.weights);
        let first = Lent::new(random, &self.first);
        let apart = Lent::new(random, &self.second);
        let second = if self.in_one && self.first == self.second {
            &first
        } else {
            &apart
        };
        let mut answer = Lent::new(random, &[self.before]);
        // Each pointer stands for as many items as its length says (one number for the answer), and only the two calls may overlap.
        let got = unsafe {
            fountain_choose_call(
                numbers.f,
                numbers.l,
                numbers.r,
                numbers.m,
                numbers.lo,
                numbers.hi,
                numbers.dealt,
                numbers.width,
                weights.pointer(),
                weights.len(),
                first.pointer(),
                first.len(),
                second.pointer(),
                second.len(),
                answer.pointer_mut(),
            )
        };
        note_pointers(regions, expected, [&weights, &first, second]);
        let (number, after) = match expected {
            Ok(Choice::First) => (0, 0),
            Ok(Choice::Second) => (0, 1),
            Err(refusal) => (refusal.0.into(), self.before),
        };
        let report = |what: String| {
            format!(
                "{what}; the archive answered {got} and {:016X}, expected are {number} and {after:016X}; {}",
                answer.items()[0],
                self.report()
            )
        };
        if got != number {
            return Err(report(String::from("number")));
        }
        answer
            .holds(&[after])
            .map_err(|e| report(format!("answer: {e}")))?;
        weights
            .holds(&numbers.weights)
            .map_err(|e| report(format!("weights: {e}")))?;
        first
            .holds(&self.first)
            .map_err(|e| report(format!("first: {e}")))?;
        second
            .holds(&self.second)
            .map_err(|e| report(format!("second: {e}")))?;
        let chosen = match (got, answer.items()[0]) {
            (0, 0) => Some(first.items()),
            (0, _) => Some(second.items()),
            _ => None,
        };
        self.compare_letters(random, [first.items(), second.items()], chosen)
            .map_err(report)
    }

    /// The middle of the lent call that the archive chose is the very part that the second implementation hands back, which is empty
    /// if the archive chose none; and the archive's read check accepts it.
    fn compare_letters(
        &self,
        random: &mut Random,
        [first, second]: [&[u8]; 2],
        chosen: Option<&[u8]>,
    ) -> Result<(), String> {
        let letters = call_letters(&self.numbers.handed(), first, second);
        match chosen {
            None if letters.is_empty() => Ok(()),
            None => Err(String::from("letters on a refusal")),
            Some(call) => {
                let middle = &call[SITE_BEFORE.len()..SITE_BEFORE.len() + self.numbers.n()];
                if !ptr::eq(letters, middle) {
                    return Err(String::from("the letters are another part"));
                }
                self.compare_read_check(random, middle)
                    .map_err(|e| format!("read check of the letters: {e}"))
            }
        }
    }

    /// The archive's read check gives the droplet that the second implementation reads in the letters.
    fn compare_read_check(&self, random: &mut Random, letters: &[u8]) -> Result<(), String> {
        let numbers = &self.numbers;
        let weights = Lent::new(random, &numbers.weights);
        let read = Lent::new(random, letters);
        let mut out = Lent::new(random, &vec![0x5A; numbers.droplet()]);
        // Each pointer stands for as many bytes as its length says, and nothing overlaps.
        let got = unsafe {
            fountain_check_read(
                numbers.f,
                numbers.l,
                numbers.r,
                numbers.m,
                numbers.lo,
                numbers.hi,
                numbers.dealt,
                numbers.width,
                weights.pointer(),
                weights.len(),
                read.pointer(),
                read.len(),
                out.pointer_mut(),
                out.len(),
            )
        };
        if got != 0 {
            return Err(format!("refused as {got}"));
        }
        let droplet = read_check(&numbers.handed(), letters).expect("the letters of a choice");
        let payload = &droplet.payload[..usize::from(numbers.l)];
        out.holds(&[&droplet.seed.to_be_bytes(), payload].concat())
            .map_err(|e| format!("droplet {}: {e}", hex(out.items())))
    }

    fn report(&self) -> String {
        format!(
            "{} first {:?} second {:?}",
            self.numbers.report(),
            String::from_utf8_lossy(&self.first),
            String::from_utf8_lossy(&self.second)
        )
    }
}

/// What becomes of a pair, as it stands in the names of regions.
fn outcome(expected: Result<Choice, Refusal>) -> String {
    match expected {
        Ok(Choice::First) => String::from("first chosen"),
        Ok(Choice::Second) => String::from("second chosen"),
        Err(refusal) => refusal.0.to_string(),
    }
}

fn note_pointers(
    regions: &mut Regions,
    expected: Result<Choice, Refusal>,
    [weights, first, second]: [&Lent<u8>; 3],
) {
    let outcome = outcome(expected);
    regions.note_if(weights.is_null(), "weights NULL");
    regions.note_if(first.is_null(), &format!("{outcome}: first NULL"));
    regions.note_if(second.is_null(), &format!("{outcome}: second NULL"));
    regions.note_if(
        first.is_null() && second.is_null(),
        &format!("{outcome}: both NULL"),
    );
    regions.note_if(
        ptr::eq(first, second),
        &format!("{outcome}: one buffer lent as both"),
    );
}

/// A pair, and what it was made of.
struct Case {
    pair: Pair,
    /// The card that the calls were made for.
    accepted: Numbers,
    /// What stood between the sites of the two calls before these were damaged.
    reads: [Read; 2],
}

impl Case {
    fn any(random: &mut Random) -> Case {
        let mut accepted = cards::any_accepted(random);
        let reads = any_reads(random, &mut accepted);
        let [mut first, mut second] = reads
            .each_ref()
            .map(|read| calls::any_call(random, &read.letters));
        if random.once_in(16) {
            first.clone_from(&second);
        }
        if random.once_in(100) {
            first.clear();
            second.clear();
        }
        let mut numbers = accepted.clone();
        if random.once_in(6) {
            cards::miss(random, &mut numbers);
            if random.once_in(8) {
                cards::miss(random, &mut numbers);
            }
        }
        let any = random.number();
        Case {
            pair: Pair {
                numbers,
                first,
                second,
                in_one: random.once_in(2),
                before: random.one_of(&[any, any, any >> 32, 0, 1, u64::MAX]),
            },
            accepted,
            reads,
        }
    }

    fn note(&self, regions: &mut Regions, expected: Result<Choice, Refusal>) {
        let number = expected.map_or_else(|refusal| refusal.0.into(), |_| 0);
        cards::note(regions, &self.pair.numbers, number);
        let outcome = outcome(expected);
        let held = match self.pair.before {
            0 => "answer 0",
            1 => "answer 1",
            low if low >> 32 == 0 => "low answer",
            _ => "high answer",
        };
        regions.note(&format!("{outcome}: {held} before"));
        let verdicts =
            [&self.pair.first, &self.pair.second].map(|call| Verdict::of(&self.accepted, call));
        if matches!(number, 0 | 21) {
            assert_eq!(expected, by_verdicts(&verdicts), "the choice");
            self.note_sizes(regions, &outcome);
            self.note_calls(regions, &verdicts);
            self.note_both_pass(regions, &verdicts);
            self.note_reads(regions, &verdicts);
        } else {
            let fine = match verdicts.map(|verdict| verdict.passes()) {
                [true, true] => "both calls fine",
                [true, false] => "the first call alone fine",
                [false, true] => "the second call alone fine",
                [false, false] => "neither call fine",
            };
            regions.note(&format!("{outcome}: {fine}"));
        }
    }

    fn note_sizes(&self, regions: &mut Regions, outcome: &str) {
        let n = self.accepted.n();
        regions.note_if(n == 28, &format!("{outcome}: n 28"));
        regions.note_if(n == 288, &format!("{outcome}: n 288"));
        regions.note_if(self.accepted.has_field(), &format!("{outcome}: W"));
    }

    /// Notes for what each call passes or does not, and what else it is beside the other.
    fn note_calls(&self, regions: &mut Regions, [first, second]: &[Verdict; 2]) {
        regions.note(&format!("first {}, second {}", first.name(), second.name()));
        for (which, call, verdict, other) in [
            ("first", &self.pair.first, first, second),
            ("second", &self.pair.second, second, first),
        ] {
            let beside = beside(other.passes());
            for kind in calls::kinds(&self.accepted, call, verdict) {
                regions.note(&format!("{which} {kind}, {beside}"));
            }
        }
    }

    fn note_both_pass(&self, regions: &mut Regions, verdicts: &[Verdict; 2]) {
        let [Verdict::Passes(first), Verdict::Passes(second)] = verdicts else {
            return;
        };
        let droplets = if self.pair.first == self.pair.second {
            "the same letters"
        } else if (first.seed, first.payload) == (second.seed, second.payload) {
            "the same droplet"
        } else {
            "two droplets"
        };
        let [first, second] = [first, second].map(|droplet| match droplet.mended {
            0 => "clean",
            _ => "mended",
        });
        regions.note(&format!("both pass: {droplets}"));
        regions.note(&format!("both pass: first {first}, second {second}"));
    }

    /// Notes what the read check says of the calls that decide: the first, and where it does not pass the second.
    fn note_reads(&self, regions: &mut Regions, verdicts: &[Verdict; 2]) {
        let deciding = if verdicts[0].passes() { 1 } else { 2 };
        let calls = [&self.pair.first, &self.pair.second];
        for place in 0..deciding {
            let number = match verdicts[place] {
                Verdict::Passes(_) => 0,
                Verdict::Middle(number) => number.into(),
                _ => continue,
            };
            let read = &self.reads[place];
            if *calls[place] == order(&read.letters) {
                reads::note(regions, &self.accepted, read, number);
            }
        }
    }
}

/// What must become of a pair by the tests' own measures.
fn by_verdicts(verdicts: &[Verdict; 2]) -> Result<Choice, Refusal> {
    match verdicts {
        [Verdict::Passes(_), _] => Ok(Choice::First),
        [_, Verdict::Passes(_)] => Ok(Choice::Second),
        _ => Err(Refusal(21)),
    }
}

fn beside(other_passes: bool) -> &'static str {
    if other_passes {
        "the other passes"
    } else {
        "the other does not"
    }
}

/// Two reads for an accepted card, of one strand or of two. May set the card's m, lo and hi.
fn any_reads(random: &mut Random, numbers: &mut Numbers) -> [Read; 2] {
    let one = reads::any_read(random, numbers);
    let other = match random.below(12) {
        0 => one.clone(),
        1..=5 => {
            let mut again = Read {
                letters: letters_of_bytes(&one.printed),
                printed: one.printed.clone(),
                outside: Vec::new(),
            };
            any_misreading(random, numbers, &mut again);
            again
        }
        6..=8 => {
            let seed = reads::any_seed(random);
            let payload = reads::any_payload(random, numbers.l.into());
            let mut another = Read::of(numbers, seed, &payload);
            reads::let_pass_too(numbers, &another.letters);
            any_misreading(random, numbers, &mut another);
            another
        }
        _ => reads::any_read(random, &mut numbers.clone()),
    };
    if random.once_in(2) {
        [one, other]
    } else {
        [other, one]
    }
}

/// Leaves a strand as it is, misreads or damages it.
fn any_misreading(random: &mut Random, numbers: &Numbers, read: &mut Read) {
    match random.below(8) {
        0..=3 => (),
        4..=6 => wrong_bytes::misread(random, numbers, read),
        _ => reads::damage(random, numbers, &mut read.letters),
    }
}

/// The regions that must be met: for what each call passes or not, each kind of call beside one that passes and beside one that does
/// not, what is handed over with each outcome, and the rest.
fn regions() -> Vec<String> {
    let mut regions: Vec<String> = Vec::new();
    for first in calls::VERDICTS {
        let seconds = calls::VERDICTS.iter();
        regions.extend(seconds.map(|second| format!("first {first}, second {second}")));
    }
    for kind in calls::all_kinds() {
        for which in ["first", "second"] {
            let others = [true, false].map(beside);
            regions.extend(others.map(|other| format!("{which} {kind}, {other}")));
        }
    }
    for outcome in ["first chosen", "second chosen", "21"] {
        regions.extend(ANSWER.iter().map(|held| format!("{outcome}: {held}")));
        regions.extend(SIZES.iter().map(|size| format!("{outcome}: {size}")));
    }
    for number in [2, 3, 4, 27] {
        regions.extend(ANSWER.iter().map(|held| format!("{number}: {held}")));
        regions.extend(CALLS.iter().map(|calls| format!("{number}: {calls}")));
    }
    regions.extend(REGIONS.iter().map(|&region| String::from(region)));
    regions
}

/// What the lent answer holds before the call.
#[rustfmt::skip]
const ANSWER: &[&str] = &["answer 0 before", "answer 1 before", "low answer before", "high answer before"];

const SIZES: &[&str] = &["n 28", "n 288", "W"];

/// What the calls of a refused card are under the one that they were made for.
#[rustfmt::skip]
const CALLS: &[&str] = &[
    "both calls fine", "the first call alone fine", "the second call alone fine", "neither call fine",
    "both NULL", "one buffer lent as both",
];

#[rustfmt::skip]
const REGIONS: &[&str] = &[
    "answer 21", "first chosen: second NULL", "second chosen: first NULL", "21: first NULL", "21: second NULL", "21: both NULL",
    "first chosen: one buffer lent as both", "21: one buffer lent as both",
    "both pass: the same letters", "both pass: the same droplet", "both pass: two droplets",
    "both pass: first clean, second clean", "both pass: first clean, second mended",
    "both pass: first mended, second clean", "both pass: first mended, second mended",
];

#[test]
fn choose_call() {
    let regions = regions();
    let own: Vec<&str> = regions.iter().map(String::as_str).collect();
    run(
        "choose_call",
        &[
            cards::REGIONS,
            cards::HANDED_REGIONS,
            cards::LARGEST_REGIONS,
            joints::REGIONS,
            wrong_bytes::REGIONS,
            &own,
        ],
        |random, regions| {
            let case = Case::any(random);
            let expected = case.pair.expected();
            case.note(regions, expected);
            case.pair.compare(random, regions, expected)
        },
    );
}

/// Two calls under card P of document 01.
fn bench_pair(first: &[u8], second: &[u8]) -> Pair {
    Pair {
        numbers: Numbers {
            f: 4,
            l: 1,
            r: 2,
            m: 15,
            lo: 214,
            hi: 1000,
            dealt: 0,
            width: 0,
            weights: vec![0, 0, 0, 1, 0, 0, 0, 1],
        },
        first: first.to_vec(),
        second: second.to_vec(),
        in_one: false,
        before: 0x0123_4567_89AB_CDEF,
    }
}

/// Both implementations must answer a pair so.
fn must_be(random: &mut Random, pair: Pair, answer: Result<Choice, Refusal>) {
    assert_eq!(pair.expected(), answer, "{}", pair.report());
    let compared = pair.compare(random, &mut Regions::default(), answer);
    assert_eq!(compared, Ok(()));
}

/// A call that does not pass beside one that does, on either side of it, and beside itself.
fn must_be_passed_over(random: &mut Random, call: &[u8], fine: &[u8]) {
    must_be(random, bench_pair(call, fine), Ok(Choice::Second));
    must_be(random, bench_pair(fine, call), Ok(Choice::First));
    must_be(random, bench_pair(call, call), Err(Refusal(21)));
}

/// The strands of seeds 2, 1 and 3, as document 01 has them.
const BENCH: [&[u8]; 3] = [
    b"AAAAAAAAAAAAAAAGCGGCGTCCTCTG",
    b"AAAAAAAAAAAAAAACTGCAATCGTCAT",
    b"AAAAAAAAAAAAAAATAGCTCGAACACA",
];

/// Every byte but the right one in every place of both sites, around the bench strands.
#[test]
fn every_byte_in_every_place_of_the_sites() {
    let random = &mut Random::of_case("every_byte_in_every_place_of_the_sites", 0);
    for strand in BENCH {
        let fine = order(strand);
        for place in (0..27).chain(55..76) {
            for byte in 0..=255 {
                let mut call = fine.clone();
                call[place] = byte;
                if call != fine {
                    must_be_passed_over(random, &call, &fine);
                }
            }
        }
    }
}

/// Every length but 76, of letters that begin or end as they should.
#[test]
fn every_length() {
    let random = &mut Random::of_case("every_length", 0);
    for strand in BENCH {
        let fine = order(strand);
        let four = fine.repeat(4);
        for length in (0..=four.len()).filter(|&length| length != 76) {
            must_be_passed_over(random, &four[..length], &fine);
            must_be_passed_over(random, &four[four.len() - length..], &fine);
        }
    }
}

/// Every bench strand, clean or with one wrong letter, beside every other: the first is chosen, whatever is mended.
#[test]
fn every_pair_of_bench_reads() {
    let random = &mut Random::of_case("every_pair_of_bench_reads", 0);
    let mut calls = Vec::new();
    for strand in BENCH {
        for place in 0..strand.len() {
            for letter in b"ACGT" {
                let mut read = strand.to_vec();
                read[place] = *letter;
                calls.push(order(&read));
            }
        }
    }
    for first in &calls {
        for second in &calls {
            must_be(random, bench_pair(first, second), Ok(Choice::First));
        }
        must_be(random, bench_pair(b"", first), Ok(Choice::Second));
    }
}
