//! Dealing and its inverse by the archive `libcapi.a` beside the second implementation's, over random files. After each call that is
//! not refused, the archive's other call must give the file back.

mod differential;

use differential::cards::{self, Numbers};
use differential::lent::{hex, Lent};
use differential::random::Random;
use differential::run::{run, Regions};
use differential::sizes;
use second::{Handed, Refusal};

#[cfg(capi_missing)]
compile_error!("target/staticlib/libcapi.a is missing: `host/build capi` makes it");

#[link(name = "capi", kind = "static")]
extern "C" {
    fn fountain_deal(
        f: u32,
        l: u8,
        r: u8,
        m: u8,
        lo: u16,
        hi: u16,
        dealt: u8,
        width: u32,
        weights: *const u8,
        weights_len: usize,
        source: *const u8,
        source_len: usize,
        target: *mut u8,
        target_len: usize,
    ) -> u32;
    fn fountain_undeal(
        f: u32,
        l: u8,
        r: u8,
        m: u8,
        lo: u16,
        hi: u16,
        dealt: u8,
        width: u32,
        weights: *const u8,
        weights_len: usize,
        source: *const u8,
        source_len: usize,
        target: *mut u8,
        target_len: usize,
    ) -> u32;
}

#[derive(Clone, Copy, Debug, PartialEq, Eq)]
enum Call {
    Deal,
    Undeal,
}

impl Call {
    fn other(self) -> Call {
        match self {
            Call::Deal => Call::Undeal,
            Call::Undeal => Call::Deal,
        }
    }

    fn by_second(self, handed: &Handed, source: &[u8], target: &mut [u8]) -> Result<(), Refusal> {
        match self {
            Call::Deal => second::deal(handed, source, target),
            Call::Undeal => second::undeal(handed, source, target),
        }
    }

    fn by_archive(
        self,
        numbers: &Numbers,
        weights: &Lent<u8>,
        source: &Lent<u8>,
        target: &mut Lent<u8>,
    ) -> u32 {
        let call = match self {
            Call::Deal => fountain_deal,
            Call::Undeal => fountain_undeal,
        };
        // Each pointer stands for as many bytes as its length says, and nothing overlaps.
        unsafe {
            call(
                numbers.f,
                numbers.l,
                numbers.r,
                numbers.m,
                numbers.lo,
                numbers.hi,
                numbers.dealt,
                numbers.width,
                weights.pointer(),
                weights.len(),
                source.pointer(),
                source.len(),
                target.pointer_mut(),
                target.len(),
            )
        }
    }
}

struct Case {
    call: Call,
    numbers: Numbers,
    source: Vec<u8>,
    /// The lent buffer as it is before the call.
    target: Vec<u8>,
}

/// A call's number and what it leaves in the target.
struct After {
    number: u32,
    target: Vec<u8>,
}

impl Case {
    fn any(random: &mut Random, call: Call) -> Case {
        let mut numbers = any_accepted(random);
        let f = numbers.f as usize;
        let (source_length, target_length) = any_lengths(random, f);
        if random.once_in(7) {
            cards::miss(random, &mut numbers);
        }
        Case {
            call,
            numbers,
            source: random.bytes(source_length),
            target: random.bytes(target_length),
        }
    }

    fn expected(&self) -> After {
        let mut target = self.target.clone();
        let handed = self.numbers.handed();
        let number = match self.call.by_second(&handed, &self.source, &mut target) {
            Ok(()) => 0,
            Err(refusal) => refusal.0.into(),
        };
        After { number, target }
    }

    /// Runs the archive's call and compares all that it leaves with what is expected.
    fn compare(
        &self,
        random: &mut Random,
        regions: &mut Regions,
        expected: &After,
    ) -> Result<(), String> {
        let weights = Lent::new(random, &self.numbers.weights);
        let source = Lent::new(random, &self.source);
        let mut target = Lent::new(random, &self.target);
        regions.note_if(weights.is_null(), "weights NULL");
        if expected.number == 28 {
            regions.note_if(source.is_null(), "28: source NULL");
            regions.note_if(target.is_null(), "28: target NULL");
            regions.note_if(
                source.is_null() && target.is_null(),
                "28: source and target NULL",
            );
        }
        let got = self
            .call
            .by_archive(&self.numbers, &weights, &source, &mut target);
        let report = |what: String| {
            format!(
                "{what}; the archive answered {got}, expected is {}; {}",
                expected.number,
                self.report()
            )
        };
        if got != expected.number {
            return Err(report(String::from("answer")));
        }
        weights
            .holds(&self.numbers.weights)
            .map_err(|e| report(format!("weights: {e}")))?;
        source
            .holds(&self.source)
            .map_err(|e| report(format!("source: {e}")))?;
        target
            .holds(&expected.target)
            .map_err(|e| report(format!("target {}: {e}", hex(target.items()))))?;
        if got == 0 {
            regions.note("given back");
            self.compare_given_back(random, &weights, &target)
                .map_err(|e| report(format!("given back: {e}")))?;
        }
        Ok(())
    }

    /// From the target that the archive left, its other call gives back the F bytes that the source has, and nothing more.
    fn compare_given_back(
        &self,
        random: &mut Random,
        weights: &Lent<u8>,
        target: &Lent<u8>,
    ) -> Result<(), String> {
        let f = self.numbers.f as usize;
        let more = random.one_of(&[0, 0, 1, 7]);
        let mut wanted = random.bytes(f + more);
        let mut back = Lent::new(random, &wanted);
        let got = self
            .call
            .other()
            .by_archive(&self.numbers, weights, target, &mut back);
        if got != 0 {
            return Err(format!("{:?} answered {got}", self.call.other()));
        }
        wanted[..f].copy_from_slice(&self.source[..f]);
        back.holds(&wanted)
            .map_err(|e| format!("{}: {e}", hex(back.items())))
    }

    fn report(&self) -> String {
        format!(
            "{:?} {} source {} target of {} bytes",
            self.call,
            self.numbers.report(),
            hex(&self.source),
            self.target.len()
        )
    }

    fn note(&self, regions: &mut Regions, after: &After) {
        cards::note(regions, &self.numbers, after.number);
        match after.number {
            0 => {
                self.note_lengths(regions);
                self.note_moved(regions, after);
            }
            28 => self.note_28(regions),
            number => {
                let f = self.numbers.f as usize;
                let short = self.source.len() < f || self.target.len() < f;
                let so = if short { "too" } else { "fine" };
                regions.note(&format!("{number}: 28 {so}"));
            }
        }
    }

    fn note_28(&self, regions: &mut Regions) {
        let f = self.numbers.f as usize;
        let (source, target) = (self.source.len(), self.target.len());
        regions.note_if(
            source + 1 == f && target == f,
            "28: source a byte short, target not",
        );
        regions.note_if(
            source == f && target + 1 == f,
            "28: target a byte short, source not",
        );
        regions.note_if(source + 1 == f && target + 1 == f, "28: both a byte short");
        regions.note_if(source < f && target > f, "28: source short, target longer");
        regions.note_if(source > f && target < f, "28: target short, source longer");
        regions.note_if(source == 0 && target >= f, "28: no source");
        regions.note_if(source >= f && target == 0, "28: no target");
        regions.note_if(self.numbers.has_field(), "28: with the field");
        regions.note_if(!self.numbers.has_field(), "28: without the field");
    }

    fn note_lengths(&self, regions: &mut Regions) {
        let f = self.numbers.f as usize;
        let (source, target) = (self.source.len(), self.target.len());
        let with = if self.numbers.has_field() {
            "field"
        } else {
            "no field"
        };
        if source == f && target == f {
            regions.note(&format!("0: {with}, both of just F bytes"));
        }
        if source > f && target == f {
            regions.note(&format!("0: {with}, source longer"));
        }
        if source == f && target > f {
            regions.note(&format!("0: {with}, target longer"));
        }
        if source > f && target > f {
            regions.note(&format!("0: {with}, both longer"));
        }
    }

    fn note_moved(&self, regions: &mut Regions, after: &After) {
        let Numbers { f, width, .. } = self.numbers;
        let moved = after.target[..f as usize] != self.source[..f as usize];
        if !self.numbers.has_field() {
            assert!(!moved, "a file that is not dealt is copied");
            regions.note_if(f == 1, "0: no field, F 1");
            regions.note_if((2..f).contains(&width), "0: no field, W from 2 to F - 1");
            regions.note_if(width == 0, "0: no field, W 0");
            regions.note_if(width > f, "0: no field, W over F");
            regions.note_if(f > 20_000, "0: no field, F over 20,000");
            return;
        }
        regions.note_if(moved, "0: moved");
        regions.note_if(width == 2 && moved, "0: W 2");
        regions.note_if(width == f, "0: W = F");
        regions.note_if(width == f - 1 && f > 3, "0: W = F - 1");
        regions.note_if(width == f / 2 + 1 && f > 4, "0: W just above F / 2");
        regions.note_if(width == f / 2 && f % 2 == 0, "0: W = F / 2");
        regions.note_if(width < f && f % width == 0, "0: W divides F");
        regions.note_if(f % width != 0 && width < f / 2, "0: F no multiple of W");
        regions.note_if(f % width == 1, "0: a last round of one byte");
        regions.note_if(
            f % width == width - 1 && f > width,
            "0: a last round one byte short",
        );
        regions.note_if(u64::from(width).pow(2) == f.into(), "0: W times W = F");
        regions.note_if(f == 2, "0: F 2");
        regions.note_if(f == 3 && width == 2, "0: F 3, W 2");
        regions.note_if(f > 20_000 && moved, "0: F over 20,000");
        regions.note_if(f > 65_536 && width == 2, "0: F over 65,536, W 2");
        regions.note_if(width > 65_536 && moved, "0: W over 65,536");
    }
}

#[rustfmt::skip]
const REGIONS: &[&str] = &[
    "answer 28", "28: source a byte short, target not", "28: target a byte short, source not", "28: both a byte short",
    "28: source short, target longer", "28: target short, source longer", "28: no source", "28: no target",
    "28: source NULL", "28: target NULL", "28: source and target NULL", "28: with the field", "28: without the field",
    "2: 28 too", "3: 28 too", "4: 28 too", "27: 28 too", "2: 28 fine", "3: 28 fine", "4: 28 fine", "27: 28 fine",
    "0: field, both of just F bytes", "0: field, source longer", "0: field, target longer", "0: field, both longer",
    "0: no field, both of just F bytes", "0: no field, source longer", "0: no field, target longer", "0: no field, both longer",
    "0: no field, F 1", "0: no field, W from 2 to F - 1", "0: no field, W 0", "0: no field, W over F", "0: no field, F over 20,000",
    "0: moved", "0: W 2", "0: W = F", "0: W = F - 1", "0: W just above F / 2", "0: W = F / 2", "0: W divides F",
    "0: F no multiple of W", "0: a last round of one byte", "0: a last round one byte short", "0: W times W = F",
    "0: F 2", "0: F 3, W 2", "0: F over 20,000", "0: F over 65,536, W 2", "0: W over 65,536",
    "given back",
];

/// An accepted card: half of them of few bytes, where the ends of W's range lie close together, now and then a longer file.
fn any_accepted(random: &mut Random) -> Numbers {
    let (l, k) = match random.below(400) {
        0 => (64, random.between(320, 1_100)),
        1 => (random.between(1, 64), random.between(1_000, 1_100)),
        2..=200 => (random.between(1, 4), random.between(1, 12)),
        _ => return sizes::any_accepted(random),
    };
    let d = cards::any_d(random, k);
    cards::accepted(random, l, k, d)
}

/// Lengths of source and target for F bytes: mostly enough, now and then both a byte short.
fn any_lengths(random: &mut Random, f: usize) -> (usize, usize) {
    match random.below(60) {
        0 => (f - 1, f - 1),
        1 => (0, 0),
        _ => (sizes::lent_for(random, f), sizes::lent_for(random, f)),
    }
}

fn case(random: &mut Random, regions: &mut Regions, call: Call) -> Result<(), String> {
    let case = Case::any(random, call);
    let expected = case.expected();
    case.note(regions, &expected);
    case.compare(random, regions, &expected)
}

fn run_call(name: &str, call: Call) {
    run(
        name,
        &[cards::REGIONS, cards::HANDED_REGIONS, REGIONS],
        |random, regions| case(random, regions, call),
    );
}

/// Files of the largest length, by widths at which the rounds or the bytes of a round are many.
#[test]
fn largest_files() {
    let random = &mut Random::of_case("largest_files", 0);
    let mut numbers = cards::accepted(random, 64, cards::K_MOST, 1);
    (numbers.f, numbers.dealt) = (cards::F_MOST as u32, 1);
    let source = random.bytes(cards::F_MOST + 3);
    for width in [2, 3, 65_537, 4_194_305, 8_388_607] {
        numbers.width = width;
        for call in [Call::Deal, Call::Undeal] {
            let case = Case {
                call,
                numbers: numbers.clone(),
                source: source.clone(),
                target: random.bytes(cards::F_MOST + 5),
            };
            let expected = case.expected();
            assert_eq!(expected.number, 0);
            assert_ne!(expected.target[..cards::F_MOST], source[..cards::F_MOST]);
            case.compare(random, &mut Regions::default(), &expected)
                .unwrap_or_else(|report| panic!("{report}"));
        }
    }
}

#[test]
fn deal() {
    run_call("deal", Call::Deal);
}

#[test]
fn undeal() {
    run_call("undeal", Call::Undeal);
}
