//! The read check of the archive `libstrand.a` beside the second implementation's, over random cases.

mod differential;

use differential::cards;
use differential::check_read::{Case, REGIONS};
use differential::joints;
use differential::lent::Lent;
use differential::random::Random;
use differential::reads;
use differential::run::{run, Regions};
use differential::wrong_bytes;

#[cfg(strand_missing)]
compile_error!("target/staticlib/libstrand.a is missing: `host/build strand` makes it");

#[link(name = "strand", kind = "static")]
extern "C" {
    fn fountain_check_read(
        f: u32,
        l: u8,
        r: u8,
        m: u8,
        lo: u16,
        hi: u16,
        dealt: u8,
        width: u32,
        weights: *const u8,
        weights_len: usize,
        read: *const u8,
        read_len: usize,
        out: *mut u8,
        out_len: usize,
    ) -> u32;
}

fn case(random: &mut Random, regions: &mut Regions) -> Result<(), String> {
    let case = Case::any(random);
    let (answer, out) = case.expected();
    case.note(regions, answer);

    let numbers = &case.numbers;
    let weights = Lent::new(random, &numbers.weights);
    let read = Lent::new(random, &case.read.letters);
    let mut lent = Lent::new(random, &case.out);
    regions.note_if(lent.is_null(), "out NULL");
    regions.note_if(read.is_null(), "read NULL");
    regions.note_if(weights.is_null(), "weights NULL");
    // Each pointer stands for as many bytes as its length says, and nothing overlaps.
    let got = unsafe {
        fountain_check_read(
            numbers.f,
            numbers.l,
            numbers.r,
            numbers.m,
            numbers.lo,
            numbers.hi,
            numbers.dealt,
            numbers.width,
            weights.pointer(),
            weights.len(),
            read.pointer(),
            read.len(),
            lent.pointer_mut(),
            lent.len(),
        )
    };
    let report = |what: String| {
        format!(
            "{what}; the archive answered {got}, expected is {answer}; {}",
            case.report()
        )
    };
    if got != answer {
        return Err(report(String::from("answer")));
    }
    weights
        .holds(&numbers.weights)
        .map_err(|e| report(format!("weights: {e}")))?;
    read.holds(&case.read.letters)
        .map_err(|e| report(format!("read: {e}")))?;
    lent.holds(&out).map_err(|e| report(format!("out: {e}")))
}

#[test]
fn check_read() {
    run(
        "check_read",
        &[
            cards::REGIONS,
            cards::HANDED_REGIONS,
            cards::LARGEST_REGIONS,
            reads::REGIONS,
            joints::REGIONS,
            wrong_bytes::REGIONS,
            REGIONS,
        ],
        case,
    );
}
