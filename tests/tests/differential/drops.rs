//! Why the writer drops a strand, told from the strand's letters: limits that drop it in one way or another, and the regions of
//! the writer's two numbers.

use super::cards::Numbers;
use super::joints::{longest_inside, longest_run, through_first, through_second};
use super::random::Random;
use super::reads::{gc, gc_fits};
use super::run::Regions;

/// What is wrong with a strand.
#[derive(Clone, Copy, Debug, PartialEq, Eq)]
pub enum Fault {
    Nothing,
    RunAlone,
    GcAlone,
    Both,
}

impl Fault {
    pub fn of(numbers: &Numbers, strand: &[u8]) -> Fault {
        let within_m = longest_run(strand) <= usize::from(numbers.m);
        match (within_m, gc_fits(numbers, strand)) {
            (true, true) => Fault::Nothing,
            (false, true) => Fault::RunAlone,
            (true, false) => Fault::GcAlone,
            (false, false) => Fault::Both,
        }
    }

    /// What the strand was dropped for, as it stands in the names of regions.
    fn dropped(self) -> Option<&'static str> {
        match self {
            Fault::Nothing => None,
            Fault::RunAlone => Some("dropped for a run alone"),
            Fault::GcAlone => Some("dropped for GC alone"),
            Fault::Both => Some("dropped for both faults"),
        }
    }
}

/// The writer's two numbers over these strands: dropped for a run, whatever else is wrong, and dropped for GC alone.
pub fn two_numbers(faults: &[Fault]) -> [u64; 2] {
    let count = |wanted| faults.iter().filter(|&&fault| fault == wanted).count() as u64;
    [
        count(Fault::RunAlone) + count(Fault::Both),
        count(Fault::GcAlone),
    ]
}

/// Limits that drop many strands for a run and many for GC, short strands and long ones.
pub fn tighten(random: &mut Random, numbers: &mut Numbers) {
    numbers.m = match numbers.n() {
        ..=60 => random.one_of(&[2, 3, 3]),
        61..=140 => random.one_of(&[3, 4]),
        _ => random.one_of(&[4, 4, 5]),
    };
    numbers.lo = random.between(440, 500) as u16;
    numbers.hi = random.between(500, 560) as u16;
}

/// Sets lo and hi so that the strand's C and G are outside, and m so that its longest run is over m too, or just m.
pub fn let_miss_gc(random: &mut Random, numbers: &mut Numbers, strand: &[u8]) {
    let run = longest_run(strand);
    numbers.m = match random.below(4) {
        0 | 1 if (2..=21).contains(&run) => run - 1,
        2 if run > 1 => random.between(1, 20.min(run - 1)),
        _ => run.clamp(1, 20),
    } as u8;
    let (n, thousand) = (strand.len(), 1000 * gc(strand));
    let some_not = thousand < 1000 * n;
    if some_not && (thousand == 0 || random.once_in(2)) {
        let lo = by_little_or_much(random, thousand / n + 1, 1000);
        numbers.lo = lo as u16;
        numbers.hi = random.between(lo, 1000) as u16;
    } else {
        let hi = by_little_or_much(random, thousand.div_ceil(n) - 1, 0);
        numbers.hi = hi as u16;
        numbers.lo = random.between(0, hi) as u16;
    }
}

/// Mostly `little`, else any number from there to `much`.
fn by_little_or_much(random: &mut Random, little: usize, much: usize) -> usize {
    if random.once_in(3) {
        return random.between(little.min(much), little.max(much));
    }
    little
}

/// The regions that the writer's two numbers must come from. A strand with both faults tells of a writer that counts it as GC
/// alone, twice or not at all; one on which the budget is spent, of a writer that forgets the last drop; numbers that differ, of
/// a writer that swaps them; and a run through a joint, of a writer that counts by another rule than it prints by.
#[rustfmt::skip]
pub const REGIONS: &[&str] = &[
    "dropped for a run alone", "dropped for GC alone, below lo", "dropped for GC alone, above hi",
    "both faults, GC below lo", "both faults, GC above hi", "both faults, m 1", "both faults, m 20",
    "dropped: run = m + 1, GC within", "dropped: run = m + 1, GC below lo", "dropped: run = m + 1, GC above hi",
    "dropped: run = m + 1, lo just missed", "dropped: run = m + 1, hi just missed",
    "dropped: run = m, lo just missed", "dropped: run = m, hi just missed",
    "dropped for the first joint alone, GC within", "dropped for the first joint alone, GC below lo",
    "dropped for the first joint alone, GC above hi",
    "dropped for the second joint alone, GC within", "dropped for the second joint alone, GC below lo",
    "dropped for the second joint alone, GC above hi",
    "the start dropped for a run alone", "the start dropped for GC alone", "the start dropped for both faults",
    "spent on a strand dropped for a run alone", "spent on a strand dropped for GC alone", "spent on a strand dropped for both faults",
    "spent on the only seed, dropped for a run alone", "spent on the only seed, dropped for GC alone",
    "spent on the only seed, dropped for both faults",
    "all dropped for a run", "all dropped for GC alone", "all dropped, in both ways", "none dropped",
    "drops of both kinds, done", "drops of both kinds, spent",
    "drops of both kinds, more for a run", "drops of both kinds, more for GC alone",
    "strands with each fault, with both and with none",
    "resumed: both parts have drops of both kinds", "resumed: only the first part has drops", "resumed: only the second part has drops",
    "resumed after a strand dropped for a run alone", "resumed after a strand dropped for GC alone",
    "resumed after a strand dropped for both faults",
];

/// Notes what regions a strand that was tried comes from.
pub fn note_strand(regions: &mut Regions, numbers: &Numbers, strand: &[u8]) {
    let fault = Fault::of(numbers, strand);
    let side = if gc_fits(numbers, strand) {
        "within"
    } else if 1000 * gc(strand) < usize::from(numbers.lo) * strand.len() {
        "below lo"
    } else {
        "above hi"
    };
    match fault {
        Fault::Nothing => return,
        Fault::RunAlone => regions.note("dropped for a run alone"),
        Fault::GcAlone => regions.note(&format!("dropped for GC alone, {side}")),
        Fault::Both => {
            regions.note(&format!("both faults, GC {side}"));
            regions.note_if(numbers.m == 1, "both faults, m 1");
            regions.note_if(numbers.m == 20, "both faults, m 20");
        }
    }
    note_edges(regions, numbers, strand, side);
    note_joints(regions, usize::from(numbers.m), strand, side);
}

/// For a strand that was dropped: a longest run of m or m + 1, and C and G that would fit if lo or hi were a thousandth wider.
fn note_edges(regions: &mut Regions, numbers: &Numbers, strand: &[u8], side: &str) {
    let (lo, hi) = (usize::from(numbers.lo), usize::from(numbers.hi));
    let (n, thousand) = (strand.len(), 1000 * gc(strand));
    let lo_missed = thousand < lo * n && (lo - 1) * n <= thousand;
    let hi_missed = hi * n < thousand && thousand <= (hi + 1) * n;
    let (run, m) = (longest_run(strand), usize::from(numbers.m));
    regions.note_if(run == m && lo_missed, "dropped: run = m, lo just missed");
    regions.note_if(run == m && hi_missed, "dropped: run = m, hi just missed");
    if run == m + 1 {
        regions.note(&format!("dropped: run = m + 1, GC {side}"));
        regions.note_if(lo_missed, "dropped: run = m + 1, lo just missed");
        regions.note_if(hi_missed, "dropped: run = m + 1, hi just missed");
    }
}

/// For a strand that was dropped: whether only a joint makes a run longer than m.
fn note_joints(regions: &mut Regions, m: usize, strand: &[u8], side: &str) {
    if longest_inside(strand) > m {
        return;
    }
    let joint = match (through_first(strand) > m, through_second(strand) > m) {
        (true, false) => "first",
        (false, true) => "second",
        _ => return,
    };
    regions.note(&format!("dropped for the {joint} joint alone, GC {side}"));
}

/// Notes what regions a run of the writer comes from that tried strands with these faults.
pub fn note_run(regions: &mut Regions, faults: &[Fault], spent: bool) {
    let (Some(first), Some(last)) = (faults.first(), faults.last()) else {
        return;
    };
    if let Some(dropped) = first.dropped() {
        regions.note(&format!("the start {dropped}"));
    }
    if let Some(dropped) = last.dropped() {
        assert!(spent, "a run is done on a strand that it made");
        regions.note(&format!("spent on a strand {dropped}"));
        if faults.len() == 1 {
            regions.note(&format!("spent on the only seed, {dropped}"));
        }
    }
    note_numbers(regions, faults, spent);
}

fn note_numbers(regions: &mut Regions, faults: &[Fault], spent: bool) {
    let tried = faults.len() as u64;
    let [for_run, for_gc] = two_numbers(faults);
    regions.note_if(for_run == tried, "all dropped for a run");
    regions.note_if(for_gc == tried, "all dropped for GC alone");
    regions.note_if(for_run + for_gc == 0, "none dropped");
    if for_run > 0 && for_gc > 0 {
        regions.note_if(for_run + for_gc == tried, "all dropped, in both ways");
        regions.note_if(!spent, "drops of both kinds, done");
        regions.note_if(spent, "drops of both kinds, spent");
        regions.note_if(for_run > for_gc, "drops of both kinds, more for a run");
        regions.note_if(for_gc > for_run, "drops of both kinds, more for GC alone");
    }
    let all = [Fault::Nothing, Fault::RunAlone, Fault::GcAlone, Fault::Both];
    regions.note_if(
        all.iter().all(|fault| faults.contains(fault)),
        "strands with each fault, with both and with none",
    );
}

/// Notes what regions a run in two parts comes from, the first of which tried this many of the strands.
pub fn note_resumed(regions: &mut Regions, faults: &[Fault], tried_first: usize) {
    let (first, rest) = faults.split_at(tried_first);
    let any = |part: &[Fault]| part.iter().any(|fault| fault.dropped().is_some());
    let both_kinds = |part: &[Fault]| two_numbers(part).iter().all(|&number| number > 0);
    regions.note_if(
        both_kinds(first) && both_kinds(rest),
        "resumed: both parts have drops of both kinds",
    );
    regions.note_if(
        any(first) && !any(rest) && !rest.is_empty(),
        "resumed: only the first part has drops",
    );
    regions.note_if(
        !any(first) && !first.is_empty() && any(rest),
        "resumed: only the second part has drops",
    );
    if let Some(dropped) = first.last().and_then(|fault| fault.dropped()) {
        regions.note(&format!("resumed after a strand {dropped}"));
    }
}
