//! Runs through the joints of strand and sites: how long they are, strands that have them, and the regions of the screen that
//! they make. The measures walk from the joints into the strand and into the site.

use super::cards::Numbers;
use super::random::Random;
use super::reads::{byte_of, gc_fits, zero_at_roots};
use super::run::Regions;
use second::check_bytes_letters_screen::{
    field_inverse, field_product, letters_of_bytes, strand_bytes, SITE_AFTER, SITE_BEFORE,
};

/// The letters on the two sides of the strand.
const BEFORE: u8 = SITE_BEFORE[SITE_BEFORE.len() - 1];
const AFTER: u8 = SITE_AFTER[0];

/// The longest run inside these letters alone.
pub fn longest_inside(letters: &[u8]) -> usize {
    let mut longest = 0;
    let mut start = 0;
    for i in 0..letters.len() {
        if letters[i] != letters[start] {
            start = i;
        }
        longest = longest.max(i + 1 - start);
    }
    longest
}

/// How many of the letters are this one before the first other one.
fn leading<'a>(letters: impl Iterator<Item = &'a u8>, letter: u8) -> usize {
    letters.take_while(|&&other| other == letter).count()
}

/// The run through the first joint, 0 if none goes through it.
pub fn through_first(read: &[u8]) -> usize {
    match leading(read.iter(), BEFORE) {
        0 => 0,
        inside => leading(SITE_BEFORE.iter().rev(), BEFORE) + inside,
    }
}

/// The run through the second joint, 0 if none goes through it.
pub fn through_second(read: &[u8]) -> usize {
    match leading(read.iter().rev(), AFTER) {
        0 => 0,
        inside => inside + leading(SITE_AFTER.iter(), AFTER),
    }
}

/// The longest run that has a letter of the strand. None goes through both joints, since the letters there differ.
pub fn longest_run(read: &[u8]) -> usize {
    longest_inside(read)
        .max(through_first(read))
        .max(through_second(read))
}

/// The letter for a run at an end of the strand: mostly the one that the site has there.
fn mostly(random: &mut Random, site: u8) -> u8 {
    if random.once_in(6) {
        return random.one_of(b"ACGT");
    }
    site
}

/// How many letters the run at either end of a strand has, and the longest that any run inside it may have.
struct Plan {
    first: usize,
    last: usize,
    most: usize,
}

impl Plan {
    /// At one joint, at both or at none as many letters as any run may have.
    fn any(random: &mut Random, l: usize) -> Plan {
        let most = match random.below(10) {
            0..=2 => 1,
            3 | 4 => 2,
            5 | 6 => 3,
            7 => random.between(4, 18),
            _ => random.one_of(&[19, 20]),
        };
        let (fewer, other) = (random.below(most), random.below(most));
        let (first, last) =
            random.one_of(&[(most, fewer), (fewer, most), (most, most), (fewer, other)]);
        Plan {
            first,
            last: last.min(4 * l),
            most,
        }
    }

    /// `length` letters: a run of just `run` times `letter`, then any, none of their runs longer than may be.
    fn letters(&self, random: &mut Random, letter: u8, run: usize, length: usize) -> Vec<u8> {
        let mut letters = vec![letter; run.min(length)];
        while letters.len() < length {
            let next = random.one_of(b"ACGT");
            let ends_the_run = letters.len() > run || next != letter;
            if ends_the_run && leading(letters.iter().rev(), next) < self.most {
                letters.push(next);
            }
        }
        letters
    }

    /// Seed, payload and check bytes, the first letters as planned.
    fn strand(&self, random: &mut Random, l: usize, r: u8) -> Vec<u8> {
        let letter = mostly(random, BEFORE);
        let letters = self.letters(random, letter, self.first, 4 * (4 + l));
        let bytes: Vec<u8> = letters.chunks(4).map(byte_of).collect();
        let seed = u32::from_be_bytes([bytes[0], bytes[1], bytes[2], bytes[3]]);
        strand_bytes(seed, &bytes[4..], r)
    }

    /// The last bytes, as few as the run at the end needs.
    fn ending(&self, random: &mut Random) -> Vec<u8> {
        let letter = mostly(random, AFTER);
        let length = 4 * self.last.max(1).div_ceil(4);
        let mut letters = self.letters(random, letter, self.last, length);
        letters.reverse();
        letters.chunks(4).map(byte_of).collect()
    }
}

/// Gives a strand this ending, at most as long as the payload. Multiples of a polynomial that is 0 at all roots are added from
/// the end on, so that the check sums stay 0; they change the bytes before the ending too, but not the seed.
fn set_ending(bytes: &mut [u8], zero_at_roots: &[u8], inverse_of_last: u8, ending: &[u8]) {
    for (back, wanted) in ending.iter().rev().enumerate() {
        let end = bytes.len() - back;
        let times = field_product(bytes[end - 1] ^ wanted, inverse_of_last);
        let changed = &mut bytes[end - zero_at_roots.len()..end];
        for (byte, &coefficient) in changed.iter_mut().zip(zero_at_roots) {
            *byte ^= field_product(times, coefficient);
        }
    }
}

/// Seed and payload of a strand with a run through a joint that no other run is longer than, if a few tries find one.
pub fn any_droplet(random: &mut Random, l: usize, r: u8) -> (u32, Vec<u8>) {
    let plan = Plan::any(random, l);
    let polynomial = zero_at_roots(usize::from(r));
    let inverse = field_inverse(polynomial[usize::from(r)]);
    let mut bytes = plan.strand(random, l, r);
    for attempt in 1..=600 {
        let ending = plan.ending(random);
        set_ending(&mut bytes, &polynomial, inverse, &ending);
        if longest_inside(&letters_of_bytes(&bytes)) <= plan.most {
            break;
        }
        if attempt % 20 == 0 {
            bytes = plan.strand(random, l, r);
        }
    }
    let seed = u32::from_be_bytes([bytes[0], bytes[1], bytes[2], bytes[3]]);
    (seed, bytes[4..4 + l].to_vec())
}

/// The regions of the joints that the read check, shelving and the writer must meet. A run through a joint has two letters or
/// more, so that none is as long as an m of 1.
#[rustfmt::skip]
pub const REGIONS: &[&str] = &[
    "refused for the first joint alone, m 1", "refused for the first joint alone, m 2", "refused for the first joint alone, m 3",
    "refused for the first joint alone, m 4 to 19", "refused for the first joint alone, m 20",
    "refused for the second joint alone, m 1", "refused for the second joint alone, m 2", "refused for the second joint alone, m 3",
    "refused for the second joint alone, m 4 to 19", "refused for the second joint alone, m 20",
    "run = m through the first joint, m 2", "run = m through the first joint, m 3",
    "run = m through the first joint, m 4 to 19", "run = m through the first joint, m 20",
    "run = m through the second joint, m 2", "run = m through the second joint, m 3",
    "run = m through the second joint, m 4 to 19", "run = m through the second joint, m 20",
    "passed though a site has a longer run, m 1", "passed though a site has a longer run, m 2",
    "refused for both joints and nothing else", "refused for the first joint alone, over the end of eight bytes",
    "refused for the second joint alone, over the end of eight bytes",
    "run = m at the first joint and not through it", "run = m at the second joint and not through it",
];

/// Notes what the joints had to do with a strand that came to the screen. By these measures too it must pass, or not.
pub fn note(regions: &mut Regions, numbers: &Numbers, read: &[u8], passed: bool) {
    let (m, fits) = (usize::from(numbers.m), gc_fits(numbers, read));
    assert_eq!(passed, fits && longest_run(read) <= m, "the screen");
    if passed {
        note_passed(regions, m, read);
    } else if fits && longest_inside(read) <= m {
        note_refused(regions, m, read);
    }
}

/// m as it stands in the names of regions.
fn of_m(m: usize) -> &'static str {
    match m {
        1 => "m 1",
        2 => "m 2",
        3 => "m 3",
        20 => "m 20",
        _ => "m 4 to 19",
    }
}

fn note_passed(regions: &mut Regions, m: usize, read: &[u8]) {
    let of_m = of_m(m);
    if through_first(read) == m {
        regions.note(&format!("run = m through the first joint, {of_m}"));
    }
    if through_second(read) == m {
        regions.note(&format!("run = m through the second joint, {of_m}"));
    }
    if longest_inside(SITE_BEFORE).max(longest_inside(SITE_AFTER)) > m {
        regions.note(&format!("passed though a site has a longer run, {of_m}"));
    }
    let (first, last) = (read[0], read[read.len() - 1]);
    regions.note_if(
        first != BEFORE && leading(read.iter(), first) == m,
        "run = m at the first joint and not through it",
    );
    regions.note_if(
        last != AFTER && leading(read.iter().rev(), last) == m,
        "run = m at the second joint and not through it",
    );
}

/// For a strand that is refused although no run inside it is longer than m: m of its letters make m + 1 with the site's.
fn note_refused(regions: &mut Regions, m: usize, read: &[u8]) {
    let joint = match (through_first(read) > m, through_second(read) > m) {
        (true, true) => return regions.note("refused for both joints and nothing else"),
        (true, false) => "first",
        _ => "second",
    };
    let region = format!("refused for the {joint} joint alone");
    regions.note(&format!("{region}, {}", of_m(m)));
    // Eights of bytes are counted from the other end, so that those at this end may be fewer.
    if (1..m).contains(&(read.len() % 32)) {
        regions.note(&format!("{region}, over the end of eight bytes"));
    }
}
