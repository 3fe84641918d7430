//! Sizes for the calls that are lent a whole file: small ones, so that many cases run, and now and then the largest.

use super::cards::{self, Numbers, D_MOST, F_MOST, K_MOST};
use super::random::Random;
use super::reads;
use super::run::Regions;
use second::droplet::degree;
use second::DrawState;

/// An accepted card whose K·L is small but for a few.
pub fn any_accepted(random: &mut Random) -> Numbers {
    let (l, k, d) = match random.below(20_000) {
        0 => return largest(random),
        1..=40 => (1, K_MOST, random.one_of(&[1, 2, 40, D_MOST])),
        41..=100 => (random.between(1, 4), random.between(D_MOST, 3000), D_MOST),
        101..=500 => {
            let k = random.between(17, 600);
            (random.between(1, 8), k, random.between(16, k))
        }
        _ => {
            let l = cards::any_l(random);
            let k = random.between(1, 16);
            (l, k, cards::any_d(random, k))
        }
    };
    cards::accepted(random, l, k, d)
}

/// 131,072 segments of 64 bytes, all or all but a part of the last within F.
fn largest(random: &mut Random) -> Numbers {
    let d = random.one_of(&[2, 40, D_MOST]);
    let mut numbers = cards::accepted(random, 64, K_MOST, d);
    if random.once_in(2) {
        numbers.f = F_MOST as u32;
    }
    numbers
}

/// Whether the draws of 1,024 out of 131,072 segments meet one of the last 64 a second time, where a bitmap of the segments ends.
fn meets_late_twice(seed: u32) -> bool {
    let mut state = DrawState::of_seed(seed);
    state.draw();
    let mut joined = [0u64; K_MOST / 64];
    for j in K_MOST - D_MOST..K_MOST {
        let mut segment = state.draw() as usize % (j + 1);
        if joined[segment / 64] >> (segment % 64) & 1 == 1 {
            if segment >= K_MOST - 64 {
                return true;
            }
            segment = j;
        }
        joined[segment / 64] |= 1 << (segment % 64);
    }
    false
}

/// A seed whose set of 1,024 out of 131,072 segments turns on whether one of the last 64 has joined. Its first draw is odd.
pub fn seed_of_late_collision(random: &mut Random) -> u32 {
    loop {
        let seed = reads::any_seed(random);
        if DrawState::of_seed(seed).draw() % 2 == 1 && meets_late_twice(seed) {
            return seed;
        }
    }
}

/// A length for a buffer that needs `needed`, mostly enough.
pub fn lent_for(random: &mut Random, needed: usize) -> usize {
    if random.once_in(4) {
        return random.length_for(needed);
    }
    needed + random.one_of(&[0, 0, 1, 7])
}

#[rustfmt::skip]
pub const REGIONS: &[&str] = &[
    "degree 1", "degree 16", "degree 17", "degree over 100", "degree 1,024", "degree = K", "all of 131,072 segments by 64",
    "last segment of one byte", "last segment whole",
];

/// Notes the degree that a seed draws, and the sizes of an accepted card.
pub fn note(regions: &mut Regions, numbers: &Numbers, seed: u32) {
    let (l, k) = (usize::from(numbers.l), numbers.k());
    let drawn = degree(seed, &numbers.weights);
    regions.note_if(drawn == 1, "degree 1");
    regions.note_if(drawn == 16, "degree 16");
    regions.note_if(drawn == 17, "degree 17");
    regions.note_if(drawn > 100, "degree over 100");
    regions.note_if(drawn == D_MOST, "degree 1,024");
    regions.note_if(drawn == k, "degree = K");
    regions.note_if(k == K_MOST && l == 64, "all of 131,072 segments by 64");
    regions.note_if(
        l > 1 && numbers.f as usize % l == 1,
        "last segment of one byte",
    );
    regions.note_if(l > 1 && numbers.f as usize % l == 0, "last segment whole");
}
