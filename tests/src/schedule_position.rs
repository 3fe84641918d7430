//! Item 7 of document 02, "No seed twice": "Long jobs are split by schedule
//! position, and two writers must never print one seed in two places." The seed at
//! a position is found without taking every step up to it.
//!
//! The step shifts and XORs, so the step of a XOR of seeds is the XOR of their
//! steps, and any number of steps is a matrix over bits.

use crate::generator_and_seed_schedule::schedule_step;
use crate::questions::{ask, question_6, Refusal};
use std::array;
use std::sync::OnceLock;

/// The seed after as many schedule steps from the start, which itself is the seed
/// after none. "Start not 0? 6."
///
/// "from any nonzero start the schedule comes back to it after 4,294,967,295 steps
/// and not sooner", so each of the other seeds stands at one position below that.
pub fn seed_at(start: u32, steps: u32) -> Result<u32, Refusal> {
    ask(question_6(start), 6)?;
    let mut seed = start;
    for (bit, power) in powers_of_the_step().iter().enumerate() {
        if (steps >> bit) & 1 == 1 {
            seed = power.of_seed(seed);
        }
    }
    Ok(seed)
}

/// A 32 by 32 matrix over bits, by its columns: column i is what becomes of the
/// seed whose only one is bit i.
#[derive(Clone, Copy, Debug, PartialEq, Eq)]
struct Matrix([u32; 32]);

impl Matrix {
    fn of_the_step() -> Matrix {
        Matrix(array::from_fn(|bit| schedule_step(1 << bit)))
    }

    /// What becomes of a seed: the XOR of the columns that belong to its ones.
    fn of_seed(&self, seed: u32) -> u32 {
        let mut image = 0;
        for (bit, column) in self.0.iter().enumerate() {
            if (seed >> bit) & 1 == 1 {
                image ^= column;
            }
        }
        image
    }

    /// The matrix times itself, for twice as many steps.
    fn squared(&self) -> Matrix {
        Matrix(self.0.map(|column| self.of_seed(column)))
    }
}

/// The matrices of 1, 2, 4, .. 2,147,483,648 steps: one for each bit of a number of
/// steps.
fn powers_of_the_step() -> &'static [Matrix; 32] {
    static POWERS: OnceLock<[Matrix; 32]> = OnceLock::new();
    POWERS.get_or_init(|| {
        let mut powers = [Matrix::of_the_step(); 32];
        for bit in 1..32 {
            powers[bit] = powers[bit - 1].squared();
        }
        powers
    })
}

#[cfg(test)]
mod tests {
    use super::*;

    /// "4,294,967,295 steps", which is 3 · 5 · 17 · 257 · 65,537.
    const ROUND: u32 = 4_294_967_295;
    const PRIMES: [u32; 5] = [3, 5, 17, 257, 65_537];

    /// All seeds of a single bit, some at an edge, and some without a pattern.
    fn starts() -> Vec<u32> {
        let mut starts: Vec<u32> = (0..32).map(|bit| 1 << bit).collect();
        starts.extend([3, 0xC5, 0xC4, 0xFF, 0x7FFF_FFFF, 0x8000_0001]);
        starts.extend([0xFFFF_FFFE, 0xFFFF_FFFF]);
        starts.extend((1..=60u32).map(|i| i.wrapping_mul(0x9E37_79B9)));
        starts
    }

    fn some_steps() -> Vec<u32> {
        let mut steps: Vec<u32> = (0..32).map(|bit| 1 << bit).collect();
        steps.extend([0, 3, 31, 33, 65_535, 65_537, ROUND / 2, ROUND - 1, ROUND]);
        steps.extend((1..=20u32).map(|i| i.wrapping_mul(0x85EB_CA6B)));
        steps
    }

    #[test]
    fn step_by_step() {
        for start in starts() {
            let mut seed = start;
            for steps in 0..=3_000 {
                assert_eq!(seed_at(start, steps), Ok(seed), "{start:08X} {steps}");
                seed = schedule_step(seed);
            }
        }
    }

    /// Over the edges of two and three bytes of steps.
    #[test]
    fn a_long_walk() {
        let mut seed = 0xACE1_2357;
        for steps in 0..=17_000_000u32 {
            let at_an_edge = steps & 0xFFFF < 3 || steps & 0xFFFF > 0xFFFC;
            if at_an_edge || steps % 9_973 == 0 {
                assert_eq!(seed_at(0xACE1_2357, steps), Ok(seed), "{steps}");
            }
            seed = schedule_step(seed);
        }
    }

    #[test]
    fn no_steps() {
        for start in starts() {
            assert_eq!(seed_at(start, 0), Ok(start));
        }
    }

    /// "Seed 0 is never legal", however many steps are asked for.
    #[test]
    fn start_0_is_refused() {
        for steps in some_steps() {
            assert_eq!(seed_at(0, steps), Err(Refusal(6)), "{steps}");
        }
    }

    /// Bench example: "Hex 80000000 steps to 000000C5; 00000001 to 00000002."
    #[test]
    fn bench_schedule_steps() {
        assert_eq!(seed_at(0x8000_0000, 1), Ok(0x0000_00C5));
        assert_eq!(seed_at(0x0000_0001, 1), Ok(0x0000_0002));
    }

    /// The one of seed 1 moves to the top in 31 steps and falls out at the next. The
    /// top one of hex C5 does so 25 steps later.
    #[test]
    fn seed_1_until_ones_fall_out() {
        assert_eq!(seed_at(1, 31), Ok(0x8000_0000));
        assert_eq!(seed_at(1, 32), Ok(0x0000_00C5));
        assert_eq!(seed_at(1, 56), Ok(0xC500_0000));
        assert_eq!(seed_at(1, 57), Ok(0x8A00_00C5));
    }

    /// Some steps and then others are their sum, or their sum less a round.
    #[test]
    fn steps_after_steps() {
        for start in starts() {
            for first in some_steps() {
                let between = seed_at(start, first).unwrap();
                for second in some_steps() {
                    let sum = u64::from(first) + u64::from(second);
                    let steps = sum.checked_sub(ROUND.into()).unwrap_or(sum) as u32;
                    assert_eq!(seed_at(between, second), seed_at(start, steps));
                }
            }
        }
    }

    /// "from any nonzero start the schedule comes back to it after 4,294,967,295
    /// steps": each seed of a single bit does, and so does every XOR of them.
    #[test]
    fn comes_back_after_a_round() {
        for start in starts() {
            assert_eq!(seed_at(start, ROUND), Ok(start), "{start:08X}");
            let last = seed_at(start, ROUND - 1).unwrap();
            assert_eq!(schedule_step(last), start);
        }
    }

    /// "and not sooner": the first return divides every other, so a sooner one than
    /// after a round would be one after a round divided by one of its primes, too.
    #[test]
    fn not_after_a_part_of_a_round() {
        assert_eq!(PRIMES.iter().product::<u32>(), ROUND);
        for prime in PRIMES {
            for start in starts() {
                assert_ne!(seed_at(start, ROUND / prime), Ok(start), "{start:08X}");
            }
        }
    }

    /// The same from any nonzero start at once: what those steps change in the 32
    /// seeds of a single bit has no XOR that is 0, so they change every seed.
    #[test]
    fn not_after_a_part_of_a_round_from_any_start() {
        for prime in PRIMES {
            let changes = (0..32).map(|bit| (1 << bit) ^ seed_at(1 << bit, ROUND / prime).unwrap());
            assert!(none_is_a_xor_of_others(changes), "{prime}");
        }
        assert!(!none_is_a_xor_of_others([0b110, 0b011, 0b101].into_iter()));
        assert!(!none_is_a_xor_of_others([0b110, 0].into_iter()));
    }

    /// Elimination: each word kept has a top one that no later word has.
    fn none_is_a_xor_of_others(words: impl Iterator<Item = u32>) -> bool {
        let mut kept: Vec<u32> = Vec::new();
        for word in words {
            let rest = kept
                .iter()
                .fold(word, |rest, &other| rest.min(rest ^ other));
            if rest == 0 {
                return false;
            }
            kept.push(rest);
        }
        true
    }

    /// The matrices by themselves: of one step and of two.
    #[test]
    fn matrices_step() {
        let one = Matrix::of_the_step();
        let two = one.squared();
        for seed in starts() {
            assert_eq!(one.of_seed(seed), schedule_step(seed));
            assert_eq!(two.of_seed(seed), schedule_step(schedule_step(seed)));
        }
        assert_eq!((one.of_seed(0), two.of_seed(0)), (0, 0));
    }
}
