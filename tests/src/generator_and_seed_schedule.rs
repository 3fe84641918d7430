//! Section "Generator and seed schedule".
//!
//! Words are held in 64 bits while they are worked on and cut back to 32 bits
//! by an explicit "modulo 4,294,967,296", so that nothing hangs on how a
//! 32-bit shift or sum behaves at its edge.

/// 4,294,967,296, that is 2 to the 32.
const MODULUS: u64 = 4_294_967_296;

/// "All state is 32 bits wide. A draw state is a pair (x, w)."
#[derive(Clone, Copy, Debug, PartialEq, Eq)]
pub struct DrawState {
    pub x: u32,
    pub w: u32,
}

impl DrawState {
    /// "For a seed, x is the seed and w is 0."
    pub fn of_seed(seed: u32) -> DrawState {
        DrawState { x: seed, w: 0 }
    }

    /// "One draw does: x becomes x xor (x shifted left 13, low 32 bits); then x
    /// xor (x shifted right 17); then x xor (x shifted left 5, low 32 bits)
    /// (Marsaglia's xorshift). Then w grows by 362,437, and the number drawn is
    /// x + w; both sums are taken modulo 4,294,967,296."
    pub fn draw(&mut self) -> u32 {
        let mut x = u64::from(self.x);
        x ^= (x << 13) % MODULUS;
        x ^= x >> 17;
        x ^= (x << 5) % MODULUS;
        let w = (u64::from(self.w) + 362_437) % MODULUS;
        let drawn = (x + w) % MODULUS;
        self.x = x as u32;
        self.w = w as u32;
        drawn as u32
    }
}

/// "The schedule steps a seed by shifting left one bit; if a one falls out at
/// the top, the low byte is XORed with hex C5 (polynomial
/// x^32+x^7+x^6+x^2+1)."
pub fn schedule_step(seed: u32) -> u32 {
    let shifted = u64::from(seed) * 2;
    let a_one_fell_out = shifted >= MODULUS;
    let low_32_bits = (shifted % MODULUS) as u32;
    if a_one_fell_out {
        low_32_bits ^ 0x0000_00C5
    } else {
        low_32_bits
    }
}

#[cfg(test)]
mod tests {
    use super::*;

    /// Bench example: "Seed 1 draws 632,806 then 68,359,563."
    #[test]
    fn bench_draws_of_seed_1() {
        let mut state = DrawState::of_seed(1);
        assert_eq!(state.draw(), 632_806);
        assert_eq!(state.draw(), 68_359_563);
    }

    /// Bench example: "Hex 80000000 steps to 000000C5; 00000001 to 00000002."
    #[test]
    fn bench_schedule_steps() {
        assert_eq!(schedule_step(0x8000_0000), 0x0000_00C5);
        assert_eq!(schedule_step(0x0000_0001), 0x0000_0002);
    }

    /// The xorshift word by itself: shifts 13, 17, 5 and the seed 2463534242 of
    /// Marsaglia's "Xorshift RNGs" (Journal of Statistical Software 8 (14),
    /// 2003) give the often quoted words 723471715, 2497366906, 2064144800.
    #[test]
    fn published_xorshift_sequence() {
        let mut state = DrawState::of_seed(2_463_534_242);
        let mut words = Vec::new();
        for _ in 0..3 {
            state.draw();
            words.push(state.x);
        }
        assert_eq!(words, [723_471_715, 2_497_366_906, 2_064_144_800]);
    }

    /// The number drawn is x + w after both have moved, wrapping included.
    #[test]
    fn number_drawn_is_sum_of_the_new_pair() {
        let mut state = DrawState::of_seed(0xFFFF_FFFF);
        for turn in 1..=100_000u64 {
            let drawn = state.draw();
            assert_eq!(u64::from(state.w), turn * 362_437 % MODULUS);
            assert_eq!(drawn, state.x.wrapping_add(state.w));
        }
    }

    /// Seed 0 draws only the Weyl words, and draws do not fail on it.
    #[test]
    fn seed_0_draws_the_weyl_words() {
        let mut state = DrawState::of_seed(0);
        assert_eq!(state.draw(), 362_437);
        assert_eq!(state.draw(), 724_874);
    }

    /// The step multiplies by x modulo the stated polynomial: shift into 33
    /// bits and take off the polynomial, bits 32, 7, 6, 2 and 0, if bit 32 is
    /// set.
    #[test]
    fn step_is_multiplication_by_x() {
        let polynomial: u64 = (1 << 32) | (1 << 7) | (1 << 6) | (1 << 2) | 1;
        let mut seed = 1u32;
        for _ in 0..100_000 {
            let mut product = u64::from(seed) << 1;
            if product >> 32 == 1 {
                product ^= polynomial;
            }
            seed = schedule_step(seed);
            assert_eq!(u64::from(seed), product);
            assert_ne!(seed, 0);
        }
        assert_eq!(schedule_step(0), 0);
    }
}
