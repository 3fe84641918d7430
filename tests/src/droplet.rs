//! Section "Droplet".
//!
//! All of this needs an accepted card: weights summing to 1 to 4,294,967,295
//! and D at most K.

use crate::generator_and_seed_schedule::DrawState;
use crate::pool_card::{numbers_of_weights, sum_of_weights};

/// "The first draw modulo the sum of all weights gives r. The degree d is the
/// least d whose first d weights sum to more than r."
///
/// Takes the first draw from the state.
fn draw_degree(state: &mut DrawState, weights: &[u32]) -> usize {
    let r = u64::from(state.draw()) % sum_of_weights(weights);
    let mut sum_of_first_d = 0;
    for d in 1..=weights.len() {
        sum_of_first_d += u64::from(weights[d - 1]);
        if sum_of_first_d > r {
            return d;
        }
    }
    panic!("r is below the sum of all weights")
}

/// The degree that a seed draws.
pub fn degree(seed: u32, weight_bytes: &[u8]) -> usize {
    draw_degree(
        &mut DrawState::of_seed(seed),
        &numbers_of_weights(weight_bytes),
    )
}

/// "Then for j = K-d, K-d+1, .., K-1 one draw modulo (j+1) gives t: segment t
/// joins the set if it is not in it, otherwise segment j joins. The set has
/// just d segments."
///
/// The segments are given in the order they join.
pub fn set_of_segments(seed: u32, weight_bytes: &[u8], k: usize) -> Vec<usize> {
    let mut state = DrawState::of_seed(seed);
    let d = draw_degree(&mut state, &numbers_of_weights(weight_bytes));
    let mut set: Vec<usize> = Vec::new();
    for j in k - d..k {
        let t = state.draw() as usize % (j + 1);
        if set.contains(&t) {
            set.push(j);
        } else {
            set.push(t);
        }
    }
    set
}

/// Segment i of a file: "Segment i stands in the L file bytes from i·L on" and
/// "Bytes of the last segment past F are 0."
pub fn segment(file: &[u8], l: u8, i: usize) -> Vec<u8> {
    let l = usize::from(l);
    (i * l..(i + 1) * l)
        .map(|place| if place < file.len() { file[place] } else { 0 })
        .collect()
}

/// "The payload is the XOR of these segments."
pub fn payload(set: &[usize], file: &[u8], l: u8) -> Vec<u8> {
    let mut xor = vec![0; usize::from(l)];
    for &i in set {
        xor_into(&mut xor, &segment(file, l, i));
    }
    xor
}

/// XOR, byte by byte, of two of the same length.
pub(crate) fn xor_into(to: &mut [u8], from: &[u8]) {
    assert_eq!(to.len(), from.len());
    for (a, b) in to.iter_mut().zip(from) {
        *a ^= b;
    }
}

#[cfg(test)]
mod tests {
    use super::*;

    const P_WEIGHTS: [u8; 8] = [0, 0, 0, 1, 0, 0, 0, 1];
    const Q: [u8; 4] = [0x1B, 0x27, 0x4E, 0xE4];

    /// Bench example: "Under P, seed 1 picks {3}, seed 2 {1, 2}, seed 3 {1}."
    #[test]
    fn bench_sets_under_p() {
        let mut sets: Vec<Vec<usize>> = (1..=3)
            .map(|seed| set_of_segments(seed, &P_WEIGHTS, 4))
            .collect();
        for set in &mut sets {
            set.sort();
        }
        assert_eq!(sets, [vec![3], vec![1, 2], vec![1]]);
        assert_eq!(degree(1, &P_WEIGHTS), 1);
        assert_eq!(degree(2, &P_WEIGHTS), 2);
        assert_eq!(degree(3, &P_WEIGHTS), 1);
    }

    #[test]
    fn payloads_of_q() {
        assert_eq!(payload(&[3], &Q, 1), [0xE4]);
        assert_eq!(payload(&[1, 2], &Q, 1), [0x27 ^ 0x4E]);
        assert_eq!(payload(&[0, 1, 2, 3], &Q, 1), [0x1B ^ 0x27 ^ 0x4E ^ 0xE4]);
    }

    /// "Bytes of the last segment past F are 0."
    #[test]
    fn last_segment_is_filled_with_0() {
        let file = [1, 2, 3, 4, 5];
        assert_eq!(segment(&file, 3, 0), [1, 2, 3]);
        assert_eq!(segment(&file, 3, 1), [4, 5, 0]);
        assert_eq!(payload(&[0, 1], &file, 3), [5, 7, 3]);
        assert_eq!(segment(&[9], 4, 0), [9, 0, 0, 0]);
    }

    fn bytes_of(weights: &[u32]) -> Vec<u8> {
        weights.iter().flat_map(|w| w.to_be_bytes()).collect()
    }

    /// A degree of weight 0 is never drawn; a degree of all the weight always is.
    #[test]
    fn degrees_of_weight_0() {
        for seed in 1..2000 {
            assert_eq!(degree(seed, &bytes_of(&[0, 0, 7, 0])), 3);
            assert_eq!(degree(seed, &bytes_of(&[u32::MAX])), 1);
            let d = degree(seed, &bytes_of(&[0, 5, 0, 5, 0]));
            assert!(d == 2 || d == 4);
        }
    }

    /// The cut between degree 1 and 2 lies where the first draw, modulo the
    /// sum, reaches the first weight.
    #[test]
    fn degree_cut() {
        for seed in 1..2000 {
            let first = DrawState::of_seed(seed).draw();
            let r = first % 10;
            let expected = if r < 3 { 1 } else { 2 };
            assert_eq!(degree(seed, &bytes_of(&[3, 7])), expected);
        }
    }

    /// The degree against its sentence taken word by word.
    #[test]
    fn least_d_whose_first_d_weights_sum_to_more_than_r() {
        let weights = [4u32, 0, 1, 3, 0, 0, 9, 2];
        for seed in 1..2000 {
            let r = u64::from(DrawState::of_seed(seed).draw()) % 19;
            let d = (1..=8)
                .find(|&d| sum_of_weights(&weights[..d]) > r)
                .unwrap();
            assert_eq!(degree(seed, &bytes_of(&weights)), d);
        }
    }

    /// On a collision segment j joins, and no further draw is taken: the set
    /// uses exactly d draws after the first, one for each j.
    #[test]
    fn joining_order() {
        // K = 2, d = 2: the draw modulo 1 gives 0; then 0 or 1, and segment 1
        // joins either way.
        for seed in 1..500 {
            assert_eq!(set_of_segments(seed, &bytes_of(&[0, 1]), 2), [0, 1]);
        }
        // K = 5, d = 3: j = 2, 3, 4, step by step.
        let mut collisions_at_3 = 0;
        for seed in 1..500 {
            let mut state = DrawState::of_seed(seed);
            let draws: Vec<usize> = (0..4).map(|_| state.draw() as usize).collect();
            let first = draws[1] % 3;
            let second = if draws[2] % 4 == first {
                collisions_at_3 += 1;
                3
            } else {
                draws[2] % 4
            };
            let third = if draws[3] % 5 == first || draws[3] % 5 == second {
                4
            } else {
                draws[3] % 5
            };
            assert_eq!(
                set_of_segments(seed, &bytes_of(&[0, 0, 1]), 5),
                [first, second, third]
            );
        }
        assert!(collisions_at_3 > 50);
    }

    /// "The set has just d segments", all below K, none twice.
    #[test]
    fn sets_have_d_segments() {
        for k in 1..=12usize {
            for d in 1..=k {
                let mut weights = vec![0; d];
                weights[d - 1] = 1;
                for seed in 1..200 {
                    let mut set = set_of_segments(seed, &bytes_of(&weights), k);
                    assert_eq!(set.len(), d);
                    set.sort();
                    set.dedup();
                    assert_eq!(set.len(), d);
                    assert!(set.iter().all(|&i| i < k));
                    if d == k {
                        assert_eq!(set, (0..k).collect::<Vec<_>>());
                    }
                }
            }
        }
    }
}
