//! Item 3 of document 02, "Mending misread bytes": "Many strands have one wrong
//! byte, and with R=4 two can be put right."
//!
//! The word that a read becomes is searched for, with no byte changed, then with
//! one, then with two. Two words with all R check sums 0 differ in R + 1 bytes or
//! more (Reed-Solomon), so that no read is within R/2 bytes of both: there is at
//! most one word to find, and the order of the search does not matter.

use crate::check_bytes_letters_screen::{check_sums, field_inverse, field_product};
use std::array;
use std::sync::OnceLock;

/// "the word with all check sums 0 that differs from it in at most R/2 bytes (one
/// or two)"
#[derive(Clone, Debug, PartialEq, Eq)]
pub struct Mended {
    pub word: Vec<u8>,
    /// "The answer gives the number of bytes mended": 0, 1 or 2.
    pub bytes: usize,
}

/// What a read of these bytes becomes, if there is such a word. Any of its bytes may
/// be wrong, those of the seed and the check bytes too.
///
/// Needs R to be 2 or 4, and at most 255 bytes.
pub fn mend(word: &[u8], r: u8) -> Option<Mended> {
    if check_sums(word, r) == [0; 4] {
        return Some(Mended {
            word: word.to_vec(),
            bytes: 0,
        });
    }
    match r {
        2 => with_one_changed(word, r),
        4 => with_one_changed(word, r).or_else(|| with_two_changed(word, r)),
        _ => panic!("R is 2 or 4"),
    }
}

/// Tries each place. The first check sum, at a^0 = 1, is the XOR of all bytes, so
/// that it must be XORed to the wrong one.
fn with_one_changed(word: &[u8], r: u8) -> Option<Mended> {
    let sums = check_sums(word, r);
    let factors = factors_at_a(word.len());
    (0..word.len())
        // The second sum alone turns nearly all places away.
        .filter(|&place| field_product(factors[place], sums[0]) == sums[1])
        .find_map(|place| if_all_sums_are_0(word, r, &[(place, sums[0])]))
}

/// Tries each pair of places. If u must be XORed to the byte at one place, whose
/// factor is x, and v at the other, whose factor is y, then by the first two sums
///
///   u + v = s0
///   x·u + y·v = s1
///
/// x times the first equation, taken off the second, leaves (y + x)·v = s1 + x·s0,
/// since sum and difference are the same in this field. x and y differ.
fn with_two_changed(word: &[u8], r: u8) -> Option<Mended> {
    let sums = check_sums(word, r);
    let factors = factors_at_a(word.len());
    for place in 0..word.len() {
        let x = factors[place];
        let right_hand_side = sums[1] ^ field_product(x, sums[0]);
        for other in place + 1..word.len() {
            let y = factors[other];
            let v = field_product(right_hand_side, inverse(y ^ x));
            let u = sums[0] ^ v;
            // The third sum alone turns nearly all pairs away.
            let third =
                field_product(u, field_product(x, x)) ^ field_product(v, field_product(y, y));
            if third == sums[2] {
                let found = if_all_sums_are_0(word, r, &[(place, u), (other, v)]);
                if found.is_some() {
                    return found;
                }
            }
        }
    }
    None
}

/// The word after these changes, a place and what is XORed there, if all its R check
/// sums are 0.
fn if_all_sums_are_0(word: &[u8], r: u8, changes: &[(usize, u8)]) -> Option<Mended> {
    let mut changed = word.to_vec();
    for &(place, value) in changes {
        changed[place] ^= value;
    }
    if check_sums(&changed, r) != [0; 4] {
        return None;
    }
    let bytes = differing_bytes(&changed, word);
    Some(Mended {
        word: changed,
        bytes,
    })
}

/// In how many places two words of one length differ.
pub fn differing_bytes(word: &[u8], other: &[u8]) -> usize {
    assert_eq!(word.len(), other.len());
    word.iter().zip(other).filter(|(a, b)| a != b).count()
}

/// For each place the power of a that a byte there is multiplied by in the second
/// check sum: "first byte the highest coefficient", the last one a^0 = 1. They all
/// differ, as 2 has 255 powers.
fn factors_at_a(length: usize) -> Vec<u8> {
    let mut factors = vec![1; length];
    for place in (1..length).rev() {
        factors[place - 1] = field_product(factors[place], 2);
    }
    factors
}

/// The inverse out of a list that is made once, as a search asks for many.
fn inverse(a: u8) -> u8 {
    static INVERSES: OnceLock<[u8; 256]> = OnceLock::new();
    let list = INVERSES.get_or_init(|| {
        array::from_fn(|a| match a {
            0 => 0,
            _ => field_inverse(a as u8),
        })
    });
    assert_ne!(a, 0, "0 has no inverse");
    list[usize::from(a)]
}

// ---------------------------------------------------------------- by brute force

/// All words with all check sums 0 that differ from this one in at most R/2 bytes,
/// found by trying every value in every place. It knows nothing of how a wrong byte
/// shows in the sums, and is for tests: a word of 9 bytes takes 2,343,196 tries with
/// R = 4.
pub fn all_words_nearby(word: &[u8], r: u8) -> Vec<Mended> {
    let mut found = Vec::new();
    try_all(&mut word.to_vec(), r, 0, 0, &mut found);
    found
}

/// Tries the word as it is, after `changed` changes, and then with more of them from
/// the place `from` on.
fn try_all(word: &mut Vec<u8>, r: u8, from: usize, changed: u8, found: &mut Vec<Mended>) {
    // The XOR of all bytes is the first sum, and quick to ask.
    if word.iter().fold(0, |xor, byte| xor ^ byte) == 0 && check_sums(word, r) == [0; 4] {
        found.push(Mended {
            word: word.clone(),
            bytes: changed.into(),
        });
    }
    if changed == r / 2 {
        return;
    }
    for place in from..word.len() {
        let before = word[place];
        for value in (0..=255).filter(|&value| value != before) {
            word[place] = value;
            try_all(word, r, place + 1, changed + 1, found);
        }
        word[place] = before;
    }
}

#[cfg(test)]
mod tests {
    use super::*;
    use crate::check_bytes_letters_screen::{check_bytes, polynomial_at, strand_bytes};

    /// Document 01: "Seed 1 of Q: hex 00000001 E4 36 D3".
    const SEED_1: [u8; 7] = [0x00, 0x00, 0x00, 0x01, 0xE4, 0x36, 0xD3];

    /// Numbers without a pattern, below any number.
    struct Numbers(u32);

    impl Numbers {
        fn below(&mut self, end: usize) -> usize {
            self.0 = self.0.wrapping_mul(1_664_525).wrapping_add(1_013_904_223);
            (self.0 >> 8) as usize % end
        }

        fn bytes(&mut self, length: usize) -> Vec<u8> {
            (0..length).map(|_| self.below(256) as u8).collect()
        }

        fn not_0(&mut self) -> u8 {
            1 + self.below(255) as u8
        }

        /// As many different places of a word.
        fn places(&mut self, count: usize, length: usize) -> Vec<usize> {
            let mut places = Vec::new();
            while places.len() < count {
                let place = self.below(length);
                if !places.contains(&place) {
                    places.push(place);
                }
            }
            places
        }

        /// A word with all check sums 0.
        fn code_word(&mut self, l: usize, r: u8) -> Vec<u8> {
            let seed = (self.below(1 << 16) as u32) << 16 | self.below(1 << 16) as u32;
            strand_bytes(seed, &self.bytes(l), r)
        }

        /// The word with as many wrong bytes.
        fn misread(&mut self, word: &[u8], wrong: usize) -> Vec<u8> {
            let mut read = word.to_vec();
            for place in self.places(wrong, word.len()) {
                read[place] ^= self.not_0();
            }
            read
        }
    }

    fn mended(word: &[u8], bytes: usize) -> Option<Mended> {
        Some(Mended {
            word: word.to_vec(),
            bytes,
        })
    }

    /// The one word that trying everything finds, or none: never two.
    fn by_brute_force(word: &[u8], r: u8) -> Option<Mended> {
        let mut found = all_words_nearby(word, r);
        assert!(found.len() <= 1, "{word:?} R = {r}: {found:?}");
        found.pop()
    }

    #[test]
    fn a_word_with_check_sums_0_stays() {
        assert_eq!(mend(&SEED_1, 2), mended(&SEED_1, 0));
        assert_eq!(mend(&[0; 7], 2), mended(&[0; 7], 0));
        let numbers = &mut Numbers(1);
        for l in 1..=64 {
            for r in [2, 4] {
                let word = numbers.code_word(l, r);
                assert_eq!(mend(&word, r), mended(&word, 0));
            }
        }
    }

    /// Every wrong value in every place, seed and check bytes included.
    #[test]
    fn one_wrong_byte_of_the_bench_strand() {
        for place in 0..7 {
            for value in 1..=255 {
                let mut read = SEED_1;
                read[place] ^= value;
                assert_eq!(mend(&read, 2), mended(&SEED_1, 1), "{place} {value}");
                assert_eq!(by_brute_force(&read, 2), mended(&SEED_1, 1));
            }
        }
    }

    /// One wrong byte in strands of all lengths, and in those of R = 4 two.
    #[test]
    fn wrong_bytes_in_strands_of_all_lengths() {
        let numbers = &mut Numbers(2);
        for l in 1..=64 {
            for r in [2u8, 4] {
                for wrong in 1..=usize::from(r / 2) {
                    for _ in 0..20 {
                        let word = numbers.code_word(l, r);
                        let read = numbers.misread(&word, wrong);
                        assert_eq!(mend(&read, r), mended(&word, wrong), "{read:?} {word:?}");
                    }
                }
            }
        }
    }

    /// Two wrong bytes in every pair of places, of the same value and of others.
    #[test]
    fn two_wrong_bytes_in_every_pair_of_places() {
        let numbers = &mut Numbers(3);
        for l in [1, 2, 64] {
            let word = numbers.code_word(l, 4);
            for place in 0..word.len() {
                for other in 0..place {
                    let (u, v) = (numbers.not_0(), numbers.not_0());
                    for (u, v) in [(u, v), (u, u), (1, 1), (255, 255), (1, 255)] {
                        let mut read = word.clone();
                        read[place] ^= u;
                        read[other] ^= v;
                        assert_eq!(mend(&read, 4), mended(&word, 2), "{place} {other}");
                    }
                }
            }
        }
    }

    /// With R = 2: words of any bytes, and words of one and two wrong bytes. Some of
    /// two wrong bytes become another word than the one that they were made of.
    #[test]
    fn agrees_with_brute_force_for_two_check_bytes() {
        let numbers = &mut Numbers(4);
        let (mut none, mut another) = (0, 0);
        for l in [1, 2, 3, 5, 8, 16, 33, 64] {
            for _ in 0..40 {
                let word = numbers.code_word(l, 2);
                for wrong in 0..=2 {
                    let read = numbers.misread(&word, wrong);
                    let found = by_brute_force(&read, 2);
                    assert_eq!(mend(&read, 2), found, "{read:?}");
                    match found {
                        None => none += 1,
                        Some(other) if other.word != word => another += 1,
                        Some(_) => (),
                    }
                }
                let any = numbers.bytes(6 + l);
                assert_eq!(mend(&any, 2), by_brute_force(&any, 2), "{any:?}");
            }
        }
        assert!(none > 10 && another > 10, "{none} {another}");
    }

    /// With R = 4: short words of any bytes, and words of up to four wrong bytes.
    #[test]
    fn agrees_with_brute_force_for_four_check_bytes() {
        let numbers = &mut Numbers(5);
        for turn in 0..40 {
            let word = numbers.code_word(1, 4);
            let read = numbers.misread(&word, turn % 5);
            assert_eq!(mend(&read, 4), by_brute_force(&read, 4), "{read:?}");
            let any = numbers.bytes(5 + turn % 5);
            assert_eq!(mend(&any, 4), by_brute_force(&any, 4), "{any:?}");
        }
    }

    /// A read that is two bytes from one word and one from another becomes the other;
    /// with R = 4, three from the one and two from the other. Two such words are R + 1
    /// bytes apart: the generator polynomial times anything stands between them.
    #[test]
    fn the_nearer_of_two_words() {
        let numbers = &mut Numbers(6);
        for (r, generator) in [(2, &[1, 3, 2][..]), (4, &[1, 15, 54, 120, 64])] {
            for l in [1, 7, 64] {
                let word = numbers.code_word(l, r);
                let first = numbers.below(4 + l);
                let times = numbers.not_0();
                let mut other = word.clone();
                for (i, &coefficient) in generator.iter().enumerate() {
                    other[first + i] ^= field_product(times, coefficient);
                }
                let half = usize::from(r / 2);
                assert_eq!(differing_bytes(&word, &other), 2 * half + 1);
                for gone in 0..=2 * half + 1 {
                    let mut read = word.clone();
                    read[first..first + gone].copy_from_slice(&other[first..first + gone]);
                    let expected = if gone <= half {
                        mended(&word, gone)
                    } else {
                        mended(&other, 2 * half + 1 - gone)
                    };
                    assert_eq!(mend(&read, r), expected);
                }
            }
        }
    }

    /// A wrong byte whose place would be before the first one. The sums of seven bytes
    /// 55 are 55 and 55 times 1 + 2 + .. + 2^6, which is 7F. One wrong byte would have
    /// 7F as its factor, and the factors of the seven places are 1, 2, .. 40 (hex).
    #[test]
    fn the_place_would_be_outside_the_word() {
        assert_eq!(factors_at_a(7), [0x40, 0x20, 0x10, 8, 4, 2, 1]);
        let sums = check_sums(&[0x55; 7], 2);
        assert_eq!(sums, [0x55, field_product(0x55, 0x7F), 0, 0]);
        assert_eq!(mend(&[0x55; 7], 2), None);
        assert_eq!(by_brute_force(&[0x55; 7], 2), None);
    }

    /// What a wrong byte leaves in the last R bytes of a longer word, `behind` of whose
    /// bytes stand behind it: bytes that have the same check sums.
    fn left_by(value: u8, behind: usize, r: usize) -> Vec<u8> {
        let mut message = vec![value];
        message.extend(vec![0; behind - r]);
        check_bytes(&message, r)
    }

    /// Words whose sums are those of one wrong byte outside of them, at any of the
    /// places that a word of 255 bytes would have there; with R = 4 also of two, one of
    /// which may be inside.
    #[test]
    fn wrong_bytes_outside_the_word() {
        let numbers = &mut Numbers(7);
        for r in [2u8, 4] {
            let word = numbers.code_word(1, r);
            let length = word.len();
            let with = |left: &[u8]| {
                let mut read = word.clone();
                for (byte, change) in read[5..].iter_mut().zip(left) {
                    *byte ^= change;
                }
                read
            };
            for behind in length..255 {
                let left = left_by(numbers.not_0(), behind, r.into());
                let read = with(&left);
                assert_eq!(mend(&read, r), None, "{behind}");
                if r == 2 || behind % 60 == 0 {
                    assert_eq!(by_brute_force(&read, r), None, "{behind}");
                }
                if r == 4 {
                    let mut one_in = read.clone();
                    one_in[numbers.below(length)] ^= numbers.not_0();
                    assert_eq!(mend(&one_in, r), None, "{behind}");
                    let other = length + (behind + 1 + numbers.below(200)) % (255 - length);
                    if other != behind {
                        let second = left_by(numbers.not_0(), other, 4);
                        let both: Vec<u8> = left.iter().zip(&second).map(|(a, b)| a ^ b).collect();
                        assert_eq!(mend(&with(&both), r), None, "{behind} {other}");
                    }
                }
            }
        }
    }

    /// With R = 4, the first three sums of one wrong byte and another fourth one: there
    /// is no such word, though three of the sums agree on a place.
    #[test]
    fn all_four_sums_are_asked() {
        // (x + 1)(x + 2)(x + 4), which is 0 at the first three roots.
        let zero_at_three = [1, 7, 14, 8];
        for root in [1, 2, 4] {
            assert_eq!(polynomial_at(&zero_at_three, root), 0);
        }
        let numbers = &mut Numbers(8);
        for _ in 0..20 {
            let word = numbers.code_word(1, 4);
            let mut read = numbers.misread(&word, 1);
            let first = numbers.below(6);
            let times = numbers.not_0();
            for (i, &coefficient) in zero_at_three.iter().enumerate() {
                read[first + i] ^= field_product(times, coefficient);
            }
            assert_eq!(mend(&read, 4), None, "{read:?}");
            assert_eq!(by_brute_force(&read, 4), None, "{read:?}");
        }
    }

    #[test]
    fn inverses_of_the_list() {
        for a in 1..=255 {
            assert_eq!(field_product(a, inverse(a)), 1);
        }
    }
}
