//! Section "Check bytes, letters, screen", with the read check and its C form,
//! Item 1 of document 02, "Runs over the joints", and what Item 12, "Why strands
//! were dropped", says of the screen and Item 3, "Mending misread bytes", of the
//! read check.

use crate::mending::mend;
use crate::pool_card::{number_of_bytes, Handed};
use crate::questions::{
    ask, question_10, question_11, question_12, question_13, question_16_c_form, question_9,
    Refusal,
};
use std::ops::Range;

// ---------------------------------------------------------------- the field

/// "Field: 256 elements, polynomial hex 11D": the product of two elements, as
/// polynomials over one bit, with multiples of the polynomial taken off.
pub fn field_product(a: u8, b: u8) -> u8 {
    let mut product: u32 = 0;
    for bit in 0..8 {
        if (b >> bit) & 1 == 1 {
            product ^= u32::from(a) << bit;
        }
    }
    for bit in (8..15).rev() {
        if (product >> bit) & 1 == 1 {
            product ^= 0x11D << (bit - 8);
        }
    }
    product as u8
}

/// a multiplied with itself `exponent` times, a^0 being 1.
pub fn field_power(a: u8, exponent: usize) -> u8 {
    let mut power = 1;
    for _ in 0..exponent {
        power = field_product(power, a);
    }
    power
}

/// The element whose product with a is 1, found by trying all. Needs a not 0.
pub fn field_inverse(a: u8) -> u8 {
    (1..=255)
        .find(|&b| field_product(a, b) == 1)
        .expect("0 has no inverse")
}

/// "root a = 2"
const ROOT: u8 = 2;

// ---------------------------------------------------------------- check bytes

/// The value of a polynomial, "first byte the highest coefficient".
pub fn polynomial_at(coefficients: &[u8], place: u8) -> u8 {
    let mut value = 0;
    for &coefficient in coefficients {
        value = field_product(value, place) ^ coefficient;
    }
    value
}

/// The results at a^0 .. a^(r-1), for any number of them.
pub fn polynomial_at_roots(coefficients: &[u8], r: usize) -> Vec<u8> {
    (0..r)
        .map(|i| polynomial_at(coefficients, field_power(ROOT, i)))
        .collect()
}

/// "These R results are the check sums of a received strand; they travel as
/// four bytes, those past R being 0." Needs R at most 4.
pub fn check_sums(strand_bytes: &[u8], r: u8) -> [u8; 4] {
    let mut sums = [0; 4];
    for (i, sum) in polynomial_at_roots(strand_bytes, usize::from(r))
        .into_iter()
        .enumerate()
    {
        sums[i] = sum;
    }
    sums
}

/// "Seed (...), payload and R check bytes, first byte the highest coefficient,
/// form a polynomial that is 0 at a^0 .. a^(R-1)."
///
/// The check bytes are found as the unknowns of these R equations. With check
/// bytes c_0 .. c_(R-1), the equation at x = a^i is
///
///   c_0·x^(R-1) + c_1·x^(R-2) + .. + c_(R-1) = value at x of the message
///                                             followed by R zero bytes
///
/// since sum and difference are the same in this field. The equations are
/// solved by elimination. For any number r of check bytes.
pub fn check_bytes(message: &[u8], r: usize) -> Vec<u8> {
    let mut message_and_zeros = message.to_vec();
    message_and_zeros.extend(vec![0; r]);

    // Row i: the R factors at a^i, then the right-hand side.
    let mut rows: Vec<Vec<u8>> = Vec::new();
    for i in 0..r {
        let x = field_power(ROOT, i);
        let mut row: Vec<u8> = (0..r).map(|c| field_power(x, r - 1 - c)).collect();
        row.push(polynomial_at(&message_and_zeros, x));
        rows.push(row);
    }

    for column in 0..r {
        // Bring a row with a factor other than 0 in this column into place.
        let with_factor = (column..r)
            .find(|&i| rows[i][column] != 0)
            .expect("the roots differ, so the equations have one solution");
        rows.swap(column, with_factor);
        // Make that factor 1.
        let inverse = field_inverse(rows[column][column]);
        for entry in &mut rows[column] {
            *entry = field_product(*entry, inverse);
        }
        // Take the column out of every other row.
        let taken = rows[column].clone();
        for (i, row) in rows.iter_mut().enumerate() {
            if i != column {
                let factor = row[column];
                for (entry, &t) in row.iter_mut().zip(&taken) {
                    *entry ^= field_product(factor, t);
                }
            }
        }
    }

    rows.iter().map(|row| row[r]).collect()
}

/// "Seed (four bytes, most significant first, on the shelf too), payload and R
/// check bytes": the bytes of a strand.
pub fn strand_bytes(seed: u32, payload: &[u8], r: u8) -> Vec<u8> {
    let mut bytes = seed.to_be_bytes().to_vec();
    bytes.extend_from_slice(payload);
    let check = check_bytes(&bytes, usize::from(r));
    bytes.extend_from_slice(&check);
    bytes
}

// ---------------------------------------------------------------- letters

/// "00 is A, 01 C, 10 G, 11 T (document 001)."
pub fn letter_of_pair(pair: u8) -> u8 {
    match pair {
        0b00 => b'A',
        0b01 => b'C',
        0b10 => b'G',
        0b11 => b'T',
        _ => panic!("two bits are at most 3"),
    }
}

/// The same the other way. "Any other letter, N and small letters included, is
/// refused."
pub fn pair_of_letter(letter: u8) -> Option<u8> {
    match letter {
        b'A' => Some(0b00),
        b'C' => Some(0b01),
        b'G' => Some(0b10),
        b'T' => Some(0b11),
        _ => None,
    }
}

/// "Two bits are one base, highest pair first": the four letters of a byte.
pub fn letters_of_byte(byte: u8) -> [u8; 4] {
    [
        letter_of_pair(byte / 64),
        letter_of_pair(byte / 16 % 4),
        letter_of_pair(byte / 4 % 4),
        letter_of_pair(byte % 4),
    ]
}

/// The letters of a strand.
pub fn letters_of_bytes(bytes: &[u8]) -> Vec<u8> {
    bytes
        .iter()
        .flat_map(|&byte| letters_of_byte(byte))
        .collect()
}

/// The bytes that letters spell: "four bases are one byte". Nothing if one of
/// them is no base, or if letters are left over.
pub fn bytes_of_letters(letters: &[u8]) -> Option<Vec<u8>> {
    if letters.len() % 4 != 0 {
        return None;
    }
    let mut bytes = Vec::new();
    for four in letters.chunks_exact(4) {
        let mut byte = 0;
        for &letter in four {
            byte = byte * 4 + pair_of_letter(letter)?;
        }
        bytes.push(byte);
    }
    Some(bytes)
}

// ---------------------------------------------------------------- screen

/// Document 02, Item 1: "The order that goes to synthesis adds annealing sites:
/// GTTTCAGAGTTCTACAGTCCGACGATC before the strand"
pub const SITE_BEFORE: &[u8; 27] = b"GTTTCAGAGTTCTACAGTCCGACGATC";

/// "and TGGAATTCTCGGGTGCCAAGG after it"
pub const SITE_AFTER: &[u8; 21] = b"TGGAATTCTCGGGTGCCAAGG";

/// "The order that goes to synthesis": the letters of site, strand and site.
pub fn order(strand: &[u8]) -> Vec<u8> {
    [SITE_BEFORE, strand, SITE_AFTER].concat()
}

/// All runs of one letter, each as long as it gets, as the places they take.
pub fn runs(letters: &[u8]) -> Vec<Range<usize>> {
    let mut runs = Vec::new();
    let mut start = 0;
    for end in 1..=letters.len() {
        if end == letters.len() || letters[end] != letters[start] {
            runs.push(start..end);
            start = end;
        }
    }
    runs
}

/// Document 02, Item 1: "From now on a run counts if at least one of its bases
/// belongs to the strand, and it is counted through the sites." The length of
/// the longest run that counts, 0 if none does.
pub fn longest_run(strand: &[u8]) -> usize {
    let of_the_strand = SITE_BEFORE.len()..SITE_BEFORE.len() + strand.len();
    runs(&order(strand))
        .into_iter()
        .filter(|run| run.clone().any(|place| of_the_strand.contains(&place)))
        .map(|run| run.len())
        .max()
        .unwrap_or(0)
}

/// "where g counts C and G over the n bases"
pub fn count_gc(letters: &[u8]) -> usize {
    letters
        .iter()
        .filter(|&&letter| letter == b'C' || letter == b'G')
        .count()
}

/// "How many of a byte's four bases are C or G is kept in a table of 256
/// entries." The table's entries, counted from the letters.
pub fn gc_table() -> [u8; 256] {
    let mut table = [0; 256];
    for (byte, entry) in table.iter_mut().enumerate() {
        *entry = count_gc(&letters_of_byte(byte as u8)) as u8;
    }
    table
}

/// Document 02, Item 12: "The screen now answers with the longest run and the C
/// and G count instead of yes or no".
#[derive(Clone, Copy, Debug, PartialEq, Eq)]
pub struct Measure {
    /// Counted as `longest_run` says, through the sites.
    pub longest_run: usize,
    /// "The GC rule still covers only the strand's n bases."
    pub gc: usize,
}

/// The screen. It knows no limits; what it answers is the same for every card.
pub fn screen(strand: &[u8]) -> Measure {
    Measure {
        longest_run: longest_run(strand),
        gc: count_gc(strand),
    }
}

/// What comes of a strand. Document 02, Item 12: "strands dropped for a run, and
/// strands dropped for GC alone".
#[derive(Clone, Copy, Debug, PartialEq, Eq)]
pub enum Outcome {
    Passes,
    /// Its longest run is over m, whatever its C and G count is.
    DroppedForRun,
    /// Its longest run is within m, so that C and G are its only fault.
    DroppedForGcAlone,
}

/// "and its callers compare": the one comparison of both callers, since "Writer
/// and read check use the same rule" (document 02, Item 1). The rule is "The
/// screen passes if no run of one base is longer than m and lo·n ≤ 1000·g ≤
/// hi·n, where g counts C and G over the n bases."
///
/// The run comes first: a strand with both faults is not one of "GC alone".
pub fn compare(measure: Measure, n_bases: usize, m: u8, lo: u16, hi: u16) -> Outcome {
    if measure.longest_run > usize::from(m) {
        return Outcome::DroppedForRun;
    }
    let g = measure.gc;
    if usize::from(lo) * n_bases <= 1000 * g && 1000 * g <= usize::from(hi) * n_bases {
        Outcome::Passes
    } else {
        Outcome::DroppedForGcAlone
    }
}

// ---------------------------------------------------------------- read check

/// What an accepted read gives back. "A read check's payload is 64 bytes, those
/// past L being 0."
///
/// Document 02, Item 3: "its seed and payload come back", those of the legal strand
/// that the read is within R/2 bytes of, and "The answer gives the number of bytes
/// mended".
#[derive(Clone, Copy, Debug, PartialEq, Eq)]
pub struct Droplet {
    pub seed: u32,
    pub payload: [u8; 64],
    /// 0 for a read that is the strand itself, else 1 or 2.
    pub mended: usize,
}

/// Questions 9 to 13 in their order: "A string is a legal strand if questions 9
/// to 13, as they are written below, all say yes of it."
///
/// Document 02, Item 3: "A read of n legal letters becomes the word with all check
/// sums 0 that differs from it in at most R/2 bytes". So 9 and 10 are asked of the
/// read as it is, 11 is whether there is such a word, and 12 and 13 are asked of it.
///
/// Needs questions 2 to 4 and 27 to have said yes.
pub(crate) fn questions_9_to_13(handed: &Handed, read: &[u8]) -> Result<Droplet, Refusal> {
    ask(question_9(read.len(), handed.n_bases()), 9)?;
    ask(question_10(read), 10)?;
    let bytes = bytes_of_letters(read).expect("4 times (4 + L + R) letters, all of A, C, G, T");
    let mended = mend(&bytes, handed.r);
    ask(question_11(&mended), 11)?;
    let mended = mended.expect("question 11 said yes");
    let seed = number_of_bytes(&mended.word[0..4]);
    ask(question_12(seed), 12)?;
    let measure = screen(&letters_of_bytes(&mended.word));
    let outcome = compare(measure, handed.n_bases(), handed.m, handed.lo, handed.hi);
    ask(question_13(outcome), 13)?;

    let l = usize::from(handed.l);
    let mut payload = [0; 64];
    payload[..l].copy_from_slice(&mended.word[4..4 + l]);
    Ok(Droplet {
        seed,
        payload,
        mended: mended.bytes,
    })
}

/// "Every other call has 2 to 4 first, then its own, in the order shown." and
/// "Read check: n letters? 9. All of A, C, G, T? 10. Check sums all 0? 11. Seed
/// not 0? 12. Screen passed? 13.", 11 to 13 as document 02, Item 3, has them.
pub fn read_check(handed: &Handed, read: &[u8]) -> Result<Droplet, Refusal> {
    handed.card_questions()?;
    questions_9_to_13(handed, read)
}

/// "The read check's C form takes the same inputs and a lent buffer. For an
/// accepted read it writes the seed and the L payload bytes into the buffer's
/// first 4 + L bytes, leaves the others as they were and returns 0. Otherwise
/// it returns the refusal number." and "Then, in the C form alone: buffer at
/// least 4 + L bytes? 16"
///
/// Document 02, Item 3: "the C form still returns 0" for a mended read; seed and
/// payload are those of the mended strand, and the number of bytes is not handed
/// out.
///
/// The seed's four bytes stand most significant first. This renders the rules
/// over slices; it is not itself callable from C.
pub fn read_check_c_form(handed: &Handed, read: &[u8], buffer: &mut [u8]) -> u32 {
    let droplet = match read_check(handed, read) {
        Ok(droplet) => droplet,
        Err(Refusal(number)) => return u32::from(number),
    };
    if let Err(Refusal(number)) = ask(question_16_c_form(buffer.len(), handed.l), 16) {
        return u32::from(number);
    }
    let l = usize::from(handed.l);
    buffer[0..4].copy_from_slice(&droplet.seed.to_be_bytes());
    buffer[4..4 + l].copy_from_slice(&droplet.payload[..l]);
    0
}

#[cfg(test)]
mod tests {
    use super::*;
    use crate::mending::{all_words_nearby, Mended};

    const P_WEIGHTS: [u8; 8] = [0, 0, 0, 1, 0, 0, 0, 1];
    const P: Handed = Handed {
        f: 4,
        l: 1,
        r: 2,
        m: 15,
        lo: 214,
        hi: 1000,
        dealt: false,
        width: 0,
        weights: &P_WEIGHTS,
    };
    const SEED_1: &[u8; 28] = b"AAAAAAAAAAAAAAACTGCAATCGTCAT";

    // ------------------------------------------------------------ field

    /// An independent product: by adding exponents of the root.
    fn product_by_powers(a: u8, b: u8) -> u8 {
        if a == 0 || b == 0 {
            return 0;
        }
        let mut powers = Vec::new();
        let mut x: u16 = 1;
        for _ in 0..255 {
            powers.push(x as u8);
            x <<= 1;
            if x > 255 {
                x ^= 0x11D;
            }
        }
        let log = |v: u8| powers.iter().position(|&p| p == v).unwrap();
        powers[(log(a) + log(b)) % 255]
    }

    #[test]
    fn products_agree_with_powers_of_the_root() {
        for a in 0..=255 {
            for b in (0..=255).step_by(7) {
                assert_eq!(field_product(a, b), product_by_powers(a, b), "{a} {b}");
            }
        }
    }

    /// Powers of 2 in this field as printed in QR code tables: 2^8 = 29,
    /// 2^25 = 3, 2^254 = 142, 2^255 = 1.
    #[test]
    fn published_powers_of_2() {
        assert_eq!(field_power(2, 8), 29);
        assert_eq!(field_power(2, 25), 3);
        assert_eq!(field_power(2, 254), 142);
        assert_eq!(field_power(2, 255), 1);
        let mut all: Vec<u8> = (0..255).map(|e| field_power(2, e)).collect();
        all.sort();
        assert_eq!(all, (1..=255).collect::<Vec<u8>>());
    }

    #[test]
    fn inverses() {
        for a in 1..=255 {
            assert_eq!(field_product(a, field_inverse(a)), 1);
            assert_eq!(field_inverse(a), field_power(a, 254));
        }
    }

    // ------------------------------------------------------------ Reed-Solomon

    /// The product of two polynomials, first byte the highest coefficient.
    fn polynomial_product(p: &[u8], q: &[u8]) -> Vec<u8> {
        let mut product = vec![0; p.len() + q.len() - 1];
        for (i, &a) in p.iter().enumerate() {
            for (j, &b) in q.iter().enumerate() {
                product[i + j] ^= field_product(a, b);
            }
        }
        product
    }

    /// (x - a^0)(x - a^1) .. (x - a^(r-1))
    fn generator_polynomial(r: usize) -> Vec<u8> {
        (0..r).fold(vec![1], |g, i| {
            polynomial_product(&g, &[1, field_power(2, i)])
        })
    }

    /// The second route to the check bytes: the remainder of the message times
    /// x^r after division by the generator polynomial.
    fn remainder_check_bytes(message: &[u8], r: usize) -> Vec<u8> {
        let generator = generator_polynomial(r);
        let mut rest = message.to_vec();
        rest.extend(vec![0; r]);
        for i in 0..message.len() {
            let factor = rest[i];
            for (j, &g) in generator.iter().enumerate() {
                rest[i + j] ^= field_product(factor, g);
            }
        }
        rest[message.len()..].to_vec()
    }

    /// Published generator polynomials for polynomial 11D with first root a^0.
    #[test]
    fn published_generator_polynomials() {
        assert_eq!(generator_polynomial(2), [1, 3, 2]);
        assert_eq!(generator_polynomial(4), [1, 15, 54, 120, 64]);
        // The check bytes of the message 01 are the generator polynomial
        // without its first coefficient.
        assert_eq!(check_bytes(&[1], 2), [3, 2]);
        assert_eq!(check_bytes(&[1], 4), [15, 54, 120, 64]);
    }

    /// Bench example: "R=2: message 01 has check bytes 03 02; message 01 00 has
    /// 07 06."
    #[test]
    fn bench_check_bytes() {
        assert_eq!(check_bytes(&[0x01], 2), [0x03, 0x02]);
        assert_eq!(check_bytes(&[0x01, 0x00], 2), [0x07, 0x06]);
    }

    /// "Reed-Solomon codes for coders" (Wikiversity), section on encoding:
    /// message 12 34 56, four check bytes 37 E6 78 D9. Same field, same roots
    /// a^0 .. a^3.
    #[test]
    fn published_four_check_bytes() {
        assert_eq!(
            check_bytes(&[0x12, 0x34, 0x56], 4),
            [0x37, 0xE6, 0x78, 0xD9]
        );
    }

    /// QR codes use the same field and roots from a^0 on, with more check bytes.
    #[test]
    fn published_qr_code_vectors() {
        // ISO/IEC 18004, annex with the encoding example "01234567", version
        // 1-M: ten check bytes.
        assert_eq!(
            check_bytes(
                &[
                    0x10, 0x20, 0x0C, 0x56, 0x61, 0x80, 0xEC, 0x11, 0xEC, 0x11, 0xEC, 0x11, 0xEC,
                    0x11, 0xEC, 0x11
                ],
                10
            ),
            [0xA5, 0x24, 0xD4, 0xC1, 0xED, 0x36, 0xC7, 0x87, 0x2C, 0x55]
        );
        // The same annex, Micro QR version M2-L: five check bytes.
        assert_eq!(
            check_bytes(&[0x40, 0x18, 0xAC, 0xC3, 0x00], 5),
            [0x86, 0x0D, 0x22, 0xAE, 0x30]
        );
        // Thonky QR code tutorial, "HELLO WORLD" version 1-M: ten check bytes.
        assert_eq!(
            check_bytes(
                &[32, 91, 11, 120, 209, 114, 220, 77, 67, 64, 236, 17, 236, 17, 236, 17],
                10
            ),
            [196, 35, 39, 119, 235, 215, 231, 226, 93, 23]
        );
        // "Reed-Solomon codes for coders" (Wikiversity): ten check bytes.
        assert_eq!(
            check_bytes(
                &[
                    0x40, 0xD2, 0x75, 0x47, 0x76, 0x17, 0x32, 0x06, 0x27, 0x26, 0x96, 0xC6, 0xC6,
                    0x96, 0x70, 0xEC
                ],
                10
            ),
            [0xBC, 0x2A, 0x90, 0x13, 0x6B, 0xAF, 0xEF, 0xFD, 0x4B, 0xE0]
        );
    }

    /// Solving the equations and dividing by the generator polynomial agree,
    /// and the strand's check sums are 0.
    #[test]
    fn both_routes_to_the_check_bytes_agree() {
        let mut x = 12345u32;
        for length in 0..=68 {
            for _ in 0..20 {
                let message: Vec<u8> = (0..length)
                    .map(|_| {
                        x = x.wrapping_mul(1_664_525).wrapping_add(1_013_904_223);
                        (x >> 24) as u8
                    })
                    .collect();
                for r in [2u8, 4] {
                    let check = check_bytes(&message, usize::from(r));
                    assert_eq!(check, remainder_check_bytes(&message, usize::from(r)));
                    let mut strand = message.clone();
                    strand.extend_from_slice(&check);
                    assert_eq!(check_sums(&strand, r), [0; 4]);
                }
            }
        }
    }

    /// The value at a place, as a sum of coefficient times power.
    #[test]
    fn polynomial_value_by_powers() {
        let p = [7, 0, 200, 13, 255, 1];
        for place in 0..=255 {
            let mut sum = 0;
            for (i, &c) in p.iter().enumerate() {
                sum ^= field_product(c, field_power(place, p.len() - 1 - i));
            }
            assert_eq!(polynomial_at(&p, place), sum);
        }
    }

    /// "those past R being 0"
    #[test]
    fn check_sums_past_r_are_0() {
        let sums = check_sums(&[1, 2, 3, 4, 5, 6, 9], 2);
        assert_ne!(sums[0], 0);
        assert_ne!(sums[1], 0);
        assert_eq!(&sums[2..], [0, 0]);
        // At a^0 the value is the XOR of all bytes.
        assert_eq!(sums[0], 1 ^ 2 ^ 3 ^ 4 ^ 5 ^ 6 ^ 9);
        let four = check_sums(&[1, 2, 3, 4, 5, 6, 9], 4);
        assert_eq!(four[..2], sums[..2]);
        assert_ne!(four[2], 0);
    }

    // ------------------------------------------------------------ letters

    #[test]
    fn letters_highest_pair_first() {
        assert_eq!(&letters_of_byte(0b00_01_10_11), b"ACGT");
        assert_eq!(&letters_of_byte(0xE4), b"TGCA");
        for byte in 0..=255u8 {
            assert_eq!(bytes_of_letters(&letters_of_byte(byte)), Some(vec![byte]));
        }
        for letter in 0..=255u8 {
            assert_eq!(pair_of_letter(letter).is_some(), b"ACGT".contains(&letter));
        }
        assert_eq!(bytes_of_letters(b"ACGN"), None);
        assert_eq!(bytes_of_letters(b"acgt"), None);
        assert_eq!(bytes_of_letters(b"ACG"), None);
    }

    /// Bench example: "Seed 1 of Q: hex 00000001 E4 36 D3,
    /// AAAAAAAAAAAAAAACTGCAATCGTCAT, longest run 15, g=6."
    #[test]
    fn bench_strand_of_seed_1() {
        let bytes = strand_bytes(1, &[0xE4], 2);
        assert_eq!(bytes, [0x00, 0x00, 0x00, 0x01, 0xE4, 0x36, 0xD3]);
        let letters = letters_of_bytes(&bytes);
        assert_eq!(letters, SEED_1);
        assert_eq!(longest_run(&letters), 15);
        assert_eq!(count_gc(&letters), 6);
    }

    // ------------------------------------------------------------ screen

    /// What comes of these letters under these limits.
    fn outcome(letters: &[u8], m: u8, lo: u16, hi: u16) -> Outcome {
        compare(screen(letters), letters.len(), m, lo, hi)
    }

    fn passes(letters: &[u8], m: u8, lo: u16, hi: u16) -> bool {
        outcome(letters, m, lo, hi) == Outcome::Passes
    }

    /// Bench example: "Seed 1 of Q: .. longest run 15, g=6."
    #[test]
    fn the_screen_answers_a_measure() {
        let measure = |longest_run, gc| Measure { longest_run, gc };
        assert_eq!(screen(SEED_1), measure(15, 6));
        assert_eq!(screen(b"GTAG"), measure(1, 2));
        // Both through a joint; the site's C is not counted among C and G.
        assert_eq!(screen(b"CCCG"), measure(4, 4));
        assert_eq!(screen(b"ATTT"), measure(4, 0));
    }

    /// A strand with both faults is dropped for the run; for GC alone only one
    /// whose longest run is within m.
    #[test]
    fn why_a_strand_is_dropped() {
        use Outcome::*;
        // Longest run 15, 6 of 28 are C or G: 214.28.. thousandths.
        for (m, lo, hi, expected) in [
            (15, 214, 215, Passes),
            (15, 215, 1000, DroppedForGcAlone),
            (15, 0, 214, DroppedForGcAlone),
            (20, 215, 1000, DroppedForGcAlone),
            (14, 214, 215, DroppedForRun),
            (14, 215, 1000, DroppedForRun),
            (14, 0, 214, DroppedForRun),
            (1, 1000, 1000, DroppedForRun),
            (1, 0, 0, DroppedForRun),
        ] {
            assert_eq!(outcome(SEED_1, m, lo, hi), expected, "{m} {lo} {hi}");
        }
    }

    /// A run that only the site makes too long is a run all the same, also where
    /// C and G are outside.
    #[test]
    fn dropped_for_a_joint() {
        use Outcome::*;
        assert_eq!(outcome(b"CCCA", 3, 750, 750), DroppedForRun);
        assert_eq!(outcome(b"CCCA", 3, 0, 749), DroppedForRun);
        assert_eq!(outcome(b"CCCA", 4, 0, 749), DroppedForGcAlone);
        assert_eq!(outcome(b"GTTT", 3, 250, 250), DroppedForRun);
        assert_eq!(outcome(b"GTTT", 3, 251, 1000), DroppedForRun);
        assert_eq!(outcome(b"GTTT", 4, 251, 1000), DroppedForGcAlone);
        assert_eq!(outcome(b"GTTT", 4, 250, 1000), Passes);
    }

    /// Bench example: "It passes at m=15, lo=214; m=14 gives 13, and so does
    /// lo=215."
    #[test]
    fn bench_screen_of_seed_1() {
        assert!(passes(SEED_1, 15, 214, 1000));
        assert!(!passes(SEED_1, 14, 214, 1000));
        assert!(!passes(SEED_1, 15, 215, 1000));
        assert!(read_check(&P, SEED_1).is_ok());
        assert_eq!(read_check(&Handed { m: 14, ..P }, SEED_1), Err(Refusal(13)));
        assert_eq!(
            read_check(&Handed { lo: 215, ..P }, SEED_1),
            Err(Refusal(13))
        );
    }

    /// The upper limit is not rounded either: 6 of 28 is 214.28.. thousandths.
    #[test]
    fn upper_gc_limit() {
        assert!(passes(SEED_1, 15, 0, 215));
        assert!(!passes(SEED_1, 15, 0, 214));
        assert!(passes(b"GCGC", 1, 1000, 1000));
        assert!(!passes(b"GCGA", 1, 751, 1000));
        assert!(passes(b"GCGA", 1, 750, 750));
        assert!(passes(b"TATA", 1, 0, 0));
    }

    #[test]
    fn runs_of_the_strand() {
        assert_eq!(longest_run(b"ACCA"), 2);
        assert_eq!(longest_run(b"ACCCGGGG"), 4);
        assert_eq!(longest_run(b"TTTA"), 3);
        assert_eq!(longest_run(b"AATAA"), 2);
    }

    #[test]
    fn runs_are_as_long_as_they_get() {
        assert_eq!(runs(b""), []);
        assert_eq!(runs(b"A"), [0..1]);
        assert_eq!(runs(b"ACCCGG"), [0..1, 1..4, 4..6]);
    }

    // ------------------------------------------------------------ joints

    /// Document 02, Item 8: "48 bases longer than n, with sites as in Item 1".
    #[test]
    fn the_order_has_48_bases_more() {
        assert_eq!(SITE_BEFORE.len() + SITE_AFTER.len(), 48);
        assert_eq!(
            order(b"ACGT"),
            b"GTTTCAGAGTTCTACAGTCCGACGATCACGTTGGAATTCTCGGGTGCCAAGG"
        );
    }

    /// The first site ends in C, the second starts with T.
    #[test]
    fn one_base_and_none() {
        assert_eq!(longest_run(b""), 0);
        assert_eq!(longest_run(b"A"), 1);
        assert_eq!(longest_run(b"C"), 2);
        assert_eq!(longest_run(b"G"), 1);
        assert_eq!(longest_run(b"T"), 2);
    }

    #[test]
    fn runs_through_the_joints() {
        assert_eq!(longest_run(b"CCCG"), 4);
        assert_eq!(longest_run(b"GCCC"), 3);
        assert_eq!(longest_run(b"ATTT"), 4);
        assert_eq!(longest_run(b"TTTA"), 3);
        assert_eq!(longest_run(b"CAT"), 2);
        assert_eq!(longest_run(b"CCCCC"), 6);
        assert_eq!(longest_run(b"TTTTT"), 6);
        assert_eq!(longest_run(b"AAAAA"), 5);
    }

    /// The sites have TTT, CC, AA and GGG; none of these counts.
    #[test]
    fn runs_in_a_site_alone_do_not_count() {
        assert_eq!(longest_run(b"GTAG"), 1);
        assert!(passes(b"GTAG", 1, 500, 500));
        assert_eq!(longest_run(b"GTTAG"), 2);
    }

    /// The same from each base of the strand outwards, for all short strands.
    #[test]
    fn longest_run_by_walking_outwards() {
        for length in 0..=7u32 {
            for number in 0..4usize.pow(length) {
                let strand: Vec<u8> = (0..length)
                    .map(|i| b"ACGT"[number >> (2 * i) & 3])
                    .collect();
                let order = [&SITE_BEFORE[..], &strand, &SITE_AFTER[..]].concat();
                let around = |place: usize| {
                    let same = |other: &&u8| **other == order[place];
                    let before = order[..place].iter().rev().take_while(same).count();
                    before + order[place..].iter().take_while(same).count()
                };
                let expected = (27..27 + strand.len()).map(around).max();
                assert_eq!(longest_run(&strand), expected.unwrap_or(0), "{strand:?}");
            }
        }
    }

    /// The longest run inside the strand alone, as it was before Item 1.
    fn inside(strand: &[u8]) -> usize {
        let lengths = strand.chunk_by(|a, b| a == b).map(|run| run.len());
        lengths.max().unwrap_or(0)
    }

    /// A read under P's sizes with check sums 0 and a seed, but for the screen.
    fn find_read(is_wanted: impl Fn(&[u8]) -> bool) -> Vec<u8> {
        (1..1_000_000u32)
            .map(|i| strand_bytes(i.wrapping_mul(0x9E37_79B1), &[i as u8], 2))
            .map(|bytes| letters_of_bytes(&bytes))
            .find(|letters| is_wanted(letters))
            .expect("there is such a read")
    }

    /// P with this m, and no limits for C and G.
    fn with_m(m: u8) -> Handed<'static> {
        Handed {
            m,
            lo: 0,
            hi: 1000,
            ..P
        }
    }

    /// Document 02, Item 1: "At m=3 a strand ending in TTT is refused; one
    /// ending in ATT passes at that joint."
    #[test]
    fn strand_ending_in_ttt() {
        let fine = |read: &[u8]| inside(read) <= 3 && !read.starts_with(b"CCC");
        let refused = find_read(|read| fine(read) && read.ends_with(b"TTT"));
        assert_eq!(read_check(&with_m(3), &refused), Err(Refusal(13)));
        assert!(read_check(&with_m(4), &refused).is_ok());
        let passed = find_read(|read| fine(read) && read.ends_with(b"ATT"));
        assert!(read_check(&with_m(3), &passed).is_ok());
    }

    /// The same at the other joint, where the site ends in ATC.
    #[test]
    fn strand_starting_with_ccc() {
        let fine = |read: &[u8]| inside(read) <= 3 && !read.ends_with(b"TTT");
        let refused = find_read(|read| fine(read) && read.starts_with(b"CCC"));
        assert_eq!(read_check(&with_m(3), &refused), Err(Refusal(13)));
        assert!(read_check(&with_m(4), &refused).is_ok());
        let passed = find_read(|read| fine(read) && read.starts_with(b"CCG"));
        assert!(read_check(&with_m(3), &passed).is_ok());
        let passed = find_read(|read| fine(read) && read.starts_with(b"GCC"));
        assert!(read_check(&with_m(3), &passed).is_ok());
    }

    /// For small m: a read that is refused for one joint alone passes at m + 1.
    #[test]
    fn refused_for_one_joint_alone() {
        for m in 1..=4 {
            let many = usize::from(m);
            let (start, end) = (vec![b'C'; many], vec![b'T'; many]);
            for (at_start, at_end) in [(true, false), (false, true)] {
                let read = find_read(|read| {
                    inside(read) <= many
                        && read.starts_with(&start) == at_start
                        && read.ends_with(&end) == at_end
                });
                assert_eq!(read_check(&with_m(m), &read), Err(Refusal(13)));
                assert!(read_check(&with_m(m + 1), &read).is_ok());
            }
        }
    }

    /// The sites have TTT and GGG, and a read can pass at m = 1 and at m = 2 all
    /// the same.
    #[test]
    fn passed_between_sites_with_longer_runs() {
        let off_the_joints = |read: &[u8]| read[0] != b'C' && read[27] != b'T';
        let read = find_read(|read| inside(read) == 1 && off_the_joints(read));
        assert!(read_check(&with_m(1), &read).is_ok());
        let read = find_read(|read| inside(read) == 2 && off_the_joints(read));
        assert!(read_check(&with_m(2), &read).is_ok());
        assert_eq!(read_check(&with_m(1), &read), Err(Refusal(13)));
    }

    /// The table's entries add up to the count over the letters.
    #[test]
    fn table_agrees_with_letters() {
        let table = gc_table();
        assert_eq!(table[0x00], 0);
        assert_eq!(table[0xFF], 0);
        assert_eq!(table[0x55], 4);
        assert_eq!(table[0xAA], 4);
        assert_eq!(table[0x1B], 2);
        for byte in 0..=255u8 {
            // C and G are the pairs whose two bits differ.
            let differing = (byte ^ (byte >> 1)) & 0b0101_0101;
            assert_eq!(u32::from(table[usize::from(byte)]), differing.count_ones());
        }
    }

    // ------------------------------------------------------------ read check

    #[test]
    fn accepted_read_gives_seed_and_payload() {
        let droplet = read_check(&P, SEED_1).unwrap();
        assert_eq!(droplet.seed, 1);
        assert_eq!(droplet.payload[0], 0xE4);
        assert_eq!(droplet.payload[1..], [0; 63]);
        assert_eq!(droplet.mended, 0);
    }

    /// Bench example: "28 letters A under P: 12, since the check sums are 0."
    #[test]
    fn bench_28_letters_a() {
        assert_eq!(read_check(&P, &[b'A'; 28]), Err(Refusal(12)));
    }

    /// Bench example: "(AAAN is refused with 9.)"
    #[test]
    fn bench_aaan() {
        assert_eq!(read_check(&P, b"AAAN"), Err(Refusal(9)));
    }

    #[test]
    fn other_refusals() {
        assert_eq!(read_check(&P, b""), Err(Refusal(9)));
        assert_eq!(read_check(&P, &[b'A'; 27]), Err(Refusal(9)));
        assert_eq!(read_check(&P, &[b'A'; 29]), Err(Refusal(9)));
        for place in 0..28 {
            for other in [
                b'N', b'a', b'c', b'g', b't', b'\r', b' ', 0, 255, b'B', b'U',
            ] {
                let mut read = *SEED_1;
                read[place] = other;
                assert_eq!(read_check(&P, &read), Err(Refusal(10)));
            }
        }
        // 2 to 4 come before 9.
        assert_eq!(read_check(&Handed { r: 3, ..P }, b""), Err(Refusal(2)));
        assert_eq!(read_check(&Handed { m: 21, ..P }, b""), Err(Refusal(3)));
        assert_eq!(
            read_check(&Handed { weights: &[], ..P }, b""),
            Err(Refusal(4))
        );
        // So does 27, after 4, and only if the fourth field is there.
        let dealt = Handed { dealt: true, ..P };
        for width in [0, 1, 5, u32::MAX] {
            let wrong = Handed { width, ..dealt };
            assert_eq!(read_check(&wrong, b""), Err(Refusal(27)));
            assert_eq!(read_check(&wrong, SEED_1), Err(Refusal(27)));
            assert_eq!(read_check_c_form(&wrong, SEED_1, &mut []), 27);
            let no_weights = Handed {
                weights: &[],
                ..wrong
            };
            assert_eq!(read_check(&no_weights, b""), Err(Refusal(4)));
            assert_eq!(read_check(&Handed { width, ..P }, b""), Err(Refusal(9)));
        }
        for width in [2, 4] {
            let fine = Handed { width, ..dealt };
            assert_eq!(read_check(&fine, b""), Err(Refusal(9)));
            assert_eq!(read_check(&fine, SEED_1), read_check(&P, SEED_1));
        }
    }

    #[test]
    fn c_form_writes_the_first_4_plus_l_bytes() {
        let mut buffer = [0x77; 9];
        assert_eq!(read_check_c_form(&P, SEED_1, &mut buffer), 0);
        assert_eq!(buffer, [0, 0, 0, 1, 0xE4, 0x77, 0x77, 0x77, 0x77]);
        let mut exact = [0x77; 5];
        assert_eq!(read_check_c_form(&P, SEED_1, &mut exact), 0);
        assert_eq!(exact, [0, 0, 0, 1, 0xE4]);
    }

    #[test]
    fn c_form_refusals_keep_the_buffer_and_16_comes_last() {
        let mut buffer = [0x77; 4];
        assert_eq!(read_check_c_form(&P, SEED_1, &mut buffer), 16);
        assert_eq!(read_check_c_form(&P, SEED_1, &mut []), 16);
        assert_eq!(read_check_c_form(&P, b"AAAN", &mut buffer), 9);
        assert_eq!(read_check_c_form(&P, &[b'N'; 28], &mut buffer), 10);
        // Seven bytes 55 are not within one byte of a strand, as `mending` works out.
        assert_eq!(read_check_c_form(&P, &[b'C'; 28], &mut buffer), 11);
        assert_eq!(read_check_c_form(&P, &[b'A'; 28], &mut buffer), 12);
        let strict = Handed { m: 14, ..P };
        assert_eq!(read_check_c_form(&strict, SEED_1, &mut buffer), 13);
        assert_eq!(
            read_check_c_form(&Handed { l: 65, ..P }, SEED_1, &mut buffer),
            2
        );
        assert_eq!(
            read_check_c_form(&Handed { hi: 1001, ..P }, SEED_1, &mut buffer),
            3
        );
        assert_eq!(
            read_check_c_form(&Handed { weights: &[1], ..P }, SEED_1, &mut buffer),
            4
        );
        assert_eq!(buffer, [0x77; 4]);
    }

    /// The longest strand: L = 64, R = 4, 288 bases.
    #[test]
    fn longest_strand() {
        let handed = Handed {
            f: 64,
            l: 64,
            r: 4,
            m: 20,
            lo: 0,
            hi: 1000,
            dealt: false,
            width: 0,
            weights: &[0, 0, 0, 1],
        };
        let payload: Vec<u8> = (0..64).map(|i| (i * 37 + 11) as u8).collect();
        let letters = letters_of_bytes(&strand_bytes(0x1234_5678, &payload, 4));
        assert_eq!(letters.len(), 288);
        let droplet = read_check(&handed, &letters).unwrap();
        assert_eq!(droplet.seed, 0x1234_5678);
        assert_eq!(droplet.payload[..], payload[..]);
        let mut buffer = [0; 70];
        assert_eq!(read_check_c_form(&handed, &letters, &mut buffer), 0);
        assert_eq!(buffer[..4], [0x12, 0x34, 0x56, 0x78]);
        assert_eq!(buffer[4..68], payload[..]);
        assert_eq!(buffer[68..], [0, 0]);
    }

    // ------------------------------------------------------------ mending

    /// Documents 01 and 02 write reads in letters: this one with other letters at some
    /// places.
    fn misread(strand: &[u8], changes: &[(usize, u8)]) -> Vec<u8> {
        let mut read = strand.to_vec();
        for &(place, letter) in changes {
            assert_ne!(read[place], letter, "{place}");
            read[place] = letter;
        }
        read
    }

    /// What the read check must say of n legal letters, from all words nearby, which
    /// are found by brute force. The screen is asked of the letters of that word.
    fn by_brute_force(handed: &Handed, read: &[u8]) -> Result<Droplet, Refusal> {
        let mut found = all_words_nearby(&bytes_of_letters(read).unwrap(), handed.r);
        assert!(found.len() <= 1, "{found:?}");
        let Some(Mended { word, bytes }) = found.pop() else {
            return Err(Refusal(11));
        };
        if word[..4] == [0; 4] {
            return Err(Refusal(12));
        }
        let l = usize::from(handed.l);
        if !passes(&letters_of_bytes(&word), handed.m, handed.lo, handed.hi) {
            return Err(Refusal(13));
        }
        let mut payload = [0; 64];
        payload[..l].copy_from_slice(&word[4..4 + l]);
        Ok(Droplet {
            seed: number_of_bytes(&word[..4]),
            payload,
            mended: bytes,
        })
    }

    /// The droplet of a bench strand: document 01 gives seeds and payloads.
    fn droplet(seed: u32, byte: u8, mended: usize) -> Droplet {
        let mut payload = [0; 64];
        payload[0] = byte;
        Droplet {
            seed,
            payload,
            mended,
        }
    }

    /// The bench strands of seeds 2, 1 and 3, with the payloads 27 xor 4E, E4 and 27.
    const BENCH: [(&[u8; 28], u32, u8); 3] = [
        (b"AAAAAAAAAAAAAAAGCGGCGTCCTCTG", 2, 0x69),
        (SEED_1, 1, 0xE4),
        (b"AAAAAAAAAAAAAAATAGCTCGAACACA", 3, 0x27),
    ];

    /// Every one letter wrong.
    #[test]
    fn bench_strands_with_one_letter_wrong() {
        for (strand, seed, byte) in BENCH {
            assert_eq!(read_check(&P, strand), Ok(droplet(seed, byte, 0)));
            for place in 0..28 {
                for letter in *b"ACGT" {
                    if letter != strand[place] {
                        let read = misread(strand, &[(place, letter)]);
                        assert_eq!(read_check(&P, &read), Ok(droplet(seed, byte, 1)));
                        let mut buffer = [0x77; 7];
                        assert_eq!(read_check_c_form(&P, &read, &mut buffer), 0);
                        assert_eq!(buffer, [0, 0, 0, seed as u8, byte, 0x77, 0x77]);
                    }
                }
            }
        }
    }

    /// "four bases are one byte": two wrong letters in one byte, and four, are one wrong
    /// byte, and two in two bytes are two, though they may stand side by side.
    #[test]
    fn wrong_letters_of_one_byte() {
        for (strand, seed, byte) in BENCH {
            for first in (0..28).step_by(4) {
                for value in 1..=255u8 {
                    let mut bytes = bytes_of_letters(strand).unwrap();
                    bytes[first / 4] ^= value;
                    let read = letters_of_bytes(&bytes);
                    assert_eq!(read_check(&P, &read), Ok(droplet(seed, byte, 1)));
                }
            }
        }
        // The last letter of the payload byte and the first of the first check byte.
        let read = misread(SEED_1, &[(19, b'C'), (20, b'C')]);
        assert_eq!(bytes_of_letters(&read).unwrap()[4..6], [0xE5, 0x76]);
        assert_ne!(read_check(&P, &read), Ok(droplet(1, 0xE4, 2)));
        assert_eq!(read_check(&P, &read), by_brute_force(&P, &read));
    }

    /// Two wrong bytes with R = 2 are none of a strand's own: mended to nothing, or to
    /// some other strand, which may be refused for its seed or by the screen.
    #[test]
    fn two_wrong_bytes_with_two_check_bytes() {
        let loose = Handed { m: 16, ..P };
        let mut met = [0; 14];
        for (strand, seed, byte) in BENCH {
            for first in 0..28 {
                for second in 4 * (first / 4 + 1)..28 {
                    for (a, b) in [(b'A', b'C'), (b'C', b'G'), (b'G', b'T'), (b'T', b'A')] {
                        if strand[first] == a || strand[second] == b {
                            continue;
                        }
                        let read = misread(strand, &[(first, a), (second, b)]);
                        let answer = read_check(&loose, &read);
                        assert_eq!(answer, by_brute_force(&loose, &read), "{first} {second}");
                        match answer {
                            Ok(other) => {
                                assert_eq!(other.mended, 1);
                                assert_ne!((other.seed, other.payload[0]), (seed, byte));
                                met[0] += 1;
                            }
                            Err(Refusal(number)) => met[usize::from(number)] += 1,
                        }
                    }
                }
            }
        }
        assert!(met[0] > 0 && met[11] > 0 && met[13] > 0, "{met:?}");
    }

    /// P with four check bytes and a screen that lets more pass.
    const P4: Handed = Handed {
        r: 4,
        m: 20,
        lo: 0,
        ..P
    };

    /// The droplet of seed 1 with R = 4: any one wrong letter, and any two, in one byte
    /// or in two.
    #[test]
    fn wrong_bytes_with_four_check_bytes() {
        let strand = letters_of_bytes(&strand_bytes(1, &[0xE4], 4));
        assert_eq!(strand.len(), 36);
        assert_eq!(strand[..20], SEED_1[..20]);
        assert_eq!(read_check(&P4, &strand), Ok(droplet(1, 0xE4, 0)));
        let another =
            |letter: u8, by: u8| letter_of_pair((pair_of_letter(letter).unwrap() + by) % 4);
        for first in 0..36 {
            for by in 1..=3 {
                let read = misread(&strand, &[(first, another(strand[first], by))]);
                assert_eq!(read_check(&P4, &read), Ok(droplet(1, 0xE4, 1)));
                for second in 0..first {
                    for other in 1..=3 {
                        let read = misread(&read, &[(second, another(strand[second], other))]);
                        let wrong = if first / 4 == second / 4 { 1 } else { 2 };
                        assert_eq!(read_check(&P4, &read), Ok(droplet(1, 0xE4, wrong)));
                    }
                }
            }
        }
    }

    /// Three wrong bytes with R = 4.
    #[test]
    fn three_wrong_bytes_with_four_check_bytes() {
        let strand = strand_bytes(1, &[0xE4], 4);
        for places in [[0, 1, 2], [0, 4, 8], [3, 4, 5], [6, 7, 8]] {
            for values in [[1, 1, 1], [0x40, 3, 0xFF], [0x1B, 0x2D, 0x36]] {
                let mut bytes = strand.clone();
                for (place, value) in places.into_iter().zip(values) {
                    bytes[place] ^= value;
                }
                let read = letters_of_bytes(&bytes);
                assert_eq!(read_check(&P4, &read), by_brute_force(&P4, &read));
            }
        }
    }

    /// A read within R/2 bytes of another strand than the one that was printed becomes
    /// that: there is nothing in it to tell. The strands of seed 1 and the payloads E4
    /// and E5 differ in the last three bytes, by 01 03 02 (a bench example).
    #[test]
    fn the_nearer_strand() {
        let loose = Handed { lo: 0, ..P };
        let read_of = |bytes: [u8; 7]| letters_of_bytes(&bytes);
        for (bytes, byte, mended) in [
            ([0, 0, 0, 1, 0xE4, 0x36, 0xD3], 0xE4, 0),
            ([0, 0, 0, 1, 0xE5, 0x36, 0xD3], 0xE4, 1),
            ([0, 0, 0, 1, 0xE5, 0x35, 0xD3], 0xE5, 1),
            ([0, 0, 0, 1, 0xE4, 0x35, 0xD1], 0xE5, 1),
            ([0, 0, 0, 1, 0xE5, 0x35, 0xD1], 0xE5, 0),
        ] {
            assert_eq!(
                read_check(&loose, &read_of(bytes)),
                Ok(droplet(1, byte, mended))
            );
        }
    }

    /// "28 letters A under P: 12", and so is a read that is one wrong byte from these,
    /// whatever its own seed is; with R = 4 one that is two from 36 letters A.
    #[test]
    fn a_mended_seed_of_0() {
        for place in 0..7 {
            for value in 1..=255 {
                let mut bytes = [0; 7];
                bytes[place] = value;
                assert_eq!(
                    read_check(&P, &letters_of_bytes(&bytes)),
                    Err(Refusal(12)),
                    "{place} {value}"
                );
            }
        }
        for place in 0..9 {
            for other in 0..place {
                let mut bytes = [0; 9];
                (bytes[place], bytes[other]) = (0x1B, 0x72);
                let read = letters_of_bytes(&bytes);
                assert_eq!(read_check(&P4, &read), Err(Refusal(12)), "{place} {other}");
            }
        }
        // A payload of its own, and the seed's last byte read as 2.
        let mut bytes = strand_bytes(0, &[0x1B], 2);
        bytes[3] = 2;
        assert_eq!(read_check(&P, &letters_of_bytes(&bytes)), Err(Refusal(12)));
    }

    /// A read whose own seed is 0 is accepted if the mended one is not.
    #[test]
    fn a_seed_read_as_0() {
        let read = misread(SEED_1, &[(15, b'A')]);
        assert_eq!(bytes_of_letters(&read).unwrap()[..4], [0; 4]);
        assert_eq!(read_check(&P, &read), Ok(droplet(1, 0xE4, 1)));
    }

    /// What the screen says of letters as they are.
    fn screened(handed: &Handed, letters: &[u8]) -> Outcome {
        outcome(letters, handed.m, handed.lo, handed.hi)
    }

    /// "It passes at m=15, lo=214; m=14 gives 13, and so does lo=215." A wrong letter
    /// that breaks the run, or adds a C, lets the read itself pass, but not the strand.
    #[test]
    fn the_screen_drops_the_mended_strand() {
        use Outcome::*;
        let m_14 = Handed { m: 14, ..P };
        for place in [0, 14] {
            let read = misread(SEED_1, &[(place, b'C')]);
            assert_eq!(screened(&m_14, &read), Passes);
            assert_eq!(screened(&m_14, SEED_1), DroppedForRun);
            assert_eq!(read_check(&m_14, &read), Err(Refusal(13)));
            assert_eq!(read_check_c_form(&m_14, &read, &mut [0; 5]), 13);
        }
        let lo_215 = Handed { lo: 215, ..P };
        let read = misread(SEED_1, &[(27, b'C')]);
        assert_eq!(screened(&lo_215, &read), Passes);
        assert_eq!(screened(&lo_215, SEED_1), DroppedForGcAlone);
        assert_eq!(read_check(&lo_215, &read), Err(Refusal(13)));
        let hi_214 = Handed {
            lo: 0,
            hi: 214,
            ..P
        };
        let read = misread(SEED_1, &[(15, b'A')]);
        let at_16 = Handed { m: 16, ..hi_214 };
        assert_eq!(screened(&at_16, &read), Passes);
        assert_eq!(read_check(&at_16, &read), Err(Refusal(13)));
    }

    /// The other way round: the letters as read have a run of 16, or 5 of 28 are C or
    /// G, and the strand passes.
    #[test]
    fn the_screen_passes_the_mended_strand() {
        use Outcome::*;
        let read = misread(SEED_1, &[(15, b'A')]);
        let no_limits = Handed { lo: 0, ..P };
        assert_eq!(screened(&no_limits, &read), DroppedForRun);
        assert_eq!(read_check(&no_limits, &read), Ok(droplet(1, 0xE4, 1)));
        let read = misread(SEED_1, &[(17, b'A')]);
        assert_eq!(screened(&P, &read), DroppedForGcAlone);
        assert_eq!(read_check(&P, &read), Ok(droplet(1, 0xE4, 1)));
        let hi_215 = Handed { hi: 215, ..P };
        let read = misread(SEED_1, &[(0, b'G')]);
        assert_eq!(screened(&hi_215, &read), DroppedForGcAlone);
        assert_eq!(read_check(&hi_215, &read), Ok(droplet(1, 0xE4, 1)));
    }

    /// Both ways at the joints: "At m=3 a strand ending in TTT is refused; one ending in
    /// ATT passes at that joint.", and the same with CCC and GCC at the first joint.
    #[test]
    fn the_mended_strand_at_the_joints() {
        let m_3 = with_m(3);
        let fine =
            |read: &[u8]| inside(read) <= 3 && !read.starts_with(b"CCC") && !read.ends_with(b"TTT");
        for (place, letter, right, wrong) in [
            (25, b'A', &b"ATT"[..], &b"TTT"[..]),
            (0, b'G', b"GCC", b"CCC"),
        ] {
            let site = wrong[0];
            let is_there = |read: &[u8], letters: &[u8]| read[place..place + 3] == *letters;
            let legal = find_read(|read| fine(read) && is_there(read, right));
            let read = misread(&legal, &[(place, site)]);
            assert_eq!(screened(&m_3, &read), Outcome::DroppedForRun);
            assert_eq!(read_check(&m_3, &legal).unwrap().mended, 0);
            assert_eq!(read_check(&m_3, &read).unwrap().mended, 1);

            let printed_never =
                find_read(|read| is_there(read, wrong) && fine(&misread(read, &[(place, letter)])));
            let read = misread(&printed_never, &[(place, letter)]);
            assert_eq!(screened(&m_3, &read), Outcome::Passes);
            assert_eq!(read_check(&m_3, &read), Err(Refusal(13)));
        }
    }

    /// 9 and 10 are asked of the read as it is: a letter N is not mended, and neither is
    /// a missing one.
    #[test]
    fn letters_and_lengths_are_not_mended() {
        assert_eq!(read_check(&P, &SEED_1[..27]), Err(Refusal(9)));
        assert_eq!(read_check(&P, &SEED_1[..24]), Err(Refusal(9)));
        assert_eq!(read_check(&P, &SEED_1[1..]), Err(Refusal(9)));
        let with_n = misread(SEED_1, &[(0, b'N')]);
        assert_eq!(read_check(&P, &with_n), Err(Refusal(10)));
        let with_n = misread(SEED_1, &[(0, b'T'), (27, b'N')]);
        assert_eq!(read_check(&P, &with_n), Err(Refusal(10)));
    }

    /// A wrong byte whose place would be outside the word: seven bytes FF and seven bytes
    /// 55, as `mending` works out.
    #[test]
    fn a_place_outside_the_word() {
        for letter in [b'C', b'T'] {
            let read = [letter; 28];
            let loose = Handed { m: 20, lo: 0, ..P };
            assert_eq!(read_check(&loose, &read), Err(Refusal(11)));
            assert_eq!(by_brute_force(&loose, &read), Err(Refusal(11)));
        }
    }

    /// The buffer of the C form is asked for last, of a mended read too.
    #[test]
    fn c_form_of_a_mended_read() {
        let read = misread(SEED_1, &[(0, b'T')]);
        let mut short = [0x77; 4];
        assert_eq!(read_check_c_form(&P, &read, &mut short), 16);
        assert_eq!(short, [0x77; 4]);
        let mut exact = [0x77; 5];
        assert_eq!(read_check_c_form(&P, &read, &mut exact), 0);
        assert_eq!(exact, [0, 0, 0, 1, 0xE4]);
        let two_wrong = letters_of_bytes(&[0, 0, 0, 1, 0xE5, 0x34, 0xD3]);
        assert_eq!(by_brute_force(&P, &two_wrong), Err(Refusal(11)));
        assert_eq!(read_check_c_form(&P, &two_wrong, &mut short), 11);
        assert_eq!(short, [0x77; 4]);
    }

    /// The longest strand, both of whose wrong bytes are mended.
    #[test]
    fn longest_strand_mended() {
        let handed = Handed {
            f: 64,
            l: 64,
            r: 4,
            lo: 0,
            weights: &[0, 0, 0, 1],
            ..P
        };
        let payload: Vec<u8> = (0..64).map(|i| (i * 37 + 11) as u8).collect();
        let strand = strand_bytes(0x1234_5678, &payload, 4);
        for (place, other) in [(0, 71), (0, 1), (3, 4), (67, 68), (70, 71), (30, 31)] {
            let mut bytes = strand.clone();
            bytes[place] ^= 0x80;
            bytes[other] ^= 0x80;
            let droplet = read_check(&handed, &letters_of_bytes(&bytes)).unwrap();
            assert_eq!((droplet.seed, droplet.mended), (0x1234_5678, 2));
            assert_eq!(droplet.payload[..], payload[..]);
        }
    }
}
