//! Misread bytes: as many as are mended and more, on the way to another strand or outside the word, check sums that look like
//! those of fewer wrong bytes, and reads of which the screen would say another thing than of their strand.

use super::cards::Numbers;
use super::joints::{longest_inside, longest_run, through_first, through_second};
use super::random::Random;
use super::reads::{gc, gc_fits, Read};
use super::run::Regions;
use second::check_bytes_letters_screen::{
    check_bytes, check_sums, field_inverse, field_power, field_product, letters_of_bytes,
    polynomial_at,
};
use second::mending::{differing_bytes, mend, Mended};

// ---------------------------------------------------------------- what is misread

/// What a byte is multiplied by at a, with as many bytes behind it.
fn factor(behind: usize) -> u8 {
    field_power(2, behind)
}

/// What is XORed to a byte so that it is wrong: one letter, two letters, or any.
fn any_wrong(random: &mut Random) -> u8 {
    let letter = random.below(4);
    let other = (letter + random.between(1, 3)) % 4;
    let (a, b) = (random.between(1, 3) as u8, random.between(1, 3) as u8);
    match random.below(5) {
        0 => a << (2 * letter),
        1 => a << (2 * letter) | b << (2 * other),
        2 => random.one_of(&[1, 128, 255]),
        _ => random.between(1, 255) as u8,
    }
}

/// A place of the word, those at an end of the seed, the payload or the check bytes more often.
fn any_place(random: &mut Random, numbers: &Numbers) -> usize {
    let (l, r) = (usize::from(numbers.l), usize::from(numbers.r));
    match random.below(7) {
        0 => 0,
        1 => 4 + l + r - 1,
        2 => random.one_of(&[3, 4, 4 + l - 1, 4 + l]),
        3 => random.below(4),
        4 => 4 + random.below(l),
        5 => 4 + l + random.below(r),
        _ => random.below(4 + l + r),
    }
}

/// As many different places.
fn any_places(random: &mut Random, numbers: &Numbers, count: usize) -> Vec<usize> {
    let mut places = Vec::new();
    while places.len() < count {
        let place = any_place(random, numbers);
        if !places.contains(&place) {
            places.push(place);
        }
    }
    places
}

/// As many wrong bytes. The first two may leave a check sum 0, or the first two sums as one wrong byte would.
fn make_wrong(random: &mut Random, numbers: &Numbers, bytes: &mut [u8], count: usize) {
    let places = any_places(random, numbers, count + 1);
    let (places, not_wrong) = places.split_at(count);
    let mut values: Vec<u8> = places.iter().map(|_| any_wrong(random)).collect();
    let factors: Vec<u8> = places.iter().map(|p| factor(bytes.len() - 1 - p)).collect();
    if count >= 2 {
        let looks_like = factor(bytes.len() - 1 - not_wrong[0]);
        let (over, under) = match random.below(6) {
            0 => (1, 1),
            1 => {
                let sum = random.between(1, usize::from(numbers.r) - 1);
                (field_power(factors[0], sum), field_power(factors[1], sum))
            }
            2 => (factors[0] ^ looks_like, factors[1] ^ looks_like),
            _ => (0, 1),
        };
        if over != 0 {
            values[1] = field_product(values[0], field_product(over, field_inverse(under)));
        }
    }
    for (&place, value) in places.iter().zip(values) {
        bytes[place] ^= value;
    }
}

/// From a strand to another one that differs in R + 1 bytes, by so many of them that the other is nearer. The difference has
/// check sums 0: at places with the factors x_i it is 1 over the product of all x_i + x_j, times anything (Lagrange).
fn go_to_another(random: &mut Random, numbers: &Numbers, bytes: &mut [u8]) {
    let r = usize::from(numbers.r);
    let places = any_places(random, numbers, r + 1);
    let x: Vec<u8> = places.iter().map(|p| factor(bytes.len() - 1 - p)).collect();
    let times = any_wrong(random);
    let more = random.between(r / 2 + 1, r + 1);
    let gone = random.one_of(&[r / 2 + 1, r / 2 + 1, more]);
    for i in 0..gone {
        let others = (0..=r).filter(|&j| j != i);
        let product = others.fold(1, |product, j| field_product(product, x[i] ^ x[j]));
        bytes[places[i]] ^= field_product(times, field_inverse(product));
    }
}

/// Misreads a strand in one byte more than can be mended, such that it is mended to another payload of its seed: two strands
/// of one seed whose payloads differ in one byte differ in all R check bytes, too.
pub fn misread_to_another_payload(random: &mut Random, numbers: &Numbers, read: &mut Read) {
    let (l, r) = (usize::from(numbers.l), usize::from(numbers.r));
    let mut other = read.printed[..4 + l].to_vec();
    let place = 4 + random.below(l);
    other[place] ^= any_wrong(random);
    other.extend(check_bytes(&other, r));
    let mut differing: Vec<usize> = (4 + l..4 + l + r).chain([place]).collect();
    let mut bytes = read.printed.clone();
    for _ in 0..r / 2 + 1 {
        let wrong = differing.swap_remove(random.below(differing.len()));
        bytes[wrong] = other[wrong];
    }
    read.letters = letters_of_bytes(&bytes);
}

/// As many bytes as there are sums, whose check sums are these: for each sum a polynomial that is 0 at all the other roots.
fn bytes_with_sums(sums: &[u8]) -> Vec<u8> {
    let root = |i: usize| field_power(2, i);
    let mut bytes = vec![0; sums.len()];
    for (i, &sum) in sums.iter().enumerate() {
        let mut polynomial = vec![1];
        for j in (0..sums.len()).filter(|&j| j != i) {
            polynomial.push(0);
            for k in (1..polynomial.len()).rev() {
                polynomial[k] ^= field_product(polynomial[k - 1], root(j));
            }
        }
        let times = field_product(sum, field_inverse(polynomial_at(&polynomial, root(i))));
        for (byte, coefficient) in bytes.iter_mut().zip(polynomial) {
            *byte ^= field_product(times, coefficient);
        }
    }
    bytes
}

/// Adds to the check sums of a word, by its last R bytes.
fn add_to_sums(bytes: &mut [u8], sums: &[u8]) {
    let first = bytes.len() - sums.len();
    for (byte, change) in bytes[first..].iter_mut().zip(bytes_with_sums(sums)) {
        *byte ^= change;
    }
}

/// What a wrong byte adds to the R check sums, with as many bytes behind it in a word that may be longer.
fn sums_of(value: u8, behind: usize, r: usize) -> Vec<u8> {
    let x = factor(behind);
    (0..r)
        .map(|i| field_product(value, field_power(x, i)))
        .collect()
}

/// Check sums as of a longer word whose wrong bytes, as many as could be mended, are in front of this one; with two, one may be
/// inside. Gives how many bytes of the longer word are behind each.
fn make_wrong_outside(random: &mut Random, numbers: &Numbers, bytes: &mut [u8]) -> Vec<usize> {
    let (length, r) = (bytes.len(), usize::from(numbers.r));
    let mut outside = || match random.below(4) {
        0 | 1 => length,
        2 => 254,
        _ => random.between(length, 254),
    };
    let (first, second) = (outside(), outside());
    let mut wrong = vec![first];
    if r == 4 && random.once_in(3) {
        wrong.push(length - 1 - any_place(random, numbers));
    } else if r == 4 && random.once_in(2) && first != second {
        wrong.push(second);
    }
    for &behind in &wrong {
        add_to_sums(bytes, &sums_of(any_wrong(random), behind, r));
    }
    wrong
}

/// Check sums that some rule for fewer sums would take for those of one wrong byte, or of two in one place.
fn make_look_alike(random: &mut Random, numbers: &Numbers, bytes: &mut [u8]) {
    let r = usize::from(numbers.r);
    let behind = bytes.len() - 1 - any_place(random, numbers);
    let mut sums = sums_of(any_wrong(random), behind, r);
    let more = any_wrong(random);
    if r == 2 {
        sums[random.below(2)] = 0;
        return add_to_sums(bytes, &sums);
    }
    match random.below(10) {
        0 | 1 => sums[3] ^= more,
        8 => return make_determinant_0(random, numbers, bytes),
        2 => sums[2] ^= more,
        7 => sums[1] = 0,
        3 => (sums[2], sums[3]) = (random.byte(), random.byte()),
        4 => sums[0] ^= more,
        5 => (sums[0], sums[2], sums[3]) = (0, random.byte(), random.byte()),
        6 => (sums[0], sums[1]) = (0, 0),
        _ => {
            sums[1] = field_product(more, factor(behind));
            sums[3] = field_product(sums[1], field_power(factor(behind), 2));
        }
    }
    add_to_sums(bytes, &sums);
}

/// Four check sums that are not those of two wrong bytes, as s0·s2 = s1·s1, but which would be those of two in some places of
/// the word if that product less that square were taken for 1, as an inverse of 0 out of a list may be.
fn make_determinant_0(random: &mut Random, numbers: &Numbers, bytes: &mut [u8]) {
    let places = any_places(random, numbers, 2);
    let [x, y] = [places[0], places[1]].map(|place| factor(bytes.len() - 1 - place));
    let s0 = any_wrong(random);
    let ratio = field_product(field_product(x, y), field_inverse(x ^ y));
    let (s1, s2) = (
        field_product(s0, ratio),
        field_product(s0, field_power(ratio, 2)),
    );
    let s3 = field_product(x ^ y ^ field_product(s1, s2), field_inverse(s0));
    add_to_sums(bytes, &[s0, s1, s2, s3]);
}

/// Whether the screen passes letters, by measures of the tests.
fn passes(numbers: &Numbers, letters: &[u8]) -> bool {
    longest_run(letters) <= usize::from(numbers.m) && gc_fits(numbers, letters)
}

/// One wrong letter: any one, or the one beside it, the site's at an end, so that runs get longer.
fn make_letter_wrong(random: &mut Random, letters: &mut [u8]) {
    let last = letters.len() - 1;
    let anywhere = random.below(letters.len());
    let near = random.below(letters.len().min(24));
    let place = random.one_of(&[anywhere, anywhere, near, last - near]);
    letters[place] = match random.below(6) {
        0 | 1 if place > 0 => letters[place - 1],
        2 | 3 if place < last => letters[place + 1],
        0..=3 if place == 0 => b'C',
        0..=3 => b'T',
        _ => random.one_of(b"ACGT"),
    };
}

/// As many wrong letters as bytes can be mended, such that the screen says another thing of the read than of the strand, if a
/// few tries find some.
fn turn_the_screen(random: &mut Random, numbers: &Numbers, letters: &mut Vec<u8>) {
    let before = passes(numbers, letters);
    for _ in 0..60 {
        let mut changed = letters.clone();
        for _ in 0..random.between(1, usize::from(numbers.r) / 2) {
            make_letter_wrong(random, &mut changed);
        }
        if passes(numbers, &changed) != before {
            *letters = changed;
            return;
        }
    }
}

/// Gives an end of the letters a run through the joint that is longer than m and has m letters of the strand, if as many bytes
/// may be wrong.
fn run_through_a_joint(random: &mut Random, numbers: &Numbers, letters: &mut [u8]) {
    let m = usize::from(numbers.m).min(2 * usize::from(numbers.r));
    let last = letters.len() - m;
    if random.once_in(2) {
        letters[..m].fill(b'C');
    } else {
        letters[last..].fill(b'T');
    }
}

/// Misreads a strand such that a joint alone is too much of a run for it and not for the read, or the other way round, if a few
/// tries find a way. Sets m, and lo and hi so that both fit.
pub fn misread_at_a_joint(random: &mut Random, numbers: &mut Numbers, read: &mut Read) {
    let strand = read.letters.clone();
    let bytes_wrong = random.between(1, usize::from(numbers.r) / 2);
    let strand_misses = random.once_in(2);
    let longest = longest_run(&strand);
    numbers.m = (longest - usize::from(strand_misses)).clamp(1, 20) as u8;
    for _ in 0..40 {
        let mut letters = strand.clone();
        if strand_misses {
            make_letter_wrong(random, &mut letters);
        } else {
            run_through_a_joint(random, numbers, &mut letters);
        }
        if bytes_wrong == 2 {
            make_letter_wrong(random, &mut letters);
        }
        let thousandths = |letters: &[u8]| 1000 * gc(letters) / letters.len();
        let (one, other) = (thousandths(&strand), thousandths(&letters));
        numbers.lo = one.min(other) as u16;
        numbers.hi = (one.max(other) + 1).min(1000) as u16;
        let (misses, passed) = if strand_misses {
            (&strand, &letters)
        } else {
            (&letters, &strand)
        };
        let joint = why_missed(numbers, misses).is_some_and(|why| why.ends_with("joint"));
        if joint && passes(numbers, passed) {
            read.letters = letters;
            return;
        }
    }
}

/// A seed of few bytes other than 0 that is read as 0; now and then one byte more is wrong.
fn make_seed_0(random: &mut Random, numbers: &Numbers, bytes: &mut [u8]) {
    let not_0 = bytes[..4].iter().filter(|&&byte| byte != 0).count();
    let most = usize::from(numbers.r) / 2;
    if not_0 > most {
        return make_wrong(random, numbers, bytes, most);
    }
    bytes[..4].fill(0);
    if not_0 < most && random.once_in(2) {
        let place = random.between(4, bytes.len() - 1);
        bytes[place] ^= any_wrong(random);
    }
}

/// Misreads a strand.
pub fn misread(random: &mut Random, numbers: &Numbers, read: &mut Read) {
    let most = usize::from(numbers.r) / 2;
    let mut bytes = read.printed.clone();
    match random.below(24) {
        0..=6 => {
            let count = random.between(1, most);
            make_wrong(random, numbers, &mut bytes, count);
        }
        7 => make_seed_0(random, numbers, &mut bytes),
        8..=10 => make_wrong(random, numbers, &mut bytes, most + 1),
        11 => {
            let count = random.between(most + 2, 6);
            make_wrong(random, numbers, &mut bytes, count);
        }
        12 | 13 => go_to_another(random, numbers, &mut bytes),
        14..=16 => read.outside = make_wrong_outside(random, numbers, &mut bytes),
        17 | 18 => make_look_alike(random, numbers, &mut bytes),
        _ => return turn_the_screen(random, numbers, &mut read.letters),
    }
    read.letters = letters_of_bytes(&bytes);
}

// ---------------------------------------------------------------- regions

/// The regions of questions 11 to 13 that mending brings to the read check and to shelving. "as read" is without mending.
#[rustfmt::skip]
pub const REGIONS: &[&str] = &[
    "R 2, 1 mended: in the seed", "R 2, 1 mended: in the payload", "R 2, 1 mended: in the check bytes",
    "R 2, 1 mended: in the first byte", "R 2, 1 mended: in the last byte",
    "R 4, 1 mended: in the seed", "R 4, 1 mended: in the payload", "R 4, 1 mended: in the check bytes",
    "R 4, 1 mended: in the first byte", "R 4, 1 mended: in the last byte",
    "R 4, 2 mended: in the seed", "R 4, 2 mended: in the payload", "R 4, 2 mended: in the check bytes",
    "R 4, 2 mended: in the first byte", "R 4, 2 mended: in the last byte",
    "R 2, 1 mended: L 1", "R 4, 1 mended: L 1", "R 4, 2 mended: L 1",
    "R 2, 1 mended: L 64", "R 4, 1 mended: L 64", "R 4, 2 mended: L 64",
    "R 2, 1 mended: 1 letter wrong", "R 2, 1 mended: 2 letters wrong", "R 2, 1 mended: 3 letters wrong",
    "R 2, 1 mended: 4 letters wrong", "R 4, 1 mended: 1 letter wrong", "R 4, 1 mended: 2 letters wrong",
    "R 4, 1 mended: 3 letters wrong", "R 4, 1 mended: 4 letters wrong",
    "2 mended: both in the seed", "2 mended: both in the payload", "2 mended: both in the check bytes",
    "2 mended: seed and payload", "2 mended: seed and check bytes", "2 mended: payload and check bytes",
    "2 mended: first and last byte", "2 mended: first two bytes", "2 mended: first two bytes, L 64", "2 mended: last two bytes",
    "2 mended: 2 letters wrong",
    "2 mended: check sum 0 is 0", "2 mended: check sum 1 is 0", "2 mended: check sum 2 is 0", "2 mended: check sum 3 is 0",
    "2 mended: first two sums of one wrong byte", "2 mended: both wrong by the same",
    "R 2, 1 mended: to another strand", "R 4, 1 mended: to another strand", "R 4, 2 mended: to another strand",
    "R 2: 2 wrong bytes mended to another strand", "R 4: 3 wrong bytes mended to another strand",
    "1 mended: seed as read 0", "2 mended: seed as read 0",
    "1 mended: a run as read over m", "1 mended: through the first joint as read over m",
    "1 mended: through the second joint as read over m", "1 mended: lo missed as read", "1 mended: hi missed as read",
    "2 mended: a run as read over m", "2 mended: through the first joint as read over m",
    "2 mended: through the second joint as read over m", "2 mended: lo missed as read", "2 mended: hi missed as read",
    "13: passed as read, not for a run, 1 mended", "13: passed as read, not for the first joint, 1 mended",
    "13: passed as read, not for the second joint, 1 mended", "13: passed as read, not for lo, 1 mended",
    "13: passed as read, not for hi, 1 mended",
    "13: passed as read, not for a run, 2 mended", "13: passed as read, not for the first joint, 2 mended",
    "13: passed as read, not for the second joint, 2 mended", "13: passed as read, not for lo, 2 mended",
    "13: passed as read, not for hi, 2 mended",
    "13: missed as read too, 1 mended", "13: missed as read too, 2 mended",
    "12: R 2, 1 mended", "12: R 4, 1 mended", "12: R 4, 2 mended", "12: seed as read not 0, 1 mended",
    "12: seed as read not 0, 2 mended", "12: seed as read 0, 1 mended", "12: seed as read 0, 2 mended", "12: 13 too, mended",
    "11: 2 wrong bytes, R 2", "11: 3 wrong bytes, R 4", "11: more wrong bytes, R 2", "11: more wrong bytes, R 4",
    "11: one outside, R 2", "11: one outside, R 4", "11: one outside and one inside", "11: two outside",
    "11: one outside just before the word, R 2", "11: one outside just before the word, R 4",
    "11: one outside at the last place of 255, R 2", "11: one outside at the last place of 255, R 4",
    "11: one just before the word and one inside", "11: one just before the word and one farther",
    "11: one outside and one inside, in the first byte", "11: one outside and one inside, in the last byte",
    "11: first sum 0, R 2", "11: first sum 0, R 4", "11: second sum 0, R 2", "11: second sum 0, R 4", "11: first two sums 0",
    "11: first two sums of one wrong byte", "11: first three sums of one wrong byte", "11: last three sums of one wrong byte",
    "11: both wrong bytes in one place", "11: two places if a determinant of 0 were 1",
    "11: seed as read 0", "11: 13 too as read", "11: seed and screen fine as read", "10: the only wrong letter",
];

/// Notes what was misread of a read of n legal letters that came to question 11, under the answer that it had. What its bytes
/// were made of says what they must become, too.
pub fn note(regions: &mut Regions, numbers: &Numbers, read: &Read, answer: u32) {
    let bytes = read.bytes();
    let mended = mend(&bytes, numbers.r);
    let most = usize::from(numbers.r) / 2;
    if !read.outside.is_empty() {
        assert_eq!(mended, None, "a wrong byte outside the word");
    } else if differing_bytes(&bytes, &read.printed) <= most {
        let known = Mended {
            word: read.printed.clone(),
            bytes: differing_bytes(&bytes, &read.printed),
        };
        assert_eq!(mended, Some(known), "few enough wrong bytes");
    }
    match mended {
        None => {
            assert_eq!(answer, 11);
            note_11(regions, numbers, read, &bytes);
            note_sums_of_11(regions, numbers, &bytes);
        }
        Some(mended) if mended.bytes == 0 => (),
        Some(mended) => match answer {
            0 => note_accepted(regions, numbers, read, &bytes, &mended),
            12 => note_12(regions, numbers, &bytes, &mended),
            13 => note_13(regions, numbers, read, &mended),
            _ => (),
        },
    }
}

fn seed_is_0(bytes: &[u8]) -> bool {
    bytes[..4] == [0; 4]
}

/// The places of a word that differ.
fn places_of(bytes: &[u8], other: &[u8]) -> Vec<usize> {
    (0..bytes.len()).filter(|&i| bytes[i] != other[i]).collect()
}

fn part_of(numbers: &Numbers, place: usize) -> &'static str {
    match place {
        0..=3 => "seed",
        _ if place < 4 + usize::from(numbers.l) => "payload",
        _ => "check bytes",
    }
}

/// The part of a legal read that all its mended bytes stand in, if it was mended and there is one.
pub fn part_mended(numbers: &Numbers, read: &Read) -> Option<&'static str> {
    let bytes = read.bytes();
    let mended = mend(&bytes, numbers.r).expect("a legal read");
    let places = places_of(&bytes, &mended.word);
    let part = part_of(numbers, *places.first()?);
    let in_part = |&place: &usize| part_of(numbers, place) == part;
    places.iter().all(in_part).then_some(part)
}

fn note_accepted(
    regions: &mut Regions,
    numbers: &Numbers,
    read: &Read,
    bytes: &[u8],
    mended: &Mended,
) {
    let (r, count) = (numbers.r, mended.bytes);
    let places = places_of(bytes, &mended.word);
    let region = format!("R {r}, {count} mended");
    for &place in &places {
        regions.note(&format!("{region}: in the {}", part_of(numbers, place)));
        regions.note_if(place == 0, &format!("{region}: in the first byte"));
        regions.note_if(
            place == bytes.len() - 1,
            &format!("{region}: in the last byte"),
        );
    }
    regions.note_if(numbers.l == 1, &format!("{region}: L 1"));
    regions.note_if(numbers.l == 64, &format!("{region}: L 64"));
    let strand = letters_of_bytes(&mended.word);
    let letters = match differing_bytes(&strand, &read.letters) {
        1 => String::from("1 letter wrong"),
        many => format!("{many} letters wrong"),
    };
    if count == 1 {
        regions.note(&format!("{region}: {letters}"));
    } else {
        regions.note(&format!("2 mended: {letters}"));
        note_two(regions, numbers, bytes, mended);
    }
    if mended.word != read.printed {
        regions.note(&format!("{region}: to another strand"));
        let wrong = differing_bytes(bytes, &read.printed);
        regions.note_if(
            wrong == usize::from(r) / 2 + 1,
            &format!("R {r}: {wrong} wrong bytes mended to another strand"),
        );
    }
    regions.note_if(seed_is_0(bytes), &format!("{count} mended: seed as read 0"));
    match why_missed(numbers, &read.letters) {
        Some("a run") => regions.note(&format!("{count} mended: a run as read over m")),
        Some("lo") => regions.note(&format!("{count} mended: lo missed as read")),
        Some("hi") => regions.note(&format!("{count} mended: hi missed as read")),
        Some(joint) => regions.note(&format!("{count} mended: through {joint} as read over m")),
        None => (),
    }
}

/// The one thing by which letters miss the screen, if there is just one.
fn why_missed(numbers: &Numbers, letters: &[u8]) -> Option<&'static str> {
    let m = usize::from(numbers.m);
    let low = 1000 * gc(letters) < usize::from(numbers.lo) * letters.len();
    let faults = [
        ("a run", longest_inside(letters) > m),
        ("the first joint", through_first(letters) > m),
        ("the second joint", through_second(letters) > m),
        ("lo", low),
        ("hi", !low && !gc_fits(numbers, letters)),
    ];
    let mut met = faults.iter().filter(|(_, is_there)| *is_there);
    match (met.next(), met.next()) {
        (Some(&(fault, _)), None) => Some(fault),
        _ => None,
    }
}

fn note_two(regions: &mut Regions, numbers: &Numbers, bytes: &[u8], mended: &Mended) {
    let places = places_of(bytes, &mended.word);
    let [first, second] = places[..] else {
        panic!("two bytes were mended");
    };
    let parts = (part_of(numbers, first), part_of(numbers, second));
    if parts.0 == parts.1 {
        regions.note(&format!("2 mended: both in the {}", parts.0));
    } else {
        regions.note(&format!("2 mended: {} and {}", parts.0, parts.1));
    }
    let last = bytes.len() - 1;
    regions.note_if(
        (first, second) == (0, last),
        "2 mended: first and last byte",
    );
    regions.note_if((first, second) == (0, 1), "2 mended: first two bytes");
    regions.note_if(
        (first, second) == (0, 1) && numbers.l == 64,
        "2 mended: first two bytes, L 64",
    );
    regions.note_if(
        (first, second) == (last - 1, last),
        "2 mended: last two bytes",
    );
    let sums = check_sums(bytes, 4);
    for (i, &sum) in sums.iter().enumerate() {
        regions.note_if(sum == 0, &format!("2 mended: check sum {i} is 0"));
    }
    regions.note_if(
        sums_of_one(&sums[..2], bytes.len()),
        "2 mended: first two sums of one wrong byte",
    );
    let wrong_by = |place: usize| bytes[place] ^ mended.word[place];
    regions.note_if(
        wrong_by(first) == wrong_by(second),
        "2 mended: both wrong by the same",
    );
}

/// Whether these are, for some byte of a word of this length, what its being wrong adds to sums that follow each other.
fn sums_of_one(sums: &[u8], length: usize) -> bool {
    sums[0] != 0
        && (0..length).any(|behind| {
            sums.windows(2)
                .all(|two| two[1] == field_product(two[0], factor(behind)))
        })
}

fn note_12(regions: &mut Regions, numbers: &Numbers, bytes: &[u8], mended: &Mended) {
    let count = mended.bytes;
    regions.note(&format!("12: R {}, {count} mended", numbers.r));
    let as_read = if seed_is_0(bytes) { "0" } else { "not 0" };
    regions.note(&format!("12: seed as read {as_read}, {count} mended"));
    regions.note_if(
        !passes(numbers, &letters_of_bytes(&mended.word)),
        "12: 13 too, mended",
    );
}

fn note_13(regions: &mut Regions, numbers: &Numbers, read: &Read, mended: &Mended) {
    let count = mended.bytes;
    if !passes(numbers, &read.letters) {
        regions.note(&format!("13: missed as read too, {count} mended"));
    } else if let Some(fault) = why_missed(numbers, &letters_of_bytes(&mended.word)) {
        regions.note(&format!(
            "13: passed as read, not for {fault}, {count} mended"
        ));
    }
}

fn note_11(regions: &mut Regions, numbers: &Numbers, read: &Read, bytes: &[u8]) {
    let r = numbers.r;
    regions.note_if(seed_is_0(bytes), "11: seed as read 0");
    let screened = passes(numbers, &read.letters);
    regions.note_if(!screened, "11: 13 too as read");
    regions.note_if(
        screened && !seed_is_0(bytes),
        "11: seed and screen fine as read",
    );
    let length = bytes.len();
    match read.outside[..] {
        [] => {
            let wrong = differing_bytes(bytes, &read.printed);
            if wrong == usize::from(r) / 2 + 1 {
                regions.note(&format!("11: {wrong} wrong bytes, R {r}"));
            } else {
                regions.note(&format!("11: more wrong bytes, R {r}"));
            }
        }
        [one] => {
            let region = "11: one outside";
            regions.note(&format!("{region}, R {r}"));
            regions.note_if(
                one == length,
                &format!("{region} just before the word, R {r}"),
            );
            regions.note_if(
                one == 254,
                &format!("{region} at the last place of 255, R {r}"),
            );
        }
        [one, other] if other < length => {
            let region = "11: one outside and one inside";
            regions.note(region);
            regions.note_if(other + 1 == length, &format!("{region}, in the first byte"));
            regions.note_if(other == 0, &format!("{region}, in the last byte"));
            regions.note_if(one == length, "11: one just before the word and one inside");
        }
        [one, other] => {
            regions.note("11: two outside");
            regions.note_if(
                one.min(other) == length,
                "11: one just before the word and one farther",
            );
        }
        _ => panic!("at most two wrong bytes are made outside"),
    }
}

fn note_sums_of_11(regions: &mut Regions, numbers: &Numbers, bytes: &[u8]) {
    let r = numbers.r;
    let sums = check_sums(bytes, r);
    let is_0 = sums.map(|sum| sum == 0);
    regions.note_if(is_0[0] && !is_0[1], &format!("11: first sum 0, R {r}"));
    regions.note_if(!is_0[0] && is_0[1], &format!("11: second sum 0, R {r}"));
    if r == 2 {
        return;
    }
    let length = bytes.len();
    let of_one = |sums: &[u8]| sums_of_one(sums, length);
    regions.note_if(is_0[0] && is_0[1] && !is_0[2], "11: first two sums 0");
    regions.note_if(
        of_one(&sums[..2]) && !of_one(&sums[..3]),
        "11: first two sums of one wrong byte",
    );
    regions.note_if(of_one(&sums[..3]), "11: first three sums of one wrong byte");
    regions.note_if(of_one(&sums[1..]), "11: last three sums of one wrong byte");
    // As if x1 = x2 in what follows from two wrong bytes: each sum is x1 + x2 times the one before it and x1·x2 times the one
    // before that.
    let inside = (0..length).any(|behind| {
        let square = field_power(factor(behind), 2);
        sums[2] == field_product(sums[0], square)
            && sums[3] == field_product(sums[1], square)
            && !of_one(&sums)
    });
    regions.note_if(inside, "11: both wrong bytes in one place");
    let two = |i: usize, j: usize, k: usize, l: usize| {
        field_product(sums[i], sums[j]) ^ field_product(sums[k], sums[l])
    };
    let (sum, product) = (two(0, 3, 1, 2), two(1, 3, 2, 2));
    let roots = (0..length).filter(|&behind| {
        let x = factor(behind);
        field_product(x, x ^ sum) == product
    });
    regions.note_if(
        two(0, 2, 1, 1) == 0 && roots.count() == 2,
        "11: two places if a determinant of 0 were 1",
    );
}
