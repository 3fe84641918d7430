//! Mending over the smallest strands, L = 1, by read check and by the archive `libstrand.a`: every single wrong byte, and many
//! pairs and threes of them. What must come out is known from how the read was made, or from trying every value in every place.

mod differential;

use differential::random::Random;
use second::check_bytes_letters_screen::{
    field_inverse, field_power, field_product, letters_of_bytes, order, strand_bytes,
};
use second::mending::{all_words_nearby, differing_bytes, Mended};
use second::{read_check, Droplet, Handed, Refusal};

#[cfg(strand_missing)]
compile_error!("target/staticlib/libstrand.a is missing: `host/build strand` makes it");

#[link(name = "strand", kind = "static")]
extern "C" {
    fn fountain_check_read(
        f: u32,
        l: u8,
        r: u8,
        m: u8,
        lo: u16,
        hi: u16,
        dealt: u8,
        width: u32,
        weights: *const u8,
        weights_len: usize,
        read: *const u8,
        read_len: usize,
        out: *mut u8,
        out_len: usize,
    ) -> u32;
}

/// A card of one segment of one byte. Its screen drops nothing but runs of more than 20.
fn card(r: u8) -> Handed<'static> {
    Handed {
        f: 1,
        l: 1,
        r,
        m: 20,
        lo: 0,
        hi: 1000,
        dealt: false,
        width: 0,
        weights: &[0, 0, 0, 1],
    }
}

type Answer = Result<Droplet, Refusal>;

/// What the read check says of a read of these bytes. The archive's must say the same, but for the number of bytes mended, which
/// it does not tell.
fn answer(r: u8, bytes: &[u8]) -> Answer {
    let card = card(r);
    let read = letters_of_bytes(bytes);
    let answer = read_check(&card, &read);
    let (number, first) = match &answer {
        Ok(droplet) => (
            0,
            [&droplet.seed.to_be_bytes()[..], &droplet.payload[..1]].concat(),
        ),
        Err(refusal) => (refusal.0.into(), vec![0x77; 5]),
    };
    let mut out = [0x77; 8];
    // Each pointer stands for as many bytes as its length says, and nothing overlaps.
    let got = unsafe {
        fountain_check_read(
            card.f,
            card.l,
            card.r,
            card.m,
            card.lo,
            card.hi,
            0,
            card.width,
            card.weights.as_ptr(),
            card.weights.len(),
            read.as_ptr(),
            read.len(),
            out.as_mut_ptr(),
            out.len(),
        )
    };
    assert_eq!(
        got, number,
        "the archive's number for {bytes:02X?}, R = {r}"
    );
    assert_eq!(
        out[..5],
        first,
        "the archive's bytes for {bytes:02X?}, R = {r}"
    );
    assert_eq!(out[5..], [0x77; 3], "past them for {bytes:02X?}, R = {r}");
    answer
}

/// What must be said of a read that is mended to this word.
fn expected(word: &[u8], mended: usize) -> Answer {
    if word[..4] == [0; 4] {
        return Err(Refusal(12));
    }
    // No site has a run of its own that is as long.
    let order = order(&letters_of_bytes(word));
    if order
        .windows(21)
        .any(|run| run.iter().all(|&letter| letter == run[0]))
    {
        return Err(Refusal(13));
    }
    let mut payload = [0; 64];
    payload[0] = word[4];
    Ok(Droplet {
        seed: u32::from_be_bytes([word[0], word[1], word[2], word[3]]),
        payload,
        mended,
    })
}

/// What must be said of a read of these bytes, by trying every value in every place.
fn by_brute_force(r: u8, bytes: &[u8]) -> Answer {
    match &all_words_nearby(bytes, r)[..] {
        [] => Err(Refusal(11)),
        [Mended { word, bytes }] => expected(word, *bytes),
        more => panic!("{bytes:02X?} is near to {more:02X?}"),
    }
}

/// The word of these five bytes and their check bytes.
fn word_of(message: &[u8], r: u8) -> Vec<u8> {
    let seed = u32::from_be_bytes([message[0], message[1], message[2], message[3]]);
    strand_bytes(seed, &message[4..], r)
}

/// The word with its last two bytes made these, by multiples of x^2 + 3x + 2, the polynomial of 01 03 02 (a bench example).
fn with_last_two(word: &[u8], last: [u8; 2]) -> Vec<u8> {
    let mut word = word.to_vec();
    for (place, wanted) in [(6, last[1]), (5, last[0])] {
        let times = field_product(word[place] ^ wanted, field_inverse(2));
        for (i, coefficient) in [1, 3, 2].into_iter().enumerate() {
            word[place - 2 + i] ^= field_product(times, coefficient);
        }
    }
    word
}

/// Words with all check sums 0: of bytes 00 and FF alone, of one byte 01, 7F, 80 or FE among 00 or among FF, of 55 alone, whose
/// letters C are too long a run with the site's, of AA alone, as many of any bytes, and with R = 2 some whose check bytes are 00
/// and FF.
fn words(random: &mut Random, r: u8, others: usize) -> Vec<Vec<u8>> {
    let mut words = Vec::new();
    for bits in 0..32 {
        let byte = |place: usize| if bits >> place & 1 == 1 { 0xFF } else { 0 };
        let message: Vec<u8> = (0..5).map(byte).collect();
        words.push(word_of(&message, r));
    }
    for place in 0..5 {
        for among in [0, 0xFF] {
            for byte in [0x01, 0x7F, 0x80, 0xFE] {
                let mut message = [among; 5];
                message[place] = byte;
                words.push(word_of(&message, r));
            }
        }
    }
    words.extend([0x55, 0xAA].map(|byte| word_of(&[byte; 5], r)));
    for _ in 0..others {
        words.push(word_of(&random.bytes(5), r));
    }
    if r == 2 {
        for last in [[0, 0], [0, 0xFF], [0xFF, 0], [0xFF, 0xFF]] {
            for _ in 0..5 {
                words.push(with_last_two(&word_of(&random.bytes(5), r), last));
            }
        }
    }
    words
}

/// All 255 wrong values in all places: each is mended back, the number of bytes mended is 1.
fn every_single_wrong_byte(r: u8, words: &[Vec<u8>]) {
    let mut met = [0; 14];
    for word in words {
        assert_eq!(answer(r, word), expected(word, 0), "{word:02X?}");
        for place in 0..word.len() {
            for value in 1..=255 {
                let mut read = word.clone();
                read[place] ^= value;
                let answer = answer(r, &read);
                assert_eq!(answer, expected(word, 1), "{read:02X?} of {word:02X?}");
                met[answer.map_or_else(|no| no.0.into(), |_| 0usize)] += 1;
            }
        }
    }
    assert!(met[0] > 0 && met[12] > 0 && met[13] > 0, "{met:?}");
}

#[test]
fn every_single_wrong_byte_with_two_check_bytes() {
    let random = &mut Random::of_case("every_single_wrong_byte", 2);
    let words = words(random, 2, 400);
    assert_eq!(words.len(), 494);
    every_single_wrong_byte(2, &words);
}

#[test]
fn every_single_wrong_byte_with_four_check_bytes() {
    let random = &mut Random::of_case("every_single_wrong_byte", 4);
    every_single_wrong_byte(4, &words(random, 4, 100));
}

/// As many different places.
fn places(random: &mut Random, count: usize, length: usize) -> Vec<usize> {
    let mut places = Vec::new();
    while places.len() < count {
        let place = random.below(length);
        if !places.contains(&place) {
            places.push(place);
        }
    }
    places
}

/// How reads were answered: mended, to nothing, to another strand than their own, and that one refused.
#[derive(Debug, Default)]
struct Met {
    none: usize,
    another: usize,
    another_refused: usize,
}

impl Met {
    fn note(&mut self, answer: &Answer) {
        match answer {
            Ok(_) => self.another += 1,
            Err(Refusal(11)) => self.none += 1,
            Err(_) => self.another_refused += 1,
        }
    }
}

/// Two wrong bytes with R = 2, in all pairs of places.
#[test]
fn two_wrong_bytes_with_two_check_bytes() {
    let random = &mut Random::of_case("two_wrong_bytes", 2);
    let mut met = Met::default();
    for word in words(random, 2, 40) {
        for first in 0..7 {
            for second in 0..first {
                for _ in 0..20 {
                    let mut read = word.clone();
                    read[first] ^= random.between(1, 255) as u8;
                    read[second] ^= random.between(1, 255) as u8;
                    let answer = answer(2, &read);
                    assert_eq!(answer, by_brute_force(2, &read), "{read:02X?}");
                    met.note(&answer);
                }
            }
        }
    }
    assert!(met.none > 10_000 && met.another > 500, "{met:?}");
    assert!(met.another_refused > 0, "{met:?}");
}

/// Two wrong bytes with R = 4, in all pairs of places: mended back, and the number of bytes mended is 2.
#[test]
fn two_wrong_bytes_with_four_check_bytes() {
    let random = &mut Random::of_case("two_wrong_bytes", 4);
    for word in words(random, 4, 40) {
        for first in 0..9 {
            for second in 0..first {
                let mut values = vec![(1, 1), (255, 255), (1, 255), (128, 128)];
                for _ in 0..20 {
                    let any = random.between(1, 255) as u8;
                    values.extend([(any, any), (any, random.between(1, 255) as u8)]);
                }
                for (u, v) in values {
                    let mut read = word.clone();
                    read[first] ^= u;
                    read[second] ^= v;
                    assert_eq!(
                        answer(4, &read),
                        expected(&word, 2),
                        "{read:02X?} of {word:02X?}"
                    );
                }
            }
        }
    }
    // A sample of them, every value in every place tried.
    for word in words(random, 4, 0).into_iter().step_by(2) {
        let mut read = word.clone();
        for place in places(random, 2, 9) {
            read[place] ^= random.between(1, 255) as u8;
        }
        assert_eq!(by_brute_force(4, &read), expected(&word, 2), "{read:02X?}");
    }
}

/// What stands between this word and another one with check sums 0, as close as they get: five bytes in these places. With the
/// powers of 2 that belong to the places as x_i, they are 1 over the product of all x_i + x_j, times anything (Lagrange).
fn to_another(random: &mut Random, places: &[usize]) -> Vec<u8> {
    let x: Vec<u8> = places
        .iter()
        .map(|place| field_power(2, 8 - place))
        .collect();
    let times = random.between(1, 255) as u8;
    let mut between = vec![0; 9];
    for (i, &place) in places.iter().enumerate() {
        let others = x.iter().filter(|&&other| other != x[i]);
        let product = others.fold(1, |product, other| field_product(product, x[i] ^ other));
        between[place] = field_product(times, field_inverse(product));
    }
    between
}

/// Three wrong bytes with R = 4: of any values, by which few are near to another strand, and on the way to another.
#[test]
fn three_wrong_bytes_with_four_check_bytes() {
    let random = &mut Random::of_case("three_wrong_bytes", 4);
    let mut met = Met::default();
    for (turn, word) in words(random, 4, 88).into_iter().enumerate() {
        let places = places(random, 5, 9);
        let between = to_another(random, &places);
        let mut read = word.clone();
        for &place in &places[..3] {
            read[place] ^= if turn % 2 == 0 {
                random.between(1, 255) as u8
            } else {
                between[place]
            };
        }
        assert_eq!(differing_bytes(&read, &word), 3);
        let answer = answer(4, &read);
        assert_eq!(
            answer,
            by_brute_force(4, &read),
            "{read:02X?} of {word:02X?}"
        );
        if turn % 2 == 1 {
            let other: Vec<u8> = word.iter().zip(&between).map(|(a, b)| a ^ b).collect();
            assert_eq!(answer, expected(&other, 2), "{read:02X?} of {word:02X?}");
        }
        met.note(&answer);
    }
    assert!(met.none > 50 && met.another > 50, "{met:?}");
}
