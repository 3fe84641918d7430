//! Reads: legal ones, misread and damaged ones, and a screen that a read just passes or just misses.

use super::cards::Numbers;
use super::joints::{self, longest_inside, longest_run, through_first, through_second};
use super::random::Random;
use super::run::Regions;
use super::wrong_bytes;
use second::check_bytes_letters_screen::{
    check_bytes, field_product, letters_of_bytes, strand_bytes,
};
use second::mending::mend;

/// A read, and what it was made of.
#[derive(Clone)]
pub struct Read {
    pub letters: Vec<u8>,
    /// The bytes of the strand as it was printed.
    pub printed: Vec<u8>,
    /// Where the check sums are those of a longer word: how many bytes of that stand behind each of its wrong ones, one of
    /// which at least would be outside the read. There are no more of them than can be mended.
    pub outside: Vec<usize>,
}

impl Read {
    /// The strand of this seed and payload, read as the writer would print it.
    pub fn of(numbers: &Numbers, seed: u32, payload: &[u8]) -> Read {
        let printed = strand_bytes(seed, payload, numbers.r);
        Read {
            letters: letters_of_bytes(&printed),
            printed,
            outside: Vec::new(),
        }
    }

    /// The bytes of n legal letters.
    pub fn bytes(&self) -> Vec<u8> {
        self.letters.chunks(4).map(byte_of).collect()
    }
}

pub fn any_seed(random: &mut Random) -> u32 {
    match random.below(12) {
        0 => random.one_of(&[
            1,
            2,
            3,
            0xC5,
            0x8000_0000,
            u32::MAX,
            0x0100_0000,
            0x00FF_0000,
        ]),
        1 => 1 << random.below(32),
        _ => 1 + random.word() % u32::MAX,
    }
}

/// A payload of any bytes, or of few different ones, so that long runs occur.
pub fn any_payload(random: &mut Random, l: usize) -> Vec<u8> {
    if random.once_in(4) {
        let few = [
            random.one_of(&[0x00, 0x55, 0xAA, 0xFF]),
            random.one_of(&[0x00, 0x55, 0xAA, 0xFF]),
            random.byte(),
        ];
        return (0..l).map(|_| random.one_of(&few)).collect();
    }
    random.bytes(l)
}

/// Seed and payload of C and G alone, or of A and T alone; now and then the check bytes are so too.
fn of_one_kind(random: &mut Random, l: usize) -> (u32, Vec<u8>) {
    let pairs = random.one_of(&[[1, 2], [0, 3]]);
    let mut byte = || (0..4).fold(0, |byte, _| byte << 2 | random.one_of(&pairs));
    let seed = u32::from_be_bytes([byte(), byte(), byte(), byte()]);
    (seed, (0..l).map(|_| byte()).collect())
}

pub fn gc(read: &[u8]) -> usize {
    read.iter()
        .filter(|&&letter| letter == b'C' || letter == b'G')
        .count()
}

/// Whether C and G of the read lie within lo and hi.
pub fn gc_fits(numbers: &Numbers, read: &[u8]) -> bool {
    let (n, g) = (read.len(), 1000 * gc(read));
    (usize::from(numbers.lo) * n..=usize::from(numbers.hi) * n).contains(&g)
}

/// Sets m, lo and hi so that the read passes the screen, at an edge of it or far from all, unless a run is over 20.
pub fn let_pass(random: &mut Random, numbers: &mut Numbers, read: &[u8]) {
    let run = longest_run(read).clamp(1, 20);
    let thousandths = 1000 * gc(read) / read.len();
    let up = (1000 * gc(read)).div_ceil(read.len());
    numbers.m = if random.once_in(2) {
        run
    } else {
        random.between(run, 20)
    } as u8;
    numbers.lo = if random.once_in(2) {
        thousandths
    } else {
        random.between(0, thousandths)
    } as u16;
    numbers.hi = if random.once_in(2) {
        up
    } else {
        random.between(up, 1000)
    } as u16;
}

/// Widens m, lo and hi so that the read passes the screen as well as those that did, unless a run is over 20.
pub fn let_pass_too(numbers: &mut Numbers, read: &[u8]) {
    let thousandths = 1000 * gc(read) / read.len();
    let up = (1000 * gc(read)).div_ceil(read.len());
    numbers.m = numbers.m.max(longest_run(read).min(20) as u8);
    numbers.lo = numbers.lo.min(thousandths as u16);
    numbers.hi = numbers.hi.max(up as u16);
}

/// Sets one of m, lo and hi so that the read just misses the screen, if there is such a value.
pub fn let_miss(random: &mut Random, numbers: &mut Numbers, read: &[u8]) {
    let_pass(random, numbers, read);
    let run = longest_run(read);
    let thousandths = 1000 * gc(read) / read.len();
    let up = (1000 * gc(read)).div_ceil(read.len());
    match random.below(3) {
        0 if (2..=21).contains(&run) => numbers.m = run as u8 - 1,
        1 if thousandths < 1000 => {
            numbers.lo = thousandths as u16 + 1;
            numbers.hi = numbers.hi.max(numbers.lo);
        }
        _ if up > 0 => {
            numbers.hi = up as u16 - 1;
            numbers.lo = numbers.lo.min(numbers.hi);
        }
        _ => (),
    }
}

/// A read for an accepted card: legal, with seed 0, misread, or damaged in one way or another. May set the card's m, lo and hi.
pub fn any_read(random: &mut Random, numbers: &mut Numbers) -> Read {
    let l = usize::from(numbers.l);
    if random.once_in(16) {
        let (seed, payload) = joints::any_droplet(random, l, numbers.r);
        let mut read = Read::of(numbers, seed, &payload);
        wrong_bytes::misread_at_a_joint(random, numbers, &mut read);
        return read;
    }
    let (seed, payload) = match random.below(20) {
        0 => (0, vec![0; l]),
        1 => (0, any_payload(random, l)),
        2 => of_one_kind(random, l),
        3..=5 => joints::any_droplet(random, l, numbers.r),
        _ => (any_seed(random), any_payload(random, l)),
    };
    let mut read = Read::of(numbers, seed, &payload);
    match random.below(8) {
        0 | 1 => let_miss(random, numbers, &read.letters),
        2 => (),
        _ => let_pass(random, numbers, &read.letters),
    }
    match random.below(12) {
        0..=2 => damage(random, numbers, &mut read.letters),
        3..=7 => wrong_bytes::misread(random, numbers, &mut read),
        _ => (),
    }
    read
}

/// One or more damages to letters, lengths or bytes. Some of them are mended.
pub fn damage(random: &mut Random, numbers: &Numbers, read: &mut Vec<u8>) {
    match random.below(10) {
        0 => change_letters(
            random,
            read,
            &[
                b'N', b'a', b'c', b'g', b't', b'U', b'\n', 0, b'@', b'B', b'D', b'F', b'H', b'S',
            ],
        ),
        1 => {
            let any = random.byte();
            change_letters(random, read, &[any]);
        }
        2 | 3 => change_letters(random, read, b"ACGT"),
        4 => change_length(random, read),
        5 => {
            change_length(random, read);
            change_letters(random, read, b"NACGT");
        }
        6 => only_last_check_sum(random, numbers, read),
        7 => swap_letters(random, read),
        8 => {
            let length = read.len();
            *read = (0..length).map(|_| random.one_of(b"ACGT")).collect();
        }
        _ => {
            let length = random.below(2 * read.len());
            *read = random.bytes(length);
        }
    }
}

fn change_letters(random: &mut Random, read: &mut [u8], to: &[u8]) {
    if read.is_empty() {
        return;
    }
    for _ in 0..random.one_of(&[1, 1, 2, 5]) {
        let place = match random.below(4) {
            0 => 0,
            1 => read.len() - 1,
            _ => random.below(read.len()),
        };
        read[place] = random.one_of(to);
    }
}

fn change_length(random: &mut Random, read: &mut Vec<u8>) {
    match random.below(6) {
        0 => {
            read.pop();
        }
        1 => read.push(random.one_of(b"ACGT\n")),
        2 => read.clear(),
        3 => read.truncate(read.len() - 4),
        4 => read.extend_from_slice(b"ACGT"),
        _ => read.truncate(random.below(read.len())),
    }
}

fn swap_letters(random: &mut Random, read: &mut [u8]) {
    let (a, b) = (random.below(read.len()), random.below(read.len()));
    read.swap(a, b);
}

/// The polynomial of least degree that is 0 at the first roots, a^0 and so on, as many as are asked for.
pub fn zero_at_roots(count: usize) -> Vec<u8> {
    let mut polynomial = vec![1];
    polynomial.extend(check_bytes(&[1], count));
    polynomial
}

/// Adds a polynomial that is 0 at a^0 .. a^(R-2) and not at a^(R-1): of the R check sums only the last tells of it.
fn only_last_check_sum(random: &mut Random, numbers: &Numbers, read: &mut [u8]) {
    let factor = zero_at_roots(usize::from(numbers.r) - 1);
    let times = random.between(1, 255) as u8;
    let bytes: Vec<u8> = read.chunks(4).map(byte_of).collect();
    let place = random.below(bytes.len() - factor.len() + 1);
    let mut changed = bytes;
    for (i, &coefficient) in factor.iter().enumerate() {
        changed[place + i] ^= field_product(times, coefficient);
    }
    read.copy_from_slice(&letters_of_bytes(&changed));
}

pub fn byte_of(letters: &[u8]) -> u8 {
    letters.iter().fold(0, |byte, letter| {
        byte << 2 | b"ACGT".iter().position(|base| base == letter).unwrap_or(0) as u8
    })
}

/// The regions of questions 9 to 13 that the read check and shelving must meet.
#[rustfmt::skip]
pub const REGIONS: &[&str] = &[
    "answer 9", "answer 10", "answer 11", "answer 12", "answer 13",
    "9: a letter short", "9: a letter over", "9: empty", "10: N", "10: small letter", "10: the last letter",
    "11: only the last check sum", "13: run = m + 1", "13: run = m + 1 over the end of eight bytes",
    "13: run of eight bytes and more", "13: lo just missed", "13: hi just missed",
    "run = m", "run over a byte's end", "lo just passed", "hi just passed", "all of C and G", "none of C and G", "lo and hi both met",
    "seed 1",
];

/// Notes what region of questions 9 to 13 the read comes from, under the answer that it had. The screen is that of the mended
/// strand.
pub fn note(regions: &mut Regions, numbers: &Numbers, made: &Read, answer: u32) {
    let read = &made.letters;
    match answer {
        1..=8 | 14 | 27 => (),
        9 => {
            regions.note_if(read.len() + 1 == numbers.n(), "9: a letter short");
            regions.note_if(read.len() == numbers.n() + 1, "9: a letter over");
            regions.note_if(read.is_empty(), "9: empty");
        }
        10 => {
            let bad: Vec<usize> = (0..read.len())
                .filter(|&i| !b"ACGT".contains(&read[i]))
                .collect();
            regions.note_if(bad.iter().any(|&i| read[i] == b'N'), "10: N");
            regions.note_if(
                bad.iter().any(|&i| b"acgt".contains(&read[i])),
                "10: small letter",
            );
            regions.note_if(bad == [read.len() - 1], "10: the last letter");
            let strand = letters_of_bytes(&made.printed);
            let wrong = (0..read.len()).filter(|&i| read[i] != strand[i]);
            regions.note_if(
                wrong.eq(bad) && strand.len() == read.len(),
                "10: the only wrong letter",
            );
        }
        11 => {
            wrong_bytes::note(regions, numbers, made, answer);
            let sums = second::check_bytes_letters_screen::check_sums(&made.bytes(), numbers.r);
            let last = usize::from(numbers.r) - 1;
            regions.note_if(
                sums[..last].iter().all(|&sum| sum == 0),
                "11: only the last check sum",
            );
        }
        12 => wrong_bytes::note(regions, numbers, made, answer),
        _ => {
            wrong_bytes::note(regions, numbers, made, answer);
            let mended = mend(&made.bytes(), numbers.r).expect("question 11 said yes");
            note_screen(
                regions,
                numbers,
                &letters_of_bytes(&mended.word),
                answer != 13,
            );
        }
    }
}

/// The longest run inside the strand if it were cut after each eight bytes, counted from the end of the strand.
fn longest_inside_eights(read: &[u8]) -> usize {
    let (front, eights) = read.split_at(read.len() % 32);
    eights
        .chunks(32)
        .map(longest_inside)
        .fold(longest_inside(front), usize::max)
}

fn note_screen(regions: &mut Regions, numbers: &Numbers, read: &[u8], passed: bool) {
    joints::note(regions, numbers, read, passed);
    let (run, n, g) = (longest_run(read), read.len(), 1000 * gc(read));
    let inside = longest_inside(read);
    let (m, lo, hi) = (
        usize::from(numbers.m),
        usize::from(numbers.lo),
        usize::from(numbers.hi),
    );
    if passed {
        regions.note_if(read.starts_with(b"AAAAAAAAAAAAAAAC"), "seed 1");
        regions.note_if(run == m, "run = m");
        regions.note_if(inside >= 5, "run over a byte's end");
        regions.note_if(g < (lo + 1) * n, "lo just passed");
        regions.note_if(hi > 0 && (hi - 1) * n < g, "hi just passed");
        regions.note_if(g == 1000 * n, "all of C and G");
        regions.note_if(g == 0, "none of C and G");
        regions.note_if(lo == hi, "lo and hi both met");
    } else {
        let off_the_joints = through_first(read).max(through_second(read)) <= m;
        let by_one = inside == m + 1 && off_the_joints && gc_fits(numbers, read);
        regions.note_if(by_one, "13: run = m + 1");
        regions.note_if(
            by_one && longest_inside_eights(read) <= m,
            "13: run = m + 1 over the end of eight bytes",
        );
        regions.note_if(inside >= 64, "13: run of eight bytes and more");
        regions.note_if(
            run <= m && lo > 0 && g < lo * n && (lo - 1) * n <= g,
            "13: lo just missed",
        );
        regions.note_if(
            run <= m && hi * n < g && g <= (hi + 1) * n,
            "13: hi just missed",
        );
    }
}
