//! Documents 01 and 02 (Items 1, 3, 5, 6, 8, 12 and 14) in Rust, tuned for speed, behind the same interface as the proved
//! archives: the same buffers, the same checks in each call, no memory of its own between calls and no allocation. It is tuned where
//! plain code would be unfair: letters, C and G, doubling, parity, logarithms and the roots of quadratics by tables that are computed
//! when it is compiled, and a bitmap for large sets.

#[derive(Clone, Copy)]
pub struct Card {
    pub f: u32,
    pub l: u8,
    pub r: u8,
    pub m: u8,
    pub lo: u16,
    pub hi: u16,
    pub dealt: u8,
    pub width: u32,
}

const fn double(x: u8) -> u8 {
    (x << 1) ^ (if x >= 128 { 0x1D } else { 0 })
}

const fn table_of_letters() -> [u8; 256] {
    let mut t = [255; 256];
    t[b'A' as usize] = 0;
    t[b'C' as usize] = 1;
    t[b'G' as usize] = 2;
    t[b'T' as usize] = 3;
    t
}

const fn table_of_words() -> [[u8; 4]; 256] {
    let mut t = [[0; 4]; 256];
    let mut b = 0;
    while b < 256 {
        let mut k = 0;
        while k < 4 {
            t[b][k] = b"ACGT"[(b >> (6 - 2 * k)) & 3];
            k += 1;
        }
        b += 1;
    }
    t
}

const fn table_of_gc() -> [u8; 256] {
    let mut t = [0; 256];
    let mut b = 0;
    while b < 256 {
        t[b] = ((b ^ (b >> 1)) & 0x55).count_ones() as u8;
        b += 1;
    }
    t
}

const fn table_of_doubles() -> [u8; 256] {
    let mut t = [0; 256];
    let mut b = 0;
    while b < 256 {
        t[b] = double(b as u8);
        b += 1;
    }
    t
}

// The multiples of the generator polynomial for R = 2, its highest coefficient left out: f·3, f·2 of 1 3 2.
const fn table_of_two() -> [u16; 256] {
    let mut t = [0; 256];
    let mut f = 0;
    while f < 256 {
        let one = f as u8;
        let two = double(one);
        t[f] = ((one ^ two) as u16) << 8 | two as u16;
        f += 1;
    }
    t
}

// A byte's share in the remainder with four bytes behind it, and with one, two and three more: what makes a step of four bytes.
const fn tables_of_four() -> [[u32; 256]; 4] {
    let mut t = [[0; 256]; 4];
    let mut f = 0;
    while f < 256 {
        let a = f as u8;
        let b = double(a);
        let c = double(b);
        let d = double(c);
        let e = double(d);
        let g = double(e);
        let h = double(g);
        t[0][f] = u32::from_be_bytes([a ^ b ^ c ^ d, b ^ c ^ e ^ g, d ^ e ^ g ^ h, h]);
        f += 1;
    }
    let mut k = 1;
    while k < 4 {
        f = 0;
        while f < 256 {
            let before = t[k - 1][f];
            t[k][f] = before << 8 ^ t[0][(before >> 24) as usize];
            f += 1;
        }
        k += 1;
    }
    t
}

// The powers of the root, twice over, so that a sum of two logarithms needs no remainder; behind them zeros, for products with 0.
const fn table_of_powers() -> [u8; 1021] {
    let mut t = [0; 1021];
    let mut x = 1;
    let mut i = 0;
    while i < 510 {
        t[i] = x;
        x = double(x);
        i += 1;
    }
    t
}

// The logarithms. That of 0 is so large that every sum with it is among the zeros of the powers.
const fn table_of_logs() -> [u16; 256] {
    let mut t = [510; 256];
    let mut x = 1;
    let mut i = 0;
    while i < 255 {
        t[x as usize] = i;
        x = double(x);
        i += 1;
    }
    t
}

// For the logarithm of c those of y and y + 1, the two roots of y·y + y = c; 255 where there are none. c = 0 has no logarithm, so 0
// and 1, its roots, are in no place.
const fn table_of_roots() -> [[u8; 2]; 255] {
    let logs = table_of_logs();
    let powers = table_of_powers();
    let mut t = [[255; 2]; 255];
    let mut y = 2;
    while y < 256 {
        let c = powers[2 * logs[y] as usize] ^ y as u8;
        t[logs[c as usize] as usize] = [logs[y] as u8, logs[y ^ 1] as u8];
        y += 1;
    }
    t
}

// What each byte of a remainder of four adds to the four check sums, which are those of the word.
const fn tables_of_sums() -> [[u32; 256]; 4] {
    let mut t = [[0; 256]; 4];
    let mut k = 0;
    while k < 4 {
        let mut b = 0;
        while b < 256 {
            let mut sums = [b as u8; 4];
            let mut j = 1;
            while j < 4 {
                let mut left = j * (3 - k);
                while left > 0 {
                    sums[j] = double(sums[j]);
                    left -= 1;
                }
                j += 1;
            }
            t[k][b] = u32::from_be_bytes(sums);
            b += 1;
        }
        k += 1;
    }
    t
}

static LETTERS: [u8; 256] = table_of_letters();
static WORDS: [[u8; 4]; 256] = table_of_words();
static GC: [u8; 256] = table_of_gc();
static DOUBLES: [u8; 256] = table_of_doubles();
static TWO: [u16; 256] = table_of_two();
static FOUR: [[u32; 256]; 4] = tables_of_four();
static POWERS: [u8; 1021] = table_of_powers();
static LOGS: [u16; 256] = table_of_logs();
static ROOTS: [[u8; 2]; 255] = table_of_roots();
static SUMS: [[u32; 256]; 4] = tables_of_sums();

struct Plan {
    k: u32,
    degrees: usize,
    sum: u32,
}

fn plan_of(card: &Card, weights: &[u8]) -> Result<Plan, u32> {
    if card.f < 1 || card.f > 8_388_608 || card.l < 1 || card.l > 64 || (card.r != 2 && card.r != 4)
    {
        return Err(2);
    }
    let k = card.f.div_ceil(card.l as u32);
    if k > 131_072 {
        return Err(2);
    }
    if card.m < 1 || card.m > 20 || card.lo > card.hi || card.hi > 1000 {
        return Err(3);
    }
    let degrees = weights.len() / 4;
    if weights.len() % 4 != 0 || degrees < 1 || degrees > 1024.min(k as usize) {
        return Err(4);
    }
    let mut sum = 0u64;
    for w in weights.chunks_exact(4) {
        sum += u32::from_be_bytes([w[0], w[1], w[2], w[3]]) as u64;
    }
    if sum < 1 || sum > u32::MAX as u64 {
        return Err(4);
    }
    if card.dealt != 0 && (card.width < 2 || card.width > card.f) {
        return Err(27);
    }
    Ok(Plan {
        k,
        degrees,
        sum: sum as u32,
    })
}

/// Seed, payload, a state byte and the count of the reads behind them.
pub fn record_bytes(l: usize) -> usize {
    4 + l + 1 + 4
}

fn word_bytes(card: &Card) -> usize {
    4 + card.l as usize + card.r as usize
}

/// Question 11, with the word mended where at most R/2 of its bytes are wrong: whether it was, or `None` where it cannot be. What a
/// clean word does not need is out of its way.
fn mend(r: u8, word: &mut [u8]) -> Option<bool> {
    if r == 2 {
        let (mut a, mut b) = (0u8, 0u8);
        for &x in word.iter() {
            a ^= x;
            b = DOUBLES[b as usize] ^ x;
        }
        if a | b == 0 {
            return Some(false);
        }
        return mend_by_two(a, b, word).then_some(true);
    }
    let (message, parity) = word.split_at(word.len() - 4);
    let rest =
        parity_four(message) ^ u32::from_be_bytes([parity[0], parity[1], parity[2], parity[3]]);
    if rest == 0 {
        return Some(false);
    }
    mend_by_four(rest, word).then_some(true)
}

#[inline(always)]
fn log(x: u8) -> usize {
    LOGS[x as usize] as usize
}

#[inline(always)]
fn product(x: u8, y: u8) -> u8 {
    POWERS[log(x) + log(y)]
}

/// The logarithm of a quotient, from those of its two bytes, of which none is 0.
#[inline(always)]
fn log_quotient(x: usize, y: usize) -> usize {
    if x >= y {
        x - y
    } else {
        x + 255 - y
    }
}

/// XORs into the byte at a place, counted from the last byte, if the word has it.
#[inline(always)]
fn change(place: usize, by: u8, word: &mut [u8]) -> bool {
    let there = place < word.len();
    if there {
        word[word.len() - 1 - place] ^= by;
    }
    there
}

/// One wrong byte leaves its change as the first check sum, and the quotient of the two is the root to the power of its place.
#[cold]
#[inline(never)]
fn mend_by_two(a: u8, b: u8, word: &mut [u8]) -> bool {
    a != 0 && b != 0 && change(log_quotient(log(b), log(a)), a, word)
}

/// Two wrong bytes, or one if the locator has no square term: then all quotients of a check sum and the one before it must agree.
#[cold]
#[inline(never)]
fn mend_by_four(rest: u32, word: &mut [u8]) -> bool {
    let [a, b, c, d] = (SUMS[0][(rest >> 24) as usize]
        ^ SUMS[1][(rest >> 16 & 255) as usize]
        ^ SUMS[2][(rest >> 8 & 255) as usize]
        ^ SUMS[3][(rest & 255) as usize])
        .to_be_bytes();
    let square = product(a, c) ^ product(b, b);
    let linear = product(a, d) ^ product(b, c);
    if square == 0 {
        return a != 0 && b != 0 && linear == 0 && change(log_quotient(log(b), log(a)), a, word);
    }
    let constant = product(b, d) ^ product(c, c);
    // Without a linear term both places are the same one, without a constant one of them is none.
    if linear == 0 || constant == 0 {
        return false;
    }
    // With x = y·linear/square the locator is y·y + y = constant·square/linear², whose roots are in the table.
    let sum = log_quotient(log(linear), log(square));
    let [y, z] = ROOTS[(log(constant) + log(square) + 510 - 2 * log(linear)) % 255];
    if y == 255 {
        return false;
    }
    let (p, q) = ((sum + y as usize) % 255, (sum + z as usize) % 255);
    if p >= word.len() || q >= word.len() {
        return false;
    }
    let by = POWERS[log_quotient(log(POWERS[p + log(a)] ^ b), sum)];
    change(p, a ^ by, word) && change(q, by, word)
}

/// The four check bytes, four bytes of the message a step.
#[inline(always)]
fn parity_four(message: &[u8]) -> u32 {
    let mut rest = 0u32;
    let mut fours = message.chunks_exact(4);
    for b in fours.by_ref() {
        let x = rest ^ u32::from_be_bytes([b[0], b[1], b[2], b[3]]);
        rest = FOUR[3][(x >> 24) as usize]
            ^ FOUR[2][(x >> 16 & 255) as usize]
            ^ FOUR[1][(x >> 8 & 255) as usize]
            ^ FOUR[0][(x & 255) as usize];
    }
    for &b in fours.remainder() {
        rest = rest << 8 ^ FOUR[0][((rest >> 24) as u8 ^ b) as usize];
    }
    rest
}

/// What the card's limits make of a strand.
enum Verdict {
    Passes,
    LongRun,
    GcAlone,
}

/// Of the sites only the bases beside the strand can join a run of it: a single C before it, a single T after it.
fn screen(card: &Card, word: &[u8]) -> Verdict {
    let mut last = 1u8;
    let (mut run, mut longest, mut gc) = (1u32, 0u32, 0u32);
    for &b in word {
        for base in [b >> 6, (b >> 4) & 3, (b >> 2) & 3, b & 3] {
            run = if base == last { run + 1 } else { 1 };
            longest = longest.max(run);
            last = base;
        }
        gc += GC[b as usize] as u32;
    }
    if last == 3 {
        longest = longest.max(run + 1);
    }
    let n = 4 * word.len() as u32;
    if longest > card.m as u32 {
        Verdict::LongRun
    } else if card.lo as u32 * n <= 1000 * gc && 1000 * gc <= card.hi as u32 * n {
        Verdict::Passes
    } else {
        Verdict::GcAlone
    }
}

/// Questions 9 to 13: whether the read was mended, with its mended word in the buffer.
fn check_letters(card: &Card, read: &[u8], word: &mut [u8; 72]) -> Result<bool, u32> {
    let size = word_bytes(card);
    if read.len() != 4 * size {
        return Err(9);
    }
    let word = &mut word[..size];
    for (byte, four) in word.iter_mut().zip(read.chunks_exact(4)) {
        let a = LETTERS[four[0] as usize];
        let b = LETTERS[four[1] as usize];
        let c = LETTERS[four[2] as usize];
        let d = LETTERS[four[3] as usize];
        if a | b | c | d > 3 {
            return Err(10);
        }
        *byte = a << 6 | b << 4 | c << 2 | d;
    }
    let Some(mended) = mend(card.r, word) else {
        return Err(11);
    };
    if word[..4] == [0; 4] {
        return Err(12);
    }
    if !matches!(screen(card, word), Verdict::Passes) {
        return Err(13);
    }
    Ok(mended)
}

#[inline(never)]
pub fn check_read(card: Card, weights: &[u8], read: &[u8], out: &mut [u8]) -> u32 {
    if let Err(n) = plan_of(&card, weights) {
        return n;
    }
    let mut word = [0; 72];
    if let Err(n) = check_letters(&card, read, &mut word) {
        return n;
    }
    let size = 4 + card.l as usize;
    if out.len() < size {
        return 16;
    }
    out[..size].copy_from_slice(&word[..size]);
    0
}

/// The order's sites, before the strand and after it.
pub const SITE_BEFORE: &[u8; 27] = b"GTTTCAGAGTTCTACAGTCCGACGATC";
pub const SITE_AFTER: &[u8; 21] = b"TGGAATTCTCGGGTGCCAAGG";

/// Whether a call has the order's length and sites, each compared as one array, and between them a read that questions 9 to 13
/// let pass.
fn passes(card: &Card, call: &[u8]) -> bool {
    if call.len() != SITE_BEFORE.len() + 4 * word_bytes(card) + SITE_AFTER.len() {
        return false;
    }
    let Some((before, rest)) = call.split_first_chunk() else {
        return false;
    };
    let Some((read, after)) = rest.split_last_chunk() else {
        return false;
    };
    before == SITE_BEFORE && after == SITE_AFTER && check_letters(card, read, &mut [0; 72]).is_ok()
}

#[inline(never)]
pub fn choose_call(
    card: Card,
    weights: &[u8],
    first: &[u8],
    second: &[u8],
    answer: &mut [u64; 1],
) -> u32 {
    if let Err(n) = plan_of(&card, weights) {
        return n;
    }
    if passes(&card, first) {
        *answer = [0];
    } else if passes(&card, second) {
        *answer = [1];
    } else {
        return 21;
    }
    0
}

/// The number of the first record of a seed: two records a turn, for with one the time hangs on where the compiler puts the loop.
#[inline(never)]
fn find(shelf: &[u8], size: usize, seed: u32) -> Option<usize> {
    let seed_at = |r: &[u8]| u32::from_ne_bytes([r[0], r[1], r[2], r[3]]);
    let mut pairs = shelf.chunks_exact(2 * size);
    for (i, pair) in pairs.by_ref().enumerate() {
        if seed_at(pair) == seed {
            return Some(2 * i);
        }
        if seed_at(&pair[size..]) == seed {
            return Some(2 * i + 1);
        }
    }
    let last = pairs.remainder();
    (last.len() == size && seed_at(last) == seed).then(|| shelf.len() / size - 1)
}

#[inline(never)]
pub fn store(
    card: Card,
    weights: &[u8],
    shelf: &mut [u8],
    count: usize,
    read: &[u8],
    answer: &mut [u64; 2],
) -> u32 {
    if let Err(n) = plan_of(&card, weights) {
        return n;
    }
    let (size, state) = (record_bytes(card.l as usize), 4 + card.l as usize);
    if count > shelf.len() / size {
        return 14;
    }
    let mut word = [0; 72];
    let mended = match check_letters(&card, read, &mut word) {
        Ok(mended) => mended,
        Err(n) => return n,
    };
    let droplet = &word[..state];
    let seed = u32::from_ne_bytes([word[0], word[1], word[2], word[3]]);
    let there = find(&shelf[..count * size], size, seed);
    if let Some(i) = there {
        let record = &mut shelf[i * size..(i + 1) * size];
        let takes_over = !mended && record[state] != 0;
        if !takes_over && record[..state] != *droplet {
            return 15;
        }
        let (evidence, behind) = record.split_at_mut(state + 1);
        let reads = u32::from_be_bytes([behind[0], behind[1], behind[2], behind[3]]);
        if reads == u32::MAX {
            return 20;
        }
        behind.copy_from_slice(&(reads + 1).to_be_bytes());
        if takes_over {
            evidence[4..state].copy_from_slice(&droplet[4..]);
            evidence[state] = 0;
        }
        *answer = [1 + takes_over as u64, count as u64];
        return 0;
    }
    let at = count * size;
    if shelf.len() - at < size {
        return 16;
    }
    let (evidence, behind) = shelf[at..at + size].split_at_mut(state + 1);
    evidence[..state].copy_from_slice(droplet);
    evidence[state] = u8::from(mended);
    behind.copy_from_slice(&1u32.to_be_bytes());
    *answer = [0, count as u64 + 1];
    0
}

#[derive(Clone, Copy)]
struct Draw {
    x: u32,
    w: u32,
}

impl Draw {
    #[inline(always)]
    fn draw(&mut self) -> u32 {
        let mut x = self.x;
        x ^= x << 13;
        x ^= x >> 17;
        x ^= x << 5;
        self.x = x;
        self.w = self.w.wrapping_add(362_437);
        x.wrapping_add(self.w)
    }
}

fn degree_of(weights: &[u8], r: u32) -> usize {
    let mut sum = 0u64;
    let mut d = 0;
    while sum <= r as u64 {
        let w = &weights[4 * d..4 * d + 4];
        sum += u32::from_be_bytes([w[0], w[1], w[2], w[3]]) as u64;
        d += 1;
    }
    d
}

fn pick(mut state: Draw, k: u32, d: usize, list: &mut [u32]) {
    let first = k - d as u32;
    if d <= 16 {
        for i in 0..d {
            let j = first + i as u32;
            let t = state.draw() % (j + 1);
            list[i] = if list[..i].contains(&t) { j } else { t };
        }
        return;
    }
    let mut bits = [0u64; 2048];
    for i in 0..d {
        let j = first + i as u32;
        let t = state.draw() % (j + 1);
        let joined = bits[(t / 64) as usize] >> (t % 64) & 1 == 1;
        let s = if joined { j } else { t };
        bits[(s / 64) as usize] |= 1 << (s % 64);
        list[i] = s;
    }
}

#[inline(always)]
fn xor_into(to: &mut [u8], from: &[u8]) {
    for (a, b) in to.iter_mut().zip(from) {
        *a ^= b;
    }
}

fn xor_segment(payload: &mut [u8; 64], file: &[u8], l: usize, s: u32) {
    let from = s as usize * l;
    let to = (from + l).min(file.len());
    if from < to {
        xor_into(&mut payload[..l], &file[from..to]);
    }
}

#[allow(clippy::too_many_arguments)]
#[inline(never)]
pub fn write(
    card: Card,
    weights: &[u8],
    file: &[u8],
    start: u32,
    wanted: u32,
    budget: u32,
    out: &mut [u8],
    list: &mut [u32],
    answer: &mut [u64; 6],
) -> u32 {
    let plan = match plan_of(&card, weights) {
        Ok(plan) => plan,
        Err(n) => return n,
    };
    let (l, size) = (card.l as usize, word_bytes(&card));
    let line = 4 * size + 1;
    if file.len() != card.f as usize {
        return 5;
    }
    if start == 0 {
        return 6;
    }
    if wanted > 1_000_000 || out.len() < wanted as usize * line {
        return 7;
    }
    if list.len() < plan.degrees {
        return 8;
    }
    let (mut seed, mut made, mut tried, mut at) = (start, 0, 0, 0);
    let (mut long_run, mut gc_alone) = (0, 0);
    let mut word = [0u8; 72];
    while made != wanted && tried != budget {
        let mut state = Draw { x: seed, w: 0 };
        let d = degree_of(weights, state.draw() % plan.sum);
        pick(state, plan.k, d, list);
        let mut payload = [0u8; 64];
        for &s in &list[..d] {
            xor_segment(&mut payload, file, l, s);
        }
        word[..4].copy_from_slice(&seed.to_be_bytes());
        word[4..4 + l].copy_from_slice(&payload[..l]);
        if card.r == 2 {
            let mut rest = 0u16;
            for &b in &word[..4 + l] {
                rest = rest << 8 ^ TWO[((rest >> 8) as u8 ^ b) as usize];
            }
            word[4 + l..6 + l].copy_from_slice(&rest.to_be_bytes());
        } else {
            let rest = parity_four(&word[..4 + l]);
            word[4 + l..8 + l].copy_from_slice(&rest.to_be_bytes());
        }
        match screen(&card, &word[..size]) {
            Verdict::Passes => {
                let text = &mut out[at..at + line];
                for (four, &b) in text.chunks_exact_mut(4).zip(&word[..size]) {
                    four.copy_from_slice(&WORDS[b as usize]);
                }
                text[line - 1] = b'\n';
                made += 1;
                at += line;
            }
            Verdict::LongRun => long_run += 1,
            Verdict::GcAlone => gc_alone += 1,
        }
        tried += 1;
        seed = seed << 1 ^ (if seed >> 31 == 1 { 0xC5 } else { 0 });
    }
    *answer = [
        (made != wanted) as u64,
        made as u64,
        tried as u64,
        seed as u64,
        long_run,
        gc_alone,
    ];
    0
}

enum Unmarked {
    None,
    One(u32),
    Several,
}

/// Draws a record's set and looks at the marks as it goes; it stops at the second unmarked segment. Beyond 16 segments it goes on
/// with a bitmap.
fn draw_record(
    record: &[u8],
    plan: &Plan,
    weights: &[u8],
    marks: &[u8],
    list: &mut [u32],
) -> (usize, Unmarked) {
    let seed = u32::from_be_bytes([record[0], record[1], record[2], record[3]]);
    let mut state = Draw { x: seed, w: 0 };
    let d = degree_of(weights, state.draw() % plan.sum);
    let first = plan.k - d as u32;
    let mut found = Unmarked::None;
    let few = d.min(16);
    let mut i = 0;
    while i < few {
        let j = first + i as u32;
        let t = state.draw() % (j + 1);
        let s = if list[..i].contains(&t) { j } else { t };
        list[i] = s;
        if marks[s as usize] != 1 {
            match found {
                Unmarked::None => found = Unmarked::One(s),
                _ => return (d, Unmarked::Several),
            }
        }
        i += 1;
    }
    if i == d {
        return (d, found);
    }
    let mut bits = [0u64; 2048];
    for &s in &list[..i] {
        bits[(s / 64) as usize] |= 1 << (s % 64);
    }
    while i < d {
        let j = first + i as u32;
        let t = state.draw() % (j + 1);
        let joined = bits[(t / 64) as usize] >> (t % 64) & 1 == 1;
        let s = if joined { j } else { t };
        bits[(s / 64) as usize] |= 1 << (s % 64);
        list[i] = s;
        if marks[s as usize] != 1 {
            match found {
                Unmarked::None => found = Unmarked::One(s),
                _ => return (d, Unmarked::Several),
            }
        }
        i += 1;
    }
    (d, found)
}

#[allow(clippy::too_many_arguments)]
#[inline(never)]
pub fn restore(
    card: Card,
    weights: &[u8],
    shelf: &[u8],
    count: usize,
    file: &mut [u8],
    marks: &mut [u8],
    list: &mut [u32],
    answer: &mut [u64; 3],
) -> u32 {
    let plan = match plan_of(&card, weights) {
        Ok(plan) => plan,
        Err(n) => return n,
    };
    let l = card.l as usize;
    let (k, size) = (plan.k as usize, record_bytes(l));
    if count > shelf.len() / size {
        return 14;
    }
    let shelf = &shelf[..count * size];
    if shelf.chunks_exact(size).any(|r| r[..4] == [0; 4]) {
        return 17;
    }
    if file.len() < k * l || marks.len() < k {
        return 18;
    }
    if list.len() < plan.degrees {
        return 8;
    }
    let file = &mut file[..k * l];
    let marks = &mut marks[..k];
    file.fill(0);
    marks.fill(0);
    let (mut present, mut sweeps) = (0u64, 0u64);
    loop {
        let mut filled = 0;
        for record in shelf.chunks_exact(size) {
            let (d, found) = draw_record(record, &plan, weights, marks, list);
            let Unmarked::One(s) = found else { continue };
            let mut payload = [0u8; 64];
            payload[..l].copy_from_slice(&record[4..4 + l]);
            for &t in &list[..d] {
                if t != s {
                    xor_segment(&mut payload, file, l, t);
                }
            }
            file[s as usize * l..(s as usize + 1) * l].copy_from_slice(&payload[..l]);
            marks[s as usize] = 1;
            filled += 1;
        }
        sweeps += 1;
        present += filled;
        if filled == 0 {
            break;
        }
    }
    let mut contradictions = 0;
    for record in shelf.chunks_exact(size) {
        let (d, found) = draw_record(record, &plan, weights, marks, list);
        let Unmarked::None = found else { continue };
        let mut payload = [0u8; 64];
        for &t in &list[..d] {
            xor_segment(&mut payload, file, l, t);
        }
        contradictions += (payload[..l] != record[4..4 + l]) as u64;
    }
    *answer = [present, sweeps, contradictions];
    0
}

/// Copies `count` bytes that stand `from_step` apart to places that are `to_step` apart.
#[inline(always)]
fn copy_strided(
    count: usize,
    (to, to_step, target): (usize, usize, &mut [u8]),
    (from, from_step, source): (usize, usize, &[u8]),
) {
    if count == 0 {
        return;
    }
    assert!(to + (count - 1) * to_step < target.len());
    assert!(from + (count - 1) * from_step < source.len());
    let (mut t, mut s) = (to, from);
    for _ in 0..count {
        // The last places of both are within their slices, as was just asserted, and so are those before them.
        unsafe { *target.get_unchecked_mut(t) = *source.get_unchecked(s) };
        t += to_step;
        s += from_step;
    }
}

/// Bytes that stand from `i` on in the file and from `at` on in the dealt file, dealt or put back.
#[inline(always)]
fn move_strided<const BACK: bool>(
    count: usize,
    (i, i_step): (usize, usize),
    (at, at_step): (usize, usize),
    source: &[u8],
    target: &mut [u8],
) {
    if BACK {
        copy_strided(count, (i, i_step, target), (at, at_step, source));
    } else {
        copy_strided(count, (at, at_step, target), (i, i_step, source));
    }
}

/// One line of a file, in order: the columns that the last, short line reaches are a byte longer than the others.
fn move_line<const BACK: bool>(
    (w, n): (usize, usize),
    line: usize,
    columns: usize,
    source: &[u8],
    target: &mut [u8],
) {
    let (whole, i) = (n / w, line * w);
    let longer = columns.min(n % w);
    move_strided::<BACK>(longer, (i, 1), (line, whole + 1), source, target);
    let at = longer * (whole + 1) + line;
    move_strided::<BACK>(
        columns - longer,
        (i + longer, 1),
        (at, whole),
        source,
        target,
    );
}

/// Bands of so few lines that what stands beside a column's bytes is still in the cache when the next column takes it; where there are
/// fewer than eight lines, line by line.
fn move_file<const BACK: bool>(w: usize, n: usize, source: &[u8], target: &mut [u8]) {
    let (whole, more) = (n / w, n % w);
    if whole < 8 {
        for line in 0..whole {
            move_line::<BACK>((w, n), line, w, source, target);
        }
    } else {
        let most = if w < 1024 { 8192 / w } else { 8 };
        for line in (0..whole).step_by(most) {
            let lines = most.min(whole - line);
            for r in 0..w {
                let at = r * whole + r.min(more) + line;
                move_strided::<BACK>(lines, (line * w + r, w), (at, 1), source, target);
            }
        }
    }
    move_line::<BACK>((w, n), whole, more, source, target);
}

fn reorder<const BACK: bool>(card: Card, weights: &[u8], source: &[u8], target: &mut [u8]) -> u32 {
    if let Err(n) = plan_of(&card, weights) {
        return n;
    }
    let n = card.f as usize;
    if source.len() < n || target.len() < n {
        return 28;
    }
    if card.dealt == 0 {
        target[..n].copy_from_slice(&source[..n]);
    } else {
        move_file::<BACK>(card.width as usize, n, source, target);
    }
    0
}

pub fn deal(card: Card, weights: &[u8], source: &[u8], target: &mut [u8]) -> u32 {
    reorder::<false>(card, weights, source, target)
}

pub fn undeal(card: Card, weights: &[u8], source: &[u8], target: &mut [u8]) -> u32 {
    reorder::<true>(card, weights, source, target)
}
