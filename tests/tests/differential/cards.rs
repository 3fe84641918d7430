//! Numbers and weights of a card: accepted ones from every region, and ones that just miss question 2, 3, 4 or 27.

use super::random::Random;
use super::run::Regions;
use second::Handed;

pub const F_MOST: usize = 8_388_608;
pub const K_MOST: usize = 131_072;
pub const D_MOST: usize = 1_024;

/// What every call but the card reader is handed.
#[derive(Clone, Debug)]
pub struct Numbers {
    pub f: u32,
    pub l: u8,
    pub r: u8,
    pub m: u8,
    pub lo: u16,
    pub hi: u16,
    /// Whether the fourth field is there, as the byte that is handed: 0 says no, any other one yes.
    pub dealt: u8,
    pub width: u32,
    pub weights: Vec<u8>,
}

impl Numbers {
    pub fn handed(&self) -> Handed<'_> {
        Handed {
            f: self.f,
            l: self.l,
            r: self.r,
            m: self.m,
            lo: self.lo,
            hi: self.hi,
            dealt: self.has_field(),
            width: self.width,
            weights: &self.weights,
        }
    }

    pub fn has_field(&self) -> bool {
        self.dealt != 0
    }

    /// W as the card has it and as it is read back: 0 without the field.
    pub fn width_on_card(&self) -> u32 {
        if self.has_field() {
            self.width
        } else {
            0
        }
    }

    /// The bytes of the fourth field, none without it.
    pub fn fourth(&self) -> Vec<u8> {
        if self.has_field() {
            fourth_of(self.width)
        } else {
            Vec::new()
        }
    }

    /// Whether question 27 says no, whatever the questions before it say.
    pub fn misses_27(&self) -> bool {
        self.has_field() && (self.width < 2 || self.width > self.f)
    }

    /// K, for L not 0.
    pub fn k(&self) -> usize {
        (self.f as usize).div_ceil(usize::from(self.l))
    }

    pub fn d(&self) -> usize {
        self.weights.len() / 4
    }

    pub fn n(&self) -> usize {
        4 * (4 + usize::from(self.l) + usize::from(self.r))
    }

    /// Seed and payload, as the read check's C form hands them out.
    pub fn droplet(&self) -> usize {
        4 + usize::from(self.l)
    }

    /// Seed, payload, state and count, as they stand on a shelf.
    pub fn record(&self) -> usize {
        9 + usize::from(self.l)
    }

    /// Where a record's state byte stands, between its payload and its count.
    pub fn state_at(&self) -> usize {
        4 + usize::from(self.l)
    }

    /// The contents of the card's first three fields.
    pub fn fields(&self) -> (Vec<u8>, Vec<u8>, Vec<u8>) {
        let mut first = self.f.to_be_bytes().to_vec();
        first.extend([self.l, self.r]);
        let mut second = vec![self.m];
        second.extend(self.lo.to_be_bytes());
        second.extend(self.hi.to_be_bytes());
        (first, second, self.weights.clone())
    }

    pub fn card(&self) -> Vec<u8> {
        let (first, second, third) = self.fields();
        let mut card = card_of(&first, &second, &third);
        card.extend(self.fourth());
        card
    }

    pub fn report(&self) -> String {
        let Numbers {
            f,
            l,
            r,
            m,
            lo,
            hi,
            dealt,
            width,
            weights,
        } = self;
        format!(
            "F {f} L {l} R {r} m {m} lo {lo} hi {hi} dealt {dealt} W {width} weights {}",
            super::lent::hex(weights)
        )
    }
}

/// A fourth field of this width.
pub fn fourth_of(width: u32) -> Vec<u8> {
    let mut field = vec![4, 0, 4];
    field.extend(width.to_be_bytes());
    field
}

/// A card whose first three fields have these contents.
pub fn card_of(first: &[u8], second: &[u8], third: &[u8]) -> Vec<u8> {
    let mut card = Vec::new();
    for (tag, content) in [(1, first), (2, second), (3, third)] {
        card.push(tag);
        card.extend((content.len() as u16).to_be_bytes());
        card.extend(content);
    }
    card
}

pub fn any_l(random: &mut Random) -> usize {
    match random.below(6) {
        0 => 1,
        1 => 64,
        2 | 3 => random.between(2, 8),
        _ => random.between(1, 64),
    }
}

/// K from 1 to `most`, the ends and small ones more often.
pub fn any_k(random: &mut Random, most: usize) -> usize {
    match random.below(12) {
        0 => 1,
        1 => most,
        2..=7 => random.between(1, most.min(16)),
        8 | 9 => random.between(1, most.min(1100)),
        _ => random.between(1, most),
    }
}

/// D from 1 to the most that K and question 4 allow.
pub fn any_d(random: &mut Random, k: usize) -> usize {
    let most = k.min(D_MOST);
    match random.below(16) {
        0 | 1 => 1,
        2 => most,
        3 => random.between(1, most),
        4 | 5 => random.between(1, most.min(40)),
        _ => random.between(1, most.min(8)),
    }
}

/// D weights that sum to 1 to 4,294,967,295.
pub fn any_weights(random: &mut Random, d: usize) -> Vec<u32> {
    let share = u32::MAX / d as u32;
    let mut weights: Vec<u32> = match random.below(6) {
        0 => vec![1; d],
        1 => (0..d).map(|_| random.below(3) as u32).collect(),
        2 => (0..d).map(|_| random.word() % share.max(1)).collect(),
        3 => (0..d)
            .map(|_| {
                if random.once_in(4) {
                    random.word() % share.max(1)
                } else {
                    0
                }
            })
            .collect(),
        4 => (0..d)
            .map(|i| 1 + (1000 / ((i + 1) * (i + 1))) as u32)
            .collect(),
        _ => (0..d)
            .map(|i| {
                if i + 1 == d || random.once_in(5) {
                    random.below(7) as u32
                } else {
                    0
                }
            })
            .collect(),
    };
    if weights.iter().all(|&weight| weight == 0) {
        let place = random.below(d);
        weights[place] = 1 + random.below(3) as u32;
    }
    if random.once_in(8) {
        weights[..d - 1].fill(0);
        weights[d - 1] = 1 + random.below(3) as u32;
    }
    if random.once_in(8) {
        raise_sum(random, &mut weights, u64::from(u32::MAX));
    }
    weights
}

/// One weight grows until they sum to `sum`, if it can.
fn raise_sum(random: &mut Random, weights: &mut [u32], sum: u64) {
    let now: u64 = weights.iter().map(|&weight| u64::from(weight)).sum();
    let place = random.below(weights.len());
    let wanted = u64::from(weights[place]) + (sum - now);
    weights[place] = u32::try_from(wanted).unwrap_or(u32::MAX);
}

pub fn bytes_of(weights: &[u32]) -> Vec<u8> {
    weights
        .iter()
        .flat_map(|weight| weight.to_be_bytes())
        .collect()
}

pub fn sum(weights: &[u8]) -> u64 {
    numbers_of(weights)
        .iter()
        .map(|&weight| u64::from(weight))
        .sum()
}

fn numbers_of(weights: &[u8]) -> Vec<u32> {
    weights
        .chunks_exact(4)
        .map(|w| u32::from_be_bytes([w[0], w[1], w[2], w[3]]))
        .collect()
}

/// An accepted card with these L, K and D. The last segment has any number of its bytes within F.
pub fn accepted(random: &mut Random, l: usize, k: usize, d: usize) -> Numbers {
    let last = match random.below(4) {
        0 => 1,
        1 => l,
        _ => random.between(1, l),
    };
    let weights = any_weights(random, d);
    let (m, lo, hi) = any_screen(random);
    let f = ((k - 1) * l + last) as u32;
    let (dealt, width) = any_dealing(random, f);
    Numbers {
        f,
        l: l as u8,
        r: random.one_of(&[2, 4]),
        m,
        lo,
        hi,
        dealt,
        width,
        weights: bytes_of(&weights),
    }
}

/// Whether the fourth field is there, as a byte, and W: one that question 27 takes with the field, any one without it.
fn any_dealing(random: &mut Random, f: u32) -> (u8, u32) {
    if f < 2 || random.once_in(2) {
        return (0, any_ignored_width(random, f));
    }
    (any_yes(random), any_legal_width(random, f))
}

/// A byte that says that the field is there.
fn any_yes(random: &mut Random) -> u8 {
    let any = random.between(1, 255) as u8;
    random.one_of(&[1, 1, 2, 4, 128, 254, 255, any])
}

/// From 2 to F, the ends and the places where a round more or less begins more often. Needs F at least 2.
pub fn any_legal_width(random: &mut Random, f: u32) -> u32 {
    let width = match random.below(10) {
        0 | 1 => 2,
        2 => f,
        3 => f - 1,
        4 => f / 2,
        5 => f / 2 + 1,
        6 => random.between(2, (f as usize).min(9)) as u32,
        7 => any_divisor(random, f),
        _ => random.between(2, f as usize) as u32,
    };
    width.clamp(2, f)
}

/// F divided by a small number, where that leaves nothing; else F.
fn any_divisor(random: &mut Random, f: u32) -> u32 {
    let by = random.between(2, 9) as u32;
    match f % by {
        0 => f / by,
        _ => f,
    }
}

/// Any W, among them those that question 27 would just take or just refuse if the field were there.
fn any_ignored_width(random: &mut Random, f: u32) -> u32 {
    let any = random.word();
    random.one_of(&[0, 0, 1, 2, f, f.saturating_add(1), u32::MAX, any])
}

/// m, lo and hi that question 3 takes, most of them loose enough for a random strand.
fn any_screen(random: &mut Random) -> (u8, u16, u16) {
    let m = match random.below(8) {
        0 => 1,
        1 | 2 => 20,
        3 => random.between(1, 20),
        _ => random.between(4, 20),
    };
    let (lo, hi) = match random.below(8) {
        0 => {
            let lo = random.below(1001);
            (lo, random.between(lo, 1000))
        }
        1 => (500, 500),
        2 | 3 => (0, 1000),
        _ => (random.below(450), random.between(550, 1000)),
    };
    (m as u8, lo as u16, hi as u16)
}

/// Any accepted card, K as large as it gets.
pub fn any_accepted(random: &mut Random) -> Numbers {
    let l = any_l(random);
    let k = any_k(random, K_MOST);
    let d = any_d(random, k);
    accepted(random, l, k, d)
}

/// Changes the numbers so that question 2, 3, 4 or 27 says no, mostly by as little as can be. Where one of the first three does, 27
/// sometimes says no as well.
pub fn miss(random: &mut Random, numbers: &mut Numbers) {
    match random.below(4) {
        0 => miss_2(random, numbers),
        1 => miss_3(random, numbers),
        2 => miss_4(random, numbers),
        _ => return miss_27(random, numbers),
    }
    if random.once_in(4) {
        miss_27(random, numbers);
    }
}

/// The field, with a W below 2 or above F. Some of those above have low bytes that would be legal alone.
fn miss_27(random: &mut Random, numbers: &mut Numbers) {
    let f = numbers.f;
    let above = f.saturating_add(1);
    let legal = if f < 2 { 2 } else { any_legal_width(random, f) };
    numbers.dealt = any_yes(random);
    numbers.width = match random.below(10) {
        0 => 0,
        1 | 2 => 1,
        3 | 4 => above,
        5 => u32::MAX,
        6 => random.between(above as usize, u32::MAX as usize) as u32,
        7 => low_bytes_of(legal, 8, above),
        8 => low_bytes_of(legal, 16, above),
        _ => low_bytes_of(legal, 24, above),
    };
}

/// The low bits of a W under a one above them; else the least W that is too large.
fn low_bytes_of(width: u32, bits: u32, above: u32) -> u32 {
    let wider = (width % (1 << bits)) | (1 << bits);
    wider.max(above)
}

fn miss_2(random: &mut Random, numbers: &mut Numbers) {
    match random.below(8) {
        0 => numbers.f = 0,
        1 => {
            numbers.l = 64;
            numbers.f = F_MOST as u32 + 1;
        }
        2 => {
            numbers.l = random.between(1, 63) as u8;
            numbers.f = (K_MOST * usize::from(numbers.l)) as u32 + 1;
        }
        3 => numbers.f = random.one_of(&[u32::MAX, 1 << 31, u32::MAX - 63]),
        4 => numbers.l = 0,
        5 => numbers.l = 65,
        6 => numbers.r = random.one_of(&[1, 3, 5]),
        _ => {
            numbers.r = random.one_of(&[0, 1, 3, 5, 255]);
            numbers.l = random.one_of(&[0, 65, 128, 255]);
        }
    }
}

fn miss_3(random: &mut Random, numbers: &mut Numbers) {
    match random.below(6) {
        0 => numbers.m = 0,
        1 => numbers.m = 21,
        2 => numbers.m = random.between(21, 255) as u8,
        3 => {
            numbers.hi = random.below(1000) as u16;
            numbers.lo = numbers.hi + 1;
        }
        4 => numbers.hi = 1001,
        _ => {
            numbers.lo = random.word() as u16;
            numbers.hi = random.between(1001, 65_535) as u16;
        }
    }
}

fn miss_4(random: &mut Random, numbers: &mut Numbers) {
    let k = if numbers.l == 0 { 1 } else { numbers.k() };
    match random.below(8) {
        0 => numbers.weights.clear(),
        1 => numbers
            .weights
            .truncate(numbers.weights.len().saturating_sub(random.between(1, 3))),
        2 => {
            let more = random.between(1, 3);
            numbers.weights.extend(vec![0; more]);
        }
        3 => numbers.weights.resize(4 * (k.min(D_MOST) + 1), 0),
        4 => numbers.weights.fill(0),
        5 | 6 => {
            // 4,294,967,296 exactly, which takes two weights.
            if k < 2 {
                numbers.weights = vec![0; 4];
                return;
            }
            let mut weights = numbers_of(&numbers.weights);
            weights.resize(weights.len().max(2), 0);
            weights.fill(0);
            let place = random.below(weights.len());
            weights[place] = 1 + random.word() % u32::MAX;
            let first = u64::from(weights[place]);
            let other = (place + random.between(1, weights.len() - 1)) % weights.len();
            weights[other] = u32::try_from((1 << 32) - first).unwrap_or(u32::MAX);
            numbers.weights = bytes_of(&weights);
        }
        _ => {
            let d = random.between(2, 8);
            numbers.weights = vec![0xFF; 4 * d];
        }
    }
}

/// The regions of questions 2 to 4 and 27 that the cases of every call must come from. "field" is the fourth one.
#[rustfmt::skip]
pub const REGIONS: &[&str] = &[
    "answer 0", "answer 2", "answer 3", "answer 4", "answer 27",
    "L 1", "L 64", "R 2", "R 4", "K 1", "K 131,072", "D 1", "D 1,024", "D = K", "F 1", "F 8,388,608",
    "weights with zeros", "sum of weights 1", "sum of weights 4,294,967,295",
    "m 1", "m 20", "lo = hi", "lo 0", "hi 1000",
    "2: F 0", "2: F 8,388,609", "2: K 131,073", "2: L 0", "2: L 65", "2: R 1", "2: R 3", "2: R 5",
    "3: m 0", "3: m 21", "3: lo = hi + 1", "3: hi 1001",
    "4: no weights", "4: D = K + 1", "4: D 1,025", "4: sum 0", "4: sum 4,294,967,296",
    "accepted with the field", "accepted without the field",
    "field: W 2", "field: W = F", "field: W = F = 2", "field: W = F - 1", "field: W just above F / 2", "field: W divides F",
    "field: W over 65,535", "field: W with low byte 0", "field: D 1,024",
    "27: W 0", "27: W 1", "27: W 1 and F 2", "27: W = F + 1", "27: W 4,294,967,295",
    "27: F 1", "27: W = F = 1", "27: W 2 and F 1", "27: low byte of W legal", "27: two low bytes of W legal",
    "2: 27 too", "3: 27 too", "4: 27 too",
];

/// Those that calls which are lent a whole file meet too seldom.
#[rustfmt::skip]
pub const LARGEST_REGIONS: &[&str] = &["field: W = F = 8,388,608", "27: W = F + 1 and F 8,388,608"];

/// Those that only calls after the card reader can meet, which has question 1 for them.
#[rustfmt::skip]
pub const HANDED_REGIONS: &[&str] = &[
    "4: a byte short", "4: a byte over", "weights NULL",
    "field: byte 1", "field: an even byte", "field: an odd byte over 1", "27: byte 1", "27: an even byte", "27: an odd byte over 1",
    "no field: W 0", "no field: W 1", "no field: W 2", "no field: W = F", "no field: W = F + 1", "no field: W 4,294,967,295",
    "no field: W not 0 and F 1",
];

/// Notes what region of questions 2 to 4 and 27 the numbers come from, under the answer that they had.
pub fn note(regions: &mut Regions, numbers: &Numbers, answer: u32) {
    regions.note_answer(answer);
    let Numbers {
        f,
        l,
        r,
        m,
        lo,
        hi,
        ref weights,
        ..
    } = *numbers;
    let fine_l = (1..=64).contains(&l);
    if (2..=4).contains(&answer) && numbers.misses_27() {
        regions.note(&format!("{answer}: 27 too"));
    }
    match answer {
        1 => (),
        2 => {
            regions.note_if(f == 0 && fine_l, "2: F 0");
            regions.note_if(f as usize == F_MOST + 1 && l == 64, "2: F 8,388,609");
            regions.note_if(
                fine_l && l < 64 && numbers.k() == K_MOST + 1,
                "2: K 131,073",
            );
            regions.note_if(l == 0, "2: L 0");
            regions.note_if(l == 65, "2: L 65");
            regions.note_if(r == 1 && fine_l, "2: R 1");
            regions.note_if(r == 3 && fine_l, "2: R 3");
            regions.note_if(r == 5 && fine_l, "2: R 5");
        }
        3 => {
            regions.note_if(m == 0 && lo <= hi && hi <= 1000, "3: m 0");
            regions.note_if(m == 21 && lo <= hi && hi <= 1000, "3: m 21");
            regions.note_if(hi < 1000 && lo == hi + 1, "3: lo = hi + 1");
            regions.note_if(lo <= hi && hi == 1001, "3: hi 1001");
        }
        4 => {
            let most = numbers.k().min(D_MOST);
            let sum = sum(weights);
            let whole = weights.len() % 4 == 0 && (1..=most).contains(&numbers.d());
            regions.note_if(weights.is_empty(), "4: no weights");
            regions.note_if(
                weights.len() % 4 == 3 && numbers.d() < most,
                "4: a byte short",
            );
            regions.note_if(
                weights.len() % 4 == 1 && numbers.d() <= most,
                "4: a byte over",
            );
            regions.note_if(
                weights.len() == 4 * (most + 1) && most < D_MOST && sum > 0,
                "4: D = K + 1",
            );
            regions.note_if(
                weights.len() == 4 * (D_MOST + 1) && numbers.k() > D_MOST && sum > 0,
                "4: D 1,025",
            );
            regions.note_if(whole && sum == 0, "4: sum 0");
            regions.note_if(whole && sum == 1 << 32, "4: sum 4,294,967,296");
        }
        27 => note_27(regions, numbers),
        _ => {
            note_accepted(regions, numbers);
            note_dealing(regions, numbers, answer);
        }
    }
}

/// Notes how W misses question 27.
fn note_27(regions: &mut Regions, numbers: &Numbers) {
    let Numbers { f, width, .. } = *numbers;
    let above = u64::from(width) == u64::from(f) + 1;
    let legal = |w: u32| (2..=f).contains(&w);
    regions.note_if(width == 0, "27: W 0");
    regions.note_if(width == 1, "27: W 1");
    regions.note_if(width == 1 && f == 2, "27: W 1 and F 2");
    regions.note_if(above, "27: W = F + 1");
    regions.note_if(
        above && f as usize == F_MOST,
        "27: W = F + 1 and F 8,388,608",
    );
    regions.note_if(width == u32::MAX, "27: W 4,294,967,295");
    regions.note_if(f == 1, "27: F 1");
    regions.note_if(f == 1 && width == 1, "27: W = F = 1");
    regions.note_if(f == 1 && width == 2, "27: W 2 and F 1");
    regions.note_if(legal(width & 0xFF), "27: low byte of W legal");
    regions.note_if(legal(width & 0xFFFF), "27: two low bytes of W legal");
    note_byte(regions, "27", numbers.dealt);
}

/// Notes which byte says that the field is there.
fn note_byte(regions: &mut Regions, region: &str, dealt: u8) {
    let byte = match dealt {
        1 => "byte 1",
        _ if dealt & 1 == 0 => "an even byte",
        _ => "an odd byte over 1",
    };
    regions.note(&format!("{region}: {byte}"));
}

/// Notes what stands for the field in a card of which question 27 says yes.
fn note_dealing(regions: &mut Regions, numbers: &Numbers, answer: u32) {
    let Numbers { f, width, .. } = *numbers;
    if !numbers.has_field() {
        regions.note_if(answer == 0, "accepted without the field");
        regions.note_if(width == 0, "no field: W 0");
        regions.note_if(width == 1, "no field: W 1");
        regions.note_if(width == 2, "no field: W 2");
        regions.note_if(width == f, "no field: W = F");
        regions.note_if(width == f + 1, "no field: W = F + 1");
        regions.note_if(width == u32::MAX, "no field: W 4,294,967,295");
        regions.note_if(width != 0 && f == 1, "no field: W not 0 and F 1");
        return;
    }
    regions.note_if(answer == 0, "accepted with the field");
    regions.note_if(width == 2, "field: W 2");
    regions.note_if(width == f, "field: W = F");
    regions.note_if(width == f && f == 2, "field: W = F = 2");
    regions.note_if(width == f - 1, "field: W = F - 1");
    regions.note_if(width == f / 2 + 1, "field: W just above F / 2");
    regions.note_if(width < f && f % width == 0, "field: W divides F");
    regions.note_if(width > 0xFFFF, "field: W over 65,535");
    regions.note_if(width & 0xFF == 0, "field: W with low byte 0");
    regions.note_if(numbers.d() == D_MOST, "field: D 1,024");
    regions.note_if(
        width == f && f as usize == F_MOST,
        "field: W = F = 8,388,608",
    );
    note_byte(regions, "field", numbers.dealt);
}

fn note_accepted(regions: &mut Regions, numbers: &Numbers) {
    let Numbers {
        f,
        l,
        r,
        m,
        lo,
        hi,
        ref weights,
        ..
    } = *numbers;
    let (k, d) = (numbers.k(), numbers.d());
    regions.note_if(l == 1, "L 1");
    regions.note_if(l == 64, "L 64");
    regions.note_if(r == 2, "R 2");
    regions.note_if(r == 4, "R 4");
    regions.note_if(f == 1, "F 1");
    regions.note_if(f as usize == F_MOST, "F 8,388,608");
    regions.note_if(k == 1, "K 1");
    regions.note_if(k == K_MOST, "K 131,072");
    regions.note_if(d == 1, "D 1");
    regions.note_if(d == D_MOST, "D 1,024");
    regions.note_if(d == k, "D = K");
    regions.note_if(m == 1, "m 1");
    regions.note_if(m == 20, "m 20");
    regions.note_if(lo == hi, "lo = hi");
    regions.note_if(lo == 0, "lo 0");
    regions.note_if(hi == 1000, "hi 1000");
    let sum = sum(weights);
    regions.note_if(numbers_of(weights).contains(&0), "weights with zeros");
    regions.note_if(sum == 1, "sum of weights 1");
    regions.note_if(sum == u64::from(u32::MAX), "sum of weights 4,294,967,295");
}
