//! The card cutter of the archive `libcapi.a` beside the second implementation's, over random numbers and plans. Each card that the
//! archive cuts is read by both, and cut again by the archive from what was read.

mod differential;

use differential::cards::{self, Numbers, D_MOST, F_MOST, K_MOST};
use differential::lent::{hex, Lent};
use differential::random::Random;
use differential::run::{run, Regions};
use second::questions::{question_2, question_27, question_3, question_4};
use second::Handed;

#[cfg(capi_missing)]
compile_error!("target/staticlib/libcapi.a is missing: `host/build capi` makes it");

#[link(name = "capi", kind = "static")]
extern "C" {
    fn fountain_cut_card(
        f: u32,
        l: u8,
        r: u8,
        m: u8,
        lo: u16,
        hi: u16,
        dealt: u8,
        width: u32,
        weights: *const u8,
        weights_len: usize,
        out: *mut u8,
        out_len: usize,
        answer: *mut u64,
    ) -> u32;
    fn fountain_read_card(card: *const u8, card_len: usize, answer: *mut u64) -> u32;
}

/// The bytes of a card before its weights, and those of a fourth field behind them.
const HEAD: usize = 20;
const FOURTH: usize = 7;

struct Case {
    numbers: Numbers,
    /// Buffers as they are before the call.
    out: Vec<u8>,
    answer: u64,
}

/// A call's number and what it leaves in the buffers.
struct After {
    number: u32,
    out: Vec<u8>,
    answer: u64,
}

impl Case {
    fn any(random: &mut Random) -> Case {
        let mut numbers = any_legal(random);
        if random.once_in(4) {
            for _ in 0..random.one_of(&[1, 1, 2, 4]) {
                cards::miss(random, &mut numbers);
            }
        } else if random.once_in(500) {
            over_two_bytes(random, &mut numbers);
        }
        let out_length = any_length(random, &numbers);
        Case::in_buffer(random, numbers, out_length)
    }

    fn in_buffer(random: &mut Random, numbers: Numbers, out_length: usize) -> Case {
        Case {
            numbers,
            out: random.bytes(out_length),
            answer: random.number(),
        }
    }

    fn card_length(&self) -> usize {
        card_length(&self.numbers)
    }

    fn expected(&self) -> After {
        let mut out = self.out.clone();
        let (number, answer) = match second::cut_card(&self.numbers.handed(), &mut out) {
            Ok(length) => (0, length as u64),
            Err(refusal) => (refusal.0.into(), self.answer),
        };
        After {
            number,
            out,
            answer,
        }
    }

    /// Runs the archive's cutter and compares all that it leaves with what is expected. Gives the buffer that it leaves.
    fn compare(
        &self,
        random: &mut Random,
        regions: &mut Regions,
        expected: &After,
    ) -> Result<Vec<u8>, String> {
        let numbers = &self.numbers;
        let weights = Lent::new(random, &numbers.weights);
        let mut out = Lent::new(random, &self.out);
        let mut answer = Lent::new(random, &[self.answer]);
        regions.note_if(weights.is_null(), "weights NULL");
        regions.note_if(weights.is_null() && out.is_null(), "weights and out NULL");
        regions.note_if(out.is_null() && expected.number == 19, "19: out NULL");
        // Each pointer stands for as many items as its length says (one number for the answer), and nothing overlaps.
        let got = unsafe {
            fountain_cut_card(
                numbers.f,
                numbers.l,
                numbers.r,
                numbers.m,
                numbers.lo,
                numbers.hi,
                numbers.dealt,
                numbers.width,
                weights.pointer(),
                weights.len(),
                out.pointer_mut(),
                out.len(),
                answer.pointer_mut(),
            )
        };
        let report = |what: String| {
            format!(
                "{what}; the archive answered {got}, expected is {}; {}",
                expected.number,
                self.report()
            )
        };
        if got != expected.number {
            return Err(report(String::from("answer")));
        }
        weights
            .holds(&numbers.weights)
            .map_err(|e| report(format!("weights: {e}")))?;
        let length_differs = |e| {
            report(format!(
                "length {:?}, expected is {}: {e}",
                answer.items(),
                expected.answer
            ))
        };
        answer.holds(&[expected.answer]).map_err(length_differs)?;
        out.holds(&expected.out)
            .map_err(|e| report(format!("out {}: {e}", hex(out.items()))))?;
        Ok(out.items().to_vec())
    }

    /// The card that the archive cut, read, gives the numbers and weights of the case, but W 0 without the field, and these, cut by
    /// the archive again, the same card.
    fn compare_read_and_cut(
        &self,
        random: &mut Random,
        regions: &mut Regions,
        card: &[u8],
    ) -> Result<(), String> {
        let report = |what: String| format!("{what}; card {}; {}", hex(card), self.report());
        let read = match second::read_card(card) {
            Ok(read) => read,
            Err(refusal) => return Err(report(format!("read, it is refused as {}", refusal.0))),
        };
        let read_back = Numbers {
            f: read.f,
            l: read.l,
            r: read.r,
            m: read.m,
            lo: read.lo,
            hi: read.hi,
            dealt: read.dealt.into(),
            width: read.width,
            weights: card[HEAD..HEAD + 4 * read.d].to_vec(),
        };
        let expected = Handed {
            width: self.numbers.width_on_card(),
            ..self.numbers.handed()
        };
        if read_back.handed() != expected || read.d != self.numbers.d() {
            return Err(report(format!(
                "read, it gives D {} and {}",
                read.d,
                read_back.report()
            )));
        }
        self.compare_archive_read(random, card)
            .map_err(|e| report(format!("read by the archive: {e}")))?;
        let again = Case::in_buffer(random, read_back, card.len());
        let after = again.compare(random, regions, &again.expected())?;
        if after != card {
            return Err(report(format!("read and cut, it is {}", hex(&after))));
        }
        Ok(())
    }

    /// The archive's own card reader gives the numbers of the case and D, whether the field is there as 1 or 0, and W or 0.
    fn compare_archive_read(&self, random: &mut Random, card: &[u8]) -> Result<(), String> {
        let Numbers {
            f, l, r, m, lo, hi, ..
        } = self.numbers;
        let lent = Lent::new(random, card);
        let mut answer = Lent::new(random, &[0xA5u64; 9]);
        // The pointers stand for the card's bytes and for nine numbers.
        let got = unsafe { fountain_read_card(lent.pointer(), lent.len(), answer.pointer_mut()) };
        if got != 0 {
            return Err(format!("refused as {got}"));
        }
        let d = self.numbers.d() as u64;
        answer.holds(&[
            f.into(),
            l.into(),
            r.into(),
            m.into(),
            lo.into(),
            hi.into(),
            d,
            self.numbers.has_field().into(),
            self.numbers.width_on_card().into(),
        ])
    }

    fn report(&self) -> String {
        format!("{} out of {} bytes", self.numbers.report(), self.out.len())
    }

    fn note(&self, regions: &mut Regions, number: u32) {
        cards::note(regions, &self.numbers, number);
        match number {
            0 => {
                self.note_cut(regions);
                self.note_bytes(regions);
                self.note_field(regions);
            }
            19 => self.note_19(regions),
            _ => self.note_card(regions, number),
        }
    }

    fn note_cut(&self, regions: &mut Regions) {
        let past = self.out.len() - self.card_length();
        let d = self.numbers.d();
        regions.note_if(past == 0, "0: just long enough");
        regions.note_if(past == 1, "0: a byte kept");
        regions.note_if(past > 1, "0: more bytes kept");
        regions.note_if(past > 1_000, "0: over 1,000 bytes kept");
        regions.note_if(d == 1 && past == 0, "0: shortest card, just long enough");
        regions.note_if(
            d == D_MOST && past == 0,
            "0: longest card, just long enough",
        );
        regions.note_if(d == D_MOST && past > 0, "0: longest card, bytes kept");
    }

    /// Notes what stands in the bytes of a card that was cut (`cards::note` counts refusals under 19 too).
    fn note_bytes(&self, regions: &mut Regions) {
        let Numbers { f, m, lo, hi, .. } = self.numbers;
        let d = self.numbers.d();
        let [_, high, middle, low] = f.to_be_bytes();
        let unlike = high != middle && middle != low && high != low;
        regions.note_if(f as usize == F_MOST, "0: F 8,388,608");
        regions.note_if(high > 0 && unlike, "0: F of three unlike bytes");
        regions.note_if(high == 0 && middle == 0, "0: F of one byte");
        regions.note_if(lo == 1000 && hi == 1000, "0: lo = hi = 1000");
        regions.note_if(lo == 0 && hi == 0, "0: lo = hi = 0");
        regions.note_if(lo > 255 && hi > lo, "0: lo < hi, two bytes each");
        regions.note_if(
            (1..256).contains(&lo) && hi > 255,
            "0: lo of one byte, hi of two",
        );
        regions.note_if(m == 20 && self.numbers.r == 4, "0: m 20, R 4");
        regions.note_if(d == 63, "0: length 00FC");
        regions.note_if(d == 64, "0: length 0100");
        regions.note_if(d == 65, "0: length 0104");
        let [high, low] = (4 * d as u16).to_be_bytes();
        regions.note_if(high > 0 && low > 0, "0: length with no byte 0");
        regions.note_if(high > 1 && low == 0, "0: length with low byte 0");
    }

    /// Notes whether the fourth field of a card that was cut is there, and what stands in its bytes.
    fn note_field(&self, regions: &mut Regions) {
        let past = self.out.len() - self.card_length();
        let Numbers { f, width, .. } = self.numbers;
        if !self.numbers.has_field() {
            regions.note_if(past == 0, "0: no field, just long enough");
            regions.note_if(past >= FOURTH, "0: no field, room for one");
            regions.note_if(width != 0, "0: no field, W not 0 reads back as 0");
            regions.note_if((2..=f).contains(&width), "0: no field, W legal");
            return;
        }
        let [_, high, middle, low] = width.to_be_bytes();
        let unlike = high != middle && middle != low && high != low;
        regions.note_if(past == 0, "0: field, just long enough");
        regions.note_if(past > 0, "0: field, bytes kept");
        regions.note_if(
            self.numbers.d() == D_MOST && past == 0,
            "0: longest card with the field, just long enough",
        );
        regions.note_if(high > 0 && unlike, "0: W of three unlike bytes");
        regions.note_if(high == 0 && middle == 0, "0: W of one byte");
    }

    fn note_19(&self, regions: &mut Regions) {
        let out = self.out.len();
        let short = self.card_length() - out;
        regions.note_if(short == 1, "19: a byte short");
        regions.note_if(short == 4, "19: a weight short");
        regions.note_if(out == 0, "19: no bytes");
        regions.note_if(out == HEAD, "19: room for the head alone");
        regions.note_if(out + 1 == HEAD, "19: a byte short of the head");
        regions.note_if(
            out == self.numbers.weights.len(),
            "19: room for the weights alone",
        );
        regions.note_if(
            self.numbers.d() == D_MOST && short == 1,
            "19: longest card, a byte short",
        );
        if self.numbers.has_field() {
            regions.note_if(short == 1, "19: field, a byte short");
            regions.note_if(short == FOURTH, "19: field, room for all but the field");
            regions.note_if(short < FOURTH, "19: field, room for a part of it");
        } else {
            regions.note_if(short == 1, "19: no field, a byte short");
        }
    }

    /// Notes whether question 19 would say no as well, and with it others of 2 to 4 and 27.
    fn note_card(&self, regions: &mut Regions, number: u32) {
        let too_short = self.out.len() < self.card_length();
        let room = if too_short { "too short" } else { "room" };
        regions.note(&format!("{number}: {room}"));
        regions.note_if(self.out.is_empty(), &format!("{number}: no bytes"));
        regions.note_if(
            number == 4 && self.numbers.weights.is_empty() && self.out.len() == HEAD,
            "4: no weights, room for the head",
        );
        regions.note_if(
            number == 4 && self.numbers.weights.len() > 65_535,
            &format!("4: weights of over 65,535 bytes, {room}"),
        );
        let also = self.also_missed();
        if !also.is_empty() && too_short {
            regions.note(&format!("{number}: {also:?} too, too short"));
        }
    }

    /// The questions after the first no, up to 27, that say no as well. None for L 0, which has no K.
    fn also_missed(&self) -> Vec<u32> {
        let Numbers {
            f,
            l,
            r,
            m,
            lo,
            hi,
            dealt,
            width,
            ref weights,
        } = self.numbers;
        if l == 0 {
            return Vec::new();
        }
        let yes = [
            (2, question_2(f, l, r)),
            (3, question_3(m, lo, hi)),
            (4, question_4(self.numbers.k(), weights)),
            (27, question_27(f, dealt != 0, width)),
        ];
        let missed = yes.iter().filter(|(_, yes)| !yes);
        missed.map(|&(number, _)| number).skip(1).collect()
    }
}

#[rustfmt::skip]
const REGIONS: &[&str] = &[
    "answer 19", "19: a byte short", "19: a weight short", "19: no bytes", "19: out NULL", "19: a byte short of the head",
    "19: room for the head alone", "19: room for the weights alone", "19: longest card, a byte short",
    "0: just long enough", "0: a byte kept", "0: more bytes kept", "0: over 1,000 bytes kept",
    "0: shortest card, just long enough", "0: longest card, just long enough", "0: longest card, bytes kept",
    "0: F 8,388,608", "0: F of three unlike bytes", "0: F of one byte", "0: lo = hi = 1000", "0: lo = hi = 0",
    "0: lo < hi, two bytes each", "0: lo of one byte, hi of two", "0: m 20, R 4",
    "0: length 00FC", "0: length 0100", "0: length 0104",
    "0: length with no byte 0", "0: length with low byte 0",
    "2: too short", "2: room", "2: no bytes", "3: too short", "3: room", "3: no bytes", "4: too short", "4: room", "4: no bytes",
    "2: [3] too, too short", "2: [4] too, too short", "2: [3, 4] too, too short", "3: [4] too, too short",
    "27: too short", "27: room", "27: no bytes", "2: [27] too, too short", "3: [27] too, too short", "4: [27] too, too short",
    "2: [3, 4, 27] too, too short",
    "4: no weights, room for the head", "4: weights of over 65,535 bytes, too short", "4: weights of over 65,535 bytes, room",
    "weights and out NULL", "read and cut",
    "0: field, just long enough", "0: field, bytes kept", "0: longest card with the field, just long enough",
    "0: W of three unlike bytes", "0: W of one byte",
    "0: no field, just long enough", "0: no field, room for one", "0: no field, W not 0 reads back as 0", "0: no field, W legal",
    "19: field, a byte short", "19: field, room for all but the field", "19: field, room for a part of it",
    "19: no field, a byte short",
];

/// Numbers and plan of an accepted card, some at the limits that decide what stands in its bytes.
fn any_legal(random: &mut Random) -> Numbers {
    let mut numbers = match random.below(24) {
        0 => any_long_plan(random),
        1 => {
            let d = cards::any_d(random, K_MOST);
            let mut numbers = cards::accepted(random, 64, K_MOST, d);
            numbers.f = F_MOST as u32;
            if numbers.has_field() {
                numbers.width = cards::any_legal_width(random, numbers.f);
            }
            numbers
        }
        _ => cards::any_accepted(random),
    };
    if random.once_in(24) {
        numbers.lo = random.one_of(&[0, 255, 256, 999, 1000]);
        numbers.hi = random.one_of(&[numbers.lo, 1000]);
    }
    numbers
}

/// A plan whose length takes both bytes of its field, or just does not.
fn any_long_plan(random: &mut Random) -> Numbers {
    let times_64 = 64 * random.between(1, 16);
    let d = random.one_of(&[63, 64, 65, times_64, times_64 - 1, D_MOST]);
    let k = random.between(d, 3000);
    let l = cards::any_l(random);
    cards::accepted(random, l, k, d)
}

/// So many weights that their length takes more than two bytes, of which the two low ones say the length before.
fn over_two_bytes(random: &mut Random, numbers: &mut Numbers) {
    let length = numbers.weights.len() + 65_536 * random.between(1, 2);
    numbers.weights.resize(length, 0);
}

/// The length of the card that is to be cut from these numbers.
fn card_length(numbers: &Numbers) -> usize {
    HEAD + numbers.weights.len() + numbers.fourth().len()
}

/// A length for the buffer of the card of these numbers. The fourth field makes a difference of 7 bytes, whether it is there or not.
fn any_length(random: &mut Random, numbers: &Numbers) -> usize {
    let weights_length = numbers.weights.len();
    let card = card_length(numbers);
    match random.below(26) {
        0 | 1 => card - 1,
        2 | 3 => card + 1,
        4 => card - 4,
        5 | 6 => 0,
        7 => HEAD,
        8 => random.one_of(&[1, 9, 17, HEAD - 1, HEAD + 1]),
        9 => weights_length,
        10 => random.below(card),
        11 => card + random.between(2, 5_000),
        12..=15 => card + random.between(1, 40),
        16 => card - FOURTH,
        17 => card + FOURTH,
        _ => card,
    }
}

fn case(random: &mut Random, regions: &mut Regions) -> Result<(), String> {
    let case = Case::any(random);
    let expected = case.expected();
    case.note(regions, expected.number);
    let out = case.compare(random, regions, &expected)?;
    if expected.number == 0 {
        regions.note("read and cut");
        let card = &out[..expected.answer as usize];
        case.compare_read_and_cut(random, regions, card)?;
    }
    Ok(())
}

#[test]
fn cut_card() {
    run(
        "cut_card",
        &[
            cards::REGIONS,
            cards::HANDED_REGIONS,
            cards::LARGEST_REGIONS,
            REGIONS,
        ],
        case,
    );
}
