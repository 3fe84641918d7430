//! The card reader of the archive `libcapi.a` beside the second implementation's, over random cards.

mod differential;

use differential::cards::{self, Numbers};
use differential::lent::{hex, Lent};
use differential::random::Random;
use differential::run::{run, Regions};

#[cfg(capi_missing)]
compile_error!("target/staticlib/libcapi.a is missing: `host/build capi` makes it");

#[link(name = "capi", kind = "static")]
extern "C" {
    fn fountain_read_card(card: *const u8, card_len: usize, answer: *mut u64) -> u32;
}

fn any_card(random: &mut Random) -> Vec<u8> {
    let mut numbers = cards::any_accepted(random);
    if random.once_in(3) {
        cards::miss(random, &mut numbers);
    }
    let (mut first, mut second, mut third) = numbers.fields();
    match random.below(24) {
        0 => resize(random, &mut first),
        1 => resize(random, &mut second),
        2 => resize(random, &mut third),
        3 if random.once_in(20) => third = random.bytes(65_532),
        // The two bytes of its length then say 65,536 less.
        4 if random.once_in(20) => third.resize(65_536 + third.len(), 0),
        _ => (),
    }
    let mut card = cards::card_of(&first, &second, &third);
    if random.once_in(4) {
        let fourth = cards::fourth_of(numbers.width);
        let place = card.len() - third.len() - 3;
        put_wrongly(random, &mut card, &fourth, place);
    } else {
        card.extend(numbers.fourth());
    }
    if random.once_in(3) {
        break_structure(random, &mut card);
    }
    card
}

/// Puts the fourth field on a card in a way that question 1 refuses. The third field begins at `third`.
fn put_wrongly(random: &mut Random, card: &mut Vec<u8>, fourth: &[u8], third: usize) {
    let content = &fourth[3..];
    match random.below(8) {
        0 => card.extend(&fourth[..random.between(1, 6)]),
        1 => {
            let any = random.byte() | 8;
            card.push(random.one_of(&[0, 3, 3, 5, 5, 132, any]));
            card.extend(&fourth[1..]);
        }
        2 => put_other_length(random, card, content),
        3 => {
            card.extend(fourth);
            card.push(random.one_of(&[0, 4, 5, content[3]]));
        }
        4 => {
            card.extend(fourth);
            card.extend(fourth);
        }
        // Before the third field, mostly, or between other ones.
        5 | 6 => {
            let place = random.one_of(&[third, third, third, 9, 0]).min(third);
            card.splice(place..place, fourth.iter().copied());
        }
        _ => {
            card.extend(fourth);
            card.extend([5, 0, 0]);
        }
    }
}

/// A field of tag 4 and a length that is not 4, mostly with just as many bytes behind it, else with four.
fn put_other_length(random: &mut Random, card: &mut Vec<u8>, content: &[u8]) {
    let length: u16 = random.one_of(&[0, 3, 5, 8, 0x0400, 0x0404, 0x0104]);
    card.push(4);
    card.extend(length.to_be_bytes());
    let mut bytes = content.to_vec();
    if !random.once_in(3) {
        bytes.resize(length.into(), 0);
    }
    card.extend(bytes);
}

/// A byte more or less, or some.
fn resize(random: &mut Random, content: &mut Vec<u8>) {
    match random.below(4) {
        0 => {
            content.pop();
        }
        1 => content.push(random.byte()),
        2 => content.extend(random.bytes(256)),
        _ => content.truncate(random.below(content.len() + 1)),
    }
}

fn break_structure(random: &mut Random, card: &mut Vec<u8>) {
    let length = card.len();
    match random.below(9) {
        0 => card.truncate(
            random
                .one_of(&[0, 1, 2, 3, 8, 9, 10, 11, 12, 16, 17, 18, 19, 20, 21])
                .min(length),
        ),
        1 => {
            card.pop();
        }
        2 => card.push(random.byte()),
        3 => card.truncate(random.below(length + 1)),
        4 | 5 => {
            // A tag or a byte of a length, by one up or down or to anything.
            let place = random
                .one_of(&[0, 1, 2, 9, 10, 11, 17, 18, 19])
                .min(length - 1);
            let any = random.byte();
            let by = random.one_of(&[1, 255, 4, 252, any]);
            card[place] = card[place].wrapping_add(by);
        }
        6 => {
            let place = random.below(length);
            card[place] = random.byte();
        }
        7 => card[..17.min(length)].rotate_left(9.min(length)),
        _ => {
            let length = random.below(40);
            *card = random.bytes(length);
        }
    }
}

#[rustfmt::skip]
const REGIONS: &[&str] = &[
    "answer 1", "1: empty", "1: a byte short", "1: a byte over", "1: tag 1", "1: tag 2", "1: tag 3",
    "1: first length 5", "1: first length 7", "1: second length 4", "1: second length 6", "1: length of weights no multiple of 4",
    "1: weights longer than two bytes can say", "1: a field ends early", "card NULL", "more than 1,024 weights",
    "1: fourth cut to 1", "1: fourth cut to 2", "1: fourth cut to 3",
    "1: fourth cut to 4", "1: fourth cut to 5", "1: fourth cut to 6",
    "1: tag 0 for the fourth", "1: tag 3 for the fourth", "1: tag 5 for the fourth",
    "1: another tag for the fourth", "1: fourth of another length, whole", "1: fourth of another length, 4 bytes",
    "1: fourth of length 0000, whole", "1: fourth of length 0003, whole", "1: fourth of length 0005, whole",
    "1: fourth of length 0400, whole", "1: fourth of length 0000, 4 bytes", "1: fourth of length 0003, 4 bytes",
    "1: fourth of length 0005, 4 bytes", "1: fourth of length 0400, 4 bytes",
    "1: a byte after the fourth", "1: a field after the fourth", "1: the fourth twice", "1: the fourth before the third",
    "1: the fourth before the second", "1: the fourth before the first",
    "1: length of weights no multiple of 4, and the fourth", "4: no weights, and the fourth",
];

/// Notes how the fields break question 1, as far as it can be seen at their usual places.
fn note_fields(regions: &mut Regions, card: &[u8]) {
    regions.note_if(card.is_empty(), "1: empty");
    regions.note_if((1..20).contains(&card.len()), "1: a field ends early");
    if card.len() < 20 {
        return;
    }
    let usual = [1, 0, 6, 2, 0, 5, 3];
    let there = [
        card[0], card[1], card[2], card[9], card[10], card[11], card[17],
    ];
    let differing: Vec<usize> = (0..7).filter(|&i| usual[i] != there[i]).collect();
    let weights_length = usize::from(card[18]) << 8 | usize::from(card[19]);
    let whole = differing.is_empty();
    regions.note_if(differing == [0], "1: tag 1");
    regions.note_if(differing == [3], "1: tag 2");
    regions.note_if(differing == [6], "1: tag 3");
    regions.note_if(differing == [2] && card[2] == 5, "1: first length 5");
    regions.note_if(
        card[..3] == [1, 0, 7] && card[10..13] == [2, 0, 5],
        "1: first length 7",
    );
    regions.note_if(
        card[..3] == [1, 0, 6] && card[9..12] == [2, 0, 4] && card[16] == 3,
        "1: second length 4",
    );
    regions.note_if(
        card[..3] == [1, 0, 6] && card[9..12] == [2, 0, 6] && card[18] == 3,
        "1: second length 6",
    );
    regions.note_if(
        whole && card.len() == 20 + weights_length,
        "1: length of weights no multiple of 4",
    );
    regions.note_if(
        whole && card.len() + 1 == 20 + weights_length,
        "1: a byte short",
    );
    regions.note_if(whole && card.len() == 21 + weights_length, "1: a byte over");
    regions.note_if(
        whole && card.len() == 20 + 65_536 + weights_length,
        "1: weights longer than two bytes can say",
    );
    let end = 20 + weights_length;
    if whole && card.len() > end {
        note_after(regions, &card[end..], weights_length % 4 == 0);
    }
    note_moved(regions, card);
}

/// Notes what stands after three fields that question 1 allows, if the length of the weights is a multiple of 4.
fn note_after(regions: &mut Regions, after: &[u8], multiple_of_4: bool) {
    let usual = [4, 0, 4];
    let fourth = after.len() >= 7 && after[..3] == usual;
    if !multiple_of_4 {
        regions.note_if(
            fourth && after.len() == 7,
            "1: length of weights no multiple of 4, and the fourth",
        );
        return;
    }
    if after.len() < 7 && (0..after.len().min(3)).all(|i| after[i] == usual[i]) {
        regions.note(&format!("1: fourth cut to {}", after.len()));
    }
    if after.len() >= 3 && after[0] == 4 && after[1..3] != usual[1..] {
        let length = usize::from(after[1]) << 8 | usize::from(after[2]);
        let named = match length {
            0 | 3 | 5 | 0x0400 => format!("1: fourth of length {length:04X}"),
            _ => String::from("1: fourth of another length"),
        };
        regions.note_if(after.len() == 3 + length, &format!("{named}, whole"));
        regions.note_if(after.len() == 7, &format!("{named}, 4 bytes"));
    }
    if after.len() == 7 && after[0] != 4 && after[1..3] == usual[1..] {
        match after[0] {
            tag @ (0 | 3 | 5) => regions.note(&format!("1: tag {tag} for the fourth")),
            _ => regions.note("1: another tag for the fourth"),
        }
    }
    regions.note_if(fourth && after.len() == 8, "1: a byte after the fourth");
    regions.note_if(
        fourth && after[7..] == [5, 0, 0],
        "1: a field after the fourth",
    );
    regions.note_if(
        fourth && after.len() == 14 && after[7..10] == usual,
        "1: the fourth twice",
    );
}

/// Notes where a fourth field stands before another one, if the card is fine without it.
fn note_moved(regions: &mut Regions, card: &[u8]) {
    for (place, name) in [(17, "third"), (9, "second"), (0, "first")] {
        if card[place..].len() < 7 || card[place..place + 3] != [4, 0, 4] {
            continue;
        }
        let mut without = card.to_vec();
        without.drain(place..place + 7);
        if second::read_card(&without).is_ok() {
            regions.note(&format!("1: the fourth before the {name}"));
        }
    }
}

/// The numbers of a card of which question 1 is answered yes. Then the weights are as many bytes as their length says, and what
/// stands after them is the fourth field.
fn numbers_of(card: &[u8]) -> Numbers {
    let (weights, fourth) = card[20..].split_at(usize::from(card[18]) << 8 | usize::from(card[19]));
    let width = fourth.iter().skip(3).fold(0, |w, &b| w << 8 | u32::from(b));
    Numbers {
        f: u32::from_be_bytes([card[3], card[4], card[5], card[6]]),
        l: card[7],
        r: card[8],
        m: card[12],
        lo: u16::from_be_bytes([card[13], card[14]]),
        hi: u16::from_be_bytes([card[15], card[16]]),
        dealt: u8::from(!fourth.is_empty()),
        width,
        weights: weights.to_vec(),
    }
}

fn case(random: &mut Random, regions: &mut Regions) -> Result<(), String> {
    let card = any_card(random);
    let before: [u64; 9] = std::array::from_fn(|_| random.number());
    let mut after = before;
    let expected = match second::read_card(&card) {
        Ok(c) => {
            after = [
                c.f.into(),
                c.l.into(),
                c.r.into(),
                c.m.into(),
                c.lo.into(),
                c.hi.into(),
                c.d as u64,
                c.dealt.into(),
                c.width.into(),
            ];
            0
        }
        Err(refusal) => u32::from(refusal.0),
    };
    if expected == 1 {
        regions.note_answer(1);
        note_fields(regions, &card);
    } else {
        let numbers = numbers_of(&card);
        cards::note(regions, &numbers, expected);
        regions.note_if(
            expected == 4 && numbers.d() > 2000,
            "more than 1,024 weights",
        );
        regions.note_if(
            expected == 4 && numbers.weights.is_empty() && numbers.has_field(),
            "4: no weights, and the fourth",
        );
    }

    let lent = Lent::new(random, &card);
    let mut answer = Lent::new(random, &before);
    regions.note_if(lent.is_null(), "card NULL");
    // The pointers stand for the card's bytes and for nine numbers.
    let got = unsafe { fountain_read_card(lent.pointer(), lent.len(), answer.pointer_mut()) };
    let report = |what: String| {
        format!(
            "{what}; the archive answered {got}, expected is {expected}; card {}",
            hex(&card)
        )
    };
    if got != expected {
        return Err(report(String::from("answer")));
    }
    lent.holds(&card)
        .map_err(|e| report(format!("card: {e}")))?;
    answer.holds(&after).map_err(|e| {
        report(format!(
            "numbers {:?}, expected are {after:?}: {e}",
            answer.items()
        ))
    })
}

#[test]
fn read_card() {
    run(
        "read_card",
        &[cards::REGIONS, cards::LARGEST_REGIONS, REGIONS],
        case,
    );
}
