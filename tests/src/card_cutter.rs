//! Item 2 of document 02, "A card cutter", with the fields of section "Pool
//! card" and the fourth of Item 14, "Dealing before cutting".

use crate::pool_card::Handed;
use crate::questions::{ask, question_19, Refusal};

/// Document 02: "Please write a card from its numbers and plan into a lent
/// buffer." and "Questions 2 to 4 come first, and a buffer too short for the
/// card is then refused as 19. The answer is the card's length in bytes."
///
/// Item 14 puts question 27 "right after question 4 in every call", so before 19.
pub fn cut_card(handed: &Handed, buffer: &mut [u8]) -> Result<usize, Refusal> {
    handed.card_questions()?;
    let card = card_of(handed);
    ask(question_19(buffer.len(), card.len()), 19)?;

    // "Bytes past the card keep what they had."
    buffer[..card.len()].copy_from_slice(&card);
    Ok(card.len())
}

/// "A card is three fields, in this order", and document 02, Item 14: "A card may
/// carry a fourth field, tag 4, length 4: the width W." Without the field "the
/// cutter omits it", whatever W is handed. Needs an accepted card.
pub fn card_of(handed: &Handed) -> Vec<u8> {
    let mut fields = vec![
        field(1, &sizes(handed)),
        field(2, &limits(handed)),
        field(3, handed.weights),
    ];
    if handed.dealt {
        fields.push(field(4, &handed.width.to_be_bytes()));
    }
    fields.concat()
}

/// "a one-byte tag, a two-byte length, then the content. Every number is most
/// significant byte first."
///
/// Needs a content whose length two bytes can say.
fn field(tag: u8, content: &[u8]) -> Vec<u8> {
    let length = u16::try_from(content.len()).expect("two bytes for the length");
    let mut bytes = vec![tag];
    bytes.extend(length.to_be_bytes());
    bytes.extend(content);
    bytes
}

/// "Tag 1, length 6: F, file length in bytes, four bytes; L, segment length in
/// bytes, one byte; R, check bytes, one byte."
fn sizes(handed: &Handed) -> Vec<u8> {
    let mut content = handed.f.to_be_bytes().to_vec();
    content.push(handed.l);
    content.push(handed.r);
    content
}

/// "Tag 2, length 5: m, longest run allowed, one byte; lo and hi, GC limits in
/// thousandths, two bytes each."
fn limits(handed: &Handed) -> Vec<u8> {
    let mut content = vec![handed.m];
    content.extend(handed.lo.to_be_bytes());
    content.extend(handed.hi.to_be_bytes());
    content
}

#[cfg(test)]
mod tests {
    use super::*;
    use crate::pool_card::{read_card, Card, WEIGHTS_START};

    /// "Card P, hex: 01 0006 00000004 01 02 / 02 0005 0F 00D6 03E8 / 03 0008
    /// 00000001 00000001."
    const CARD_P: [u8; 28] = [
        0x01, 0x00, 0x06, 0x00, 0x00, 0x00, 0x04, 0x01, 0x02, //
        0x02, 0x00, 0x05, 0x0F, 0x00, 0xD6, 0x03, 0xE8, //
        0x03, 0x00, 0x08, 0x00, 0x00, 0x00, 0x01, 0x00, 0x00, 0x00, 0x01,
    ];

    /// "So F=4, L=1, R=2, K=4, m=15, lo=214, hi=1000, n=28."
    const P_WEIGHTS: [u8; 8] = [0, 0, 0, 1, 0, 0, 0, 1];
    const P: Handed = Handed {
        f: 4,
        l: 1,
        r: 2,
        m: 15,
        lo: 214,
        hi: 1000,
        dealt: false,
        width: 0,
        weights: &P_WEIGHTS,
    };

    /// The least of every number: the shortest card there is.
    const LEAST: Handed = Handed {
        f: 1,
        l: 1,
        r: 2,
        m: 1,
        lo: 0,
        hi: 0,
        dealt: false,
        width: 0,
        weights: &[0, 0, 0, 1],
    };
    const LEAST_CARD: [u8; 24] = [
        0x01, 0x00, 0x06, 0x00, 0x00, 0x00, 0x01, 0x01, 0x02, //
        0x02, 0x00, 0x05, 0x01, 0x00, 0x00, 0x00, 0x00, //
        0x03, 0x00, 0x04, 0x00, 0x00, 0x00, 0x01,
    ];

    /// Numbers of which no two bytes can change places: F = 1,193,046 is hex
    /// 00123456, lo = 291 is 0123, hi = 837 is 0345.
    const UNLIKE_WEIGHTS: [u8; 12] = [
        0x01, 0x02, 0x03, 0x04, 0xF5, 0xF6, 0xF7, 0xF8, 0x00, 0x0A, 0x0B, 0x0C,
    ];
    const UNLIKE: Handed = Handed {
        f: 1_193_046,
        l: 59,
        r: 4,
        m: 17,
        lo: 291,
        hi: 837,
        dealt: false,
        width: 0,
        weights: &UNLIKE_WEIGHTS,
    };
    const UNLIKE_CARD: [u8; 32] = [
        0x01, 0x00, 0x06, 0x00, 0x12, 0x34, 0x56, 0x3B, 0x04, //
        0x02, 0x00, 0x05, 0x11, 0x01, 0x23, 0x03, 0x45, //
        0x03, 0x00, 0x0C, 0x01, 0x02, 0x03, 0x04, 0xF5, 0xF6, 0xF7, 0xF8, 0x00, 0x0A, 0x0B, 0x0C,
    ];

    /// The most of every number: F = 8,388,608 is hex 00800000, L = 64 is 40, m =
    /// 20 is 14, lo = hi = 1000 is 03E8, and four times D = 1,024 is 1000.
    const MOST_HEAD: [u8; 20] = [
        0x01, 0x00, 0x06, 0x00, 0x80, 0x00, 0x00, 0x40, 0x04, //
        0x02, 0x00, 0x05, 0x14, 0x03, 0xE8, 0x03, 0xE8, //
        0x03, 0x10, 0x00,
    ];

    /// `d` weights, of which each differs from its neighbours.
    fn plan(d: u32) -> Vec<u8> {
        (1..=d).flat_map(u32::to_be_bytes).collect()
    }

    fn most(weights: &[u8]) -> Handed<'_> {
        Handed {
            f: 8_388_608,
            l: 64,
            r: 4,
            m: 20,
            lo: 1000,
            hi: 1000,
            dealt: false,
            width: 0,
            weights,
        }
    }

    /// The card in a buffer of just its length, 7 bytes more with the fourth field.
    fn cut(handed: &Handed) -> Vec<u8> {
        let fourth = if handed.dealt { 7 } else { 0 };
        let mut buffer = vec![0x99; WEIGHTS_START + handed.weights.len() + fourth];
        assert_eq!(cut_card(handed, &mut buffer), Ok(buffer.len()));
        buffer
    }

    /// The numbers of an accepted card, and its weights from byte 20 on.
    fn numbers_of(card: &[u8]) -> Handed<'_> {
        let numbers = read_card(card).unwrap();
        let fourth = if numbers.dealt { 7 } else { 0 };
        assert_eq!(card.len(), WEIGHTS_START + 4 * numbers.d + fourth);
        numbers.handed(card)
    }

    #[test]
    fn bench_card_p() {
        let mut buffer = [0x99; 28];
        assert_eq!(cut_card(&P, &mut buffer), Ok(28));
        assert_eq!(buffer, CARD_P);
    }

    /// "Every number is most significant byte first."
    #[test]
    fn unlike_bytes() {
        let mut buffer = [0x99; 32];
        assert_eq!(cut_card(&UNLIKE, &mut buffer), Ok(32));
        assert_eq!(buffer, UNLIKE_CARD);
    }

    #[test]
    fn numbers_at_their_least() {
        let mut buffer = [0x99; 24];
        assert_eq!(cut_card(&LEAST, &mut buffer), Ok(24));
        assert_eq!(buffer, LEAST_CARD);
    }

    /// 20 + 4,096 bytes.
    #[test]
    fn numbers_at_their_most() {
        let weights = plan(1024);
        let mut buffer = [0x99; 4116];
        assert_eq!(cut_card(&most(&weights), &mut buffer), Ok(4116));
        assert_eq!(buffer[..20], MOST_HEAD);
        assert_eq!(buffer[20..], weights);
    }

    /// Around the place where the length takes a second byte: 63 weights are
    /// 252 bytes, hex 00FC; 64 are 0100; 65 are 0104.
    #[test]
    fn length_of_two_bytes() {
        for (d, length) in [(63, [0x00, 0xFC]), (64, [0x01, 0x00]), (65, [0x01, 0x04])] {
            let weights = plan(d);
            let card = cut(&most(&weights));
            assert_eq!(card[18..20], length, "{d}");
            assert_eq!(card[20..], weights, "{d}");
        }
    }

    /// "a buffer too short for the card is then refused as 19"
    #[test]
    fn question_19_answers() {
        for length in 0..28 {
            let mut buffer = vec![0x99; length];
            assert_eq!(cut_card(&P, &mut buffer), Err(Refusal(19)), "{length}");
            assert_eq!(buffer, vec![0x99; length], "{length}");
        }
        assert_eq!(cut_card(&P, &mut [0x99; 28]), Ok(28));

        let weights = plan(1024);
        let mut buffer = [0x99; 4115];
        assert_eq!(
            cut_card(&most(&weights), &mut buffer),
            Err(Refusal(19)),
            "a byte short of the longest card"
        );
        assert_eq!(buffer, [0x99; 4115]);
    }

    /// "Bytes past the card keep what they had."
    #[test]
    fn bytes_past_the_card() {
        let mut buffer: Vec<u8> = (0..=255).collect();
        assert_eq!(cut_card(&P, &mut buffer), Ok(28));
        let past: Vec<u8> = (28..=255).collect();
        assert_eq!(buffer[..28], CARD_P);
        assert_eq!(buffer[28..], past);

        let mut one_more = [0x77; 29];
        assert_eq!(cut_card(&P, &mut one_more), Ok(28));
        assert_eq!(one_more[..28], CARD_P);
        assert_eq!(one_more[28], 0x77);
    }

    /// "Questions 2 to 4 come first, and a buffer too short for the card is then
    /// refused as 19", and "a refusal .. changes no buffer".
    #[test]
    fn refusals_in_their_order_change_nothing() {
        let wrong_2 = Handed { r: 3, ..P };
        let wrong_3 = Handed { m: 0, ..P };
        let wrong_4 = Handed { weights: &[], ..P };
        let wrong_2_3 = Handed { r: 3, m: 0, ..P };
        let wrong_2_4 = Handed { r: 3, ..wrong_4 };
        let wrong_3_4 = Handed { m: 0, ..wrong_4 };
        let wrong_2_3_4 = Handed { r: 3, ..wrong_3_4 };
        for length in [0, 1, 19, 20, 27, 28, 29] {
            let go = |handed: &Handed| {
                let mut buffer = vec![0x99; length];
                let answer = cut_card(handed, &mut buffer);
                assert_eq!(buffer, vec![0x99; length]);
                answer.unwrap_err().0
            };
            assert_eq!(go(&wrong_2_3_4), 2, "{length}");
            assert_eq!(go(&wrong_2_3), 2, "{length}");
            assert_eq!(go(&wrong_2_4), 2, "{length}");
            assert_eq!(go(&wrong_2), 2, "{length}");
            assert_eq!(go(&wrong_3_4), 3, "{length}");
            assert_eq!(go(&wrong_3), 3, "{length}");
            assert_eq!(go(&wrong_4), 4, "{length}");
            if length < 28 {
                assert_eq!(go(&P), 19, "{length}");
            }
        }
    }

    /// A plan is handed as bytes: what is no plan is 4, and never cut. 16,386
    /// weights are 65,544 bytes, of which two bytes would say 8.
    #[test]
    fn plans_that_are_none() {
        let mut buffer = vec![0x99; 70_000];
        for length in [0, 1, 3, 5, 7, 9, 20, 65_544] {
            let mut weights = vec![0; length];
            if let Some(last) = weights.last_mut() {
                *last = 1;
            }
            let handed = Handed {
                weights: &weights,
                ..P
            };
            assert_eq!(cut_card(&handed, &mut buffer), Err(Refusal(4)), "{length}");
        }
        let all_0 = Handed {
            weights: &[0; 8],
            ..P
        };
        assert_eq!(cut_card(&all_0, &mut buffer), Err(Refusal(4)));
        assert_eq!(buffer, vec![0x99; 70_000]);
    }

    /// Document 02: "For legal numbers the card read back gives them again".
    #[test]
    fn numbers_come_back() {
        assert_eq!(
            read_card(&cut(&UNLIKE)),
            Ok(Card {
                f: 1_193_046,
                l: 59,
                r: 4,
                m: 17,
                lo: 291,
                hi: 837,
                d: 3,
                dealt: false,
                width: 0
            })
        );
        let plans = [plan(1), plan(63), plan(64), plan(256), plan(1024)];
        for weights in &plans {
            let handed = most(weights);
            assert_eq!(numbers_of(&cut(&handed)), handed);
        }
        for handed in [P, LEAST, UNLIKE] {
            assert_eq!(numbers_of(&cut(&handed)), handed);
        }
    }

    /// Document 02: "each accepted card, read and cut, gives its own bytes".
    #[test]
    fn cards_come_back() {
        let mut most_card = MOST_HEAD.to_vec();
        most_card.extend(plan(1024));
        for card in [&CARD_P[..], &LEAST_CARD, &UNLIKE_CARD, &most_card] {
            assert_eq!(cut(&numbers_of(card)), card);
        }
    }

    /// The same for the cards that differ from P in one byte and are accepted:
    /// 509 in F, 2 in L, 1 in R, 19 in m, 258 in lo, 235 in hi, and 255 in each of
    /// the weights' 8 bytes.
    #[test]
    fn cards_near_p_come_back() {
        let mut accepted = 0;
        for place in 0..28 {
            for value in 0..=255 {
                let mut card = CARD_P;
                card[place] = value;
                if card != CARD_P && read_card(&card).is_ok() {
                    assert_eq!(cut(&numbers_of(&card)), card);
                    accepted += 1;
                }
            }
        }
        assert_eq!(accepted, 509 + 2 + 1 + 19 + 258 + 235 + 8 * 255);
    }

    /// W = 1,122,867 is hex 00112233.
    const UNLIKE_DEALT: Handed = Handed {
        dealt: true,
        width: 1_122_867,
        ..UNLIKE
    };
    const FOURTH: [u8; 7] = [0x04, 0x00, 0x04, 0x00, 0x11, 0x22, 0x33];

    /// Document 02, Item 14: "A card may carry a fourth field, tag 4, length 4: the
    /// width W."
    #[test]
    fn fourth_field() {
        let mut buffer = [0x99; 41];
        assert_eq!(cut_card(&UNLIKE_DEALT, &mut buffer), Ok(39));
        assert_eq!(buffer[..32], UNLIKE_CARD);
        assert_eq!(buffer[32..39], FOURTH);
        assert_eq!(buffer[39..], [0x99; 2]);

        let weights = plan(1024);
        let longest = Handed {
            dealt: true,
            width: 8_388_608,
            ..most(&weights)
        };
        let mut buffer = [0x99; 4123];
        assert_eq!(cut_card(&longest, &mut buffer), Ok(4123));
        assert_eq!(buffer[..20], MOST_HEAD);
        assert_eq!(buffer[20..4116], weights);
        assert_eq!(buffer[4116..], [4, 0, 4, 0x00, 0x80, 0x00, 0x00]);
    }

    /// "Without it any W handed is ignored: .. the cutter omits it, so that card
    /// reads back with W 0."
    #[test]
    fn width_without_the_field() {
        for width in [0, 1, 2, 4, 5, u32::MAX] {
            let handed = Handed { width, ..P };
            let mut buffer = [0x99; 35];
            assert_eq!(cut_card(&handed, &mut buffer), Ok(28), "{width}");
            assert_eq!(buffer[..28], CARD_P, "{width}");
            assert_eq!(buffer[28..], [0x99; 7], "{width}");
            let back = read_card(&buffer[..28]).unwrap();
            assert_eq!((back.dealt, back.width), (false, 0), "{width}");
        }
    }

    /// Question 19 is about the card that would be written: with the field 35
    /// bytes for card P, and 28 are too few.
    #[test]
    fn question_19_with_the_field() {
        let handed = Handed {
            dealt: true,
            width: 2,
            ..P
        };
        for length in [0, 27, 28, 29, 34] {
            let mut buffer = vec![0x99; length];
            assert_eq!(cut_card(&handed, &mut buffer), Err(Refusal(19)), "{length}");
            assert_eq!(buffer, vec![0x99; length]);
        }
        assert_eq!(cut_card(&handed, &mut [0x99; 35]), Ok(35));
    }

    /// 27 comes after 4 and before 19.
    #[test]
    fn question_27_in_its_order() {
        for width in [0, 1, 5, u32::MAX] {
            let wrong_27 = Handed {
                dealt: true,
                width,
                ..P
            };
            let wrong_4_27 = Handed {
                weights: &[0; 8],
                ..wrong_27
            };
            for length in [0, 28, 34, 35, 40] {
                let mut buffer = vec![0x99; length];
                assert_eq!(cut_card(&wrong_27, &mut buffer), Err(Refusal(27)));
                assert_eq!(cut_card(&wrong_4_27, &mut buffer), Err(Refusal(4)));
                assert_eq!(buffer, vec![0x99; length]);
            }
        }
    }

    /// Both round trips of Item 2, with the field.
    #[test]
    fn dealt_cards_and_their_numbers_come_back() {
        let two = Handed {
            dealt: true,
            width: 2,
            ..P
        };
        let four = Handed { width: 4, ..two };
        for handed in [two, four, UNLIKE_DEALT] {
            assert_eq!(numbers_of(&cut(&handed)), handed);
        }
        let card = [&UNLIKE_CARD[..], &FOURTH].concat();
        assert_eq!(cut(&numbers_of(&card)), card);
    }
}
