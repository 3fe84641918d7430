//! Section "Pool card", with the fourth field of Item 14 of document 02, "Dealing
//! before cutting".

use crate::questions::{ask, question_27, questions_2_to_4, Refusal};

/// "The card reader answers F, L, R, m, lo, hi and D; the weights stand from
/// byte 20 of the card, its first byte being byte 0."
///
/// Document 02, Item 14: "The card reader also answers whether the field is
/// there, and W, 0 without it".
#[derive(Clone, Copy, Debug, PartialEq, Eq)]
pub struct Card {
    pub f: u32,
    pub l: u8,
    pub r: u8,
    pub m: u8,
    pub lo: u16,
    pub hi: u16,
    pub d: usize,
    /// Whether the fourth field is there.
    pub dealt: bool,
    /// W, 0 without the field.
    pub width: u32,
}

impl Card {
    /// What every other call is handed of an accepted card: its numbers, and the
    /// weights, which end where a fourth field begins. Takes the card's bytes.
    pub fn handed<'a>(&self, card: &'a [u8]) -> Handed<'a> {
        Handed {
            f: self.f,
            l: self.l,
            r: self.r,
            m: self.m,
            lo: self.lo,
            hi: self.hi,
            dealt: self.dealt,
            width: self.width,
            weights: &card[WEIGHTS_START..WEIGHTS_START + 4 * self.d],
        }
    }
}

/// "the weights stand from byte 20 of the card, its first byte being byte 0"
pub const WEIGHTS_START: usize = 20;

/// "Every other call is handed F, L, R, m, lo, hi and the bytes of the
/// weights."
///
/// Document 02, Item 14: "every call is handed both", whether the field is there
/// and W.
#[derive(Clone, Copy, Debug, PartialEq, Eq)]
pub struct Handed<'a> {
    pub f: u32,
    pub l: u8,
    pub r: u8,
    pub m: u8,
    pub lo: u16,
    pub hi: u16,
    /// Whether the fourth field is there.
    pub dealt: bool,
    /// W. "Without it any W handed is ignored".
    pub width: u32,
    pub weights: &'a [u8],
}

impl Handed<'_> {
    /// "Every other call has 2 to 4 first", and document 02, Item 14: "right
    /// after question 4 in every call" comes 27.
    pub fn card_questions(&self) -> Result<(), Refusal> {
        questions_2_to_4(
            self.f,
            self.l,
            self.r,
            self.m,
            self.lo,
            self.hi,
            self.weights,
        )?;
        ask(question_27(self.f, self.dealt, self.width), 27)
    }

    /// K. Needs L not 0.
    pub fn k(&self) -> usize {
        k_of(self.f, self.l)
    }

    /// "the degree plan, D weights of four bytes"
    pub fn d(&self) -> usize {
        self.weights.len() / 4
    }

    /// n, in bases.
    pub fn n_bases(&self) -> usize {
        n_bases_of(self.l, self.r)
    }

    /// How many bytes a record has.
    pub fn record_bytes(&self) -> usize {
        record_bytes_of(self.l)
    }
}

/// "K is F divided by L, rounded up." Needs L not 0.
pub fn k_of(f: u32, l: u8) -> usize {
    let f = f as usize;
    let l = usize::from(l);
    let whole = f / l;
    if f % l == 0 {
        whole
    } else {
        whole + 1
    }
}

/// "The strand length is n = 4 times (4 + L + R) bases."
pub fn n_bases_of(l: u8, r: u8) -> usize {
    4 * (4 + usize::from(l) + usize::from(r))
}

/// "a record is seed and payload, 4 + L bytes", and in document 02 it gains a state byte
/// (Item 5) and a four-byte count (Item 6): "Records are 9 + L bytes, also for question
/// 14 and shelving's 16."
pub fn record_bytes_of(l: u8) -> usize {
    9 + usize::from(l)
}

/// "the degree plan, D weights of four bytes; the first is the weight of degree
/// 1" and "Every number is most significant byte first."
///
/// Needs a multiple of 4 bytes.
pub fn numbers_of_weights(weights: &[u8]) -> Vec<u32> {
    weights.chunks_exact(4).map(number_of_bytes).collect()
}

/// The sum of all weights, in a width that cannot overflow.
pub fn sum_of_weights(weights: &[u32]) -> u64 {
    weights.iter().map(|&weight| u64::from(weight)).sum()
}

/// "Every number is most significant byte first." For up to four bytes.
pub(crate) fn number_of_bytes(bytes: &[u8]) -> u32 {
    let mut number = 0;
    for &byte in bytes {
        number = number * 256 + u32::from(byte);
    }
    number
}

/// "a one-byte tag, a two-byte length, then the content": takes the field with
/// this tag off the front and gives its content and what follows, or nothing if
/// the front is not this field whole.
fn take_field(tag: u8, bytes: &[u8]) -> Option<(&[u8], &[u8])> {
    if bytes.len() < 3 || bytes[0] != tag {
        return None;
    }
    let length = number_of_bytes(&bytes[1..3]) as usize;
    let after_length = &bytes[3..];
    if after_length.len() < length {
        return None;
    }
    Some(after_length.split_at(length))
}

/// The contents of a card's fields, the fourth only if it is there.
struct Fields<'a> {
    first: &'a [u8],
    second: &'a [u8],
    third: &'a [u8],
    fourth: Option<&'a [u8]>,
}

/// "A card is three fields, in this order", and question 1: "Card: tags 1, 2, 3
/// whole, lengths 6, 5 and a multiple of 4, nothing after? 1"
///
/// Document 02, Item 14: "A card may carry a fourth field, tag 4, length 4" and
/// "Question 1 allows the field". Nothing may stand after it.
///
/// Gives the contents of the fields if the answer is yes.
fn fields(card: &[u8]) -> Option<Fields<'_>> {
    let (first, rest) = take_field(1, card)?;
    let (second, rest) = take_field(2, rest)?;
    let (third, rest) = take_field(3, rest)?;
    let (fourth, rest) = take_fourth(rest)?;
    let yes = first.len() == 6 && second.len() == 5 && third.len() % 4 == 0 && rest.is_empty();
    if yes {
        Some(Fields {
            first,
            second,
            third,
            fourth,
        })
    } else {
        None
    }
}

/// What stands after the third field: nothing, or "a fourth field, tag 4, length
/// 4" and what follows that. Nothing is given if the front is neither.
fn take_fourth(bytes: &[u8]) -> Option<(Option<&[u8]>, &[u8])> {
    if bytes.is_empty() {
        return Some((None, bytes));
    }
    let (content, rest) = take_field(4, bytes)?;
    if content.len() == 4 {
        Some((Some(content), rest))
    } else {
        None
    }
}

/// "Card reading has 1 to 4.", and document 02, Item 14: "right after question 4
/// in every call, a W below 2 or above F is refused as 27".
pub fn read_card(card: &[u8]) -> Result<Card, Refusal> {
    let fields = fields(card);
    ask(fields.is_some(), 1)?;
    let Fields {
        first,
        second,
        third: weights,
        fourth,
    } = fields.unwrap();

    let handed = Handed {
        // "Tag 1, length 6: F, file length in bytes, four bytes; L, segment
        // length in bytes, one byte; R, check bytes, one byte."
        f: number_of_bytes(&first[0..4]),
        l: first[4],
        r: first[5],
        // "Tag 2, length 5: m, longest run allowed, one byte; lo and hi, GC
        // limits in thousandths, two bytes each."
        m: second[0],
        lo: number_of_bytes(&second[1..3]) as u16,
        hi: number_of_bytes(&second[3..5]) as u16,
        // Document 02, Item 14: "tag 4, length 4: the width W", and "whether the
        // field is there, and W, 0 without it".
        dealt: fourth.is_some(),
        width: fourth.map_or(0, number_of_bytes),
        // "Tag 3, length 4 times D: the degree plan, D weights of four bytes"
        weights,
    };
    handed.card_questions()?;

    Ok(Card {
        f: handed.f,
        l: handed.l,
        r: handed.r,
        m: handed.m,
        lo: handed.lo,
        hi: handed.hi,
        d: handed.d(),
        dealt: handed.dealt,
        width: handed.width,
    })
}

#[cfg(test)]
mod tests {
    use super::*;

    /// "Card P, hex: 01 0006 00000004 01 02 / 02 0005 0F 00D6 03E8 / 03 0008
    /// 00000001 00000001."
    const P: [u8; 28] = [
        0x01, 0x00, 0x06, 0x00, 0x00, 0x00, 0x04, 0x01, 0x02, //
        0x02, 0x00, 0x05, 0x0F, 0x00, 0xD6, 0x03, 0xE8, //
        0x03, 0x00, 0x08, 0x00, 0x00, 0x00, 0x01, 0x00, 0x00, 0x00, 0x01,
    ];

    /// "So F=4, L=1, R=2, K=4, m=15, lo=214, hi=1000, n=28."
    #[test]
    fn bench_card_p() {
        let card = read_card(&P).unwrap();
        assert_eq!(
            card,
            Card {
                f: 4,
                l: 1,
                r: 2,
                m: 15,
                lo: 214,
                hi: 1000,
                d: 2,
                dealt: false,
                width: 0
            }
        );
        assert_eq!(k_of(card.f, card.l), 4);
        assert_eq!(n_bases_of(card.l, card.r), 28);
        assert_eq!(numbers_of_weights(&P[WEIGHTS_START..]), [1, 1]);
    }

    /// The longest strand, 288 bases: L = 64, R = 4.
    #[test]
    fn longest_strand() {
        assert_eq!(n_bases_of(64, 4), 288);
    }

    #[test]
    fn question_1_answers() {
        // Every shorter part of the card is not whole.
        for end in 0..P.len() {
            assert_eq!(read_card(&P[..end]), Err(Refusal(1)), "{end}");
        }
        // Something after.
        let mut longer = P.to_vec();
        longer.push(0);
        assert_eq!(read_card(&longer), Err(Refusal(1)));
        // A wrong tag or length byte.
        for place in [0, 1, 2, 9, 10, 11, 17, 18, 19] {
            for value in 0..=255u8 {
                if value != P[place] {
                    let mut card = P;
                    card[place] = value;
                    assert_eq!(read_card(&card), Err(Refusal(1)), "{place} {value}");
                }
            }
        }
        // Fields in another order.
        let mut turned = P[9..17].to_vec();
        turned.extend_from_slice(&P[0..9]);
        turned.extend_from_slice(&P[17..]);
        assert_eq!(read_card(&turned), Err(Refusal(1)));
        // A whole third field whose length is no multiple of 4.
        let mut odd = P[..17].to_vec();
        odd.extend_from_slice(&[3, 0, 5, 0, 0, 0, 1, 0]);
        assert_eq!(read_card(&odd), Err(Refusal(1)));
    }

    /// A third field of length 0 is a multiple of 4, so 4 and not 1.
    #[test]
    fn no_weights_is_question_4() {
        let mut card = P[..17].to_vec();
        card.extend_from_slice(&[3, 0, 0]);
        assert_eq!(read_card(&card), Err(Refusal(4)));
    }

    /// The card reader asks 2 to 4 in their order.
    #[test]
    fn questions_2_to_4_of_a_card() {
        let mut card = P;
        card[8] = 3; // R
        assert_eq!(read_card(&card), Err(Refusal(2)));
        card[12] = 0; // m
        assert_eq!(read_card(&card), Err(Refusal(2)));
        card[8] = 4;
        assert_eq!(read_card(&card), Err(Refusal(3)));
        card[23] = 0;
        card[27] = 0; // both weights 0
        assert_eq!(read_card(&card), Err(Refusal(3)));
        card[12] = 20;
        assert_eq!(read_card(&card), Err(Refusal(4)));
        card[20] = 255;
        assert!(read_card(&card).is_ok());
    }

    /// Document 02, Item 6: "Records are 9 + L bytes".
    #[test]
    fn length_of_a_record() {
        assert_eq!(record_bytes_of(1), 10);
        assert_eq!(record_bytes_of(64), 73);
        assert_eq!(read_card(&P).unwrap().handed(&P).record_bytes(), 10);
    }

    #[test]
    fn k_is_rounded_up() {
        assert_eq!(k_of(1, 64), 1);
        assert_eq!(k_of(64, 64), 1);
        assert_eq!(k_of(65, 64), 2);
        assert_eq!(k_of(8_388_608, 64), 131_072);
    }

    #[test]
    fn longest_third_field() {
        let mut card = P[..17].to_vec();
        card.extend_from_slice(&[3, 0xFF, 0xFC]);
        card.extend(vec![0u8; 0xFFFC]);
        assert_eq!(read_card(&card), Err(Refusal(4)));
    }

    /// Card P with a fourth field of this width.
    fn p_dealt(width: u32) -> Vec<u8> {
        let mut card = P.to_vec();
        card.extend([4, 0, 4]);
        card.extend(width.to_be_bytes());
        card
    }

    /// Document 02, Item 14: "The card reader also answers whether the field is
    /// there, and W". F = 4, so that W is from 2 to 4.
    #[test]
    fn fourth_field() {
        for width in [2, 3, 4] {
            let card = p_dealt(width);
            assert_eq!(
                read_card(&card),
                Ok(Card {
                    f: 4,
                    l: 1,
                    r: 2,
                    m: 15,
                    lo: 214,
                    hi: 1000,
                    d: 2,
                    dealt: true,
                    width
                })
            );
        }
        for width in [0, 1, 5, 0x0200_0000, u32::MAX] {
            assert_eq!(read_card(&p_dealt(width)), Err(Refusal(27)), "{width}");
        }
    }

    /// "Every number is most significant byte first.": F = 66,052 is hex
    /// 00010204, and W the same number.
    #[test]
    fn width_of_unlike_bytes() {
        let mut card = p_dealt(0x0001_0204);
        card[3..7].copy_from_slice(&[0x00, 0x01, 0x02, 0x04]);
        let numbers = read_card(&card).unwrap();
        assert_eq!((numbers.f, numbers.width), (66_052, 66_052));
        let last = card.len() - 1;
        card[last] = 0x05;
        assert_eq!(read_card(&card), Err(Refusal(27)));
    }

    /// With F = 1 no W is legal: none is at least 2 and at most 1.
    #[test]
    fn no_width_for_a_file_of_one_byte() {
        for width in [0, 1, 2, u32::MAX] {
            let mut card = p_dealt(width);
            card[6] = 1; // F
            card.drain(24..28); // the second weight, for K is 1
            card[19] = 4;
            assert_eq!(read_card(&card), Err(Refusal(27)), "{width}");
            card.truncate(24);
            assert!(read_card(&card).is_ok());
        }
    }

    /// "Question 1 allows the field", whole, once, behind the third and with
    /// nothing after it.
    #[test]
    fn question_1_of_the_fourth_field() {
        let card = p_dealt(2);
        assert!(read_card(&card).is_ok());
        for end in P.len() + 1..card.len() {
            assert_eq!(read_card(&card[..end]), Err(Refusal(1)), "{end}");
        }
        // A wrong tag or length byte.
        for place in [28, 29, 30] {
            for value in 0..=255u8 {
                if value != card[place] {
                    let mut wrong = card.clone();
                    wrong[place] = value;
                    assert_eq!(read_card(&wrong), Err(Refusal(1)), "{place} {value}");
                }
            }
        }
        // Whole fields of tag 4 and another length: 0, 3, 5 and 8.
        for length in [0u8, 3, 5, 8] {
            let mut other = P.to_vec();
            other.extend([4, 0, length]);
            other.extend(vec![0; usize::from(length)]);
            assert_eq!(read_card(&other), Err(Refusal(1)), "{length}");
        }
        // The length least significant byte first, with 4 and with 1,024 bytes.
        for length in [4, 1024] {
            let mut turned = P.to_vec();
            turned.extend([4, 4, 0]);
            turned.extend(vec![0; length]);
            assert_eq!(read_card(&turned), Err(Refusal(1)), "{length}");
        }
        // A byte after it, or the field twice.
        let mut longer = card.clone();
        longer.push(0);
        assert_eq!(read_card(&longer), Err(Refusal(1)));
        let mut twice = card.clone();
        twice.extend_from_slice(&card[28..]);
        assert_eq!(read_card(&twice), Err(Refusal(1)));
        // Before the third field, the second or the first.
        for place in [17, 9, 0] {
            let mut moved = P[..place].to_vec();
            moved.extend_from_slice(&card[28..]);
            moved.extend_from_slice(&P[place..]);
            assert_eq!(read_card(&moved), Err(Refusal(1)), "{place}");
        }
        // Weights that are no multiple of 4, before the field.
        let mut odd = P[..17].to_vec();
        odd.extend_from_slice(&[3, 0, 5, 0, 0, 0, 1, 0]);
        odd.extend_from_slice(&card[28..]);
        assert_eq!(read_card(&odd), Err(Refusal(1)));
    }

    /// 1 and 4 come before 27, and an empty plan before the field is 4.
    #[test]
    fn question_27_of_a_card_comes_after_4() {
        let mut card = p_dealt(1);
        assert_eq!(read_card(&card), Err(Refusal(27)));
        card[23] = 0;
        card[27] = 0; // both weights 0
        assert_eq!(read_card(&card), Err(Refusal(4)));
        card[12] = 0; // m
        assert_eq!(read_card(&card), Err(Refusal(3)));
        card[8] = 3; // R
        assert_eq!(read_card(&card), Err(Refusal(2)));
        card.push(0);
        assert_eq!(read_card(&card), Err(Refusal(1)));

        for width in [1, 2] {
            let mut no_plan = P[..17].to_vec();
            no_plan.extend([3, 0, 0]);
            no_plan.extend_from_slice(&p_dealt(width)[28..]);
            assert_eq!(read_card(&no_plan), Err(Refusal(4)), "{width}");
        }
    }

    /// The weights handed end where the fourth field begins.
    #[test]
    fn weights_end_before_the_fourth_field() {
        for card in [P.to_vec(), p_dealt(3)] {
            let numbers = read_card(&card).unwrap();
            assert_eq!(numbers.handed(&card).weights, [0, 0, 0, 1, 0, 0, 0, 1]);
            assert_eq!(numbers.handed(&card).dealt, card.len() > 28);
            assert_eq!(numbers.handed(&card).width, numbers.width);
        }
    }
}
