//! Item 14 of document 02, "Dealing before cutting": the file is dealt before it
//! is cut into segments, so that a long stretch of zeros is spread over many.

use crate::pool_card::Handed;
use crate::questions::{ask, question_28, Refusal};

/// Document 02, Item 14: "The file is dealt before it is cut into segments: first
/// all bytes whose place modulo W is 0, in order, then those with 1, and so on."
///
/// "Dealing and its inverse read one lent buffer and write the first F bytes of
/// another." Bytes past F are neither read nor written.
pub fn deal(handed: &Handed, source: &[u8], target: &mut [u8]) -> Result<(), Refusal> {
    questions_of_dealing(handed, source, target)?;
    for (dealt, place) in places_as_dealt(handed).into_iter().enumerate() {
        target[dealt] = source[place];
    }
    Ok(())
}

/// "The restorer's caller gets the inverse over the F bytes": each byte goes back
/// to the place that dealing took it from.
pub fn undeal(handed: &Handed, source: &[u8], target: &mut [u8]) -> Result<(), Refusal> {
    questions_of_dealing(handed, source, target)?;
    for (dealt, place) in places_as_dealt(handed).into_iter().enumerate() {
        target[place] = source[dealt];
    }
    Ok(())
}

/// Questions 2 to 4, then "right after question 4 in every call, a W below 2 or
/// above F is refused as 27, and a source or target of fewer than F bytes comes
/// next as 28."
fn questions_of_dealing(handed: &Handed, source: &[u8], target: &[u8]) -> Result<(), Refusal> {
    handed.card_questions()?;
    ask(question_28(handed.f, source.len(), target.len()), 28)
}

/// The places of the file in the order in which dealing lays down their bytes.
///
/// Sorting keeps the order of places with the same remainder. "Without it any W
/// handed is ignored: dealing copies the F bytes as they are". Needs an accepted
/// card, so that W is not 0 if the field is there.
fn places_as_dealt(handed: &Handed) -> Vec<usize> {
    let mut places: Vec<usize> = (0..handed.f as usize).collect();
    if handed.dealt {
        let width = handed.width as usize;
        places.sort_by_key(|place| place % width);
    }
    places
}

#[cfg(test)]
mod tests {
    use super::*;

    /// Numbers of an accepted card without the fourth field.
    fn plain(f: u32) -> Handed<'static> {
        Handed {
            f,
            l: 64,
            r: 2,
            m: 15,
            lo: 0,
            hi: 1000,
            dealt: false,
            width: 0,
            weights: &[0, 0, 0, 1],
        }
    }

    fn of_width(f: u32, width: u32) -> Handed<'static> {
        Handed {
            dealt: true,
            width,
            ..plain(f)
        }
    }

    /// Both calls into buffers of just F bytes.
    fn dealt(handed: &Handed, file: &[u8]) -> Vec<u8> {
        let mut target = vec![0x99; file.len()];
        assert_eq!(deal(handed, file, &mut target), Ok(()));
        target
    }

    fn undealt(handed: &Handed, file: &[u8]) -> Vec<u8> {
        let mut target = vec![0x99; file.len()];
        assert_eq!(undeal(handed, file, &mut target), Ok(()));
        target
    }

    /// A file whose bytes tell their places, as far as one byte can.
    fn telling(f: u32) -> Vec<u8> {
        (0..f).map(|place| (place + place / 251) as u8).collect()
    }

    /// Letters a to g at the places 0 to 6. With W = 3 the places are laid down
    /// in the order 0 3 6, 1 4, 2 5; with W = 4, just above F / 2, in the order
    /// 0 4, 1 5, 2 6, 3; with W = F one place has each remainder.
    #[test]
    fn seven_letters() {
        for (width, expected) in [
            (2, b"acegbdf"),
            (3, b"adgbecf"),
            (4, b"aebfcgd"),
            (5, b"afbgcde"),
            (6, b"agbcdef"),
            (7, b"abcdefg"),
        ] {
            let handed = of_width(7, width);
            assert_eq!(dealt(&handed, b"abcdefg"), expected, "{width}");
            assert_eq!(undealt(&handed, expected), b"abcdefg", "{width}");
        }
    }

    /// The inverse alone: the first byte goes to place 0, the second to 3, and so
    /// on, which for W = 3 is not what dealing by any W does.
    #[test]
    fn seven_letters_undealt() {
        assert_eq!(undealt(&of_width(7, 3), b"abcdefg"), b"adfbegc");
        assert_eq!(undealt(&of_width(7, 2), b"abcdefg"), b"aebfcgd");
        assert_eq!(undealt(&of_width(7, 7), b"abcdefg"), b"abcdefg");
    }

    /// Where W divides F, each remainder has as many places.
    #[test]
    fn whole_rounds() {
        assert_eq!(dealt(&of_width(6, 2), b"abcdef"), b"acebdf");
        assert_eq!(dealt(&of_width(6, 3), b"abcdef"), b"adbecf");
        assert_eq!(undealt(&of_width(6, 2), b"abcdef"), b"adbecf");
        assert_eq!(undealt(&of_width(6, 3), b"abcdef"), b"acebdf");
    }

    #[test]
    fn shortest_files() {
        assert_eq!(dealt(&of_width(2, 2), b"ab"), b"ab");
        assert_eq!(dealt(&of_width(3, 2), b"abc"), b"acb");
        assert_eq!(undealt(&of_width(3, 2), b"abc"), b"acb");
        assert_eq!(dealt(&of_width(3, 3), b"abc"), b"abc");
        assert_eq!(dealt(&plain(1), b"a"), b"a");
        assert_eq!(undealt(&plain(1), b"a"), b"a");
        // A file of one byte has no legal W.
        for width in [0, 1, 2, u32::MAX] {
            let mut target = [0x99];
            let handed = of_width(1, width);
            assert_eq!(deal(&handed, b"a", &mut target), Err(Refusal(27)));
            assert_eq!(undeal(&handed, b"a", &mut target), Err(Refusal(27)));
            assert_eq!(target, [0x99]);
        }
    }

    /// "Without it any W handed is ignored: dealing copies the F bytes as they
    /// are".
    #[test]
    fn copies_without_the_field() {
        for width in [0, 1, 2, 3, 7, 8, u32::MAX] {
            let handed = Handed { width, ..plain(7) };
            assert_eq!(dealt(&handed, b"abcdefg"), b"abcdefg", "{width}");
            assert_eq!(undealt(&handed, b"abcdefg"), b"abcdefg", "{width}");
        }
    }

    /// The sentence taken word by word, for every W of every short file, and
    /// "Dealing and undealing give back every file of every length".
    #[test]
    fn every_width_of_short_files() {
        for f in 2..=40u32 {
            let file = telling(f);
            for width in 2..=f {
                let handed = of_width(f, width);
                let mut expected = Vec::new();
                for remainder in 0..width {
                    for place in 0..f {
                        if place % width == remainder {
                            expected.push(file[place as usize]);
                        }
                    }
                }
                assert_eq!(dealt(&handed, &file), expected, "{f} {width}");
                assert_eq!(undealt(&handed, &expected), file, "{f} {width}");
                assert_eq!(dealt(&handed, &undealt(&handed, &file)), file);
            }
        }
    }

    /// The same of long files. With W = 65,536 the places 0, 65,536 and 131,072
    /// come first, then 1 and 65,537, and the last is 131,071.
    #[test]
    fn long_files() {
        let mut file = telling(131_073);
        (file[0], file[1]) = (0xA0, 0xA1);
        (file[65_536], file[65_537], file[131_072]) = (0xB0, 0xB1, 0xC0);
        let handed = of_width(131_073, 65_536);
        let target = dealt(&handed, &file);
        assert_eq!(target[..5], [0xA0, 0xB0, 0xC0, 0xA1, 0xB1]);
        assert_eq!(target[131_072], file[131_071]);
        assert_eq!(undealt(&handed, &target), file);
        for width in [2, 3, 65_537, 131_072, 131_073] {
            let handed = of_width(131_073, width);
            assert_eq!(undealt(&handed, &dealt(&handed, &file)), file, "{width}");
        }
    }

    /// "write the first F bytes of another": bytes past them keep what they had,
    /// and those of the source past F are not looked at.
    #[test]
    fn bytes_past_f() {
        let handed = of_width(7, 3);
        for call in [deal, undeal] {
            let mut just = [0x99; 7];
            assert_eq!(call(&handed, b"abcdefg", &mut just), Ok(()));
            let mut longer = [0x77; 10];
            assert_eq!(call(&handed, b"abcdefgXYZ", &mut longer), Ok(()));
            assert_eq!(longer[..7], just);
            assert_eq!(longer[7..], [0x77; 3]);
        }
    }

    /// 2, 3 and 4 before 27 before 28, and "a refusal .. changes no buffer".
    #[test]
    fn refusals_in_their_order_change_nothing() {
        let fine = of_width(7, 3);
        let wrong_27 = of_width(7, 8);
        let wrong_4 = Handed {
            weights: &[],
            ..wrong_27
        };
        let wrong_3 = Handed { m: 0, ..wrong_4 };
        let wrong_2 = Handed { r: 3, ..wrong_3 };
        for call in [deal, undeal] {
            for (source, target) in [(7, 7), (6, 7), (7, 6), (0, 0), (9, 6), (6, 9)] {
                let source_bytes = vec![0x55; source];
                let go = |handed: &Handed| {
                    let mut buffer = vec![0x99; target];
                    let answer = call(handed, &source_bytes, &mut buffer);
                    if answer.is_err() {
                        assert_eq!(buffer, vec![0x99; target]);
                    }
                    answer.map_or_else(|refusal| refusal.0, |()| 0)
                };
                assert_eq!(go(&wrong_2), 2, "{source} {target}");
                assert_eq!(go(&wrong_3), 3, "{source} {target}");
                assert_eq!(go(&wrong_4), 4, "{source} {target}");
                assert_eq!(go(&wrong_27), 27, "{source} {target}");
                assert_eq!(go(&of_width(7, 1)), 27, "{source} {target}");
                let short = source < 7 || target < 7;
                assert_eq!(go(&fine), if short { 28 } else { 0 }, "{source} {target}");
                assert_eq!(go(&plain(7)), if short { 28 } else { 0 });
            }
        }
    }
}
