//! Every bench example of document 01, over the public calls alone, in its
//! order; then the examples of document 02, Item 1, card P cut as in Item 2, its
//! strands mended as in Item 3, shelved as in Item 5, counted as in Item 6 and called
//! twice as in Item 8, and with a fourth field as in Item 14.

use second::check_bytes_letters_screen::{
    check_bytes, check_sums, count_gc, letters_of_bytes, longest_run, strand_bytes,
};
use second::droplet::{payload, set_of_segments};
use second::*;

fn hex(text: &str) -> Vec<u8> {
    let digits: Vec<u32> = text.chars().filter_map(|c| c.to_digit(16)).collect();
    digits
        .chunks(2)
        .map(|pair| (pair[0] * 16 + pair[1]) as u8)
        .collect()
}

/// "Card P, hex"
fn card_p() -> Vec<u8> {
    hex("01 0006 00000004 01 02 / 02 0005 0F 00D6 03E8 / 03 0008 00000001 00000001")
}

/// "File Q: hex 1B 27 4E E4."
fn file_q() -> Vec<u8> {
    hex("1B 27 4E E4")
}

fn handed(card: &[u8]) -> Handed<'_> {
    read_card(card).unwrap().handed(card)
}

const FIVE_LINES: &str = "\
AAAAAAAAAAAAAAAGCGGCGTCCTCTG
AAAAAAAAAAAAAAACTGCAATCGTCAT
AAAAAAAAAAAAAAATAGCTCGAACACA
AAAAAAAAAAAAAAACTGCAATCGTCAT
AAAN
";

/// Document 01's two lines, and the third one of document 02, Item 6.
const THREE_LINES: &str = "\
reads 5 accepted 3 repeated 1 refused 1
segments 4 present 3 sweeps 3 contradictions 0
behind 4
";

/// "So F=4, L=1, R=2, K=4, m=15, lo=214, hi=1000, n=28."
#[test]
fn card() {
    let card = card_p();
    assert_eq!(
        read_card(&card),
        Ok(Card {
            f: 4,
            l: 1,
            r: 2,
            m: 15,
            lo: 214,
            hi: 1000,
            d: 2,
            dealt: false,
            width: 0
        })
    );
    assert_eq!(handed(&card).k(), 4);
    assert_eq!(handed(&card).n_bases(), 28);
    assert_eq!(handed(&card).weights, hex("00000001 00000001"));
}

/// "Seed 1 draws 632,806 then 68,359,563."
#[test]
fn draws() {
    let mut state = DrawState::of_seed(1);
    assert_eq!((state.draw(), state.draw()), (632_806, 68_359_563));
}

/// "Under P, seed 1 picks {3}, seed 2 {1, 2}, seed 3 {1}."
#[test]
fn sets() {
    let card = card_p();
    let pick = |seed| {
        let mut set = set_of_segments(seed, handed(&card).weights, 4);
        set.sort();
        set
    };
    assert_eq!(pick(1), [3]);
    assert_eq!(pick(2), [1, 2]);
    assert_eq!(pick(3), [1]);
}

/// "R=2: message 01 has check bytes 03 02; message 01 00 has 07 06."
#[test]
fn two_check_bytes() {
    assert_eq!(check_bytes(&hex("01"), 2), hex("03 02"));
    assert_eq!(check_bytes(&hex("01 00"), 2), hex("07 06"));
    assert_eq!(check_sums(&hex("01 03 02"), 2), [0; 4]);
    assert_eq!(check_sums(&hex("01 00 07 06"), 2), [0; 4]);
}

/// "Seed 1 of Q: hex 00000001 E4 36 D3, AAAAAAAAAAAAAAACTGCAATCGTCAT, longest
/// run 15, g=6."
#[test]
fn strand_of_seed_1() {
    let card = card_p();
    let p = handed(&card);
    let set = set_of_segments(1, p.weights, p.k());
    let bytes = strand_bytes(1, &payload(&set, &file_q(), p.l), p.r);
    assert_eq!(bytes, hex("00000001 E4 36 D3"));
    let letters = letters_of_bytes(&bytes);
    assert_eq!(letters, b"AAAAAAAAAAAAAAACTGCAATCGTCAT");
    assert_eq!(longest_run(&letters), 15);
    assert_eq!(count_gc(&letters), 6);

    let mut buffer = [0x3F; 30];
    let answer = write(&p, &file_q(), 1, 1, 1, &mut buffer, &mut [0; 2]);
    assert_eq!(
        answer,
        Ok(Written {
            stop: Stop::Done,
            made: 1,
            tried: 1,
            next_seed: 2,
            dropped_run: 0,
            dropped_gc: 0
        })
    );
    assert_eq!(&buffer, b"AAAAAAAAAAAAAAACTGCAATCGTCAT\n?");
}

/// "It passes at m=15, lo=214; m=14 gives 13, and so does lo=215."
#[test]
fn screen_of_seed_1() {
    let card = card_p();
    let p = handed(&card);
    let read = b"AAAAAAAAAAAAAAACTGCAATCGTCAT";
    let droplet = read_check(&p, read).unwrap();
    assert_eq!((droplet.seed, droplet.payload[0]), (1, 0xE4));
    assert_eq!(read_check(&Handed { m: 14, ..p }, read), Err(Refusal(13)));
    assert_eq!(read_check(&Handed { lo: 215, ..p }, read), Err(Refusal(13)));
}

/// "Hex 80000000 steps to 000000C5; 00000001 to 00000002."
#[test]
fn steps() {
    assert_eq!(schedule_step(0x8000_0000), 0x0000_00C5);
    assert_eq!(schedule_step(0x0000_0001), 0x0000_0002);
}

/// "28 letters A under P: 12, since the check sums are 0."
#[test]
fn twenty_eight_letters_a() {
    let card = card_p();
    assert_eq!(check_sums(&[0; 7], 2), [0; 4]);
    assert_eq!(read_check(&handed(&card), &[b'A'; 28]), Err(Refusal(12)));
}

/// "D=4 with K=4 is taken, D=5 is 4; weights all 0 are 4."
#[test]
fn plans() {
    let with_weights = |weights: &[u32]| {
        let mut card = card_p()[..17].to_vec();
        card.push(3);
        card.extend_from_slice(&(4 * weights.len() as u16).to_be_bytes());
        for weight in weights {
            card.extend_from_slice(&weight.to_be_bytes());
        }
        read_card(&card).map(|card| card.d)
    };
    assert_eq!(with_weights(&[1; 4]), Ok(4));
    assert_eq!(with_weights(&[1; 5]), Err(Refusal(4)));
    for d in 1..=4 {
        assert_eq!(with_weights(&vec![0; d]), Err(Refusal(4)));
    }
}

/// "Reads of seeds 2, 1, 3 in that order: file 00 27 4E E4, marks 0 1 1 1,
/// present 3, sweeps 3."
#[test]
fn reads_of_seeds_2_1_3() {
    let card = card_p();
    let p = handed(&card);
    let mut shelf = [0xFF; 100];
    let mut count = 0;
    for read in FIVE_LINES.lines().take(3) {
        let Ok(Shelved::Accepted { count: after }) = shelve(&p, read.as_bytes(), &mut shelf, count)
        else {
            panic!("not accepted: {read}");
        };
        assert_eq!(after, count + 1);
        count = after;
    }
    // Document 02: a state byte after each payload, 0 for clean (Item 5), and the count
    // after it, 1 when accepted (Item 6).
    let records =
        hex("00000002 69 00 00000001 / 00000001 E4 00 00000001 / 00000003 27 00 00000001");
    assert_eq!(shelf[..30], records);
    assert_eq!(shelf[30..], [0xFF; 70]);
    let mut file = [0xFF; 4];
    let mut marks = [0xFF; 4];
    let answer = restore(&p, &shelf, count, &mut file, &mut marks, &mut [0; 2]);
    assert_eq!(
        answer,
        Ok(Restored {
            present: 3,
            sweeps: 3,
            contradictions: 0
        })
    );
    assert_eq!(file.to_vec(), hex("00 27 4E E4"));
    assert_eq!(marks, [0, 1, 1, 1]);
}

/// "An empty shelf: present 0, sweeps 1."
#[test]
fn empty_shelf() {
    let card = card_p();
    let mut file = [0xFF; 4];
    let mut marks = [0xFF; 4];
    let answer = restore(
        &handed(&card),
        &[0xFF; 9],
        0,
        &mut file,
        &mut marks,
        &mut [0; 2],
    )
    .unwrap();
    assert_eq!(
        (answer.present, answer.sweeps, answer.contradictions),
        (0, 1, 0)
    );
}

/// "Under P these five lines .. print two lines" and "(AAAN is refused with 9.)"
/// Document 02, Item 6: "The listing gains a third line".
#[test]
fn five_lines() {
    let card = card_p();
    assert_eq!(listing(Some(&card), FIVE_LINES.as_bytes()), THREE_LINES);
    assert_eq!(read_check(&handed(&card), b"AAAN"), Err(Refusal(9)));
    assert_eq!(
        shelve(&handed(&card), b"AAAN", &mut [0; 50], 0),
        Err(Refusal(9))
    );
}

/// A card for a file of one byte, with R = 2, m = 3 and no limits for C and G.
fn card_of_m_3() -> Vec<u8> {
    hex("01 0006 00000001 01 02 / 02 0005 03 0000 03E8 / 03 0004 00000001")
}

/// Under `card_of_m_3`, what read check and shelf, which agree, say of the strand
/// of this seed and file 27. The writer prints it just if they take it, and the
/// listing counts it so.
fn answer_at_m_3(seed: u32, strand: &str) -> Result<(), Refusal> {
    let card = card_of_m_3();
    let handed = handed(&card);
    let read = strand.as_bytes();
    assert_eq!(letters_of_bytes(&strand_bytes(seed, &[0x27], 2)), read);

    let answer = read_check(&handed, read).map(|droplet| {
        assert_eq!((droplet.seed, droplet.payload[0]), (seed, 0x27));
    });
    assert_eq!(
        shelve(&handed, read, &mut [0; 10], 0),
        answer.map(|()| Shelved::Accepted { count: 1 })
    );
    let mut printed = [b'?'; 29];
    let written = write(&handed, &[0x27], seed, 1, 1, &mut printed, &mut [0]).unwrap();
    let sheet = listing(Some(&card), read);
    if answer.is_ok() {
        assert_eq!((written.stop, written.made), (Stop::Done, 1));
        assert_eq!((written.dropped_run, written.dropped_gc), (0, 0));
        assert_eq!(printed, format!("{strand}\n").as_bytes());
        assert!(sheet.starts_with("reads 1 accepted 1 repeated 0 refused 0\n"));
    } else {
        assert_eq!((written.stop, written.made), (Stop::Spent, 0));
        assert_eq!((written.dropped_run, written.dropped_gc), (1, 0));
        assert_eq!(printed, [b'?'; 29]);
        assert!(sheet.starts_with("reads 1 accepted 0 repeated 0 refused 1\n"));
    }
    answer
}

/// Document 02, Item 1: "At m=3 a strand ending in TTT is refused; one ending in
/// ATT passes at that joint."
#[test]
fn ends_of_strands_at_m_3() {
    let ttt = "TTACGTGTTATCGAGAAGCTGCCTGTTT";
    assert_eq!(answer_at_m_3(0xF1BB_CD88, ttt), Err(Refusal(13)));
    assert_eq!(longest_run(ttt.as_bytes()), 4);
    let att = "AAGGACGGCTTAGACGAGCTTAAGAATT";
    assert_eq!(answer_at_m_3(0x0A1A_7C86, att), Ok(()));
    assert_eq!(longest_run(att.as_bytes()), 3);
}

/// The same at the first joint, where the site ends in a single C.
#[test]
fn starts_of_strands_at_m_3() {
    let ccc = "CCCGTGAGCTTCCCGCAGCTAGCCGCAG";
    assert_eq!(answer_at_m_3(0x56E2_7D59, ccc), Err(Refusal(13)));
    assert_eq!(longest_run(ccc.as_bytes()), 4);
    let gcc = "GCCACTTATGTAGGTTAGCTCGTGTGAG";
    assert_eq!(answer_at_m_3(0x947C_ECAF, gcc), Ok(()));
    assert_eq!(longest_run(gcc.as_bytes()), 2);
}

/// Document 02, Item 2: "each accepted card, read and cut, gives its own bytes.
/// Bytes past the card keep what they had." and "The answer is the card's length
/// in bytes."
#[test]
fn card_p_is_cut() {
    let card = card_p();
    let p = handed(&card);
    let mut buffer = [0x3F; 30];
    assert_eq!(cut_card(&p, &mut buffer), Ok(28));
    assert_eq!(buffer[..28], card);
    assert_eq!(buffer[28..], [0x3F; 2]);
    assert_eq!(cut_card(&p, &mut [0; 27]), Err(Refusal(19)));
}

/// Document 02, Item 3: "The answer gives the number of bytes mended; the C form still
/// returns 0." The strand of seed 1 with its first letter T, with its last one C, and
/// with the last letter of its seed A, so that its seed is read as 0.
#[test]
fn misread_strands_of_seed_1() {
    let card = card_p();
    let p = handed(&card);
    for (read, mended) in [
        (b"AAAAAAAAAAAAAAACTGCAATCGTCAT", 0),
        (b"TAAAAAAAAAAAAAACTGCAATCGTCAT", 1),
        (b"AAAAAAAAAAAAAAACTGCAATCGTCAC", 1),
        (b"AAAAAAAAAAAAAAAATGCAATCGTCAT", 1),
        (b"TTTTAAAAAAAAAAACTGCAATCGTCAT", 1),
    ] {
        let droplet = read_check(&p, read).unwrap();
        assert_eq!((droplet.seed, droplet.payload[0]), (1, 0xE4));
        assert_eq!(droplet.payload[1..], [0; 63]);
        assert_eq!(droplet.mended, mended);
        let mut buffer = [0x3F; 6];
        assert_eq!(read_check_c_form(&p, read, &mut buffer), 0);
        assert_eq!(buffer.to_vec(), hex("00000001 E4 3F"));
    }
}

/// "the seed and screen questions look at the mended strand": one letter other than A
/// among 28 is mended to 28 letters A, and that is 12; "m=14 gives 13, and so does
/// lo=215", whatever letter was misread.
#[test]
fn questions_of_the_mended_strand() {
    let card = card_p();
    let p = handed(&card);
    for place in 0..28 {
        for letter in b"CGT" {
            let mut read = [b'A'; 28];
            read[place] = *letter;
            assert_eq!(read_check(&p, &read), Err(Refusal(12)));
        }
        for letter in b"ACGT" {
            let mut read = *b"AAAAAAAAAAAAAAACTGCAATCGTCAT";
            read[place] = *letter;
            assert!(read_check(&p, &read).is_ok());
            assert_eq!(read_check(&Handed { m: 14, ..p }, &read), Err(Refusal(13)));
            assert_eq!(
                read_check(&Handed { lo: 215, ..p }, &read),
                Err(Refusal(13))
            );
        }
    }
}

/// "So the strings accepted are those of n legal letters within R/2 bytes of a legal
/// strand": the five lines with a wrong letter in the first four.
#[test]
fn five_misread_lines() {
    let misread = "\
AAAAAAAAAAAAAAAGCGGCGTCCTCTA
TAAAAAAAAAAAAAACTGCAATCGTCAT
AAAAAAAAAAAAAAATAACTCGAACACA
AAAAAAAAAAAAAAAATGCAATCGTCAT
AAAN
";
    assert_eq!(listing(Some(&card_p()), misread.as_bytes()), THREE_LINES);
}

/// Document 02, Item 5: "A clean read whose seed stands there as mended takes over
/// payload and state, even where the payloads differ, and the answer is "replaced",
/// listed as repeated. Every other read with the same payload is a repeat, and every
/// other one with a different payload is refused under 15."
#[test]
fn clean_beats_mended() {
    let card = card_p();
    let p = handed(&card);
    let clean: &[u8] = b"AAAAAAAAAAAAAAACTGCAATCGTCAT";
    let mended: &[u8] = b"TAAAAAAAAAAAAAACTGCAATCGTCAT";
    let replaced = Ok(Shelved::Replaced { count: 1 });
    let repeat = Ok(Shelved::Repeat { count: 1 });
    for (read, record, answer, after) in [
        (clean, "00000001 E4 01", replaced, "00000001 E4 00"),
        (clean, "00000001 E5 01", replaced, "00000001 E4 00"),
        (clean, "00000001 E5 07", replaced, "00000001 E4 00"),
        (clean, "00000001 E4 00", repeat, "00000001 E4 00"),
        (clean, "00000001 E5 00", Err(Refusal(15)), "00000001 E5 00"),
        (mended, "00000001 E4 00", repeat, "00000001 E4 00"),
        (mended, "00000001 E4 01", repeat, "00000001 E4 01"),
        (mended, "00000001 E4 07", repeat, "00000001 E4 07"),
        (mended, "00000001 E5 00", Err(Refusal(15)), "00000001 E5 00"),
        (mended, "00000001 E5 01", Err(Refusal(15)), "00000001 E5 01"),
        (clean, "00000002 69 01", Err(Refusal(16)), "00000002 69 01"),
    ] {
        let mut shelf = hex(&format!("{record} 00000007"));
        assert_eq!(shelve(&p, read, &mut shelf, 1), answer, "{record}");
        // Item 6: "one more at each repeat or replacement".
        let count = if answer.is_ok() {
            "00000008"
        } else {
            "00000007"
        };
        assert_eq!(shelf, hex(&format!("{after} {count}")), "{record}");
    }
}

/// Document 02, Item 6: "1 when accepted, one more at each repeat or replacement", and "A
/// repeat or replacement on a record whose count is 4,294,967,295 is refused as 20, after
/// question 15."
#[test]
fn read_counts() {
    let card = card_p();
    let p = handed(&card);
    let clean: &[u8] = b"AAAAAAAAAAAAAAACTGCAATCGTCAT";
    let mended: &[u8] = b"TAAAAAAAAAAAAAACTGCAATCGTCAT";
    let accepted = Ok(Shelved::Accepted { count: 1 });
    let replaced = Ok(Shelved::Replaced { count: 1 });
    let repeat = Ok(Shelved::Repeat { count: 1 });
    let mut shelf = hex("FFFFFFFF FF FF FFFFFFFF FF");
    for (count, read, answer, record) in [
        (0, mended, accepted, "00000001 E4 01 00000001"),
        (1, mended, repeat, "00000001 E4 01 00000002"),
        (1, clean, replaced, "00000001 E4 00 00000003"),
        (1, mended, repeat, "00000001 E4 00 00000004"),
        (1, clean, repeat, "00000001 E4 00 00000005"),
    ] {
        assert_eq!(shelve(&p, read, &mut shelf, count), answer);
        assert_eq!(shelf, hex(&format!("{record} FF")));
    }

    let (fifteen, twenty) = (Err(Refusal(15)), Err(Refusal(20)));
    for (read, record, answer, after) in [
        (clean, "E4 00 FFFFFFFE", repeat, "E4 00 FFFFFFFF"),
        (clean, "E5 01 FFFFFFFE", replaced, "E4 00 FFFFFFFF"),
        (mended, "E4 07 FFFFFFFE", repeat, "E4 07 FFFFFFFF"),
        (clean, "E4 00 FFFFFFFF", twenty, "E4 00 FFFFFFFF"),
        (clean, "E4 01 FFFFFFFF", twenty, "E4 01 FFFFFFFF"),
        (clean, "E5 01 FFFFFFFF", twenty, "E5 01 FFFFFFFF"),
        (clean, "E5 07 FFFFFFFF", twenty, "E5 07 FFFFFFFF"),
        (mended, "E4 00 FFFFFFFF", twenty, "E4 00 FFFFFFFF"),
        (mended, "E4 01 FFFFFFFF", twenty, "E4 01 FFFFFFFF"),
        (clean, "E5 00 FFFFFFFF", fifteen, "E5 00 FFFFFFFF"),
        (mended, "E5 00 FFFFFFFF", fifteen, "E5 00 FFFFFFFF"),
        (mended, "E5 01 FFFFFFFF", fifteen, "E5 01 FFFFFFFF"),
        (clean, "E4 00 00000000", repeat, "E4 00 00000001"),
        (clean, "E4 00 000000FF", repeat, "E4 00 00000100"),
        (mended, "E4 00 00FFFFFF", repeat, "E4 00 01000000"),
    ] {
        let mut shelf = hex(&format!("00000001 {record}"));
        assert_eq!(shelve(&p, read, &mut shelf, 1), answer, "{record}");
        assert_eq!(shelf, hex(&format!("00000001 {after}")), "{record}");
    }
}

/// "The restore guarantee covers these records, not those replaced on the way": seed 1
/// with a payload that a wrongly mended read left, and after a clean read of it.
#[test]
fn restored_after_replacing() {
    let card = card_p();
    let p = handed(&card);
    let mut shelf =
        hex("00000002 69 00 00000001 / 00000001 E5 01 00000009 / 00000003 27 00 00000001");
    let restored = |shelf: &[u8]| {
        let (mut file, mut marks) = ([0xFF; 4], [0xFF; 4]);
        let sheet = restore(&p, shelf, 3, &mut file, &mut marks, &mut [0; 2]).unwrap();
        assert_eq!((sheet.present, sheet.sweeps), (3, 3));
        assert_eq!((sheet.contradictions, marks), (0, [0, 1, 1, 1]));
        file.to_vec()
    };
    assert_eq!(restored(&shelf), hex("00 27 4E E5"));
    let answer = shelve(&p, b"AAAAAAAAAAAAAAACTGCAATCGTCAT", &mut shelf, 3);
    assert_eq!(answer, Ok(Shelved::Replaced { count: 3 }));
    assert_eq!(restored(&shelf), hex("00 27 4E E4"));
}

/// Document 02, Item 8: "Give back the middle n letters of the first call that has the
/// right length and sites and passes the read check; otherwise those of the second. The
/// letters handed back are that part of the lent call itself, as read and before any
/// mending. If neither call passes, the pair is refused as 21".
#[test]
fn two_calls_of_seed_1() {
    let card = card_p();
    let p = handed(&card);
    let clean: &[u8] =
        b"GTTTCAGAGTTCTACAGTCCGACGATCAAAAAAAAAAAAAAACTGCAATCGTCATTGGAATTCTCGGGTGCCAAGG";
    // The strand's first letter misread; the last letter of the site before it; and the
    // site's first one lost.
    let mended: &[u8] =
        b"GTTTCAGAGTTCTACAGTCCGACGATCTAAAAAAAAAAAAAACTGCAATCGTCATTGGAATTCTCGGGTGCCAAGG";
    let wrong_site: &[u8] =
        b"GTTTCAGAGTTCTACAGTCCGACGATTAAAAAAAAAAAAAAACTGCAATCGTCATTGGAATTCTCGGGTGCCAAGG";
    let short: &[u8] =
        b"TTTCAGAGTTCTACAGTCCGACGATCAAAAAAAAAAAAAAACTGCAATCGTCATTGGAATTCTCGGGTGCCAAGG";
    assert_eq!((clean.len(), short.len()), (28 + 48, 28 + 47));
    let (first, second) = (Ok(Choice::First), Ok(Choice::Second));
    let refused = Err(Refusal(21));
    for (one, other, choice, letters) in [
        (clean, mended, first, "AAAAAAAAAAAAAAACTGCAATCGTCAT"),
        (mended, clean, first, "TAAAAAAAAAAAAAACTGCAATCGTCAT"),
        (wrong_site, mended, second, "TAAAAAAAAAAAAAACTGCAATCGTCAT"),
        (short, clean, second, "AAAAAAAAAAAAAAACTGCAATCGTCAT"),
        (clean, short, first, "AAAAAAAAAAAAAAACTGCAATCGTCAT"),
        (short, wrong_site, refused, ""),
    ] {
        assert_eq!(choose_call(&p, one, other), choice);
        assert_eq!(call_letters(&p, one, other), letters.as_bytes());
    }
    // "after the card questions"
    let wrong_4 = Handed { weights: &[], ..p };
    assert_eq!(choose_call(&wrong_4, short, short), Err(Refusal(4)));
    assert_eq!(choose_call(&wrong_4, clean, clean), Err(Refusal(4)));
    assert_eq!(call_letters(&wrong_4, clean, clean), b"");
}

/// Card P with W = 3, and its weights apart from the field. Document 02, Item 14:
/// "A card may carry a fourth field, tag 4, length 4: the width W."
#[test]
fn card_p_with_a_width() {
    let mut card = card_p();
    card.extend(hex("04 0004 00000003"));
    let p = handed(&card);
    assert_eq!((p.dealt, p.width), (true, 3));
    assert_eq!(p.weights, hex("00000001 00000001"));
    let mut buffer = [0x3F; 36];
    assert_eq!(cut_card(&p, &mut buffer), Ok(35));
    assert_eq!(buffer[..35], card);
    assert_eq!(buffer[35], 0x3F);
    assert_eq!(cut_card(&p, &mut [0; 34]), Err(Refusal(19)));

    // "Without it any W handed is ignored: .. the cutter omits it, so that card
    // reads back with W 0."
    let without = Handed { dealt: false, ..p };
    assert_eq!(cut_card(&without, &mut buffer), Ok(28));
    assert_eq!(buffer[..28], card_p());
    assert_eq!(read_card(&card_p()).unwrap().width, 0);
}

/// File Q under card P with W = 2, 3 and 4: the places 0 2, 1 3 of four, then 0 3,
/// 1, 2, then all of them in order; and "a W below 2 or above F is refused as 27".
#[test]
fn file_q_is_dealt() {
    let card = card_p();
    let dealt = Handed {
        dealt: true,
        ..handed(&card)
    };
    for (width, expected) in [(2, "1B 4E 27 E4"), (3, "1B E4 27 4E"), (4, "1B 27 4E E4")] {
        let p = Handed { width, ..dealt };
        let mut target = [0x3F; 5];
        assert_eq!(deal(&p, &file_q(), &mut target), Ok(()));
        assert_eq!(target[..4], hex(expected));
        assert_eq!(target[4], 0x3F);
        let mut back = [0x3F; 4];
        assert_eq!(undeal(&p, &target, &mut back), Ok(()));
        assert_eq!(back.to_vec(), file_q());
    }
    for width in [0, 1, 5] {
        let p = Handed { width, ..dealt };
        assert_eq!(deal(&p, &file_q(), &mut [0; 4]), Err(Refusal(27)));
        assert_eq!(undeal(&p, &file_q(), &mut [0; 4]), Err(Refusal(27)));
    }
}

/// "The writer .. handed the dealt file": seed 1 picks segment 3 (a bench example),
/// which after dealing by W = 3 is byte 4E of Q. The strand's seed and payload come
/// back from the read check, whatever W is.
#[test]
fn seed_1_of_the_dealt_file() {
    let mut card = card_p();
    card[13..15].copy_from_slice(&[0, 0]); // lo
    card.extend(hex("04 0004 00000003"));
    let p = handed(&card);
    let mut target = [0; 4];
    deal(&p, &file_q(), &mut target).unwrap();
    let mut line = [0; 29];
    let written = write(&p, &target, 1, 1, 1, &mut line, &mut [0; 2]).unwrap();
    assert_eq!(written.made, 1);
    let droplet = read_check(&p, &line[..28]).unwrap();
    assert_eq!((droplet.seed, droplet.payload[0]), (1, 0x4E));
}
