//! Calls of the base callers: the letters of an order, as they should be or with wrong sites or lengths, and what a call is.

use super::cards::Numbers;
use super::random::Random;
use second::check_bytes_letters_screen::{order, SITE_AFTER, SITE_BEFORE};
use second::{read_check, Droplet};

const BEFORE: usize = SITE_BEFORE.len();
const AFTER: usize = SITE_AFTER.len();
const SITES: usize = BEFORE + AFTER;

// ---------------------------------------------------------------- what is sent

/// A call of the order of these letters: as it should be, or damaged in one way, mostly outside of these letters.
pub fn any_call(random: &mut Random, strand: &[u8]) -> Vec<u8> {
    let mut call = order(strand);
    match random.below(40) {
        0..=19 => (),
        20..=26 => wrong_letter_in_a_site(random, &mut call),
        27 => {
            wrong_letter_in_a_site(random, &mut call);
            wrong_letter_in_a_site(random, &mut call);
        }
        28 => wrong_letter_in_each_site(random, &mut call),
        29 => call = [SITE_AFTER, strand, SITE_BEFORE].concat(),
        30 => small_sites(random, &mut call),
        31..=33 => shift(random, &mut call),
        _ => change_length(random, &mut call),
    }
    call
}

fn wrong_letter_in_a_site(random: &mut Random, call: &mut [u8]) {
    let any = random.below(SITES);
    let place = random.one_of(&[0, BEFORE - 1, BEFORE, SITES - 1, any, any, any, any]);
    let place = if place < BEFORE {
        place
    } else {
        call.len() - SITES + place
    };
    call[place] = any_other(random, call[place]);
}

fn wrong_letter_in_each_site(random: &mut Random, call: &mut [u8]) {
    let end = call.len();
    for place in [random.below(BEFORE), end - 1 - random.below(AFTER)] {
        call[place] = any_other(random, call[place]);
    }
}

/// Another byte than this letter, mostly one that could be taken for it.
fn any_other(random: &mut Random, letter: u8) -> u8 {
    let others = [
        random.one_of(b"ACGT"),
        random.one_of(b"ACGT"),
        letter.to_ascii_lowercase(),
        b'N',
        letter ^ 0x80,
        letter ^ (1 << random.below(8)),
        random.byte(),
    ];
    match random.one_of(&others) {
        same if same == letter => b'N',
        other => other,
    }
}

/// One of the sites or both in small letters.
fn small_sites(random: &mut Random, call: &mut [u8]) {
    let after = call.len() - AFTER;
    let which = random.below(3);
    if which != 0 {
        call[..BEFORE].make_ascii_lowercase();
    }
    if which != 1 {
        call[after..].make_ascii_lowercase();
    }
}

/// One letter lost and one too many elsewhere, so that the length stays as it is: at the ends of the order, or of the strand.
fn shift(random: &mut Random, call: &mut Vec<u8>) {
    let last = call.len() - 1;
    let (lost, gained) = match random.below(6) {
        0 => (0, last),
        1 => (last, 0),
        2 => (0, last - AFTER),
        3 => (last, BEFORE),
        4 => (BEFORE, last - AFTER),
        _ => (last - AFTER, BEFORE),
    };
    call.remove(lost);
    call.insert(gained, random.one_of(b"ACGT"));
}

fn change_length(random: &mut Random, call: &mut Vec<u8>) {
    let (end, after) = (call.len(), call.len() - AFTER);
    let letter = random.one_of(b"ACGT");
    match random.below(14) {
        0 => call.clear(),
        1 => {
            call.remove(0);
        }
        2 => {
            call.pop();
        }
        3 => {
            call.remove(BEFORE + random.below((after - BEFORE).max(1)));
        }
        4 => call.insert(0, letter),
        5 => call.push(letter),
        6 => call.insert(BEFORE, letter),
        7 => call.insert(after, letter),
        8 => *call = call[BEFORE..after].to_vec(),
        9 => call.truncate(after),
        10 => *call = call.split_off(BEFORE),
        11 => *call = order(b""),
        12 => {
            let more = match random.below(8) {
                0 => 65_536,
                1..=3 => end,
                _ => 256,
            };
            let again = call.clone();
            call.extend(again.iter().cycle().take(more));
        }
        _ => call.truncate(random.below(end)),
    }
}

// ---------------------------------------------------------------- what a call is

/// Whether a call passes under an accepted card, and for what it does not. A call of another length has no sites to look at.
pub enum Verdict {
    Passes(Droplet),
    Length,
    SiteBefore,
    SiteAfter,
    BothSites,
    /// What the read check answers of the middle.
    Middle(u8),
}

impl Verdict {
    pub fn of(numbers: &Numbers, call: &[u8]) -> Verdict {
        let n = numbers.n();
        if call.len() != BEFORE + n + AFTER {
            return Verdict::Length;
        }
        let is_right = |site: &[u8], from: usize| call[from..from + site.len()] == *site;
        match (
            is_right(SITE_BEFORE, 0),
            is_right(SITE_AFTER, call.len() - AFTER),
        ) {
            (true, true) => match read_check(&numbers.handed(), &call[BEFORE..BEFORE + n]) {
                Ok(droplet) => Verdict::Passes(droplet),
                Err(refusal) => Verdict::Middle(refusal.0),
            },
            (false, true) => Verdict::SiteBefore,
            (true, false) => Verdict::SiteAfter,
            (false, false) => Verdict::BothSites,
        }
    }

    pub fn passes(&self) -> bool {
        matches!(self, Verdict::Passes(_))
    }

    pub fn name(&self) -> &'static str {
        match self {
            Verdict::Passes(_) => "passes",
            Verdict::Length => "length",
            Verdict::SiteBefore => "site before",
            Verdict::SiteAfter => "site after",
            Verdict::BothSites => "both sites",
            Verdict::Middle(10) => "10",
            Verdict::Middle(11) => "11",
            Verdict::Middle(12) => "12",
            Verdict::Middle(13) => "13",
            Verdict::Middle(number) => panic!("{number} of n letters under an accepted card"),
        }
    }
}

#[rustfmt::skip]
pub const VERDICTS: &[&str] = &["passes", "length", "site before", "site after", "both sites", "10", "11", "12", "13"];

/// The kinds that a call may be, besides the place of a wrong letter. But for the first five, the strand itself is fine.
#[rustfmt::skip]
const KINDS: &[&str] = &[
    "empty", "the sites alone", "10: a small letter", "10: N", "a letter of the strand short",
    "clean, R 2", "clean, R 4", "1 byte mended, R 2", "1 byte mended, R 4", "2 bytes mended, R 4",
    "a site's wrong letter another base", "a site's wrong letter a small one", "a site's wrong letter N",
    "a site's wrong letter with its top bit", "a site's wrong letter another byte",
    "a wrong letter in each site", "more wrong letters in a site", "small site before", "small site after", "small sites",
    "sites swapped", "a letter early", "a letter late", "strand a letter early", "strand a letter late",
    "a letter short at its front", "a letter short at its end", "a letter over at its front", "a letter over at its end",
    "a letter over before the strand", "a letter over behind the strand",
    "the strand alone", "no site after", "no site before", "twice", "256 letters over", "65,536 letters over",
];

fn wrong_at(site: &str, place: usize) -> String {
    format!("site {site} wrong at letter {place}")
}

pub fn all_kinds() -> Vec<String> {
    let mut kinds: Vec<String> = KINDS.iter().map(|&kind| String::from(kind)).collect();
    kinds.extend((0..BEFORE).map(|place| wrong_at("before", place)));
    kinds.extend((0..AFTER).map(|place| wrong_at("after", place)));
    kinds
}

/// What a call is under an accepted card, by its letters alone.
pub fn kinds(numbers: &Numbers, call: &[u8], verdict: &Verdict) -> Vec<String> {
    match verdict {
        Verdict::Passes(droplet) => {
            let mended = match droplet.mended {
                0 => "clean",
                1 => "1 byte mended",
                _ => "2 bytes mended",
            };
            vec![format!("{mended}, R {}", numbers.r)]
        }
        Verdict::Length => of_other_length(numbers, call),
        Verdict::Middle(10) => {
            let middle = &call[BEFORE..call.len() - AFTER];
            let has = |letters: &[u8]| middle.iter().any(|letter| letters.contains(letter));
            named(&[("10: a small letter", has(b"acgt")), ("10: N", has(b"N"))])
        }
        Verdict::Middle(_) => Vec::new(),
        Verdict::SiteBefore | Verdict::SiteAfter | Verdict::BothSites => {
            let mut kinds = of_wrong_sites(numbers, call);
            kinds.extend(of_shifted(numbers, call));
            kinds
        }
    }
}

fn named(kinds: &[(&str, bool)]) -> Vec<String> {
    let met = kinds.iter().filter(|(_, is_met)| *is_met);
    met.map(|&(kind, _)| String::from(kind)).collect()
}

/// Whether these letters are a fine strand.
fn is_fine(numbers: &Numbers, strand: &[u8]) -> bool {
    read_check(&numbers.handed(), strand).is_ok()
}

fn is_fine_call(numbers: &Numbers, call: &[u8]) -> bool {
    Verdict::of(numbers, call).passes()
}

/// The kinds of a call of the right length in which a fine strand stands where it should, between wrong sites.
fn of_wrong_sites(numbers: &Numbers, call: &[u8]) -> Vec<String> {
    let after = call.len() - AFTER;
    if !is_fine(numbers, &call[BEFORE..after]) {
        return Vec::new();
    }
    let (site_before, site_after) = (&call[..BEFORE], &call[after..]);
    let before = wrong_places(site_before, SITE_BEFORE);
    let after = wrong_places(site_after, SITE_AFTER);
    let mut kinds = match (&before[..], &after[..]) {
        (&[place], []) => vec![
            wrong_at("before", place),
            wrong_letter(site_before[place], SITE_BEFORE[place]),
        ],
        ([], &[place]) => vec![
            wrong_at("after", place),
            wrong_letter(site_after[place], SITE_AFTER[place]),
        ],
        ([_], [_]) => vec![String::from("a wrong letter in each site")],
        ([], _) | (_, []) => vec![String::from("more wrong letters in a site")],
        _ => Vec::new(),
    };
    let small_before = site_before == SITE_BEFORE.to_ascii_lowercase();
    let small_after = site_after == SITE_AFTER.to_ascii_lowercase();
    kinds.extend(named(&[
        ("small site before", small_before && after.is_empty()),
        ("small site after", small_after && before.is_empty()),
        ("small sites", small_before && small_after),
    ]));
    kinds
}

fn wrong_places(site: &[u8], right: &[u8]) -> Vec<usize> {
    (0..right.len()).filter(|&i| site[i] != right[i]).collect()
}

fn wrong_letter(letter: u8, right: u8) -> String {
    let what = match letter {
        b'A' | b'C' | b'G' | b'T' => "another base",
        b'N' => "N",
        _ if letter == right.to_ascii_lowercase() => "a small one",
        _ if letter == right ^ 0x80 => "with its top bit",
        _ => "another byte",
    };
    format!("a site's wrong letter {what}")
}

/// The kinds of a call of the right length in which a fine strand stands elsewhere.
fn of_shifted(numbers: &Numbers, call: &[u8]) -> Vec<String> {
    let n = numbers.n();
    // The strand that starts at a place, what stands before it and what behind.
    let around = |start: usize| (&call[..start], &call[start..start + n], &call[start + n..]);
    let is_around = |start: usize, before: &[u8], after: &[u8]| {
        let (there_before, strand, there_after) = around(start);
        there_before.ends_with(before) && there_after.starts_with(after) && is_fine(numbers, strand)
    };
    let (early, late) = (BEFORE - 1, BEFORE + 1);
    named(&[
        ("sites swapped", is_around(AFTER, SITE_AFTER, SITE_BEFORE)),
        (
            "a letter early",
            is_around(early, &SITE_BEFORE[1..], SITE_AFTER),
        ),
        (
            "a letter late",
            is_around(late, SITE_BEFORE, &SITE_AFTER[..AFTER - 1]),
        ),
        (
            "strand a letter early",
            call.ends_with(SITE_AFTER) && is_around(early, &SITE_BEFORE[1..], b""),
        ),
        (
            "strand a letter late",
            call.starts_with(SITE_BEFORE) && is_around(late, b"", &SITE_AFTER[..AFTER - 1]),
        ),
    ])
}

/// The kinds of a call of a wrong length.
fn of_other_length(numbers: &Numbers, call: &[u8]) -> Vec<String> {
    let (n, right) = (numbers.n(), numbers.n() + SITES);
    let length = call.len();
    let between_sites = call.starts_with(SITE_BEFORE) && call.ends_with(SITE_AFTER);
    let is_right_up_to =
        |over: usize| length == right + over && is_fine_call(numbers, &call[..right]);
    let [first, last] = [&SITE_BEFORE[..1], &SITE_AFTER[AFTER - 1..]];
    let (short, over) = (length + 1 == right, length == right + 1);
    named(&[
        ("empty", length == 0),
        ("the sites alone", call == order(b"")),
        ("a letter of the strand short", short && between_sites),
        (
            "a letter short at its front",
            short && is_fine_call(numbers, &[first, call].concat()),
        ),
        (
            "a letter short at its end",
            short && is_fine_call(numbers, &[call, last].concat()),
        ),
        (
            "a letter over at its front",
            over && is_fine_call(numbers, &call[1..]),
        ),
        ("a letter over at its end", is_right_up_to(1)),
        (
            "a letter over before the strand",
            over && between_sites && is_fine(numbers, &call[BEFORE + 1..][..n]),
        ),
        (
            "a letter over behind the strand",
            over && between_sites && is_fine(numbers, &call[BEFORE..][..n]),
        ),
        ("the strand alone", is_fine(numbers, call)),
        (
            "no site after",
            call.strip_prefix(SITE_BEFORE)
                .is_some_and(|strand| is_fine(numbers, strand)),
        ),
        (
            "no site before",
            call.strip_suffix(SITE_AFTER)
                .is_some_and(|strand| is_fine(numbers, strand)),
        ),
        ("twice", is_right_up_to(right)),
        ("256 letters over", is_right_up_to(256)),
        ("65,536 letters over", is_right_up_to(65_536)),
    ])
}
