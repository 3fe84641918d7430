//! Counts of records that a shelf does not hold, and the state bytes and read counts of those that it holds.

use super::random::Random;
use super::run::Regions;

/// A count whose records reach past a shelf of this length: by one, by more, or near 2^64, where a product would wrap around.
pub fn too_many(random: &mut Random, record: usize, length: usize) -> usize {
    let whole = length / record;
    match random.below(6) {
        0 | 1 => whole + 1,
        2 => whole + random.between(1, 1000),
        3 => usize::MAX - random.below(4),
        4 => usize::MAX / record + 1,
        _ => usize::MAX / random.between(1, record) - random.below(4),
    }
}

/// A state byte: 0 is clean, 1 mended, and any other one reads as mended.
pub fn any_state(random: &mut Random) -> u8 {
    let any = random.byte();
    random.one_of(&[0, 0, 0, 0, 1, 1, 1, 2, 7, 128, 255, any])
}

/// The reads behind a record: few or any, and those around which four bytes carry or are full.
pub fn any_behind(random: &mut Random) -> u32 {
    let any = random.word();
    let few = random.between(0, 300) as u32;
    let carries = any | random.one_of(&[0xFF, 0xFFFF, 0x00FF_FFFF]);
    match random.below(24) {
        0 | 1 => 0,
        2 => 1,
        3 => 0x0000_00FF,
        4 => 0x0000_FFFF,
        5 => 0x00FF_FFFF,
        6 => 0x7FFF_FFFF,
        7..=9 => u32::MAX - 1,
        10..=13 => u32::MAX,
        14 => carries,
        15 => any,
        _ => few,
    }
}

/// A record's count, its last four bytes.
pub fn behind_of(record: &[u8]) -> u32 {
    let [.., a, b, c, d] = *record else {
        panic!("a record has 10 bytes and more");
    };
    u32::from_be_bytes([a, b, c, d])
}

/// A record's count becomes this one.
pub fn set_behind(record: &mut [u8], behind: u32) {
    let start = record.len() - 4;
    record[start..].copy_from_slice(&behind.to_be_bytes());
}

/// What kind of count it is, as it stands in the names of regions.
pub fn kind_of_count(behind: u32) -> &'static str {
    match behind {
        0 => "count 0",
        1 => "count 1",
        0x0000_00FF => "count 000000FF",
        0x0000_FFFF => "count 0000FFFF",
        0x00FF_FFFF => "count 00FFFFFF",
        0x7FFF_FFFF => "count 7FFFFFFF",
        0xFFFF_FFFE => "count one below full",
        0xFFFF_FFFF => "count full",
        _ if behind % 256 == 255 => "another count that carries",
        _ => "another count",
    }
}

#[rustfmt::skip]
pub const REGIONS: &[&str] = &[
    "answer 14", "the count just fits", "14: one too many", "14: a byte short", "14: 2^64 - 1", "14: a product that wraps to fit",
    "14: the records would fit a byte shorter", "14: the records would fit without their counts",
    "14: the records would fit without states and counts", "the count just fits, more than 1",
];

pub fn note(regions: &mut Regions, record: usize, length: usize, count: usize, answer: u32) {
    let fits = matches!(answer, 0 | 15..=18 | 20);
    regions.note_if(
        fits && count > 0 && count * record == length,
        "the count just fits",
    );
    regions.note_if(
        fits && count > 1 && count * record == length,
        "the count just fits, more than 1",
    );
    if answer == 14 {
        for (shorter, region) in [
            (1, "14: the records would fit a byte shorter"),
            (4, "14: the records would fit without their counts"),
            (5, "14: the records would fit without states and counts"),
        ] {
            let bytes = count.checked_mul(record - shorter);
            regions.note_if(bytes.is_some_and(|bytes| bytes <= length), region);
        }
        regions.note_if(count == length / record + 1, "14: one too many");
        regions.note_if(
            count == length / record + 1 && length % record == record - 1,
            "14: a byte short",
        );
        regions.note_if(count == usize::MAX, "14: 2^64 - 1");
        regions.note_if(
            count > length && count.wrapping_mul(record) <= length,
            "14: a product that wraps to fit",
        );
    }
}
