//! Shelving by the archive `libcapi.a` beside the second implementation's, over random shelves and reads, some in lists of calls.

mod differential;

use differential::cards::{self, Numbers};
use differential::joints;
use differential::lent::{hex, Lent};
use differential::random::Random;
use differential::reads::{self, Read};
use differential::run::{run, Regions};
use differential::shelves;
use differential::wrong_bytes;
use second::check_bytes_letters_screen::letters_of_bytes;
use second::clean_beats_mended::records_after_a_list;
use second::{Droplet, Shelved};
use std::collections::HashMap;

#[cfg(capi_missing)]
compile_error!("target/staticlib/libcapi.a is missing: `host/build capi` makes it");

#[link(name = "capi", kind = "static")]
extern "C" {
    fn fountain_store(
        f: u32,
        l: u8,
        r: u8,
        m: u8,
        lo: u16,
        hi: u16,
        dealt: u8,
        width: u32,
        weights: *const u8,
        weights_len: usize,
        store: *mut u8,
        store_len: usize,
        count: usize,
        read: *const u8,
        read_len: usize,
        answer: *mut u64,
    ) -> u32;
}

struct Case {
    numbers: Numbers,
    /// The shelf and the answer as they are before the call.
    store: Vec<u8>,
    count: usize,
    read: Read,
    answer: [u64; 2],
}

/// A call's number and what it leaves in the buffers.
struct After {
    number: u32,
    store: Vec<u8>,
    answer: [u64; 2],
}

impl Case {
    fn any(random: &mut Random) -> Case {
        let mut numbers = cards::any_accepted(random);
        let read = reads::any_read(random, &mut numbers);
        let offered = offered_by(&numbers, &read);
        let (mut store, mut count) = any_shelf(random, &numbers, &offered);
        if random.once_in(12) {
            count = shelves::too_many(random, numbers.record(), store.len());
        }
        if random.once_in(200) {
            store.clear();
        }
        if random.once_in(7) {
            cards::miss(random, &mut numbers);
        }
        Case {
            numbers,
            store,
            count,
            read,
            answer: [random.number(), random.number()],
        }
    }

    fn expected(&self) -> After {
        let mut store = self.store.clone();
        let (number, answer) = match second::shelve(
            &self.numbers.handed(),
            &self.read.letters,
            &mut store,
            self.count,
        ) {
            Ok(Shelved::Accepted { count }) => (0, [0, count as u64]),
            Ok(Shelved::Repeat { count }) => (0, [1, count as u64]),
            Ok(Shelved::Replaced { count }) => (0, [2, count as u64]),
            Err(refusal) => (refusal.0.into(), self.answer),
        };
        After {
            number,
            store,
            answer,
        }
    }

    /// Runs the archive's shelving and compares all that it leaves with what is expected.
    fn compare(
        &self,
        random: &mut Random,
        regions: &mut Regions,
        expected: &After,
    ) -> Result<(), String> {
        let numbers = &self.numbers;
        let weights = Lent::new(random, &numbers.weights);
        let mut store = Lent::new(random, &self.store);
        let read = Lent::new(random, &self.read.letters);
        let mut answer = Lent::new(random, &self.answer);
        regions.note_if(weights.is_null(), "weights NULL");
        regions.note_if(store.is_null(), "shelf NULL");
        regions.note_if(read.is_null(), "read NULL");
        // Each pointer stands for as many items as its length says (two numbers for the answer), and nothing overlaps.
        let got = unsafe {
            fountain_store(
                numbers.f,
                numbers.l,
                numbers.r,
                numbers.m,
                numbers.lo,
                numbers.hi,
                numbers.dealt,
                numbers.width,
                weights.pointer(),
                weights.len(),
                store.pointer_mut(),
                store.len(),
                self.count,
                read.pointer(),
                read.len(),
                answer.pointer_mut(),
            )
        };
        let report = |what: String| {
            format!(
                "{what}; the archive answered {got}, expected is {}; {}",
                expected.number,
                self.report()
            )
        };
        if got != expected.number {
            return Err(report(String::from("answer")));
        }
        weights
            .holds(&numbers.weights)
            .map_err(|e| report(format!("weights: {e}")))?;
        read.holds(&self.read.letters)
            .map_err(|e| report(format!("read: {e}")))?;
        let numbers_differ = |e| {
            report(format!(
                "numbers {:?}, expected are {:?}: {e}",
                answer.items(),
                expected.answer
            ))
        };
        answer.holds(&expected.answer).map_err(numbers_differ)?;
        store
            .holds(&expected.store)
            .map_err(|e| report(format!("shelf: {e}")))
    }

    fn report(&self) -> String {
        let read = String::from_utf8_lossy(&self.read.letters);
        format!(
            "{} read {read:?} count {} shelf {}",
            self.numbers.report(),
            self.count,
            hex(&self.store)
        )
    }

    /// What the read check makes of a read that came to the shelf.
    fn droplet(&self) -> Droplet {
        second::read_check(&self.numbers.handed(), &self.read.letters)
            .expect("a read that came to the shelf is legal")
    }

    fn note(&self, regions: &mut Regions, after: &After) {
        cards::note(regions, &self.numbers, after.number);
        reads::note(regions, &self.numbers, &self.read, after.number);
        let (record, length) = (self.numbers.record(), self.store.len());
        shelves::note(regions, record, length, self.count, after.number);
        if after.number == 27 {
            let too_many = self.count > length / record;
            regions.note_if(too_many, "27: 14 too");
            regions.note_if(!too_many, "27: 14 fine");
        }
        match after.number {
            0 | 15 | 16 | 20 => {
                let droplet = self.droplet();
                Met::of(self, &droplet).note(regions, after);
            }
            2 => (),
            _ => self.note_refused(regions, after.number),
        }
    }

    /// Notes what stands on the shelf of the seed that was printed, where a question before 15 says no.
    fn note_refused(&self, regions: &mut Regions, number: u32) {
        let record = self.numbers.record();
        let mut records = self.store.chunks_exact(record).take(self.count);
        if let Some(there) = records.find(|there| there[..4] == self.read.printed[..4]) {
            let is_clean = self.read.letters == letters_of_bytes(&self.read.printed);
            let read = if is_clean { "clean" } else { "misread" };
            let state = state_of(there[self.numbers.state_at()]);
            regions.note(&format!("{number}: {read}, its record {state}"));
            regions.note_if(
                has_full_count(there),
                &format!("{number}: its record's count full"),
            );
        }
    }
}

/// Seed and payload that a read comes to the shelf with, if it is legal, or that were printed.
fn offered_by(numbers: &Numbers, read: &Read) -> (u32, Vec<u8>) {
    let l = usize::from(numbers.l);
    match second::read_check(&numbers.handed(), &read.letters) {
        Ok(droplet) => (droplet.seed, droplet.payload[..l].to_vec()),
        Err(_) => {
            let [a, b, c, d] = [0, 1, 2, 3].map(|i| read.printed[i]);
            let payload = read.printed[4..4 + l].to_vec();
            (u32::from_be_bytes([a, b, c, d]), payload)
        }
    }
}

/// How a state byte reads.
fn state_of(byte: u8) -> &'static str {
    match byte {
        0 => "clean",
        _ => "mended",
    }
}

/// Whether no read more can stand behind a record.
fn has_full_count(record: &[u8]) -> bool {
    shelves::behind_of(record) == u32::MAX
}

/// What a legal read meets on the shelf.
struct Met<'a> {
    case: &'a Case,
    seed: [u8; 4],
    payload: &'a [u8],
    /// How many of its bytes were mended.
    mended: usize,
    /// Which part of it they all stand in, if it is one.
    mended_in: Option<&'static str>,
    /// The whole records of the buffer, those past the count too.
    records: Vec<&'a [u8]>,
    /// The places of those of its seed, before the count.
    of_seed: Vec<usize>,
}

impl<'a> Met<'a> {
    fn of(case: &'a Case, droplet: &'a Droplet) -> Met<'a> {
        let seed = droplet.seed.to_be_bytes();
        let records: Vec<&[u8]> = case.store.chunks_exact(case.numbers.record()).collect();
        let of_seed = (0..case.count)
            .filter(|&place| records[place][..4] == seed)
            .collect();
        Met {
            case,
            seed,
            payload: &droplet.payload[..usize::from(case.numbers.l)],
            mended: droplet.mended,
            mended_in: wrong_bytes::part_mended(&case.numbers, &case.read),
            records,
            of_seed,
        }
    }

    fn state_at(&self) -> usize {
        self.case.numbers.state_at()
    }

    /// How the read and the first record of its seed stand to each other: "clean over mended".
    fn who_over_whom(&self) -> String {
        let read = if self.mended == 0 { "clean" } else { "mended" };
        let there = state_of(self.records[self.of_seed[0]][self.state_at()]);
        format!("{read} over {there}")
    }

    fn note(&self, regions: &mut Regions, after: &After) {
        match (after.number, after.answer[0]) {
            (0, 0) => self.note_accepted(regions),
            (0, 1) => {
                self.note_there(regions, "repeat");
                self.note_repeat(after);
            }
            (0, _) => {
                self.note_there(regions, "replaced");
                self.note_replaced(regions, after);
            }
            (15, _) => self.note_there(regions, "15"),
            (20, _) => self.note_there(regions, "20"),
            _ => self.note_16(regions),
        }
        if after.number != 0 {
            assert_eq!(after.store, self.case.store, "a refusal changes nothing");
        }
    }

    fn note_16(&self, regions: &mut Regions) {
        let (record, length) = (self.case.numbers.record(), self.case.store.len());
        regions.note_if(self.mended > 0, "16: mended");
        regions.note_if(self.mended == 0, "16: clean");
        regions.note_if(length % record == record - 1, "16: a byte short");
        regions.note_if(length % record == record - 4, "16: space but for the count");
        regions.note_if(
            length % record == record - 5,
            "16: space but for state and count",
        );
        regions.note_if(length % record == 0, "16: no byte left");
        let on_shelf = &self.records[..self.case.count];
        regions.note_if(
            on_shelf.iter().any(|there| has_full_count(there)),
            "16: a stranger's count full",
        );
    }

    fn note_accepted(&self, regions: &mut Regions) {
        let (case, record) = (self.case, self.case.numbers.record());
        let last = case.store.len() == record * (case.count + 1);
        regions.note("accepted");
        regions.note(&format!("accepted, bytes mended {}", self.mended));
        if let Some(part) = self.mended_in {
            regions.note(&format!("accepted, mended in the {part} alone"));
        }
        regions.note_if(case.count == 0, "accepted as the first");
        regions.note_if(last, "accepted into the last bytes");
        regions.note_if(
            last && self.mended > 0,
            "accepted into the last bytes, mended",
        );
        regions.note_if(case.count > 100, "accepted after 100 records");
        let past = &self.records[case.count..];
        regions.note_if(
            past.iter().any(|there| there[..4] == self.seed),
            "its seed past the count",
        );
        regions.note_if(
            past.iter()
                .any(|there| there[..4] == self.seed && has_full_count(there)),
            "its seed past the count, full",
        );
        regions.note_if(
            self.records[..case.count]
                .iter()
                .any(|there| has_full_count(there)),
            "accepted, a stranger's count full",
        );
        regions.note_if(
            shelves::behind_of(past[0]) == 1,
            "accepted where the count was lent as 1",
        );
        regions.note_if(
            has_full_count(past[0]),
            "accepted where the count was lent full",
        );
        regions.note_if(
            past[0][..self.state_at()] == [&self.seed, self.payload].concat(),
            "its seed and payload just past the count",
        );
        let lent = match past[0][self.state_at()] {
            0 => "0",
            1 => "1",
            _ => "another byte",
        };
        let read = if self.mended == 0 { "clean" } else { "mended" };
        regions.note(&format!(
            "accepted, {read}, where the state was lent as {lent}"
        ));
    }

    /// What a record's payload is beside the read's.
    fn payload_of(&self, place: usize) -> &'static str {
        if self.records[place][4..self.state_at()] == *self.payload {
            "same payload"
        } else {
            "other payload"
        }
    }

    /// Notes what the first record of its seed is, and how it was answered.
    fn note_there(&self, regions: &mut Regions, answer: &str) {
        let place = self.of_seed[0];
        let over = format!("{answer}: {}", self.who_over_whom());
        let same = self.payload_of(place);
        regions.note(&format!("{over}, {same}"));
        let state = match self.records[place][self.state_at()] {
            state @ (0..=2 | 7 | 128 | 255) => state.to_string(),
            _ => String::from("of another byte"),
        };
        regions.note(&format!("{over}, {same}, state {state}"));
        regions.note(&format!("{over}, bytes mended {}", self.mended));
        if let Some(part) = self.mended_in {
            regions.note(&format!("{over}, mended in the {part} alone"));
        }
        let count = shelves::kind_of_count(shelves::behind_of(self.records[place]));
        regions.note(&format!("{over}, {count}"));
        regions.note(&format!("{over}, {same}, {count}"));
        self.note_places(regions, &over, place);
        self.note_neighbours(regions, &over, place);
        self.note_differing(regions, &over, place);
    }

    /// Notes where it stands, and what other records of its seed there are.
    fn note_places(&self, regions: &mut Regions, over: &str, place: usize) {
        let count = self.case.count;
        let is_full = self.records.len() == count;
        regions.note_if(is_full, &format!("{over}, full shelf"));
        regions.note_if(place > 100, &format!("{over}, after 100 records"));
        regions.note_if(
            place == 0 && count > 1,
            &format!("{over}, the first of them"),
        );
        regions.note_if(
            place > 0 && place + 1 == count,
            &format!("{over}, the last of them"),
        );
        for &later in &self.of_seed[1..] {
            let state = state_of(self.records[later][self.state_at()]);
            let payload = self.payload_of(later);
            let full = if has_full_count(self.records[later]) {
                "full"
            } else {
                "not full"
            };
            regions.note(&format!("{over}, a later one {state}"));
            regions.note(&format!("{over}, a later one with the {payload}"));
            regions.note(&format!("{over}, a later one {full}"));
        }
        let mut strangers = (0..count).filter(|stranger| !self.of_seed.contains(stranger));
        regions.note_if(
            strangers.any(|stranger| has_full_count(self.records[stranger])),
            &format!("{over}, a stranger's count full"),
        );
        regions.note_if(
            self.case.store.len() > count * self.case.numbers.record(),
            &format!("{over}, bytes past the records"),
        );
    }

    /// Notes bytes beside the state byte that say another thing, if they were taken for it.
    fn note_neighbours(&self, regions: &mut Regions, over: &str, place: usize) {
        let is_0 = |byte: &u8| *byte == 0;
        let record = self.records[place];
        let beyond = (place + 1) * self.case.numbers.record();
        let state_is_0 = is_0(&record[self.state_at()]);
        for (place, what) in [
            (self.state_at() - 1, "last payload byte"),
            (self.state_at() + 1, "first byte of the count"),
            (record.len() - 1, "last byte of the count"),
        ] {
            regions.note_if(
                is_0(&record[place]) != state_is_0,
                &format!("{over}, {what} not so"),
            );
        }
        let last = place + 1 == self.case.count;
        match self.case.store.get(beyond) {
            Some(byte) if last && is_0(byte) != state_is_0 => {
                regions.note(&format!("{over}, the byte beyond the last record not so"));
            }
            None => regions.note(&format!("{over}, no byte beyond the last record")),
            _ => (),
        }
    }

    /// Notes where a payload differs in one byte alone.
    fn note_differing(&self, regions: &mut Regions, over: &str, place: usize) {
        let there = &self.records[place][4..self.state_at()];
        let differing: Vec<usize> = (0..there.len())
            .filter(|&i| there[i] != self.payload[i])
            .collect();
        regions.note_if(
            differing == [there.len() - 1],
            &format!("{over}, only the last byte differs"),
        );
        regions.note_if(
            differing == [0] && there.len() > 1,
            &format!("{over}, only the first byte differs"),
        );
    }

    /// The shelf with one read more behind the first record of the seed, and all other bytes as they were.
    fn with_one_more(&self) -> Vec<u8> {
        let place = self.of_seed[0];
        let mut store = self.case.store.clone();
        let behind = shelves::behind_of(self.records[place]) + 1;
        let end = (place + 1) * self.case.numbers.record();
        store[end - 4..end].copy_from_slice(&behind.to_be_bytes());
        store
    }

    /// Holds what a repeat leaves to document 02's words, beside the comparison: the count of the first record of the seed is
    /// one more, and all other bytes are as they were, its state byte too.
    fn note_repeat(&self, after: &After) {
        let kept = self.with_one_more();
        assert_eq!(
            after.store, kept,
            "a repeat changes its record's count alone"
        );
        assert_eq!(after.answer[1], self.case.count as u64);
    }

    /// The same of a replacement: payload and state of the first record of the seed are the read's, its count is one more, and
    /// all other bytes are as they were.
    fn note_replaced(&self, regions: &mut Regions, after: &After) {
        let (case, record) = (self.case, self.case.numbers.record());
        let mut kept = self.with_one_more();
        let start = self.of_seed[0] * record;
        let taken_over = &mut kept[start + 4..start + record - 4];
        taken_over.copy_from_slice(&[self.payload, &[0]].concat());
        assert_eq!(after.store, kept, "a replacement changes its record alone");
        assert_eq!(after.answer[1], case.count as u64);
        regions.note("replaced");
        regions.note_if(case.numbers.l == 1, "replaced: L 1");
        regions.note_if(case.numbers.l == 64, "replaced: L 64");
        regions.note_if(case.numbers.r == 2, "replaced: R 2");
        regions.note_if(case.numbers.r == 4, "replaced: R 4");
    }
}

#[rustfmt::skip]
const REGIONS: &[&str] = &[
    "answer 15", "answer 16", "accepted", "accepted as the first", "accepted into the last bytes", "its seed past the count",
    "accepted into the last bytes, mended", "its seed and payload just past the count", "accepted after 100 records",
    "accepted, bytes mended 0", "accepted, bytes mended 1", "accepted, bytes mended 2",
    "accepted, clean, where the state was lent as 0", "accepted, clean, where the state was lent as 1",
    "accepted, clean, where the state was lent as another byte", "accepted, mended, where the state was lent as 0",
    "accepted, mended, where the state was lent as 1", "accepted, mended, where the state was lent as another byte",
    "accepted, mended in the seed alone", "accepted, mended in the payload alone", "accepted, mended in the check bytes alone",
    "16: mended", "16: clean", "16: a byte short", "16: space but for the count", "16: space but for state and count",
    "16: no byte left", "16: a stranger's count full",
    "shelf NULL", "read NULL", "27: 14 too", "27: 14 fine",
    "3: clean, its record mended", "4: clean, its record mended", "27: clean, its record mended", "14: clean, its record mended",
    "9: misread, its record mended", "10: misread, its record mended", "11: misread, its record mended",
    "12: clean, its record mended", "13: clean, its record mended", "13: clean, its record clean", "13: misread, its record mended",
    "3: its record's count full", "4: its record's count full", "27: its record's count full", "14: its record's count full",
    "9: its record's count full", "10: its record's count full", "11: its record's count full", "12: its record's count full",
    "13: its record's count full", "its seed past the count, full", "accepted, a stranger's count full",
    "accepted where the count was lent as 1", "accepted where the count was lent full",
];

/// What is compared with the first record of its seed. A clean read of a mended one is never a repeat, nor refused under 15.
#[rustfmt::skip]
const COMPARED_REGIONS: &[&str] = &[
    "replaced", "replaced: L 1", "replaced: L 64", "replaced: R 2", "replaced: R 4",
    "replaced: clean over mended, same payload", "replaced: clean over mended, same payload, state 1",
    "replaced: clean over mended, same payload, state 2", "replaced: clean over mended, same payload, state 7",
    "replaced: clean over mended, same payload, state 128", "replaced: clean over mended, same payload, state 255",
    "replaced: clean over mended, same payload, state of another byte",
    "replaced: clean over mended, other payload", "replaced: clean over mended, other payload, state 1",
    "replaced: clean over mended, other payload, state 2", "replaced: clean over mended, other payload, state 7",
    "replaced: clean over mended, other payload, state 128", "replaced: clean over mended, other payload, state 255",
    "replaced: clean over mended, other payload, state of another byte",
    "repeat: clean over clean, same payload, state 0", "repeat: mended over clean, same payload, state 0",
    "repeat: mended over mended, same payload, state 1", "repeat: mended over mended, same payload, state 2",
    "repeat: mended over mended, same payload, state 7", "repeat: mended over mended, same payload, state 128",
    "repeat: mended over mended, same payload, state 255",
    "repeat: mended over mended, same payload, state of another byte",
    "repeat: mended over clean, bytes mended 1", "repeat: mended over clean, bytes mended 2",
    "repeat: mended over mended, bytes mended 1", "repeat: mended over mended, bytes mended 2",
    "15: clean over clean, other payload, state 0", "15: mended over clean, other payload, state 0",
    "15: mended over mended, other payload, state 1", "15: mended over mended, other payload, state 2",
    "15: mended over mended, other payload, state 7", "15: mended over mended, other payload, state 128",
    "15: mended over mended, other payload, state 255",
    "15: mended over mended, other payload, state of another byte",
    "15: mended over clean, bytes mended 1", "15: mended over clean, bytes mended 2",
    "15: mended over mended, bytes mended 1", "15: mended over mended, bytes mended 2",
    "answer 20", "20: clean over clean, same payload, state 0", "20: mended over clean, same payload, state 0",
    "20: clean over mended, same payload, state 1", "20: clean over mended, other payload, state 1",
    "20: clean over mended, same payload, state 255", "20: clean over mended, other payload, state 255",
    "20: mended over mended, same payload, state 1", "20: mended over mended, same payload, state 255",
    "20: mended over mended, bytes mended 1", "20: mended over mended, bytes mended 2",
];

/// Each way of a read to go behind a record, with each count that it may stand at; the last of these is the largest that takes
/// one read more.
#[rustfmt::skip]
const COUNTED_WAYS: &[&str] = &[
    "replaced: clean over mended, same payload", "replaced: clean over mended, other payload",
    "repeat: clean over clean", "repeat: mended over clean", "repeat: mended over mended",
];

#[rustfmt::skip]
const COUNTS: &[&str] = &[
    "count 0", "count 1", "count 000000FF", "count 0000FFFF", "count 00FFFFFF", "count 7FFFFFFF", "another count that carries",
    "another count", "count one below full",
];

/// 15 comes before 20: another payload is refused under 15 at any count, a full one too.
#[rustfmt::skip]
const FIFTEEN_WAYS: &[&str] = &["15: clean over clean", "15: mended over clean", "15: mended over mended"];

#[rustfmt::skip]
const COUNTS_OF_15: &[&str] = &["count 0", "count one below full", "count full"];

/// Each of these ways of a mended read and a record of its seed to meet, with what was mended in one part alone.
#[rustfmt::skip]
const MENDED_WAYS: &[&str] = &[
    "repeat: mended over clean", "repeat: mended over mended", "15: mended over clean", "15: mended over mended",
    "20: mended over clean", "20: mended over mended",
];

#[rustfmt::skip]
const PARTS: &[&str] = &["mended in the seed alone", "mended in the payload alone", "mended in the check bytes alone"];

/// Each way of reads and records of one seed to meet, in every one of the places below.
#[rustfmt::skip]
const WAYS: &[&str] = &[
    "replaced: clean over mended", "repeat: clean over clean", "repeat: mended over clean", "repeat: mended over mended",
    "15: clean over clean", "15: mended over clean", "15: mended over mended",
    "20: clean over clean", "20: mended over clean", "20: mended over mended", "20: clean over mended",
];

#[rustfmt::skip]
const PLACES: &[&str] = &[
    "full shelf", "the first of them", "the last of them", "after 100 records",
    "a later one clean", "a later one mended", "a later one with the same payload", "a later one with the other payload",
    "a later one full", "a later one not full", "a stranger's count full", "bytes past the records",
    "last payload byte not so", "the byte beyond the last record not so", "no byte beyond the last record",
];

/// Counts whose bytes beside the state byte, or at their end, say another thing than it does. A full one says mended.
#[rustfmt::skip]
const COUNT_BYTES: &[&str] = &["first byte of the count not so", "last byte of the count not so"];

/// Where payloads differ.
#[rustfmt::skip]
const DIFFERING: &[&str] = &["only the last byte differs", "only the first byte differs"];

/// The regions of every way in every place.
fn regions_of_ways() -> Vec<String> {
    let mut regions = Vec::new();
    for way in MENDED_WAYS {
        for part in PARTS {
            regions.push(format!("{way}, {part}"));
        }
    }
    for way in WAYS {
        for place in PLACES {
            regions.push(format!("{way}, {place}"));
        }
        for place in DIFFERING.iter().filter(|_| may_differ(way)) {
            regions.push(format!("{way}, {place}"));
        }
        for bytes in COUNT_BYTES.iter().filter(|_| !way.starts_with("20")) {
            regions.push(format!("{way}, {bytes}"));
        }
    }
    for way in COUNTED_WAYS {
        for count in COUNTS {
            regions.push(format!("{way}, {count}"));
        }
    }
    for way in FIFTEEN_WAYS {
        for count in COUNTS_OF_15 {
            regions.push(format!("{way}, {count}"));
        }
    }
    regions
}

/// Whether the payloads may differ: never at a repeat, and under 20 only where the read would take over.
fn may_differ(way: &str) -> bool {
    way.starts_with("replaced") || way.starts_with("15") || way == "20: clean over mended"
}

/// What lists of calls meet that single calls do not show.
#[rustfmt::skip]
const LIST_REGIONS: &[&str] = &[
    "a list of calls", "a list: mended after clean", "a list: clean after mended, same payload",
    "a list: clean after mended, other payload", "a list: wrongly mended, accepted", "a list: wrongly mended, replaced by the printed one",
    "a list: replaced, then repeat, clean", "a list: replaced, then repeat, mended", "a list: replaced, then 15, clean",
    "a list: replaced, then 15, mended", "a list: replaced, then the mended one from before is 15",
    "a list: records clean and mended at its end", "a list: refused under 16 and replaced",
    "a list: counts of 1 and more at its end", "a list: a count of 5 and more", "a list: reads refused under 15 and behind a record",
    "a list: no read answered", "a list: all reads answered, and more than there are records",
];

/// A record near the one that is offered: its seed, its payload, or neither; or one that differs from it by little. Any state
/// and count.
fn any_record(random: &mut Random, (seed, payload): &(u32, Vec<u8>)) -> Vec<u8> {
    let near = seed ^ 1 << random.below(32);
    let other = reads::any_seed(random);
    let seed = match random.below(8) {
        0 | 1 => *seed,
        2 | 3 => near,
        4 => 0,
        _ => other,
    };
    record_of(random, seed, payload)
}

/// A record of this seed, with the payload, one that differs from it in a bit, or any. Any state and count.
fn record_of(random: &mut Random, seed: u32, payload: &[u8]) -> Vec<u8> {
    let mut bytes = payload.to_vec();
    let anywhere = random.below(bytes.len());
    let place = random.one_of(&[0, bytes.len() - 1, anywhere]);
    match random.below(5) {
        0 | 1 => bytes[place] ^= 1 << random.below(8),
        2 => bytes = random.bytes(bytes.len()),
        _ => (),
    }
    let mut record = seed.to_be_bytes().to_vec();
    record.extend(bytes);
    record.push(shelves::any_state(random));
    record.extend(shelves::any_behind(random).to_be_bytes());
    record
}

/// A shelf and its count: records that may have the offered one's seed or payload, then more of them past the count. On some
/// shelves no record has the seed, on some just one.
fn any_shelf(random: &mut Random, numbers: &Numbers, offered: &(u32, Vec<u8>)) -> (Vec<u8>, usize) {
    let many = random.once_in(200);
    let count = if many {
        random.between(100, 1500)
    } else {
        random.below(9)
    };
    let strangers = many || random.once_in(2);
    let mut records = Vec::new();
    for _ in 0..count {
        let mut record = any_record(random, offered);
        if strangers && record[..4] == offered.0.to_be_bytes() {
            record[random.below(4)] ^= 0x10;
        }
        records.push(record);
    }
    if strangers && count > 0 && random.below(3) < if many { 2 } else { 1 } {
        let anywhere = random.below(count);
        let place = random.one_of(&[anywhere, count - 1]);
        records[place] = record_of(random, offered.0, &offered.1);
        if many && random.once_in(3) {
            shelves::set_behind(&mut records[place], u32::MAX);
        }
    }
    for _ in 0..random.one_of(&[0, 0, 1, 1, 2]) {
        records.push(any_record(random, offered));
    }
    let mut store = records.concat();
    let record = numbers.record();
    let slack = random.one_of(&[0, 0, 0, 1, record - 1, record - 1, record - 4, record - 5]);
    if random.once_in(3) {
        store.extend(vec![0; slack]);
    } else {
        store.extend(random.bytes(slack));
    }
    (store, count)
}

/// A legal read of a list, and how it was answered.
struct Offered {
    droplet: Droplet,
    /// Whether it was mended to another payload than that of the strand as it was printed.
    wrongly: bool,
    printed: Vec<u8>,
    number: u32,
    /// If it was not refused: 0 accepted, 1 repeat, 2 replaced.
    what: u64,
}

/// A list of calls from an empty shelf, each handed what the one before left.
struct List {
    numbers: Numbers,
    lent: Vec<u8>,
    store: Vec<u8>,
    count: usize,
    /// Seeds and payloads to choose from again.
    known: Vec<(u32, Vec<u8>)>,
    reads: Vec<Vec<u8>>,
    offered: Vec<Offered>,
}

impl List {
    fn any(random: &mut Random) -> List {
        let mut numbers = cards::any_accepted(random);
        (numbers.m, numbers.lo, numbers.hi) = (20, 0, 1000);
        let record = numbers.record();
        let length = random.below(6) * record + random.below(record);
        let lent = random.bytes(length);
        List {
            numbers,
            store: lent.clone(),
            lent,
            count: 0,
            known: Vec::new(),
            reads: Vec::new(),
            offered: Vec::new(),
        }
    }

    /// A read of a new seed or of one from before, with a payload from before or another one: clean, misread or damaged.
    fn any_read(&mut self, random: &mut Random) -> Read {
        let l = usize::from(self.numbers.l);
        let (mut seed, mut payload) = (reads::any_seed(random), random.bytes(l));
        if !self.known.is_empty() && !random.once_in(3) {
            seed = self.known[random.below(self.known.len())].0;
            let of_seed: Vec<_> = self.known.iter().filter(|known| known.0 == seed).collect();
            if !random.once_in(5) {
                payload = of_seed[random.below(of_seed.len())].1.clone();
            }
        }
        let mut read = Read::of(&self.numbers, seed, &payload);
        self.known.push((seed, payload));
        match random.below(14) {
            0 => reads::damage(random, &self.numbers, &mut read.letters),
            1..=4 => wrong_bytes::misread(random, &self.numbers, &mut read),
            5..=7 => wrong_bytes::misread_to_another_payload(random, &self.numbers, &mut read),
            _ => (),
        }
        read
    }

    /// Offers one read to the archive, and notes what it meets.
    fn offer(&mut self, random: &mut Random, regions: &mut Regions) -> Result<(), String> {
        let read = self.any_read(random);
        self.reads.push(read.letters.clone());
        let case = Case {
            numbers: self.numbers.clone(),
            store: self.store.clone(),
            count: self.count,
            read,
            answer: [random.number(), random.number()],
        };
        let after = case.expected();
        case.note(regions, &after);
        case.compare(random, regions, &after)?;
        if after.number == 0 {
            self.count = after.answer[1] as usize;
        }
        if [0, 15, 16, 20].contains(&after.number) {
            self.remember(regions, &case, &after);
        }
        self.store = after.store;
        Ok(())
    }

    fn remember(&mut self, regions: &mut Regions, case: &Case, after: &After) {
        let droplet = case.droplet();
        let l = usize::from(self.numbers.l);
        let printed = case.read.printed[4..4 + l].to_vec();
        let payload = &droplet.payload[..l];
        self.known.push((droplet.seed, payload.to_vec()));
        let offered = Offered {
            droplet,
            wrongly: droplet.seed.to_be_bytes() == case.read.printed[..4] && printed != payload,
            printed,
            number: after.number,
            what: after.answer[0],
        };
        self.note_read(regions, &offered);
        self.offered.push(offered);
    }

    /// Notes what a read comes after: the one that was accepted of its seed, and the one that took its place.
    fn note_read(&self, regions: &mut Regions, now: &Offered) {
        let before = |what: u64| {
            self.offered.iter().find(|offered| {
                offered.droplet.seed == now.droplet.seed
                    && (offered.number, offered.what) == (0, what)
            })
        };
        let is_mended = now.droplet.mended > 0;
        let Some(accepted) = before(0) else {
            regions.note_if(
                now.wrongly && now.number == 0,
                "a list: wrongly mended, accepted",
            );
            return;
        };
        regions.note_if(
            is_mended && accepted.droplet.mended == 0,
            "a list: mended after clean",
        );
        let same = accepted.droplet.payload == now.droplet.payload;
        if (now.number, now.what) == (0, 2) {
            let payload = if same { "same" } else { "other" };
            regions.note(&format!("a list: clean after mended, {payload} payload"));
            regions.note_if(
                accepted.wrongly && now.droplet.payload.starts_with(&accepted.printed),
                "a list: wrongly mended, replaced by the printed one",
            );
        }
        if before(2).is_some() {
            let then = if now.number == 15 { "15" } else { "repeat" };
            let read = if is_mended { "mended" } else { "clean" };
            regions.note(&format!("a list: replaced, then {then}, {read}"));
            regions.note_if(
                now.number == 15 && is_mended && same,
                "a list: replaced, then the mended one from before is 15",
            );
        }
    }

    /// The shelf at the end is what demand 3 says of the reads offered.
    fn note_end(&self, regions: &mut Regions) {
        let record = self.numbers.record();
        let fit = self.lent.len() / record;
        let records = records_after_a_list(&self.numbers.handed(), &self.reads, fit);
        let mut expected = records.concat();
        expected.extend(&self.lent[expected.len()..]);
        assert_eq!((self.count, &self.store), (records.len(), &expected));
        regions.note("a list of calls");
        self.note_counts(regions, &records);
        let state_at = self.numbers.state_at();
        let states: Vec<u8> = records.iter().map(|there| there[state_at]).collect();
        regions.note_if(
            states.contains(&0) && states.contains(&1),
            "a list: records clean and mended at its end",
        );
        let was = |number: u32, what: Option<u64>| {
            self.offered.iter().any(|offered| {
                offered.number == number && what.is_none_or(|what| offered.what == what)
            })
        };
        regions.note_if(
            was(0, Some(2)) && was(16, None),
            "a list: refused under 16 and replaced",
        );
    }
}

impl List {
    /// Document 02, Item 6: the total over all records "equals the reads answered without a refusal", and each record's count is
    /// the number of those of its seed.
    fn note_counts(&self, regions: &mut Regions, records: &[Vec<u8>]) {
        let mut answered: HashMap<u32, u32> = HashMap::new();
        for offered in self.offered.iter().filter(|offered| offered.number == 0) {
            *answered.entry(offered.droplet.seed).or_default() += 1;
        }
        let seed_of = |there: &[u8]| u32::from_be_bytes([there[0], there[1], there[2], there[3]]);
        for there in records {
            let behind = shelves::behind_of(there);
            assert_eq!(answered.get(&seed_of(there)), Some(&behind));
        }
        let behind: Vec<u32> = records
            .iter()
            .map(|there| shelves::behind_of(there))
            .collect();
        let total: u32 = behind.iter().sum();
        assert_eq!(total, answered.values().sum::<u32>());
        regions.note_if(
            behind.contains(&1) && behind.iter().any(|&count| count > 1),
            "a list: counts of 1 and more at its end",
        );
        regions.note_if(
            behind.iter().any(|&count| count >= 5),
            "a list: a count of 5 and more",
        );
        regions.note_if(
            self.offered.iter().any(|offered| offered.number == 15) && total > 1,
            "a list: reads refused under 15 and behind a record",
        );
        regions.note_if(total == 0, "a list: no read answered");
        regions.note_if(
            total as usize == self.reads.len() && total as usize > records.len(),
            "a list: all reads answered, and more than there are records",
        );
    }
}

fn list_of_calls(random: &mut Random, regions: &mut Regions) -> Result<(), String> {
    let mut list = List::any(random);
    for _ in 0..random.between(2, 12) {
        list.offer(random, regions)?;
    }
    list.note_end(regions);
    Ok(())
}

fn case(random: &mut Random, regions: &mut Regions) -> Result<(), String> {
    if random.once_in(18) {
        return list_of_calls(random, regions);
    }
    let case = Case::any(random);
    let expected = case.expected();
    case.note(regions, &expected);
    case.compare(random, regions, &expected)
}

#[test]
fn store() {
    let ways = regions_of_ways();
    let ways: Vec<&str> = ways.iter().map(String::as_str).collect();
    run(
        "store",
        &[
            cards::REGIONS,
            cards::HANDED_REGIONS,
            cards::LARGEST_REGIONS,
            reads::REGIONS,
            joints::REGIONS,
            wrong_bytes::REGIONS,
            shelves::REGIONS,
            REGIONS,
            COMPARED_REGIONS,
            &ways,
            LIST_REGIONS,
        ],
        case,
    );
}
