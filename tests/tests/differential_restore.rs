//! Restoring by the archive `libcapi.a` beside the second implementation's, over shelves of real droplets with loss and damage.

mod differential;

use differential::cards::{self, Numbers};
use differential::lent::{hex, Lent};
use differential::random::Random;
use differential::reads;
use differential::run::{run, Regions};
use differential::shelves;
use differential::sizes;
use second::droplet::{degree, payload, set_of_segments};
use second::DrawState;

#[cfg(capi_missing)]
compile_error!("target/staticlib/libcapi.a is missing: `host/build capi` makes it");

#[link(name = "capi", kind = "static")]
extern "C" {
    fn fountain_restore(
        f: u32,
        l: u8,
        r: u8,
        m: u8,
        lo: u16,
        hi: u16,
        dealt: u8,
        width: u32,
        weights: *const u8,
        weights_len: usize,
        store: *const u8,
        store_len: usize,
        count: usize,
        file: *mut u8,
        file_len: usize,
        marks: *mut u8,
        marks_len: usize,
        list: *mut u32,
        list_len: usize,
        answer: *mut u64,
    ) -> u32;
}

struct Case {
    numbers: Numbers,
    store: Vec<u8>,
    count: usize,
    /// Buffers as they are before the call.
    file: Vec<u8>,
    marks: Vec<u8>,
    list: Vec<u32>,
    answer: [u64; 3],
}

/// A call's number and what it leaves in the buffers.
struct After {
    number: u32,
    file: Vec<u8>,
    marks: Vec<u8>,
    answer: [u64; 3],
}

impl Case {
    fn any(random: &mut Random) -> Case {
        let mut numbers = sizes::any_accepted(random);
        if random.once_in(3) {
            numbers.weights = peeling_weights(random, numbers.d());
        }
        let (mut store, mut count) = any_shelf(random, &numbers);
        if random.once_in(16) {
            put_seed_0(random, &mut store, numbers.record());
        }
        if random.once_in(40) {
            count = shelves::too_many(random, numbers.record(), store.len());
        }
        if random.once_in(40) {
            (store, count) = (Vec::new(), 0);
        }
        let (k, l) = (numbers.k(), usize::from(numbers.l));
        let file_length = sizes::lent_for(random, k * l);
        let marks_length = sizes::lent_for(random, k);
        let list_length = sizes::lent_for(random, numbers.d());
        if random.once_in(7) {
            cards::miss(random, &mut numbers);
        }
        Case {
            numbers,
            store,
            count,
            file: random.bytes(file_length),
            marks: random.bytes(marks_length),
            list: (0..list_length).map(|_| random.word()).collect(),
            answer: std::array::from_fn(|_| random.number()),
        }
    }

    fn expected(&self) -> After {
        let (mut file, mut marks, mut list) =
            (self.file.clone(), self.marks.clone(), self.list.clone());
        let handed = self.numbers.handed();
        let (number, answer) = match second::restore(
            &handed,
            &self.store,
            self.count,
            &mut file,
            &mut marks,
            &mut list,
        ) {
            Ok(sheet) => (
                0,
                [
                    sheet.present as u64,
                    sheet.sweeps as u64,
                    sheet.contradictions as u64,
                ],
            ),
            Err(refusal) => (refusal.0.into(), self.answer),
        };
        After {
            number,
            file,
            marks,
            answer,
        }
    }

    /// Runs the archive's restorer and compares all that it leaves with what is expected.
    fn compare(
        &self,
        random: &mut Random,
        regions: &mut Regions,
        expected: &After,
    ) -> Result<(), String> {
        let numbers = &self.numbers;
        let weights = Lent::new(random, &numbers.weights);
        let store = Lent::new(random, &self.store);
        let mut file = Lent::new(random, &self.file);
        let mut marks = Lent::new(random, &self.marks);
        let mut list = Lent::new(random, &self.list);
        let mut answer = Lent::new(random, &self.answer);
        regions.note_if(weights.is_null(), "weights NULL");
        regions.note_if(
            store.is_null() && expected.number == 0,
            "shelf NULL and accepted",
        );
        regions.note_if(file.is_null(), "file NULL");
        regions.note_if(marks.is_null(), "marks NULL");
        regions.note_if(list.is_null(), "list NULL");
        // Each pointer stands for as many items as its length says (three numbers for the answer), and nothing overlaps.
        let got = unsafe {
            fountain_restore(
                numbers.f,
                numbers.l,
                numbers.r,
                numbers.m,
                numbers.lo,
                numbers.hi,
                numbers.dealt,
                numbers.width,
                weights.pointer(),
                weights.len(),
                store.pointer(),
                store.len(),
                self.count,
                file.pointer_mut(),
                file.len(),
                marks.pointer_mut(),
                marks.len(),
                list.pointer_mut(),
                list.len(),
                answer.pointer_mut(),
            )
        };
        let report = |what: String| {
            format!(
                "{what}; the archive answered {got}, expected is {}; {}",
                expected.number,
                self.report()
            )
        };
        if got != expected.number {
            return Err(report(String::from("answer")));
        }
        let free = if got == 0 { numbers.d() } else { 0 };
        weights
            .holds(&numbers.weights)
            .map_err(|e| report(format!("weights: {e}")))?;
        store
            .holds(&self.store)
            .map_err(|e| report(format!("shelf: {e}")))?;
        list.holds_past(free, &self.list)
            .map_err(|e| report(format!("list: {e}")))?;
        let numbers_differ = |e| {
            report(format!(
                "numbers {:?}, expected are {:?}: {e}",
                answer.items(),
                expected.answer
            ))
        };
        answer.holds(&expected.answer).map_err(numbers_differ)?;
        marks
            .holds(&expected.marks)
            .map_err(|e| report(format!("marks: {e}")))?;
        file.holds(&expected.file)
            .map_err(|e| report(format!("file: {e}")))
    }

    fn report(&self) -> String {
        format!(
            "{} count {} shelf {} file of {} bytes, {} marks, list of {}",
            self.numbers.report(),
            self.count,
            hex(&self.store),
            self.file.len(),
            self.marks.len(),
            self.list.len()
        )
    }

    fn note(&self, regions: &mut Regions, after: &After) {
        cards::note(regions, &self.numbers, after.number);
        if matches!(after.number, 2..=4) {
            return;
        }
        let (record, k) = (self.numbers.record(), self.numbers.k());
        if after.number == 27 {
            let too_many = self.count > self.store.len() / record;
            regions.note_if(too_many, "27: 14 too");
            regions.note_if(!too_many, "27: 14 fine");
            return;
        }
        let whole = k * usize::from(self.numbers.l);
        shelves::note(regions, record, self.store.len(), self.count, after.number);
        match after.number {
            0 => {
                self.note_restored(regions, after.answer, whole);
                self.note_states(regions, after.answer);
                self.note_counts(regions, after.answer);
            }
            17 => self.note_seed_0(regions),
            18 => {
                regions.note_if(
                    self.file.len() + 1 == whole && self.marks.len() >= k,
                    "18: file a byte short",
                );
                regions.note_if(
                    self.file.len() >= whole && self.marks.len() + 1 == k,
                    "18: marks a byte short",
                );
            }
            8 => {
                regions.note_if(self.list.len() + 1 == self.numbers.d(), "8: one short");
                regions.note_if(self.list.is_empty(), "8: no list");
            }
            _ => (),
        }
    }

    /// Notes which records have seed 0.
    fn note_seed_0(&self, regions: &mut Regions) {
        let record = self.numbers.record();
        let zeros: Vec<usize> = (0..self.count)
            .filter(|i| self.store[i * record..i * record + 4] == [0; 4])
            .collect();
        regions.note_if(self.count > 1 && zeros == [0], "17: the first record alone");
        regions.note_if(
            self.count > 1 && zeros == [self.count - 1],
            "17: the last record alone",
        );
        let clean = |i: &usize| self.store[i * record + self.numbers.state_at()] == 0;
        regions.note_if(zeros.iter().all(clean), "17: clean records alone");
        regions.note_if(!zeros.iter().any(clean), "17: mended records alone");
        let behind = |i: &usize| shelves::behind_of(&self.store[i * record..(i + 1) * record]);
        for (count, region) in [
            (0, "17: counts of 0 alone"),
            (u32::MAX, "17: full counts alone"),
        ] {
            regions.note_if(zeros.iter().all(|i| behind(i) == count), region);
        }
    }

    fn note_restored(&self, regions: &mut Regions, answer: [u64; 3], whole: usize) {
        let [present, sweeps, contradictions] = answer;
        let (record, k) = (self.numbers.record(), self.numbers.k());
        let records: Vec<&[u8]> = self.store.chunks_exact(record).collect();
        if let Some(first) = records[..self.count].first() {
            sizes::note(
                regions,
                &self.numbers,
                u32::from_be_bytes([first[0], first[1], first[2], first[3]]),
            );
        }
        let all = present == k as u64;
        regions.note_if(self.count == 0, "no records");
        regions.note_if(self.count > 0 && present == 0, "none present");
        regions.note_if(present > 0 && !all, "some present");
        regions.note_if(all && contradictions == 0, "all present");
        regions.note_if(all && k > 8, "all present of more than 8");
        regions.note_if(all && contradictions > 0, "all present and contradictions");
        regions.note_if(
            !all && contradictions > 0,
            "some missing and contradictions",
        );
        regions.note_if(sweeps == 1, "1 sweep");
        regions.note_if(sweeps == 2, "2 sweeps");
        regions.note_if(sweeps >= 5, "5 sweeps or more");
        regions.note_if(sweeps >= 9, "9 sweeps or more");
        regions.note_if(
            sweeps == present + 1 && present > 3,
            "a sweep for each segment",
        );
        regions.note_if(
            records[self.count..]
                .iter()
                .any(|there| there[..4] == [0; 4]),
            "seed 0 past the count",
        );
        let repeated = (1..self.count).any(|i| {
            records[..i]
                .iter()
                .any(|earlier| earlier[..4] == records[i][..4])
        });
        regions.note_if(self.count < 50 && repeated, "two records of a seed");
        regions.note_if(self.file.len() == whole, "file just long enough");
        regions.note_if(self.file.len() > whole, "file longer");
        regions.note_if(self.marks.len() == k, "marks just long enough");
        regions.note_if(self.marks.len() > k, "marks longer");
        regions.note_if(self.list.len() == self.numbers.d(), "list just long enough");
        regions.note_if(self.list.len() > self.numbers.d(), "list longer");
    }
}

impl Case {
    /// Notes what states the records have, none of which is looked at. Where all have one, all that is present or contradicts
    /// comes of records with that one.
    fn note_states(&self, regions: &mut Regions, answer: [u64; 3]) {
        let state_at = self.numbers.state_at();
        let states: Vec<u8> = self.records().map(|there| there[state_at]).collect();
        let Some(&first) = states.first() else {
            return;
        };
        let of = match first {
            _ if states.iter().any(|&state| state != first) => "of different states",
            0 => "of state 0",
            1 => "of state 1",
            255 => "of state 255",
            _ => "of another state",
        };
        self.note_by(regions, answer, of);
    }

    /// The same of their counts.
    fn note_counts(&self, regions: &mut Regions, answer: [u64; 3]) {
        let counts: Vec<u32> = self.records().map(shelves::behind_of).collect();
        let Some(&first) = counts.first() else {
            return;
        };
        let of = match first {
            _ if counts.iter().any(|&count| count != first) => "of different counts",
            0 => "of count 0",
            1 => "of count 1",
            u32::MAX => "of a full count",
            0xFFFF_FFFE => "of a count one below full",
            _ => "of another count",
        };
        self.note_by(regions, answer, of);
    }

    fn records(&self) -> impl Iterator<Item = &[u8]> {
        self.store
            .chunks_exact(self.numbers.record())
            .take(self.count)
    }

    /// Notes what was restored by records of some kind.
    fn note_by(&self, regions: &mut Regions, [present, _, contradictions]: [u64; 3], of: &str) {
        regions.note_if(present > 0, &format!("present by records {of}"));
        regions.note_if(
            present == self.numbers.k() as u64,
            &format!("all present by records {of}"),
        );
        regions.note_if(
            contradictions > 0,
            &format!("contradictions by records {of}"),
        );
    }
}

#[rustfmt::skip]
const STATE_REGIONS: &[&str] = &[
    "present by records of state 0", "present by records of state 1", "present by records of state 255",
    "present by records of another state", "present by records of different states",
    "all present by records of state 0", "all present by records of state 1", "all present by records of state 255",
    "all present by records of another state", "all present by records of different states",
    "contradictions by records of state 0", "contradictions by records of state 1", "contradictions by records of state 255",
    "contradictions by records of another state", "contradictions by records of different states",
    "17: clean records alone", "17: mended records alone",
];

#[rustfmt::skip]
const COUNT_REGIONS: &[&str] = &[
    "present by records of count 0", "present by records of count 1", "present by records of a full count",
    "present by records of a count one below full", "present by records of another count", "present by records of different counts",
    "all present by records of count 0", "all present by records of count 1", "all present by records of a full count",
    "all present by records of a count one below full", "all present by records of another count",
    "all present by records of different counts",
    "contradictions by records of count 0", "contradictions by records of count 1", "contradictions by records of a full count",
    "contradictions by records of a count one below full", "contradictions by records of another count",
    "contradictions by records of different counts",
    "17: counts of 0 alone", "17: full counts alone",
];

#[rustfmt::skip]
const REGIONS: &[&str] = &[
    "answer 8", "answer 17", "answer 18", "17: the first record alone", "17: the last record alone", "18: file a byte short",
    "18: marks a byte short", "8: one short", "8: no list", "no records", "none present", "some present", "all present",
    "all present of more than 8", "all present and contradictions", "some missing and contradictions", "1 sweep", "2 sweeps",
    "5 sweeps or more", "9 sweeps or more", "a sweep for each segment", "seed 0 past the count", "two records of a seed",
    "file just long enough", "file longer", "marks just long enough", "marks longer", "list just long enough", "list longer",
    "shelf NULL and accepted", "file NULL", "marks NULL", "list NULL", "27: 14 too", "27: 14 fine",
];

/// Mostly degrees 1, 2 and 3, by which peeling goes far.
fn peeling_weights(random: &mut Random, d: usize) -> Vec<u8> {
    let weights: Vec<u32> = (0..d).map(|i| if i < 3 { random.between(1, 9) } else { random.below(2) } as u32).collect();
    cards::bytes_of(&weights)
}

/// Records of a random file's droplets, some lost, repeated or changed; now and then nothing but random bytes.
fn any_shelf(random: &mut Random, numbers: &Numbers) -> (Vec<u8>, usize) {
    let (record, k) = (numbers.record(), numbers.k());
    // Large sets take long to draw, so few shelves of many records have them.
    let most = match k {
        17..=600 if !random.once_in(8) => 30,
        0..=600 => 2 * k + 4,
        _ => 8,
    };
    let count = random.below(most);
    if random.once_in(20) {
        let length = count * record + random.below(2 * record);
        return (random.bytes(length), count);
    }
    let mut records = droplets(random, numbers, count);
    let changed_once_in = random.one_of(&[usize::MAX, usize::MAX, 10, 2]);
    for i in 0..records.len() {
        if i > 0 && random.once_in(12) {
            records[i] = records[random.below(i)].clone();
        }
        if random.once_in(changed_once_in) {
            let place = random.between(4, numbers.state_at() - 1);
            records[i][place] ^= 1 << random.below(8);
        }
    }
    give_states(random, numbers.state_at(), &mut records);
    give_counts(random, &mut records);
    let past = random.one_of(&[0, 0, 1, record - 4, record - 1, record, 2 * record + 1]);
    let mut store = records.concat();
    if random.once_in(4) {
        store.extend(vec![0; past]);
    } else {
        store.extend(random.bytes(past));
    }
    (store, count)
}

/// Gives each record a state byte: all of them one, or each its own.
fn give_states(random: &mut Random, state_at: usize, records: &mut [Vec<u8>]) {
    let of_all = shelves::any_state(random);
    let mixed = random.once_in(2);
    for record in records {
        let state = if mixed {
            shelves::any_state(random)
        } else {
            of_all
        };
        record[state_at] = state;
    }
}

/// Gives each record a count: all of them one, or each its own.
fn give_counts(random: &mut Random, records: &mut [Vec<u8>]) {
    let of_all = shelves::any_behind(random);
    let mixed = random.once_in(2);
    for record in records {
        let behind = if mixed {
            shelves::any_behind(random)
        } else {
            of_all
        };
        shelves::set_behind(record, behind);
    }
}

/// Records of `count` seeds over one random file, clean, of one read each. In falling order of degree, peeling takes many sweeps.
fn droplets(random: &mut Random, numbers: &Numbers, count: usize) -> Vec<Vec<u8>> {
    let (l, k) = (usize::from(numbers.l), numbers.k());
    let file = random.bytes(k * l);
    let mut seeds: Vec<u32> = (0..count).map(|_| reads::any_seed(random)).collect();
    if random.once_in(2) {
        seeds.sort_by_key(|&seed| usize::MAX - degree(seed, &numbers.weights));
    }
    let record_of = |seed: &u32| {
        let mut record = seed.to_be_bytes().to_vec();
        record.extend(payload(
            &set_of_segments(*seed, &numbers.weights, k),
            &file,
            numbers.l,
        ));
        record.extend([0, 0, 0, 0, 1]);
        record
    };
    seeds.iter().map(record_of).collect()
}

/// One record of the shelf, on either side of the count, becomes one of seed 0.
fn put_seed_0(random: &mut Random, store: &mut [u8], record: usize) {
    let there = store.len() / record;
    if there > 0 {
        let anywhere = random.below(there);
        let i = random.one_of(&[0, there - 1, anywhere]);
        store[i * record..i * record + 4].fill(0);
    }
}

fn case(random: &mut Random, regions: &mut Regions) -> Result<(), String> {
    let case = Case::any(random);
    let expected = case.expected();
    case.note(regions, &expected);
    case.compare(random, regions, &expected)
}

/// A record of degree 1 for each of the 131,072 segments but `missing`, where degrees are 1 and 1,024 by halves: an even first
/// draw gives degree 1, and the second draw its segment. Their states and counts are any.
fn records_of_degree_1(l: usize, file: &[u8], missing: usize) -> Vec<u8> {
    let mut here = vec![false; cards::K_MOST];
    here[missing] = true;
    let mut left = cards::K_MOST - 1;
    let mut store = Vec::new();
    for seed in 1u32.. {
        let mut state = DrawState::of_seed(seed);
        let even = state.draw() % 2 == 0;
        let segment = state.draw() as usize % cards::K_MOST;
        if even && !here[segment] {
            here[segment] = true;
            left -= 1;
            store.extend(seed.to_be_bytes());
            store.extend(&file[segment * l..(segment + 1) * l]);
            store.push(seed as u8);
            store.extend(seed.wrapping_mul(0x9E37_79B1).to_be_bytes());
        }
        if left == 0 {
            break;
        }
    }
    store
}

/// The largest K restored whole: all but one segment come from records of degree 1, and the last one from a record of degree
/// 1,024 that stands before them. Another such record contradicts.
fn restore_largest(l: usize) {
    let random = &mut Random::of_case("restore_largest", l as u64);
    let mut weights = vec![0; cards::D_MOST];
    (weights[0], weights[cards::D_MOST - 1]) = (1, 1);
    let mut numbers = cards::accepted(random, l, cards::K_MOST, 1);
    numbers.weights = cards::bytes_of(&weights);
    let file = random.bytes(cards::K_MOST * l);
    let seeds: [u32; 4] = std::array::from_fn(|_| sizes::seed_of_late_collision(random));
    let sets = seeds.map(|seed| set_of_segments(seed, &numbers.weights, cards::K_MOST));
    let mut store = Vec::new();
    for (seed, set) in seeds.iter().zip(&sets) {
        store.extend(seed.to_be_bytes());
        store.extend(payload(set, &file, numbers.l));
        store.extend([0, 0, 0, 0, 1]);
    }
    // The last byte of the last payload, before its state and count.
    *store.iter_mut().nth_back(5).expect("there are records") ^= 1;
    store.extend(records_of_degree_1(
        l,
        &file,
        sets[0][random.below(cards::D_MOST)],
    ));
    let case = Case {
        count: store.len() / numbers.record(),
        file: random.bytes(cards::K_MOST * l + 5),
        marks: random.bytes(cards::K_MOST + 5),
        list: vec![7; cards::D_MOST + 5],
        answer: [9; 3],
        numbers,
        store,
    };
    let expected = case.expected();
    assert_eq!(
        (expected.number, expected.answer),
        (0, [cards::K_MOST as u64, 3, 1])
    );
    assert!(expected.file.starts_with(&file));
    case.compare(random, &mut Regions::default(), &expected)
        .unwrap_or_else(|report| panic!("{report}"));
}

/// Records that fill segments over several sweeps, one that contradicts, and one of a seed that stands there before: with
/// each of these state bytes and counts for all of them, and with each for one of them, the sheet is the same.
fn restore_the_same(states_and_counts: impl Iterator<Item = (u8, u32)>) {
    let random = &mut Random::of_case("restore_with_every_state", 0);
    let mut numbers = cards::accepted(random, 3, 12, 4);
    numbers.weights = peeling_weights(random, 4);
    let mut records = droplets(random, &numbers, 40);
    records[31][5] ^= 0x40;
    records[35] = records[2].clone();
    let mut first: Option<After> = None;
    for (state, behind) in states_and_counts {
        for one in [None, Some(0), Some(31), Some(35), Some(39)] {
            for (i, record) in records.iter_mut().enumerate() {
                let is_one = one.is_none_or(|one| one == i);
                let (state, behind) = if is_one { (state, behind) } else { (0, 1) };
                record[numbers.state_at()] = state;
                shelves::set_behind(record, behind);
            }
            let case = Case {
                numbers: numbers.clone(),
                store: records.concat(),
                count: records.len(),
                file: vec![0xAB; 12 * 3 + 2],
                marks: vec![0xCD; 12 + 2],
                list: vec![7; 6],
                answer: [9; 3],
            };
            let expected = case.expected();
            case.compare(random, &mut Regions::default(), &expected)
                .unwrap_or_else(|report| panic!("{report}"));
            let first = first.get_or_insert(case.expected());
            assert_eq!((expected.number, expected.answer), (0, first.answer));
            assert_eq!(
                (expected.file, expected.marks),
                (first.file.clone(), first.marks.clone())
            );
        }
    }
    let [present, sweeps, contradictions] = first.expect("there are states").answer;
    assert!(present == 12 && sweeps > 2 && contradictions == 1);
}

#[test]
fn restore_with_every_state() {
    restore_the_same((0..=255).map(|state| (state, 1)));
}

#[test]
fn restore_with_counts_of_every_kind() {
    let counts = [0, 1, 0xFF, 0x0001_0000, 0x8000_0000, u32::MAX - 1, u32::MAX];
    let clean = counts.iter().map(|&behind| (0, behind));
    let not_clean = counts.iter().map(|&behind| (behind as u8 | 1, behind));
    restore_the_same(clean.chain(not_clean));
}

#[test]
fn restore_largest_by_1() {
    restore_largest(1);
}

#[test]
fn restore_largest_by_64() {
    restore_largest(64);
}

#[test]
fn restore() {
    run(
        "restore",
        &[
            cards::REGIONS,
            cards::HANDED_REGIONS,
            sizes::REGIONS,
            shelves::REGIONS,
            REGIONS,
            STATE_REGIONS,
            COUNT_REGIONS,
        ],
        case,
    );
}
