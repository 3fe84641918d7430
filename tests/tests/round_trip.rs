//! Write, read back in another order with repeats, losses and wrong bytes, shelve, restore.

use second::check_bytes_letters_screen::{bytes_of_letters, check_bytes, letters_of_bytes};
use second::clean_beats_mended::records_after_a_list;
use second::read_counts::total_behind;
use second::shelf::records;
use second::*;
use std::collections::HashMap;

fn bytes_of(weights: &[u32]) -> Vec<u8> {
    weights.iter().flat_map(|w| w.to_be_bytes()).collect()
}

fn next(state: &mut u32, below: usize) -> usize {
    *state = state.wrapping_mul(1_664_525).wrapping_add(1_013_904_223);
    (*state >> 4) as usize % below
}

/// The reads of a list that were answered without a refusal, by their seeds.
#[derive(Default)]
struct Answered(HashMap<u32, u32>);

impl Answered {
    /// Offers a read to the shelf, and counts it if it is not refused.
    fn shelve(
        &mut self,
        handed: &Handed,
        read: &[u8],
        shelf: &mut [u8],
        count: usize,
    ) -> Result<Shelved, Refusal> {
        let answer = shelve(handed, read, shelf, count);
        if answer.is_ok() {
            let seed = read_check(handed, read).unwrap().seed;
            *self.0.entry(seed).or_default() += 1;
        }
        answer
    }

    fn total(&self) -> u128 {
        self.0.values().map(|&reads| u128::from(reads)).sum()
    }

    /// Document 02, Item 6: "for every list of reads from an empty shelf that total equals
    /// the reads answered without a refusal", and each record's count those of its seed.
    fn stand_on(&self, handed: &Handed, shelf: &[u8], count: usize) {
        let on_shelf = records(shelf, count, handed.l);
        for record in &on_shelf {
            assert_eq!(self.0.get(&record.seed), Some(&record.behind));
        }
        assert_eq!(self.0.len(), count);
        assert_eq!(total_behind(&on_shelf), self.total());
    }
}

#[test]
fn a_file_comes_back() {
    let file: Vec<u8> = (0..1990u32)
        .map(|i| (i.wrapping_mul(2_654_435_761) >> 24) as u8)
        .collect();
    let mut weights = vec![60u32, 500, 170, 80, 50, 35, 25, 20];
    weights.resize(40, 2);
    let weights = bytes_of(&weights);
    let handed = Handed {
        f: 1990,
        l: 20,
        r: 4,
        m: 4,
        lo: 400,
        hi: 600,
        dealt: false,
        width: 0,
        weights: &weights,
    };
    assert_eq!((handed.k(), handed.n_bases()), (100, 112));

    let mut printed = vec![0; 300 * 113];
    let mut list = [0; 40];
    let answer = write(
        &handed,
        &file,
        0xACE1_2357,
        300,
        100_000,
        &mut printed,
        &mut list,
    )
    .unwrap();
    assert_eq!((answer.stop, answer.made), (Stop::Done, 300));
    assert!(answer.dropped_run > 0 && answer.dropped_gc > 0);
    assert_eq!(answer.tried, 300 + answer.dropped_run + answer.dropped_gc);
    let strands: Vec<&[u8]> = printed.chunks(113).map(|line| &line[..112]).collect();

    for trial in 1..=20u32 {
        let mut state = trial;
        // Space for fewer seeds than most lists have, and for all of them.
        let space = [200, 300][trial as usize % 2];
        let mut shelf = vec![0xEE; space * 29 + 5];
        let (mut count, mut refused) = (0, 0);
        let mut answered = Answered::default();
        for _ in 0..400 {
            let read = strands[next(&mut state, strands.len())];
            match answered.shelve(&handed, read, &mut shelf, count) {
                Ok(Shelved::Accepted { count: after }) => count = after,
                Ok(Shelved::Repeat { count: after }) => assert_eq!(after, count),
                Ok(Shelved::Replaced { .. }) => panic!("no read is mended"),
                Err(Refusal(number)) => {
                    assert_eq!((number, count), (16, 200));
                    refused += 1;
                }
            }
        }
        assert_eq!(refused > 0, space == 200);
        assert_eq!(answered.total(), 400 - refused);
        answered.stand_on(&handed, &shelf, count);
        let mut back = vec![0xEE; 2003];
        let mut marks = vec![0xEE; 101];
        let restored = restore(&handed, &shelf, count, &mut back, &mut marks, &mut list).unwrap();
        assert_eq!(restored.contradictions, 0);
        assert!(restored.sweeps <= restored.present + 1);
        assert_eq!(
            restored.present,
            marks[..100].iter().filter(|&&m| m == 1).count()
        );
        let mut whole = file.clone();
        whole.resize(2000, 0);
        for i in 0..100 {
            let place = 20 * i..20 * (i + 1);
            if marks[i] == 1 {
                assert_eq!(back[place.clone()], whole[place]);
            } else {
                assert_eq!(marks[i], 0);
                assert_eq!(back[place], [0; 20]);
            }
        }
        assert_eq!(back[2000..], [0xEE; 3]);
        assert_eq!(marks[100], 0xEE);
    }

    // All strands in order: the whole file.
    let mut shelf = vec![0; 300 * 29];
    let mut count = 0;
    for strand in &strands {
        let Ok(Shelved::Accepted { count: after }) = shelve(&handed, strand, &mut shelf, count)
        else {
            panic!("a strand just written is new and legal");
        };
        count = after;
    }
    let mut back = vec![0; 2000];
    let mut marks = vec![0; 100];
    let restored = restore(&handed, &shelf, count, &mut back, &mut marks, &mut list).unwrap();
    assert_eq!((restored.present, restored.contradictions), (100, 0));
    assert_eq!(back[..1990], file);
}

/// A shelf of clean records with L = 20, of one read each, as if all of them had this
/// state byte and this count.
fn with_state_and_count(clean: &[u8], state: u8, behind: u8) -> Vec<u8> {
    let mut shelf = clean.to_vec();
    for record in shelf.chunks_exact_mut(29) {
        assert_eq!(record[24..], [0, 0, 0, 0, 1]);
        (record[24], record[28]) = (state, behind);
    }
    shelf
}

/// Document 02, Item 3: every strand is read with as many wrong bytes as can be mended,
/// anywhere in it. The file is that of clean reads, and so is the shelf but for its
/// states (Item 5), until it has the clean reads as well, and two reads behind each
/// record (Item 6).
#[test]
fn a_misread_file_comes_back() {
    let file: Vec<u8> = (0..1990u32)
        .map(|i| (i.wrapping_mul(2_654_435_761) >> 24) as u8)
        .collect();
    let mut weights = vec![60u32, 500, 170, 80, 50, 35, 25, 20];
    weights.resize(40, 2);
    let weights = bytes_of(&weights);
    for r in [2, 4] {
        let handed = Handed {
            f: 1990,
            l: 20,
            r,
            m: 4,
            lo: 400,
            hi: 600,
            dealt: false,
            width: 0,
            weights: &weights,
        };
        let n = handed.n_bases();
        let mut printed = vec![0; 300 * (n + 1)];
        let mut list = [0; 40];
        let start = 0xACE1_2357;
        let written = write(&handed, &file, start, 300, 100_000, &mut printed, &mut list);
        assert_eq!(written.unwrap().made, 300);

        let mut clean = vec![0xEE; 300 * 29 + 1];
        let mut misread = clean.clone();
        let mut state = 7;
        for (count, line) in printed.chunks(n + 1).enumerate() {
            let accepted = Ok(Shelved::Accepted { count: count + 1 });
            assert_eq!(shelve(&handed, &line[..n], &mut clean, count), accepted);
            let mut bytes = bytes_of_letters(&line[..n]).unwrap();
            let first = next(&mut state, n / 4);
            bytes[first] ^= 1 + next(&mut state, 255) as u8;
            if r == 4 {
                let second = (first + 1 + next(&mut state, n / 4 - 1)) % (n / 4);
                bytes[second] ^= 1 + next(&mut state, 255) as u8;
            }
            let read = letters_of_bytes(&bytes);
            let droplet = read_check(&handed, &read).unwrap();
            assert_eq!(droplet.mended, usize::from(r) / 2);
            assert_eq!(shelve(&handed, &read, &mut misread, count), accepted);
        }
        assert_eq!(misread, with_state_and_count(&clean, 1, 1));
        let mut back = vec![0; 2000];
        let mut marks = vec![0; 100];
        let restored = restore(&handed, &misread, 300, &mut back, &mut marks, &mut list).unwrap();
        assert_eq!((restored.present, restored.contradictions), (100, 0));
        assert_eq!(back[..1990], file);
        for line in printed.chunks(n + 1) {
            let replaced = Ok(Shelved::Replaced { count: 300 });
            assert_eq!(shelve(&handed, &line[..n], &mut misread, 300), replaced);
        }
        assert_eq!(misread, with_state_and_count(&clean, 0, 2));
    }
}

/// A job for the tests of clean and mended reads: no screen is missed, so that strands of
/// wrong payloads are legal too.
struct Job {
    file: Vec<u8>,
    weights: Vec<u8>,
    r: u8,
}

impl Job {
    fn of(r: u8) -> Job {
        let file = (0..1990u32)
            .map(|i| (i.wrapping_mul(2_654_435_761) >> 24) as u8)
            .collect();
        let mut weights = vec![60u32, 500, 170, 80, 50, 35, 25, 20];
        weights.resize(40, 2);
        Job {
            file,
            weights: bytes_of(&weights),
            r,
        }
    }

    fn handed(&self) -> Handed<'_> {
        Handed {
            f: 1990,
            l: 20,
            r: self.r,
            m: 20,
            lo: 0,
            hi: 1000,
            dealt: false,
            width: 0,
            weights: &self.weights,
        }
    }

    /// The bytes of 300 printed strands.
    fn printed(&self) -> Vec<Vec<u8>> {
        let handed = self.handed();
        let n = handed.n_bases();
        let mut lines = vec![0; 300 * (n + 1)];
        let start = 0xACE1_2357;
        let written = write(
            &handed,
            &self.file,
            start,
            300,
            100_000,
            &mut lines,
            &mut [0; 40],
        );
        assert_eq!(written.unwrap().made, 300);
        lines
            .chunks(n + 1)
            .map(|line| bytes_of_letters(&line[..n]).unwrap())
            .collect()
    }

    /// A strand misread in as many bytes as can be mended.
    fn misread(&self, strand: &[u8], state: &mut u32) -> Vec<u8> {
        let mut bytes = strand.to_vec();
        for place in 0..usize::from(self.r) / 2 {
            bytes[10 * place + next(state, 10)] ^= 1 + next(state, 255) as u8;
        }
        let read = letters_of_bytes(&bytes);
        let droplet = read_check(&self.handed(), &read).unwrap();
        assert_eq!(droplet.mended, usize::from(self.r) / 2);
        assert_eq!(droplet.payload[..20], strand[4..24]);
        read
    }

    /// A strand misread in one byte more, which takes it to another payload of its seed:
    /// R/2 + 1 of the R + 1 bytes by which that strand differs from this one.
    fn wrongly_mended(&self, strand: &[u8], state: &mut u32) -> Vec<u8> {
        let r = usize::from(self.r);
        let mut wrong = strand[..24].to_vec();
        wrong[4 + next(state, 20)] ^= 1 + next(state, 255) as u8;
        wrong.extend(check_bytes(&wrong, r));
        let mut bytes = strand.to_vec();
        let first = bytes.len() - r / 2 - 1;
        bytes[first..].copy_from_slice(&wrong[first..]);
        let read = letters_of_bytes(&bytes);
        let droplet = read_check(&self.handed(), &read).unwrap();
        assert_eq!(droplet.mended, r / 2);
        assert_eq!(droplet.payload[..20], wrong[4..24]);
        assert_ne!(wrong[4..24], strand[4..24]);
        read
    }

    /// The file that a shelf gives, and whether nothing contradicts.
    fn restored(&self, shelf: &[u8], count: usize) -> (Vec<u8>, bool) {
        let (mut back, mut marks) = (vec![0; 2000], vec![0; 100]);
        let handed = self.handed();
        let sheet = restore(&handed, shelf, count, &mut back, &mut marks, &mut [0; 40]).unwrap();
        assert_eq!(sheet.present, 100);
        back.truncate(1990);
        (back, sheet.contradictions == 0)
    }
}

/// Document 02, Item 5: "A mended read and a clean read of one droplet are not the same
/// evidence." Every strand comes as a wrongly mended read first, which gives a wrong
/// file. Then the clean reads come, and whatever stood there is replaced.
#[test]
fn clean_reads_put_a_file_right() {
    for r in [2, 4] {
        let job = Job::of(r);
        let handed = job.handed();
        let strands = job.printed();
        let mut state = 5;
        let mut shelf = vec![0xEE; 300 * 29];
        for (count, strand) in strands.iter().enumerate() {
            let read = job.wrongly_mended(strand, &mut state);
            let accepted = Ok(Shelved::Accepted { count: count + 1 });
            assert_eq!(shelve(&handed, &read, &mut shelf, count), accepted);
        }
        let (file, agrees) = job.restored(&shelf, 300);
        assert!(file != job.file && !agrees);

        for strand in strands.iter().rev() {
            let read = letters_of_bytes(strand);
            let replaced = Ok(Shelved::Replaced { count: 300 });
            assert_eq!(shelve(&handed, &read, &mut shelf, 300), replaced);
        }
        assert_eq!(job.restored(&shelf, 300), (job.file.clone(), true));
        let clean: Vec<u8> = strands
            .iter()
            .flat_map(|strand| [&strand[..24], &[0, 0, 0, 0, 2]].concat())
            .collect();
        assert_eq!(shelf, clean);
    }
}

/// Most strands are read clean, and some come as wrongly mended reads alone. With their
/// records the file comes back wrong; the records of state 0, copied out, give it whole.
#[test]
fn clean_records_alone() {
    for r in [2, 4] {
        let job = Job::of(r);
        let handed = job.handed();
        let (mut shelf, mut state) = (vec![0xEE; 300 * 29], 9);
        for (count, strand) in job.printed().iter().enumerate() {
            let read = match count % 15 {
                0 => job.wrongly_mended(strand, &mut state),
                _ => letters_of_bytes(strand),
            };
            let accepted = Ok(Shelved::Accepted { count: count + 1 });
            assert_eq!(shelve(&handed, &read, &mut shelf, count), accepted);
        }
        let (file, agrees) = job.restored(&shelf, 300);
        assert!(file != job.file && !agrees);

        let records = shelf.chunks_exact(29).filter(|record| record[24] == 0);
        let clean: Vec<u8> = records.flatten().copied().collect();
        assert_eq!(clean.len(), 280 * 29);
        assert_eq!(job.restored(&clean, 280), (job.file.clone(), true));
    }
}

/// Clean, mended and wrongly mended reads of all strands in mixed order: what stands on
/// the shelf at the end is what demand 3 says of the list, and as each strand has a clean
/// read, the file is right.
#[test]
fn mixed_reads_give_the_file() {
    for trial in 0..6 {
        let job = Job::of([2, 4][trial % 2]);
        let handed = job.handed();
        let mut state = 77 + trial as u32;
        let mut reads = Vec::new();
        for strand in job.printed() {
            reads.push(letters_of_bytes(&strand));
            for _ in 0..2 {
                reads.push(job.misread(&strand, &mut state));
                reads.push(job.wrongly_mended(&strand, &mut state));
            }
        }
        for i in 0..reads.len() {
            let other = next(&mut state, reads.len());
            reads.swap(i, other);
        }
        let mut shelf = vec![0xEE; 300 * 29 + 28];
        let (mut count, mut replaced, mut refused) = (0, 0, 0);
        let mut answered = Answered::default();
        for read in &reads {
            match answered.shelve(&handed, read, &mut shelf, count) {
                Ok(Shelved::Accepted { count: after }) => count = after,
                Ok(Shelved::Repeat { count: after }) => assert_eq!(after, count),
                Ok(Shelved::Replaced { count: after }) => {
                    assert_eq!(after, count);
                    replaced += 1;
                }
                Err(refusal) => {
                    assert_eq!(refusal, Refusal(15));
                    refused += 1;
                }
            }
        }
        assert!(count == 300 && (100..300).contains(&replaced) && refused > 300);
        let expected = records_after_a_list(&handed, &reads, 300);
        assert_eq!(shelf[..8700], expected.concat());
        assert_eq!(shelf[8700..], [0xEE; 28]);
        assert_eq!(answered.total(), 1500 - refused);
        answered.stand_on(&handed, &shelf, count);
        assert_eq!(job.restored(&shelf, count), (job.file.clone(), true));
    }
}

/// Document 02, Item 14: a file is dealt, printed, read, restored and undealt. "what
/// the restorer promises is promised of the dealt file", and "Dealing and undealing
/// give back every file of every length".
#[test]
fn a_dealt_file_comes_back() {
    // A stretch of zeros, which dealing spreads. With W = 100 a segment has one byte of
    // each hundred, so that four zeros stand there in a row: 16 letters A, which m allows.
    let mut file: Vec<u8> = (0..1990u32)
        .map(|i| (i.wrapping_mul(2_654_435_761) >> 24) as u8)
        .collect();
    file[500..900].fill(0);
    let mut weights = vec![60u32, 500, 170, 80, 50, 35, 25, 20];
    weights.resize(40, 2);
    let weights = bytes_of(&weights);
    for width in [2, 3, 20, 100, 994, 996, 1989, 1990] {
        let cut_from = Handed {
            f: 1990,
            l: 20,
            r: 4,
            m: 20,
            lo: 0,
            hi: 1000,
            dealt: true,
            width,
            weights: &weights,
        };
        // Both sides of the job know W from the card alone.
        let mut card = vec![0; 27 + 160];
        assert_eq!(cut_card(&cut_from, &mut card), Ok(187));
        let handed = read_card(&card).unwrap().handed(&card);
        assert_eq!(handed, cut_from);

        let mut dealt = vec![0; 1990];
        deal(&handed, &file, &mut dealt).unwrap();
        let mut printed = vec![0; 300 * 113];
        let mut list = [0; 40];
        let answer = write(
            &handed,
            &dealt,
            0xACE1_2357,
            300,
            1_000_000,
            &mut printed,
            &mut list,
        )
        .unwrap();
        assert_eq!((answer.stop, answer.made), (Stop::Done, 300), "{width}");

        let mut shelf = vec![0; 300 * 29];
        let mut count = 0;
        for line in printed.chunks(113).rev() {
            let Ok(Shelved::Accepted { count: after }) =
                shelve(&handed, &line[..112], &mut shelf, count)
            else {
                panic!("a strand just written is new and legal");
            };
            count = after;
        }
        let mut restored = vec![0xEE; 2000];
        let mut marks = vec![0; 100];
        let sheet = restore(&handed, &shelf, count, &mut restored, &mut marks, &mut list).unwrap();
        assert_eq!((sheet.present, sheet.contradictions), (100, 0), "{width}");
        assert_eq!(restored[..1990], dealt);
        let mut back = vec![0xEE; 2000];
        undeal(&handed, &restored, &mut back).unwrap();
        assert_eq!(back[..1990], file, "{width}");
        assert_eq!(back[1990..], [0xEE; 10]);
    }
}

/// The largest job: F = 8,388,608, L = 64, R = 4, K = 131,072, D = 1,024.
#[test]
fn the_largest_card() {
    let file: Vec<u8> = (0..8_388_608u32)
        .map(|i| (i.wrapping_mul(2_654_435_761) >> 24) as u8)
        .collect();
    let weights = bytes_of(&[4_194_303; 1024]);
    let handed = Handed {
        f: 8_388_608,
        l: 64,
        r: 4,
        m: 20,
        lo: 0,
        hi: 1000,
        dealt: false,
        width: 0,
        weights: &weights,
    };
    let mut printed = vec![0; 3 * 289];
    let mut list = vec![0; 1024];
    let answer = write(&handed, &file, u32::MAX, 3, 30, &mut printed, &mut list).unwrap();
    assert_eq!((answer.stop, answer.made), (Stop::Done, 3));
    let mut shelf = vec![0; 3 * 73];
    let mut count = 0;
    for line in printed.chunks(289) {
        assert_eq!(line[288], b'\n');
        match shelve(&handed, &line[..288], &mut shelf, count) {
            Ok(Shelved::Accepted { count: after }) => count = after,
            other => panic!("{other:?}"),
        }
    }
    let mut back = vec![1; 8_388_608];
    let mut marks = vec![1; 131_072];
    let restored = restore(&handed, &shelf, 3, &mut back, &mut marks, &mut list).unwrap();
    assert_eq!(restored.present, marks.iter().filter(|&&m| m == 1).count());
    assert_eq!(restored.contradictions, 0);
}
