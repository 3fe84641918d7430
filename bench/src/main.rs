//! The proved archives beside a tuned implementation in Rust: document 001's job and the limits job, with clean reads and reads to be
//! mended each by themselves and with pairs of calls, dealing by four widths, and how each phase of the jobs grows with K.
//! Both sides are handed the same buffers, and every answer and every byte that they leave is compared before a time is printed.
mod archive;
mod tuned;

use std::collections::HashSet;
use tuned::{record_bytes, Card, SITE_AFTER, SITE_BEFORE};

/// The processor time of this thread in seconds: other work on the machine does not count.
fn clock() -> f64 {
    extern "C" {
        fn clock_gettime(clock: i32, time: *mut [i64; 2]) -> i32;
    }
    const THREAD_CPUTIME: i32 = 3;
    let mut time = [0; 2];
    assert_eq!(unsafe { clock_gettime(THREAD_CPUTIME, &mut time) }, 0);
    time[0] as f64 + time[1] as f64 * 1e-9
}

/// A small generator for the bench's own inputs (it is none of document 01's).
struct Random(u64);

impl Random {
    fn next(&mut self) -> u64 {
        self.0 ^= self.0 << 13;
        self.0 ^= self.0 >> 7;
        self.0 ^= self.0 << 17;
        self.0.wrapping_mul(0x2545_F491_4F6C_DD1D)
    }
    fn below(&mut self, n: usize) -> usize {
        ((self.next() >> 32) as usize * n) >> 32
    }
}

/// The robust soliton weights of document 001 (c 0.025, delta 0.001), cut off after `most` degrees.
fn soliton(k: usize, most: usize) -> Vec<u8> {
    let (c, delta, kf) = (0.025, 0.001, k as f64);
    let s = c * (kf / delta).ln() * kf.sqrt();
    let spike = (kf / s).round() as usize;
    let mut p: Vec<f64> = Vec::new();
    for d in 1..=most.min(k) {
        let df = d as f64;
        let rho = if d == 1 {
            1.0 / kf
        } else {
            1.0 / (df * (df - 1.0))
        };
        let tau = if d < spike {
            s / (kf * df)
        } else if d == spike {
            s * (s / delta).ln() / kf
        } else {
            0.0
        };
        p.push(rho + tau);
    }
    let total: f64 = p.iter().sum();
    p.iter()
        .flat_map(|x| ((x / total * 4.0e9) as u32).to_be_bytes())
        .collect()
}

struct Job {
    name: String,
    card: Card,
    strands: u32,
    reads: usize,
    /// How many records the shelf holds before the timed shelving calls.
    shelved_first: usize,
    rounds: usize,
    shelvings: usize,
    /// Whether clean reads and reads with wrong bytes are timed each by themselves too, and pairs of calls.
    mending: bool,
}

struct Line {
    phase: &'static str,
    what: String,
    proved: f64,
    rust: f64,
}

/// The best of some rounds for each side, taken in turns: at least `rounds`, and more where they are short.
fn race(rounds: usize, mut proved: impl FnMut(), mut rust: impl FnMut()) -> (f64, f64) {
    let (mut a, mut b) = (f64::MAX, f64::MAX);
    let (start, mut round) = (clock(), 0);
    while round < rounds || (round < 40 * rounds && clock() - start < 1.0) {
        let t = clock();
        proved();
        a = a.min(clock() - t);
        let t = clock();
        rust();
        b = b.min(clock() - t);
        round += 1;
    }
    (a, b)
}

/// Changes letters of what is read; in about three of a hundred there is an N, a letter lost or one too many.
fn damage(letters: &mut Vec<u8>, random: &mut Random) {
    for letter in letters.iter_mut() {
        if random.below(2000) == 0 {
            *letter = b"ACGT"[random.below(4)];
        }
    }
    match random.below(100) {
        0 => {
            let place = random.below(letters.len());
            letters[place] = b'N';
        }
        1 => {
            letters.pop();
        }
        2 => letters.push(b'A'),
        _ => {}
    }
}

/// Reads of random strands; about one in ten is damaged: letters changed, an N, a letter lost or one too many. Before them which
/// strands they are of.
fn damaged_reads(
    text: &[u8],
    line: usize,
    strands: usize,
    reads: usize,
    random: &mut Random,
) -> (Vec<usize>, Vec<Vec<u8>>) {
    let mut picked = Vec::with_capacity(reads);
    let mut all = Vec::with_capacity(reads);
    for _ in 0..reads {
        let i = random.below(strands);
        picked.push(i);
        let mut read = text[i * line..i * line + line - 1].to_vec();
        damage(&mut read, random);
        all.push(read);
    }
    (picked, all)
}

/// Reads of the strands picked, each with so many bytes wrong, at different places anywhere in the word.
fn wrong_reads(
    text: &[u8],
    line: usize,
    picked: &[usize],
    wrong: usize,
    random: &mut Random,
) -> Vec<Vec<u8>> {
    let mut all = Vec::with_capacity(picked.len());
    for &i in picked {
        let mut read = text[i * line..i * line + line - 1].to_vec();
        let mut places = Vec::new();
        while places.len() < wrong {
            let place = random.below(read.len() / 4);
            if places.contains(&place) {
                continue;
            }
            places.push(place);
            // another value: at least one of the four letters changes
            let change = 1 + random.below(255);
            for (k, letter) in read[4 * place..4 * place + 4].iter_mut().enumerate() {
                let base = b"ACGT".iter().position(|x| x == letter).unwrap();
                *letter = b"ACGT"[base ^ (change >> (6 - 2 * k) & 3)];
            }
        }
        all.push(read);
    }
    all
}

/// Offers each read to both checks, which must give the same answer and leave the same bytes.
fn compare_checks(card: Card, weights: &[u8], reads: &[Vec<u8>]) {
    let (mut droplet_a, mut droplet_b) = (vec![0u8; 72], vec![0u8; 72]);
    for read in reads {
        let n = archive::check_read(card, weights, read, &mut droplet_a);
        assert!(
            n == tuned::check_read(card, weights, read, &mut droplet_b) && droplet_a == droplet_b,
            "the checks differ"
        );
    }
}

/// How many of the reads are accepted as other droplets than those of the strands that they are of.
fn mistaken(
    card: Card,
    weights: &[u8],
    text: &[u8],
    line: usize,
    picked: &[usize],
    reads: &[Vec<u8>],
) -> usize {
    let (mut ours, mut theirs) = (vec![0u8; 72], vec![0u8; 72]);
    let mut count = 0;
    for (&i, read) in picked.iter().zip(reads) {
        let strand = &text[i * line..i * line + line - 1];
        assert_eq!(archive::check_read(card, weights, strand, &mut ours), 0);
        let accepted = archive::check_read(card, weights, read, &mut theirs) == 0;
        count += usize::from(accepted && ours != theirs);
    }
    count
}

/// The times of both checks for all reads, and how many are legal.
fn race_checks(
    rounds: usize,
    card: Card,
    weights: &[u8],
    reads: &[Vec<u8>],
) -> ((f64, f64), usize) {
    let (mut droplet_a, mut droplet_b) = (vec![0u8; 72], vec![0u8; 72]);
    let (mut legal_a, mut legal_b) = (0, 0);
    let times = race(
        rounds,
        || {
            legal_a = reads
                .iter()
                .filter(|read| archive::check_read(card, weights, read, &mut droplet_a) == 0)
                .count()
        },
        || {
            legal_b = reads
                .iter()
                .filter(|read| tuned::check_read(card, weights, read, &mut droplet_b) == 0)
                .count()
        },
    );
    assert_eq!(legal_a, legal_b);
    (times, legal_a)
}

/// Clean reads, and reads with as many wrong bytes as can be mended, timed each by themselves. The kinds of reads take turns too, so
/// that the ratio of a damaged read to a clean one does not hang on what else the machine did meanwhile.
fn mending(
    job: &Job,
    weights: &[u8],
    text: &[u8],
    line: usize,
    picked: &[usize],
    random: &mut Random,
) -> Vec<Line> {
    let (card, most) = (job.card, job.card.r as usize / 2);
    let kinds: Vec<Vec<Vec<u8>>> = (0..=most)
        .map(|wrong| wrong_reads(text, line, picked, wrong, random))
        .collect();
    let (mut clean, mut mended) = (vec![0u8; 72], vec![0u8; 72]);
    for reads in &kinds {
        compare_checks(card, weights, reads);
        for (strand, read) in kinds[0].iter().zip(reads) {
            assert_eq!(archive::check_read(card, weights, strand, &mut clean), 0);
            assert_eq!(archive::check_read(card, weights, read, &mut mended), 0);
            assert!(clean == mended, "the mended read is another droplet");
        }
    }
    // with a wrong byte more some are mended, to other strands, and the rest refused: not timed, but both sides must agree
    let reads = wrong_reads(text, line, picked, most + 1, random);
    compare_checks(card, weights, &reads);

    let mut best = vec![(f64::MAX, f64::MAX); kinds.len()];
    for _ in 0..job.rounds {
        for (reads, best) in kinds.iter().zip(&mut best) {
            let ((proved, rust), legal) = race_checks(1, card, weights, reads);
            assert_eq!(legal, reads.len());
            *best = (best.0.min(proved), best.1.min(rust));
        }
    }
    let mut lines = Vec::new();
    for (wrong, &(proved, rust)) in best.iter().enumerate() {
        let what = match wrong {
            0 => "clean".to_string(),
            _ => format!(
                "{} in each; over clean: proved {:.2}, rust {:.2}",
                ["one wrong byte", "two wrong bytes"][wrong - 1],
                proved / best[0].0,
                rust / best[0].1
            ),
        };
        lines.push(Line {
            phase: "check",
            what: format!("{} reads, {what}", picked.len()),
            proved,
            rust,
        });
    }
    lines
}

type Pair = [Vec<u8>; 2];

type Choose = fn(Card, &[u8], &[u8], &[u8], &mut [u64; 1]) -> u32;

/// Two calls of each of the strands picked, as they are ordered: damaged each by itself, sites and all, or clean.
fn pairs_of(
    text: &[u8],
    line: usize,
    picked: &[usize],
    damaged: bool,
    random: &mut Random,
) -> Vec<Pair> {
    let mut call = |i: usize| {
        let strand = &text[i * line..i * line + line - 1];
        let mut call = [SITE_BEFORE, strand, SITE_AFTER].concat();
        if damaged {
            damage(&mut call, random);
        }
        call
    };
    picked.iter().map(|&i| [call(i), call(i)]).collect()
}

/// Offers each pair to both sides, which must return and answer the same. A refusal leaves the answer as it was, and the read
/// check must accept the letters of a chosen call.
fn compare_choices(card: Card, weights: &[u8], pairs: &[Pair]) {
    let mut droplet = vec![0u8; 72];
    for [first, second] in pairs {
        let (mut a, mut b) = ([9], [9]);
        let n = archive::choose_call(card, weights, first, second, &mut a);
        let m = tuned::choose_call(card, weights, first, second, &mut b);
        assert!(n == m && a == b, "the choices differ");
        let chosen = match (n, a) {
            (0, [0]) => first,
            (0, [1]) => second,
            (21, [9]) => continue,
            _ => panic!("{n} and {a:?} is no answer"),
        };
        let read = &chosen[SITE_BEFORE.len()..chosen.len() - SITE_AFTER.len()];
        assert_eq!(archive::check_read(card, weights, read, &mut droplet), 0);
    }
}

/// How many of the pairs were answered by the first call, by the second, and refused.
fn choose_all(choose: Choose, card: Card, weights: &[u8], pairs: &[Pair]) -> [usize; 3] {
    let (mut counts, mut answer) = ([0; 3], [0]);
    for [first, second] in pairs {
        if choose(card, weights, first, second, &mut answer) == 0 {
            counts[answer[0] as usize] += 1;
        } else {
            counts[2] += 1;
        }
    }
    counts
}

/// Two base callers: pairs of damaged calls, and pairs of clean ones, of which the first is always chosen.
fn choosing(job: &Job, weights: &[u8], text: &[u8], line: usize, picked: &[usize]) -> Vec<Line> {
    let card = job.card;
    // a generator of its own, so that the phases after this one have the inputs that they had
    let mut random = Random(362_436_069_521_288_629);
    let mut lines = Vec::new();
    for damaged in [true, false] {
        let pairs = pairs_of(text, line, picked, damaged, &mut random);
        compare_choices(card, weights, &pairs);
        let (mut a, mut b) = ([0; 3], [0; 3]);
        let (proved, rust) = race(
            job.rounds,
            || a = choose_all(archive::choose_call, card, weights, &pairs),
            || b = choose_all(tuned::choose_call, card, weights, &pairs),
        );
        assert_eq!(a, b);
        let what = if damaged {
            format!("{} first, {} second, {} refused", a[0], a[1], a[2])
        } else {
            assert_eq!(a, [pairs.len(), 0, 0]);
            "clean".to_string()
        };
        lines.push(Line {
            phase: "choose",
            what: format!("{} pairs, {what}", pairs.len()),
            proved,
            rust,
        });
    }
    lines
}

type Write = fn(Card, &[u8], &[u8], u32, u32, u32, &mut [u8], &mut [u32], &mut [u64; 6]) -> u32;

type Store = fn(Card, &[u8], &mut [u8], usize, &[u8], &mut [u64; 2]) -> u32;

fn shelve_all(
    store: Store,
    card: Card,
    weights: &[u8],
    shelf: &mut [u8],
    count: usize,
    reads: &[Vec<u8>],
) -> (usize, [usize; 32]) {
    // by what is answered, 0 to 2, or by the number of the refusal, which is 9 or more under a legal card
    let (mut count, mut answers, mut answer) = (count, [0; 32], [0; 2]);
    for read in reads {
        let n = store(card, weights, shelf, count, read, &mut answer) as usize;
        if n == 0 {
            count = answer[1] as usize;
            answers[answer[0] as usize] += 1;
        } else {
            answers[n] += 1;
        }
    }
    (count, answers)
}

/// Records with true and false payloads, of clean and mended reads, with counts of which some are full or soon will be, each offered a
/// mended read, a clean one, and both kinds again: not timed, but both sides must agree on each, and the answers are known.
fn compare_counts(
    card: Card,
    weights: &[u8],
    records: &[u8],
    text: &[u8],
    line: usize,
    random: &mut Random,
) {
    let (l, size) = (card.l as usize, record_bytes(card.l as usize));
    let counts = [0, 1, 0x00FF_FFFF, u32::MAX - 2, u32::MAX - 1, u32::MAX];
    let picked: Vec<usize> = (0..6 * counts.len()).collect();
    let mut shelf_a = records[..picked.len() * size].to_vec();
    for (i, record) in shelf_a.chunks_exact_mut(size).enumerate() {
        record[4] ^= (i % 2) as u8;
        record[4 + l] = [0, 1, 7][i / 2 % 3];
        record[5 + l..].copy_from_slice(&counts[i / 6].to_be_bytes());
    }
    let (mut shelf_b, mut met) = (shelf_a.clone(), [0; 32]);
    for wrong in [1, 0, 1, 0] {
        for read in wrong_reads(text, line, &picked, wrong, random) {
            let (read, count) = ([read], picked.len());
            let a = shelve_all(archive::store, card, weights, &mut shelf_a, count, &read);
            let b = shelve_all(tuned::store, card, weights, &mut shelf_b, count, &read);
            assert!(a == b && shelf_a == shelf_b, "the counts differ");
            met.iter_mut().zip(a.1).for_each(|(sum, n)| *sum += n);
        }
    }
    // repeats and replacements, other payloads and full counts
    assert_eq!([met[1], met[2], met[15], met[20]], [51, 18, 38, 37]);
}

fn run(job: &Job) -> Vec<Line> {
    let card = job.card;
    let l = card.l as usize;
    let k = (card.f as usize).div_ceil(l);
    let weights = soliton(k, 1024);
    let line = 4 * (4 + l + card.r as usize) + 1;
    let strands = job.strands as usize;
    let mut random = Random(88_172_645_463_325_252);
    let file: Vec<u8> = (0..card.f).map(|_| random.next() as u8).collect();
    let mut lines = Vec::new();

    // write
    let (mut out_a, mut out_b) = (
        vec![b'?'; strands * line + 8],
        vec![b'?'; strands * line + 8],
    );
    let (mut list_a, mut list_b) = (vec![0u32; 1024], vec![0u32; 1024]);
    let (mut a, mut b) = ([9; 6], [9; 6]);
    let (proved, rust) = race(
        job.rounds,
        || {
            assert_eq!(
                archive::write(
                    card,
                    &weights,
                    &file,
                    1,
                    job.strands,
                    u32::MAX,
                    &mut out_a,
                    &mut list_a,
                    &mut a
                ),
                0
            )
        },
        || {
            assert_eq!(
                tuned::write(
                    card,
                    &weights,
                    &file,
                    1,
                    job.strands,
                    u32::MAX,
                    &mut out_b,
                    &mut list_b,
                    &mut b
                ),
                0
            )
        },
    );
    assert!(a == b && out_a == out_b, "the strands differ");
    lines.push(Line {
        phase: "write",
        what: format!(
            "{} strands of {} seeds, {} dropped for a run, {} for GC alone",
            a[1], a[2], a[4], a[5]
        ),
        proved,
        rust,
    });

    // check
    let (picked, reads) = damaged_reads(&out_a, line, strands, job.reads, &mut random);
    compare_checks(card, &weights, &reads);
    let ((proved, rust), legal) = race_checks(job.rounds, card, &weights, &reads);
    let mistaken = mistaken(card, &weights, &out_a, line, &picked, &reads);
    lines.push(Line {
        phase: "check",
        what: format!(
            "{} reads, {legal} legal, {mistaken} taken for other strands",
            reads.len()
        ),
        proved,
        rust,
    });
    if job.mending {
        lines.extend(mending(job, &weights, &out_a, line, &picked, &mut random));
        lines.extend(choosing(job, &weights, &out_a, line, &picked));
    }

    // the check bytes are gone from what the shelf and the restorer see, so one R is enough for them
    if card.r == 4 {
        return lines;
    }

    // shelve
    let size = record_bytes(l);
    let mut records = vec![0u8; strands * size];
    for (record, strand) in records.chunks_exact_mut(size).zip(out_a.chunks_exact(line)) {
        let (strand, (droplet, rest)) = (&strand[..line - 1], record.split_at_mut(4 + l));
        assert_eq!(archive::check_read(card, &weights, strand, droplet), 0);
        // clean, and one read behind it
        rest.copy_from_slice(&[0, 0, 0, 0, 1]);
    }
    let mut filled = vec![0xEE; (strands + 1) * size + 5];
    let first = job.shelved_first * size;
    filled[..first].copy_from_slice(&records[..first]);
    let (mut shelf_a, mut shelf_b) = (filled.clone(), filled.clone());
    let (mut end_a, mut end_b) = ((0, [0; 32]), (0, [0; 32]));
    let (proved, rust) = race(
        job.shelvings,
        || {
            shelf_a.copy_from_slice(&filled);
            end_a = shelve_all(
                archive::store,
                card,
                &weights,
                &mut shelf_a,
                job.shelved_first,
                &reads,
            )
        },
        || {
            shelf_b.copy_from_slice(&filled);
            end_b = shelve_all(
                tuned::store,
                card,
                &weights,
                &mut shelf_b,
                job.shelved_first,
                &reads,
            )
        },
    );
    assert!(end_a == end_b && shelf_a == shelf_b, "the shelves differ");
    let (count, answers) = end_a;
    let from = job.shelved_first;
    // a read with more wrong bytes than can be mended may be mended to a strand that was not written: its record may be false, until a
    // clean read of its seed replaces it
    let printed: HashSet<&[u8]> = records.chunks_exact(size).map(|r| &r[..4 + l]).collect();
    let shelved = shelf_a[..count * size].chunks_exact(size);
    let behind = |r: &[u8]| u32::from_be_bytes(r[5 + l..].try_into().unwrap()) as usize;
    let each: Vec<usize> = shelved.clone().map(behind).collect();
    let taken: usize = answers[..3].iter().sum();
    assert_eq!(
        each.iter().sum::<usize>(),
        from + taken,
        "other reads behind the records"
    );
    let mended: Vec<usize> = shelved
        .clone()
        .filter(|r| r[4 + l] != 0)
        .map(behind)
        .collect();
    let other: Vec<usize> = shelved
        .filter(|r| !printed.contains(&r[..4 + l]))
        .map(behind)
        .collect();
    compare_counts(card, &weights, &records, &out_a, line, &mut random);
    lines.push(Line {
        phase: "shelve",
        what: format!(
            "{} reads, {} accepted, {} repeats, {} replaced, shelf {from} to {count}, {} mended in the end, {} not as written; {}, {} and {} of these have one read behind them, the most {}",
            reads.len(),
            answers[0],
            answers[1],
            answers[2],
            mended.len(),
            other.len(),
            singles(&each),
            singles(&mended),
            singles(&other),
            each.iter().max().unwrap_or(&0)
        ),
        proved,
        rust,
    });

    // restore: all records, of which false ones make false segments, and those of clean reads, which are as written here
    let shelf = &shelf_a[..count * size];
    let all = restores(job, &weights, &file, shelf, "records");
    assert!(
        !other.is_empty() || all.1 == 0,
        "the file did not come back"
    );
    let clean = restores(
        job,
        &weights,
        &file,
        &clean_records(shelf, l),
        "records of clean reads",
    );
    assert_eq!(clean.1, 0, "a clean read is not as written");
    lines.extend([all.0, clean.0]);
    lines
}

/// How many of these numbers are 1.
fn singles(numbers: &[usize]) -> usize {
    numbers.iter().filter(|&&n| n == 1).count()
}

/// A restore from some records, with the number of segments that came back and are not the file's.
fn restores(job: &Job, weights: &[u8], file: &[u8], records: &[u8], of: &str) -> (Line, usize) {
    let (card, l) = (job.card, job.card.l as usize);
    let k = (card.f as usize).div_ceil(l);
    let count = records.len() / record_bytes(l);
    let shelf = [records, &[0xEE; 5]].concat();
    let (mut file_a, mut file_b) = (vec![0xAA; k * l + 3], vec![0xAA; k * l + 3]);
    let (mut marks_a, mut marks_b) = (vec![7; k + 3], vec![7; k + 3]);
    let (mut list_a, mut list_b) = (vec![0; 1024], vec![0; 1024]);
    let (mut a, mut b) = ([9; 3], [9; 3]);
    let (proved, rust) = race(
        job.rounds,
        || {
            let (file, marks) = (&mut file_a, &mut marks_a);
            let n = archive::restore(
                card,
                weights,
                &shelf,
                count,
                file,
                marks,
                &mut list_a,
                &mut a,
            );
            assert_eq!(n, 0)
        },
        || {
            let (file, marks) = (&mut file_b, &mut marks_b);
            let n = tuned::restore(
                card,
                weights,
                &shelf,
                count,
                file,
                marks,
                &mut list_b,
                &mut b,
            );
            assert_eq!(n, 0)
        },
    );
    let same = a == b && file_a == file_b && marks_a == marks_b;
    assert!(same, "the restored files differ");
    let wrong = wrong_segments(l, file, &file_a, &marks_a[..k]);
    let what = format!(
        "{} of {k} segments of {count} {of} in {} sweeps, {} contradictions, {wrong} segments wrong",
        a[0], a[1], a[2]
    );
    let phase = "restore";
    (
        Line {
            phase,
            what,
            proved,
            rust,
        },
        wrong,
    )
}

/// How many segments that came back are not the file's.
fn wrong_segments(l: usize, file: &[u8], restored: &[u8], marks: &[u8]) -> usize {
    (0..marks.len())
        .filter(|i| marks[*i] == 1 && restored[i * l..(i + 1) * l] != file[i * l..(i + 1) * l])
        .count()
}

/// A shelf without the records of mended reads.
fn clean_records(shelf: &[u8], l: usize) -> Vec<u8> {
    let records = shelf.chunks_exact(record_bytes(l));
    let clean = records.filter(|r| r[4 + l] == 0);
    clean.flatten().copied().collect()
}

/// Dealing and undealing of the largest file, by one width.
fn deal(width: u32) -> Vec<Line> {
    let card = Card {
        dealt: 1,
        width,
        ..job("", 8_388_608, 64, 2, 0, 0, 0, 0).card
    };
    let f = card.f as usize;
    let weights = soliton(f.div_ceil(card.l as usize), 1024);
    let mut random = Random(88_172_645_463_325_252);
    let file: Vec<u8> = (0..f).map(|_| random.next() as u8).collect();
    let (mut dealt_a, mut dealt_b) = (vec![0xAA; f + 3], vec![0xAA; f + 3]);
    let (mut back_a, mut back_b) = (vec![0xBB; f + 3], vec![0xBB; f + 3]);
    let dealt = race(
        20,
        || assert_eq!(archive::deal(card, &weights, &file, &mut dealt_a), 0),
        || assert_eq!(tuned::deal(card, &weights, &file, &mut dealt_b), 0),
    );
    let back = race(
        20,
        || assert_eq!(archive::undeal(card, &weights, &dealt_a, &mut back_a), 0),
        || assert_eq!(tuned::undeal(card, &weights, &dealt_b, &mut back_b), 0),
    );
    assert!(
        dealt_a == dealt_b && back_a == back_b,
        "the dealt files differ"
    );
    assert!(back_a[..f] == file[..], "the file did not come back");
    let line = |phase, (proved, rust)| Line {
        phase,
        what: format!("W {width}"),
        proved,
        rust,
    };
    vec![line("deal", dealt), line("undeal", back)]
}

/// What a width does to a file that is half zeros: made, tried and dropped for a run, of 2,250 strands wanted and 2,000,000 seeds at most.
/// No times.
fn zeros(is_zero: fn(usize) -> bool, width: u32) -> [u64; 3] {
    let card = Card {
        dealt: u8::from(width != 0),
        width,
        ..job("", 65_536, 32, 2, 0, 0, 0, 0).card
    };
    let f = card.f as usize;
    let (k, line) = (f / 32, 4 * (4 + 32 + 2) + 1);
    let weights = soliton(k, 1024);
    let mut random = Random(88_172_645_463_325_252);
    let file: Vec<u8> = (0..f)
        .map(|i| if is_zero(i) { 0 } else { random.next() as u8 })
        .collect();
    let (mut dealt, wanted) = (vec![0; f], 2_250);
    let (mut out, mut list) = (vec![0; wanted * line], vec![0; 1024]);
    let (mut a, mut b) = ([9; 6], [9; 6]);
    assert_eq!(archive::deal(card, &weights, &file, &mut dealt), 0);
    for (write, answer) in [
        (archive::write as Write, &mut a),
        (tuned::write as Write, &mut b),
    ] {
        let wanted = wanted as u32;
        let n = write(
            card, &weights, &dealt, 1, wanted, 2_000_000, &mut out, &mut list, answer,
        );
        assert_eq!(n, 0);
    }
    assert_eq!(a, b);
    [a[1], a[2], a[4]]
}

fn print_zeros() {
    println!("\n65,536 bytes, half of them zeros, L 32, R 2: made, tried and dropped for a run");
    let records: fn(usize) -> bool = |i| i % 32 < 16;
    let first_half: fn(usize) -> bool = |i| i < 32_768;
    for (name, is_zero, widths) in [
        (
            "16 zeros in each record of 32 bytes",
            records,
            [0, 32, 2_048],
        ),
        ("zeros in the first half", first_half, [0, 32, 2_048]),
    ] {
        for width in widths {
            let [made, tried, run] = zeros(is_zero, width);
            println!("{name}, W {width}: {made} {tried} {run}");
        }
    }
}

fn machine() -> String {
    let info = std::fs::read_to_string("/proc/cpuinfo").unwrap_or_default();
    let name = info
        .lines()
        .find(|l| l.starts_with("model name"))
        .and_then(|l| l.split(": ").nth(1))
        .unwrap_or("unknown")
        .to_string();
    format!(
        "{name}, {} processors",
        info.lines().filter(|l| l.starts_with("processor")).count()
    )
}

#[allow(clippy::too_many_arguments)]
fn job(
    name: &str,
    f: u32,
    l: u8,
    r: u8,
    strands: u32,
    reads: usize,
    shelved_first: usize,
    shelvings: usize,
) -> Job {
    let card = Card {
        f,
        l,
        r,
        m: 3,
        lo: 450,
        hi: 550,
        dealt: 0,
        width: 0,
    };
    Job {
        name: name.to_string(),
        card,
        strands,
        reads,
        shelved_first,
        rounds: 3,
        shelvings,
        mending: true,
    }
}

fn print_table(name: &str, lines: &[Line]) {
    println!("\n{name}");
    println!(
        "{:8} {:>10} {:>10} {:>6}  of",
        "phase", "proved", "rust", "ratio"
    );
    for line in lines {
        println!(
            "{:8} {:>10.4} {:>10.4} {:>6.2}  {}",
            line.phase,
            line.proved,
            line.rust,
            line.rust / line.proved,
            line.what
        );
    }
}

fn main() {
    let only: Vec<String> = std::env::args().skip(1).collect();
    let wanted = |word: &str| only.is_empty() || only.iter().any(|w| w == word);
    println!("machine: {}", machine());
    println!("times in seconds of processor time, the best of some rounds for each side, in turns; ratio: tuned Rust over proved, so 1.00 and more is at least as fast");
    println!("shelving searches the shelf for the seed from its start, as document 01's interface asks, on both sides alike:");
    println!("its time grows with the square of the number of records");
    let mut jobs = Vec::new();
    for r in [2, 4].into_iter().filter(|_| wanted("001")) {
        let name = format!("document 001: 2,146,816 bytes, L 32, R {r}");
        jobs.push(job(&name, 2_146_816, 32, r, 72_000, 300_000, 0, 1));
    }
    for r in [2, 4].into_iter().filter(|_| wanted("limits")) {
        let name = format!("limits: 8,388,608 bytes, L 64, R {r}");
        jobs.push(job(&name, 8_388_608, 64, r, 140_000, 20_000, 139_000, 2));
    }
    for job in &jobs {
        print_table(&job.name, &run(job));
    }
    if wanted("dealing") {
        let widths = [2, 64, 4_096, 8_388_608 / 2];
        let lines: Vec<Line> = widths.into_iter().flat_map(deal).collect();
        print_table("dealing: 8,388,608 bytes", &lines);
        print_zeros();
    }
    if wanted("growth") {
        println!("\ngrowth with K (L 32; 9/8 K strands, all on the shelf but 1,000; 4,000 reads), proved, microseconds a strand, read, read and record");
        println!(
            "{:>8} {:>8} {:>8} {:>8} {:>8}   ratios",
            "K", "write", "check", "shelve", "restore"
        );
        for e in 10..=17 {
            let k: u32 = 1 << e;
            let strands = k + k / 8;
            let lines = run(&Job {
                mending: false,
                ..job(
                    "",
                    k * 32,
                    32,
                    2,
                    strands,
                    4_000,
                    strands as usize - 1_000,
                    2,
                )
            });
            let by = [strands, 4_000, 4_000, strands];
            print!("{k:>8}");
            for (line, n) in lines.iter().zip(by) {
                print!(" {:>8.3}", line.proved / n as f64 * 1e6);
            }
            print!("  ");
            for line in &lines {
                print!(" {:.2}", line.rust / line.proved);
            }
            println!("   {}", lines[3].what);
        }
    }
}
