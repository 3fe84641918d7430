//! Runs the cases of one call on all processors, and counts the regions that they come from.

use super::random::Random;
use std::collections::BTreeMap;
use std::env;
use std::panic::{catch_unwind, AssertUnwindSafe};
use std::sync::atomic::{AtomicBool, AtomicU64, Ordering};
use std::sync::Mutex;
use std::thread;

/// A run of fewer cases need not meet every region.
const NORMAL_CASES: u64 = 200_000;

/// How often each region occurred.
#[derive(Default)]
pub struct Regions(BTreeMap<String, u64>);

impl Regions {
    pub fn note(&mut self, region: &str) {
        if let Some(count) = self.0.get_mut(region) {
            *count += 1;
        } else {
            self.0.insert(String::from(region), 1);
        }
    }

    pub fn note_if(&mut self, occurred: bool, region: &str) {
        if occurred {
            self.note(region);
        }
    }

    pub fn note_answer(&mut self, number: u32) {
        self.note(&format!("answer {number}"));
    }

    fn add(&mut self, other: Regions) {
        for (region, count) in other.0 {
            *self.0.entry(region).or_default() += count;
        }
    }
}

fn number_from(variable: &str) -> Option<u64> {
    let text = env::var(variable).ok()?;
    Some(
        text.parse()
            .unwrap_or_else(|_| panic!("{variable} is a number")),
    )
}

/// Runs one case; a mismatch or panic becomes a report by which it can be run alone.
fn run_case<C>(call: &str, number: u64, regions: &mut Regions, case: &C) -> Result<(), String>
where
    C: Fn(&mut Random, &mut Regions) -> Result<(), String>,
{
    let mut random = Random::of_case(call, number);
    let seed = random.seed();
    let outcome =
        catch_unwind(AssertUnwindSafe(|| case(&mut random, regions))).unwrap_or_else(|_| {
            Err(String::from(
                "the second implementation or the test panicked",
            ))
        });
    outcome.map_err(|what| {
        format!(
            "{call}: case {number} (seed {seed:016x}) differs: {what}\n\
             to run it alone: FOUNTAIN_CASE={number} cargo test --offline --manifest-path tests/Cargo.toml \
             --test 'differential_*' -- --exact {call}"
        )
    })
}

/// Runs the cases of `call`. Every region of `wanted` must have occurred in a run of normal length or more.
pub fn run<C>(call: &str, wanted: &[&[&str]], case: C)
where
    C: Fn(&mut Random, &mut Regions) -> Result<(), String> + Sync,
{
    if let Some(alone) = number_from("FOUNTAIN_CASE") {
        run_case(call, alone, &mut Regions::default(), &case)
            .unwrap_or_else(|report| panic!("{report}"));
        return;
    }
    let cases = number_from("FOUNTAIN_CASES").unwrap_or(NORMAL_CASES);
    let next = AtomicU64::new(0);
    let failed = AtomicBool::new(false);
    let first_report = Mutex::new(None);
    let regions = Mutex::new(Regions::default());
    let processors = thread::available_parallelism().map_or(1, |count| count.get());
    thread::scope(|scope| {
        for _ in 0..processors {
            scope.spawn(|| {
                let mut mine = Regions::default();
                while !failed.load(Ordering::Relaxed) {
                    let number = next.fetch_add(1, Ordering::Relaxed);
                    if number >= cases {
                        break;
                    }
                    if let Err(report) = run_case(call, number, &mut mine, &case) {
                        failed.store(true, Ordering::Relaxed);
                        first_report.lock().unwrap().get_or_insert(report);
                    }
                }
                regions.lock().unwrap().add(mine);
            });
        }
    });
    if let Some(report) = first_report.into_inner().unwrap() {
        panic!("{report}");
    }
    let regions = regions.into_inner().unwrap();
    println!("{call}: {cases} cases");
    for (region, count) in &regions.0 {
        println!("{count:>9} {region}");
    }
    if cases >= NORMAL_CASES {
        let missing: Vec<&&str> = wanted
            .iter()
            .copied()
            .flatten()
            .filter(|&&region| !regions.0.contains_key(region))
            .collect();
        assert!(
            missing.is_empty(),
            "{call}: regions that no case came from: {missing:?}"
        );
    }
}
