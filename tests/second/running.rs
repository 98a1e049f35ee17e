//! What the programs share that compare the library: their arguments, the cases on all processors, and
//! how often each answer occurred.

use crate::comparing::{differ, Difference, Outcome};
use crate::counts::{self, Counts};
use std::collections::BTreeMap;
use std::panic::{catch_unwind, AssertUnwindSafe};
use std::process::exit;
use std::sync::atomic::{AtomicU64, Ordering};
use std::thread;

/// A comparison of some calls, and how often each answer occurred in it.
pub trait Comparison: Send {
    fn new() -> Self;

    fn case(&mut self, seed: u64, number: u64) -> Outcome;

    /// The answers of each call.
    fn answers(&mut self) -> Vec<(&'static str, &mut Counts)>;

    /// What else has to occur.
    fn others(&mut self) -> Vec<(&'static str, &mut Counts)>;
}

/// Compares the cases of SEED, COUNT and FIRST (0 where it is not given), then what is fixed. Ends with 1
/// where something differs, and with 3 where an answer never occurred.
pub fn run<C: Comparison>(program: &str, fixed: fn() -> Outcome) {
    let arguments: Vec<String> = std::env::args().skip(1).collect();
    let numbers: Option<Vec<u64>> = arguments.iter().map(|word| word.parse().ok()).collect();
    let (seed, count, first) = match numbers.as_deref() {
        Some([seed, count]) => (*seed, *count, 0),
        Some([seed, count, first]) => (*seed, *count, *first),
        _ => fail(2, format!("usage: {program} SEED COUNT [FIRST]")),
    };
    let mut comparison: C = match cases(seed, count, first) {
        Ok(comparison) => comparison,
        Err((number, difference)) => fail(1, difference.told(seed, number)),
    };
    if let Err(difference) = fixed() {
        fail(1, difference.message);
    }
    if let Err(missing) = occurred(&mut comparison) {
        fail(3, missing);
    }
}

fn fail(status: i32, message: String) -> ! {
    eprintln!("{message}");
    exit(status)
}

/// The cases, and what they counted, or the first that differs: the same on any number of processors.
fn cases<C: Comparison>(seed: u64, count: u64, first: u64) -> Result<C, (u64, Difference)> {
    let threads = thread::available_parallelism().map_or(1, |number| number.get());
    let end = AtomicU64::new(first + count);
    let part = |thread: usize| {
        let mut comparison = C::new();
        let mut difference = None;
        for number in (first + thread as u64..first + count).step_by(threads) {
            // Behind a case that differs there is nothing more to look for.
            if number >= end.load(Ordering::Relaxed) {
                break;
            }
            if let Err(found) = one(&mut comparison, seed, number) {
                end.fetch_min(number, Ordering::Relaxed);
                difference = Some((number, found));
                break;
            }
        }
        (comparison, difference)
    };
    let parts: Vec<_> = thread::scope(|scope| {
        let part = &part;
        let started: Vec<_> = (0..threads)
            .map(|thread| scope.spawn(move || part(thread)))
            .collect();
        let ended = started.into_iter().map(|thread| thread.join());
        ended.map(|part| part.expect("an end")).collect()
    });
    let mut all = C::new();
    let mut differences = Vec::new();
    for (mut comparison, difference) in parts {
        put(all.answers(), comparison.answers());
        put(all.others(), comparison.others());
        differences.extend(difference);
    }
    match differences.into_iter().min_by_key(|(number, _)| *number) {
        Some(first) => Err(first),
        None => Ok(all),
    }
}

fn put(all: Vec<(&str, &mut Counts)>, part: Vec<(&str, &mut Counts)>) {
    for ((_, all), (_, part)) in all.into_iter().zip(part) {
        all.put(part);
    }
}

/// A case; a program that stops in it, or an answer that the call does not have, is a difference too.
fn one<C: Comparison>(comparison: &mut C, seed: u64, number: u64) -> Outcome {
    catch_unwind(AssertUnwindSafe(|| comparison.case(seed, number)))
        .unwrap_or_else(|_| differ("it stopped, as told above".to_string(), &[]))
}

/// Prints how often each answer and each number occurred; an answer that never did is a failure.
fn occurred<C: Comparison>(comparison: &mut C) -> Result<(), String> {
    let mut missing = Vec::new();
    let mut numbers = BTreeMap::new();
    for (call, counts) in comparison.answers() {
        println!("{call}: {} alike; {}", counts.all(), counts.line());
        missing.extend(never(call, counts));
        counts.put_numbers(&mut numbers);
    }
    for (what, counts) in comparison.others() {
        println!("{what}: {}", counts.line());
        missing.extend(never(what, counts));
    }
    println!("{}", counts::line_of_numbers(&numbers));
    if !missing.is_empty() {
        return Err(format!("never occurred: {}", missing.join(", ")));
    }
    Ok(())
}

fn never(call: &str, counts: &Counts) -> Vec<String> {
    let never = counts.below(1).into_iter();
    never.map(|answer| format!("{call} {answer}")).collect()
}
