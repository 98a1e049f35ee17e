//! The insert and the signal summary of a read by its position, written a second time from document
//! 01 alone. What stands in quotes is that document's wording.

#![allow(dead_code)]

use crate::sff::{refuse, test_file, Header, Read, Refusal, Section};

/// The file's header and the read at this position: "Refusals: the file's, 21".
fn read_at(file: &[u8], position: u64) -> Result<(Header<'_>, Read<'_>), Refusal> {
    let contents = test_file(file)?;
    // 21: "position not below the number of reads"
    if position >= contents.reads.len() as u64 {
        return refuse(21, 0, Section::Given);
    }
    Ok((contents.header, contents.reads[position as usize]))
}

/// First and last base, both counted from 1, and the bases between: of a refusal 1, 0 and none.
#[derive(Clone, Copy, Debug, PartialEq, Eq)]
pub struct Insert<'a> {
    pub refusal: Option<Refusal>,
    pub first: u64,
    pub last: u64,
    pub bases: &'a [u8],
}

/// "Given a file and a position, the insert's bases are handed over"; "The stretch is then empty".
pub fn insert(file: &[u8], position: u64) -> Insert<'_> {
    let read = match read_at(file, position) {
        Ok((_, read)) => read,
        Err(refusal) => {
            return Insert {
                refusal: Some(refusal),
                first: 1,
                last: 0,
                bases: &[],
            };
        }
    };
    let (first, last) = read.first_last();
    Insert {
        refusal: None,
        first,
        last,
        bases: read.insert(),
    }
}

/// "three 64-bit floats", all 0.0 of a refusal.
#[derive(Clone, Copy, Debug)]
pub struct Signal {
    pub refusal: Option<Refusal>,
    pub strongest: f64,
    pub weakest: f64,
    pub mean: f64,
}

/// "Signal summary of a read with F ≥ 1"
pub fn signal(file: &[u8], position: u64) -> Signal {
    match summary(file, position) {
        Ok(signal) => signal,
        // "all three are then 0.0"
        Err(refusal) => Signal {
            refusal: Some(refusal),
            strongest: 0.0,
            weakest: 0.0,
            mean: 0.0,
        },
    }
}

/// "Refusals: the file's, 21, 32"
fn summary(file: &[u8], position: u64) -> Result<Signal, Refusal> {
    let (header, read) = read_at(file, position)?;
    // 32: "signal summary with F = 0", place 0
    if header.flows.is_empty() {
        return refuse(32, 0, Section::Given);
    }
    // "each of one division": a sum has at most 32 bits, so that each whole number is exact.
    let values = read.values();
    let largest = *values.iter().max().expect("F is not 0");
    let smallest = *values.iter().min().expect("F is not 0");
    let sum: u64 = values.iter().sum();
    Ok(Signal {
        refusal: None,
        strongest: largest as f64 / 100.0,
        weakest: smallest as f64 / 100.0,
        mean: sum as f64 / (100 * values.len()) as f64,
    })
}
