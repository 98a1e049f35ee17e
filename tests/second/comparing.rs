//! What a comparison of the library with the second implementation needs: lent memory, equal answers,
//! and what is told where two differ.

#![allow(dead_code)]

use crate::inputs::{self, Random};
use crate::lent::Lent;
use std::fmt::Debug;

/// A case's random choices, apart from those of its inputs: margins of lent memory, states, rooms.
pub struct Choices {
    pub random: Random,
}

impl Choices {
    pub fn new(seed: u64, number: u64) -> Choices {
        Choices {
            random: inputs::numbers(seed ^ 1, number),
        }
    }

    pub fn lend<T: Copy + PartialEq>(&mut self, contents: &[T], around: T) -> Lent<T> {
        Lent::new(contents, around, self.random.between(8, 24))
    }
}

/// What differs in a call, and the bytes that it was given.
pub struct Difference {
    pub message: String,
    given: Vec<(&'static str, Vec<u8>)>,
}

impl Difference {
    /// Writes what was given to the current folder and says where.
    pub fn told(&self, seed: u64, number: u64) -> String {
        let mut text = format!("case {number} of seed {seed}: {}", self.message);
        for (part, bytes) in &self.given {
            let name = format!("difference-{seed}-{number}.{part}");
            match std::fs::write(&name, bytes) {
                Ok(()) => text += &format!("\n{part}: {} bytes, in {name}", bytes.len()),
                Err(error) => text += &format!("\n{part} could not be written: {error}"),
            }
        }
        text
    }
}

pub type Outcome = Result<(), Difference>;

/// The library's answer and the second program's must be the same.
pub fn same<T: Debug + PartialEq>(
    call: &str,
    library: T,
    second: T,
    given: &[(&'static str, &[u8])],
) -> Outcome {
    if library == second {
        return Ok(());
    }
    let message = format!("{call}\nthe library {library:?}\nthe second program {second:?}");
    differ(message, given)
}

/// What was lent must hold just this now, and nothing around it may have changed.
pub fn holds(
    call: &str,
    lent: &Lent<u8>,
    second: &[u8],
    given: &[(&'static str, &[u8])],
) -> Outcome {
    assert_eq!(lent.len(), second.len(), "{call}: the whole is compared");
    begins(call, lent, second, given)
}

/// What was lent must begin with this now, and nothing around it may have changed.
pub fn begins(
    call: &str,
    lent: &Lent<u8>,
    second: &[u8],
    given: &[(&'static str, &[u8])],
) -> Outcome {
    let Some(library) = lent.now() else {
        return differ(format!("{call}: bytes around the lent ones changed"), given);
    };
    match (0..second.len()).find(|place| library[*place] != second[*place]) {
        None => Ok(()),
        Some(place) => {
            let (library, second) = (library[place], second[place]);
            let bytes = format!("the library leaves {library} and the second program {second}");
            differ(format!("{call}: at {place} {bytes}"), given)
        }
    }
}

pub fn unchanged(call: &str, is: bool, given: &[(&'static str, &[u8])]) -> Outcome {
    if is {
        return Ok(());
    }
    differ(format!("{call}: what it should only read changed"), given)
}

pub fn differ(message: String, given: &[(&'static str, &[u8])]) -> Outcome {
    let given = given.iter().map(|(part, bytes)| (*part, bytes.to_vec()));
    Err(Difference {
        message,
        given: given.collect(),
    })
}
