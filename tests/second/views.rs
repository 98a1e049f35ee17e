//! What is handed out of a file's header and of a read: the flow and key characters, and the test of a view.
//! Written a second time from document 01's words and from docs/DECISIONS.md, "A view that no step gave".

#![allow(dead_code)]

use crate::sff::{first_last, test_header, up8, Header, Read, Refusal};

/// "F flow characters, K key characters", none of a header that is refused.
pub fn characters<'a>(
    file: &'a [u8],
    part: fn(&Header<'a>) -> &'a [u8],
) -> (Option<Refusal>, &'a [u8]) {
    match test_header(file) {
        Ok(header) => (None, part(&header)),
        Err(refusal) => (Some(refusal), &[]),
    }
}

/// The parts of a read in file order.
pub const PARTS: [&str; 5] = ["name", "values", "increments", "bases", "qualities"];
const BASES: usize = 3;

/// A view as numbers: the place and the size of each part, then the clips in file order.
pub const NUMBERS: usize = 14;

#[derive(Clone, Copy, Debug, PartialEq, Eq)]
pub struct View {
    pub parts: [(u64, u64); 5],
    pub clips: [u64; 4],
}

/// The first part of a view that cannot be handed out, and where it starts: the answer is 1 then.
#[derive(Clone, Copy, Debug, PartialEq, Eq)]
pub struct Outside {
    pub part: &'static str,
    pub place: u64,
}

impl View {
    /// The view of a read that a step found: "its length (2), name length L (2), bases N (4), .. name", padded to
    /// "up8(16+L). Then a data section: F flow values of 2 bytes, N flow index bytes, N bases, N qualities".
    pub fn of(read: &Read) -> View {
        let name = (read.start as u64 + 16, read.name.len() as u64);
        let data = read.start as u64 + up8(16 + name.1);
        let (values, bases) = (2 * read.values().len() as u64, read.bases.len() as u64);
        let increments = data + values;
        View {
            parts: [
                name,
                (data, values),
                (increments, bases),
                (increments + bases, bases),
                (increments + 2 * bases, bases),
            ],
            clips: read.clips,
        }
    }

    /// The view that a list of numbers gives; what it does not reach is 0.
    pub fn given(numbers: &[u64]) -> View {
        let number = |at: usize| numbers.get(at).copied().unwrap_or(0);
        View {
            parts: [0, 2, 4, 6, 8].map(|at| (number(at), number(at + 1))),
            clips: [10, 11, 12, 13].map(number),
        }
    }

    pub fn numbers(&self) -> Vec<u64> {
        let parts = self.parts.iter().flat_map(|(at, size)| [*at, *size]);
        parts.chain(self.clips).collect()
    }

    /// 1, "section runs past the end", place "its start": the first part that does not lie in the file whole, then an
    /// insert that is not empty and does not lie within the bases.
    pub fn test(&self, file: &[u8]) -> Result<(), Outside> {
        for (part, (at, size)) in PARTS.iter().zip(self.parts) {
            // no sum of two numbers leaves 128 bits
            if u128::from(at) + u128::from(size) > file.len() as u128 {
                return Err(Outside { part, place: at });
            }
        }
        let (place, bases) = self.parts[BASES];
        let (first, last) = first_last(bases, self.clips);
        if first <= last && last > bases {
            return Err(Outside {
                part: "insert",
                place,
            });
        }
        Ok(())
    }
}

/// Number and place of a view's test, both 0 where nothing is refused.
pub fn answer(tested: &Result<(), Outside>) -> (u64, u64) {
    match tested {
        Ok(()) => (0, 0),
        Err(outside) => (1, outside.place),
    }
}
