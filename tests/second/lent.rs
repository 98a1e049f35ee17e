//! Memory that is lent to a call.

#![allow(dead_code)]

/// A list that a call is given, with cells around it that the call must leave alone.
pub struct Lent<T> {
    cells: Vec<T>,
    before: Vec<T>,
    margin: usize,
}

impl<T: Copy + PartialEq> Lent<T> {
    /// The margin has `margin` cells on each side; an odd one sets bytes off their alignment.
    pub fn new(contents: &[T], around: T, margin: usize) -> Lent<T> {
        let mut cells = vec![around; margin];
        cells.extend(contents);
        cells.extend(vec![around; margin]);
        Lent {
            before: cells.clone(),
            cells,
            margin,
        }
    }

    pub fn len(&self) -> usize {
        self.cells.len() - 2 * self.margin
    }

    pub fn pointer(&self) -> *const T {
        self.cells[self.margin..].as_ptr()
    }

    pub fn pointer_to_write(&mut self) -> *mut T {
        self.cells[self.margin..].as_mut_ptr()
    }

    /// What stands there now, or None if a cell of the margin changed.
    pub fn now(&self) -> Option<&[T]> {
        let end = self.margin + self.len();
        let kept = self.cells[..self.margin] == self.before[..self.margin]
            && self.cells[end..] == self.before[end..];
        kept.then_some(&self.cells[self.margin..end])
    }

    /// Whether every cell is as it was lent.
    pub fn unchanged(&self) -> bool {
        self.cells == self.before
    }
}

/// What stands in a number that a call writes, and on both sides of it, before the call: one that it
/// leaves alone shows, and one beside it that it writes.
const UNSET: u64 = 0xA5C3_96E1_5A3C_691E;

/// A number that a call writes.
pub struct Number {
    cells: [u64; 3],
}

impl Number {
    pub fn unset() -> Number {
        Number::set(UNSET)
    }

    /// One that the call reads first.
    pub fn set(number: u64) -> Number {
        Number {
            cells: [UNSET, number, UNSET],
        }
    }

    pub fn pointer(&mut self) -> *mut u64 {
        self.cells[1..].as_mut_ptr()
    }

    /// The same for a float, which is kept by its bits.
    pub fn float_pointer(&mut self) -> *mut f64 {
        self.pointer().cast()
    }

    /// What the call left.
    pub fn now(&self) -> u64 {
        let [before, number, after] = self.cells;
        assert!(
            [before, after] == [UNSET; 2],
            "the library wrote beside a number that it was lent"
        );
        number
    }
}
