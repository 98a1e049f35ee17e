//! The library's C exports, those of the crate `harness`, and what a call of each leaves.

#![allow(dead_code)]

use crate::lent::{Lent, Number};
use crate::made::Made;

#[rustfmt::skip]
extern "C" {
    fn h_test(file: *const u8, n: usize, place: *mut u64) -> u64;
    fn h_flow_characters(
        file: *const u8, n: usize, out: *mut u8, room: usize, place: *mut u64, made: *mut u64,
    ) -> u64;
    fn h_key(file: *const u8, n: usize, out: *mut u8, room: usize, place: *mut u64, made: *mut u64) -> u64;
    fn h_view_test(file: *const u8, n: usize, view: *const u64, numbers: usize, place: *mut u64) -> u64;
    fn h_fresh(file: *const u8, n: usize, at: *mut u64, passed: *mut u64, index_passed: *mut u64) -> u64;
    fn h_step(
        file: *const u8, n: usize, at: *mut u64, passed: *mut u64, index_passed: *mut u64, place: *mut u64,
        read_start: *mut u64, name_length: *mut u64, bases: *mut u64, clips: *mut u64,
    ) -> u64;
    fn h_insert(
        file: *const u8, n: usize, position: u64, out: *mut u8, room: usize,
        place: *mut u64, first: *mut u64, last: *mut u64, made: *mut u64,
    ) -> u64;
    fn h_signal(
        file: *const u8, n: usize, position: u64,
        strongest: *mut f64, weakest: *mut f64, mean: *mut f64, place: *mut u64,
    ) -> u64;
    fn h_new(
        buffer: *mut u8, n: usize, flows: *const u8, f: usize, key: *const u8, k: usize,
        place: *mut u64, length_after: *mut u64,
    ) -> u64;
    fn h_append(
        buffer: *mut u8, n: usize, file_length: u64, name: *const u8, l: usize, clips: u64,
        values: *const u16, f: usize, increments: *const u8, a: usize, bases: *const u8, b: usize,
        qualities: *const u8, c: usize, place: *mut u64, length_after: *mut u64,
    ) -> u64;
    fn h_correct(
        buffer: *mut u8, n: usize, file_length: u64, record: *const u8, r: usize,
        place: *mut u64, length_after: *mut u64,
    ) -> u64;
    fn h_correct_list(
        buffer: *mut u8, n: usize, file_length: u64, list: *const u8, r: usize,
        count: *mut u64, place: *mut u64, length_after: *mut u64,
    ) -> u64;
}

pub fn test(file: &Lent<u8>) -> (u64, u64) {
    let mut place = Number::unset();
    let number = unsafe { h_test(file.pointer(), file.len(), place.pointer()) };
    (number, place.now())
}

/// What a call leaves that copies characters of the header to the front of a buffer.
#[derive(Debug, PartialEq)]
pub struct Copied {
    pub number: u64,
    pub place: u64,
    pub made: u64,
}

type Copying = unsafe extern "C" fn(*const u8, usize, *mut u8, usize, *mut u64, *mut u64) -> u64;

fn copied(export: Copying, file: &Lent<u8>, out: &mut Lent<u8>) -> Copied {
    let [mut place, mut made] = [0; 2].map(|_| Number::unset());
    let number = unsafe {
        export(
            file.pointer(),
            file.len(),
            out.pointer_to_write(),
            out.len(),
            place.pointer(),
            made.pointer(),
        )
    };
    Copied {
        number,
        place: place.now(),
        made: made.now(),
    }
}

pub fn flow_characters(file: &Lent<u8>, out: &mut Lent<u8>) -> Copied {
    copied(h_flow_characters, file, out)
}

pub fn key(file: &Lent<u8>, out: &mut Lent<u8>) -> Copied {
    copied(h_key, file, out)
}

/// The test of a view that is given as numbers (`views`).
pub fn view_test(file: &Lent<u8>, view: &Lent<u64>) -> (u64, u64) {
    let mut place = Number::unset();
    let number = unsafe {
        h_view_test(
            file.pointer(),
            file.len(),
            view.pointer(),
            view.len(),
            place.pointer(),
        )
    };
    (number, place.now())
}

/// A reader's state as numbers: byte place, reads passed, 1 if the index is passed.
pub type State = [u64; 3];

pub fn fresh(file: &Lent<u8>) -> (u64, State) {
    let [mut at, mut passed, mut index_passed] = [0; 3].map(|_| Number::unset());
    let answer = unsafe {
        h_fresh(
            file.pointer(),
            file.len(),
            at.pointer(),
            passed.pointer(),
            index_passed.pointer(),
        )
    };
    (
        answer,
        [at, passed, index_passed].map(|number| number.now()),
    )
}

#[derive(Debug, PartialEq)]
pub struct Stepped {
    pub number: u64,
    pub place: u64,
    pub state: State,
    pub read_start: u64,
    pub name_length: u64,
    pub bases: u64,
    pub clips: u64,
}

pub fn step(file: &Lent<u8>, state: State) -> Stepped {
    let [mut at, mut passed, mut index_passed] = state.map(Number::set);
    let [mut place, mut read_start, mut name_length, mut bases, mut clips] =
        [0; 5].map(|_| Number::unset());
    let number = unsafe {
        h_step(
            file.pointer(),
            file.len(),
            at.pointer(),
            passed.pointer(),
            index_passed.pointer(),
            place.pointer(),
            read_start.pointer(),
            name_length.pointer(),
            bases.pointer(),
            clips.pointer(),
        )
    };
    Stepped {
        number,
        place: place.now(),
        state: [at, passed, index_passed].map(|number| number.now()),
        read_start: read_start.now(),
        name_length: name_length.now(),
        bases: bases.now(),
        clips: clips.now(),
    }
}

#[derive(Debug, PartialEq)]
pub struct Inserted {
    pub number: u64,
    pub place: u64,
    pub first: u64,
    pub last: u64,
    pub made: u64,
}

pub fn insert(file: &Lent<u8>, position: u64, out: &mut Lent<u8>) -> Inserted {
    let [mut place, mut first, mut last, mut made] = [0; 4].map(|_| Number::unset());
    let number = unsafe {
        h_insert(
            file.pointer(),
            file.len(),
            position,
            out.pointer_to_write(),
            out.len(),
            place.pointer(),
            first.pointer(),
            last.pointer(),
            made.pointer(),
        )
    };
    Inserted {
        number,
        place: place.now(),
        first: first.now(),
        last: last.now(),
        made: made.now(),
    }
}

/// Floats are compared by their bits.
#[derive(Debug, PartialEq)]
pub struct Summed {
    pub number: u64,
    pub place: u64,
    pub strongest: u64,
    pub weakest: u64,
    pub mean: u64,
}

pub fn signal(file: &Lent<u8>, position: u64) -> Summed {
    let [mut strongest, mut weakest, mut mean, mut place] = [0; 4].map(|_| Number::unset());
    let number = unsafe {
        h_signal(
            file.pointer(),
            file.len(),
            position,
            strongest.float_pointer(),
            weakest.float_pointer(),
            mean.float_pointer(),
            place.pointer(),
        )
    };
    Summed {
        number,
        place: place.now(),
        strongest: strongest.now(),
        weakest: weakest.now(),
        mean: mean.now(),
    }
}

pub fn new(buffer: &mut Lent<u8>, flows: &Lent<u8>, key: &Lent<u8>) -> Made {
    Made::by(|place, length| unsafe {
        h_new(
            buffer.pointer_to_write(),
            buffer.len(),
            flows.pointer(),
            flows.len(),
            key.pointer(),
            key.len(),
            place,
            length,
        )
    })
}

/// A read as it is lent: `clips` holds quality left, right, adapter left, right from the highest 16
/// bits down.
pub struct LentRead {
    pub name: Lent<u8>,
    pub clips: u64,
    pub values: Lent<u16>,
    pub increments: Lent<u8>,
    pub bases: Lent<u8>,
    pub qualities: Lent<u8>,
}

impl LentRead {
    pub fn unchanged(&self) -> bool {
        let lists = [&self.name, &self.increments, &self.bases, &self.qualities];
        self.values.unchanged() && lists.iter().all(|list| list.unchanged())
    }
}

pub fn append(buffer: &mut Lent<u8>, file_length: u64, read: &LentRead) -> Made {
    append_at(buffer.pointer_to_write(), buffer.len(), file_length, read)
}

/// An append to what stands in the `room` bytes from `buffer` on.
pub fn append_at(buffer: *mut u8, room: usize, file_length: u64, read: &LentRead) -> Made {
    Made::by(|place, length| unsafe {
        h_append(
            buffer,
            room,
            file_length,
            read.name.pointer(),
            read.name.len(),
            read.clips,
            read.values.pointer(),
            read.values.len(),
            read.increments.pointer(),
            read.increments.len(),
            read.bases.pointer(),
            read.bases.len(),
            read.qualities.pointer(),
            read.qualities.len(),
            place,
            length,
        )
    })
}

/// An append of a read without a name, a value or a clip, whose increments, bases and qualities are
/// the `count` bytes from `lists` on.
pub fn append_many(
    buffer: &mut Lent<u8>,
    file_length: u64,
    lists: *const u8,
    count: usize,
) -> Made {
    let (to, room, none) = (buffer.pointer_to_write(), buffer.len(), [0_u16]);
    Made::by(|place, length| unsafe {
        h_append(
            to,
            room,
            file_length,
            lists,
            0,
            0,
            none.as_ptr(),
            0,
            lists,
            count,
            lists,
            count,
            lists,
            count,
            place,
            length,
        )
    })
}

pub fn correct(buffer: &mut Lent<u8>, file_length: u64, record: &Lent<u8>) -> Made {
    Made::by_correction(h_correct, buffer, file_length, record)
}

/// What a list leaves: how many records were carried out, and what the last one tried answered.
#[derive(Debug, PartialEq)]
pub struct MadeByList {
    pub count: u64,
    pub last: Made,
}

pub fn correct_list(buffer: &mut Lent<u8>, file_length: u64, list: &Lent<u8>) -> MadeByList {
    let mut count = Number::unset();
    let last = Made::by(|place, length| unsafe {
        h_correct_list(
            buffer.pointer_to_write(),
            buffer.len(),
            file_length,
            list.pointer(),
            list.len(),
            count.pointer(),
            place,
            length,
        )
    });
    MadeByList {
        count: count.now(),
        last,
    }
}
