//! The library's C exports of the filters, and what a call of each answers.

use crate::lent::{Lent, Number};

#[rustfmt::skip]
extern "C" {
    fn h_undo(
        block: *const u8, n: usize, first: *mut u8, a: usize, second: *mut u8, b: usize, made: *mut u64,
    ) -> u64;
    fn h_undo_layer(
        block: *const u8, n: usize, first: *mut u8, a: usize, second: *mut u8, b: usize, made: *mut u64,
    ) -> u64;
    fn h_encode(
        format: u64, level: u64, follow: *const u8, f: usize, data: *const u8, n: usize,
        out: *mut u8, room: usize, made: *mut u64,
    ) -> u64;
    fn h_scf(
        precision: u64, undo: u64, data: *const u8, n: usize, out: *mut u8, room: usize, made: *mut u64,
    ) -> u64;
}

/// Number, and bytes made.
pub type Answer = (u64, u64);

/// Both calls that undo take a block and two buffers.
type Undo = unsafe extern "C" fn(*const u8, usize, *mut u8, usize, *mut u8, usize, *mut u64) -> u64;

pub fn undo(block: &Lent<u8>, first: &mut Lent<u8>, second: &mut Lent<u8>) -> Answer {
    undo_by(h_undo, block, first, second)
}

pub fn undo_layer(block: &Lent<u8>, first: &mut Lent<u8>, second: &mut Lent<u8>) -> Answer {
    undo_by(h_undo_layer, block, first, second)
}

fn undo_by(call: Undo, block: &Lent<u8>, first: &mut Lent<u8>, second: &mut Lent<u8>) -> Answer {
    let mut made = Number::unset();
    let number = unsafe {
        call(
            block.pointer(),
            block.len(),
            first.pointer_to_write(),
            first.len(),
            second.pointer_to_write(),
            second.len(),
            made.pointer(),
        )
    };
    (number, made.now())
}

pub fn encode(
    format: u64,
    level: u64,
    follow: &Lent<u8>,
    data: &Lent<u8>,
    out: &mut Lent<u8>,
) -> Answer {
    let mut made = Number::unset();
    let number = unsafe {
        h_encode(
            format,
            level,
            follow.pointer(),
            follow.len(),
            data.pointer(),
            data.len(),
            out.pointer_to_write(),
            out.len(),
            made.pointer(),
        )
    };
    (number, made.now())
}

/// `undo` is 0 to encode; any other number undoes.
pub fn scf(precision: u64, undo: u64, data: &Lent<u8>, out: &mut Lent<u8>) -> Answer {
    let mut made = Number::unset();
    let number = unsafe {
        h_scf(
            precision,
            undo,
            data.pointer(),
            data.len(),
            out.pointer_to_write(),
            out.len(),
            made.pointer(),
        )
    };
    (number, made.now())
}
