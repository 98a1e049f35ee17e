//! The service's C exports: the whole-file test and the single correction.

use crate::lent::{Lent, Number};
use crate::made::Made;

#[rustfmt::skip]
extern "C" {
    fn sffstore_test(file: *const u8, n: usize, place: *mut u64) -> u64;
    fn sffstore_correct(
        buffer: *mut u8, n: usize, file_length: u64, record: *const u8, r: usize,
        place: *mut u64, length_after: *mut u64,
    ) -> u64;
}

pub fn test(file: &Lent<u8>) -> (u64, u64) {
    let mut place = Number::unset();
    let number = unsafe { sffstore_test(file.pointer(), file.len(), place.pointer()) };
    (number, place.now())
}

pub fn correct(buffer: &mut Lent<u8>, file_length: u64, record: &Lent<u8>) -> Made {
    Made::by_correction(sffstore_correct, buffer, file_length, record)
}
