//! What a call that writes or corrects answers.

use crate::lent::{Lent, Number};
use crate::sff::numbers;
use crate::writing::Written;

#[derive(Debug, PartialEq)]
pub struct Made {
    pub number: u64,
    pub place: u64,
    pub length: u64,
}

/// A correction as C exports it: buffer, file's length, record, and where place and length go.
pub type CorrectCall =
    unsafe extern "C" fn(*mut u8, usize, u64, *const u8, usize, *mut u64, *mut u64) -> u64;

impl Made {
    /// What a writer or a corrector of the second program left, as the library says it.
    pub fn of(written: Written) -> Made {
        let (number, place) = numbers(written.refusal);
        Made {
            number,
            place,
            length: written.length,
        }
    }

    /// What a correction leaves, by the harness's export or the service's.
    pub fn by_correction(
        call: CorrectCall,
        buffer: &mut Lent<u8>,
        file_length: u64,
        record: &Lent<u8>,
    ) -> Made {
        Made::by(|place, length| unsafe {
            call(
                buffer.pointer_to_write(),
                buffer.len(),
                file_length,
                record.pointer(),
                record.len(),
                place,
                length,
            )
        })
    }

    /// What a call leaves that is given where place and length go.
    pub fn by(call: impl FnOnce(*mut u64, *mut u64) -> u64) -> Made {
        let [mut place, mut length] = [0; 2].map(|_| Number::unset());
        let number = call(place.pointer(), length.pointer());
        Made {
            number,
            place: place.now(),
            length: length.now(),
        }
    }
}
