//! The comparison of lists of corrections: whole answers, the whole buffer, and that the list stays as it
//! is; and document 01's examples of corrections.

use crate::comparing::{holds, same, unchanged, Choices, Outcome};
use crate::correcting::{self, RECORD};
use crate::corrections::{ListCall, Record};
use crate::counts::{self, Counts};
use crate::exports::{self, MadeByList};
use crate::lent::Lent;
use crate::made::Made;
use crate::shared_calls::{kind, KINDS};

const E: &[u8] = include_bytes!("../../samples/e.sff");

/// Document 01: "rename r1 to 8 bytes keeps 88, to 9 gives 96, and 26 in a 95-byte buffer"; "removing r1
/// leaves 40 bytes and 48 zeros".
pub fn file_e() -> Outcome {
    let rename = |name: &[u8]| Record::rename(0, b"r1", name);
    // record, room beside E, number, length
    let cases = [
        (rename(b"12345678"), 0, 0, 88),
        (rename(b"123456789"), 8, 0, 96),
        (rename(b"123456789"), 7, 26, 88),
        (Record::remove(0, b"r1"), 0, 0, 40),
    ];
    for (record, room, number, length) in cases {
        let mut buffer = E.to_vec();
        buffer.resize(E.len() + room, 170);
        let mut lent = Lent::new(&buffer, 9, 8);
        let bytes = Lent::new(&record.bytes(), 9, 8);
        let expected = Made {
            number,
            place: 0,
            length,
        };
        let library = exports::correct(&mut lent, E.len() as u64, &bytes);
        same("correction of E", library, expected, &[])?;
        correcting::correct(&mut buffer, E.len() as u64, &record.bytes());
        holds("correction of E", &lent, &buffer, &[])?;
    }
    Ok(())
}

/// How often each answer of a list occurred, and how often each kind of record was carried out in one.
pub struct Lists {
    pub answers: Counts,
    pub carried_out: Counts,
}

impl Lists {
    pub fn new() -> Lists {
        Lists {
            answers: Counts::new(true, &counts::OF_LIST),
            carried_out: Counts::new(false, &KINDS),
        }
    }

    pub fn case(&mut self, call: &ListCall, choices: &mut Choices) -> Outcome {
        let given = [("buffer", &call.buffer[..]), ("list", &call.list)];
        let name = format!("list, length {}", call.file_length);
        let mut second = call.buffer.clone();
        let run = correcting::correct_list(&mut second, call.file_length, &call.list);
        let expected = MadeByList {
            count: run.count,
            last: Made::of(run.last),
        };
        let (mut buffer, list) = (choices.lend(&call.buffer, 9), choices.lend(&call.list, 1));
        let library = exports::correct_list(&mut buffer, call.file_length, &list);
        same(&name, library, expected, &given)?;
        holds(&name, &buffer, &second, &given)?;
        unchanged(&name, list.unchanged(), &given)?;
        let answer = counts::name_of_list(&call.list, run.count, run.last.refusal);
        self.answers.add(&answer);
        for record in call.list.chunks(RECORD).take(run.count as usize) {
            self.carried_out.add(kind(record));
        }
        Ok(())
    }
}
