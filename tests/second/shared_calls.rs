//! The comparison of the two calls that both the library and its service export: the whole-file test and
//! the single correction.

use crate::comparing::{holds, same, unchanged, Choices, Outcome};
use crate::correcting;
use crate::corrections::{CorrectCall, CLIPS, RENAME};
use crate::counts::{self, Counts};
use crate::lent::Lent;
use crate::made::Made;
use crate::sff::{numbers, Contents, Refusal};

/// How often each answer of the test occurred, and each shape of a sound file.
pub struct Tests {
    pub answers: Counts,
    pub shapes: Counts,
}

impl Tests {
    pub fn new() -> Tests {
        Tests {
            answers: Counts::new(true, &[]),
            shapes: Counts::new(false, &SHAPES),
        }
    }

    pub fn case(
        &mut self,
        export: fn(&Lent<u8>) -> (u64, u64),
        file: &[u8],
        lent: &Lent<u8>,
        tested: &Result<Contents, Refusal>,
    ) -> Outcome {
        let refusal = tested.as_ref().err().copied();
        same("test", export(lent), numbers(refusal), &[("file", file)])?;
        self.answers.add(&counts::name(refusal));
        if let Ok(contents) = tested {
            for (shape, has_it) in SHAPES.iter().zip(shapes(file, contents)) {
                self.shapes.note(has_it, shape);
            }
        }
        Ok(())
    }
}

const SHAPES: [&str; 10] = [
    "index absent",
    "index after the header",
    "index between reads",
    "index at the end",
    "index alone",
    "an empty name",
    "no flows",
    "no bases",
    "no key",
    "no reads",
];

/// Which of them a sound file has.
fn shapes(file: &[u8], contents: &Contents) -> [bool; 10] {
    let (header, reads) = (&contents.header, &contents.reads);
    let at_front = header.index_is_at(header.length);
    let at_end = header.index_offset + header.index_length == file.len() as u64;
    let has_reads = !reads.is_empty();
    [
        !header.has_index(),
        at_front && has_reads,
        header.has_index() && !at_front && !at_end,
        at_end && !at_front,
        at_front && !has_reads,
        reads.iter().any(|read| read.name.is_empty()),
        header.flows.is_empty() && has_reads,
        !header.flows.is_empty() && reads.iter().any(|read| read.bases.is_empty()),
        header.key.is_empty(),
        !has_reads,
    ]
}

/// How often each answer of a correction occurred, and how often each kind was carried out.
pub struct Corrected {
    pub answers: Counts,
    pub carried_out: Counts,
}

pub const KINDS: [&str; 3] = ["clips", "rename", "remove"];

impl Corrected {
    pub fn new() -> Corrected {
        Corrected {
            answers: Counts::new(true, &counts::OF_CORRECTION),
            carried_out: Counts::new(false, &KINDS),
        }
    }

    pub fn case(
        &mut self,
        export: fn(&mut Lent<u8>, u64, &Lent<u8>) -> Made,
        call: &CorrectCall,
        choices: &mut Choices,
    ) -> Outcome {
        let given = [("buffer", &call.buffer[..]), ("record", &call.record)];
        let name = format!("correct, length {}", call.file_length);
        let mut second = call.buffer.clone();
        let written = correcting::correct(&mut second, call.file_length, &call.record);
        let mut buffer = choices.lend(&call.buffer, 9);
        let record = choices.lend(&call.record, 1);
        let library = export(&mut buffer, call.file_length, &record);
        same(&name, library, Made::of(written), &given)?;
        holds(&name, &buffer, &second, &given)?;
        unchanged(&name, record.unchanged(), &given)?;
        self.answers.add(&counts::name(written.refusal));
        if written.refusal.is_none() {
            self.carried_out.add(kind(&call.record));
        }
        Ok(())
    }
}

/// The kind of a record that was carried out.
pub fn kind(record: &[u8]) -> &'static str {
    match record[0] {
        CLIPS => "clips",
        RENAME => "rename",
        _ => "remove",
    }
}
