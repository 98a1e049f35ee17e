//! Compares the library with the second implementation, through the C exports of `harness`.
//!
//!     second-library SEED COUNT [FIRST]     cases FIRST (0) and on
//!
//! A case is a file for the calls that read, a new file, an append, a file built read by read, a
//! correction and a list of them (`library_corrections`).
//! The comparison ends with 1 at the first difference, and with 3 if an answer never occurred (a run
//! needs some thousands of cases for that).

mod calls;
mod comparing;
mod correcting;
mod corrections;
mod counts;
mod exports;
mod inputs;
mod lent;
mod library_corrections;
mod made;
mod reading;
mod running;
mod sff;
mod shared_calls;
mod views;
mod writing;

use comparing::{begins, differ, holds, same, unchanged, Choices, Difference, Outcome};
use counts::Counts;
use exports::{Copied, Inserted, LentRead, State, Stepped, Summed};
use lent::Lent;
use library_corrections::Lists;
use made::Made;
use sff::{numbers, Header, Reader};
use shared_calls::{Corrected, Tests};
use views::View;
use writing::NewRead;

fn main() {
    running::run::<Comparison>("second-library", fixed);
}

fn fixed() -> Outcome {
    file_e()?;
    many_bases()?;
    library_corrections::file_e()
}

/// Document 01: "insert 2 to 3, CC. Mean signal 0.75 (run)."
fn file_e() -> Outcome {
    let file = Lent::new(include_bytes!("../../samples/e.sff"), 1, 8);
    let summed = Summed {
        number: 0,
        place: 0,
        strongest: 2.0_f64.to_bits(),
        weakest: 0.0_f64.to_bits(),
        mean: 0.75_f64.to_bits(),
    };
    same("signal of E", exports::signal(&file, 0), summed, &[])?;
    let mut out = Lent::new(b"--", 9, 8);
    let inserted = Inserted {
        number: 0,
        place: 0,
        first: 2,
        last: 3,
        made: 2,
    };
    same(
        "insert of E",
        exports::insert(&file, 0, &mut out),
        inserted,
        &[],
    )?;
    holds("insert of E", &out, b"CC", &[])
}

extern "C" {
    fn mmap(at: *mut u8, size: usize, access: i32, kind: i32, file: i32, offset: i64) -> *const u8;
}

/// 30 where "N above 4,294,967,295", and no sooner: as many bases as N can say are looked at, and the
/// first increment, 0, gives 10. The lists are zeros that no page of memory holds before they are read.
fn many_bases() -> Outcome {
    const MOST: usize = 4_294_967_295;
    let (readable, private_anonymous_unreserved) = (1, 0x2 | 0x20 | 0x4000);
    let start = std::ptr::null_mut();
    let lists = unsafe {
        mmap(
            start,
            MOST + 1,
            readable,
            private_anonymous_unreserved,
            -1,
            0,
        )
    };
    if lists as isize == -1 {
        return differ("no address space for 4,294,967,296 bytes".to_string(), &[]);
    }
    let mut file = vec![0; 32];
    let length = writing::new_file(&mut file, b"", b"").length;
    for (count, number) in [(MOST, 10), (MOST + 1, 30)] {
        let zeros = unsafe { std::slice::from_raw_parts(lists, count) };
        let read = NewRead {
            name: b"",
            clips: [0; 4],
            values: &[],
            increments: zeros,
            bases: zeros,
            qualities: zeros,
        };
        let call = format!("append of {count} bases");
        let second = Made::of(writing::append(&mut file.clone(), length, &read));
        same(&call, second.number, number, &[])?;
        let mut buffer = Lent::new(&file, 9, 8);
        let library = exports::append_many(&mut buffer, length, lists, count);
        same(&call, library, second, &[])?;
        holds(&call, &buffer, &file, &[])?;
    }
    Ok(())
}

fn state(reader: Reader) -> State {
    [
        reader.place,
        reader.passed_reads,
        u64::from(reader.passed_index),
    ]
}

/// Four clips in one number, the first highest.
fn packed(clips: [u64; 4]) -> u64 {
    clips.iter().fold(0, |number, clip| number << 16 | clip)
}

fn lend_read(choices: &mut Choices, read: &NewRead) -> LentRead {
    LentRead {
        name: choices.lend(read.name, b'n'),
        clips: packed(read.clips.map(u64::from)),
        values: choices.lend(read.values, 1),
        increments: choices.lend(read.increments, 0),
        bases: choices.lend(read.bases, b'N'),
        qualities: choices.lend(read.qualities, 1),
    }
}

/// A buffer whose length lies around that of these bytes, before and after they are copied to its front. Where they do
/// not fit, nothing is copied.
fn around(choices: &mut Choices, bytes: &[u8]) -> (Vec<u8>, Vec<u8>) {
    let length = bytes.len();
    let room = choices
        .random
        .pick(&[0, length, length, length + 1, length + 40]);
    let room = if choices.random.one_in(4) {
        length.saturating_sub(1)
    } else {
        room
    };
    let before = choices.random.bytes(room);
    let mut after = before.clone();
    if length <= room {
        after[..length].copy_from_slice(bytes);
    }
    (before, after)
}

/// The name of an answer with bytes, which may be none.
fn name_with(refusal: Option<sff::Refusal>, bytes: &[u8]) -> String {
    if refusal.is_none() && bytes.is_empty() {
        return "0 empty".to_string();
    }
    counts::name(refusal)
}

/// One step; the next state and the read's view if it gives a read.
fn step(
    file: &[u8],
    lent: &Lent<u8>,
    reader: Reader,
    answers: &mut Counts,
) -> Result<Option<(Reader, View)>, Difference> {
    let step = reader.step(file);
    let (number, place) = numbers(step.refusal);
    let read = step.read;
    let second = Stepped {
        number,
        place,
        state: state(step.state),
        read_start: read.map_or(0, |read| read.start as u64),
        name_length: read.map_or(0, |read| read.name.len() as u64),
        bases: read.map_or(0, |read| read.bases.len() as u64),
        clips: read.map_or(0, |read| packed(read.clips)),
    };
    let call = format!("step from {:?}", state(reader));
    let library = exports::step(lent, state(reader));
    same(&call, library, second, &[("file", file)])?;
    answers.add(&counts::name(step.refusal));
    Ok(read.map(|read| (step.state, View::of(&read))))
}

/// How often each answer of each call occurred.
struct Comparison {
    tests: Tests,
    flow_characters: Counts,
    key: Counts,
    fresh: Counts,
    step: Counts,
    forged_step: Counts,
    view: Counts,
    insert: Counts,
    signal: Counts,
    new: Counts,
    append: Counts,
    corrected: Corrected,
    lists: Lists,
}

impl running::Comparison for Comparison {
    fn new() -> Comparison {
        Comparison {
            tests: Tests::new(),
            flow_characters: Counts::new(false, &counts::OF_CHARACTERS),
            key: Counts::new(false, &counts::OF_CHARACTERS),
            fresh: Counts::new(false, &["0 at the header's end", "0 at the front"]),
            step: Counts::new(true, &["33"]),
            // "1" without a section: the state's place is beyond the file.
            forged_step: Counts::new(true, &["1", "33"]),
            view: Counts::new(false, &counts::OF_VIEW),
            insert: Counts::new(true, &["0 empty", "21"]),
            signal: Counts::new(true, &["21", "32"]),
            new: Counts::new(false, &counts::OF_NEW),
            append: Counts::new(true, &counts::OF_APPEND),
            corrected: Corrected::new(),
            lists: Lists::new(),
        }
    }

    fn answers(&mut self) -> Vec<(&'static str, &mut Counts)> {
        vec![
            ("test", &mut self.tests.answers),
            ("flow characters", &mut self.flow_characters),
            ("key", &mut self.key),
            ("fresh", &mut self.fresh),
            ("step", &mut self.step),
            ("step, forged state", &mut self.forged_step),
            ("view", &mut self.view),
            ("insert", &mut self.insert),
            ("signal", &mut self.signal),
            ("new", &mut self.new),
            ("append", &mut self.append),
            ("correct", &mut self.corrected.answers),
            ("list", &mut self.lists.answers),
        ]
    }

    fn others(&mut self) -> Vec<(&'static str, &mut Counts)> {
        vec![
            ("test, sound files", &mut self.tests.shapes),
            ("correct, carried out", &mut self.corrected.carried_out),
            ("list, carried out", &mut self.lists.carried_out),
        ]
    }

    fn case(&mut self, seed: u64, number: u64) -> Outcome {
        let mut choices = Choices::new(seed, number);
        let file = calls::file(seed, number);
        let lent = choices.lend(&file, 1);
        let tested = sff::test_file(&file);
        self.tests.case(exports::test, &file, &lent, &tested)?;
        self.characters(&file, &lent, &mut choices)?;
        let met = self.steps(&file, &lent, &mut choices)?;
        self.views(&file, &lent, &met, &mut choices)?;
        for _ in 0..3 {
            let position = calls::position(&mut choices.random, &file);
            self.insert(&file, &lent, position, &mut choices)?;
            self.signal(&file, &lent, position)?;
        }
        unchanged("a call that reads", lent.unchanged(), &[("file", &file)])?;

        let call = calls::new_call(seed, number);
        let (mut second, mut buffer) = (call.buffer.clone(), choices.lend(&call.buffer, 9));
        self.new_file(
            &mut second,
            &mut buffer,
            &call.flows,
            &call.key,
            &mut choices,
        )?;

        let call = calls::append_call(seed, number);
        let (mut second, mut buffer) = (call.buffer.clone(), choices.lend(&call.buffer, 9));
        let read = call.read.lent();
        self.append(
            &mut second,
            &mut buffer,
            call.file_length,
            &read,
            &mut choices,
        )?;
        self.build(&calls::build_call(seed, number), &mut choices)?;
        let call = corrections::correct_call(seed, number);
        self.corrected.case(exports::correct, &call, &mut choices)?;
        let call = corrections::list_call(seed, number);
        self.lists.case(&call, &mut choices)
    }
}

impl Comparison {
    /// The flow characters and the key.
    fn characters(&mut self, file: &[u8], lent: &Lent<u8>, choices: &mut Choices) -> Outcome {
        type Part = for<'a> fn(&Header<'a>) -> &'a [u8];
        type Export = fn(&Lent<u8>, &mut Lent<u8>) -> Copied;
        let calls: [(&str, Part, Export, &mut Counts); 2] = [
            (
                "flow characters",
                |header| header.flows,
                exports::flow_characters,
                &mut self.flow_characters,
            ),
            ("key", |header| header.key, exports::key, &mut self.key),
        ];
        for (name, part, export, answers) in calls {
            let (refusal, characters) = views::characters(file, part);
            let (before, after) = around(choices, characters);
            let mut out = choices.lend(&before, 9);
            let (number, place) = numbers(refusal);
            let second = Copied {
                number,
                place,
                made: characters.len() as u64,
            };
            let call = format!("{name}, room {}", before.len());
            let given = [("file", file), ("out", &before[..])];
            same(&call, export(lent, &mut out), second, &given)?;
            holds(&call, &out, &after, &given)?;
            answers.add(&name_with(refusal, characters));
        }
        Ok(())
    }

    /// The test of each view that a step gave, and of some forged ones.
    fn views(
        &mut self,
        file: &[u8],
        lent: &Lent<u8>,
        met: &[View],
        choices: &mut Choices,
    ) -> Outcome {
        for view in met {
            let tested = self.view(file, lent, &view.numbers(), choices)?;
            same("a view that a step gave", Ok(()), tested, &[("file", file)])?;
            self.view.add("0");
        }
        for _ in 0..6 {
            let forged = calls::view(&mut choices.random, file, met);
            match self.view(file, lent, &forged, choices)? {
                Ok(()) => self.view.add("0 forged"),
                Err(outside) => self.view.add(&format!("1 {}", outside.part)),
            }
        }
        Ok(())
    }

    fn view(
        &mut self,
        file: &[u8],
        lent: &Lent<u8>,
        view: &[u64],
        choices: &mut Choices,
    ) -> Result<Result<(), views::Outside>, Difference> {
        let tested = View::given(view).test(file);
        let numbers = choices.lend(view, 1);
        let call = format!("view {view:?}");
        let library = exports::view_test(lent, &numbers);
        same(&call, library, views::answer(&tested), &[("file", file)])?;
        unchanged(&call, numbers.unchanged(), &[("file", file)])?;
        Ok(tested)
    }

    /// From a fresh state to the end, and from some forged ones; the views of the reads that are found.
    fn steps(
        &mut self,
        file: &[u8],
        lent: &Lent<u8>,
        choices: &mut Choices,
    ) -> Result<Vec<View>, Difference> {
        let mut reader = Reader::fresh(file);
        same(
            "fresh",
            exports::fresh(lent),
            (0, state(reader)),
            &[("file", file)],
        )?;
        self.fresh.add(match sff::test_header(file) {
            Ok(_) => "0 at the header's end",
            Err(_) => "0 at the front",
        });
        let mut met = vec![reader];
        let mut views = vec![];
        while let Some((next, view)) = step(file, lent, reader, &mut self.step)? {
            reader = next;
            met.push(reader);
            views.push(view);
        }
        for _ in 0..6 {
            let forged = calls::state(&mut choices.random, file, &met);
            let found = step(file, lent, forged, &mut self.forged_step)?;
            views.extend(found.map(|(_, view)| view));
        }
        Ok(views)
    }

    fn insert(
        &mut self,
        file: &[u8],
        lent: &Lent<u8>,
        position: u64,
        choices: &mut Choices,
    ) -> Outcome {
        let insert = reading::insert(file, position);
        let (before, after) = around(choices, insert.bases);
        let mut out = choices.lend(&before, 9);
        let (number, place) = numbers(insert.refusal);
        let second = Inserted {
            number,
            place,
            first: insert.first,
            last: insert.last,
            made: insert.bases.len() as u64,
        };
        let call = format!("insert of {position}, room {}", before.len());
        let given = [("file", file), ("out", &before[..])];
        same(
            &call,
            exports::insert(lent, position, &mut out),
            second,
            &given,
        )?;
        holds(&call, &out, &after, &given)?;
        self.insert.add(&name_with(insert.refusal, insert.bases));
        Ok(())
    }

    fn signal(&mut self, file: &[u8], lent: &Lent<u8>, position: u64) -> Outcome {
        let signal = reading::signal(file, position);
        let (number, place) = numbers(signal.refusal);
        let second = Summed {
            number,
            place,
            strongest: signal.strongest.to_bits(),
            weakest: signal.weakest.to_bits(),
            mean: signal.mean.to_bits(),
        };
        let call = format!("signal of {position}");
        same(
            &call,
            exports::signal(lent, position),
            second,
            &[("file", file)],
        )?;
        self.signal.add(&counts::name(signal.refusal));
        Ok(())
    }

    /// A new file in two buffers that are alike, the second program's and the library's.
    fn new_file(
        &mut self,
        second: &mut [u8],
        buffer: &mut Lent<u8>,
        flows: &[u8],
        key: &[u8],
        choices: &mut Choices,
    ) -> Result<u64, Difference> {
        let before = second.to_vec();
        let given = [("buffer", &before[..]), ("flows", flows), ("key", key)];
        let written = writing::new_file(second, flows, key);
        let (lent_flows, lent_key) = (choices.lend(flows, b'N'), choices.lend(key, b'N'));
        let library = exports::new(buffer, &lent_flows, &lent_key);
        same("new", library, Made::of(written), &given)?;
        holds("new", buffer, second, &given)?;
        let only_read = lent_flows.unchanged() && lent_key.unchanged();
        unchanged("new", only_read, &given)?;
        self.new.add(&counts::name(written.refusal));
        Ok(written.length)
    }

    /// An append in two buffers that are alike, the second program's and the library's.
    fn append(
        &mut self,
        second: &mut [u8],
        buffer: &mut Lent<u8>,
        file_length: u64,
        read: &NewRead,
        choices: &mut Choices,
    ) -> Result<u64, Difference> {
        let before = second.to_vec();
        let values: Vec<u8> = read
            .values
            .iter()
            .flat_map(|value| value.to_be_bytes())
            .collect();
        let given = [
            ("buffer", &before[..]),
            ("name", read.name),
            ("values", &values),
            ("increments", read.increments),
            ("bases", read.bases),
            ("qualities", read.qualities),
        ];
        let call = format!("append, length {file_length}, clips {:?}", read.clips);
        let written = writing::append(second, file_length, read);
        let lent = lend_read(choices, read);
        let library = exports::append(buffer, file_length, &lent);
        same(&call, library, Made::of(written), &given)?;
        holds(&call, buffer, second, &given)?;
        unchanged(&call, lent.unchanged(), &given)?;
        self.append.add(&counts::name(written.refusal));
        Ok(written.length)
    }

    /// "a new file and an append for each read leave these bytes in any buffer that holds them"
    fn build(&mut self, call: &calls::BuildCall, choices: &mut Choices) -> Outcome {
        let model = &call.model;
        let (mut second, mut buffer) = (call.buffer.clone(), choices.lend(&call.buffer, 9));
        let mut length =
            self.new_file(&mut second, &mut buffer, &model.flows, &model.key, choices)?;
        for read in &model.reads {
            length = self.append(&mut second, &mut buffer, length, &read.lent(), choices)?;
        }
        let given = [("buffer", &call.buffer[..]), ("file", &call.file)];
        same("a built file", length, call.file.len() as u64, &given)?;
        begins("a built file", &buffer, &call.file, &given)
    }
}
