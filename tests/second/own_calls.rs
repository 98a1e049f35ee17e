//! The second implementation's own tests of the header's characters, the test of a view, the insert, the signal
//! summary, a new file and an append, and of the inputs for these calls.

use crate::calls::{self, append_call, build_call, new_call, position};
use crate::counts::{self, Counts};
use crate::inputs::{self, lay_out, Model, Read};
use crate::reading::{insert, signal};
use crate::samples::{e_with, samples, E};
use crate::sff::{file_test, numbers, test_file, test_header};
use crate::views::{answer, characters, View};
use crate::writing::{append, new_file, test_read, NewRead, Written};

const SEED: u64 = 454;

fn sample(name: &str) -> Vec<u8> {
    let all = samples();
    all.into_iter()
        .find(|(known, _)| *known == name)
        .expect("a sample of that name")
        .1
}

// The header's characters, and the test of a view.

#[test]
fn characters_of_a_header() {
    let both = |file: &[u8]| {
        let (refusal, flows) = characters(file, |header| header.flows);
        let (again, key) = characters(file, |header| header.key);
        assert_eq!(refusal, again);
        (numbers(refusal), flows.to_vec(), key.to_vec())
    };
    assert_eq!(both(&E), ((0, 0), b"TACG".to_vec(), b"T".to_vec()));
    assert_eq!(both(&sample("bare")), ((0, 0), vec![], vec![]));
    // a file that is refused behind its header, and headers that are refused
    assert_eq!(both(&E[..41]), ((0, 0), b"TACG".to_vec(), b"T".to_vec()));
    assert_eq!(both(&E[..39]), ((1, 0), vec![], vec![]));
    assert_eq!(both(&e_with(35, b't')), ((6, 35), vec![], vec![]));
    assert_eq!(both(&e_with(19, 8)), ((8, 8), vec![], vec![]));
}

/// E's read: 40 + 16 bytes before its name; its data section from 64 on.
const E_VIEW: View = View {
    parts: [(56, 2), (64, 8), (72, 3), (75, 3), (78, 3)],
    clips: [2, 0, 0, 0],
};

#[test]
fn views_of_e() {
    let contents = test_file(&E).ok().expect("accepted");
    assert_eq!(View::of(&contents.reads[0]), E_VIEW);
    assert_eq!(View::given(&E_VIEW.numbers()), E_VIEW);
    assert_eq!(E_VIEW.test(&E), Ok(()));
    // the part that is changed, its stretch, the answer; the file has 88 bytes
    let cases = [
        (0, (86, 2), (0, 0)),
        (0, (87, 2), (1, 87)),
        (0, (88, 0), (0, 0)),
        (0, (89, 0), (1, 89)),
        (1, (0, 88), (0, 0)),
        (1, (0, 89), (1, 0)),
        (1, (u64::MAX, 1), (1, u64::MAX)),
        (1, (1, u64::MAX), (1, 1)),
        (2, (u64::MAX, u64::MAX), (1, u64::MAX)),
        (3, (86, 3), (1, 86)),
        (4, (u64::MAX - 2, 3), (1, u64::MAX - 2)),
        (4, (85, 3), (0, 0)),
    ];
    for (part, stretch, expected) in cases {
        let mut view = E_VIEW;
        view.parts[part] = stretch;
        assert_eq!(answer(&view.test(&E)), expected, "part {part}, {stretch:?}");
    }
    // "in file order": the first part that does not lie in the file
    let mut view = E_VIEW;
    view.parts[4] = (90, 1);
    view.parts[2] = (100, 1);
    assert_eq!(answer(&view.test(&E)), (1, 100));
}

/// 1 at the start of the bases where the insert is not empty and does not lie within them.
#[test]
fn inserts_of_any_view() {
    // clips, answer; E's read has 3 bases
    let cases = [
        ([0, 3, 0, 3], (0, 0)),
        ([0, 4, 0, 4], (1, 75)),
        ([0, 4, 0, 3], (0, 0)),
        ([0, 4, 0, 0], (0, 0)),
        ([4, 4, 0, 4], (1, 75)),
        ([5, 4, 0, 4], (0, 0)),
        ([u64::MAX, 0, 0, 0], (0, 0)),
        ([u64::MAX; 4], (1, 75)),
        ([0, u64::MAX, u64::MAX, 9], (0, 0)),
    ];
    for (clips, expected) in cases {
        let view = View { clips, ..E_VIEW };
        assert_eq!(answer(&view.test(&E)), expected, "{clips:?}");
    }
    // the qualities come before the insert
    let mut view = E_VIEW;
    view.clips = [0, 4, 0, 4];
    view.parts[4] = (86, 3);
    assert_eq!(answer(&view.test(&E)), (1, 86));
}

/// The part of a forged view, so that each edge is met.
#[test]
fn every_edge_of_a_view_occurs_five_times() {
    let mut random = inputs::Random::new(SEED);
    let mut edges = Counts::new(false, &[]);
    for number in 0..4_000 {
        let file = calls::file(SEED, number);
        let length = file.len() as u128;
        let met: Vec<View> = match test_file(&file) {
            Ok(contents) => contents.reads.iter().map(View::of).collect(),
            Err(_) => vec![],
        };
        for view in &met {
            assert_eq!(view.test(&file), Ok(()));
        }
        let numbers = calls::view(&mut random, &file, &met);
        let view = View::given(&numbers);
        let ends = view
            .parts
            .map(|(at, size)| u128::from(at) + u128::from(size));
        let first = ends.iter().position(|end| *end > length);
        let bases = view.parts[3].1;
        let rights = [view.clips[1], view.clips[3]];
        let insert = view.test(&file)
            == Err(crate::views::Outside {
                part: "insert",
                place: view.parts[3].0,
            });
        let empty = view
            .parts
            .iter()
            .any(|(at, size)| *size == 0 && u128::from(*at) == length + 1);
        for (holds, edge) in [
            (
                first.is_none() && ends.contains(&length),
                "ends with the file",
            ),
            (ends.contains(&(length + 1)), "ends a byte behind it"),
            (ends.contains(&(1 << 64)), "ends at 2^64"),
            (ends.iter().any(|end| *end > 1 << 64), "ends beyond 2^64"),
            (empty, "empty, a byte behind the file's end"),
            (insert, "an insert beyond the bases"),
            (first.is_none() && rights == [bases; 2], "both rights N"),
            (
                insert && rights == [bases.wrapping_add(1); 2],
                "both rights N + 1",
            ),
            (numbers.len() < 14, "fewer numbers"),
            (numbers.len() > 14, "more numbers"),
        ] {
            edges.note(holds, edge);
        }
    }
    println!("{}", edges.line());
    assert!(edges.below(5).is_empty(), "{:?}", edges.below(5));
}

// The insert and the signal summary.

#[test]
fn inserts_by_position() {
    let answer = insert(&E, 0);
    assert_eq!(numbers(answer.refusal), (0, 0));
    assert_eq!(
        (answer.first, answer.last, answer.bases),
        (2, 3, &b"CC"[..])
    );
    let right_clips = sample("right-clips");
    assert_eq!(insert(&right_clips, 3).bases, b"AC");
    assert_eq!(insert(&sample("index-between"), 1).bases, b"AAC");

    // "If first > last the insert is empty.", with first and last as computed.
    let empty_parts = sample("empty-parts");
    let answer = insert(&empty_parts, 1);
    assert_eq!(numbers(answer.refusal), (0, 0));
    assert_eq!((answer.first, answer.last, answer.bases), (3, 2, &b""[..]));
    let answer = insert(&empty_parts, 2);
    assert_eq!((answer.first, answer.last, answer.bases), (1, 0, &b""[..]));
}

#[test]
fn inserts_refused() {
    let cases = [
        (E.to_vec(), 1, (21, 0)),
        (E.to_vec(), u64::MAX, (21, 0)),
        (E.to_vec(), 1 << 32, (21, 0)),
        (sample("bare"), 0, (21, 0)),
        (e_with(49, 4), 0, (9, 48)),
        (e_with(49, 4), 1, (9, 48)),
        (E[..87].to_vec(), 0, (1, 64)),
    ];
    for (file, position, expected) in cases {
        let answer = insert(&file, position);
        assert_eq!(numbers(answer.refusal), expected);
        assert_eq!((answer.first, answer.last, answer.bases), (1, 0, &b""[..]));
    }
}

#[test]
fn signals_by_position() {
    // Document 01: "Mean signal 0.75 (run)."
    let answer = signal(&E, 0);
    assert_eq!(numbers(answer.refusal), (0, 0));
    assert_eq!(
        (answer.strongest, answer.weakest, answer.mean),
        (2.0, 0.0, 0.75)
    );
    let answer = signal(&sample("index-last"), 1);
    assert_eq!((answer.strongest, answer.weakest), (655.35, 0.0));
    assert_eq!(answer.mean, 65_835.0 / 400.0);
}

#[test]
fn signals_refused() {
    let no_flows = lay_out(&Model {
        flows: vec![],
        key: vec![],
        reads: vec![no_bases()],
        index: None,
    })
    .bytes;
    let cases = [
        (no_flows.clone(), 0, (32, 0)),
        (no_flows.clone(), 1, (21, 0)),
        (no_flows[..47].to_vec(), 0, (1, 32)),
        (sample("bare"), 0, (21, 0)),
        (E.to_vec(), 1, (21, 0)),
        (e_with(81, 1), 0, (7, 81)),
    ];
    for (file, position, expected) in cases {
        let answer = signal(&file, position);
        assert_eq!(numbers(answer.refusal), expected);
        let floats = [answer.strongest, answer.weakest, answer.mean];
        assert_eq!(floats.map(f64::to_bits), [0; 3]);
    }
}

fn no_bases() -> Read {
    Read {
        name: vec![],
        clips: [0; 4],
        values: vec![],
        increments: vec![],
        bases: vec![],
        qualities: vec![],
    }
}

// New files.

/// What a new file answers in a buffer of this length, which must stay as it was if it is refused.
fn new_in(length: usize, flows: &[u8], key: &[u8]) -> (u64, u64, u64) {
    let mut buffer = vec![170; length];
    let written = new_file(&mut buffer, flows, key);
    let (number, place) = numbers(written.refusal);
    let written_to = if number == 0 {
        written.length as usize
    } else {
        0
    };
    assert!(buffer[written_to..].iter().all(|byte| *byte == 170));
    (number, place, written.length)
}

#[test]
fn new_files() {
    let mut buffer = [170; 41];
    let written = new_file(&mut buffer, b"TACG", b"T");
    assert_eq!(
        written,
        Written {
            refusal: None,
            length: 40
        }
    );
    assert_eq!(buffer[..20], E[..20]);
    assert_eq!(buffer[20..24], [0; 4]);
    assert_eq!(buffer[24..40], E[24..40]);
    assert_eq!(buffer[40], 170);

    assert_eq!(new_in(32, b"", b""), (0, 0, 32));
    assert_eq!(new_in(31, b"", b""), (26, 0, 0));
    assert_eq!(new_in(0, b"", b""), (26, 0, 0));
    assert_eq!(new_in(39, b"TACG", b"T"), (26, 0, 0));
    assert_eq!(new_in(39, b"TACG", b"t"), (6, 0, 0));
    assert_eq!(new_in(99, b"TANG", b""), (6, 0, 0));
    let long = vec![b'A'; 65_498];
    assert_eq!(
        new_in(65_528, &long[..65_000], &long[..497]),
        (0, 0, 65_528)
    );
    assert_eq!(new_in(65_527, &long[..65_497], b""), (26, 0, 0));
    assert_eq!(new_in(70_000, &long[..65_000], &long[..498]), (5, 0, 0));
    assert_eq!(new_in(0, &long[..65_497], b"n"), (5, 0, 0));
}

// Appends.

/// E's read.
fn e_read() -> NewRead<'static> {
    NewRead {
        name: b"r1",
        clips: [2, 0, 0, 0],
        values: &[100, 0, 200, 0],
        increments: &[1, 2, 0],
        bases: b"TCC",
        qualities: &[40, 40, 40],
    }
}

/// What an append answers; the buffer must stay as it was if it is refused.
fn append_to(buffer: &[u8], file_length: u64, read: &NewRead) -> (u64, u64, u64) {
    let mut after = buffer.to_vec();
    let written = append(&mut after, file_length, read);
    let (number, place) = numbers(written.refusal);
    if number != 0 {
        assert_eq!(after, buffer);
    }
    (number, place, written.length)
}

#[test]
fn appending_to_a_new_file_gives_e() {
    let mut buffer = [170; 100];
    new_file(&mut buffer, b"TACG", b"T");
    let written = append(&mut buffer, 40, &e_read());
    assert_eq!(
        written,
        Written {
            refusal: None,
            length: 88
        }
    );
    assert_eq!(buffer[..88], E);
    assert_eq!(buffer[88..], [170; 12]);
    assert_eq!(append_to(&buffer[..88], 88, &e_read()), (26, 0, 88));
    assert_eq!(append_to(&buffer[..88], 89, &e_read()), (14, 0, 89));
    assert_eq!(append_to(&buffer[..88], 80, &e_read()), (1, 64, 80));
    assert_eq!(append_to(&buffer, 90, &e_read()), (12, 88, 90));
}

#[test]
fn each_refusal_of_an_append() {
    let mut buffer = E.to_vec();
    buffer.extend([0; 48]);
    let long = vec![b'x'; 65_513];
    let e = e_read();
    let cases = [
        (
            NewRead {
                values: &[0; 3],
                ..e
            },
            30,
        ),
        (
            NewRead {
                values: &[0; 5],
                ..e
            },
            30,
        ),
        (
            NewRead {
                increments: &[1, 2],
                ..e
            },
            30,
        ),
        (
            NewRead {
                bases: b"TCCC",
                ..e
            },
            30,
        ),
        (
            NewRead {
                qualities: &[],
                ..e
            },
            30,
        ),
        (
            NewRead {
                qualities: &[0; 4],
                increments: &[1, 2, 0, 0],
                ..e
            },
            30,
        ),
        (NewRead { name: &long, ..e }, 5),
        (
            NewRead {
                name: &long[1..],
                ..e
            },
            26,
        ),
        (NewRead { name: b"r 1", ..e }, 6),
        (
            NewRead {
                name: &[33, 126],
                ..e
            },
            0,
        ),
        (NewRead { name: &[127], ..e }, 6),
        (
            NewRead {
                clips: [0, 0, 0, 4],
                ..e
            },
            9,
        ),
        (NewRead { clips: [3; 4], ..e }, 0),
        (
            NewRead {
                increments: &[0, 1, 2],
                ..e
            },
            10,
        ),
        (
            NewRead {
                increments: &[1, 2, 2],
                ..e
            },
            10,
        ),
        (NewRead { bases: b"TCG", ..e }, 11),
        (NewRead { bases: b"NNN", ..e }, 0),
        (
            NewRead {
                name: b"123456789",
                ..e
            },
            26,
        ),
        (NewRead { name: b"", ..e }, 0),
        (
            NewRead {
                increments: &[],
                bases: b"",
                qualities: &[],
                clips: [0; 4],
                ..e
            },
            0,
        ),
    ];
    for (number, (read, expected)) in cases.iter().enumerate() {
        let (answered, place, length) = append_to(&buffer, 88, read);
        assert_eq!((answered, place), (*expected, 0), "case {number}");
        assert_eq!(length == 88, *expected != 0, "case {number}");
    }
}

/// "14 ..; the file's own refusal; 25 ..; 31 ..; 30 ..; 5 ..; 6; 9; 10; 11; 26": a read with all of it
/// wrong, mended from the front.
#[test]
fn the_order_of_an_append() {
    let mut file = E.to_vec();
    inputs::set(&mut file, 8, 8, 88);
    inputs::set(&mut file, 16, 4, 8);
    file.extend([0; 8]);
    let mut refused = file.clone();
    refused[31] = 0;
    let spaces = vec![b' '; 65_513];
    let name = vec![b'!'; 65_512];
    let mut read = NewRead {
        name: &spaces,
        clips: [0, 4, 0, 0],
        values: &[],
        increments: &[0, 0, 0],
        bases: b"ttt",
        qualities: &[1, 2, 3],
    };
    assert_eq!(append_to(&refused, 97, &read), (14, 0, 97));
    assert_eq!(append_to(&refused, 96, &read), (6, 31, 96));
    assert_eq!(append_to(&file, 96, &read), (25, 0, 96));
    assert_eq!(append_to(&E, 88, &read), (30, 0, 88));
    read.values = &[0; 4];
    assert_eq!(append_to(&E, 88, &read), (5, 0, 88));
    read.name = &spaces[1..];
    assert_eq!(append_to(&E, 88, &read), (6, 0, 88));
    read.name = &name;
    assert_eq!(append_to(&E, 88, &read), (9, 0, 88));
    read.clips = [0; 4];
    assert_eq!(append_to(&E, 88, &read), (10, 0, 88));
    read.increments = &[1, 0, 0];
    assert_eq!(append_to(&E, 88, &read), (11, 0, 88));
    read.bases = b"TTT";
    assert_eq!(append_to(&E, 88, &read), (26, 0, 88));
}

/// "25 ..; 31 reads already 4,294,967,295; 30 ..", judged on the header alone: the file itself is one of
/// `many_reads`.
#[test]
fn the_most_reads() {
    // reads, index length, values, number
    let cases: [(u64, u64, &[u16], u64); 6] = [
        (4_294_967_295, 8, &[], 25),
        (4_294_967_295, 0, &[], 31),
        (4_294_967_295, 0, &[0; 4], 31),
        (4_294_967_294, 0, &[], 30),
        (4_294_967_294, 0, &[0; 4], 26),
        (0, 0, &[0; 4], 26),
    ];
    for (reads, index_length, values, number) in cases {
        let mut file = E.to_vec();
        inputs::set(&mut file, 8, 8, index_length * 11);
        inputs::set(&mut file, 16, 4, index_length);
        inputs::set(&mut file, 20, 4, reads);
        let header = test_header(&file).expect("a header");
        let read = NewRead {
            name: b"",
            clips: [0; 4],
            values,
            increments: &[],
            bases: b"",
            qualities: &[],
        };
        let refusal = test_read(&header, 88, 88, &read).err();
        assert_eq!(numbers(refusal), (number, 0), "{reads} reads");
        // 16 bytes of the header section and 8 of the data section
        let made = test_read(&header, 112, 88, &read).map(|(count, new)| (count, new.len()));
        if number == 26 {
            assert_eq!(made, Ok((reads + 1, 24)));
        }
    }
}

/// "a new file and an append for each read leave these bytes in any buffer that holds them"
#[test]
fn built_files_are_the_layout() {
    for number in 0..1_000 {
        let mut call = build_call(SEED, number);
        let rest = call.buffer[call.file.len()..].to_vec();
        let mut written = new_file(&mut call.buffer, &call.model.flows, &call.model.key);
        for read in &call.model.reads {
            assert_eq!(written.refusal, None);
            written = append(&mut call.buffer, written.length, &read.lent());
        }
        let length = call.file.len();
        assert_eq!(
            written,
            Written {
                refusal: None,
                length: length as u64
            }
        );
        assert_eq!(call.buffer[..length], call.file);
        assert_eq!(call.buffer[length..], rest);
    }
}

#[test]
fn an_appended_file_is_accepted_with_one_read_more() {
    for number in 0..2_000 {
        let mut call = append_call(SEED, number);
        let written = append(&mut call.buffer, call.file_length, &call.read.lent());
        if written.refusal.is_none() {
            let file = &call.buffer[..written.length as usize];
            let contents = test_file(file).ok().expect("accepted");
            let last = contents.reads.last().expect("a read");
            assert_eq!(last.start as u64, call.file_length);
            assert_eq!(
                (last.name, last.bases),
                (&call.read.name[..], &call.read.bases[..])
            );
            assert_eq!(last.clips, call.read.clips.map(u64::from));
            let values: Vec<u64> = call
                .read
                .values
                .iter()
                .map(|value| u64::from(*value))
                .collect();
            assert_eq!(last.values(), values);
        }
    }
}

// The inputs.

#[test]
fn every_answer_of_a_writer_occurs_ten_times() {
    let mut of_new = Counts::new(false, &counts::OF_NEW);
    let mut of_append = Counts::new(true, &counts::OF_APPEND);
    for number in 0..20_000 {
        let mut call = new_call(SEED, number);
        let written = new_file(&mut call.buffer, &call.flows, &call.key);
        of_new.add(&counts::name(written.refusal));
        let mut call = append_call(SEED, number);
        let written = append(&mut call.buffer, call.file_length, &call.read.lent());
        of_append.add(&counts::name(written.refusal));
    }
    println!("new: {}\nappend: {}", of_new.line(), of_append.line());
    assert!(of_new.below(10).is_empty(), "{:?}", of_new.below(10));
    assert!(of_append.below(10).is_empty(), "{:?}", of_append.below(10));
}

#[test]
fn every_edge_of_a_writer_occurs_five_times() {
    let mut edges = Counts::new(
        false,
        &[
            "new: room just enough",
            "new: one byte too few",
            "new: the longest header",
            "new: one character too many",
            "append: room just enough",
            "append: one byte too few",
            "append: the longest name",
            "append: one name byte too many",
            "append: no name",
            "append: no bases",
            "append: no flows",
            "append: as many flows as there can be",
            "append: the count's second byte",
        ],
    );
    let mut note = |is: bool, edge: &str| {
        if is {
            edges.add(edge);
        }
    };
    for number in 0..20_000 {
        let mut call = new_call(SEED, number);
        let characters = call.flows.len() + call.key.len();
        let (enough, length) = (call.enough(), call.buffer.len());
        let answer = numbers(new_file(&mut call.buffer, &call.flows, &call.key).refusal).0;
        note(answer == 0 && length == enough, "new: room just enough");
        note(
            answer == 26 && length + 1 == enough,
            "new: one byte too few",
        );
        note(
            answer == 0 && characters == 65_497,
            "new: the longest header",
        );
        note(
            answer == 5 && characters == 65_498,
            "new: one character too many",
        );

        let mut call = append_call(SEED, number);
        let read = call.read.lent();
        let (enough, length) = (call.enough(), call.buffer.len() as u64);
        let refusal = append(&mut call.buffer, call.file_length, &read).refusal;
        let answer = numbers(refusal).0;
        note(answer == 0 && length == enough, "append: room just enough");
        note(
            answer == 26 && length + 1 == enough,
            "append: one byte too few",
        );
        note(
            answer == 0 && read.name.len() == 65_512,
            "append: the longest name",
        );
        let own = counts::name(refusal) == "5 given";
        note(
            own && read.name.len() == 65_513,
            "append: one name byte too many",
        );
        if answer == 0 {
            note(read.name.is_empty(), "append: no name");
            note(read.bases.is_empty(), "append: no bases");
            note(read.values.is_empty(), "append: no flows");
            note(
                read.values.len() == 65_497,
                "append: as many flows as there can be",
            );
            note(
                call.buffer[20..24] == [0, 0, 1, 0],
                "append: the count's second byte",
            );
        }
    }
    println!("{}", edges.line());
    assert!(edges.below(5).is_empty(), "{:?}", edges.below(5));
}

#[test]
fn positions_lie_on_both_sides_of_the_count() {
    let mut random = inputs::Random::new(SEED);
    let (mut below, mut at, mut above) = (0, 0, 0);
    for _ in 0..100 {
        match position(&mut random, &sample("many")) {
            0..=59 => below += 1,
            60 => at += 1,
            _ => above += 1,
        }
    }
    assert!(below > 0 && at > 0 && above > 0);
    assert_eq!(file_test(&sample("many")), (0, 0));
}
