//! The second implementation's own tests of a correction and of a list: cases worked out by hand.

use crate::correcting::{correct, correct_list, ListRun};
use crate::corrections::{Record, CLIPS, REMOVE, RENAME};
use crate::inputs::{lay_out, Index, Model, Read};
use crate::samples::{e_with, E};
use crate::sff::numbers;

// Files, and what a call leaves of them.

/// E's read under another name.
fn read(name: &[u8]) -> Read {
    Read {
        name: name.to_vec(),
        clips: [2, 0, 0, 0],
        values: vec![100, 0, 200, 0],
        increments: vec![1, 2, 0],
        bases: b"TCC".to_vec(),
        qualities: vec![40; 3],
    }
}

fn file_model(names: &[&[u8]]) -> Model {
    Model {
        flows: b"TACG".to_vec(),
        key: b"T".to_vec(),
        reads: names.iter().map(|name| read(name)).collect(),
        index: None,
    }
}

/// E with reads of these names instead of its own: 40 bytes, and 40 and up8(L) for each.
fn file(names: &[&[u8]]) -> Vec<u8> {
    lay_out(&file_model(names)).bytes
}

/// The same with an index of 16 bytes before this read.
fn file_with_index(names: &[&[u8]], after: usize) -> Vec<u8> {
    let mut model = file_model(names);
    model.index = Some(Index {
        after,
        bytes: (1..17).collect(),
    });
    lay_out(&model).bytes
}

/// The file and so many bytes behind it that are none of its own.
fn with_room(mut file: Vec<u8>, room: usize) -> Vec<u8> {
    file.extend(vec![170; room]);
    file
}

/// Number, place and length that a correction answers, and the buffer afterwards.
fn outcome(buffer: &[u8], file_length: usize, record: &[u8]) -> ((u64, u64, u64), Vec<u8>) {
    let mut after = buffer.to_vec();
    let written = correct(&mut after, file_length as u64, record);
    let (number, place) = numbers(written.refusal);
    ((number, place, written.length), after)
}

/// Number, place and length of a refused correction, which must change nothing.
fn refused(buffer: &[u8], file_length: usize, record: &[u8]) -> (u64, u64, u64) {
    let (answer, after) = outcome(buffer, file_length, record);
    assert_ne!(answer.0, 0, "carried out");
    assert_eq!(after, buffer);
    answer
}

/// A correction of a file that fills its buffer: the number, which comes with place 0.
fn number(file: &[u8], record: &Record) -> u64 {
    let ((number, place, _), _) = outcome(file, file.len(), &record.bytes());
    assert_eq!(place, 0);
    number
}

/// The correction of `before` in a buffer of this room must leave `after`, zeros where the file was
/// longer, and else the bytes that were there.
fn leaves(before: &[u8], room: usize, record: &Record, after: &[u8]) {
    let buffer = with_room(before.to_vec(), room);
    let (answer, left) = outcome(&buffer, before.len(), &record.bytes());
    assert_eq!(answer, (0, 0, after.len() as u64));
    let longer = before.len().max(after.len());
    assert_eq!(left[..after.len()], *after);
    assert!(left[after.len()..longer].iter().all(|byte| *byte == 0));
    assert_eq!(left[longer..], buffer[longer..]);
}

// Document 01, "Checked examples".

#[test]
fn renaming_r1() {
    // "rename r1 to 8 bytes keeps 88"
    let rename = Record::rename(0, b"r1", b"12345678");
    let mut expected = e_with(43, 8);
    expected[56..64].copy_from_slice(b"12345678");
    let (answer, after) = outcome(&E, 88, &rename.bytes());
    assert_eq!((answer, after), ((0, 0, 88), expected));

    // "to 9 gives 96, and 26 in a 95-byte buffer"
    let rename = Record::rename(0, b"r1", b"123456789");
    let buffer = with_room(E.to_vec(), 9);
    let mut expected = E[..40].to_vec();
    expected.extend([0, 32, 0, 9, 0, 0, 0, 3, 0, 2, 0, 0, 0, 0, 0, 0]);
    expected.extend(b"123456789\0\0\0\0\0\0\0");
    expected.extend(&E[64..]);
    expected.push(170);
    let (answer, after) = outcome(&buffer, 88, &rename.bytes());
    assert_eq!((answer, after), ((0, 0, 96), expected));
    assert_eq!(refused(&buffer[..95], 88, &rename.bytes()), (26, 0, 88));
    assert_eq!(outcome(&buffer[..96], 88, &rename.bytes()).0, (0, 0, 96));
}

/// "removing r1 leaves 40 bytes and 48 zeros"
#[test]
fn removing_r1() {
    let buffer = with_room(E.to_vec(), 3);
    let (answer, after) = outcome(&buffer, 88, &Record::remove(0, b"r1").bytes());
    let mut expected = E[..40].to_vec();
    expected[23] = 0;
    expected.extend([0; 48]);
    expected.extend([170; 3]);
    assert_eq!((answer, after), ((0, 0, 40), expected));
}

// Each kind.

#[test]
fn new_clips_change_eight_bytes() {
    for clips in [[0; 4], [3; 4], [0, 1, 2, 3], [3, 0, 0, 0]] {
        let mut expected = E.to_vec();
        for (field, clip) in clips.iter().enumerate() {
            expected[49 + 2 * field] = *clip;
        }
        let record = Record::clips(0, b"r1", clips.map(u16::from));
        leaves(&E, 5, &record, &expected);
    }
    for field in 0..4 {
        for clip in [4, 256, 65_535] {
            let mut clips = [3; 4];
            clips[field] = clip;
            assert_eq!(number(&E, &Record::clips(0, b"r1", clips)), 23);
        }
    }
}

#[test]
fn clips_of_65535() {
    for (bases, expected) in [(65_534, 23), (65_535, 0), (65_536, 0)] {
        let mut model = file_model(&[b"r1"]);
        let read = &mut model.reads[0];
        read.increments = vec![0; bases];
        read.increments[0] = 1;
        read.bases = vec![b'T'; bases];
        read.qualities = vec![40; bases];
        let record = Record::clips(0, b"r1", [0, 65_535, 0, 0]);
        assert_eq!(number(&lay_out(&model).bytes, &record), expected);
    }
}

/// Names of 1 to 8, 9 to 16 .. 33 to 40 bytes have padded sizes of 8, 16 .. 40.
#[test]
fn renames_from_any_length_to_any_other() {
    let bytes: Vec<u8> = (33..113).collect();
    for position in 0..3 {
        for old in 1..=40 {
            for new in 1..=40 {
                let (old_name, new_name) = (&bytes[..old], &bytes[80 - new..]);
                let mut names: [&[u8]; 3] = [b"a", b"bb", b"the-third-of-them"];
                names[position] = old_name;
                let before = file(&names);
                names[position] = new_name;
                let after = file(&names);
                let grown = (new + 7) / 8 * 8;
                let shrunk = (old + 7) / 8 * 8;
                assert_eq!(after.len() + shrunk, before.len() + grown);
                let record = Record::rename(position, old_name, new_name);
                leaves(&before, 40, &record, &after);
            }
        }
    }
}

/// "26 can come from a rename alone" (docs/DECISIONS.md), and comes where the new file does not fit.
#[test]
fn room_for_a_rename() {
    let before = file(&[b"r1", b"other"]);
    for (new, needed) in [(8, 0), (9, 8), (16, 8), (17, 16), (40, 32)] {
        let record = Record::rename(0, b"r1", &vec![b'n'; new]);
        for room in 0..40 {
            let buffer = with_room(before.clone(), room);
            let (answer, _) = outcome(&buffer, before.len(), &record.bytes());
            let expected = if room < needed { 26 } else { 0 };
            assert_eq!(answer.0, expected, "{new} bytes, room {room}");
        }
    }
}

#[test]
fn removals() {
    let names: [&[u8]; 4] = [b"r1", b"", b"a-name-of-17-byte", b"r4"];
    for position in [0, 2, 3] {
        let mut kept = names.to_vec();
        kept.remove(position);
        let record = Record::remove(position, names[position]);
        leaves(&file(&names), 9, &record, &file(&kept));
    }
}

/// The file ends in a quality here, so that its last byte is not 0 before it is freed.
#[test]
fn every_freed_byte_becomes_0() {
    let mut model = file_model(&[b"r1", b"a-name-of-17-byte"]);
    for read in &mut model.reads {
        read.increments = vec![1, 0, 0, 0, 0, 0, 0, 0];
        read.bases = vec![b'T'; 8];
        read.qualities = vec![255; 8];
    }
    let before = lay_out(&model).bytes;
    assert_eq!(before.last(), Some(&255));
    let old_name = model.reads[1].name.clone();
    model.reads[1].name = b"r2".to_vec();
    let record = Record::rename(1, &old_name, b"r2");
    leaves(&before, 3, &record, &lay_out(&model).bytes);
    model.reads.pop();
    let record = Record::remove(1, &old_name);
    leaves(&before, 3, &record, &lay_out(&model).bytes);
}

/// "Removal lowers the count at 20", over its bytes.
#[test]
fn removals_lower_the_count() {
    let counts = [
        (256, [0, 0, 0, 255]),
        (257, [0, 0, 1, 0]),
        (65_536, [0, 0, 255, 255]),
    ];
    for (count, field) in counts {
        let mut names: Vec<&[u8]> = vec![b""; count];
        names[count - 1] = b"last";
        let buffer = file(&names);
        let record = Record::remove(count - 1, b"last");
        let (answer, after) = outcome(&buffer, buffer.len(), &record.bytes());
        assert_eq!(answer, (0, 0, buffer.len() as u64 - 48));
        assert_eq!(after[20..24], field);
    }
}

// Names.

#[test]
fn renaming_to_its_own_name() {
    let one = file(&[b"r1", b"r2"]);
    leaves(&one, 3, &Record::rename(0, b"r1", b"r1"), &one);
    // "unless a second read bears it" (docs/DECISIONS.md), before it or behind it
    let two = file(&[b"r1", b"r2", b"r1"]);
    assert_eq!(number(&two, &Record::rename(0, b"r1", b"r1")), 24);
    assert_eq!(number(&two, &Record::rename(2, b"r1", b"r1")), 24);
    assert_eq!(number(&two, &Record::rename(1, b"r2", b"r1")), 24);
    assert_eq!(number(&two, &Record::rename(0, b"r1", b"r3")), 0);
}

#[test]
fn names_with_their_lengths() {
    let both = file(&[b"r1", b"r10"]);
    for kind in [
        Record::clips(0, b"r10", [0; 4]),
        Record::clips(1, b"r1", [0; 4]),
        Record::remove(0, b"r"),
        Record::remove(0, b"r2"),
        Record::remove(0, b"s1"),
        Record::rename(1, b"r1", b"r2"),
        Record::rename(0, b"R1", b"r2"),
    ] {
        assert_eq!(number(&both, &kind), 22);
    }
    assert_eq!(number(&both, &Record::rename(0, b"r1", b"r10")), 24);
    for name in [&b"r"[..], b"r11", b"r100", b"r2", b"R10"] {
        let record = Record::rename(0, b"r1", name);
        leaves(&both, 0, &record, &file(&[name, b"r10"]));
    }
}

/// "A read with an empty name or one over 40 bytes can't be corrected." (docs/DECISIONS.md) Others in its file
/// can.
#[test]
fn reads_that_no_record_can_name() {
    let name = [b'n'; 41];
    let before = file(&[b"", &name, b"r1", &name[..40]]);
    let any = Record::clips(0, b"r1", [0; 4]);
    assert_eq!(number(&before, &any), 22);
    for length in [1, 39, 40] {
        assert_eq!(number(&before, &Record::remove(0, &name[..length])), 22);
        assert_eq!(number(&before, &Record::remove(1, &name[..length])), 22);
    }
    // A length of 0 or 41 is no record.
    assert_eq!(number(&before, &Record::remove(0, b"")), 20);
    let mut long = Record::remove(1, &name[..40]).bytes();
    long[1] = 41;
    assert_eq!(refused(&before, before.len(), &long).0, 20);

    let after = file(&[b"", &name, b"r2", &name[..40]]);
    leaves(&before, 1, &Record::rename(2, b"r1", b"r2"), &after);
    let after = file(&[b"", &name, b"r1"]);
    leaves(&before, 1, &Record::remove(3, &name[..40]), &after);
    assert_eq!(number(&before, &Record::rename(2, b"r1", &name[..40])), 24);
}

// An index.

#[test]
fn an_index_lets_clips_pass_alone() {
    let names: [&[u8]; 2] = [b"r1", b"r2"];
    for before_read in 0..3 {
        let before = file_with_index(&names, before_read);
        assert_eq!(before.len(), 40 + 48 + 48 + 16);
        let second = if before_read < 2 { 104 } else { 88 };
        let mut after = before.clone();
        after[second + 8..second + 16].copy_from_slice(&[0, 1, 0, 3, 0, 0, 0, 2]);
        let clips = Record::clips(1, b"r2", [1, 3, 0, 2]);
        leaves(&before, 7, &clips, &after);
        for record in [
            Record::rename(1, b"r2", b"r3"),
            Record::rename(1, b"r2", b"r2"),
            Record::remove(1, b"r2"),
        ] {
            assert_eq!(number(&before, &record), 25);
        }
        assert_eq!(number(&before, &Record::clips(1, b"r2", [0, 0, 4, 0])), 23);
    }
    // no reads, and the index alone
    let before = file_with_index(&[], 0);
    assert_eq!(number(&before, &Record::remove(0, b"r1")), 21);
}

// The record.

/// One record of each kind, with names of 2 and 3 bytes, for a file that has r0 and r1.
fn one_of_each_kind() -> [Record; 3] {
    [
        Record::clips(1, b"r1", [1, 2, 0, 3]),
        Record::rename(1, b"r1", b"new"),
        Record::remove(1, b"r1"),
    ]
}

/// What a record answers that has one byte changed, each of its bytes and to each value.
#[test]
fn each_byte_of_the_record() {
    let before = file(&[b"r0", b"r1"]);
    for record in one_of_each_kind() {
        assert_eq!(number(&before, &record), 0);
        for place in 0..96 {
            for value in 0..=255 {
                let mut bytes = record.bytes();
                bytes[place] = value;
                let ((number, _, _), _) = outcome(&before, before.len(), &bytes);
                let expected = with_one_byte(&record, place, value);
                assert_eq!(number, expected, "kind {}: {value} at {place}", record.kind);
            }
        }
    }
}

/// The number for a record of `one_of_each_kind` that has this value at this place.
fn with_one_byte(record: &Record, place: usize, value: u8) -> u64 {
    let is_name_byte = (33..=126).contains(&value);
    let is_rename = record.kind == RENAME;
    let or_20 = |is_right: bool, number: u64| if is_right { number } else { 20 };
    match place {
        _ if value == record.bytes()[place] => 0,
        // Another kind lacks what it uses or has what it does not; but a removal of kind 1 sets clips
        // to 0.
        0 => or_20(record.kind == REMOVE && value == CLIPS, 0),
        // A name of another length ends in a 0 or before the old end.
        1..=3 => 20,
        // r1 stands at 1: another name is at 0, and none from 2 on.
        7 if value == 0 => 22,
        4..=7 => 21,
        // the low and the high byte of a clip; N is 3
        8..=15 if record.kind == CLIPS => match place % 2 {
            0 => 23,
            _ if value > 3 => 23,
            _ => 0,
        },
        8..=15 => 20,
        16..=17 => or_20(is_name_byte, 22),
        56..=58 if is_rename => or_20(is_name_byte, 0),
        _ => 20,
    }
}

#[test]
fn records_of_other_lengths() {
    let before = file(&[b"r0", b"r1"]);
    for record in one_of_each_kind() {
        for length in [0, 1, 16, 56, 95, 97, 192] {
            let mut bytes = record.bytes();
            bytes.resize(length, 0);
            let answer = refused(&before, before.len(), &bytes);
            assert_eq!(answer, (20, 0, before.len() as u64));
        }
        let twice = [record.bytes(), record.bytes()].concat();
        assert_eq!(refused(&before, before.len(), &twice).0, 20);
    }
}

/// "Names fill 1 to 40 bytes of 33 to 126, zeros after."
#[test]
fn names_of_a_record() {
    let name: Vec<u8> = (60..110).collect();
    for old in 1..=40 {
        let before = file(&[&name[..old]]);
        let mut bytes = Record::clips(0, &name[..old], [0; 4]).bytes();
        assert_eq!(outcome(&before, before.len(), &bytes).0 .0, 0);
        for length in 0..=255 {
            bytes[1] = length;
            let expected = if usize::from(length) == old { 0 } else { 20 };
            assert_eq!(outcome(&before, before.len(), &bytes).0 .0, expected);
        }
    }
    for new in 1..=40 {
        let mut bytes = Record::rename(0, b"r1", &name[..new]).bytes();
        let buffer = with_room(E.to_vec(), 40);
        for length in 0..=255 {
            bytes[2] = length;
            let expected = if usize::from(length) == new { 0 } else { 20 };
            assert_eq!(outcome(&buffer, 88, &bytes).0 .0, expected);
        }
    }
    for (first, last) in [(33, 126), (126, 33)] {
        leaves(
            &file(&[&[first, last]]),
            0,
            &Record::rename(0, &[first, last], &[last, first]),
            &file(&[&[last, first]]),
        );
    }
}

// The numbers and their order.

#[test]
fn each_refusal_of_a_correction() {
    let e = E.to_vec();
    let clips = Record::clips(0, b"r1", [0; 4]).bytes();
    assert_eq!(refused(&e, 89, &clips), (14, 0, 89));
    assert_eq!(refused(&[], 1, &clips), (14, 0, 1));
    assert_eq!(refused(&e, usize::MAX, &clips), (14, 0, u64::MAX));
    assert_eq!(refused(&e, 88, &clips[..95]), (20, 0, 88));
    // The file's refusals keep their places.
    assert_eq!(refused(&e_with(49, 4), 88, &clips), (9, 48, 88));
    assert_eq!(refused(&e_with(81, 1), 88, &clips), (7, 81, 88));
    assert_eq!(refused(&e, 87, &clips), (1, 64, 87));
    assert_eq!(refused(&e, 0, &clips), (1, 0, 0));
    assert_eq!(refused(&with_room(e, 1), 89, &clips), (12, 88, 89));
    for position in [1, 2, 256, 65_536, 1 << 24, 4_294_967_295] {
        assert_eq!(number(&E, &Record::remove(position, b"r1")), 21);
    }
    assert_eq!(number(&file(&[]), &Record::remove(0, b"r1")), 21);
}

/// "14; 20 ..; the file's refusal; 21 ..; 22 ..; 25 ..; 23 ..; 24 ..; 26": a call with all of it wrong,
/// mended from the front. 23 is of clip corrections alone, 25, 24 and 26 are of the others; so 23 has
/// a row of its own, and no call has it beside one of those three.
#[test]
fn the_order_of_a_correction() {
    let long = [b'n'; 40];
    let names: [&[u8]; 2] = [b"r1", &long];
    let indexed = file_with_index(&names, 2);
    let length = indexed.len();
    let mut damaged = indexed.clone();
    damaged[31] = b'N';
    // Its position, its old name and its new name are wrong.
    let mut record = Record::rename(2, b"r2", &long);
    let mut malformed = record.bytes();
    malformed[3] = 1;

    assert_eq!(refused(&damaged, length + 1, &malformed).0, 14);
    assert_eq!(refused(&damaged, length, &malformed).0, 20);
    let expected = (6, 31, length as u64);
    assert_eq!(refused(&damaged, length, &record.bytes()), expected);
    assert_eq!(number(&indexed, &record), 21);
    record.position = 0;
    assert_eq!(number(&indexed, &record), 22);
    record.old_name = b"r1".to_vec();
    assert_eq!(number(&indexed, &record), 25);
    let before = file(&names);
    assert_eq!(number(&before, &record), 24);
    record.new_name[39] = b'm';
    assert_eq!(number(&before, &record), 26);
    record.new_name.truncate(8);
    assert_eq!(number(&before, &record), 0);

    let mut record = Record::clips(2, b"r2", [4; 4]);
    assert_eq!(refused(&damaged, length, &record.bytes()).0, 6);
    assert_eq!(number(&indexed, &record), 21);
    record.position = 0;
    assert_eq!(number(&indexed, &record), 22);
    record.old_name = b"r1".to_vec();
    assert_eq!(number(&indexed, &record), 23);
    record.clips = [3; 4];
    assert_eq!(number(&indexed, &record), 0);
}

/// Two refusals at once that do not stand side by side in the order, or only for one kind.
#[test]
fn the_earlier_refusal_answers() {
    let long = [b'n'; 40];
    let both = file(&[b"r1", &long]);
    assert_eq!(number(&both, &Record::rename(0, b"r2", &long)), 22);
    assert_eq!(number(&both, &Record::rename(0, b"r2", &[b'm'; 40])), 22);
    assert_eq!(number(&both, &Record::rename(2, b"r1", &long)), 21);
    assert_eq!(number(&both, &Record::clips(2, b"r1", [9; 4])), 21);
    let indexed = file_with_index(&[b"r1"], 0);
    assert_eq!(number(&indexed, &Record::rename(0, b"r1", &long)), 25);
    assert_eq!(number(&indexed, &Record::remove(0, b"r10")), 22);
    assert_eq!(number(&indexed, &Record::remove(1, b"r1")), 21);
    let malformed = &Record::clips(1, b"r1", [4; 4]).bytes()[..95];
    assert_eq!(refused(&E, 89, malformed).0, 14);
    assert_eq!(refused(&E, 87, malformed).0, 20);
}

// Lists.

fn list(records: &[Record]) -> Vec<u8> {
    records.iter().flat_map(Record::bytes).collect()
}

/// Count, number, place and length.
type ListAnswer = (u64, u64, u64, u64);

fn list_answer(run: ListRun) -> ListAnswer {
    let (number, place) = numbers(run.last.refusal);
    (run.count, number, place, run.last.length)
}

/// What a list answers, and the buffer afterwards.
fn list_outcome(buffer: &[u8], file_length: usize, list: &[u8]) -> (ListAnswer, Vec<u8>) {
    let mut after = buffer.to_vec();
    let run = correct_list(&mut after, file_length as u64, list);
    (list_answer(run), after)
}

/// The list's count and number on a file with room behind it, and the file that is left.
fn run_on(before: &[u8], records: &[Record]) -> (u64, u64, Vec<u8>) {
    let buffer = with_room(before.to_vec(), 100);
    let ((count, number, place, length), mut after) =
        list_outcome(&buffer, before.len(), &list(records));
    assert_eq!(place, 0);
    after.truncate(length as usize);
    (count, number, after)
}

/// "An empty list is carried out with count 0, the file untested and the length as given."
#[test]
fn an_empty_list() {
    let damaged = e_with(0, 0);
    for length in [0, 5, 88, 89, usize::MAX] {
        let answer = (0, 0, 0, length as u64);
        assert_eq!(list_outcome(&E, length, &[]), (answer, E.to_vec()));
        assert_eq!(list_outcome(&damaged, length, &[]).0, answer);
        assert_eq!(list_outcome(&[], length, &[]).0, answer);
    }
}

/// "A list's length is a multiple of 96, else 20 before all else, with nothing done."
#[test]
fn a_list_of_another_length() {
    let right = list(&[
        Record::clips(0, b"r1", [1; 4]),
        Record::rename(0, b"r1", b"r2"),
    ]);
    let damaged = e_with(0, 0);
    for list_length in [1, 95, 97, 191] {
        for length in [0, 88, 89, usize::MAX] {
            let answer = (0, 20, 0, length as u64);
            let part = &right[..list_length];
            assert_eq!(list_outcome(&E, length, part), (answer, E.to_vec()));
            assert_eq!(list_outcome(&damaged, length, part).0, answer);
        }
    }
    assert_eq!(list_outcome(&E, 88, &right[..96]).0, (1, 0, 0, 88));
    assert_eq!(list_outcome(&E, 88, &right).0, (2, 0, 0, 88));
}

/// "each position meaning the file at that moment"
#[test]
fn positions_after_a_removal() {
    let before = file(&[b"a", b"b", b"c", b"d"]);
    let first_three = [
        Record::remove(0, b"a"),
        Record::remove(0, b"b"),
        Record::rename(1, b"d", b"e"),
    ];
    let expected = (3, 0, file(&[b"c", b"e"]));
    assert_eq!(run_on(&before, &first_three), expected);
    // from the last on, no position changes
    let falling = [Record::remove(3, b"d"), Record::remove(1, b"b")];
    assert_eq!(run_on(&before, &falling), (2, 0, file(&[b"a", b"c"])));
    // positions of the file at the list's start
    let stale = [Record::remove(1, b"b"), Record::remove(2, b"c")];
    assert_eq!(run_on(&before, &stale), (1, 22, file(&[b"a", b"c", b"d"])));
    let stale = [Record::remove(1, b"b"), Record::remove(3, b"d")];
    assert_eq!(run_on(&before, &stale), (1, 21, file(&[b"a", b"c", b"d"])));
    // all of them
    let all: Vec<Record> = [b"a", b"b", b"c", b"d"]
        .iter()
        .map(|name| Record::remove(0, &name[..]))
        .collect();
    assert_eq!(run_on(&before, &all), (4, 0, file(&[])));
}

/// "each on the buffer and length that the one before left"
#[test]
fn names_and_room_at_that_moment() {
    let before = file(&[b"a", b"b"]);
    let exchange = [
        Record::rename(0, b"a", b"x"),
        Record::rename(1, b"b", b"a"),
        Record::rename(0, b"x", b"b"),
    ];
    assert_eq!(run_on(&before, &exchange), (3, 0, file(&[b"b", b"a"])));
    assert_eq!(run_on(&before, &[Record::rename(0, b"a", b"b")]).1, 24);
    let freed = [Record::remove(1, b"b"), Record::rename(0, b"a", b"b")];
    assert_eq!(run_on(&before, &freed), (2, 0, file(&[b"b"])));
    let taken = [Record::rename(0, b"a", b"x"), Record::rename(1, b"b", b"x")];
    assert_eq!(run_on(&before, &taken), (1, 24, file(&[b"x", b"b"])));
    let old = [
        Record::rename(0, b"a", b"x"),
        Record::clips(0, b"a", [0; 4]),
    ];
    assert_eq!(run_on(&before, &old), (1, 22, file(&[b"x", b"b"])));

    // Without room a rename needs what a removal freed; the rest of that is zero.
    let long = [b'n'; 40];
    let rename = Record::rename(0, b"a", &long);
    let answer = (0, 26, 0, 136);
    let alone = list(&[rename.clone()]);
    assert_eq!(list_outcome(&before, 136, &alone), (answer, before.clone()));
    let removed_before = list(&[Record::remove(1, b"b"), rename]);
    let mut expected = file(&[&long]);
    expected.resize(136, 0);
    let outcome = list_outcome(&before, 136, &removed_before);
    assert_eq!(outcome, ((2, 0, 0, 120), expected));
}

/// "The first refusal ends it; earlier ones stand. The answer has their count and the number, place
/// and length of the last record tried."
#[test]
fn a_refusal_in_a_list() {
    let before = file(&[b"a", b"b"]);
    let buffer = with_room(before.clone(), 3);
    let wrong = Record::clips(0, b"a", [4; 4]);
    let right = Record::clips(0, b"b", [3; 4]);
    let records = list(&[Record::remove(0, b"a"), wrong, right.clone(), right.clone()]);
    let mut expected = file(&[b"b"]);
    expected.extend([0; 48]);
    expected.extend([170; 3]);
    // the name was looked at before the clips
    let (answer, after) = list_outcome(&buffer, 136, &records);
    assert_eq!((answer, after), ((1, 22, 0, 88), expected));

    // the first
    let records = list(&[Record::remove(2, b"a"), right.clone()]);
    assert_eq!(list_outcome(&buffer, 136, &records).0, (0, 21, 0, 136));
    // a malformed one, the last
    let mut records = list(&[Record::remove(0, b"a"), right.clone(), right]);
    records[2 * 96] = 0;
    assert_eq!(list_outcome(&buffer, 136, &records).0, (2, 20, 0, 88));
    // a length above the buffer (14) and the file's own refusals come at the first record
    assert_eq!(list_outcome(&buffer, 140, &records).0, (0, 14, 0, 140));
    assert_eq!(list_outcome(&buffer, 137, &records).0, (0, 12, 136, 137));
    records[0] = 0;
    assert_eq!(list_outcome(&buffer, 137, &records).0, (0, 20, 0, 137));
}

#[test]
fn a_list_that_grows_and_shrinks() {
    let long = [b'n'; 40];
    let before = file(&[b"a", b"b"]);
    let buffer = with_room(before.clone(), 48);
    let records = [
        Record::rename(0, b"a", &long),
        Record::clips(1, b"b", [1, 0, 0, 0]),
        Record::rename(0, &long, b"a"),
    ];
    let mut model = file_model(&[b"a", b"b"]);
    model.reads[1].clips = [1, 0, 0, 0];
    let mut expected = lay_out(&model).bytes;
    expected.extend([0; 32]);
    expected.extend([170; 16]);
    let outcome = list_outcome(&buffer, before.len(), &list(&records));
    assert_eq!(outcome, ((3, 0, 0, 136), expected));
}

#[test]
fn clips_corrected_in_a_list_with_an_index() {
    let before = file_with_index(&[b"a", b"b", b"c"], 1);
    let mut records = vec![
        Record::clips(0, b"a", [1; 4]),
        Record::clips(2, b"c", [2; 4]),
        Record::clips(2, b"c", [3; 4]),
        Record::clips(1, b"b", [0; 4]),
    ];
    let mut expected = before.clone();
    expected[48..56].copy_from_slice(&[0, 1, 0, 1, 0, 1, 0, 1]);
    expected[112..120].copy_from_slice(&[0; 8]);
    expected[160..168].copy_from_slice(&[0, 3, 0, 3, 0, 3, 0, 3]);
    assert_eq!(run_on(&before, &records), (4, 0, expected.clone()));
    records.insert(4, Record::remove(0, b"a"));
    assert_eq!(run_on(&before, &records), (4, 25, expected));
}
