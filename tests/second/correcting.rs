//! A correction and a list of them, written a second time from document 01 alone. A file is taken
//! apart, its reads are changed, and the whole is written afresh: nothing is edited in place. What
//! stands in quotes is that document's wording.

#![allow(dead_code)]

use crate::sff::{big_endian, is_name_byte, test_file, Contents, Read, Refusal};
use crate::writing::{header, refuse_input, sections, NewRead, Written};

/// "A list is records of 96 bytes, no header"
pub const RECORD: usize = 96;

/// What a record asks for.
struct Correction<'a> {
    position: u64,
    old_name: &'a [u8],
    change: Change<'a>,
}

/// "1 clips, 2 rename, 3 remove"
enum Change<'a> {
    Clips([u64; 4]),
    Rename(&'a [u8]),
    Remove,
}

/// The correction, or None: "record malformed or not 96 bytes".
fn correction(record: &[u8]) -> Option<Correction<'_>> {
    if record.len() != RECORD {
        return None;
    }
    // "kind (0: ..), old name length (1), new name length (2), zero (3), position from 0 (4 to 7),
    // four new clips (8 to 15, file order), old name (16 to 55), new name (56 to 95)"
    let [kind, old_length, new_length, zero] = [record[0], record[1], record[2], record[3]];
    let (clips, new_name) = (&record[8..16], &record[56..96]);
    if zero != 0 {
        return None;
    }
    // "What a kind does not use is zero."
    let no_clips = all_zero(clips);
    let no_new_name = new_length == 0 && all_zero(new_name);
    let change = match kind {
        1 if no_new_name => Change::Clips([0, 2, 4, 6].map(|at| big_endian(&clips[at..at + 2]))),
        2 if no_clips => Change::Rename(name(new_name, new_length)?),
        3 if no_clips && no_new_name => Change::Remove,
        _ => return None,
    };
    Some(Correction {
        position: big_endian(&record[4..8]),
        old_name: name(&record[16..56], old_length)?,
        change,
    })
}

fn all_zero(bytes: &[u8]) -> bool {
    bytes.iter().all(|byte| *byte == 0)
}

/// "Names fill 1 to 40 bytes of 33 to 126, zeros after."
fn name(field: &[u8], length: u8) -> Option<&[u8]> {
    if !(1..=40).contains(&length) {
        return None;
    }
    let (name, rest) = field.split_at(usize::from(length));
    let is_one = name.iter().all(|byte| is_name_byte(*byte)) && all_zero(rest);
    is_one.then_some(name)
}

/// The single correction of the file that has this length in the buffer.
pub fn correct(buffer: &mut [u8], file_length: u64, record: &[u8]) -> Written {
    match corrected(buffer, file_length, record) {
        Ok(file) => {
            replace(buffer, file_length as usize, &file);
            Written {
                refusal: None,
                length: file.len() as u64,
            }
        }
        // "the length given if nothing is done"
        Err(refusal) => Written {
            refusal: Some(refusal),
            length: file_length,
        },
    }
}

/// "14; 20 ..; the file's refusal; 21 ..; 22 ..; 25 ..; 23 ..; 24 ..; 26 no room", and else the file
/// written afresh.
fn corrected(buffer: &[u8], file_length: u64, record: &[u8]) -> Result<Vec<u8>, Refusal> {
    if file_length > buffer.len() as u64 {
        return refuse_input(14);
    }
    let Some(correction) = correction(record) else {
        return refuse_input(20);
    };
    let mut contents = test_file(&buffer[..file_length as usize])?;
    judge(&contents, &correction)?;
    carry_out(&mut contents, &correction);
    let file = write_afresh(&contents);
    if file.len() > buffer.len() {
        return refuse_input(26);
    }
    Ok(file)
}

/// The refusals between the file's and 26.
fn judge(contents: &Contents, correction: &Correction) -> Result<(), Refusal> {
    // "21 position not below the number of reads"
    if correction.position >= contents.reads.len() as u64 {
        return refuse_input(21);
    }
    // "22 the read there has another name"
    let position = correction.position as usize;
    let read = &contents.reads[position];
    if read.name != correction.old_name {
        return refuse_input(22);
    }
    // "25 rename or remove with an index"
    let is_clips = matches!(correction.change, Change::Clips(_));
    if contents.header.has_index() && !is_clips {
        return refuse_input(25);
    }
    match correction.change {
        // "23 new clip above N"
        Change::Clips(clips) if clips.iter().any(|clip| *clip > read.bases.len() as u64) => {
            refuse_input(23)
        }
        // "24 rename to a name that another read bears": one at another position
        Change::Rename(new_name) if bears(contents, new_name, position) => refuse_input(24),
        _ => Ok(()),
    }
}

/// Whether a read other than the one at this position bears the name.
fn bears(contents: &Contents, name: &[u8], position: usize) -> bool {
    let mut reads = contents.reads.iter().enumerate();
    reads.any(|(other, read)| other != position && read.name == name)
}

/// "A correction gives its read the new clips or name, or leaves it out."
fn carry_out<'a>(contents: &mut Contents<'a>, correction: &Correction<'a>) {
    let position = correction.position as usize;
    match correction.change {
        Change::Clips(clips) => contents.reads[position].clips = clips,
        Change::Rename(new_name) => contents.reads[position].name = new_name,
        Change::Remove => drop(contents.reads.remove(position)),
    }
}

/// "it lays out .. a header from flow and key characters, the count being the number of reads, then
/// the sections of a list of reads in order. An index stands at its offset, its bytes and header
/// fields as they were."
fn write_afresh(contents: &Contents) -> Vec<u8> {
    let old = &contents.header;
    let index_fields = (old.index_offset, old.index_length as u32);
    let count = contents.reads.len() as u32;
    let mut file = header(old.flows, old.key, index_fields, count);
    let mut reads = contents.reads.iter();
    loop {
        if old.index_is_at(file.len()) {
            file.extend(contents.index);
        }
        match reads.next() {
            Some(read) => file.extend(sections_of(read)),
            None => return file,
        }
    }
}

/// A read's sections. Each number fits its field, since it came from one as wide.
fn sections_of(read: &Read) -> Vec<u8> {
    let values: Vec<u16> = read.values().iter().map(|value| *value as u16).collect();
    sections(&NewRead {
        name: read.name,
        clips: read.clips.map(|clip| clip as u16),
        values: &values,
        increments: read.increments,
        bases: read.bases,
        qualities: read.qualities,
    })
}

/// Puts the new file where one of the old length stood. "If the file shrinks, bytes from new to old
/// length become 0; all beyond the longer of the two keep their contents."
fn replace(buffer: &mut [u8], old_length: usize, file: &[u8]) {
    buffer[..file.len()].copy_from_slice(file);
    if file.len() < old_length {
        buffer[file.len()..old_length].fill(0);
    }
}

/// What a list answers: "their count and the number, place and length of the last record tried",
/// "their" being the records that were carried out.
#[derive(Clone, Copy, Debug, PartialEq, Eq)]
pub struct ListRun {
    pub count: u64,
    pub last: Written,
}

/// "Records run in turn, each on the buffer and length that the one before left"; "An empty list is
/// carried out with count 0, the file untested and the length as given."
pub fn correct_list(buffer: &mut [u8], file_length: u64, list: &[u8]) -> ListRun {
    let mut run = ListRun {
        count: 0,
        last: Written {
            refusal: None,
            length: file_length,
        },
    };
    // "A list's length is a multiple of 96, else 20 before all else, with nothing done."
    if list.len() % RECORD != 0 {
        run.last.refusal = refuse_input::<()>(20).err();
        return run;
    }
    for record in list.chunks(RECORD) {
        run.last = correct(buffer, run.last.length, record);
        // "The first refusal ends it; earlier ones stand."
        if run.last.refusal.is_some() {
            break;
        }
        run.count += 1;
    }
    run
}
