//! Inputs for the corrections: buffers that hold a file, records and lists. A call's input follows from
//! the seed and its number alone. Records are laid out here, and carried out on the fields of a file,
//! by code of its own, so that a slip in `correcting` shows.

#![allow(dead_code)]

use crate::calls::{added, buffer, padded, set_somewhere, stated_length};
use crate::inputs::{
    damaged_from, flow_characters, junk, lay_out, model, numbers, read, Index, Model, Random, Read,
};

// Records.

pub const CLIPS: u8 = 1;
pub const RENAME: u8 = 2;
pub const REMOVE: u8 = 3;

/// A record as its fields.
#[derive(Clone)]
pub struct Record {
    pub kind: u8,
    pub position: u32,
    pub clips: [u16; 4],
    pub old_name: Vec<u8>,
    pub new_name: Vec<u8>,
}

impl Record {
    pub fn clips(position: usize, old_name: &[u8], clips: [u16; 4]) -> Record {
        Record {
            kind: CLIPS,
            clips,
            ..Record::remove(position, old_name)
        }
    }

    pub fn rename(position: usize, old_name: &[u8], new_name: &[u8]) -> Record {
        Record {
            kind: RENAME,
            new_name: new_name.to_vec(),
            ..Record::remove(position, old_name)
        }
    }

    pub fn remove(position: usize, old_name: &[u8]) -> Record {
        Record {
            kind: REMOVE,
            position: position as u32,
            clips: [0; 4],
            old_name: old_name.to_vec(),
            new_name: vec![],
        }
    }

    /// The 96 bytes. Names of over 40 bytes are not for it.
    pub fn bytes(&self) -> Vec<u8> {
        let lengths = [self.old_name.len() as u8, self.new_name.len() as u8];
        let mut bytes = vec![self.kind, lengths[0], lengths[1], 0];
        bytes.extend(self.position.to_be_bytes());
        bytes.extend(self.clips.iter().flat_map(|clip| clip.to_be_bytes()));
        bytes.extend(&self.old_name);
        bytes.resize(56, 0);
        bytes.extend(&self.new_name);
        bytes.resize(96, 0);
        bytes
    }

    /// What the record makes of a file that it is right for.
    fn carry_out(&self, model: &mut Model) {
        let position = self.position as usize;
        match self.kind {
            CLIPS => model.reads[position].clips = self.clips,
            RENAME => model.reads[position].name = self.new_name.clone(),
            _ => drop(model.reads.remove(position)),
        }
    }
}

// Right records: such a one is carried out on the model's file in a buffer of `room` bytes.

fn can_be_named(read: &Read) -> bool {
    (1..=40).contains(&read.name.len())
}

/// The positions of the reads that a record can name.
fn named(model: &Model) -> Vec<usize> {
    let all = 0..model.reads.len();
    all.filter(|position| can_be_named(&model.reads[*position]))
        .collect()
}

/// A right record, if there is a read that it can name.
fn right_record(random: &mut Random, model: &Model, room: usize) -> Option<Record> {
    let named = named(model);
    if named.is_empty() {
        return None;
    }
    let position = random.pick(&named);
    let name = &model.reads[position].name;
    let kind = match model.index {
        Some(_) => CLIPS,
        None => random.pick(&[CLIPS, RENAME, RENAME, RENAME, REMOVE]),
    };
    Some(match kind {
        RENAME => match new_name(random, model, position, room) {
            Some(new_name) => Record::rename(position, name, &new_name),
            None => right_clips(random, model, position),
        },
        REMOVE => Record::remove(position, name),
        _ => right_clips(random, model, position),
    })
}

fn right_clips(random: &mut Random, model: &Model, position: usize) -> Record {
    let read = &model.reads[position];
    let most = read.bases.len().min(65_535);
    let mut clips = [0; 4];
    for clip in &mut clips {
        let inside = random.between(0, most);
        *clip = random.pick(&[0, most.min(1), inside, most.saturating_sub(1), most, most]) as u16;
    }
    Record::clips(position, &read.name, clips)
}

/// A name for the read at this position that no other read bears and that there is room for, if one of
/// a few is such.
fn new_name(random: &mut Random, model: &Model, position: usize, room: usize) -> Option<Vec<u8>> {
    let old = &model.reads[position].name;
    let without = file_length(model) - padded(16 + old.len());
    let fits = |name: &[u8]| without + padded(16 + name.len()) <= room;
    let is_free = |name: &[u8]| {
        let mut reads = model.reads.iter().enumerate();
        reads.all(|(other, read)| other == position || read.name != name)
    };
    let mut attempts = (0..10).map(|_| some_name(random, model, old));
    attempts.find(|name| (1..=40).contains(&name.len()) && fits(name) && is_free(name))
}

/// A name of any length, or one that has to do with the old one or with some read's.
fn some_name(random: &mut Random, model: &Model, old: &[u8]) -> Vec<u8> {
    // 8k + 1 to 8k + 8 bytes have the same padded size.
    let shorter = (old.len() - 1) / 8 * 8;
    let length = match random.below(12) {
        0 => return old.to_vec(),
        1 | 2 => {
            let near = random.below(model.reads.len());
            return like(random, &model.reads[near].name);
        }
        3 | 4 => old.len(),
        5 | 6 => shorter + random.between(1, 8),
        7 => random.pick(&[shorter, shorter + 9]),
        8 => random.pick(&[1, 8, 9, 16, 17, 24, 25, 32, 33, 39, 40]),
        _ => random.between(1, 40),
    };
    name_of(random, length)
}

fn name_of(random: &mut Random, length: usize) -> Vec<u8> {
    (0..length).map(|_| random.between(33, 126) as u8).collect()
}

/// A name that is nearly this one: a byte more, a byte less, or another byte.
fn like(random: &mut Random, name: &[u8]) -> Vec<u8> {
    let mut near = name.to_vec();
    match random.below(4) {
        0 | 1 => near.push(random.pick(b"0!~a")),
        2 => drop(near.pop()),
        _ => {
            let byte = random.between(33, 126) as u8;
            set_somewhere(random, &mut near, byte);
        }
    }
    near
}

// Faults: a record that is well formed and wrong in one way, or sometimes just not wrong.

type Fault = fn(&mut Random, &Model, &mut Record);

const FAULTS: [Fault; 11] = [
    position_beyond,
    another_position,
    another_old_name,
    another_old_name,
    read_that_none_can_name,
    other_kind,
    clip_above,
    borne_name,
    borne_name,
    longer_name,
    longer_name,
];

/// A position with no read (21), also one that differs from a good one in a high byte alone.
fn position_beyond(random: &mut Random, model: &Model, record: &mut Record) {
    let reads = model.reads.len() as u32;
    let by_a_byte = 1 << random.pick(&[8, 16, 24]);
    record.position = random.pick(&[
        reads,
        reads,
        reads + 1,
        record.position.wrapping_add(by_a_byte),
        u32::MAX,
    ]);
}

/// The position of a read with another name (22), or, from the first or the last read, of none (21).
fn another_position(random: &mut Random, model: &Model, record: &mut Record) {
    let position = record.position;
    let any = random.below(model.reads.len().max(1)) as u32;
    record.position = random.pick(&[position.wrapping_add(1), position.wrapping_sub(1), any]);
}

/// An old name that the read does not have (22), often nearly its own, as r10 for r1.
fn another_old_name(random: &mut Random, model: &Model, record: &mut Record) {
    let near = like(random, &record.old_name);
    let borne = borne(random, model);
    match borne {
        Some(name) if random.one_in(4) => record.old_name = name,
        _ if (1..=40).contains(&near.len()) => record.old_name = near,
        _ => {}
    }
}

/// Some read's name.
fn borne(random: &mut Random, model: &Model) -> Option<Vec<u8>> {
    let named = named(model);
    if named.is_empty() {
        return None;
    }
    Some(model.reads[random.pick(&named)].name.clone())
}

/// A read that has no name, or one over 40 bytes, so that any record names another (22).
fn read_that_none_can_name(_: &mut Random, model: &Model, record: &mut Record) {
    let found = model.reads.iter().position(|read| !can_be_named(read));
    if let Some(position) = found {
        let name = &model.reads[position].name;
        record.position = position as u32;
        if !name.is_empty() {
            record.old_name = name[..40].to_vec();
        }
    }
}

/// A rename or a removal, which an index forbids (25).
fn other_kind(random: &mut Random, _: &Model, record: &mut Record) {
    let position = record.position as usize;
    *record = if random.one_in(2) {
        let length = random.between(1, 40);
        Record::rename(position, &record.old_name, &name_of(random, length))
    } else {
        Record::remove(position, &record.old_name)
    };
}

/// Clips above N (23) in one field or more, or just not above.
fn clip_above(random: &mut Random, model: &Model, record: &mut Record) {
    let position = record.position as usize;
    let read = model.reads.get(position);
    let bases = read.map_or(0, |read| read.bases.len());
    let mut clips = record.clips;
    for _ in 0..random.pick(&[1, 1, 1, 2, 4]) {
        let value = random.pick(&[bases, bases + 1, bases + 1, bases + 1, bases + 256, 65_535]);
        clips[random.below(4)] = value.min(65_535) as u16;
    }
    *record = Record::clips(position, &record.old_name, clips);
}

/// A rename to another read's name (24), or to the read's own.
fn borne_name(random: &mut Random, model: &Model, record: &mut Record) {
    if let Some(name) = borne(random, model) {
        *record = Record::rename(record.position as usize, &record.old_name, &name);
    }
}

/// A rename that makes the file longer: no room (26) if there is little of it.
fn longer_name(random: &mut Random, _: &Model, record: &mut Record) {
    let next_size = padded(record.old_name.len()) + 1;
    let length = random.pick(&[next_size, next_size + 8, 33, 40]).min(40);
    let name = name_of(random, length);
    *record = Record::rename(record.position as usize, &record.old_name, &name);
}

/// A malformed record (20): one or some of its bytes wrong, or too many or too few of them.
fn spoil(random: &mut Random, record: &mut Vec<u8>) {
    let (old_end, new_end) = (16 + usize::from(record[1]), 56 + usize::from(record[2]));
    let anywhere = random.below(96);
    match random.below(14) {
        0 => {
            let length = random.pick(&[0, 1, 16, 56, 80, 95, 95, 97, 97, 104, 192]);
            record.resize(length, 0);
        }
        1 => record[0] = random.pick(&[0, 1, 2, 3, 4, 128, 255]),
        2 => record[1] = random.pick(&[0, 41, record[1] + 1, record[1] - 1, 255]),
        3 => record[2] = random.pick(&[0, 1, 41, record[2] + 1, record[2] / 2, 255]),
        4 => record[3] = random.pick(&[1, 2, 128, 255]),
        // wrong unless the kind is 1
        5 => record[random.between(8, 15)] = random.pick(&[1, 2, 255]),
        6 => set_name_byte(random, &mut record[16..old_end]),
        7 => set_name_byte(random, &mut record[56..new_end]),
        8 => set_after(random, &mut record[old_end..56]),
        9 => set_after(random, &mut record[new_end..96]),
        10 => too_long(random, record, 1, 16),
        11 => too_long(random, record, 2, 56),
        12 => record[anywhere] = random.byte(),
        _ => record[anywhere] ^= 1 << random.below(8),
    }
}

/// A byte that no name has, or just one that it may have.
fn set_name_byte(random: &mut Random, name: &mut [u8]) {
    let value = random.pick(&[0, 10, 32, 32, 33, 126, 127, 127, 128, 255]);
    set_somewhere(random, name, value);
}

/// A byte that is not 0 behind a name.
fn set_after(random: &mut Random, rest: &mut [u8]) {
    let value = random.pick(&[1, 32, b'0', b'~', 255]);
    set_somewhere(random, rest, value);
}

/// A name that fills its field, its length being 40 or more.
fn too_long(random: &mut Random, record: &mut [u8], length: usize, name: usize) {
    record[length] = random.pick(&[40, 41, 41, 80, 255]);
    record[name..name + 40].fill(b'n');
}

// Files.

/// A file to be corrected.
fn file_model(random: &mut Random) -> Model {
    if random.one_in(60) {
        return special_model(random);
    }
    let reads = match random.below(20) {
        0 => 0,
        1..=3 => random.between(6, 20),
        _ => random.between(1, 5),
    };
    let mut model = model(random, reads);
    if random.one_in(2) {
        model.index = None;
    }
    if reads > 0 && random.one_in(2) {
        relate_names(random, &mut model);
    }
    // Mostly there is a read that can be corrected.
    if reads > 0 && named(&model).is_empty() && !random.one_in(5) {
        model.reads[reads - 1].name = b"r1".to_vec();
    }
    model
}

/// Gives some reads a name that is another's or nearly is.
fn relate_names(random: &mut Random, model: &mut Model) {
    for _ in 0..random.between(1, 3) {
        let one = random.below(model.reads.len());
        let other = random.below(model.reads.len());
        let name = model.reads[other].name.clone();
        model.reads[one].name = match random.below(5) {
            0 | 1 => name,
            2 => random.pick(&["r", "r1", "r10", "r11"]).as_bytes().to_vec(),
            _ => like(random, &name),
        };
    }
}

/// Files whose positions, counts, clips or lengths have more bytes than those of the others.
fn special_model(random: &mut Random) -> Model {
    match random.below(48) {
        0..=15 => many_reads(random),
        16..=35 => {
            let count = random.pick(&[256, 256, 256, 257]);
            tiny_reads(random, count)
        }
        36 => tiny_reads(random, 65_536),
        _ => long_reads(random),
    }
}

/// Some hundred reads, each with a name of its own: r0, r1 and on.
fn many_reads(random: &mut Random) -> Model {
    let mut many = model(random, 0);
    many.flows = flow_characters(random, 4);
    let count = random.between(200, 500);
    for number in 0..count {
        let bases = random.between(0, 9);
        let mut read = read(random, &many.flows, bases);
        read.name = format!("r{number}").into_bytes();
        many.reads.push(read);
    }
    if let Some(index) = &mut many.index {
        index.after = random.between(0, count);
    }
    many
}

/// So many reads of 16 bytes, some of them with a name: a removal reaches the count's higher bytes.
fn tiny_reads(random: &mut Random, count: usize) -> Model {
    let mut small = read(random, &[], 0);
    small.name.clear();
    let mut reads = vec![small; count];
    for position in [0, 1, 254, random.below(count), count - 1] {
        reads[position].name = format!("r{position}").into_bytes();
    }
    Model {
        flows: vec![],
        key: vec![],
        reads,
        index: None,
    }
}

/// A read of about as many bases as a clip can say, between a short one and a very long name.
fn long_reads(random: &mut Random) -> Model {
    let flows = flow_characters(random, 4);
    let bases = random.pick(&[65_534, 65_535, 65_535, 65_536, 70_000]);
    let mut reads: Vec<Read> = [3, bases, 0]
        .iter()
        .map(|bases| read(random, &flows, *bases))
        .collect();
    reads[0].name = random.pick(&["short", ""]).as_bytes().to_vec();
    reads[1].name = b"long".to_vec();
    reads[2].name = vec![b'n'; 65_512];
    let index = Index {
        after: random.between(0, 3),
        bytes: vec![7; 16],
    };
    Model {
        flows,
        key: vec![],
        reads,
        index: random.pick(&[true, true, false]).then_some(index),
    }
}

/// How long the model's file is.
fn file_length(model: &Model) -> usize {
    let header = padded(31 + model.flows.len() + model.key.len());
    let index = model.index.as_ref().map_or(0, |index| index.bytes.len());
    let reads = model.reads.iter().map(|read| added(read).1);
    header + index + reads.sum::<usize>()
}

/// A buffer, and the length that is stated for the file in it.
struct Held {
    buffer: Vec<u8>,
    file_length: u64,
    /// Whether the model's file is there, with its own length.
    is_sound: bool,
}

/// Puts the model's file into a buffer; if it `may_be_wrong`, also a damaged file or none, or a part of
/// it, or with another length.
fn hold(random: &mut Random, model: &Model, may_be_wrong: bool) -> Held {
    let layout = lay_out(model);
    let file = match random.below(40) {
        0..=4 if may_be_wrong => damaged_from(random, model.clone(), 1),
        5 if may_be_wrong => damaged_from(random, model.clone(), 2),
        6 if may_be_wrong && random.one_in(3) => junk(random),
        _ => layout.bytes.clone(),
    };
    let much = random.between(41, 400);
    let spare = random.pick(&[0, 0, 0, 1, 7, 8, 8, 9, 15, 16, 24, 31, 32, 33, much, much]);
    let room = match random.below(40) {
        0 if may_be_wrong => random.between(0, file.len()),
        _ => file.len() + spare,
    };
    let boundary = random.pick(&layout.boundaries());
    let length = if may_be_wrong {
        stated_length(random, file.len(), boundary, room)
    } else {
        file.len() as u64
    };
    Held {
        is_sound: file == layout.bytes && length == file.len() as u64 && room >= file.len(),
        buffer: buffer(random, &file, room),
        file_length: length,
    }
}

// Calls.

/// A buffer and the records for it, one by one; `model` is what those so far make of the file.
struct Making {
    model: Model,
    held: Held,
    /// The greatest length that the file had.
    longest: usize,
    records: Vec<Vec<u8>>,
    /// Whether each record so far is carried out.
    is_right: bool,
}

/// What right records leave: the file's length, and the whole buffer.
pub struct After {
    pub length: u64,
    pub buffer: Vec<u8>,
}

impl Making {
    fn new(random: &mut Random, may_be_wrong: bool) -> Making {
        let model = file_model(random);
        let held = hold(random, &model, may_be_wrong);
        Making {
            longest: file_length(&model),
            is_right: held.is_sound,
            model,
            held,
            records: vec![],
        }
    }

    fn add_right(&mut self, record: &Record) {
        self.records.push(record.bytes());
        record.carry_out(&mut self.model);
        self.longest = self.longest.max(file_length(&self.model));
    }

    /// Adds a record with so many faults.
    fn add(&mut self, random: &mut Random, faults: usize) {
        let right = right_record(random, &self.model, self.held.buffer.len());
        match right {
            Some(right) if faults == 0 => self.add_right(&right),
            // A file that has no read to name gets a record for one that it does not have.
            right => {
                let mut record =
                    right.unwrap_or_else(|| Record::clips(random.below(3), b"r1", [0; 4]));
                for _ in 0..faults {
                    random.pick(&FAULTS)(random, &self.model, &mut record);
                }
                self.records.push(record.bytes());
                self.is_right = false;
            }
        }
    }

    fn after(&self) -> Option<After> {
        let file = self.is_right.then(|| lay_out(&self.model).bytes)?;
        let mut buffer = self.held.buffer.clone();
        buffer[..self.longest].fill(0);
        buffer[..file.len()].copy_from_slice(&file);
        Some(After {
            length: file.len() as u64,
            buffer,
        })
    }
}

pub struct CorrectCall {
    pub buffer: Vec<u8>,
    pub file_length: u64,
    pub record: Vec<u8>,
    /// The record before it was spoiled, if it was.
    pub unspoiled: Vec<u8>,
    /// Of a right call.
    pub after: Option<After>,
}

pub fn correct_call(seed: u64, number: u64) -> CorrectCall {
    let random = &mut numbers(seed, number);
    let mut making = Making::new(random, true);
    let (faults, is_spoiled) = match random.below(20) {
        0..=8 => (0, false),
        9..=13 => (1, false),
        14..=15 => (2, false),
        16..=18 => (0, true),
        _ => (1, true),
    };
    making.add(random, faults);
    let unspoiled = making.records[0].clone();
    let mut record = unspoiled.clone();
    if is_spoiled {
        spoil(random, &mut record);
        making.is_right = false;
    }
    CorrectCall {
        after: making.after(),
        buffer: making.held.buffer,
        file_length: making.held.file_length,
        record,
        unspoiled,
    }
}

pub struct ListCall {
    pub buffer: Vec<u8>,
    pub file_length: u64,
    pub list: Vec<u8>,
    /// Of a right call.
    pub after: Option<After>,
}

/// What comes next in a list.
#[derive(Clone, Copy)]
enum Next {
    Right,
    /// Clips for the read at this position.
    Clips(usize),
    Wrong,
}

pub fn list_call(seed: u64, number: u64) -> ListCall {
    // Other files than those of `correct_call`.
    let random = &mut numbers(seed ^ 2, number);
    let may_be_wrong = random.one_in(2);
    let mut making = Making::new(random, may_be_wrong);
    for next in plan(random, &making.model) {
        match next {
            Next::Right => making.add(random, 0),
            Next::Clips(position) => {
                let record = right_clips(random, &making.model, position);
                making.add_right(&record);
            }
            Next::Wrong => add_wrong(random, &mut making),
        }
    }
    let mut list = making.records.concat();
    if random.one_in(16) {
        let part = random.pick(&[1, 16, 48, 95]);
        list.resize(list.len() + part, 0);
        making.is_right = false;
    }
    ListCall {
        after: making.after(),
        buffer: making.held.buffer,
        file_length: making.held.file_length,
        list,
    }
}

/// The list to be made for this file: records of all kinds or clips alone, in every second list with a
/// wrong one among them.
fn plan(random: &mut Random, model: &Model) -> Vec<Next> {
    let reads = model.reads.len();
    let most = if (200..1_000).contains(&reads) {
        60
    } else {
        12
    };
    let count = match random.below(16) {
        0 => 0,
        1 | 2 => 1,
        _ => random.between(2, most),
    };
    let named = named(model);
    let mut plan = if named.is_empty() || random.one_in(2) {
        vec![Next::Right; count]
    } else {
        let positions = positions(random, &named, count);
        positions.into_iter().map(Next::Clips).collect()
    };
    if count > 0 && random.one_in(2) {
        plan.insert(random.between(0, count), Next::Wrong);
    }
    plan
}

/// Positions in rising order, some of them more than once; or in falling order, or in none.
fn positions(random: &mut Random, named: &[usize], count: usize) -> Vec<usize> {
    let mut positions: Vec<usize> = (0..count).map(|_| random.pick(named)).collect();
    match random.below(4) {
        0 => {}
        1 => positions.sort_by(|one, other| other.cmp(one)),
        _ => positions.sort(),
    }
    positions
}

/// A record with faults, or one that is malformed. It may turn out to be carried out; the records
/// behind it then mean another file.
fn add_wrong(random: &mut Random, making: &mut Making) {
    let faults = random.pick(&[1, 1, 1, 2]);
    making.add(random, faults);
    let last = making.records.last_mut().expect("a record");
    if random.one_in(5) {
        spoil(random, last);
        last.resize(96, 0);
    }
}
