//! Inputs for the library's calls: files, positions and states for those that read, buffers and
//! reads for those that write. A call's input follows from the seed and its number alone.

#![allow(dead_code)]

use crate::inputs::{
    damaged, damaged_from, flow_characters, get, junk, large, lay_out, letters, model, numbers,
    positions, read, valid, Index, Model, Random, Read,
};
use crate::sff::Reader;
use crate::views::View;
use crate::writing::NewRead;

// Files, positions and states.

/// A file for the calls that read: more sound ones than `inputs::input` has, and longer ones.
pub fn file(seed: u64, number: u64) -> Vec<u8> {
    let mut random = numbers(seed, number);
    match random.below(200) {
        0..=89 => valid(&mut random),
        90..=92 => large(&mut random),
        93 => longer(&mut random),
        94..=97 => junk(&mut random),
        98..=159 => damaged(&mut random, 1),
        160..=192 => damaged(&mut random, 2),
        _ => damaged(&mut random, 3),
    }
}

/// Sound files longer than the programs take.
fn longer(random: &mut Random) -> Vec<u8> {
    let (flow_count, key_length, bases) = random.pick(&[
        (65_497, 0, 400),
        (65_000, 497, 0),
        (20_000, 4, 65_535),
        (4, 4, 65_536),
        (1, 0, 70_000),
        (0, 65_497, 0),
    ]);
    let flows = flow_characters(random, flow_count);
    let mut one = read(random, &flows, bases);
    match random.below(3) {
        0 => one.values = vec![65_535; flow_count],
        1 => one.name = vec![b'!'; 65_512],
        _ => {}
    }
    let another = read(random, &flows, bases.min(9));
    let index = Index {
        after: random.below(3),
        bytes: vec![7; 8 * random.between(1, 9_000)],
    };
    lay_out(&Model {
        flows,
        key: letters(random, key_length),
        reads: vec![one, another],
        index: random.pick(&[true, false]).then_some(index),
    })
    .bytes
}

/// The reads that a file says it has.
fn stated_reads(file: &[u8]) -> u64 {
    get(file, 20, 4)
}

/// A position below or around the number of reads, or far from it.
pub fn position(random: &mut Random, file: &[u8]) -> u64 {
    let reads = stated_reads(file);
    let below = if reads == 0 { 0 } else { random.next() % reads };
    match random.below(10) {
        0..=5 => below,
        6 => reads.saturating_sub(1),
        7 => reads,
        8 => reads + 1,
        _ => random.pick(&[
            0,
            255,
            65_536,
            u64::from(u32::MAX),
            (1 << 32) + below,
            (1 << 63) + below,
            u64::MAX,
        ]),
    }
}

/// A state that is not one of these, which stepping gave: one or more fields are forged.
pub fn state(random: &mut Random, file: &[u8], met: &[Reader]) -> Reader {
    let length = file.len() as u64;
    let reads = stated_reads(file);
    let mut state = random.pick(met);
    let inside = random.next() % (length + 1);
    if random.one_in(2) {
        state.place = random.pick(&[
            0,
            8,
            state.place + 1,
            state.place + 8,
            state.place.saturating_sub(8),
            inside,
            inside / 8 * 8,
            length,
            length + 1,
            u64::MAX,
            get(file, 8, 8), // an index's place
        ]);
    }
    if random.one_in(2) {
        state.passed_reads = random.pick(&[
            0,
            state.passed_reads + 1,
            reads.saturating_sub(1),
            reads,
            reads + 1,
            (1 << 32) + 1,
            u64::MAX,
        ]);
    }
    if random.one_in(3) {
        state.passed_index = !state.passed_index;
    }
    state
}

/// A view that is none of these, which steps gave, as numbers: places and sizes around the file's end, sums beyond 64
/// bits, clips around N. One list in 20 is longer or shorter than a view.
pub fn view(random: &mut Random, file: &[u8], met: &[View]) -> Vec<u64> {
    let none = View::given(&[]);
    let mut view = if met.is_empty() || random.one_in(8) {
        none
    } else {
        random.pick(met)
    };
    for _ in 0..random.pick(&[0, 1, 1, 2, 5]) {
        let part = random.below(5);
        view.parts[part] = stretch(random, file.len() as u64, view.parts[part]);
    }
    let bases = view.parts[3].1;
    if random.one_in(2) {
        let rights = around(random, bases);
        view.clips[1] = rights;
        view.clips[3] = rights;
    }
    for _ in 0..random.below(3) {
        view.clips[random.below(4)] = around(random, bases);
    }
    let mut numbers = view.numbers();
    if random.one_in(20) {
        numbers.resize(random.below(17), 1);
    }
    numbers
}

/// A stretch at another place or of another size, in a file of this length.
fn stretch(random: &mut Random, length: u64, (at, size): (u64, u64)) -> (u64, u64) {
    let inside = random.next() % (length + 1);
    match random.below(12) {
        0 => (length.saturating_sub(size), size),
        1 => (length.saturating_sub(size) + 1, size),
        2 => (inside, length - inside),
        3 => (inside, length - inside + 1),
        4 => (random.pick(&[length, length + 1, 1 << 32, 1 << 63]), size),
        5 => (random.pick(&[length, length + 1, u64::MAX]), 0),
        // the sum is 2^64 or a little more or less
        6 => (0_u64.wrapping_sub(size), size),
        7 => (u64::MAX - random.next() % 9, random.next() % 18),
        8 => (inside, 0_u64.wrapping_sub(inside)),
        9 => (inside, u64::MAX - random.next() % (inside + 2)),
        10 => (
            at,
            random.pick(&[0, size.wrapping_add(1), size.saturating_sub(1), 1 << 32]),
        ),
        _ => (
            random.pick(&[0, at.wrapping_add(1), at.saturating_sub(1)]),
            size,
        ),
    }
}

/// A clip at, below or above the number of bases, or far from it.
fn around(random: &mut Random, bases: u64) -> u64 {
    let inside = random.next() % bases.saturating_add(1).max(1);
    random.pick(&[
        0,
        1,
        inside,
        bases.saturating_sub(1),
        bases,
        bases.saturating_add(1),
        bases.saturating_add(1),
        65_535,
        u64::MAX,
    ])
}

// Rooms and buffers.

/// A length around the least one that is enough, `unpadded` being where the contents end.
fn room(random: &mut Random, unpadded: usize, enough: usize) -> usize {
    match random.below(20) {
        0..=6 => enough,
        7..=9 => enough - 1,
        10 => enough - 8,
        11 => unpadded,
        12 => random.below(enough),
        13 => random.pick(&[0, 1, 23, 24, 31, 32]),
        14 => enough + 1,
        _ => enough + random.between(1, 300),
    }
}

/// A buffer that begins with the file, as far as it reaches; the rest is anything.
pub fn buffer(random: &mut Random, file: &[u8], length: usize) -> Vec<u8> {
    let mut bytes = file.to_vec();
    bytes.truncate(length);
    let rest = length - bytes.len();
    match random.below(5) {
        0 => bytes.extend(vec![random.pick(&[0, 255]); rest]),
        _ => bytes.extend(random.bytes(rest)),
    }
    bytes
}

pub fn padded(length: usize) -> usize {
    length + (8 - length % 8) % 8
}

// New files.

pub struct NewCall {
    pub buffer: Vec<u8>,
    pub flows: Vec<u8>,
    pub key: Vec<u8>,
}

impl NewCall {
    /// The length of the header.
    pub fn enough(&self) -> usize {
        padded(31 + self.flows.len() + self.key.len())
    }
}

pub fn new_call(seed: u64, number: u64) -> NewCall {
    let random = &mut numbers(seed, number);
    let (flow_count, key_length) = match random.below(80) {
        0 => random.pick(&[(65_497, 0), (0, 65_497), (30_000, 35_497), (65_496, 1)]),
        // Too long, also where two bytes of the sum would not show it.
        1 => random.pick(&[
            (65_498, 0),
            (0, 65_498),
            (32_749, 32_749),
            (65_505, 0),
            (65_535, 65_535),
            (65_536, 0),
            (4, 65_536),
            (65_536, 65_536),
        ]),
        2..=6 => (0, 0),
        7..=12 => (random.between(0, 700), random.between(0, 300)),
        _ => (random.between(0, 20), random.between(0, 9)),
    };
    let mut call = NewCall {
        buffer: vec![],
        flows: flow_characters(random, flow_count),
        key: letters(random, key_length),
    };
    if random.one_in(4) {
        wrong_character(random, &mut call.flows);
    }
    if random.one_in(4) {
        wrong_character(random, &mut call.key);
    }
    let unpadded = 31 + flow_count + key_length;
    let length = room(random, unpadded, call.enough());
    call.buffer = buffer(random, &[], length);
    call
}

fn wrong_character(random: &mut Random, characters: &mut [u8]) {
    let value = random.pick(b"NacgtB@U\0\xFF ");
    set_somewhere(random, characters, value);
}

/// Sets the first byte, the last or any, if there are any.
pub fn set_somewhere<T: Copy>(random: &mut Random, list: &mut [T], value: T) {
    if !list.is_empty() {
        let anywhere = random.below(list.len());
        let place = random.pick(&[0, anywhere, list.len() - 1]);
        list[place] = value;
    }
}

// Appends. 31 does not occur here: it takes a file of 4,294,967,295 reads (`many_reads`). A read of more
// bases than that stands among the fixed cases of the comparison with the library.

pub struct AppendCall {
    pub buffer: Vec<u8>,
    pub file_length: u64,
    pub read: Read,
}

impl AppendCall {
    /// The length of the buffer that would just do.
    pub fn enough(&self) -> u64 {
        self.file_length.saturating_add(added(&self.read).1 as u64)
    }
}

/// How long a read's two sections are, without the last padding and with it.
pub fn added(read: &Read) -> (usize, usize) {
    let header = padded(16 + read.name.len());
    let lists = [&read.increments, &read.bases, &read.qualities];
    let data = 2 * read.values.len() + lists.map(|list| list.len()).iter().sum::<usize>();
    (header + data, header + padded(data))
}

impl Read {
    pub fn lent(&self) -> NewRead<'_> {
        NewRead {
            name: &self.name,
            clips: self.clips,
            values: &self.values,
            increments: &self.increments,
            bases: &self.bases,
            qualities: &self.qualities,
        }
    }
}

pub fn append_call(seed: u64, number: u64) -> AppendCall {
    let random = &mut numbers(seed, number);
    let model = append_model(random);
    let flows = model.flows.clone();
    let layout = lay_out(&model);
    let boundaries = layout.boundaries();
    let file = match random.below(20) {
        0..=3 => damaged_from(random, model, 1),
        4 => damaged_from(random, model, 2),
        _ => layout.bytes,
    };
    let read = append_read(random, &flows);
    let (unpadded, padded) = added(&read);
    let length = room(random, file.len() + unpadded, file.len() + padded);
    let buffer = buffer(random, &file, length);
    let boundary = random.pick(&boundaries);
    AppendCall {
        file_length: stated_length(random, file.len(), boundary, length),
        buffer,
        read,
    }
}

/// The file that is appended to; mostly one without an index.
fn append_model(random: &mut Random) -> Model {
    let reads = match random.below(20) {
        0..=4 => 0,
        5 => random.between(6, 30),
        _ => random.between(1, 4),
    };
    let mut model = model(random, reads);
    if !random.one_in(6) {
        model.index = None;
    }
    match random.below(400) {
        // The count goes on to its next byte.
        0..=3 => {
            let mut small = read(random, &[], 0);
            small.name.clear();
            let many = random.pick(&[254, 255, 255, 256, 65_535]);
            model.flows.clear();
            model.reads = vec![small; many];
            model.index = None;
        }
        // As many flows as a header can hold.
        4 => {
            model.flows = flow_characters(random, 65_497);
            model.key.clear();
            model.reads.clear();
        }
        _ => {}
    }
    model
}

/// The length that is stated for a file of this length in a buffer of that.
pub fn stated_length(random: &mut Random, file: usize, boundary: usize, room: usize) -> u64 {
    let inside = random.between(0, file);
    let further = random.between(file.min(room), file.max(room));
    let length = match random.below(24) {
        0 => random.pick(&[0, 30, 31, boundary, file.saturating_sub(1), inside]),
        1 => random.pick(&[file + 1, file + 8, further, further / 8 * 8, room]),
        2 => room + random.pick(&[1, 8]),
        3 => {
            let far = [(1 << 32) + file as u64, 1 << 63, u64::MAX - 7, u64::MAX];
            return random.pick(&far);
        }
        _ => file,
    };
    length as u64
}

type ReadDamage = fn(&mut Random, &[u8], &mut Read);

const READ_DAMAGES: [ReadDamage; 12] = [
    value_count,
    increment_count,
    base_count,
    quality_count,
    long_name,
    name_byte,
    name_byte,
    clip,
    clip,
    increment,
    increment,
    base,
];

/// A read for these flows, sound or damaged in one way or several.
fn append_read(random: &mut Random, flows: &[u8]) -> Read {
    let bases = match random.below(40) {
        _ if flows.is_empty() => 0,
        0..=5 => 0,
        6 => random.between(250, 520),
        7 if random.one_in(20) => random.pick(&[65_535, 65_536, 70_000]),
        _ => random.between(1, 12),
    };
    let mut read = read(random, flows, bases);
    match random.below(40) {
        0..=5 => read.name = vec![b'~'; random.pick(&[0, 1, 40])],
        6 if random.one_in(4) => read.name = vec![b'!'; 65_512],
        _ => {}
    }
    let damages = match random.below(20) {
        0..=7 => 0,
        8..=13 => 1,
        14..=17 => 2,
        _ => 3,
    };
    for _ in 0..damages {
        random.pick(&READ_DAMAGES)(random, flows, &mut read);
    }
    read
}

/// One more, one less, none, or twice as many.
fn change_count<T: Copy>(random: &mut Random, list: &mut Vec<T>, more: T) {
    match random.below(6) {
        0 | 1 => list.push(more),
        2 | 3 => drop(list.pop()),
        4 => list.clear(),
        _ => list.extend_from_within(..),
    }
}

fn value_count(random: &mut Random, _: &[u8], read: &mut Read) {
    change_count(random, &mut read.values, 100);
}

fn increment_count(random: &mut Random, _: &[u8], read: &mut Read) {
    change_count(random, &mut read.increments, 0);
}

fn base_count(random: &mut Random, _: &[u8], read: &mut Read) {
    change_count(random, &mut read.bases, b'N');
}

/// The qualities alone, or with the increments and not the bases.
fn quality_count(random: &mut Random, _: &[u8], read: &mut Read) {
    change_count(random, &mut read.qualities, 40);
    if random.one_in(3) {
        read.increments.resize(read.qualities.len(), 0);
    }
}

/// A name that its section's length field cannot hold, or just can.
fn long_name(random: &mut Random, _: &[u8], read: &mut Read) {
    let length = random.pick(&[
        65_512, 65_513, 65_513, 65_519, 65_520, 65_528, 65_535, 65_536, 65_537, 131_080,
    ]);
    read.name.resize(length, b'n');
}

fn name_byte(random: &mut Random, _: &[u8], read: &mut Read) {
    if read.name.is_empty() {
        read.name.push(b'r');
    }
    let value = random.pick(&[0, 10, 31, 32, 32, 33, 126, 127, 127, 128, 255]);
    set_somewhere(random, &mut read.name, value);
}

/// One clip above N, or more of them, or just not above.
fn clip(random: &mut Random, _: &[u8], read: &mut Read) {
    let bases = read.bases.len();
    for _ in 0..random.pick(&[1, 1, 2, 4]) {
        let value = random.pick(&[bases, bases + 1, bases + 1, bases + 256, 65_535]);
        read.clips[random.below(4)] = value.min(65_535) as u16;
    }
}

/// An increment that leaves the flows, or keeps just inside them.
fn increment(random: &mut Random, flows: &[u8], read: &mut Read) {
    let count = read.increments.len();
    if count == 0 {
        // A base where there is none yet; without flows it has no flow position.
        read.increments.push(1);
        read.bases.push(b'N');
        read.qualities.push(0);
        return;
    }
    let base = random.below(count);
    let before: usize = positions(&read.increments[..base])
        .last()
        .copied()
        .unwrap_or(0);
    match random.below(6) {
        0 | 1 => read.increments[0] = 0,
        2 | 3 => read.increments[base] = (flows.len() + 1).saturating_sub(before).min(255) as u8,
        4 => read.increments[base] = random.pick(&[128, 254, 255]),
        _ => read.increments[base] = random.byte(),
    }
}

/// A base that is not the one of its flow, or N.
fn base(random: &mut Random, flows: &[u8], read: &mut Read) {
    if read.bases.is_empty() {
        return;
    }
    let neighbour = if flows.is_empty() {
        b'A'
    } else {
        random.pick(flows)
    };
    let value = random.pick(&[b'N', neighbour, neighbour, b'A', b'T', b'n', b't', b'-', 0]);
    set_somewhere(random, &mut read.bases, value);
}

// Files built from nothing.

pub struct BuildCall {
    pub model: Model,
    pub buffer: Vec<u8>,
    /// The file that a new file and an append for each read leave.
    pub file: Vec<u8>,
}

/// A file without an index, and a buffer that holds it.
pub fn build_call(seed: u64, number: u64) -> BuildCall {
    let random = &mut numbers(seed, number);
    let reads = random.between(0, 6);
    let mut model = model(random, reads);
    model.index = None;
    let file = lay_out(&model).bytes;
    let more = random.pick(&[0, 0, 1, 50]);
    let buffer = buffer(random, &[], file.len() + more);
    BuildCall {
        model,
        buffer,
        file,
    }
}
