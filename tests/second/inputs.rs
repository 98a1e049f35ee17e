//! Inputs for the comparison: valid files and damaged ones. An input follows from the seed and its
//! number alone. Files are laid out here by code of its own, so that a slip in `sff` shows.

#![allow(dead_code)]

/// A small generator of numbers (splitmix64).
pub struct Random {
    state: u64,
}

impl Random {
    pub fn new(seed: u64) -> Random {
        Random { state: seed }
    }

    pub fn next(&mut self) -> u64 {
        self.state = self.state.wrapping_add(0x9E37_79B9_7F4A_7C15);
        let mut mixed = self.state;
        mixed = (mixed ^ (mixed >> 30)).wrapping_mul(0xBF58_476D_1CE4_E5B9);
        mixed = (mixed ^ (mixed >> 27)).wrapping_mul(0x94D0_49BB_1331_11EB);
        mixed ^ (mixed >> 31)
    }

    /// A number from 0 to `limit - 1`.
    pub fn below(&mut self, limit: usize) -> usize {
        (self.next() % limit as u64) as usize
    }

    /// A number from `low` to `high`, both included.
    pub fn between(&mut self, low: usize, high: usize) -> usize {
        low + self.below(high - low + 1)
    }

    pub fn one_in(&mut self, chances: usize) -> bool {
        self.below(chances) == 0
    }

    pub fn pick<T: Copy>(&mut self, from: &[T]) -> T {
        from[self.below(from.len())]
    }

    pub fn byte(&mut self) -> u8 {
        self.next() as u8
    }

    pub fn bytes(&mut self, count: usize) -> Vec<u8> {
        (0..count).map(|_| self.byte()).collect()
    }
}

/// A read as its fields.
#[derive(Clone)]
pub struct Read {
    pub name: Vec<u8>,
    /// Quality left, quality right, adapter left, adapter right.
    pub clips: [u16; 4],
    pub values: Vec<u16>,
    pub increments: Vec<u8>,
    pub bases: Vec<u8>,
    pub qualities: Vec<u8>,
}

/// An index: how many reads stand before it, and its bytes.
#[derive(Clone)]
pub struct Index {
    pub after: usize,
    pub bytes: Vec<u8>,
}

/// A file as its fields.
#[derive(Clone)]
pub struct Model {
    pub flows: Vec<u8>,
    pub key: Vec<u8>,
    pub reads: Vec<Read>,
    pub index: Option<Index>,
}

/// Where a section stands: its start, the end of its contents, its end with the padding.
#[derive(Clone, Copy)]
pub struct Span {
    pub start: usize,
    pub padding: usize,
    pub end: usize,
}

/// A file laid out, and where its sections stand.
pub struct Layout {
    pub bytes: Vec<u8>,
    pub header: Span,
    /// Header section and data section of each read.
    pub reads: Vec<(Span, Span)>,
    pub index: Option<Span>,
}

impl Layout {
    /// The ends of the header, the reads and the index.
    pub fn boundaries(&self) -> Vec<usize> {
        let mut all = vec![self.header.end];
        all.extend(self.reads.iter().map(|(_, data)| data.end));
        all.extend(self.index.iter().map(|index| index.end));
        all
    }
}

/// Pads with zeros up to a multiple of 8 and answers the section that began at `start`.
fn close(bytes: &mut Vec<u8>, start: usize) -> Span {
    let padding = bytes.len();
    while bytes.len() % 8 != 0 {
        bytes.push(0);
    }
    Span {
        start,
        padding,
        end: bytes.len(),
    }
}

pub fn lay_out(model: &Model) -> Layout {
    let used = 31 + model.flows.len() + model.key.len();
    let header_length = used + (8 - used % 8) % 8;
    let mut bytes = Vec::new();
    bytes.extend(b".sff\0\0\0\x01");
    bytes.extend([0; 12]); // the index fields, set below
    bytes.extend((model.reads.len() as u32).to_be_bytes());
    bytes.extend((header_length as u16).to_be_bytes());
    bytes.extend((model.key.len() as u16).to_be_bytes());
    bytes.extend((model.flows.len() as u16).to_be_bytes());
    bytes.push(1);
    bytes.extend(&model.flows);
    bytes.extend(&model.key);
    let header = close(&mut bytes, 0);

    let mut reads = Vec::new();
    let mut index = None;
    for position in 0..=model.reads.len() {
        if let Some(declared) = &model.index {
            if declared.after == position {
                let start = bytes.len();
                bytes.extend(&declared.bytes);
                index = Some(Span {
                    start,
                    padding: bytes.len(),
                    end: bytes.len(),
                });
                set(&mut bytes, 8, 8, start as u64);
                set(&mut bytes, 16, 4, declared.bytes.len() as u64);
            }
        }
        if position < model.reads.len() {
            reads.push(append_read(&mut bytes, &model.reads[position]));
        }
    }
    Layout {
        bytes,
        header,
        reads,
        index,
    }
}

fn append_read(bytes: &mut Vec<u8>, read: &Read) -> (Span, Span) {
    let start = bytes.len();
    bytes.extend([0; 2]); // its length, set below
    bytes.extend((read.name.len() as u16).to_be_bytes());
    bytes.extend((read.bases.len() as u32).to_be_bytes());
    for clip in read.clips {
        bytes.extend(clip.to_be_bytes());
    }
    bytes.extend(&read.name);
    let header = close(bytes, start);
    set(bytes, start, 2, (header.end - start) as u64);

    let start = bytes.len();
    for value in &read.values {
        bytes.extend(value.to_be_bytes());
    }
    bytes.extend(&read.increments);
    bytes.extend(&read.bases);
    bytes.extend(&read.qualities);
    (header, close(bytes, start))
}

/// Writes a number of `width` bytes, cut to them, if the file reaches that far.
pub fn set(bytes: &mut [u8], place: usize, width: usize, value: u64) {
    if place + width <= bytes.len() {
        bytes[place..place + width].copy_from_slice(&value.to_be_bytes()[8 - width..]);
    }
}

/// The number of `width` bytes at a place, 0 if the file does not reach that far.
pub fn get(bytes: &[u8], place: usize, width: usize) -> u64 {
    if place + width > bytes.len() {
        return 0;
    }
    bytes[place..place + width]
        .iter()
        .fold(0, |number, byte| number << 8 | u64::from(*byte))
}

fn set_byte(bytes: &mut [u8], place: usize, value: u8) {
    set(bytes, place, 1, u64::from(value));
}

// Valid files.

pub fn letters(random: &mut Random, count: usize) -> Vec<u8> {
    (0..count).map(|_| random.pick(b"ACGT")).collect()
}

pub fn flow_characters(random: &mut Random, count: usize) -> Vec<u8> {
    if random.one_in(2) {
        return letters(random, count);
    }
    (0..count).map(|flow| b"TACG"[flow % 4]).collect()
}

pub fn name(random: &mut Random) -> Vec<u8> {
    let length = match random.below(24) {
        0 => random.between(200, 700),
        1..=4 => 0,
        5..=8 => random.pick(&[7, 8, 9, 15, 16, 17]),
        _ => random.between(1, 40),
    };
    match random.below(8) {
        0 => vec![random.pick(&[33, 45, 126]); length],
        _ => (0..length).map(|_| random.between(33, 126) as u8).collect(),
    }
}

/// The increments of a walk over `bases` bases that stays in 1 to `flows`.
fn walk(random: &mut Random, flows: usize, bases: usize) -> Vec<u8> {
    let mut increments = Vec::new();
    let mut position = 0;
    for base in 0..bases {
        let most = (flows - position).min(255);
        let least = if base == 0 { 1 } else { 0 };
        let increment = match random.below(10) {
            0 => most, // to the last flow, if it can be reached
            1..=3 => least,
            4..=5 => random.between(least, most.max(least)),
            _ => random.between(least, 4).min(most),
        };
        position += increment;
        increments.push(increment as u8);
    }
    increments
}

/// The flow position of each base of a walk.
pub fn positions(increments: &[u8]) -> Vec<usize> {
    let mut position = 0;
    let mut all = Vec::new();
    for increment in increments {
        position += *increment as usize;
        all.push(position);
    }
    all
}

pub fn read(random: &mut Random, flows: &[u8], bases: usize) -> Read {
    let increments = walk(random, flows.len(), bases);
    let called = positions(&increments)
        .iter()
        .map(|position| {
            if random.one_in(9) {
                b'N'
            } else {
                flows[position - 1]
            }
        })
        .collect();
    let mut clips = [0; 4];
    for clip in &mut clips {
        let limit = bases.min(65_535);
        *clip = match random.below(8) {
            0..=2 => 0,
            3 => limit.min(1),
            4 => limit,
            5 => limit.saturating_sub(1),
            _ => random.between(0, limit),
        } as u16;
    }
    let values = match random.below(4) {
        0 => vec![random.pick(&[0, 65_535]); flows.len()],
        _ => flows.iter().map(|_| random.next() as u16).collect(),
    };
    let qualities = random.bytes(bases);
    Read {
        name: name(random),
        clips,
        values,
        increments,
        bases: called,
        qualities,
    }
}

fn index_bytes(random: &mut Random) -> Vec<u8> {
    let length = 8 * random.pick(&[1, 1, 2, 3, 4, 5, 10, 33]);
    match random.below(3) {
        0 => vec![0; length],
        1 => vec![255; length],
        _ => random.bytes(length),
    }
}

pub fn model(random: &mut Random, reads: usize) -> Model {
    let flow_count = match random.below(20) {
        0..=2 => 0,
        3 => random.between(256, 700),
        4..=6 => random.between(10, 60),
        _ => random.between(1, 9),
    };
    let key_length = match random.below(20) {
        0..=4 => 0,
        5 => random.between(20, 300),
        _ => random.between(1, 9),
    };
    let flows = flow_characters(random, flow_count);
    let key = letters(random, key_length);
    let mut list = Vec::new();
    for _ in 0..reads {
        let most = if random.one_in(30) { 400 } else { 12 };
        let bases = if flow_count == 0 || random.one_in(6) {
            0
        } else {
            random.between(1, most)
        };
        list.push(read(random, &flows, bases));
    }
    let index = match random.below(2) {
        0 => None,
        _ => {
            let between = random.between(0, reads);
            let after = random.pick(&[0, between, reads]);
            Some(Index {
                after,
                bytes: index_bytes(random),
            })
        }
    };
    Model {
        flows,
        key,
        reads: list,
        index,
    }
}

pub fn valid(random: &mut Random) -> Vec<u8> {
    let reads = match random.below(20) {
        0..=2 => 0,
        3 => random.between(8, 40),
        _ => random.between(1, 5),
    };
    lay_out(&model(random, reads)).bytes
}

// Damages. Each takes the sound file's model and layout and the bytes so far, of which an earlier
// damage may have taken some away.

struct Sound {
    model: Model,
    layout: Layout,
}

impl Sound {
    /// A read's number, if there are reads.
    fn some_read(&self, random: &mut Random) -> Option<usize> {
        match self.model.reads.len() {
            0 => None,
            count => Some(random.below(count)),
        }
    }

    /// Any section.
    fn some_section(&self, random: &mut Random) -> Span {
        let mut all = vec![self.layout.header];
        for (header, data) in &self.layout.reads {
            all.extend([*header, *data]);
        }
        all.extend(self.layout.index);
        random.pick(&all)
    }
}

type Damage = fn(&mut Random, &Sound, &mut Vec<u8>);

// The damages of a part, about in the order of its tests.

const HEADER_DAMAGES: [Damage; 9] = [
    magic,
    version,
    format_code,
    header_field,
    length_beyond_its_field,
    cut,
    header_character,
    header_padding,
    index_fields,
];

const READ_DAMAGES: [Damage; 10] = [
    read_length,
    read_field,
    name_byte,
    name_padding,
    clip,
    bases_beyond_the_file,
    cut,
    increment,
    base,
    data_padding,
];

const END_DAMAGES: [Damage; 6] = [
    index_fields,
    index_over_a_read,
    read_count,
    trailing,
    cut,
    flip,
];

fn group(random: &mut Random) -> &'static [Damage] {
    match random.below(10) {
        0..=2 => &HEADER_DAMAGES,
        3..=7 => &READ_DAMAGES,
        _ => &END_DAMAGES,
    }
}

fn magic(random: &mut Random, _: &Sound, bytes: &mut Vec<u8>) {
    let place = random.below(4);
    let value = random.pick(&[0, 0x2E, 0x73, 0x66, 0x67, 0xFF, b'S', b'F']);
    set_byte(bytes, place, value);
}

fn version(random: &mut Random, _: &Sound, bytes: &mut Vec<u8>) {
    let value = random.pick(&[
        0, 2, 0x100, 0x101, 0x1000000, 0x30303031, 0x1000001, 0xFFFFFFFF,
    ]);
    set(bytes, 4, 4, value);
}

fn format_code(random: &mut Random, _: &Sound, bytes: &mut Vec<u8>) {
    set(bytes, 30, 1, random.pick(&[0, 2, 128, 255]));
}

/// A value at an edge, or near the one that stands there.
fn edge(random: &mut Random, value: u64, width: usize) -> u64 {
    let most = u64::MAX >> (64 - 8 * width);
    let near = [
        value.wrapping_sub(1),
        value.wrapping_add(1),
        value.wrapping_sub(8),
        value.wrapping_add(8),
        value.wrapping_add(7) / 8 * 8,
        value ^ 0x100,
        value.swap_bytes() >> (64 - 8 * width),
    ];
    let far = [
        0,
        1,
        7,
        8,
        9,
        most,
        most - 1,
        most - 7,
        most / 2 + 1,
        random.next(),
    ];
    if random.one_in(2) {
        random.pick(&near)
    } else {
        random.pick(&far)
    }
}

fn set_edge(random: &mut Random, bytes: &mut [u8], place: usize, width: usize) {
    let value = edge(random, get(bytes, place, width), width);
    set(bytes, place, width, value);
}

fn header_field(random: &mut Random, _: &Sound, bytes: &mut Vec<u8>) {
    let fields = [
        (0, 4),
        (4, 4),
        (8, 8),
        (16, 4),
        (20, 4),
        (24, 2),
        (26, 2),
        (28, 2),
        (30, 1),
    ];
    let (place, width) = random.pick(&fields);
    set_edge(random, bytes, place, width);
    // A letter more on one side and one less on the other keeps the header's length.
    if random.one_in(8) {
        let (key, flows) = (get(bytes, 26, 2), get(bytes, 28, 2));
        set(bytes, 26, 2, key.wrapping_add(1));
        set(bytes, 28, 2, flows.wrapping_sub(1));
    }
}

fn header_character(random: &mut Random, sound: &Sound, bytes: &mut Vec<u8>) {
    let used = sound.layout.header.padding;
    if used > 31 {
        let anywhere = random.between(31, used - 1);
        let place = random.pick(&[31, anywhere, used - 1]);
        set_byte(bytes, place, random.pick(b"NacgtB@U\0\xFF "));
    }
}

/// Sets a padding byte of this section, or all of them, if it has any.
fn pad(random: &mut Random, span: Span, bytes: &mut [u8]) {
    if span.padding == span.end {
        return;
    }
    let anywhere = random.between(span.padding, span.end - 1);
    let place = random.pick(&[span.padding, anywhere, span.end - 1]);
    let value = random.pick(&[1, 32, b'A', b'N', 128, 255]);
    set_byte(bytes, place, value);
    if random.one_in(6) {
        for place in span.padding..span.end {
            set_byte(bytes, place, value);
        }
    }
}

fn header_padding(random: &mut Random, sound: &Sound, bytes: &mut Vec<u8>) {
    pad(random, sound.layout.header, bytes);
}

/// Sizes that a section's length field, or a short one inside, cannot hold.
fn length_beyond_its_field(random: &mut Random, sound: &Sound, bytes: &mut Vec<u8>) {
    let read = sound.some_read(random);
    if let (Some(read), false) = (read, random.one_in(2)) {
        let start = sound.layout.reads[read].0.start;
        let name_length = random.pick(&[65_512, 65_513, 65_519, 65_520, 65_528, 65_535]);
        let length = (name_length + 16 + 7) / 8 * 8;
        set(bytes, start + 2, 2, name_length);
        set(
            bytes,
            start,
            2,
            random.pick(&[length, length, 65_528, 65_535, 0]),
        );
    } else {
        let sums = [
            (0, 65_497),
            (1, 65_497),
            (32_768, 32_768),
            (65_535, 65_535),
            (65_535, 2),
        ];
        let (flows, key) = random.pick(&sums);
        let length: u64 = (flows + key + 31 + 7) / 8 * 8;
        set(bytes, 26, 2, key);
        set(bytes, 28, 2, flows);
        set(
            bytes,
            24,
            2,
            random.pick(&[length, length, 65_528, 65_535, 0]),
        );
    }
}

fn read_field(random: &mut Random, sound: &Sound, bytes: &mut Vec<u8>) {
    if let Some(read) = sound.some_read(random) {
        let start = sound.layout.reads[read].0.start;
        let fields = [(0, 2), (2, 2), (4, 4), (8, 2), (10, 2), (12, 2), (14, 2)];
        let (place, width) = random.pick(&fields);
        set_edge(random, bytes, start + place, width);
    }
}

/// A read's length, or its name's length with the section length that belongs to it.
fn read_length(random: &mut Random, sound: &Sound, bytes: &mut Vec<u8>) {
    if let Some(read) = sound.some_read(random) {
        let start = sound.layout.reads[read].0.start;
        if random.one_in(2) {
            set_edge(random, bytes, start, 2);
        } else {
            let name_length = get(bytes, start + 2, 2);
            let other = random.pick(&[name_length + 1, name_length + 8, name_length / 2, 60_000]);
            set(bytes, start + 2, 2, other);
            set(bytes, start, 2, (other + 16 + 7) / 8 * 8);
        }
    }
}

fn name_byte(random: &mut Random, sound: &Sound, bytes: &mut Vec<u8>) {
    if let Some(read) = sound.some_read(random) {
        let span = sound.layout.reads[read].0;
        let first = span.start + 16;
        if span.padding > first {
            let anywhere = random.between(first, span.padding - 1);
            let place = random.pick(&[first, anywhere, span.padding - 1]);
            set_byte(
                bytes,
                place,
                random.pick(&[0, 10, 31, 32, 32, 33, 126, 127, 127, 128, 255]),
            );
        }
    }
}

fn name_padding(random: &mut Random, sound: &Sound, bytes: &mut Vec<u8>) {
    if let Some(read) = sound.some_read(random) {
        pad(random, sound.layout.reads[read].0, bytes);
    }
}

/// One clip field above N, or more of them.
fn clip(random: &mut Random, sound: &Sound, bytes: &mut Vec<u8>) {
    if let Some(read) = sound.some_read(random) {
        let start = sound.layout.reads[read].0.start;
        let bases = sound.model.reads[read].bases.len() as u64;
        for _ in 0..random.pick(&[1, 1, 2, 4]) {
            let place = start + 8 + 2 * random.below(4);
            set(
                bytes,
                place,
                2,
                random.pick(&[bases, bases + 1, bases + 1, bases + 256, 65_535]),
            );
        }
    }
}

/// Base counts whose section is far longer than the file, also where 32 bits would not show it.
fn bases_beyond_the_file(random: &mut Random, sound: &Sound, bytes: &mut Vec<u8>) {
    if let Some(read) = sound.some_read(random) {
        let start = sound.layout.reads[read].0.start;
        let bases = sound.model.reads[read].bases.len() as u64;
        let third = 1_431_655_765; // 3 times this is 2^32 - 1
        let counts = [
            bases + 1,
            bases + 8,
            bases + 65_536,
            third,
            third + 1,
            third + 3,
            third + bases,
            2 * third + 1 + bases,
            2 * third + 3,
            1 << 31,
            4_294_967_295,
            4_294_967_294,
        ];
        set(bytes, start + 4, 4, random.pick(&counts));
    }
}

/// An increment that leaves the flows, or keeps just inside them.
fn increment(random: &mut Random, sound: &Sound, bytes: &mut Vec<u8>) {
    let Some(number) = sound.some_read(random) else {
        return;
    };
    let read = &sound.model.reads[number];
    if read.bases.is_empty() {
        return;
    }
    let flows = read.values.len();
    let first = sound.layout.reads[number].1.start + 2 * flows;
    let walked = positions(&read.increments);
    let base = random.below(walked.len());
    let before = if base == 0 { 0 } else { walked[base - 1] };
    match random.below(7) {
        0 | 1 => set_byte(bytes, first, 0),
        2 | 3 => set(bytes, first + base, 1, (flows + 1 - before).min(255) as u64),
        4 => set_byte(bytes, first + base, random.pick(&[255, 128, 254])),
        5 => {
            let value = random.byte();
            set_byte(bytes, first + base, value);
        }
        // positions instead of increments
        _ => {
            for (base, position) in walked.iter().enumerate() {
                set(bytes, first + base, 1, (*position).min(255) as u64);
            }
        }
    }
}

/// A base that is not the one of its flow, or N.
fn base(random: &mut Random, sound: &Sound, bytes: &mut Vec<u8>) {
    let Some(number) = sound.some_read(random) else {
        return;
    };
    let read = &sound.model.reads[number];
    let count = read.bases.len();
    if count == 0 {
        return;
    }
    let flows = &sound.model.flows;
    let start = sound.layout.reads[number].1.start + 2 * flows.len() + count;
    let walked = positions(&read.increments);
    for _ in 0..random.pick(&[1, 1, 2]) {
        let base = random.below(count);
        let flow = walked[base];
        let value = match random.below(8) {
            0 => b'N',
            1 => flows[flow % flows.len()], // of the flow after it
            2 => flows[(flow + flows.len() - 2) % flows.len()], // of the flow before it
            3 => flows[flow - 1].to_ascii_lowercase(),
            4 => random.pick(&[0, b'n', b'-', b'.', 255]),
            _ => random.pick(b"ACGT"),
        };
        set_byte(bytes, start + base, value);
    }
}

fn data_padding(random: &mut Random, sound: &Sound, bytes: &mut Vec<u8>) {
    if let Some(read) = sound.some_read(random) {
        pad(random, sound.layout.reads[read].1, bytes);
    }
}

/// Ends the file inside a section, at one of its edges or anywhere.
fn cut(random: &mut Random, sound: &Sound, bytes: &mut Vec<u8>) {
    let span = sound.some_section(random);
    let inside = random.between(span.start, span.end);
    let lengths = [
        span.start,
        span.start + 1,
        span.start + 7,
        span.start + 8,
        span.start + 15,
        span.start + 16,
        span.start + 17,
        span.padding.saturating_sub(1),
        span.padding,
        span.end.saturating_sub(8),
        span.end.saturating_sub(1),
        span.end.saturating_sub(1),
        inside,
        random.pick(&[0, 1, 30, 31, 32]),
    ];
    let length = random.pick(&lengths);
    bytes.truncate(length);
}

/// An index offset and an index length of any kind.
fn index_fields(random: &mut Random, sound: &Sound, bytes: &mut Vec<u8>) {
    let file = bytes.len() as u64;
    let section = sound.some_section(random);
    let boundary = random.pick(&sound.layout.boundaries()) as u64;
    let inside = random.between(section.start, section.end) as u64;
    let offset = match random.below(8) {
        0 | 1 => boundary,
        2 => random.pick(&[boundary - 1, boundary + 1, boundary - 8, boundary + 8]),
        3 => random.pick(&[section.start as u64, inside, inside / 8 * 8]),
        4 => random.pick(&[
            file,
            file,
            file,
            file.wrapping_sub(1),
            file + 1,
            file + 8,
            2 * file,
        ]),
        5 => random.pick(&[0, 1, 8, 24, 31]),
        // A boundary in the low bits only, and places near 2^64.
        6 => boundary + random.pick(&[1 << 16, 1 << 32, 1 << 48, 1 << 63]),
        _ => random.pick(&[
            u64::MAX,
            u64::MAX - 7,
            u64::MAX - 15,
            1 << 63,
            u64::MAX - boundary,
        ]),
    };
    let left = file.saturating_sub(offset);
    let to_section_end = (section.end as u64).saturating_sub(offset);
    let length = match random.below(8) {
        0 | 1 => 8,
        2 => random.pick(&[left, left + 8, left.wrapping_sub(8), left + 1, left / 8 * 8]),
        3 => to_section_end,
        4 => random.pick(&[4, 12, 7, 9, 1, 15, 20]),
        5 => random.pick(&[
            (1 << 32) - 8,
            (1 << 32) - 16,
            (1 << 32) - 1,
            1 << 31,
            (1 << 16) + 8,
        ]),
        6 => 0,
        _ => 8 * random.between(1, 12) as u64,
    };
    // Sometimes only one field is touched.
    let both = !random.one_in(4);
    let offset_alone = random.one_in(2);
    if both || offset_alone {
        set(bytes, 8, 8, offset);
    }
    if both || !offset_alone {
        set(bytes, 16, 4, length);
    }
}

/// Declares a read's own bytes to be the index, with the count that then fits or the old one.
fn index_over_a_read(random: &mut Random, sound: &Sound, bytes: &mut Vec<u8>) {
    if let Some(read) = sound.some_read(random) {
        let (header, data) = sound.layout.reads[read];
        let length = (data.end - header.start) as u64;
        set(bytes, 8, 8, header.start as u64);
        set(
            bytes,
            16,
            4,
            random.pick(&[length, length, length, length + 8, length - 8]),
        );
        if !random.one_in(3) {
            set(bytes, 20, 4, sound.model.reads.len() as u64 - 1);
        }
    }
}

fn read_count(random: &mut Random, sound: &Sound, bytes: &mut Vec<u8>) {
    let count = sound.model.reads.len() as u64;
    let fewer = count.saturating_sub(1);
    let counts = [
        0,
        fewer,
        fewer,
        count + 1,
        count + 1,
        count + 256,
        count + 65_536,
        4_294_967_295,
    ];
    set(bytes, 20, 4, random.pick(&counts));
}

/// Bytes behind the last section: zeros, anything, or one more read.
fn trailing(random: &mut Random, sound: &Sound, bytes: &mut Vec<u8>) {
    let count = random.pick(&[1, 2, 7, 8, 15, 16, 24, 40]);
    match random.below(4) {
        0 => bytes.extend(random.bytes(count)),
        1 if !sound.model.reads.is_empty() => {
            append_read(bytes, &sound.model.reads[0]);
        }
        _ => bytes.extend(vec![0; count]),
    }
}

/// A bit or a byte changed anywhere.
fn flip(random: &mut Random, _: &Sound, bytes: &mut Vec<u8>) {
    if !bytes.is_empty() {
        let place = random.below(bytes.len());
        let change = if random.one_in(2) {
            1 << random.below(8)
        } else {
            random.byte()
        };
        bytes[place] ^= change;
    }
}

pub fn damaged(random: &mut Random, damages: usize) -> Vec<u8> {
    // Few reads, so that two damages often meet in one of them.
    let reads = random.pick(&[0, 1, 1, 1, 1, 1, 2, 2, 3]);
    let model = model(random, reads);
    damaged_from(random, model, damages)
}

/// A damaged file of this model.
pub fn damaged_from(random: &mut Random, model: Model, damages: usize) -> Vec<u8> {
    let layout = lay_out(&model);
    let sound = Sound { model, layout };
    let mut bytes = sound.layout.bytes.clone();
    let mut part = group(random);
    let mut at = random.below(part.len());
    for _ in 0..damages {
        let before = bytes.clone();
        // Not every damage finds what it would change: a file without reads has no clips.
        for _ in 0..5 {
            part[at](random, &sound, &mut bytes);
            if bytes != before {
                break;
            }
            at = random.below(part.len());
        }
        // The next one mostly falls on the same part, and often on the test before or after, so that the
        // order of its tests matters.
        if random.one_in(3) {
            part = group(random);
        }
        at = match random.below(2) {
            0 => (at + random.pick(&[1, part.len() - 1])) % part.len(),
            _ => random.below(part.len()),
        };
    }
    bytes
}

// Files near the greatest size, and beyond it.

pub fn large(random: &mut Random) -> Vec<u8> {
    match random.below(7) {
        0 => filled(random, 65_536),
        1 | 6 => {
            let size = random.pick(&[65_520, 65_528, 65_536, 65_536, 65_536]);
            let mut bytes = filled(random, size);
            bytes.extend(vec![0; random.pick(&[1, 1, 1, 7, 8, 9, 4_464, 134_464])]);
            bytes
        }
        2 => {
            let mut bytes = filled(random, 65_536);
            bytes.truncate(random.pick(&[65_535, 65_529, 65_528]));
            bytes
        }
        3 => {
            // A read of very many bases, or of very many flows.
            let (flow_count, bases) = random.pick(&[(1, 21_000), (300, 20_000), (20_000, 700)]);
            let flows = flow_characters(random, flow_count);
            let reads = vec![read(random, &flows, bases)];
            lay_out(&Model {
                flows,
                key: vec![],
                reads,
                index: None,
            })
            .bytes
        }
        4 => {
            // A header as long as its field allows; and a name that fills the file.
            if random.one_in(2) {
                let flow_count = random.pick(&[0, 1, 30_000, 65_497]);
                let flows = flow_characters(random, flow_count);
                let key = letters(random, 65_497 - flow_count);
                lay_out(&Model {
                    flows,
                    key,
                    reads: vec![],
                    index: None,
                })
                .bytes
            } else {
                let mut long = read(random, &[], 0);
                long.name = vec![b'~'; random.pick(&[65_488, 65_487, 65_480, 65_489, 65_512])];
                lay_out(&Model {
                    flows: vec![],
                    key: vec![],
                    reads: vec![long],
                    index: None,
                })
                .bytes
            }
        }
        _ => {
            // As many reads as there can be, and one more.
            let mut small = read(random, &[], 0);
            small.name.clear();
            let reads = vec![small; random.pick(&[4_094, 4_095, 1_000])];
            lay_out(&Model {
                flows: vec![],
                key: vec![],
                reads,
                index: None,
            })
            .bytes
        }
    }
}

/// A valid file of just this size, a multiple of 8: its last part is an index.
fn filled(random: &mut Random, size: usize) -> Vec<u8> {
    let mut model = model(random, 2);
    model.index = None;
    let used = lay_out(&model).bytes.len();
    model.index = Some(Index {
        after: 2,
        bytes: vec![random.byte(); size - used],
    });
    lay_out(&model).bytes
}

/// Bytes that are hardly a file, or only begin as one.
pub fn junk(random: &mut Random) -> Vec<u8> {
    let length = random.pick(&[0, 1, 4, 30, 31, 32, 33, 40, 100]);
    let mut bytes = if random.one_in(2) {
        vec![0; length]
    } else {
        random.bytes(length)
    };
    let start = b".sff\0\0\0\x01\0\0\0\0\0\0\0\0\0\0\0\0\0\0\0\0\0\x20\0\0\0\0\x01";
    let kept = random.between(0, start.len()).min(length);
    bytes[..kept].copy_from_slice(&start[..kept]);
    bytes
}

/// The random numbers of input `number` of this seed.
pub fn numbers(seed: u64, number: u64) -> Random {
    let start = Random::new(seed).next() ^ number.wrapping_mul(0xD134_2543_DE82_EF95);
    Random::new(start)
}

/// Input `number` of this seed.
pub fn input(seed: u64, number: u64) -> Vec<u8> {
    let mut random = numbers(seed, number);
    match random.below(100) {
        0..=21 => valid(&mut random),
        22..=24 => large(&mut random),
        25..=26 => junk(&mut random),
        27..=61 => damaged(&mut random, 1),
        62..=94 => damaged(&mut random, 2),
        _ => damaged(&mut random, 3),
    }
}

/// Valid file `number` of this seed.
pub fn valid_input(seed: u64, number: u64) -> Vec<u8> {
    valid(&mut Random::new(
        seed ^ number.wrapping_mul(0xD134_2543_DE82_EF95),
    ))
}
