//! Inputs for the filters: blocks of up to ten layers, single layers, data to encode, SCF samples, and
//! the buffers for them. A call's input follows from the seed and its number alone. Blocks are laid out
//! here by code of its own, so that a slip in `filters` shows.

#![allow(dead_code)]

use crate::inputs::{numbers, Random};

pub const FORMATS: [u8; 6] = [64, 65, 66, 70, 71, 72];

/// Formats that are none of ours, most of them beside one that is.
const OTHER_FORMATS: [u8; 14] = [1, 2, 3, 32, 62, 63, 67, 68, 69, 73, 74, 128, 192, 255];

// Laying out.

/// A layer as its fields; level and follow bytes count only where the format has them.
#[derive(Clone)]
pub struct Layer {
    pub format: u8,
    pub level: u8,
    pub follow: Vec<u8>,
}

impl Layer {
    pub fn delta(format: u8, level: u8) -> Layer {
        Layer {
            format,
            level,
            follow: vec![],
        }
    }

    pub fn short(format: u8) -> Layer {
        Layer::delta(format, 0)
    }

    pub fn follow(follow: Vec<u8>) -> Layer {
        Layer {
            format: 72,
            level: 0,
            follow,
        }
    }

    /// The block of this layer over some bytes. Bytes after the last whole unit stay as they are, or
    /// follow a 128.
    pub fn block(&self, inside: &[u8]) -> Vec<u8> {
        self.block_with(inside, |_| false)
    }

    /// The same, with small values whole where that is chosen by their unit's number.
    pub fn block_with(&self, inside: &[u8], is_whole: impl FnMut(usize) -> bool) -> Vec<u8> {
        let mut block = vec![self.format];
        match self.format {
            64..=66 => {
                block.push(self.level);
                block.extend(vec![0; if self.format == 66 { 2 } else { 0 }]);
                block.extend(levelled(inside, unit_width(self.format), self.level));
            }
            70 | 71 => block.extend(short_forms(inside, unit_width(self.format), is_whole)),
            _ => {
                block.extend(&self.follow);
                for (at, byte) in inside.iter().enumerate() {
                    block.push(match at {
                        0 => *byte,
                        _ => self.follow[usize::from(inside[at - 1])].wrapping_sub(*byte),
                    });
                }
            }
        }
        block
    }
}

pub fn unit_width(format: u8) -> usize {
    match format {
        65 | 70 => 2,
        66 | 71 => 4,
        _ => 1,
    }
}

pub fn header_length(format: u8) -> usize {
    match format {
        64 | 65 => 2,
        66 => 4,
        72 => 257,
        _ => 1,
    }
}

/// What a unit and those before it count for in a difference of each level, worked out by hand; a unit
/// before the first is 0.
const WEIGHTS: [&[i64]; 4] = [&[1], &[1, -1], &[1, -2, 1], &[1, -3, 3, -1]];

pub fn levelled(inside: &[u8], width: usize, level: u8) -> Vec<u8> {
    let whole = inside.len() / width * width;
    let units: Vec<i64> = inside[..whole].chunks(width).map(value).collect();
    let mut bytes = Vec::new();
    for at in 0..units.len() {
        let weights = WEIGHTS[usize::from(level)].iter().take(at + 1).enumerate();
        let sum: i64 = weights
            .map(|(back, weight)| weight * units[at - back])
            .sum();
        bytes.extend(&sum.to_be_bytes()[8 - width..]);
    }
    bytes.extend(&inside[whole..]);
    bytes
}

/// The number that some bytes are, without a sign.
fn value(unit: &[u8]) -> i64 {
    unit.iter()
        .fold(0, |all, byte| all * 256 + i64::from(*byte))
}

fn short_forms(inside: &[u8], width: usize, mut is_whole: impl FnMut(usize) -> bool) -> Vec<u8> {
    let mut bytes = Vec::new();
    for (at, unit) in inside.chunks(width).enumerate() {
        let above = 1 << (8 * width);
        let value = match value(unit) {
            high if high >= above / 2 => high - above,
            low => low,
        };
        if unit.len() == width && value.abs() < 128 && !is_whole(at) {
            bytes.push(value as u8);
        } else {
            bytes.push(128);
            bytes.extend(unit);
        }
    }
    bytes
}

// Data.

fn length(random: &mut Random) -> usize {
    match random.below(400) {
        0 => random.between(6_000, 20_000),
        1..=4 => random.between(1_000, 5_000),
        5..=40 => 0,
        41..=70 => 1,
        71..=150 => random.between(2, 9),
        151..=340 => random.between(3, 60),
        _ => random.between(60, 600),
    }
}

/// Values at the edges of a byte and of units.
const EDGES: [i64; 20] = [
    -32_768, -32_767, -256, -255, -130, -129, -128, -127, -126, -1, 0, 1, 126, 127, 128, 129, 255,
    256, 32_767, 65_408,
];

/// One of the data's units of this shape.
fn shaped(random: &mut Random, shape: usize, at: usize, [start, step]: [i64; 2]) -> i64 {
    match shape {
        0 => start.wrapping_add(step.wrapping_mul(at as i64)),
        1 => random.between(0, 20) as i64 - 10,
        2 => i64::from_be_bytes([128; 8]),
        3 => random.pick(&[0, -1]),
        4 | 5 => random.pick(&EDGES),
        6 => 500 - (at as i64 % 40 - 20).abs() * 25,
        7 if !random.one_in(12) => random.between(0, 254) as i64 - 127,
        _ => random.next() as i64,
    }
}

/// Data of about this length, in units of `width` bytes.
fn in_units(random: &mut Random, length: usize, width: usize) -> Vec<u8> {
    let shape = random.below(10);
    let ramp = [
        random.next() as i64 >> random.pick(&[0, 48]),
        random.between(0, 400) as i64 - 200,
    ];
    let mut bytes = Vec::new();
    for at in 0..length.div_ceil(width) {
        let value = shaped(random, shape, at, ramp);
        bytes.extend(&value.to_be_bytes()[8 - width..]);
    }
    bytes
}

fn data(random: &mut Random) -> Vec<u8> {
    let (length, width) = (length(random), random.pick(&[1, 2, 4, 4]));
    let mut bytes = in_units(random, length, width);
    if random.one_in(2) {
        bytes.truncate(length);
    }
    bytes
}

/// Data for a block of format 0; often padded in front so that the units of the whole block are those
/// of the data, as document 002 has it.
fn raw_data(random: &mut Random) -> Vec<u8> {
    let width = random.pick(&[1, 2, 4, 4]);
    if random.one_in(4) {
        return data(random);
    }
    let length = length(random);
    let mut bytes = vec![0; width - 1];
    bytes.extend(in_units(random, length, width));
    bytes
}

pub fn follow_bytes(random: &mut Random, inside: &[u8]) -> Vec<u8> {
    match random.below(40) {
        0 => most_frequent(inside),
        1..=8 => (0..=255).collect(),
        9..=16 => vec![random.byte(); 256],
        _ => random.bytes(256),
    }
}

/// Document 002: "For each symbol we compute the most frequent symbol following it."
pub fn most_frequent(inside: &[u8]) -> Vec<u8> {
    let mut counts = vec![[0_u32; 256]; 256];
    for pair in inside.windows(2) {
        counts[usize::from(pair[0])][usize::from(pair[1])] += 1;
    }
    let most = |of: &[u32; 256]| (0..=255).max_by_key(|byte: &u8| of[usize::from(*byte)]);
    counts.iter().map(|of| most(of).expect("one")).collect()
}

// Layers, and what can be wrong with them.

/// A layer over these bytes; now and then one whose units do not fit them.
fn layer(random: &mut Random, inside: &[u8]) -> Layer {
    let fits = |format: &u8| inside.len() % unit_width(*format) == 0;
    let mut fitting: Vec<u8> = FORMATS.into_iter().filter(fits).collect();
    // The widest fit the fewest.
    fitting.sort_by_key(|format| unit_width(*format));
    let format = match random.below(20) {
        0 => random.pick(&FORMATS),
        1..=7 => random.pick(&fitting[fitting.len() - 2..]),
        _ => random.pick(&fitting),
    };
    Layer {
        format,
        level: random.between(1, 3) as u8,
        follow: match format {
            72 => follow_bytes(random, inside),
            _ => vec![],
        },
    }
}

/// The block of a layer over these bytes, sometimes with small values whole.
fn enclose(random: &mut Random, inside: &[u8]) -> Vec<u8> {
    let layer = layer(random, inside);
    if random.one_in(2) {
        return layer.block(inside);
    }
    let chances = random.pick(&[1, 3, 20]);
    layer.block_with(inside, |_| random.one_in(chances))
}

type Fault = fn(&mut Random, &mut Vec<u8>);

const FAULTS: [Fault; 12] = [
    emptied,
    cut_in_header,
    cut_in_header,
    other_format,
    another_filter,
    wrong_level,
    wrong_level,
    wrong_zeros,
    wrong_end,
    cut_after_128,
    cut_after_128,
    any_byte,
];

/// Not every fault can be made in every block; some are tried until one shows.
fn spoil(random: &mut Random, block: &mut Vec<u8>) {
    let before = block.clone();
    for _ in 0..5 {
        let fault = random.pick(&FAULTS);
        fault(random, block);
        if *block != before {
            return;
        }
    }
}

/// An empty block (40), or one that gives an empty block
fn emptied(random: &mut Random, block: &mut Vec<u8>) {
    let format = block.first().copied().unwrap_or(0);
    block.truncate(random.pick(&[0, header_length(format)]));
}

/// A header cut short (40), with any level
fn cut_in_header(random: &mut Random, block: &mut Vec<u8>) {
    let format = block.first().copied().unwrap_or(0);
    let most = header_length(format) - 1;
    let any = random.between(most.min(1), most);
    let kept = random.pick(&[most, any]);
    block.truncate(kept.max(1));
    if block.len() > 1 && random.one_in(3) {
        block[1] = random.byte();
    }
}

/// Another format (41)
fn other_format(random: &mut Random, block: &mut Vec<u8>) {
    let format = random.pick(&OTHER_FORMATS);
    match block.first_mut() {
        Some(first) => *first = format,
        None => block.push(format),
    }
}

fn another_filter(random: &mut Random, block: &mut Vec<u8>) {
    if let Some(first) = block.first_mut() {
        *first = random.pick(&FORMATS);
    }
}

/// A level that is not 1 to 3 (42)
fn wrong_level(random: &mut Random, block: &mut Vec<u8>) {
    if let [64..=66, level, ..] = &mut block[..] {
        *level = match random.below(4) {
            0 => random.between(4, 255) as u8,
            _ => random.pick(&[0, 4, 255]),
        };
    }
}

/// One or both of the zeros of format 66 wrong (42)
fn wrong_zeros(random: &mut Random, block: &mut Vec<u8>) {
    if let [66, _, third, fourth, ..] = &mut block[..] {
        let value = random.between(1, 255) as u8;
        match random.below(3) {
            0 => *third = value,
            1 => *fourth = value,
            _ => (*third, *fourth) = (value, value),
        }
    }
}

/// Some bytes more or fewer: not whole units (43) where these have several bytes.
fn wrong_end(random: &mut Random, block: &mut Vec<u8>) {
    let count = random.between(1, 3);
    if random.one_in(2) {
        block.extend(random.bytes(count));
    } else {
        let header = block.first().map_or(0, |format| header_length(*format));
        block.truncate(block.len().saturating_sub(count).max(header));
    }
}

/// In formats 70 and 71 a last 128 with too few bytes after it (43); sometimes just as many as a unit has.
fn cut_after_128(random: &mut Random, block: &mut Vec<u8>) {
    if let Some(format @ (70 | 71)) = block.first().copied() {
        let count = random.between(0, unit_width(format));
        block.push(128);
        block.extend(random.bytes(count));
    }
}

fn any_byte(random: &mut Random, block: &mut Vec<u8>) {
    if !block.is_empty() {
        let place = random.below(block.len());
        block[place] = random.byte();
    }
}

// Blocks of several layers.

pub struct UndoCall {
    pub block: Vec<u8>,
    /// Two buffers, filled with anything.
    pub first: Vec<u8>,
    pub second: Vec<u8>,
    /// What comes out of it, where nothing was spoiled and there is room.
    pub data: Option<Vec<u8>>,
    /// How many layers it was given.
    pub layers: usize,
}

fn depth(random: &mut Random) -> usize {
    match random.below(20) {
        0 => 0,
        1..=5 => 1,
        6..=9 => 2,
        10..=11 => 3,
        12..=13 => random.between(4, 7),
        14..=16 => 8,
        17..=18 => 9,
        _ => 10,
    }
}

/// What stands under all filters: mostly a block of format 0, else another format or nothing.
fn innermost(random: &mut Random, data: &[u8]) -> Vec<u8> {
    let mut block = vec![0];
    block.extend(data);
    match random.below(30) {
        0 | 1 => other_format(random, &mut block),
        2 => block.clear(),
        _ => {}
    }
    block
}

/// A block and what is known of it.
struct Nest {
    block: Vec<u8>,
    /// What the layers give, from the innermost.
    results: Vec<usize>,
    is_right: bool,
}

/// Layers over data, none, one or two of them spoiled.
fn nest(random: &mut Random, data: &[u8], depth: usize) -> Nest {
    let mut block = innermost(random, data);
    let mut is_right = block.first() == Some(&0) && depth <= 8;
    let mut results = vec![];
    let damages = random.pick(&[0, 0, 1, 1, 2]);
    let mut spoiled = vec![];
    for _ in 0..damages {
        let any = random.below(depth.max(1));
        spoiled.push(random.pick(&[0, any]));
    }
    for at in 0..depth {
        results.push(block.len());
        let inside = block;
        block = enclose(random, &inside);
        is_right &= inside.len() % unit_width(block[0]) == 0 && !spoiled.contains(&at);
        for _ in spoiled.iter().filter(|layer| **layer == at) {
            spoil(random, &mut block);
        }
    }
    if depth == 0 {
        results.push(data.len());
    }
    Nest {
        block,
        results,
        is_right,
    }
}

pub fn undo_call(seed: u64, number: u64) -> UndoCall {
    let random = &mut numbers(seed ^ 2, number);
    let (data, depth) = (raw_data(random), depth(random));
    let nest = nest(random, &data, depth);
    let (first, second) = buffers(random, &nest.results);
    let room = first.len().min(second.len());
    let fits = nest.results.iter().all(|length| *length <= room);
    UndoCall {
        block: nest.block,
        first,
        second,
        data: (nest.is_right && fits).then_some(data),
        layers: depth,
    }
}

/// Two buffers, the shorter of a length around those of the results; each is longer at times.
fn buffers(random: &mut Random, lengths: &[usize]) -> (Vec<u8>, Vec<u8>) {
    let most = *lengths.iter().max().expect("one length");
    let some = random.pick(lengths);
    let room = match random.below(24) {
        0..=8 => most,
        9..=10 => most.saturating_sub(1),
        11 => some,
        12..=13 => some.saturating_sub(1),
        14 => 0,
        15 => random.between(0, most),
        16 => most + 1,
        _ => most + random.between(1, 300),
    };
    let more = random.pick(&[0, 0, 1, 2, 9, 300]);
    let (shorter, longer) = (random.bytes(room), random.bytes(room + more));
    if random.one_in(2) {
        (shorter, longer)
    } else {
        (longer, shorter)
    }
}

// Single layers.

/// A layer over bytes of any sort: it need not give a block.
pub fn layer_call(seed: u64, number: u64) -> UndoCall {
    let random = &mut numbers(seed ^ 3, number);
    let inside = data(random);
    let mut block = enclose(random, &inside);
    let mut is_right = inside.len() % unit_width(block[0]) == 0;
    if random.one_in(2) {
        is_right = false;
        for _ in 0..random.pick(&[1, 1, 2, 3]) {
            spoil(random, &mut block);
        }
    }
    if random.one_in(20) && !block.is_empty() {
        is_right = false;
        block[0] = random.pick(&[0, 0, 1, 2, 63, 67, 69, 73, 255]);
    }
    let (first, second) = buffers(random, &[inside.len()]);
    is_right &= first.len().min(second.len()) >= inside.len();
    UndoCall {
        block,
        first,
        second,
        data: is_right.then_some(inside),
        layers: 1,
    }
}

// Encoding.

pub struct EncodeCall {
    pub format: u64,
    pub level: u64,
    pub follow: Vec<u8>,
    pub data: Vec<u8>,
    /// Filled with anything.
    pub out: Vec<u8>,
    /// What is written, where nothing is refused.
    pub block: Option<Vec<u8>>,
}

/// Numbers that are far too high, though their lowest byte or lowest four are not.
fn too_high(random: &mut Random, low: u64) -> u64 {
    random.pick(&[
        (1 << 8) + low,
        (1 << 16) + low,
        (1 << 32) + low,
        (1 << 63) + low,
        u64::MAX,
        u64::MAX - 255 + low % 256,
    ])
}

fn any_format(random: &mut Random) -> u64 {
    let known = u64::from(random.pick(&FORMATS));
    match random.below(40) {
        0..=33 => known,
        34 => 0,
        35..=36 => u64::from(random.pick(&OTHER_FORMATS)),
        37..=38 => too_high(random, known),
        _ => random.next(),
    }
}

fn any_level(random: &mut Random) -> u64 {
    let known = random.between(1, 3) as u64;
    match random.below(20) {
        0..=14 => known,
        15..=17 => random.pick(&[0, 4, 5, 255]),
        18 => too_high(random, known),
        _ => random.next(),
    }
}

pub fn encode_call(seed: u64, number: u64) -> EncodeCall {
    let random = &mut numbers(seed ^ 4, number);
    let (format, level) = (any_format(random), any_level(random));
    let mut data = data(random);
    let width = unit_width(format as u8);
    if !random.one_in(6) {
        data.truncate(data.len() / width * width);
    }
    let mut follow = follow_bytes(random, &data);
    if format != 72 || random.one_in(4) {
        let length = random.pick(&[0, 1, 128, 255, 256, 257, 512]);
        follow.resize(length, random.byte());
    }
    let is_right = match format {
        64..=66 => (1..=3).contains(&level) && data.len() % width == 0,
        70 | 71 => data.len() % width == 0,
        72 => follow.len() == 256,
        _ => false,
    };
    let layer = Layer {
        format: format as u8,
        level: level as u8,
        follow: follow.clone(),
    };
    let block = is_right.then(|| layer.block(&data));
    let enough = block.as_ref().map_or(data.len(), Vec::len);
    let room = out_length(random, enough);
    EncodeCall {
        format,
        level,
        follow,
        data,
        out: random.bytes(room),
        block: block.filter(|_| room >= enough),
    }
}

fn out_length(random: &mut Random, enough: usize) -> usize {
    match random.below(16) {
        0..=5 => enough,
        6..=7 => enough.saturating_sub(1),
        8 => 0,
        9 => random.between(0, enough),
        10 => enough + 1,
        _ => enough + random.between(1, 300),
    }
}

// SCF samples.

pub struct ScfCall {
    pub precision: u64,
    pub is_undo: bool,
    pub data: Vec<u8>,
    /// Filled with anything.
    pub out: Vec<u8>,
}

pub fn scf_call(seed: u64, number: u64) -> ScfCall {
    let random = &mut numbers(seed ^ 5, number);
    let known = random.between(1, 2) as u64;
    let precision = match random.below(16) {
        0..=11 => known,
        12..=13 => random.pick(&[0, 3, 4]),
        14 => too_high(random, known),
        _ => random.next(),
    };
    let data = data(random);
    let room = out_length(random, data.len());
    ScfCall {
        precision,
        is_undo: random.one_in(2),
        out: random.bytes(room),
        data,
    }
}
