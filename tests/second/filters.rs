//! The filters, written a second time from document 01 alone and sharing nothing with the product.
//! What stands in quotes is that document's wording.

// Each program that takes this module in uses only a part of it.
#![allow(dead_code)]

/// "opens the next layer, eight at most"
const MOST_FILTERS: usize = 8;

/// What stands before a unit whole in formats 70 and 71.
const WHOLE: u8 = 128;

/// Why a call is refused.
#[derive(Clone, Copy, Debug, PartialEq, Eq)]
pub enum Refused {
    Empty,
    Format,
    Ninth,
    Header,
    Level,
    Units,
    Room,
}

impl Refused {
    pub fn number(self) -> u64 {
        match self {
            Refused::Empty | Refused::Header => 40,
            Refused::Format => 41,
            Refused::Level => 42,
            Refused::Units => 43,
            Refused::Ninth => 44,
            Refused::Room => 26,
        }
    }
}

/// What a call answers: "a filter the number of bytes it made"
pub type Made = Result<usize, Refused>;

/// Number and bytes made; "(refused: 0)".
pub fn numbers(made: Made) -> (u64, u64) {
    match made {
        Ok(length) => (0, length as u64),
        Err(refused) => (refused.number(), 0),
    }
}

/// The name of an answer, for the counts. The two reasons of 40 are told apart.
pub fn name(made: Made) -> String {
    match made {
        Err(Refused::Empty) => "40 empty".to_string(),
        Err(Refused::Header) => "40 header".to_string(),
        _ => numbers(made).0.to_string(),
    }
}

/// A filter, with the width of its units where it has some.
#[derive(Clone, Copy)]
enum Filter {
    Delta(usize),
    Shorten(usize),
    Follow,
}

impl Filter {
    /// "format not 64 to 66 or 70 to 72" is refused.
    fn of(format: u64) -> Result<Filter, Refused> {
        match format {
            64 => Ok(Filter::Delta(1)),
            65 => Ok(Filter::Delta(2)),
            66 => Ok(Filter::Delta(4)),
            70 => Ok(Filter::Shorten(2)),
            71 => Ok(Filter::Shorten(4)),
            72 => Ok(Filter::Follow),
            _ => Err(Refused::Format),
        }
    }

    /// The bytes before the data, the format among them.
    fn header_length(self) -> usize {
        match self {
            Filter::Delta(4) => 4, // "(66: then two zeros)"
            Filter::Delta(_) => 2,
            Filter::Shorten(_) => 1,
            Filter::Follow => 1 + 256,
        }
    }
}

// Undoing.

/// A whole block, down to the data of format 0.
pub fn undo(block: &[u8], first: &mut [u8], second: &mut [u8]) -> Made {
    let room = first.len().min(second.len());
    leave(open_all(block, room), first, second)
}

/// "One layer of these six formats (any other is 41) can be undone alone, with the same refusals and
/// buffers."
pub fn undo_layer(block: &[u8], first: &mut [u8], second: &mut [u8]) -> Made {
    let room = first.len().min(second.len());
    let opened = format(block)
        .and_then(Filter::of)
        .and_then(|filter| open(filter, block, room));
    leave(opened, first, second)
}

/// "On success the first buffer holds the data, then zeros; the other is zero. A refusal zeroes both."
fn leave(opened: Result<Vec<u8>, Refused>, first: &mut [u8], second: &mut [u8]) -> Made {
    first.fill(0);
    second.fill(0);
    let data = opened?;
    first[..data.len()].copy_from_slice(&data);
    Ok(data.len())
}

/// "Undoing a filter gives another block, until format 0."
fn open_all(block: &[u8], room: usize) -> Result<Vec<u8>, Refused> {
    let mut block = block.to_vec();
    let mut opened = 0;
    loop {
        let format = format(&block)?;
        if format == 0 {
            return within(room, block.split_off(1));
        }
        let filter = Filter::of(format)?;
        if opened == MOST_FILTERS {
            return Err(Refused::Ninth);
        }
        block = open(filter, &block, room)?;
        opened += 1;
    }
}

/// "Byte 0 is the format."
fn format(block: &[u8]) -> Result<u64, Refused> {
    let byte = block.first().ok_or(Refused::Empty)?;
    Ok(u64::from(*byte))
}

/// What one filter gives, after the format is known: "40 header cut short; 42 level or zeros wrong; 43
/// data not whole units, or 128 with too few bytes after it; 26 a result above the room".
fn open(filter: Filter, block: &[u8], room: usize) -> Result<Vec<u8>, Refused> {
    if block.len() < filter.header_length() {
        return Err(Refused::Header);
    }
    let (header, data) = block.split_at(filter.header_length());
    let result = match filter {
        Filter::Delta(width) => {
            let level = known_level(u64::from(header[1]))?;
            if header[2..].iter().any(|byte| *byte != 0) {
                return Err(Refused::Level);
            }
            summed(data, width, level)?
        }
        Filter::Shorten(width) => whole_units(data, width)?,
        Filter::Follow => followed(&header[1..], data),
    };
    within(room, result)
}

/// 26: "a result above the room"
fn within(room: usize, result: Vec<u8>) -> Result<Vec<u8>, Refused> {
    if result.len() > room {
        return Err(Refused::Room);
    }
    Ok(result)
}

// Encoding.

/// "Encoding one layer refuses 41 (format not 64 to 66 or 70 to 72), 42 (level, or follow bytes not 256
/// for 72), 43, 26 in that order, changing nothing; success writes the block only."
pub fn encode(format: u64, level: u64, follow: &[u8], data: &[u8], out: &mut [u8]) -> Made {
    let block = match Filter::of(format)? {
        Filter::Delta(width) => {
            let level = known_level(level)?;
            let zeros: &[u8] = if width == 4 { &[0, 0] } else { &[] };
            let header = [&[format as u8, level as u8], zeros].concat();
            [header, differences(data, width, level)?].concat()
        }
        Filter::Shorten(width) => [vec![format as u8], shortened(data, width)?].concat(),
        Filter::Follow => {
            if follow.len() != 256 {
                return Err(Refused::Level);
            }
            [&[format as u8], follow, &foretold(follow, data)].concat()
        }
    };
    put(&block, out)
}

fn put(bytes: &[u8], out: &mut [u8]) -> Made {
    if bytes.len() > out.len() {
        return Err(Refused::Room);
    }
    out[..bytes.len()].copy_from_slice(bytes);
    Ok(bytes.len())
}

// SCF samples.

pub fn scf_encode(precision: u64, samples: &[u8], out: &mut [u8]) -> Made {
    let width = sample_width(precision)?;
    put(&differences(samples, width, 2)?, out)
}

pub fn scf_undo(precision: u64, samples: &[u8], out: &mut [u8]) -> Made {
    let width = sample_width(precision)?;
    put(&summed(samples, width, 2)?, out)
}

/// "SCF samples of precision 1 or 2 are level 2 without block bytes"
fn sample_width(precision: u64) -> Result<usize, Refused> {
    match precision {
        1 => Ok(1),
        2 => Ok(2),
        _ => Err(Refused::Level),
    }
}

// Levels: "n times over: each unit less the one before, modulo the unit's range, the first less 0".

/// "level byte, 1 to 3 here"
fn known_level(level: u64) -> Result<usize, Refused> {
    match level {
        1..=3 => Ok(level as usize),
        _ => Err(Refused::Level),
    }
}

/// Units as numbers: "data in units of 1, 2, 4 bytes".
fn units(data: &[u8], width: usize) -> Result<Vec<u32>, Refused> {
    if data.len() % width != 0 {
        return Err(Refused::Units);
    }
    let number = |unit: &[u8]| unit.iter().fold(0, |all, byte| all << 8 | u32::from(*byte));
    Ok(data.chunks(width).map(number).collect())
}

/// The low bytes of each number: what is right modulo 2^32 is so modulo each smaller range.
fn unit_bytes(units: &[u32], width: usize) -> Vec<u8> {
    let low = |unit: &u32| unit.to_be_bytes().into_iter().skip(4 - width);
    units.iter().flat_map(low).collect()
}

fn differences(data: &[u8], width: usize, level: usize) -> Result<Vec<u8>, Refused> {
    let mut units = units(data, width)?;
    for _ in 0..level {
        let mut before = 0;
        for unit in &mut units {
            let difference = unit.wrapping_sub(before);
            before = *unit;
            *unit = difference;
        }
    }
    Ok(unit_bytes(&units, width))
}

/// Differences undone.
fn summed(data: &[u8], width: usize, level: usize) -> Result<Vec<u8>, Refused> {
    let mut units = units(data, width)?;
    for _ in 0..level {
        let mut sum = 0_u32;
        for unit in &mut units {
            sum = sum.wrapping_add(*unit);
            *unit = sum;
        }
    }
    Ok(unit_bytes(&units, width))
}

// Short forms: "signed units of 2, 4 bytes; -127 to 127 as one byte, else byte 128 and the unit whole".

fn shortened(data: &[u8], width: usize) -> Result<Vec<u8>, Refused> {
    let mut short = Vec::new();
    for unit in units(data, width)? {
        let value = match width {
            2 => i32::from(unit as i16),
            _ => unit as i32,
        };
        if (-127..=127).contains(&value) {
            short.push(value as u8);
        } else {
            short.push(WHOLE);
            short.extend(unit_bytes(&[unit], width));
        }
    }
    Ok(short)
}

/// Short forms undone. A small value may stand whole.
fn whole_units(data: &[u8], width: usize) -> Result<Vec<u8>, Refused> {
    let mut whole = Vec::new();
    let mut rest = data;
    while let Some((byte, after)) = rest.split_first() {
        if *byte != WHOLE {
            let value = i32::from(*byte as i8);
            whole.extend(unit_bytes(&[value as u32], width));
            rest = after;
        } else if after.len() < width {
            return Err(Refused::Units);
        } else {
            whole.extend(&after[..width]);
            rest = &after[width..];
        }
    }
    Ok(whole)
}

// Follow bytes: "first data byte as is, then follow[previous byte] less the byte, modulo 256".

fn foretold(follow: &[u8], data: &[u8]) -> Vec<u8> {
    let less = |pair: &[u8]| follow[usize::from(pair[0])].wrapping_sub(pair[1]);
    let first = data.iter().take(1).copied();
    first.chain(data.windows(2).map(less)).collect()
}

/// The same undone. The previous byte is one of the data, not a stored one.
fn followed(follow: &[u8], stored: &[u8]) -> Vec<u8> {
    let mut data: Vec<u8> = Vec::new();
    for byte in stored {
        let next = match data.last() {
            None => *byte,
            Some(previous) => follow[usize::from(*previous)].wrapping_sub(*byte),
        };
        data.push(next);
    }
    data
}
