//! Writes stored runs of `unfilter`, and samples of filtered blocks for people.
//!
//!     second-filter-runs FOLDER            NAME.block, the standard input, and NAME.out, what is printed
//!     second-filter-runs samples FOLDER    the samples
//!
//! Blocks are laid out from their layers. Each case says what comes out of it; the second
//! implementation must say the same.

mod filter_inputs;
mod filters;
mod inputs;
mod sff;

use filter_inputs::{most_frequent, Layer};
use std::fs;
use std::process::exit;

/// The room that the program lends, twice.
const ROOM: usize = 262_144;

// Data.

/// Peaks of 16-bit samples behind the byte of padding that document 002 gives them.
fn trace() -> Vec<u8> {
    let heights = [900, 1_400, 350, 1_100, 2_000, 60, 1_250, 700];
    let mut bytes = vec![0];
    for at in 0..13 * heights.len() {
        let from_peak = (at % 13).abs_diff(6) as u16;
        let sample = heights[at / 13] / 36 * (36 - from_peak * from_peak);
        bytes.extend((sample + at as u16 % 3).to_be_bytes());
    }
    bytes
}

/// Places of bases in a trace, numbers of 32 bits behind their three bytes of padding.
fn base_places() -> Vec<u8> {
    let places = [
        6,
        19,
        32,
        45,
        58,
        71,
        84,
        300,
        301,
        70_000,
        69_990,
        4_000_000_000_u32,
    ];
    let places = places.iter().flat_map(|place| place.to_be_bytes());
    [0; 3].into_iter().chain(places).collect()
}

const BASES: &[u8] = b"TCAGGATTACAGATTACACCTTGGAANCTGA";

// Blocks.

fn raw(data: &[u8]) -> Vec<u8> {
    [&[0], data].concat()
}

/// The block that these layers make, the first of them innermost.
fn layered(layers: &[Layer], innermost: Vec<u8>) -> Vec<u8> {
    let enclose = |inside: Vec<u8>, layer: &Layer| layer.block(&inside);
    layers.iter().fold(innermost, enclose)
}

/// A block under filters of format 64.
fn under(filters: usize, innermost: &[u8]) -> Vec<u8> {
    let layers: Vec<Layer> = (0..filters)
        .map(|at| Layer::delta(64, 1 + at as u8 % 3))
        .collect();
    layered(&layers, innermost.to_vec())
}

fn with(mut block: Vec<u8>, place: usize, value: u8) -> Vec<u8> {
    block[place] = value;
    block
}

/// A trace under 16-bit deltas, then in short forms, then under its own follow bytes.
fn three_layers(data: &[u8]) -> Vec<u8> {
    let inside = layered(&[Layer::delta(65, 2), Layer::short(70)], raw(data));
    Layer::follow(most_frequent(&inside)).block(&inside)
}

/// Zeros under 70, 72 and 71. Units of 70 are `units`; the first `whole` of them stand whole, so that
/// the bytes of 72 are whole units of 71.
fn zeros(units: usize, whole: usize) -> Vec<u8> {
    let short = Layer::short(70).block_with(&vec![0; 2 * units], |at| at < whole);
    let layers = [Layer::follow(vec![0; 256]), Layer::short(71)];
    layered(&layers, short)
}

/// Small values of 32 bits, from 0 on.
fn small_values(count: i32) -> Vec<u8> {
    let value = |at: i32| ((at + 127) % 255 - 127).to_be_bytes();
    (0..count).flat_map(value).collect()
}

// Cases.

enum Expected {
    Data(Vec<u8>),
    Refused(u64),
    TooLong,
}

struct Case {
    name: String,
    block: Vec<u8>,
    expected: Expected,
}

fn gives(name: &str, block: Vec<u8>, data: &[u8]) -> Case {
    Case {
        name: name.to_string(),
        block,
        expected: Expected::Data(data.to_vec()),
    }
}

fn refused(name: &str, number: u64, block: &[u8]) -> Case {
    Case {
        name: format!("refused-{number}-{name}"),
        block: block.to_vec(),
        expected: Expected::Refused(number),
    }
}

/// Each format at each level, with data of its width.
fn single_layers() -> Vec<Case> {
    let mut cases = vec![];
    for (format, data) in [(64, BASES.to_vec()), (65, trace()), (66, base_places())] {
        for level in 1..=3 {
            let block = Layer::delta(format, level).block(&raw(&data));
            cases.push(gives(
                &format!("format-{format}-level-{level}"),
                block,
                &data,
            ));
        }
    }
    for (format, data) in [(70, trace()), (71, base_places())] {
        let block = Layer::short(format).block(&raw(&data));
        cases.push(gives(&format!("format-{format}"), block, &data));
        let whole = Layer::short(format).block_with(&raw(&data), |_| true);
        cases.push(gives(&format!("format-{format}-whole"), whole, &data));
    }
    let follow = Layer::follow(most_frequent(&raw(BASES)));
    cases.push(gives("format-72", follow.block(&raw(BASES)), BASES));
    cases.push(gives("format-0", raw(BASES), BASES));
    cases.push(gives("format-0-empty", raw(&[]), &[]));
    cases
}

fn several_layers() -> Vec<Case> {
    let two = [Layer::delta(66, 1), Layer::short(71)];
    let two = layered(&two, raw(&base_places()));
    let eight = [
        Layer::delta(65, 3),
        Layer::short(70),
        Layer::delta(64, 2),
        Layer::follow((0..=255).rev().collect()),
        Layer::delta(64, 1),
        Layer::follow(vec![7; 256]),
        Layer::delta(64, 3),
        Layer::delta(64, 3),
    ];
    let trace = trace();
    vec![
        gives("two-layers", two, &base_places()),
        gives("three-layers", three_layers(&trace), &trace),
        gives("eight-layers", layered(&eight, raw(&trace)), &trace),
        gives("eight-layers-empty", under(8, &[0]), &[]),
        refused("nine-layers", 44, &under(9, &raw(BASES))),
        refused("nine-layers-cut", 44, &under(8, &[66])),
    ]
}

fn refusals() -> Vec<Case> {
    let level = Layer::delta(66, 1).block(&raw(&base_places()));
    let short = Layer::short(70).block(&raw(&trace()));
    vec![
        refused("empty", 40, &[]),
        refused("empty-inside", 40, &under(1, &[])),
        refused("header-64", 40, &[64]),
        refused("header-66", 40, &[66, 9, 0]),
        refused("header-72", 40, &[72; 256]),
        refused("header-inside", 40, &under(3, &[65])),
        refused("format", 41, &[67, 1, 0, 0]),
        refused("format-under-eight", 41, &under(8, &[1, 2, 3])),
        refused("level-0", 42, &with(level.clone(), 1, 0)),
        refused("level-4", 42, &with(level.clone(), 1, 4)),
        refused("third-byte", 42, &with(level.clone(), 2, 1)),
        refused("fourth-byte", 42, &with(level.clone(), 3, 1)),
        refused("units", 43, &level[..level.len() - 1]),
        refused("128-alone", 43, &[&short[..], &[128]].concat()),
        refused("128-inside", 43, &under(2, &[71, 0, 128, 0, 0, 0])),
    ]
}

/// At the limits of the input, of the growth and of the room.
fn limits() -> Vec<Case> {
    let longest = vec![b'A'; sff::LONGEST_INPUT - 1];
    // Short forms grow fourfold, and twice that under another layer of them.
    let fourfold = small_values(65_535);
    let growing = Layer::short(71).block(&fourfold);
    let just_enough = zeros(ROOM / 2, 1);
    let twice = [&[71, 128, 70, 0, 0, 0], &growing[6..]].concat();
    vec![
        gives("longest", raw(&longest), &longest),
        gives("fourfold", growing, &fourfold[1..]),
        gives("just-enough-room", just_enough, &vec![0; ROOM - 1]),
        refused("room", 26, &zeros(ROOM / 2 + 2, 0)),
        refused("room-inside", 26, &twice),
        Case {
            name: "too-long".to_string(),
            block: raw(&[longest, vec![b'A']].concat()),
            expected: Expected::TooLong,
        },
    ]
}

/// What `unfilter` prints.
fn printed(block: &[u8]) -> Vec<u8> {
    if block.len() > sff::LONGEST_INPUT {
        return b"too long\n".to_vec();
    }
    let (mut first, mut second) = (vec![0; ROOM], vec![0; ROOM]);
    match filters::undo(block, &mut first, &mut second) {
        Ok(made) => first[..made].to_vec(),
        Err(refused) => format!("refused {} at 0\n", refused.number()).into_bytes(),
    }
}

fn expected(case: &Case) -> Vec<u8> {
    match &case.expected {
        Expected::Data(data) => data.clone(),
        Expected::Refused(number) => format!("refused {number} at 0\n").into_bytes(),
        Expected::TooLong => b"too long\n".to_vec(),
    }
}

// Writing.

fn write(path: String, bytes: &[u8]) -> Result<(), String> {
    fs::write(&path, bytes).map_err(|error| format!("{path}: {error}"))
}

fn make_folder(path: &str) -> Result<(), String> {
    fs::create_dir_all(path).map_err(|error| format!("{path}: {error}"))
}

fn write_runs(folder: &str) -> Result<(), String> {
    make_folder(folder)?;
    let all = [single_layers(), several_layers(), refusals(), limits()];
    for case in all.into_iter().flatten() {
        let name = &case.name;
        assert!(printed(&case.block) == expected(&case), "{name}");
        write(format!("{folder}/{name}.block"), &case.block)?;
        write(format!("{folder}/{name}.out"), &expected(&case))?;
    }
    Ok(())
}

/// For people: some bases, and a trace with what comes out of it.
fn write_samples(folder: &str) -> Result<(), String> {
    make_folder(folder)?;
    let one = Layer::delta(64, 1).block(&raw(BASES));
    let (three, data) = (three_layers(&trace()), trace());
    assert!(printed(&one) == BASES && printed(&three) == data);
    write(format!("{folder}/one-layer.block"), &one)?;
    write(format!("{folder}/three-layers.block"), &three)?;
    write(format!("{folder}/three-layers.data"), &data)
}

fn main() {
    let arguments: Vec<String> = std::env::args().skip(1).collect();
    let words: Vec<&str> = arguments.iter().map(String::as_str).collect();
    let done = match words[..] {
        ["samples", folder] => write_samples(folder),
        [folder] => write_runs(folder),
        _ => Err("usage: second-filter-runs [samples] FOLDER".to_string()),
    };
    if let Err(message) = done {
        eprintln!("{message}");
        exit(1);
    }
}
