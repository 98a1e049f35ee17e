//! Made runs of a 454 machine: a plate without an index, and a small file with one. Signals, bases,
//! qualities, clips and names follow from the seed alone, by whole numbers, so that every machine makes
//! the same bytes.

use crate::inputs::{lay_out, Index, Model, Random, Read};

const CYCLE: &[u8] = b"TACG";
const KEY: &[u8] = b"TCAG";

/// A tag that some samples bear between the key and the insert.
const TAG: &[u8] = b"ACGAGTGCGT";

/// What is read behind an insert that ends before the flows do.
const ADAPTER: &[u8] = b"CTGAGACTGCCAAGGCACACAGGGGATAGG";

/// What a name begins with: a run's time, a letter, and the region of the plate.
const RUN: &str = "GSPIKEK01";

/// A signal from here to 49 is too strong for no base and too weak for one: it is called N.
const UNSURE: usize = 35;

/// The bases of a fragment, and where its insert begins and ends in them.
struct Template {
    bases: Vec<u8>,
    insert_start: usize,
    insert_end: usize,
}

/// Most inserts are longer than the flows reach; some end before, and some have no base at all.
fn template(random: &mut Random) -> Template {
    let length = match random.below(12) {
        0 => 0,
        1..=4 => random.between(6, 30),
        _ => 120,
    };
    let mut bases = KEY.to_vec();
    if random.one_in(4) {
        bases.extend(TAG);
    }
    let insert_start = bases.len();
    bases.extend((0..length).map(|_| random.pick(b"ACGT")));
    let insert_end = bases.len();
    bases.extend(ADAPTER);
    Template {
        bases,
        insert_start,
        insert_end,
    }
}

/// The signal of a flow that builds in so many bases: the later the flow and the longer the run, the
/// farther it may lie from the whole number.
fn signal(random: &mut Random, run: usize, flow: usize) -> usize {
    if run == 0 {
        return random.below(6 + flow / 6);
    }
    if run == 1 && random.one_in(90) {
        return random.between(UNSURE, 49);
    }
    let spread = 3 + flow / 10 + 6 * run;
    100 * run + random.between(0, spread) - random.between(0, spread)
}

/// The quality of a base out of a signal: the clearer the signal, the higher.
fn quality(signal: usize, run: usize, flow: usize) -> u8 {
    let off = signal.abs_diff(100 * run);
    40_usize
        .saturating_sub(off / 2 + 3 * (run - 1) + flow / 5)
        .max(8) as u8
}

/// A read as it is called, without name and clips, and how many of its bases stand before the adapter,
/// if that was reached.
fn called(random: &mut Random, template: &Template, flows: usize) -> (Read, Option<usize>) {
    let (mut values, mut increments) = (vec![], vec![]);
    let (mut bases, mut qualities) = (vec![], vec![]);
    let (mut done, mut last_flow) = (0, 0);
    let mut before_adapter = None;
    for flow in 0..flows {
        let letter = CYCLE[flow % 4];
        let left = template.bases[done..].iter();
        let run = left.take_while(|base| **base == letter).count();
        let signal = signal(random, run, flow);
        if run > 0 && done >= template.insert_end && before_adapter.is_none() {
            before_adapter = Some(bases.len());
        }
        done += run;
        let is_unsure = (UNSURE..50).contains(&signal);
        let count = if is_unsure { 1 } else { (signal + 50) / 100 };
        for _ in 0..count {
            increments.push((flow + 1 - last_flow) as u8);
            last_flow = flow + 1;
            bases.push(if is_unsure { b'N' } else { letter });
            qualities.push(if is_unsure {
                0
            } else {
                quality(signal, count, flow)
            });
        }
        values.push(signal as u16);
    }
    let read = Read {
        name: vec![],
        clips: [0; 4],
        values,
        increments,
        bases,
        qualities,
    };
    (read, before_adapter)
}

/// The last base before a tail of bases whose qualities are below 20.
fn quality_end(qualities: &[u8]) -> usize {
    let last = qualities.iter().rposition(|quality| *quality >= 20);
    last.map_or(0, |last| last + 1)
}

/// Quality left, quality right, adapter left, adapter right. What stands before the insert is cut off by the
/// one or the other left clip, and the right clip of a read that is good to its end is often not computed.
fn clips(
    random: &mut Random,
    read: &Read,
    insert_start: usize,
    before_adapter: Option<usize>,
) -> [u16; 4] {
    let bases = read.bases.len();
    let first = (insert_start + 1).min(bases) as u16;
    let lefts = match random.below(5) {
        0 => [0, first],
        _ => [first, 0],
    };
    let end = quality_end(&read.qualities);
    let is_left_out = end == bases && random.one_in(2);
    let right = if is_left_out { 0 } else { end.max(1) as u16 };
    let adapter = before_adapter.unwrap_or(0) as u16;
    [lefts[0], right, lefts[1], adapter]
}

/// Five letters and digits that stand for a place on the plate.
fn location(x: usize, y: usize) -> Vec<u8> {
    let digits = b"ABCDEFGHIJKLMNOPQRSTUVWXYZ0123456789";
    let mut left = 4_096 * x + y;
    let mut name = vec![0; 5];
    for place in name.iter_mut().rev() {
        *place = digits[left % 36];
        left /= 36;
    }
    name
}

fn read(random: &mut Random, flows: usize) -> Read {
    let (x, y) = (random.below(4_096), random.below(4_096));
    let name = [RUN.as_bytes(), &location(x, y)].concat();
    // a well that gave no signal
    if random.one_in(30) {
        let values = (0..flows).map(|_| random.below(9) as u16).collect();
        return Read {
            name,
            clips: [0; 4],
            values,
            increments: vec![],
            bases: vec![],
            qualities: vec![],
        };
    }
    let template = template(random);
    let (mut read, before_adapter) = called(random, &template, flows);
    read.clips = clips(random, &read, template.insert_start, before_adapter);
    read.name = name;
    read
}

fn run(seed: u64, reads: usize, flows: usize) -> Model {
    let mut random = Random::new(seed);
    let reads: Vec<Read> = (0..reads).map(|_| read(&mut random, flows)).collect();
    Model {
        flows: CYCLE.iter().cycle().take(flows).copied().collect(),
        key: KEY.to_vec(),
        reads,
        index: None,
    }
}

/// A plate of 120 reads over 84 flows.
pub fn plate() -> Vec<u8> {
    lay_out(&run(454, 120, 84)).bytes
}

/// Six reads over 40 flows, and behind them an index: for each read its name in 40 bytes and its place
/// in 8, in order of names.
pub fn indexed() -> Vec<u8> {
    let mut model = run(20, 6, 40);
    let places = lay_out(&model).reads;
    let mut entries: Vec<Vec<u8>> = vec![];
    for (read, (header, _)) in model.reads.iter().zip(places) {
        let mut entry = read.name.clone();
        entry.resize(40, 0);
        entry.extend((header.start as u64).to_be_bytes());
        entries.push(entry);
    }
    entries.sort();
    let mut bytes = b"NAME\0\0\0\x01".to_vec();
    bytes.extend(entries.concat());
    model.index = Some(Index {
        after: model.reads.len(),
        bytes,
    });
    lay_out(&model).bytes
}
