//! Writes the stored runs of `correct` and `correct_runs`, and samples of files and lists for people.
//!
//!     second-list-runs CRATES-FOLDER     the stored runs
//!     second-list-runs samples FOLDER    the samples
//!
//! Files and lists are laid out from their fields. Each case says what is answered; the second
//! implementation must answer the same, and what is printed beside it is its own.

mod calls;
mod correcting;
mod corrections;
mod inputs;
mod plates;
mod sample_lists;
mod samples;
mod sff;
mod views;
mod writing;

use correcting::{correct_list, ListRun};
use corrections::Record;
use sample_lists::SAMPLE_LISTS;
use samples::{e_with, file, read, two_reads, E};
use std::fs;
use std::process::exit;

const THIRD: &str = "the-third-of-the-reads";

// Files.

/// Reads r1, second and one of a longer name: 40 bytes of header, and 48, 48 and 64 bytes.
fn three() -> Vec<u8> {
    let mut reads = two_reads();
    let third = read(THIRD, [0; 4], &[1; 4], "TACG");
    reads.push(third);
    file("T", reads, None)
}

/// A file of 65,536 bytes. All but one of its read's bases are clipped.
fn full() -> Vec<u8> {
    let bases = 21_821;
    let mut increments = vec![0; bases];
    increments[0] = 1;
    let clips = [bases as u16, 0, 0, 0];
    let one = read("r1", clips, &increments, &"T".repeat(bases));
    let bytes = file("T", vec![one], None);
    assert_eq!(bytes.len(), sff::LONGEST_INPUT);
    bytes
}

/// E damaged in the way that each refusal of the file names.
fn refused() -> Vec<(String, Vec<u8>)> {
    let mut with_more = E.to_vec();
    with_more.extend([0; 8]);
    let mut index_inside = e_with(15, 48);
    index_inside[19] = 8;
    let damaged = [
        E[..87].to_vec(),
        e_with(0, b'x'),
        e_with(7, 2),
        e_with(30, 0),
        e_with(25, 48),
        e_with(31, b'U'),
        e_with(36, 1),
        e_with(15, 40),
        e_with(49, 4),
        e_with(72, 0),
        e_with(75, b'A'),
        with_more,
        index_inside,
    ];
    let numbered = damaged.into_iter().enumerate();
    numbered
        .map(|(i, bytes)| (format!("refused-{}", i + 1), bytes))
        .collect()
}

fn files() -> Vec<(String, Vec<u8>)> {
    let named = [
        ("e", E.to_vec()),
        ("three", three()),
        ("indexed", file("T", two_reads(), Some((1, 16)))),
        ("full", full()),
        ("empty", vec![]),
        ("too-long", vec![0; 65_537]),
    ];
    let named = named.map(|(name, bytes)| (name.to_string(), bytes));
    named.into_iter().chain(refused()).collect()
}

// Lists.

fn clips(position: usize, name: &[u8], clips: [u16; 4]) -> Vec<u8> {
    Record::clips(position, name, clips).bytes()
}

fn rename(position: usize, old_name: &[u8], new_name: &[u8]) -> Vec<u8> {
    Record::rename(position, old_name, new_name).bytes()
}

fn remove(position: usize, name: &[u8]) -> Vec<u8> {
    Record::remove(position, name).bytes()
}

/// A record with one byte changed.
fn with(mut record: Vec<u8>, place: usize, value: u8) -> Vec<u8> {
    record[place] = value;
    record
}

/// Lists that are carried out, each on the file of its case.
fn right_lists() -> Vec<(&'static str, Vec<Vec<u8>>)> {
    let third = THIRD.as_bytes();
    let many = (0..682).map(|i| clips(0, b"r1", [i % 4, 0, 0, 0]));
    vec![
        ("none", vec![]),
        ("clips", vec![clips(0, b"r1", [1, 0, 0, 2])]),
        ("rename-8", vec![rename(0, b"r1", b"12345678")]),
        ("rename-9", vec![rename(0, b"r1", b"123456789")]),
        ("rename-40", vec![rename(0, b"r1", &[b'x'; 40])]),
        ("rename-own", vec![rename(0, b"r1", b"r1")]),
        ("shorter", vec![rename(2, third, b"r3")]),
        ("remove", vec![remove(0, b"r1")]),
        // reads 0 and 1 of the listing: once read 0 is gone, the other has position 0
        ("first-two", vec![remove(0, b"r1"), remove(0, b"second")]),
        ("last-two", vec![remove(2, third), remove(1, b"second")]),
        (
            "swap",
            vec![
                rename(0, b"r1", b"swap"),
                rename(1, b"second", b"r1"),
                rename(0, b"swap", b"second"),
            ],
        ),
        (
            "all-kinds",
            vec![
                clips(2, third, [1, 0, 0, 3]),
                rename(0, b"r1", b"first-of-three"),
                remove(0, b"first-of-three"),
                clips(0, b"second", [2, 0, 0, 0]),
                rename(1, third, b"last"),
            ],
        ),
        ("longest", many.collect()),
    ]
}

/// Lists that end with a refusal.
fn wrong_lists() -> Vec<(&'static str, Vec<Vec<u8>>)> {
    let right = clips(0, b"r1", [1, 0, 0, 0]);
    // the positions of the listing
    let as_listed = vec![remove(0, b"r1"), remove(1, b"second")];
    let in_the_middle = vec![right.clone(), remove(0, b"r2"), right.clone()];
    vec![
        ("first-two-wrong", as_listed),
        ("middle", in_the_middle),
        ("once-too-often", vec![remove(0, b"r1"), remove(0, b"r1")]),
        ("kind-4", vec![with(remove(0, b"r1"), 0, 4)]),
        ("byte-3", vec![with(remove(0, b"r1"), 3, 1)]),
        ("no-name", vec![remove(0, b"")]),
        ("space-in-name", vec![remove(0, b"r 1")]),
        ("clips-of-remove", vec![with(remove(0, b"r1"), 9, 1)]),
        ("malformed-second", vec![right, vec![0; 96]]),
        ("no-read", vec![remove(3, b"r1")]),
        ("other-name", vec![remove(0, b"r10")]),
        ("high-clip", vec![clips(0, b"r1", [0, 0, 0, 4])]),
        ("name-taken", vec![rename(0, b"r1", b"second")]),
        ("short", vec![vec![0; 95]]),
        ("long", vec![remove(0, b"r1"), vec![0]]),
        ("limit", vec![vec![0; 65_536]]),
        ("too-long", vec![vec![0; 65_537]]),
    ]
}

fn lists() -> Vec<(String, Vec<u8>)> {
    let all = right_lists().into_iter().chain(wrong_lists());
    all.map(|(name, records)| (name.to_string(), records.concat()))
        .collect()
}

// Cases.

/// File, list, and count, number, place and length of the answer; none where `too long` is printed.
type Case = (String, &'static str, Option<[u64; 4]>);

fn cases() -> Vec<Case> {
    let table = [
        ("e", "clips", [1, 0, 0, 88]),
        ("e", "rename-8", [1, 0, 0, 88]),
        ("e", "rename-9", [1, 0, 0, 96]),
        ("e", "rename-40", [1, 0, 0, 120]),
        ("e", "rename-own", [1, 0, 0, 88]),
        ("e", "remove", [1, 0, 0, 40]),
        ("e", "none", [0, 0, 0, 88]),
        ("e", "longest", [682, 0, 0, 88]),
        ("three", "shorter", [1, 0, 0, 184]),
        ("three", "first-two", [2, 0, 0, 104]),
        ("three", "first-two-wrong", [1, 22, 0, 152]),
        ("three", "last-two", [2, 0, 0, 88]),
        ("three", "swap", [3, 0, 0, 200]),
        ("three", "all-kinds", [5, 0, 0, 136]),
        ("three", "middle", [1, 22, 0, 200]),
        ("three", "once-too-often", [1, 22, 0, 152]),
        ("e", "once-too-often", [1, 21, 0, 40]),
        ("indexed", "clips", [1, 0, 0, 152]),
        ("indexed", "rename-8", [0, 25, 0, 152]),
        ("indexed", "remove", [0, 25, 0, 152]),
        ("full", "rename-8", [1, 0, 0, 65_536]),
        ("full", "rename-9", [0, 26, 0, 65_536]),
        ("e", "kind-4", [0, 20, 0, 88]),
        ("e", "byte-3", [0, 20, 0, 88]),
        ("e", "no-name", [0, 20, 0, 88]),
        ("e", "space-in-name", [0, 20, 0, 88]),
        ("e", "clips-of-remove", [0, 20, 0, 88]),
        ("e", "malformed-second", [1, 20, 0, 88]),
        ("e", "short", [0, 20, 0, 88]),
        ("e", "long", [0, 20, 0, 88]),
        ("e", "limit", [0, 20, 0, 88]),
        ("e", "no-read", [0, 21, 0, 88]),
        ("e", "other-name", [0, 22, 0, 88]),
        ("e", "high-clip", [0, 23, 0, 88]),
        ("three", "name-taken", [0, 24, 0, 200]),
        ("empty", "clips", [0, 1, 0, 0]),
        ("empty", "none", [0, 0, 0, 0]),
        ("refused-9", "none", [0, 0, 0, 88]),
        ("refused-9", "kind-4", [0, 20, 0, 88]),
    ];
    let places = [64, 0, 4, 30, 24, 31, 36, 8, 48, 72, 75, 88, 8];
    let refused = refused().into_iter().zip(places).enumerate();
    let refused = refused.map(|(i, ((name, bytes), place))| {
        let answer = [0, i as u64 + 1, place, bytes.len() as u64];
        (name, "clips", Some(answer))
    });
    let table = table.map(|(file, list, answer)| (file.to_string(), list, Some(answer)));
    let too_long = [("too-long", "clips"), ("e", "too-long")];
    let too_long = too_long.map(|(file, list)| (file.to_string(), list, None));
    table.into_iter().chain(refused).chain(too_long).collect()
}

// What is printed.

fn named<'a>(all: &'a [(String, Vec<u8>)], name: &str) -> &'a [u8] {
    let found = all.iter().find(|(known, _)| known == name);
    &found.expect("a file or a list of that name").1
}

/// The run of a list on a file in a buffer of 65,536 bytes, and the buffer afterwards.
fn run(file: &[u8], list: &[u8]) -> (ListRun, Vec<u8>) {
    let mut buffer = file.to_vec();
    buffer.resize(sff::LONGEST_INPUT, 0);
    let run = correct_list(&mut buffer, file.len() as u64, list);
    (run, buffer)
}

/// The new file, if one is written: where the list, or some of its records, were carried out.
fn new_file(file: &[u8], list: &[u8]) -> Option<Vec<u8>> {
    if is_too_long(file, list) {
        return None;
    }
    let (run, mut buffer) = run(file, list);
    buffer.truncate(run.last.length as usize);
    (run.last.refusal.is_none() || run.count > 0).then_some(buffer)
}

fn is_too_long(file: &[u8], list: &[u8]) -> bool {
    file.len().max(list.len()) > sff::LONGEST_INPUT
}

/// What `correct` prints.
fn printed(file: &[u8], list: &[u8], expected: Option<[u64; 4]>) -> Vec<u8> {
    if is_too_long(file, list) {
        assert_eq!(expected, None);
        return b"too long\n".to_vec();
    }
    let (run, _) = run(file, list);
    let (number, place) = sff::numbers(run.last.refusal);
    let (count, length) = (run.count, run.last.length);
    assert_eq!(expected, Some([count, number, place, length]));
    let mut text = format!("count {count} number {number} place {place} length {length}\n");
    if number != 0 {
        text += &format!("refused {number} at {place}\n");
    }
    text.into_bytes()
}

// Writing.

fn write(path: String, bytes: &[u8]) -> Result<(), String> {
    fs::write(&path, bytes).map_err(|error| format!("{path}: {error}"))
}

fn make_folder(path: &str) -> Result<(), String> {
    fs::create_dir_all(path).map_err(|error| format!("{path}: {error}"))
}

/// The run of `correct_runs`: `args`, `stdout` and the files that the cases name.
fn write_runs(crate_folder: &str) -> Result<(), String> {
    let (files, lists) = (files(), lists());
    let (mut words, mut text) = (String::new(), Vec::new());
    make_folder(&format!("{crate_folder}/data"))?;
    for (file, list, answer) in cases() {
        let (bytes, records) = (named(&files, &file), named(&lists, list));
        words += &format!("{file}.sff\n{list}.records\n");
        text.extend(format!("{file}.sff {list}.records:\n").bytes());
        text.extend(printed(bytes, records, answer));
        if let Some(new) = new_file(bytes, records) {
            text.extend(sff::listing(&new));
        }
        write(format!("{crate_folder}/data/{file}.sff"), bytes)?;
        write(format!("{crate_folder}/data/{list}.records"), records)?;
    }
    write(format!("{crate_folder}/args"), words.as_bytes())?;
    write(format!("{crate_folder}/stdout"), &text)
}

/// The run of `correct`: one that writes a file and prints both lines.
fn write_run(crate_folder: &str) -> Result<(), String> {
    let (file, list) = (three(), named(&lists(), "first-two-wrong").to_vec());
    let text = printed(&file, &list, Some([1, 22, 0, 152]));
    make_folder(&format!("{crate_folder}/data"))?;
    write(format!("{crate_folder}/data/three.sff"), &file)?;
    write(format!("{crate_folder}/data/wrong.records"), &list)?;
    let words = b"three.sff\nwrong.records\nnew.sff\n";
    write(format!("{crate_folder}/args"), words)?;
    write(format!("{crate_folder}/stdout"), &text)
}

/// For people: a file, and its listing beside it.
fn write_file(folder: &str, name: &str, bytes: &[u8]) -> Result<(), String> {
    write(format!("{folder}/{name}.sff"), bytes)?;
    write(format!("{folder}/{name}.txt"), &sff::listing(bytes))
}

/// For people: files, lists with their words beside them, and the new files.
fn write_samples(folder: &str) -> Result<(), String> {
    make_folder(folder)?;
    let files = [
        ("e", E.to_vec()),
        ("three", three()),
        ("indexed", plates::indexed()),
        ("plate", plates::plate()),
    ];
    let files = files.map(|(name, bytes)| (name.to_string(), bytes));
    for (name, bytes) in &files {
        write_file(folder, name, bytes)?;
    }
    for list in SAMPLE_LISTS {
        let (bytes, records) = (named(&files, list.file), list.records());
        printed(bytes, &records, Some(list.answer));
        write(format!("{folder}/{}.records", list.name), &records)?;
        write(format!("{folder}/{}.txt", list.name), list.words.as_bytes())?;
        match (new_file(bytes, &records), list.new) {
            (Some(new), Some(name)) => write_file(folder, name, &new)?,
            (new, name) => assert!(new.is_none() && name.is_none(), "{}", list.name),
        }
    }
    Ok(())
}

fn main() {
    let arguments: Vec<String> = std::env::args().skip(1).collect();
    let words: Vec<&str> = arguments.iter().map(String::as_str).collect();
    let done = match words[..] {
        ["samples", folder] => write_samples(folder),
        [crates] => write_runs(&format!("{crates}/correct_runs"))
            .and_then(|()| write_run(&format!("{crates}/correct"))),
        _ => Err(
            "usage: second-list-runs CRATES-FOLDER, or second-list-runs samples FOLDER".to_string(),
        ),
    };
    if let Err(message) = done {
        eprintln!("{message}");
        exit(1);
    }
}
