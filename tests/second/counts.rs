//! Names for the answers, and how often each of them occurred.

#![allow(dead_code)]

use crate::sff::{self, Refusal, Section};
use std::collections::BTreeMap;

/// What the whole-file test can answer. A number that comes from several sections is told apart.
pub const OF_A_FILE: [&str; 21] = [
    "0",
    "1 header",
    "1 read header",
    "1 data",
    "1 index",
    "2",
    "3",
    "4",
    "5 header",
    "5 read header",
    "6 header",
    "6 read header",
    "7 header",
    "7 read header",
    "7 data",
    "8",
    "9",
    "10",
    "11",
    "12",
    "13",
];

/// What the header's test can answer where its characters are asked for, which may be none.
pub const OF_CHARACTERS: [&str; 10] = [
    "0", "0 empty", "1 header", "2", "3", "4", "5 header", "6 header", "7 header", "8",
];

/// What the test of a view can answer: of one that a step gave, 0; of a forged one, 0 too or 1 for one of its parts.
pub const OF_VIEW: [&str; 8] = [
    "0",
    "0 forged",
    "1 name",
    "1 values",
    "1 increments",
    "1 bases",
    "1 qualities",
    "1 insert",
];

/// What a new file can answer, and what an append can beside the file's answers. 31 is missing: it takes
/// a file of its own (`many_reads`).
pub const OF_NEW: [&str; 4] = ["0", "5 given", "6 given", "26"];
pub const OF_APPEND: [&str; 9] = [
    "14", "25", "30", "5 given", "6 given", "9 given", "10 given", "11 given", "26",
];

/// What a correction can answer beside the file's answers, in document 01's order.
pub const OF_CORRECTION: [&str; 8] = ["14", "20", "21", "22", "25", "23", "24", "26"];

/// What a list can answer beside the file's answers. "later": records before were carried out; after
/// one of them neither 14 nor the file's refusal can come.
pub const OF_LIST: [&str; 17] = [
    "0 empty",
    "20 length",
    "14",
    "20",
    "21",
    "22",
    "25",
    "23",
    "24",
    "26",
    "20 later",
    "21 later",
    "22 later",
    "25 later",
    "23 later",
    "24 later",
    "26 later",
];

/// The name of an answer. What a file and a writer's own input can both be refused for is told apart.
pub fn name(refusal: Option<Refusal>) -> String {
    let Some(refusal) = refusal else {
        return "0".to_string();
    };
    let section = match refusal.section {
        Section::Header => " header",
        Section::ReadHeader => " read header",
        Section::Data => " data",
        Section::Index => " index",
        Section::End => "",
        Section::Given => " given",
    };
    match (refusal.number, refusal.section) {
        (1 | 5 | 6 | 7, _) | (9 | 10 | 11, Section::Given) => {
            format!("{}{}", refusal.number, section)
        }
        (number, _) => number.to_string(),
    }
}

/// The name of the answer of a list that was given, of which `count` records were carried out.
pub fn name_of_list(list: &[u8], count: u64, refusal: Option<Refusal>) -> String {
    let name = name(refusal);
    match refusal {
        _ if list.is_empty() => format!("{name} empty"),
        _ if list.len() % 96 != 0 => format!("{name} length"),
        Some(_) if count > 0 => format!("{name} later"),
        _ => name,
    }
}

/// The name of the answer that a listing shows.
pub fn listed(input: &[u8]) -> String {
    if input.len() > sff::LONGEST_INPUT {
        return "too long".to_string();
    }
    name(sff::test_file(input).err())
}

/// How often each number occurred in all calls of a program; the script `run` sums these lines.
pub fn line_of_numbers(numbers: &BTreeMap<u64, u64>) -> String {
    let each = numbers.iter();
    let each = each.map(|(number, count)| format!("{number}: {count}"));
    format!("numbers: {}", each.collect::<Vec<_>>().join(", "))
}

/// How often each answer occurred.
pub struct Counts {
    counts: Vec<(&'static str, u64)>,
}

impl Counts {
    /// The answers that have to occur: the whole-file test's, if so said, and others.
    pub fn new(of_a_file: bool, others: &[&'static str]) -> Counts {
        let file: &[&str] = if of_a_file { &OF_A_FILE } else { &[] };
        let names = file.iter().chain(others);
        Counts {
            counts: names.map(|name| (*name, 0)).collect(),
        }
    }

    pub fn add(&mut self, name: &str) {
        let known = self.counts.iter_mut().find(|(known, _)| *known == name);
        known
            .unwrap_or_else(|| panic!("{name} is no answer of this call"))
            .1 += 1;
    }

    /// Counts what is noted if it holds; what was not known before is known from here on.
    pub fn note(&mut self, holds: bool, name: &'static str) {
        if self.counts.iter().all(|(known, _)| *known != name) {
            self.counts.push((name, 0));
        }
        if holds {
            self.add(name);
        }
    }

    /// Puts the counts of another part of the cases to these.
    pub fn put(&mut self, others: &Counts) {
        for (name, count) in &others.counts {
            self.note(false, name);
            let known = self.counts.iter_mut().find(|(known, _)| known == name);
            known.expect("noted").1 += count;
        }
    }

    /// Puts how often each number occurred to `numbers`; the name of an answer begins with its number.
    pub fn put_numbers(&self, numbers: &mut BTreeMap<u64, u64>) {
        for (name, count) in &self.counts {
            let number = name.split(' ').next().and_then(|word| word.parse().ok());
            *numbers.entry(number.expect("a number")).or_insert(0) += count;
        }
    }

    /// How many answers there were.
    pub fn all(&self) -> u64 {
        self.counts.iter().map(|(_, count)| count).sum()
    }

    /// The answers that occurred fewer than this many times.
    pub fn below(&self, least: u64) -> Vec<&'static str> {
        let few = self.counts.iter().filter(|(_, count)| *count < least);
        few.map(|(name, _)| *name).collect()
    }

    /// All counts, on one line.
    pub fn line(&self) -> String {
        let all = self.counts.iter();
        all.map(|(name, count)| format!("{name}: {count}"))
            .collect::<Vec<_>>()
            .join(", ")
    }
}
