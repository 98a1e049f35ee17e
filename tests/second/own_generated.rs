//! The second implementation's own tests of the corrections with the inputs of the comparison: what is
//! true of all of them, and what the inputs reach.

use crate::correcting::{correct, correct_list};
use crate::corrections::{correct_call, list_call, CLIPS, REMOVE, RENAME};
use crate::counts::{self, Counts};
use crate::sff::{big_endian, file_test, numbers, test_file, Contents};

const SEED: u64 = 454;

// What is true of all of them.

#[test]
fn right_records_are_carried_out() {
    let mut right = 0;
    for number in 0..5_000 {
        let mut call = correct_call(SEED, number);
        let Some(after) = call.after else { continue };
        let written = correct(&mut call.buffer, call.file_length, &call.record);
        assert_eq!(numbers(written.refusal), (0, 0), "correction {number}");
        assert_eq!(written.length, after.length, "correction {number}");
        assert!(call.buffer == after.buffer, "correction {number}");
        right += 1;
    }
    assert!(right > 1_000, "{right} were right");
}

#[test]
fn right_lists_are_carried_out() {
    let (mut right, mut records) = (0, 0);
    for number in 0..5_000 {
        let mut call = list_call(SEED, number);
        let Some(after) = call.after else { continue };
        let run = correct_list(&mut call.buffer, call.file_length, &call.list);
        let count = call.list.len() as u64 / 96;
        assert_eq!(numbers(run.last.refusal), (0, 0), "list {number}");
        assert_eq!((run.count, run.last.length), (count, after.length));
        assert!(call.buffer == after.buffer, "list {number}");
        right += 1;
        records += count;
    }
    assert!(right > 1_000, "{right} were right");
    assert!(records > 5_000, "{records} records were right");
}

/// A refusal changes nothing; a corrected file is accepted.
#[test]
fn what_any_correction_leaves() {
    for number in 0..5_000 {
        let mut call = correct_call(SEED, number);
        let before = call.buffer.clone();
        let written = correct(&mut call.buffer, call.file_length, &call.record);
        if written.refusal.is_some() {
            assert!(call.buffer == before, "correction {number}");
            assert_eq!(written.length, call.file_length);
        } else {
            let file = &call.buffer[..written.length as usize];
            assert_eq!(file_test(file), (0, 0), "correction {number}");
        }
    }
}

// What the inputs reach.

#[test]
fn every_answer_of_a_correction_occurs_ten_times() {
    let mut of_one = Counts::new(true, &counts::OF_CORRECTION);
    let mut of_lists = Counts::new(true, &counts::OF_LIST);
    for number in 0..20_000 {
        let mut call = correct_call(SEED, number);
        let written = correct(&mut call.buffer, call.file_length, &call.record);
        of_one.add(&counts::name(written.refusal));
        let mut call = list_call(SEED, number);
        let run = correct_list(&mut call.buffer, call.file_length, &call.list);
        let refusal = run.last.refusal;
        of_lists.add(&counts::name_of_list(&call.list, run.count, refusal));
    }
    println!("correct: {}\nlist: {}", of_one.line(), of_lists.line());
    assert!(of_one.below(10).is_empty(), "{:?}", of_one.below(10));
    assert!(of_lists.below(10).is_empty(), "{:?}", of_lists.below(10));
}

/// A record malformed (20) by one wrong byte, at each place that can be wrong alone; the position cannot.
#[test]
fn every_byte_of_a_record_is_spoiled_alone() {
    let mut spoiled = [0; 96];
    for number in 0..20_000 {
        let mut call = correct_call(SEED, number);
        let written = correct(&mut call.buffer, call.file_length, &call.record);
        if call.record.len() != 96 || numbers(written.refusal).0 != 20 {
            continue;
        }
        let differ = |place: &usize| call.record[*place] != call.unspoiled[*place];
        let places: Vec<usize> = (0..96).filter(differ).collect();
        if let [place] = places[..] {
            spoiled[place] += 1;
        }
    }
    println!("{spoiled:?}");
    let never = (0..96).filter(|place| spoiled[*place] == 0);
    assert_eq!(never.collect::<Vec<usize>>(), [4, 5, 6, 7]);
}

/// A correction that came to its read, and what it answered.
struct Met<'a> {
    record: &'a [u8],
    contents: Contents<'a>,
    position: usize,
    file_length: usize,
    room: usize,
    answer: u64,
}

type Edges = Vec<(bool, &'static str)>;

impl Met<'_> {
    fn is(&self, kind: u8, answer: u64) -> bool {
        self.record[0] == kind && self.answer == answer
    }

    fn old_name(&self) -> &[u8] {
        &self.record[16..16 + usize::from(self.record[1])]
    }

    fn new_name(&self) -> &[u8] {
        &self.record[56..56 + usize::from(self.record[2])]
    }

    fn rename_edges(&self) -> Edges {
        let (old, new) = (self.old_name(), self.new_name());
        let padded = |name: &[u8]| (name.len() + 7) / 8 * 8;
        let needed = self.file_length + padded(new) - padded(old).min(padded(new));
        let is_done = self.is(RENAME, 0);
        let grows = padded(new) > padded(old);
        let shrinks = padded(new) < padded(old);
        let keeps = is_done && !grows && !shrinks && new != old;
        vec![
            (is_done && new == old, "rename: its own name"),
            (
                self.is(RENAME, 24) && new == old,
                "rename: its own, borne twice",
            ),
            (keeps && new.len() == old.len(), "rename: same length"),
            (keeps && new.len() != old.len(), "rename: same padded size"),
            (is_done && grows, "rename: grows"),
            (is_done && shrinks, "rename: shrinks"),
            (
                is_done && grows && needed == self.room,
                "rename: room just enough",
            ),
            (
                self.is(RENAME, 26) && needed == self.room + 1,
                "rename: a byte too few",
            ),
        ]
    }

    fn removal_edges(&self) -> Edges {
        let reads = self.contents.reads.len();
        let is_done = self.is(REMOVE, 0);
        let is_last = self.position == reads - 1;
        vec![
            (is_done && reads == 1, "remove: the only read"),
            (
                is_done && reads > 1 && self.position == 0,
                "remove: the first",
            ),
            (is_done && reads > 1 && is_last, "remove: the last"),
            (is_done && reads == 256, "remove: one of 256"),
        ]
    }

    fn clip_edges(&self) -> Edges {
        let bases = self.contents.reads[self.position].bases.len() as u64;
        let mut clips = self.record[8..16].chunks(2).map(big_endian);
        let highest = clips.by_ref().max().expect("four clips");
        let (is_done, is_above) = (self.is(CLIPS, 0), self.is(CLIPS, 23));
        vec![
            (is_done && bases > 0 && highest == bases, "clips: N"),
            (is_done && highest == 65_535, "clips: 65,535"),
            (is_above && highest == bases + 1, "clips: N + 1"),
            (is_above && highest == 65_535, "clips: 65,535 above N"),
        ]
    }

    fn other_edges(&self) -> Edges {
        let name = self.contents.reads[self.position].name;
        let old = self.old_name();
        let has_index = self.contents.header.has_index();
        let is_22 = self.answer == 22;
        let is_longer = name.starts_with(old);
        let is_shorter = !name.is_empty() && old.starts_with(name);
        vec![
            (has_index && self.is(CLIPS, 0), "index: clips"),
            (has_index && self.is(RENAME, 25), "index: rename"),
            (has_index && self.is(REMOVE, 25), "index: remove"),
            (is_22 && is_longer, "name: a longer one is there"),
            (is_22 && is_shorter, "name: a shorter one is there"),
            (is_22 && name.is_empty(), "name: none is there"),
            (is_22 && name.len() > 40, "name: one over 40 bytes is there"),
            (self.position > 255, "a position of two bytes"),
        ]
    }
}

#[test]
fn every_edge_of_a_correction_occurs_five_times() {
    let mut edges = Counts::new(false, &[]);
    for number in 0..20_000 {
        let mut call = correct_call(SEED, number);
        let before = call.buffer.clone();
        let written = correct(&mut call.buffer, call.file_length, &call.record);
        let answer = numbers(written.refusal).0;
        let file_length = (call.file_length as usize).min(before.len());
        let Ok(contents) = test_file(&before[..file_length]) else {
            continue;
        };
        if matches!(answer, 14 | 20 | 21) {
            continue;
        }
        let met = Met {
            record: &call.record,
            contents,
            position: big_endian(&call.record[4..8]) as usize,
            file_length,
            room: before.len(),
            answer,
        };
        let all = [
            met.rename_edges(),
            met.removal_edges(),
            met.clip_edges(),
            met.other_edges(),
        ];
        for (holds, edge) in all.concat() {
            edges.note(holds, edge);
        }
    }
    println!("{}", edges.line());
    assert!(edges.below(5).is_empty(), "{:?}", edges.below(5));
}

#[test]
fn every_edge_of_a_list_occurs_five_times() {
    let mut edges = Counts::new(false, &[]);
    for number in 0..10_000 {
        let mut call = list_call(SEED, number);
        let before = call.buffer.clone();
        let run = correct_list(&mut call.buffer, call.file_length, &call.list);
        let done: Vec<&[u8]> = call.list.chunks(96).take(run.count as usize).collect();
        let kinds: Vec<u8> = done.iter().map(|record| record[0]).collect();
        let positions: Vec<u64> = done
            .iter()
            .map(|record| big_endian(&record[4..8]))
            .collect();
        let rises = positions.windows(2).all(|pair| pair[0] <= pair[1]);
        let repeats = positions.windows(2).any(|pair| pair[0] == pair[1]);
        let falls = positions.windows(2).all(|pair| pair[0] > pair[1]);
        let clips_alone = done.len() > 1 && kinds.iter().all(|kind| *kind == CLIPS);
        let removal = kinds.iter().position(|kind| *kind == REMOVE);
        let behind = call.list.len() / 96 - done.len();
        let is_empty = call.list.is_empty();
        let is_above = call.file_length > before.len() as u64;
        let is_refused = !is_above && file_test(&before[..call.file_length as usize]).0 != 0;
        let all = [
            (is_empty && is_above, "empty, length above the buffer"),
            (is_empty && is_refused, "empty, file refused"),
            (clips_alone && rises && repeats, "clips, rising, one twice"),
            (clips_alone && falls, "clips, falling"),
            (clips_alone && !rises && !falls, "clips, in no order"),
            (
                clips_alone && done.len() > 12 && rises,
                "many clips, rising",
            ),
            (
                clips_alone && done.len() > 12 && !rises,
                "many clips, not rising",
            ),
            (done.len() == 12 && behind == 0, "twelve records"),
            (
                removal.is_some_and(|at| at + 1 < done.len()),
                "removal, then others",
            ),
            (!done.is_empty() && behind > 1, "refusal in the middle"),
            (!done.is_empty() && behind == 1, "refusal at the end"),
            (done.is_empty() && behind > 1, "refusal at the start"),
        ];
        for (holds, edge) in all {
            edges.note(holds, edge);
        }
    }
    println!("{}", edges.line());
    assert!(edges.below(5).is_empty(), "{:?}", edges.below(5));
}
