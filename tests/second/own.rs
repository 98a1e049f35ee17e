//! The second implementation's own tests: document 01's checked examples on the file and the
//! listing, each answer with its place, the order of the tests, the reader, the inputs. Those of the
//! insert, the signal summary and the writers are in `own_calls`; those of the corrections are in
//! `own_corrections`, and with inputs of theirs in `own_generated`; those of the filters are in
//! `own_filters` and `own_filter_inputs`.

mod calls;
mod correcting;
mod corrections;
mod counts;
mod filter_inputs;
mod filters;
mod inputs;
mod own_calls;
mod own_corrections;
mod own_filter_inputs;
mod own_filters;
mod own_generated;
mod reading;
mod samples;
mod sff;
mod views;
mod writing;

use samples::{e_with, samples, E};
use sff::{file_test, first_last, listing, numbers, Reader};

/// The seed of the comparison that the script `run` makes.
const SEED: u64 = 454;
const COUNT: u64 = 5_000;

/// E with several bytes changed.
fn e_changed(changes: &[(usize, u8)]) -> Vec<u8> {
    let mut file = E.to_vec();
    for (place, value) in changes {
        file[*place] = *value;
    }
    file
}

fn sample(name: &str) -> Vec<u8> {
    let all = samples();
    all.into_iter()
        .find(|(known, _)| *known == name)
        .expect("a sample of that name")
        .1
}

fn text(bytes: &[u8]) -> String {
    String::from_utf8(listing(bytes)).expect("text")
}

// Document 01, "Checked examples".

#[test]
fn e_has_88_bytes_and_is_accepted() {
    assert_eq!(E.len(), 40 + 24 + 24);
    assert_eq!(file_test(&E), (0, 0));
    assert_eq!(first_last(3, [2, 0, 0, 0]), (2, 3));
    assert_eq!(
        sff::test_file(&E).ok().expect("accepted").reads[0].insert(),
        b"CC"
    );
}

#[test]
fn the_bare_file_has_32_bytes_and_its_first_31_are_refused() {
    let bare = sample("bare");
    assert_eq!(bare.len(), 32);
    assert_eq!(file_test(&bare), (0, 0));
    assert_eq!(file_test(&bare[..31]), (1, 0));
}

#[test]
fn clip_3_is_accepted_and_4_gives_9() {
    for place in [48, 50, 52, 54] {
        assert_eq!(file_test(&e_with(place + 1, 3)), (0, 0));
        assert_eq!(file_test(&e_with(place + 1, 4)), (9, place as u64));
    }
    assert_eq!(text(&e_with(49, 4)), "refused 9 at 48\n");
}

#[test]
fn increments_1_4_and_a_first_increment_of_0_give_10() {
    assert_eq!(file_test(&e_with(73, 4)), (10, 73));
    assert_eq!(file_test(&e_with(72, 0)), (10, 72));
}

#[test]
fn base_t_at_flow_3_gives_11_and_n_is_accepted() {
    assert_eq!(file_test(&e_with(76, b'T')), (11, 76));
    assert_eq!(file_test(&e_with(76, b'N')), (0, 0));
}

#[test]
fn e_is_listed_in_two_lines() {
    assert_eq!(text(&E), "flows 4 key T reads 1\n0 r1 3 2 3 CC\n");
}

// Each answer.

#[test]
fn one_changed_byte_of_e() {
    let cases = [
        (0, 0, (2, 0)),
        (3, b'g', (2, 0)),
        (4, 1, (3, 4)),
        (7, 2, (3, 4)),
        (30, 0, (4, 30)),
        (30, 2, (4, 30)),
        (25, 48, (5, 24)),
        (25, 36, (5, 24)),
        (27, 2, (6, 36)),
        (29, 3, (7, 35)),
        (31, b'N', (6, 31)),
        (35, b't', (6, 35)),
        (36, 1, (7, 36)),
        (39, 1, (7, 39)),
        (15, 88, (8, 8)),
        (19, 8, (8, 8)),
        (41, 32, (5, 40)),
        (41, 18, (5, 40)),
        (43, 9, (5, 40)),
        (43, 8, (6, 58)),
        (43, 1, (7, 57)),
        (56, 32, (6, 56)),
        (56, 33, (0, 0)),
        (57, 126, (0, 0)),
        (57, 127, (6, 57)),
        (58, 1, (7, 58)),
        (63, 1, (7, 63)),
        (48, 1, (9, 48)),
        (54, 1, (9, 54)),
        (44, 128, (1, 64)),
        (47, 6, (1, 64)),
        (47, 5, (10, 75)),
        (47, 1, (9, 48)),
        (74, 1, (11, 77)),
        (74, 2, (10, 74)),
        (75, b'A', (11, 75)),
        (76, b'c', (11, 76)),
        (64, 255, (0, 0)),
        (78, 255, (0, 0)),
        (80, 0, (0, 0)),
        (81, 1, (7, 81)),
        (87, 255, (7, 87)),
        (23, 0, (12, 40)),
        (23, 2, (1, 88)),
        (20, 255, (1, 88)),
    ];
    for (place, value, expected) in cases {
        assert_eq!(
            file_test(&e_with(place, value)),
            expected,
            "byte {place} set to {value}"
        );
    }
}

#[test]
fn e_cut_anywhere() {
    for length in 0..88 {
        let start = if length < 40 {
            0
        } else if length < 64 {
            40
        } else {
            64
        };
        assert_eq!(file_test(&E[..length]), (1, start), "{length} bytes");
    }
}

#[test]
fn index_fields_of_e() {
    // offset, length, answer
    let cases = [
        (88, 4, (8, 8)),
        (88, 12, (8, 8)),
        (88, 7, (8, 8)),
        (88, 8, (1, 88)),
        (88, 4_294_967_288, (1, 88)),
        (40, 48, (1, 88)),
        (40, 56, (1, 40)),
        (89, 8, (13, 8)),
        (96, 8, (13, 8)),
        (64, 24, (13, 8)),
        (41, 8, (13, 8)),
        (8, 8, (13, 8)),
        (u64::MAX, 8, (13, 8)),
        (u64::MAX - 7, 4_294_967_288, (13, 8)),
        ((1 << 32) + 40, 48, (13, 8)),
    ];
    for (offset, length, expected) in cases {
        let mut file = E.to_vec();
        inputs::set(&mut file, 8, 8, offset);
        inputs::set(&mut file, 16, 4, length);
        assert_eq!(file_test(&file), expected, "index of {length} at {offset}");
    }
    // The index in the place of the read: with no read declared the file is accepted.
    assert_eq!(
        file_test(&e_changed(&[(15, 40), (19, 48), (23, 0)])),
        (0, 0)
    );
    // An index behind E that is there, is longer than the file, or is followed by a byte.
    let mut file = e_changed(&[(15, 88), (19, 8)]);
    file.extend([255; 8]);
    assert_eq!(file_test(&file), (0, 0));
    assert_eq!(file_test(&file[..95]), (1, 88));
    file.push(0);
    assert_eq!(file_test(&file), (12, 96));
}

#[test]
fn lengths_that_their_field_cannot_hold() {
    // F = K = 65,535 make up8(131,101) = 131,104, which leaves 32 in two bytes.
    let large = [
        (24, 0),
        (25, 32),
        (26, 255),
        (27, 255),
        (28, 255),
        (29, 255),
    ];
    assert_eq!(file_test(&e_changed(&large)), (5, 24));
    // L = 65,520 makes 65,536, which leaves 0; L = 65,535 makes 65,552, which leaves 16.
    let name = [(40, 0), (41, 0), (42, 255), (43, 240)];
    assert_eq!(file_test(&e_changed(&name)), (5, 40));
    let name = [(40, 0), (41, 16), (42, 255), (43, 255)];
    assert_eq!(file_test(&e_changed(&name)), (5, 40));
    // N = 1,431,655,766 makes 3N = 2^32 + 2.
    let bases = [(44, 0x55), (45, 0x55), (46, 0x55), (47, 0x56)];
    assert_eq!(file_test(&e_changed(&bases)), (1, 64));
}

// "Order of the file's tests": the earlier of two damages is named.

#[test]
fn the_earlier_test_answers() {
    // changes, bytes kept, answer
    let cases: [(&[(usize, u8)], usize, (u64, u64)); 23] = [
        (&[(0, 0)], 30, (1, 0)),
        (&[(0, 0)], 31, (2, 0)),
        (&[(0, 0), (4, 1)], 88, (2, 0)),
        (&[(4, 1), (30, 0)], 88, (3, 4)),
        (&[(30, 0), (25, 0)], 88, (4, 30)),
        (&[(25, 48)], 39, (5, 24)),
        (&[(31, 0)], 39, (1, 0)),
        (&[(35, 0), (36, 1)], 88, (6, 35)),
        (&[(32, 0), (35, 0)], 88, (6, 32)),
        (&[(36, 1), (19, 8)], 88, (7, 36)),
        (&[(19, 8), (41, 0)], 88, (8, 8)),
        (&[(41, 0)], 55, (1, 40)),
        (&[(41, 0)], 56, (5, 40)),
        (&[(56, 0)], 63, (1, 40)),
        (&[(57, 0), (58, 1)], 88, (6, 57)),
        (&[(58, 1), (49, 4)], 88, (7, 58)),
        (&[(51, 4), (55, 4)], 88, (9, 50)),
        (&[(55, 4)], 64, (9, 54)),
        (&[(72, 0)], 87, (1, 64)),
        (&[(74, 9), (75, b'G')], 88, (10, 74)),
        (&[(77, b'G'), (81, 1)], 88, (11, 77)),
        (&[(15, 80), (19, 8), (23, 0)], 88, (13, 8)),
        (&[(15, 80), (19, 8), (72, 0)], 88, (10, 72)),
    ];
    for (changes, kept, expected) in cases {
        let file = e_changed(changes);
        assert_eq!(
            file_test(&file[..kept]),
            expected,
            "{changes:?}, {kept} bytes kept"
        );
    }
}

// The lister.

#[test]
fn the_samples_are_listed_as_written_here() {
    let two = "flows 4 key T reads 2\n0 r1 3 2 3 CC\n1 second 4 1 3 AAC\n";
    let empty_parts = "flows 4 key - reads 4\n\
        0 - 2 1 2 TC\n\
        1 clipped-away 3 3 2 -\n\
        2 no-bases 0 1 0 -\n\
        3 - 0 1 0 -\n";
    let right_clips = "flows 4 key TCAG reads 4\n\
        0 quality-first 4 1 2 TA\n\
        1 adapter-first 4 2 3 AC\n\
        2 both 4 1 1 T\n\
        3 one-is-0 4 2 3 AC\n";
    assert_eq!(text(&sample("bare")), "flows 0 key - reads 0\n");
    assert_eq!(text(&sample("bare-31")), "refused 1 at 0\n");
    assert_eq!(text(&sample("index-first")), two);
    assert_eq!(text(&sample("index-between")), two);
    assert_eq!(text(&sample("index-last")), two);
    assert_eq!(text(&sample("empty-parts")), empty_parts);
    assert_eq!(text(&sample("refused-9")), "refused 9 at 48\n");
    assert_eq!(text(&sample("right-clips")), right_clips);

    let many = text(&sample("many"));
    let lines: Vec<&str> = many.lines().collect();
    assert_eq!(lines.len(), 61);
    assert_eq!(lines[0], "flows 4 key TCAG reads 60");
    assert_eq!(lines[1], "0 - 4 1 4 TANG");
    assert_eq!(lines[2], "1 ! 4 1 3 TAN");
    assert_eq!(lines[3], "2 \"# 4 2 2 A");
    assert_eq!(lines[4], "3 $%& 4 3 1 -");
    for (length, line) in lines[1..].iter().enumerate().skip(1) {
        assert_eq!(line.split(' ').nth(1).map(str::len), Some(length));
    }
}

#[test]
fn input_above_65536_bytes_is_too_long() {
    let mut input = vec![0; 65_536];
    assert_eq!(text(&input), "refused 2 at 0\n");
    input.push(0);
    assert_eq!(text(&input), "too long\n");
    assert_eq!(text(&[]), "refused 1 at 0\n");
}

// The insert and the reader.

#[test]
fn first_and_last() {
    assert_eq!(first_last(0, [0; 4]), (1, 0));
    assert_eq!(first_last(9, [0; 4]), (1, 9));
    assert_eq!(first_last(9, [2, 8, 3, 7]), (3, 7));
    assert_eq!(first_last(9, [3, 7, 2, 8]), (3, 7));
    assert_eq!(first_last(9, [0, 5, 0, 0]), (1, 5));
    assert_eq!(first_last(9, [0, 0, 0, 5]), (1, 5));
    assert_eq!(first_last(9, [9, 1, 0, 0]), (9, 1));
    assert_eq!(first_last(u64::MAX, [u64::MAX; 4]), (u64::MAX, u64::MAX));
}

/// "From a fresh state an accepted file's reads come in order, each once, then 33; a refused file
/// gives the whole-file test's refusal at last."
#[test]
fn stepping_from_a_fresh_state() {
    for number in 0..COUNT {
        let file = inputs::input(SEED, number);
        if file.len() > sff::LONGEST_INPUT {
            continue;
        }
        let mut state = Reader::fresh(&file);
        let mut reads = Vec::new();
        let last = loop {
            let step = state.step(&file);
            match step.read {
                Some(read) => reads.push(read),
                None => break step,
            }
            state = step.state;
        };
        assert_eq!(last.state, state);
        match sff::test_file(&file) {
            Ok(contents) => {
                assert_eq!(numbers(last.refusal), (33, file.len() as u64));
                assert_eq!(reads, contents.reads);
            }
            Err(refusal) => {
                assert_eq!(last.refusal, Some(refusal));
            }
        }
    }
}

fn state(place: u64, passed_reads: u64, passed_index: bool) -> Reader {
    Reader {
        place,
        passed_reads,
        passed_index,
    }
}

/// The refusal of a step, whose state must come back unmoved.
fn refusal(file: &[u8], state: Reader) -> (u64, u64) {
    let step = state.step(file);
    assert_eq!(step.state, state);
    assert!(step.read.is_none());
    numbers(step.refusal)
}

#[test]
fn forged_states_of_e() {
    let no = false;
    assert_eq!(Reader::fresh(&E), state(40, 0, no));
    assert_eq!(Reader::fresh(&E[..39]), state(0, 0, no));
    assert_eq!(refusal(&E[..39], state(u64::MAX, 0, no)), (1, 0));
    assert_eq!(refusal(&E, state(89, 0, no)), (1, 89));
    assert_eq!(refusal(&E, state(89, 1, no)), (1, 89));
    assert_eq!(refusal(&E, state(u64::MAX, u64::MAX, true)), (1, u64::MAX));
    assert_eq!(refusal(&E, state(88, 0, no)), (1, 88));
    assert_eq!(refusal(&E, state(88, 1, no)), (33, 88));
    assert_eq!(refusal(&E, state(88, u64::MAX, true)), (33, 88));
    assert_eq!(refusal(&E, state(40, 1, no)), (12, 40));
    assert_eq!(refusal(&E, state(0, 0, no)), (5, 0));
    assert_eq!(refusal(&E, state(87, 0, no)), (1, 87));
    // On a file without an index the flag "has no effect and comes back as it came" (docs/DECISIONS.md).
    assert_eq!(state(40, 0, true).step(&E).state, state(88, 1, true));
}

#[test]
fn states_around_an_index() {
    // The header ends at 40; the reads have 48 and 24 + 24 bytes.
    let first = sample("index-first");
    assert_eq!(Reader::fresh(&first), state(40, 0, false));
    assert_eq!(
        state(40, 0, false).step(&first).state,
        state(40 + 16 + 48, 1, true)
    );
    assert_eq!(refusal(&first, state(40, 0, true)), (5, 40));
    assert_eq!(refusal(&first, state(152, 2, false)), (13, 8));
    assert_eq!(refusal(&first, state(152, 2, true)), (33, 152));
    let between = sample("index-between");
    assert_eq!(
        state(40, 0, false).step(&between).state,
        state(88, 1, false)
    );
    assert_eq!(
        state(88, 1, false).step(&between).state,
        state(88 + 8 + 48, 2, true)
    );
    let last = sample("index-last");
    assert_eq!(last.len(), 160);
    assert_eq!(refusal(&last, state(136, 2, false)), (33, 160));
    assert_eq!(refusal(&last, state(136, 2, true)), (12, 136));
    assert_eq!(refusal(&last[..159], state(136, 2, false)), (1, 136));
}

/// Any state on any file: a step ends, and moves either not at all or by one read inside the file.
#[test]
fn forged_states_of_all_inputs() {
    let mut random = inputs::Random::new(SEED);
    for number in 0..COUNT {
        let file = inputs::input(SEED, number);
        let length = file.len() as u64;
        let fresh = Reader::fresh(&file);
        for _ in 0..10 {
            let inside = random.next() % (length + 1);
            let places = [
                0,
                8,
                fresh.place,
                inside,
                inside / 8 * 8,
                length,
                length + 1,
                u64::MAX,
            ];
            let before = state(
                random.pick(&places),
                random.pick(&[0, 0, 1, 2, u64::MAX - 1, u64::MAX]),
                random.one_in(2),
            );
            let step = before.step(&file);
            if step.read.is_none() {
                assert!(numbers(step.refusal).0 != 0);
                assert_eq!(step.state, before);
            } else {
                assert_eq!(step.refusal, None);
                assert_eq!(step.state.passed_reads, before.passed_reads + 1);
                assert!(step.state.place >= before.place + 16 && step.state.place <= length);
                assert!(step.state.passed_index || !before.passed_index);
            }
        }
    }
}

// The inputs.

#[test]
fn the_layout_gives_e() {
    let read = inputs::Read {
        name: b"r1".to_vec(),
        clips: [2, 0, 0, 0],
        values: vec![100, 0, 200, 0],
        increments: vec![1, 2, 0],
        bases: b"TCC".to_vec(),
        qualities: vec![40; 3],
    };
    let flows = b"TACG".to_vec();
    let model = inputs::Model {
        flows,
        key: b"T".to_vec(),
        reads: vec![read],
        index: None,
    };
    assert_eq!(inputs::lay_out(&model).bytes, E);
}

#[test]
fn valid_files_are_accepted() {
    for number in 0..2_000 {
        let file = inputs::valid_input(SEED, number);
        assert_eq!(
            file_test(&file),
            (0, 0),
            "valid file {number} of seed {SEED}"
        );
    }
}

#[test]
fn every_answer_occurs_twenty_times() {
    let mut counts = counts::Counts::new(true, &["too long"]);
    for number in 0..COUNT {
        counts.add(&counts::listed(&inputs::input(SEED, number)));
    }
    println!("{}", counts.line());
    assert!(
        counts.below(20).is_empty(),
        "too few: {:?}",
        counts.below(20)
    );
}
