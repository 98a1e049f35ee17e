//! The second implementation's own tests of the filters with the inputs of the comparison: what is true
//! of all of them, and what the inputs reach.

use crate::counts::Counts;
use crate::filter_inputs::{
    encode_call, header_length, layer_call, levelled, scf_call, undo_call, unit_width, EncodeCall,
    UndoCall, FORMATS,
};
use crate::filters::{self, encode, numbers, scf_encode, scf_undo, undo, undo_layer};

const SEED: u64 = 454;
const COUNT: u64 = 20_000;

// What is true of all of them. Blocks are laid out by code of the inputs' own.

#[test]
fn right_blocks_are_undone() {
    let mut right = [0; 2];
    for number in 0..COUNT {
        let calls = [undo_call(SEED, number), layer_call(SEED, number)];
        for (whole, mut call) in [true, false].into_iter().zip(calls) {
            let Some(data) = call.data else { continue };
            let undone = if whole { undo } else { undo_layer };
            let made = undone(&call.block, &mut call.first, &mut call.second);
            let (first, rest) = call.first.split_at(data.len());
            assert_eq!(numbers(made), (0, data.len() as u64), "block {number}");
            assert!(first == data, "block {number}");
            assert!(rest.iter().chain(&call.second).all(|byte| *byte == 0));
            right[usize::from(whole)] += 1;
        }
    }
    assert!(right.iter().all(|count| *count > 4_000), "{right:?}");
}

#[test]
fn right_data_are_encoded() {
    let mut right = 0;
    for number in 0..COUNT {
        let mut call = encode_call(SEED, number);
        let before = call.out.clone();
        let made = encode(
            call.format,
            call.level,
            &call.follow,
            &call.data,
            &mut call.out,
        );
        let block = call.block.unwrap_or_default();
        assert_eq!(made.is_ok(), !block.is_empty(), "encoding {number}");
        assert_eq!(made.unwrap_or(0), block.len(), "encoding {number}");
        let expected = [&block, &before[block.len()..]].concat();
        assert!(call.out == expected, "encoding {number}");
        right += usize::from(made.is_ok());
    }
    assert!(right > 5_000, "{right} were right");
}

#[test]
fn right_samples_are_levelled() {
    for number in 0..COUNT {
        let mut call = scf_call(SEED, number);
        let made = scf_encode(call.precision, &call.data, &mut call.out);
        let Ok(length) = made else { continue };
        assert_eq!(length, call.data.len());
        let width = call.precision as usize;
        assert!(call.out[..length] == levelled(&call.data, width, 2));
        let mut back = vec![0; length];
        let made = scf_undo(call.precision, &call.out[..length], &mut back);
        assert_eq!(numbers(made), (0, length as u64));
        assert!(back == call.data, "samples {number}");
    }
}

// What the inputs reach.

/// A block, those inside it as far as they can be opened with any room, and what was answered.
struct Met {
    blocks: Vec<Vec<u8>>,
    buffers: [usize; 2],
    room: usize,
    answer: String,
}

type Edges = Vec<(bool, String)>;

fn named(edges: &[(bool, &str)]) -> Edges {
    let edges = edges.iter();
    edges
        .map(|(holds, edge)| (*holds, edge.to_string()))
        .collect()
}

fn met(call: &mut UndoCall) -> Met {
    let mut blocks = vec![call.block.clone()];
    while blocks.len() < 12 {
        let inside = blocks.last().expect("one block");
        let mut room = [0; 2].map(|_| vec![0; 4 * inside.len()]);
        let [first, second] = &mut room;
        match undo_layer(inside, first, second) {
            Ok(made) => blocks.push(first[..made].to_vec()),
            Err(_) => break,
        }
    }
    let buffers = [call.first.len(), call.second.len()];
    let made = undo(&call.block, &mut call.first, &mut call.second);
    Met {
        blocks,
        room: buffers[0].min(buffers[1]),
        buffers,
        answer: filters::name(made),
    }
}

impl Met {
    fn is(&self, answer: &str) -> bool {
        self.answer == answer
    }

    /// The filters around the innermost block that can be come to.
    fn depth(&self) -> usize {
        self.blocks.len() - 1
    }

    fn last(&self) -> &[u8] {
        &self.blocks[self.depth()]
    }

    fn last_format(&self) -> u8 {
        self.last().first().copied().unwrap_or(0)
    }

    /// The lengths of what the filters give.
    fn results(&self) -> Vec<usize> {
        self.blocks.iter().skip(1).map(Vec::len).collect()
    }

    fn most(&self) -> usize {
        self.results().into_iter().max().unwrap_or(0)
    }

    fn room_edges(&self) -> Edges {
        let results = self.results();
        let most = self.most();
        let peak = results.iter().position(|length| *length == most);
        let is_last = peak.is_some_and(|at| at + 1 == results.len());
        let is_middle = peak.is_some_and(|at| at + 1 < results.len());
        let just = self.is("0") && most == self.room;
        let too_few = self.is("26") && most == self.room + 1;
        named(&[
            (just && is_last, "last: just enough"),
            (too_few && is_last, "last: one too few"),
            (just && is_middle, "middle: just enough"),
            (too_few && is_middle, "middle: one too few"),
        ])
    }

    fn buffer_edges(&self) -> Edges {
        let (done, no_room) = (self.is("0"), self.is("26"));
        let (raw, most) = (self.depth() == 0, self.most());
        let data = self.last().len().saturating_sub(1);
        let [first, second] = self.buffers;
        let first_short = no_room && first < second && most <= second;
        let second_short = no_room && second < first && most <= first;
        let too_few = no_room && data == self.room + 1;
        named(&[
            (done && raw && data == self.room, "0 alone: just enough"),
            (raw && too_few, "0 alone: one too few"),
            (done && first < second, "the first buffer shorter"),
            (done && first > second, "the second buffer shorter"),
            (first_short, "the first too short"),
            (second_short, "the second too short"),
            (done && self.room == 0, "nothing in no room"),
            (no_room && self.room == 0, "no room"),
            (done && data == 0 && !raw, "nothing under filters"),
        ])
    }

    /// Of the layer that is refused, if there was room up to it.
    fn refusal_edges(&self) -> Edges {
        let (block, depth) = (self.last(), self.depth());
        let format = self.last_format();
        let units = block.len().saturating_sub(header_length(format)) % unit_width(format);
        let is_level = matches!(block.get(1), Some(1..=3));
        let zeros = format == 66 && self.is("42") && is_level;
        let cut = self.is("40 header") && format == 66 && block.len() > 1;
        named(&[
            (self.is("40 empty") && depth == 0, "40 empty: given"),
            (self.is("40 empty") && depth == 8, "40 empty: under eight"),
            (self.is("41") && depth == 0, "41: given"),
            (self.is("41") && depth == 8, "41: under eight"),
            (self.is("42") && units != 0, "42 before 43"),
            (self.is("43") && self.room == 0, "43 before 26"),
            (zeros && block[3] == 0, "42: third byte"),
            (zeros && block[2] == 0, "42: fourth byte"),
            (cut && !is_level, "40 before 42"),
        ])
    }

    /// The same by formats.
    fn format_edges(&self) -> Edges {
        let format = self.last_format();
        let mut edges = vec![];
        for cut in [64, 65, 66, 72] {
            let is = self.is("40 header") && format == cut;
            let eighth = is && self.depth() == 7;
            edges.push((is, format!("40 header: {cut}")));
            edges.push((eighth, format!("40 header: {cut}, the eighth")));
        }
        for width in [65, 66, 70, 71] {
            edges.push((self.is("43") && format == width, format!("43: {width}")));
        }
        for level in [0, 4, 255] {
            let is = self.is("42") && self.last()[1] == level;
            for delta in [64, 65, 66] {
                edges.push((is && format == delta, format!("42: {delta} level {level}")));
            }
        }
        edges
    }

    fn depth_edges(&self) -> Edges {
        let mut edges = vec![];
        for depth in 0..=8 {
            let is = self.is("0") && self.depth() == depth;
            edges.push((is, format!("0 under {depth}")));
        }
        let ninth = self.blocks.get(8).filter(|_| self.is("44"));
        for format in FORMATS {
            let is_ninth = ninth.is_some_and(|block| block[0] == format);
            edges.push((is_ninth, format!("44: {format}")));
            let is_inside = self
                .blocks
                .iter()
                .any(|block| block.first() == Some(&format));
            edges.push((is_inside && self.is("0"), format!("0 with {format}")));
        }
        let is_cut = |block: &Vec<u8>| block.len() < header_length(block[0]);
        let is_wrong = |block: &Vec<u8>| matches!(block[..], [64 | 65, 0 | 4..=255, ..]);
        edges.push((ninth.is_some_and(is_cut), "44 before 40".to_string()));
        edges.push((ninth.is_some_and(is_wrong), "44 before 42".to_string()));
        edges
    }
}

#[test]
fn every_edge_of_a_block_occurs_five_times() {
    let mut edges = std::collections::BTreeMap::new();
    for number in 0..COUNT {
        let met = met(&mut undo_call(SEED, number));
        let all = [
            met.room_edges(),
            met.buffer_edges(),
            met.refusal_edges(),
            met.format_edges(),
            met.depth_edges(),
        ];
        for (holds, edge) in all.concat() {
            *edges.entry(edge).or_insert(0) += u64::from(holds);
        }
    }
    println!("{edges:?}");
    edges.retain(|_, count| *count < 5);
    assert!(edges.is_empty(), "{edges:?}");
}

/// How many bytes come after a last 128 that has too few, by format.
#[test]
fn every_short_end_occurs_five_times() {
    let names = ["70: 0", "70: 1", "71: 0", "71: 1", "71: 2", "71: 3"];
    let mut ends = Counts::new(false, &names);
    for number in 0..COUNT {
        let call = layer_call(SEED, number);
        let Some((format @ (70 | 71), data)) = call.block.split_first() else {
            continue;
        };
        let (width, mut at) = (unit_width(*format), 0);
        while at < data.len() {
            let step = if data[at] == 128 { 1 + width } else { 1 };
            if at + step > data.len() {
                ends.add(&format!("{format}: {}", data.len() - at - 1));
            }
            at += step;
        }
    }
    println!("{}", ends.line());
    assert!(ends.below(5).is_empty(), "{:?}", ends.below(5));
}

/// A small value in long form, in a layer that is undone.
#[test]
fn small_values_in_long_form_occur() {
    for format in [70, 71] {
        let mut long = 0;
        for number in 0..COUNT {
            let call = layer_call(SEED, number);
            let (Some(data), true) = (&call.data, call.block.first() == Some(&format)) else {
                continue;
            };
            let mut out = vec![0; call.block.len()];
            let made = encode(u64::from(format), 0, &[], data, &mut out);
            long += usize::from(made.expect("a block") < call.block.len());
        }
        assert!(long > 100, "{long} of {format}");
    }
}

fn encode_edges(call: &mut EncodeCall) -> [(bool, &'static str); 15] {
    let (format, level, follow) = (call.format, call.level, call.follow.len());
    let (data, room) = (&call.data, call.out.len());
    let made = encode(format, level, &call.follow, data, &mut call.out);
    let is = |number: u64| numbers(made).0 == number;
    let is_known = FORMATS.contains(&(format as u8));
    let is_level = is(42) && (64..=66).contains(&format);
    let is_follow = is(42) && format == 72;
    let is_more = made.is_ok_and(|length| length < room);
    [
        (made == Ok(room), "just enough"),
        (is_more, "more than enough"),
        (is(26) && room == data.len(), "26, room of the data"),
        (is(41) && is_known, "41, lowest byte known"),
        (is(41) && format == u64::MAX, "41, the highest"),
        (is_level && level == 0, "42, level 0"),
        (is_level && level == 4, "42, level 4"),
        (is_level && level as u8 == 1, "42, lowest byte 1"),
        (is_level && level as u32 == 1, "42, lowest four 1"),
        (is_follow && follow == 0, "42, no follow bytes"),
        (is_follow && follow == 255, "42, 255 follow bytes"),
        (is_follow && follow == 257, "42, 257 follow bytes"),
        (is(0) && follow != 256, "any follow bytes"),
        (is(0) && level > 3, "any level"),
        (is(43) && room == 0, "43 before 26"),
    ]
}

#[test]
fn every_edge_of_an_encoding_occurs_five_times() {
    let mut edges = Counts::new(false, &[]);
    for number in 0..COUNT {
        for (holds, edge) in encode_edges(&mut encode_call(SEED, number)) {
            edges.note(holds, edge);
        }
    }
    println!("{}", edges.line());
    assert!(edges.below(5).is_empty(), "{:?}", edges.below(5));
}
