//! The second implementation's own tests of the filters: document 01's marked cases, and others worked
//! out by hand, each refusal with what comes before it and after it, and the lent memory.

use crate::filters::{encode, numbers, scf_encode, scf_undo, undo, undo_layer, Made};

type Undo = fn(&[u8], &mut [u8], &mut [u8]) -> Made;

/// The answer and both buffers, of these lengths, after a block was undone in them.
fn in_buffers(call: Undo, block: &[u8], lengths: [usize; 2]) -> ((u64, u64), [Vec<u8>; 2]) {
    let mut buffers = lengths.map(|length| vec![170; length]);
    let [first, second] = &mut buffers;
    let made = call(block, first, second);
    (numbers(made), buffers)
}

/// The number alone, in buffers of a length; whatever it is, what is left of them is looked at.
fn number(call: Undo, block: &[u8], room: usize) -> u64 {
    let ((number, made), [first, second]) = in_buffers(call, block, [room, room + 3]);
    assert!(second.iter().all(|byte| *byte == 0));
    assert!(first[made as usize..].iter().all(|byte| *byte == 0));
    assert!(number == 0 || made == 0);
    number
}

/// The block that data are encoded to.
fn encoded(format: u64, level: u64, follow: &[u8], data: &[u8]) -> Result<Vec<u8>, u64> {
    let mut out = vec![170; 2 * data.len() + 300];
    match numbers(encode(format, level, follow, data, &mut out)) {
        (0, made) => {
            let rest = out.split_off(made as usize);
            assert!(rest.iter().all(|byte| *byte == 170));
            Ok(out)
        }
        (number, made) => {
            assert!(made == 0 && out.iter().all(|byte| *byte == 170));
            Err(number)
        }
    }
}

/// Encoding gives this block, and undoing the block alone gives the data, in just the room for it.
fn both_ways(level: u64, follow: &[u8], data: &[u8], block: &[u8]) {
    let format = u64::from(block[0]);
    assert_eq!(encoded(format, level, follow, data), Ok(block.to_vec()));
    let length = data.len();
    let (answer, [first, second]) = in_buffers(undo_layer, block, [length; 2]);
    assert_eq!(answer, (0, length as u64));
    assert_eq!((&first[..], second), (data, vec![0; length]));
}

/// 72 with these follow bytes and this data.
fn follow_block(follow: &[u8], data: &[u8]) -> Vec<u8> {
    [&[72], follow, data].concat()
}

/// A block with filters of format 64 around it: level 1, so that a byte is the sum up to it.
fn under(filters: usize, block: &[u8]) -> Vec<u8> {
    let enclose = |inside: Vec<u8>, _| encoded(64, 1, &[], &inside).expect("a block");
    (0..filters).fold(block.to_vec(), enclose)
}

// Document 01, "Checked examples".

#[test]
fn the_marked_cases() {
    let trace = [10, 20, 10, 200, 190, 5];
    both_ways(1, &[], &trace, &[64, 1, 10, 10, 246, 190, 246, 71]);
    both_ways(2, &[], &trace, &[64, 2, 10, 0, 236, 200, 56, 81]);
    both_ways(1, &[], &[16, 32, 48, 16], &[65, 1, 16, 32, 31, 240]);
    let values = [0, 10, 0, 5, 255, 251, 0, 200, 252, 224];
    let block = [70, 10, 5, 251, 128, 0, 200, 128, 252, 224];
    both_ways(0, &[], &values, &block);
    both_ways(0, &[], &[255, 128], &[70, 128, 255, 128]);
}

// Each format.

#[test]
fn levels_of_each_width() {
    let trace = [10, 20, 10, 200, 190, 5];
    // level 2 gives 10 0 236 200 56 81; level 3 is the differences of these
    both_ways(3, &[], &trace, &[64, 3, 10, 246, 236, 220, 112, 25]);
    // the words 1 3 65535: level 1 gives 1 2 65532, level 2 gives 1 1 65530, level 3 gives 1 0 65529
    let words = [0, 1, 0, 3, 255, 255];
    both_ways(1, &[], &words, &[65, 1, 0, 1, 0, 2, 255, 252]);
    both_ways(2, &[], &words, &[65, 2, 0, 1, 0, 1, 255, 250]);
    both_ways(3, &[], &words, &[65, 3, 0, 1, 0, 0, 255, 249]);
    // the units 2^31 0: level 1 gives 2^31 2^31, level 2 gives 2^31 0, level 3 gives 2^31 2^31
    let far = [128, 0, 0, 0, 0, 0, 0, 0];
    both_ways(1, &[], &far, &[66, 1, 0, 0, 128, 0, 0, 0, 128, 0, 0, 0]);
    both_ways(2, &[], &far, &[66, 2, 0, 0, 128, 0, 0, 0, 0, 0, 0, 0]);
    both_ways(3, &[], &far, &[66, 3, 0, 0, 128, 0, 0, 0, 128, 0, 0, 0]);
    // the units 1 0: the borrow goes through all bytes of the second
    let one = [0, 0, 0, 1, 0, 0, 0, 0];
    both_ways(1, &[], &one, &[66, 1, 0, 0, 0, 0, 0, 1, 255, 255, 255, 255]);
}

#[test]
fn short_forms_and_whole_ones() {
    both_ways(0, &[], &[255, 129, 0, 127], &[70, 129, 127]);
    both_ways(0, &[], &[0, 128, 0, 0], &[70, 128, 0, 128, 0]);
    both_ways(0, &[], &[128, 0, 1, 1], &[70, 128, 128, 0, 128, 1, 1]);
    both_ways(0, &[], &[255, 255, 255, 129], &[71, 129]);
    both_ways(
        0,
        &[],
        &[255, 255, 255, 128],
        &[71, 128, 255, 255, 255, 128],
    );
    both_ways(
        0,
        &[],
        &[0, 0, 0, 127, 0, 0, 0, 128],
        &[71, 127, 128, 0, 0, 0, 128],
    );
    both_ways(0, &[], &[0, 0, 255, 129], &[71, 128, 0, 0, 255, 129]);
}

/// "not for 70, 71, where a small value may stand in long form"
#[test]
fn small_values_in_long_form_are_taken() {
    let cases: [(&[u8], &[u8]); 4] = [
        (&[70, 128, 0, 5, 6], &[0, 5, 0, 6]),
        (&[70, 128, 255, 129], &[255, 129]),
        (&[71, 128, 0, 0, 0, 0], &[0, 0, 0, 0]),
        (&[71, 128, 255, 255, 255, 255], &[255, 255, 255, 255]),
    ];
    for (block, data) in cases {
        let (answer, [first, _]) = in_buffers(undo_layer, block, [data.len(); 2]);
        assert_eq!((answer, &first[..]), ((0, data.len() as u64), data));
        let format = u64::from(block[0]);
        assert_ne!(encoded(format, 0, &[], data), Ok(block.to_vec()));
    }
}

#[test]
fn follow_bytes() {
    // after byte b comes b + 1
    let next: Vec<u8> = (0..=255).map(|byte: u8| byte.wrapping_add(1)).collect();
    let block = follow_block(&next, &[5, 0, 0, 255, 0]);
    both_ways(0, &next, &[5, 6, 7, 9, 10], &block);
    both_ways(0, &next, &[255, 0, 255], &follow_block(&next, &[255, 0, 2]));
    both_ways(9, &next, &[200], &follow_block(&next, &[200]));
    both_ways(0, &next, &[], &follow_block(&next, &[]));
}

#[test]
fn no_data_in_each_format() {
    let blocks: [&[u8]; 5] = [&[64, 3], &[65, 2], &[66, 1, 0, 0], &[70], &[71]];
    for block in blocks {
        both_ways(u64::from(*block.get(1).unwrap_or(&7)), &[], &[], block);
        // Nothing is no block.
        assert_eq!(number(undo, block, 0), 40);
        assert_eq!(number(undo_layer, block, 0), 0);
    }
}

// Whole blocks.

#[test]
fn a_block_of_format_0() {
    let (answer, buffers) = in_buffers(undo, &[0, 7, 0, 9], [3, 5]);
    assert_eq!(answer, (0, 3));
    assert_eq!(buffers, [vec![7, 0, 9], vec![0; 5]]);
    assert_eq!(number(undo, &[0, 7, 0, 9], 2), 26);
    assert_eq!(number(undo, &[0], 0), 0);
    assert_eq!(number(undo_layer, &[0, 7, 0, 9], 9), 41);
}

/// The last filter's result has the format byte too.
#[test]
fn a_filter_needs_room_for_the_block_that_it_gives() {
    // the block inside is 0 7 8, stored as the differences 0 7 1
    let block = [64, 1, 0, 7, 1];
    assert_eq!(number(undo, &block, 2), 26);
    let (answer, buffers) = in_buffers(undo, &block, [5, 3]);
    assert_eq!(answer, (0, 2));
    assert_eq!(buffers, [vec![7, 8, 0, 0, 0], vec![0; 3]]);
    // the shorter one counts, whichever that is
    for lengths in [[2, 9], [9, 2], [0, 9], [9, 0]] {
        let (answer, buffers) = in_buffers(undo, &block, lengths);
        assert_eq!(answer, (26, 0));
        assert_eq!(buffers, lengths.map(|length| vec![0; length]));
    }
}

/// 70 over 64 over format 0: the middle result is the longest.
#[test]
fn room_for_a_middle_layer() {
    // the first unit (64 1) whole and the second (0 5) in one byte: the block inside has 4 bytes, the one inside that
    // 2, the data 1
    let block = [70, 128, 64, 1, 5];
    let inside = [64, 1, 0, 5];
    let (answer, [first, _]) = in_buffers(undo_layer, &block, [4, 4]);
    assert_eq!((answer, &first[..]), ((0, 4), &inside[..]));
    let (answer, [first, second]) = in_buffers(undo, &block, [4, 6]);
    assert_eq!((answer, first), ((0, 1), vec![5, 0, 0, 0]));
    assert_eq!(second, [0; 6]);
    assert_eq!(number(undo, &block, 3), 26);
}

#[test]
fn eight_filters_and_no_ninth() {
    for (filters, expected) in [(1, 0), (7, 0), (8, 0), (9, 44), (10, 44)] {
        let block = under(filters, &[0, 1, 2, 3]);
        let (answer, [first, _]) = in_buffers(undo, &block, [200; 2]);
        assert_eq!(answer, (expected, if expected == 0 { 3 } else { 0 }));
        let data = if expected == 0 { [1, 2, 3] } else { [0; 3] };
        assert_eq!(first[..3], data);
    }
}

// Refusals.

#[test]
fn blocks_that_are_empty_or_cut() {
    for call in [undo as Undo, undo_layer] {
        assert_eq!(number(call, &[], 9), 40);
        assert_eq!(number(call, &[], 0), 40);
        for block in [&[64][..], &[65], &[66], &[66, 1], &[66, 1, 0], &[72]] {
            assert_eq!(number(call, block, 9), 40);
        }
        assert_eq!(number(call, &follow_block(&[0; 255], &[]), 300), 40);
        // before the level is looked at
        assert_eq!(number(call, &[66, 9], 9), 40);
        assert_eq!(number(call, &[66, 9, 1], 9), 40);
    }
    assert_eq!(number(undo, &under(1, &[]), 9), 40);
    assert_eq!(number(undo, &under(8, &[]), 99), 40);
    assert_eq!(number(undo, &under(3, &[66, 1, 0]), 99), 40);
}

#[test]
fn formats_that_are_none() {
    for format in (1..64).chain([67, 68, 69]).chain(73..=255) {
        assert_eq!(number(undo, &[format, 1, 0, 0], 9), 41);
        assert_eq!(number(undo, &[format], 0), 41);
        assert_eq!(number(undo_layer, &[format, 1, 0, 0], 9), 41);
        assert_eq!(number(undo, &under(2, &[format, 1]), 9), 41);
    }
}

#[test]
fn the_ninth_filter_after_41_and_before_40_and_42() {
    assert_eq!(number(undo, &under(8, &[1, 2, 3]), 99), 41);
    assert_eq!(number(undo, &under(9, &[1, 2, 3]), 99), 44);
    for ninth in [&[64][..], &[65, 9], &[66, 1], &[72, 0], &[70, 128], &[71]] {
        assert_eq!(number(undo, &under(8, ninth), 99), 44);
    }
    assert_eq!(number(undo, &under(7, &[64]), 99), 40);
    assert_eq!(number(undo, &under(7, &[65, 9]), 99), 42);
}

#[test]
fn levels_and_zeros() {
    for call in [undo as Undo, undo_layer] {
        for format in [64, 65] {
            for level in [0, 4, 5, 128, 255] {
                assert_eq!(number(call, &[format, level, 0, 0], 9), 42);
                // before the units and the room
                assert_eq!(number(call, &[format, level, 0], 0), 42);
                assert_eq!(number(call, &[66, level, 0, 0], 9), 42);
            }
        }
        assert_eq!(number(call, &[66, 1, 1, 0], 9), 42);
        assert_eq!(number(call, &[66, 1, 0, 1], 9), 42);
        assert_eq!(number(call, &[66, 1, 0, 255, 7], 0), 42);
    }
}

#[test]
fn units_before_the_room() {
    for call in [undo as Undo, undo_layer] {
        let blocks: [&[u8]; 12] = [
            &[65, 1, 0],
            &[65, 1, 0, 0, 0],
            &[66, 1, 0, 0, 0],
            &[66, 1, 0, 0, 0, 0],
            &[66, 1, 0, 0, 0, 0, 0],
            &[70, 128],
            &[70, 128, 0],
            &[70, 1, 2, 128, 0],
            &[71, 128],
            &[71, 128, 0, 0, 0],
            &[71, 0, 0, 128, 128, 128, 128],
            &[71, 128, 0, 0, 0, 0, 128],
        ];
        for block in blocks {
            assert_eq!(number(call, block, 99), 43);
            assert_eq!(number(call, block, 0), 43);
        }
    }
    // a byte 128 within a whole unit begins no other unit
    assert_eq!(number(undo_layer, &[70, 128, 128, 128], 2), 0);
    assert_eq!(number(undo_layer, &[71, 128, 128, 128, 128, 128], 4), 0);
}

/// What an inner layer would be refused for is not met where an outer one has no room.
#[test]
fn the_outer_layer_is_judged_first() {
    let block = under(1, &[65, 9, 0, 0]);
    assert_eq!(number(undo, &block, 4), 42);
    assert_eq!(number(undo, &block, 3), 26);
    let block = under(1, &[1; 9]);
    assert_eq!(number(undo, &block, 9), 41);
    assert_eq!(number(undo, &block, 8), 26);
}

// Encoding.

#[test]
fn encoding_refused() {
    let odd = [1, 2, 3];
    for format in [
        0,
        1,
        63,
        67,
        68,
        69,
        73,
        255,
        256 + 64,
        (1 << 32) + 70,
        u64::MAX,
    ] {
        assert_eq!(encoded(format, 9, &[], &odd), Err(41));
        assert_eq!(
            encode(format, 1, &[], &[], &mut []).map_err(|no| no.number()),
            Err(41)
        );
    }
    for format in 64..=66 {
        for level in [0, 4, 255, 257, (1 << 32) + 1, u64::MAX] {
            assert_eq!(encoded(format, level, &[0; 256], &odd), Err(42));
        }
    }
    for length in [0, 1, 255, 257, 512] {
        assert_eq!(encoded(72, 1, &vec![0; length], &odd), Err(42));
    }
    for format in [65, 66, 70, 71] {
        assert_eq!(encoded(format, 3, &[], &odd), Err(43));
    }
    assert_eq!(encoded(66, 3, &[], &[1, 2]), Err(43));
    assert_eq!(encoded(71, 3, &[], &[1, 2]), Err(43));
}

/// Level and follow bytes are judged where the format has them, and nowhere else.
#[test]
fn encoding_looks_at_no_more_than_the_format_has() {
    for length in [0, 255, 256, 257] {
        let follow = vec![9; length];
        assert_eq!(encoded(64, 1, &follow, &[7]), Ok(vec![64, 1, 7]));
        assert_eq!(encoded(70, 99, &follow, &[0, 7]), Ok(vec![70, 7]));
        assert_eq!(
            encoded(71, u64::MAX, &follow, &[0, 0, 0, 7]),
            Ok(vec![71, 7])
        );
    }
    assert!(encoded(72, 0, &[0; 256], &[7]).is_ok());
}

#[test]
fn encoding_needs_room_for_the_block() {
    let follow = [3; 256];
    // data that are not whole units (43) are refused before the lack of room (26)
    assert_eq!(numbers(encode(65, 1, &[], &[1], &mut [])), (43, 0));
    let cases: [(u64, &[u8], usize); 6] = [
        (64, &[1, 2], 4),
        (65, &[1, 2], 4),
        (66, &[0; 4], 8),
        (70, &[0, 1, 1, 0], 5),
        (71, &[0, 0, 0, 1, 1, 0, 0, 0], 7),
        (72, &[1, 2], 259),
    ];
    for (format, data, length) in cases {
        let mut out = vec![170; length - 1];
        assert_eq!(numbers(encode(format, 1, &follow, data, &mut out)), (26, 0));
        assert_eq!(out, vec![170; length - 1]);
        let mut out = vec![170; length];
        let answer = numbers(encode(format, 1, &follow, data, &mut out));
        assert_eq!(answer, (0, length as u64));
    }
}

// SCF samples.

/// Document 002's routine for samples of 2 bytes, as it stands there.
fn delta_samples2(samples: &mut [u16], is_delta: bool) {
    for _ in 0..2 {
        let mut previous = 0_u16;
        for sample in samples.iter_mut() {
            if is_delta {
                let kept = *sample;
                *sample = sample.wrapping_sub(previous);
                previous = kept;
            } else {
                *sample = sample.wrapping_add(previous);
                previous = *sample;
            }
        }
    }
}

#[test]
fn samples_are_those_of_document_002() {
    let samples = [0_u16, 5, 900, 65_535, 65_535, 1, 32_768, 40];
    let bytes = |of: &[u16]| -> Vec<u8> { of.iter().flat_map(|one| one.to_be_bytes()).collect() };
    for is_delta in [true, false] {
        let mut changed = samples;
        delta_samples2(&mut changed, is_delta);
        let mut out = vec![170; 18];
        let call = if is_delta { scf_encode } else { scf_undo };
        assert_eq!(numbers(call(2, &bytes(&samples), &mut out)), (0, 16));
        assert_eq!(out, [bytes(&changed), vec![170; 2]].concat());
    }
    let mut out = [0; 6];
    let made = scf_encode(1, &[10, 20, 10, 200, 190, 5], &mut out);
    assert_eq!(numbers(made), (0, 6));
    assert_eq!(out, [10, 0, 236, 200, 56, 81]);
    let mut back = [0; 6];
    assert_eq!(numbers(scf_undo(1, &out, &mut back)), (0, 6));
    assert_eq!(back, [10, 20, 10, 200, 190, 5]);
}

#[test]
fn samples_refused() {
    let cases = [
        (0, 3, 0, 42),
        (3, 3, 3, 42),
        (4, 4, 4, 42),
        (257, 1, 1, 42),
        ((1 << 32) + 2, 2, 2, 42),
        (u64::MAX, 0, 0, 42),
        (2, 3, 0, 43),
        (2, 1, 1, 43),
        (2, 4, 3, 26),
        (1, 1, 0, 26),
        (1, 0, 0, 0),
        (2, 0, 0, 0),
        (1, 3, 3, 0),
    ];
    for (precision, length, room, expected) in cases {
        for call in [scf_encode, scf_undo] {
            let mut out = vec![170; room];
            let (number, made) = numbers(call(precision, &vec![1; length], &mut out));
            assert_eq!(number, expected);
            assert_eq!(made, if number == 0 { length as u64 } else { 0 });
            assert!(number == 0 || out.iter().all(|byte| *byte == 170));
        }
    }
}
