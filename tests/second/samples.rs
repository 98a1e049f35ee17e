//! Sample files for the stored runs.

// Each program that takes this module in uses only a part of it.
#![allow(dead_code)]

use crate::inputs::{lay_out, Index, Model, Read};

/// Document 01's file E, written out byte by byte: "flows TACG, key T, one read r1, values 100 0 200
/// 0, indexes 1 2 0, bases TCC, qualities 40 40 40, quality left 2".
#[rustfmt::skip]
pub const E: [u8; 88] = [
    0x2E, 0x73, 0x66, 0x66,  0, 0, 0, 1,      // magic, version
    0, 0, 0, 0, 0, 0, 0, 0,                   // index offset
    0, 0, 0, 0,  0, 0, 0, 1,                  // index length, reads
    0, 40,  0, 1,  0, 4,  1,  b'T',           // header length, K, F, format code, first flow
    b'A', b'C', b'G',  b'T',  0, 0, 0, 0,     // other flows, key, padding
    0, 24,  0, 2,  0, 0, 0, 3,                // at 40: read header length, L, N
    0, 2,  0, 0,  0, 0,  0, 0,                // at 48: clips
    b'r', b'1',  0, 0, 0, 0, 0, 0,            // at 56: name, padding
    0, 100,  0, 0,  0, 200,  0, 0,            // at 64: flow values
    1, 2, 0,  b'T', b'C', b'C',  40, 40,      // at 72: increments, bases, qualities
    40,  0, 0, 0, 0, 0, 0, 0,                 // at 80: last quality, padding
];

/// E with one byte changed.
pub fn e_with(place: usize, value: u8) -> Vec<u8> {
    let mut file = E.to_vec();
    file[place] = value;
    file
}

pub fn read(name: &str, clips: [u16; 4], increments: &[u8], bases: &str) -> Read {
    Read {
        name: name.bytes().collect(),
        clips,
        values: vec![100, 0, 200, 65_535],
        increments: increments.to_vec(),
        bases: bases.bytes().collect(),
        qualities: vec![40; bases.len()],
    }
}

/// A file of four flows.
pub fn file(key: &str, reads: Vec<Read>, index: Option<(usize, usize)>) -> Vec<u8> {
    let index = index.map(|(after, length)| Index {
        after,
        bytes: vec![b'i'; length],
    });
    let key = key.bytes().collect();
    lay_out(&Model {
        flows: b"TACG".to_vec(),
        key,
        reads,
        index,
    })
    .bytes
}

pub fn two_reads() -> Vec<Read> {
    vec![
        read("r1", [2, 0, 0, 0], &[1, 2, 0], "TCC"),
        read("second", [0, 3, 0, 0], &[2, 0, 1, 1], "AACG"),
    ]
}

/// Reads whose names have 0 to 59 bytes and use every byte that a name may have.
fn many() -> Vec<Read> {
    let mut next = 0;
    let mut reads = Vec::new();
    for length in 0..60u16 {
        let mut one = read("", [0; 4], &[1, 1, 1, 1], "TANG");
        one.clips = [length % 5, length / 5 % 5, length % 3, 4 - length % 4];
        for _ in 0..length {
            one.name.push(33 + next % 94);
            next = (next + 1) % 94;
        }
        reads.push(one);
    }
    reads
}

/// Each sample's name and bytes.
pub fn samples() -> Vec<(&'static str, Vec<u8>)> {
    let bare = lay_out(&Model {
        flows: vec![],
        key: vec![],
        reads: vec![],
        index: None,
    })
    .bytes;
    let empty_parts = vec![
        read("", [0; 4], &[1, 2], "TC"),
        read("clipped-away", [3, 0, 0, 2], &[1, 1, 1], "TAC"),
        read("no-bases", [0; 4], &[], ""),
        read("", [0; 4], &[], ""),
    ];
    let right_clips = vec![
        read("quality-first", [0, 2, 0, 4], &[1, 1, 1, 1], "TACG"),
        read("adapter-first", [2, 4, 0, 3], &[1, 1, 1, 1], "TACG"),
        read("both", [1, 1, 1, 1], &[1, 1, 1, 1], "TACG"),
        read("one-is-0", [0, 0, 2, 3], &[1, 1, 1, 1], "TACG"),
    ];
    vec![
        ("e", E.to_vec()),
        ("bare-31", bare[..31].to_vec()),
        ("bare", bare),
        ("index-first", file("T", two_reads(), Some((0, 16)))),
        ("index-between", file("T", two_reads(), Some((1, 8)))),
        ("index-last", file("T", two_reads(), Some((2, 24)))),
        ("empty-parts", file("", empty_parts, None)),
        ("refused-9", e_with(49, 4)),
        ("right-clips", file("TCAG", right_clips, None)),
        ("many", file("TCAG", many(), None)),
    ]
}
