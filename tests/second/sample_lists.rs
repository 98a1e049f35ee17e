//! The correction lists of samples/, in words.

use crate::corrections::Record;

/// A list for a sample, and what `correct` makes of it.
pub struct SampleList {
    pub file: &'static str,
    pub name: &'static str,
    /// The records in words, a line each.
    pub words: &'static str,
    /// The name of the new file, if one is written.
    pub new: Option<&'static str>,
    /// Count, number, place and length of the answer.
    pub answer: [u64; 4],
}

/// Once GSPIKEK01B6YLH at position 27 is gone, each read behind it stands one position lower than in the
/// listing of the plate. `plate-correct` goes by that, and the third record of `plate-stop` does not.
pub const SAMPLE_LISTS: [SampleList; 8] = [
    SampleList {
        file: "e",
        name: "e-rename",
        words: "rename 0 r1 123456789\n",
        new: Some("e-renamed"),
        answer: [1, 0, 0, 96],
    },
    SampleList {
        file: "three",
        name: "three-remove",
        words: "remove 0 r1\n\
                remove 0 second\n",
        new: Some("three-removed"),
        answer: [2, 0, 0, 104],
    },
    SampleList {
        file: "plate",
        name: "plate-correct",
        words: "clips 42 GSPIKEK01FOU85 5 35 0 0\n\
                rename 24 GSPIKEK01E73XW GSPIKEK01E73XW.repeat-1\n\
                remove 27 GSPIKEK01B6YLH\n\
                remove 34 GSPIKEK01FOQ9Y\n\
                rename 98 GSPIKEK01HUTXM HUTXM\n",
        new: Some("plate-corrected"),
        answer: [5, 0, 0, 42_032],
    },
    SampleList {
        file: "plate",
        name: "plate-stop",
        words: "clips 6 GSPIKEK01JSW8Q 15 50 0 0\n\
                remove 27 GSPIKEK01B6YLH\n\
                remove 35 GSPIKEK01FOQ9Y\n\
                rename 24 GSPIKEK01E73XW GSPIKEK01E73XW.repeat-1\n",
        new: Some("plate-stopped"),
        answer: [2, 22, 0, 42_336],
    },
    SampleList {
        file: "indexed",
        name: "indexed-clip",
        words: "clips 0 GSPIKEK01A82QF 5 12 0 15\n\
                clips 2 GSPIKEK01AT2S3 5 20 0 0\n",
        new: Some("indexed-clipped"),
        answer: [2, 0, 0, 1_464],
    },
    SampleList {
        file: "indexed",
        name: "indexed-rename",
        words: "rename 1 GSPIKEK01CDPFI CDPFI\n",
        new: None,
        answer: [0, 25, 0, 1_464],
    },
    SampleList {
        file: "indexed",
        name: "indexed-remove",
        words: "remove 5 GSPIKEK01HNIBL\n",
        new: None,
        answer: [0, 25, 0, 1_464],
    },
    SampleList {
        file: "indexed",
        name: "indexed-stop",
        words: "clips 4 GSPIKEK01GBU1T 5 18 0 0\n\
                rename 1 GSPIKEK01CDPFI CDPFI\n\
                remove 5 GSPIKEK01HNIBL\n",
        new: Some("indexed-stopped"),
        answer: [1, 25, 0, 1_464],
    },
];

impl SampleList {
    /// The list's bytes.
    pub fn records(&self) -> Vec<u8> {
        self.words.lines().flat_map(record).collect()
    }
}

/// The 96 bytes of a record in words: `clips POSITION NAME` and four clips, `rename POSITION NAME
/// NEW-NAME`, or `remove POSITION NAME`.
fn record(line: &str) -> Vec<u8> {
    let words: Vec<&str> = line.split(' ').collect();
    let position = words[1].parse().expect("a position");
    let name = words[2].as_bytes();
    let record = match (words[0], &words[3..]) {
        ("clips", clips) => {
            let clips: Vec<u16> = clips
                .iter()
                .map(|clip| clip.parse().expect("a clip"))
                .collect();
            Record::clips(position, name, clips.try_into().expect("four clips"))
        }
        ("rename", [new_name]) => Record::rename(position, name, new_name.as_bytes()),
        ("remove", []) => Record::remove(position, name),
        _ => panic!("no record: {line}"),
    };
    record.bytes()
}
