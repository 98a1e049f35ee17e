//! The SFF file test, the reader and the lister's text, written a second time from document 01
//! alone and sharing nothing with the product. What stands in quotes is that document's wording.

// Each program that takes this module in uses only a part of it.
#![allow(dead_code)]

/// "programs take files of at most 65,536 bytes"
pub const LONGEST_INPUT: usize = 65_536;

/// Where a refusal arose. It is no part of the answer; the counts of the comparison use it.
#[derive(Clone, Copy, Debug, PartialEq, Eq)]
pub enum Section {
    Header,
    ReadHeader,
    Data,
    Index,
    End,
    /// No section: what was given beside the file is refused.
    Given,
}

/// "Every answer has a number (0 accepted) and a byte place": here one that is not 0.
#[derive(Clone, Copy, Debug, PartialEq, Eq)]
pub struct Refusal {
    pub number: u64,
    pub place: u64,
    pub section: Section,
}

/// Number and place, both 0 where nothing is refused.
pub fn numbers(refusal: Option<Refusal>) -> (u64, u64) {
    refusal.map_or((0, 0), |refusal| (refusal.number, refusal.place))
}

pub fn refuse<T>(number: u64, place: usize, section: Section) -> Result<T, Refusal> {
    Err(Refusal {
        number,
        place: place as u64,
        section,
    })
}

/// "All numbers are big endian."
pub fn big_endian(bytes: &[u8]) -> u64 {
    let mut number = 0;
    for byte in bytes {
        number = number * 256 + u64::from(*byte);
    }
    number
}

/// "Up8 is the next multiple of 8, or the number itself." No caller comes near 2^64.
pub fn up8(number: u64) -> u64 {
    (number + 7) / 8 * 8
}

/// The first place in `from..to` whose byte is not one of the good ones.
fn first_bad(file: &[u8], from: usize, to: usize, good: impl Fn(u8) -> bool) -> Option<usize> {
    (from..to).find(|place| !good(file[*place]))
}

fn is_zero(byte: u8) -> bool {
    byte == 0
}

/// "flow and key characters are A, C, G, T"
pub fn is_flow_character(byte: u8) -> bool {
    b"ACGT".contains(&byte)
}

/// "Name bytes are 33 to 126"
pub fn is_name_byte(byte: u8) -> bool {
    (33..=126).contains(&byte)
}

/// The common header of a file whose header tests all passed.
#[derive(Clone, Copy, Debug)]
pub struct Header<'a> {
    pub index_offset: u64,
    pub index_length: u64,
    pub reads: u64,
    pub length: usize,
    pub flows: &'a [u8],
    pub key: &'a [u8],
}

impl Header<'_> {
    /// "An index is absent when offset and length are both 0."
    pub fn has_index(&self) -> bool {
        !(self.index_offset == 0 && self.index_length == 0)
    }

    /// Whether the index is declared to stand at this place.
    pub fn index_is_at(&self, place: usize) -> bool {
        self.has_index() && self.index_offset == place as u64
    }
}

/// "Header: 1 (under 31 bytes), 2, 3, 4, 5, 1 (under header length), 6, 7, 8."
pub fn test_header(file: &[u8]) -> Result<Header<'_>, Refusal> {
    // 1: "section runs past the end", place "its start"
    if file.len() < 31 {
        return refuse(1, 0, Section::Header);
    }
    // 2: "magic at 0 (2E 73 66 66)"
    if file[0..4] != [0x2E, 0x73, 0x66, 0x66] {
        return refuse(2, 0, Section::Header);
    }
    // 3: "version at 4 (0 0 0 1)"
    if file[4..8] != [0, 0, 0, 1] {
        return refuse(3, 4, Section::Header);
    }
    // 4: "format code at 30 (1, must be 1)"
    if file[30] != 1 {
        return refuse(4, 30, Section::Header);
    }

    let index_offset = big_endian(&file[8..16]);
    let index_length = big_endian(&file[16..20]);
    let reads = big_endian(&file[20..24]);
    let length = big_endian(&file[24..26]) as usize;
    let key_length = big_endian(&file[26..28]) as usize;
    let flow_count = big_endian(&file[28..30]) as usize;
    let flows_end = 31 + flow_count;
    let key_end = flows_end + key_length;

    // 5: "up8(31+F+K), which is the header length"
    if length as u64 != up8(key_end as u64) {
        return refuse(5, 24, Section::Header);
    }
    // 1: "section runs past the end", now of the whole header
    if file.len() < length {
        return refuse(1, 0, Section::Header);
    }
    // 6: a flow or key byte
    if let Some(place) = first_bad(file, 31, key_end, is_flow_character) {
        return refuse(6, place, Section::Header);
    }
    // 7: "padding not zero"
    if let Some(place) = first_bad(file, key_end, length, is_zero) {
        return refuse(7, place, Section::Header);
    }
    // 8: "just one index field is 0, or index length under 8 or not a multiple of 8"
    let header = Header {
        index_offset,
        index_length,
        reads,
        length,
        flows: &file[31..flows_end],
        key: &file[flows_end..key_end],
    };
    let just_one_is_0 = (index_offset == 0) != (index_length == 0);
    let bad_length = index_length < 8 || index_length % 8 != 0;
    if just_one_is_0 || (header.has_index() && bad_length) {
        return refuse(8, 8, Section::Header);
    }
    Ok(header)
}

/// A read whose tests all passed.
#[derive(Clone, Copy, Debug, PartialEq, Eq)]
pub struct Read<'a> {
    pub start: usize,
    pub name: &'a [u8],
    /// "quality left, quality right, adapter left, adapter right"
    pub clips: [u64; 4],
    /// "F flow values of 2 bytes"
    values: &'a [u8],
    pub increments: &'a [u8],
    pub bases: &'a [u8],
    pub qualities: &'a [u8],
    /// The boundary behind the read.
    pub end: usize,
}

impl<'a> Read<'a> {
    /// The stored flow values.
    pub fn values(&self) -> Vec<u64> {
        self.values.chunks(2).map(big_endian).collect()
    }

    /// First and last base of the insert, both counted from 1.
    pub fn first_last(&self) -> (u64, u64) {
        first_last(self.bases.len() as u64, self.clips)
    }

    /// "If first > last the insert is empty."
    pub fn insert(&self) -> &'a [u8] {
        let (first, last) = self.first_last();
        if first > last {
            return &[];
        }
        &self.bases[first as usize - 1..last as usize]
    }
}

/// "First = max(1, both lefts). Last = min over both rights, a 0 read as N."
pub fn first_last(bases: u64, clips: [u64; 4]) -> (u64, u64) {
    let [quality_left, quality_right, adapter_left, adapter_right] = clips;
    let right = |field: u64| if field == 0 { bases } else { field };
    let first = 1.max(quality_left).max(adapter_left);
    let last = right(quality_right).min(right(adapter_right));
    (first, last)
}

/// "The running sum after each base is its flow position; every flow position lies in 1 to F." The
/// flow positions, or the number of the first base that breaks this, counted from 0.
pub fn flow_walk(increments: &[u8], flow_count: usize) -> Result<Vec<usize>, usize> {
    let mut flow_positions = Vec::new();
    let mut sum = 0;
    for (base, increment) in increments.iter().enumerate() {
        sum += usize::from(*increment);
        if sum < 1 || sum > flow_count {
            return Err(base);
        }
        flow_positions.push(sum);
    }
    Ok(flow_positions)
}

/// "Base i is the flow character at its flow, or the letter N." The number of the first base that is
/// neither, counted from 0.
pub fn wrong_base(bases: &[u8], flow_positions: &[usize], flows: &[u8]) -> Option<usize> {
    let mut called = bases.iter().zip(flow_positions);
    called.position(|(base, flow_position)| *base != flows[flow_position - 1] && *base != b'N')
}

/// "Read: 1 (under 16 bytes), 5, 1, 6, 7, 9, 1 (data), 10, 11, 7."
/// The start is not beyond the file's end.
fn test_read<'a>(file: &'a [u8], header: &Header, start: usize) -> Result<Read<'a>, Refusal> {
    let left = file.len() - start;
    if left < 16 {
        return refuse(1, start, Section::ReadHeader);
    }
    let length = big_endian(&file[start..start + 2]) as usize;
    let name_length = big_endian(&file[start + 2..start + 4]) as usize;
    let base_count = big_endian(&file[start + 4..start + 8]);

    // 5: "a section length field is wrong", place "the read's start"
    if length as u64 != up8(16 + name_length as u64) {
        return refuse(5, start, Section::ReadHeader);
    }
    if left < length {
        return refuse(1, start, Section::ReadHeader);
    }
    // 6: a name byte; "a name may be empty"
    let name_start = start + 16;
    let name_end = name_start + name_length;
    let header_end = start + length;
    if let Some(place) = first_bad(file, name_start, name_end, is_name_byte) {
        return refuse(6, place, Section::ReadHeader);
    }
    // 7: "zero padding to up8(16+L)"
    if let Some(place) = first_bad(file, name_end, header_end, is_zero) {
        return refuse(7, place, Section::ReadHeader);
    }
    // 9: "No clip field exceeds N."
    let mut clips = [0; 4];
    for field in 0..4 {
        let place = start + 8 + 2 * field;
        clips[field] = big_endian(&file[place..place + 2]);
        if clips[field] > base_count {
            return refuse(9, place, Section::ReadHeader);
        }
    }

    // 1, of the data section: its size is compared with the bytes left, so that no sum can wrap
    let flow_count = header.flows.len();
    let contents = 2 * flow_count as u64 + 3 * base_count;
    if ((left - length) as u64) < up8(contents) {
        return refuse(1, header_end, Section::Data);
    }
    // All the section's bytes are there, so its numbers fit.
    let base_count = base_count as usize;
    let increments_start = header_end + 2 * flow_count;
    let bases_start = increments_start + base_count;
    let qualities_start = bases_start + base_count;
    let contents_end = qualities_start + base_count;
    let end = header_end + up8(contents) as usize;

    // 10: the walk
    let increments = &file[increments_start..bases_start];
    let flow_positions = match flow_walk(increments, flow_count) {
        Ok(flow_positions) => flow_positions,
        Err(base) => return refuse(10, increments_start + base, Section::Data),
    };
    // 11: the bases
    let bases = &file[bases_start..qualities_start];
    if let Some(base) = wrong_base(bases, &flow_positions, header.flows) {
        return refuse(11, bases_start + base, Section::Data);
    }
    // 7: "zero padding to up8(2F+3N)"; "Qualities are any byte."
    if let Some(place) = first_bad(file, contents_end, end, is_zero) {
        return refuse(7, place, Section::Data);
    }
    Ok(Read {
        start,
        name: &file[name_start..name_end],
        clips,
        values: &file[header_end..increments_start],
        increments,
        bases,
        qualities: &file[qualities_start..contents_end],
        end,
    })
}

/// The boundary at the end of the index that stands at `place`, which is not beyond the file's end;
/// "1 if cut short".
fn pass_index(file: &[u8], header: &Header, place: usize) -> Result<usize, Refusal> {
    let left = (file.len() - place) as u64;
    if left < header.index_length {
        return refuse(1, place, Section::Index);
    }
    Ok(place + header.index_length as usize)
}

/// An accepted file.
pub struct Contents<'a> {
    pub header: Header<'a>,
    pub reads: Vec<Read<'a>>,
    /// The index's bytes, none if it is absent.
    pub index: &'a [u8],
}

/// The whole file: its header, then "at each boundary: an index declared there and not yet passed is
/// passed, to the boundary at its end; else, if reads remain, a read is tested; else the end".
pub fn test_file(file: &[u8]) -> Result<Contents<'_>, Refusal> {
    let mut reads = Vec::new();
    let (header, index) = walk_file(file, |read| reads.push(read))?;
    Ok(Contents {
        header,
        reads,
        index,
    })
}

/// The same test, which hands each read over and keeps none: no memory would hold the reads of the
/// longest files. The header, and the index's bytes.
pub fn walk_file<'a>(
    file: &'a [u8],
    mut hand_over: impl FnMut(Read<'a>),
) -> Result<(Header<'a>, &'a [u8]), Refusal> {
    let header = test_header(file)?;
    let mut passed_reads = 0;
    let mut index: &[u8] = &[];
    let mut index_passed = false;
    let mut boundary = header.length;
    loop {
        if header.index_is_at(boundary) && !index_passed {
            let end = pass_index(file, &header, boundary)?;
            index = &file[boundary..end];
            boundary = end;
            index_passed = true;
        } else if passed_reads < header.reads {
            let read = test_read(file, &header, boundary)?;
            boundary = read.end;
            passed_reads += 1;
            hand_over(read);
        } else {
            break;
        }
    }
    // "the end: 13, then 12"
    if header.has_index() && !index_passed {
        return refuse(13, 8, Section::End);
    }
    if boundary < file.len() {
        return refuse(12, boundary, Section::End);
    }
    Ok((header, index))
}

/// Number and place of the whole-file test.
pub fn file_test(file: &[u8]) -> (u64, u64) {
    numbers(test_file(file).err())
}

/// "A reader's state holds a byte place, the reads passed and whether the index is passed."
#[derive(Clone, Copy, Debug, PartialEq, Eq)]
pub struct Reader {
    pub place: u64,
    pub passed_reads: u64,
    pub passed_index: bool,
}

/// What a step answers: a refusal or a read, and the state that comes back.
#[derive(Clone, Copy, Debug, PartialEq, Eq)]
pub struct Step<'a> {
    pub refusal: Option<Refusal>,
    pub read: Option<Read<'a>>,
    pub state: Reader,
}

impl Reader {
    /// "A fresh state has passed nothing and stands at the header's end, or at 0 if the header is
    /// refused."
    pub fn fresh(file: &[u8]) -> Reader {
        let place = match test_header(file) {
            Ok(header) => header.length as u64,
            Err(_) => 0,
        };
        Reader {
            place,
            passed_reads: 0,
            passed_index: false,
        }
    }

    /// "It goes in by value and comes back moved by one read, for every state, forged ones included."
    /// "A step that refuses, with 33 or any other number, gives back its state unmoved."
    pub fn step(self, file: &[u8]) -> Step<'_> {
        match self.next_read(file) {
            Ok((read, moved)) => Step {
                refusal: None,
                read: Some(read),
                state: moved,
            },
            Err(refusal) => Step {
                refusal: Some(refusal),
                read: None,
                state: self,
            },
        }
    }

    fn next_read(self, file: &[u8]) -> Result<(Read<'_>, Reader), Refusal> {
        // "A step makes the header's tests, refuses a place beyond the file (1, that place)"
        let header = test_header(file)?;
        if self.place > file.len() as u64 {
            return Err(Refusal {
                number: 1,
                place: self.place,
                section: Section::End,
            });
        }
        // "then does what a boundary asks"
        let mut place = self.place as usize;
        let mut passed_index = self.passed_index;
        if header.index_is_at(place) && !passed_index {
            place = pass_index(file, &header, place)?;
            passed_index = true;
        }
        if self.passed_reads < header.reads {
            let read = test_read(file, &header, place)?;
            let moved = Reader {
                place: read.end as u64,
                passed_reads: self.passed_reads + 1,
                passed_index,
            };
            return Ok((read, moved));
        }
        // "with no read left it answers 13, 12 or else 33", place "the state's, past an index"
        if header.has_index() && !passed_index {
            return refuse(13, 8, Section::End);
        }
        if place < file.len() {
            return refuse(12, place, Section::End);
        }
        refuse(33, place, Section::End)
    }
}

/// What the lister prints for these bytes on its standard input.
pub fn listing(input: &[u8]) -> Vec<u8> {
    if input.len() > LONGEST_INPUT {
        return b"too long\n".to_vec();
    }
    let contents = match test_file(input) {
        Ok(contents) => contents,
        // "A refusal is one line and nothing else, as `refused 9 at 48`"
        Err(refusal) => {
            return format!("refused {} at {}\n", refusal.number, refusal.place).into_bytes();
        }
    };
    let header = contents.header;
    let mut text = Vec::new();
    text.extend(format!("flows {} key ", header.flows.len()).bytes());
    text.extend(or_dash(header.key));
    text.extend(format!(" reads {}\n", header.reads).bytes());
    for (position, read) in contents.reads.iter().enumerate() {
        // "A read's line is position, name, N, first, last, insert."
        let (first, last) = read.first_last();
        text.extend(format!("{} ", position).bytes());
        text.extend(or_dash(read.name));
        text.extend(format!(" {} {} {} ", read.bases.len(), first, last).bytes());
        text.extend(or_dash(read.insert()));
        text.push(b'\n');
    }
    text
}

/// "An empty name, key or insert is "-"."
fn or_dash(part: &[u8]) -> &[u8] {
    if part.is_empty() {
        b"-"
    } else {
        part
    }
}
