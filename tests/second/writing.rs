//! A new file and an append, written a second time from document 01 alone. What stands in quotes is
//! that document's wording.

#![allow(dead_code)]

use crate::sff::{
    flow_walk, is_flow_character, is_name_byte, refuse, up8, walk_file, wrong_base, Header,
    Refusal, Section,
};

/// What a writer answers: "A writer or corrector also answers the file's length afterwards".
#[derive(Clone, Copy, Debug, PartialEq, Eq)]
pub struct Written {
    pub refusal: Option<Refusal>,
    pub length: u64,
}

/// "A writer's refusals of its own input have place 0."
pub fn refuse_input<T>(number: u64) -> Result<T, Refusal> {
    refuse(number, 0, Section::Given)
}

/// "zero padding to" the next multiple of 8
fn pad(section: &mut Vec<u8>) {
    let length = up8(section.len() as u64) as usize;
    section.resize(length, 0);
}

/// "A new file has zero reads and no index." It is written to the front of the buffer.
pub fn new_file(buffer: &mut [u8], flows: &[u8], key: &[u8]) -> Written {
    match test_new(buffer.len(), flows, key) {
        Ok(header) => {
            buffer[..header.len()].copy_from_slice(&header);
            Written {
                refusal: None,
                length: header.len() as u64,
            }
        }
        // "0 for a refused new file"
        Err(refusal) => Written {
            refusal: Some(refusal),
            length: 0,
        },
    }
}

/// "A new file: 5 (F+K over 65,497), 6, 26." Else the header.
fn test_new(room: usize, flows: &[u8], key: &[u8]) -> Result<Vec<u8>, Refusal> {
    if flows.len() + key.len() > 65_497 {
        return refuse_input(5);
    }
    let mut characters = flows.iter().chain(key);
    if characters.any(|byte| !is_flow_character(*byte)) {
        return refuse_input(6);
    }
    let header = header(flows, key, (0, 0), 0);
    if header.len() > room {
        return refuse_input(26);
    }
    Ok(header)
}

/// The common header; of the index its offset and length. F+K is at most 65,497, so that each length
/// fits its field.
pub fn header(flows: &[u8], key: &[u8], index: (u64, u32), reads: u32) -> Vec<u8> {
    let length = up8(31 + flows.len() as u64 + key.len() as u64);
    let mut header = Vec::new();
    header.extend([0x2E, 0x73, 0x66, 0x66]); // magic
    header.extend([0, 0, 0, 1]); // version
    header.extend(index.0.to_be_bytes());
    header.extend(index.1.to_be_bytes());
    header.extend(reads.to_be_bytes());
    header.extend((length as u16).to_be_bytes());
    header.extend((key.len() as u16).to_be_bytes());
    header.extend((flows.len() as u16).to_be_bytes());
    header.push(1); // format code
    header.extend(flows);
    header.extend(key);
    pad(&mut header);
    header
}

/// The read that an append takes.
#[derive(Clone, Copy, Debug)]
pub struct NewRead<'a> {
    pub name: &'a [u8],
    /// "quality left, quality right, adapter left, adapter right"
    pub clips: [u16; 4],
    pub values: &'a [u16],
    pub increments: &'a [u8],
    pub bases: &'a [u8],
    pub qualities: &'a [u8],
}

/// "Appending takes a buffer, the file's length in it and one read."
pub fn append(buffer: &mut [u8], file_length: u64, read: &NewRead) -> Written {
    match test_append(buffer, file_length, read) {
        // "Success writes the new sections and, when appending, the count at 20; no other byte."
        Ok((count, sections)) => {
            let start = file_length as usize;
            let end = start + sections.len();
            buffer[start..end].copy_from_slice(&sections);
            buffer[20..24].copy_from_slice(&(count as u32).to_be_bytes());
            Written {
                refusal: None,
                length: end as u64,
            }
        }
        // "A refusal changes nothing"; "the length given if nothing is done"
        Err(refusal) => Written {
            refusal: Some(refusal),
            length: file_length,
        },
    }
}

/// The tests in order, and else the new count and the new sections. The file's reads are not kept, since
/// 31 asks for 4,294,967,295 of them.
fn test_append(buffer: &[u8], file_length: u64, read: &NewRead) -> Result<(u64, Vec<u8>), Refusal> {
    // "14 length stated above the buffer"
    if file_length > buffer.len() as u64 {
        return refuse_input(14);
    }
    // "the file's own refusal"
    let (header, _) = walk_file(&buffer[..file_length as usize], |_| {})?;
    test_read(&header, buffer.len() as u64, file_length, read)
}

/// The tests that come after the file's own refusal.
pub fn test_read(
    header: &Header,
    room: u64,
    file_length: u64,
    read: &NewRead,
) -> Result<(u64, Vec<u8>), Refusal> {
    // "25 an index is present"
    if header.has_index() {
        return refuse_input(25);
    }
    // "31 reads already 4,294,967,295"
    if header.reads == 4_294_967_295 {
        return refuse_input(31);
    }
    // "30 counts differ from F or from each other, or N above 4,294,967,295"
    let bases = read.bases.len();
    if read.values.len() != header.flows.len()
        || read.increments.len() != bases
        || read.qualities.len() != bases
        || bases as u64 > 4_294_967_295
    {
        return refuse_input(30);
    }
    // "5 name over 65,512; 6; 9; 10; 11"
    if read.name.len() > 65_512 {
        return refuse_input(5);
    }
    if read.name.iter().any(|byte| !is_name_byte(*byte)) {
        return refuse_input(6);
    }
    if read.clips.iter().any(|clip| usize::from(*clip) > bases) {
        return refuse_input(9);
    }
    let Ok(flow_positions) = flow_walk(read.increments, header.flows.len()) else {
        return refuse_input(10);
    };
    if wrong_base(read.bases, &flow_positions, header.flows).is_some() {
        return refuse_input(11);
    }
    // "26 new length above the buffer"
    let sections = sections(read);
    if file_length + sections.len() as u64 > room {
        return refuse_input(26);
    }
    Ok((header.reads + 1, sections))
}

/// The header section and the data section of a read whose counts and lengths fit their fields.
pub fn sections(read: &NewRead) -> Vec<u8> {
    let mut header = Vec::new();
    let length = up8(16 + read.name.len() as u64);
    header.extend((length as u16).to_be_bytes());
    header.extend((read.name.len() as u16).to_be_bytes());
    header.extend((read.bases.len() as u32).to_be_bytes());
    for clip in read.clips {
        header.extend(clip.to_be_bytes());
    }
    header.extend(read.name);
    pad(&mut header);

    let mut data = Vec::new();
    for value in read.values {
        data.extend(value.to_be_bytes());
    }
    data.extend(read.increments);
    data.extend(read.bases);
    data.extend(read.qualities);
    pad(&mut data);

    header.extend(data);
    header
}
