//! Appends to files of about 4,294,967,295 reads, the most that a header can count: 31, or 25 where the
//! file has an index too.
//!
//!     second-many-reads            the library appends to such a file, without an index and with one; what
//!                                  it should answer is judged on the header alone
//!     second-many-reads whole      the second program appends to them too; then both append the last read
//!                                  that the count allows, and one more
//!
//! Such a file has 68.7 GB: without flows, bases and names a read has 16 bytes. They are addresses alone,
//! behind which the same few megabytes of reads stand again and again. Linux only.

mod comparing;
mod counts;
mod exports;
mod inputs;
mod lent;
mod made;
mod sff;
mod writing;

use comparing::{differ, same, Difference};
use exports::LentRead;
use lent::Lent;
use made::Made;
use std::collections::BTreeMap;
use std::process::exit;
use std::thread;
use writing::{NewRead, Written};

const MOST_READS: u64 = 4_294_967_295;
const HEADER: usize = 32;
/// Name length, number of bases and clips are 0.
const READ: [u8; 16] = [0, 16, 0, 0, 0, 0, 0, 0, 0, 0, 0, 0, 0, 0, 0, 0];
/// The length of an index, of what stands around the file.
const INDEX: u32 = 8;

const PAGE: usize = 4096;
/// What stands again and again. Some thousand times are far from the number of mappings that Linux allows.
const PIECE: usize = 8 << 20;
/// The pieces, of which the header takes the place of two reads: all but one read of the longest file.
const PIECES: usize = 1 << 36;

/// What stands around the file, and in the buffer behind it.
const AROUND: u8 = 9;

extern "C" {
    fn mmap(at: *mut u8, size: usize, access: i32, kind: i32, file: i32, offset: i64) -> *mut u8;
    fn munmap(at: *mut u8, size: usize) -> i32;
    fn memfd_create(name: *const u8, flags: u32) -> i32;
    fn ftruncate(file: i32, length: i64) -> i32;
    fn close(file: i32) -> i32;
}

const NO_ACCESS: i32 = 0;
const READ_AND_WRITE: i32 = 1 | 2;
const SHARED: i32 = 0x1;
const PRIVATE: i32 = 0x2;
const FIXED: i32 = 0x10;
const ANONYMOUS: i32 = 0x20;

/// A page, a file of very many reads in its pieces, and a page with the file's end. The first page of the
/// file is its own; a byte that is written to any other of the pieces shows in all of them.
struct Memory {
    start: *mut u8,
    /// The pieces once more, to look at them.
    piece: *const u8,
}

// A memory is handed to the one thread that uses it.
unsafe impl Send for Memory {}

impl Memory {
    fn new(reads: u64) -> Result<Memory, String> {
        let size = PAGE + PIECES + PAGE;
        let failed = |what: &str| Err(format!("{what}: {}", std::io::Error::last_os_error()));
        unsafe {
            let file = memfd_create(b"reads\0".as_ptr(), 0);
            if file < 0 || ftruncate(file, PIECE as i64) != 0 {
                return failed("no memory for the reads");
            }
            let map = |at: *mut u8, size: usize, access: i32, kind: i32| {
                let file = if kind & ANONYMOUS != 0 { -1 } else { file };
                let mapped = mmap(at, size, access, kind, file, 0);
                (mapped as isize != -1).then_some(mapped)
            };
            let anywhere = std::ptr::null_mut();
            let Some(piece) = map(anywhere, PIECE, READ_AND_WRITE, SHARED) else {
                return failed("no memory for the reads");
            };
            for read in std::slice::from_raw_parts_mut(piece, PIECE).chunks_mut(READ.len()) {
                read.copy_from_slice(&READ);
            }
            // Addresses that nothing stands behind cost no memory, and are not counted as if they did.
            let Some(start) = map(anywhere, size, NO_ACCESS, PRIVATE | ANONYMOUS) else {
                return failed("no addresses for 68.7 GB");
            };
            for at in (0..PIECES).step_by(PIECE) {
                let at = start.add(PAGE + at);
                if map(at, PIECE, READ_AND_WRITE, SHARED | FIXED).is_none() {
                    return failed("the reads cannot stand again and again");
                }
            }
            // The first page of the file is a copy of its own.
            for (at, kind) in [(0, ANONYMOUS), (PAGE, 0), (PAGE + PIECES, ANONYMOUS)] {
                let at = start.add(at);
                if map(at, PAGE, READ_AND_WRITE, PRIVATE | FIXED | kind).is_none() {
                    return failed("no memory for header and end");
                }
            }
            close(file);
            let mut memory = Memory { start, piece };
            memory.part(0, PAGE).fill(AROUND);
            memory.put_header((0, 0), reads);
            let end = memory.part(PAGE + PIECES, PAGE);
            end.fill(AROUND);
            if reads == MOST_READS {
                end[..READ.len()].copy_from_slice(&READ);
            }
            Ok(memory)
        }
    }

    /// A header without flows and key; of the index its offset and length.
    fn put_header(&mut self, index: (u64, u32), reads: u64) {
        let header = writing::header(b"", b"", index, reads as u32);
        self.buffer(HEADER).copy_from_slice(&header);
    }

    /// These bytes of the whole, the first page being before the file.
    fn part(&mut self, from: usize, length: usize) -> &mut [u8] {
        unsafe { std::slice::from_raw_parts_mut(self.start.add(from), length) }
    }

    fn buffer(&mut self, room: usize) -> &mut [u8] {
        self.part(PAGE, room)
    }

    /// What stands in the pages that are not shared: before the file, at its front and at its end.
    fn own_pages(&mut self) -> Vec<u8> {
        let front = self.part(0, 2 * PAGE).to_vec();
        [&front, &*self.part(PAGE + PIECES, PAGE)].concat()
    }

    /// Whether the shared pieces are as they were made.
    fn pieces_unchanged(&self) -> bool {
        let piece = unsafe { std::slice::from_raw_parts(self.piece, PIECE) };
        piece.chunks(READ.len()).all(|read| *read == READ)
    }
}

impl Drop for Memory {
    fn drop(&mut self) {
        unsafe {
            munmap(self.start, PAGE + PIECES + PAGE);
            munmap(self.piece.cast_mut(), PIECE);
        }
    }
}

fn length_of(reads: u64) -> u64 {
    HEADER as u64 + reads * READ.len() as u64
}

/// The read that every file here consists of.
const EMPTY: NewRead = NewRead {
    name: b"",
    clips: [0; 4],
    values: &[],
    increments: b"",
    bases: b"",
    qualities: b"",
};

/// A read that is refused for every reason that comes after 31: 30, 6, 9, 10 and 11.
const WRONG: NewRead = NewRead {
    name: b" ",
    clips: [1; 4],
    values: &[100],
    increments: &[0, 0],
    bases: b"-",
    qualities: b"",
};

fn lent(read: &NewRead) -> LentRead {
    let clips = read.clips.iter();
    LentRead {
        name: Lent::new(read.name, AROUND, 8),
        clips: clips.fold(0, |all, clip| all << 16 | u64::from(*clip)),
        values: Lent::new(read.values, 1, 8),
        increments: Lent::new(read.increments, AROUND, 8),
        bases: Lent::new(read.bases, AROUND, 8),
        qualities: Lent::new(read.qualities, AROUND, 8),
    }
}

/// The library's append to what stands in the memory, in a buffer of this length.
fn library(memory: &mut Memory, room: u64, file_length: u64, read: &NewRead) -> (Made, bool) {
    let lent = lent(read);
    let buffer = memory.buffer(room as usize);
    let made = exports::append_at(buffer.as_mut_ptr(), room as usize, file_length, &lent);
    (made, lent.unchanged())
}

/// The number that was answered, if nothing differs.
type Number = Result<u64, Difference>;

/// A call in both programs: the answers, the memory and what was lent are compared.
fn both(memories: [&mut Memory; 2], room: u64, file_length: u64, read: &NewRead) -> Number {
    let [of_library, of_second] = memories;
    let second = |memory: &mut Memory| {
        Made::of(writing::append(
            memory.buffer(room as usize),
            file_length,
            read,
        ))
    };
    let ((made, kept), expected) = thread::scope(|scope| {
        let other = scope.spawn(|| second(&mut *of_second));
        let of_library = library(of_library, room, file_length, read);
        (of_library, other.join().expect("an end"))
    });
    alike(made, expected, kept, of_library, of_second.own_pages())
}

/// The library's answer, and what it left in its memory.
fn alike(made: Made, expected: Made, kept: bool, memory: &mut Memory, pages: Vec<u8>) -> Number {
    let number = made.number;
    same("append to very many reads", made, expected, &[])?;
    let now = memory.own_pages();
    if let Some(place) = (0..now.len()).find(|place| now[*place] != pages[*place]) {
        let bytes = format!("{} and not {}", now[place], pages[place]);
        differ(format!("byte {place} of header and end is {bytes}"), &[])?;
    }
    if !memory.pieces_unchanged() {
        differ("a byte between header and end changed".to_string(), &[])?;
    }
    if !kept {
        differ("a list that should only be read changed".to_string(), &[])?;
    }
    println!("append to very many reads: 1 alike; {number}: 1");
    Ok(number)
}

/// How often each number was answered.
type Numbers = BTreeMap<u64, u64>;

/// An answer that both gave is counted, if it is also the one that document 01 asks for.
fn counted(number: Number, asked: u64, numbers: &mut Numbers) -> Result<(), String> {
    let number = number.map_err(|difference| difference.message)?;
    if number != asked {
        return Err(format!("both answer {number} and not {asked}"));
    }
    *numbers.entry(number).or_insert(0) += 1;
    Ok(())
}

/// A wrong read, and no room for it: what is said of the file comes before both. The second program
/// appends too if there is a memory for it.
fn refused(memory: &mut Memory, of_second: Option<&mut Memory>, length: u64) -> Number {
    if let Some(of_second) = of_second {
        return both([memory, of_second], length, length, &WRONG);
    }
    let before = memory.own_pages();
    let header = sff::test_header(memory.buffer(HEADER)).expect("a header");
    let refusal = writing::test_read(&header, length, length, &WRONG).err();
    let expected = Made::of(Written { refusal, length });
    let (made, kept) = library(memory, length, length, &WRONG);
    alike(made, expected, kept, memory, before)
}

/// 31 before all that can be said of the read and of the room, and 25 before 31. The index stands behind
/// the last read: just the header and the file's length are others.
fn full(whole: bool, numbers: &mut Numbers) -> Result<(), String> {
    let length = length_of(MOST_READS);
    let mut memory = Memory::new(MOST_READS)?;
    let mut of_second = whole.then(|| Memory::new(MOST_READS)).transpose()?;
    let number = refused(&mut memory, of_second.as_mut(), length);
    counted(number, 31, numbers)?;
    memory.put_header((length, INDEX), MOST_READS);
    if let Some(of_second) = &mut of_second {
        of_second.put_header((length, INDEX), MOST_READS);
    }
    let with_index = length + u64::from(INDEX);
    let number = refused(&mut memory, of_second.as_mut(), with_index);
    counted(number, 25, numbers)
}

/// The last read that the count allows, in just the room that it needs; then the next.
fn last(numbers: &mut Numbers) -> Result<(), String> {
    let (length, room) = (length_of(MOST_READS - 1), length_of(MOST_READS));
    let mut memory = Memory::new(MOST_READS - 1)?;
    let mut of_second = Memory::new(MOST_READS - 1)?;
    for (file_length, asked) in [(length, 0), (room, 31)] {
        let number = both([&mut memory, &mut of_second], room, file_length, &EMPTY);
        counted(number, asked, numbers)?;
    }
    // Both programs could have left the same wrong bytes.
    let of_count = memory.buffer(HEADER)[20..24].to_vec();
    let of_end = memory.part(PAGE + PIECES, 17).to_vec();
    if of_count != [255; 4] || of_end[..16] != READ || of_end[16] != AROUND {
        return Err(format!("the last read left {of_count:?} and {of_end:?}"));
    }
    Ok(())
}

fn main() {
    let arguments: Vec<String> = std::env::args().skip(1).collect();
    let words: Vec<&str> = arguments.iter().map(String::as_str).collect();
    let mut numbers = Numbers::new();
    let done = match words[..] {
        [] => full(false, &mut numbers),
        ["whole"] => full(true, &mut numbers).and_then(|()| last(&mut numbers)),
        _ => Err("usage: second-many-reads [whole]".to_string()),
    };
    match done {
        Ok(()) => println!("{}", counts::line_of_numbers(&numbers)),
        Err(message) => {
            eprintln!("{message}");
            exit(1);
        }
    }
}
