//! Compares the lister with the second implementation.
//!
//!     second-lister PATH-OF-LISTER SEED COUNT   the comparison
//!     second-lister samples FOLDER              writes files of the stored runs and their listings
//!     second-lister listing                     prints the listing of standard input
//!
//! The comparison ends with 1 at the first difference, and also if an answer never occurred (a run
//! needs some hundreds of inputs for that). The lister's exit status must be 0: a refused file is listed
//! as refused. Its standard error is not looked at.

mod counts;
mod inputs;
mod samples;
mod sff;

use std::io::{self, Read, Write};
use std::process::{exit, Command, Stdio};
use std::sync::mpsc;
use std::thread;
use std::time::Duration;

/// A lister that takes longer over one input has failed.
const TIME_LIMIT: Duration = Duration::from_secs(20);

/// More than any listing has; a lister that prints on and on is cut here.
const MOST_OUTPUT: u64 = 4_000_000;

fn main() {
    let arguments: Vec<String> = std::env::args().skip(1).collect();
    let words: Vec<&str> = arguments.iter().map(String::as_str).collect();
    let done = match words[..] {
        ["listing"] => print_listing(),
        ["samples", folder] => write_samples(folder),
        [lister, seed, count] => match (seed.parse(), count.parse()) {
            (Ok(seed), Ok(count)) => compare(lister, seed, count),
            _ => Err("SEED and COUNT are numbers".to_string()),
        },
        _ => Err("usage: second-lister PATH-OF-LISTER SEED COUNT".to_string()),
    };
    if let Err(message) = done {
        eprintln!("{message}");
        exit(1);
    }
}

fn print_listing() -> Result<(), String> {
    let mut input = Vec::new();
    let most = sff::LONGEST_INPUT as u64 + 1;
    io::stdin()
        .take(most)
        .read_to_end(&mut input)
        .map_err(|error| error.to_string())?;
    io::stdout()
        .write_all(&sff::listing(&input))
        .map_err(|error| error.to_string())
}

fn write_samples(folder: &str) -> Result<(), String> {
    let write = |name: String, bytes: &[u8]| {
        std::fs::write(&name, bytes).map_err(|error| format!("{name}: {error}"))
    };
    std::fs::create_dir_all(folder).map_err(|error| format!("{folder}: {error}"))?;
    for (name, bytes) in samples::samples() {
        write(format!("{folder}/{name}.sff"), &bytes)?;
        write(format!("{folder}/{name}.txt"), &sff::listing(&bytes))?;
    }
    Ok(())
}

fn compare(lister: &str, seed: u64, count: u64) -> Result<(), String> {
    let mut counts = counts::Counts::new(true, &["too long"]);
    for number in 0..count {
        let input = inputs::input(seed, number);
        let expected = sff::listing(&input);
        let printed = run(lister, &input).map_err(|error| {
            let kept = keep(seed, number, &input);
            format!("input {number} of seed {seed}: {error}\n{kept}")
        })?;
        if printed != expected {
            println!("input {number} of seed {seed}: the listings differ");
            println!("the lister printed {}", shown(&printed));
            println!("the second program says {}", shown(&expected));
            return Err(keep(seed, number, &input));
        }
        counts.add(&counts::listed(&input));
    }
    println!("lister: {count} alike; {}", counts.line());
    let missing = counts.below(1);
    if !missing.is_empty() {
        return Err(format!("never occurred: {}", missing.join(", ")));
    }
    Ok(())
}

/// Runs the lister with this standard input and answers what it prints.
fn run(lister: &str, input: &[u8]) -> Result<Vec<u8>, String> {
    let mut child = Command::new(lister)
        .stdin(Stdio::piped())
        .stdout(Stdio::piped())
        .stderr(Stdio::null())
        .spawn()
        .map_err(|error| format!("{lister} cannot be run: {error}"))?;

    // Input is written and output read at the same time: neither pipe may hold the other up.
    let mut to_lister = child.stdin.take().expect("a pipe");
    let bytes = input.to_vec();
    thread::spawn(move || {
        // A lister may stop reading after 65,537 bytes, so a broken pipe is no fault.
        let _ = to_lister.write_all(&bytes);
    });
    let from_lister = child.stdout.take().expect("a pipe");
    let (sender, receiver) = mpsc::channel();
    thread::spawn(move || {
        let mut printed = Vec::new();
        let result = from_lister.take(MOST_OUTPUT).read_to_end(&mut printed);
        let _ = sender.send(result.map(|_| printed));
    });

    let printed = match receiver.recv_timeout(TIME_LIMIT) {
        Ok(result) => result.map_err(|error| error.to_string())?,
        Err(_) => {
            let _ = child.kill();
            return Err(format!("no answer within {} seconds", TIME_LIMIT.as_secs()));
        }
    };
    let status = child.wait().map_err(|error| error.to_string())?;
    if !status.success() {
        return Err(format!("the lister did not end with 0: {status}"));
    }
    Ok(printed)
}

/// Writes the input that showed a difference into the current folder and says where.
fn keep(seed: u64, number: u64, input: &[u8]) -> String {
    let name = format!("difference-{seed}-{number}.sff");
    match std::fs::write(&name, input) {
        Ok(()) => format!("the input is in {name}"),
        Err(error) => format!("the input could not be written to {name}: {error}"),
    }
}

/// At most 500 bytes of an output.
fn shown(output: &[u8]) -> String {
    let part = &output[..output.len().min(500)];
    format!(
        "{} bytes:\n{}",
        output.len(),
        part.escape_ascii().to_string().replace("\\n", "\\n\n")
    )
}
