//! Shows that the comparison notices: breaks the second program in each way of a list, one at a time,
//! and compares the library with what is then wrong. The script `mutations` builds and runs it.
//!
//!     mutations ROOT LIST LIBRARY-FOLDER COMPILER WORK-FOLDER SEED COUNT
//!
//! A broken program must compile, and the comparison must end at a case that differs: neither a program
//! that stops nor an answer that never occurs is a find. What is not broken must be alike in all cases.

use std::collections::VecDeque;
use std::path::{Path, PathBuf};
use std::process::{exit, Command};
use std::sync::Mutex;
use std::thread;

/// An edit of the second program.
struct Mutation {
    title: String,
    file: String,
    old: String,
    new: String,
    /// The program that has to notice.
    with: String,
}

const PROGRAMS: [&str; 2] = ["library.rs", "filter_library.rs"];

/// The entries of a list, which are separated by empty lines.
fn entries(list: &str) -> Result<Vec<Mutation>, String> {
    let mut all = Vec::new();
    for entry in list.split("\n\n") {
        let lines: Vec<&str> = entry
            .lines()
            .filter(|line| !line.is_empty() && !line.starts_with('#'))
            .collect();
        let Some((title, fields)) = lines.split_first() else {
            continue;
        };
        let field = |name: &str| {
            let start = format!("{name}: ");
            let texts = fields.iter().filter_map(|line| line.strip_prefix(&start));
            texts.collect::<Vec<_>>().join("\n")
        };
        let [file, old, new, with] = ["file", "old", "new", "with"].map(field);
        let names = ["file: ", "old: ", "new: ", "with: "];
        let is_field = |line: &&str| names.iter().any(|name| line.starts_with(name));
        if file.is_empty() || old.is_empty() || new.is_empty() || !fields.iter().all(is_field) {
            return Err(format!(
                "{title}: no file, old and new text, or something else"
            ));
        }
        let of_filters = PROGRAMS[usize::from(file.starts_with("filter"))];
        let with = if with.is_empty() {
            of_filters.to_string()
        } else {
            with
        };
        all.push(Mutation {
            title: title.to_string(),
            file,
            old,
            new,
            with,
        });
    }
    Ok(all)
}

/// What every part of the work is given.
struct Work {
    root: PathBuf,
    library: String,
    compiler: String,
    folder: PathBuf,
    seed: String,
    count: String,
}

impl Work {
    /// A copy of the sources in a folder of its own, and of the sample that they take in.
    fn copy(&self, name: &str) -> Result<PathBuf, String> {
        let folder = self.folder.join(name);
        let sources = folder.join("tests/second");
        let io = |error: std::io::Error| format!("{}: {error}", folder.display());
        std::fs::create_dir_all(&sources).map_err(io)?;
        std::fs::create_dir_all(folder.join("samples")).map_err(io)?;
        for source in std::fs::read_dir(self.root.join("tests/second")).map_err(io)? {
            let source = source.map_err(io)?;
            let name = source.file_name();
            if Path::new(&name).extension().is_some_and(|of| of == "rs") {
                std::fs::copy(source.path(), sources.join(name)).map_err(io)?;
            }
        }
        let sample = "samples/e.sff";
        std::fs::copy(self.root.join(sample), folder.join(sample)).map_err(io)?;
        Ok(folder)
    }

    /// Compiles a program of the copy and runs it: its exit status, and what it told. Few cases are run
    /// sooner than the compiler could make them fast.
    fn run(
        &self,
        folder: &Path,
        program: &str,
        has_few_cases: bool,
    ) -> Result<(Option<i32>, String), String> {
        let level = format!("opt-level={}", if has_few_cases { 0 } else { 1 });
        let path = folder.join("program");
        let compiled = Command::new(&self.compiler)
            .args([
                "-C",
                &level,
                "-C",
                "overflow-checks=on",
                "--edition",
                "2021",
            ])
            .args([
                "-A",
                "warnings",
                "-L",
                &self.library,
                "-l",
                "static=harness",
                "-o",
            ])
            .args([&path, &folder.join("tests/second").join(program)])
            .output()
            .map_err(|error| format!("{}: {error}", self.compiler))?;
        if !compiled.status.success() {
            let told = String::from_utf8_lossy(&compiled.stderr);
            return Err(format!("it does not compile\n{told}"));
        }
        let mut command = Command::new(&path);
        if PROGRAMS.contains(&program) {
            command.args([&self.seed, &self.count]);
        }
        let ran = command.current_dir(folder).output();
        let ran = ran.map_err(|error| format!("{}: {error}", path.display()))?;
        let told = String::from_utf8_lossy(&ran.stderr).into_owned();
        Ok((ran.status.code(), told))
    }

    /// What is not broken is alike in all cases.
    fn unbroken(&self) -> Result<(), String> {
        for program in PROGRAMS {
            let folder = self.copy("unbroken")?;
            let (status, told) = self.run(&folder, program, false)?;
            if status != Some(0) {
                return Err(format!(
                    "{program}, unbroken, ended with {status:?}\n{told}"
                ));
            }
            println!("{program}, unbroken: {} cases alike", self.count);
        }
        Ok(())
    }

    /// How many cases it took to find the mutation and what was noticed, or None if it was not found.
    fn find(&self, mutation: &Mutation, number: usize) -> Result<Option<String>, String> {
        let folder = self.copy(&number.to_string())?;
        let path = folder.join("tests/second").join(&mutation.file);
        let source = std::fs::read_to_string(&path).map_err(|error| error.to_string())?;
        // Further lines of a text stand with the indentation of its first.
        let (old, new) = match place(&source, &mutation.old) {
            Some(indentation) => (
                indented(&mutation.old, &indentation),
                indented(&mutation.new, &indentation),
            ),
            None => (mutation.old.clone(), mutation.new.clone()),
        };
        match source.matches(&old).count() {
            1 => {}
            times => {
                return Err(format!(
                    "its old text stands {times} times in {}",
                    mutation.file
                ))
            }
        }
        let broken = source.replace(&old, &new);
        std::fs::write(&path, broken).map_err(|error| error.to_string())?;
        let (status, told) = self.run(&folder, &mutation.with, true)?;
        std::fs::remove_dir_all(&folder).map_err(|error| error.to_string())?;
        Ok(noticed(status, &told, &self.seed))
    }
}

/// The indentation of the line where a text begins, if it stands there.
fn place(source: &str, text: &str) -> Option<String> {
    let at = source.find(text.lines().next()?)?;
    let line = source[..at].rsplit('\n').next()?;
    let spaces = line.chars().take_while(|character| *character == ' ');
    Some(spaces.collect())
}

fn indented(text: &str, indentation: &str) -> String {
    text.replace('\n', &format!("\n{indentation}"))
}

/// A difference that was told, and at which case.
fn noticed(status: Option<i32>, told: &str, seed: &str) -> Option<String> {
    if status != Some(1) {
        return None;
    }
    let is_told = |line: &&str| line.starts_with("case ") || line.starts_with("append");
    let first = told.lines().find(is_told)?;
    let Some(case) = first.strip_prefix("case ") else {
        let is_fixed = first.starts_with("append to very many reads");
        return is_fixed.then(|| format!("{:>6}         {first}", "fixed"));
    };
    let (number, call) = case.split_once(&format!(" of seed {seed}: "))?;
    let number: u64 = number.parse().ok()?;
    // A second program that stops has shown no difference; that the library wrote beside a number is one.
    let beside = "the library wrote beside a number that it was lent";
    if call.starts_with("it stopped") && !told.contains(beside) {
        return None;
    }
    Some(format!("{:>6} cases   {call}", number + 1))
}

fn all(words: &[String]) -> Result<bool, String> {
    let [root, list, library, compiler, folder, seed, count] = words else {
        return Err(
            "usage: mutations ROOT LIST LIBRARY-FOLDER COMPILER WORK-FOLDER SEED COUNT".to_string(),
        );
    };
    let work = Work {
        root: root.into(),
        library: library.clone(),
        compiler: compiler.clone(),
        folder: folder.into(),
        seed: seed.clone(),
        count: count.clone(),
    };
    let list = std::fs::read_to_string(list).map_err(|error| format!("{list}: {error}"))?;
    let mutations = entries(&list)?;
    work.unbroken()?;

    let waiting: Mutex<VecDeque<usize>> = Mutex::new((0..mutations.len()).collect());
    let found = Mutex::new(0);
    let faults = Mutex::new(Vec::new());
    let worker = || loop {
        let next = waiting.lock().expect("a list").pop_front();
        let Some(number) = next else { return };
        let mutation = &mutations[number];
        let result = work.find(mutation, number);
        let title = &mutation.title;
        match result {
            Ok(Some(noticed)) => {
                *found.lock().expect("a count") += 1;
                println!("{:<72} {noticed}", title);
            }
            Ok(None) => println!("{:<72}  NOT FOUND", title),
            Err(fault) => faults
                .lock()
                .expect("a list")
                .push(format!("{title}: {fault}")),
        }
    };
    let processors = thread::available_parallelism().map_or(1, |number| number.get());
    thread::scope(|scope| {
        for _ in 0..processors {
            scope.spawn(worker);
        }
    });
    let faults = faults.into_inner().expect("a list");
    if !faults.is_empty() {
        return Err(faults.join("\n"));
    }
    let found = found.into_inner().expect("a count");
    println!("{} broken, {found} found", mutations.len());
    Ok(found == mutations.len())
}

fn main() {
    let words: Vec<String> = std::env::args().skip(1).collect();
    match all(&words) {
        Ok(true) => {}
        Ok(false) => exit(1),
        Err(message) => {
            eprintln!("{message}");
            exit(2);
        }
    }
}
