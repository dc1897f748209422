//! Runs another program on many sessions and compares what it prints, byte for byte.

use crate::assemble::assemble;
use crate::demands::broken_demand;
use crate::disassemble::disassemble;
use crate::generate::session::random_session;
use crate::session::play;
use crate::shrink::shrink;
use crate::words::text_of;
use std::ffi::OsString;
use std::fs;
use std::io::Write;
use std::path::{Path, PathBuf};
use std::process::{Command, Stdio};

/// At most so many differences are told line by line.
const MOST_TOLD: usize = 10;

/// What is to be compared.
pub struct Comparison {
    pub seed: u64,
    pub count: u64,
    pub examples: Option<PathBuf>,
    /// Where the smallest failing session goes.
    pub keep: PathBuf,
    pub command: Vec<OsString>,
}

/// A session with a name and the output it must have.
struct Case {
    name: String,
    input: Vec<u8>,
    expected: Vec<u8>,
}

/// How many cases passed and failed, and the failing case with the smallest input.
#[derive(Default)]
struct Tally {
    passed: usize,
    failed: usize,
    smallest: Option<Case>,
}

impl Comparison {
    /// Compares everything; true if nothing failed. An error if the comparison cannot be made.
    pub fn run(&self, tell: &mut impl FnMut(&str) -> Result<(), String>) -> Result<bool, String> {
        let mut tally = Tally::default();
        for case in examples(self.examples.as_deref())? {
            self.judge(case, &mut tally, tell)?;
        }
        for item in 0..self.count {
            let input = random_session(self.seed, item);
            let expected = play(&input, None).into_bytes();
            let name = format!("session {item} of seed {}", self.seed);
            let case = Case {
                name,
                input,
                expected,
            };
            self.judge(case, &mut tally, tell)?;
        }
        if let Some(case) = &tally.smallest {
            self.keep_smallest(case, tell)?;
        }
        tell(&format!("{} passed, {} failed", tally.passed, tally.failed))?;
        Ok(tally.failed == 0)
    }

    /// Counts one case and tells of a difference.
    fn judge(
        &self,
        case: Case,
        tally: &mut Tally,
        tell: &mut impl FnMut(&str) -> Result<(), String>,
    ) -> Result<(), String> {
        let Some(difference) = self.difference(&case.input, &case.expected)? else {
            tally.passed += 1;
            return Ok(());
        };
        tally.failed += 1;
        if tally.failed <= MOST_TOLD {
            tell(&format!("{}: {difference}", case.name))?;
        }
        let best = tally
            .smallest
            .as_ref()
            .map_or(usize::MAX, |best| best.input.len());
        if case.input.len() < best {
            tally.smallest = Some(case);
        }
        Ok(())
    }

    /// What is wrong on this input, in words; none if all is well.
    fn difference(&self, input: &[u8], expected: &[u8]) -> Result<Option<String>, String> {
        if let Some(broken) = broken_demand(input) {
            return Ok(Some(format!(
                "the second program breaks a demand: {broken}"
            )));
        }
        let own = play(input, None);
        if own.as_bytes() != expected {
            let line = first_difference(expected, own.as_bytes());
            return Ok(Some(format!("the second program itself: {line}")));
        }
        let (output, was_killed) = self.run_command(input)?;
        if was_killed {
            return Ok(Some("the command was ended by a signal".to_string()));
        }
        let differs = output != expected;
        Ok(differs.then(|| first_difference(expected, &output)))
    }

    /// What the command prints for this input, and whether a signal ended it.
    fn run_command(&self, input: &[u8]) -> Result<(Vec<u8>, bool), String> {
        let [program, arguments @ ..] = self.command.as_slice() else {
            return Err("no command after `--`".to_string());
        };
        let mut child = Command::new(program)
            .args(arguments)
            .stdin(Stdio::piped())
            .stdout(Stdio::piped())
            .spawn()
            .map_err(|error| format!("cannot run {}: {error}", program.to_string_lossy()))?;
        let stdin = child.stdin.take();
        let ended = std::thread::scope(|scope| {
            // A command may stop reading early; what it prints then is judged all the same.
            scope.spawn(move || stdin.map(|mut pipe| pipe.write_all(input)));
            child.wait_with_output()
        });
        let output = ended.map_err(|error| format!("cannot hear the command: {error}"))?;
        Ok((output.stdout, output.status.code().is_none()))
    }

    /// Shrinks a failing case and writes it to files in both forms.
    fn keep_smallest(
        &self,
        case: &Case,
        tell: &mut impl FnMut(&str) -> Result<(), String>,
    ) -> Result<(), String> {
        let fails = |input: &[u8]| {
            let expected = play(input, None).into_bytes();
            matches!(self.difference(input, &expected), Ok(Some(_)))
        };
        // An example whose expected text alone is wrong has nothing to shrink.
        let smallest = match fails(&case.input) {
            true => shrink(&case.input, fails),
            false => case.input.clone(),
        };
        let expected = play(&smallest, None);
        let found = self.difference(&smallest, expected.as_bytes())?;
        let found = found.unwrap_or_else(|| "differs from the example's expected text".to_string());
        let text = format!("# from {}: {found}\n{}", case.name, disassemble(&smallest));
        let (told, binary) = (
            self.keep.join("failing.session"),
            self.keep.join("failing.bin"),
        );
        write_file(&told, text.as_bytes())?;
        write_file(&binary, &smallest)?;
        tell(&format!(
            "smallest failing session found, from {}: {found}",
            case.name
        ))?;
        tell(&format!(
            "kept in {} and {}",
            told.display(),
            binary.display()
        ))
    }
}

/// The examples of a folder, each `NAME.session` with `NAME.expected`, in the order of names.
fn examples(folder: Option<&Path>) -> Result<Vec<Case>, String> {
    let mut cases = Vec::new();
    let Some(folder) = folder else {
        return Ok(cases);
    };
    let told = |error| format!("cannot read {}: {error}", folder.display());
    for entry in fs::read_dir(folder).map_err(told)? {
        let path = entry.map_err(told)?.path();
        if path
            .extension()
            .is_some_and(|extension| extension == "session")
        {
            cases.push(example(&path)?);
        }
    }
    cases.sort_by(|one, other| one.name.cmp(&other.name));
    Ok(cases)
}

/// One example.
fn example(path: &Path) -> Result<Case, String> {
    let name = path.display().to_string();
    let text = read_file(path)?;
    let input = text_of(&text)
        .and_then(assemble)
        .map_err(|complaint| format!("{name}: {complaint}"))?;
    let expected = read_file(&path.with_extension("expected"))?;
    Ok(Case {
        name,
        input,
        expected,
    })
}

/// The bytes of a file.
pub fn read_file(path: &Path) -> Result<Vec<u8>, String> {
    fs::read(path).map_err(|error| format!("cannot read {}: {error}", path.display()))
}

/// Writes a file, its folder too if need be.
pub fn write_file(path: &Path, bytes: &[u8]) -> Result<(), String> {
    let folder = path.parent().unwrap_or(Path::new("."));
    fs::create_dir_all(folder)
        .and_then(|()| fs::write(path, bytes))
        .map_err(|error| format!("cannot write {}: {error}", path.display()))
}

/// The first line in which two texts differ, in words.
pub fn first_difference(expected: &[u8], found: &[u8]) -> String {
    let line_of = |line: Option<&[u8]>| match line {
        Some(line) => format!("`{}`", String::from_utf8_lossy(line)),
        None => "the end".to_string(),
    };
    let mut right = expected.split_inclusive(|byte| *byte == b'\n');
    let mut other = found.split_inclusive(|byte| *byte == b'\n');
    let mut number = 1;
    loop {
        let (one, two) = (right.next(), other.next());
        if one != two || one.is_none() {
            let (one, two) = (line_of(one), line_of(two));
            return format!("line {number}: expected {one}, found {two}").replace('\n', "");
        }
        number += 1;
    }
}
