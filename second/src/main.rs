//! The independent second program: checker, engine, serial run and session player written out
//! from document 01 alone, and what compares other programs with it.

mod arguments;
mod assemble;
mod calls;
mod checker;
mod compare;
mod counts;
mod demands;
mod disassemble;
mod draw;
mod engine;
mod explain;
mod field;
mod generate;
mod help;
mod instruction;
mod log;
mod machine;
mod nearest;
mod papers;
mod random;
mod rule;
mod serial;
mod session;
mod shrink;
mod support;
mod versions;
mod words;
mod work;

#[cfg(test)]
mod tests;

use arguments::{Arguments, FILE};
use compare::{read_file, write_file, Comparison};
use std::ffi::OsString;
use std::io::{self, Read, Write};
use std::path::PathBuf;
use std::process::ExitCode;
use words::Complaint;

const USAGE: &str = "usage:
  second play [--mutant NAME] [FILE]
  second assemble [FILE] > session.bin
  second disassemble [FILE] > text
  second verdicts [FILE]
  second generate-papers --seed S --count N > papers.txt
  second generate --seed S --count N --out DIR
  second compare --seed S --count N [--examples DIR] [--keep DIR] -- COMMAND ARGS..
  second mutants --seed S --count N
  second bytes < SESSION > session.bin
  second explain --played FILE < SESSION
  second draw --played FILE < SESSION > session.svg
  second calls < script
  second generate-calls --seed S --count N > script
a SESSION is text or bytes; FILE is what the proved program printed for it
";

/// What a sub-command answers: whether all is well, or why it could not be done.
type Outcome = Result<bool, String>;

/// The status of a sub-command that could not do its work.
const NOT_DONE: u8 = 2;

fn main() -> ExitCode {
    let words: Vec<OsString> = std::env::args_os().skip(1).collect();
    let (name, rest) = match words.split_first() {
        Some((name, rest)) => (name.to_string_lossy(), rest),
        None => ("".into(), &words[..]),
    };
    let outcome = match name.as_ref() {
        asked if help::is_wanted(asked, rest) => help(asked),
        "play" => play(rest),
        "assemble" => assemble(rest),
        "disassemble" => disassemble(rest),
        "verdicts" => verdicts(rest),
        "generate-papers" => generate_papers(rest),
        "generate" => generate(rest),
        "compare" => compare(rest),
        "mutants" => mutants(rest),
        "bytes" => support::bytes(rest),
        "explain" => return support::explain(rest),
        "draw" => return support::draw(rest),
        "calls" => calls(rest),
        "generate-calls" => generate_calls(rest),
        "" => Err(format!("no sub-command\n{USAGE}")),
        other => Err(help::no_such_command(other)),
    };
    match outcome {
        Ok(true) => ExitCode::SUCCESS,
        Ok(false) => ExitCode::FAILURE,
        Err(why) => complain(&why, NOT_DONE),
    }
}

/// Says on standard error what is wrong; if even this cannot be written, the status still tells.
fn complain(why: &str, status: u8) -> ExitCode {
    let _ = writeln!(io::stderr(), "second: {}", why.trim_end());
    ExitCode::from(status)
}

/// Standard input to the end.
fn input() -> Result<Vec<u8>, String> {
    let mut bytes = Vec::new();
    let read = io::stdin().read_to_end(&mut bytes);
    read.map_err(|error| format!("cannot read the input: {error}"))?;
    Ok(bytes)
}

/// The file that is named, to its end; where none is, standard input.
fn input_of(arguments: &Arguments) -> Result<Vec<u8>, String> {
    match &arguments.file {
        Some(file) => read_file(file),
        None => input(),
    }
}

/// What a text form's reader makes of the input; a complaint names the file.
fn text_input<T>(
    arguments: &Arguments,
    reader: impl Fn(&str) -> Result<T, Complaint>,
) -> Result<T, String> {
    let bytes = input_of(arguments)?;
    let read = words::text_of(&bytes).and_then(reader);
    read.map_err(|complaint| match &arguments.file {
        Some(file) => format!("{}: {complaint}", file.display()),
        None => complaint.to_string(),
    })
}

/// Puts bytes out at once.
fn print(bytes: &[u8]) -> Result<(), String> {
    let mut out = io::stdout();
    let written = out.write_all(bytes).and_then(|()| out.flush());
    written.map_err(|error| format!("cannot write the output: {error}"))
}

fn print_line(line: &str) -> Result<(), String> {
    print(format!("{line}\n").as_bytes())
}

fn help(asked: &str) -> Outcome {
    print(help::text(asked).as_bytes())?;
    Ok(true)
}

fn play(words: &[OsString]) -> Outcome {
    let arguments = Arguments::parse(words, &["--mutant", FILE])?;
    let broken = arguments.mutant("--mutant")?;
    print(session::play(&input_of(&arguments)?, broken).as_bytes())?;
    Ok(true)
}

fn assemble(words: &[OsString]) -> Outcome {
    let arguments = Arguments::parse(words, &[FILE])?;
    print(&text_input(&arguments, assemble::assemble)?)?;
    Ok(true)
}

fn disassemble(words: &[OsString]) -> Outcome {
    let arguments = Arguments::parse(words, &[FILE])?;
    print(disassemble::disassemble(&input_of(&arguments)?).as_bytes())?;
    Ok(true)
}

fn verdicts(words: &[OsString]) -> Outcome {
    let arguments = Arguments::parse(words, &[FILE])?;
    let papers = text_input(&arguments, papers::papers_from)?;
    let lines: String = papers
        .iter()
        .map(|paper| papers::verdict_line(paper))
        .collect();
    print(lines.as_bytes())?;
    Ok(true)
}

fn generate_papers(words: &[OsString]) -> Outcome {
    let arguments = Arguments::parse(words, &["--seed", "--count"])?;
    let seed = arguments.number("--seed")?;
    for item in 0..arguments.number("--count")? {
        let paper = generate::paper::random_paper(seed, item);
        let text = papers::paper_text(&paper);
        print(format!("# paper {item} of seed {seed}\n{text}").as_bytes())?;
    }
    Ok(true)
}

fn generate(words: &[OsString]) -> Outcome {
    let arguments = Arguments::parse(words, &["--seed", "--count", "--out"])?;
    let seed = arguments.number("--seed")?;
    let folder = arguments.path("--out").ok_or("`--out` is missing")?;
    for item in 0..arguments.number("--count")? {
        let session = generate::session::random_session(seed, item);
        write_file(&folder.join(format!("{item:06}.bin")), &session)?;
    }
    Ok(true)
}

fn compare(words: &[OsString]) -> Outcome {
    let known = ["--seed", "--count", "--examples", "--keep", "--"];
    let arguments = Arguments::parse(words, &known)?;
    let comparison = Comparison {
        seed: arguments.number("--seed")?,
        count: arguments.number("--count")?,
        examples: arguments.path("--examples"),
        keep: arguments.path("--keep").unwrap_or(PathBuf::from(".")),
        command: arguments.command,
    };
    comparison.run(&mut print_line)
}

/// Counts, for each mutant, the sessions on which it prints something else.
fn mutants(words: &[OsString]) -> Outcome {
    let arguments = Arguments::parse(words, &["--seed", "--count"])?;
    let (seed, count) = (arguments.number("--seed")?, arguments.number("--count")?);
    let mut differences = [0; rule::MUTANTS.len()];
    for item in 0..count {
        let session = generate::session::random_session(seed, item);
        let right = session::play(&session, None);
        for (number, mutant) in differences.iter_mut().zip(rule::MUTANTS) {
            *number += usize::from(session::play(&session, Some(mutant.breaks)) != right);
        }
    }
    for (number, mutant) in differences.iter().zip(rule::MUTANTS) {
        let (name, does) = (mutant.name, mutant.does);
        print_line(&format!("{name} differs on {number} of {count}: {does}"))?;
    }
    let found = differences.iter().filter(|number| **number > 0).count();
    let missed = differences.len() - found;
    print_line(&format!("{found} passed, {missed} failed"))?;
    Ok(missed == 0)
}

/// Plays calls as text; the answers before a line that is no call stand.
fn calls(words: &[OsString]) -> Outcome {
    Arguments::parse(words, &[])?;
    let (answers, complaint) = calls::play_script(&input()?);
    print(answers.as_bytes())?;
    complaint.map_or(Ok(true), |complaint| Err(complaint.to_string()))
}

fn generate_calls(words: &[OsString]) -> Outcome {
    let arguments = Arguments::parse(words, &["--seed", "--count"])?;
    let seed = arguments.number("--seed")?;
    for item in 0..arguments.number("--count")? {
        print(generate::script::random_script(seed, item).as_bytes())?;
    }
    Ok(true)
}
