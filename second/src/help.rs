//! What `--help` says: of the program, and of each command below its usage.

use crate::nearest::no_such;
use crate::USAGE;
use std::ffi::OsString;

/// What stands below the usage of the whole program.
const OF_ALL: &str = "
The independent second program of Garvolish, written from document 01: it plays sessions, turns their text into bytes
and back, gives verdicts on papers, and compares other programs with itself. Where a FILE may be named and none is,
standard input is read. `second NAME --help` tells more of a command.

status: 0 all well (a refused session too), 1 a comparison or a mutant failed, 2 bad usage, bad text, or a file that
cannot be read or written; standard error says which
";

/// What stands below a command's usage.
const OF_EACH: &[(&str, &str)] = &[
    (
        "play",
        "
Plays a session, given as bytes: a line a turn, then the settled cells that are not 0; or its refusal.

  --mutant NAME  with one rule of the engine broken, as `second mutants` lists them

status: 0 played or refused, 2 the input could not be read or there is no such mutant
example: second play session.bin
",
    ),
    (
        "assemble",
        "
Turns a session's text into its bytes. Lines of the text, `#` starting a comment:

  cell N V        a start value
  job             the next ticket's job; its instructions follow, a line each (PUSH 5, STOP, ..)
  LABEL:          names a place of the job, for JUMP and JUMPZERO
  CODE N OPERAND  an instruction by its code
  turns 2 1x4     the tickets of the turns, 1x4 being 1 1 1 1
  bytes 10 00     bytes as they are

status: 0 assembled, 2 the text is not right (line and column are told), or could not be read
example: second assemble examples/session-s.session > session.bin
",
    ),
    (
        "disassemble",
        "
Turns a session's bytes, or any others, into text that assembles to the same bytes.

status: 0 done, 2 the input could not be read
example: second disassemble session.bin
",
    ),
    (
        "verdicts",
        "
Gives the checker's verdict on each paper of a text, a line each: `passes` with the number of jobs, or `refused` with
number, field and place. A paper is bytes of two hex digits, ended by a lone `.`; `#` starts a comment.

status: 0 every paper got a verdict, 2 the text is not right (line and column are told), or could not be read
example: second verdicts examples/papers.txt
",
    ),
    (
        "generate-papers",
        "
Writes random papers, sound and spoilt, in the text that `second verdicts` reads. Paper k of a seed is always the same.

  --seed S   which papers, 0 or more
  --count N  how many

status: 0 written, 2 bad usage or an output that cannot be written
example: second generate-papers --seed 1 --count 100 > papers.txt
",
    ),
    (
        "generate",
        "
Writes random sessions, sound and spoilt, as bytes: 000000.bin and so on. Session k of a seed is always the same.

  --seed S   which sessions, 0 or more
  --count N  how many
  --out DIR  the folder, made if need be

status: 0 written, 2 bad usage or a file that cannot be written
example: second generate --seed 1 --count 100 --out sessions
",
    ),
    (
        "compare",
        "
Plays sessions by this program and by COMMAND, which reads a session on standard input, and compares what they print.
A difference is told, and the smallest failing session is kept as failing.session and failing.bin.

  --seed S        which random sessions, 0 or more
  --count N       how many
  --examples DIR  the sessions of a folder too, NAME.session with NAME.expected
  --keep DIR      where the failing session goes (this folder, if not given)

status: 0 all the same, 1 a difference, 2 bad usage or a command that cannot be run
example: second compare --seed 1 --count 100 --examples examples -- ./play
",
    ),
    (
        "mutants",
        "
Plays random sessions by the engine and by each mutant, an engine with one rule broken, and tells on how many they
differ. A mutant that never differs has failed.

  --seed S   which sessions, 0 or more
  --count N  how many

status: 0 every mutant differs, 1 some never does, 2 bad usage
example: second mutants --seed 1 --count 2000
",
    ),
    (
        "bytes",
        "
Gives the bytes of a session on standard input, be it text or bytes already.

status: 0 done, 2 the text is not right (line and column are told), or could not be read
example: second bytes < examples/session-s.session > session.bin
",
    ),
    (
        "explain",
        "
Says in words, turn by turn, what happened in a session (text or bytes, on standard input), or why it was refused.

  --played FILE  what the proved program printed for it

status: 0 told, 1 the session is refused, 2 bad usage or bad text, 3 the two programs differ
example: second explain --played played.txt < session.bin
",
    ),
    (
        "draw",
        "
Draws what happened in a session (text or bytes, on standard input), as SVG. There is no picture of a refused session.

  --played FILE  what the proved program printed for it

status: 0 drawn, 1 the session is refused, 2 bad usage or bad text, 3 the two programs differ
example: second draw --played played.txt < session.bin > session.svg
",
    ),
    (
        "calls",
        "
Plays a script of calls on standard input, one a line, and prints an answer a line, as `tools/calls` does through C.

status: 0 every line was a call, 2 a line that is none (its number is told; the answers before it stand)
example: second calls < script
",
    ),
    (
        "generate-calls",
        "
Writes random scripts of calls, in the text that `second calls` reads. Script k of a seed is always the same.

  --seed S   which scripts, 0 or more
  --count N  how many

status: 0 written, 2 bad usage or an output that cannot be written
example: second generate-calls --seed 1 --count 100 > script
",
    ),
];

/// The usage of each command, without the program's name.
fn usages() -> impl Iterator<Item = &'static str> {
    USAGE
        .lines()
        .filter_map(|line| line.strip_prefix("  second "))
}

/// The names of all commands, as their usage has them.
pub fn names() -> impl Iterator<Item = &'static str> {
    usages().filter_map(|usage| usage.split(' ').next())
}

/// What is said of a command that is none.
pub fn no_such_command(name: &str) -> String {
    no_such(name, "sub-command", names()) + "\n" + USAGE
}

/// Whether help is asked for: of the program, or of a command that is one.
pub fn is_wanted(name: &str, rest: &[OsString]) -> bool {
    // What follows `--` is another program's.
    let mut own = rest.iter().take_while(|word| *word != "--");
    let asked = own.any(|word| word.to_str().is_some_and(is_question));
    is_question(name) || asked && names().any(|known| known == name)
}

fn is_question(word: &str) -> bool {
    matches!(word, "--help" | "-h")
}

/// The help of a command; of the program, where it is no command that is asked for.
pub fn text(asked: &str) -> String {
    let Some((name, told)) = OF_EACH.iter().find(|(name, _)| *name == asked) else {
        return USAGE.to_string() + OF_ALL;
    };
    let own = |usage: &&str| usage.split(' ').next() == Some(name);
    let usage: String = usages()
        .filter(own)
        .map(|usage| format!("usage: second {usage}\n"))
        .collect();
    usage + told
}
