//! The command line: help, files, and wrong words that name the nearest right one.

use crate::arguments::{Arguments, FILE};
use crate::assemble::assemble;
use crate::help::{is_wanted, names, no_such_command, text};
use crate::nearest::no_such;
use crate::papers::papers_from;
use crate::words::text_of;
use crate::{input_of, text_input};
use std::ffi::OsString;
use std::fs;
use std::path::PathBuf;

fn words(told: &str) -> Vec<OsString> {
    told.split_whitespace().map(OsString::from).collect()
}

/// The arguments of a command that may name a file, and has one option.
fn parsed(told: &str) -> Result<Arguments, String> {
    Arguments::parse(&words(told), &["--mutant", FILE])
}

/// A file of these bytes for one test, and the arguments that name it.
fn lent_file(test: &str, bytes: &[u8]) -> (PathBuf, Arguments) {
    let path = std::env::temp_dir().join(format!("second-{test}-{}", std::process::id()));
    fs::write(&path, bytes).expect("a file");
    let arguments = parsed(path.to_str().expect("a name in UTF-8"));
    (path, arguments.expect("arguments"))
}

#[test]
fn every_command_has_help_with_its_usage_statuses_and_an_example() {
    let mut seen = 0;
    for name in names() {
        assert!(is_wanted(name, &words("--help")), "{name}");
        let told = text(name);
        assert!(
            told.starts_with(&format!("usage: second {name} ")),
            "{name}: {told}"
        );
        assert!(told.contains("\nstatus: 0 "), "{told}");
        assert!(
            told.contains(&format!("\nexample: second {name} ")),
            "{told}"
        );
        seen += 1;
    }
    assert!(seen >= 8, "only {seen} commands");
}

#[test]
fn the_program_itself_has_help() {
    for asked in ["--help", "-h"] {
        assert!(is_wanted(asked, &[]), "{asked}");
        let told = text(asked);
        assert!(names().all(|name| told.contains(&format!("  second {name} "))));
        assert!(told.contains("\nstatus: 0 "), "{told}");
    }
}

#[test]
fn help_is_given_where_it_is_asked_for() {
    assert!(is_wanted("play", &words("--mutant --help")));
    assert!(!is_wanted("play", &words("session.bin")));
    assert!(!is_wanted("plai", &words("--help")));
    assert!(!is_wanted("compare", &words("--seed 1 -- other --help")));
}

#[test]
fn a_file_may_be_named_once() {
    assert_eq!(parsed("").expect("arguments").file, None);
    let named = parsed("--mutant m session.bin").expect("arguments");
    assert_eq!(named.file, Some(PathBuf::from("session.bin")));
    let two = parsed("one two").expect_err("a complaint");
    assert_eq!(two, "`two` is one word too many");
    let none = Arguments::parse(&words("one"), &["--seed"]).expect_err("a complaint");
    assert_eq!(none, "`one` is one word too many");
}

#[test]
fn the_named_file_is_read() {
    let (path, arguments) = lent_file("read", b"\x02\x00\x00");
    assert_eq!(input_of(&arguments), Ok(b"\x02\x00\x00".to_vec()));
    fs::remove_file(path).expect("the file");
    let gone = input_of(&arguments).expect_err("a complaint");
    assert!(gone.starts_with("cannot read "), "{gone}");
    let folder = parsed("/").expect("arguments");
    assert!(input_of(&folder).is_err());
}

#[test]
fn a_complaint_names_the_file() {
    let (path, arguments) = lent_file("complaint", b"job\n FOO");
    let told = text_input(&arguments, assemble).expect_err("a complaint");
    let expected = format!(
        "{}: line 2, column 2: FOO: no such instruction",
        path.display()
    );
    assert_eq!(told, expected);
    fs::remove_file(path).expect("the file");
}

#[test]
fn a_byte_order_mark_is_passed_over_in_both_text_forms() {
    let marked = |text: &str| [b"\xef\xbb\xbf", text.as_bytes()].concat();
    let session = marked("turns 1\n");
    assert_eq!(text_of(&session).and_then(assemble), Ok(vec![2, 1, 0, 1]));
    let papers = marked("10 00 .\n");
    assert_eq!(
        text_of(&papers).and_then(papers_from),
        Ok(vec![vec![0x10, 0]])
    );
    // Columns are those of the text, and a mark within it is no mark.
    for (text, column) in [("foo", 1), ("turns \u{feff}1", 7)] {
        let bytes = marked(text);
        let complaint = text_of(&bytes).and_then(assemble).expect_err("a complaint");
        assert_eq!((complaint.line, complaint.column), (1, column));
    }
}

#[track_caller]
fn says(text: &str, what: &str) {
    assert_eq!(assemble(text).expect_err("a complaint").what, what);
}

#[test]
fn a_wrong_word_names_the_nearest_right_one() {
    says(
        "job\nJUMPZER 3",
        "JUMPZER: no such instruction; did you mean JUMPZERO?",
    );
    says(
        "job\npush 3",
        "push: no such instruction; did you mean PUSH?",
    );
    says(
        "job\nSTOP\ntunrs 1",
        "tunrs: no such instruction; did you mean turns?",
    );
    says(
        "cel 5 3",
        "cel: no such word of the text form; did you mean cell?",
    );
    says(
        "job\nJUMP edn\nend: STOP",
        "edn: no such label in this job; did you mean end?",
    );
    says("job\nCODE 14", "`CODE` takes a code and an operand");
}

#[test]
fn a_word_that_is_near_to_none_names_none() {
    says("job\nMULTIPLY", "MULTIPLY: no such instruction");
    says("job\nFOO", "FOO: no such instruction");
    says("job\nJUMP far\nend: STOP", "far: no such label in this job");
    let long = "x".repeat(100_000);
    assert_eq!(
        no_such(&long, "word", ["x"]),
        format!("{long}: no such word")
    );
}

#[test]
fn the_nearest_is_the_one_with_the_fewest_wrong_letters() {
    let meant = |word| no_such(word, "word", ["generate", "generates", "general"]);
    assert_eq!(
        meant("genreate"),
        "genreate: no such word; did you mean generate?"
    );
    assert_eq!(
        meant("generats"),
        "generats: no such word; did you mean generate?"
    );
    assert_eq!(
        meant("GENERAL"),
        "GENERAL: no such word; did you mean general?"
    );
    assert_eq!(meant("gene"), "gene: no such word");
}

#[test]
fn commands_options_and_mutants_name_the_nearest_too() {
    let told = no_such_command("plai");
    assert!(
        told.starts_with("plai: no such sub-command; did you mean play?\nusage:\n"),
        "{told}"
    );
    let option = parsed("--mutnat x").expect_err("a complaint");
    assert_eq!(option, "--mutnat: no such option; did you mean --mutant?");
    let mutant = parsed("--mutant skip-public-cell").expect("arguments");
    let told = mutant.mutant("--mutant").expect_err("a complaint");
    assert_eq!(
        told,
        "skip-public-cell: no such mutant; did you mean skips-public-cell?"
    );
    assert_eq!(parsed("--").expect_err("a complaint"), "--: no such option");
}
