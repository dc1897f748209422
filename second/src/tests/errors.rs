//! "Errors we expect someone to make": each is seen in an example, and by the generator.

use super::{example, played, played_by_mutant};
use crate::generate::session::random_session;
use crate::rule::{rule_broken_by, Mutant, MUTANTS};
use crate::session::play;

/// Each mutant with the example that shows it.
const SHOWN_BY: [(&str, &str); 12] = [
    ("abandon-keeps-versions", "error-abandon"),
    ("abandon-does-not-mark", "error-abandon"),
    ("one-value-per-cell", "error-one-value-per-cell"),
    ("skips-public-cell", "error-skips-public-cell"),
    ("marks-own-readers-only", "error-older-readers"),
    ("back-to-latest-mark", "error-latest-mark"),
    ("equal-value-does-not-mark", "error-equal-value"),
    ("back-keeps-journal", "error-back-keeps-journal"),
    ("back-keeps-versions", "error-back-keeps-journal"),
    ("abandon-drops-journal", "error-abandon-drops-journal"),
    ("mark-tested-late", "error-mark-tested-late"),
    ("marks-for-same-entry", "turn-same-entry"),
];

#[test]
fn every_mutant_is_shown_by_an_example() {
    for mutant in &MUTANTS {
        let shown = SHOWN_BY.iter().find(|(name, _)| *name == mutant.name);
        let (_, name) = shown.expect("an example for the mutant");
        let text = example(name);
        let wrong = played_by_mutant(&text, mutant.breaks);
        assert_ne!(wrong, played(&text), "{}", mutant.name);
    }
}

/// What the errors leave in the cells, as the examples' comments tell.
#[test]
fn what_each_error_would_leave() {
    let cells = |shown_by: &str, name: &str| {
        let text = example(shown_by);
        let rule = rule_broken_by(name).expect("a mutant");
        let printed = played_by_mutant(&text, rule);
        let cells: Vec<&str> = printed
            .lines()
            .filter(|line| line.starts_with("cell"))
            .collect();
        cells.join(", ")
    };
    let left = [
        ("abandon-keeps-versions", "cell 1 9, cell 5 7, cell 6 9"),
        ("abandon-does-not-mark", "cell 5 7, cell 6 9"),
        ("one-value-per-cell", "cell 5 7, cell 8 2"),
        ("skips-public-cell", "cell 5 7, cell 6 1, cell 8 1"),
        ("marks-own-readers-only", "cell 5 2, cell 6 1"),
        ("back-to-latest-mark", "cell 5 7, cell 6 8, cell 9 8"),
        ("abandon-drops-journal", "cell 5 7"),
    ];
    for (name, expected) in left {
        let shown = SHOWN_BY.iter().find(|(mutant, _)| *mutant == name);
        let (_, shown_by) = shown.expect("an example for the mutant");
        assert_eq!(cells(shown_by, name), expected, "{name}");
    }
}

#[test]
fn every_mutant_differs_on_generated_sessions() {
    let mut missed: Vec<&Mutant> = MUTANTS.iter().collect();
    for item in 0..2_000 {
        let session = random_session(1, item);
        let right = play(&session, None);
        missed.retain(|mutant| play(&session, Some(mutant.breaks)) == right);
    }
    let missed: Vec<&str> = missed.iter().map(|mutant| mutant.name).collect();
    assert!(missed.is_empty(), "{missed:?}");
}
