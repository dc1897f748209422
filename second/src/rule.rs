//! Rules that someone could get wrong. A mutant is the engine with one of them broken, to see
//! whether a comparison would find it.

/// A rule of the engine that a mutant breaks.
#[derive(Clone, Copy, Debug, PartialEq, Eq)]
pub enum Rule {
    AbandonWithdraws,
    AbandonMarksReaders,
    AbandonKeepsJournal,
    JournalKeepsEveryWrite,
    StopReplacesPublicVersion,
    StopMarksReadersOfOlder,
    StopMarksForEqualValue,
    StopMarksForOtherEntryOnly,
    BackToEarliestMark,
    BackLosesJournal,
    BackWithdrawsLostVersions,
    MarkTestedAtEveryTurn,
}

/// A mutant: its name on the command line, the rule it breaks, and what it does instead.
pub struct Mutant {
    pub name: &'static str,
    pub breaks: Rule,
    pub does: &'static str,
}

const fn mutant(name: &'static str, breaks: Rule, does: &'static str) -> Mutant {
    Mutant { name, breaks, does }
}

/// Every mutant. The first six are 01's "Errors we expect someone to make".
pub const MUTANTS: [Mutant; 12] = [
    mutant(
        "abandon-keeps-versions",
        Rule::AbandonWithdraws,
        "ABANDON does not withdraw what an earlier STOP made public",
    ),
    mutant(
        "abandon-does-not-mark",
        Rule::AbandonMarksReaders,
        "ABANDON withdraws but does not mark the readers",
    ),
    mutant(
        "one-value-per-cell",
        Rule::JournalKeepsEveryWrite,
        "a second write of a cell takes the place of the first in the journal",
    ),
    mutant(
        "skips-public-cell",
        Rule::StopReplacesPublicVersion,
        "STOP skips a cell of which some version is public already",
    ),
    mutant(
        "marks-own-readers-only",
        Rule::StopMarksReadersOfOlder,
        "STOP marks readers of its own version only, not of older ones",
    ),
    mutant(
        "back-to-latest-mark",
        Rule::BackToEarliestMark,
        "back returns to the latest of several marked reads",
    ),
    mutant(
        "equal-value-does-not-mark",
        Rule::StopMarksForEqualValue,
        "STOP does not mark a read that found an equal value",
    ),
    mutant(
        "back-keeps-journal",
        Rule::BackLosesJournal,
        "back keeps the journal past the checkpoint",
    ),
    mutant(
        "back-keeps-versions",
        Rule::BackWithdrawsLostVersions,
        "back does not withdraw versions that came from lost journal entries",
    ),
    mutant(
        "abandon-drops-journal",
        Rule::AbandonKeepsJournal,
        "ABANDON empties the journal, which a later rollback needs",
    ),
    mutant(
        "mark-tested-late",
        Rule::MarkTestedAtEveryTurn,
        "a mark is tested before READ, WRITE and final only, as in document 000",
    ),
    mutant(
        "marks-for-same-entry",
        Rule::StopMarksForOtherEntryOnly,
        "STOP marks readers of a version that still comes from the same journal entry",
    ),
];

/// The rule that the mutant of this name breaks.
pub fn rule_broken_by(name: &str) -> Option<Rule> {
    let mutant = MUTANTS.iter().find(|mutant| mutant.name == name)?;
    Some(mutant.breaks)
}
