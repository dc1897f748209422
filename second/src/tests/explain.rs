//! Explanations, written from 01 by hand; and random sessions, which are all explained.

use super::{bytes, example, session};
use crate::counts::{Cell, Ticket};
use crate::explain::input::Handed;
use crate::explain::story::{Cause, Change, Deed, How, Story};
use crate::explain::{explanation, tell, turn_text, Telling};
use crate::generate::session::random_session;
use crate::log::{Found, ToldRead};
use crate::session::play;
use std::path::Path;

/// What is told of a session in either form that the other program plays rightly.
pub fn telling(input: &[u8]) -> Telling {
    let handed = Handed::from(input.to_vec()).expect("a session");
    let played = play(&handed.bytes, None);
    tell(&handed, played.as_bytes(), explanation)
}

/// The explanation of a text that is not refused.
#[track_caller]
fn explained(text: &str) -> String {
    match telling(text.as_bytes()) {
        Telling::Told(told) => told,
        other => panic!("{other:?}"),
    }
}

/// The explanation of a text that is refused.
#[track_caller]
fn refused(text: &str) -> String {
    match telling(text.as_bytes()) {
        Telling::Refused(told) => told,
        other => panic!("{other:?}"),
    }
}

/// Session S, and three of the errors that 01 expects: each text was written before the program
/// told it.
#[test]
fn examples_are_explained_as_by_hand() {
    let folder = Path::new(env!("CARGO_MANIFEST_DIR")).join("../examples");
    for name in [
        "session-s",
        "error-abandon",
        "error-equal-value",
        "error-older-readers",
    ] {
        let path = folder.join(name).with_extension("explained");
        let expected = std::fs::read_to_string(path).expect("the explanation");
        assert_eq!(explained(&example(name)), expected, "{name}");
    }
}

/// The explanations alone: what stands behind each turn's line.
fn turns_told(text: &str) -> Vec<String> {
    let told = explained(text);
    let lines = told.lines().filter_map(|line| line.split_once(": "));
    let turns = lines.filter(|(before, _)| before.contains("  turn "));
    turns.map(|(_, after)| after.to_string()).collect()
}

/// The lines after the last turn's and the cells'.
fn end_told(text: &str) -> String {
    let told = explained(text);
    let (_, end) = told.split_once("\n\n").expect("an end");
    end.to_string()
}

#[test]
fn each_kind_of_read_and_of_step() {
    let job = "PUSH 3, PUSH 4, READ, PUSH 4, READ, SUB, SUB, PUSH 4, WRITE, PUSH 260, READ, \
               JUMPZERO 13, ABANDON, STOP";
    let text = session(&[job], "1x13");
    let expected = [
        "job 1, place 0: PUSH 3",
        "job 1, place 1: PUSH 4",
        "job 1, place 2: READ of cell 4 finds 0 in the start table; listed with a checkpoint",
        "job 1, place 3: PUSH 4",
        "job 1, place 4: READ of cell 4 finds 0 in its own read of turn 3; not listed again",
        "job 1, place 5: SUB, leaves 0 on top",
        "job 1, place 6: SUB, leaves 18446744073709551613 on top",
        "job 1, place 7: PUSH 4",
        "job 1, place 8: WRITE of 18446744073709551613 to cell 4, into its journal",
        "job 1, place 9: PUSH 260",
        "job 1, place 10: READ of cell 4 finds 18446744073709551613 in its own journal; not listed",
        "job 1, place 11: JUMPZERO 13, goes on at place 12",
        "job 1, place 12: ABANDON, with nothing to withdraw",
    ];
    assert_eq!(turns_told(&text), expected);
    let expected = "13 turns; f is 0 of 1 job\n\n\
        job 1: abandoned at place 12; not final; waits for a turn, which makes it final; \
        never went back\n\ncells settled by jobs: none\n";
    assert_eq!(end_told(&text), expected);
}

/// Writes 1 to cell 6, reads cell 5, and writes 2 to cell 6 unless that was 0.
const WRITES_ONCE_OR_TWICE: &str = "PUSH 1, PUSH 6, WRITE, PUSH 5, READ, JUMPZERO 9, \
                                    PUSH 2, PUSH 6, WRITE, STOP";

#[test]
fn a_version_in_place_of_another_entry() {
    let jobs = [
        "PUSH 1, PUSH 5, WRITE, STOP",
        WRITES_ONCE_OR_TWICE,
        "PUSH 6, READ, POP, STOP",
    ];
    let text = session(&jobs, "2x7 3x2 1x4 2x7");
    let told = turns_told(&text);
    assert_eq!(
        told[13..],
        [
            "job 2 goes back to its READ at place 4, because job 1 published cell 5 in turn 13; \
             loses its read of cell 5 (0 from the start table); withdraws nothing",
            "job 2, place 4: READ of cell 5 finds 1 in job 1's version of turn 13; \
             listed with a checkpoint",
            "job 2, place 5: JUMPZERO 9, goes on at place 6",
            "job 2, place 6: PUSH 2",
            "job 2, place 7: PUSH 6",
            "job 2, place 8: WRITE of 2 to cell 6, into its journal",
            "job 2, place 9: STOP publishes cell 6 as 2, in place of another entry (1), and marks \
             job 3 at its read of cell 6 in turn 9 (1 from job 2, which is replaced)",
        ]
    );
    let expected = "20 turns; f is 0 of 3 jobs\n
job 1: stopped at place 3; not final; waits for a turn, which makes it final; never went back
job 2: stopped at place 9; not final; waits for job 1, which is not final; went back once:
  turn 14, because job 1 published cell 5 in turn 13
job 3: not finished, at place 2 (POP); not final; is marked, because job 2 published cell 6 in \
turn 20: its next turn goes back to place 1; never went back

cells settled by jobs: none

public, but not counted yet:
  job 1, which is not final: cell 5 as 1
  job 2, which is not final: cell 6 as 2
";
    assert_eq!(end_told(&text), expected);
}

#[test]
fn the_same_entry_again_marks_nobody() {
    let jobs = ["PUSH 0, PUSH 5, WRITE, STOP", WRITES_ONCE_OR_TWICE];
    let told = turns_told(&session(&jobs, "2x7 1x4 2x4"));
    let expected =
        "job 2, place 9: STOP leaves cell 6 public as 1, by the same entry; marks nobody";
    assert_eq!(told[14], expected);
}

#[test]
fn a_read_that_is_marked_twice_names_both_causes() {
    let writer = "PUSH 7, PUSH 5, WRITE, STOP";
    let jobs = [writer, writer, "PUSH 5, READ, POP, STOP"];
    let text = session(&jobs, "3x2 1x4 2x4 3");
    let told = turns_told(&text);
    assert_eq!(
        told[9..],
        [
            "job 2, place 3: STOP publishes cell 5 as 7, newly, and marks job 3 at its read of \
             cell 5 in turn 2 (0 from the start table, which is older than job 2's; it was marked \
             there before)",
            "job 3 goes back to its READ at place 1, because job 1 published cell 5 in turn 6 and \
             job 2 published cell 5 in turn 10; loses its read of cell 5 (0 from the start table); \
             withdraws nothing",
        ]
    );
    assert!(end_told(&text).contains(
        "job 3: not finished, at place 1 (READ); not final; waits for a turn; went back once:\n  \
         turn 11, because job 1 published cell 5 in turn 6 and job 2 published cell 5 in turn 10\n"
    ));
}

/// The explanation of a refusal, its three lines joined by slashes.
#[track_caller]
fn is_refused(text: &str, expected: &str) {
    let told = refused(text).replace("\n  ", " / ");
    assert_eq!(told.trim_end(), expected);
}

#[test]
fn each_refusal_by_the_form_of_a_job() {
    is_refused(
        &("job\nSTOP\n".repeat(17) + "turns"),
        "refused 3 17 0: job 17, line 33: a seventeenth job / here: a job after 16 others / \
         to do: keep to 16 jobs: part them among several sessions",
    );
    is_refused(
        "# empty\njob\nturns",
        "refused 4 1 0: job 1, line 2: length 0, over 576, or not a multiple of 9 / \
         here: contents of 0 bytes / to do: give the job 1 to 64 instructions of 9 bytes each",
    );
    is_refused(
        "job\nCODE 14 7\nturns",
        "refused 5 1 0: job 1, place 0 (CODE 14 7), line 2: code above 13 / here: code 14 / \
         to do: give a code from 0 (STOP) to 13 (JUMPZERO)",
    );
    is_refused(
        "job\nPUSH 1\nturns",
        "refused 7 1 0: job 1, place 0 (PUSH 1), line 2: the last instruction would lead on / \
         here: PUSH 1 leads on to place 1, which is not there / \
         to do: put STOP or ABANDON after it",
    );
    is_refused(
        &format!("job\nPUSH 0\n{}STOP\nturns", "READ\n".repeat(9)),
        "refused 11 1 9: job 1, place 9 (READ), line 11: ninth READ or ninth WRITE / \
         here: the ninth READ of the job / \
         to do: keep to 8 READ and 8 WRITE in a job: part it in two",
    );
}

#[test]
fn each_refusal_by_the_ways_through_a_job() {
    is_refused(
        "job\nSTOP\njob\nJUMP 2\nSTOP\nSTOP\nturns",
        "refused 8 2 1: job 2, place 1 (STOP), line 5: no earlier place leads here / \
         here: every way through the job passes it by / \
         to do: drop it, or let an earlier jump lead to it",
    );
    is_refused(
        "job\nPUSH 0\nJUMPZERO 3\nPUSH 1\nSTOP\nturns",
        "refused 10 1 3: job 1, place 3 (STOP), line 5: two heights meet here / \
         here: place 1 brings 0 entries and place 2 brings 1 entry / to do: \
         let every way to this place bring as many entries, by a PUSH or a POP on one of them",
    );
}

#[test]
fn operands_and_heights() {
    let operand = |line: &str, told: &str| {
        let (instruction, number) = line.split_once(' ').expect("an operand");
        let expected = format!(
            "refused 6 1 0: job 1, place 0 ({instruction} {number}), line 2: \
             operand outside its column / here: the operand {number} / to do: {told}"
        );
        is_refused(&format!("job\n{line}\nPOP\nSTOP\nturns"), &expected);
    };
    operand("ADD 5", "give it no operand, or 0");
    operand("DUP 16", "give it an operand from 1 to 15");
    operand(
        "JUMP 3",
        "give it a later place of the job, from 1 to the last, 2",
    );
    is_refused(
        "job\nJUMP 0\nturns",
        "refused 6 1 0: job 1, place 0 (JUMP 0), line 2: operand outside its column / here: \
         the operand 0 / to do: no later place is there to go to: put STOP or ABANDON after it",
    );
    let meaning = "too few entries on the stack, or more than 16 left";
    is_refused(
        "cell 5 1\n\njob\nPUSH 1\nPUSH 2\nADD\nSUB\nSTOP\nturns",
        &format!(
            "refused 9 1 3: job 1, place 3 (SUB), line 7: {meaning} / \
             here: it needs 2 entries and finds 1 / to do: push what it needs before it"
        ),
    );
    is_refused(
        &format!("job\n{}STOP\nturns", "PUSH 4\n".repeat(17)),
        &format!(
            "refused 9 1 16: job 1, place 16 (PUSH 4), line 18: {meaning} / \
             here: it finds 16 entries and would leave 17 / \
             to do: use up or drop entries before it: 16 are the most"
        ),
    );
}

/// A malformed session: the byte and the line of the breach, and what is told to be there.
#[track_caller]
fn is_malformed(text: &str, place: &str, here: &str) {
    let told = refused(text);
    let expected = format!(
        "refused 13 0 0: byte {place}: the session is malformed\n  here: {here}\n  to do: "
    );
    assert!(told.starts_with(&expected), "{told}");
    assert!(told.len() > expected.len() + 10, "{told}");
}

#[test]
fn each_breach_by_a_field() {
    let first = "0 (counted from 0)";
    is_malformed("# nothing", first, "an empty input");
    is_malformed(
        "bytes 02 01",
        "0 (counted from 0), line 1",
        "bad framing: 2 bytes left for a head of 3",
    );
    is_malformed(
        "cell 5 1\nbytes 10 09 00 00",
        "12 (counted from 0), line 2",
        "bad framing: a field of length 9 with 1 byte left",
    );
    is_malformed(
        "job\nSTOP\nbytes 11 00 00",
        "12 (counted from 0), line 3",
        "another tag: 0x11",
    );
    is_malformed(
        "bytes 01 01 00 05\nturns",
        "0 (counted from 0), line 1",
        "a 0x01 field of length 1",
    );
    is_malformed(
        "cell 5 1\ncell 4 1\nturns",
        "12 (counted from 0), line 2",
        "cells not strictly rising: cell 4 after cell 5",
    );
}

#[test]
fn each_breach_by_order_or_size() {
    is_malformed(
        "job\nSTOP\ncell 4 1\nturns",
        "12 (counted from 0), line 3",
        "another order: a 0x01 field after a job",
    );
    is_malformed(
        "job\nSTOP",
        "12 (counted from 0)",
        "no 0x02 field: the input ends",
    );
    is_malformed(
        "turns 1x4000\nturns 1",
        "0 (counted from 0), line 1",
        "a longer 0x02 field, of 4001 turns",
    );
    is_malformed(
        "turns 1\nbytes 02 00 00",
        "4 (counted from 0), line 2",
        "3 bytes after the 0x02 field",
    );
    let large = "cell 1 1\n".repeat(1366);
    is_malformed(
        &large,
        "16384 (counted from 0), line 1366",
        "too large an input, of 16392 bytes where 16384 are the most",
    );
}

#[test]
fn bytes_have_no_lines() {
    let told = telling(&bytes("job\nPOP\nSTOP\nturns"));
    let expected = "refused 9 1 0: job 1, place 0 (POP): too few entries on the stack, \
                    or more than 16 left\n  here: it needs 1 entry and finds 0\n  \
                    to do: push what it needs before it\n";
    assert_eq!(told, Telling::Refused(expected.to_string()));
}

#[test]
fn neither_text_nor_bytes() {
    for (input, complaint) in [
        (
            &b"\x00\x00\x00"[..],
            "line 1, column 1: \0\0\0: no such word of the text form",
        ),
        (b"job\n FOO", "line 2, column 2: FOO: no such instruction"),
        (b"\xff", "line 1, column 1: not UTF-8 text"),
    ] {
        let why = Handed::from(input.to_vec()).err().expect("a complaint");
        assert!(why.ends_with(complaint), "{why}");
    }
}

#[test]
fn nothing_is_told_where_the_two_programs_differ() {
    let handed = Handed::from(example("session-s").into_bytes()).expect("a session");
    let wrong = play(&handed.bytes, None).replace("2 back 0", "2 step 0");
    let telling = tell(&handed, wrong.as_bytes(), explanation);
    let line = "line 7: expected `2 step 0`, found `2 back 0`";
    assert_eq!(telling, Telling::Differs(line.to_string()));
}

/// Every line of `play` begins a line of the explanation, and every turn is told of.
#[test]
fn random_sessions_are_explained() {
    let (mut told_of, mut refused) = (0, 0);
    for item in 0..400 {
        let input = random_session(11, item);
        let Ok(handed) = Handed::from(input) else {
            continue;
        };
        let played = play(&handed.bytes, None);
        let told = match tell(&handed, played.as_bytes(), explanation) {
            Telling::Told(told) => told,
            Telling::Refused(told) => {
                assert!(told.starts_with(played.trim_end()), "item {item}: {told}");
                refused += 1;
                continue;
            }
            Telling::Differs(line) => panic!("item {item}: {line}"),
        };
        for (number, (line, told)) in played.lines().zip(told.lines()).enumerate() {
            let rest = told.strip_prefix(line).expect("the line of play");
            let turn = format!("turn {}: ", number + 1);
            let is_cell = line.starts_with("cell");
            assert!(is_cell || rest.trim_start().starts_with(&turn), "{told}");
        }
        told_of += 1;
    }
    assert!(
        told_of > 200 && refused > 50,
        "{told_of} told, {refused} refused"
    );
}

/// The change by which a turn made a cell public.
fn publishing(story: &Story, turn: usize, cell: Cell) -> Option<&Change> {
    let made = |change: &&Change| matches!(change.how, How::Newly | How::InPlaceOf(_));
    let mut changes = story.turns[turn - 1].changes().filter(made);
    changes.find(|change| change.write.cell == cell)
}

/// Whether a turn listed this read for this ticket.
fn lists(story: &Story, turn: usize, ticket: Ticket, read: ToldRead) -> bool {
    let ToldRead {
        cell,
        source,
        value,
    } = read;
    let found = Found::Version(source, value);
    let reads =
        |deed: &Deed| matches!(deed, Deed::Read(at, got, _) if (*at, *got) == (cell, found));
    let turn = &story.turns[turn - 1];
    turn.ticket == ticket && turn.deeds.iter().any(reads)
}

/// Whether a deed and the turns that it names belong to each other.
fn hangs_together(story: &Story, number: usize, deed: &Deed) -> bool {
    let ticket = story.turns[number - 1].ticket;
    match deed {
        Deed::Read(_, Found::Journal(_), from) => from.is_none(),
        Deed::Read(_, Found::Version(Ticket(0), _), from) => from.is_none(),
        Deed::Read(_, Found::Listed(_), from) => from.is_some_and(|turn| turn < number),
        Deed::Read(cell, Found::Version(source, value), from) => from.is_some_and(|turn| {
            let made = publishing(story, turn, *cell);
            let is_source = story.turns[turn - 1].ticket == *source && turn < number;
            is_source && made.is_some_and(|change| change.write.value == *value)
        }),
        Deed::Wrote(_) => true,
        Deed::Changed(change) => change.marks.iter().all(|mark| {
            let earlier = mark.listed < number && mark.reader > ticket;
            earlier && lists(story, mark.listed, mark.reader, mark.read)
        }),
        Deed::WentBack(back) => {
            let marked = |cause: &Cause| {
                let mut changes = story.turns[cause.turn - 1].changes();
                let by_cause = cause.turn > back.listed && cause.turn < number;
                by_cause && changes.any(|change| marks(change, ticket, back.listed))
            };
            !back.causes.is_empty() && back.causes.iter().all(marked)
        }
    }
}

/// Whether a change marked the read that a turn listed for this ticket.
fn marks(change: &Change, reader: Ticket, listed: usize) -> bool {
    let mut marks = change.marks.iter();
    marks.any(|mark| (mark.reader, mark.listed) == (reader, listed))
}

/// Every turn that is named as a source or a cause is one.
#[test]
fn stories_hang_together() {
    let (mut reads, mut backs) = (0, 0);
    for item in 0..400 {
        let Ok(story) = Story::of(&random_session(13, item)) else {
            continue;
        };
        for (index, turn) in story.turns.iter().enumerate() {
            for deed in &turn.deeds {
                let told = || turn_text(&story, index + 1);
                assert!(
                    hangs_together(&story, index + 1, deed),
                    "item {item}, {}",
                    told()
                );
                reads += usize::from(matches!(deed, Deed::Read(_, Found::Version(..), Some(_))));
                backs += usize::from(matches!(deed, Deed::WentBack(_)));
            }
        }
    }
    assert!(reads > 500 && backs > 500, "{reads} reads, {backs} backs");
}
