//! Calls as text: the answers that document 01 gives, and lines that are no calls.

use super::{lines, paper};
use crate::calls::call::Call;
use crate::calls::play_script;
use std::fs;
use std::path::Path;

const WRITER: &str = "PUSH 7, PUSH 5, WRITE, STOP";
const READER: &str = "PUSH 5, READ, PUSH 6, WRITE, STOP";
/// Reads cell 4 and writes cell 3, reads cell 5 and writes cell 6.
const COPIER: &str = "PUSH 4, READ, PUSH 3, WRITE, PUSH 5, READ, PUSH 6, WRITE, STOP";

/// The line that opens these jobs on a table of zeros.
fn open(jobs: &[&str]) -> String {
    let start = vec![0; 256];
    let paper = paper(jobs);
    Call::Open { start, paper }.to_string()
}

/// The answers to calls parted by slashes, none of which may be refused as a line.
#[track_caller]
fn answers(opening: &str, calls: &str) -> String {
    let (answers, complaint) = play_script(format!("{opening}\n{}", lines(calls)).as_bytes());
    assert_eq!(complaint, None, "{calls}");
    let first = answers.lines().next().unwrap_or_default().len() + 1;
    answers[first..].to_string()
}

#[track_caller]
fn answer(opening: &str, calls: &str, expected: &str) {
    assert_eq!(answers(opening, calls), lines(expected), "{calls}");
}

/// A line that is no call ends the script, and its number is told.
#[track_caller]
fn is_no_call(before: &[&str], line: &str) {
    let played: String = before.iter().map(|call| format!("{call}\n")).collect();
    let script = format!("# a comment\n\n{played}{line}\nsettled 256\n");
    let (answers, complaint) = play_script(script.as_bytes());
    let complaint = complaint.unwrap_or_else(|| panic!("`{line}` was played: {answers}"));
    let number = played.lines().count() + 3;
    assert_eq!(complaint.line, number, "{line}: {complaint}");
    assert_eq!(answers.lines().count() + 3, number, "{line}");
}

/// Each of the lines parted by slashes is no call after those before it.
#[track_caller]
fn are_no_calls(before: &[&str], told: &str) {
    for line in told.split(" / ") {
        is_no_call(before, line);
    }
}

#[test]
fn session_s_as_calls() {
    let (start, paper) = ("5=3", paper(&[WRITER, READER]));
    let hex: String = paper.iter().map(|byte| format!("{byte:02x}")).collect();
    let opening = format!("open 256 {start} {hex}");
    answer(
        &opening,
        "turn 2 / turn 2 / turn 1 / turn 1 / turn 1 / turn 1 / turn 2 / turn 2 / turn 2 / turn 2 / \
         turn 2 / turn 2 / turn 1 / turn 2 / turn 2 / turn 3 / settled 256",
        "turn step - 0 / turn step - 0 / turn step - 0 / turn step - 0 / turn step - 0 / \
         turn end - 0 / turn back - 0 / turn step - 0 / turn step - 0 / turn step - 0 / \
         turn end - 0 / turn wait - 0 / turn final - 1 / turn final - 2 / turn idle - 2 / \
         turn none14 - 2 / settled 0 2 5=7,6=7",
    );
    answer(
        &opening,
        "turns 02020101010102020202020201020203 16 / settled 256",
        "turns 0 02020202020301020202030504040006 - 2 / settled 0 2 5=7,6=7",
    );
    answer(
        &opening,
        &format!("serial 256 256 {start} {hex}"),
        "serial 0 0 0 5=7,6=7",
    );
}

#[test]
fn before_the_first_opening_stands_a_refused_one() {
    let (answers, complaint) = play_script(b"turn 1\nsettled 256\nturns 01 1\nturns - 0");
    assert_eq!(complaint, None);
    let expected = "turn none14 - 0 / settled 0 0 - / turns 0 06 - 0 / turns 0 - - 0";
    assert_eq!(answers, lines(expected));
}

#[test]
fn refusals_of_tables_papers_and_buffers() {
    let sound = open(&["STOP"]);
    for cells in ["0", "255", "257"] {
        answer(&sound, &format!("settled {cells}"), "settled 12 0 -");
        let tables = format!("serial 256 {cells} - 10 / serial {cells} 256 - 10");
        answer(&sound, &tables, "serial 12 0 0 - / serial 12 0 0 -");
        let after = format!("open {cells} - 10 / turn 1 / settled 256");
        let expected = "open 12 0 0 / turn none14 - 0 / settled 0 0 -";
        answer(&sound, &after, expected);
    }
    answer(&sound, "open 256 7=1 100000", "open 4 1 0");
    answer(
        &sound,
        "open 256 7=1 100000 / settled 256",
        "open 4 1 0 / settled 0 0 -",
    );
    answer(&sound, "serial 256 256 7=1 1000", "serial 1 1 0 -");
    answer(&sound, "serial 256 256 7=1 -", "serial 0 0 0 7=1");
    let popping = open(&["STOP", "POP, STOP"]);
    let (answers, _) = play_script(popping.as_bytes());
    assert_eq!(answers, "open 9 2 0\n");
    answer(
        &sound,
        "turns 0101 1 / turns 0101 3 / turns - 1 / turns 0101 2 / turns 01 0",
        "turns 15 - - 0 / turns 15 - - 0 / turns 15 - - 0 / turns 0 0304 - 1 / turns 15 - - 1",
    );
}

#[test]
fn lines_that_are_no_calls() {
    let told = "turn / turn 1 2 / turn 256 / turn -1 / turn +1 / turn x / Turn 1 / turn 1\r / \
                settled / settled 1048577 / turns 1 1 / turns 0g 1 / turns 01 / open 256 - / \
                open 256 5 - / open 256 5=3, - / open 256 5=3,5=4 - / open 256 5=3,4=1 - / \
                open 256 256=1 - / open 0 0=1 - / open 256 1=18446744073709551616 - / \
                open 256 - 1 / serial 256 256 - / alter / alter count / alter count 1 1 / \
                alter foo 1 / alter size 1 / hints - / hints 010203 / write - 9 / outcome 9 / \
                read_outcome - / rescue - 9 9 / alter hint 0 1 1 1 / alter hintcount 0";
    let opening = open(&["STOP"]);
    are_no_calls(&[], told);
    are_no_calls(&[&opening, "turn 1"], told);
    for line in [" ", "turn ", "turn  1", " turn 1", "turn 1 ", "turns  0"] {
        is_no_call(&[&opening], line);
    }
    let (_, complaint) = play_script(b"turn 1\nturn \xff\n");
    assert_eq!(complaint.map(|complaint| complaint.line), Some(2));
}

/// Job 1 fresh, and job 2 ended: reads of cells 4 and 5, entries for cells 3 and 6, both public.
fn two_jobs() -> String {
    format!("{}\nturns {} 9", open(&[WRITER, COPIER]), "02".repeat(9))
}

/// What `settled` and job 1's turn answer after these alterations.
#[track_caller]
fn after(alterations: &str, settled: &str, turn: &str) {
    let all = format!("alter {}", alterations.replace(" / ", " / alter "));
    let told = answers(&two_jobs(), &format!("{all} / settled 256 / turn 1"));
    let last: Vec<&str> = told.lines().rev().take(2).collect();
    assert_eq!(last, [turn, settled], "{alterations}");
}

#[track_caller]
fn fits(alterations: &str) {
    after(alterations, "settled 0 0 -", "turn step - 0");
}

#[track_caller]
fn does_not_fit(alterations: &str) {
    after(alterations, "settled 20 0 -", "turn none20 - 0");
}

#[test]
fn counts_and_heights() {
    fits("count 2");
    fits("count 1");
    does_not_fit("count 17");
    does_not_fit("count 255");
    fits("count 17 / count 2");
    fits("size 2 9");
    does_not_fit("size 2 8");
    does_not_fit("size 2 0");
    does_not_fit("size 2 65");
    does_not_fit("size 2 255");
    fits("size 2 65 / size 2 9");
    fits("place 1 1 / size 1 4");
    does_not_fit("place 1 3 / size 1 3");
    does_not_fit("height 2 17");
    does_not_fit("height 2 255");
    fits("height 2 17 / height 2 0");
    does_not_fit("writes 2 9");
    does_not_fit("writes 2 1");
    fits("writes 2 9 / writes 2 2");
    does_not_fit("reads 2 9");
    fits("reads 2 9 / reads 2 2");
    fits("reads 2 1");
    fits("reads 2 0");
}

#[test]
fn a_full_stack_is_within_its_limit() {
    let sixteen = "PUSH 1, ".repeat(16) + "POP, STOP";
    let opening = format!("{}\nturns {} 16", open(&[&sixteen]), "01".repeat(16));
    answer(
        &opening,
        "alter height 1 16 / settled 256 / alter height 1 17 / settled 256 / turn 1 / \
         alter height 1 16 / turn 1",
        &format!(
            "turns 0 {} - 0 / alter / settled 0 0 - / alter / settled 20 0 - / turn none20 - 0 / \
             alter / turn step - 0",
            "02".repeat(16)
        ),
    );
}

#[test]
fn places_codes_and_operands() {
    fits("place 2 8");
    does_not_fit("place 2 9");
    does_not_fit("place 2 255");
    fits("code 2 8 1");
    does_not_fit("code 2 8 14");
    does_not_fit("code 2 8 255");
    fits("operand 2 0 8 / code 2 0 13");
    fits("operand 2 0 18446744073709551615");
    fits("operand 2 8 0");
    does_not_fit("operand 2 8 1");
    does_not_fit("operand 2 8 255");
    for (code, least, most) in [(4, 1, 15), (5, 1, 15), (12, 1, 8), (13, 1, 8)] {
        for inside in [least, most] {
            fits(&format!("operand 2 0 {inside} / code 2 0 {code}"));
        }
        for outside in [least - 1, most + 1] {
            does_not_fit(&format!("operand 2 0 {outside} / code 2 0 {code}"));
        }
    }
    does_not_fit("code 2 0 0");
    fits("operand 2 0 0 / code 2 0 0");
}

#[test]
fn cells_marks_and_versions() {
    fits("entry 2 0 255 1");
    does_not_fit("entry 2 0 256 1");
    does_not_fit("entry 2 1 65535 1");
    fits("read 2 0 255 0 1");
    does_not_fit("read 2 0 256 0 1");
    fits("read 2 0 4 255 1");
    fits("mark 2 1");
    does_not_fit("mark 2 2");
    does_not_fit("mark 2 254");
    fits("mark 2 2 / mark 2 255");
    does_not_fit("mark 2 1 / reads 2 1");
    fits("version 2 1 1");
    does_not_fit("version 2 1 2");
    does_not_fit("version 2 0 255");
    fits("version 2 0 255 / version 2 1 0");
    fits("writes 2 0 / version 2 0 9 / checkpoint 2 1 5 1 0 1 / writes 2 9 / reads 2 0 / count 1");
}

#[test]
fn only_the_earliest_mark_counts() {
    // Job 1 publishes cells 4 and 5, and marks both reads of job 2; the later one is cut off.
    let both = "PUSH 7, PUSH 4, WRITE, PUSH 7, PUSH 5, WRITE, STOP";
    let opening = format!("{}\nturns {} 9", open(&[both, COPIER]), "02".repeat(9));
    answer(
        &opening,
        "turns 01010101010101 7 / alter reads 2 1 / settled 256 / turn 2 / turn 2",
        "turns 0 020202020202020203 - 0 / turns 0 02020202020203 - 0 / alter / settled 0 0 - / \
         turn back - 0 / turn step - 0",
    );
    // A lone mark at the read that is cut off names nothing.
    let opening = two_jobs() + "\nturns 01010101 4";
    answer(
        &opening,
        "alter reads 2 1 / settled 256 / turn 2 / alter reads 2 0 / turn 2 / alter mark 2 255 / turn 2",
        "turns 0 020202020202020203 - 0 / turns 0 02020203 - 0 / alter / settled 20 0 - / \
         turn none20 - 0 / alter / turn none20 - 0 / alter / turn wait - 0",
    );
}

#[test]
fn checkpoints_are_the_job_as_it_was_before_its_read() {
    fits("checkpoint 2 1 8 1 1 1");
    does_not_fit("checkpoint 2 1 9 1 1 1");
    fits("checkpoint 2 1 5 0 1 1");
    does_not_fit("checkpoint 2 1 5 17 1 1");
    fits("checkpoint 2 1 5 255 1 1 / checkpoint 2 1 5 1 1 1");
    fits("checkpoint 2 0 1 1 1 0");
    does_not_fit("checkpoint 2 0 1 1 2 0");
    fits("checkpoint 2 1 5 1 2 1");
    does_not_fit("checkpoint 2 1 5 1 3 1");
    fits("checkpoint 2 1 5 1 0 1");
    does_not_fit("checkpoint 2 0 1 1 1 0 / checkpoint 2 1 5 1 0 1");
    fits("checkpoint 2 1 5 1 1 0");
    does_not_fit("checkpoint 2 1 5 1 1 2");
    does_not_fit("checkpoint 2 0 1 1 0 1");
    does_not_fit("checkpoint 2 0 1 1 0 255");
}

#[test]
fn every_status_fits_and_2_to_255_are_final() {
    after("status 2 0", "settled 0 0 -", "turn step - 0");
    for status in [2, 3, 255] {
        // f is 1, and ticket 1, which is not final, has no versions.
        let alteration = format!("status 2 {status}");
        after(&alteration, "settled 0 1 -", "turn step - 1");
    }
}

#[test]
fn finals_are_counted_wherever_they_stand() {
    answer(
        &two_jobs(),
        "alter entry 2 1 6 9 / alter status 2 2 / turn 2 / turn 0 / turns 01 0 / alter count 17 / \
         turn 1 / turn 18 / turns 0212 2 / settled 256 / alter count 2 / alter status 1 1 / turn 1 / \
         settled 256",
        "turns 0 020202020202020203 - 0 / alter / alter / turn idle - 1 / turn none14 - 1 / \
         turns 15 - - 1 / alter / turn none20 - 1 / turn none14 - 1 / turns 0 0606 - 1 / \
         settled 20 0 - / alter / alter / turn final - 2 / settled 0 2 6=9",
    );
}

#[test]
fn going_back_keeps_as_many_reads_as_the_checkpoint_names() {
    // Of the two reads none is kept: the first mark that can be set is past the list.
    answer(
        &two_jobs(),
        "alter checkpoint 2 1 5 1 1 0 / alter mark 2 1 / turn 2 / alter mark 2 0 / turn 2 / \
         alter mark 2 255 / turn 2 / alter mark 2 0 / turn 2 / alter mark 2 255",
        "turns 0 020202020202020203 - 0 / alter / alter / turn back - 0 / alter / turn none20 - 0 / \
         alter / turn step - 0 / alter / turn back - 0 / alter",
    );
}

#[test]
fn a_turn_that_needs_what_is_not_there() {
    let reads: String = (1..9)
        .map(|cell| format!("PUSH {cell}, READ, POP, "))
        .collect();
    let job = reads + "PUSH 9, POP, STOP";
    let opening = format!("{}\nturns {} 25", open(&[&job]), "01".repeat(25));
    let steps = format!("turns 0 {} - 0", "02".repeat(25));
    // POP becomes READ: the ninth cell finds no room, the first is listed already.
    answer(
        &opening,
        "alter code 1 25 10 / turn 1 / settled 256 / alter operand 1 24 1 / alter place 1 24 / \
         alter height 1 0 / turn 1 / turn 1",
        &format!(
            "{steps} / alter / turn none20 - 0 / settled 0 0 - / alter / alter / alter / \
             turn step - 0 / turn step - 0"
        ),
    );
    // The last place has no next one.
    answer(
        &open(&[WRITER]),
        "turn 1 / alter size 1 2 / turn 1 / settled 256",
        "turn step - 0 / alter / turn none20 - 0 / settled 0 0 -",
    );
    // WRITE finds one entry.
    answer(
        &open(&[WRITER]),
        "turns 0101 2 / alter height 1 1 / turn 1 / turn 2",
        "turns 0 0202 - 0 / alter / turn none20 - 0 / turn none14 - 0",
    );
}

#[test]
fn an_ended_job_set_running_ends_again_with_its_altered_journal() {
    let opening = format!("{}\nturns 01010101 4", open(&[WRITER, READER]));
    // The version shows the altered entry, and STOP publishes the same entry: nobody is marked.
    answer(
        &opening,
        "turns 0202 2 / alter entry 1 0 6 8 / alter status 1 0 / turn 1 / turn 2 / turn 1 / \
         settled 256",
        "turns 0 02020203 - 0 / turns 0 0202 - 0 / alter / alter / turn end - 0 / turn step - 0 / \
         turn final - 1 / settled 0 1 6=8",
    );
    // Withdrawn by ABANDON, its reader is marked.
    answer(
        &opening,
        "turns 0202 2 / alter code 1 3 1 / alter status 1 0 / turn 1 / turn 2 / turn 2",
        "turns 0 02020203 - 0 / turns 0 0202 - 0 / alter / alter / turn end - 0 / turn back - 0 / \
         turn step - 0",
    );
    // A read whose source is altered to a higher ticket is not marked by the withdrawal.
    answer(
        &opening,
        "turns 0202 2 / alter code 1 3 1 / alter status 1 0 / alter read 2 0 5 2 7 / turn 1 / turn 2",
        "turns 0 02020203 - 0 / turns 0 0202 - 0 / alter / alter / alter / turn end - 0 / \
         turn step - 0",
    );
}

#[test]
fn versions_are_counted_in_the_order_of_their_entries() {
    // Entries for cells 5, 6 and 7; version 1 of 3 is that of cell 6, and then names cell 8's.
    let job = "PUSH 1, PUSH 5, WRITE, PUSH 2, PUSH 6, WRITE, PUSH 3, PUSH 7, WRITE, \
               PUSH 4, PUSH 8, WRITE, ABANDON";
    let opening = format!("{}\nturns {} 12", open(&[job]), "01".repeat(12));
    answer(
        &opening,
        "alter code 1 12 0 / alter writes 1 3 / turn 1 / turn 1 / settled 256 / \
         alter version 1 1 200 / settled 256 / alter version 1 2 1 / settled 256",
        &format!(
            "turns 0 {} - 0 / alter / alter / turn end - 0 / turn final - 1 / \
             settled 0 1 5=1,6=2,7=3 / alter / settled 20 0 - / alter / settled 0 1 5=1,6=2,7=3",
            "02".repeat(12)
        ),
    );
}

#[test]
fn alterations_that_the_block_does_not_have() {
    let told = "alter count 3 / alter count 16 / alter size 2 10 / alter size 2 64 / \
                alter size 0 1 / alter size 3 1 / alter code 2 9 0 / alter operand 2 9 0 / \
                alter operand 2 8 256 / alter height 2 1 / alter height 2 16 / alter writes 2 3 / \
                alter writes 2 8 / alter reads 2 3 / alter reads 2 8 / alter entry 2 2 1 1 / \
                alter entry 2 0 65536 1 / alter entry 1 0 1 1 / alter read 2 2 1 1 1 / \
                alter read 2 0 1 256 1 / alter version 2 2 0 / alter version 1 0 0 / \
                alter checkpoint 2 2 1 1 0 0 / alter checkpoint 2 1 5 2 1 1 / \
                alter checkpoint 2 1 5 16 1 1 / alter status 2 256 / alter mark 2 256 / \
                alter place 3 0";
    are_no_calls(&[&two_jobs()], told);
    // Two versions of cell 6, and two reads of cell 5 with two values.
    let two = "alter entry 2 0 6 1 / alter version 2 0 1 / alter read 2 0 5 0 9";
    are_no_calls(&[&two_jobs()], two);
    fits("read 2 0 5 0 0");
}

#[test]
fn what_stands_past_a_count_never_shows() {
    let refused = [
        ("writes 2 1", "writes 2 2"),
        ("reads 2 1", "reads 2 2"),
        ("reads 2 1", "checkpoint 2 1 5 1 1 1"),
        ("size 2 8", "size 2 9"),
        ("count 1", "count 2"),
        ("count 1", "count 17"),
        ("count 17", "count 3"),
        ("count 17", "place 3 0"),
        ("writes 2 9", "writes 2 3"),
        ("writes 2 9", "entry 2 2 1 1"),
        ("writes 2 1\nalter writes 2 9", "writes 2 2"),
        ("operand 2 0 256", "code 2 0 3"),
    ];
    for (first, then) in refused {
        let first = format!("alter {first}");
        is_no_call(&[&two_jobs(), &first], &format!("alter {then}"));
    }
    fits("operand 2 0 256 / operand 2 0 0 / code 2 0 0");
    fits("operand 2 0 256 / code 2 0 2");
}

#[test]
fn every_example_has_the_answers_it_must() {
    let folder = Path::new(env!("CARGO_MANIFEST_DIR")).join("../examples/calls");
    let mut seen = 0;
    for entry in fs::read_dir(folder).expect("the examples") {
        let path = entry.expect("an entry").path();
        if path
            .extension()
            .is_some_and(|extension| extension == "calls")
        {
            let script = fs::read(&path).expect("a script");
            let expected = fs::read_to_string(path.with_extension("expected"));
            let (answers, complaint) = play_script(&script);
            assert_eq!(
                answers,
                expected.expect("its answers"),
                "{}",
                path.display()
            );
            let is_bad = path.display().to_string().contains("/bad-");
            assert_eq!(complaint.is_some(), is_bad, "{complaint:?}");
            seen += 1;
        }
    }
    assert!(seen >= 5, "only {seen} examples");
}
