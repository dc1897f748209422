//! docs/MANUAL.md, row by row and session by session: it says what this program does.

use super::{bytes, paper, played};
use crate::checker::verdict;
use crate::counts::{Place, Table, Ticket};
use crate::engine::{Answer, Block};
use crate::field::{split_field, CELL_TAG, HEAD_BYTES, JOB_TAG, TURNS_TAG};
use crate::instruction::{
    job_from, Code, Instruction, CODES, INSTRUCTION_BYTES, MOST_ENTRIES, MOST_INSTRUCTIONS,
    MOST_JOBS, MOST_READS, MOST_WRITES,
};
use crate::papers::verdict_line;
use crate::session::{split_session, CELL_BYTES, MOST_BYTES, MOST_TURNS};
use crate::work::JobInWork;
use std::collections::BTreeSet;
use std::fs;
use std::path::Path;

/// As many papers and sessions stand in the manual: one that is left out is missed.
const PAPERS: usize = 37;
const SESSIONS: usize = 8;
/// And so many of the sessions are told turn by turn.
const TOLD_BY_TURNS: usize = 2;

/// The cells of a table, and the bits of each.
const CELLS: usize = size_of::<Table>() / size_of::<u64>();
const BITS: usize = u64::BITS as usize;
/// The bytes of a job that is as large as may be.
const LONGEST_JOB: usize = MOST_INSTRUCTIONS * INSTRUCTION_BYTES;

/// The cells of one line of a table.
type Row = Vec<String>;

/// What the manual holds besides its prose.
enum Piece {
    Table(Row, Vec<Row>),
    Fence(String, String),
}

/// The tables and the fenced texts of the manual, in order.
fn pieces() -> Vec<Piece> {
    let path = Path::new(env!("CARGO_MANIFEST_DIR")).join("../docs/MANUAL.md");
    let text = fs::read_to_string(path).expect("docs/MANUAL.md");
    let mut found = Vec::new();
    let mut lines = text.lines();
    while let Some(line) = lines.next() {
        if let Some(kind) = line.strip_prefix("```") {
            let inside = lines.by_ref().take_while(|line| *line != "```");
            let text = inside.map(|line| format!("{line}\n")).collect();
            found.push(Piece::Fence(kind.to_string(), text));
        } else if let Some(head) = row(line) {
            // One line parts the head from the rows.
            let rows = lines.by_ref().skip(1).map_while(row).collect();
            found.push(Piece::Table(head, rows));
        }
    }
    found
}

/// The cells of a line, if it is one of a table.
fn row(line: &str) -> Option<Row> {
    let inside = line.strip_prefix('|')?.strip_suffix('|')?;
    Some(inside.split('|').map(|cell| cell.trim().into()).collect())
}

/// The rows of the one table whose head begins with these two cells.
fn table(first: &str, second: &str) -> Vec<Row> {
    let is_it = |head: &Row| head.starts_with(&[first.to_string(), second.to_string()]);
    let mut found = pieces().into_iter().filter_map(|piece| match piece {
        Piece::Table(head, rows) if is_it(&head) => Some(rows),
        _ => None,
    });
    let rows = found.next().unwrap_or_else(|| panic!("no table {first}"));
    assert!(found.next().is_none(), "two tables {first}");
    rows
}

/// What stands between the first two backticks, and what follows them.
fn quoted(cell: &str) -> (&str, &str) {
    let inside = cell.strip_prefix('`');
    let parts = inside.and_then(|inside| inside.split_once('`'));
    parts.unwrap_or_else(|| panic!("no backticks in {cell}"))
}

#[test]
fn sizes() {
    let sizes = [
        ("cells of a table, numbered from 0", CELLS),
        ("bits of a value, of a stack entry and of an operand", BITS),
        ("jobs of a block, at most", MOST_JOBS),
        ("instructions of a job, at most", MOST_INSTRUCTIONS),
        ("entries of a stack, at most", MOST_ENTRIES),
        ("READ instructions of a job, at most", MOST_READS),
        ("WRITE instructions of a job, at most", MOST_WRITES),
        ("bytes of an instruction", INSTRUCTION_BYTES),
        ("bytes of a field's head", HEAD_BYTES),
        ("bytes of a job's instructions, at most", LONGEST_JOB),
        ("bytes of a start value", CELL_BYTES),
        ("turns of a session, at most", MOST_TURNS),
        ("bytes of a session, at most", MOST_BYTES),
    ];
    let expected = sizes.map(|(size, number)| vec![size.to_string(), number.to_string()]);
    assert_eq!(table("Size", "Number"), expected);
}

#[test]
fn tags() {
    let one = INSTRUCTION_BYTES;
    let fields = [
        (CELL_TAG, "a start value", format!("{CELL_BYTES}")),
        (
            TURNS_TAG,
            "the tickets of a session",
            format!("0 to {MOST_TURNS}"),
        ),
        (
            JOB_TAG,
            "a job",
            format!("{one} to {LONGEST_JOB}, a multiple of {one}"),
        ),
    ];
    let expected = fields.map(|(tag, holds, length)| {
        let tag = format!("{tag:#04x}");
        vec![tag, holds.to_string(), length]
    });
    assert_eq!(table("Tag", "Holds"), expected);
}

#[test]
fn instructions() {
    let rows = table("Code", "Name");
    assert_eq!(rows.len(), CODES.len());
    for (row, (code, name)) in rows.iter().zip(CODES) {
        let [number, named, operand, needs, height, leads, _, examples] = &row[..] else {
            panic!("another number of columns: {row:?}");
        };
        assert_eq!((number, &named[..]), (&(code as u8).to_string(), name));
        for tried in (0..=16).chain([1 << 32, u64::MAX]) {
            let fits = Instruction::new(code, tried).operand_fits(Place(3), 10);
            assert_eq!(fits, column_admits(operand, tried, 3, 10), "{name} {tried}");
        }
        for k in 1..=15 {
            let instruction = Instruction::new(code, k);
            let needed = instruction.needs().to_string();
            assert_eq!(needed, entries_needed(needs, k), "{name} {k}");
            assert_height(instruction, height);
            let expected = led_to(leads, Place(0), Place(k as usize));
            assert_eq!(instruction.leads_to(Place(0)), expected, "{name} {k}");
        }
        assert_examples(code, examples);
    }
}

/// Whether a column of the manual admits an operand at this place of a job so long.
fn column_admits(column: &str, operand: u64, place: u64, length: u64) -> bool {
    match column {
        "0" => operand == 0,
        "any" => true,
        "1 to 15" => (1..=15).contains(&operand),
        "a later place" => (place + 1..length).contains(&operand),
        _ => panic!("`{column}` is no column of operands"),
    }
}

/// The entries needed that a column tells, for the operand k.
fn entries_needed(column: &str, k: u64) -> String {
    match column {
        "k" => k.to_string(),
        "k + 1" => (k + 1).to_string(),
        _ => column.to_string(),
    }
}

/// The change in height is the column's, from every height that has the entries needed.
fn assert_height(instruction: Instruction, column: &str) {
    for before in instruction.needs()..=MOST_ENTRIES as u64 {
        let change = match instruction.leaves(before) as i64 - before as i64 {
            0 => "0".to_string(),
            change => format!("{change:+}"),
        };
        assert_eq!(change, column, "{instruction:?} at height {before}");
    }
}

/// The places that a column tells.
fn led_to(column: &str, place: Place, operand: Place) -> Vec<Place> {
    let told = |word| match word {
        "next" => place.next(),
        "operand" => operand,
        _ => panic!("`{word}` is no place"),
    };
    match column {
        "nowhere" => Vec::new(),
        _ => column.split(", ").map(told).collect(),
    }
}

/// Every example of an instruction comes out, and together they go wherever it leads.
fn assert_examples(code: Code, cell: &str) {
    let (text, examples) = quoted(cell);
    let [instruction] = job_from(&bytes(&format!("job\n{text}"))[HEAD_BYTES..])[..] else {
        panic!("`{text}` is not one instruction");
    };
    assert!(instruction.is(code), "{cell}");
    let ways: BTreeSet<Place> = examples
        .trim()
        .split("; ")
        .map(|example| assert_example(instruction, example))
        .collect();
    let leads = BTreeSet::from_iter(instruction.leads_to(Place(0)));
    let stays = BTreeSet::from([Place(0)]);
    assert_eq!(ways, if leads.is_empty() { stays } else { leads }, "{cell}");
}

/// Tries `BEFORE → AFTER, REMARK` at place 0 of a job, and tells the place after it.
fn assert_example(instruction: Instruction, example: &str) -> Place {
    let (before, after) = example.split_once(" → ").expect("an arrow");
    let (after, remark) = after.split_once(", ").unwrap_or((after, ""));
    let mut code = vec![Instruction::new(Code::Stop, 0); MOST_INSTRUCTIONS];
    code[0] = instruction;
    let mut block = Block::open(start_told(remark), vec![code], None);
    let stack = before.split(' ').rev();
    block.jobs[0].state.stack = stack
        .map(|entry| entry.parse().expect("an entry"))
        .collect();
    assert_ne!(block.turn(Ticket(1)), Answer::Stuck, "{example}");
    let job = block.job(Ticket(1));
    assert_eq!(stack_text(job, "empty"), after, "{example}");
    assert_eq!(remark_on(job), remark, "{example}");
    job.state.place
}

/// The start table in which a cell holds what a remark tells, all others 0.
fn start_told(remark: &str) -> Table {
    let mut start = [0; 256];
    if let ["cell", cell, "holds", value] = remark.split(' ').collect::<Vec<_>>()[..] {
        let cell: usize = cell.parse().expect("a cell");
        start[cell] = value.parse().expect("a value");
    }
    start
}

/// What an example has to say besides the stack of its job, which was at place 0.
fn remark_on(job: &JobInWork) -> String {
    let place = match job.state.place {
        Place(0) => Some("stays".to_string()),
        Place(1) => None,
        Place(place) => Some(format!("to place {place}")),
    };
    let reads = job.reads.iter();
    let reads = reads.map(|read| format!("cell {} holds {}", read.cell.0, read.value));
    let writes = job.journal.iter();
    let writes = writes.map(|write| format!("cell {} gets {}", write.cell.0, write.value));
    let remarks: Vec<String> = place.into_iter().chain(reads).chain(writes).collect();
    remarks.join(", ")
}

/// The entries of a job's stack, top first.
fn stack_text(job: &JobInWork, empty: &str) -> String {
    let entries: Vec<String> = job.state.stack.iter().rev().map(u64::to_string).collect();
    parted(&entries, " ", empty)
}

/// Words parted by something, or the word for none.
fn parted(words: &[String], by: &str, none: &str) -> String {
    match words {
        [] => none.to_string(),
        _ => words.join(by),
    }
}

/// The papers of the manual: bytes and answer.
fn papers() -> Vec<(Vec<u8>, String)> {
    let told = |row: Row| (paper_told(&row[0]), quoted(&row[1]).0.to_string());
    table("Paper", "Answer").into_iter().map(told).collect()
}

/// The bytes of a paper: jobs in brackets, then hex.
fn paper_told(cell: &str) -> Vec<u8> {
    if cell == "no bytes" {
        return Vec::new();
    }
    let mut found = Vec::new();
    let mut rest = quoted(cell).0;
    while let Some((before, after)) = rest.split_once('[') {
        let (job, after) = after.split_once(']').expect("a closing bracket");
        let (times, nothing) = repeated(before);
        assert!(nothing.is_empty(), "hex stands after the jobs: {cell}");
        let instructions: Vec<&str> = job.split(", ").flat_map(each).collect();
        found.extend(paper(&vec![&instructions.join(", ")[..]; times]));
        rest = after.trim_start();
    }
    found.extend(bytes(&format!("bytes {rest}")));
    found
}

/// How often, and what: `9 × READ`, or `READ` once.
fn repeated(text: &str) -> (usize, &str) {
    let (times, what) = text.split_once(" × ").unwrap_or(("1", text));
    (times.parse().expect("a count"), what)
}

/// One after another what `9 × READ` tells.
fn each(text: &str) -> impl Iterator<Item = &str> {
    let (times, what) = repeated(text);
    std::iter::repeat_n(what, times)
}

#[test]
fn papers_get_their_answers() {
    let papers = papers();
    assert_eq!(papers.len(), PAPERS);
    for (paper, answer) in papers {
        assert_eq!(verdict_line(&paper).trim_end(), answer);
    }
}

#[test]
fn refusals() {
    let rows = table("No.", "Meaning");
    let numbers: Vec<u8> = (1..=15).chain([20]).collect();
    assert_eq!(rows.len(), numbers.len());
    for (row, number) in rows.iter().zip(numbers) {
        assert_eq!(row[0], number.to_string());
        let expected = match number {
            1..=11 => ("its number", place_shown(number)),
            _ => ("0", "0"),
        };
        assert_eq!((&row[2][..], &row[3][..]), expected, "refusal {number}");
        // What is tested when, and what it leaves, is said of each.
        assert!(row.len() == 6 && row.iter().all(|cell| !cell.is_empty()));
    }
}

/// Which place a refusal carries, as the manual's papers show it.
fn place_shown(number: u8) -> &'static str {
    let shown: Vec<(Place, usize)> = papers()
        .iter()
        .filter_map(|(paper, _)| verdict(paper).err().map(|refusal| (paper, refusal)))
        .filter(|(_, refusal)| refusal.number == number)
        .map(|(paper, refusal)| (refusal.place, instructions_in(paper, refusal.field)))
        .collect();
    assert!(!shown.is_empty(), "no paper gets {number}");
    if shown.iter().all(|(place, _)| *place == Place(0)) {
        return "0";
    }
    match shown.iter().all(|(place, size)| place.next().0 == *size) {
        true => "the last",
        false => "at fault",
    }
}

/// The number of instructions in a field of a paper, counted from 1; 0 for a field that is cut.
fn instructions_in(paper: &[u8], field: usize) -> usize {
    match (split_field(paper), field) {
        (Some((first, _)), 1) => job_from(first.contents).len(),
        (Some((_, after)), _) => instructions_in(after, field - 1),
        (None, _) => 0,
    }
}

#[test]
fn words_of_the_rules() {
    use Answer::{Back, End, Final, Idle, Step, Wait};
    let rows = table("Byte", "Word");
    let told: Vec<(&str, &str)> = rows.iter().map(|row| (&row[0][..], &row[1][..])).collect();
    let words = [Idle, Back, Step, End, Final, Wait].map(Answer::word);
    let bytes: Vec<String> = (0..words.len()).map(|byte| byte.to_string()).collect();
    let expected: Vec<(&str, &str)> = bytes.iter().map(|byte| &byte[..]).zip(words).collect();
    assert_eq!(told, expected);
}

#[test]
fn sessions_print_their_lines() {
    let fences: Vec<(String, String)> = pieces()
        .into_iter()
        .filter_map(|piece| match piece {
            Piece::Fence(kind, text) => Some((kind, text)),
            Piece::Table(..) => None,
        })
        .collect();
    assert_eq!(fences.len(), 2 * SESSIONS);
    for pair in fences.chunks(2) {
        let kinds = (&pair[0].0[..], &pair[1].0[..]);
        assert_eq!(kinds, ("session", "lines"), "{}", pair[0].1);
        assert_eq!(played(&pair[0].1), pair[1].1, "{}", pair[0].1);
    }
}

#[test]
fn sessions_told_turn_by_turn() {
    let mut session = String::new();
    let mut seen = 0;
    for piece in pieces() {
        match piece {
            Piece::Fence(kind, text) if kind == "session" => session = text,
            Piece::Table(head, rows) if head[0] == "Turn" => {
                let told: Vec<&[String]> = rows.iter().map(|row| &row[..7]).collect();
                assert_eq!(told, turns_of(&session));
                seen += 1;
            }
            _ => {}
        }
    }
    assert_eq!(seen, TOLD_BY_TURNS);
}

/// A row for each turn of a session.
fn turns_of(text: &str) -> Vec<Row> {
    let input = bytes(text);
    let session = split_session(&input).expect("a session");
    let jobs = verdict(session.paper).expect("a sound paper");
    let mut block = Block::open(session.start, jobs, None);
    let turn = |ticket: &u8| {
        let ticket = Ticket(usize::from(*ticket));
        let word = block.turn(ticket).word();
        turn_row(&block, ticket, word)
    };
    session.turns.iter().map(turn).collect()
}

/// The turn's line, the parts of the job that had it, and the marked tickets.
fn turn_row(block: &Block, ticket: Ticket, word: &str) -> Row {
    let line = format!("`{} {word} {}`", ticket.0, block.final_jobs());
    let job = ticket.0.checked_sub(1).and_then(|at| block.jobs.get(at));
    let marked = |(at, job): (usize, &JobInWork)| job.is_marked().then(|| (at + 1).to_string());
    let marked: Vec<String> = block.jobs.iter().enumerate().filter_map(marked).collect();
    let mut row = vec![line];
    row.extend(job.map_or(["-"; 5].map(String::from), parts_of));
    row.push(parted(&marked, ", ", "-"));
    row
}

/// Place, stack, journal, list of reads and public versions of a job.
fn parts_of(job: &JobInWork) -> [String; 5] {
    let list = |words: Vec<String>| parted(&words, ", ", "-");
    let journal = job.journal.iter();
    let journal = journal.map(|write| format!("{}:{}", write.cell.0, write.value));
    let reads = job.reads.iter();
    let reads = reads.map(|read| format!("{}:{} from {}", read.cell.0, read.value, read.source.0));
    assert_eq!(
        job.shown().count(),
        job.public.len(),
        "a version of a lost entry"
    );
    let public = job.shown();
    let public = public.map(|(_, write)| format!("{}:{}", write.cell.0, write.value));
    [
        job.state.place.0.to_string(),
        stack_text(job, "-"),
        list(journal.collect()),
        list(reads.collect()),
        list(public.collect()),
    ]
}
