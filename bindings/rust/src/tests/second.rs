//! Random sessions, played here and by the second program, if SECOND names its binary.

use super::serial::finish_and_compare;
use super::session::{turn_by_turn, Session};
use crate::Block;
use std::ffi::OsStr;
use std::fs;
use std::io::{self, Write};
use std::process::{Command, Stdio};

/// What is printed for a session that does not come to a call.
const MALFORMED: &str = "refused 13 0 0\n";

/// What the second program prints for a session.
fn played_by(second: &OsStr, session: &[u8]) -> io::Result<String> {
    let mut command = Command::new(second);
    command
        .arg("play")
        .stdin(Stdio::piped())
        .stdout(Stdio::piped());
    let mut child = command.spawn()?;
    // The pipe is closed once it is written, which ends the session.
    if let Some(mut input) = child.stdin.take() {
        input.write_all(session)?;
    }
    let output = child.wait_with_output()?;
    String::from_utf8(output.stdout).map_err(io::Error::other)
}

/// Sessions that the second program generates.
fn sessions_of(second: &OsStr) -> io::Result<Vec<Vec<u8>>> {
    let folder = std::env::temp_dir().join(format!("garvolish-{}", std::process::id()));
    let mut command = Command::new(second);
    command.args(["generate", "--seed", "7", "--count", "400", "--out"]);
    let status = command.arg(&folder).status()?;
    assert!(status.success(), "{status}");
    let files = fs::read_dir(&folder)?;
    let sessions = files.map(|file| fs::read(file?.path())).collect();
    fs::remove_dir_all(folder)?;
    sessions
}

/// Compares one session, and gives the number of its turns.
fn compare(session: &Session<'_>, expected: &str) -> usize {
    assert_eq!(session.played(turn_by_turn), expected);
    assert_eq!(session.played(Block::give_turns), expected);
    let Ok(mut block) = session.open() else {
        return 0;
    };
    // Its words were compared above.
    let _ = block.give_turns(session.tickets);
    finish_and_compare(&mut block, &session.start, session.paper);
    session.tickets.len()
}

#[test]
fn plays_the_same() -> io::Result<()> {
    let Some(second) = std::env::var_os("SECOND") else {
        // Written past the test's own output, which is not shown of a test that passes.
        return writeln!(io::stderr(), "not compared: SECOND names no second program");
    };
    let (mut sessions, mut turns) = (0, 0);
    for bytes in sessions_of(&second)? {
        let expected = played_by(&second, &bytes)?;
        if expected != MALFORMED {
            turns += compare(&Session::split(&bytes), &expected);
            sessions += 1;
        }
    }
    assert!(turns > 5_000, "only {turns} turns");
    writeln!(io::stderr(), "compared: {sessions} sessions, {turns} turns")
}
