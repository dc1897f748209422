//! The support desk's sub-commands: they tell of a session that another program has played.

use crate::arguments::Arguments;
use crate::compare::read_file;
use crate::draw::picture;
use crate::explain::input::Handed;
use crate::explain::story::Story;
use crate::explain::{explanation, tell, Telling};
use crate::{complain, input, print, Outcome, NOT_DONE};
use std::ffi::OsString;
use std::process::ExitCode;

/// The status of a session that is refused.
const REFUSED: u8 = 1;
/// The status where the other program printed something else.
const DIFFERS: u8 = 3;

/// The bytes of a session in either form.
pub fn bytes(words: &[OsString]) -> Outcome {
    Arguments::parse(words, &[])?;
    print(&Handed::from(input()?)?.bytes)?;
    Ok(true)
}

/// Says in words what happened, or why the session was refused.
pub fn explain(words: &[OsString]) -> ExitCode {
    finish(telling(words, explanation), |text| told(text, REFUSED))
}

/// Draws what happened. There is no picture of a refused session.
pub fn draw(words: &[OsString]) -> ExitCode {
    finish(telling(words, picture), |text| complain(text, REFUSED))
}

/// Tells of the session on standard input by what the other program printed for it.
fn telling(words: &[OsString], teller: fn(&Story) -> String) -> Result<Telling, String> {
    let arguments = Arguments::parse(words, &["--played"])?;
    let path = arguments.path("--played").ok_or("`--played` is missing")?;
    let played = read_file(&path)?;
    Ok(tell(&Handed::from(input()?)?, &played, teller))
}

/// Prints what was told, or says why nothing is.
fn finish(telling: Result<Telling, String>, tell_refusal: fn(&str) -> ExitCode) -> ExitCode {
    match telling {
        Ok(Telling::Told(text)) => told(&text, 0),
        Ok(Telling::Refused(text)) => tell_refusal(&text),
        Ok(Telling::Differs(line)) => {
            let why = format!(
                "the two programs differ, so that nothing is told: {line}\n\
                 (expected is the proved program's line, found the second program's; \
                 one of them is wrong: keep the session and tell the maintainers)"
            );
            complain(&why, DIFFERS)
        }
        Err(why) => complain(&why, NOT_DONE),
    }
}

/// Prints a text.
fn told(text: &str, status: u8) -> ExitCode {
    match print(text.as_bytes()) {
        Ok(()) => ExitCode::from(status),
        Err(why) => complain(&why, NOT_DONE),
    }
}
