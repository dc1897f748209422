//! Calls as text: one call a line, one line of answer a call.

pub mod alter;
pub mod alteration;
pub mod call;
pub mod lengths;
pub mod player;
pub mod text;

use crate::words::{text_of, Complaint};
use call::Call;
use player::Player;

/// The answers to a script, a line each, and the complaint about the first line that is no call.
pub fn play_script(script: &[u8]) -> (String, Option<Complaint>) {
    let mut player = Player::new();
    let mut answers = String::new();
    for (index, line) in script.split(|byte| *byte == b'\n').enumerate() {
        if line.is_empty() || line.starts_with(b"#") {
            continue;
        }
        match play_line(&mut player, line, index + 1) {
            Ok(answer) => answers += &format!("{answer}\n"),
            Err(complaint) => return (answers, Some(complaint)),
        }
    }
    (answers, None)
}

/// The answer to one line.
fn play_line(player: &mut Player, line: &[u8], number: usize) -> Result<String, Complaint> {
    let text = text_of(line).map_err(|complaint| Complaint {
        line: number,
        ..complaint
    })?;
    let call = Call::parse(text, number)?;
    player.play(&call).map_err(|what| Complaint {
        line: number,
        column: 1,
        what,
    })
}
