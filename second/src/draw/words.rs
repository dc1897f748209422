//! How a turn looks: a letter and a colour for each word, and a stroke for what was lost.

use super::svg::{Area, Pixels, Svg};
use crate::engine::Answer;

/// The width and the height of a turn's box.
pub const BOX: Pixels = 20;

/// How a word looks, and what the legend says of it.
pub struct Look {
    letter: &'static str,
    colour: &'static str,
    pub meaning: &'static str,
}

const fn look(letter: &'static str, colour: &'static str, meaning: &'static str) -> Look {
    Look {
        letter,
        colour,
        meaning,
    }
}

impl Look {
    /// The look of an answer's word. Colours are light, so that dark letters stand out.
    pub fn of(answer: Answer) -> Look {
        match answer {
            Answer::Idle => look("I", "#e4e4e4", "idle: final already"),
            Answer::Back => look("B", "#f6bfae", "back to a marked read"),
            Answer::Step => look("S", "#d3e5f6", "step: one instruction"),
            Answer::End => look("E", "#bfe3b4", "end: STOP or ABANDON"),
            Answer::Final => look("F", "#8fd0c0", "final"),
            Answer::Wait => look("W", "#fbe7a1", "wait: lower not final"),
            Answer::NoSuchTicket | Answer::Stuck => look("N", "#e3d2ee", "none: no such ticket"),
        }
    }

    /// Draws the box of a turn, with a stroke through it if the job lost what the turn did.
    pub fn draw(&self, svg: &mut Svg, area: Area, lost: bool) {
        let style = format!("rx=\"3\" fill=\"{}\" stroke=\"#555555\"", self.colour);
        svg.rect(area, &style);
        if lost {
            stroke(svg, area);
        }
        let mut middle = area.below(BOX / 2);
        middle.y -= 5;
        let style = "text-anchor=\"middle\" font-weight=\"bold\"";
        svg.text(middle, style, self.letter);
    }
}

/// The stroke through a box whose turn was lost.
fn stroke(svg: &mut Svg, area: Area) {
    svg.line(area.below(0), area.above(BOX), "stroke=\"#8a8a8a\"");
}
