//! The legend: what the letters, the lines and the small words stand for.

use super::lines::{draw_mark, draw_read};
use super::svg::{Area, Pixels, Point, Svg};
use super::words::{Look, BOX};
use crate::engine::Answer;

/// The least width of a picture, in which the legend finds room.
pub const LEGEND_WIDTH: Pixels = 796;
/// The height of the legend.
pub const LEGEND_HEIGHT: Pixels = 3 * LINE;

const LINE: Pixels = 28;
/// The words stand in four columns, the lines in three.
const WORD_COLUMN: Pixels = 192;
const LINE_COLUMN: Pixels = 256;

/// What a stroke through a box means.
const LOST: &str = "lost by going back";

/// The answers in the order of the rules.
const ANSWERS: [Answer; 7] = [
    Answer::Idle,
    Answer::Back,
    Answer::Step,
    Answer::End,
    Answer::Final,
    Answer::Wait,
    Answer::NoSuchTicket,
];

/// Draws the legend with its upper left corner at a point.
pub fn draw_legend(svg: &mut Svg, corner: Point) {
    for (index, look) in ANSWERS.map(Look::of).iter().enumerate() {
        draw_word(svg, corner, index, look, look.meaning);
    }
    let lost = Look::of(Answer::Step);
    draw_word(svg, corner, ANSWERS.len(), &lost, LOST);
    let y = corner.y + 2 * LINE;
    let column = |index: usize| corner.x + index * LINE_COLUMN;
    let told = |svg: &mut Svg, x: Pixels, text: &str| svg.text(Point::at(x, y + 15), "", text);
    let (above, below) = (y + 2, y + BOX - 2);
    draw_read(
        svg,
        Point::at(column(0) + 4, above),
        Point::at(column(0) + 32, below),
    );
    told(svg, column(0) + 44, "a listed read, from its source");
    draw_mark(
        svg,
        Point::at(column(1) + 32, above),
        Point::at(column(1) + 4, below),
    );
    told(svg, column(1) + 44, "a mark, from its cause");
    told(svg, column(2), "r5 reads cell 5, w5 writes it");
}

/// A box with what it means, at the place in the legend with this number.
fn draw_word(svg: &mut Svg, corner: Point, index: usize, look: &Look, meaning: &str) {
    let x = corner.x + index % 4 * WORD_COLUMN;
    let y = corner.y + index / 4 * LINE;
    look.draw(svg, Area::at(x, y, BOX, BOX), meaning == LOST);
    svg.text(Point::at(x + BOX + 8, y + 15), "", meaning);
}
