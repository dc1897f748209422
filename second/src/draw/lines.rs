//! What joins turns: each listed read to its source, and each mark to its cause.

use super::grid::Grid;
use super::svg::{Pixels, Point, Svg};
use super::words::BOX;
use crate::explain::story::{Deed, Story};
use crate::log::Found;
use std::collections::BTreeMap;

const READ_LINE: &str = "fill=\"none\" stroke=\"#1f5fa8\" stroke-width=\"1.2\"";
const READ_DOT: &str = "fill=\"#1f5fa8\"";
const MARK_LINE: &str =
    "fill=\"none\" stroke=\"#b3261e\" stroke-width=\"1.2\" stroke-dasharray=\"5 3\"";
const MARK_HEAD: &str = "fill=\"#b3261e\"";

/// Reads come and go at the left third of a box, marks at the right.
const READ_SIDE: Pixels = BOX / 3;
const MARK_SIDE: Pixels = BOX - BOX / 3;

/// The dot at a source clears the box by this.
const DOT: Pixels = 3;

/// Reads of the start table lie on so many heights above their row's boxes, in turn.
const HEIGHTS: usize = 4;

/// Draws a line for each listed read.
pub fn draw_reads(svg: &mut Svg, grid: &Grid, story: &Story) {
    let mut from_start = BTreeMap::new();
    for (index, turn) in story.turns.iter().enumerate() {
        let to = grid.turn_box(turn.ticket, index + 1).above(READ_SIDE);
        for deed in &turn.deeds {
            match deed {
                Deed::Read(_, Found::Version(source, _), Some(published)) => {
                    let mut from = grid.turn_box(*source, *published).below(READ_SIDE);
                    from.y += DOT;
                    draw_read(svg, from, to);
                }
                Deed::Read(_, Found::Version(..), None) => {
                    let count: &mut usize = from_start.entry(turn.ticket).or_default();
                    let height = 6 + 3 * (*count % HEIGHTS);
                    *count += 1;
                    draw_start_read(svg, grid.start_at(to.y - height), to);
                }
                _ => {}
            }
        }
    }
}

/// Draws an arrow for each mark.
pub fn draw_marks(svg: &mut Svg, grid: &Grid, story: &Story) {
    for (index, turn) in story.turns.iter().enumerate() {
        let from = grid.turn_box(turn.ticket, index + 1).below(MARK_SIDE);
        for mark in turn.changes().flat_map(|change| &change.marks) {
            let to = grid.turn_box(mark.reader, mark.listed).above(MARK_SIDE);
            draw_mark(svg, from, to);
        }
    }
}

/// The curve down from one point to another, upright at both ends.
fn curve(from: Point, to: Point) -> String {
    let bend = to.y.saturating_sub(from.y) / 2;
    let (leave, arrive) = (from.y + bend, to.y - bend);
    let Point { x: x1, y: y1 } = from;
    let Point { x: x2, y: y2 } = to;
    format!("M{x1} {y1}C{x1} {leave} {x2} {arrive} {x2} {y2}")
}

/// A read, with a dot at its source.
pub fn draw_read(svg: &mut Svg, source: Point, read: Point) {
    svg.path(&curve(source, read), READ_LINE);
    svg.dot(source, READ_DOT);
}

/// A read of the start table: along its row, then down.
fn draw_start_read(svg: &mut Svg, start: Point, read: Point) {
    let Point { x, y } = start;
    let turn = read.x - 6;
    let path = format!("M{x} {y}H{turn}Q{} {y} {} {}", read.x, read.x, read.y);
    svg.path(&path, READ_LINE);
    svg.dot(start, READ_DOT);
}

/// A mark, with an arrow's head at the read.
pub fn draw_mark(svg: &mut Svg, cause: Point, read: Point) {
    svg.path(&curve(cause, read), MARK_LINE);
    let Point { x, y } = read;
    let (left, right, top) = (x - 4, x + 4, y - 7);
    svg.path(&format!("M{left} {top}L{right} {top}L{x} {y}Z"), MARK_HEAD);
}
