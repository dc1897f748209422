//! Draws what happened in a session: a row a job, a column a turn, as one SVG file.

mod grid;
mod legend;
mod lines;
mod svg;
mod words;

use crate::explain::story::Story;
use crate::explain::{settled_cells, summary, Settled};
use grid::Grid;
use legend::{draw_legend, LEGEND_HEIGHT, LEGEND_WIDTH};
use svg::{Pixels, Point, Svg};

/// The white rim of the picture.
const RIM: Pixels = 16;
/// From the base of one line of text to the next.
const LINE: Pixels = 20;
/// No letter of ours is wider than this on average.
const LETTER: Pixels = 8;

/// The settled cells stand within this width, so that those of a wide picture are seen together.
const CELLS_WIDTH: Pixels = 1_400;

/// The picture of a session.
pub fn picture(story: &Story) -> String {
    let mut svg = Svg::default();
    let title = summary(story);
    let heading = "font-size=\"16\" font-weight=\"bold\"";
    svg.text(Point::at(RIM, RIM + 12), heading, &title);
    draw_legend(&mut svg, Point::at(RIM, RIM + 28));
    let grid = Grid::of(story, RIM + 28 + LEGEND_HEIGHT + RIM);
    grid.draw_ground(&mut svg);
    lines::draw_reads(&mut svg, &grid, story);
    lines::draw_marks(&mut svg, &grid, story);
    grid.draw_turns(&mut svg);
    let width = grid.right().max(LEGEND_WIDTH) + RIM;
    let top = Point::at(RIM, grid.bottom() + 2 * LINE);
    svg.text(top, heading, "settled cells");
    let bottom = draw_cells(&mut svg, story, top, width);
    svg.document(width, bottom + RIM, &title)
}

/// Draws the settled cells in as many columns as there is room for, and answers where they end.
fn draw_cells(svg: &mut Svg, story: &Story, top: Point, width: Pixels) -> Pixels {
    let mut told: Vec<String> = settled_cells(&story.block).iter().map(cell_text).collect();
    if told.is_empty() {
        told.push("every cell is 0, as at the start".to_string());
    }
    let longest = told.iter().map(String::len).max().unwrap_or_default();
    let column = longest * LETTER + RIM;
    let columns = ((width.min(CELLS_WIDTH) - RIM) / column).max(1);
    for (index, text) in told.iter().enumerate() {
        let x = top.x + index % columns * column;
        let y = top.y + (index / columns + 1) * LINE;
        svg.text(Point::at(x, y), "", text);
    }
    top.y + told.len().div_ceil(columns) * LINE
}

/// A settled cell: its value, and where that came from.
fn cell_text(settled: &Settled) -> String {
    let (cell, value) = (settled.cell.0, settled.value);
    format!("cell {cell}: {value} ({})", settled.origin())
}
