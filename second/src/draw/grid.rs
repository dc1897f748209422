//! Where things stand: a row a job, a column a turn.

use super::svg::{Area, Pixels, Point, Svg};
use super::words::{Look, BOX};
use crate::counts::Ticket;
use crate::engine::Answer;
use crate::explain::story::{Deed, Story, Turn};
use crate::explain::turn_text;
use std::collections::BTreeSet;

/// The left edge of the first column; names and the start table stand before it.
const LEFT: Pixels = 100;
/// The middle of the start table's bar.
const START: Pixels = 86;
const COLUMN: Pixels = 26;
const ROW: Pixels = 60;
/// The turns' numbers stand above the rows.
const HEAD: Pixels = 30;
/// A row's names stand again after so many columns, for pictures that are wide.
const NAMES_AGAIN: usize = 50;

const SMALL: &str = "font-size=\"10\" text-anchor=\"middle\"";
/// Small words with a white rim, readable over lines.
const RIMMED: &str = "font-size=\"10\" text-anchor=\"middle\" \
                      stroke=\"#ffffff\" stroke-width=\"3\" paint-order=\"stroke\"";

/// The rows and columns of a session's turns.
pub struct Grid<'a> {
    story: &'a Story,
    top: Pixels,
}

impl Grid<'_> {
    /// The grid of a session, its upper edge at a height.
    pub fn of(story: &Story, top: Pixels) -> Grid<'_> {
        Grid { story, top }
    }

    /// The right end of the last column.
    pub fn right(&self) -> Pixels {
        LEFT + self.story.turns.len() * COLUMN
    }

    /// The lower end, below the line of f.
    pub fn bottom(&self) -> Pixels {
        self.row_top(self.rows()) + 24
    }

    /// A row for each job, and one for tickets of none if there are such turns.
    fn rows(&self) -> usize {
        let jobs = self.story.block.jobs.len();
        let stray = self
            .story
            .turns
            .iter()
            .any(|turn| self.is_stray(turn.ticket));
        jobs + usize::from(stray)
    }

    fn is_stray(&self, ticket: Ticket) -> bool {
        ticket.0 == 0 || ticket.0 > self.story.block.jobs.len()
    }

    fn row_top(&self, row: usize) -> Pixels {
        self.top + HEAD + row * ROW
    }

    fn row_name(&self, row: usize) -> String {
        match row < self.story.block.jobs.len() {
            true => format!("job {}", row + 1),
            false => "no job".to_string(),
        }
    }

    /// The box of a ticket's turn, which has a number from 1.
    pub fn turn_box(&self, ticket: Ticket, number: usize) -> Area {
        let row = match self.is_stray(ticket) {
            true => self.story.block.jobs.len(),
            false => ticket.0 - 1,
        };
        let x = LEFT + (number - 1) * COLUMN + (COLUMN - BOX) / 2;
        Area::at(x, self.row_top(row) + (ROW - BOX) / 2, BOX, BOX)
    }

    /// The point of the start table's bar at this height.
    pub fn start_at(&self, y: Pixels) -> Point {
        Point::at(START, y)
    }

    /// What lies below the lines: rows, columns, and the start table.
    pub fn draw_ground(&self, svg: &mut Svg) {
        let width = self.right() - LEFT;
        for row in (0..self.rows()).step_by(2) {
            let area = Area::at(LEFT, self.row_top(row), width, ROW);
            svg.rect(area, "fill=\"#f6f6f6\"");
        }
        for number in (10..=self.story.turns.len()).step_by(10) {
            let x = LEFT + number * COLUMN;
            let (from, to) = (self.row_top(0), self.row_top(self.rows()));
            svg.line(Point::at(x, from), Point::at(x, to), "stroke=\"#dddddd\"");
        }
        let height = self.row_top(self.rows()) - self.row_top(0);
        let bar = Area::at(START - 2, self.row_top(0), 4, height);
        svg.rect(bar, "fill=\"#1f5fa8\"");
        svg.text(Point::at(START, self.top + 12), SMALL, "start");
        svg.text(Point::at(START, self.top + 24), SMALL, "table");
    }

    /// What lies above the lines: names, numbers, f, and a box for each turn.
    pub fn draw_turns(&self, svg: &mut Svg) {
        self.draw_names(svg);
        let lost = lost_turns(self.story);
        let f_line = self.row_top(self.rows()) + 16;
        for (index, turn) in self.story.turns.iter().enumerate() {
            let number = index + 1;
            let area = self.turn_box(turn.ticket, number);
            let x = area.corner.x + BOX / 2;
            svg.text(Point::at(x, self.top + 24), SMALL, &number.to_string());
            svg.text(Point::at(x, f_line), SMALL, &turn.f.to_string());
            svg.with_tooltip(&turn_text(self.story, number), |svg| {
                Look::of(turn.answer).draw(svg, area, lost.contains(&number));
            });
            if let Some(label) = label_of(turn) {
                svg.text(Point::at(x, area.below(0).y + 12), RIMMED, &label);
            }
        }
    }

    /// The names of the rows, at the left and again further on.
    fn draw_names(&self, svg: &mut Svg) {
        svg.text(Point::at(16, self.top + 24), "", "turn");
        svg.text(Point::at(16, self.row_top(self.rows()) + 16), "", "f");
        for row in 0..self.rows() {
            let (name, y) = (self.row_name(row), self.row_top(row));
            svg.text(Point::at(16, y + ROW / 2 + 5), "", &name);
            for column in (NAMES_AGAIN..self.story.turns.len()).step_by(NAMES_AGAIN) {
                svg.text(Point::at(LEFT + column * COLUMN, y + 12), RIMMED, &name);
            }
        }
    }
}

/// The cell that a turn reads or writes, as a small word.
fn label_of(turn: &Turn) -> Option<String> {
    turn.deeds.iter().find_map(|deed| match deed {
        Deed::Read(cell, ..) => Some(format!("r{}", cell.0)),
        Deed::Wrote(write) => Some(format!("w{}", write.cell.0)),
        _ => None,
    })
}

/// The numbers of the turns whose steps and ends were lost when their job went back.
fn lost_turns(story: &Story) -> BTreeSet<usize> {
    let mut lost = BTreeSet::new();
    for (index, turn) in story.turns.iter().enumerate() {
        let Some(back) = turn.back() else { continue };
        let since = (back.listed..=index).filter(|number| {
            let earlier = &story.turns[number - 1];
            let moved = matches!(earlier.answer, Answer::Step | Answer::End);
            earlier.ticket == turn.ticket && moved
        });
        lost.extend(since);
    }
    lost
}
