//! The line around a place, as a diagnostic shows it, with carets under the place.

use crate::shown::{units, Unit};
use crate::width;
use galoxumi::Span;

/// The most columns of a line that are shown.
const MOST: usize = 96;

/// How far from the place a line is looked at: as many bytes as so many columns can have, and more.
const FAR: usize = 4 * MOST;

/// A line and what stands under it.
pub struct Excerpt {
    pub line: String,
    /// The columns before the carets.
    pub before: usize,
    pub carets: usize,
}

/// The line on which a span starts. Tabs are shown as four columns; a long line is cut around the place.
pub fn of(doc: &[u8], span: Span) -> Excerpt {
    let near = Near::of(doc, span.start());
    let cells = near.cells(doc);
    let at = cells.partition_point(|cell| cell.start < span.start());
    let (from, to) = window(&cells, at);
    let cut_before = near.cut_before || from > 0;
    let cut_after = near.cut_after || to < cells.len();
    let mut line = String::from(if cut_before { "…" } else { "" });
    cells[from..to].iter().for_each(|cell| cell.show(&mut line));
    line.push_str(if cut_after { "…" } else { "" });
    let before = usize::from(cut_before) + columns(&cells[from..at]);
    // A mark that takes no column stands over the character before it.
    let over = cells.get(at).is_some_and(|cell| cell.width == 0 && before > 0);
    let within = cells[at..to].iter().take_while(|cell| cell.start < span.end());
    let carets = within.map(|cell| cell.width).sum::<usize>().max(1);
    Excerpt { line, before: before - usize::from(over), carets }
}

/// The part of a line that is near a place.
struct Near {
    from: usize,
    to: usize,
    cut_before: bool,
    cut_after: bool,
}

impl Near {
    /// Without the line's LF, or CR LF, and without a byte order mark.
    fn of(doc: &[u8], place: usize) -> Self {
        let mut from = place.saturating_sub(FAR);
        // Not from the middle of a character on.
        while from < place && doc[from] & 0xC0 == 0x80 {
            from += 1;
        }
        let to = doc.len().min(place + FAR);
        let first = doc[from..place].iter().rposition(|byte| *byte == b'\n').map(|at| from + at + 1);
        let last = doc[place..to].iter().position(|byte| *byte == b'\n').map(|at| place + at);
        let start = first.unwrap_or(from);
        let marked = start == 0 && place >= 3 && doc.starts_with(b"\xEF\xBB\xBF");
        let end = last.unwrap_or(to);
        let returned = last.is_some() && end > place && doc[end - 1] == b'\r';
        Self {
            from: start + if marked { 3 } else { 0 },
            to: end - usize::from(returned),
            cut_before: first.is_none() && from > 0,
            cut_after: last.is_none() && to < doc.len(),
        }
    }

    fn cells(&self, doc: &[u8]) -> Vec<Cell> {
        let mut start = self.from;
        let mut cells = Vec::with_capacity(self.to - self.from);
        for unit in units(&doc[self.from..self.to]) {
            cells.push(Cell::of(unit, start));
            start += unit.len();
        }
        cells
    }
}

/// A character of a line, the columns that it takes, and where it stands.
struct Cell {
    unit: Unit,
    width: usize,
    start: usize,
}

impl Cell {
    fn of(unit: Unit, start: usize) -> Self {
        let mut cell = Self { unit, width: 1, start };
        if !matches!(unit, Unit::Char(' '..='~')) {
            let mut shown = String::new();
            cell.show(&mut shown);
            cell.width = width::of(&shown);
        }
        cell
    }

    fn show(&self, line: &mut String) {
        match self.unit {
            Unit::Char('\t') => line.push_str("    "),
            unit => unit.show(line),
        }
    }
}

fn columns(cells: &[Cell]) -> usize {
    cells.iter().map(|cell| cell.width).sum()
}

/// The cells to show: all where they fit, and else as many before and after the place as do.
fn window(cells: &[Cell], at: usize) -> (usize, usize) {
    let (mut from, mut to, mut taken) = (at, at, 0);
    while from > 0 && taken + cells[from - 1].width <= MOST / 2 {
        from -= 1;
        taken += cells[from].width;
    }
    while to < cells.len() && taken + cells[to].width <= MOST {
        taken += cells[to].width;
        to += 1;
    }
    while from > 0 && taken + cells[from - 1].width <= MOST {
        from -= 1;
        taken += cells[from].width;
    }
    (from, to)
}
