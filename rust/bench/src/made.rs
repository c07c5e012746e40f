//! A store made whole: 64 cells, 512 radios on, 1,600 entries of which 1,088 are stale, and 1,000 memo lines. No report
//! waits, the tally is 0.
use crate::plan::{Cell, Edges, Entry, Place, Plan};
use boragefile::Store;

/// Eight rows of eight equal squares.
const ROW: usize = 8;
const CELLS: usize = ROW * ROW;
const SIDE: u16 = 8192;
/// The first of the radios with a line are on; the others are off and their lines have no place.
const LINES: usize = 1_000;
pub const ON: usize = 512;
/// 17 a cell, so that no end of the round has too many: 17 × (64 − k) is at most 16 × (63 − k) + 127.
const STALE: usize = 1_088;

/// Cell n is number n of the round, on page n alone; the pages after these are free.
pub fn made_store() -> Store {
    let cuts: Vec<u16> = (1..ROW as u16).map(|low| SIDE * low).collect();
    let plan = Plan {
        easts: cuts.clone(),
        norths: cuts,
        cells: (0..CELLS).map(cell).collect(),
        waiting: Vec::new(),
        tally: 0,
    };
    plan.store()
}

fn cell(cell: usize) -> Cell {
    let (west, south) = corner(cell);
    let entry = |line: usize| -> Entry { (radio(line), place(radio(line), cell)) };
    Cell {
        edges: Edges {
            west,
            east: west + (SIDE - 1),
            south,
            north: south + (SIDE - 1),
        },
        live: (0..ON).filter(|line| live_cell(*line) == cell).map(entry).collect(),
        stale: (cell..STALE).step_by(CELLS).map(|j| entry(j % LINES)).collect(),
    }
}

/// Radios from 1 to 3,997.
pub fn radio(line: usize) -> u16 {
    4 * line as u16 + 1
}

/// Stale entry j is line j's, beginning again after the last line, and stands in cell j, beginning again after the
/// last. A line's cells of stale entries are 40 apart, and the cell of its live entry lies between them.
fn live_cell(line: usize) -> usize {
    (line + 20) % CELLS
}

/// The least coordinates of a cell.
fn corner(cell: usize) -> Place {
    (SIDE * (cell % ROW) as u16, SIDE * (cell / ROW) as u16)
}

/// Where a radio stands, if it is in this cell.
pub fn place(radio: u16, cell: usize) -> Place {
    let (west, south) = corner(cell);
    (west + radio, south + (SIDE - radio))
}

#[cfg(test)]
mod tests {
    use super::*;
    use crate::plan::Sizes;

    #[test]
    fn the_made_store_is_as_full_as_it_says() {
        let store = made_store();
        let sizes = Sizes {
            cells: 64,
            on: 512,
            entries: 1_600,
            pages: 64,
            lines: 1_000,
            waiting: 0,
            tally: 0,
        };
        assert_eq!(Sizes::of(&store), sizes);
        let missed: u16 = store.desk().memo.iter().map(|line| line.missed).sum();
        assert_eq!(usize::from(missed), STALE);
    }
}
