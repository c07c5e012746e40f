//! Stores tried for the worst: each is sound, and the one report that is timed on it flushes with the tally at 15, so
//! that a sweep follows.
//!
//! What costs: sorting 512 coordinates in both directions, where no existing cut fits the cell that is flushed into; a
//! look at its entries for each cut through it; sweeps of long chains; a memo of many lines, where each line that is
//! made goes before all others; the test of soundness. Stale and waiting together are 1,150 in each, the most that the
//! tally at 15 allows.
use crate::plan::{Cell, Edges, Entry, Place, Plan};
use crate::worst::{report, Case, CUTS, FULL_BOX, ON, SQUARE};
use boragefile::Report;

/// Stale entries beside the seven reports that wait in the memory cell to be flushed.
const STALE: usize = 1_150 - (FULL_BOX - 1);
/// Reports that wait in other memory cells, so that 127 wait in all.
const ELSEWHERE: usize = 127 - (FULL_BOX - 1);
const TALLY: u16 = 15;
const STRIPES: usize = 16;
/// Where all stand in the south-western memory cell, and in a cell that has most of the square.
const SMALL: Place = (1, 1);
const LARGE: Place = (250, 250);

pub fn tried() -> Vec<Case> {
    let joinings = [
        // 3 cells, 1,655 entries on 54 pages, 1,143 lines: the tally's sweep is of 1,639 entries.
        joining("join-then-long-sweep", true),
        // 3 cells, 1,655 entries on 53 pages, 1,143 lines: the flush sweeps 1,151 entries, the tally 496.
        joining("long-sweep-then-join", false),
    ];
    CROWDS.iter().map(Crowd::case).chain(joinings).collect()
}

/// A crowd: all 512 on stand at home, or eight of them arrive there with the flush. Home is the whole square but for
/// some rows of small cells along its southern edge; the first of these is the front of the round, and home its end.
#[derive(Clone, Copy)]
struct Crowd {
    name: &'static str,
    /// The rows of small cells, each with 16 of a memory cell each.
    rows: usize,
    /// The order of the places at home: radio i stands at number i × `spread`. 1 lets them rise with the radios, 0 is
    /// one place for all.
    spread: usize,
    /// The eight come from the front cell, so that each makes a memo line, which goes before all others.
    arrive: bool,
    /// The middle of the norths is an existing cut, so that home is split after both directions were sorted.
    split: bool,
    stale_at_home: usize,
    stale_in_front: usize,
    /// Those in front are of the radios on first, so that the entries at home have a line to be compared with.
    of_radios_on: bool,
    /// Those at home are of the radios that have one in front: half as many lines, which are lowered before they go.
    shared: bool,
    /// Reports that wait elsewhere.
    elsewhere: usize,
    /// The report comes to another memory cell as the 128th that waits, and the fullest, with seven, is flushed.
    fullest: bool,
}

const CROWD: Crowd = Crowd {
    name: "",
    rows: 0,
    spread: 1,
    arrive: false,
    split: false,
    stale_at_home: 0,
    stale_in_front: 0,
    of_radios_on: false,
    shared: false,
    elsewhere: 0,
    fullest: false,
};

/// One row: home loses one cut to its edge.
const FRONT: Crowd = Crowd {
    rows: 1,
    arrive: true,
    stale_in_front: STALE,
    ..CROWD
};

/// Three rows, and one stale entry at home, so that its sweep too writes the whole memo anew.
const ALL_TOGETHER: Crowd = Crowd {
    name: "all-together",
    rows: 3,
    split: true,
    stale_at_home: 1,
    stale_in_front: STALE - 1,
    of_radios_on: true,
    ..FRONT
};

const CROWDS: [Crowd; 9] = [
    // 1 cell, 1,655 entries on 52 pages, 1,143 lines: home is swept with all of them, and again with 512.
    Crowd {
        name: "one-cell",
        stale_at_home: STALE,
        ..CROWD
    },
    // The same with the places in no order.
    Crowd {
        name: "one-cell-scattered",
        spread: 197,
        stale_at_home: STALE,
        ..CROWD
    },
    // The same, 127 waiting: 1,535 entries on 48 pages, 1,023 lines.
    Crowd {
        name: "one-cell-127-wait",
        stale_at_home: STALE - ELSEWHERE,
        elsewhere: ELSEWHERE,
        ..CROWD
    },
    // The same, flushed as the fullest.
    Crowd {
        name: "one-cell-fullest",
        stale_at_home: STALE - ELSEWHERE,
        elsewhere: ELSEWHERE,
        fullest: true,
        ..CROWD
    },
    // 17 cells, 1,655 entries on 67 pages, 1,143 lines: home is swept with 504, the front cell with 1,151.
    Crowd { name: "front", ..FRONT },
    // The same with half of the stale entries in each: 68 pages, 572 lines.
    Crowd {
        name: "front-shared",
        stale_at_home: STALE / 2,
        stale_in_front: STALE - STALE / 2,
        shared: true,
        ..FRONT
    },
    // All at one place.
    Crowd {
        name: "front-one-place",
        spread: 0,
        ..FRONT
    },
    // 49 cells, 1,655 entries on 99 pages, 1,143 lines.
    ALL_TOGETHER,
    // The same, 127 waiting: 1,535 entries on 96 pages, 1,023 lines.
    Crowd {
        name: "all-together-127-wait",
        stale_in_front: STALE - 1 - ELSEWHERE,
        elsewhere: ELSEWHERE,
        ..ALL_TOGETHER
    },
];

impl Crowd {
    fn case(&self) -> Case {
        let mut cells = small_cells(self.rows);
        cells.push(self.home());
        self.fill_front(&mut cells[0]);
        let mut norths = CUTS.to_vec();
        if self.split {
            norths[CUTS.len() - 1] = self.place(ON / 2).1;
        }
        let mut waiting = self.waiting();
        let last = waiting.pop().expect("the last report comes");
        let plan = Plan {
            easts: CUTS.to_vec(),
            norths,
            cells,
            waiting,
            tally: TALLY,
        };
        Case::new(self.name, &plan, vec![last])
    }

    /// Where radio i stands at home.
    fn place(&self, i: usize) -> Place {
        let at = 256 + 64 * (i * self.spread % ON) as u16;
        (at, at)
    }

    fn home(&self) -> Cell {
        let at_home = if self.arrive { FULL_BOX..ON } else { 0..ON };
        let off = off();
        let stale: Vec<u16> = if self.shared {
            off.take(self.stale_at_home).collect()
        } else {
            off.rev().take(self.stale_at_home).collect()
        };
        Cell {
            edges: Edges {
                south: low_edge(self.rows),
                ..SQUARE
            },
            live: at_home.map(|i| (on(i), self.place(i))).collect(),
            stale: all_at(LARGE, stale),
        }
    }

    /// The front of the round; where it is home, there is nothing to add.
    fn fill_front(&self, front: &mut Cell) {
        if self.arrive {
            front.live = all_at(SMALL, (0..FULL_BOX).map(on));
        }
        let on_first = if self.of_radios_on { FULL_BOX..ON } else { 0..0 };
        let stale = on_first.map(on).chain(off()).take(self.stale_in_front);
        front.stale.extend(all_at(SMALL, stale));
    }

    /// The reports that wait, and last the one that comes.
    fn waiting(&self) -> Vec<Report> {
        let each = if self.fullest { FULL_BOX - 2 } else { FULL_BOX - 1 };
        // from the row below the northern one on, where no small cell is, without the eastern column, which is home's
        let elsewhere = (0..self.elsewhere).map(|j| {
            let (column, row) = (j / each % 15, 14 - j / each / 15);
            report((on(FULL_BOX + j), (low_edge(column) + 1, low_edge(row) + 1)))
        });
        let at_home = |i| report((on(i), self.place(i)));
        let last = if self.fullest {
            report((on(ON - 1), (low_edge(14) + 1, 1)))
        } else {
            at_home(FULL_BOX - 1)
        };
        let waiting = (0..FULL_BOX - 1).map(at_home);
        waiting.chain(elsewhere).chain([last]).collect()
    }
}

/// Eight arrive in a small cell, which is then joined with its neighbour; nearly all others stand in a large one. The
/// stale entries are all in the large cell or in the small one, and that is the front of the round.
fn joining(name: &'static str, stale_in_large: bool) -> Case {
    let [mut small, mut large, neighbour] = cells_to_join();
    let mut cells = if stale_in_large {
        large.stale = all_at(LARGE, off().take(STALE));
        vec![large, small]
    } else {
        small.stale = all_at(SMALL, off().take(STALE));
        vec![small, large]
    };
    cells.push(neighbour);
    let arriving = |i| report((on(i), SMALL));
    let plan = Plan {
        easts: CUTS.to_vec(),
        norths: CUTS.to_vec(),
        cells,
        waiting: (0..FULL_BOX - 1).map(arriving).collect(),
        tally: TALLY,
    };
    Case::new(name, &plan, vec![arriving(FULL_BOX - 1)])
}

/// Small cell and neighbour lie along the southern edge and have eight live entries each, so that the two have 24 with
/// the eight that arrive from the large cell.
fn cells_to_join() -> [Cell; 3] {
    let cut = CUTS[0];
    let edges = Edges {
        north: cut - 1,
        ..SQUARE
    };
    let mut small = cell(Edges { east: cut - 1, ..edges });
    let mut neighbour = cell(Edges { west: cut, ..edges });
    let mut large = cell(Edges { south: cut, ..SQUARE });
    small.live = all_at(SMALL, (FULL_BOX..2 * FULL_BOX).map(on));
    neighbour.live = all_at((cut, 1), (2 * FULL_BOX..3 * FULL_BOX).map(on));
    large.live = all_at(LARGE, (0..FULL_BOX).chain(3 * FULL_BOX..ON).map(on));
    [small, large, neighbour]
}

/// Rows of cells of one memory cell each along the southern edge.
fn small_cells(rows: usize) -> Vec<Cell> {
    let at = |n: usize| {
        let (column, row) = (n % STRIPES, n / STRIPES);
        cell(Edges {
            west: low_edge(column),
            east: high_edge(column),
            south: low_edge(row),
            north: high_edge(row),
        })
    };
    (0..STRIPES * rows).map(at).collect()
}

fn cell(edges: Edges) -> Cell {
    Cell {
        edges,
        live: Vec::new(),
        stale: Vec::new(),
    }
}

/// The least coordinate of a stripe.
fn low_edge(stripe: usize) -> u16 {
    stripe.checked_sub(1).map_or(0, |cut| CUTS[cut])
}

/// Its greatest coordinate.
fn high_edge(stripe: usize) -> u16 {
    CUTS.get(stripe).map_or(65535, |cut| cut - 1)
}

/// Radio i of those on.
fn on(i: usize) -> u16 {
    8 * i as u16 + 1
}

/// Radios off that have been on, rising: past the eight that arrive, and between the others in no order that a
/// processor could foresee.
fn off() -> impl DoubleEndedIterator<Item = u16> {
    let scattered = |radio: &u16| u32::from(*radio) * 40_503 / 128 % 7 < 3;
    (on(FULL_BOX)..4096).filter(move |radio| radio % 8 != 1 && scattered(radio))
}

fn all_at(place: Place, radios: impl IntoIterator<Item = u16>) -> Vec<Entry> {
    radios.into_iter().map(|radio| (radio, place)).collect()
}

#[cfg(test)]
mod tests {
    use super::*;
    use crate::plan::Sizes;

    #[test]
    fn the_tried_stores_are_as_full_as_they_say() {
        // cells, entries, pages, lines, waiting; then cells and waiting after the report, for those show split and join
        let expected = [
            ("one-cell", [1, 1_655, 52, 1_143, 7], [1, 0]),
            ("one-cell-scattered", [1, 1_655, 52, 1_143, 7], [1, 0]),
            ("one-cell-127-wait", [1, 1_535, 48, 1_023, 127], [1, 120]),
            ("one-cell-fullest", [1, 1_535, 48, 1_023, 127], [1, 121]),
            ("front", [17, 1_655, 67, 1_143, 7], [17, 0]),
            ("front-shared", [17, 1_655, 68, 572, 7], [17, 0]),
            ("front-one-place", [17, 1_655, 67, 1_143, 7], [17, 0]),
            ("all-together", [49, 1_655, 99, 1_143, 7], [50, 0]),
            ("all-together-127-wait", [49, 1_535, 96, 1_023, 127], [50, 120]),
            ("join-then-long-sweep", [3, 1_655, 54, 1_143, 7], [2, 0]),
            ("long-sweep-then-join", [3, 1_655, 53, 1_143, 7], [2, 0]),
        ];
        let tried = tried();
        assert_eq!(tried.len(), expected.len());
        for (case, (name, [cells, entries, pages, lines, waiting], after)) in tried.into_iter().zip(expected) {
            let sizes = Sizes {
                cells,
                on: 512,
                entries,
                pages,
                lines,
                waiting,
                tally: 15,
            };
            assert_eq!((case.name, Sizes::of(&case.run.store)), (name, sizes));
            let left = Sizes::of(&case.run.followed());
            assert_eq!(([left.cells, left.waiting], left.tally), (after, 0), "{name}");
        }
    }
}
