//! Stores on which one report takes long.
use crate::found;
use crate::made::{self, made_store};
use crate::plan::{Cell, Edges, Entry, Plan, Sizes, MINUTE};
use crate::tails::Run;
use boragefile::{Record, Report};
use std::time::Duration;

/// The radios on, all that may be.
pub const ON: usize = 512;
/// The reports that a memory cell is flushed with.
pub const FULL_BOX: usize = 8;
/// All cuts of a direction, close together, so that the last stripe is nearly the whole square.
pub const CUTS: [u16; 15] = [16, 32, 48, 64, 80, 96, 112, 128, 144, 160, 176, 192, 208, 224, 240];
pub const SQUARE: Edges = Edges {
    west: 0,
    east: 65535,
    south: 0,
    north: 65535,
};
/// Four flushes, of which two come with a sweep.
const REPORTS: usize = 4 * FULL_BOX;

/// A store and the reports that are timed on it.
pub struct Case {
    pub name: &'static str,
    pub run: Run,
}

impl Case {
    pub fn new(name: &'static str, plan: &Plan, reports: Vec<Report>) -> Case {
        let records = reports.iter().map(record).collect();
        Case {
            name,
            run: Run::new(plan.store(), records),
        }
    }
}

/// The worst cases: three that one thinks of, and those tried for a worse one.
pub struct Worst {
    one_place: Case,
    cuts_used: Case,
    made: Case,
    tried: Vec<Case>,
}

impl Worst {
    pub fn new() -> Worst {
        Worst {
            one_place: one_place(),
            cuts_used: cuts_used(),
            made: made(),
            tried: found::tried(),
        }
    }

    /// Times all. A round goes through every case: the machine's speed changes by the second, and where a call is made
    /// again at once the processor has learnt its branches by heart, which saves a quarter of the longest.
    pub fn time(&mut self, rounds: usize, empty: Duration) {
        for _ in 0..rounds {
            let cases = [&mut self.one_place, &mut self.cuts_used, &mut self.made];
            for case in cases.into_iter().chain(&mut self.tried) {
                case.run.again(empty);
            }
        }
    }

    /// The greatest time of one call in each.
    pub fn print(&self) {
        for case in [&self.one_place, &self.cuts_used, &self.made] {
            println!("{} {}", case.name, case.run.most().as_nanos());
        }
        let most = self.tried.iter().map(|case| case.run.most()).max();
        println!("worst-found {}", most.expect("some are tried").as_nanos());
    }

    /// How full the tried stores are, and the greatest time in each.
    pub fn print_tried(&self) {
        for case in &self.tried {
            let sizes = Sizes::of(&case.run.store);
            println!(
                "tried {} {}: {} cells, {} entries on {} pages, {} lines, {} waiting",
                case.name,
                case.run.most().as_nanos(),
                sizes.cells,
                sizes.entries,
                sizes.pages,
                sizes.lines,
                sizes.waiting
            );
        }
    }
}

/// All 512 on stand at one place, in the one cell of 16 pages, and report from there: each eighth report flushes into
/// it, and no cut is found though both directions are sorted. No cut, no line, none waits, tally 0.
fn one_place() -> Case {
    let place = (30_000, 30_000);
    let live: Vec<Entry> = (1..=ON as u16).map(|radio| (radio, place)).collect();
    let reports = live[..REPORTS].iter().copied().map(report).collect();
    Case::new("worst-one-place", &one_cell(&[], live), reports)
}

/// All cuts are in use and 512 on at distinct places in the one cell of 16 pages; no line, none waits, tally 0. No cut
/// leaves at most 32 on each side, and no new one may be made. The places rise with the radios: the sort of coordinates
/// takes longest for that order.
fn cuts_used() -> Case {
    let live: Vec<Entry> = (1..=ON as u16)
        .map(|radio| (radio, (300 + 100 * radio, 300 + 100 * radio)))
        .collect();
    let moved = |(radio, (east, north)): Entry| report((radio, (east + 1, north + 1)));
    let reports = live[..REPORTS].iter().copied().map(moved).collect();
    Case::new("worst-cuts-used", &one_cell(&CUTS, live), reports)
}

fn one_cell(cuts: &[u16], live: Vec<Entry>) -> Plan {
    Plan {
        easts: cuts.to_vec(),
        norths: cuts.to_vec(),
        cells: vec![Cell {
            edges: SQUARE,
            live,
            stale: Vec::new(),
        }],
        waiting: Vec::new(),
        tally: 0,
    }
}

/// The store of `test-made`. Eight radios report from cell 0, eight others from cell 1, and so on: a flush in each,
/// with sweeps, and joins where neighbours are swept already.
fn made() -> Case {
    let at = |line: usize| {
        let radio = made::radio(line);
        report((radio, made::place(radio, line / FULL_BOX)))
    };
    let records = (0..made::ON).map(at).map(|report| record(&report)).collect();
    Case {
        name: "worst-made",
        run: Run::new(made_store(), records),
    }
}

/// An unmarked report.
pub fn report((radio, (east, north)): Entry) -> Report {
    Report {
        radio,
        east,
        north,
        new: 0,
        minute: MINUTE,
    }
}

fn record(report: &Report) -> Vec<u8> {
    Record::Report {
        radio: report.radio,
        east: report.east,
        north: report.north,
        minute: report.minute,
    }
    .to_bytes()
}

#[cfg(test)]
mod tests {
    use super::*;

    #[test]
    fn one_cell_holds_all_on_16_pages_before_and_after() {
        for case in [one_place(), cuts_used()] {
            let sizes = Sizes {
                cells: 1,
                on: 512,
                entries: 512,
                pages: 16,
                lines: 0,
                waiting: 0,
                tally: 0,
            };
            assert_eq!(Sizes::of(&case.run.store), sizes, "{}", case.name);
            assert_eq!(Sizes::of(&case.run.followed()), sizes, "{}", case.name);
        }
    }

    #[test]
    fn reports_on_the_made_store_flush_all_and_join_some() {
        let left = Sizes::of(&made().run.followed());
        assert_eq!((left.on, left.waiting), (512, 0));
        assert!(left.cells < 64);
    }
}
