//! Stores made whole. A plan says where entries lie and which reports wait; who is on and the memo follow from these.
use boragefile::{CutList, Desk, Line, Report, Slot, Store, NONE, PAGES, PAGE_BYTES, PAGE_ENTRY_BYTES};
use std::collections::BTreeMap;

/// East and north.
pub type Place = (u16, u16);
/// A radio and where it stands.
pub type Entry = (u16, Place);

/// Used bytes, kind, next page and cell.
const HEAD_BYTES: usize = 8;
const PAGE_ENTRIES: usize = (PAGE_BYTES - HEAD_BYTES) / PAGE_ENTRY_BYTES;
const KIND_FREE: u16 = 1;
const KIND_FIRST: u16 = 2;
const KIND_FURTHER: u16 = 3;
/// The minute of all entries, of the reports that wait and of those that come, and the highest minute.
pub const MINUTE: u32 = 30_000_000;
/// Radio, east, north and the halves of the minute.
type Fields = [u16; PAGE_ENTRY_BYTES / 2];

/// A cell's least and greatest coordinates.
#[derive(Clone, Copy)]
pub struct Edges {
    pub west: u16,
    pub east: u16,
    pub south: u16,
    pub north: u16,
}

/// A cell: its edges, and its entries in any order. A radio has one live entry in all cells, or none.
pub struct Cell {
    pub edges: Edges,
    pub live: Vec<Entry>,
    pub stale: Vec<Entry>,
}

/// A store to be made. Cells have the order of the round, and their numbers and pages follow it.
pub struct Plan {
    pub easts: Vec<u16>,
    pub norths: Vec<u16>,
    pub cells: Vec<Cell>,
    pub waiting: Vec<Report>,
    pub tally: u16,
}

impl Plan {
    /// The store of the plan, which must be sound.
    pub fn store(&self) -> Store {
        let mut store = Store::fresh();
        let (desk, pages) = store.parts_mut();
        desk.parts.frame.easts = cut_list(&self.easts);
        desk.parts.frame.norths = cut_list(&self.norths);
        desk.parts.tally = self.tally;
        desk.parts.highest = MINUTE;
        self.fill_cells(desk, pages);
        self.fill_waiting(desk);
        self.fill_on(desk);
        self.fill_memo(desk);
        assert!(store.is_sound(), "the plan is that of a sound store");
        store
    }

    /// Chains stand one after the other from page 0 on, and the free chain behind them.
    fn fill_cells(&self, desk: &mut Desk, pages: &mut [u8]) {
        desk.parts.frame.cells = self.cells.len() as u16;
        let mut first = 0;
        for (number, (slot, cell)) in desk.cells.iter_mut().zip(&self.cells).enumerate() {
            let Edges {
                west,
                east,
                south,
                north,
            } = cell.edges;
            *slot = Slot {
                number: number as u16,
                west,
                east,
                south,
                north,
                first: first as u16,
            };
            first = fill_chain(pages, first, number as u16, &cell.entries());
        }
        desk.parts.frame.free = page_or_none(first, PAGES);
        for page in first..PAGES {
            fill_page(pages, page, [KIND_FREE, page_or_none(page + 1, PAGES), NONE], &[]);
        }
    }

    fn fill_waiting(&self, desk: &mut Desk) {
        let mut waiting = self.waiting.clone();
        waiting.sort_unstable_by_key(|report| report.radio);
        desk.parts.waiting = waiting.len() as u16;
        for (i, report) in waiting.into_iter().enumerate() {
            desk.waiting.put_report(i, report);
        }
    }

    /// A radio is on if it has a live entry or a waiting report marked new.
    fn fill_on(&self, desk: &mut Desk) {
        let new = self.waiting.iter().filter(|report| report.new == 1);
        let mut on: Vec<u16> = self.live().keys().copied().collect();
        on.extend(new.map(|report| report.radio));
        on.sort_unstable();
        desk.parts.on = on.len() as u16;
        desk.on[..on.len()].copy_from_slice(&on);
    }

    /// A line for each radio with stale entries: how many, and the place of its live entry, or none.
    fn fill_memo(&self, desk: &mut Desk) {
        let live = self.live();
        let mut missed = BTreeMap::new();
        for (radio, _) in self.cells.iter().flat_map(|cell| &cell.stale) {
            *missed.entry(*radio).or_insert(0) += 1;
        }
        desk.parts.lines = missed.len() as u16;
        for (line, (radio, missed)) in desk.memo.iter_mut().zip(missed) {
            let (east, north) = live.get(&radio).copied().unwrap_or_default();
            *line = Line {
                radio,
                missed,
                placed: u16::from(live.contains_key(&radio)),
                east,
                north,
            };
        }
    }

    fn live(&self) -> BTreeMap<u16, Place> {
        self.cells.iter().flat_map(|cell| cell.live.iter().copied()).collect()
    }
}

impl Cell {
    /// Its entries by rising radio, as pages have them.
    fn entries(&self) -> Vec<Fields> {
        let both = self.live.iter().chain(&self.stale);
        let (low, high) = (MINUTE as u16, (MINUTE >> 16) as u16);
        let fields = |(radio, (east, north)): &Entry| [*radio, *east, *north, low, high];
        let mut entries: Vec<Fields> = both.map(fields).collect();
        entries.sort_unstable();
        entries
    }
}

fn cut_list(cuts: &[u16]) -> CutList {
    let mut at = [0; 15];
    at[..cuts.len()].copy_from_slice(cuts);
    CutList {
        n: cuts.len() as u16,
        at,
    }
}

/// The number of a page that lies before the end, else none.
fn page_or_none(page: usize, end: usize) -> u16 {
    if page < end {
        page as u16
    } else {
        NONE
    }
}

/// A cell's entries on as many pages as they need, from `first` on. Answers the page behind these.
fn fill_chain(pages: &mut [u8], first: usize, cell: u16, entries: &[Fields]) -> usize {
    let end = first + entries.len().div_ceil(PAGE_ENTRIES).max(1);
    let mut parts = entries.chunks(PAGE_ENTRIES);
    for page in first..end {
        let kind = if page == first { KIND_FIRST } else { KIND_FURTHER };
        let next = page_or_none(page + 1, end);
        fill_page(pages, page, [kind, next, cell], parts.next().unwrap_or_default());
    }
    end
}

/// A page with its kind, next page and cell.
fn fill_page(pages: &mut [u8], page: usize, [kind, next, cell]: [u16; 3], entries: &[Fields]) {
    let bytes = &mut pages[page * PAGE_BYTES..][..PAGE_BYTES];
    let used = (HEAD_BYTES + PAGE_ENTRY_BYTES * entries.len()) as u16;
    let head = [used, kind, next, cell];
    bytes.fill(0);
    for (bytes, field) in bytes.chunks_exact_mut(2).zip(head.iter().chain(entries.as_flattened())) {
        bytes.copy_from_slice(&field.to_le_bytes());
    }
}

/// How full a store is.
#[derive(PartialEq, Eq, Debug)]
pub struct Sizes {
    pub cells: usize,
    pub on: usize,
    pub entries: usize,
    pub pages: usize,
    pub lines: usize,
    pub waiting: usize,
    pub tally: usize,
}

impl Sizes {
    /// Counted on desk and pages.
    pub fn of(store: &Store) -> Sizes {
        let parts = &store.desk().parts;
        let field = |page: &[u8], at: usize| u16::from_le_bytes([page[2 * at], page[2 * at + 1]]);
        let pages = store.pages().chunks_exact(PAGE_BYTES);
        let used = pages.filter(|page| field(page, 1) != KIND_FREE);
        let bytes: usize = used.clone().map(|page| usize::from(field(page, 0)) - HEAD_BYTES).sum();
        Sizes {
            cells: parts.frame.cells.into(),
            on: parts.on.into(),
            entries: bytes / PAGE_ENTRY_BYTES,
            pages: used.count(),
            lines: parts.lines.into(),
            waiting: parts.waiting.into(),
            tally: parts.tally.into(),
        }
    }
}
