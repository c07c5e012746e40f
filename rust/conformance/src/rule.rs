//! The plain rule: who waits and where each was last flushed, from the records and the cuts alone. It tells which stored
//! entries are stale, and which minute the others have.
use crate::Fix;
use boragefile::{
    CutList, Desk, Store, KIND_REPORT, KIND_SIGN_OFF, KIND_SIGN_ON, NONE, PAGES, PAGE_BYTES, PAGE_ENTRY_BYTES,
};
use std::collections::BTreeMap;

const RADIOS: usize = 4096;
/// Fifteen cuts make sixteen stripes.
const STRIPES: usize = 16;
const MOST_STALE_AND_WAITING: usize = 1150;

type Place = (u16, u16);

/// What the rule holds, for each radio.
pub struct Rule {
    /// The waiting radios with what their latest reports told.
    waiting: BTreeMap<u16, Fix>,
    flushed: Vec<Option<Fix>>,
}

impl Rule {
    /// None waits and nothing is flushed.
    pub fn new() -> Rule {
        Rule {
            waiting: BTreeMap::new(),
            flushed: vec![None; RADIOS],
        }
    }

    /// Takes a record that is carried out, with the cuts that the call found.
    pub fn carry_out(&mut self, bytes: &[u8], found: &Desk) {
        let radio = field(bytes, 2);
        match field(bytes, 1) {
            KIND_SIGN_ON | KIND_REPORT => {
                let fix = fix_at(bytes, 3);
                self.waiting.insert(radio, fix);
                self.flush_after(fix.place, found);
            }
            KIND_SIGN_OFF => {
                self.waiting.remove(&radio);
                self.flushed[usize::from(radio)] = None;
            }
            _ => (),
        }
    }

    /// If the memory cell of that place has 8 waiting, flush it. If 128 still wait in all, flush the memory cell with most
    /// waiting; ties go to the southern, then the western.
    fn flush_after(&mut self, place: Place, found: &Desk) {
        let frame = &found.parts.frame;
        // Numbers rise by north, then by east, so the first of several is the southern, then the western.
        let memory_cell = |(east, north): Place| STRIPES * stripe(&frame.norths, north) + stripe(&frame.easts, east);
        let mut waiting = [0; STRIPES * STRIPES];
        for fix in self.waiting.values() {
            waiting[memory_cell(fix.place)] += 1;
        }
        let flushed = if waiting[memory_cell(place)] >= 8 {
            memory_cell(place)
        } else if self.waiting.len() >= 128 {
            let most = waiting.iter().max();
            waiting
                .iter()
                .position(|n| Some(n) == most)
                .expect("some memory cell has most waiting")
        } else {
            return;
        };
        let Rule { waiting, flushed: last } = self;
        waiting.retain(|radio, fix| {
            let stays = memory_cell(fix.place) != flushed;
            if !stays {
                last[usize::from(*radio)] = Some(*fix);
            }
            stays
        });
    }

    /// The reports waiting in the desk are exactly the waiting radios with their latest places and minutes.
    pub fn compare_waiting(&self, desk: &Desk) {
        let rows = desk.reports_in_use().map(|report| {
            let place = (report.east, report.north);
            let minute = report.minute;
            (report.radio, Fix { place, minute })
        });
        assert!(
            rows.eq(self.waiting.iter().map(|(radio, fix)| (*radio, *fix))),
            "who waits, where, and since when"
        );
    }

    /// The last place flushed for a radio.
    fn last_place(&self, radio: u16) -> Option<Place> {
        self.flushed[usize::from(radio)].map(|fix| fix.place)
    }

    /// The stale entries on all pages: those whose place is not the last place flushed for their radio, whatever their age.
    pub fn stale_entries<'a>(&'a self, pages: &'a [u8]) -> impl Iterator<Item = (u16, Place)> + 'a {
        let places = entries(pages).map(|(radio, fix)| (radio, fix.place));
        places.filter(|(radio, place)| self.last_place(*radio) != Some(*place))
    }

    /// Each entry that isn't stale has the minute that was flushed with its place.
    fn compare_minutes(&self, pages: &[u8]) {
        for (radio, fix) in entries(pages) {
            if self.last_place(radio) == Some(fix.place) {
                assert_eq!(
                    Some(fix),
                    self.flushed[usize::from(radio)],
                    "the minute of radio {radio}"
                );
            }
        }
    }

    /// Each page is once in one chain; the stale entries of each radio are its missed count; stale and waiting together are
    /// within their bound; the others have the minutes of their reports.
    pub fn compare_pages(&self, store: &Store) {
        let (desk, pages) = (store.desk(), store.pages());
        let mut times = [0; PAGES];
        let firsts = desk.cells_in_use().iter().map(|slot| slot.first);
        for mut page in firsts.chain([desk.parts.frame.free]) {
            while page != NONE {
                times[usize::from(page)] += 1;
                assert_eq!(times[usize::from(page)], 1, "page {page} is once in one chain");
                page = field(page_of(pages, page), 2);
            }
        }
        assert_eq!(times, [1; PAGES], "each page is in a chain");
        let mut stale = vec![0; RADIOS];
        for (radio, _) in self.stale_entries(pages) {
            stale[usize::from(radio)] += 1;
        }
        let mut missed = vec![0; RADIOS];
        for line in desk.lines_in_use() {
            missed[usize::from(line.radio)] = usize::from(line.missed);
        }
        assert_eq!(stale, missed, "stale entries are the missed counts");
        assert!(stale.iter().sum::<usize>() + self.waiting.len() <= MOST_STALE_AND_WAITING);
        self.compare_minutes(pages);
    }
}

/// The number of the stripe that a coordinate lies in: a cut at c puts coordinates below c on the low side.
fn stripe(cuts: &CutList, coordinate: u16) -> usize {
    cuts.in_use().iter().filter(|cut| **cut <= coordinate).count()
}

/// Radio, place and minute of each entry on all pages.
fn entries(pages: &[u8]) -> impl Iterator<Item = (u16, Fix)> + '_ {
    let in_use = |page| <[u8]>::chunks_exact(&page[8..usize::from(field(page, 0))], PAGE_ENTRY_BYTES);
    let entries = pages.chunks_exact(PAGE_BYTES).flat_map(in_use);
    entries.map(|entry| (field(entry, 0), fix_at(entry, 1)))
}

/// East, north and minute, from this field on.
fn fix_at(bytes: &[u8], at: usize) -> Fix {
    Fix {
        place: (field(bytes, at), field(bytes, at + 1)),
        minute: u32::from(field(bytes, at + 2)) + 65536 * u32::from(field(bytes, at + 3)),
    }
}

fn page_of(pages: &[u8], page: u16) -> &[u8] {
    &pages[usize::from(page) * PAGE_BYTES..][..PAGE_BYTES]
}

fn field(bytes: &[u8], at: usize) -> u16 {
    u16::from_le_bytes([bytes[2 * at], bytes[2 * at + 1]])
}
