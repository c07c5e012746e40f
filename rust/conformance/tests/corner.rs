//! A place (0,0) that a store already holds, waiting or on a page, stays sound and is treated as any other. No record brings one, so such a store is made:
//! two stores have the same calls, and where the one holds (1,1), (0,0) is written in the other. Their answers and their bytes go on to differ in that alone.
#![forbid(unsafe_code)]
use boragefile::{Located, Record, Store, LIST_BYTES, PAGE_BYTES, PAGE_ENTRY_BYTES};
use conformance::Xorshift;

const CALLS: usize = 20_000;
/// The place that records bring, and the one that is written in its stead. No other coordinate is below `OTHERS_FROM`, so each side of a cut, each order and
/// each rectangle that takes in the one takes in the other.
const BROUGHT: (u16, u16) = (1, 1);
const CORNER: (u16, u16) = (0, 0);
const OTHERS_FROM: u16 = 2;
const PAGE_HEAD: usize = 8;

/// What the made store was seen to hold and do with a place (0,0).
#[derive(Default, Debug)]
struct Seen {
    waiting: usize,
    on_pages: usize,
    in_memo: usize,
    listed: usize,
    flushed: usize,
    swept: usize,
    signed_off: usize,
    split: usize,
}

fn field(bytes: &[u8], at: usize) -> u16 {
    u16::from_le_bytes([bytes[at], bytes[at + 1]])
}

/// The bytes at which the entries of all pages begin.
fn entries(pages: &[u8]) -> Vec<usize> {
    let page = |start: usize| (start + PAGE_HEAD..start + usize::from(field(pages, start))).step_by(PAGE_ENTRY_BYTES);
    (0..pages.len()).step_by(PAGE_BYTES).flat_map(page).collect()
}

fn place_at(pages: &[u8], entry: usize) -> (u16, u16) {
    (field(pages, entry + 2), field(pages, entry + 4))
}

/// The store with (0,0) for each (1,1).
fn cornered(store: &Store) -> Store {
    let mut made = store.clone();
    let (desk, pages) = made.parts_mut();
    let waiting = &mut desk.waiting;
    for (east, north) in waiting.easts.iter_mut().zip(&mut waiting.norths) {
        if (*east, *north) == BROUGHT {
            (*east, *north) = CORNER;
        }
    }
    for line in &mut desk.memo {
        if (line.east, line.north) == BROUGHT {
            (line.east, line.north) = CORNER;
        }
    }
    for entry in entries(pages) {
        if place_at(pages, entry) == BROUGHT {
            pages[entry + 2..entry + 6].fill(0);
        }
    }
    made
}

fn waiting(store: &Store) -> usize {
    let reports = store.desk().reports_in_use();
    reports.filter(|report| (report.east, report.north) == CORNER).count()
}

fn on_pages(store: &Store) -> usize {
    let pages = store.pages();
    entries(pages)
        .iter()
        .filter(|entry| place_at(pages, **entry) == CORNER)
        .count()
}

fn in_memo(store: &Store) -> usize {
    let lines = store.desk().lines_in_use();
    lines
        .iter()
        .filter(|line| line.placed == 1 && (line.east, line.north) == CORNER)
        .count()
}

/// The list with (0,0) for each (1,1).
fn listed(list: impl Iterator<Item = Located>) -> Vec<(u16, (u16, u16))> {
    let place = |located: Located| {
        if (located.east, located.north) == BROUGHT {
            CORNER
        } else {
            (located.east, located.north)
        }
    };
    list.map(|located| (located.radio, place(located))).collect()
}

/// What comes next: a third of the places are (1,1), and the minute rises now and then, so that some places grow too old.
fn next(random: &mut Xorshift, store: &Store) -> Record {
    let radio = random.within(1, 90);
    let is_on = store.desk().radios_on().contains(&radio);
    let (east, north) = if random.once_in(3) {
        BROUGHT
    } else {
        (random.within(OTHERS_FROM, 60_000), random.within(OTHERS_FROM, 60_000))
    };
    let minute = store.desk().parts.highest + 5 * u32::from(random.once_in(3));
    match random.below(10) {
        0 if is_on => Record::SignOff { radio, minute },
        1 => Record::Range {
            west: 0,
            east: random.within(OTHERS_FROM, 65535),
            south: 0,
            north: random.within(OTHERS_FROM, 65535),
            minute,
        },
        _ if is_on => Record::Report {
            radio,
            east,
            north,
            minute,
        },
        _ => Record::SignOn {
            radio,
            east,
            north,
            minute,
        },
    }
}

/// Whether it brings (1,1): the made store does not get this record, but is made anew.
fn brings(record: Record) -> bool {
    match record {
        Record::SignOn { east, north, .. } | Record::Report { east, north, .. } => (east, north) == BROUGHT,
        _ => false,
    }
}

#[test]
fn a_place_in_the_corner_is_treated_as_any_other() {
    let mut random = Xorshift::new(12);
    let (mut store, mut made) = (Store::fresh(), Store::fresh());
    let mut seen = Seen::default();
    let (mut buffer, mut other) = (vec![0; LIST_BYTES], vec![0; LIST_BYTES]);
    for call in 0..CALLS {
        let record = next(&mut random, &store);
        let answer = store.call(&record.to_bytes(), &mut buffer);
        assert_eq!(answer.number(), 0, "call {call}: {record:?}");
        if brings(record) {
            made = cornered(&store);
            assert!(made.is_sound(), "call {call}: a made store is sound");
            continue;
        }
        let (waited, stood, cells) = (waiting(&made), on_pages(&made), made.desk().parts.frame.cells);
        let same = made.call(&record.to_bytes(), &mut other);
        assert_eq!(
            (same.number(), same.count()),
            (0, answer.count()),
            "call {call}: {record:?}"
        );
        if let (Some(list), Some(same)) = (answer.list(), same.list()) {
            assert_eq!(listed(list.iter()), listed(same.iter()), "call {call}: {record:?}");
            seen.listed += same
                .iter()
                .filter(|located| (located.east, located.north) == CORNER)
                .count();
        }
        assert!(
            made == cornered(&store),
            "call {call}: {record:?} leaves something else"
        );
        seen.waiting = seen.waiting.max(waiting(&made));
        seen.on_pages = seen.on_pages.max(on_pages(&made));
        seen.in_memo = seen.in_memo.max(in_memo(&made));
        seen.flushed += usize::from(waiting(&made) < waited && on_pages(&made) > stood);
        seen.swept += usize::from(on_pages(&made) < stood);
        seen.split += usize::from(on_pages(&made) > 0 && made.desk().parts.frame.cells > cells);
        seen.signed_off += usize::from(matches!(record, Record::SignOff { .. }) && waiting(&made) < waited);
        if call % 64 == 0 {
            assert!(made.is_sound(), "call {call}: {record:?}");
        }
    }
    println!("{CALLS} calls: {seen:?}");
    for (what, times) in [
        ("waits", seen.waiting),
        ("stands on a page", seen.on_pages),
        ("stands in the memo", seen.in_memo),
        ("is listed", seen.listed),
        ("is flushed", seen.flushed),
        ("is swept", seen.swept),
        ("is signed off while it waits", seen.signed_off),
        ("stands in a cell that is split", seen.split),
    ] {
        assert!(times > 0, "no place (0,0) {what}");
    }
}
