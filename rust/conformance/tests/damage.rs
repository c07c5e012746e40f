//! Damaged stores: each clause of a sound store, broken in the desk or in the pages. Every call is then turned down under
//! number 2 and keeps every byte, and the test alone finds the store unsound.
#![forbid(unsafe_code)]
use boragefile::{
    Answer, Desk, Line, Record, Rectangle, Refusal, Report, Slot, Store, Waiting, Watch, NONE, PAGES, PAGE_BYTES,
    PAGE_ENTRY_BYTES, WATCHES,
};
use conformance::{Both, Xorshift};
use std::collections::BTreeSet;
use std::mem::{offset_of, size_of};

const USED: usize = 0;
const KIND: usize = 1;
const NEXT: usize = 2;
const CELL: usize = 3;
/// The last field of a page, which is in use only where 32 entries are.
const LAST_FIELD: usize = PAGE_BYTES / 2 - 1;
/// The fields of an entry: radio, east, north, and the lower and the higher half of the minute.
const FIELDS: usize = PAGE_ENTRY_BYTES / 2;
const LOW: usize = 3;
const HIGH: usize = 4;

fn field(pages: &[u8], page: u16, at: usize) -> u16 {
    let from = usize::from(page) * PAGE_BYTES + 2 * at;
    u16::from_le_bytes([pages[from], pages[from + 1]])
}

fn set(pages: &mut [u8], page: u16, at: usize, value: u16) {
    let from = usize::from(page) * PAGE_BYTES + 2 * at;
    pages[from..from + 2].copy_from_slice(&value.to_le_bytes());
}

/// The field of entry `i` of a page: its radio, east, north or a half of its minute.
fn entry(i: usize, part: usize) -> usize {
    4 + FIELDS * i + part
}

fn entries(pages: &[u8], page: u16) -> usize {
    (usize::from(field(pages, page, USED)) - 8) / PAGE_ENTRY_BYTES
}

fn set_minute(pages: &mut [u8], page: u16, i: usize, minute: u32) {
    set(pages, page, entry(i, LOW), minute as u16);
    set(pages, page, entry(i, HIGH), (minute >> 16) as u16);
}

/// The entry goes, and its bytes become zero.
fn take_out_last(pages: &mut [u8], page: u16) {
    let last = entries(pages, page) - 1;
    for part in 0..FIELDS {
        set(pages, page, entry(last, part), 0);
    }
    set(pages, page, USED, (8 + PAGE_ENTRY_BYTES * last) as u16);
}

fn lines(desk: &mut Desk) -> &mut [Line] {
    &mut desk.memo[..usize::from(desk.parts.lines)]
}

/// The radios, easts, norths, marks and halves of the minutes of the waiting reports.
fn columns(desk: &mut Desk) -> [&mut [u16; 128]; 6] {
    let Waiting {
        radios,
        easts,
        norths,
        news,
        lows,
        highs,
    } = &mut desk.waiting;
    [radios, easts, norths, news, lows, highs]
}

/// Waiting report `i` has this minute.
fn waits_since(desk: &mut Desk, i: usize, minute: u32) {
    let report = desk.waiting.report_at(i);
    desk.waiting.put_report(i, Report { minute, ..report });
}

/// The slot of the first waiting report with this mark.
fn first_waiting(desk: &Desk, new: u16) -> usize {
    desk.reports_in_use()
        .position(|report| report.new == new)
        .expect("a waiting report")
}

/// The slot past the waiting reports.
fn past_waiting(desk: &Desk) -> usize {
    desk.reports_in_use().len()
}

fn line_of(desk: &Desk, radio: u16) -> Option<&Line> {
    desk.lines_in_use().iter().find(|line| line.radio == radio)
}

/// A stored entry, and the place in the round of its cell.
struct Stored {
    round: usize,
    radio: u16,
    place: (u16, u16),
}

fn stored(desk: &Desk, pages: &[u8]) -> Vec<Stored> {
    let mut all = Vec::new();
    for (round, slot) in desk.cells_in_use().iter().enumerate() {
        let mut page = slot.first;
        while page != NONE {
            for i in 0..entries(pages, page) {
                let part = |p| field(pages, page, entry(i, p));
                all.push(Stored {
                    round,
                    radio: part(0),
                    place: (part(1), part(2)),
                });
            }
            page = field(pages, page, NEXT);
        }
    }
    all
}

fn is_stale(desk: &Desk, radio: u16, place: (u16, u16)) -> bool {
    line_of(desk, radio).is_some_and(|line| line.placed == 0 || (line.east, line.north) != place)
}

/// A page of a cell with a page after it.
fn long(desk: &Desk, pages: &[u8]) -> u16 {
    let firsts = desk.cells_in_use().iter().map(|slot| slot.first);
    firsts
        .into_iter()
        .find(|page| field(pages, *page, NEXT) != NONE)
        .expect("a chain of two pages")
}

/// A page with two entries or more, of radios without a memo line, first of a cell that is not the whole square's width.
fn settled(desk: &Desk, pages: &[u8]) -> (Slot, u16) {
    let fits = |slot: &&Slot| {
        let page = slot.first;
        let n = entries(pages, page);
        n >= 2
            && (slot.west > 0 || slot.east < 65535)
            && (0..n).all(|i| line_of(desk, field(pages, page, entry(i, 0))).is_none())
    };
    let slot = desk.cells_in_use().iter().find(fits).expect("a settled cell");
    (*slot, slot.first)
}

/// A page with an entry that is stale, and its number on that page.
fn a_stale_one(desk: &Desk, pages: &[u8]) -> (u16, usize) {
    for slot in desk.cells_in_use() {
        let mut page = slot.first;
        while page != NONE {
            for i in 0..entries(pages, page) {
                let part = |p| field(pages, page, entry(i, p));
                if is_stale(desk, part(0), (part(1), part(2))) {
                    return (page, i);
                }
            }
            page = field(pages, page, NEXT);
        }
    }
    panic!("a stale entry");
}

/// The minute of the first call of `rich`, so that both halves of a minute count.
const FIRST_MINUTE: u32 = 5 * 65536;

/// A store with something in every part: cuts both ways, a chain of two pages, memo lines with and without a place, waiting
/// reports new and not, free pages.
fn rich() -> Store {
    let mut random = Xorshift::new(11);
    let mut both = Both::fresh();
    for _ in 0..200_000 {
        let minute = FIRST_MINUTE + both.clock();
        let radio = random.within(1, 400);
        let (east, north) = if radio < 60 {
            (12345, 54321)
        } else {
            (random.coordinate(), random.coordinate())
        };
        both.record(match (both.plain.place(radio).is_some(), random.once_in(12)) {
            (false, _) => Record::SignOn {
                radio,
                east,
                north,
                minute,
            },
            (true, true) => Record::SignOff { radio, minute },
            (true, false) => Record::Report {
                radio,
                east,
                north,
                minute,
            },
        });
        if is_rich(&both.store) {
            return both.store;
        }
    }
    panic!("no rich store in this run");
}

fn is_rich(store: &Store) -> bool {
    let (desk, pages) = (store.desk(), store.pages());
    let memo = desk.lines_in_use();
    let wait = desk.reports_in_use();
    let live_lines = memo.iter().filter(|line| line.placed == 1).count();
    desk.parts.frame.easts.n >= 3
        && desk.parts.frame.norths.n >= 3
        && desk.parts.on < 400
        && live_lines >= 2
        && memo.len() >= live_lines + 2
        && wait.len() >= 20
        && wait.filter(|report| report.new == 1).count() >= 3
        && desk
            .cells_in_use()
            .iter()
            .any(|slot| field(pages, slot.first, NEXT) != NONE)
}

/// The watches of `watched` that are set: the whole map, its western half, one that takes in nobody, and a few metres.
const ALL: usize = 2;
const WEST: usize = 5;
const NOBODY: usize = 9;
const CAR_PARK: usize = 15;
/// One that is not.
const UNSET: usize = 6;

/// `rich` with watches, so that the test of soundness has members to look at. The other clauses are broken in a store without any,
/// where nothing else could notice.
fn watched() -> Store {
    let mut store = rich();
    let areas = [
        (ALL, [0, 65535, 0, 65535]),
        (WEST, [0, 32768, 0, 65535]),
        (NOBODY, [5, 5, 5, 5]),
        (CAR_PARK, [12345, 12346, 54321, 54322]),
    ];
    for (watch, [west, east, south, north]) in areas {
        let area = Rectangle {
            west,
            east,
            south,
            north,
        };
        assert!(store.watch_set(watch as u16, area).is_accepted());
    }
    let members = areas.map(|(watch, _)| store.desk().watches[watch].members().count());
    assert_eq!(members[0], store.desk().radios_on().len());
    assert!(members[1] > 50 && members[1] + 50 < members[0] && members[2] == 0 && members[3] > 10);
    store
}

/// A call: a record's bytes, or a watch set or cleared.
#[derive(Debug)]
enum Request {
    Record(Vec<u8>),
    Set(u16, Rectangle),
    Clear(u16),
}

impl Request {
    fn hand_to<'b>(&self, store: &mut Store, buffer: &'b mut [u8]) -> Answer<'b> {
        match self {
            Request::Record(bytes) => store.call(bytes, buffer),
            Request::Set(watch, area) => store.watch_set(*watch, *area),
            Request::Clear(watch) => store.watch_clear(*watch),
        }
    }
}

/// Records of each kind, at the last minute, one that is too early, and what is no record; a watch set and cleared, and what is
/// no watch, or no rectangle.
fn requests() -> Vec<Request> {
    let area = Rectangle {
        west: 1,
        east: 2,
        south: 1,
        north: 2,
    };
    let reversed = Rectangle { west: 3, ..area };
    let watches = [
        Request::Set(0, area),
        Request::Set(ALL as u16, area),
        Request::Set(16, area),
        Request::Set(0, reversed),
        Request::Clear(ALL as u16),
        Request::Clear(16),
    ];
    records().into_iter().map(Request::Record).chain(watches).collect()
}

fn records() -> Vec<Vec<u8>> {
    let minute = u32::MAX;
    let (east, north) = (1, 1);
    vec![
        Record::Range {
            west: 0,
            east: 65535,
            south: 0,
            north: 65535,
            minute,
        }
        .to_bytes(),
        Record::Range {
            west: 1,
            east: 0,
            south: 0,
            north: 0,
            minute,
        }
        .to_bytes(),
        Record::SignOn {
            radio: 4095,
            east,
            north,
            minute,
        }
        .to_bytes(),
        Record::Report {
            radio: 1,
            east,
            north,
            minute,
        }
        .to_bytes(),
        Record::SignOff { radio: 2, minute }.to_bytes(),
        Record::SignOff { radio: 2, minute: 0 }.to_bytes(),
        vec![],
        vec![4, 0, 9, 0],
    ]
}

/// True if number 2 turns every request down. Checks that each then keeps every byte, and that the test alone finds the same.
fn is_turned_down(store: &Store) -> bool {
    let downs = requests().into_iter().map(|request| {
        let mut tried = store.clone();
        let mut buffer = [0x5a; 3072];
        let answer = request.hand_to(&mut tried, &mut buffer);
        let down = answer.refusal() == Some(Refusal::Unsound);
        assert!(!down || (answer.number(), answer.count()) == (2, 0));
        assert!(
            !down || (tried == *store && buffer == [0x5a; 3072]),
            "{request:?} keeps every byte"
        );
        down
    });
    let downs: Vec<bool> = downs.collect();
    assert!(
        downs.iter().all(|down| *down == downs[0]),
        "soundness does not hang on the call"
    );
    assert_eq!(store.is_sound(), !downs[0], "the test alone finds what the calls find");
    downs[0]
}

type Change = (&'static str, fn(&mut Desk, &mut [u8]));

fn changed(store: &Store, (name, change): &Change) -> Store {
    let mut other = store.clone();
    let (desk, pages) = other.parts_mut();
    change(desk, pages);
    assert!(other != *store, "{name}: changes something");
    other
}

fn all_turned_down(damages: &[Change]) {
    all_turned_down_of(&rich(), damages);
}

fn all_turned_down_of(store: &Store, damages: &[Change]) {
    assert!(!is_turned_down(store), "the store is sound before");
    for damage in damages {
        assert!(is_turned_down(&changed(store, damage)), "{}", damage.0);
    }
}

#[test]
fn limits() {
    all_turned_down(&[
        ("16 east cuts", |desk, _| desk.parts.frame.easts.n = 16),
        ("very many east cuts", |desk, _| desk.parts.frame.easts.n = u16::MAX),
        ("16 north cuts", |desk, _| desk.parts.frame.norths.n = 16),
        ("very many north cuts", |desk, _| {
            desk.parts.frame.norths.n = u16::MAX / 2
        }),
        ("no cell", |desk, _| desk.parts.frame.cells = 0),
        ("65 cells", |desk, _| desk.parts.frame.cells = 65),
        ("very many cells", |desk, _| desk.parts.frame.cells = u16::MAX),
        ("very many waiting", |desk, _| desk.parts.waiting = u16::MAX),
        ("129 waiting", |desk, _| desk.parts.waiting = 129),
        ("1,153 memo lines", |desk, _| desk.parts.lines = 1153),
        ("very many memo lines", |desk, _| desk.parts.lines = u16::MAX),
        ("513 on", |desk, _| desk.parts.on = 513),
        ("very many on", |desk, _| desk.parts.on = u16::MAX),
        ("radio 0 is on", |desk, _| desk.on[0] = 0),
        ("radio 4,096 is on", |desk, _| {
            desk.on[usize::from(desk.parts.on) - 1] = 4096
        }),
        ("radio 0 waits", |desk, _| desk.waiting.radios[0] = 0),
        ("radio 0 has a line", |desk, _| lines(desk)[0].radio = 0),
        ("an entry of radio 0", |desk, pages| {
            let (_, page) = settled(desk, pages);
            set(pages, page, entry(0, 0), 0);
        }),
        ("cell number 64", |desk, pages| {
            desk.cells[0].number = 64;
            let mut page = desk.cells[0].first;
            while page != NONE {
                set(pages, page, CELL, 64);
                page = field(pages, page, NEXT);
            }
        }),
        ("tally 16", |desk, _| desk.parts.tally = 16),
        ("tally 65,535", |desk, _| desk.parts.tally = 65535),
    ]);
}

#[test]
fn cuts_and_cells() {
    all_turned_down(&[
        ("cut at 0", |desk, _| desk.parts.frame.easts.at[0] = 0),
        ("equal cuts", |desk, _| {
            desk.parts.frame.easts.at[1] = desk.parts.frame.easts.at[0]
        }),
        ("falling cuts", |desk, _| desk.parts.frame.norths.at.swap(0, 1)),
        ("a cut that cells need is gone", |desk, _| {
            desk.parts.frame.easts.at.copy_within(1.., 0);
            desk.parts.frame.easts.at[14] = 0;
            desk.parts.frame.easts.n -= 1;
        }),
        ("a cell is missing", |desk, _| {
            desk.parts.frame.cells -= 1;
            desk.cells[usize::from(desk.parts.frame.cells)] = Slot::default();
        }),
        ("a cell twice in the round", |desk, _| desk.cells[1] = desk.cells[0]),
        ("a number twice", |desk, _| desk.cells[1].number = desk.cells[0].number),
        ("two numbers exchanged", |desk, _| {
            let number = desk.cells[0].number;
            desk.cells[0].number = desk.cells[1].number;
            desk.cells[1].number = number;
        }),
        ("an empty slot counts", |desk, _| desk.parts.frame.cells += 1),
        ("a cell goes too far", |desk, _| {
            let n = usize::from(desk.parts.frame.cells);
            let slot = desk.cells[..n].iter_mut().find(|slot| slot.east < 65535);
            slot.expect("a cell with a neighbour").east += 1;
        }),
        ("an edge that is no cut", |desk, _| {
            let n = usize::from(desk.parts.frame.cells);
            let slots = &mut desk.cells[..n];
            for i in 0..n * n {
                let (a, b) = (slots[i / n], slots[i % n]);
                if a.east < 65535 && a.east + 1 == b.west && (a.south, a.north) == (b.south, b.north) {
                    slots[i / n].east -= 1;
                    slots[i % n].west -= 1;
                    return;
                }
            }
        }),
        ("west above east", |desk, _| {
            let slot = &mut desk.cells[0];
            std::mem::swap(&mut slot.west, &mut slot.east);
        }),
    ]);
}

#[test]
fn chains() {
    all_turned_down(&[
        ("a cell on another's page", |desk, _| {
            desk.cells[0].first = desk.cells[1].first
        }),
        ("a cell on a free page", |desk, _| {
            desk.cells[0].first = desk.parts.frame.free
        }),
        ("a cell on page 128", |desk, _| desk.cells[0].first = 128),
        ("a cell on no page", |desk, _| desk.cells[0].first = NONE),
        ("the free chain begins at a cell's page", |desk, _| {
            desk.parts.frame.free = desk.cells[0].first
        }),
        ("a free page is lost", |desk, pages| {
            desk.parts.frame.free = field(pages, desk.parts.frame.free, NEXT)
        }),
        ("no free page", |desk, _| desk.parts.frame.free = NONE),
        ("the free chain begins at page 128", |desk, _| {
            desk.parts.frame.free = 128
        }),
        ("the free chain turns back", |desk, pages| {
            let second = field(pages, desk.parts.frame.free, NEXT);
            set(pages, second, NEXT, desk.parts.frame.free);
        }),
        ("the free chain ends early", |desk, pages| {
            set(pages, desk.parts.frame.free, NEXT, NONE)
        }),
        ("the free chain goes on at page 128", |desk, pages| {
            set(pages, desk.parts.frame.free, NEXT, 128)
        }),
        ("a cell's chain ends early", |desk, pages| {
            set(pages, long(desk, pages), NEXT, NONE)
        }),
        ("a cell's chain turns back", |desk, pages| {
            let first = long(desk, pages);
            set(pages, field(pages, first, NEXT), NEXT, first);
        }),
        ("a cell's chain goes on in the free chain", |desk, pages| {
            let (_, page) = settled(desk, pages);
            set(pages, page, NEXT, desk.parts.frame.free);
        }),
    ]);
}

#[test]
fn layout_of_pages() {
    all_turned_down(&[
        ("a free page with an entry", |desk, pages| {
            set(pages, desk.parts.frame.free, USED, 18);
            set(pages, desk.parts.frame.free, entry(0, 0), 4000);
        }),
        ("a free page of another kind", |desk, pages| {
            set(pages, desk.parts.frame.free, KIND, 3)
        }),
        ("a free page of a cell", |desk, pages| {
            set(pages, desk.parts.frame.free, CELL, 0)
        }),
        ("a free page with a byte in it", |desk, pages| {
            set(pages, desk.parts.frame.free, LAST_FIELD, 256)
        }),
        ("a first page of kind 3", |desk, pages| {
            set(pages, desk.cells[0].first, KIND, 3)
        }),
        ("a first page of kind 0", |desk, pages| {
            set(pages, desk.cells[0].first, KIND, 0)
        }),
        ("a further page of kind 2", |desk, pages| {
            let further = field(pages, long(desk, pages), NEXT);
            set(pages, further, KIND, 2);
        }),
        ("a further page of another cell", |desk, pages| {
            let further = field(pages, long(desk, pages), NEXT);
            set(pages, further, CELL, field(pages, further, CELL) ^ 1);
        }),
        ("a further page without an entry", |desk, pages| {
            let (slot, page) = settled(desk, pages);
            let taken = desk.parts.frame.free;
            desk.parts.frame.free = field(pages, taken, NEXT);
            set(pages, page, NEXT, taken);
            set(pages, taken, KIND, 3);
            set(pages, taken, NEXT, NONE);
            set(pages, taken, CELL, slot.number);
        }),
        ("a page that is not full before another", |desk, pages| {
            take_out_last(pages, long(desk, pages));
        }),
        ("used bytes that end in an entry", |desk, pages| {
            let (_, page) = settled(desk, pages);
            set(pages, page, USED, field(pages, page, USED) - 1);
        }),
        ("used bytes below 8", |desk, pages| {
            set(pages, desk.cells[0].first, USED, 7)
        }),
        ("used bytes past the page", |desk, pages| {
            set(pages, desk.cells[0].first, USED, 338)
        }),
        ("very many used bytes", |desk, pages| {
            set(pages, desk.cells[0].first, USED, 65535)
        }),
        ("a byte after the entries", |desk, pages| {
            let (_, page) = settled(desk, pages);
            let n = entries(pages, page);
            set(pages, page, entry(n, 0), 1);
        }),
        ("a minute after the entries", |desk, pages| {
            let (_, page) = settled(desk, pages);
            let n = entries(pages, page);
            set(pages, page, entry(n, HIGH), 256);
        }),
        ("a byte at the end of a page", |desk, pages| {
            let (_, page) = settled(desk, pages);
            set(pages, page, LAST_FIELD, 256);
        }),
        ("entries that fall", |desk, pages| {
            let (_, page) = settled(desk, pages);
            for part in 0..FIELDS {
                let (a, b) = (field(pages, page, entry(0, part)), field(pages, page, entry(1, part)));
                set(pages, page, entry(0, part), b);
                set(pages, page, entry(1, part), a);
            }
        }),
        ("a radio twice in a cell", |desk, pages| {
            let (_, page) = settled(desk, pages);
            set(pages, page, entry(1, 0), field(pages, page, entry(0, 0)));
        }),
        ("an entry outside its cell", |desk, pages| {
            let (slot, page) = settled(desk, pages);
            let outside = if slot.west > 0 { slot.west - 1 } else { slot.east + 1 };
            set(pages, page, entry(0, 1), outside);
        }),
    ]);
}

/// Takes a radio off the list of those on, and nothing else.
fn forget(desk: &mut Desk, radio: u16) {
    let at = desk.on.iter().position(|other| *other == radio).expect("a radio on");
    desk.on.copy_within(at + 1.., at);
    desk.on[511] = 0;
    desk.parts.on -= 1;
}

#[test]
fn who_is_on() {
    all_turned_down(&[
        ("a radio on that is nowhere", |desk, _| {
            desk.on[usize::from(desk.parts.on)] = 4000;
            desk.parts.on += 1;
        }),
        ("a radio off with an entry", |desk, pages| {
            let (_, page) = settled(desk, pages);
            forget(desk, field(pages, page, entry(0, 0)));
        }),
        ("a radio off with a new report", |desk, _| {
            forget(desk, desk.waiting.radios[first_waiting(desk, 1)])
        }),
        ("a radio off with a report", |desk, _| {
            forget(desk, desk.waiting.radios[first_waiting(desk, 0)])
        }),
        ("a radio on twice", |desk, _| desk.on[1] = desk.on[0]),
        ("radios on that fall", |desk, _| desk.on.swap(0, 1)),
        ("a radio on past the count", |desk, _| desk.on[511] = 1),
        ("an entry and a new report", |desk, _| {
            desk.waiting.news[first_waiting(desk, 0)] = 1;
        }),
        ("neither an entry nor a new report", |desk, _| {
            desk.waiting.news[first_waiting(desk, 1)] = 0;
        }),
        ("an entry is gone", |desk, pages| {
            let (_, page) = settled(desk, pages);
            take_out_last(pages, page);
        }),
    ]);
}

#[test]
fn memo_lines() {
    all_turned_down(&[
        ("a missed count too high", |desk, _| lines(desk)[0].missed += 1),
        ("a missed count too low", |desk, _| lines(desk)[0].missed -= 1),
        ("a missed count of 65,535", |desk, _| lines(desk)[0].missed = 65535),
        ("lines that fall", |desk, _| lines(desk).swap(0, 1)),
        ("a radio with two lines", |desk, _| {
            lines(desk)[1].radio = lines(desk)[0].radio
        }),
        ("a line is gone", |desk, _| {
            desk.parts.lines -= 1;
            desk.memo[usize::from(desk.parts.lines)] = Line::default();
        }),
        ("a line for nothing", |desk, _| {
            desk.memo[usize::from(desk.parts.lines)] = Line {
                radio: 4095,
                missed: 1,
                placed: 0,
                east: 0,
                north: 0,
            };
            desk.parts.lines += 1;
        }),
        ("a line with another place", |desk, _| {
            let line = lines(desk)
                .iter_mut()
                .find(|line| line.placed == 1)
                .expect("a line with a place");
            line.east ^= 1;
        }),
        ("a line that calls its stale entry good", |desk, pages| {
            let all = stored(desk, pages);
            let line = lines(desk)
                .iter_mut()
                .find(|line| line.placed == 0)
                .expect("a line without a place");
            let place = all
                .iter()
                .find(|entry| entry.radio == line.radio)
                .expect("its stale entry")
                .place;
            (line.placed, line.east, line.north) = (1, place.0, place.1);
        }),
        ("a mark that is neither 0 nor 1", |desk, _| {
            lines(desk)
                .iter_mut()
                .find(|line| line.placed == 1)
                .expect("a line with a place")
                .placed = 2;
        }),
        ("a place where there is none", |desk, _| {
            lines(desk)
                .iter_mut()
                .find(|line| line.placed == 0)
                .expect("a line without a place")
                .north = 1;
        }),
        ("a line past the count", |desk, _| desk.memo[1151].east = 1),
    ]);
}

#[test]
fn waiting_reports() {
    all_turned_down(&[
        ("reports that fall", |desk, _| {
            for column in columns(desk) {
                column.swap(0, 1);
            }
        }),
        ("radios that fall", |desk, _| desk.waiting.radios.swap(0, 1)),
        ("a radio with two reports", |desk, _| {
            desk.waiting.radios[1] = desk.waiting.radios[0]
        }),
        ("eight in a memory cell", |desk, _| {
            desk.waiting.easts[..8].fill(1);
            desk.waiting.norths[..8].fill(1);
        }),
        ("a mark that is neither 0 nor 1", |desk, _| desk.waiting.news[0] = 2),
        ("a report past the count", |desk, _| desk.waiting.radios[127] = 4095),
        ("a whole report past the count", |desk, _| {
            desk.waiting.put_report(past_waiting(desk), desk.waiting.report_at(0))
        }),
        ("an empty slot counts", |desk, _| desk.parts.waiting += 1),
        ("a new report is gone", |desk, _| {
            let at = first_waiting(desk, 1);
            let last = past_waiting(desk) - 1;
            for column in columns(desk) {
                column.copy_within(at + 1.., at);
                column[last] = 0;
            }
            desk.parts.waiting -= 1;
        }),
    ]);
}

/// A sound store has no entry or waiting report above the highest minute: by one or by many, in the lower half of the minute or
/// in the higher.
#[test]
fn minutes() {
    all_turned_down(&[
        ("an entry a minute too late", |desk, pages| {
            let (_, page) = settled(desk, pages);
            set_minute(pages, page, 0, desk.parts.highest + 1);
        }),
        ("an entry 65,536 minutes too late", |desk, pages| {
            let (_, page) = settled(desk, pages);
            set_minute(pages, page, 1, desk.parts.highest + 65536);
        }),
        ("the last entry of a full page at the last minute", |desk, pages| {
            set_minute(pages, long(desk, pages), 31, u32::MAX)
        }),
        ("a further page's entry too late", |desk, pages| {
            let further = field(pages, long(desk, pages), NEXT);
            set_minute(pages, further, 0, desk.parts.highest + 1);
        }),
        ("a stale entry too late", |desk, pages| {
            let (page, i) = a_stale_one(desk, pages);
            set_minute(pages, page, i, desk.parts.highest + 1);
        }),
        ("the halves of an entry's minute exchanged", |desk, pages| {
            let (_, page) = settled(desk, pages);
            set_minute(pages, page, 0, desk.parts.highest.rotate_left(16));
        }),
        ("a waiting report a minute too late", |desk, _| {
            waits_since(desk, 0, desk.parts.highest + 1)
        }),
        ("a waiting report 65,536 minutes too late", |desk, _| {
            waits_since(desk, 0, desk.parts.highest + 65536)
        }),
        ("the last that waits at the last minute", |desk, _| {
            waits_since(desk, past_waiting(desk) - 1, u32::MAX)
        }),
        ("the halves of a report's minute exchanged", |desk, _| {
            waits_since(desk, 0, desk.parts.highest.rotate_left(16))
        }),
        ("no highest minute", |desk, _| desk.parts.highest = 0),
        ("a highest minute below those that wait", |desk, _| {
            let latest = desk.reports_in_use().map(|report| report.minute).max();
            desk.parts.highest = latest.expect("some wait") - 1;
        }),
        ("a highest minute without its higher half", |desk, _| {
            desk.parts.highest %= 65536
        }),
    ]);
}

/// A store in which nothing waits: its highest minute may go down to the latest entry's, and no further.
#[test]
fn the_highest_minute_of_entries_alone() {
    let mut both = Both::fresh();
    for radio in 1..=8 {
        let minute = 100 * u32::from(radio);
        let (east, north) = (radio, 1);
        both.record(Record::SignOn {
            radio,
            east,
            north,
            minute,
        });
    }
    both.record(Record::SignOff { radio: 1, minute: 900 });
    let sound_at = |highest| {
        let mut store = both.store.clone();
        store.parts_mut().0.parts.highest = highest;
        !is_turned_down(&store)
    };
    assert_eq!(both.store.desk().parts.waiting, 0);
    for (highest, sound) in [
        (900, true),
        (801, true),
        (800, true),
        (799, false),
        (0, false),
        (u32::MAX, true),
    ] {
        assert_eq!(sound_at(highest), sound, "{highest}");
    }
}

/// The radio becomes a member, or is one no longer.
fn turn(watch: &mut Watch, radio: u16) {
    watch.members[usize::from(radio / 16)] ^= 1 << (radio % 16);
}

fn first_member(desk: &Desk, watch: usize) -> u16 {
    desk.watches[watch].members().next().expect("a member")
}

/// The entry of a member, its latest place, goes a metre aside and stays in its cell.
fn step_aside(desk: &Desk, pages: &mut [u8], watch: usize) {
    let waits = |radio| desk.reports_in_use().any(|report| report.radio == radio);
    let slots = desk.cells_in_use().iter();
    let mut first_pages = slots.flat_map(|slot| (0..entries(pages, slot.first)).map(move |i| (slot, i)));
    let is_latest = |(slot, i): &(&Slot, usize)| {
        let radio = field(pages, slot.first, entry(*i, 0));
        desk.watches[watch].has_member(radio) && line_of(desk, radio).is_none() && !waits(radio)
    };
    let (slot, i) = first_pages.find(is_latest).expect("an entry of a member");
    let east = field(pages, slot.first, entry(i, 1));
    let aside = if east < slot.east { east + 1 } else { east - 1 };
    set(pages, slot.first, entry(i, 1), aside);
}

#[test]
fn watches_and_their_members() {
    let store = watched();
    all_turned_down_of(
        &store,
        &[
            ("a member is missing", |desk, _| {
                let radio = first_member(desk, ALL);
                turn(&mut desk.watches[ALL], radio);
            }),
            ("the only members are missing", |desk, _| {
                desk.watches[CAR_PARK].members.fill(0)
            }),
            ("a member that is on elsewhere", |desk, _| {
                let radio = first_member(desk, ALL);
                turn(&mut desk.watches[NOBODY], radio);
            }),
            ("a member that is off", |desk, _| turn(&mut desk.watches[ALL], 4000)),
            ("radio 4,095 is a member", |desk, _| turn(&mut desk.watches[ALL], 4095)),
            ("radio 0 is a member", |desk, _| turn(&mut desk.watches[ALL], 0)),
            ("radio 0 is a member of one that takes in nobody", |desk, _| {
                turn(&mut desk.watches[NOBODY], 0)
            }),
            ("the members of two exchanged", |desk, _| {
                let members = desk.watches[ALL].members;
                desk.watches[ALL].members = desk.watches[WEST].members;
                desk.watches[WEST].members = members;
            }),
            ("everyone is a member", |desk, _| desk.watches[ALL].members.fill(65535)),
            ("a rectangle that ends later", |desk, _| desk.watches[WEST].east = 65535),
            ("a rectangle that ends sooner", |desk, _| desk.watches[ALL].north = 1),
            ("west above east", |desk, _| desk.watches[NOBODY].west = 6),
            ("south above north", |desk, _| desk.watches[NOBODY].south = 6),
            ("reversed, with no member", |desk, _| {
                desk.watches[WEST] = Watch {
                    set: 1,
                    west: 2,
                    east: 1,
                    ..Watch::UNSET
                }
            }),
            ("reversed at the last line, which takes in those on it", |desk, _| {
                desk.watches[NOBODY].south = 65535;
                desk.watches[NOBODY].north = 65534;
            }),
            ("a mark of 2", |desk, _| desk.watches[ALL].set = 2),
            ("a mark of 2 on one that takes in nobody", |desk, _| {
                desk.watches[NOBODY].set = 2
            }),
            ("a mark of 256", |desk, _| desk.watches[NOBODY].set = 256),
            ("a mark of 65,535", |desk, _| desk.watches[ALL].set = 65535),
            ("no mark, and a rectangle with members", |desk, _| {
                desk.watches[ALL].set = 0
            }),
            ("no mark, and a rectangle", |desk, _| desk.watches[NOBODY].set = 0),
            ("a mark of 2 on one that isn't set", |desk, _| {
                desk.watches[UNSET].set = 2
            }),
            ("an edge of one that isn't set", |desk, _| desk.watches[UNSET].north = 1),
            ("the whole map of one that isn't set", |desk, _| {
                desk.watches[UNSET].east = 65535;
                desk.watches[UNSET].north = 65535;
            }),
            ("a member of one that isn't set", |desk, _| {
                turn(&mut desk.watches[UNSET], 7)
            }),
            ("radio 0 is a member of one that isn't set", |desk, _| {
                turn(&mut desk.watches[UNSET], 0)
            }),
            ("an entry that leaves its watch", |desk, pages| {
                step_aside(desk, pages, CAR_PARK)
            }),
            ("one that takes in a report that waits, with no member", |desk, _| {
                let report = desk.waiting.report_at(0);
                desk.watches[NOBODY] = Watch {
                    set: 1,
                    west: report.east,
                    east: report.east + 1,
                    south: report.north,
                    north: report.north + 1,
                    ..Watch::UNSET
                };
            }),
        ],
    );
}

/// The same where no watch is set: nothing at all may stand there.
#[test]
fn watches_that_are_not_set() {
    all_turned_down(&[
        ("a mark alone, of 2", |desk, _| desk.watches[0].set = 2),
        ("a mark, and nobody in the whole map", |desk, _| {
            desk.watches[15] = Watch {
                set: 1,
                east: 65535,
                north: 65535,
                ..Watch::UNSET
            }
        }),
        ("an edge", |desk, _| desk.watches[0].west = 1),
        ("a rectangle", |desk, _| {
            desk.watches[15].east = 9;
            desk.watches[15].north = 9;
        }),
        ("a member", |desk, _| turn(&mut desk.watches[0], 1)),
        ("radio 0 is a member", |desk, _| turn(&mut desk.watches[15], 0)),
        ("a member who is on", |desk, _| {
            let radio = desk.on[0];
            turn(&mut desk.watches[15], radio);
        }),
    ]);
}

#[test]
fn every_bit_of_the_members_is_looked_at() {
    let store = watched();
    for watch in [UNSET, ALL, WEST, NOBODY, CAR_PARK] {
        for radio in 0..4096 {
            let mut other = store.clone();
            turn(&mut other.parts_mut().0.watches[watch], radio);
            assert!(!other.is_sound(), "radio {radio} in watch {watch}");
        }
    }
}

/// What no call set may still be sound: members as the places have them, whoever wrote them.
#[test]
fn watches_that_no_call_set() {
    let store = watched();
    let changes: [Change; 5] = [
        ("one that takes in nobody", |desk, _| desk.watches[UNSET].set = 1),
        ("another rectangle that takes in nobody", |desk, _| {
            desk.watches[NOBODY].west = 0;
            desk.watches[NOBODY].east = 0;
        }),
        ("the same twice", |desk, _| desk.watches[UNSET] = desk.watches[WEST]),
        ("all cleared", |desk, _| desk.watches = [Watch::UNSET; WATCHES]),
        ("an entry that moves inside its watches", |desk, pages| {
            step_aside(desk, pages, CAR_PARK);
            desk.watches[CAR_PARK] = Watch::UNSET;
        }),
    ];
    for change in &changes {
        assert!(!is_turned_down(&changed(&store, change)), "{}", change.0);
    }
}

#[test]
fn slots_past_the_count_are_zero() {
    all_turned_down(&[
        ("an east cut past the count", |desk, _| {
            desk.parts.frame.easts.at[14] = 65535
        }),
        ("a north cut past the count", |desk, _| {
            desk.parts.frame.norths.at[14] = 65535
        }),
        ("a cell past the count", |desk, _| desk.cells[63].north = 1),
        ("the radio of a report past the count", |desk, _| {
            desk.waiting.radios[past_waiting(desk)] = 4095
        }),
        ("the east of a report past the count", |desk, _| {
            desk.waiting.easts[past_waiting(desk)] = 1
        }),
        ("the north of a report past the count", |desk, _| {
            desk.waiting.norths[past_waiting(desk)] = 1
        }),
        ("the mark of a report past the count", |desk, _| {
            desk.waiting.news[past_waiting(desk)] = 1
        }),
        ("the lower half of a minute past the count", |desk, _| {
            desk.waiting.lows[past_waiting(desk)] = 1
        }),
        ("the higher half of a minute past the count", |desk, _| {
            desk.waiting.highs[past_waiting(desk)] = 1
        }),
        ("the lower half of the last slot's minute", |desk, _| {
            desk.waiting.lows[127] = 65535
        }),
        ("the higher half of the last slot's minute", |desk, _| {
            desk.waiting.highs[127] = 65535
        }),
        ("the east of the last slot", |desk, _| desk.waiting.easts[127] = 65535),
        ("the north of the last slot", |desk, _| desk.waiting.norths[127] = 65535),
        ("the mark of the last slot", |desk, _| desk.waiting.news[127] = 65535),
    ]);
}

/// The places in the desk of those of its 11,640 numbers of 16 bits that are past a count, or of a watch that isn't set.
fn past_the_counts(desk: &Desk) -> BTreeSet<usize> {
    let (parts, frame) = (&desk.parts, &desk.parts.frame);
    // where an array begins in the desk, in bytes; its slots; how many are in use; the numbers of a slot
    let arrays = [
        (offset_of!(Desk, parts.frame.easts.at), 15, frame.easts.n, 1),
        (offset_of!(Desk, parts.frame.norths.at), 15, frame.norths.n, 1),
        (offset_of!(Desk, cells), 64, frame.cells, 6),
        (offset_of!(Desk, waiting.radios), 128, parts.waiting, 1),
        (offset_of!(Desk, waiting.easts), 128, parts.waiting, 1),
        (offset_of!(Desk, waiting.norths), 128, parts.waiting, 1),
        (offset_of!(Desk, waiting.news), 128, parts.waiting, 1),
        (offset_of!(Desk, waiting.lows), 128, parts.waiting, 1),
        (offset_of!(Desk, waiting.highs), 128, parts.waiting, 1),
        (offset_of!(Desk, memo), 1152, parts.lines, 5),
        (offset_of!(Desk, on), 512, parts.on, 1),
    ];
    let past = |(at, slots, n, fields)| at / 2 + fields * usize::from(n)..at / 2 + fields * slots;
    // a mark alone is a watch that takes in nobody
    let unmarked = |w: usize| {
        let at = offset_of!(Desk, watches) / 2 + WATCH_NUMBERS * w;
        at + 1..at + WATCH_NUMBERS
    };
    let unset = (0..WATCHES).filter(|w| !desk.watches[*w].is_set());
    arrays
        .into_iter()
        .flat_map(past)
        .chain(unset.flat_map(unmarked))
        .collect()
}

/// The numbers of 16 bits of a watch.
const WATCH_NUMBERS: usize = size_of::<Watch>() / 2;

/// The store with other numbers at these places of the desk.
fn with_numbers(store: &Store, numbers: &[(usize, u16)]) -> Store {
    let mut bytes = store.desk().as_bytes().to_vec();
    for (at, number) in numbers {
        bytes[2 * at..2 * at + 2].copy_from_slice(&number.to_ne_bytes());
    }
    let mut other = store.clone();
    *other.parts_mut().0 = Desk::from_bytes(&bytes).expect("a desk's bytes");
    other
}

#[test]
fn every_number_past_a_count_is_looked_at() {
    for store in [rich(), watched()] {
        look_past_the_counts(&store);
    }
}

fn look_past_the_counts(store: &Store) {
    let past = past_the_counts(store.desk());
    assert!(!is_turned_down(store) && past.len() > 7_000);
    for at in &past {
        assert!(with_numbers(store, &[(*at, 0)]) == *store, "number {at} is zero");
        assert!(is_turned_down(&with_numbers(store, &[(*at, 1)])), "number {at}");
        // two that are zero when they are added in 16 bits: beside each other, and in the same slot of two columns
        for other in [at + 1, at + 128] {
            if past.contains(&other) {
                let both = with_numbers(store, &[(*at, 1), (other, 65535)]);
                assert!(!both.is_sound(), "numbers {at} and {other}");
            }
        }
    }
}

/// What no run makes may still be sound: number 2 asks for no more than the clauses.
#[test]
fn sound_stores_that_no_run_makes() {
    let store = rich();
    let changes: [Change; 8] = [
        ("a cut that no cell needs", |desk, _| {
            let last = usize::from(desk.parts.frame.easts.n);
            assert!(last < 15 && desk.parts.frame.easts.at[last - 1] < 65535);
            desk.parts.frame.easts.at[last] = 65535;
            desk.parts.frame.easts.n += 1;
        }),
        ("two cells exchanged in the round", |desk, _| desk.cells.swap(0, 1)),
        ("a radio off whose line has a place", |desk, _| {
            let line = lines(desk)
                .iter_mut()
                .find(|line| line.placed == 0 && line.radio < 4000);
            let line = line.expect("a line without a place");
            (line.placed, line.east, line.north) = (1, 77, 77);
        }),
        ("a highest minute that no record brought", |desk, _| {
            desk.parts.highest = u32::MAX
        }),
        ("an entry as late as the highest minute", |desk, pages| {
            let (_, page) = settled(desk, pages);
            set_minute(pages, page, 0, desk.parts.highest);
            set_minute(pages, page, 1, desk.parts.highest - 1);
        }),
        ("an entry of the first minute", |desk, pages| {
            let (_, page) = settled(desk, pages);
            set_minute(pages, page, 0, 0);
        }),
        ("a waiting report as late as the highest minute", |desk, _| {
            waits_since(desk, 0, desk.parts.highest);
            waits_since(desk, 1, desk.parts.highest - 1);
        }),
        ("a waiting report of the first minute", |desk, _| {
            waits_since(desk, 0, 0)
        }),
    ];
    for change in &changes {
        assert!(!is_turned_down(&changed(&store, change)), "{}", change.0);
    }
}

/// For every k the stale entries in cells at place k and later, plus all waiting, are at most 16 × (63 − k) + c + 127.
fn within_bound(desk: &Desk, pages: &[u8]) -> bool {
    let mut stale = vec![0; desk.cells_in_use().len()];
    for entry in stored(desk, pages) {
        stale[entry.round] += usize::from(is_stale(desk, entry.radio, entry.place));
    }
    let tail = |k: usize| stale[k..].iter().sum::<usize>() + desk.reports_in_use().len();
    (0..stale.len()).all(|k| tail(k) <= 16 * (63 - k) + usize::from(desk.parts.tally) + 127)
}

#[test]
fn stale_entries_late_in_the_round() {
    let mut random = Xorshift::new(12);
    let mut both = Both::fresh();
    let (mut broken, mut kept) = (0, 0);
    let mut spread = 0;
    while broken < 20 {
        assert!(both.calls() < 400_000, "a run that comes near the bound");
        // A crowd that crosses the square makes 64 cells; then everyone reports from anywhere.
        let way = both.calls() % 40_000;
        let along = (3 * way.min(40_000 - way)) as u16;
        spread = if both.store.desk().parts.frame.cells == 64 {
            600
        } else {
            usize::saturating_sub(spread, 1)
        };
        let step = if spread > 0 { 65535 } else { 4000 };
        let (east, north) = (random.near(along, step), random.near(along / 2, step));
        let radio = random.within(1, 512);
        let minute = both.clock();
        both.record(match both.plain.place(radio) {
            None => Record::SignOn {
                radio,
                east,
                north,
                minute,
            },
            Some(_) => Record::Report {
                radio,
                east,
                north,
                minute,
            },
        });
        let desk = both.store.desk();
        if desk.parts.frame.cells < 64 || desk.parts.waiting < 124 {
            continue;
        }
        assert!(within_bound(desk, both.store.pages()));
        for place in 0..64 {
            let mut moved = both.store.clone();
            moved.parts_mut().0.cells[place..].rotate_left(1);
            let sound = within_bound(moved.desk(), moved.pages());
            assert_eq!(
                is_turned_down(&moved),
                !sound,
                "the cell at place {place} moved to the end of the round"
            );
            broken += usize::from(!sound);
            kept += usize::from(sound);
        }
    }
    assert!(kept > 20);
}

/// Any bytes at all: the call ends, and if it is turned down it keeps every byte.
#[test]
fn stores_in_any_condition() {
    let mut random = Xorshift::new(13);
    let stores = [rich(), watched()];
    let mut sound = 0;
    for i in 0..20_000 {
        let mut other = stores[i % 2].clone();
        let (desk, pages) = other.parts_mut();
        for _ in 0..1 + random.below(3) {
            let value = if random.once_in(2) {
                random.coordinate()
            } else {
                random.within(0, 130)
            };
            let (page, at) = (random.within(0, PAGES as u16 - 1), random.below(PAGE_BYTES / 2));
            match random.below(16) {
                0 => desk.parts.frame.easts.at[random.below(15)] = value,
                1 => desk.parts.frame.norths.n = value,
                2 => desk.cells[random.below(64)].first = value,
                3 => desk.cells[random.below(64)].north = value,
                4 => desk.parts.frame.free = value,
                5 => columns(desk)[random.below(6)][random.below(128)] = value,
                6 => desk.memo[random.below(40)].missed = value,
                7 => desk.on[random.below(512)] = value,
                8 => desk.parts.tally = value,
                9 => desk.parts.highest = FIRST_MINUTE + u32::from(value),
                10 => desk.watches[random.below(16)].set = value % 3,
                11 => desk.watches[random.below(16)].east = value,
                12 => desk.watches[random.below(16)].members[random.below(256)] = value,
                _ => set(pages, page, at, value),
            }
        }
        let before = other.clone();
        let mut buffer = [0x5a; 3072];
        let requests = requests();
        let answer = requests[random.below(requests.len())].hand_to(&mut other, &mut buffer);
        let refusal = answer.refusal();
        if refusal.is_some() {
            assert!(other == before && buffer == [0x5a; 3072]);
        }
        let was_sound = refusal != Some(Refusal::Unsound);
        assert_eq!(before.is_sound(), was_sound);
        assert_eq!(other.is_sound(), was_sound, "a call keeps a sound store sound");
        sound += usize::from(was_sound);
    }
    println!("{sound} of 20,000 changed stores are still sound");
}
