//! Watched rectangles: each keeps its members, by place and whatever their age, and every accepted sign-on, report or sign-off says which watches gained its
//! radio, and which lost it. `Both` compares each answer, and each watch to the byte, with the plain list; here members are also held against ranges.
#![forbid(unsafe_code)]
use boragefile::{Desk, Record, Rectangle, Refusal, Store, Watch, ENTRY_BYTES, KEPT_MINUTES, PAGES_BYTES, WATCHES};
use conformance::{Both, Told, Xorshift};

const ACCEPTED: u16 = 0;
const LAST: u16 = 65535;
const MAP: Rectangle = area(0, LAST, 0, LAST);

const fn area(west: u16, east: u16, south: u16, north: u16) -> Rectangle {
    Rectangle {
        west,
        east,
        south,
        north,
    }
}

fn on(radio: u16, (east, north): (u16, u16), minute: u32) -> Record {
    Record::SignOn {
        radio,
        east,
        north,
        minute,
    }
}

fn report(radio: u16, (east, north): (u16, u16), minute: u32) -> Record {
    Record::Report {
        radio,
        east,
        north,
        minute,
    }
}

fn off(radio: u16, minute: u32) -> Record {
    Record::SignOff { radio, minute }
}

fn range(area: Rectangle, minute: u32) -> Record {
    Record::Range {
        west: area.west,
        east: area.east,
        south: area.south,
        north: area.north,
        minute,
    }
}

fn set(both: &mut Both, watch: u16, area: Rectangle) {
    assert_eq!(both.watch_set(watch, area).number, ACCEPTED, "watch {watch}, {area:?}");
}

fn accept(both: &mut Both, record: Record) -> Told {
    let told = both.record(record);
    assert_eq!(told.number, ACCEPTED, "{record:?}");
    told
}

/// The watches whose bits are set.
fn numbers(bits: u16) -> Vec<u16> {
    (0..16).filter(|w| bits >> w & 1 == 1).collect()
}

/// Hands in a record that is accepted, and that just these watches gain and lose the radio of.
fn expect_moved(both: &mut Both, record: Record, gained: &[u16], lost: &[u16]) {
    let told = accept(both, record);
    assert_eq!(
        (numbers(told.gained), numbers(told.lost)),
        (gained.to_vec(), lost.to_vec()),
        "{record:?}"
    );
}

fn members(both: &Both, watch: u16) -> Vec<u16> {
    both.store.desk().watch(watch).expect("it is set").members().collect()
}

/// The radios that a range finds.
fn found(both: &mut Both, area: Rectangle, minute: u32) -> Vec<u16> {
    let told = accept(both, range(area, minute));
    let radio = |entry: &[u8]| u16::from_le_bytes([entry[0], entry[1]]);
    told.list.chunks_exact(ENTRY_BYTES).map(radio).collect()
}

/// Each watch that is set has the members that a range over its rectangle lists, asked when nobody is too old.
fn compare_with_ranges(both: &mut Both) {
    let minute = both.plain.highest();
    assert!(both.plain.latest().all(|(_, fix)| minute - fix.minute <= KEPT_MINUTES));
    let watches: Vec<(u16, Rectangle)> = both
        .store
        .desk()
        .watches_set()
        .map(|(w, watch)| (w, watch.rectangle()))
        .collect();
    for (w, area) in watches {
        assert_eq!(found(both, area, minute), members(both, w), "watch {w}, {area:?}");
    }
}

/// Sixteen that overlap, lie inside one another, share edges and corners, cover the map, or take in nobody.
const SIXTEEN: [Rectangle; WATCHES] = [
    MAP,
    area(0, 30000, 0, 30000),
    area(30000, LAST, 0, 30000),
    area(0, 30000, 30000, LAST),
    area(30000, LAST, 30000, LAST),
    area(20000, 40000, 20000, 40000),
    area(25000, 35000, 25000, 35000),
    area(29999, 30000, 0, LAST),
    area(5, 5, 5, 5),
    area(30000, 30000, 0, LAST),
    area(LAST, LAST, LAST, LAST),
    area(LAST, LAST, 0, LAST),
    area(0, 1, 0, 1),
    area(0, LAST, 30000, 30001),
    area(30000, 30001, 30000, 30001),
    area(0, LAST - 1, 0, LAST - 1),
];

/// Of these, two that have no place in them, and the one that has only (0,0), which no radio with a fix sends.
const TAKE_IN_NOBODY: [usize; 3] = [8, 9, 12];

/// Where the edges of these are, and beside them.
const NEAR_EDGES: [u16; 17] = [
    0,
    1,
    2,
    5,
    19999,
    20000,
    25000,
    29999,
    30000,
    30001,
    34999,
    35000,
    39999,
    40000,
    LAST - 2,
    LAST - 1,
    LAST,
];

fn place(random: &mut Xorshift) -> (u16, u16) {
    loop {
        let place = match random.below(4) {
            0 => (random.coordinate(), random.coordinate()),
            1 => (random.pick(&NEAR_EDGES), random.coordinate()),
            _ => (random.pick(&NEAR_EDGES), random.pick(&NEAR_EDGES)),
        };
        // without a fix it would be turned down
        if place != (0, 0) {
            return place;
        }
    }
}

/// What some radio sends next, at a minute of the first twelve hours. Some numbers lie beside each other, or at the ends.
fn sends(random: &mut Xorshift, both: &Both) -> Record {
    let minute = (both.plain.highest() + u32::from(random.once_in(20))).min(KEPT_MINUTES);
    let radio = match random.below(2) {
        0 => random.within(1, 40),
        _ => random.pick(&[1, 15, 16, 17, 31, 32, 4079, 4080, 4094, 4095]),
    };
    match (both.plain.place(radio).is_some(), random.once_in(6)) {
        (false, _) => on(radio, place(random), minute),
        (true, true) => off(radio, minute),
        (true, false) => report(radio, place(random), minute),
    }
}

#[test]
fn sixteen_watches_have_the_members_that_ranges_list_after_every_call() {
    let mut random = Xorshift::new(5);
    let mut both = Both::fresh();
    let (mut gained, mut lost) = ([0; WATCHES], [0; WATCHES]);
    for (w, area) in (0..).zip(SIXTEEN) {
        set(&mut both, w, area);
    }
    for i in 0..6_000 {
        let record = sends(&mut random, &both);
        let told = both.record(record);
        numbers(told.gained).iter().for_each(|w| gained[usize::from(*w)] += 1);
        numbers(told.lost).iter().for_each(|w| lost[usize::from(*w)] += 1);
        compare_with_ranges(&mut both);
        // one of them is set anew, under another's number too, or cleared for a while
        let w = random.within(0, 15);
        match i % 40 {
            10 => set(&mut both, w, random.pick(&SIXTEEN)),
            20 => drop(both.watch_clear(w)),
            30 => (0..).zip(SIXTEEN).for_each(|(w, area)| set(&mut both, w, area)),
            _ => continue,
        }
        compare_with_ranges(&mut both);
        both.compare_watches();
    }
    println!("gained {gained:?}, lost {lost:?}");
    for w in (0..WATCHES).filter(|w| !TAKE_IN_NOBODY.contains(w)) {
        assert!(gained[w].min(lost[w]) > 10, "watch {w}");
    }
}

#[test]
fn each_edge_is_as_a_range_s() {
    let mut both = Both::fresh();
    set(&mut both, 3, area(100, 200, 300, 400));
    set(&mut both, 4, area(200, LAST, 400, LAST));
    accept(&mut both, on(7, (50, 50), 0));
    let outside = (50, 50);
    let places = [
        ((100, 300), 3),
        ((199, 399), 3),
        ((199, 300), 3),
        ((100, 399), 3),
        ((200, 400), 4),
        ((LAST, LAST), 4),
        ((LAST, 400), 4),
        ((200, LAST), 4),
    ];
    for (place, watch) in places {
        expect_moved(&mut both, report(7, place, 0), &[watch], &[]);
        assert_eq!(members(&both, watch), [7]);
        expect_moved(&mut both, report(7, place, 0), &[], &[]);
        expect_moved(&mut both, report(7, outside, 0), &[], &[watch]);
        assert_eq!(members(&both, watch), []);
    }
    for place in [(99, 300), (100, 299), (200, 399), (199, 400), (200, 300), (199, LAST)] {
        expect_moved(&mut both, report(7, place, 0), &[], &[]);
    }
}

#[test]
fn sign_on_report_and_sign_off_say_who_gained_and_who_lost() {
    let mut both = Both::fresh();
    for w in [0, 5, 15] {
        set(&mut both, w, MAP);
    }
    set(&mut both, 1, area(0, 100, 0, LAST));
    set(&mut both, 2, area(100, 200, 0, LAST));
    expect_moved(&mut both, on(7, (50, 50), 0), &[0, 1, 5, 15], &[]);
    expect_moved(&mut both, report(7, (60, 60), 0), &[], &[]);
    expect_moved(&mut both, report(7, (100, 60), 0), &[2], &[1]);
    expect_moved(&mut both, report(7, (99, 60), 0), &[1], &[2]);
    expect_moved(&mut both, report(7, (200, 60), 0), &[], &[1]);
    expect_moved(&mut both, report(7, (150, 60), 0), &[2], &[]);
    expect_moved(&mut both, off(7, 0), &[], &[0, 2, 5, 15]);
    expect_moved(&mut both, on(8, (150, 60), 0), &[0, 2, 5, 15], &[]);
    // neither a range nor what is turned down moves anyone
    for record in [on(8, (50, 50), 0), report(7, (50, 50), 0), off(7, 0), range(MAP, 0)] {
        let told = both.record(record);
        assert_eq!((told.gained, told.lost), (0, 0), "{record:?}");
    }
    // with no watch set nothing is said
    for w in [0, 1, 2, 5, 15] {
        assert_eq!(both.watch_clear(w).number, ACCEPTED);
    }
    expect_moved(&mut both, report(8, (50, 50), 0), &[], &[]);
    expect_moved(&mut both, off(8, 0), &[], &[]);
}

#[test]
fn a_watch_has_its_members_at_once_and_setting_again_replaces() {
    let mut both = Both::fresh();
    // eight that are stored, four of them with a report that waits elsewhere, and one that is off and still has its entry
    for radio in 1..=8 {
        accept(&mut both, on(radio, (100 * radio, 100), 0));
    }
    assert_eq!(both.store.desk().parts.waiting, 0);
    for radio in 1..=4 {
        accept(&mut both, report(radio, (1000 + radio, 1000), 0));
    }
    accept(&mut both, off(8, 0));
    set(&mut both, 9, MAP);
    assert_eq!(members(&both, 9), [1, 2, 3, 4, 5, 6, 7]);
    set(&mut both, 9, area(0, 900, 0, 900));
    assert_eq!(members(&both, 9), [5, 6, 7]);
    set(&mut both, 9, area(1002, 1004, 1000, 1001));
    assert_eq!(members(&both, 9), [2, 3]);
    set(&mut both, 9, area(5, 5, 5, 5));
    assert_eq!(members(&both, 9), []);
    // turned down, it stays as it was
    set(&mut both, 9, area(0, 900, 0, 900));
    assert_eq!(both.watch_set(9, area(6, 5, 0, 9)).number, Refusal::Rectangle.number());
    assert_eq!(members(&both, 9), [5, 6, 7]);
    assert_eq!(both.watch_clear(9).number, ACCEPTED);
    assert!(both.store.desk().watches == [Watch::UNSET; WATCHES]);
    compare_with_ranges(&mut both);
}

/// "Each keeps its members, by place and whatever their age": a range leaves them out, a watch does not.
#[test]
fn members_stay_whatever_their_age() {
    for stored in [false, true] {
        let mut both = Both::fresh();
        set(&mut both, 0, MAP);
        let last = if stored { 8 } else { 3 };
        for radio in 1..=last {
            accept(&mut both, on(radio, (radio, 100), 0));
        }
        assert_eq!(both.store.desk().parts.waiting == 0, stored);
        let everyone: Vec<u16> = (1..=last).collect();
        for minute in [KEPT_MINUTES, KEPT_MINUTES + 1, u32::MAX] {
            let listed = found(&mut both, MAP, minute);
            assert_eq!(listed.is_empty(), minute > KEPT_MINUTES, "at {minute}");
            assert_eq!(members(&both, 0), everyone, "at {minute}");
        }
        // the highest minute is far beyond them now
        expect_moved(&mut both, on(20, (20, 100), u32::MAX), &[0], &[]);
        assert_eq!(found(&mut both, MAP, u32::MAX), [20]);
        set(&mut both, 1, MAP);
        let with_20: Vec<u16> = everyone.iter().copied().chain([20]).collect();
        assert_eq!(members(&both, 1), with_20);
        // who comes back from silence at the same place was a member all the time
        expect_moved(&mut both, report(1, (1, 100), u32::MAX), &[], &[]);
        expect_moved(&mut both, off(2, u32::MAX), &[], &[0, 1]);
        assert!(both.store.is_sound());
    }
}

#[test]
fn all_who_may_be_on_in_all_watches() {
    let mut both = Both::fresh();
    for w in 0..16 {
        set(&mut both, w, MAP);
    }
    let all: Vec<u16> = (0..16).collect();
    let radios: Vec<u16> = (0..512).map(|i| if i == 0 { 1 } else { 8 * i + 7 }).collect();
    assert_eq!(radios.last(), Some(&4095));
    for radio in &radios {
        expect_moved(&mut both, on(*radio, (16 * radio, 5), 0), &all, &[]);
    }
    assert_eq!(both.record(on(2, (1, 1), 0)).number, Refusal::Full.number());
    for w in 0..16 {
        assert_eq!(members(&both, w), radios);
    }
    both.compare_watches();
    for radio in &radios {
        expect_moved(&mut both, off(*radio, 0), &[], &all);
    }
    assert!((0..16).all(|w| members(&both, w).is_empty()));
}

// ---- the numbers

/// A store with something in every part: watches 0 and 15 are set.
fn with_watches() -> Store {
    let mut store = Store::fresh();
    for radio in 1..=50 {
        let record = on(radio, (1000 * radio, 1000), 0);
        assert!(store.call(&record.to_bytes(), &mut []).is_accepted());
    }
    assert!(store.watch_set(0, area(0, 30000, 0, 30000)).is_accepted());
    assert!(store.watch_set(15, MAP).is_accepted());
    store
}

/// Not a sound store's: in the desk's parts, in the watch that is spoken of, in another, and in the pages.
const DAMAGES: [fn(&mut Desk, &mut [u8]); 4] = [
    |desk, _| desk.parts.tally = 16,
    |desk, _| desk.watches[0].members[255] = 0x8000,
    |desk, _| desk.watches[15].set = 2,
    |_, pages| pages[PAGES_BYTES - 1] = 1,
];

/// Makes a call on desk and pages, and expects this number; turned down, it keeps every byte of both.
fn expect_number(
    store: &Store,
    pages: &[u8],
    expected: u16,
    call: impl Fn(&mut Desk, &[u8]) -> boragefile::Answer<'static>,
) {
    let mut desk = store.desk().clone();
    let lent = pages.to_vec();
    let answer = call(&mut desk, &lent);
    assert_eq!((answer.number(), answer.count()), (expected, 0));
    assert!(answer.gained().is_empty() && answer.lost().is_empty());
    assert!(lent == pages);
    assert_eq!(desk != *store.desk(), expected == ACCEPTED, "{answer:?}");
}

/// Both calls on this store, with numbers and rectangles that are right and wrong, and with pages of these lengths. `turned_down` is the
/// number of a check that comes before all others.
fn try_every_argument(store: &Store, pages: &[u8], turned_down: Option<Refusal>) {
    let first = turned_down.map(Refusal::number);
    for watch in [0, 1, 14, 15, 16, 17, 255, 256, LAST] {
        let no_watch = watch > 15;
        for (area, reversed) in [
            (area(1, 2, 1, 2), false),
            (area(7, 7, 7, 7), false),
            (area(2, 1, 1, 2), true),
            (area(1, 2, 2, 1), true),
            (area(LAST, 0, LAST, 0), true),
        ] {
            let later = match (no_watch, reversed) {
                (true, _) => Refusal::NoWatch.number(),
                (false, true) => Refusal::Rectangle.number(),
                (false, false) => ACCEPTED,
            };
            let call = |desk: &mut Desk, pages: &[u8]| boragefile::watch_set(desk, pages, watch, area);
            expect_number(store, pages, first.unwrap_or(later), call);
        }
        let later = if watch == 0 || watch == 15 {
            ACCEPTED
        } else {
            Refusal::NoWatch.number()
        };
        let call = |desk: &mut Desk, pages: &[u8]| boragefile::watch_clear(desk, pages, watch);
        expect_number(store, pages, first.unwrap_or(later), call);
    }
}

#[test]
fn each_number_comes_in_its_order_and_keeps_every_byte() {
    let store = with_watches();
    try_every_argument(&store, store.pages(), None);
    let unsound = DAMAGES.map(|damage| {
        let mut other = store.clone();
        let (desk, pages) = other.parts_mut();
        damage(desk, pages);
        other
    });
    for other in &unsound {
        try_every_argument(other, other.pages(), Some(Refusal::Unsound));
    }
    for length in [0, 1, 25600, PAGES_BYTES - 1, PAGES_BYTES + 1, 2 * PAGES_BYTES] {
        for other in unsound.iter().chain([&store]) {
            let mut pages = other.pages().to_vec();
            pages.resize(length, 0);
            try_every_argument(other, &pages, Some(Refusal::PageBuffer));
        }
    }
}

#[test]
fn clearing_one_that_is_not_set_is_turned_down_before_and_after() {
    let mut both = Both::fresh();
    for w in (0..16).chain([16, LAST]) {
        assert_eq!(both.watch_clear(w).number, Refusal::NoWatch.number(), "{w}");
    }
    for w in 0..16 {
        set(&mut both, w, MAP);
        assert_eq!(both.watch_clear(w).number, ACCEPTED);
        assert_eq!(both.watch_clear(w).number, Refusal::NoWatch.number(), "{w}");
    }
}

/// The comparison itself: a desk that has lost a watch does not get through.
#[test]
#[should_panic(expected = "the watches that gained, and that lost")]
fn a_desk_that_forgets_a_watch_is_told_apart() {
    let mut both = Both::fresh();
    set(&mut both, 3, MAP);
    assert!(both.store.watch_clear(3).is_accepted());
    both.record(on(7, (1, 1), 0));
}

/// And neither does one that keeps another rectangle.
#[test]
#[should_panic(expected = "watch 3")]
fn a_desk_that_sets_another_rectangle_is_told_apart() {
    let mut both = Both::fresh();
    set(&mut both, 3, area(0, 9, 0, 9));
    assert!(both.store.watch_set(3, area(0, 8, 0, 9)).is_accepted());
    both.compare_watches();
}
