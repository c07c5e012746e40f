//! The worked points, on the running desk and beside the plain list.
#![forbid(unsafe_code)]
use boragefile::{
    begin, call, is_sound, Answer, Desk, Located, Record, Refusal, Store, LIST_BYTES, PAGES_BYTES, PAGE_BYTES,
};
use conformance::Both;

/// The points stand with every minute 0, as the listing does.
const MINUTE: u32 = 0;

fn on(radio: u16, east: u16, north: u16) -> Record {
    Record::SignOn {
        radio,
        east,
        north,
        minute: MINUTE,
    }
}

fn report(radio: u16, east: u16, north: u16) -> Record {
    Record::Report {
        radio,
        east,
        north,
        minute: MINUTE,
    }
}

fn off(radio: u16) -> Record {
    Record::SignOff { radio, minute: MINUTE }
}

fn range(west: u16, east: u16, south: u16, north: u16) -> Record {
    Record::Range {
        west,
        east,
        south,
        north,
        minute: MINUTE,
    }
}

/// Number and count of an accepted sign-on, report or sign-off.
const ACCEPTED: (u16, u64) = (0, 0);

fn found(count: u64) -> (u16, u64) {
    (0, count)
}

fn refused(refusal: Refusal) -> (u16, u64) {
    (refusal.number(), 0)
}

fn numbers(answer: Answer) -> (u16, u64) {
    (answer.number(), answer.count())
}

#[test]
fn the_journal_of_the_contract() {
    let mut both = Both::fresh();
    assert_eq!(both.record(on(7, 100, 200)).numbers(), ACCEPTED);
    assert_eq!(both.record(report(7, 300, 200)).numbers(), ACCEPTED);
    assert_eq!(both.record(range(0, 300, 0, 200)).numbers(), found(0));
    assert_eq!(both.record(range(0, 301, 0, 201)).numbers(), found(1));
    let mut buffer = [0; LIST_BYTES];
    let answer = both.store.call(&range(0, 301, 0, 201).to_bytes(), &mut buffer);
    let list = answer.list().expect("an accepted range has a list");
    let seven = Located {
        radio: 7,
        east: 300,
        north: 200,
    };
    assert_eq!(list.iter().collect::<Vec<_>>(), [seven]);
    assert_eq!(both.record(off(7)).numbers(), ACCEPTED);
    assert_eq!(both.record(range(0, 300, 0, 200)).numbers(), found(0));
    assert_eq!(both.record(off(7)).numbers(), refused(Refusal::NotOn));
}

#[test]
fn a_page_buffer_of_another_size_is_turned_down() {
    let mut desk = Desk::blank();
    for size in [
        0,
        1,
        PAGE_BYTES,
        25600,
        PAGES_BYTES - 1,
        PAGES_BYTES + 1,
        2 * PAGES_BYTES,
    ] {
        let mut pages = vec![7; size];
        assert_eq!(numbers(begin(&mut desk, &mut pages)), refused(Refusal::PageBuffer));
        assert!(desk == Desk::blank() && pages.iter().all(|byte| *byte == 7));
        let mut store = Store::fresh();
        let fresh = store.clone();
        let mut buffer = [9; 12];
        let answer = call(store.parts_mut().0, &mut pages, &on(1, 2, 3).to_bytes(), &mut buffer);
        assert_eq!(numbers(answer), refused(Refusal::PageBuffer));
        assert!(store == fresh && pages.iter().all(|byte| *byte == 7) && buffer == [9; 12]);
        let mut other = fresh.pages().to_vec();
        other.resize(size, 0);
        assert!(!is_sound(fresh.desk(), &other));
    }
}

#[test]
fn a_fresh_store_is_made_whatever_was_there() {
    let fresh = Store::fresh();
    let mut desk = Desk::blank();
    desk.parts.frame.easts.n = u16::MAX;
    desk.on = [65535; 512];
    let mut pages = vec![0xff; PAGES_BYTES];
    assert_eq!(numbers(begin(&mut desk, &mut pages)), ACCEPTED);
    assert!(desk == *fresh.desk() && pages == fresh.pages());
    assert!(is_sound(&desk, &pages));
    let frame = &desk.parts.frame;
    assert_eq!((frame.easts.n, frame.norths.n, frame.cells, frame.free), (0, 0, 1, 1));
}

#[test]
fn bytes_that_are_no_record() {
    let mut both = Both::fresh();
    assert_eq!(both.call(&[], 0).numbers(), refused(Refusal::Length));
    assert_eq!(both.call(&[4], 0).numbers(), refused(Refusal::Length));
    assert_eq!(both.call(&[4, 0, 1], 0).numbers(), refused(Refusal::Length));
    assert_eq!(both.call(&[3, 0, 1, 0], 0).numbers(), refused(Refusal::Length));
    assert_eq!(both.call(&[5, 0, 1, 0], 0).numbers(), refused(Refusal::Length));
    assert_eq!(both.call(&[4, 0, 9, 0], 0).numbers(), refused(Refusal::Kind));
    assert_eq!(both.call(&[4, 0, 0, 0], 0).numbers(), refused(Refusal::Kind));
    assert_eq!(
        both.call(&[14, 0, 3, 0, 1, 0, 1, 0, 1, 0, 0, 0, 0, 0], 0).numbers(),
        refused(Refusal::LengthOfKind)
    );
    assert_eq!(
        both.call(&[6, 0, 1, 0, 0, 0], 0).numbers(),
        refused(Refusal::LengthOfKind)
    );
}

#[test]
fn radio_4095_passes_and_0_and_4096_do_not() {
    let mut both = Both::fresh();
    assert_eq!(both.record(on(4095, 1, 1)).numbers(), ACCEPTED);
    for radio in [0, 4096, 65535] {
        assert_eq!(both.record(on(radio, 1, 1)).numbers(), refused(Refusal::Radio));
        assert_eq!(both.record(report(radio, 1, 1)).numbers(), refused(Refusal::Radio));
        assert_eq!(both.record(off(radio)).numbers(), refused(Refusal::Radio));
    }
}

#[test]
fn a_range_of_5_to_5_finds_nobody() {
    let mut both = Both::fresh();
    both.record(on(9, 5, 5));
    assert_eq!(both.record(range(5, 5, 5, 5)).numbers(), found(0));
    assert_eq!(both.record(range(5, 5, 0, 65535)).numbers(), found(0));
    assert_eq!(both.record(range(0, 65535, 5, 5)).numbers(), found(0));
    assert_eq!(both.record(range(5, 6, 5, 6)).numbers(), found(1));
    assert_eq!(both.record(range(6, 5, 5, 5)).numbers(), refused(Refusal::Rectangle));
    assert_eq!(both.record(range(5, 5, 6, 5)).numbers(), refused(Refusal::Rectangle));
}

#[test]
fn an_edge_of_65535_takes_in_the_last_line() {
    let mut both = Both::fresh();
    both.record(on(9, 65535, 65535));
    assert_eq!(both.record(range(65535, 65535, 65535, 65535)).numbers(), found(1));
    assert_eq!(both.record(range(0, 65535, 0, 65535)).numbers(), found(1));
    assert_eq!(both.record(range(0, 65534, 0, 65535)).numbers(), found(0));
    assert_eq!(both.record(range(0, 65535, 0, 65534)).numbers(), found(0));
    both.record(report(9, 65534, 65534));
    assert_eq!(both.record(range(65534, 65534, 65534, 65534)).numbers(), found(0));
    assert_eq!(both.record(range(65534, 65535, 65534, 65535)).numbers(), found(1));
    assert_eq!(both.record(range(65535, 65535, 65535, 65535)).numbers(), found(0));
}

#[test]
fn the_513th_sign_on() {
    let mut both = Both::fresh();
    for radio in 1..=512 {
        assert_eq!(both.record(on(radio, radio * 127, radio * 61)).numbers(), ACCEPTED);
    }
    assert_eq!(both.record(on(513, 1, 1)).numbers(), refused(Refusal::Full));
    assert_eq!(both.record(on(512, 1, 1)).numbers(), refused(Refusal::AlreadyOn));
    assert_eq!(both.record(range(0, 65535, 0, 65535)).numbers(), found(512));
}

/// 33 entries in one uncut square: 32 radios are flushed, seven of them sign off, and the next flush sweeps these and adds
/// eight. Radios 8 to 40 are left.
fn thirty_three(place: impl Fn(u16) -> (u16, u16)) -> Both {
    let mut both = Both::fresh();
    let sign_on = |radio| {
        let (east, north) = place(radio);
        on(radio, east, north)
    };
    let first = (1..=32).map(sign_on);
    let records = first.chain((1..=7).map(off)).chain((33..=40).map(sign_on));
    for record in records {
        assert_eq!(both.record(record).numbers(), ACCEPTED);
    }
    both
}

#[test]
fn thirty_three_entries_with_distinct_easts_are_cut_into_16_and_17() {
    let both = thirty_three(|radio| (radio * 10, 0));
    let frame = &both.store.desk().parts.frame;
    assert_eq!((frame.easts.n, frame.norths.n, frame.cells), (1, 0, 2));
    assert_eq!(frame.easts.at[0], 240);
    let pages = both.store.pages();
    assert_eq!(pages[..8], [8 + 10 * 16, 0, 2, 0, 255, 255, 0, 0]);
    assert_eq!(pages[PAGE_BYTES..][..8], [8 + 10 * 17, 0, 2, 0, 255, 255, 1, 0]);
}

#[test]
fn thirty_three_entries_at_one_place_take_two_pages_and_no_cut() {
    let both = thirty_three(|_| (500, 500));
    let frame = &both.store.desk().parts.frame;
    assert_eq!((frame.easts.n, frame.norths.n, frame.cells, frame.free), (0, 0, 1, 2));
    let pages = both.store.pages();
    assert_eq!(pages[..8], [72, 1, 2, 0, 1, 0, 0, 0]);
    assert_eq!(pages[PAGE_BYTES..][..8], [8 + 10, 0, 3, 0, 255, 255, 0, 0]);
}

#[test]
fn seven_wait_and_the_eighth_flushes() {
    let mut both = Both::fresh();
    let fresh = both.store.clone();
    for radio in 1..=7 {
        both.record(on(radio, 100 * radio, 100));
        assert_eq!(both.store.desk().parts.waiting, radio);
        assert!(both.store.pages() == fresh.pages());
    }
    both.record(on(8, 800, 100));
    assert_eq!(both.store.desk().parts.waiting, 0);
    assert_eq!(both.store.pages()[0], 8 + 10 * 8);
}

#[test]
fn two_found_and_a_buffer_of_11_bytes() {
    let mut both = Both::fresh();
    both.record(on(1, 10, 10));
    both.record(on(2, 20, 20));
    let all = range(0, 65535, 0, 65535).to_bytes();
    assert_eq!(both.call(&all, 11).numbers(), (Refusal::AnswerBuffer.number(), 2));
    assert_eq!(both.call(&all, 12).numbers(), found(2));
    assert_eq!(both.call(&all, 13).numbers(), found(2));
}

#[test]
fn what_stands_after_the_record_does_not_count() {
    let mut both = Both::fresh();
    let mut bytes = on(3, 30, 30).to_bytes();
    bytes.extend_from_slice(&[0xff; 70_000]);
    assert_eq!(both.call(&bytes, 0).numbers(), ACCEPTED);
    assert_eq!(both.record(range(30, 31, 30, 31)).numbers(), found(1));
}

/// The comparison itself: a desk that has another place than the list does not get through.
#[test]
#[should_panic(expected = "the list of")]
fn a_desk_that_lists_an_older_place_is_told_apart() {
    let mut both = Both::fresh();
    both.record(on(7, 100, 200));
    both.store.parts_mut().0.waiting.easts[0] = 101;
    both.record(range(0, 65535, 0, 65535));
}
