//! Positions kept twelve hours: a range leaves out a radio whose minute is more than 720 before its own, and a minute below the store's highest turns any
//! record down. `Both` compares each answer with the plain list's.
#![forbid(unsafe_code)]
use boragefile::{Record, Refusal, ENTRY_BYTES, KEPT_MINUTES, LIST_BYTES};
use conformance::{Both, Told};

const ACCEPTED: u16 = 0;

fn on(radio: u16, minute: u32) -> Record {
    Record::SignOn {
        radio,
        east: 100 * radio,
        north: 100,
        minute,
    }
}

fn report(radio: u16, minute: u32) -> Record {
    Record::Report {
        radio,
        east: 100 * radio,
        north: 100,
        minute,
    }
}

fn off(radio: u16, minute: u32) -> Record {
    Record::SignOff { radio, minute }
}

/// The whole square.
fn range(minute: u32) -> Record {
    Record::Range {
        west: 0,
        east: 65535,
        south: 0,
        north: 65535,
        minute,
    }
}

fn accept(both: &mut Both, record: Record) {
    assert_eq!(both.record(record).number, ACCEPTED, "{record:?}");
}

fn radios(told: &Told) -> Vec<u16> {
    let radio = |entry: &[u8]| u16::from_le_bytes([entry[0], entry[1]]);
    told.list.chunks_exact(ENTRY_BYTES).map(radio).collect()
}

/// The radios that are not too old at this minute.
fn found(both: &mut Both, minute: u32) -> Vec<u16> {
    let told = both.record(range(minute));
    assert_eq!(told.number, ACCEPTED, "at {minute}");
    radios(&told)
}

fn expect_early(both: &mut Both, record: Record) {
    assert_eq!(both.record(record).number, Refusal::TooEarly.number(), "{record:?}");
}

/// Where the sum of a minute and 720 passes no power of two, passes 16 bits, and ends at the last minute.
const REPORTED: [u32; 6] = [0, 1, 65535 - 720, 65536 - 720, 65535, u32::MAX - 721];

#[test]
fn exactly_720_stays_in_and_721_does_not() {
    for reported in REPORTED {
        let mut both = Both::fresh();
        // one that waits; then eight, so that all are stored
        accept(&mut both, on(1, reported));
        for stored in [false, true] {
            assert_eq!(both.store.desk().parts.waiting == 0, stored);
            let everyone: Vec<u16> = both.plain.latest().map(|(radio, _)| radio).collect();
            for age in [0, 1, 719, 720] {
                assert_eq!(found(&mut both, reported + age), everyone, "{reported}, {age} later");
            }
            assert_eq!(found(&mut both, reported + 721), [], "{reported}");
            assert_eq!(found(&mut both, u32::MAX), [], "{reported}");
            if !stored {
                (2..=8).for_each(|radio| accept(&mut both, on(radio, reported)));
            }
        }
    }
    assert_eq!(KEPT_MINUTES, 720);
}

/// Minutes whose sum with 720 would go round in 32 bits: nobody is too old there.
#[test]
fn near_the_last_minute_nobody_goes_round() {
    let mut both = Both::fresh();
    for (radio, before) in (1..).zip([722, 721, 720, 719, 1, 0]) {
        accept(&mut both, on(radio, u32::MAX - before));
    }
    assert_eq!(found(&mut both, u32::MAX), [3, 4, 5, 6]);
    for radio in 7..=8 {
        accept(&mut both, on(radio, u32::MAX));
    }
    assert_eq!(both.store.desk().parts.waiting, 0, "all are stored");
    assert_eq!(found(&mut both, u32::MAX), [3, 4, 5, 6, 7, 8]);
    for minute in [0, 719, 720, u32::MAX - 1] {
        expect_early(&mut both, range(minute));
        expect_early(&mut both, report(1, minute));
        expect_early(&mut both, on(9, minute));
        expect_early(&mut both, off(1, minute));
    }
    accept(&mut both, report(1, u32::MAX));
    assert_eq!(found(&mut both, u32::MAX), [1, 3, 4, 5, 6, 7, 8]);
    accept(&mut both, off(3, u32::MAX));
    assert_eq!(found(&mut both, u32::MAX), [1, 4, 5, 6, 7, 8]);
}

/// Each of eight stored radios falls out of the list at its own minute; a report, even at the same place, brings it back while it
/// waits and after it is stored.
#[test]
fn a_report_makes_a_place_young_again() {
    let mut both = Both::fresh();
    for radio in 1..=8 {
        accept(&mut both, on(radio, 1000 + u32::from(radio)));
    }
    assert_eq!(both.store.desk().parts.waiting, 0);
    for out in 0..=8 {
        let left: Vec<u16> = (out + 1..=8).collect();
        assert_eq!(found(&mut both, 1721 + u32::from(out)), left);
    }
    accept(&mut both, report(3, 1500));
    assert_eq!(found(&mut both, 1729), [3]);
    assert_eq!(found(&mut both, 2221), []);
    for radio in [1, 2, 4, 5, 6, 7, 8] {
        accept(&mut both, report(radio, 1500 + u32::from(radio)));
    }
    assert_eq!(both.store.desk().parts.waiting, 0, "the entries take the new minutes");
    assert_eq!(found(&mut both, 2220), [1, 2, 3, 4, 5, 6, 7, 8]);
    assert_eq!(found(&mut both, 2221), [1, 2, 4, 5, 6, 7, 8]);
    assert_eq!(found(&mut both, 2222), [2, 4, 5, 6, 7, 8]);
    assert_eq!(found(&mut both, 2229), []);
    assert_eq!(both.plain.on(), 8, "who is too old is on all the same");
}

#[test]
fn who_is_left_out_takes_no_room_in_the_buffer() {
    let mut both = Both::fresh();
    accept(&mut both, on(1, 0));
    accept(&mut both, on(2, 1));
    accept(&mut both, on(3, 2));
    let at = |minute| range(minute).to_bytes();
    assert_eq!(both.call(&at(720), 17).numbers(), (Refusal::AnswerBuffer.number(), 3));
    assert_eq!(both.call(&at(721), 11).numbers(), (Refusal::AnswerBuffer.number(), 2));
    assert_eq!(both.call(&at(721), 12).numbers(), (0, 2));
    assert_eq!(both.call(&at(722), 6).numbers(), (0, 1));
    assert_eq!(both.call(&at(723), 0).numbers(), (0, 0));
}

#[test]
fn a_minute_below_the_highest_is_turned_down_in_every_kind() {
    let mut both = Both::fresh();
    let mut highest = 0;
    // sign-on, report and sign-off move the highest minute, by one, by 255 and beyond 16 bits
    for (radio, step) in [(10, 1), (11, 255), (12, 65536)] {
        for record in [on, report, off] {
            highest += step;
            accept(&mut both, record(radio, highest));
            assert_eq!(both.store.desk().parts.highest, highest);
            for early in [highest - 1, highest.saturating_sub(65536), 0] {
                expect_early(&mut both, on(1, early));
                expect_early(&mut both, report(radio, early));
                expect_early(&mut both, off(radio, early));
                expect_early(&mut both, range(early));
            }
        }
    }
    // as high as the highest passes
    accept(&mut both, on(1, highest));
    accept(&mut both, report(1, highest));
    assert_eq!(found(&mut both, highest), [1]);
    accept(&mut both, off(1, highest));
}

#[test]
fn neither_a_range_nor_a_refused_record_moves_the_highest_minute() {
    let mut both = Both::fresh();
    accept(&mut both, on(1, 500));
    let later = [
        range(u32::MAX),
        on(1, u32::MAX),
        report(2, u32::MAX),
        off(2, u32::MAX),
        on(0, u32::MAX),
    ];
    for record in later {
        both.record(record);
        assert_eq!(both.store.desk().parts.highest, 500, "{record:?}");
        accept(&mut both, report(1, 500));
    }
    assert_eq!(both.call(&range(u32::MAX - 1).to_bytes(), LIST_BYTES).number, ACCEPTED);
    expect_early(&mut both, range(499));
    accept(&mut both, report(1, 500));
}

/// The comparison itself: a desk that forgets the age of a place does not get through.
#[test]
#[should_panic(expected = "call 2")]
fn a_desk_that_lists_a_place_from_yesterday_is_told_apart() {
    let mut both = Both::fresh();
    both.record(on(7, 0));
    both.store.parts_mut().0.waiting.lows[0] = 1;
    both.store.parts_mut().0.parts.highest = 1;
    both.record(range(721));
}
