//! The order of the checks: a record that fails two of them is turned down under the first. The table has every pair of checks from 3 to 13 that one
//! record can fail together; each row's record with the first fault mended is turned down under the second.
#![forbid(unsafe_code)]
use boragefile::{Record, Refusal, LIST_BYTES};
use conformance::Both;

/// Radios 1 to 511 are on; 512 is, where the store is full.
const LAST_ON: u16 = 511;
const NOT_ON: u16 = 600;
/// The highest minute of both stores: each record has it, or a minute less.
const HIGHEST: u32 = 65536;

fn on(radio: u16, east: u16, north: u16) -> Vec<u8> {
    Record::SignOn {
        radio,
        east,
        north,
        minute: HIGHEST,
    }
    .to_bytes()
}

fn report(radio: u16, east: u16, north: u16) -> Vec<u8> {
    Record::Report {
        radio,
        east,
        north,
        minute: HIGHEST,
    }
    .to_bytes()
}

fn off(radio: u16) -> Vec<u8> {
    Record::SignOff { radio, minute: HIGHEST }.to_bytes()
}

fn range(west: u16, east: u16, south: u16, north: u16) -> Vec<u8> {
    Record::Range {
        west,
        east,
        south,
        north,
        minute: HIGHEST,
    }
    .to_bytes()
}

/// Its minute is below the highest.
fn early(mut record: Vec<u8>) -> Vec<u8> {
    let minute = record.len() - 4;
    record[minute..].copy_from_slice(&(HIGHEST - 1).to_le_bytes());
    record
}

/// Its last byte is not at hand.
fn cut_short(mut record: Vec<u8>) -> Vec<u8> {
    record.pop();
    record
}

fn with_kind(kind: u8, mut record: Vec<u8>) -> Vec<u8> {
    record[2] = kind;
    record
}

/// It has a byte more, and says so.
fn too_long(mut record: Vec<u8>) -> Vec<u8> {
    record[0] += 1;
    record.push(0);
    record
}

struct Row {
    /// 512 are on.
    full: bool,
    first: Refusal,
    second: Refusal,
    fails_both: Vec<u8>,
    mended: Vec<u8>,
}

/// A record for each check from 6 on that fails it alone, and whether 512 are on.
fn one_fault() -> Vec<(Refusal, bool, Vec<u8>)> {
    vec![
        (Refusal::Radio, false, on(0, 5, 5)),
        (Refusal::NoFix, false, on(NOT_ON, 0, 0)),
        (Refusal::TooEarly, false, early(on(NOT_ON, 5, 5))),
        (Refusal::TooEarly, false, early(report(1, 5, 5))),
        (Refusal::TooEarly, false, early(off(1))),
        (Refusal::TooEarly, false, early(range(0, 9, 0, 9))),
        (Refusal::Rectangle, false, range(6, 5, 0, 9)),
        (Refusal::AlreadyOn, false, on(1, 5, 5)),
        (Refusal::NotOn, false, report(NOT_ON, 5, 5)),
        (Refusal::Full, true, on(NOT_ON, 5, 5)),
        (Refusal::AnswerBuffer, false, range(0, 65535, 0, 65535)),
    ]
}

fn table() -> Vec<Row> {
    let row = |full, first, second, fails_both, mended| Row {
        full,
        first,
        second,
        fails_both,
        mended,
    };
    let mut rows = vec![
        row(
            false,
            Refusal::Length,
            Refusal::Kind,
            cut_short(with_kind(9, on(NOT_ON, 5, 5))),
            with_kind(9, on(NOT_ON, 5, 5)),
        ),
        row(
            false,
            Refusal::Length,
            Refusal::LengthOfKind,
            cut_short(too_long(on(NOT_ON, 5, 5))),
            too_long(on(NOT_ON, 5, 5)),
        ),
        row(
            false,
            Refusal::Kind,
            Refusal::LengthOfKind,
            with_kind(9, too_long(on(NOT_ON, 5, 5))),
            too_long(on(NOT_ON, 5, 5)),
        ),
        row(false, Refusal::Radio, Refusal::NoFix, on(0, 0, 0), on(NOT_ON, 0, 0)),
        row(
            false,
            Refusal::Radio,
            Refusal::NoFix,
            report(4096, 0, 0),
            report(1, 0, 0),
        ),
        row(
            false,
            Refusal::Radio,
            Refusal::NotOn,
            report(0, 5, 5),
            report(NOT_ON, 5, 5),
        ),
        row(true, Refusal::Radio, Refusal::Full, on(0, 5, 5), on(NOT_ON, 5, 5)),
        row(
            false,
            Refusal::Radio,
            Refusal::TooEarly,
            early(on(0, 5, 5)),
            early(on(NOT_ON, 5, 5)),
        ),
        row(
            false,
            Refusal::Radio,
            Refusal::TooEarly,
            early(off(4096)),
            early(off(1)),
        ),
        row(
            false,
            Refusal::NoFix,
            Refusal::TooEarly,
            early(on(NOT_ON, 0, 0)),
            early(on(NOT_ON, 0, 1)),
        ),
        row(
            false,
            Refusal::NoFix,
            Refusal::TooEarly,
            early(report(1, 0, 0)),
            early(report(1, 1, 0)),
        ),
        row(
            false,
            Refusal::TooEarly,
            Refusal::Rectangle,
            early(range(6, 5, 0, 9)),
            range(6, 5, 0, 9),
        ),
        row(
            false,
            Refusal::TooEarly,
            Refusal::AlreadyOn,
            early(on(1, 5, 5)),
            on(1, 5, 5),
        ),
        row(
            false,
            Refusal::TooEarly,
            Refusal::NotOn,
            early(report(NOT_ON, 5, 5)),
            report(NOT_ON, 5, 5),
        ),
        row(
            false,
            Refusal::TooEarly,
            Refusal::NotOn,
            early(off(NOT_ON)),
            off(NOT_ON),
        ),
        row(
            true,
            Refusal::TooEarly,
            Refusal::Full,
            early(on(NOT_ON, 5, 5)),
            on(NOT_ON, 5, 5),
        ),
        row(
            false,
            Refusal::TooEarly,
            Refusal::AnswerBuffer,
            early(range(0, 65535, 0, 65535)),
            range(0, 65535, 0, 65535),
        ),
        row(false, Refusal::NoFix, Refusal::AlreadyOn, on(1, 0, 0), on(1, 0, 1)),
        row(
            false,
            Refusal::NoFix,
            Refusal::NotOn,
            report(NOT_ON, 0, 0),
            report(NOT_ON, 1, 0),
        ),
        row(true, Refusal::NoFix, Refusal::Full, on(NOT_ON, 0, 0), on(NOT_ON, 1, 0)),
        row(true, Refusal::AlreadyOn, Refusal::Full, on(1, 5, 5), on(NOT_ON, 5, 5)),
    ];
    for (second, full, record) in one_fault() {
        rows.push(row(
            full,
            Refusal::Length,
            second,
            cut_short(record.clone()),
            record.clone(),
        ));
        rows.push(row(
            full,
            Refusal::Kind,
            second,
            with_kind(0, record.clone()),
            record.clone(),
        ));
        rows.push(row(
            full,
            Refusal::Kind,
            second,
            with_kind(5, record.clone()),
            record.clone(),
        ));
        rows.push(row(
            full,
            Refusal::LengthOfKind,
            second,
            too_long(record.clone()),
            record,
        ));
    }
    rows
}

fn with_radios_on(last: u16) -> Both {
    let mut both = Both::fresh();
    for radio in 1..=last {
        assert_eq!(both.call(&on(radio, 127 * radio, 61 * radio), 0).number, 0);
    }
    both
}

/// Number 11 needs a buffer that is too small; no other row is touched by it.
fn room(row: &Row) -> usize {
    if row.second == Refusal::AnswerBuffer {
        LIST_BYTES / 2
    } else {
        LIST_BYTES
    }
}

#[test]
fn a_record_that_fails_two_checks_is_turned_down_under_the_first() {
    let (mut some, mut full) = (with_radios_on(LAST_ON), with_radios_on(512));
    for row in table() {
        let both = if row.full { &mut full } else { &mut some };
        let (first, second) = (row.first.number(), row.second.number());
        assert_eq!(
            both.call(&row.fails_both, room(&row)).number,
            first,
            "{first} before {second}"
        );
        assert_eq!(
            both.call(&row.mended, room(&row)).number,
            second,
            "{second} without {first}"
        );
    }
}

/// The pairs that are not in the table: no record fails both checks. One kind's checks are no other's; a radio below 1 or above 4,095 is not on; and a
/// rectangle that is turned round finds nobody.
#[test]
fn the_table_has_every_pair() {
    use Refusal::*;
    let never = [
        (Radio, Rectangle),
        (Radio, AlreadyOn),
        (Radio, AnswerBuffer),
        (NoFix, Rectangle),
        (NoFix, AnswerBuffer),
        (Rectangle, AlreadyOn),
        (Rectangle, NotOn),
        (Rectangle, Full),
        (Rectangle, AnswerBuffer),
        (AlreadyOn, NotOn),
        (AlreadyOn, AnswerBuffer),
        (NotOn, Full),
        (NotOn, AnswerBuffer),
        (Full, AnswerBuffer),
    ];
    let in_table: Vec<_> = table().iter().map(|row| (row.first, row.second)).collect();
    // 1, 2, 14 and 15 come before them all, and no record is checked for 14 or 15
    let checks: Vec<_> = Refusal::ALL.into_iter().skip(4).collect();
    assert_eq!(Refusal::ALL[..4], [PageBuffer, Unsound, NoWatch, BadLine]);
    for (i, first) in checks.iter().enumerate() {
        for second in &checks[i + 1..] {
            let pair = (*first, *second);
            assert!(in_table.contains(&pair) != never.contains(&pair), "{pair:?}");
        }
    }
}
