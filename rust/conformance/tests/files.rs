//! Spreadsheets out and in: a file of all radios on, and a store from a file. `Both` holds each call against the plain list, which reads a file by cutting it
//! at its line ends and commas, and holds each store that a file makes, to the byte, against the sign-ons of its lines, one by one.
#![forbid(unsafe_code)]
use boragefile::{
    Desk, Record, Rectangle, Refusal, Store, Watch, CSV_BYTES, CSV_HEADER, DESK_BYTES, PAGES_BYTES, WATCHES,
};
use conformance::{in_order, line_text, lines_of, Both, Fix, Xorshift};
use std::time::{Duration, Instant};

const ACCEPTED: (u16, u64) = (0, 0);
const LAST: u16 = 65535;
const MAP: Rectangle = Rectangle {
    west: 0,
    east: LAST,
    south: 0,
    north: LAST,
};
/// What stands beside all that is lent.
const GUARD: [u8; 64] = [0xa5; 64];

type Row = (u16, (u16, u16), u32);

fn on((radio, (east, north), minute): Row) -> Record {
    Record::SignOn {
        radio,
        east,
        north,
        minute,
    }
}

fn text((radio, place, minute): &Row) -> String {
    line_text(*radio, *place, *minute)
}

/// The file of these rows.
fn file_of(rows: &[Row]) -> Vec<u8> {
    let lines: String = rows.iter().map(text).collect();
    (CSV_HEADER.to_string() + &lines).into_bytes()
}

/// A file with these lines, each ended.
fn with_lines(lines: &[&[u8]]) -> Vec<u8> {
    let ended = lines.iter().flat_map(|line| [*line, b"\r\n"].concat());
    CSV_HEADER.bytes().chain(ended).collect()
}

fn told(refusal: Refusal, count: u64) -> (u16, u64) {
    (refusal.number(), count)
}

/// A store with something in every part: entries, waiting reports, memo lines, cuts, watches 0 and 15.
fn full_of_things() -> Store {
    let mut store = Store::fresh();
    for radio in 1..=61 {
        let record = on((radio, (1000 * radio, 70 * radio), u32::from(radio)));
        assert!(store.call(&record.to_bytes(), &mut []).is_accepted());
    }
    for radio in 1..=20 {
        let (east, north) = (LAST - radio, 1);
        let report = Record::Report {
            radio,
            east,
            north,
            minute: 61,
        };
        assert!(store.call(&report.to_bytes(), &mut []).is_accepted());
    }
    assert!(store.watch_set(0, MAP).is_accepted() && store.watch_set(15, MAP).is_accepted());
    let parts = &store.desk().parts;
    assert!(parts.waiting > 0 && parts.lines > 0 && parts.frame.cells > 1 && parts.tally > 0);
    store
}

/// Not a sound store's: in the desk's parts, in a watch, and in the pages.
const DAMAGES: [fn(&mut Desk, &mut [u8]); 4] = [
    |desk, _| desk.parts.tally = 16,
    |desk, _| desk.parts.waiting = LAST,
    |desk, _| desk.watches[0].members[255] = 0x8000,
    |_, pages| pages[PAGES_BYTES - 1] = 1,
];

fn damaged() -> impl Iterator<Item = Store> {
    DAMAGES.into_iter().map(|damage| {
        let mut store = full_of_things();
        let (desk, pages) = store.parts_mut();
        damage(desk, pages);
        assert!(!store.is_sound());
        store
    })
}

/// Bytes with guards on both sides.
struct Guarded(Vec<u8>);

impl Guarded {
    fn new(bytes: &[u8]) -> Guarded {
        Guarded([&GUARD[..], bytes, &GUARD[..]].concat())
    }

    fn lent(&mut self) -> &mut [u8] {
        let end = self.0.len() - GUARD.len();
        &mut self.0[GUARD.len()..end]
    }

    /// What is lent now, with the guards as they were.
    fn looked_at(&self) -> &[u8] {
        let (before, rest) = self.0.split_at(GUARD.len());
        let (bytes, after) = rest.split_at(rest.len() - GUARD.len());
        assert!(before == GUARD && after == GUARD, "something beside it is written");
        bytes
    }
}

/// Writes a file from these desk and pages to a buffer of `room` bytes, and expects these numbers: turned down, it keeps every byte of the buffer; accepted,
/// those behind the file. Desk and pages are only lent to be read.
fn expect_write(desk: &Desk, pages: &[u8], room: usize, expected: (u16, u64)) -> Vec<u8> {
    let filled = vec![0x5a; room];
    let mut buffer = Guarded::new(&filled);
    let answer = boragefile::csv_write(desk, pages, buffer.lent());
    assert_eq!((answer.number(), answer.count()), expected, "{room} bytes");
    assert!(answer.gained().is_empty() && answer.lost().is_empty() && answer.line().is_none());
    let file = answer.file().map(<[u8]>::to_vec);
    assert_eq!(file.is_some(), expected.0 == 0);
    let file = file.unwrap_or_default();
    let left = buffer.looked_at();
    assert_eq!(left[..file.len()], file);
    assert_eq!(left[file.len()..], filled[file.len()..]);
    file
}

/// Reads a file into these desk and pages, and expects these numbers; turned down, it keeps every byte of both. Answers the store.
fn expect_read(desk: &Desk, pages: &[u8], file: &[u8], expected: (u16, u64)) -> (Desk, Vec<u8>) {
    let mut own = desk.clone();
    let mut lent = Guarded::new(pages);
    let answer = boragefile::csv_read(&mut own, lent.lent(), file);
    let said = String::from_utf8_lossy(&file[..file.len().min(200)]);
    assert_eq!((answer.number(), answer.count()), expected, "{said:?}");
    assert!(answer.gained().is_empty() && answer.lost().is_empty());
    assert_eq!(answer.line(), Some(expected.1).filter(|line| *line > 0));
    let left = lent.looked_at();
    if expected.0 != 0 {
        assert!(
            own == *desk && left == pages,
            "turned down, it changes something: {said:?}"
        );
    }
    (own, left.to_vec())
}

/// The same on a sound store, on unsound ones, and on bytes that are no store at all: what stood there does not matter.
fn expect_read_anywhere(file: &[u8], expected: (u16, u64)) {
    let full = full_of_things();
    let (desk, pages) = expect_read(full.desk(), full.pages(), file, expected);
    let any = Desk::from_bytes(&[0xff; DESK_BYTES]).expect("a desk's bytes");
    let others = damaged().map(|store| (store.desk().clone(), store.pages().to_vec()));
    for (other, bytes) in others.chain([(any, vec![0xff; PAGES_BYTES])]) {
        let made = expect_read(&other, &bytes, file, expected);
        assert!(expected.0 != 0 || made == (desk.clone(), pages.clone()));
    }
    if expected.0 == 0 {
        let single = signed_on_one_by_one(file);
        assert!(single.desk() == &desk && single.pages() == pages && single.is_sound());
        assert!(desk.watches == [Watch::UNSET; WATCHES]);
    }
}

/// A fresh store after the sign-ons of a good file.
fn signed_on_one_by_one(file: &[u8]) -> Store {
    let mut store = Store::fresh();
    for line in in_order(lines_of(file).expect("a good file")) {
        assert!(store.call(&line.record().to_bytes(), &mut []).is_accepted(), "{line:?}");
    }
    store
}

// ---- written

#[test]
fn number_1_is_first_in_both_calls() {
    let good = file_of(&[(7, (100, 200), 5)]);
    for store in damaged().chain([full_of_things()]) {
        for length in [0, 1, 25600, PAGES_BYTES - 1, PAGES_BYTES + 1, 2 * PAGES_BYTES] {
            let mut pages = store.pages().to_vec();
            pages.resize(length, 0);
            for room in [0, 24, CSV_BYTES] {
                expect_write(store.desk(), &pages, room, told(Refusal::PageBuffer, 0));
            }
            for file in [
                &b""[..],
                b"radio",
                &with_lines(&[b"0,0,0,0"]),
                &with_lines(&[b"5,0,0,0"]),
                &good,
            ] {
                expect_read(store.desk(), &pages, file, told(Refusal::PageBuffer, 0));
            }
        }
    }
}

#[test]
fn an_unsound_store_is_not_written_but_may_be_read_into() {
    for store in damaged() {
        for room in [0, 24, CSV_BYTES] {
            expect_write(store.desk(), store.pages(), room, told(Refusal::Unsound, 0));
        }
    }
    expect_read_anywhere(&file_of(&[(7, (100, 200), 5)]), ACCEPTED);
    expect_read_anywhere(CSV_HEADER.as_bytes(), ACCEPTED);
}

#[test]
fn number_11_tells_the_bytes_needed_and_exactly_so_many_are_enough() {
    let rows: Vec<Row> = (0..512).map(|i| (4095 - i, (LAST, LAST - i), u32::MAX)).collect();
    let longest = signed_on_one_by_one(&file_of(&rows));
    assert_eq!(longest.csv_write(&mut [0; CSV_BYTES]).count(), CSV_BYTES as u64);
    for store in [Store::fresh(), full_of_things(), longest] {
        let mut buffer = vec![0; CSV_BYTES];
        let file = store
            .csv_write(&mut buffer)
            .file()
            .expect("it takes every radio")
            .to_vec();
        let needed = file.len() as u64;
        let header = CSV_HEADER.len();
        for room in [0, 1, header - 1, file.len() / 2, file.len() - 1] {
            expect_write(store.desk(), store.pages(), room, told(Refusal::AnswerBuffer, needed));
        }
        for room in [file.len(), file.len() + 1, 2 * CSV_BYTES] {
            assert_eq!(expect_write(store.desk(), store.pages(), room, (0, needed)), file);
        }
    }
}

#[test]
fn all_who_are_on_are_written_by_rising_number_whatever_their_age() {
    let mut both = Both::fresh();
    assert_eq!(both.file(), CSV_HEADER.as_bytes());
    let rows: [Row; 4] = [
        (4095, (0, 1), 0),
        (10, (LAST, LAST), 9),
        (9, (1, 0), 10),
        (1000, (10, 99), u32::MAX),
    ];
    for row in rows {
        assert_eq!(both.record(on(row)).number, 0);
    }
    let expected = "radio,east,north,minute\r\n9,1,0,10\r\n10,65535,65535,9\r\n1000,10,99,4294967295\r\n4095,0,1,0\r\n";
    assert_eq!(both.file(), expected.as_bytes());
    // a range at that minute finds but one of them
    let range = Record::Range {
        west: 0,
        east: LAST,
        south: 0,
        north: LAST,
        minute: u32::MAX,
    };
    assert_eq!(both.record(range).count, 1);
}

/// A radio at (0,0) may stand in a store that an older version saved: it is written, and turned down when it is read.
#[test]
fn a_radio_at_0_0_is_written_and_not_read() {
    let mut store = Store::fresh();
    assert!(store.call(&on((7, (1, 1), 3)).to_bytes(), &mut []).is_accepted());
    let (desk, _) = store.parts_mut();
    (desk.waiting.easts[0], desk.waiting.norths[0]) = (0, 0);
    assert!(store.is_sound());
    let mut buffer = [0; CSV_BYTES];
    let file = store.csv_write(&mut buffer).file().expect("a file").to_vec();
    assert_eq!(file, with_lines(&[b"7,0,0,3"]));
    expect_read(store.desk(), store.pages(), &file, told(Refusal::NoFix, 2));
}

/// The desk's own calls leave a radio's latest entry in the cell that stands last in the round of all that have one of it. A sound store may have the round in
/// any order.
#[test]
fn no_stale_place_is_written_wherever_its_cell_stands_in_the_round() {
    let mut store = Store::fresh();
    let mut rows: Vec<Row> = (1..=40).map(|radio| (radio, (5000, 100), 1)).collect();
    rows.extend((41..=48).map(|radio| (radio, (100, 100), 1)));
    for row in &rows {
        assert!(store.call(&on(*row).to_bytes(), &mut []).is_accepted());
    }
    // eight go over to the other cell, and their entries stay behind
    for (radio, place, minute) in &mut rows[..8] {
        *place = (101, 100);
        let report = Record::Report {
            radio: *radio,
            east: place.0,
            north: place.1,
            minute: *minute,
        };
        assert!(store.call(&report.to_bytes(), &mut []).is_accepted());
    }
    let parts = &store.desk().parts;
    assert_eq!((parts.frame.cells, parts.waiting, parts.lines), (2, 0, 8));
    for _ in 0..2 {
        let (desk, _) = store.parts_mut();
        desk.cells.swap(0, 1);
        assert!(store.is_sound());
        let needed = file_of(&rows).len() as u64;
        let file = expect_write(store.desk(), store.pages(), CSV_BYTES, (0, needed));
        assert_eq!(file, file_of(&rows));
    }
}

// ---- read

const GOOD: &[u8] = b"5,500,501,50";

/// Every kind of bad line that has no line end in it.
const BAD: &[&[u8]] = &[
    b"",
    b",",
    b",,,",
    b"7",
    b"7,1",
    b"7,1,1",
    b"7,1,1,",
    b",1,1,1",
    b"7,,1,1",
    b"7,1,,1",
    b"\"\",1,1,1",
    b"7,1,1,\"\"",
    b"7,1,1,1,",
    b"7,1,1,1,1",
    b"7,1,1,1,1,1,1,1",
    b" 7,1,1,1",
    b"7 ,1,1,1",
    b"7,1, 1,1",
    b"7,1,1,1 ",
    b"7,1,1,\t1",
    b"+7,1,1,1",
    b"-7,1,1,1",
    b"7,-0,1,1",
    b"7,1,1,1.0",
    b"7,1,1e3,1",
    b"7,0x1,1,1",
    b"7;1;1;1",
    b"seven,1,1,1",
    b"7,1,1,l",
    b"7/1/1/1",
    b"/,1,1,1",
    b":,1,1,1",
    b"\"7,1,1,1",
    b"7\",1,1,1",
    b"7,1,1,\"1",
    b"7,1,1,1\"",
    b"\"7\"\",1,1,1",
    b"\"\"7\"\",1,1,1",
    b"\"\"7\",1,1,1",
    b"\"7\"7\",1,1,1",
    b"7\"7\",1,1,1",
    b"\"7\"7,1,1,1",
    b"\"7\" ,1,1,1",
    b"\" 7\",1,1,1",
    b"\"7,1\",1,1",
    b"\"7,1,1,1\"",
    b"\"",
    b"'7',1,1,1",
    b"0,1,1,1",
    b"0000,1,1,1",
    b"\"0\",1,1,1",
    b"4096,1,1,1",
    b"04096,1,1,1",
    b"\"4096\",1,1,1",
    b"65536,1,1,1",
    b"65537,1,1,1",
    b"4294967297,1,1,1",
    b"18446744073709551617,1,1,1",
    b"340282366920938463463374607431768211457,1,1,1",
    b"7,65536,1,1",
    b"7,1,65536,1",
    b"7,4294967296,1,1",
    b"7,1,4294967297,1",
    b"7,100000,1,1",
    b"7,1,1,4294967296",
    b"7,1,1,04294967296",
    b"7,1,1,10000000000",
    b"7,1,1,18446744073709551616",
    b"7,1,1,99999999999999999999999999999999999999999999999999",
    b"\0",
    b"7,1,1,1\0",
    b"7,\x001,1,1",
    b"\xb2,1,1,1",
    b"7,1,1,\xd9\xa1",
    b"\xef\xbb\xbf7,1,1,1",
    b"radio,east,north,minute",
    b"\r",
    b"\n",
    b"7,1,1,1\r",
    b"7,1,1,1\n",
    b"7,1,1,1\n\r",
    b"7,1,1,1\n8,1,1,1",
    b"7,1,1,1\r8,1,1,1",
    b"\n7,1,1,1",
    b"\r7,1,1,1",
    b"7,\r1,1,1",
    b"7,1,1,\"1\n\"",
    b"7 1,1,1",
    b"7,1,1,1,8,1,1,1",
];

#[test]
fn each_kind_of_bad_line_is_told_at_the_first_a_middle_and_the_last_place() {
    let store = full_of_things();
    let expect = |file: &[u8], line| {
        drop(expect_read(
            store.desk(),
            store.pages(),
            file,
            told(Refusal::BadLine, line),
        ))
    };
    for bad in BAD {
        for (before, after) in [(0, 0), (0, 3), (1, 1), (2, 2), (3, 0), (600, 0)] {
            let mut lines = vec![GOOD; before];
            lines.push(bad);
            lines.extend(vec![GOOD; after]);
            let line = before as u64 + 2;
            expect(&with_lines(&lines), line);
            // the last line without its end; nothing at all is no line
            let mut open = with_lines(&lines);
            open.truncate(open.len() - 2);
            if after > 0 || !bad.is_empty() {
                expect(&open, line);
            }
            // another bad one behind it
            lines.push(b"");
            lines.push(b"0,1,1,1");
            expect(&with_lines(&lines), line);
        }
        // beside a line that the check of a sign-on stops
        expect(&with_lines(&[b"5,0,0,5", GOOD, GOOD, bad]), 5);
    }
    for bad in [BAD[1], BAD[52]] {
        expect_read_anywhere(&with_lines(&[GOOD, bad]), told(Refusal::BadLine, 3));
    }
}

/// Other readers take a line end that stands in quotes for a part of the field. Here the line ends there, so its quote does not end.
#[test]
fn a_line_end_in_quotes_ends_the_line() {
    let store = full_of_things();
    for bad in [
        &b"\"7\r\n\",1,1,1"[..],
        b"\"7\r\n",
        b"\"\r\n7\",1,1,1",
        b"7,1,1,\"1\r\n\"",
        b"7,1,1,\"\r\n1\"",
        b"\"7,1,1,1\r\n7,1,1,1\"",
    ] {
        for (before, after) in [(0, 0), (0, 3), (2, 2), (3, 0)] {
            let lines = [vec![GOOD; before], vec![bad], vec![GOOD; after]].concat();
            let expected = told(Refusal::BadLine, before as u64 + 2);
            expect_read(store.desk(), store.pages(), &with_lines(&lines), expected);
        }
    }
    let header = b"radio,east,north,\"minute\r\n\"\r\n5,500,501,50\r\n";
    expect_read(store.desk(), store.pages(), header, told(Refusal::BadLine, 1));
}

#[test]
fn a_wrong_header_is_line_1() {
    let store = full_of_things();
    let headers: [&[u8]; 28] = [
        b"",
        b"\r\n",
        b"\n",
        b"radio",
        b"radio,",
        b"radio,east,north",
        b"radio,east,north,",
        b"radio,east,north,minut",
        b"radio,east,north,minutes",
        b"radio,east,north,minute,",
        b"radio,east,north,minute,minute",
        b"Radio,east,north,minute",
        b"RADIO,EAST,NORTH,MINUTE",
        b"radio,north,east,minute",
        b"radio;east;north;minute",
        b" radio,east,north,minute",
        b"radio, east,north,minute",
        b"radio,east,north,minute ",
        b"\"radio,east,north,minute\"",
        b"\"radio,east,north,minute",
        b"radio\",east,north,minute",
        b"\"\"radio\"\",east,north,minute",
        b"\"radio\"\",east,north,minute",
        b"\xef\xbb\xbfradio,east,north,minute",
        b"radio,east,north,minute\n",
        b"radio,east,north,minute\r",
        b"radio,east,north,minute\0",
        b"5,500,501,50",
    ];
    for header in headers {
        for rest in [
            &b""[..],
            b"\r\n",
            b"\r\n5,500,501,50\r\n",
            b"\r\n0,1,1,1\r\n",
            b"\r\n5,0,0,1",
        ] {
            // nothing and a line end are an empty line, then the header
            let file = [header, rest].concat();
            expect_read(store.desk(), store.pages(), &file, told(Refusal::BadLine, 1));
        }
    }
    expect_read_anywhere(b"", told(Refusal::BadLine, 1));
    // each part of the good one, and each with a byte changed
    let header = CSV_HEADER.trim_end().as_bytes();
    for end in 0..header.len() {
        expect_read(store.desk(), store.pages(), &header[..end], told(Refusal::BadLine, 1));
        let mut changed = CSV_HEADER.as_bytes().to_vec();
        changed[end] ^= 1;
        expect_read(store.desk(), store.pages(), &changed, told(Refusal::BadLine, 1));
    }
    // a line end cut short
    expect_read(
        store.desk(),
        store.pages(),
        b"radio,east,north,minute\r",
        told(Refusal::BadLine, 1),
    );
}

#[test]
fn the_ends_of_each_range_are_read() {
    for line in [
        "1,0,1,0",
        "1,1,0,0",
        "4095,65535,65535,4294967295",
        "1,65535,0,4294967295",
        "4095,0,65535,0",
        "\"00004095\",\"0065535\",\"1\",\"0004294967295\"",
    ] {
        expect_read_anywhere(&with_lines(&[line.as_bytes()]), ACCEPTED);
    }
}

#[test]
fn quotes_leading_zeros_and_no_last_line_end_are_read() {
    let plain = file_of(&[(7, (100, 200), 5), (9, (1, 0), 6)]);
    let store = signed_on_one_by_one(&plain);
    let zeros = "0".repeat(70_000);
    let headers = [
        "radio,east,north,minute",
        "\"radio\",\"east\",\"north\",\"minute\"",
        "\"radio\",east,north,minute",
        "radio,\"east\",north,minute",
        "radio,east,\"north\",minute",
        "radio,east,north,\"minute\"",
    ];
    let sevens = [
        "7,100,200,5".to_string(),
        "\"7\",\"100\",\"200\",\"5\"".to_string(),
        "\"7\",100,200,5".to_string(),
        "7,\"100\",200,5".to_string(),
        "7,100,\"200\",5".to_string(),
        "7,100,200,\"5\"".to_string(),
        "07,0100,00200,000005".to_string(),
        format!("{zeros}7,{zeros}100,{zeros}200,{zeros}5"),
        format!("\"{zeros}7\",100,\"{zeros}200\",\"{zeros}5\""),
    ];
    let nines = ["9,1,0,6", "\"9\",\"01\",\"00\",\"06\"", "9,1,0,\"6\""];
    for header in headers {
        for seven in &sevens {
            for nine in nines {
                for (first, second) in [(seven.as_str(), nine), (nine, seven.as_str())] {
                    for end in ["\r\n", ""] {
                        let file = format!("{header}\r\n{first}\r\n{second}{end}");
                        let (desk, pages) =
                            expect_read(Store::fresh().desk(), store.pages(), file.as_bytes(), ACCEPTED);
                        assert!(desk == *store.desk() && pages == store.pages());
                    }
                }
            }
        }
        // no line: a fresh store
        for end in ["\r\n", ""] {
            let file = format!("{header}{end}");
            let (desk, pages) = expect_read(store.desk(), store.pages(), file.as_bytes(), ACCEPTED);
            assert!(desk == *Store::fresh().desk() && pages == Store::fresh().pages());
        }
    }
}

#[test]
fn the_first_line_as_taken_that_a_check_stops_is_told_with_its_line_in_the_file() {
    use Refusal::{AlreadyOn, NoFix};
    let place = (5, 5);
    let corner = (0, 0);
    let files: [(&[Row], Refusal, u64); 14] = [
        (&[(7, corner, 0)], NoFix, 2),
        (&[(5, place, 9), (6, place, 8), (7, corner, 7), (8, place, 6)], NoFix, 4),
        (
            &[(5, corner, 9), (6, place, 8), (7, corner, 7), (8, corner, 8)],
            NoFix,
            4,
        ),
        // the same minute: by radio; the same radio too: by line
        (&[(9, corner, 5), (8, corner, 5), (8, corner, 5)], NoFix, 3),
        (&[(7, place, 1), (7, place, 1)], AlreadyOn, 3),
        (&[(7, place, 2), (7, place, 1)], AlreadyOn, 2),
        (&[(7, place, 1), (7, place, 2)], AlreadyOn, 3),
        (&[(5, place, 9), (6, place, 8), (5, (6, 6), 7)], AlreadyOn, 2),
        (&[(5, place, 3), (5, place, 2), (5, place, 1)], AlreadyOn, 3),
        (
            &[(5, place, 1), (6, place, 1), (5, place, 1), (6, place, 1)],
            AlreadyOn,
            4,
        ),
        // 12 and 8 of two lines: by the order taken; of one line: 12
        (&[(5, place, 1), (6, corner, 3), (5, place, 2)], AlreadyOn, 4),
        (&[(5, place, 1), (6, corner, 2), (5, place, 3)], NoFix, 3),
        (&[(5, place, 1), (5, corner, 1)], NoFix, 3),
        // both halves of a minute count
        (&[(5, place, 65536), (6, place, 1), (5, place, 2)], AlreadyOn, 2),
    ];
    for (rows, refusal, line) in files {
        expect_read_anywhere(&file_of(rows), told(refusal, line));
    }
    // either coordinate makes it a place
    for place in [(0, 1), (1, 0), (0, 256), (256, 0)] {
        expect_read_anywhere(&file_of(&[(7, place, 0)]), ACCEPTED);
    }
}

#[test]
fn the_513th_line_as_taken_is_told_with_its_line_in_the_file() {
    use Refusal::{AlreadyOn, Full, NoFix};
    let many: Vec<Row> = (1..=512).map(|radio| (radio, (radio, 9), 2)).collect();
    expect_read_anywhere(&file_of(&many), ACCEPTED);
    let store = full_of_things();
    // with one more at some place of the file
    let with = |at: usize, row: Row| {
        let mut rows = many.clone();
        rows.insert(at, row);
        file_of(&rows)
    };
    for at in [0, 1, 255, 511, 512] {
        let line = at as u64 + 2;
        for (row, refusal, line) in [
            ((600, (9, 9), 2), Full, line),
            ((600, (9, 9), 3), Full, line),
            // it is taken first, and radio 512 last
            ((600, (9, 9), 1), Full, if at == 512 { 513 } else { 514 }),
            ((600, (0, 0), 3), NoFix, line),
            ((7, (9, 9), 3), AlreadyOn, line),
            ((7, (9, 9), 1), AlreadyOn, if at <= 6 { 9 } else { 8 }),
        ] {
            expect_read(store.desk(), store.pages(), &with(at, row), told(refusal, line));
        }
    }
    // what is taken after it is not looked at
    let mut rows = vec![(700, (0, 0), 4), (1, (9, 9), 4), (600, (9, 9), 3)];
    rows.extend(&many);
    expect_read_anywhere(&file_of(&rows), told(Full, 4));
    // 511 of them, and a radio twice
    rows = many[..511].to_vec();
    rows.push((511, (9, 9), 2));
    expect_read(store.desk(), store.pages(), &file_of(&rows), told(AlreadyOn, 513));
}

// ---- long files

/// Lines of many radios and minutes, rising or falling.
fn long_file(lines: u32, falling: bool) -> Vec<u8> {
    let minute = |i| if falling { lines - i } else { i };
    let rows = (0..lines).map(|i| (1 + (i % 4095) as u16, (i as u16 | 1, 9), minute(i)));
    file_of(&rows.collect::<Vec<_>>())
}

#[test]
fn a_file_of_100_000_lines_is_turned_down_with_a_line_beyond_16_bits() {
    let store = full_of_things();
    let expect = |file: &[u8], told| drop(expect_read(store.desk(), store.pages(), file, told));
    let rising = long_file(100_000, false);
    expect(&rising, told(Refusal::Full, 514));
    let falling = long_file(100_000, true);
    expect(&falling, told(Refusal::Full, 100_001 - 512));
    // the last line is bad
    for mut file in [rising, falling] {
        file.extend(b"7,1,1");
        expect(&file, told(Refusal::BadLine, 100_002));
    }
    // one radio, 100,000 times: the second line that is taken
    let rows: Vec<Row> = (0..100_000).map(|i| (7, (9, 9), 100_000 - i)).collect();
    expect(&file_of(&rows), told(Refusal::AlreadyOn, 100_000));
}

/// The best of some timings.
fn time(file: &[u8]) -> Duration {
    let store = Store::fresh();
    let once = || {
        let (mut desk, mut pages) = (store.desk().clone(), store.pages().to_vec());
        let start = Instant::now();
        let answer = boragefile::csv_read(&mut desk, &mut pages, file);
        let time = start.elapsed();
        assert!(answer.line().is_some());
        time
    };
    (0..7).map(|_| once()).min().expect("some timings")
}

/// Whether twenty times as long a file takes less than a hundred times as long: twenty times is linear, four hundred times would be the
/// square. The best timing of each counts, and more are made as long as other work on the machine spoils them.
fn is_linear(short: &[u8], long: &[u8]) -> bool {
    let mut best = [Duration::MAX; 2];
    let linear = (0..50).any(|_| {
        for (best, file) in best.iter_mut().zip([short, long]) {
            *best = time(file).min(*best);
        }
        best[1] < 100 * best[0]
    });
    println!("short and long: {best:?}");
    linear
}

#[test]
fn long_files_take_linear_time() {
    for falling in [false, true] {
        let [short, long] = [5_000, 100_000].map(|lines| long_file(lines, falling));
        assert!(is_linear(&short, &long), "falling: {falling}");
    }
    let [short, long] = [100_000, 2_000_000].map(|zeros| with_lines(&[&vec![b'0'; zeros]]));
    assert!(is_linear(&short, &long), "zeros");
}

// ---- any file

/// What a file is made of, more often than chance has it.
const ALPHABET: &[u8] = b"0123456789001234567895,,,,,,\"\"\"\r\n\r\n -+x\0";

fn some_number(random: &mut Xorshift) -> String {
    let number = random.pick(&[
        0,
        1,
        7,
        9,
        10,
        4095,
        4096,
        65535,
        65536,
        u32::MAX.into(),
        1 << 32,
        u64::MAX,
    ]);
    let number = format!("{}{number}", "0".repeat(random.below(3) * random.below(8)));
    if random.once_in(4) {
        format!("\"{number}\"")
    } else {
        number
    }
}

/// A line whose numbers are in range, or at their ends, or just beyond.
fn some_line(random: &mut Xorshift) -> String {
    if random.once_in(12) {
        let fields: Vec<String> = (0..4).map(|_| some_number(random)).collect();
        return fields.join(",") + "\r\n";
    }
    let place = (random.within(0, 3), random.within(0, 3));
    line_text(random.within(1, 30), place, random.below(6) as u32)
}

fn some_file(random: &mut Xorshift) -> Vec<u8> {
    let lines: String = (0..random.below(8)).map(|_| some_line(random)).collect();
    let header = random.pick(&[
        CSV_HEADER,
        CSV_HEADER,
        CSV_HEADER,
        "\"radio\",east,\"north\",minute\r\n",
    ]);
    (header.to_string() + &lines).into_bytes()
}

/// Some bytes changed, put in, taken out, doubled or moved.
fn mutate(random: &mut Xorshift, file: &mut Vec<u8>) {
    for _ in 0..random.below(3) {
        if file.is_empty() {
            return;
        }
        let at = random.below(file.len());
        match random.below(6) {
            0 => file[at] = random.pick(ALPHABET),
            1 => file[at] = random.within(0, 255) as u8,
            2 => file.insert(at, random.pick(ALPHABET)),
            3 => drop(file.remove(at)),
            4 => file.truncate(at),
            _ => {
                let piece = file[at..(at + random.below(12)).min(file.len())].to_vec();
                let to = random.below(file.len());
                file.splice(to..to, piece);
            }
        }
    }
}

#[test]
fn files_with_anything_in_them_are_read_as_the_plain_reader_reads_them() {
    let mut random = Xorshift::new(6);
    let mut both = Both::fresh();
    let mut answers = [0; 16];
    for _ in 0..60_000 {
        let mut file = some_file(&mut random);
        mutate(&mut random, &mut file);
        let told = both.csv_read(&file);
        answers[usize::from(told.number)] += 1;
    }
    println!("mutated: {answers:?}");
    assert!([0, 8, 12, 15].iter().all(|number| answers[*number] > 1000));
    // bytes of the alphabet behind a good header
    answers = [0; 16];
    for _ in 0..60_000 {
        let bytes = (0..random.below(24)).map(|_| random.pick(ALPHABET));
        let file: Vec<u8> = CSV_HEADER.bytes().chain(bytes.collect::<Vec<u8>>()).collect();
        answers[usize::from(both.csv_read(&file).number)] += 1;
    }
    println!("from an alphabet: {answers:?}");
    assert!(answers[15] > 1000 && answers[0] > 100);
}

/// Some lines in any order, about as many as can be taken, of few minutes or of many; in some files a radio stands twice, or a place is (0,0).
fn some_long_file(random: &mut Xorshift) -> Vec<u8> {
    let minutes = random.pick(&[1, 2, 40, 4000]);
    let mut radios: Vec<u16> = (1..=4095).collect();
    let count = 480 + random.below(220);
    for i in 0..count {
        let other = i + random.below(radios.len() - i);
        radios.swap(i, other);
    }
    if random.once_in(3) {
        radios[random.below(count)] = radios[random.below(count)];
    }
    let at_corner = random.once_in(3).then(|| random.below(count));
    let rows = radios[..count].iter().enumerate().map(|(i, &radio)| {
        let place = (random.coordinate() | 1, random.coordinate());
        let place = if Some(i) == at_corner { (0, 0) } else { place };
        (radio, place, random.below(minutes) as u32)
    });
    file_of(&rows.collect::<Vec<_>>())
}

#[test]
fn files_of_about_513_lines_in_any_order_are_read_as_the_plain_reader_reads_them() {
    let mut random = Xorshift::new(66);
    let mut both = Both::fresh();
    let mut answers = [0; 16];
    for _ in 0..1000 {
        let told = both.csv_read(&some_long_file(&mut random));
        answers[usize::from(told.number)] += 1;
    }
    println!("about 513 lines: {answers:?}");
    assert!([0, 8, 10, 12].iter().all(|number| answers[*number] > 50));
}

/// Every file of up to five bytes of a small alphabet after the radio, east and north of a line: what may stand in and behind a last field.
#[test]
fn every_short_end_of_a_line_is_read_as_the_plain_reader_reads_it() {
    let alphabet = b"07,\"\r\n ";
    let mut both = Both::fresh();
    let (mut read, mut all) = (0, 0);
    for length in 0..=5u32 {
        for code in 0..alphabet.len().pow(length) {
            let byte = |i: u32| alphabet[code / alphabet.len().pow(i) % alphabet.len()];
            let file: Vec<u8> = CSV_HEADER
                .bytes()
                .chain(*b"5,1,1,")
                .chain((0..length).map(byte))
                .collect();
            read += usize::from(both.csv_read(&file).number == 0);
            all += 1;
        }
    }
    println!("{read} of {all} are read");
    assert_eq!(all, (7usize.pow(6) - 1) / 6);
    // up to five digits, two of them the line's end, or quotes about up to three, of which one may be outside: counted by hand
    let digits = |n: u32| 2usize.pow(n);
    let plain: usize = (1..=5).map(digits).sum();
    let ended: usize = (1..=3).map(digits).sum();
    let quoted: usize = (1..=3).map(digits).sum();
    let quoted_and_ended = digits(1);
    assert_eq!(read, plain + ended + quoted + quoted_and_ended);
}

// ---- there and back

fn latest(both: &Both) -> Vec<(u16, Fix)> {
    both.plain.latest().collect()
}

/// What some radio sends next.
fn sends(random: &mut Xorshift, both: &Both, radios: u16) -> Record {
    let minute = both.plain.highest() + u32::from(random.once_in(10)) * random.within(1, 90) as u32;
    let radio = random.within(1, radios);
    let (east, north) = (random.coordinate() | 1, random.coordinate());
    match (both.plain.place(radio).is_some(), random.once_in(5)) {
        (false, _) => on((radio, (east, north), minute)),
        (true, true) => Record::SignOff { radio, minute },
        (true, false) => Record::Report {
            radio,
            east,
            north,
            minute,
        },
    }
}

/// "A file written by us from a store with no radio at (0,0) and read back gives the same latest places and minutes"; and the store that it makes goes on as
/// any other: further records, ranges, watches and files agree with the plain list.
#[test]
fn a_file_written_and_read_back_gives_the_same_latest_places_and_minutes() {
    let mut random = Xorshift::new(60);
    for run in 0..60 {
        let mut both = Both::fresh();
        let radios = random.pick(&[3, 20, 100, 400, 600]);
        for _ in 0..random.below(4) {
            for _ in 0..random.below(700) {
                both.record(sends(&mut random, &both, radios));
            }
            assert_eq!(both.watch_set(random.within(0, 15), MAP).number, 0);
            let before = latest(&both);
            let file = both.file();
            assert_eq!(both.csv_read(&file).numbers(), ACCEPTED, "run {run}");
            assert_eq!(latest(&both), before, "run {run}");
            assert_eq!(both.file(), file, "run {run}");
            assert!((0..16).all(|w| both.plain.watched(w).is_none()));
        }
    }
}

/// The lines in any order, with quotes and zeros, make the same store.
#[test]
fn the_order_in_the_file_does_not_matter_where_no_two_lines_have_the_same_minute_and_radio() {
    let mut random = Xorshift::new(600);
    for _ in 0..40 {
        let mut rows: Vec<Row> = (1..=random.within(1, 300))
            .map(|radio| {
                (
                    radio,
                    (random.coordinate() | 1, random.coordinate()),
                    random.below(40) as u32,
                )
            })
            .collect();
        let made = signed_on_one_by_one(&file_of(&rows));
        for _ in 0..4 {
            for i in (1..rows.len()).rev() {
                rows.swap(i, random.below(i + 1));
            }
            let (desk, pages) = expect_read(made.desk(), made.pages(), &file_of(&rows), ACCEPTED);
            assert!(desk == *made.desk() && pages == made.pages());
        }
    }
}

// ---- the comparison itself

/// A desk that takes lines in the order of the file does not get through.
#[test]
#[should_panic(expected = "the store of a file is not that of its sign-ons")]
fn a_desk_that_reads_another_place_is_told_apart() {
    let mut both = Both::fresh();
    both.store = signed_on_one_by_one(&file_of(&[(7, (1, 2), 3)]));
    let other = both.store.clone();
    both.compare_read(&file_of(&[(7, (2, 1), 3)]), |store, _| {
        store.clone_from(&other);
        store.csv_read(&file_of(&[(7, (1, 2), 3)]))
    });
}

/// And neither does one that tells the place in the order for the line.
#[test]
#[should_panic(expected = "a file read")]
fn a_desk_that_tells_another_line_is_told_apart() {
    let mut both = Both::fresh();
    both.compare_read(&file_of(&[(7, (1, 1), 2), (7, (1, 1), 1)]), |store, _| {
        store.csv_read(&file_of(&[(7, (1, 1), 1), (7, (1, 1), 2)]))
    });
}
