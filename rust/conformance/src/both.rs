//! Desk and plain list side by side.
use crate::rule::Rule;
use crate::{in_order, lines_of, Fix, Plain, Told};
use boragefile::{Answer, Located, Record, Rectangle, Store, Watch, CSV_BYTES, LIST_BYTES, WATCHES};
use std::fmt;

/// What stands in every byte of the answer buffer before a call.
const UNTOUCHED: u8 = 0xa5;
/// All pages are compared with the plain rule, and all members with the plain list, once in so many calls.
const WHOLE_COMPARED_EVERY: usize = 64;
/// The clock's minute has so many calls.
const CALLS_A_MINUTE: usize = 64;

/// A desk and a plain list that have had the same records.
pub struct Both {
    pub store: Store,
    pub plain: Plain,
    rule: Rule,
    before: Store,
    buffer: Vec<u8>,
    calls: usize,
}

impl Default for Both {
    fn default() -> Both {
        Both::fresh()
    }
}

impl Both {
    /// A fresh store and an empty list.
    pub fn fresh() -> Both {
        let store = Store::fresh();
        let before = store.clone();
        Both {
            store,
            plain: Plain::new(),
            rule: Rule::new(),
            before,
            buffer: Vec::new(),
            calls: 0,
        }
    }

    /// The calls made so far.
    pub fn calls(&self) -> usize {
        self.calls
    }

    /// A minute for the next record, of a clock that goes on with the calls. No radio is left out for its age before the
    /// clock has gone through some 46,000 of them.
    pub fn clock(&self) -> u32 {
        (self.calls / CALLS_A_MINUTE) as u32
    }

    /// Radio and place of each entry on the pages that is stale by the plain rule.
    pub fn stale_entries(&self) -> impl Iterator<Item = (u16, (u16, u16))> + '_ {
        self.rule.stale_entries(self.store.pages())
    }

    /// Hands a record to both, with an answer buffer that takes every radio.
    pub fn record(&mut self, record: Record) -> Told {
        self.call(&record.to_bytes(), LIST_BYTES)
    }

    /// Hands any bytes to both, with an answer buffer of `room` bytes, and compares all that can be seen: number, count
    /// and list, and the watches that gained or lost the radio; that nothing else is written to the buffer; that a range or a
    /// turned-down call keeps desk and pages; that the same radios are on and wait, at their latest places, since the same
    /// minutes, and the highest minute is the same; that just these watches changed, by this radio. Now and then it asks
    /// whether the store is sound, and compares all members with the plain list, and all pages with the plain rule: chains,
    /// stale entries, missed counts and minutes. Answers what both answered.
    pub fn call(&mut self, bytes: &[u8], room: usize) -> Told {
        self.calls += 1;
        self.before.clone_from(&self.store);
        self.buffer.clear();
        self.buffer.resize(room, UNTOUCHED);
        let told = self.plain.call(bytes, room);
        let call = self.calls;
        let answer = self.store.call(bytes, &mut self.buffer);
        compare_numbers(&answer, &told, format_args!("call {call}: {bytes:?}, {room} bytes"));
        let changes = answer.is_accepted();
        if let Some(list) = answer.list() {
            assert_eq!(list.len() as u64, told.count, "call {call}: the list of {bytes:?}");
            assert!(
                list.iter().flat_map(bytes_of).eq(told.list.iter().copied()),
                "call {call}: the list of {bytes:?} is {list:?}"
            );
        }
        compare_buffer(&self.buffer, &told.list, format_args!("call {call}: {bytes:?}"));
        if changes {
            self.compare_radios(bytes);
            self.compare_moved(bytes, &told);
        } else {
            assert!(self.store == self.before, "call {call}: {bytes:?} changes the store");
        }
        told
    }

    /// Sets a watch on both, and compares all that can be seen: numbers; that a turned-down call keeps desk and pages; that the
    /// watch then has the plain list's members, and all else is as it was. Answers what both answered.
    pub fn watch_set(&mut self, watch: u16, area: Rectangle) -> Told {
        let told = self.plain.watch_set(watch, area);
        self.watch_call(watch, told, |store| store.watch_set(watch, area))
    }

    /// Clears a watch on both, and compares likewise.
    pub fn watch_clear(&mut self, watch: u16) -> Told {
        let told = self.plain.watch_clear(watch);
        self.watch_call(watch, told, |store| store.watch_clear(watch))
    }

    fn watch_call(&mut self, watch: u16, told: Told, call: impl FnOnce(&mut Store) -> Answer<'static>) -> Told {
        self.calls += 1;
        self.before.clone_from(&self.store);
        compare_numbers(
            &call(&mut self.store),
            &told,
            format_args!("call {}: watch {watch}", self.calls),
        );
        if told.number == 0 {
            let changed = self.plain_watch(watch);
            self.before.parts_mut().0.watches[usize::from(watch)] = changed;
        }
        assert!(
            self.store == self.before,
            "call {}: watch {watch} alone is changed",
            self.calls
        );
        told
    }

    /// Writes all radios on to a file, from both, with a buffer that takes every radio. Answers it.
    pub fn file(&mut self) -> Vec<u8> {
        let told = self.csv_write(CSV_BYTES);
        assert_eq!(told.number, 0, "call {}: the file", self.calls);
        told.list
    }

    /// Writes a file from both, with a buffer of `room` bytes, and compares all that can be seen: numbers and file; that nothing else is
    /// written to the buffer; that desk and pages are as they were. Answers what both answered.
    pub fn csv_write(&mut self, room: usize) -> Told {
        self.calls += 1;
        let call = self.calls;
        self.before.clone_from(&self.store);
        self.buffer.clear();
        self.buffer.resize(room, UNTOUCHED);
        let told = self.plain.csv_write(room);
        let answer = self.store.csv_write(&mut self.buffer);
        compare_numbers(
            &answer,
            &told,
            format_args!("call {call}: a file written to {room} bytes"),
        );
        assert_eq!(
            answer.file().unwrap_or_default(),
            told.list,
            "call {call}: a file written to {room} bytes"
        );
        compare_buffer(&self.buffer, &told.list, format_args!("call {call}: a file written"));
        assert!(
            self.store == self.before,
            "call {call}: a file written changes the store"
        );
        told
    }

    /// Reads a file on both, and compares all that can be seen: numbers; that a turned-down call keeps desk and pages; that the store is
    /// then, to the byte, a fresh one after the lines' sign-ons, one by one in the order in which they are taken. The plain rule begins
    /// anew, and is fed these sign-ons with the cuts that each finds. Answers what both answered.
    pub fn csv_read(&mut self, file: &[u8]) -> Told {
        self.compare_read(file, |store, file| store.csv_read(file))
    }

    /// The same, of whatever call should have read the file.
    pub fn compare_read(&mut self, file: &[u8], read: impl FnOnce(&mut Store, &[u8]) -> Answer<'static>) -> Told {
        self.calls += 1;
        let call = self.calls;
        self.before.clone_from(&self.store);
        let told = self.plain.csv_read(file);
        let answer = read(&mut self.store, file);
        let text = || String::from_utf8_lossy(&file[..file.len().min(300)]);
        compare_numbers(&answer, &told, format_args!("call {call}: a file read: {}", text()));
        if told.number != 0 {
            assert!(
                self.store == self.before,
                "call {call}: a file that is turned down changes the store: {}",
                text()
            );
            return told;
        }
        let (mut single, mut rule) = (Store::fresh(), Rule::new());
        for line in in_order(lines_of(file).expect("the list has read it")) {
            let record = line.record().to_bytes();
            rule.carry_out(&record, single.desk());
            assert!(single.call(&record, &mut []).is_accepted(), "call {call}: {line:?}");
        }
        assert!(
            self.store == single,
            "call {call}: the store of a file is not that of its sign-ons: {}",
            text()
        );
        self.rule = rule;
        self.compare_all();
        told
    }

    /// The watch as the plain list has it, field by field.
    fn plain_watch(&self, watch: u16) -> Watch {
        let Some(area) = self.plain.watched(watch) else {
            return Watch::UNSET;
        };
        let mut watch = Watch {
            set: 1,
            west: area.west,
            east: area.east,
            south: area.south,
            north: area.north,
            ..Watch::UNSET
        };
        for radio in self.plain.inside(area) {
            watch.members[usize::from(radio / 16)] |= 1 << (radio % 16);
        }
        watch
    }

    /// After an accepted sign-on, report or sign-off: the radio's bit is turned in the watches that gained or lost it, and these and
    /// all others have no byte changed but that.
    fn compare_moved(&self, bytes: &[u8], told: &Told) {
        let radio = u16::from_le_bytes([bytes[4], bytes[5]]);
        let watches = self.store.desk().watches.iter().zip(&self.before.desk().watches);
        for (w, (after, before)) in watches.enumerate() {
            let mut expected = *before;
            if (told.gained | told.lost) >> w & 1 == 1 {
                expected.members[usize::from(radio / 16)] ^= 1 << (radio % 16);
            }
            assert!(*after == expected, "call {}: watch {w} after {bytes:?}", self.calls);
        }
    }

    /// All watches are those of the plain list, to the byte.
    pub fn compare_watches(&self) {
        for w in 0..WATCHES {
            assert!(
                self.store.desk().watches[w] == self.plain_watch(w as u16),
                "call {}: watch {w}",
                self.calls
            );
        }
    }

    /// After an accepted sign-on, report or sign-off.
    fn compare_radios(&mut self, bytes: &[u8]) {
        let desk = self.store.desk();
        let on = desk.radios_on().iter().copied();
        assert!(
            on.eq(self.plain.latest().map(|(radio, _)| radio)),
            "call {}: who is on",
            self.calls
        );
        assert_eq!(
            desk.parts.highest,
            self.plain.highest(),
            "call {}: the highest minute",
            self.calls
        );
        self.rule.carry_out(bytes, self.before.desk());
        self.rule.compare_waiting(desk);
        for report in desk.reports_in_use() {
            let place = (report.east, report.north);
            let minute = report.minute;
            assert_eq!(
                self.plain.fix(report.radio),
                Some(Fix { place, minute }),
                "call {}: radio {} waits",
                self.calls,
                report.radio
            );
        }
        if self.calls.is_multiple_of(WHOLE_COMPARED_EVERY) {
            self.compare_all();
        }
    }

    fn compare_all(&self) {
        assert!(self.store.is_sound(), "call {}: the store is sound", self.calls);
        self.rule.compare_pages(&self.store);
        self.compare_watches();
    }
}

/// Every number of an answer.
fn compare_numbers(answer: &Answer, told: &Told, call: fmt::Arguments) {
    assert_eq!((answer.number(), answer.count()), told.numbers(), "{call}");
    assert_eq!(
        (answer.gained().bits(), answer.lost().bits()),
        (told.gained, told.lost),
        "{call}: the watches that gained, and that lost"
    );
}

/// What is written stands at the buffer's start, and nothing else is written there.
fn compare_buffer(buffer: &[u8], written: &[u8], call: fmt::Arguments) {
    assert_eq!(buffer[..written.len()], *written, "{call}: what stands in the buffer");
    assert!(
        buffer[written.len()..].iter().all(|byte| *byte == UNTOUCHED),
        "{call}: it writes past its answer"
    );
}

/// A listed radio as the answer buffer has it.
fn bytes_of(located: Located) -> impl Iterator<Item = u8> {
    [located.radio, located.east, located.north]
        .into_iter()
        .flat_map(u16::to_le_bytes)
}
