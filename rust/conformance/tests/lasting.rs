//! How long an old entry can last: off the pages by the end of the 1,024th accepted sign-on, report or sign-off after the one in which it became stale. What
//! is proved is one less, the 1,023rd, and here an entry stands until then.
#![forbid(unsafe_code)]
use boragefile::{Record, Slot};
use conformance::{Both, Xorshift};
use std::collections::HashMap;

type Place = (u16, u16);
type Entry = (u16, Place);

/// The figure of the training card, and the one that is reached.
const LASTING: usize = 1024;
const REACHED: usize = 1023;
const CELLS: usize = 64;
/// Radios of the crowd, and one that is none of it.
const CROWD: u16 = 500;
const GUEST: u16 = 4000;
const CROSSING: usize = 40_000;

/// A run, with the record in which each stale entry on the pages became so.
struct Run {
    both: Both,
    /// Accepted sign-ons, reports and sign-offs.
    records: usize,
    since: HashMap<Entry, usize>,
    oldest: usize,
}

impl Run {
    fn fresh() -> Run {
        Run {
            both: Both::fresh(),
            records: 0,
            since: HashMap::new(),
            oldest: 0,
        }
    }

    /// One that is accepted. An entry that isn't stale at its end, or isn't there, is forgotten: what stands there later is another.
    fn record(&mut self, record: Record) {
        assert_eq!(self.both.record(record).number, 0, "{record:?}");
        self.records += 1;
        let mut since = HashMap::new();
        for entry in self.both.stale_entries() {
            let from = *self.since.get(&entry).unwrap_or(&self.records);
            assert_eq!(since.insert(entry, from), None, "{entry:?} stands once on the pages");
            self.oldest = self.oldest.max(self.records - from);
        }
        self.since = since;
        assert!(self.oldest < LASTING, "a stale entry is {} records old", self.oldest);
    }

    /// How many records ago the entry became stale, if it is on the pages and stale.
    fn age(&self, entry: Entry) -> Option<usize> {
        self.since.get(&entry).map(|from| self.records - from)
    }

    /// A radio of the crowd that crosses the square, there and back; who is not called by stays behind.
    fn crowd(&mut self, random: &mut Xorshift) {
        let way = self.records % CROSSING;
        let along = (3 * way.min(CROSSING - way)) as u16;
        let place = (random.near(along, 4000).max(1), random.near(along / 2, 4000));
        let radio = random.within(1, CROWD);
        match self.both.plain.place(radio) {
            None => self.sign_on(radio, place),
            Some(_) if random.once_in(30) => self.sign_off(radio),
            Some(_) => self.report(radio, place),
        }
    }

    fn sign_on(&mut self, radio: u16, place: Place) {
        self.record(sign_on(radio, place, self.both.clock()));
    }

    fn report(&mut self, radio: u16, (east, north): Place) {
        self.record(Record::Report {
            radio,
            east,
            north,
            minute: self.both.clock(),
        });
    }

    fn sign_off(&mut self, radio: u16) {
        let minute = self.both.clock();
        self.record(Record::SignOff { radio, minute });
    }

    /// The guest signs on, or off again before it is flushed: the round moves on by the tally alone.
    fn quiet(&mut self, place: Place) {
        let waiting = self.both.store.desk().parts.waiting;
        if self.both.plain.place(GUEST).is_some() {
            self.sign_off(GUEST);
            assert_eq!(self.both.store.desk().parts.waiting, waiting - 1);
        } else {
            self.sign_on(GUEST, place);
            assert_eq!(self.both.store.desk().parts.waiting, waiting + 1, "nothing is flushed");
        }
    }

    fn round(&self) -> &[Slot] {
        self.both.store.desk().cells_in_use()
    }

    fn waits(&self, radio: u16) -> bool {
        let mut reports = self.both.store.desk().reports_in_use();
        reports.any(|report| report.radio == radio)
    }

    /// A radio on that does not wait and whose place lies in the cell: its entry there isn't stale.
    fn lives_in(&self, cell: Slot) -> Option<Entry> {
        let inside = |(east, north): Place| {
            (cell.west..=cell.east).contains(&east) && (cell.south..=cell.north).contains(&north)
        };
        let mut latest = self.both.plain.latest().map(|(radio, fix)| (radio, fix.place));
        latest.find(|(radio, place)| inside(*place) && !self.waits(*radio))
    }
}

fn sign_on(radio: u16, (east, north): Place, minute: u32) -> Record {
    Record::SignOn {
        radio,
        east,
        north,
        minute,
    }
}

/// A run that has come to 64 cells, and a place at which the guest's report waits.
fn with_all_cells(seed: u64) -> (Run, Place) {
    let mut random = Xorshift::new(seed);
    let mut run = Run::fresh();
    while run.records < 10 * CROSSING {
        run.crowd(&mut random);
        let desk = run.both.store.desk();
        if run.round().len() < CELLS {
            continue;
        }
        let place = (random.coordinate().max(1), random.coordinate());
        let mut tried = run.both.store.clone();
        let answer = tried.call(&sign_on(GUEST, place, run.both.clock()).to_bytes(), &mut []);
        if answer.is_accepted() && tried.desk().parts.waiting > desk.parts.waiting {
            return (run, place);
        }
    }
    panic!("a crowd that crosses the square makes 64 cells");
}

/// A cell with an entry that isn't stale comes to the front, is swept and goes to the end; with the next record the entry's radio signs off.
fn become_stale(run: &mut Run, place: Place) -> Entry {
    let (cell, entry) = loop {
        let front = run.round()[0];
        match (run.both.store.desk().parts.tally, run.lives_in(front)) {
            (15, Some(entry)) => break (front, entry),
            _ => run.quiet(place),
        }
        assert!(run.records < 20 * CROSSING, "some cell has an entry that isn't stale");
    };
    run.quiet(place);
    run.sign_off(entry.0);
    assert_eq!(run.age(entry), Some(0), "{entry:?} is stale");
    assert_eq!((run.round().len(), run.both.store.desk().parts.tally), (CELLS, 1));
    assert_eq!(
        run.round()[CELLS - 1].number,
        cell.number,
        "its cell is last in the round"
    );
    entry
}

#[test]
fn the_oldest_entry_that_can_be() {
    let (mut run, place) = with_all_cells(8);
    let entry = become_stale(&mut run, place);
    for age in 1..REACHED {
        run.quiet(place);
        assert_eq!(run.age(entry), Some(age));
    }
    run.quiet(place);
    assert_eq!(run.age(entry), None, "off the pages by the end of the 1,023rd record");
    assert_eq!(run.oldest, REACHED - 1);
    println!("{} records: an entry was {} records old", run.records, run.oldest);
}

#[test]
fn one_added_later_at_the_same_place_is_another() {
    let (mut run, place) = with_all_cells(9);
    let entry = become_stale(&mut run, place);
    let first = run.records;
    for _ in 0..1000 {
        run.quiet(place);
    }
    assert_eq!(run.age(entry), Some(1000));
    // The radio is back where it was, with others until their memory cell is flushed: the old entry is swept, and one is added.
    let (radio, there) = entry;
    run.sign_on(radio, there);
    for other in GUEST + 1..GUEST + 10 {
        if run.waits(radio) {
            run.sign_on(other, there);
        }
    }
    assert!(!run.waits(radio) && run.age(entry).is_none());
    run.sign_off(radio);
    assert_eq!(run.age(entry), Some(0), "the count begins anew");
    while run.age(entry).is_some() {
        run.quiet(place);
    }
    assert!(
        run.records - first > LASTING,
        "the place had a stale entry for longer than one can last"
    );
    println!(
        "two entries at one place, {} records, the older {}",
        run.records - first,
        run.oldest
    );
}

#[test]
fn no_entry_is_older() {
    for seed in 1..4 {
        let mut random = Xorshift::new(seed);
        let mut run = Run::fresh();
        while run.records < CROSSING {
            run.crowd(&mut random);
        }
        println!("seed {seed}: {} records, the oldest entry {}", run.records, run.oldest);
        assert!(run.oldest > 500);
    }
}
