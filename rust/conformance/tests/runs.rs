//! Long runs beside the plain list: more than a million calls, every answer and list compared, and every turned-down call
//! and every range leaving desk and pages as they were; beside the plain rule, who waits after every call, and chains, stale
//! entries, missed counts and minutes now and then. Minutes rise, some are too early, and ranges ask when a radio is just not
//! too old, or just too old; two runs come to the last minute there is. Watches are set, set again and cleared in between; those
//! that gain or lose a radio are compared after every call, and all members now and then. Files are written, and read, most of them
//! with something wrong in them; one that is read makes a store in place of the run's, and the list and the rule begin anew with it. The
//! same runs every time.
#![forbid(unsafe_code)]
use boragefile::{Record, Rectangle, CSV_HEADER, LIST_BYTES};
use conformance::{line_text, Both, Fix, Told, Xorshift};

const RUNS: usize = 9;
const CALLS: usize = 115_000;
const _: () = assert!(RUNS * CALLS >= 1_000_000);

/// What a run went through.
#[derive(Default, Debug)]
struct Seen {
    /// Answers by number; at 0 the accepted ones.
    answers: [usize; 16],
    found: u64,
    ages: Ages,
    watches: Watched,
    files: Files,
    flushes: usize,
    splits: usize,
    joins: usize,
    most_cells: u16,
    most_lines: u16,
}

/// How often an accepted range came so many minutes after the latest report of some radio on.
#[derive(Default, Debug)]
struct Ages {
    of_720: usize,
    of_721: usize,
    of_more: usize,
}

/// What the watches went through: calls that set one and that cleared one, and how often a watch gained a radio, or lost it.
#[derive(Default, Debug)]
struct Watched {
    set: usize,
    cleared: usize,
    gained: usize,
    lost: usize,
}

/// The files that were written, those that did not fit, and those that were read and made a store.
#[derive(Default, Debug)]
struct Files {
    written: usize,
    too_long: usize,
    read: usize,
}

impl Watched {
    fn count(&mut self, told: &Told) {
        self.gained += told.gained.count_ones() as usize;
        self.lost += told.lost.count_ones() as usize;
    }
}

impl Ages {
    fn count(&mut self, both: &Both, range: &[u8]) {
        let minute = minute_of(range);
        let age = |fix: Fix| minute.saturating_sub(fix.minute);
        let any = |test: fn(u32) -> bool| usize::from(both.plain.latest().any(|(_, fix)| test(age(fix))));
        self.of_720 += any(|age| age == 720);
        self.of_721 += any(|age| age == 721);
        self.of_more += any(|age| age > 721);
    }
}

/// A record's last four bytes.
fn minute_of(record: &[u8]) -> u32 {
    let [.., a, b, c, d] = record else {
        panic!("a record ends with its minute")
    };
    u32::from_le_bytes([*a, *b, *c, *d])
}

/// A run of `CALLS` calls from a fresh store, the first at this minute; `next` gives each call's bytes and the length of its
/// answer buffer.
fn run(name: &str, seed: u64, first: u32, mut next: impl FnMut(&mut Xorshift, &Both) -> (Vec<u8>, usize)) -> Seen {
    let mut random = Xorshift::new(seed);
    let mut both = Both::fresh();
    let mut seen = Seen::default();
    let minute = first;
    let (radio, east, north) = (4000, 1, 1);
    both.record(Record::SignOn {
        radio,
        east,
        north,
        minute,
    });
    both.record(Record::SignOff { radio, minute });
    while both.calls() < CALLS {
        if random.once_in(60) {
            let told = watch(&mut random, &mut both, &mut seen.watches);
            seen.answers[usize::from(told.number)] += 1;
            continue;
        }
        if random.once_in(400) {
            let told = file(&mut random, &mut both, &mut seen.files);
            seen.answers[usize::from(told.number)] += 1;
            continue;
        }
        let (bytes, room) = next(&mut random, &both);
        let before = &both.store.desk().parts;
        let (cells, waiting) = (before.frame.cells, before.waiting);
        let told = both.call(&bytes, room);
        let parts = &both.store.desk().parts;
        seen.answers[usize::from(told.number)] += 1;
        seen.watches.count(&told);
        if told.number == 0 && bytes[2] == 4 {
            seen.found += told.count;
            seen.ages.count(&both, &bytes[..16]);
        }
        seen.flushes += usize::from(parts.waiting + 1 < waiting);
        seen.splits += usize::from(parts.frame.cells > cells);
        seen.joins += usize::from(parts.frame.cells < cells);
        seen.most_cells = seen.most_cells.max(parts.frame.cells);
        seen.most_lines = seen.most_lines.max(parts.lines);
    }
    both.compare_watches();
    println!("{name}: {CALLS} calls agree: {seen:?}");
    assert_eq!(seen.answers[2], 0, "{name}: a run's store stays sound");
    assert!(seen.answers[13] > 100, "{name}: some minutes are too early");
    assert!(seen.answers[14] > 100, "{name}: some watches are not there");
    assert!(seen.answers[15] > 50, "{name}: some files have a bad line");
    let Files {
        written,
        too_long,
        read,
    } = seen.files;
    assert!(
        written.min(too_long) > 20 && read > 3,
        "{name}: files are written and read"
    );
    let Watched {
        set,
        cleared,
        gained,
        lost,
    } = seen.watches;
    assert!(
        set.min(cleared) > 100 && gained.min(lost) > 1000,
        "{name}: watches come and go, and so do their members"
    );
    let Ages {
        of_720,
        of_721,
        of_more,
    } = seen.ages;
    assert!(
        of_720.min(of_721).min(of_more) > 100,
        "{name}: some ranges come when a radio is at the limit of its age, and past it"
    );
    seen
}

/// The minute of what is sent next: mostly the highest so far, often the one after it; now and then hours later, or too early.
fn minute(random: &mut Xorshift, both: &Both) -> u32 {
    let highest = both.plain.highest();
    match random.below(400) {
        0 => highest.saturating_sub(u32::from(random.within(1, 800))),
        1 => highest.saturating_add(u32::from(random.within(1, 400))),
        2..=40 => highest.saturating_add(1),
        _ => highest,
    }
}

/// What this radio might send next: mostly what it may, now and then what it may not.
fn sends(random: &mut Xorshift, both: &Both, radio: u16, place: (u16, u16), off_once_in: usize) -> Record {
    let (east, north) = place;
    let minute = minute(random, both);
    let is_on = both.plain.place(radio).is_some();
    match (is_on != random.once_in(40), random.once_in(off_once_in)) {
        (true, true) => Record::SignOff { radio, minute },
        (true, false) => Record::Report {
            radio,
            east,
            north,
            minute,
        },
        (false, _) => Record::SignOn {
            radio,
            east,
            north,
            minute,
        },
    }
}

/// What the latest report of one of the radios on told.
fn one_on(random: &mut Xorshift, both: &Both) -> Option<Fix> {
    let on = both.store.desk().radios_on();
    if on.is_empty() {
        return None;
    }
    both.plain.fix(random.pick(on))
}

/// The minute of a range: as of any record, or so that a radio is just not too old, just too old, or others are.
fn asks_at(random: &mut Xorshift, both: &Both, reported: u32) -> u32 {
    let highest = both.plain.highest();
    let after = match random.below(6) {
        0 => reported.saturating_add(720),
        1 => reported.saturating_add(721),
        2 => highest.saturating_add(u32::from(random.within(0, 1500))),
        _ => return minute(random, both),
    };
    after.max(highest)
}

/// The whole square, any rectangle, or one with a radio at an edge or beside it.
fn rectangle(random: &mut Xorshift, both: &Both) -> Record {
    let nobody = Fix {
        place: (5, 5),
        minute: 0,
    };
    let of_one = one_on(random, both).unwrap_or(nobody);
    let (e, n) = of_one.place;
    let (a, b, c, d) = (
        random.coordinate(),
        random.coordinate(),
        random.coordinate(),
        random.coordinate(),
    );
    // The radio on the east or north edge, which is outside, or a metre inside.
    let (to_east, to_north) = (e.saturating_add(a % 2), n.saturating_add(c % 2));
    let (west, east, south, north) = match random.below(8) {
        0 => (0, 65535, 0, 65535),
        1 | 2 => (a.min(b), a.max(b), c.min(d), c.max(d)),
        3 => (e, to_east, n, to_north),
        4 => (e, 65535, 0, to_north),
        5 => (e.saturating_add(1), 65535, 0, 65535),
        6 => (0, to_east, n.saturating_add(1), 65535),
        _ => (random.near(e, 2000).min(e), to_east, n, random.near(n, 2000).max(n)),
    };
    Record::Range {
        west,
        east,
        south,
        north,
        minute: asks_at(random, both, of_one.minute),
    }
}

/// Sets a watch, or now and then clears one; some have a number above 15, or a rectangle that is reversed.
fn watch(random: &mut Xorshift, both: &mut Both, watched: &mut Watched) -> Told {
    let number = match random.below(12) {
        0 => 16,
        1 => random.coordinate(),
        _ => random.within(0, 15),
    };
    if random.once_in(4) {
        let told = both.watch_clear(number);
        watched.cleared += usize::from(told.number == 0);
        return told;
    }
    let mut area = match rectangle(random, both) {
        Record::Range {
            west,
            east,
            south,
            north,
            ..
        } => Rectangle {
            west,
            east,
            south,
            north,
        },
        record => panic!("{record:?} is no rectangle"),
    };
    match random.below(30) {
        0 => std::mem::swap(&mut area.west, &mut area.east),
        1 => std::mem::swap(&mut area.south, &mut area.north),
        _ => (),
    }
    let told = both.watch_set(number, area);
    watched.set += usize::from(told.number == 0);
    told
}

/// Writes a file, some to a buffer that may be too short, or reads one.
fn file(random: &mut Xorshift, both: &mut Both, files: &mut Files) -> Told {
    if random.once_in(2) {
        let needed = both.plain.csv_write(usize::MAX).list.len();
        let room = match random.below(4) {
            0 => needed - 1,
            1 => random.below(needed),
            2 => needed,
            _ => needed + random.below(100),
        };
        let told = both.csv_write(room);
        files.written += usize::from(told.number == 0);
        files.too_long += usize::from(told.number == 11);
        return told;
    }
    let told = both.csv_read(&some_file(random, both));
    files.read += usize::from(told.number == 0);
    told
}

/// The latest places in some order, with quotes and zeros here and there, and mostly with something wrong: a byte, a line cut short, a
/// radio twice, one without a fix, or more than may be on.
fn some_file(random: &mut Xorshift, both: &Both) -> Vec<u8> {
    let mut lines: Vec<String> = both
        .plain
        .latest()
        .map(|(radio, fix)| line_text(radio, fix.place, fix.minute))
        .collect();
    // few are whole: each of these begins the run's store anew
    let wrong = if random.once_in(14) {
        random.within(8, 9)
    } else {
        random.within(0, 7)
    };
    let minute = both.plain.highest().saturating_sub(random.below(3) as u32);
    match wrong {
        0 => lines.push(line_text(random.within(1, 4095), (0, 0), minute)),
        1 => lines.extend(lines.first().cloned()),
        2 => lines.extend((0..600).map(|i| line_text(3000 + i, (5, 5), minute))),
        3 => lines.push(line_text(4096, (5, 5), minute)),
        _ => (),
    }
    for i in (1..lines.len()).rev() {
        lines.swap(i, random.below(i + 1));
    }
    for line in &mut lines {
        if random.once_in(5) {
            let (radio, rest) = line.split_once(',').expect("four fields");
            *line = format!("\"{}{radio}\",{rest}", "0".repeat(random.below(4)));
        }
    }
    let mut file = (CSV_HEADER.to_string() + &lines.concat()).into_bytes();
    let at = random.below(file.len());
    match wrong {
        4 => file[at] = random.pick(b",\"\r\n -x\0"),
        5 => file.insert(at, random.pick(b",\"\r\n -x\0")),
        6 => file.truncate(at.min(CSV_HEADER.len() - 3)),
        7 => file.extend(b"\r\n"),
        8 => file.truncate(file.len() - 2),
        _ => (),
    }
    file
}

fn with_room(record: Record) -> (Vec<u8>, usize) {
    (record.to_bytes(), LIST_BYTES)
}

#[test]
fn few_radios() {
    let seen = run("few radios", 1, 0, |random, both| {
        if random.once_in(6) {
            return with_room(rectangle(random, both));
        }
        let radio = random.within(1, 9);
        let (e, n) = both.plain.place(radio).unwrap_or((30000, 30000));
        let place = (random.near(e, 3000), random.near(n, 3000));
        with_room(sends(random, both, radio, place, 10))
    });
    assert!(seen.flushes > 100 && seen.found > 1000);
}

#[test]
fn one_car_park() {
    let seen = run("one car park", 2, 60_000, |random, both| {
        if random.once_in(10) {
            return with_room(rectangle(random, both));
        }
        let radio = random.within(1, 200);
        let at = |random: &mut Xorshift| {
            if random.once_in(20) {
                random.near(30000, 3)
            } else {
                30000
            }
        };
        let place = (at(random), at(random));
        with_room(sends(random, both, radio, place, 30))
    });
    assert!(seen.flushes > 1000);
}

#[test]
fn borders() {
    let edges = [0, 0, 1, 2, 32767, 32768, 65533, 65534, 65535, 65535];
    let seen = run("borders", 3, u32::MAX - 50_000, |random, both| {
        if random.once_in(5) {
            let (a, b, c, d) = (
                random.pick(&edges),
                random.pick(&edges),
                random.pick(&edges),
                random.pick(&edges),
            );
            let reported = one_on(random, both).map_or(0, |fix| fix.minute);
            let minute = asks_at(random, both, reported);
            return with_room(Record::Range {
                west: a,
                east: b,
                south: c,
                north: d,
                minute,
            });
        }
        let radio = if random.once_in(2) {
            random.within(1, 40)
        } else {
            random.within(4056, 4097)
        };
        let place = (random.pick(&edges), random.pick(&edges));
        with_room(sends(random, both, radio, place, 15))
    });
    assert!(seen.splits > 0 && seen.answers[6] > 0 && seen.answers[7] > 0 && seen.answers[12] > 0);
}

#[test]
fn churn_around_flushes_and_joins() {
    let spots = [(9000, 9000), (9000, 50000), (50000, 9000), (50000, 50000)];
    let seen = run("churn", 4, 0, |random, both| {
        if random.once_in(12) {
            return with_room(rectangle(random, both));
        }
        // The crowd goes from spot to spot, so that cells fill here and fall quiet there.
        let spot = if random.once_in(5) {
            random.pick(&spots)
        } else {
            spots[both.calls() / 700 % 4]
        };
        let place = (random.near(spot.0, 6000), random.near(spot.1, 6000));
        let radio = random.within(1, 120);
        with_room(sends(random, both, radio, place, 3))
    });
    assert!(seen.joins > 100 && seen.splits > 100 && seen.answers[8] > 100 && seen.answers[9] > 100);
}

#[test]
fn all_512_on() {
    let seen = run("all on", 5, 60_000, |random, both| {
        if random.once_in(20) {
            return with_room(rectangle(random, both));
        }
        let radio = 7 * random.within(1, 540);
        if both.plain.place(radio).is_none() {
            let (east, north) = (random.coordinate(), random.coordinate());
            let minute = minute(random, both);
            return with_room(Record::SignOn {
                radio,
                east,
                north,
                minute,
            });
        }
        let (e, n) = both.plain.place(radio).unwrap_or_default();
        let place = (random.near(e, 2500), random.near(n, 2500));
        with_room(sends(random, both, radio, place, 100))
    });
    assert!(seen.answers[10] > 1000 && seen.most_cells > 20);
}

#[test]
fn malformed_bytes() {
    let seen = run("malformed", 6, 0, |random, both| {
        let radio = random.within(1, 150);
        let place = (random.coordinate(), random.coordinate());
        let record = if random.once_in(6) {
            rectangle(random, both)
        } else {
            sends(random, both, radio, place, 12)
        };
        let mut bytes = record.to_bytes();
        match random.below(12) {
            0 => bytes.truncate(random.below(bytes.len())),
            1 => {
                let at = random.below(bytes.len());
                bytes[at] = random.within(0, 255) as u8;
            }
            2 => bytes[0] = random.within(0, 18) as u8,
            3 => bytes[1] = random.within(0, 2) as u8,
            4 => bytes[2] = random.within(0, 6) as u8,
            5 => bytes[3] = random.within(0, 1) as u8,
            6 => bytes.resize(random.below(40), 0xee),
            7 => bytes.iter_mut().skip(6).take(4).for_each(|byte| *byte = 0),
            8 => bytes = (0..random.below(20)).map(|_| random.within(0, 255) as u8).collect(),
            _ => (),
        }
        (
            bytes,
            if random.once_in(3) {
                random.below(100)
            } else {
                LIST_BYTES
            },
        )
    });
    for (number, times) in seen.answers.iter().enumerate() {
        assert!(
            matches!(number, 1 | 2 | 10) || *times > 20,
            "number {number} comes {times} times"
        );
    }
}

#[test]
fn small_answer_buffers() {
    let seen = run("small buffers", 7, u32::MAX - 30_000, |random, both| {
        if random.once_in(2) {
            let range = rectangle(random, both);
            let radios = random.below(both.plain.on() + 1);
            return (range.to_bytes(), (6 * radios + random.below(3)).saturating_sub(1));
        }
        let radio = random.within(1, 60);
        let place = (random.coordinate(), random.coordinate());
        with_room(sends(random, both, radio, place, 8))
    });
    assert!(seen.answers[11] > 5000 && seen.found > 5000);
}

#[test]
fn a_crowd_that_crosses_the_square() {
    let seen = run("a crowd", 11, 0, |random, both| {
        if random.once_in(10) {
            return with_room(rectangle(random, both));
        }
        // There and back in 40,000 calls; who is not called by stays behind.
        let way = both.calls() % 40_000;
        let along = (3 * way.min(40_000 - way)) as u16;
        let radio = random.within(1, 300);
        let place = (random.near(along, 4000), random.near(along / 2, 4000));
        with_room(sends(random, both, radio, place, 60))
    });
    assert!(seen.joins > 100 && seen.splits > 100 && seen.most_cells == 64);
}

#[test]
fn everyone_jumps_anywhere() {
    let seen = run("anywhere", 9, 60_000, |random, both| {
        if random.once_in(25) {
            return with_room(rectangle(random, both));
        }
        let radio = random.within(1, 500);
        let place = (random.coordinate(), random.coordinate());
        with_room(sends(random, both, radio, place, 200))
    });
    assert!(seen.joins > 100 && seen.most_cells > 30 && seen.most_lines > 80);
}
