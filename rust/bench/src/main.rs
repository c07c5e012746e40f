//! Times the desk, one core, beside the plain list on the same calls.
//!
//! 512 radios walk in steps of 200 m; one call in eight is a range of 1 % of the square; a minute passes with every
//! 512th call. Prints nanoseconds a call: the mean of reports and of ranges, and of the times of single ones the 99.9th
//! percentile and the greatest (`p999`, `most`); the best of the soundness test alone, on the store that the walk leaves
//! (`test`) and on a made one with more to look at (`test-made`); the greatest time of a report on stores made to be
//! slow (`worst-..`). The same with sixteen watches set (`..-watched`), what setting and clearing one takes, and a report
//! with sixteen ranges after it in place of them (`report-and-ranges`). A file of the 512 radios, written (`csv-write`) and read
//! (`csv-read`, and `csv-read-falling` with its lines in the opposite of the order taken), the same sign-ons as single calls without their tests
//! (`single-sign-ons`), and files of 100,000 lines turned down (`csv-long`, `csv-long-falling`). `--smoke` makes a short run; `--worst` also prints all stores that were tried for the worst; `--calls FILE` also
//! writes the calls, records one after the other, and `--csv FILE` the file.
#![forbid(unsafe_code)]
mod files;
mod found;
mod made;
mod plan;
mod tails;
mod walk;
mod watched;
mod worst;

use boragefile::{Rectangle, Store, LIST_BYTES, PAGE_BYTES};
use conformance::Plain;
use made::made_store;
use std::hint::black_box;
use std::process::ExitCode;
use std::time::{Duration, Instant};
use tails::{empty_timing, Run, Tail};
use walk::{Walk, REPORTS};
use worst::Worst;

/// How much is timed: the calls of the walk, how often these are made again for the tails, and the worst cases.
struct Extent {
    calls: usize,
    walks: usize,
    worst: usize,
}

const WHOLE: Extent = Extent {
    calls: 200_000,
    walks: 7,
    worst: 400,
};
const SMOKE: Extent = Extent {
    calls: 4_000,
    walks: 3,
    worst: 10,
};

fn main() -> ExitCode {
    let mut extent = WHOLE;
    let mut all_tried = false;
    let (mut file, mut csv) = (None, None);
    let mut arguments = std::env::args().skip(1);
    while let Some(argument) = arguments.next() {
        match argument.as_str() {
            "--smoke" => extent = SMOKE,
            "--worst" => all_tried = true,
            "--calls" => file = arguments.next(),
            "--csv" => csv = arguments.next(),
            _ => {
                eprintln!("usage: bench [--smoke] [--worst] [--calls FILE] [--csv FILE]");
                return ExitCode::from(2);
            }
        }
    }
    let walk = Walk::new(extent.calls);
    if let Some(file) = file {
        std::fs::write(file, walk.journal()).expect("the calls are written");
    }
    let store = print_walk(&walk, &extent);
    print_watched(&walk, &extent);
    let written = files::file_of(&store);
    print_files(&store, &written, &extent);
    if let Some(csv) = csv {
        std::fs::write(csv, &written).expect("the file is written");
    }
    let mut worst = Worst::new();
    worst.time(extent.worst, empty_timing());
    worst.print();
    if all_tried {
        worst.print_tried();
    }
    ExitCode::SUCCESS
}

/// Answers the store that the walk leaves.
fn print_walk(walk: &Walk, extent: &Extent) -> Store {
    let (desk, store) = time_desk(walk, &[]);
    let plain = time_plain(walk);
    assert_eq!(desk.found, plain.found, "desk and plain list find the same radios");
    println!("report {}", desk.report);
    println!("range {}", desk.range);
    print_tails(walk, extent.walks);
    println!("test {}", time_test(&store, extent.calls / 8));
    println!("test-made {}", time_test(&made_store(), extent.calls / 8));
    println!("pages-changed-per-report {:.3}", pages_changed(walk));
    println!("plain-report {}", plain.report);
    println!("plain-range {}", plain.range);
    store
}

/// The file of the walk's store, written and read.
fn print_files(store: &Store, file: &[u8], extent: &Extent) {
    let times = extent.calls / 200;
    println!("csv-write {}", files::time_write(store, times).as_nanos());
    println!("csv-read {}", files::time_read(file, times).as_nanos());
    let falling = files::falling(file);
    println!("csv-read-falling {}", files::time_read(&falling, times).as_nanos());
    println!("single-sign-ons {}", files::time_single(file, times / 10).as_nanos());
    for (figure, falls) in [("csv-long", false), ("csv-long-falling", true)] {
        let long = files::long(100_000, falls);
        println!("{figure} {}", files::time_refusal(&long, 1 + times / 100).as_nanos());
    }
}

/// The walk and the test once more, with watches.
fn print_watched(walk: &Walk, extent: &Extent) {
    let (desk, store) = time_desk(walk, &watched::areas());
    println!("report-watched {}", desk.report);
    println!("range-watched {}", desk.range);
    let tests = extent.calls / 8;
    println!("test-watched {}", time_test(&store, tests));
    let mut made = made_store();
    watched::set_all(&mut made, &watched::areas());
    println!("test-made-watched {}", time_test(&made, tests));
    let (setting, clearing) = watched::time_calls(&store, tests);
    println!("watch-set {}", setting.as_nanos());
    println!("watch-clear {}", clearing.as_nanos());
    println!(
        "report-and-ranges {}",
        watched::time_ranges_instead(walk, walk.groups.len() / 10)
    );
}

/// Nanoseconds a report and a range, and how many radios the ranges found.
struct Times {
    report: u128,
    range: u128,
    found: u64,
}

fn time_groups(walk: &Walk, mut call: impl FnMut(&[u8]) -> u64) -> Times {
    for sign_on in &walk.sign_ons {
        call(sign_on);
    }
    let (mut reporting, mut ranging, mut found) = (Duration::ZERO, Duration::ZERO, 0);
    for (reports, range) in &walk.groups {
        let start = Instant::now();
        for report in reports {
            call(report);
        }
        let between = Instant::now();
        found += call(range);
        ranging += between.elapsed();
        reporting += between - start;
    }
    let groups = walk.groups.len() as u128;
    Times {
        report: reporting.as_nanos() / (REPORTS as u128 * groups),
        range: ranging.as_nanos() / groups,
        found,
    }
}

/// On a store with these rectangles watched from the start.
fn time_desk(walk: &Walk, areas: &[Rectangle]) -> (Times, Store) {
    let mut store = Store::fresh();
    watched::set_all(&mut store, areas);
    let mut buffer = vec![0; LIST_BYTES];
    let times = time_groups(walk, |bytes| {
        let answer = store.call(bytes, &mut buffer);
        assert_eq!(answer.number(), 0);
        answer.count()
    });
    (times, store)
}

fn time_plain(walk: &Walk) -> Times {
    let mut plain = Plain::new();
    time_groups(walk, |bytes| {
        let told = plain.call(bytes, LIST_BYTES);
        assert_eq!(told.number, 0);
        told.count
    })
}

/// The tails of the walk's reports and ranges, each call by itself, the best of so many walks.
fn print_tails(walk: &Walk, walks: usize) {
    let mut store = Store::fresh();
    for sign_on in &walk.sign_ons {
        assert_eq!(store.call(sign_on, &mut []).number(), 0);
    }
    let empty = empty_timing();
    let mut run = Run::new(store, walk.calls().cloned().collect());
    for _ in 0..walks {
        run.again(empty);
    }
    let groups = run.best().chunks_exact(REPORTS + 1);
    let reports = Tail::of(groups.clone().flat_map(|group| &group[..REPORTS]).copied().collect());
    let ranges = Tail::of(groups.map(|group| group[REPORTS]).collect());
    for (kind, tail) in [("report", reports), ("range", ranges)] {
        println!("{kind}-p999 {}", tail.p999.as_nanos());
        println!("{kind}-most {}", tail.most.as_nanos());
    }
}

/// The best time of the soundness test alone, on a store that it accepts.
fn time_test(store: &Store, times: usize) -> u128 {
    let test = || {
        let start = Instant::now();
        let sound = black_box(black_box(store).is_sound());
        let time = start.elapsed();
        assert!(sound, "the timed store is sound");
        time
    };
    let best = (0..times).map(|_| test()).min().expect("some tests are timed");
    best.as_nanos()
}

/// How many pages a report changes, on average; not timed.
fn pages_changed(walk: &Walk) -> f64 {
    let mut store = Store::fresh();
    for sign_on in &walk.sign_ons {
        assert_eq!(store.call(sign_on, &mut []).number(), 0);
    }
    let (mut before, mut changed, mut reports) = (store.pages().to_vec(), 0, 0);
    for report in walk.groups.iter().flat_map(|(reports, _)| reports) {
        assert_eq!(store.call(report, &mut []).number(), 0);
        let pairs = store
            .pages()
            .chunks_exact(PAGE_BYTES)
            .zip(before.chunks_exact(PAGE_BYTES));
        changed += pairs.filter(|(after, before)| after != before).count();
        before.copy_from_slice(store.pages());
        reports += 1;
    }
    f64::from(changed as u32) / f64::from(reports)
}
