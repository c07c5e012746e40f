//! The file of the walk's 512 radios: written, and read, beside 512 single sign-ons. A single call tests its store first and a read does
//! not, so what these tests take is taken off.
use boragefile::{begin, Store, CSV_BYTES, CSV_HEADER};
use conformance::{in_order, line_text, lines_of};
use std::hint::black_box;
use std::time::{Duration, Instant};

/// The file of the store that the walk leaves.
pub fn file_of(store: &Store) -> Vec<u8> {
    let mut buffer = vec![0; CSV_BYTES];
    let answer = store.csv_write(&mut buffer);
    answer.file().expect("the buffer takes every radio").to_vec()
}

/// Its lines in the opposite of the order in which they are taken, so that each comes before all that were read.
pub fn falling(file: &[u8]) -> Vec<u8> {
    let lines = in_order(lines_of(file).expect("a good file"));
    let falling = lines.iter().rev();
    let texts = falling.map(|line| line_text(line.radio, (line.east, line.north), line.minute));
    let file: String = std::iter::once(CSV_HEADER.to_string()).chain(texts).collect();
    file.into_bytes()
}

/// A file of this many lines, by rising minute or by falling: more than can be taken, so that number 10 comes.
pub fn long(lines: u32, falling: bool) -> Vec<u8> {
    let minute = |i| if falling { lines - i } else { i };
    let texts = (0..lines).map(|i| line_text(1 + (i % 4095) as u16, (1 + (i % 65_535) as u16, 9), minute(i)));
    let file: String = std::iter::once(CSV_HEADER.to_string()).chain(texts).collect();
    file.into_bytes()
}

/// The best time of writing the file.
pub fn time_write(store: &Store, times: usize) -> Duration {
    let mut buffer = vec![0; CSV_BYTES];
    best(times, || {
        black_box(black_box(store).csv_write(&mut buffer).count());
    })
}

/// The best time of reading it.
pub fn time_read(file: &[u8], times: usize) -> Duration {
    let mut store = Store::fresh();
    best(times, || {
        let accepted = store.csv_read(black_box(file)).is_accepted();
        assert!(accepted, "the timed file is good");
    })
}

/// The best time of turning a long file down.
pub fn time_refusal(file: &[u8], times: usize) -> Duration {
    let mut store = Store::fresh();
    best(times, || {
        let line = store.csv_read(black_box(file)).line();
        assert!(line.is_some(), "the timed file has more lines than can be taken");
    })
}

/// The same sign-ons as single calls from a fresh store, without their tests: of each call its best time over some rounds, less the best time of the test alone
/// on the store that it finds.
pub fn time_single(file: &[u8], rounds: usize) -> Duration {
    let records = records_of(file);
    let mut best = vec![(Duration::MAX, Duration::MAX); records.len()];
    let mut store = Store::fresh();
    for _ in 0..rounds {
        let (desk, pages) = store.parts_mut();
        assert!(begin(desk, pages).is_accepted());
        for (record, (test, call)) in records.iter().zip(&mut best) {
            let start = Instant::now();
            let sound = black_box(&store).is_sound();
            let between = Instant::now();
            let accepted = store.call(record, &mut []).is_accepted();
            *call = between.elapsed().min(*call);
            *test = (between - start).min(*test);
            assert!(sound && accepted);
        }
    }
    best.iter().map(|(test, call)| call.saturating_sub(*test)).sum()
}

/// The sign-ons of a file, in the order in which they are taken.
fn records_of(file: &[u8]) -> Vec<Vec<u8>> {
    let lines = in_order(lines_of(file).expect("a good file"));
    lines.iter().map(|line| line.record().to_bytes()).collect()
}

fn best(times: usize, mut timed: impl FnMut()) -> Duration {
    let once = |_| {
        let start = Instant::now();
        timed();
        start.elapsed()
    };
    (0..times).map(once).min().expect("some are timed")
}
