//! The time of one call by itself.
//!
//! To time one call the clock is read twice. That adds some twenty to sixty nanoseconds, by the machine, which a mean
//! over many calls does not show: so the least of many empty timings is taken off each time. Pauses of the machine's
//! own are far longer than a call and would be all that the greatest times show: so the calls are made again, several
//! times, from the same store, and the least time of each is kept.
use boragefile::{Store, LIST_BYTES};
use std::hint::black_box;
use std::time::{Duration, Instant};

const EMPTY_TIMINGS: usize = 10_000;

/// What timing one call adds.
pub fn empty_timing() -> Duration {
    let empty = || black_box(Instant::now()).elapsed();
    let least = (0..EMPTY_TIMINGS).map(|_| empty()).min();
    least.expect("some timings are empty")
}

/// Records that follow a store, all of them accepted, with the best time of each so far.
pub struct Run {
    pub store: Store,
    records: Vec<Vec<u8>>,
    best: Vec<Duration>,
    own: Store,
    buffer: Vec<u8>,
}

impl Run {
    /// Not timed yet.
    pub fn new(store: Store, records: Vec<Vec<u8>>) -> Run {
        Run {
            own: store.clone(),
            best: vec![Duration::MAX; records.len()],
            buffer: vec![0; LIST_BYTES],
            store,
            records,
        }
    }

    /// Times each record once more, less what timing adds.
    pub fn again(&mut self, empty: Duration) {
        self.own.clone_from(&self.store);
        for (record, best) in self.records.iter().zip(&mut self.best) {
            let start = Instant::now();
            let number = self.own.call(record, &mut self.buffer).number();
            let time = start.elapsed().saturating_sub(empty);
            assert_eq!(number, 0);
            *best = time.min(*best);
        }
    }

    /// The store that the records leave.
    #[cfg(test)]
    pub fn followed(mut self) -> Store {
        self.again(Duration::ZERO);
        self.own
    }

    /// The best time of each record.
    pub fn best(&self) -> &[Duration] {
        &self.best
    }

    /// The greatest of these.
    pub fn most(&self) -> Duration {
        self.best.iter().copied().max().expect("some records are timed")
    }
}

/// The far end of many times.
pub struct Tail {
    /// The least time that 999 in 1,000 do not pass.
    pub p999: Duration,
    pub most: Duration,
}

impl Tail {
    /// Of some times, in any order.
    pub fn of(mut times: Vec<Duration>) -> Tail {
        times.sort_unstable();
        let within = (999 * times.len()).div_ceil(1_000);
        Tail {
            p999: times[within - 1],
            most: times[times.len() - 1],
        }
    }
}

#[cfg(test)]
mod tests {
    use super::*;

    #[test]
    fn one_in_a_thousand_passes_p999() {
        for (times, p999) in [(1, 1), (999, 999), (1_000, 999), (1_001, 1_000), (2_000, 1_998)] {
            let tail = Tail::of((1..=times).rev().map(Duration::from_nanos).collect());
            assert_eq!(tail.p999, Duration::from_nanos(p999));
            assert_eq!(tail.most, Duration::from_nanos(times));
        }
    }
}
