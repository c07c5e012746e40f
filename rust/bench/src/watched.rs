//! The same walk with sixteen watches set, each of 1 % of the square; and the simplest way to get the same without them, which is
//! a range over each of these after every report.
use crate::walk::{Walk, SIDE};
use boragefile::{Record, Rectangle, Store, LIST_BYTES, WATCHES};
use std::hint::black_box;
use std::time::{Duration, Instant};

/// Four rows of four.
const ROW: usize = 4;
/// From one to the next.
const APART: u16 = 16384;

/// The rectangles that are watched, none in another.
pub fn areas() -> [Rectangle; WATCHES] {
    std::array::from_fn(|w| {
        let (west, south) = (APART * (w % ROW) as u16, APART * (w / ROW) as u16);
        Rectangle {
            west,
            east: west + SIDE,
            south,
            north: south + SIDE,
        }
    })
}

/// Sets a watch on each of these.
pub fn set_all(store: &mut Store, areas: &[Rectangle]) {
    for (w, area) in (0..).zip(areas) {
        assert!(store.watch_set(w, *area).is_accepted());
    }
}

/// The best time of setting one of sixteen watches anew, and of clearing it, on a store that has all set.
pub fn time_calls(store: &Store, times: usize) -> (Duration, Duration) {
    let mut store = store.clone();
    let (mut setting, mut clearing) = (Duration::MAX, Duration::MAX);
    for (w, area) in (0..).zip(areas()).cycle().take(times) {
        let start = Instant::now();
        let set = black_box(store.watch_set(w, area)).is_accepted();
        setting = setting.min(start.elapsed());
        let start = Instant::now();
        let cleared = black_box(store.watch_clear(w)).is_accepted();
        clearing = clearing.min(start.elapsed());
        assert!(set && cleared && store.watch_set(w, area).is_accepted());
    }
    (setting, clearing)
}

/// Nanoseconds a report with its sixteen ranges, the mean over some groups of the walk, on a store without watches.
pub fn time_ranges_instead(walk: &Walk, groups: usize) -> u128 {
    let mut store = Store::fresh();
    let mut buffer = vec![0; LIST_BYTES];
    for sign_on in &walk.sign_ons {
        assert!(store.call(sign_on, &mut buffer).is_accepted());
    }
    let reports = walk.groups.iter().take(groups).flat_map(|(reports, _)| reports);
    let minute = walk.last_minute();
    let ranges = areas().map(|area| range(area, minute));
    let (start, mut calls) = (Instant::now(), 0);
    for report in reports {
        assert!(store.call(report, &mut buffer).is_accepted());
        for range in &ranges {
            black_box(store.call(range, &mut buffer).count());
        }
        calls += 1;
    }
    start.elapsed().as_nanos() / calls
}

fn range(area: Rectangle, minute: u32) -> Vec<u8> {
    let Rectangle {
        west,
        east,
        south,
        north,
    } = area;
    Record::Range {
        west,
        east,
        south,
        north,
        minute,
    }
    .to_bytes()
}

#[cfg(test)]
mod tests {
    use super::*;

    #[test]
    fn sixteen_rectangles_of_one_per_cent_lie_apart_in_the_square() {
        let areas = areas();
        for (i, area) in areas.iter().enumerate() {
            let size = u64::from(area.east - area.west) * u64::from(area.north - area.south);
            assert_eq!(size * 100 / (65536 * 65536), 0, "a hundredth is the most");
            assert!(size * 1000 / (65536 * 65536) >= 9, "and nearly so many");
            assert!(areas[..i]
                .iter()
                .all(|other| other.east <= area.west || area.east <= other.west || other.north <= area.south));
        }
    }
}
