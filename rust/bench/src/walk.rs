//! The calls that are timed: 512 radios walk in steps of 200 m, and a minute passes with every 512th call.
use boragefile::Record;
use conformance::Xorshift;
use std::f64::consts::TAU;

const RADIOS: u16 = 512;
const STEP: f64 = 200.0;
/// A tenth of the square's side, so that a range has a hundredth of its area.
pub const SIDE: u16 = 6553;
/// The reports of a group; its last call is a range.
pub const REPORTS: usize = 7;
/// Calls of one minute: about one of each radio. The walk is over long before a place is too old.
const CALLS_A_MINUTE: usize = 512;

/// Everyone's sign-on, then the calls in groups: seven reports and a range.
pub struct Walk {
    pub sign_ons: Vec<Vec<u8>>,
    pub groups: Vec<(Vec<Vec<u8>>, Vec<u8>)>,
}

impl Walk {
    pub fn new(calls: usize) -> Walk {
        let mut random = Xorshift::new(512);
        let mut places: Vec<(u16, u16)> = (0..RADIOS)
            .map(|_| (random.coordinate(), random.coordinate()))
            .collect();
        let sign_ons = (1..=RADIOS).zip(&places).map(|(radio, (east, north))| {
            Record::SignOn {
                radio,
                east: *east,
                north: *north,
                minute: 0,
            }
            .to_bytes()
        });
        let sign_ons = sign_ons.collect();
        let groups = (0..calls / (REPORTS + 1)).map(|group| {
            let minute = minute_of(group);
            let reports = (0..REPORTS).map(|_| step(&mut random, &mut places, minute)).collect();
            let (west, south) = (random.within(0, 65535 - SIDE), random.within(0, 65535 - SIDE));
            let range = Record::Range {
                west,
                east: west + SIDE,
                south,
                north: south + SIDE,
                minute,
            };
            (reports, range.to_bytes())
        });
        let groups = groups.collect();
        Walk { sign_ons, groups }
    }

    /// The highest minute of its reports.
    pub fn last_minute(&self) -> u32 {
        minute_of(self.groups.len())
    }

    /// The calls after the sign-ons, in their order.
    pub fn calls(&self) -> impl Iterator<Item = &Vec<u8>> {
        self.groups
            .iter()
            .flat_map(|(reports, range)| reports.iter().chain([range]))
    }

    /// All records in their order.
    pub fn journal(&self) -> Vec<u8> {
        self.sign_ons.iter().chain(self.calls()).flatten().copied().collect()
    }
}

/// The minute of a group's calls.
fn minute_of(group: usize) -> u32 {
    (group * (REPORTS + 1) / CALLS_A_MINUTE) as u32
}

/// Some radio goes a step in some direction and reports.
fn step(random: &mut Xorshift, places: &mut [(u16, u16)], minute: u32) -> Vec<u8> {
    let walker = random.below(places.len());
    let direction = TAU * f64::from(random.coordinate()) / 65536.0;
    let moved = |from: u16, by: f64| (f64::from(from) + STEP * by).round().clamp(0.0, 65535.0) as u16;
    let (east, north) = places[walker];
    let (east, north) = (moved(east, direction.cos()), moved(north, direction.sin()));
    places[walker] = (east, north);
    Record::Report {
        radio: walker as u16 + 1,
        east,
        north,
        minute,
    }
    .to_bytes()
}
