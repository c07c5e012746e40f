//! The plain list: who is on, where each was last, and at which minute. No grid, no pages, nothing waits. A watch is its rectangle
//! alone: who is a member follows from the latest places.
use crate::file::{in_order, line_text, lines_of};
use boragefile::{Rectangle, CSV_HEADER};
use std::collections::BTreeMap;

/// A range leaves out a radio whose minute is more than this before its own.
const KEPT_MINUTES: u64 = 720;
/// Up to so many rectangles are watched.
const WATCHES: usize = 16;

/// What a report tells: a place, and the minute of the report.
#[derive(Clone, Copy, PartialEq, Eq, Debug)]
pub struct Fix {
    pub place: (u16, u16),
    pub minute: u32,
}

/// The list, the highest minute of an accepted sign-on, report or sign-off, and the rectangles that are watched.
#[derive(Default)]
pub struct Plain {
    latest: BTreeMap<u16, Fix>,
    highest: u32,
    watches: [Option<Rectangle>; WATCHES],
}

/// What the list answers: number, count, the watches that gained and that lost the record's radio, a bit each, and the bytes that
/// an accepted range lists, or the file.
#[derive(PartialEq, Eq, Debug, Default)]
pub struct Told {
    pub number: u16,
    pub count: u64,
    pub gained: u16,
    pub lost: u16,
    pub list: Vec<u8>,
}

impl Told {
    /// Number and count.
    pub fn numbers(&self) -> (u16, u64) {
        (self.number, self.count)
    }
}

impl Plain {
    /// Nobody is on, and the highest minute is 0.
    pub fn new() -> Plain {
        Plain::default()
    }

    /// The radios on, rising, each with what its latest report told.
    pub fn latest(&self) -> impl Iterator<Item = (u16, Fix)> + '_ {
        self.latest.iter().map(|(radio, fix)| (*radio, *fix))
    }

    /// What the latest report of a radio told, if it is on.
    pub fn fix(&self, radio: u16) -> Option<Fix> {
        self.latest.get(&radio).copied()
    }

    /// The latest place of a radio, if it is on.
    pub fn place(&self, radio: u16) -> Option<(u16, u16)> {
        self.fix(radio).map(|fix| fix.place)
    }

    /// The highest minute of an accepted sign-on, report or sign-off.
    pub fn highest(&self) -> u32 {
        self.highest
    }

    /// How many are on.
    pub fn on(&self) -> usize {
        self.latest.len()
    }

    /// Checks 3 to 13 in their order, then the record's effect. `room` is the length of the answer buffer.
    pub fn call(&mut self, bytes: &[u8], room: usize) -> Told {
        let field = |at: usize| u16::from_le_bytes([bytes[2 * at], bytes[2 * at + 1]]);
        if bytes.len() < 4 || field(0) < 4 || usize::from(field(0)) > bytes.len() {
            return refused(3, 0);
        }
        let kind = field(1);
        let length = match kind {
            1 | 2 => 14,
            3 => 10,
            4 => 16,
            _ => return refused(4, 0),
        };
        if usize::from(field(0)) != length {
            return refused(5, 0);
        }
        let minute = u32::from(field(length / 2 - 2)) + 65536 * u32::from(field(length / 2 - 1));
        if kind != 4 && !is_radio(field(2)) {
            return refused(6, 0);
        }
        if kind <= 2 && (field(3), field(4)) == (0, 0) {
            return refused(12, 0);
        }
        if minute < self.highest {
            return refused(13, 0);
        }
        let fix = Fix {
            place: (field(3), field(4)),
            minute,
        };
        let radio = field(2);
        let before = self.place(radio);
        let mut told = match kind {
            1 => self.sign_on(radio, fix),
            2 => self.report(radio, fix),
            3 => self.sign_off(radio),
            _ => {
                let area = Rectangle {
                    west: field(2),
                    east: field(3),
                    south: field(4),
                    north: field(5),
                };
                return self.range(area, minute, room);
            }
        };
        if told.number == 0 {
            self.highest = minute;
            let after = self.place(radio);
            told.gained = self.watches_with(|area| !is_at(area, before) && is_at(area, after));
            told.lost = self.watches_with(|area| is_at(area, before) && !is_at(area, after));
        }
        told
    }

    /// Checks 14 and 7, then watches the rectangle.
    pub fn watch_set(&mut self, watch: u16, area: Rectangle) -> Told {
        let Some(watched) = self.watches.get_mut(usize::from(watch)) else {
            return refused(14, 0);
        };
        if is_reversed(area) {
            return refused(7, 0);
        }
        *watched = Some(area);
        accepted()
    }

    /// Check 14, then watches the rectangle no longer.
    pub fn watch_clear(&mut self, watch: u16) -> Told {
        match self.watches.get_mut(usize::from(watch)).and_then(Option::take) {
            Some(_) => accepted(),
            None => refused(14, 0),
        }
    }

    /// All radios on as a file, or check 11. `room` is the length of the buffer.
    pub fn csv_write(&self, room: usize) -> Told {
        let lines = self
            .latest()
            .map(|(radio, fix)| line_text(radio, fix.place, fix.minute));
        let file: String = std::iter::once(CSV_HEADER.to_string()).chain(lines).collect();
        let count = file.len() as u64;
        if room < file.len() {
            return refused(11, count);
        }
        Told {
            count,
            list: file.into_bytes(),
            ..accepted()
        }
    }

    /// Check 15, then the lines as sign-ons, in the order in which they are taken, to a list of their own. It takes this one's place if
    /// none of them is turned down; else the first that is gives its number and its line.
    pub fn csv_read(&mut self, file: &[u8]) -> Told {
        let lines = match lines_of(file) {
            Ok(lines) => in_order(lines),
            Err(line) => return refused(15, line),
        };
        let mut made = Plain::new();
        for line in lines {
            let told = made.call(&line.record().to_bytes(), 0);
            if told.number != 0 {
                return refused(told.number, line.number);
            }
        }
        *self = made;
        accepted()
    }

    /// The rectangle that is watched under this number.
    pub fn watched(&self, watch: u16) -> Option<Rectangle> {
        self.watches.get(usize::from(watch)).copied().flatten()
    }

    /// The radios on whose latest place lies in the rectangle, rising, whatever their age.
    pub fn inside(&self, area: Rectangle) -> impl Iterator<Item = u16> + '_ {
        let inside = self.latest().filter(move |(_, fix)| lies_in(area, fix.place));
        inside.map(|(radio, _)| radio)
    }

    /// A number with bit w set where watch w is set and passes the test.
    fn watches_with(&self, test: impl Fn(Rectangle) -> bool) -> u16 {
        let bit = |(w, area): (usize, &Option<Rectangle>)| u16::from(area.is_some_and(&test)) << w;
        self.watches.iter().enumerate().map(bit).sum()
    }

    fn sign_on(&mut self, radio: u16, fix: Fix) -> Told {
        if self.latest.contains_key(&radio) {
            return refused(8, 0);
        }
        if self.latest.len() == 512 {
            return refused(10, 0);
        }
        self.latest.insert(radio, fix);
        accepted()
    }

    fn report(&mut self, radio: u16, fix: Fix) -> Told {
        let Some(latest) = self.latest.get_mut(&radio) else {
            return refused(9, 0);
        };
        *latest = fix;
        accepted()
    }

    fn sign_off(&mut self, radio: u16) -> Told {
        if self.latest.remove(&radio).is_none() {
            return refused(9, 0);
        }
        accepted()
    }

    fn range(&self, area: Rectangle, minute: u32, room: usize) -> Told {
        if is_reversed(area) {
            return refused(7, 0);
        }
        let mut count = 0;
        let mut list = Vec::new();
        for (radio, fix) in &self.latest {
            let (e, n) = fix.place;
            if lies_in(area, fix.place) && !too_old(fix.minute, minute) {
                count += 1;
                for field in [*radio, e, n] {
                    list.extend_from_slice(&field.to_le_bytes());
                }
            }
        }
        if room < list.len() {
            return refused(11, count);
        }
        Told {
            count,
            list,
            ..accepted()
        }
    }
}

fn is_reversed(area: Rectangle) -> bool {
    area.west > area.east || area.south > area.north
}

/// Whether a radio with this place, or none, is inside.
fn is_at(area: Rectangle, place: Option<(u16, u16)>) -> bool {
    place.is_some_and(|place| lies_in(area, place))
}

fn lies_in(area: Rectangle, (e, n): (u16, u16)) -> bool {
    takes_in(area.west, area.east, e) && takes_in(area.south, area.north, n)
}

/// The low edge is inside and the high edge outside, but a high edge at the last metre takes in that line.
fn takes_in(low: u16, high: u16, coordinate: u16) -> bool {
    (low..high).contains(&coordinate) || (high == 65535 && low <= coordinate)
}

/// More than 720 minutes before the range's own; in 64 bits, where no sum goes round.
fn too_old(reported: u32, asked: u32) -> bool {
    u64::from(reported) + KEPT_MINUTES < u64::from(asked)
}

fn is_radio(radio: u16) -> bool {
    (1..=4095).contains(&radio)
}

/// Number 0, and 0 for all else.
fn accepted() -> Told {
    Told::default()
}

fn refused(number: u16, count: u64) -> Told {
    Told {
        number,
        count,
        ..Told::default()
    }
}
