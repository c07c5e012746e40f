//! The desk, field by field as the proved code has it: first its parts, with every count, then five arrays. Every field is a
//! 16-bit number but the highest minute, which has 32 bits, with nothing between the fields. Slots past a count, and watches that aren't set, are
//! zero.
use crate::watch::{Watch, WATCHES};
use std::mem::{align_of, offset_of, size_of};
use std::slice;

/// The bytes of a desk.
pub const DESK_BYTES: usize = 23280;

/// The cuts of one direction, rising.
#[allow(missing_docs)]
#[repr(C)]
#[derive(Clone, PartialEq, Eq, Debug)]
pub struct CutList {
    pub n: u16,
    pub at: [u16; 15],
}

/// The grid but for its cells.
#[allow(missing_docs)]
#[repr(C)]
#[derive(Clone, PartialEq, Eq, Debug)]
pub struct Frame {
    pub easts: CutList,
    pub norths: CutList,
    /// How many cells there are.
    pub cells: u16,
    /// The front of the free chain.
    pub free: u16,
}

/// The desk but for its arrays.
#[allow(missing_docs)]
#[repr(C)]
#[derive(Clone, PartialEq, Eq, Debug)]
pub struct Parts {
    pub frame: Frame,
    /// How many reports wait.
    pub waiting: u16,
    /// How many lines the memo has.
    pub lines: u16,
    /// How many radios are on.
    pub on: u16,
    /// Accepted sign-ons, reports and sign-offs since the last sweep of the round.
    pub tally: u16,
    /// The highest minute of an accepted sign-on, report or sign-off; 0 in a fresh store.
    pub highest: u32,
}

/// A cell of the directory: its number, its edges and the first page of its chain.
#[allow(missing_docs)]
#[repr(C)]
#[derive(Clone, Copy, PartialEq, Eq, Debug, Default)]
pub struct Slot {
    pub number: u16,
    pub west: u16,
    pub east: u16,
    pub south: u16,
    pub north: u16,
    pub first: u16,
}

/// A waiting report; `new` is 1 where it is marked new, else 0. The desk has its fields apart: [`Waiting`].
#[allow(missing_docs)]
#[derive(Clone, Copy, PartialEq, Eq, Debug, Default)]
pub struct Report {
    pub radio: u16,
    pub east: u16,
    pub north: u16,
    pub new: u16,
    pub minute: u32,
}

/// The waiting reports, by rising radio, field by field: report i has number i of each. `lows` and `highs` are the lower and
/// higher halves of the minutes. There is room for one more than may wait between two calls.
#[allow(missing_docs)]
#[repr(C)]
#[derive(Clone, PartialEq, Eq, Debug)]
pub struct Waiting {
    pub radios: [u16; 128],
    pub easts: [u16; 128],
    pub norths: [u16; 128],
    pub news: [u16; 128],
    pub lows: [u16; 128],
    pub highs: [u16; 128],
}

/// A memo line; `placed` is 1 where it has a place, and 0, with the place zero, where it has none.
#[allow(missing_docs)]
#[repr(C)]
#[derive(Clone, Copy, PartialEq, Eq, Debug, Default)]
pub struct Line {
    pub radio: u16,
    pub missed: u16,
    pub placed: u16,
    pub east: u16,
    pub north: u16,
}

/// The desk.
#[allow(missing_docs)]
#[repr(C)]
#[derive(Clone, PartialEq, Eq, Debug)]
pub struct Desk {
    pub parts: Parts,
    /// The directory, in the order of the round, its front first: [`Desk::cells_in_use`].
    pub cells: [Slot; 64],
    /// [`Desk::reports_in_use`].
    pub waiting: Waiting,
    /// The memo, by rising radio, with room for two lines more than there may be between two calls: [`Desk::lines_in_use`].
    pub memo: [Line; 1152],
    /// The radios on, rising: [`Desk::radios_on`].
    pub on: [u16; 512],
    /// The watches, each under its number: [`Desk::watch`].
    pub watches: [Watch; WATCHES],
}

// The archive's sizes, in numbers of 16 bits; the highest minute is two of them. A desk of so many bytes has room for its 11,640
// numbers, and for nothing between them.
const _: () = assert!(size_of::<CutList>() == 2 * (1 + 15));
const _: () = assert!(size_of::<Frame>() == 2 * (2 * 16 + 2));
const _: () = assert!(size_of::<Parts>() == 2 * (34 + 4 + 2));
const _: () = assert!(size_of::<Slot>() == 2 * 6);
const _: () = assert!(size_of::<Waiting>() == 2 * 6 * 128);
const _: () = assert!(size_of::<Line>() == 2 * 5);
const _: () = assert!(size_of::<Watch>() == 2 * (5 + 256));
const _: () = assert!(size_of::<Desk>() == 2 * (40 + 64 * 6 + 6 * 128 + 1152 * 5 + 512 + 16 * 261));
const _: () = assert!(size_of::<Desk>() == DESK_BYTES && align_of::<Desk>() == 4);
const _: () = assert!(offset_of!(Desk, cells) == 2 * 40);
const _: () = assert!(offset_of!(Desk, waiting) == 2 * (40 + 384));
const _: () = assert!(offset_of!(Desk, memo) == 2 * (40 + 384 + 768));
const _: () = assert!(offset_of!(Desk, on) == 2 * (40 + 384 + 768 + 5760));
const _: () = assert!(offset_of!(Desk, watches) == 2 * (40 + 384 + 768 + 5760 + 512));

/// As many of these as the count says, or all where it is beyond them.
fn counted<T>(slots: &[T], count: u16) -> &[T] {
    &slots[..slots.len().min(count.into())]
}

impl CutList {
    /// The cuts in use: as many as the count says, or all slots where it is beyond them.
    pub fn in_use(&self) -> &[u16] {
        counted(&self.at, self.n)
    }
}

impl Waiting {
    /// Report `i`, put together from its fields.
    ///
    /// # Panics
    ///
    /// If `i` is 128 or more.
    pub fn report_at(&self, i: usize) -> Report {
        Report {
            radio: self.radios[i],
            east: self.easts[i],
            north: self.norths[i],
            new: self.news[i],
            minute: u32::from(self.lows[i]) | u32::from(self.highs[i]) << 16,
        }
    }

    /// Writes the fields of report `i`.
    ///
    /// # Panics
    ///
    /// If `i` is 128 or more.
    pub fn put_report(&mut self, i: usize, report: Report) {
        self.radios[i] = report.radio;
        self.easts[i] = report.east;
        self.norths[i] = report.north;
        self.news[i] = report.new;
        self.lows[i] = report.minute as u16;
        self.highs[i] = (report.minute >> 16) as u16;
    }
}

impl Desk {
    /// A desk with zero in every field. It is no store's desk until [`begin`](crate::begin) fills it.
    pub fn blank() -> Desk {
        let no_cuts = CutList { n: 0, at: [0; 15] };
        Desk {
            parts: Parts {
                frame: Frame {
                    easts: no_cuts.clone(),
                    norths: no_cuts,
                    cells: 0,
                    free: 0,
                },
                waiting: 0,
                lines: 0,
                on: 0,
                tally: 0,
                highest: 0,
            },
            cells: [Slot::default(); 64],
            waiting: Waiting {
                radios: [0; 128],
                easts: [0; 128],
                norths: [0; 128],
                news: [0; 128],
                lows: [0; 128],
                highs: [0; 128],
            },
            memo: [Line::default(); 1152],
            on: [0; 512],
            watches: [Watch::UNSET; WATCHES],
        }
    }

    /// The cells, in the order of the round: as many as the count says, or all slots where it is beyond them.
    pub fn cells_in_use(&self) -> &[Slot] {
        counted(&self.cells, self.parts.frame.cells)
    }

    /// The waiting reports, by rising radio: as many as the count says, or all slots where it is beyond them.
    pub fn reports_in_use(&self) -> impl DoubleEndedIterator<Item = Report> + ExactSizeIterator + Clone + '_ {
        let n = counted(&self.waiting.radios, self.parts.waiting).len();
        (0..n).map(|i| self.waiting.report_at(i))
    }

    /// The memo lines, by rising radio: as many as the count says, or all slots where it is beyond them.
    pub fn lines_in_use(&self) -> &[Line] {
        counted(&self.memo, self.parts.lines)
    }

    /// The radios on, rising: as many as the count says, or all slots where it is beyond them.
    pub fn radios_on(&self) -> &[u16] {
        counted(&self.on, self.parts.on)
    }

    /// The watch under this number, if it is set.
    pub fn watch(&self, watch: u16) -> Option<&Watch> {
        self.watches.get(usize::from(watch)).filter(|watch| watch.is_set())
    }

    /// The watches that are set, by rising number, each with its number.
    pub fn watches_set(&self) -> impl Iterator<Item = (u16, &Watch)> + Clone {
        (0..).zip(&self.watches).filter(|(_, watch)| watch.is_set())
    }

    /// Its bytes, in the machine's order, as it may be saved. Desks with equal fields have equal bytes.
    pub fn as_bytes(&self) -> &[u8] {
        // SAFETY: the desk is laid out as C does it, its fields are numbers of 16 or 32 bits, and there is no byte between them or
        // after them (the sizes above), so that each of its bytes is a value. They are lent as long as the desk is.
        unsafe { slice::from_raw_parts((self as *const Desk).cast(), DESK_BYTES) }
    }

    /// The desk with these bytes, if there are as many as a desk has. Any bytes make a desk; whether it is a store's is for
    /// [`is_sound`](crate::is_sound) to say.
    pub fn from_bytes(bytes: &[u8]) -> Option<Desk> {
        if bytes.len() != DESK_BYTES {
            return None;
        }
        let mut desk = Desk::blank();
        // SAFETY: as in `as_bytes`, and any bytes are values of such numbers. The desk is ours alone.
        let own = unsafe { slice::from_raw_parts_mut((&mut desk as *mut Desk).cast(), DESK_BYTES) };
        own.copy_from_slice(bytes);
        Some(desk)
    }
}

#[cfg(test)]
mod tests {
    use super::*;

    /// A desk whose number i of 16 bits is i.
    fn numbered() -> Desk {
        let bytes: Vec<u8> = (0..11640u16).flat_map(u16::to_ne_bytes).collect();
        Desk::from_bytes(&bytes).expect("a desk's bytes")
    }

    /// With each count below the slots, at them and above them.
    fn for_counts(slots: u16, count: impl Fn(&mut Desk) -> &mut u16, in_use: impl Fn(&Desk) -> usize) {
        let mut desk = numbered();
        for n in [0, 1, slots - 1, slots, slots + 1, u16::MAX] {
            *count(&mut desk) = n;
            assert_eq!(in_use(&desk), n.min(slots).into(), "{n} of {slots}");
        }
    }

    #[test]
    fn slots_in_use_are_those_that_the_count_counts() {
        for_counts(
            15,
            |desk| &mut desk.parts.frame.easts.n,
            |desk| desk.parts.frame.easts.in_use().len(),
        );
        for_counts(
            15,
            |desk| &mut desk.parts.frame.norths.n,
            |desk| desk.parts.frame.norths.in_use().len(),
        );
        for_counts(64, |desk| &mut desk.parts.frame.cells, |desk| desk.cells_in_use().len());
        for_counts(128, |desk| &mut desk.parts.waiting, |desk| desk.reports_in_use().len());
        for_counts(1152, |desk| &mut desk.parts.lines, |desk| desk.lines_in_use().len());
        for_counts(512, |desk| &mut desk.parts.on, |desk| desk.radios_on().len());
    }

    #[test]
    fn slots_in_use_are_the_first() {
        let mut desk = numbered();
        desk.parts.frame.easts.n = 2;
        desk.parts.frame.norths.n = 1;
        desk.parts.frame.cells = 2;
        desk.parts.waiting = 2;
        desk.parts.lines = 2;
        desk.parts.on = 2;
        assert_eq!(desk.parts.frame.easts.in_use(), [1, 2]);
        assert_eq!(desk.parts.frame.norths.in_use(), [17]);
        let slot = |at| Slot {
            number: at,
            west: at + 1,
            east: at + 2,
            south: at + 3,
            north: at + 4,
            first: at + 5,
        };
        assert_eq!(desk.cells_in_use(), [slot(40), slot(46)]);
        let report = |at| Report {
            radio: at,
            east: at + 128,
            north: at + 256,
            new: at + 384,
            minute: u32::from(at + 512) + 65536 * u32::from(at + 640),
        };
        assert!(desk.reports_in_use().eq([report(424), report(425)]));
        let line = |at| Line {
            radio: at,
            missed: at + 1,
            placed: at + 2,
            east: at + 3,
            north: at + 4,
        };
        assert_eq!(desk.lines_in_use(), [line(1192), line(1197)]);
        assert_eq!(desk.radios_on(), [6952, 6953]);
    }

    #[test]
    fn a_watch_is_found_under_its_number_if_it_is_set() {
        let mut desk = Desk::blank();
        assert!((0..=u16::MAX).all(|w| desk.watch(w).is_none()) && desk.watches_set().next().is_none());
        for w in [0, 7, 15] {
            desk.watches[w].set = 1;
            desk.watches[w].west = w as u16 + 1;
        }
        let found = (0..=u16::MAX).filter_map(|w| Some((w, desk.watch(w)?.west)));
        assert!(found.eq([(0, 1), (7, 8), (15, 16)]));
        let set = desk.watches_set().map(|(w, watch)| (w, watch.rectangle().west));
        assert!(set.eq([(0, 1), (7, 8), (15, 16)]));
    }

    #[test]
    fn a_report_is_read_where_it_is_put() {
        let desk = numbered();
        let report = Report {
            radio: 4095,
            east: 1,
            north: 65535,
            new: 1,
            minute: 0xfffe_0001,
        };
        for i in [0, 1, 126, 127] {
            let mut other = desk.clone();
            other.waiting.put_report(i, report);
            for j in 0..128 {
                let kept = desk.waiting.report_at(j);
                assert_eq!(other.waiting.report_at(j), if i == j { report } else { kept });
            }
            other.waiting.put_report(i, desk.waiting.report_at(i));
            assert!(other == desk, "report {i} alone is changed");
        }
    }

    #[test]
    fn a_desk_is_its_bytes() {
        let bytes: Vec<u8> = (0..DESK_BYTES).map(|i| (i % 251) as u8).collect();
        let desk = Desk::from_bytes(&bytes).expect("a desk's bytes");
        assert_eq!(desk.as_bytes(), bytes);
        let number = |at: usize| u16::from_ne_bytes([bytes[at], bytes[at + 1]]);
        assert_eq!(desk.parts.frame.easts.n, number(0));
        assert_eq!(desk.parts.tally, number(74));
        assert_eq!(desk.parts.highest.to_ne_bytes(), bytes[76..80]);
        assert_eq!(desk.on[511], number(14926));
        assert_eq!(desk.watches[15].members[255], number(DESK_BYTES - 2));
        assert!(Desk::from_bytes(&bytes[1..]).is_none());
    }

    #[test]
    fn each_number_stands_where_the_proved_code_has_it() {
        let desk = numbered();
        let Parts {
            frame,
            waiting,
            lines,
            on,
            tally,
            highest,
        } = &desk.parts;
        assert_eq!((frame.easts.n, frame.easts.at[14]), (0, 15));
        assert_eq!((frame.norths.n, frame.norths.at[14]), (16, 31));
        assert_eq!((frame.cells, frame.free), (32, 33));
        assert_eq!([*waiting, *lines, *on, *tally], [34, 35, 36, 37]);
        assert_eq!(*highest, 38 + 65536 * 39);
        assert_eq!((desk.cells[0].number, desk.cells[63].first), (40, 423));
        assert_eq!((desk.waiting.radios[0], desk.waiting.radios[127]), (424, 551));
        assert_eq!((desk.waiting.easts[0], desk.waiting.easts[127]), (552, 679));
        assert_eq!((desk.waiting.norths[0], desk.waiting.norths[127]), (680, 807));
        assert_eq!((desk.waiting.news[0], desk.waiting.news[127]), (808, 935));
        assert_eq!((desk.waiting.lows[0], desk.waiting.lows[127]), (936, 1063));
        assert_eq!((desk.waiting.highs[0], desk.waiting.highs[127]), (1064, 1191));
        assert_eq!((desk.memo[0].radio, desk.memo[1151].north), (1192, 6951));
        assert_eq!((desk.on[0], desk.on[511]), (6952, 7463));
        let watch = &desk.watches[1];
        assert_eq!([watch.set, watch.west, watch.east], [7725, 7726, 7727]);
        assert_eq!([watch.south, watch.north], [7728, 7729]);
        assert_eq!((watch.members[0], watch.members[255]), (7730, 7985));
        assert_eq!((desk.watches[0].set, desk.watches[15].members[255]), (7464, 11639));
    }
}
