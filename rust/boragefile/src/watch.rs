//! Watched rectangles: what the desk keeps of each, and the sets of watches that an answer speaks of.
use std::fmt;
use std::iter::FusedIterator;

/// How many rectangles may be watched, under numbers from 0 on.
pub const WATCHES: usize = 16;
/// The numbers of 16 bits that hold a watch's members: a bit for each number up to the greatest radio's.
const MEMBER_WORDS: usize = 256;
/// The bits of such a number.
const WORD_BITS: u16 = 16;

/// A rectangle. Its west and south edges are inside, its east and north edges outside; but an east or north edge of 65,535 takes
/// in that last line. Any numbers may stand in it: the desk checks them.
#[allow(missing_docs)]
#[derive(Clone, Copy, PartialEq, Eq, Hash, Debug)]
pub struct Rectangle {
    pub west: u16,
    pub east: u16,
    pub south: u16,
    pub north: u16,
}

/// A watch as the desk has it: its rectangle, and a bit for each radio that is a member. All of it is zero where it is not set.
/// [`Desk::watch`](crate::Desk::watch) finds those that are.
#[allow(missing_docs)]
#[repr(C)]
#[derive(Clone, Copy, PartialEq, Eq, Debug)]
pub struct Watch {
    /// 1 where the watch is set, else 0.
    pub set: u16,
    pub west: u16,
    pub east: u16,
    pub south: u16,
    pub north: u16,
    /// Bit j of number i is radio 16 i + j's: [`Watch::members`].
    pub members: [u16; MEMBER_WORDS],
}

impl Watch {
    /// A watch that is not set.
    pub const UNSET: Watch = Watch {
        set: 0,
        west: 0,
        east: 0,
        south: 0,
        north: 0,
        members: [0; MEMBER_WORDS],
    };

    /// Whether it is set. A mark that is no sound store's counts as set.
    pub fn is_set(&self) -> bool {
        self.set != 0
    }

    /// Its rectangle.
    pub fn rectangle(&self) -> Rectangle {
        Rectangle {
            west: self.west,
            east: self.east,
            south: self.south,
            north: self.north,
        }
    }

    /// Whether the radio is a member: it is on, and its latest place lies in the rectangle, whatever its age.
    pub fn has_member(&self, radio: u16) -> bool {
        let word = self.members.get(usize::from(radio / WORD_BITS));
        word.is_some_and(|word| word >> (radio % WORD_BITS) & 1 == 1)
    }

    /// The member radios, by rising number.
    pub fn members(&self) -> impl Iterator<Item = u16> + Clone + '_ {
        let words = (0..).step_by(WORD_BITS.into()).zip(&self.members);
        words.flat_map(|(first, word)| Bits(*word).map(move |bit| first + bit))
    }
}

/// A set of watches: those that gained, or lost, the radio of an accepted record.
#[derive(Clone, Copy, PartialEq, Eq, Hash, Default)]
pub struct Watches(u16);

impl Watches {
    /// No watch.
    pub const NONE: Watches = Watches(0);

    /// The watches whose bits are set.
    pub fn from_bits(bits: u16) -> Watches {
        Watches(bits)
    }

    /// As 16 bits: bit w is watch w's.
    pub fn bits(self) -> u16 {
        self.0
    }

    /// How many there are.
    pub fn len(self) -> usize {
        self.0.count_ones() as usize
    }

    /// Whether there is none.
    pub fn is_empty(self) -> bool {
        self == Watches::NONE
    }

    /// Whether the watch under this number is among them.
    pub fn contains(self, watch: u16) -> bool {
        usize::from(watch) < WATCHES && self.0 >> watch & 1 == 1
    }

    /// Their numbers, rising.
    pub fn iter(self) -> WatchesIter {
        WatchesIter(Bits(self.0))
    }
}

impl IntoIterator for Watches {
    type Item = u16;
    type IntoIter = WatchesIter;

    fn into_iter(self) -> WatchesIter {
        self.iter()
    }
}

impl fmt::Debug for Watches {
    fn fmt(&self, f: &mut fmt::Formatter<'_>) -> fmt::Result {
        f.debug_set().entries(self.iter()).finish()
    }
}

/// The numbers of some [`Watches`], rising.
#[derive(Clone, Debug)]
pub struct WatchesIter(Bits);

impl Iterator for WatchesIter {
    type Item = u16;

    fn next(&mut self) -> Option<u16> {
        self.0.next()
    }

    fn size_hint(&self) -> (usize, Option<usize>) {
        self.0.size_hint()
    }
}

impl ExactSizeIterator for WatchesIter {}

impl FusedIterator for WatchesIter {}

/// The bits that are set in a number, the lowest first.
#[derive(Clone, Debug)]
struct Bits(u16);

impl Iterator for Bits {
    type Item = u16;

    fn next(&mut self) -> Option<u16> {
        let lowest = (self.0 != 0).then(|| self.0.trailing_zeros() as u16)?;
        self.0 &= self.0 - 1;
        Some(lowest)
    }

    fn size_hint(&self) -> (usize, Option<usize>) {
        let n = self.0.count_ones() as usize;
        (n, Some(n))
    }
}

#[cfg(test)]
mod tests {
    use super::*;

    #[test]
    fn a_radio_s_bit_is_where_the_proved_code_has_it() {
        for (radio, word, bit) in [(1, 0, 1), (15, 0, 15), (16, 1, 0), (4094, 255, 14), (4095, 255, 15)] {
            let mut watch = Watch::UNSET;
            watch.members[word] = 1 << bit;
            assert!(watch.members().eq([radio]), "{radio}");
            let others = (0..=u16::MAX).filter(|other| watch.has_member(*other));
            assert!(others.eq([radio]), "{radio}");
        }
    }

    #[test]
    fn members_rise() {
        let mut watch = Watch::UNSET;
        assert_eq!(watch.members().next(), None);
        watch.members[0] = 0b1000_0000_0000_0110;
        watch.members[1] = 1;
        watch.members[255] = 0x8000;
        assert!(watch.members().eq([1, 2, 15, 16, 4095]));
        watch.members.fill(0xffff);
        assert!(watch.members().eq(0..4096));
    }

    #[test]
    fn a_set_of_watches_is_its_bits() {
        assert!(Watches::NONE.is_empty() && Watches::default() == Watches::NONE);
        let some = Watches::from_bits(0b1000_0000_0010_0001);
        assert_eq!((some.bits(), some.len(), some.is_empty()), (0x8021, 3, false));
        assert!(some.iter().eq([0, 5, 15]) && some.iter().len() == 3);
        assert_eq!(format!("{some:?}"), "{0, 5, 15}");
        let found = (0..=u16::MAX).filter(|watch| some.contains(*watch));
        assert!(found.eq(some));
        assert!(Watches::from_bits(u16::MAX).into_iter().eq(0..16));
    }
}
