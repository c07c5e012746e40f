//! The list of an accepted range.
use crate::record::field;
use crate::ENTRY_BYTES;
use std::fmt;
use std::iter::FusedIterator;
use std::slice::ChunksExact;

/// A radio and its latest place.
#[derive(Clone, Copy, PartialEq, Eq, Hash, Debug)]
pub struct Located {
    /// The radio's number, 1 to 4,095.
    pub radio: u16,
    /// Metres from the west side of the square.
    pub east: u16,
    /// Metres from its south side.
    pub north: u16,
}

/// The radios that a range found, by rising number. It borrows the answer buffer: only an accepted range gives one, and it is
/// gone before the buffer is lent to another call.
///
/// ```
/// use boragefile::{Located, Record, Store, LIST_BYTES};
///
/// let mut store = Store::fresh();
/// let mut buffer = [0; LIST_BYTES];
/// let on = Record::SignOn { radio: 7, east: 100, north: 200, minute: 0 };
/// assert!(store.call(&on.to_bytes(), &mut buffer).is_accepted());
/// let range = Record::Range { west: 0, east: 301, south: 0, north: 201, minute: 0 };
/// let list = store.call(&range.to_bytes(), &mut buffer).list().expect("the buffer takes every radio");
/// for Located { radio, east, north } in list {
///     println!("{radio} {east} {north}");
/// }
/// ```
///
/// A list that is read after a later call has had the buffer does not compile:
///
/// ```compile_fail,E0499
/// # use boragefile::{Record, Store, LIST_BYTES};
/// # let mut store = Store::fresh();
/// # let mut buffer = [0; LIST_BYTES];
/// # let range = Record::Range { west: 0, east: 301, south: 0, north: 201, minute: 0 };
/// let list = store.call(&range.to_bytes(), &mut buffer).list();
/// let later = store.call(&range.to_bytes(), &mut buffer);
/// println!("{list:?}");
/// ```
///
/// nor does one that is read after the buffer is written to:
///
/// ```compile_fail,E0506
/// # use boragefile::{Record, Store, LIST_BYTES};
/// # let mut store = Store::fresh();
/// # let mut buffer = [0; LIST_BYTES];
/// # let range = Record::Range { west: 0, east: 301, south: 0, north: 201, minute: 0 };
/// let list = store.call(&range.to_bytes(), &mut buffer).list();
/// buffer[0] = 8;
/// println!("{list:?}");
/// ```
#[derive(Clone, Copy, PartialEq, Eq)]
pub struct List<'b> {
    bytes: &'b [u8],
}

impl<'b> List<'b> {
    /// The list of `count` radios at the buffer's start.
    pub(crate) fn at_start(buffer: &'b [u8], count: usize) -> List<'b> {
        List {
            bytes: &buffer[..ENTRY_BYTES * count],
        }
    }

    /// How many there are.
    pub fn len(&self) -> usize {
        self.bytes.len() / ENTRY_BYTES
    }

    /// Whether there is none.
    pub fn is_empty(&self) -> bool {
        self.bytes.is_empty()
    }

    /// One after the other, by rising number.
    pub fn iter(&self) -> ListIter<'b> {
        ListIter {
            entries: self.bytes.chunks_exact(ENTRY_BYTES),
        }
    }
}

impl<'b> IntoIterator for List<'b> {
    type Item = Located;
    type IntoIter = ListIter<'b>;

    fn into_iter(self) -> ListIter<'b> {
        self.iter()
    }
}

impl<'b> IntoIterator for &List<'b> {
    type Item = Located;
    type IntoIter = ListIter<'b>;

    fn into_iter(self) -> ListIter<'b> {
        self.iter()
    }
}

impl fmt::Debug for List<'_> {
    fn fmt(&self, f: &mut fmt::Formatter<'_>) -> fmt::Result {
        f.debug_list().entries(self).finish()
    }
}

/// The radios of a [`List`], one after the other.
#[derive(Clone, Debug)]
pub struct ListIter<'b> {
    entries: ChunksExact<'b, u8>,
}

impl Iterator for ListIter<'_> {
    type Item = Located;

    fn next(&mut self) -> Option<Located> {
        let entry = self.entries.next()?;
        Some(Located {
            radio: field(entry, 0)?,
            east: field(entry, 1)?,
            north: field(entry, 2)?,
        })
    }

    fn size_hint(&self) -> (usize, Option<usize>) {
        self.entries.size_hint()
    }
}

impl ExactSizeIterator for ListIter<'_> {}

impl FusedIterator for ListIter<'_> {}

#[cfg(test)]
mod tests {
    use super::*;

    #[test]
    fn entries_are_read_from_the_start_and_no_further() {
        let buffer = [7, 0, 100, 0, 200, 0, 255, 15, 1, 2, 255, 255, 9, 0, 9, 0, 9, 0, 9];
        let list = List::at_start(&buffer, 2);
        let seven = Located {
            radio: 7,
            east: 100,
            north: 200,
        };
        let last = Located {
            radio: 4095,
            east: 513,
            north: 65535,
        };
        assert_eq!(list.iter().collect::<Vec<_>>(), [seven, last]);
        assert_eq!((list.len(), list.iter().len(), list.is_empty()), (2, 2, false));
        assert!(List::at_start(&buffer, 0).is_empty());
    }
}
