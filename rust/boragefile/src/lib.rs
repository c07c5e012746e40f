//! The position desk, for Rust.
//!
//! A [`Store`] is one desk and its pages. It begins fresh, and every record goes to it through [`Store::call`]. Rectangles that a
//! controller leaves open are watched: [`Store::watch_set`]. All radios on go to a spreadsheet's file, and come back from one:
//! [`Store::csv_write`], [`Store::csv_read`].
//! The code behind is proved; this crate only lends it memory. It is the one crate here with `unsafe` in it.
//!
//! ```
//! use boragefile::{Answer, Record, Store, LIST_BYTES};
//!
//! let mut store = Store::fresh();
//! let mut buffer = [0; LIST_BYTES];
//! let on = Record::SignOn { radio: 7, east: 100, north: 200, minute: 0 };
//! let range = Record::Range { west: 0, east: 301, south: 0, north: 201, minute: 0 };
//! for record in [on, range] {
//!     match store.call(&record.to_bytes(), &mut buffer) {
//!         Answer::Accepted { .. } => println!("ok"),
//!         Answer::Found(list) => {
//!             println!("found {}", list.len());
//!             for located in list {
//!                 println!("{} {} {}", located.radio, located.east, located.north);
//!             }
//!         }
//!         Answer::Written(file) => println!("{} bytes", file.len()),
//!         Answer::Refused { refusal, .. } => println!("refused {}: {refusal}", refusal.number()),
//!     }
//! }
//! ```
//!
//! `examples/` keeps a store in a file across restarts; `docs/USING.md` says what a serving program does on each refusal.
#![warn(missing_docs)]

mod answer;
mod desk;
mod list;
mod record;
mod watch;

use answer::Numbers;
pub use answer::{Answer, Refusal};
pub use desk::{CutList, Desk, Frame, Line, Parts, Report, Slot, Waiting, DESK_BYTES};
pub use list::{List, ListIter, Located};
pub use record::{Record, KIND_RANGE, KIND_REPORT, KIND_SIGN_OFF, KIND_SIGN_ON};
pub use watch::{Rectangle, Watch, Watches, WatchesIter, WATCHES};

/// The version of desk and wrapper. The layout of the desk is part of it: a desk that another version saved is not for this one.
pub const VERSION: &str = env!("CARGO_PKG_VERSION");
/// The bytes of one page.
pub const PAGE_BYTES: usize = 328;
/// The pages of a store.
pub const PAGES: usize = 128;
/// The bytes of the page buffer.
pub const PAGES_BYTES: usize = PAGES * PAGE_BYTES;
/// The bytes of one entry of a page: radio, east, north, minute.
pub const PAGE_ENTRY_BYTES: usize = 10;
/// The bytes of one entry of a range's list: radio, east, north.
pub const ENTRY_BYTES: usize = 6;
/// The bytes of an answer buffer that takes every radio that may be on.
pub const LIST_BYTES: usize = 512 * ENTRY_BYTES;
/// The bytes of a buffer that takes the file of every radio that may be on: the header, and 512 lines of at most 29 bytes.
pub const CSV_BYTES: usize = CSV_HEADER.len() + 512 * "4095,65535,65535,4294967295\r\n".len();
/// The first line of a file.
pub const CSV_HEADER: &str = "radio,east,north,minute\r\n";
/// A range leaves out a radio whose minute is more than this before its own: twelve hours.
pub const KEPT_MINUTES: u32 = 720;
/// No page, or no cell.
pub const NONE: u16 = 65535;

extern "C" {
    fn boragefile_begin(desk: *mut Desk, pages: *mut u8, pages_length: usize) -> Numbers;
    fn boragefile_call(
        desk: *mut Desk,
        pages: *mut u8,
        pages_length: usize,
        bytes: *const u8,
        bytes_length: usize,
        buffer: *mut u8,
        buffer_length: usize,
    ) -> Numbers;
    fn boragefile_watch_set(
        desk: *mut Desk,
        pages: *const u8,
        pages_length: usize,
        watch: u16,
        west: u16,
        east: u16,
        south: u16,
        north: u16,
    ) -> Numbers;
    fn boragefile_watch_clear(desk: *mut Desk, pages: *const u8, pages_length: usize, watch: u16) -> Numbers;
    fn boragefile_csv_write(
        desk: *const Desk,
        pages: *const u8,
        pages_length: usize,
        buffer: *mut u8,
        buffer_length: usize,
    ) -> Numbers;
    fn boragefile_csv_read(
        desk: *mut Desk,
        pages: *mut u8,
        pages_length: usize,
        file: *const u8,
        file_length: usize,
    ) -> Numbers;
    fn boragefile_sound(desk: *const Desk, pages: *const u8, pages_length: usize) -> bool;
}

/// Makes desk and pages a fresh store. Only number 1 can turn it down.
pub fn begin(desk: &mut Desk, pages: &mut [u8]) -> Answer<'static> {
    // SAFETY: the desk has the archive's layout, and any value in it is allowed. The slice gives its own length.
    // Both are lent to us alone, so they do not overlap.
    let numbers = unsafe { boragefile_begin(desk, pages.as_mut_ptr(), pages.len()) };
    Answer::without_list(numbers)
}

/// Hands one record to a desk and its pages, in whatever condition these are. A turned-down call keeps every byte.
pub fn call<'b>(desk: &mut Desk, pages: &mut [u8], bytes: &[u8], buffer: &'b mut [u8]) -> Answer<'b> {
    // SAFETY: as in `begin`. The record's bytes are only read.
    let numbers = unsafe {
        boragefile_call(
            desk,
            pages.as_mut_ptr(),
            pages.len(),
            bytes.as_ptr(),
            bytes.len(),
            buffer.as_mut_ptr(),
            buffer.len(),
        )
    };
    match record::field(bytes, 1) {
        Some(KIND_RANGE) => Answer::to_range(numbers, buffer),
        _ => Answer::without_list(numbers),
    }
}

/// Watches a rectangle under this number, from 0 to 15; one that is watched under it already is replaced. Numbers 1, 2, 14 and 7 can
/// turn it down.
pub fn watch_set(desk: &mut Desk, pages: &[u8], watch: u16, rectangle: Rectangle) -> Answer<'static> {
    let Rectangle {
        west,
        east,
        south,
        north,
    } = rectangle;
    // SAFETY: as in `begin`. The pages are only read.
    let numbers = unsafe { boragefile_watch_set(desk, pages.as_ptr(), pages.len(), watch, west, east, south, north) };
    Answer::without_list(numbers)
}

/// Watches the rectangle under this number no longer. Numbers 1, 2 and 14 can turn it down.
pub fn watch_clear(desk: &mut Desk, pages: &[u8], watch: u16) -> Answer<'static> {
    // SAFETY: as in `watch_set`.
    let numbers = unsafe { boragefile_watch_clear(desk, pages.as_ptr(), pages.len(), watch) };
    Answer::without_list(numbers)
}

/// Writes all radios on to the buffer's start as a spreadsheet's file, whatever their age. Numbers 1, 2 and 11 can turn it down; with
/// [`CSV_BYTES`] in the buffer 11 never comes, and else its count is the bytes needed.
pub fn csv_write<'b>(desk: &Desk, pages: &[u8], buffer: &'b mut [u8]) -> Answer<'b> {
    // SAFETY: as in `begin`, and desk and pages are only read.
    let numbers = unsafe { boragefile_csv_write(desk, pages.as_ptr(), pages.len(), buffer.as_mut_ptr(), buffer.len()) };
    Answer::to_write(numbers, buffer)
}

/// Makes desk and pages, in whatever condition these are, the store of a spreadsheet's file: a fresh one, to which each line is a sign-on, by
/// rising minute, then radio, then line. Numbers 1, 15, 12, 8 and 10 can turn it down, the last four with a line: [`Answer::line`]. Number 2
/// isn't tested.
pub fn csv_read(desk: &mut Desk, pages: &mut [u8], file: &[u8]) -> Answer<'static> {
    // SAFETY: as in `call`.
    let numbers = unsafe { boragefile_csv_read(desk, pages.as_mut_ptr(), pages.len(), file.as_ptr(), file.len()) };
    Answer::without_list(numbers)
}

/// Whether desk and pages, in whatever condition these are, are those of a sound store: the test that each call makes
/// first, for number 2.
pub fn is_sound(desk: &Desk, pages: &[u8]) -> bool {
    // SAFETY: as in `begin`, and both are only read. The archive answers a bool, that is 0 or 1.
    unsafe { boragefile_sound(desk, pages.as_ptr(), pages.len()) }
}

/// One desk and its pages.
#[derive(PartialEq, Eq)]
pub struct Store {
    desk: Box<Desk>,
    pages: Box<[u8]>,
}

impl Store {
    /// A store with no cut, one cell and no radio on.
    pub fn fresh() -> Store {
        let mut store = Store {
            desk: Box::new(Desk::blank()),
            pages: vec![0; PAGES_BYTES].into_boxed_slice(),
        };
        let answer = begin(&mut store.desk, &mut store.pages);
        assert!(
            answer.is_accepted(),
            "a page buffer of the right size makes a fresh store"
        );
        store
    }

    /// The store of a desk and pages that were saved: [`Desk::as_bytes`] and [`Store::pages`]. What is no sound store is turned
    /// down as a call would turn it down.
    pub fn restored(desk: &[u8], pages: &[u8]) -> Result<Store, Refusal> {
        if pages.len() != PAGES_BYTES {
            return Err(Refusal::PageBuffer);
        }
        let desk = Desk::from_bytes(desk).ok_or(Refusal::Unsound)?;
        let store = Store {
            desk: Box::new(desk),
            pages: pages.into(),
        };
        if store.is_sound() {
            Ok(store)
        } else {
            Err(Refusal::Unsound)
        }
    }

    /// Hands in one record. The radios of an accepted range are listed in the buffer, and read from the answer.
    pub fn call<'b>(&mut self, bytes: &[u8], buffer: &'b mut [u8]) -> Answer<'b> {
        call(&mut self.desk, &mut self.pages, bytes, buffer)
    }

    /// Watches a rectangle under this number, from 0 to 15; one that is watched under it already is replaced. From here on the desk
    /// keeps its members, the radios on whose latest place lies in it, whatever their age, and every accepted sign-on, report or
    /// sign-off says which watches gained its radio, and which lost it.
    ///
    /// ```
    /// use boragefile::{Record, Rectangle, Refusal, Store};
    ///
    /// let mut store = Store::fresh();
    /// let valley = Rectangle { west: 0, east: 300, south: 0, north: 300 };
    /// assert!(store.watch_set(3, valley).is_accepted());
    ///
    /// let on = Record::SignOn { radio: 7, east: 100, north: 200, minute: 0 };
    /// let answer = store.call(&on.to_bytes(), &mut []);
    /// assert!(answer.gained().iter().eq([3]) && answer.lost().is_empty());
    /// let watch = store.desk().watch(3).expect("it is set");
    /// assert!(watch.members().eq([7]));
    ///
    /// // an east edge is outside
    /// let report = Record::Report { radio: 7, east: 300, north: 200, minute: 0 };
    /// let answer = store.call(&report.to_bytes(), &mut []);
    /// assert!(answer.gained().is_empty() && answer.lost().contains(3));
    ///
    /// assert_eq!(store.watch_set(16, valley).refusal(), Some(Refusal::NoWatch));
    /// let reversed = Rectangle { west: 300, east: 0, ..valley };
    /// assert_eq!(store.watch_set(3, reversed).refusal(), Some(Refusal::Rectangle));
    /// ```
    pub fn watch_set(&mut self, watch: u16, rectangle: Rectangle) -> Answer<'static> {
        watch_set(&mut self.desk, &self.pages, watch, rectangle)
    }

    /// Watches the rectangle under this number no longer.
    ///
    /// ```
    /// use boragefile::{Rectangle, Refusal, Store};
    ///
    /// let mut store = Store::fresh();
    /// let map = Rectangle { west: 0, east: 65535, south: 0, north: 65535 };
    /// assert!(store.watch_set(0, map).is_accepted());
    /// assert!(store.watch_clear(0).is_accepted());
    /// assert_eq!(store.desk().watch(0), None);
    /// assert_eq!(store.watch_clear(0).refusal(), Some(Refusal::NoWatch));
    /// ```
    pub fn watch_clear(&mut self, watch: u16) -> Answer<'static> {
        watch_clear(&mut self.desk, &self.pages, watch)
    }

    /// Writes all radios on to the buffer's start as a spreadsheet's file, by rising number and whatever their age.
    ///
    /// ```
    /// use boragefile::{Record, Refusal, Store, CSV_BYTES};
    ///
    /// let mut store = Store::fresh();
    /// let on = Record::SignOn { radio: 7, east: 100, north: 200, minute: 5 };
    /// assert!(store.call(&on.to_bytes(), &mut []).is_accepted());
    /// let mut buffer = [0; CSV_BYTES];
    /// let file = store.csv_write(&mut buffer).file().expect("the buffer takes every radio");
    /// assert_eq!(file, b"radio,east,north,minute\r\n7,100,200,5\r\n");
    ///
    /// // one that is too short is told what is needed
    /// let answer = store.csv_write(&mut buffer[..37]);
    /// assert_eq!((answer.refusal(), answer.count()), (Some(Refusal::AnswerBuffer), 38));
    /// ```
    pub fn csv_write<'b>(&self, buffer: &'b mut [u8]) -> Answer<'b> {
        csv_write(&self.desk, &self.pages, buffer)
    }

    /// Makes this the store of a spreadsheet's file, whatever it was: a fresh one, with no watch set, to which each line is a sign-on, by
    /// rising minute, then radio, then line. A file that is turned down changes nothing.
    ///
    /// ```
    /// use boragefile::{Refusal, Store};
    ///
    /// let mut store = Store::fresh();
    /// assert!(store.csv_read(b"radio,east,north,minute\r\n\"7\",100,0200,5\r\n9,1,1,4").is_accepted());
    /// assert_eq!(store.desk().radios_on(), [7, 9]);
    ///
    /// // line 3 is no line; line 2 is taken after line 4, when its radio is on
    /// let answer = store.csv_read(b"radio,east,north,minute\r\n7,100,200,5\r\n8,,200,5\r\n");
    /// assert_eq!((answer.refusal(), answer.line()), (Some(Refusal::BadLine), Some(3)));
    /// let answer = store.csv_read(b"radio,east,north,minute\r\n7,1,1,5\r\n8,1,1,5\r\n7,2,2,4\r\n");
    /// assert_eq!((answer.refusal(), answer.line()), (Some(Refusal::AlreadyOn), Some(2)));
    /// assert_eq!(store.desk().radios_on(), [7, 9]);
    /// ```
    pub fn csv_read(&mut self, file: &[u8]) -> Answer<'static> {
        csv_read(&mut self.desk, &mut self.pages, file)
    }

    /// Whether this is a sound store. After any run of calls on a fresh one it is; after a change through
    /// [`Store::parts_mut`] it may not be.
    pub fn is_sound(&self) -> bool {
        is_sound(&self.desk, &self.pages)
    }

    /// The desk.
    pub fn desk(&self) -> &Desk {
        &self.desk
    }

    /// The page buffer.
    pub fn pages(&self) -> &[u8] {
        &self.pages
    }

    /// Desk and pages, to change them. What is no sound store afterwards is turned down under number 2.
    pub fn parts_mut(&mut self) -> (&mut Desk, &mut [u8]) {
        (&mut self.desk, &mut self.pages)
    }
}

impl Clone for Store {
    fn clone(&self) -> Store {
        Store {
            desk: self.desk.clone(),
            pages: self.pages.clone(),
        }
    }

    fn clone_from(&mut self, source: &Store) {
        self.desk.clone_from(&source.desk);
        self.pages.copy_from_slice(&source.pages);
    }
}
