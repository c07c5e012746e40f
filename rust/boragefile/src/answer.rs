//! What a call answers.
use crate::list::List;
use crate::watch::Watches;
use std::fmt;
use std::mem::{offset_of, size_of};

/// The answer to one call. It borrows the answer buffer, so that its list is read before the buffer is lent again.
///
/// Further fields may come to an accepted or refused call: match these with `..`.
///
/// An answer that nobody looks at is a warning, and here an error:
///
/// ```compile_fail
/// #![deny(unused_must_use)]
/// # use boragefile::{Record, Store};
/// # let mut store = Store::fresh();
/// store.call(&Record::SignOff { radio: 7, minute: 0 }.to_bytes(), &mut []);
/// ```
#[must_use = "the call may be turned down"]
#[derive(Clone, Copy, PartialEq, Eq, Debug)]
pub enum Answer<'b> {
    /// A sign-on, report or sign-off was carried out, a watch was set or cleared, a file was read, or a fresh store was made.
    #[non_exhaustive]
    Accepted {
        /// The watches that gained the radio of a sign-on, report or sign-off; else none.
        gained: Watches,
        /// The watches that lost it; else none.
        lost: Watches,
    },
    /// A range was carried out and found these radios.
    Found(List<'b>),
    /// A file was written: these bytes, at the buffer's start.
    Written(&'b [u8]),
    /// The call was turned down and kept every byte: there is no list.
    #[non_exhaustive]
    Refused {
        /// Why.
        refusal: Refusal,
        /// 0, but for [`Refusal::AnswerBuffer`] and where a file is read. Of a range that finds more than the buffer takes it is the
        /// number of radios found, of a file that doesn't fit the bytes needed, and of a file that is read the line: [`Answer::line`].
        count: u64,
    },
}

/// Why a call was turned down: one of fifteen checks. A later request's number is greater, wherever its check stands: [`Refusal::ALL`] has
/// the checking order.
#[derive(Clone, Copy, PartialEq, Eq, PartialOrd, Ord, Debug)]
#[repr(u16)]
pub enum Refusal {
    /// Number 1: the page buffer isn't 41,984 bytes.
    PageBuffer = 1,
    /// Number 2: the store isn't sound.
    Unsound,
    /// Number 3: fewer than 4 bytes are at hand, or the length is below 4 or above what is at hand.
    Length,
    /// Number 4: the kind isn't 1 to 4.
    Kind,
    /// Number 5: the length isn't the one for its kind.
    LengthOfKind,
    /// Number 6: a radio is 0 or above 4,095.
    Radio,
    /// Number 7: a range, or a watch that is set, has west above east or south above north.
    Rectangle,
    /// Number 8: a sign-on, or a line of a file, names a radio that is on.
    AlreadyOn,
    /// Number 9: a report or sign-off names a radio that isn't on.
    NotOn,
    /// Number 10: a sign-on, or a line of a file, comes while 512 are on.
    Full,
    /// Number 11: the answer buffer is too small for the radios found, or for the file.
    AnswerBuffer,
    /// Number 12: a sign-on, a report or a line of a file has the place (0,0), which a handheld without a satellite fix sends. It is checked after 6 and before 7.
    NoFix,
    /// Number 13: a record of any kind has a minute below the store's highest. It is checked after 12 and before 7.
    TooEarly,
    /// Number 14: the number of a watch is above 15, or a watch that isn't set is cleared. It is checked after 2; of a watch that is set, 7 follows.
    NoWatch,
    /// Number 15: a line of a file isn't four fields of plain digits in range, or its header is wrong. It is checked over the whole file, after 1 and before 12.
    BadLine,
}

impl Refusal {
    /// All of them, in checking order.
    pub const ALL: [Refusal; 15] = [
        Refusal::PageBuffer,
        Refusal::Unsound,
        Refusal::NoWatch,
        Refusal::BadLine,
        Refusal::Length,
        Refusal::Kind,
        Refusal::LengthOfKind,
        Refusal::Radio,
        Refusal::NoFix,
        Refusal::TooEarly,
        Refusal::Rectangle,
        Refusal::AlreadyOn,
        Refusal::NotOn,
        Refusal::Full,
        Refusal::AnswerBuffer,
    ];

    /// The refusal with this number.
    pub fn from_number(number: u16) -> Option<Refusal> {
        Refusal::ALL.into_iter().find(|refusal| refusal.number() == number)
    }

    /// Its number, 1 to 15.
    pub fn number(self) -> u16 {
        self as u16
    }

    /// It in words.
    pub fn words(self) -> &'static str {
        match self {
            Refusal::PageBuffer => "the page buffer isn't 41,984 bytes",
            Refusal::Unsound => "the store isn't sound",
            Refusal::Length => "fewer than 4 bytes are at hand, or the length is below 4 or above what is at hand",
            Refusal::Kind => "the kind isn't 1 to 4",
            Refusal::LengthOfKind => "the length isn't the one for its kind",
            Refusal::Radio => "a radio is 0 or above 4,095",
            Refusal::Rectangle => "a range or watch has west above east or south above north",
            Refusal::AlreadyOn => "a sign-on names a radio that is on",
            Refusal::NotOn => "a report or sign-off names a radio that isn't on",
            Refusal::Full => "a sign-on comes while 512 are on",
            Refusal::AnswerBuffer => "the answer buffer is too small for the radios found or the file",
            Refusal::NoFix => "a sign-on or report has the place (0,0): the radio has no fix",
            Refusal::TooEarly => "the minute is below the store's highest",
            Refusal::NoWatch => "a watch number is above 15, or the watch to be cleared isn't set",
            Refusal::BadLine => "a line of the file isn't four fields of plain digits in range, or its header is wrong",
        }
    }
}

impl fmt::Display for Refusal {
    fn fmt(&self, f: &mut fmt::Formatter<'_>) -> fmt::Result {
        f.write_str(self.words())
    }
}

impl std::error::Error for Refusal {}

/// What the archive answers: the number of the check that turned the call down, or 0; the watches that gained, and lost, the record's
/// radio; and a count.
#[repr(C)]
#[derive(Clone, Copy)]
pub(crate) struct Numbers {
    pub number: u16,
    pub gained: u16,
    pub lost: u16,
    pub count: u64,
}

const _: () = assert!(size_of::<Numbers>() == 16 && offset_of!(Numbers, count) == 8);
const _: () = assert!(offset_of!(Numbers, gained) == 2 && offset_of!(Numbers, lost) == 4);

impl<'b> Answer<'b> {
    /// The number of the check that turned the call down, or 0.
    pub fn number(&self) -> u16 {
        self.refusal().map_or(0, Refusal::number)
    }

    /// The count that the answer carries: the radios found, also where their list did not fit; the bytes of a file that is written, also
    /// where it did not fit; the line that turned a file down; else 0.
    pub fn count(&self) -> u64 {
        match self {
            Answer::Accepted { .. } => 0,
            Answer::Found(list) => list.len() as u64,
            Answer::Written(file) => file.len() as u64,
            Answer::Refused { count, .. } => *count,
        }
    }

    /// The line that turned a file down that was read, the header being line 1: the first that is bad, or the first in the order taken that
    /// a sign-on check stops. None for any other answer, number 1 among them.
    pub fn line(&self) -> Option<u64> {
        match self {
            Answer::Refused {
                refusal: Refusal::BadLine | Refusal::NoFix | Refusal::AlreadyOn | Refusal::Full,
                count: line @ 1..,
            } => Some(*line),
            _ => None,
        }
    }

    /// Why the call was turned down, if it was.
    pub fn refusal(&self) -> Option<Refusal> {
        match self {
            Answer::Refused { refusal, .. } => Some(*refusal),
            Answer::Accepted { .. } | Answer::Found(_) | Answer::Written(_) => None,
        }
    }

    /// Whether a sign-on, report or sign-off was carried out, a watch set or cleared, a file read, or a fresh store made.
    pub fn is_accepted(&self) -> bool {
        matches!(self, Answer::Accepted { .. })
    }

    /// The watches that gained the radio of an accepted sign-on, report or sign-off; none for any other answer.
    pub fn gained(&self) -> Watches {
        match self {
            Answer::Accepted { gained, .. } => *gained,
            _ => Watches::NONE,
        }
    }

    /// The watches that lost it; none for any other answer.
    pub fn lost(&self) -> Watches {
        match self {
            Answer::Accepted { lost, .. } => *lost,
            _ => Watches::NONE,
        }
    }

    /// The radios found, if this is an accepted range.
    pub fn list(&self) -> Option<List<'b>> {
        match self {
            Answer::Found(list) => Some(*list),
            _ => None,
        }
    }

    /// The file, if one was written.
    pub fn file(&self) -> Option<&'b [u8]> {
        match self {
            Answer::Written(file) => Some(file),
            _ => None,
        }
    }

    /// The answer with these numbers to a call that lists nothing.
    pub(crate) fn without_list(numbers: Numbers) -> Answer<'b> {
        match Refusal::from_number(numbers.number) {
            Some(refusal) => {
                numbers.expect_no_watch();
                Answer::Refused {
                    refusal,
                    count: numbers.count,
                }
            }
            None => {
                assert_eq!(numbers.number, 0, "an answer's number is 0 to 15");
                Answer::Accepted {
                    gained: Watches::from_bits(numbers.gained),
                    lost: Watches::from_bits(numbers.lost),
                }
            }
        }
    }

    /// The answer with these numbers to a range. Only an accepted one has written its list to the buffer.
    pub(crate) fn to_range(numbers: Numbers, buffer: &'b [u8]) -> Answer<'b> {
        match Answer::without_list(numbers) {
            Answer::Accepted { .. } => {
                numbers.expect_no_watch();
                Answer::Found(List::at_start(buffer, numbers.size()))
            }
            refused => refused,
        }
    }

    /// The answer with these numbers to a call that writes a file. Only an accepted one has written to the buffer.
    pub(crate) fn to_write(numbers: Numbers, buffer: &'b [u8]) -> Answer<'b> {
        match Answer::without_list(numbers) {
            Answer::Accepted { .. } => {
                numbers.expect_no_watch();
                Answer::Written(&buffer[..numbers.size()])
            }
            refused => refused,
        }
    }
}

impl Numbers {
    /// A range, a file that is written and a refusal move no radio.
    fn expect_no_watch(self) {
        assert_eq!((self.gained, self.lost), (0, 0), "no watch gains or loses a radio");
    }

    /// The count of what stands in a buffer.
    fn size(self) -> usize {
        usize::try_from(self.count).expect("a buffer holds what is counted")
    }
}

#[cfg(test)]
mod tests {
    use super::*;

    fn numbers(number: u16, count: u64) -> Numbers {
        Numbers {
            number,
            count,
            gained: 0,
            lost: 0,
        }
    }

    #[test]
    fn each_number_has_its_refusal_and_words() {
        for number in 1..=15 {
            let refusal = Refusal::from_number(number).unwrap();
            assert_eq!(refusal.number(), number);
            assert!(!refusal.to_string().is_empty());
        }
        assert_eq!(Refusal::from_number(0), None);
        assert_eq!(Refusal::from_number(16), None);
    }

    #[test]
    fn a_refused_write_has_no_file() {
        let buffer = *b"radio,east,north,minute\r\n";
        for refusal in Refusal::ALL {
            let answer = Answer::to_write(numbers(refusal.number(), 26), &buffer);
            assert_eq!((answer.refusal(), answer.count()), (Some(refusal), 26));
            assert_eq!(answer.file(), None);
        }
        let written = Answer::to_write(numbers(0, 25), &buffer);
        assert_eq!((written.file(), written.count()), (Some(&buffer[..]), 25));
        assert_eq!((written.list(), written.refusal(), written.line()), (None, None, None));
        assert!(!written.is_accepted() && written.gained().is_empty() && written.lost().is_empty());
    }

    #[test]
    fn a_line_comes_with_the_numbers_that_a_file_is_turned_down_under() {
        let line = |refusal: Refusal, count| Answer::without_list(numbers(refusal.number(), count)).line();
        for refusal in Refusal::ALL {
            let of_a_file = matches!(
                refusal,
                Refusal::BadLine | Refusal::NoFix | Refusal::AlreadyOn | Refusal::Full
            );
            for count in [1, 2, 65536, 1 << 40] {
                assert_eq!(line(refusal, count), of_a_file.then_some(count), "{refusal:?}");
            }
            // of a record
            assert_eq!(line(refusal, 0), None);
        }
    }

    #[test]
    fn a_refused_range_has_no_list() {
        let buffer = [7, 0, 100, 0, 200, 0];
        for refusal in Refusal::ALL {
            let answer = Answer::to_range(numbers(refusal.number(), 1), &buffer);
            assert_eq!((answer.refusal(), answer.count()), (Some(refusal), 1));
            assert_eq!(answer.list(), None);
            assert!(answer.gained().is_empty() && answer.lost().is_empty());
        }
        let found = Answer::to_range(numbers(0, 1), &buffer);
        assert_eq!(found.list().map(|list| list.len()), Some(1));
        assert!(found.gained().is_empty() && found.lost().is_empty());
    }

    #[test]
    fn an_accepted_record_says_which_watches_gained_and_lost() {
        let answer = Answer::without_list(Numbers {
            gained: 0x8001,
            lost: 0x0002,
            ..numbers(0, 0)
        });
        assert!(answer.is_accepted() && answer.count() == 0);
        assert!(answer.gained().iter().eq([0, 15]) && answer.lost().iter().eq([1]));
    }
}
