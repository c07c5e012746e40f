//! The four records.

/// A sign-on's kind.
pub const KIND_SIGN_ON: u16 = 1;
/// A report's kind.
pub const KIND_REPORT: u16 = 2;
/// A sign-off's kind.
pub const KIND_SIGN_OFF: u16 = 3;
/// A range's kind.
pub const KIND_RANGE: u16 = 4;

/// A record. Any numbers may stand in it: the desk checks them. Each has a minute, counted from whatever hour the serving
/// program chooses; where that goes back, the record is turned down.
#[derive(Clone, Copy, PartialEq, Eq, Debug)]
#[allow(missing_docs)]
pub enum Record {
    /// A radio signs on at a place.
    SignOn {
        radio: u16,
        east: u16,
        north: u16,
        minute: u32,
    },
    /// A radio that is on reports its place.
    Report {
        radio: u16,
        east: u16,
        north: u16,
        minute: u32,
    },
    /// A radio signs off.
    SignOff { radio: u16, minute: u32 },
    /// Which radios are in this rectangle? Its west and south edges are inside, its east and north edges outside; but an east
    /// or north edge of 65,535 takes in that last line. A radio whose minute is more than [`KEPT_MINUTES`](crate::KEPT_MINUTES)
    /// before the range's own is left out.
    Range {
        west: u16,
        east: u16,
        south: u16,
        north: u16,
        minute: u32,
    },
}

impl Record {
    /// Its bytes: length, kind and body, in 16-bit little-endian fields, and the minute, in 32 bits.
    pub fn to_bytes(self) -> Vec<u8> {
        match self {
            Record::SignOn {
                radio,
                east,
                north,
                minute,
            } => bytes_of(KIND_SIGN_ON, &[radio, east, north], minute),
            Record::Report {
                radio,
                east,
                north,
                minute,
            } => bytes_of(KIND_REPORT, &[radio, east, north], minute),
            Record::SignOff { radio, minute } => bytes_of(KIND_SIGN_OFF, &[radio], minute),
            Record::Range {
                west,
                east,
                south,
                north,
                minute,
            } => bytes_of(KIND_RANGE, &[west, east, south, north], minute),
        }
    }
}

fn bytes_of(kind: u16, body: &[u16], minute: u32) -> Vec<u8> {
    let length = (4 + 2 * body.len() + 4) as u16;
    let fields = [length, kind].into_iter().chain(body.iter().copied());
    fields.flat_map(u16::to_le_bytes).chain(minute.to_le_bytes()).collect()
}

/// Field number `at` of some bytes, counting from 0.
pub(crate) fn field(bytes: &[u8], at: usize) -> Option<u16> {
    let pair = bytes.get(2 * at..2 * at + 2)?;
    Some(u16::from_le_bytes([pair[0], pair[1]]))
}

#[cfg(test)]
mod tests {
    use super::*;

    #[test]
    fn records_have_the_lengths_of_their_kinds() {
        let on = Record::SignOn {
            radio: 7,
            east: 100,
            north: 0x0201,
            minute: 0x0403_0201,
        };
        assert_eq!(on.to_bytes(), [14, 0, 1, 0, 7, 0, 100, 0, 1, 2, 1, 2, 3, 4]);
        let report = Record::Report {
            radio: 7,
            east: 100,
            north: 200,
            minute: 720,
        };
        assert_eq!(report.to_bytes(), [14, 0, 2, 0, 7, 0, 100, 0, 200, 0, 208, 2, 0, 0]);
        let off = Record::SignOff {
            radio: 0x0fff,
            minute: u32::MAX,
        };
        assert_eq!(off.to_bytes(), [10, 0, 3, 0, 255, 15, 255, 255, 255, 255]);
        let range = Record::Range {
            west: 1,
            east: 2,
            south: 3,
            north: 65535,
            minute: 65536,
        };
        assert_eq!(range.to_bytes(), [16, 0, 4, 0, 1, 0, 2, 0, 3, 0, 255, 255, 0, 0, 1, 0]);
    }
}
