//! A spreadsheet's file, read the plain way: cut at its line ends, each line at its commas.
use boragefile::{Record, CSV_HEADER};

/// A line of a file, with its number there; the header is line 1.
#[derive(Clone, Copy, PartialEq, Eq, Debug)]
pub struct FileLine {
    pub number: u64,
    pub radio: u16,
    pub east: u16,
    pub north: u16,
    pub minute: u32,
}

impl FileLine {
    /// Its sign-on.
    pub fn record(&self) -> Record {
        Record::SignOn {
            radio: self.radio,
            east: self.east,
            north: self.north,
            minute: self.minute,
        }
    }
}

/// The lines of a file after its header, or the number of the first bad one.
pub fn lines_of(file: &[u8]) -> Result<Vec<FileLine>, u64> {
    let mut texts = cut_at_line_ends(file);
    // the last line may have an end or not
    if texts.len() > 1 && texts.last().is_some_and(|last| last.is_empty()) {
        texts.pop();
    }
    let names = CSV_HEADER.trim_end().split(',').map(str::as_bytes);
    if !texts[0].split(|byte| *byte == b',').map(unquoted).eq(names) {
        return Err(1);
    }
    let lines = (2..).zip(&texts[1..]);
    lines
        .map(|(number, text)| line_of(number, text).ok_or(number))
        .collect()
}

/// The lines in the order in which they are taken: by rising minute, then radio, then line.
pub fn in_order(mut lines: Vec<FileLine>) -> Vec<FileLine> {
    lines.sort_by_key(|line| (line.minute, line.radio, line.number));
    lines
}

/// A line of four numbers, as a file has it.
pub fn line_text(radio: u16, (east, north): (u16, u16), minute: u32) -> String {
    format!("{radio},{east},{north},{minute}\r\n")
}

fn cut_at_line_ends(file: &[u8]) -> Vec<&[u8]> {
    let mut texts = Vec::new();
    let (mut start, mut at) = (0, 0);
    while at < file.len() {
        if file[at..].starts_with(b"\r\n") {
            texts.push(&file[start..at]);
            start = at + 2;
            at = start;
        } else {
            at += 1;
        }
    }
    texts.push(&file[start..]);
    texts
}

fn line_of(number: u64, text: &[u8]) -> Option<FileLine> {
    let fields: Vec<&[u8]> = text.split(|byte| *byte == b',').collect();
    let [radio, east, north, minute] = fields[..] else {
        return None;
    };
    Some(FileLine {
        number,
        radio: u16::try_from(number_of(radio)?)
            .ok()
            .filter(|radio| (1..=4095).contains(radio))?,
        east: number_of(east)?.try_into().ok()?,
        north: number_of(north)?.try_into().ok()?,
        minute: number_of(minute)?.try_into().ok()?,
    })
}

/// A field without the quotes that it stands in, if it does, whole.
fn unquoted(field: &[u8]) -> &[u8] {
    match field {
        [b'"', inner @ .., b'"'] => inner,
        _ => field,
    }
}

/// A field of plain digits, any number of zeros first.
fn number_of(field: &[u8]) -> Option<u64> {
    let digits = std::str::from_utf8(unquoted(field)).ok()?;
    if digits.is_empty() || !digits.bytes().all(|byte| byte.is_ascii_digit()) {
        return None;
    }
    match digits.trim_start_matches('0') {
        "" => Some(0),
        // one that u64 does not take is beyond every range
        digits => digits.parse().ok(),
    }
}

#[cfg(test)]
mod tests {
    use super::*;

    fn numbers(file: &str) -> Result<Vec<(u64, u16, u16, u16, u32)>, u64> {
        let row = |line: FileLine| (line.number, line.radio, line.east, line.north, line.minute);
        lines_of(file.as_bytes()).map(|lines| lines.into_iter().map(row).collect())
    }

    #[test]
    fn lines_are_read_with_their_numbers() {
        assert_eq!(numbers("radio,east,north,minute"), Ok(vec![]));
        let both = Ok(vec![(2, 7, 100, 200, 5), (3, 4095, 65535, 0, u32::MAX)]);
        assert_eq!(
            numbers("radio,east,north,minute\r\n7,100,200,5\r\n4095,65535,0,4294967295\r\n"),
            both
        );
        assert_eq!(
            numbers("\"radio\",east,north,\"minute\"\r\n\"007\",0100,200,\"5\"\r\n4095,65535,0,04294967295"),
            both
        );
    }

    #[test]
    fn the_first_bad_line_is_told() {
        for (file, line) in [
            ("", 1),
            ("radio,east,north\r\n", 1),
            ("radio,east,north,minute\r\n\r\n", 2),
            ("radio,east,north,minute\n1,1,1,1\n", 1),
            ("radio,east,north,minute\r\n1,1,1,1\r\n1,1,1,1\n", 3),
            ("radio,east,north,minute\r\n1,1,1,1\r\n0,1,1,1\r\n1,1,1\r\n", 3),
            ("radio,east,north,minute\r\n1,1,1,99999999999999999999999\r\n", 2),
        ] {
            assert_eq!(numbers(file), Err(line), "{file:?}");
        }
    }
}
