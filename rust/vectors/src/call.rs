//! What a line of a journal hands in.
use crate::json::Json;
use crate::{number, size, text};
use boragefile::{Answer, Desk, Rectangle};

/// A call: a record, or one of those that aren't records, which the line names as its `call`.
pub enum Call {
    Record(Vec<u8>, Buffer),
    WatchSet(u16, Rectangle),
    WatchClear(u16),
    CsvWrite(Buffer),
    CsvRead(Vec<u8>),
}

/// The length of an answer buffer, and what must stand at its start then.
pub struct Buffer {
    room: usize,
    written: Vec<u8>,
}

impl Buffer {
    fn of(line: &Json) -> Result<Buffer, String> {
        Ok(Buffer {
            room: size(number(line, "buffer")?)?,
            written: bytes_of(text(line, "answer")?)?,
        })
    }
}

impl Call {
    /// The call of a line.
    pub fn of(line: &Json) -> Result<Call, String> {
        if line.get("call").is_none() {
            return Ok(Call::Record(bytes_of(text(line, "record")?)?, Buffer::of(line)?));
        }
        match text(line, "call")? {
            "watch-set" => Ok(Call::WatchSet(watch(line)?, rectangle(line)?)),
            "watch-clear" => Ok(Call::WatchClear(watch(line)?)),
            "csv-write" => Ok(Call::CsvWrite(Buffer::of(line)?)),
            "csv-read" => Ok(Call::CsvRead(bytes_of(text(line, "file")?)?)),
            other => Err(format!("no call of this desk: {other}")),
        }
    }

    fn buffer(&self) -> Option<&Buffer> {
        match self {
            Call::Record(_, buffer) | Call::CsvWrite(buffer) => Some(buffer),
            Call::WatchSet(..) | Call::WatchClear(_) | Call::CsvRead(_) => None,
        }
    }

    /// The length of its answer buffer.
    pub fn room(&self) -> usize {
        self.buffer().map_or(0, |buffer| buffer.room)
    }

    /// What must stand at the buffer's start then.
    pub fn written(&self) -> &[u8] {
        self.buffer().map_or(&[], |buffer| &buffer.written)
    }

    /// Whether it makes a store, whatever it finds: number 2 isn't tested.
    pub fn makes_a_store(&self) -> bool {
        matches!(self, Call::CsvRead(_))
    }

    /// Makes the call.
    pub fn hand_to<'b>(&self, desk: &mut Desk, pages: &mut [u8], buffer: &'b mut [u8]) -> Answer<'b> {
        match self {
            Call::Record(bytes, _) => boragefile::call(desk, pages, bytes, buffer),
            Call::WatchSet(watch, area) => boragefile::watch_set(desk, pages, *watch, *area),
            Call::WatchClear(watch) => boragefile::watch_clear(desk, pages, *watch),
            Call::CsvWrite(_) => boragefile::csv_write(desk, pages, buffer),
            Call::CsvRead(file) => boragefile::csv_read(desk, pages, file),
        }
    }
}

fn watch(line: &Json) -> Result<u16, String> {
    u16::try_from(number(line, "watch")?).map_err(|error| format!("\"watch\": {error}"))
}

fn rectangle(line: &Json) -> Result<Rectangle, String> {
    let edge = |value: &Json| value.number().and_then(|edge| u16::try_from(edge).ok());
    let edges: Option<Vec<u16>> = line
        .get("rect")
        .and_then(Json::list)
        .and_then(|edges| edges.iter().map(edge).collect());
    match edges.as_deref() {
        Some(&[west, east, south, north]) => Ok(Rectangle {
            west,
            east,
            south,
            north,
        }),
        _ => Err("\"rect\" is no list of four edges".to_string()),
    }
}

fn bytes_of(hex: &str) -> Result<Vec<u8>, String> {
    let digit = |byte: u8| char::from(byte).to_digit(16).map(|digit| digit as u8);
    let pair = |pair: &[u8]| Some(16 * digit(pair[0])? + digit(*pair.get(1)?)?);
    hex.as_bytes()
        .chunks(2)
        .map(pair)
        .collect::<Option<_>>()
        .ok_or_else(|| format!("no hex: {hex}"))
}
