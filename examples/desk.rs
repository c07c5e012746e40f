//! A desk that keeps its store in a file across restarts, in Rust. `desk.c` beside it is the same in C: each reads the other's
//! file.
//!
//!     desk FILE < LINES
//!
//! A line is one of `on RADIO EAST NORTH MINUTE`, `report RADIO EAST NORTH MINUTE`, `off RADIO MINUTE` and
//! `range WEST EAST SOUTH NORTH MINUTE`, or one of `watch WATCH WEST EAST SOUTH NORTH`, `unwatch WATCH` and `members WATCH`, or one
//! of `save-csv NAME` and `load-csv NAME`: all radios on to a spreadsheet's file, and a store from one in place of this. For
//! line i it prints `i ok`, with the watches that gained and lost the radio, `i found n` and then n lines `radio east north`,
//! `i members` with the radios, `i wrote n bytes`, `i refused r: words` (of a file `i refused r in line l: words`), `i no file`, or
//! `i no call`. What was answered with `ok` is in the file.
//!
//! The file: a line with the version, the desk, the pages, and a sum over all of these, so that a bit that flipped on the disk
//! is found even where the store is sound with it. A file that cannot be used is left as it is, and the program ends with 1.
#![forbid(unsafe_code)]
use boragefile::{
    Answer, Located, Record, Rectangle, Store, Watches, CSV_BYTES, DESK_BYTES, LIST_BYTES,
    PAGES_BYTES, VERSION, WATCHES,
};
use std::ffi::OsStr;
use std::fs::{rename, File};
use std::io::{self, BufRead, ErrorKind, Write};
use std::os::unix::ffi::OsStrExt;
use std::path::{Path, PathBuf};
use std::process::ExitCode;

const SUM_BYTES: usize = 8;

type Failure = Box<dyn std::error::Error>;

fn main() -> ExitCode {
    let mut arguments = std::env::args_os().skip(1);
    let (Some(path), None) = (arguments.next(), arguments.next()) else {
        eprintln!("usage: desk FILE < LINES");
        return ExitCode::from(2);
    };
    let path = PathBuf::from(path);
    match serve(&path) {
        Ok(()) => ExitCode::SUCCESS,
        Err(why) => {
            eprintln!("desk: {}: {why}", path.display());
            ExitCode::FAILURE
        }
    }
}

fn serve(path: &Path) -> Result<(), Failure> {
    let mut store = restored(path)?;
    // these take every radio, so number 11 never comes
    let (mut buffer, mut csv) = ([0; LIST_BYTES], [0; CSV_BYTES]);
    let mut out = io::stdout().lock();
    for (i, line) in (1..).zip(io::stdin().lock().split(b'\n')) {
        let answer = match call_of(&line?) {
            Some(Call::Record(record)) => store.call(&record.to_bytes(), &mut buffer),
            Some(Call::Watch(watch, area)) => store.watch_set(watch, area),
            Some(Call::Unwatch(watch)) => store.watch_clear(watch),
            Some(Call::Members(watch)) => {
                let members = store.desk().watch(watch).into_iter();
                let members = members.flat_map(|watch| watch.members());
                writeln!(out, "{i} members{}", spaced(members))?;
                continue;
            }
            Some(Call::SaveCsv(name)) => {
                let answer = store.csv_write(&mut csv);
                let failed = |file| std::fs::write(name, file).is_err();
                if answer.file().is_some_and(failed) {
                    writeln!(out, "{i} no file")?;
                    continue;
                }
                answer
            }
            Some(Call::LoadCsv(name)) => {
                let Ok(file) = std::fs::read(name) else {
                    writeln!(out, "{i} no file")?;
                    continue;
                };
                store.csv_read(&file)
            }
            None => {
                writeln!(out, "{i} no call")?;
                continue;
            }
        };
        match answer {
            Answer::Accepted { gained, lost, .. } => {
                save(&store, path)?;
                let (gained, lost) = (named("gained", gained), named("lost", lost));
                writeln!(out, "{i} ok{gained}{lost}")?;
            }
            Answer::Found(list) => {
                writeln!(out, "{i} found {}", list.len())?;
                for Located { radio, east, north } in list {
                    writeln!(out, "{radio} {east} {north}")?;
                }
            }
            Answer::Written(file) => writeln!(out, "{i} wrote {} bytes", file.len())?,
            Answer::Refused { refusal, .. } => {
                let line = answer.line().map(|line| format!(" in line {line}"));
                let line = line.unwrap_or_default();
                writeln!(out, "{i} refused {}{line}: {refusal}", refusal.number())?
            }
        }
    }
    Ok(())
}

/// Each with a space before it.
fn spaced(numbers: impl Iterator<Item = u16>) -> String {
    numbers.map(|number| format!(" {number}")).collect()
}

/// Some watches after a word, or nothing.
fn named(word: &str, watches: Watches) -> String {
    if watches.is_empty() {
        return String::new();
    }
    format!(" {word}{}", spaced(watches.iter()))
}

fn head() -> String {
    format!("boragefile {VERSION}\n")
}

/// FNV-1a, 64 bits, with its lowest byte first.
fn sum(bytes: &[u8]) -> [u8; SUM_BYTES] {
    let step = |hash: u64, byte: &u8| (hash ^ u64::from(*byte)).wrapping_mul(0x100_0000_01b3);
    bytes.iter().fold(0xcbf2_9ce4_8422_2325, step).to_le_bytes()
}

/// The store of the file, or a fresh one where there is no file.
fn restored(path: &Path) -> Result<Store, Failure> {
    let file = match std::fs::read(path) {
        Ok(file) => file,
        Err(error) if error.kind() == ErrorKind::NotFound => return Ok(Store::fresh()),
        Err(error) => return Err(error.into()),
    };
    let Some(saved) = file.strip_prefix(head().as_bytes()) else {
        return Err(format!("it is no store of version {VERSION}").into());
    };
    let whole = saved.len() == DESK_BYTES + PAGES_BYTES + SUM_BYTES;
    if !whole || !file.ends_with(&sum(&file[..file.len() - SUM_BYTES])) {
        let then =
            "keep it for inspection, begin with another file and have the radios sign on again";
        return Err(format!("it is damaged: {then}").into());
    }
    let (desk, pages) = saved[..DESK_BYTES + PAGES_BYTES].split_at(DESK_BYTES);
    Ok(Store::restored(desk, pages)?)
}

/// Saves the store: a new file first, whole and on the disk, which then takes the old one's name. So there is a whole file at
/// any time.
fn save(store: &Store, path: &Path) -> io::Result<()> {
    let mut saved = [head().as_bytes(), store.desk().as_bytes(), store.pages()].concat();
    saved.extend(sum(&saved));
    let mut fresh = path.as_os_str().to_owned();
    fresh.push(".new");
    let mut file = File::create(&fresh)?;
    file.write_all(&saved)?;
    file.sync_all()?;
    rename(&fresh, path)?;
    let folder = path
        .parent()
        .filter(|folder| !folder.as_os_str().is_empty());
    File::open(folder.unwrap_or(Path::new(".")))?.sync_all()
}

/// What a line asks for.
enum Call {
    Record(Record),
    Watch(u16, Rectangle),
    Unwatch(u16),
    Members(u16),
    SaveCsv(PathBuf),
    LoadCsv(PathBuf),
}

/// The call of a line, if it is one.
fn call_of(line: &[u8]) -> Option<Call> {
    let mut words = line
        .split(u8::is_ascii_whitespace)
        .filter(|word| !word.is_empty());
    let kind = words.next()?;
    if let Some(call) = csv_of(kind, words.clone()) {
        return Some(call);
    }
    let numbers = words.map(number_of).collect::<Option<Vec<u32>>>()?;
    watch_of(kind, &numbers).or_else(|| record_of(kind, &numbers).map(Call::Record))
}

fn csv_of<'a>(kind: &[u8], mut words: impl Iterator<Item = &'a [u8]>) -> Option<Call> {
    let call = match kind {
        b"save-csv" => Call::SaveCsv,
        b"load-csv" => Call::LoadCsv,
        _ => return None,
    };
    let (Some(name), None) = (words.next(), words.next()) else {
        return None;
    };
    Some(call(PathBuf::from(OsStr::from_bytes(name))))
}

fn fields_of(numbers: &[u32]) -> Option<Vec<u16>> {
    let fields = numbers.iter().map(|number| u16::try_from(*number).ok());
    fields.collect()
}

fn watch_of(kind: &[u8], numbers: &[u32]) -> Option<Call> {
    match (kind, fields_of(numbers)?.as_slice()) {
        (b"watch", &[watch, west, east, south, north]) => Some(Call::Watch(
            watch,
            Rectangle {
                west,
                east,
                south,
                north,
            },
        )),
        (b"unwatch", &[watch]) => Some(Call::Unwatch(watch)),
        (b"members", &[watch]) if usize::from(watch) < WATCHES => Some(Call::Members(watch)),
        _ => None,
    }
}

/// The last number of a record is the minute.
fn record_of(kind: &[u8], numbers: &[u32]) -> Option<Record> {
    let (&minute, fields) = numbers.split_last()?;
    Some(match (kind, fields_of(fields)?.as_slice()) {
        (b"on", &[radio, east, north]) => Record::SignOn {
            radio,
            east,
            north,
            minute,
        },
        (b"report", &[radio, east, north]) => Record::Report {
            radio,
            east,
            north,
            minute,
        },
        (b"off", &[radio]) => Record::SignOff { radio, minute },
        (b"range", &[west, east, south, north]) => Record::Range {
            west,
            east,
            south,
            north,
            minute,
        },
        _ => return None,
    })
}

/// A number of digits, 0 to 4294967295.
fn number_of(word: &[u8]) -> Option<u32> {
    if !word.iter().all(u8::is_ascii_digit) {
        return None;
    }
    std::str::from_utf8(word).ok()?.parse().ok()
}
