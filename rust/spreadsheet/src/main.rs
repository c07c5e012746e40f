//! Spreadsheets out of journals, and journals out of spreadsheets, over the compiled desk.
//!
//! `spreadsheet out JOURNAL` plays a journal, records one after the other, from a fresh store and prints the file of all radios on.
//! `spreadsheet in FILE` reads such a file and prints a journal of its sign-ons, in the order in which its lines are taken. What the
//! desk turns down is said with its number, in words.
#![forbid(unsafe_code)]
use boragefile::{Record, Refusal, Store, CSV_BYTES, CSV_HEADER, LIST_BYTES};
use std::io::{self, Write};
use std::process::ExitCode;

fn main() -> ExitCode {
    let arguments: Vec<String> = std::env::args().skip(1).collect();
    let [way, name] = &arguments[..] else {
        return usage();
    };
    let made = match way.as_str() {
        "out" => read(name).and_then(|journal| file_of(&played(&journal)?)),
        "in" => read(name).and_then(|file| journal_of(&file)),
        _ => return usage(),
    };
    let written = made.and_then(|bytes| {
        let mut out = io::stdout().lock();
        let written = out.write_all(&bytes).and_then(|()| out.flush());
        written.map_err(|error| error.to_string())
    });
    match written {
        Ok(()) => ExitCode::SUCCESS,
        Err(why) => {
            eprintln!("spreadsheet: {name}: {why}");
            ExitCode::FAILURE
        }
    }
}

fn usage() -> ExitCode {
    eprintln!("usage: spreadsheet out JOURNAL | spreadsheet in FILE");
    ExitCode::from(2)
}

fn read(name: &str) -> Result<Vec<u8>, String> {
    std::fs::read(name).map_err(|error| error.to_string())
}

/// The store that a journal leaves. A record that is turned down changes nothing, and is told; where number 3 comes, nothing says where the next
/// record begins.
fn played(journal: &[u8]) -> Result<Store, String> {
    let mut store = Store::fresh();
    let mut buffer = [0; LIST_BYTES];
    let (mut at, mut record) = (0, 1);
    while at < journal.len() {
        let answer = store.call(&journal[at..], &mut buffer);
        if let Some(refusal) = answer.refusal() {
            let said = format!("record {record}: {}", refused(refusal));
            if refusal == Refusal::Length {
                return Err(said);
            }
            eprintln!("spreadsheet: {said}");
        }
        at += usize::from(u16::from_le_bytes([journal[at], journal[at + 1]]));
        record += 1;
    }
    Ok(store)
}

/// All radios on, as a file.
fn file_of(store: &Store) -> Result<Vec<u8>, String> {
    let mut buffer = vec![0; CSV_BYTES];
    let answer = store.csv_write(&mut buffer);
    let file = answer.file().map(<[u8]>::to_vec);
    file.ok_or_else(|| answer.refusal().map_or_else(String::new, refused))
}

/// The sign-ons of a file. The desk reads it, so that each line is checked; then it writes what it read, with no radio twice, so that minute and
/// radio give the order in which the lines were taken.
fn journal_of(file: &[u8]) -> Result<Vec<u8>, String> {
    let mut store = Store::fresh();
    let answer = store.csv_read(file);
    if let Some(refusal) = answer.refusal() {
        let line = answer.line().map(|line| format!("line {line}: "));
        return Err(line.unwrap_or_default() + &refused(refusal));
    }
    let written = String::from_utf8(file_of(&store)?).map_err(|error| error.to_string())?;
    let mut rows: Vec<[u32; 4]> = written[CSV_HEADER.len()..].lines().filter_map(row_of).collect();
    rows.sort_by_key(|[radio, _, _, minute]| (*minute, *radio));
    Ok(rows.into_iter().flat_map(sign_on).collect())
}

/// Radio, east, north and minute of a line that the desk wrote.
fn row_of(line: &str) -> Option<[u32; 4]> {
    let numbers: Option<Vec<u32>> = line.split(',').map(|field| field.parse().ok()).collect();
    numbers?.try_into().ok()
}

fn sign_on([radio, east, north, minute]: [u32; 4]) -> Vec<u8> {
    let [radio, east, north] = [radio, east, north].map(|field| field as u16);
    Record::SignOn {
        radio,
        east,
        north,
        minute,
    }
    .to_bytes()
}

fn refused(refusal: Refusal) -> String {
    format!("refused {}: {refusal}", refusal.number())
}

#[cfg(test)]
mod tests {
    use super::*;

    #[test]
    fn a_file_becomes_a_journal_in_the_order_taken_and_comes_back() {
        let file = b"\"radio\",east,north,minute\r\n7,100,0200,9\r\n\"9\",1,0,8\r\n8,1,0,8";
        let journal = journal_of(file).expect("a good file");
        let rows = [[8, 1, 0, 8], [9, 1, 0, 8], [7, 100, 200, 9]];
        assert_eq!(journal, rows.into_iter().flat_map(sign_on).collect::<Vec<u8>>());
        let written = file_of(&played(&journal).expect("a good journal")).expect("a file");
        assert_eq!(
            written,
            b"radio,east,north,minute\r\n7,100,200,9\r\n8,1,0,8\r\n9,1,0,8\r\n"
        );
    }

    #[test]
    fn a_bad_file_is_told_with_number_and_line() {
        for (lines, said) in [
            ("7,100,200,9\r\n8,1,0\r\n", "line 3: refused 15: a line"),
            ("7,100,200,9\r\n8,0,0,0\r\n", "line 3: refused 12: a sign-on"),
            ("7,100,200,9\r\n7,1,1,8\r\n", "line 2: refused 8: a sign-on"),
        ] {
            let told = journal_of((CSV_HEADER.to_string() + lines).as_bytes()).expect_err(lines);
            assert!(told.starts_with(said), "{told}");
        }
    }

    #[test]
    fn a_journal_that_is_cut_short_is_told() {
        let journal = sign_on([7, 1, 1, 1]);
        assert!(file_of(&played(&journal).expect("a good journal")).is_ok());
        let told = played(&[&journal[..], &journal[..13]].concat())
            .err()
            .expect("cut short");
        assert!(told.starts_with("record 2: refused 3: "), "{told}");
    }
}
