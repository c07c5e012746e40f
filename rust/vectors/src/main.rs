//! Replays journals on the compiled desk: JSON lines that say what each call must answer and leave.
//!
//! `replay FILE...` ends with 0 only if every call of every file agrees in number, count, answer bytes, pages and, where they
//! are given, the watches that gained or lost a radio and the whole store. It says the first difference of each file. A line
//! is a record, or names another `call`. It may lend other pages than the store's, for its call only: of another length
//! (`page_bytes`), or with other bytes in them (`damage`). A call that reads a file does not test these, and where it makes a store, the
//! run goes on with that.
#![forbid(unsafe_code)]
mod call;
mod json;
mod sha256;
mod whole;

use boragefile::{Answer, Refusal, Store};
use call::Call;
use json::Json;
use std::process::ExitCode;

/// What stands in every byte of the answer buffer before a call.
const UNTOUCHED: u8 = 0xa5;

fn main() -> ExitCode {
    let files: Vec<String> = std::env::args().skip(1).collect();
    if files.is_empty() {
        eprintln!("usage: replay FILE...");
        return ExitCode::from(2);
    }
    let mut agreed = true;
    for file in &files {
        match replay_file(file) {
            Ok((calls, stores)) => println!("{file}: {calls} calls and {stores} whole stores agree"),
            Err(difference) => {
                agreed = false;
                println!("{file}: {difference}");
            }
        }
    }
    if agreed {
        ExitCode::SUCCESS
    } else {
        ExitCode::FAILURE
    }
}

/// Replays one file from a fresh store. Answers how many calls, and how many whole stores, agreed.
fn replay_file(file: &str) -> Result<(usize, usize), String> {
    let text = std::fs::read_to_string(file).map_err(|error| error.to_string())?;
    let mut store = Store::fresh();
    let (mut calls, mut stores) = (0, 0);
    for (i, line) in text.lines().enumerate() {
        let wanted = Json::read(line).map_err(|error| format!("line {}: {error}", i + 1))?;
        replay_call(&mut store, &wanted).map_err(|difference| format!("line {}: {difference}", i + 1))?;
        calls += 1;
        stores += usize::from(wanted.get("store").is_some());
    }
    if calls == 0 {
        return Err("no call".to_string());
    }
    Ok((calls, stores))
}

/// Makes one call and compares it with what the line says.
fn replay_call(store: &mut Store, wanted: &Json) -> Result<(), String> {
    let call = Call::of(wanted)?;
    let mut buffer = vec![UNTOUCHED; call.room()];
    let mut strange = strange_pages(store.pages(), wanted)?;
    let before = store.clone();
    let (desk, own) = store.parts_mut();
    let answer = call.hand_to(desk, strange.as_deref_mut().unwrap_or(own), &mut buffer);
    compare_numbers(&answer, wanted)?;
    let refusal = answer.refusal();
    if refusal.is_none() && call.makes_a_store() {
        if let Some(made) = &strange {
            own.copy_from_slice(made);
        }
    } else if strange.is_some() && !is_turned_down(&call, refusal) {
        return Err("a call that is lent strange pages is turned down with 1 or 2".to_string());
    }
    if refusal.is_some() && before != *store {
        return Err("a call that is turned down changes the store".to_string());
    }
    compare_buffer(&buffer, call.written())?;
    let digest = sha256::hex_digest(strange.as_deref().unwrap_or(store.pages()));
    let pages = text(wanted, "pages")?;
    if digest != pages {
        return Err(format!("the pages' sha256 is {digest}, not {pages}"));
    }
    match wanted.get("store") {
        Some(given) => whole::difference("store", &whole::whole(store, given), given).map_or(Ok(()), Err),
        None => Ok(()),
    }
}

/// With strange pages: under 1 or 2; but a call that makes a store does not test 2, and may be turned down for what it is handed.
fn is_turned_down(call: &Call, refusal: Option<Refusal>) -> bool {
    match refusal {
        Some(Refusal::PageBuffer) => true,
        Some(Refusal::Unsound) => !call.makes_a_store(),
        other => call.makes_a_store() && other.is_some(),
    }
}

/// Number and count; and the watches that gained, and that lost, the radio. A journal from before watches does not name these.
fn compare_numbers(answer: &Answer, wanted: &Json) -> Result<(), String> {
    equal("number", answer.number().into(), number(wanted, "number")?)?;
    equal("count", answer.count(), number(wanted, "count")?)?;
    for (name, watches) in [("gained", answer.gained()), ("lost", answer.lost())] {
        if wanted.get(name).is_some() {
            equal(name, watches.bits().into(), number(wanted, name)?)?;
        }
    }
    Ok(())
}

/// The list or file stands at the buffer's start, and nothing else is written there.
fn compare_buffer(buffer: &[u8], written: &[u8]) -> Result<(), String> {
    if !buffer.starts_with(written) {
        return Err(format!("the answer's bytes are not {written:?}"));
    }
    if buffer[written.len()..].iter().any(|byte| *byte != UNTOUCHED) {
        return Err("the answer buffer is written past the answer".to_string());
    }
    Ok(())
}

/// The pages that the line lends in place of the store's: a copy of these, cut off or with zeros behind them (`page_bytes`),
/// and with other bytes written into it (`damage`). The store's own stay as they are, for the next call.
fn strange_pages(pages: &[u8], line: &Json) -> Result<Option<Vec<u8>>, String> {
    let (length, damage) = (line.get("page_bytes"), line.get("damage"));
    if length.is_none() && damage.is_none() {
        return Ok(None);
    }
    let mut strange = pages.to_vec();
    if length.is_some() {
        strange.resize(size(number(line, "page_bytes")?)?, 0);
    }
    if let Some(damage) = damage {
        let pairs = damage.list().ok_or("no list \"damage\"")?;
        for pair in pairs {
            let [at, byte] = pair.list().unwrap_or_default() else {
                return Err("\"damage\" is no list of pairs".to_string());
            };
            let place = at
                .number()
                .and_then(|at| usize::try_from(at).ok())
                .and_then(|at| strange.get_mut(at))
                .ok_or("\"damage\" is outside the pages")?;
            *place = byte
                .number()
                .and_then(|byte| u8::try_from(byte).ok())
                .ok_or("\"damage\" writes no byte")?;
        }
    }
    Ok(Some(strange))
}

fn size(number: u64) -> Result<usize, String> {
    usize::try_from(number).map_err(|error| error.to_string())
}

fn equal(name: &str, is: u64, wanted: u64) -> Result<(), String> {
    if is == wanted {
        Ok(())
    } else {
        Err(format!("{name} is {is}, not {wanted}"))
    }
}

fn text<'a>(line: &'a Json, name: &str) -> Result<&'a str, String> {
    line.get(name)
        .and_then(Json::text)
        .ok_or_else(|| format!("no text \"{name}\""))
}

fn number(line: &Json, name: &str) -> Result<u64, String> {
    line.get(name)
        .and_then(Json::number)
        .ok_or_else(|| format!("no number \"{name}\""))
}
