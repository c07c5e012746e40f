//! The C header says the same as this crate.
#![forbid(unsafe_code)]
use boragefile::{
    CutList, Desk, Frame, Line, Parts, Refusal, Slot, Waiting, Watch, CSV_BYTES, CSV_HEADER, DESK_BYTES, ENTRY_BYTES,
    KEPT_MINUTES, LIST_BYTES, PAGES_BYTES, VERSION, WATCHES,
};
use std::mem::{offset_of, size_of};

const HEADER: &str = include_str!("../../../include/boragefile.h");

/// What a macro of the header stands for, without a comment after it.
fn defined(name: &str) -> &'static str {
    let lines = HEADER.lines().filter_map(|line| line.strip_prefix("#define "));
    let value = lines
        .filter_map(|line| line.strip_prefix(name)?.strip_prefix(' '))
        .next();
    let value = value.unwrap_or_else(|| panic!("{name} is defined"));
    value.split("/*").next().unwrap_or(value).trim()
}

#[test]
fn the_version_is_the_same() {
    assert_eq!(defined("BORAGEFILE_VERSION"), format!("\"{VERSION}\""));
    let parts = ["MAJOR", "MINOR", "PATCH"].map(|part| defined(&format!("BORAGEFILE_VERSION_{part}")));
    assert_eq!(parts.join("."), VERSION);
}

#[test]
fn the_sizes_are_the_same() {
    let sizes = [
        ("PAGES", PAGES_BYTES),
        ("DESK", DESK_BYTES),
        ("ENTRY", ENTRY_BYTES),
        ("LIST", LIST_BYTES),
        ("CSV", CSV_BYTES),
    ];
    for (name, size) in sizes {
        assert_eq!(defined(&format!("BORAGEFILE_{name}_BYTES")), size.to_string());
    }
    assert_eq!(defined("BORAGEFILE_KEPT_MINUTES"), KEPT_MINUTES.to_string());
    assert_eq!(defined("BORAGEFILE_WATCHES"), WATCHES.to_string());
    assert_eq!(CSV_BYTES, CSV_HEADER.len() + 512 * (4 + 1 + 5 + 1 + 5 + 1 + 10 + 2));
    assert!(HEADER.contains(&format!("\"{}\"", CSV_HEADER.trim_end())));
}

/// What the header asserts of the desk's layout, each fact as it stands there.
fn asserted() -> Vec<&'static str> {
    let facts = HEADER
        .lines()
        .filter_map(|line| line.strip_prefix("BORAGEFILE_STATIC_ASSERT("));
    facts.filter_map(|fact| fact.split(", \"").next()).collect()
}

#[test]
fn the_layout_is_the_same() {
    let sizes = [
        ("cut_list", size_of::<CutList>()),
        ("frame", size_of::<Frame>()),
        ("parts", size_of::<Parts>()),
        ("slot", size_of::<Slot>()),
        ("waiting", size_of::<Waiting>()),
        ("line", size_of::<Line>()),
        ("watch", size_of::<Watch>()),
        ("answer", 16),
    ];
    for (name, size) in sizes {
        let fact = format!("sizeof(boragefile_{name}) == {size}");
        assert!(asserted().contains(&fact.as_str()), "{fact}");
    }
    let offsets = [
        ("frame, norths", offset_of!(Frame, norths)),
        ("frame, cells", offset_of!(Frame, cells)),
        ("frame, free", offset_of!(Frame, free)),
        ("parts, waiting", offset_of!(Parts, waiting)),
        ("parts, lines", offset_of!(Parts, lines)),
        ("parts, on", offset_of!(Parts, on)),
        ("parts, tally", offset_of!(Parts, tally)),
        ("parts, highest", offset_of!(Parts, highest)),
        ("waiting, easts", offset_of!(Waiting, easts)),
        ("waiting, norths", offset_of!(Waiting, norths)),
        ("waiting, news", offset_of!(Waiting, news)),
        ("waiting, lows", offset_of!(Waiting, lows)),
        ("waiting, highs", offset_of!(Waiting, highs)),
        ("desk, cells", offset_of!(Desk, cells)),
        ("desk, waiting", offset_of!(Desk, waiting)),
        ("desk, memo", offset_of!(Desk, memo)),
        ("desk, on", offset_of!(Desk, on)),
        ("desk, watches", offset_of!(Desk, watches)),
        ("watch, west", offset_of!(Watch, west)),
        ("watch, east", offset_of!(Watch, east)),
        ("watch, south", offset_of!(Watch, south)),
        ("watch, north", offset_of!(Watch, north)),
        ("watch, members", offset_of!(Watch, members)),
        // the answer is no part of the desk: 16 bits three times, and its count of 64
        ("answer, gained", 2),
        ("answer, lost", 4),
        ("answer, count", 8),
    ];
    for (field, offset) in offsets {
        let fact = format!("offsetof(boragefile_{field}) == {offset}");
        assert!(asserted().contains(&fact.as_str()), "{fact}");
    }
    // these and the desk's own size are all
    assert_eq!(asserted().len(), sizes.len() + offsets.len() + 1);
}

/// `AlreadyOn` as `ALREADY_ON`.
fn shouted(name: &str) -> String {
    let mut shouted = String::new();
    for letter in name.chars() {
        if letter.is_uppercase() && !shouted.is_empty() {
            shouted.push('_');
        }
        shouted.push(letter.to_ascii_uppercase());
    }
    shouted
}

#[test]
fn each_number_has_the_same_name_and_words() {
    for refusal in Refusal::ALL {
        let name = format!("BORAGEFILE_{}", shouted(&format!("{refusal:?}")));
        let number = format!("    {name} = {}", refusal.number());
        assert!(
            HEADER.lines().any(|line| line.trim_end_matches(',') == number),
            "{number}"
        );
        let words = format!("    case {name}: return \"{refusal}\";");
        assert!(HEADER.lines().any(|line| line == words), "{words}");
    }
}
