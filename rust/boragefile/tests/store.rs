//! A store through the wrapper: what a desk is as bytes, a list only where one was found, and a store that was saved.
#![forbid(unsafe_code)]
use boragefile::{begin, Desk, Located, Record, Rectangle, Refusal, Store, DESK_BYTES, ENTRY_BYTES, PAGES_BYTES};
use std::mem::offset_of;

const ALL: Record = Record::Range {
    west: 0,
    east: 65535,
    south: 0,
    north: 65535,
    minute: 0,
};

/// A store with these radios on, each at its own place.
fn with_radios(radios: &[u16]) -> Store {
    let mut store = Store::fresh();
    for radio in radios {
        let on = Record::SignOn {
            radio: *radio,
            east: 10 * radio,
            north: 20 * radio,
            minute: 0,
        };
        assert!(store.call(&on.to_bytes(), &mut []).is_accepted());
    }
    store
}

#[test]
fn fresh_desks_are_equal_byte_by_byte_whatever_was_there() {
    let fresh = [0, 0x5a, 0xa5, 0xff].map(|filled| {
        let mut desk = Desk::from_bytes(&[filled; DESK_BYTES]).expect("a desk's bytes");
        assert_eq!(desk.as_bytes(), [filled; DESK_BYTES]);
        assert!(begin(&mut desk, &mut [filled; PAGES_BYTES]).is_accepted());
        desk
    });
    for desk in &fresh {
        assert_eq!(desk.as_bytes(), fresh[0].as_bytes());
    }
}

#[test]
fn number_11_gives_no_list_though_the_buffer_holds_an_older_one() {
    let mut store = with_radios(&[7]);
    let mut buffer = [0; ENTRY_BYTES];
    let found = store.call(&ALL.to_bytes(), &mut buffer).list().expect("a list of one");
    let seven = Located {
        radio: 7,
        east: 70,
        north: 140,
    };
    assert_eq!(found.iter().collect::<Vec<_>>(), [seven]);
    let on = Record::SignOn {
        radio: 8,
        east: 1,
        north: 1,
        minute: 0,
    };
    assert!(store.call(&on.to_bytes(), &mut buffer).is_accepted());
    let answer = store.call(&ALL.to_bytes(), &mut buffer);
    assert_eq!((answer.refusal(), answer.count()), (Some(Refusal::AnswerBuffer), 2));
    assert_eq!(answer.list(), None);
}

#[test]
fn a_saved_store_comes_back() {
    let radios: Vec<u16> = (1..=100).collect();
    let mut store = with_radios(&radios);
    let (desk, pages) = (store.desk().as_bytes().to_vec(), store.pages().to_vec());
    let mut again = Store::restored(&desk, &pages).expect("what was saved is sound");
    assert!(again == store);
    let (mut buffer, mut other) = ([0; 600], [0; 600]);
    let list = store.call(&ALL.to_bytes(), &mut buffer);
    assert_eq!(list.count(), 100);
    assert_eq!(again.call(&ALL.to_bytes(), &mut other), list);
}

#[test]
fn what_is_no_sound_store_does_not_come_back() {
    let store = with_radios(&[7]);
    let (desk, pages) = (store.desk().as_bytes(), store.pages());
    let why = |desk: &[u8], pages: &[u8]| Store::restored(desk, pages).err();
    assert_eq!(why(desk, pages), None);
    assert_eq!(why(&desk[1..], pages), Some(Refusal::Unsound));
    assert_eq!(why(desk, &pages[1..]), Some(Refusal::PageBuffer));
    let mut damaged = pages.to_vec();
    damaged[PAGES_BYTES - 1] = 1;
    assert_eq!(why(desk, &damaged), Some(Refusal::Unsound));
    // in the tally, and in the first and the last slot of the radios on
    let on = offset_of!(Desk, on);
    for at in [offset_of!(Desk, parts.tally) + 1, on, on + 2 * 512 - 1] {
        let mut damaged = desk.to_vec();
        damaged[at] = 1;
        assert_eq!(why(&damaged, pages), Some(Refusal::Unsound));
    }
}

/// A fresh desk as earlier versions had it: 0.4.0 in 14,402 bytes, with no highest minute among the parts and no minutes of the
/// waiting; 0.5.0 in 14,928, with no watches. As it was it is none of ours.
#[test]
fn a_desk_of_the_layouts_before_does_not_come_back() {
    let fresh = Store::fresh();
    let why = |desk: &[u8]| Store::restored(desk, fresh.pages()).err();
    assert_eq!(
        why(&fresh.desk().as_bytes()[..offset_of!(Desk, watches)]),
        Some(Refusal::Unsound)
    );
    let mut numbers = [0u16; DESK_BYTES / 2];
    numbers[32..34].copy_from_slice(&[1, 1]);
    numbers[38..44].copy_from_slice(&[0, 0, 65535, 0, 65535, 0]);
    let desk: Vec<u8> = numbers.into_iter().flat_map(u16::to_ne_bytes).collect();
    for bytes in [14402, DESK_BYTES] {
        assert_eq!(why(&desk[..bytes]), Some(Refusal::Unsound));
    }
}

/// The highest minute and the waiting reports' minutes are saved with the rest.
#[test]
fn minutes_come_back() {
    let mut store = with_radios(&[7]);
    let minute = 4_000_000_000;
    let report = Record::Report {
        radio: 7,
        east: 1,
        north: 2,
        minute,
    };
    assert!(store.call(&report.to_bytes(), &mut []).is_accepted());
    let mut again = Store::restored(store.desk().as_bytes(), store.pages()).expect("what was saved is sound");
    assert_eq!(again.desk().parts.highest, minute);
    assert_eq!(
        again.desk().reports_in_use().map(|report| report.minute).max(),
        Some(minute)
    );
    let early = Record::SignOff {
        radio: 7,
        minute: minute - 1,
    };
    let answer = again.call(&early.to_bytes(), &mut []);
    assert_eq!(answer.refusal(), Some(Refusal::TooEarly));
}

/// Watches and their members are saved with the rest.
#[test]
fn watches_come_back() {
    let mut store = with_radios(&[7, 8, 9]);
    let about_eight = Rectangle {
        west: 80,
        east: 90,
        south: 0,
        north: 65535,
    };
    assert!(store.watch_set(15, about_eight).is_accepted());
    let mut again = Store::restored(store.desk().as_bytes(), store.pages()).expect("what was saved is sound");
    let watch = again.desk().watch(15).expect("it is set");
    assert_eq!(watch.rectangle(), about_eight);
    assert!(watch.members().eq([8]));
    let off = Record::SignOff { radio: 8, minute: 0 };
    let answer = again.call(&off.to_bytes(), &mut []);
    assert!(answer.lost().iter().eq([15]) && answer.gained().is_empty());
}
