//! The whole store as the journals write it.
use crate::json::Json;
use boragefile::{CutList, Slot, Store, NONE, PAGES, PAGE_BYTES, PAGE_ENTRY_BYTES};
use std::collections::BTreeMap;

/// Desk and pages in the journals' form. A journal from before watches does not name these: they are left out where it doesn't.
pub fn whole(store: &Store, wanted: &Json) -> Json {
    let mut members = all(store);
    if wanted.get("watches").is_none() {
        members.remove("watches");
    }
    Json::Object(members)
}

fn all(store: &Store) -> BTreeMap<String, Json> {
    let desk = store.desk();
    let cells = desk.cells_in_use().iter().map(|slot| cell(store, slot)).collect();
    let waiting = desk.reports_in_use().map(|report| {
        let mut row = places(&[report.radio, report.east, report.north]);
        row.extend([Json::Number(report.minute.into()), Json::Bool(report.new == 1)]);
        Json::List(row)
    });
    let memo = desk.lines_in_use().iter().map(|line| {
        let mut row = places(&[line.radio, line.missed]);
        row.push(if line.placed == 1 {
            Json::List(places(&[line.east, line.north]))
        } else {
            Json::Null
        });
        Json::List(row)
    });
    let watches = desk.watches_set().map(|(number, watch)| {
        let area = watch.rectangle();
        let members: Vec<u16> = watch.members().collect();
        Json::List(vec![
            Json::Number(number.into()),
            Json::List(places(&[area.west, area.east, area.south, area.north])),
            Json::List(places(&members)),
        ])
    });
    named([
        ("east_cuts", cuts(&desk.parts.frame.easts)),
        ("north_cuts", cuts(&desk.parts.frame.norths)),
        ("cells", Json::List(cells)),
        ("free", Json::List(places(&chain(store, desk.parts.frame.free)))),
        ("waiting", Json::List(waiting.collect())),
        ("memo", Json::List(memo.collect())),
        ("on", Json::List(places(desk.radios_on()))),
        ("tally", Json::Number(desk.parts.tally.into())),
        ("highest", Json::Number(desk.parts.highest.into())),
        ("watches", Json::List(watches.collect())),
    ])
}

/// The first difference between what is and what is wanted, named by its place in the value.
pub fn difference(name: &str, is: &Json, wanted: &Json) -> Option<String> {
    match (is, wanted) {
        (Json::Object(members), Json::Object(others)) => {
            let names = members
                .keys()
                .chain(others.keys().filter(|other| !members.contains_key(*other)));
            names.into_iter().find_map(|key| {
                let (a, b) = (
                    members.get(key).unwrap_or(&Json::Null),
                    others.get(key).unwrap_or(&Json::Null),
                );
                difference(&format!("{name}.{key}"), a, b)
            })
        }
        (Json::List(items), Json::List(others)) => {
            let pairs = items.iter().zip(others).enumerate();
            let inside = pairs
                .into_iter()
                .find_map(|(i, (a, b))| difference(&format!("{name}[{i}]"), a, b));
            let (a, b) = (items.len(), others.len());
            inside.or_else(|| (a != b).then(|| format!("{name} has {a} items, not {b}")))
        }
        _ => (is != wanted).then(|| format!("{name} is {is}, not {wanted}")),
    }
}

fn named<const N: usize>(members: [(&str, Json); N]) -> BTreeMap<String, Json> {
    BTreeMap::from(members.map(|(name, value)| (name.to_string(), value)))
}

fn places(fields: &[u16]) -> Vec<Json> {
    fields.iter().map(|field| Json::Number((*field).into())).collect()
}

fn cuts(list: &CutList) -> Json {
    Json::List(places(list.in_use()))
}

fn cell(store: &Store, slot: &Slot) -> Json {
    let pages = chain(store, slot.first);
    let entries = pages.iter().flat_map(|page| entries(page_of(store, *page)));
    Json::Object(named([
        ("number", Json::Number(slot.number.into())),
        (
            "edges",
            Json::List(places(&[slot.west, slot.east, slot.south, slot.north])),
        ),
        ("entries", Json::List(entries.collect())),
        ("chain", Json::List(places(&pages))),
    ]))
}

/// The pages of a chain from its front, by next page. It stops after as many pages as there are.
fn chain(store: &Store, front: u16) -> Vec<u16> {
    let mut pages = Vec::new();
    let mut page = front;
    while page != NONE && usize::from(page) < PAGES && pages.len() < PAGES {
        pages.push(page);
        page = field(page_of(store, page), 2);
    }
    pages
}

fn page_of(store: &Store, page: u16) -> &[u8] {
    &store.pages()[usize::from(page) * PAGE_BYTES..][..PAGE_BYTES]
}

fn field(bytes: &[u8], at: usize) -> u16 {
    u16::from_le_bytes([bytes[2 * at], bytes[2 * at + 1]])
}

/// The entries of a page, each as radio, east, north and minute.
fn entries(page: &[u8]) -> impl Iterator<Item = Json> + '_ {
    let used = usize::from(field(page, 0)).clamp(8, PAGE_BYTES);
    page[8..used].chunks_exact(PAGE_ENTRY_BYTES).map(|entry| {
        let mut row = places(&[field(entry, 0), field(entry, 1), field(entry, 2)]);
        row.push(Json::Number(minute(entry).into()));
        Json::List(row)
    })
}

fn minute(entry: &[u8]) -> u32 {
    u32::from(field(entry, 3)) | u32::from(field(entry, 4)) << 16
}
