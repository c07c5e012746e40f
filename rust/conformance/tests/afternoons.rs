//! Two afternoons on which a desk of this design could go wrong.
#![forbid(unsafe_code)]
use boragefile::Record;
use conformance::Both;

fn on(both: &mut Both, radio: u16, east: u16, north: u16) {
    let minute = both.clock();
    let record = Record::SignOn {
        radio,
        east,
        north,
        minute,
    };
    assert_eq!(both.record(record).number, 0);
}

fn report(both: &mut Both, radio: u16, east: u16, north: u16) {
    let minute = both.clock();
    let record = Record::Report {
        radio,
        east,
        north,
        minute,
    };
    assert_eq!(both.record(record).number, 0);
}

fn off(both: &mut Both, radio: u16) {
    let minute = both.clock();
    assert_eq!(both.record(Record::SignOff { radio, minute }).number, 0);
}

/// How many are from this east up to that one. `Both` compares the list itself.
fn between(both: &mut Both, west: u16, east: u16) -> u64 {
    let minute = both.clock();
    both.record(Record::Range {
        west,
        east,
        south: 0,
        north: 65535,
        minute,
    })
    .count
}

/// Forty radios from west to east, a kilometre apart, and a cut between the two halves.
fn two_cells() -> (Both, u16) {
    let mut both = Both::fresh();
    for radio in 1..=40 {
        on(&mut both, radio, 1000 * radio, 100);
    }
    let frame = &both.store.desk().parts.frame;
    assert_eq!((frame.cells, frame.easts.n), (2, 1));
    let cut = frame.easts.at[0];
    assert_eq!(cut, 21000);
    (both, cut)
}

#[test]
fn nine_radios_over_the_ridge_and_back() {
    let (mut both, ridge) = two_cells();
    let team = 101..=109;
    for radio in team.clone() {
        on(&mut both, radio, 15000, 20000 + radio);
    }
    let mut most_lines = 0;
    for afternoon in 0..20 {
        // A step of 1.5 km at a time: over the ridge, then back to where they began.
        for step in 1..=16 {
            for radio in team.clone() {
                let away = 1500 * if step <= 8 { step } else { 16 - step };
                report(&mut both, radio, 15000 + away, 20000 + radio + afternoon);
                let (low, high) = (between(&mut both, 0, ridge), between(&mut both, ridge, 65535));
                assert_eq!(low + high, 49, "each radio stands on one side of the ridge");
                most_lines = most_lines.max(both.store.desk().parts.lines);
            }
            let over = 15000 + 1500 * if step <= 8 { step } else { 16 - step } >= ridge;
            assert_eq!(between(&mut both, ridge, 65535), 20 + if over { 9 } else { 0 });
        }
    }
    assert!(most_lines > 0, "the crossing leaves stale entries behind");
    // Nobody crosses any more: the rounds sweep what was left behind.
    for _ in 0..200 {
        report(&mut both, 1, 1000, 100);
    }
    assert_eq!(both.store.desk().parts.lines, 0);
    assert_eq!(
        (between(&mut both, 0, ridge), between(&mut both, ridge, 65535)),
        (29, 20)
    );
}

/// Where the radio of the second afternoon comes on again.
#[derive(Clone, Copy, Debug)]
enum Again {
    West,
    East,
    SamePlace,
}

/// Two cells fall quiet. Radio `who` signs off and on between the reports that make the western one flush and join.
/// `gap` other reports come between its sign-off and its sign-on.
fn join_around(who: u16, again: Again, when: u16, gap: u16) {
    let (mut both, _) = two_cells();
    for radio in (1..=12).chain(21..=32) {
        off(&mut both, radio);
    }
    // Reports of one radio fill no memory cell: they only bring the round to both cells.
    for _ in 0..32 {
        report(&mut both, 40, 40000, 100);
    }
    assert_eq!(both.store.desk().parts.frame.cells, 2);
    let before = both.plain.place(who).expect("who is on");
    let mut joined = false;
    for i in 0..24 {
        if i == when {
            off(&mut both, who);
        }
        if i == when + gap {
            let (east, north) = match again {
                Again::West => (5000, 300),
                Again::East => (45000, 300),
                Again::SamePlace => before,
            };
            on(&mut both, who, east, north);
        }
        let radio = 13 + i % 8;
        if both.plain.place(radio).is_some() {
            report(&mut both, radio, 1000 * radio + i, 100);
        }
        let everyone = between(&mut both, 0, 65535);
        assert_eq!(everyone, both.plain.on() as u64);
        joined |= both.store.desk().parts.frame.cells == 1;
    }
    assert!(
        joined,
        "radio {who}, {again:?}, off at {when}, on {gap} later: the cells are joined"
    );
    for i in 0..64 {
        report(&mut both, 40, 40000, i);
        assert_eq!(between(&mut both, 0, 65535), 16);
    }
    assert_eq!(both.store.desk().parts.lines, 0, "nothing stale is left");
}

#[test]
fn a_radio_that_signs_off_and_on_while_two_quiet_cells_are_joined() {
    for who in [14, 33] {
        for again in [Again::West, Again::East, Again::SamePlace] {
            for when in 0..10 {
                for gap in 0..10 {
                    join_around(who, again, when, gap);
                }
            }
        }
    }
}
