//! Controllers cut the map into squares and add up the counts: a party on a shared line counts once.
#![forbid(unsafe_code)]
use boragefile::{CutList, Record, ENTRY_BYTES};
use conformance::{Both, Xorshift};

const LAST_METRE: u16 = 65535;
const STORES: u64 = 60;
const RECORDS: usize = 1500;
/// A grid is laid over the map once in so many records.
const GRID_EVERY: usize = 50;

/// The radios in this square, by rising number. `Both` compares the desk's list with the plain one.
fn found(both: &mut Both, easts: [u16; 2], norths: [u16; 2]) -> Vec<u16> {
    let ([west, east], [south, north]) = (easts, norths);
    let minute = both.clock();
    let told = both.record(Record::Range {
        west,
        east,
        south,
        north,
        minute,
    });
    assert_eq!(told.number, 0);
    let radio = |entry: &[u8]| u16::from_le_bytes([entry[0], entry[1]]);
    told.list.chunks_exact(ENTRY_BYTES).map(radio).collect()
}

fn sign_on(both: &mut Both, radio: u16, (east, north): (u16, u16)) {
    let minute = both.clock();
    let on = Record::SignOn {
        radio,
        east,
        north,
        minute,
    };
    assert_eq!(both.record(on).number, 0);
}

/// The stripes between these cuts, over the whole side of the map.
fn stripes(mut cuts: Vec<u16>) -> Vec<[u16; 2]> {
    cuts.extend([0, LAST_METRE]);
    cuts.sort_unstable();
    cuts.windows(2).map(|pair| [pair[0], pair[1]]).collect()
}

/// The counts of all squares, added up.
fn added_up(both: &mut Both, easts: &[[u16; 2]], norths: &[[u16; 2]]) -> usize {
    let squares = easts
        .iter()
        .flat_map(|east| norths.iter().map(move |north| (*east, *north)));
    squares.map(|(east, north)| found(both, east, north).len()).sum()
}

/// Cuts below the last metre: anywhere, at the border, through a radio or beside it, or where cells meet. The same cut may
/// come twice: nobody is between the two.
fn cuts(random: &mut Xorshift, through: &[u16], meet: &CutList) -> Vec<u16> {
    let mut cut = || {
        let radio = if through.is_empty() { 5 } else { random.pick(through) };
        let cut = match random.below(6) {
            0 => random.pick(&[0, 1, LAST_METRE - 1]),
            1 => random.coordinate(),
            2 if meet.n > 0 => random.pick(meet.in_use()),
            3 => random.near(radio, 1),
            _ => radio,
        };
        cut.min(LAST_METRE - 1)
    };
    (0..7).map(|_| cut()).collect()
}

/// A coordinate where lines are likely to be: few for many radios, and the borders.
fn coordinate(random: &mut Xorshift) -> u16 {
    match random.below(4) {
        0 => random.pick(&[0, 1, LAST_METRE - 1, LAST_METRE]),
        1 => random.coordinate(),
        _ => 4000 * random.within(0, 16),
    }
}

/// The nearest place that a fix can be: (0,0) is none.
fn fix(east: u16, north: u16) -> (u16, u16) {
    if (east, north) == (0, 0) {
        (0, 1)
    } else {
        (east, north)
    }
}

#[test]
fn squares_at_random_cuts_add_up_to_the_radios_on() {
    let mut most_cells = 0;
    for seed in 1..=STORES {
        let mut random = Xorshift::new(seed);
        let mut both = Both::fresh();
        // From a handful of radios, most of them waiting, to many cells.
        let radios = 1 + 8 * seed as u16;
        for i in 1..=RECORDS {
            let radio = random.within(1, radios);
            let (east, north) = fix(coordinate(&mut random), coordinate(&mut random));
            let minute = both.clock();
            let record = match (both.plain.place(radio), random.once_in(9)) {
                (None, _) => Record::SignOn {
                    radio,
                    east,
                    north,
                    minute,
                },
                (Some(_), true) => Record::SignOff { radio, minute },
                (Some(_), false) => Record::Report {
                    radio,
                    east,
                    north,
                    minute,
                },
            };
            assert_eq!(both.record(record).number, 0);
            if i % GRID_EVERY == 0 {
                let (easts, norths): (Vec<u16>, Vec<u16>) = both.plain.latest().map(|(_, fix)| fix.place).unzip();
                let frame = &both.store.desk().parts.frame;
                let easts = stripes(cuts(&mut random, &easts, &frame.easts));
                let norths = stripes(cuts(&mut random, &norths, &frame.norths));
                let sum = added_up(&mut both, &easts, &norths);
                assert_eq!(
                    sum,
                    both.plain.on(),
                    "store {seed}, record {i}: {easts:?} by {norths:?}"
                );
            }
        }
        most_cells = most_cells.max(both.store.desk().parts.frame.cells);
    }
    assert!(most_cells > 15, "some of the stores have many cells: {most_cells}");
}

/// Coordinates on and beside each line of a map that is cut at 1,000 and 40,000, and the stripe that each is in.
const LINES: [(u16, usize); 11] = [
    (0, 0),
    (1, 0),
    (999, 0),
    (1000, 1),
    (1001, 1),
    (39999, 1),
    (40000, 2),
    (40001, 2),
    (65533, 2),
    (65534, 2),
    (65535, 2),
];

#[test]
fn a_party_on_each_kind_of_line_is_in_one_square() {
    let mut both = Both::fresh();
    let squares = [[0, 1000], [1000, 40000], [40000, LAST_METRE]];
    let mut parties: [[Vec<u16>; 3]; 3] = Default::default();
    // Along the lines, at each corner of squares and of the map: after each sign-on, so that each was waiting and was stored.
    for (i, (east, east_stripe)) in LINES.into_iter().enumerate() {
        for (j, (north, north_stripe)) in LINES.into_iter().enumerate() {
            let radio = (1 + LINES.len() * i + j) as u16;
            sign_on(&mut both, radio, fix(east, north));
            parties[east_stripe][north_stripe].push(radio);
            for (e, column) in parties.iter().enumerate() {
                for (n, square) in column.iter().enumerate() {
                    assert_eq!(found(&mut both, squares[e], squares[n]), *square);
                }
            }
        }
    }
    let parts = &both.store.desk().parts;
    assert!(parts.frame.cells > 1 && parts.waiting > 0);
}

#[test]
fn the_ends_of_the_map() {
    let mut both = Both::fresh();
    let ends = [0, LAST_METRE - 1, LAST_METRE];
    // Radios 1 to 9 from the south-west, along each column, the first a metre north of the corner; then eight more in the
    // middle, so that they are stored.
    for (i, east) in ends.into_iter().enumerate() {
        for (j, north) in ends.into_iter().enumerate() {
            let radio = (1 + 3 * i + j) as u16;
            sign_on(&mut both, radio, fix(east, north));
        }
    }
    let whole = [0, LAST_METRE];
    for radio in 10..=20 {
        assert_eq!(found(&mut both, [0, 0], whole), []);
        assert_eq!(found(&mut both, [0, 1], whole), [1, 2, 3]);
        assert_eq!(found(&mut both, [LAST_METRE - 1, LAST_METRE - 1], whole), []);
        assert_eq!(
            found(&mut both, [LAST_METRE - 1, LAST_METRE], whole),
            [4, 5, 6, 7, 8, 9]
        );
        assert_eq!(found(&mut both, [LAST_METRE, LAST_METRE], whole), [7, 8, 9]);
        assert_eq!(found(&mut both, whole, [0, 0]), []);
        assert_eq!(found(&mut both, whole, [0, 1]), [4, 7]);
        assert_eq!(found(&mut both, whole, [0, 2]), [1, 4, 7]);
        assert_eq!(found(&mut both, whole, [LAST_METRE - 1, LAST_METRE - 1]), []);
        assert_eq!(
            found(&mut both, whole, [LAST_METRE - 1, LAST_METRE]),
            [2, 3, 5, 6, 8, 9]
        );
        assert_eq!(found(&mut both, whole, [LAST_METRE, LAST_METRE]), [3, 6, 9]);
        assert_eq!(
            found(&mut both, [LAST_METRE, LAST_METRE], [LAST_METRE, LAST_METRE]),
            [9]
        );
        assert_eq!(found(&mut both, [0, LAST_METRE - 1], [0, LAST_METRE - 1])[0], 1);
        sign_on(&mut both, radio, (30000, 30000));
    }
}

/// The one cut that a controller should leave alone: the square before it takes in the last line, and so does the one behind.
#[test]
fn at_a_cut_of_65535_both_squares_take_in_the_last_line() {
    let mut both = Both::fresh();
    sign_on(&mut both, 1, (LAST_METRE, 7));
    let easts = stripes(vec![LAST_METRE]);
    assert_eq!(added_up(&mut both, &easts, &stripes(vec![])), 2);
    let easts = stripes(vec![LAST_METRE - 1]);
    assert_eq!(added_up(&mut both, &easts, &stripes(vec![])), 1);
}
