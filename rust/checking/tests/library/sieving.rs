//! Sieving twice (document 02, N2): filtering by two lengths, in either order, is one filtering by the
//! larger. That one comes from the papers, or from the methods that share no code with the library.
use checking::cases::{case, rounds, small_case, small_length};
use checking::plate::{CLOSING, EAST, OPENING};
use checking::random::{plate, Kind, Random, KINDS};
use checking::{engine, listing, queue, Plate, Setting};
use std::collections::BTreeMap;

/// Filters by both lengths in both orders.
fn sieve(plate: &Plate, setting: Setting, other: usize, by_larger: &Plate, case: &str) {
    let by_other = Setting { length: other, ..setting };
    for (first, second) in [(setting, by_other), (by_other, setting)] {
        let once = engine::filter(plate, first).expect("accepted");
        let twice = engine::filter(&once, second).expect("accepted");
        assert!(twice == *by_larger, "{case}: by {}, then {}", first.length, second.length);
    }
}

/// The worked rows to the east: by K alone, which is the listing's where the papers do not give it, and by
/// both.
#[test]
fn worked_sieves() {
    let q: &[i16] = &[9, 5, 12, 8];
    let z: &[i16] = &[3, 9, 9, 2, 9, 9, 9, 1];
    let (low, high) = ([i16::MIN; 4], [i16::MAX; 4]);
    type Worked<'a> = (&'a [i16], usize, [usize; 3], Option<&'a [i16]>, &'a [i16]);
    let worked: [Worked; 5] = [
        (q, OPENING, [2, 4, 1], Some(q), &[8, 5, 8, 8]),
        (q, CLOSING, [2, 4, 1], None, &[9, 9, 12, 9]),
        (z, OPENING, [2, 3, 0], Some(z), &[3, 3, 3, 2, 9, 9, 9, 1]),
        (q, OPENING, [3, 5, 1], Some(&[9, 5, 9, 8]), &low),
        (q, CLOSING, [3, 5, 1], Some(&[9, 8, 12, 8]), &high),
    ];
    for (levels, mode, [short, long, gaps], by_short, by_both) in worked {
        let row = |levels: &[i16]| Plate::new(levels.len(), 1, levels.to_vec()).unwrap();
        let setting = Setting::new(short, gaps, EAST, mode);
        let case = format!("{levels:?} {setting:?} and {long}");
        let listed = || listing::filter(&row(levels), setting);
        let by_short = by_short.map_or_else(listed, row);
        assert_eq!(engine::filter(&row(levels), setting), Ok(by_short), "{case}");
        let by_long = Setting { length: long, ..setting };
        assert_eq!(engine::filter(&row(levels), by_long), Ok(row(by_both)), "{case}");
        sieve(&row(levels), setting, long, &row(by_both), &case);
    }
}

/// Lowers the gaps below both lengths; then the setting of the larger one.
fn below_both(setting: &mut Setting, other: usize) -> Setting {
    setting.gaps = setting.gaps.min(other - 1);
    Setting { length: setting.length.max(other), ..*setting }
}

#[test]
fn small_plates_sieved_twice() {
    let mut random = Random(40);
    let plates = rounds(3_000, 100_000);
    let mut seen = BTreeMap::new();
    for round in 0..plates {
        let (plate, mut setting) = small_case(&mut random);
        let (width, height) = (plate.width(), plate.height());
        let other = small_length(&mut random, width, height);
        let larger = below_both(&mut setting, other);
        let case = format!("round {round}: {plate:?} {setting:?} and {other}");
        sieve(&plate, setting, other, &listing::filter(&plate, larger), &case);
        let span = setting.chosen().map(|d| d.span(width, height)).max().unwrap();
        let too_long = [setting.length, other].into_iter().filter(|&length| length > span).count();
        *seen.entry((setting.mode, too_long)).or_insert(0) += 1;
    }
    // in both modes: paths of both lengths, of the smaller alone, and of none
    assert_eq!(seen.len(), 6, "{seen:?}");
    println!("{plates} plates sieved twice, by mode and lengths without a path: {seen:?}");
}

#[test]
fn larger_plates_sieved_twice() {
    let mut random = Random(41);
    for round in 0..rounds(40, 1_000) {
        let kind = random.pick(&KINDS);
        let (width, height) = (random.within(1, 90), random.within(1, 90));
        let (plate, mut setting) = case(&mut random, kind, width, height);
        setting.mode = round % 2;
        let other = random.within(1, 60);
        let larger = below_both(&mut setting, other);
        let case = format!("round {round}: {width} × {height} {setting:?} and {other}");
        sieve(&plate, setting, other, &queue::filter(&plate, larger), &case);
    }
    for mode in [OPENING, CLOSING] {
        let wall = plate(&mut random, Kind::Wall, 256, 256);
        let larger = Setting::new(90, 2, 15, mode);
        sieve(&wall, larger, 30, &queue::filter(&wall, larger), "a whole wall");
    }
}
