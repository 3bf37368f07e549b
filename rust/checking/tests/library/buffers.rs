//! The lengths of lent buffers.
use crate::calls::{between_call, correct_call, filter_call};
use crate::traces::trace_call;
use checking::cases::{rounds, small_case};
use checking::engine::numbers;
use checking::plate::{bad_size, OPENING};
use checking::random::Random;
use checking::table::{self, Between, Lengths};
use checking::{listing, Setting};
use diilvak::raw;
use std::collections::BTreeMap;

/// Every buffer one too short, right, and one too long, all else being right.
#[test]
fn lengths_of_buffers() {
    let mut random = Random(14);
    let (width, height) = (3, 2);
    let setting = Setting::new(2, 1, 15, OPENING);
    let right = Lengths { plate: 6, result: 6, work: 48 };
    let mut filter = |lengths| filter_call(&mut random, (width, height), setting, lengths);
    assert_eq!(filter(right), 0);
    assert_eq!(filter(Lengths { plate: 5, ..right }), 6);
    assert_eq!(filter(Lengths { plate: 7, ..right }), 6);
    assert_eq!(filter(Lengths { result: 5, ..right }), 7);
    assert_eq!(filter(Lengths { result: 7, ..right }), 7);
    assert_eq!(filter(Lengths { work: 47, ..right }), 8);
    assert_eq!(filter(Lengths { work: 49, ..right }), 0);
    let right = Lengths { result: 2, ..right };
    let mut trace = |lengths| trace_call(&mut random, (width, height), setting, 3, lengths);
    assert_eq!(trace(right), 0);
    assert_eq!(trace(Lengths { plate: 5, ..right }), 6);
    assert_eq!(trace(Lengths { plate: 7, ..right }), 6);
    assert_eq!(trace(Lengths { result: 1, ..right }), 7);
    assert_eq!(trace(Lengths { result: 3, ..right }), 7);
    assert_eq!(trace(Lengths { work: 47, ..right }), 8);
    assert_eq!(trace(Lengths { work: 49, ..right }), 0);
    let mut correct = |readings: usize, words: usize, room| {
        let (readings, words) = (vec![7; readings], vec![65_534; words]);
        correct_call(&mut random, (width, height), &readings, &words, room)
    };
    assert_eq!(correct(6, 6, 6), 0);
    assert_eq!(correct(5, 6, 6), 6);
    assert_eq!(correct(7, 6, 6), 6);
    assert_eq!(correct(6, 5, 6), 6);
    assert_eq!(correct(6, 7, 6), 6);
    assert_eq!(correct(6, 6, 5), 7);
    assert_eq!(correct(6, 6, 7), 7);
}

/// The buffers of a filter between two plates, each empty, one too short, right, and one too long, in all
/// mixtures: with plates in order, and with plates that cross, which is the last to be told.
#[test]
fn lengths_between_two_plates() {
    let mut random = Random(19);
    let setting = Setting::new(2, 1, 15, OPENING);
    for (level, last) in [(3, 0), (2, 0), (1, 20)] {
        let mut counts = BTreeMap::new();
        for mixture in 0..1024 {
            let length = |buffer: usize| [0, 5, 6, 7][mixture >> (2 * buffer) & 3];
            let (lowest, highest) = (vec![2; length(0)], vec![level; length(1)]);
            let results = [length(2), length(3)];
            let work = [0, 47, 48, 49][mixture >> 8];
            let lent = Between { lowest: &lowest, highest: &highest, results, work };
            let number = between_call(&mut random, (3, 2), setting, lent);
            *counts.entry(number).or_insert(0) += 1;
        }
        // One mixture in 16 has the right plates, one in 16 of these the right results, and half of these
        // room to work in.
        assert_eq!(counts, BTreeMap::from([(6, 960), (7, 60), (8, 2), (last, 2)]), "{level}");
    }
}

/// Room to spare in the work buffer, enough for more gaps too, changes no level.
#[test]
fn room_to_spare() {
    let mut random = Random(29);
    for _ in 0..rounds(300, 3000) {
        let (plate, setting) = small_case(&mut random);
        let (width, height, pixels) = (plate.width(), plate.height(), plate.pixels());
        let needed = table::work_length(width, height, setting.gaps);
        let expected = listing::filter(&plate, setting);
        for spare in [1, 4 * pixels, 9 * needed] {
            let (mut low, mut high, mut place) = (vec![7; pixels], vec![7; pixels], 7);
            let mut work = vec![7; needed + spare];
            let (levels, chosen) = (plate.levels(), numbers(setting));
            assert_eq!(raw::filter(width, height, levels, chosen, &mut low, &mut work), 0);
            assert_eq!(low, expected.levels(), "{plate:?} {setting:?} {spare}");
            let (low, high, work) = (&mut low, &mut high, &mut work);
            let number = raw::filter_between(
                width, height, levels, levels, chosen, low, high, work, &mut place,
            );
            assert_eq!((number, place), (0, 0));
            assert_eq!([&low[..], high], [expected.levels(); 2], "{plate:?} {setting:?} {spare}");
        }
    }
}

#[test]
fn work_lengths() {
    for (width, height) in [
        (1, 1),
        (4, 7),
        (256, 256),
        (1024, 64),
        (0, 1),
        (1, 0),
        (1025, 1),
        (257, 256),
        (usize::MAX, 2),
    ] {
        for gaps in (0..=9).chain([usize::MAX]) {
            let refused = bad_size(width, height) || gaps > 8;
            let expected = if refused { 0 } else { table::work_length(width, height, gaps) };
            assert_eq!(
                raw::work_length(width, height, gaps),
                expected,
                "{width} × {height}, {gaps}"
            );
        }
    }
}
