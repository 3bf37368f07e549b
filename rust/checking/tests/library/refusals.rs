//! Calls with any numbers and buffers: which refusal comes, and what it leaves.
use crate::calls::{between_call, correct_call, filter_call, number};
use crate::faults::{any_call, any_length, any_setting, any_size, AnyCall};
use crate::traces::{enter_call, noise, trace_call, withdraw_call, Asked};
use checking::book::{Key, Pixel};
use checking::cases::{any_book, rounds};
use checking::engine::{self, numbers};
use checking::plate::{bad_size, CORRECTIONS, MAX_READING, OPENING};
use checking::random::Random;
use checking::table::{self, Between, Lengths};
use checking::{Plate, Refusal, Setting};
use diilvak::raw;
use std::collections::BTreeMap;

/// One more than the largest refusal number.
const NUMBERS: usize = 21;

/// The refusals among the plates of section 7.
#[test]
fn worked_refusals() {
    let set = Setting::new;
    let pixel = Plate::new(1, 1, vec![-7]).unwrap();
    let no_path = Err(Refusal { number: 12, place: 0 });
    assert_eq!(engine::trace(&pixel, set(2, 1, 15, OPENING), 0), no_path);
    assert_eq!(number(engine::setting(set(9, 8, 1, 0)).map(|_| ())), 0);
    assert_eq!(number(engine::setting(set(8, 8, 1, 0)).map(|_| ())), 3);
}

/// A lowest and a highest plate; on half of them some levels of the highest are any.
fn any_bounds(random: &mut Random, right: usize) -> [Vec<i16>; 2] {
    let lengths = [any_length(random, right), any_length(random, right)];
    let lowest: Vec<i16> = (0..lengths[0]).map(|_| random.draw() as i16).collect();
    let mut above = |level: &i16| level.saturating_add(random.below(9) as i16);
    let mut highest: Vec<i16> =
        (0..lengths[1]).map(|p| lowest.get(p).map_or(0, &mut above)).collect();
    for _ in 0..random.below(2) * 3 {
        if let Some(level) = highest.get_mut(random.below(right)) {
            *level = random.draw() as i16;
        }
    }
    [lowest, highest]
}

/// Calls with several faults at once: the first number that applies is returned, and nothing changes.
#[test]
fn refusals_follow_the_table() {
    let mut random = Random(15);
    let mut filters = [0; NUMBERS];
    let mut traces = [0; NUMBERS];
    let mut corrections = [0; NUMBERS];
    for _ in 0..rounds(40_000, 1_000_000) {
        let AnyCall { size, pixels, setting, at, lengths } = any_call(&mut random);
        assert_eq!(
            raw::check_setting(numbers(setting)),
            number(table::setting(setting)),
            "{setting:?}"
        );
        traces[trace_call(&mut random, size, setting, at, lengths)] += 1;
        let lengths = Lengths { result: any_length(&mut random, pixels), ..lengths };
        filters[filter_call(&mut random, size, setting, lengths)] += 1;

        let one_in_ten = |random: &mut Random| random.below(10) == 0;
        let readings: Vec<u16> = (0..any_length(&mut random, pixels))
            .map(|_| match one_in_ten(&mut random) {
                true => random.pick(&[0, 4095, 4096, MAX_READING, MAX_READING + 1, 65_535]),
                false => random.within(0, MAX_READING.into()) as u16,
            })
            .collect();
        let words: Vec<u16> = (0..any_length(&mut random, pixels))
            .map(|_| match one_in_ten(&mut random) {
                true => random.pick(&[16_383, 16_384, 32_767, 32_768, 49_151, 49_152, 61_439]),
                false => (random.below(32_768) as i32 + CORRECTIONS.start()) as u16,
            })
            .collect();
        let room = any_length(&mut random, pixels);
        corrections[correct_call(&mut random, size, &readings, &words, room)] += 1;
    }
    // Done, and every number that the call has, came up.
    let came_up = |counts: [usize; NUMBERS]| -> Vec<usize> {
        (0..NUMBERS).filter(|&number| counts[number] > 0).collect()
    };
    assert_eq!(came_up(filters), [0, 1, 2, 3, 4, 5, 6, 7, 8, 18]);
    assert_eq!(came_up(traces), [0, 1, 2, 3, 4, 5, 6, 7, 8, 11, 12, 18]);
    assert_eq!(came_up(corrections), [0, 1, 6, 7, 9, 10]);
}

/// The same of filters between two plates. Every number comes with plates in order and with plates that
/// cross, but for 20, which comes with the latter alone, instead of done.
#[test]
fn refusals_between_two_plates() {
    let mut random = Random(18);
    let mut counts = [BTreeMap::new(), BTreeMap::new()];
    let mut later = 0;
    for _ in 0..rounds(40_000, 1_000_000) {
        let AnyCall { size, pixels, setting, lengths: Lengths { work, .. }, .. } =
            any_call(&mut random);
        let [lowest, highest] = any_bounds(&mut random, pixels);
        let results = [any_length(&mut random, pixels), any_length(&mut random, pixels)];
        let lent = Between { lowest: &lowest, highest: &highest, results, work };
        let crossing = |p: &usize| lowest[*p] > highest[*p];
        let first = (0..lowest.len().min(highest.len())).find(crossing);
        let number = between_call(&mut random, size, setting, lent);
        *counts[usize::from(first.is_some())].entry(number).or_insert(0) += 1;
        later += usize::from(number == 20 && first > Some(0));
    }
    let [in_order, crossing] = counts;
    assert!(in_order.keys().eq(&[0, 1, 2, 3, 4, 5, 6, 7, 8, 18]), "{in_order:?}");
    assert!(crossing.keys().eq(&[1, 2, 3, 4, 5, 6, 7, 8, 18, 20]), "{crossing:?}");
    assert!(later > 0, "20 past the first pixel");
    println!("calls between two plates by number, in order {in_order:?}, crossing {crossing:?}");
}

/// The same of traces that are to be entered, in books of any kind: the trace's own refusals come first,
/// whatever the book would say, and what it says comes last.
#[test]
fn refusals_of_entering() {
    let mut random = Random(70);
    let mut by_book = BTreeMap::new();
    for _ in 0..rounds(40_000, 1_000_000) {
        let AnyCall { size, setting, at, lengths, .. } = any_call(&mut random);
        let levels = noise(&mut random, lengths.plate);
        let asked = Asked { size, levels: &levels, setting, at, lengths };
        let book = any_book(&mut random);
        let pixel = Pixel { plate: random.below(3) as u16, place: at };
        let says = number(table::entry(&book, Key { pixel, mode: setting.mode }));
        let found = enter_call(&mut random, asked, pixel.plate, &book).err().unwrap_or(0);
        *by_book.entry(says).or_insert(BTreeMap::new()).entry(found).or_insert(0) += 1;
    }
    for (says, numbers) in &by_book {
        let mut expected = vec![1, 2, 3, 4, 5, 6, 7, 8, 11, 12, 18, *says];
        expected.sort();
        assert!(numbers.keys().eq(&expected), "{says}: {numbers:?}");
    }
    assert!(by_book.keys().eq(&[0, 15, 16]), "{by_book:?}");
    println!("enterings by what the book would say, and by number: {by_book:?}");
}

/// The same of withdrawals, of serial numbers that stand and of others.
#[test]
fn refusals_of_withdrawing() {
    let mut random = Random(71);
    let mut counts = BTreeMap::new();
    for _ in 0..rounds(10_000, 200_000) {
        let book = any_book(&mut random);
        let others = [0, 3, 299, 300, book.last, book.last.wrapping_add(1)];
        let serial = match book.standing() {
            [] => random.pick(&others),
            _ if random.below(3) == 0 => random.pick(&others),
            standing => random.pick(standing).serial,
        };
        let found = withdraw_call(&book, serial).err().unwrap_or(0);
        *counts.entry(found).or_insert(0) += 1;
    }
    assert!(counts.keys().eq(&[0, 15, 17]), "{counts:?}");
    println!("withdrawals by number: {counts:?}");
}

/// The package takes exactly the sizes and settings that the table lets pass.
#[test]
fn plates_and_settings_follow_the_table() {
    let mut random = Random(17);
    let (mut plates, mut settings) = ([0; NUMBERS], [0; NUMBERS]);
    for _ in 0..10_000 {
        let (width, height) = any_size(&mut random);
        let right = if bad_size(width, height) { 5 } else { width * height };
        let levels = any_length(&mut random, right);
        let found = diilvak::Plate::new(width, height, vec![0; levels]);
        let expected = match bad_size(width, height) {
            true => 1,
            false if levels != right => 6,
            false => 0,
        };
        assert_eq!(found.err().map_or(0, |refusal| refusal.number()), expected);
        plates[expected] += 1;

        let setting = any_setting(&mut random);
        let found = number(engine::setting(setting).map(|_| ()));
        // Wrong sets, modes and ends cannot come as far as the setting, so they are found first.
        let lone = |setting: Setting| number(table::setting(setting));
        let right = Setting::new(1, 0, 1, OPENING);
        let set = lone(Setting { directions: setting.directions, ..right });
        let mode = lone(Setting { mode: setting.mode, ..right });
        let ends = lone(right.with_ends(setting.ends));
        let expected = [set, mode, ends, lone(setting)].into_iter().find(|&number| number > 0);
        assert_eq!(found, expected.unwrap_or(0), "{setting:?}");
        settings[found] += 1;
    }
    assert!([0, 1, 6].iter().all(|&number| plates[number] > 0), "{plates:?}");
    assert!([0, 2, 3, 4, 5, 18].iter().all(|&number| settings[number] > 0), "{settings:?}");
}
