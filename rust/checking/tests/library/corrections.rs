//! Corrections: worked ones, the range of levels, and which of several faults is told, with its place.
use crate::calls::correct_call;
use checking::cases::rounds;
use checking::engine;
use checking::plate::MAX_READING;
use checking::random::Random;
use checking::Refusal;
use std::collections::BTreeMap;

/// A reading and a word by hand, and their level or their refusal: the edge words of section 7 with the
/// bounds of document 02, N1, the edges of both, and what was refused before.
#[test]
fn worked_corrections() {
    let refused = |number| Err(Refusal { number, place: 0 });
    let worked = [
        (16_383, 16_383, Ok(32_766)),
        (0, 49_152, Ok(-16_384)),
        (0, 16_383, Ok(16_383)),
        (4096, 61_439, Ok(-1)),
        (0, 49_151, refused(10)),
        (0, 16_384, refused(10)),
        (0, 32_768, refused(10)),
        (16_384, 0, refused(9)),
        (16_384, 16_384, refused(9)),
    ];
    for (reading, word, expected) in worked {
        let found = engine::correct(1, 1, &[reading], &[word]).map(|plate| plate.levels()[0]);
        assert_eq!(found, expected, "{reading} with {word}");
    }
}

/// Every reading with the corrections at both bounds: the levels are -16,384 to 32,766 and no other.
#[test]
fn corrected_range() {
    let readings: Vec<u16> = (0..=MAX_READING).collect();
    let levels = |word| {
        let plate = engine::correct(1024, 16, &readings, &[word; 1024 * 16]);
        plate.expect("within the bounds").levels().to_vec()
    };
    assert!(levels(49_152).into_iter().eq(-16_384..=-1));
    assert!(levels(16_383).into_iter().eq(16_383..=32_766));
}

/// Rows with several faults by hand: a bad reading late on the plate wins over a bad correction early on
/// it (document 02, N4), and the first place of either is told.
#[test]
fn worked_faults() {
    let worked: [(&[u16], &[u16], _); 5] = [
        (&[5, 16_384, 3, 20_000], &[0, 0, 49_151, 16_384], (9, 1)),
        (&[5, 3, 16_384], &[16_384, 0, 0], (9, 2)),
        (&[5, 3], &[0, 16_384], (10, 1)),
        (&[5, 3, 5, 3], &[0, 16_384, 32_768, 0], (10, 1)),
        (&[5, 3, 65_535, 16_384], &[0, 16_384, 32_768, 0], (9, 2)),
    ];
    for (readings, words, (number, place)) in worked {
        let found = engine::correct(readings.len(), 1, readings, words).map(|_| ());
        assert_eq!(found, Err(Refusal { number, place }), "{readings:?} with {words:?}");
    }
}

/// Random plates with up to three faults of either kind, anywhere, held to a table that judges all readings
/// and then all corrections. Every order of the two first faults comes up.
#[test]
fn faults_of_both_kinds() {
    let mut random = Random(16);
    let mut came_up = BTreeMap::new();
    for round in 0..rounds(20_000, 500_000) {
        let (width, height) = match round % 1000 {
            0 => random.pick(&[(256, 256), (1024, 64), (1, 1024), (1024, 7)]),
            _ => (random.within(1, 9), random.within(1, 9)),
        };
        let pixels = width * height;
        let mut readings: Vec<u16> =
            (0..pixels).map(|_| random.within(0, MAX_READING.into()) as u16).collect();
        let mut words: Vec<u16> =
            (0..pixels).map(|_| (random.below(32_768) as i32 - 16_384) as u16).collect();
        for _ in 0..random.below(4) {
            readings[random.below(pixels)] = random.within(16_384, 65_535) as u16;
        }
        for _ in 0..random.below(4) {
            words[random.below(pixels)] = random.within(16_384, 49_151) as u16;
        }
        let number = correct_call(&mut random, (width, height), &readings, &words, pixels);
        let reading = readings.iter().position(|&reading| reading > MAX_READING);
        let correction = words.iter().position(|word| (16_384..49_152).contains(word));
        let order = reading.zip(correction).map(|(reading, correction)| reading.cmp(&correction));
        *came_up.entry((number, order)).or_insert(0) += 1;
    }
    use std::cmp::Ordering::{Equal, Greater, Less};
    let cases = [(0, None), (9, None), (9, Some(Less)), (9, Some(Equal)), (9, Some(Greater))];
    assert!(came_up.keys().eq(cases.iter().chain(&[(10, None)])), "{came_up:?}");
}
