//! Filter and trace, with both kinds of ends, against the listing and the fast methods.
use checking::cases::{self, case, rounds, small_case};
use checking::listing::{judge, judge_shown};
use checking::plate::{BOTH_ENDS, DIRECTIONS, OPENING};
use checking::random::{plate, Kind, Random, KINDS};
use checking::{engine, fast, listing, Plate, Refusal, Setting};

#[test]
fn worked_plates() {
    for (name, plate, setting, expected) in cases::worked_plates() {
        assert_eq!(engine::filter(&plate, setting).unwrap().levels(), expected, "{name}");
    }
}

/// Small plates: the filtered plate is the listing's, and the trace of every pixel meets every
/// sentence of demand 3.
#[test]
fn small_plates_are_the_listing() {
    let mut random = Random(10);
    let plates = rounds(4_000, 100_000);
    let mut traces = 0;
    for round in 0..plates {
        let (plate, setting) = small_case(&mut random);
        for setting in BOTH_ENDS.map(|ends| setting.with_ends(ends)) {
            let case = format!("round {round}: {plate:?} {setting:?}");
            let filtered = engine::filter(&plate, setting).expect("accepted");
            assert_eq!(filtered, listing::filter(&plate, setting), "{case}");
            for at in 0..plate.pixels() {
                let answer = engine::trace(&plate, setting, at);
                let again = engine::trace(&filtered, setting, at);
                let verdict = judge(&plate, setting, at, &answer, &filtered, &again);
                assert_eq!(verdict, Ok(()), "{case} at {at}: {answer:?}");
            }
            traces += plate.pixels();
        }
    }
    println!("{plates} plates and {traces} traces against the listing");
}

/// A plate against a fast method by either kind of ends, with some traces.
fn compare(random: &mut Random, plate: &Plate, setting: Setting, traces: usize) {
    for ends in BOTH_ENDS {
        compare_by(random, plate, setting.with_ends(ends), traces);
    }
}

fn compare_by(random: &mut Random, plate: &Plate, setting: Setting, traces: usize) {
    let case = format!("{} × {} {setting:?}", plate.width(), plate.height());
    let filtered = engine::filter(plate, setting).expect("accepted");
    assert!(filtered == fast::filter(plate, setting), "{case}");
    let (width, height) = (plate.width(), plate.height());
    let crossed = setting.chosen().any(|d| d.span(width, height) >= setting.length);
    for _ in 0..traces {
        let at = random.below(plate.pixels());
        let again = engine::trace(&filtered, setting, at);
        match engine::trace(plate, setting, at) {
            Ok(trace) => {
                let verdict = judge_shown(plate, setting, at, &trace, &filtered, &again);
                assert_eq!(verdict, Ok(()), "{case} at {at}");
            }
            Err(refusal) => {
                assert!(!crossed && refusal == Refusal { number: 12, place: 0 }, "{case}");
            }
        }
    }
}

/// All sets of directions in both modes, L to 60, k to 8.
#[test]
fn middle_plates() {
    let mut random = Random(11);
    let plates = rounds(90, 3_000);
    for round in 0..plates {
        let kind = random.pick(&KINDS);
        let (width, height) = (random.within(1, 90), random.within(1, 90));
        let (plate, mut setting) = case(&mut random, kind, width, height);
        setting.directions = round / 2 % 15 + 1;
        setting.mode = round % 2;
        compare(&mut random, &plate, setting, 3);
    }
    println!("{plates} plates against the fast methods");
}

#[test]
fn large_plates() {
    let mut random = Random(12);
    for round in 0..rounds(4, 120) {
        let kind = [Kind::Wall, Kind::Noise, Kind::Ties, Kind::Slope][round % 4];
        let (width, height) = (256 - random.below(20), 256 - random.below(20));
        let (plate, mut setting) = case(&mut random, kind, width, height);
        setting.directions = 15 - round / 4 % 15;
        setting.mode = round % 2;
        compare(&mut random, &plate, setting, 2);
    }
}

/// The largest sizes, and lengths at the span and one beyond.
#[test]
fn sizes_and_lengths_at_their_ends() {
    let mut random = Random(13);
    for (width, height) in [(1, 1), (1, 1024), (1024, 1), (2, 1024), (1024, 2), (40, 40)] {
        for direction in &DIRECTIONS {
            let span = direction.span(width, height);
            for length in [span - 1, span, span + 1, 1024] {
                if (1..=1024).contains(&length) {
                    let gaps = random.below(length.min(4));
                    let setting = Setting::new(length, gaps, direction.bit, random.below(2));
                    let plate = plate(&mut random, Kind::Noise, width, height);
                    compare(&mut random, &plate, setting, 2);
                }
            }
        }
    }
    let full = [(256, 256, 1, 0), (256, 256, 511, 1), (1024, 64, 1000, 2), (64, 1024, 1024, 0)];
    for (width, height, length, gaps) in full.into_iter().take(rounds(1, 4)) {
        let plate = plate(&mut random, Kind::Wall, width, height);
        compare(&mut random, &plate, Setting::new(length, gaps, 15, OPENING), 2);
    }
}
