//! A crack ends on crack (document 02, N5): where the ends of a path may be gaps, and where they may not.
use crate::calls::filter_call;
use crate::traces::trace_call;
use checking::cases::{case, rounds, small_case, worked_ends};
use checking::engine::{self, numbers};
use checking::plate::{BOTH_ENDS, CLOSING, EAST, ON_CRACK, OPENING};
use checking::random::{Random, KINDS};
use checking::table::Lengths;
use checking::{listing, Plate, Refusal, Setting};
use diilvak::raw;

/// The worked rows, each with the trace of every pixel; where there is no path, refusal 12 for both.
#[test]
fn worked_rows() {
    for (plate, setting, by_ends) in worked_ends() {
        for (ends, expected) in BOTH_ENDS.into_iter().zip(by_ends) {
            let setting = setting.with_ends(ends);
            let case = format!("{plate:?} {setting:?}");
            let filtered = engine::filter(&plate, setting).expect("accepted");
            assert_eq!(filtered.levels(), expected, "{case}");
            for (at, &level) in expected.iter().enumerate() {
                let shown = engine::trace(&plate, setting, at);
                let again = engine::trace(&filtered, setting, at);
                match &shown {
                    Ok(trace) => assert_eq!(trace.level, level, "{case} at {at}"),
                    Err(refusal) => {
                        assert_eq!(*refusal, Refusal { number: 12, place: 0 }, "{case}");
                        assert!(setting.length > plate.width(), "{case}");
                    }
                }
                let verdict = listing::judge(&plate, setting, at, &shown, &filtered, &again);
                assert_eq!(verdict, Ok(()), "{case} at {at}");
            }
        }
    }
}

/// What holds on any plate: filtering twice is filtering once, with either kind of ends. Ends on crack keep
/// no more than ends anywhere, and as much where there are no gaps.
fn relations(plate: &Plate, setting: Setting, case: &str) {
    let filter = |plate: &Plate, setting| engine::filter(plate, setting).expect("accepted");
    let [anywhere, on_crack] = BOTH_ENDS.map(|ends| {
        let setting = setting.with_ends(ends);
        let once = filter(plate, setting);
        assert!(filter(&once, setting) == once, "{case}: filtered twice with ends {ends}");
        once
    });
    let nowhere_nearer = on_crack.levels().iter().zip(anywhere.levels()).all(|(on, any)| {
        if setting.mode == CLOSING {
            on >= any
        } else {
            on <= any
        }
    });
    assert!(nowhere_nearer, "{case}: more is kept with ends on crack");
    if setting.gaps == 0 {
        assert!(on_crack == anywhere, "{case}: the ends differ without gaps");
    }
    // A path has L − 2 pixels between its ends, so that more gaps are of no use.
    let inside = setting.length.saturating_sub(2);
    if setting.gaps > inside {
        let fewer = Setting { gaps: inside, ..setting }.with_ends(ON_CRACK);
        assert!(on_crack == filter(plate, fewer), "{case}: a gap at an end");
    }
}

#[test]
fn relations_of_both_ends() {
    let mut random = Random(50);
    let (mut without_gaps, mut idle) = (0, 0);
    for round in 0..rounds(3_000, 100_000) {
        let (plate, setting) = small_case(&mut random);
        relations(&plate, setting, &format!("round {round}: {plate:?} {setting:?}"));
        without_gaps += usize::from(setting.gaps == 0);
        idle += usize::from(setting.gaps + 2 > setting.length);
    }
    assert!(without_gaps > 100 && idle > 100, "{without_gaps} {idle}");
    for round in 0..rounds(40, 1_000) {
        let kind = random.pick(&KINDS);
        let (width, height) = (random.within(1, 90), random.within(1, 90));
        let (plate, setting) = case(&mut random, kind, width, height);
        relations(&plate, setting, &format!("round {round}: {width} × {height} {setting:?}"));
    }
}

/// Sieving by two lengths is not sieving by the larger one here: the worked row that shows it.
#[test]
fn sieving_twice_loses_ends() {
    let row = |levels: [i16; 3]| Plate::new(3, 1, levels.to_vec()).unwrap();
    let sieve = |plate: &Plate, length| {
        let setting = Setting::new(length, 1, EAST, OPENING).with_ends(ON_CRACK);
        engine::filter(plate, setting).expect("accepted")
    };
    let crack = row([9, 7, 8]);
    assert_eq!(sieve(&crack, 3), row([8, 7, 8]));
    assert_eq!(sieve(&sieve(&crack, 2), 3), row([7, 7, 7]));
    assert_eq!(sieve(&sieve(&crack, 3), 2), row([7, 7, 7]));
}

/// Refusal 18 comes after 1 to 5 and before every other, also where a setting is judged alone.
#[test]
fn bad_ends_in_their_order() {
    let mut random = Random(51);
    let right = Setting::new(2, 1, 15, OPENING);
    let wrong = [
        (Setting { length: 0, ..right }, 2),
        (Setting { gaps: 2, ..right }, 3),
        (Setting { directions: 16, ..right }, 4),
        (Setting { mode: 2, ..right }, 5),
        (right, 18),
    ];
    for ends in [2, 3, 256, 65_536, 1 << 32, usize::MAX] {
        for (setting, number) in wrong {
            assert_eq!(raw::check_setting(numbers(setting.with_ends(ends))), number);
        }
        let setting = right.with_ends(ends);
        // The work buffer has to have 4 × 2 × 6 numbers, the path 2.
        for (plate, result, work) in [(6, 6, 48), (5, 6, 48), (6, 5, 48), (6, 6, 47), (0, 0, 0)] {
            let lengths = Lengths { plate, result, work };
            assert_eq!(filter_call(&mut random, (3, 2), setting, lengths), 18);
            assert_eq!(filter_call(&mut random, (0, 2), setting, lengths), 1);
            for (at, path) in [(3, 2), (6, 2), (3, 1)] {
                let lengths = Lengths { result: path, ..lengths };
                assert_eq!(trace_call(&mut random, (3, 2), setting, at, lengths), 18);
                assert_eq!(trace_call(&mut random, (3, 1025), setting, at, lengths), 1);
            }
        }
        // 12 would be the answer to a right one.
        let lengths = Lengths { plate: 1, result: 2, work: 8 };
        assert_eq!(trace_call(&mut random, (1, 1), setting, 0, lengths), 18);
        assert_eq!(trace_call(&mut random, (1, 1), right.with_ends(ON_CRACK), 0, lengths), 12);
    }
    for ends in BOTH_ENDS {
        assert_eq!(raw::check_setting(numbers(right.with_ends(ends))), 0);
    }
}
