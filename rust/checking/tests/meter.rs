//! The add-on for the lamp meter against a meter that shares no code with it, and its words in corrections of
//! the library.
use checking::cases::rounds;
use checking::figures::{any_number, any_quarters, apart, quarters, worked, BAD, MAX_QUARTERS};
use checking::meter::{Figure, Meter};
use checking::plate::MAX_READING;
use checking::random::Random;
use checking::{engine, Refusal};
use diilvak_meter::raw::{self, Report, Reported};

/// The figure for the add-on. What is not looked at is noise: the second number of a steady figure, and which
/// number says that one is drifting.
fn reported(random: &mut Random, figure: Figure) -> Reported {
    let (first, second, drifting) = match figure {
        Figure::Steady(number) => (number, any_number(random), 0),
        Figure::Drifting(first, second) => {
            let shift = random.below(64);
            (first, second, random.pick(&[1, 2, usize::MAX, 1 << shift]))
        }
    };
    Reported { first: f32::from_bits(first), second: f32::from_bits(second), drifting }
}

fn of_the_package(figure: Figure) -> diilvak_meter::Figure {
    use diilvak_meter::Figure::{Drifting, Steady};
    match figure {
        Figure::Steady(number) => Steady(f32::from_bits(number)),
        Figure::Drifting(first, second) => Drifting(f32::from_bits(first), f32::from_bits(second)),
    }
}

/// One call of the C function and one of the package, held to the other meter: the number, the word, and that a
/// refusal leaves what was lent as it was. Returns the number.
fn word_call(random: &mut Random, meter: Meter) -> usize {
    let report = Report { lamp: reported(random, meter.lamp), dark: reported(random, meter.dark) };
    let noise = random.draw() as u16;
    // Between two guards.
    let mut lent = [noise; 3];
    let found = raw::word(report, &mut lent[1]);
    let expected = meter.word();
    let number = expected.err().map_or(0, |refusal| refusal.number);
    assert_eq!(found, number, "{meter:x?} as {report:?}");
    assert_eq!(lent, [noise, expected.unwrap_or(noise), noise], "{meter:x?} as {report:?}");

    let (lamp, dark) = (of_the_package(meter.lamp), of_the_package(meter.dark));
    let word = diilvak_meter::Meter { lamp, dark }.word();
    assert_eq!(word.map_err(|refusal| Refusal { number: refusal.number(), place: 0 }), expected);
    number
}

/// Which of the numbers of a meter is meant.
#[derive(Clone, Copy, Debug)]
enum Position {
    SteadyLamp,
    SteadyDark,
    /// The first or the second number of a drifting figure.
    Lamp(usize),
    Dark(usize),
}

use Position::{Dark, Lamp, SteadyDark, SteadyLamp};
const POSITIONS: [Position; 6] = [SteadyLamp, SteadyDark, Lamp(0), Lamp(1), Dark(0), Dark(1)];

/// The number at the position; the partner is all others that there are.
fn meter_with(position: Position, number: u32, partner: u32) -> Meter {
    let steady = Figure::Steady;
    let drifting = |at| match at {
        0 => Figure::Drifting(number, partner),
        _ => Figure::Drifting(partner, number),
    };
    let (lamp, dark) = match position {
        SteadyLamp => (steady(number), steady(partner)),
        SteadyDark => (steady(partner), steady(number)),
        Lamp(at) => (drifting(at), steady(partner)),
        Dark(at) => (steady(partner), drifting(at)),
    };
    Meter { lamp, dark }
}

#[test]
fn worked_figures() {
    let mut random = Random(92);
    for (meter, expected) in worked() {
        let mut word = 0;
        let report = Report {
            lamp: reported(&mut random, meter.lamp),
            dark: reported(&mut random, meter.dark),
        };
        assert_eq!((raw::word(report, &mut word), word), (0, expected), "{meter:x?}");
        assert_eq!(word_call(&mut random, meter), 0);
    }
}

/// Each bad number by itself at each position, and beside another one.
#[test]
fn bad_numbers() {
    let mut random = Random(93);
    for (name, number) in BAD {
        for position in POSITIONS {
            for partner in [0, quarters(1), quarters(MAX_QUARTERS), any_quarters(&mut random)] {
                let found = word_call(&mut random, meter_with(position, number, partner));
                assert_eq!(found, 19, "{name} at {position:?}");
            }
            let partner = random.pick(&BAD).1;
            assert_eq!(word_call(&mut random, meter_with(position, number, partner)), 19, "{name}");
        }
    }
}

/// The second number of a steady figure may be anything, and so may the number that says 'drifting'.
#[test]
fn what_is_not_looked_at() {
    let figure = |first, second, drifting| {
        let (first, second) = (f32::from_bits(first), f32::from_bits(second));
        Reported { first, second, drifting }
    };
    let answer = |lamp, dark| {
        let mut word = 7;
        (raw::word(Report { lamp, dark }, &mut word), word)
    };
    let (one, three) = (quarters(4), quarters(12));
    for (name, bad) in BAD {
        let (lamp, dark) = (figure(one, bad, 0), figure(three, bad, 0));
        assert_eq!(answer(lamp, dark), (0, 2), "{name}");
        assert_eq!(answer(dark, lamp), (0, 65_534), "{name}");
    }
    let zero = figure(0, 0, 0);
    for shift in 0..usize::BITS {
        for drifting in [1 << shift, usize::MAX >> shift] {
            let mean_of_two = figure(one, three, drifting);
            assert_eq!(answer(zero, mean_of_two), (0, 2), "{drifting}");
            assert_eq!(answer(mean_of_two, zero), (0, 65_534), "{drifting}");
            assert_eq!(answer(figure(one, 1, drifting), zero), (19, 7), "{drifting}");
        }
    }
}

/// All 32,769 numbers that may be reported, at each position.
#[test]
fn every_count_of_quarters() {
    let mut random = Random(94);
    for count in 0..=MAX_QUARTERS {
        for position in POSITIONS {
            for partner in [0, quarters(MAX_QUARTERS), any_quarters(&mut random)] {
                let meter = meter_with(position, quarters(count), partner);
                assert_eq!(word_call(&mut random, meter), 0, "{count} at {position:?}");
            }
        }
    }
}

/// All 131,073 differences in eighths, each by several figures: every half, and every word that there is.
#[test]
fn every_difference() {
    let mut random = Random(95);
    for eighths in -65_536..=65_536 {
        for _ in 0..rounds(4, 100) {
            let meter = apart(&mut random, eighths);
            assert_eq!(word_call(&mut random, meter), 0, "{eighths}");
        }
    }
}

/// Any bits at each position, beside numbers that may be reported: both answers are frequent.
#[test]
fn any_bits_at_each_position() {
    let mut random = Random(96);
    let calls = rounds(1_000_000, 50_000_000);
    for position in POSITIONS {
        let mut accepted = 0;
        for _ in 0..calls {
            let (number, partner) = (any_number(&mut random), any_quarters(&mut random));
            accepted +=
                usize::from(word_call(&mut random, meter_with(position, number, partner)) == 0);
        }
        let refused = calls - accepted;
        assert!(accepted.min(refused) > calls / 4, "{position:?}: {accepted} of {calls}");
        println!("{calls} numbers at {position:?}: {refused} refused");
    }
}

/// Any bits everywhere.
#[test]
fn any_figures() {
    let mut random = Random(97);
    let calls = rounds(1_000_000, 50_000_000);
    let mut accepted = 0;
    for _ in 0..calls {
        let mut figure = || match random.below(2) {
            0 => Figure::Steady(any_number(&mut random)),
            _ => Figure::Drifting(any_number(&mut random), any_number(&mut random)),
        };
        let meter = Meter { lamp: figure(), dark: figure() };
        accepted += usize::from(word_call(&mut random, meter) == 0);
    }
    assert!(accepted > calls / 10 && accepted < calls / 2, "{accepted} of {calls}");
}

/// Every word that the meter can give is a correction that the library accepts, and it adds to each reading
/// what the figures say.
#[test]
fn words_in_corrections() {
    let mut random = Random(98);
    for correction in -8192_i32..=8192 {
        // From half a level nearer to zero to less than half a level further away.
        let beside = match correction.signum() {
            0 => random.within(0, 6) as i32 - 3,
            sign => sign * (random.within(0, 7) as i32 - 4),
        };
        let eighths = (8 * correction + beside).clamp(-65_536, 65_536);
        let meter = apart(&mut random, eighths);
        assert_eq!(meter.correction(), Ok(correction.into()), "{eighths} eighths");
        let mut word = 0;
        let (lamp, dark) = (reported(&mut random, meter.lamp), reported(&mut random, meter.dark));
        assert_eq!(raw::word(Report { lamp, dark }, &mut word), 0, "{eighths} eighths");

        let any_reading = random.within(0, MAX_READING.into()) as u16;
        let readings = [0, MAX_READING, any_reading];
        let plate = engine::correct(3, 1, &readings, &[word; 3]).expect("within the bounds");
        let sums = readings.map(|reading| i32::from(reading) + correction);
        assert!(plate.levels().iter().map(|&level| i32::from(level)).eq(sums), "{word}");
    }
}
