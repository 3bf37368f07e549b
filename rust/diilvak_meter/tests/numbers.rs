//! The limit, the refusal, the kinds of figures and the version: the proved code (crates/, read as text), the
//! header (read as text, and compiled) and this package have the same names with the same numbers, none
//! missing. The refusal FIGURE is DIILVAK_BAD_FIGURE and `Refusal::BadFigure`. Of the code's refusals it is the
//! only one here; the test of `diilvak` holds that all others are there, and this one is not.
#[path = "../../diilvak/tests/c/mod.rs"]
mod c;

use c::names::{self, add, case, constants, first_column, taken, Numbers};
use c::{all_true_in_c, read};
use diilvak_meter::{limits, raw, Figure, Meter, Refusal};

const HEADER: &str = "include/diilvak_meter.h";

fn macros() -> Numbers {
    names::macros(&[HEADER])
}

fn refusals_of_the_package() -> Numbers {
    let mut numbers = Numbers::new();
    for number in 0..1000 {
        if let Some(refusal) = Refusal::from_number(number) {
            assert_eq!(refusal.number(), number);
            add(&mut numbers, "refusal.rs", &case(refusal), &number.to_string());
        }
    }
    numbers
}

#[test]
fn refusals() {
    let number = names::cases("crates/plate/src/refusal.rt", "pub enum Reason {")["FIGURE"];
    let code = Numbers::from([("BAD_FIGURE".to_string(), number)]);
    assert_eq!(taken(&mut macros(), |name| name.starts_with("BAD_")), code);
    assert_eq!(refusals_of_the_package(), code);
    assert_eq!(first_column(HEADER, "REFUSAL", "WHAT THE CALLER OWES"), [number]);
}

/// The largest number, which the definition has in quarters; the library takes it, and no quarter more.
#[test]
fn limit() {
    let definition = read("crates/meter/specs/Numbers.antt");
    let quarters = definition.lines().find_map(|line| line.strip_prefix("max_quarters = "));
    assert_eq!(quarters.unwrap().parse(), Ok(4 * macros()["MAX_FIGURE"]));
    assert_eq!(limits::MAX_FIGURE, macros()["MAX_FIGURE"] as f32);
    let word = |dark| Meter { lamp: Figure::Steady(0.0), dark: Figure::Steady(dark) }.word();
    assert_eq!(word(limits::MAX_FIGURE), Ok(8192));
    assert_eq!(word(limits::MAX_FIGURE + 0.25), Err(Refusal::BadFigure));
}

#[test]
fn kinds_of_figures() {
    let kind = |figure: Figure| raw::Reported::from(figure).drifting as i64;
    assert_eq!(kind(Figure::Steady(1.0)), macros()["STEADY"]);
    assert_eq!(kind(Figure::Drifting(1.0, 2.0)), macros()["DRIFTING"]);
}

#[test]
fn version() {
    let code = constants(&["crates/diilvak_meter/src/lib.rt"])["VERSION"];
    assert_eq!(diilvak_meter::version() as i64, code);
    assert_eq!(raw::version() as i64, code);
    assert_eq!(limits::VERSION as i64, code);
    assert_eq!(macros()["METER_VERSION"], code);
    let parts = env!("CARGO_PKG_VERSION").split('.').map(|part| part.parse::<i64>().unwrap());
    assert_eq!(parts.fold(0, |number, part| 100 * number + part), code);
}

/// Nothing else is in the header.
#[test]
fn every_macro_is_known() {
    assert_eq!(macros()["METER_STACK"], limits::STACK as i64);
    let known = "BAD_FIGURE DRIFTING MAX_FIGURE METER_STACK METER_VERSION STEADY";
    let names: Vec<String> = macros().into_keys().collect();
    assert_eq!(names, known.split(' ').collect::<Vec<_>>());
}

/// A C compiler reads the header's numbers as this test does, also beside the headers of `diilvak`, with which
/// it has no name in common.
#[test]
fn compiled_header() {
    let all = ["include/diilvak.h", "include/diilvak_book.h", HEADER];
    let claim = |(name, number)| format!("DIILVAK_{name} == {number}");
    all_true_in_c("meter_numbers.c", &[HEADER], macros().into_iter().map(claim));
    all_true_in_c("all_numbers.c", &all, names::macros(&all).into_iter().map(claim));
}
