//! Limits, refusals, bits, modes, ends and the version: the proved code (crates/, read as text), the headers
//! (read as text, and compiled) and this package have the same names with the same numbers, none
//! missing. The names differ by a rule alone: a limit has one name, the refusal SIZE is DIILVAK_BAD_SIZE
//! and `Refusal::BadSize`, FULL and SPENT name what is full and spent (BOOK_FULL, SERIALS_SPENT), and
//! `Ends::OnCrack` is DIILVAK_ENDS_ON_CRACK.
mod c;

use c::all_true_in_c;
use c::names::{self, add, case, constants, first_column, taken, Numbers};
use diilvak::{raw, Direction, Ends, Mode, Refusal};

const HEADERS: [&str; 2] = ["include/diilvak.h", "include/diilvak_book.h"];

/// The numbers of both headers' macros.
fn macros() -> Numbers {
    names::macros(&HEADERS)
}

fn refusals_of_the_package() -> Numbers {
    let mut numbers = Numbers::new();
    for number in 0..1000 {
        if let Some(refusal) = Refusal::from_number(number, 7) {
            assert_eq!(refusal.number(), number);
            assert!(matches!(refusal.place(), None | Some(7)), "{refusal:?}");
            add(&mut numbers, "refusal.rs", &case(refusal), &number.to_string());
        }
    }
    numbers
}

/// The refusals of the proved code by the headers' names. Those of texts are the program's alone, and that of
/// the lamp meter's figures is the add-on's, whose own test looks for it.
fn refusals_of_the_code() -> Numbers {
    let mut numbers = names::cases("crates/plate/src/refusal.rt", "pub enum Reason {");
    for of_others in ["LINE", "TEXT", "FIGURE"] {
        assert!(numbers.remove(of_others).is_some(), "{of_others}");
    }
    let named = |name: String| match name.as_str() {
        "NO_PATH" | "NO_ENTRY" => name,
        "FULL" => "BOOK_FULL".to_string(),
        "SPENT" => "SERIALS_SPENT".to_string(),
        _ => format!("BAD_{name}"),
    };
    numbers.into_iter().map(|(name, number)| (named(name), number)).collect()
}

#[test]
fn limits() {
    let code = constants(&[
        "crates/plate/src/size.rt",
        "crates/correction/src/faults.rt",
        "crates/plate/src/setting.rt",
        "crates/book/src/lib.rt",
    ]);
    let limit = |name: &str| name.starts_with("MAX_") || name.starts_with("MIN_");
    assert_eq!(taken(&mut macros(), limit), code);
    let mut package = constants(&["rust/diilvak/src/limits.rs"]);
    assert_eq!(taken(&mut package, limit), code);
    // What is left in the package is in a header too.
    for (name, number) in &package {
        assert_eq!(macros().get(name), Some(number), "{name}");
    }
    let left = "ENTER_STACK FILTER_STACK TRACE_STACK VERSION WITHDRAW_STACK";
    assert_eq!(package.into_keys().collect::<Vec<_>>(), left.split(' ').collect::<Vec<_>>());
}

#[test]
fn refusals() {
    let code = refusals_of_the_code();
    let refusal = |name: &str| name.starts_with("BAD_") || code.contains_key(name);
    assert_eq!(taken(&mut macros(), refusal), code);
    assert_eq!(refusals_of_the_package(), code);
    // In the order of judgement: by rising number, but 18 belongs to the setting, after 5.
    let mut in_order: Vec<i64> = code.into_values().collect();
    in_order.sort_by_key(|&number| if number == 18 { (5, number) } else { (number, 0) });
    let table = first_column("include/diilvak.h", "REFUSALS", "WHAT THE CALLER OWES");
    assert_eq!(table, in_order);
}

#[test]
fn directions_modes_and_ends() {
    let directions = Direction::ALL.map(|direction| (case(direction), direction.bit() as i64));
    let modes = [Mode::Opening, Mode::Closing].map(|mode| (case(mode), mode.number() as i64));
    let ends = [Ends::Anywhere, Ends::OnCrack]
        .map(|ends| (format!("ENDS_{}", case(ends)), ends.number() as i64));
    let package: Numbers = directions.into_iter().chain(modes).chain(ends).collect();
    assert_eq!(taken(&mut macros(), |name| package.contains_key(name)), package);
}

/// Nothing else is in the headers.
#[test]
fn every_macro_is_known() {
    let mut rest = macros();
    taken(&mut rest, |name| name.starts_with("MAX_") || name.starts_with("MIN_"));
    taken(&mut rest, |name| name.starts_with("BAD_") || name.ends_with("_STACK"));
    let rest: Vec<String> = rest.into_keys().collect();
    let known =
        "BOOK_FULL CLOSING DONE EAST ENDS_ANYWHERE ENDS_ON_CRACK NORTH NORTH_EAST NO_ENTRY \
                 NO_PATH OPENING SERIALS_SPENT SOUTH_EAST VERSION";
    assert_eq!(rest, known.split(' ').collect::<Vec<_>>());
}

#[test]
fn version() {
    let code = constants(&["crates/diilvak/src/lib.rt"])["VERSION"];
    assert_eq!(diilvak::version() as i64, code);
    assert_eq!(raw::version() as i64, code);
    assert_eq!(diilvak::limits::VERSION as i64, code);
    assert_eq!(macros()["VERSION"], code);
    let parts = env!("CARGO_PKG_VERSION").split('.').map(|part| part.parse::<i64>().unwrap());
    assert_eq!(parts.fold(0, |number, part| 100 * number + part), code);
}

/// A C compiler reads the headers' numbers as this test does.
#[test]
fn compiled_headers() {
    let numbers = macros().into_iter().chain(refusals_of_the_code());
    let claims = numbers.map(|(name, number)| format!("DIILVAK_{name} == {number}"));
    all_true_in_c("numbers.c", &HEADERS, claims);
}
