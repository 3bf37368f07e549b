//! The C example compiles without a warning, and prints what the documents say. The header also compiles by
//! itself, as C and as C++.
#[path = "../../diilvak/tests/c/mod.rs"]
mod c;

#[test]
fn meter_prints_the_example() {
    let expected = [
        "lamp=2.5 dark=0 word=65533 correction=-3",
        "lamp=0 dark=2.5 word=3 correction=3",
        "lamp=10,10.25 dark=7.5 word=65533 correction=-3",
        "lamp=0.25,0.5 dark=0 word=0 correction=0",
        "lamp=8192 dark=0 word=57344 correction=-8192",
        "lamp=0 dark=8192,8192 word=8192 correction=8192",
        "lamp=0.125,0.125 dark=0 refused=19",
        "lamp=0 dark=8192.25 refused=19",
    ];
    let printed = c::printed("meter", env!("DIILVAK_LIB_DIR"), "diilvak_meter");
    assert_eq!(printed.lines().collect::<Vec<_>>(), expected);
}

#[test]
fn header_compiles_by_itself() {
    c::compiles_by_itself("include/diilvak_meter.h");
}
