//! The C examples compile without a warning, and print what the documents say. The headers also compile
//! by themselves, as C and as C++.
mod c;

use c::compiles_by_itself;

/// What an example prints.
fn printed(name: &str) -> String {
    c::printed(name, env!("DIILVAK_LIB_DIR"), "diilvak")
}

#[test]
fn survey_prints_the_example() {
    assert_eq!(printed("survey"), "width=4\nheight=1\nout=8,5,8,8\nway=2\nlevel=8\npath=0,1,2,3\n");
}

#[test]
fn between_prints_the_example() {
    assert_eq!(
        printed("between"),
        "lowest=8,5,8,8\nhighest=9,6,9,9\nthe two plates exchanged: refused=20, place=1\n"
    );
}

#[test]
fn book_prints_the_example() {
    let expected = [
        "enter=7,0,0 serial=1 level=8 standing=1:8",
        "enter=7,1,0 serial=2 level=5 standing=1:8,2:5",
        "enter=7,0,1 serial=3 level=9 standing=1:8,2:5,3:9",
        "enter=7,0,0 serial=4 level=8 standing=2:5,3:9,4:8",
        "withdraw=1 refused=17 standing=2:5,3:9,4:8",
        "withdraw=4 standing=2:5,3:9",
        "withdraw=4 refused=17 standing=2:5,3:9",
        "enter=7,0,0 serial=5 level=8 standing=2:5,3:9,5:8",
    ];
    assert_eq!(printed("book").lines().collect::<Vec<_>>(), expected);
}

#[test]
fn headers_compile_by_themselves() {
    compiles_by_itself("include/diilvak.h");
    compiles_by_itself("include/diilvak_book.h");
}
