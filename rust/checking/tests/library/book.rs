//! The findings book (document 02, N3): its worked histories, through the C functions and through the
//! package's own book.
use crate::traces::{enter_call, withdraw_call, Asked};
use checking::book::{Book, Entry, Key, Pixel, MAX_ENTRIES};
use checking::cases::{any_book, rounds};
use checking::engine;
use checking::histories::{play_worked, worked_histories, worked_row, Call};
use checking::random::Random;
use diilvak::{raw, Refusal};

/// The book of the package `diilvak` as this package has it, to the last slot.
pub fn numbers_of(book: &diilvak::Book) -> Book {
    engine::book_of(&raw::Book::from(book.clone()))
}

/// The findings that it shows.
pub fn standing_in(book: &diilvak::Book) -> Vec<Entry> {
    let entry = |finding: diilvak::Finding| {
        let pixel = Pixel { plate: finding.plate, place: finding.place };
        let key = Key { pixel, mode: finding.mode.number() };
        let direction = finding.direction.bit();
        Entry { serial: finding.serial, key, level: finding.level, direction }
    };
    book.entries().map(entry).collect()
}

#[test]
fn worked_histories_of_the_library() {
    let mut random = Random(80);
    play_worked(|row, call, book| {
        let after = match call {
            Call::Enter(setting, pixel) => {
                let asked = Asked::of(row, setting, pixel.place);
                enter_call(&mut random, asked, pixel.plate, book).map(|(after, _)| after)
            }
            Call::Withdraw(serial) => withdraw_call(book, serial),
        };
        match after {
            Ok(after) => (0, after),
            Err(number) => (number, book.clone()),
        }
    });
}

/// The package's own book, which cannot be made to show more than it can have.
#[test]
fn worked_histories_of_the_package() {
    let row = engine::plate(&worked_row());
    for (start, turns) in worked_histories() {
        let mut book = match diilvak::Book::try_from(engine::book(&start)) {
            Ok(book) => book,
            Err(refusal) => {
                assert_eq!((refusal, start.shown > MAX_ENTRIES), (Refusal::BookFull, true));
                continue;
            }
        };
        for (call, number, expected) in turns {
            let answer = match call {
                Call::Enter(setting, pixel) => {
                    let setting = engine::setting(setting).unwrap();
                    let entered = book.enter(&row, setting, engine::pixel(pixel));
                    entered.map(|(serial, _)| assert_eq!(serial, expected.last))
                }
                Call::Withdraw(serial) => book.withdraw(serial),
            };
            assert_eq!(answer.err().map_or(0, Refusal::number), number, "{call:?}");
            assert_eq!(numbers_of(&book), expected, "{call:?}");
            assert_eq!(standing_in(&book), expected.standing(), "{call:?}");
            assert_eq!(book.last_serial(), expected.last, "{call:?}");
        }
    }
}

/// A new book has nothing in it, to the last slot.
#[test]
fn new_books() {
    let empty = Book::of(0, Vec::new());
    assert_eq!(engine::book_of(&raw::new_book()), empty);
    assert_eq!(numbers_of(&diilvak::Book::new()), empty);
    assert_eq!(diilvak::Book::new(), diilvak::Book::default());
}

/// Books by hand become the package's where every entry that stands has a mode and a direction, and are
/// refused for the first that has not. What their unused slots hold is forgotten.
#[test]
fn books_by_hand_for_the_package() {
    let mut random = Random(81);
    let mut counts = [0; 16];
    for _ in 0..rounds(5_000, 100_000) {
        let mut book = any_book(&mut random);
        // Few books of many entries have no fault at all.
        if random.below(2) == 0 {
            for entry in &mut book.slots {
                (entry.key.mode, entry.direction) =
                    (entry.key.mode % 2, 1 << (entry.direction % 4));
            }
        }
        let fault = |entry: &Entry| match entry {
            Entry { key, .. } if key.mode > 1 => Some(5),
            Entry { direction: 1 | 2 | 4 | 8, .. } => None,
            _ => Some(4),
        };
        let expected = match book.shown {
            0..=256 => book.standing().iter().find_map(fault).unwrap_or(0),
            _ => 15,
        };
        counts[expected] += 1;
        match diilvak::Book::try_from(engine::book(&book)) {
            Ok(package) => {
                assert_eq!(expected, 0, "{book:?}");
                assert_eq!(standing_in(&package), book.standing());
                assert_eq!(numbers_of(&package), Book::of(book.last, book.standing().to_vec()));
            }
            Err(refusal) => assert_eq!(refusal.number(), expected, "{book:?}"),
        }
    }
    assert!([0, 4, 5, 15].iter().all(|&number| counts[number] > 0), "{counts:?}");
}
