//! Histories of a findings book (document 02, N3): the worked ones, and what the document says of every list
//! of calls from an empty book.
use crate::book::{Book, Entry, Key, Pixel, MAX_SERIAL};
use crate::plate::{CLOSING, EAST, OPENING};
use crate::{Plate, Setting};

/// A call of a worked history, on the row 9, 5, 12, 8: a trace that is entered, or a withdrawal.
#[derive(Clone, Copy, Debug)]
pub enum Call {
    Enter(Setting, Pixel),
    Withdraw(u32),
}

/// The row of the worked histories.
pub fn worked_row() -> Plate {
    Plate::new(4, 1, vec![9, 5, 12, 8]).unwrap()
}

/// A history: the book that it starts with, and for each call its number and the book that comes back.
pub type History = (Book, Vec<(Call, usize, Book)>);

/// Plays the worked histories: a call on the row, with the book that came back last, gives a number and a
/// book, which have to be the worked ones.
pub fn play_worked(mut play: impl FnMut(&Plate, Call, &Book) -> (usize, Book)) {
    for (mut book, turns) in worked_histories() {
        for (call, number, expected) in turns {
            let (found, after) = play(&worked_row(), call, &book);
            assert_eq!((found, &after), (number, &expected), "{call:?} on {book:?}");
            book = after;
        }
    }
}

fn entry([serial, plate, place, mode]: [u32; 4], level: i16) -> Entry {
    let pixel = Pixel { plate: plate as u16, place: place as usize };
    Entry { serial, key: Key { pixel, mode: mode as usize }, level, direction: EAST }
}

/// By paths of 4 pixels to the east with one gap; 5 pixels are too many for the row.
fn enter_by(length: usize, plate: u16, place: usize, mode: usize) -> Call {
    Call::Enter(Setting::new(length, 1, EAST, mode), Pixel { plate, place })
}

fn enter(plate: u16, place: usize, mode: usize) -> Call {
    enter_by(4, plate, place, mode)
}

/// The serial numbers 1 to 256, of the plates 0 to 255.
fn full(last: u32) -> Book {
    Book::of(last, (1..=256).map(|serial| entry([serial, serial - 1, 0, 0], 8)).collect())
}

pub fn worked_histories() -> Vec<History> {
    let mut histories = vec![short_history(), last_serials(), key_twice(), serial_twice()];
    histories.extend([full_book(), full_and_spent()]);
    histories.extend([257, 300, 1 << 32, usize::MAX].map(overfull));
    histories
}

/// Superseding and withdrawing.
fn short_history() -> History {
    let (first, second) = (entry([1, 7, 0, 0], 8), entry([2, 7, 1, 0], 5));
    let (third, fourth) = (entry([3, 7, 0, 1], 9), entry([4, 7, 0, 0], 8));
    let after_four = Book::of(4, vec![second, third, fourth]);
    let without_four = Book::of(4, vec![second, third]);
    let turns = vec![
        (enter(7, 0, OPENING), 0, Book::of(1, vec![first])),
        (enter(7, 1, OPENING), 0, Book::of(2, vec![first, second])),
        (enter(7, 0, CLOSING), 0, Book::of(3, vec![first, second, third])),
        (enter(7, 0, OPENING), 0, after_four.clone()),
        (Call::Withdraw(1), 17, after_four),
        (Call::Withdraw(4), 0, without_four.clone()),
        (Call::Withdraw(4), 17, without_four),
        (enter(7, 0, OPENING), 0, Book::of(5, vec![second, third, entry([5, 7, 0, 0], 8)])),
    ];
    (Book::of(0, vec![]), turns)
}

fn full_book() -> History {
    let book = full(256);
    let mut superseded = book.slots.clone();
    superseded.remove(5);
    superseded.push(entry([257, 5, 0, 0], 8));
    let turns = vec![
        (enter(256, 0, OPENING), 15, book.clone()),
        (enter(256, 4, OPENING), 11, book.clone()),
        (enter_by(5, 256, 0, OPENING), 12, book.clone()),
        (enter(5, 0, OPENING), 0, Book::of(257, superseded)),
    ];
    (book, turns)
}

fn full_and_spent() -> History {
    let book = full(MAX_SERIAL);
    let mut rest = book.slots.clone();
    rest.remove(5);
    let turns = vec![
        (enter(5, 0, OPENING), 16, book.clone()),
        (enter(256, 0, OPENING), 15, book.clone()),
        (Call::Withdraw(6), 0, Book::of(MAX_SERIAL, rest)),
    ];
    (book, turns)
}

fn last_serials() -> History {
    let after = Book::of(MAX_SERIAL, vec![entry([MAX_SERIAL, 7, 0, 0], 8)]);
    let turns = vec![
        (enter(7, 0, OPENING), 0, after.clone()),
        (enter(7, 0, OPENING), 16, after.clone()),
        (enter(7, 1, OPENING), 16, after),
    ];
    (Book::of(MAX_SERIAL - 1, vec![]), turns)
}

/// A book that shows more than it can have.
fn overfull(shown: usize) -> History {
    let book = Book { shown, ..full(256) };
    let withdrawals = [0, 6, 256, 300, MAX_SERIAL].map(Call::Withdraw);
    let all = [enter(7, 0, OPENING), enter(300, 0, OPENING)].into_iter().chain(withdrawals);
    let refused = all.map(|call| (call, 15)).chain([(enter(7, 4, OPENING), 11)]);
    let turns = refused.map(|(call, number)| (call, number, book.clone())).collect();
    (book, turns)
}

/// A book put together by hand, in which a key and a serial number stand twice.
fn by_hand() -> (Book, [Entry; 4]) {
    let entries = [[4, 7, 0, 0], [5, 7, 1, 0], [6, 7, 0, 0], [5, 9, 0, 0]];
    let entries = entries.map(|numbers| entry(numbers, 8));
    (Book::of(9, entries.to_vec()), entries)
}

fn key_twice() -> History {
    let (book, [_, second, _, fourth]) = by_hand();
    let after = Book::of(10, vec![second, fourth, entry([10, 7, 0, 0], 8)]);
    (book, vec![(enter(7, 0, OPENING), 0, after)])
}

fn serial_twice() -> History {
    let (book, [first, _, third, _]) = by_hand();
    (book, vec![(Call::Withdraw(5), 0, Book::of(9, vec![first, third]))])
}

/// An accepted call.
#[derive(Clone, Copy, Debug)]
pub enum Event {
    Entered(Entry),
    Withdrawn(u32),
}

/// What stands after these calls on an empty book: "for a key its last accepted entry alone, or nothing once
/// that is withdrawn", in the order of entering. Read off the calls, without a book.
pub fn standing_after(events: &[Event]) -> Vec<Entry> {
    let stands = |(at, event): (usize, &Event)| {
        let Event::Entered(entry) = *event else { return None };
        let gone = events[at + 1..].iter().any(|later| match later {
            Event::Entered(other) => other.key == entry.key,
            Event::Withdrawn(serial) => *serial == entry.serial,
        });
        (!gone).then_some(entry)
    };
    events.iter().enumerate().filter_map(stands).collect()
}
