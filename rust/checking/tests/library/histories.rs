//! Random histories of findings books (document 02, N3): every call is held to the refusal table, and the book
//! that it hands back, to the last slot, to one that shares no code with the library. From an empty book, what
//! stands is also read off the accepted calls alone.
use crate::book::{numbers_of, standing_in};
use crate::faults::{any_call, AnyCall};
use crate::traces::{enter_call, noise, withdraw_call, Asked};
use checking::book::{Book, Entry, Key, Pixel, MAX_ENTRIES};
use checking::cases::{any_book, rounds};
use checking::histories::{standing_after, Event};
use checking::random::{plate, Random, KINDS};
use checking::{engine, listing, Plate, Setting, Trace};
use std::collections::BTreeMap;

/// A book in use, the package's own beside it, and the calls that were accepted.
struct History {
    book: Book,
    /// None for a book that shows too much, or has an entry of no mode or no direction.
    package: Option<diilvak::Book>,
    events: Vec<Event>,
}

impl History {
    fn from(book: Book) -> History {
        let package = diilvak::Book::try_from(engine::book(&book)).ok();
        History { book, package, events: Vec::new() }
    }

    fn new() -> History {
        History::from(Book::of(0, Vec::new()))
    }

    /// A trace with right buffers; returns its number. Where it is accepted, it meets every sentence of
    /// demand 3, and its level is the listing's.
    fn enter(
        &mut self,
        random: &mut Random,
        from: &Plate,
        setting: Setting,
        pixel: Pixel,
    ) -> usize {
        let asked = Asked::of(from, setting, pixel.place);
        let answer = enter_call(random, asked, pixel.plate, &self.book);
        if let Some(package) = &mut self.package {
            let setting = engine::setting(setting).expect("within the limits");
            let entered = package.enter(&engine::plate(from), setting, engine::pixel(pixel));
            let entered = entered.map(|(serial, trace)| (serial, engine::trace_of(trace)));
            let expected = answer.clone().map(|(after, trace)| (after.last, trace));
            assert_eq!(entered.map_err(diilvak::Refusal::number), expected);
        }
        let (after, trace) = match answer {
            Ok(accepted) => accepted,
            Err(number) => return number,
        };
        judge_by_listing(from, setting, pixel.place, &trace);
        let Trace { direction, level, .. } = trace;
        let key = Key { pixel, mode: setting.mode };
        let entry = Entry { serial: after.last, key, level, direction };
        self.accept(after, Event::Entered(entry));
        0
    }

    /// A trace of which anything may be wrong, on a plate of noise.
    fn enter_any(&mut self, random: &mut Random, plate: u16) -> usize {
        let AnyCall { size, setting, at, lengths, .. } = any_call(random);
        let levels = noise(random, lengths.plate);
        let asked = Asked { size, levels: &levels, setting, at, lengths };
        match enter_call(random, asked, plate, &self.book) {
            Err(number) => number,
            // Nothing is wrong with it.
            Ok(_) => {
                let from = Plate::new(size.0, size.1, levels).unwrap();
                self.enter(random, &from, setting, Pixel { plate, place: at })
            }
        }
    }

    fn withdraw(&mut self, serial: u32) -> usize {
        let answer = withdraw_call(&self.book, serial);
        if let Some(package) = &mut self.package {
            let withdrawn = package.withdraw(serial).map_err(diilvak::Refusal::number);
            assert_eq!(withdrawn, answer.clone().map(|_| ()));
        }
        match answer {
            Ok(after) => self.accept(after, Event::Withdrawn(serial)),
            Err(number) => return number,
        }
        0
    }

    fn accept(&mut self, after: Book, event: Event) {
        self.book = after;
        self.events.push(event);
        if let Some(package) = &self.package {
            assert_eq!(numbers_of(package), self.book);
            assert_eq!(standing_in(package), self.book.standing());
        }
    }

    /// Document 02's sentence of every list of calls from an empty book, and the serial numbers that were
    /// given: 1, 2, 3 and on.
    fn hold_to_the_law(&self) {
        assert_eq!(self.book.standing(), standing_after(&self.events), "{:?}", self.events);
        let given = self.events.iter().filter_map(|event| match event {
            Event::Entered(entry) => Some(entry.serial),
            Event::Withdrawn(_) => None,
        });
        assert!(given.eq(1..=self.book.last), "{:?}", self.events);
    }
}

fn judge_by_listing(plate: &Plate, setting: Setting, at: usize, trace: &Trace) {
    let filtered = listing::filter(plate, setting);
    let again = engine::trace(&filtered, setting, at);
    let verdict = listing::judge(plate, setting, at, &Ok(trace.clone()), &filtered, &again);
    assert_eq!(verdict, Ok(()), "{plate:?} {setting:?} at {at}: {trace:?}");
}

/// A few plates on which all paths can be listed.
fn small_plates(random: &mut Random) -> Vec<Plate> {
    let mut draw = || {
        let (width, height, kind) = (random.within(2, 4), random.within(1, 4), random.pick(&KINDS));
        plate(random, kind, width, height)
    };
    vec![draw(), draw(), draw()]
}

/// A setting within the limits, now and then with no path on the plate.
fn small_setting(random: &mut Random) -> Setting {
    let length = random.within(1, 4);
    let gaps = random.below(length);
    let setting = Setting::new(length, gaps, random.within(1, 15), random.below(2));
    setting.with_ends(random.below(2))
}

/// A serial number that stands, one that was given not long ago, the next one, or 0.
fn any_serial(random: &mut Random, book: &Book) -> u32 {
    match (random.below(6), book.standing()) {
        (0, _) | (_, []) => book.last.wrapping_sub(random.below(9) as u32),
        (1, _) => random.pick(&[0, book.last.wrapping_add(1)]),
        (_, standing) => random.pick(standing).serial,
    }
}

/// How often a call came to a number; for an entering also whether it has superseded another.
type Seen = BTreeMap<(&'static str, usize), usize>;

/// One call of few keys: a right trace, one of which anything may be wrong, or a withdrawal.
fn any_turn(random: &mut Random, history: &mut History, plates: &[Plate], seen: &mut Seen) {
    let before = history.book.shown;
    let number = random.below(plates.len());
    let (call, found) = match random.below(12) {
        0..=2 => ("withdraw", history.withdraw(any_serial(random, &history.book))),
        3 => ("enter", history.enter_any(random, number as u16)),
        _ => {
            let from = &plates[number];
            let on_the_plate = random.below(from.pixels().min(3));
            let place = if random.below(12) == 0 { from.pixels() } else { on_the_plate };
            let (pixel, setting) = (Pixel { plate: number as u16, place }, small_setting(random));
            ("enter", history.enter(random, from, setting, pixel))
        }
    };
    let superseded = (call, found) == ("enter", 0) && history.book.shown <= before;
    *seen.entry((if superseded { "supersede" } else { call }, found)).or_insert(0) += 1;
}

/// Calls with these numbers came up, superseding ones, and no others.
fn came_up(seen: &Seen, enterings: &[usize], withdrawals: &[usize]) {
    let enterings = enterings.iter().map(|&number| ("enter", number));
    let withdrawals = withdrawals.iter().map(|&number| ("withdraw", number));
    let expected = enterings.chain([("supersede", 0)]).chain(withdrawals);
    assert!(seen.keys().copied().eq(expected), "{seen:?}");
}

/// With the law held after every call.
#[test]
fn histories_from_an_empty_book() {
    let mut random = Random(82);
    let mut seen = Seen::new();
    let histories = rounds(2_000, 60_000);
    for _ in 0..histories {
        let plates = small_plates(&mut random);
        let mut history = History::new();
        for _ in 0..random.within(20, 60) {
            any_turn(&mut random, &mut history, &plates, &mut seen);
            history.hold_to_the_law();
        }
    }
    came_up(&seen, &[0, 1, 2, 3, 4, 5, 6, 7, 8, 11, 12, 18], &[0, 17]);
    println!("{histories} histories from an empty book, calls by number: {seen:?}");
}

/// From books put together by hand: keys and serial numbers that come more than once, counters near the end,
/// more shown than there can be.
#[test]
fn histories_from_any_book() {
    let mut random = Random(83);
    let mut seen = Seen::new();
    let histories = rounds(2_000, 60_000);
    for _ in 0..histories {
        let plates = small_plates(&mut random);
        let mut history = History::from(any_book(&mut random));
        for _ in 0..random.within(5, 30) {
            any_turn(&mut random, &mut history, &plates, &mut seen);
        }
    }
    came_up(&seen, &[0, 1, 2, 3, 4, 5, 6, 7, 8, 11, 12, 15, 16, 18], &[0, 15, 17]);
    println!("{histories} histories from any book, calls by number: {seen:?}");
}

/// A book filled from nothing to the last slot, and then kept about full: only what supersedes gets in, and
/// what is superseded or withdrawn gives its place back.
#[test]
fn full_books() {
    let mut random = Random(84);
    let mut seen = BTreeMap::new();
    let pair = Plate::new(2, 1, vec![3, 4]).unwrap();
    for _ in 0..rounds(6, 100) {
        let mut history = History::new();
        for turn in 0..900 {
            let full = history.book.shown == MAX_ENTRIES;
            // Twice as many keys as places, and few withdrawals before the book is full.
            let pixel = Pixel { plate: random.below(128) as u16, place: random.below(2) };
            let setting = Setting::new(1, 0, random.within(1, 15), random.below(2));
            let (call, found) = match random.below(if turn < 700 { 60 } else { 6 }) {
                0 => ("withdraw", history.withdraw(any_serial(&mut random, &history.book))),
                _ => ("enter", history.enter(&mut random, &pair, setting, pixel)),
            };
            *seen.entry((call, found, full)).or_insert(0) += 1;
            history.hold_to_the_law();
        }
    }
    let enterings = [("enter", 0, false), ("enter", 0, true), ("enter", 15, true)];
    let withdrawals = [(0, false), (0, true), (17, false), (17, true)];
    let withdrawals = withdrawals.map(|(number, full)| ("withdraw", number, full));
    assert!(seen.keys().eq(enterings.iter().chain(&withdrawals)), "{seen:?}");
    println!("books filled to the last slot, calls by number and whether it was full: {seen:?}");
}
