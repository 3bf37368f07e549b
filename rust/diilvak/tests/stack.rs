//! Filter, between two plates too, trace, and the calls of the findings book in threads with no more stack
//! than the headers say they find room in. A call that takes more ends the whole run.
use diilvak::limits::{
    ENTER_STACK, FILTER_STACK, MAX_ENTRIES, MAX_SERIAL, TRACE_STACK, WITHDRAW_STACK,
};
use diilvak::{raw, Directions, Ends, Mode, Pixel, Setting};

/// What the thread itself takes: its start, its thread-local storage, and the frames of this test.
const THREAD: usize = 16 * 1024;

/// The books that lie in the frames of this test: a copy to be handed over, the same as an argument of the C
/// function, and the one that is handed back.
const BOOKS: usize = 3 * size_of::<raw::Kept>();

/// The largest square plate, with all gaps: paths of 300 pixels fit on the diagonals alone.
const SIDE: usize = 256;
const LENGTHS: [usize; 2] = [100, 300];
/// In the middle of it.
const AT: usize = SIDE * SIDE / 2 + SIDE / 2;

/// By both lengths, with both kinds of ends.
fn settings() -> impl Iterator<Item = raw::Setting> {
    let both = [Ends::Anywhere, Ends::OnCrack];
    let all = LENGTHS.into_iter().flat_map(move |length| both.map(|ends| (length, ends)));
    all.map(|(length, ends)| {
        Setting::new(length, 8, Directions::ALL, Mode::Opening, ends).unwrap().into()
    })
}

/// No two neighbours alike.
fn plate() -> Vec<i16> {
    (0..SIDE * SIDE).map(|p| (p * 40_503 % 65_521) as i16).collect()
}

fn work() -> Vec<u16> {
    vec![0; raw::work_length(SIDE, SIDE, 8)]
}

/// What the call answers in a thread of this stack.
fn within(stack: usize, call: impl FnOnce() -> usize + Send) -> usize {
    std::thread::scope(|scope| {
        let thread = std::thread::Builder::new().stack_size(stack + THREAD);
        thread.spawn_scoped(scope, call).unwrap().join().unwrap()
    })
}

#[test]
fn filter() {
    for setting in settings() {
        let (plate, mut result, mut work) = (plate(), vec![0; SIDE * SIDE], work());
        let call = || raw::filter(SIDE, SIDE, &plate, setting, &mut result, &mut work);
        assert_eq!(within(FILTER_STACK, call), 0);
        assert!(result.iter().zip(&plate).all(|(opened, own)| opened <= own));
    }
}

#[test]
fn filter_between() {
    for setting in settings() {
        let (lowest, mut work, mut place) = (plate(), work(), 1);
        let highest: Vec<i16> = lowest.iter().map(|level| level.saturating_add(99)).collect();
        let (mut low, mut high) = (vec![0; SIDE * SIDE], vec![0; SIDE * SIDE]);
        let call = || {
            let (low, high, work, place) = (&mut low, &mut high, &mut work, &mut place);
            raw::filter_between(SIDE, SIDE, &lowest, &highest, setting, low, high, work, place)
        };
        assert_eq!((within(FILTER_STACK, call), place), (0, 0));
        assert!(low != high && low.iter().zip(&high).all(|(low, high)| low <= high));
    }
}

#[test]
fn trace() {
    for setting in settings() {
        let (plate, mut path, mut work) = (plate(), vec![0; setting.length], work());
        let (mut direction, mut level) = (0, 0);
        let call = || {
            let (d, l) = (&mut direction, &mut level);
            raw::trace(SIDE, SIDE, &plate, setting, AT, &mut path, &mut work, d, l)
        };
        assert_eq!(within(TRACE_STACK, call), 0);
        assert!(path.contains(&AT));
    }
}

/// A full book, of the plates 0 to 255 at the traced place.
fn full_book(last: u32) -> Box<raw::Book> {
    let mut book = Box::new(raw::new_book());
    for (plate, entry) in (0..).zip(&mut book.entries) {
        *entry = raw::Entry { serial: plate + 1, plate: plate as u16, place: AT, ..*entry };
    }
    (book.last, book.count) = (last, MAX_ENTRIES);
    book
}

/// An entry that supersedes another; one for which there is no room, and one without a serial number.
#[test]
fn enter_trace() {
    for setting in settings() {
        let cases = [(256, 5, 0), (256, 256, 15), (MAX_SERIAL, 5, 16)];
        for (last, number, expected) in cases {
            let (plate, mut path, mut work) = (plate(), vec![0; setting.length], work());
            let (mut direction, mut level) = (0, 0);
            let book = full_book(last);
            let call = || {
                let (p, w, d, l) = (&mut path, &mut work, &mut direction, &mut level);
                let pixel = Pixel { plate: number, place: AT };
                let handed = (*book).clone();
                raw::enter_trace(SIDE, SIDE, &plate, setting, pixel, handed, p, w, d, l).number
            };
            assert_eq!(within(ENTER_STACK + BOOKS, call), expected);
            assert_eq!(path.contains(&AT), expected == 0);
        }
    }
}

#[test]
fn withdraw() {
    for (serial, expected) in [(6, 0), (257, 17)] {
        let book = full_book(256);
        let call = || raw::withdraw((*book).clone(), serial).number;
        assert_eq!(within(WITHDRAW_STACK + BOOKS, call), expected);
    }
}
