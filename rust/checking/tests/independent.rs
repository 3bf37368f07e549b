//! The methods that the library is held against, held against each other. Needs no library.
use checking::book::{Book, Entry, Key, Pixel};
use checking::cases::{self, case, rounds, small_case};
use checking::histories::{play_worked, standing_after, Call, Event};
use checking::listing::{self, admits, each_path, judge};
use checking::plate::{ANYWHERE, BOTH_ENDS, CLOSING, DIRECTIONS, EAST, NORTH, ON_CRACK, OPENING};
use checking::random::{Random, KINDS};
use checking::table::{self, Lengths};
use checking::{levels, queue, recursion, text, Plate, Refusal, Setting, Trace};

type Filter = fn(&Plate, Setting) -> Plate;

/// The methods beside the listing that can do paths with such ends; the slowest first.
fn methods(ends: usize) -> Vec<(&'static str, Filter)> {
    let mut methods: Vec<(_, Filter)> =
        vec![("levels", levels::filter), ("recursion", recursion::filter)];
    if ends == ANYWHERE {
        methods.push(("queue", queue::filter));
    }
    methods
}

/// The filtered plate by the listing and by every other method.
fn all_make(plate: &Plate, setting: Setting, expected: &[i16], case: &str) {
    let listing: (_, Filter) = ("listing", listing::filter);
    for (method, filter) in methods(setting.ends).into_iter().chain([listing]) {
        assert_eq!(filter(plate, setting).levels(), expected, "{case} by {method}");
    }
}

#[test]
fn worked_plates() {
    for (name, plate, setting, expected) in cases::worked_plates() {
        all_make(&plate, setting, &expected, name);
    }
}

#[test]
fn worked_ends() {
    for (plate, setting, by_ends) in cases::worked_ends() {
        for (ends, expected) in BOTH_ENDS.into_iter().zip(by_ends) {
            let setting = setting.with_ends(ends);
            all_make(&plate, setting, &expected, &format!("{plate:?} {setting:?}"));
        }
    }
}

#[test]
fn worked_bounds() {
    for (plates, setting, kept) in cases::worked_bounds() {
        for (plate, expected) in plates.iter().zip(kept) {
            all_make(plate, setting, &expected, &format!("{plate:?} {setting:?}"));
        }
    }
}

/// The second reader and its judge on texts of both editions.
#[test]
fn worked_texts() {
    for (asked, answer) in cases::worked_texts() {
        assert_eq!(text::judge(asked.as_bytes(), answer.as_bytes()), Ok(()), "{asked}");
    }
}

/// The findings book, with traces by the listing.
#[test]
fn worked_histories() {
    play_worked(|row, call, book| {
        let (width, height) = (row.width(), row.height());
        let (verdict, after) = match call {
            Call::Enter(setting, pixel) => {
                let work = table::work_length(width, height, setting.gaps);
                let lengths = Lengths { plate: row.pixels(), result: setting.length, work };
                let verdict = table::enter(width, height, setting, pixel, lengths, book);
                let after = verdict.map(|()| {
                    let trace = listing::trace(row, setting, pixel.place).unwrap();
                    book.entered(Key { pixel, mode: setting.mode }, trace.level, trace.direction)
                });
                (verdict, after)
            }
            Call::Withdraw(serial) => {
                let verdict = table::withdraw(book, serial);
                (verdict, verdict.map(|()| book.withdrawn(serial)))
            }
        };
        let number = verdict.err().map_or(0, |refusal| refusal.number);
        (number, after.unwrap_or_else(|_| book.clone()))
    });
}

/// What the findings book keeps is what can be read off the accepted calls.
#[test]
fn books_are_their_histories() {
    let mut random = Random(5);
    for _ in 0..rounds(2_000, 60_000) {
        let (mut book, mut events) = (Book::of(0, Vec::new()), Vec::new());
        for _ in 0..random.within(1, 60) {
            let pixel = Pixel { plate: random.below(2) as u16, place: random.below(2) };
            let key = Key { pixel, mode: random.below(2) };
            let serial = random.within(0, book.last as usize + 1) as u32;
            if random.below(3) > 0 {
                let (level, direction) = (random.draw() as i16, 1 << random.below(4));
                assert_eq!(table::entry(&book, key), Ok(()));
                book = book.entered(key, level, direction);
                events.push(Event::Entered(Entry { serial: book.last, key, level, direction }));
            } else if table::withdraw(&book, serial).is_ok() {
                book = book.withdrawn(serial);
                events.push(Event::Withdrawn(serial));
            }
            assert_eq!(book.standing(), standing_after(&events), "{events:?}");
        }
    }
}

#[test]
#[should_panic(expected = "longest lengths say nothing of paths that end on crack")]
fn queue_is_for_ends_anywhere() {
    let plate = Plate::new(3, 1, vec![9, 7, 8]).unwrap();
    queue::filter(&plate, Setting::new(3, 1, EAST, OPENING).with_ends(ON_CRACK));
}

/// The listing takes the (k + 1)-th lowest level of a path, or a lower end; the definition asks for the
/// highest level at which a path counts. All 65,536 levels are tried, on a few plates.
#[test]
fn listing_is_the_definition() {
    let mut random = Random(1);
    for round in 0..rounds(24, 400) {
        let (plate, mut setting) = small_case(&mut random);
        setting.ends = BOTH_ENDS[round % 2];
        setting.length = setting.length.min(4);
        setting.gaps = setting.gaps.min(setting.length - 1);
        let mut paths = Vec::new();
        each_path(plate.width(), plate.height(), setting, |_, path| paths.push(path.to_vec()));
        let filtered = listing::filter(&plate, setting);
        for p in 0..plate.pixels().min(4) {
            let through: Vec<_> = paths.iter().filter(|path| path.contains(&p)).collect();
            let own = plate.levels()[p];
            let counts = |&t: &i16| through.iter().any(|path| admits(&plate, setting, t, path));
            let expected = if setting.mode == CLOSING {
                (own..=i16::MAX).find(counts).unwrap_or(i16::MAX)
            } else {
                (i16::MIN..=own).rev().find(counts).unwrap_or(i16::MIN)
            };
            assert_eq!(filtered.levels()[p], expected, "{plate:?} {setting:?} at {p}");
        }
    }
}

#[test]
fn methods_are_the_listing() {
    let mut random = Random(2);
    for round in 0..rounds(6_000, 200_000) {
        let (plate, setting) = small_case(&mut random);
        for setting in BOTH_ENDS.map(|ends| setting.with_ends(ends)) {
            let expected = listing::filter(&plate, setting);
            for (method, filter) in methods(setting.ends) {
                let found = filter(&plate, setting);
                assert_eq!(found, expected, "{method}, round {round}: {plate:?} {setting:?}");
            }
        }
    }
}

/// Longer paths and more gaps than can be listed.
#[test]
fn methods_are_levels() {
    let mut random = Random(3);
    for round in 0..rounds(300, 6_000) {
        let kind = random.pick(&KINDS);
        let (width, height) = (random.within(1, 40), random.within(1, 40));
        let (plate, setting) = case(&mut random, kind, width, height);
        for setting in BOTH_ENDS.map(|ends| setting.with_ends(ends)) {
            let expected = levels::filter(&plate, setting);
            for (method, filter) in &methods(setting.ends)[1..] {
                let same = filter(&plate, setting) == expected;
                assert!(same, "{method}, round {round}: {kind:?} {setting:?}");
            }
        }
    }
}

/// Whether a path of length L crosses a pixel depends on the sizes alone; refusal 12 and the fast
/// methods rest on it.
#[test]
fn span_is_the_longest_path_at_every_pixel() {
    for (width, height) in [(1, 1), (1, 5), (5, 1), (2, 3), (4, 2), (3, 3)] {
        for direction in &DIRECTIONS {
            for length in 1..=width + height {
                let setting = Setting::new(length, 0, direction.bit, OPENING);
                let mut crossed = vec![false; width * height];
                each_path(width, height, setting, |_, path| {
                    path.iter().for_each(|&p| crossed[p] = true);
                });
                let expected = length <= direction.span(width, height);
                assert_eq!(
                    crossed,
                    vec![expected; width * height],
                    "{width} × {height} {setting:?}"
                );
            }
        }
    }
}

#[test]
fn judge_accepts_right_traces() {
    let mut random = Random(4);
    for round in 0..rounds(400, 10_000) {
        let (plate, mut setting) = small_case(&mut random);
        setting.ends = BOTH_ENDS[round % 2];
        let at = random.below(plate.pixels());
        let filtered = listing::filter(&plate, setting);
        let answer = listing::trace(&plate, setting, at);
        let again = listing::trace(&filtered, setting, at);
        let verdict = judge(&plate, setting, at, &answer, &filtered, &again);
        assert_eq!(verdict, Ok(()), "round {round}: {plate:?} {setting:?} at {at}");
    }
}

/// A right trace, spoilt in one way for every sentence of demand 3.
#[test]
fn judge_rejects_each_fraud() {
    for mode in [OPENING, CLOSING] {
        let dark = |v: i16| if mode == CLOSING { -1 - v } else { v };
        let levels = [3, 9, 4, 8, 7, 2, 6, 5, 1].map(dark).to_vec();
        let plate = Plate::new(3, 3, levels).unwrap();
        let setting = Setting::new(3, 1, EAST | NORTH, mode);
        let at = 4;
        let filtered = listing::filter(&plate, setting);
        let right = listing::trace(&plate, setting, at).unwrap();
        let again = listing::trace(&filtered, setting, at);
        let refused = |number| Err(Refusal { number, place: 0 });
        let verdict =
            |answer: &Result<Trace, Refusal>| judge(&plate, setting, at, answer, &filtered, &again);
        assert_eq!(verdict(&Ok(right.clone())), Ok(()));

        let spoilt = |change: fn(&mut Trace)| {
            let mut trace = right.clone();
            change(&mut trace);
            verdict(&Ok(trace)).expect_err("spoilt")
        };
        let further = if mode == CLOSING { -1 } else { 1 };
        assert_eq!(verdict(&refused(12)).unwrap_err(), "refused although a path crosses the pixel");
        assert!(verdict(&refused(11)).unwrap_err().starts_with("wrong refusal 11"));
        assert_eq!(spoilt(|t| t.direction = 4), "not a chosen direction");
        assert_eq!(spoilt(|t| t.direction = 3), "not a chosen direction");
        assert_eq!(spoilt(|t| t.direction = 3 - t.direction), "not a step of the direction");
        assert_eq!(spoilt(|t| t.path.truncate(2)), "not a path of this length");
        assert_eq!(spoilt(|t| t.path.reverse()), "not a step of the direction");
        assert_eq!(spoilt(|t| t.path[2] = 9), "the path leaves the plate");
        assert_eq!(
            spoilt(|t| (t.direction, t.path) = (EAST, vec![0, 1, 2])),
            "the path misses the pixel"
        );
        // Too low a level is found by a path at a higher one, too high a level by its own path.
        let mut low = right.clone();
        low.level -= further;
        assert_eq!(
            verdict(&Ok(low)).unwrap_err(),
            "a path counts at a level nearer to the pixel's own"
        );
        let mut high = right.clone();
        high.level += further;
        assert_eq!(verdict(&Ok(high)).unwrap_err(), "the path does not count at the level");

        // A gap keeps at most its own level, though its path counts at a higher one.
        let q = Plate::new(4, 1, [9, 5, 12, 8].map(dark).to_vec()).unwrap();
        let setting_q = Setting::new(4, 1, EAST, mode);
        let raised = Ok(Trace { direction: EAST, level: dark(8), path: vec![0, 1, 2, 3] });
        assert_eq!(
            judge(&q, setting_q, 1, &raised, &q, &raised).unwrap_err(),
            "the level passes the pixel's own"
        );

        // A path whose first pixel is the gap, which it may not be where cracks end on crack.
        let first = Plate::new(4, 1, [5, 9, 12, 8].map(dark).to_vec()).unwrap();
        let opened = first.with([5, 8, 8, 8].map(dark).to_vec());
        assert_eq!(judge(&first, setting_q, 1, &raised, &opened, &raised), Ok(()));
        assert_eq!(
            judge(&first, setting_q.with_ends(ON_CRACK), 1, &raised, &opened, &raised).unwrap_err(),
            "the path does not count at the level"
        );

        let other = filtered.with(filtered.levels().iter().map(|v| v + 1).collect());
        let answer = Ok(right.clone());
        assert_eq!(
            judge(&plate, setting, at, &answer, &other, &again).unwrap_err(),
            "the level is not the filtered plate's"
        );
        assert!(judge(&plate, setting, at, &answer, &filtered, &refused(12))
            .unwrap_err()
            .starts_with("the filtered plate's trace: refusal 12"));
        let long = Setting::new(4, 1, EAST | NORTH, mode);
        assert_eq!(
            judge(&plate, long, at, &answer, &filtered, &again).unwrap_err(),
            "accepted although no path crosses the pixel"
        );
    }
}
