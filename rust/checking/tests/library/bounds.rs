//! Plates known between two levels (document 02, N7): what is left of the lowest plate and of the highest,
//! of every plate between them, and which pixel is told where the two cross.
use checking::cases::{case, rounds, small_case, worked_bounds};
use checking::engine::{self, numbers};
use checking::plate::{BOTH_ENDS, CLOSING, EAST, OPENING};
use checking::random::{plate, Kind, Random, EDGE_LEVELS, KINDS};
use checking::table::work_length;
use checking::{fast, listing, Plate, Refusal, Setting};
use diilvak::raw;
use std::collections::{BTreeMap, BTreeSet};

fn refused<T>(number: usize, place: usize) -> Result<T, Refusal> {
    Err(Refusal { number, place })
}

/// A setting in both modes, with both kinds of ends.
fn all_four(setting: Setting) -> impl Iterator<Item = Setting> {
    let modes = [OPENING, CLOSING].into_iter().map(move |mode| Setting { mode, ..setting });
    modes.flat_map(|setting| BOTH_ENDS.map(|ends| setting.with_ends(ends)))
}

#[test]
fn worked_rows() {
    for ([lowest, highest], setting, kept) in worked_bounds() {
        let expected = kept.map(|levels| lowest.with(levels));
        let found = engine::filter_between(&lowest, &highest, setting);
        assert_eq!(found, Ok(expected), "{lowest:?} {highest:?} {setting:?}");
    }
}

/// The refused row crosses at two pixels.
#[test]
fn worked_refusals() {
    let row = |levels: [i16; 4]| Plate::new(4, 1, levels.to_vec()).unwrap();
    let (lowest, highest) = (row([9, 5, 12, 8]), row([9, 4, 12, 7]));
    let setting = Setting::new(4, 1, EAST, OPENING);
    for setting in all_four(setting) {
        assert_eq!(engine::filter_between(&lowest, &highest, setting), refused(20, 1));
    }
    for (ends, expected) in [(0, (20, 1)), (1, (20, 1)), (2, (18, 0)), (usize::MAX, (18, 0))] {
        let (mut low, mut high, mut work, mut place) = ([7; 4], [7; 4], [7; 32], 7);
        let number = raw::filter_between(
            4,
            1,
            lowest.levels(),
            highest.levels(),
            numbers(setting.with_ends(ends)),
            &mut low,
            &mut high,
            &mut work,
            &mut place,
        );
        assert_eq!((number, place), expected, "ends {ends}");
        assert_eq!((low, high, work), ([7; 4], [7; 4], [7; 32]), "ends {ends}");
    }
}

/// The package tells plates of different sizes apart before it looks at their levels, also where they have
/// as many pixels.
#[test]
fn plates_of_different_sizes() {
    let flat = |width, height, level| Plate::new(width, height, vec![level; width * height]);
    let setting = Setting::new(1, 0, EAST, OPENING);
    for (lowest, highest, number) in [(3, 3, 0), (3, 4, 0), (4, 3, 20)] {
        let lowest = flat(4, 1, lowest).unwrap();
        for (width, height) in [(4, 1), (2, 2), (1, 4), (3, 1), (5, 1), (4, 2)] {
            let highest = flat(width, height, highest).unwrap();
            let found = engine::filter_between(&lowest, &highest, setting);
            let expected = if (width, height) == (4, 1) { number } else { 6 };
            let found = found.err().map_or((0, 0), |refusal| (refusal.number, refusal.place));
            assert_eq!(found, (expected, 0), "{width} × {height}");
        }
    }
}

/// The plate with every level raised by less than `above`, or as far as levels go.
fn raised(random: &mut Random, lowest: &Plate, above: usize) -> Plate {
    let mut raise = |level: i16| i32::from(level) + random.below(above) as i32;
    let levels = lowest.levels().iter().map(|&level| raise(level).min(i16::MAX.into()) as i16);
    lowest.with(levels.collect())
}

/// Up to six pixels, each up to two levels higher on the second plate: on most, levels that are next to each
/// other or at the ends of the range.
fn small_pair(random: &mut Random) -> (Plate, Plate) {
    let width = random.within(1, 6);
    let height = random.within(1, 6 / width);
    let kind = random.pick(&[Kind::Ties, Kind::Ties, Kind::Edges, Kind::Noise]);
    let lowest = plate(random, kind, width, height);
    let highest = raised(random, &lowest, 3);
    (lowest, highest)
}

/// Every plate between the two, both included.
fn plates_between(lowest: &Plate, highest: &Plate) -> Vec<Plate> {
    let mut all: Vec<Vec<i16>> = vec![Vec::new()];
    for (&low, &high) in lowest.levels().iter().zip(highest.levels()) {
        let longer = |levels: Vec<i16>| (low..=high).map(move |v| [&levels[..], &[v]].concat());
        all = all.into_iter().flat_map(longer).collect();
    }
    all.into_iter().map(|levels| lowest.with(levels)).collect()
}

/// How often what is worth trying came up.
type Seen = BTreeMap<&'static str, usize>;

fn count(seen: &mut Seen, what: &'static str, pixels: impl Iterator<Item = bool>) {
    *seen.entry(what).or_insert(0) += pixels.filter(|&is| is).count();
}

/// The results of a pair: at each pixel the least and the most that the listing leaves of any plate between
/// the two. So every plate between is filtered to one between the results, and either end is reached.
fn hold_pair([lowest, highest]: [&Plate; 2], setting: Setting, seen: &mut Seen, case: &str) {
    let [low, high] = engine::filter_between(lowest, highest, setting).expect("accepted");
    let between = plates_between(lowest, highest);
    let filtered: Vec<Plate> = between.iter().map(|p| listing::filter(p, setting)).collect();
    for p in 0..lowest.pixels() {
        let left = || filtered.iter().map(move |plate| plate.levels()[p]);
        let (least, most) = (low.levels()[p], high.levels()[p]);
        assert_eq!((left().min(), left().max()), (Some(least), Some(most)), "{case} at {p}");
        count(seen, "levels strictly between", left().map(|level| least < level && level < most));
    }
    assert_eq!(low, listing::filter(lowest, setting), "{case}");
    assert_eq!(high, listing::filter(highest, setting), "{case}");

    let pixels = || 0..lowest.pixels();
    let known = |p: usize| lowest.levels()[p] == highest.levels()[p];
    let settled = |p: usize| low.levels()[p] == high.levels()[p];
    count(seen, "plates between", between.iter().map(|_| true));
    count(seen, "pixels settled all the same", pixels().map(|p| !known(p) && settled(p)));
    count(seen, "known pixels left open", pixels().map(|p| known(p) && !settled(p)));
    count(seen, "from the lowest level", pixels().map(|p| lowest.levels()[p] == i16::MIN));
    count(seen, "up to the highest level", pixels().map(|p| highest.levels()[p] == i16::MAX));
}

#[test]
fn small_pairs_with_every_plate_between() {
    let mut random = Random(60);
    let pairs = rounds(1_500, 40_000);
    let (mut seen, mut by_setting, mut shapes) = (Seen::new(), BTreeMap::new(), BTreeSet::new());
    for round in 0..pairs {
        let (lowest, highest) = small_pair(&mut random);
        let (width, height) = (lowest.width(), lowest.height());
        let length = random.within(1, width + height);
        let gaps = random.below(length.min(3));
        let directions = random.within(1, 15);
        for setting in all_four(Setting::new(length, gaps, directions, OPENING)) {
            let case = format!("round {round}: {lowest:?} {highest:?} {setting:?}");
            hold_pair([&lowest, &highest], setting, &mut seen, &case);
            let crossed = setting.chosen().any(|d| d.span(width, height) >= length);
            *by_setting.entry((setting.mode, setting.ends, crossed)).or_insert(0) += 1;
        }
        shapes.insert((directions, gaps));
    }
    assert!(seen.len() == 6 && seen.values().all(|&times| times > 500), "{seen:?}");
    assert_eq!(by_setting.len(), 8, "modes, ends, with a path and without: {by_setting:?}");
    assert_eq!(shapes.len(), 45, "all sets of directions with 0, 1 and 2 gaps");
    println!("{pairs} pairs by mode, ends and whether there is a path: {by_setting:?}; {seen:?}");
}

/// A plate between the two.
fn drawn_between(random: &mut Random, lowest: &Plate, highest: &Plate) -> Plate {
    let pairs = lowest.levels().iter().zip(highest.levels());
    let levels = pairs.map(|(&low, &high)| {
        let (low, high) = (i32::from(low), i32::from(high));
        (low + random.below((high - low + 1) as usize) as i32) as i16
    });
    lowest.with(levels.collect())
}

/// The fast methods' results, in both modes and with both ends, and a plate between that stays between.
/// Returns at how many pixels the results differ.
fn hold_larger(random: &mut Random, lowest: &Plate, highest: &Plate, setting: Setting) -> usize {
    let not_above = |a: &Plate, b: &Plate| a.levels().iter().zip(b.levels()).all(|(a, b)| a <= b);
    let mut differ = 0;
    for setting in all_four(setting) {
        let case = format!("{} × {} {setting:?}", lowest.width(), lowest.height());
        let [low, high] = engine::filter_between(lowest, highest, setting).expect("accepted");
        assert!(low == fast::filter(lowest, setting), "{case}: the lowest");
        assert!(high == fast::filter(highest, setting), "{case}: the highest");
        let kept = fast::filter(&drawn_between(random, lowest, highest), setting);
        assert!(not_above(&low, &kept) && not_above(&kept, &high), "{case}: between");
        differ += low.levels().iter().zip(high.levels()).filter(|(low, high)| low < high).count();
    }
    differ
}

#[test]
fn larger_pairs() {
    let mut random = Random(61);
    let pairs = rounds(40, 1_500);
    let mut by_spread = BTreeMap::new();
    for _ in 0..pairs {
        let kind = random.pick(&KINDS);
        let (width, height) = (random.within(1, 60), random.within(1, 60));
        let (lowest, setting) = case(&mut random, kind, width, height);
        let spread = random.pick(&[1, 3, 300, 65_536]);
        let highest = raised(&mut random, &lowest, spread);
        *by_spread.entry(spread).or_insert(0) +=
            hold_larger(&mut random, &lowest, &highest, setting);
    }
    for (width, height, length, gaps) in [(40, 30, 25, 3), (256, 256, 30, 2)] {
        let lowest = plate(&mut random, Kind::Wall, width, height);
        let highest = raised(&mut random, &lowest, 300);
        let setting = Setting::new(length, gaps, 15, OPENING);
        assert!(hold_larger(&mut random, &lowest, &highest, setting) > width * height);
    }
    // With a spread of 1 the two plates are equal.
    assert!(by_spread.iter().all(|(&spread, &differ)| (spread == 1) == (differ == 0)));
    println!("{pairs} larger pairs, pixels that differ by the spread: {by_spread:?}");
}

/// One plate for both, in one piece of memory: the same result twice.
#[test]
fn equal_plates() {
    let mut random = Random(62);
    for round in 0..rounds(1_000, 30_000) {
        let (plate, setting) = small_case(&mut random);
        let (width, height, levels) = (plate.width(), plate.height(), plate.levels());
        for setting in all_four(setting) {
            let (mut low, mut high) = (vec![0; levels.len()], vec![1; levels.len()]);
            let mut work = vec![2; work_length(width, height, setting.gaps)];
            let mut place = 3;
            let number = raw::filter_between(
                width,
                height,
                levels,
                levels,
                numbers(setting),
                &mut low,
                &mut high,
                &mut work,
                &mut place,
            );
            let expected = listing::filter(&plate, setting);
            assert_eq!((number, place), (0, 0), "round {round}");
            assert_eq!([low, high].map(|levels| plate.with(levels)), [expected.clone(), expected]);
        }
    }
}

/// One pixel with every pair of levels at the ends of the range and around zero.
#[test]
fn pairs_of_edge_levels() {
    let setting = Setting::new(1, 0, EAST, OPENING);
    let pixel = |level| Plate::new(1, 1, vec![level]).unwrap();
    for lowest in EDGE_LEVELS {
        for highest in EDGE_LEVELS {
            // A path of one pixel leaves every level.
            let expected = match i32::from(highest) - i32::from(lowest) {
                0.. => Ok([pixel(lowest), pixel(highest)]),
                _ => refused(20, 0),
            };
            for setting in all_four(setting) {
                let found = engine::filter_between(&pixel(lowest), &pixel(highest), setting);
                assert_eq!(found, expected, "{lowest} {highest}");
            }
        }
    }
}

/// Up to three crossing pixels, set by hand: the first of them is told, and they cross by one level or by
/// all of them.
#[test]
fn first_crossing_pixel() {
    let mut random = Random(63);
    let mut several = 0;
    for round in 0..rounds(3_000, 100_000) {
        let (width, height) = match round % 500 {
            0 => random.pick(&[(256, 256), (1024, 64), (1, 1024), (1024, 7)]),
            _ => (random.within(1, 9), random.within(1, 9)),
        };
        let lowest = plate(&mut random, Kind::Edges, width, height);
        let highest = raised(&mut random, &lowest, 3);
        let [mut low, mut high] = [&lowest, &highest].map(|plate| plate.levels().to_vec());
        let last = lowest.pixels() - 1;
        let places = [last, random.within(0, last), random.within(0, last)];
        let places = &places[..random.within(1, 3)];
        for &p in places {
            (low[p], high[p]) = random.pick(&[(1, 0), (0, -1), (i16::MAX, i16::MIN)]);
        }
        let setting = Setting::new(3, 1, random.within(1, 15), round % 2);
        let found = engine::filter_between(&lowest.with(low), &highest.with(high), setting);
        let first = places.iter().min().copied().unwrap();
        assert_eq!(found, refused(20, first), "round {round}: {width} × {height} {places:?}");
        several += usize::from(first < last && places.len() > 1);
    }
    assert!(several > 1_000, "{several}");
    println!("{several} plates with several crossing pixels");
}
