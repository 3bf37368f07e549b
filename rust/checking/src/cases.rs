//! The plates, texts and books that tests run on: those of the papers, random plates with their settings, and
//! random books.
use crate::book::{Book, Entry, Key, Pixel, MAX_ENTRIES, MAX_SERIAL};
use crate::plate::{ANYWHERE, CLOSING, EAST, NORTH, NORTH_EAST, ON_CRACK, OPENING, SOUTH_EAST};
use crate::random::{plate, Kind, Random, KINDS};
use crate::{Plate, Setting};

/// A short run by default, a long one with DIILVAK_LONG set.
pub fn rounds(short: usize, long: usize) -> usize {
    if std::env::var_os("DIILVAK_LONG").is_some() {
        long
    } else {
        short
    }
}

/// The plates of section 7: name, plate, setting, filtered levels.
pub fn worked_plates() -> Vec<(&'static str, Plate, Setting, Vec<i16>)> {
    let q = [9, 5, 12, 8];
    let square = [1, 9, 9, 1];
    let (low, high) = (i16::MIN, i16::MAX);
    let row = |name, width: usize, levels: &[i16], setting: [usize; 4], expected: &[i16]| {
        let plate = Plate::new(width, levels.len() / width, levels.to_vec()).unwrap();
        let [length, gaps, directions, mode] = setting;
        (name, plate, Setting::new(length, gaps, directions, mode), expected.to_vec())
    };
    vec![
        row("P1", 1, &[-7], [1, 0, 15, OPENING], &[-7]),
        row("P2", 1, &[-7], [2, 1, 15, OPENING], &[low]),
        row("P3", 4, &q, [4, 1, EAST, OPENING], &[8, 5, 8, 8]),
        row("P4", 4, &q, [4, 0, EAST, OPENING], &[5, 5, 5, 5]),
        row("P5", 4, &q, [4, 1, EAST, CLOSING], &[9, 9, 12, 9]),
        row("P6", 4, &q, [2, 0, NORTH, OPENING], &[low; 4]),
        row("P6, closing", 4, &q, [2, 0, NORTH, CLOSING], &[high; 4]),
        row("P7", 4, &q, [2, 0, NORTH_EAST, OPENING], &[5, 5, 8, 8]),
        row("P8", 2, &square, [2, 0, NORTH_EAST, OPENING], &[1, 9, 9, 1]),
        row("P9", 2, &square, [2, 0, SOUTH_EAST, OPENING], &[1, 1, 1, 1]),
        row("P10", 1, &[low], [1, 0, 15, CLOSING], &[low]),
    ]
}

/// The rows of document 02, N5, opened or closed to the east: plate, setting, and the filtered levels
/// where paths end anywhere and where they end on crack.
pub fn worked_ends() -> Vec<(Plate, Setting, [Vec<i16>; 2])> {
    let gap_second_and_last = [9, 1, 9, 9, 1];
    let low = i16::MIN;
    let row = |levels: &[i16], [length, gaps, mode]: [usize; 3], by_ends: [&[i16]; 2]| {
        let plate = Plate::new(levels.len(), 1, levels.to_vec()).unwrap();
        (plate, Setting::new(length, gaps, EAST, mode), by_ends.map(<[i16]>::to_vec))
    };
    vec![
        row(&[5, 9, 12, 8], [4, 1, OPENING], [&[5, 8, 8, 8], &[5, 5, 5, 5]]),
        row(&[12, 5, 9, 8], [4, 1, CLOSING], [&[12, 9, 9, 9], &[12, 12, 12, 12]]),
        row(&gap_second_and_last, [3, 1, OPENING], [&gap_second_and_last, &[9, 1, 9, 1, 1]]),
        // A path of two pixels is all ends, so that the gap is of no use.
        row(&gap_second_and_last, [2, 1, OPENING], [&gap_second_and_last, &[1, 1, 9, 9, 1]]),
        row(&gap_second_and_last, [2, 0, OPENING], [&[1, 1, 9, 9, 1], &[1, 1, 9, 9, 1]]),
        // The gap is inside.
        row(&[9, 5, 12, 8], [4, 1, OPENING], [&[8, 5, 8, 8], &[8, 5, 8, 8]]),
        row(&[3], [1, 0, OPENING], [&[3], &[3]]),
        row(&[3], [2, 1, OPENING], [&[low], &[low]]),
    ]
}

/// The rows of document 02, N7, filtered to the east: the lowest plate and the highest, the setting, and
/// what is left of each.
pub fn worked_bounds() -> Vec<([Plate; 2], Setting, [Vec<i16>; 2])> {
    let (q, q_at_most) = ([9, 5, 12, 8], [9, 6, 12, 9]);
    let (low, high) = ([i16::MIN; 4], [i16::MAX; 4]);
    let row = |bounds: [[i16; 4]; 2], length, mode, ends, kept: [[i16; 4]; 2]| {
        let plates = bounds.map(|levels| Plate::new(4, 1, levels.to_vec()).unwrap());
        let setting = Setting::new(length, 1, EAST, mode).with_ends(ends);
        (plates, setting, kept.map(|levels| levels.to_vec()))
    };
    vec![
        row([q, q_at_most], 4, OPENING, ANYWHERE, [[8, 5, 8, 8], [9, 6, 9, 9]]),
        row([q, q_at_most], 4, CLOSING, ANYWHERE, [[9, 9, 12, 9], [9, 9, 12, 9]]),
        row([[5, 9, 12, 8], [7, 9, 13, 8]], 4, OPENING, ON_CRACK, [[5; 4], [7; 4]]),
        // No path of 5 pixels fits.
        row([q, q_at_most], 5, OPENING, ANYWHERE, [low, low]),
        row([q, q_at_most], 5, CLOSING, ANYWHERE, [high, high]),
    ]
}

/// Texts of both editions and the answers to them (document 02, N5): the example of the second one, with
/// lines changed.
pub fn worked_texts() -> Vec<(String, &'static str)> {
    let example = include_str!("../../../examples/ends.txt");
    let changed = |changes: &[(&str, &str)]| {
        changes.iter().fold(example.to_string(), |text, (line, other)| {
            assert!(text.contains(line), "{line}");
            text.replacen(line, other, 1)
        })
    };
    let (length, ends) = (("length=4\n", "length=5\n"), ("ends=1\n", "ends=2\n"));
    let no_path = "width=4\nheight=1\nout=-32768,-32768,-32768,-32768\nrefused=12\nplace=0\n";
    let on_crack = "width=4\nheight=1\nout=5,5,5,5\nway=2\nlevel=5\npath=0,1,2,3\n";
    let anywhere = "width=4\nheight=1\nout=5,8,8,8\nway=2\nlevel=5\npath=0,1,2,3\n";
    vec![
        (changed(&[]), on_crack),
        (changed(&[("ends=1\n", "ends=000001\n")]), on_crack),
        (changed(&[("ends=1\n", "ends=0\n")]), anywhere),
        (changed(&[("plate=2\n", "plate=1\n"), ("ends=1\n", "")]), anywhere),
        (changed(&[length]), no_path),
        (changed(&[ends]), "refused=18\nplace=0\n"),
        (changed(&[ends, ("mode=0\n", "mode=2\n")]), "refused=5\nplace=0\n"),
        (changed(&[ends, length]), "refused=18\nplace=0\n"),
        (changed(&[ends, ("at=0\n", "at=4\n")]), "refused=18\nplace=0\n"),
        (changed(&[ends, ("row=5", "row=16384")]), "refused=9\nplace=0\n"),
        (changed(&[ends, ("cor=0,0", "cor=0,49151")]), "refused=10\nplace=1\n"),
        (changed(&[("ends=1\n", "ends=65536\n")]), "refused=13\nplace=6\n"),
        (changed(&[("ends=1\n", "")]), "refused=13\nplace=6\n"),
        (changed(&[("plate=2\n", "plate=1\n")]), "refused=13\nplace=6\n"),
        (changed(&[("plate=2\n", "plate=3\n")]), "refused=13\nplace=1\n"),
        (changed(&[("plate=2\n", "plate=02\n")]), "refused=13\nplace=1\n"),
    ]
}

/// A plate on which all paths of the setting can be listed: at most eight lines across the longest
/// direction, or a thin strip with longer paths. The setting is within its limits, and now and then
/// too long for the plate.
pub fn small_case(random: &mut Random) -> (Plate, Setting) {
    let (width, height) = match random.below(6) {
        0 => (1, random.within(1, 40)),
        1 => (random.within(1, 40), 1),
        2 => (2, random.within(2, 9)),
        3 => (random.within(2, 9), 2),
        _ => (random.within(1, 6), random.within(1, 6)),
    };
    let length = small_length(random, width, height);
    let gaps = random.below(length.min(9));
    let setting = Setting::new(length, gaps, random.within(1, 15), random.below(2));
    (small_plate(random, width, height), setting)
}

/// A length at which all paths of such a plate can be listed, or that it has no path of.
pub fn small_length(random: &mut Random, width: usize, height: usize) -> usize {
    let thin = width == 1 || height == 1;
    random.within(1, if thin { width + height } else { 10 })
}

fn small_plate(random: &mut Random, width: usize, height: usize) -> Plate {
    let kind = random.pick(&KINDS);
    plate(random, kind, width, height)
}

/// A plate up to the given sides, with L up to 60.
pub fn case(random: &mut Random, kind: Kind, width: usize, height: usize) -> (Plate, Setting) {
    let plate = plate(random, kind, width, height);
    let length = random.within(1, 60);
    let gaps = random.below(length.min(9));
    (plate, Setting::new(length, gaps, random.within(1, 15), random.below(2)))
}

/// A book put together by hand, right or wrong. Many have few keys and serial numbers, so that most come more
/// than once; one in six shows more entries than it can have; half have something in their unused slots.
pub fn any_book(random: &mut Random) -> Book {
    let last = match random.below(4) {
        0 => MAX_SERIAL - random.below(3) as u32,
        1 => random.draw() as u32,
        _ => random.below(300) as u32,
    };
    let shown = match random.below(6) {
        0 => random.pick(&[257, 300, 65_536 + 3, (1 << 32) + 3, usize::MAX]),
        1 | 2 => random.within(254, 256),
        _ => random.below(9),
    };
    let (plates, serials) = random.pick(&[(2, 5), (2, 300), (65_536, 300)]);
    let mut slots: Vec<Entry> =
        (0..MAX_ENTRIES).map(|_| any_entry(random, plates, serials)).collect();
    if random.below(2) == 0 {
        slots.iter_mut().skip(shown).for_each(|slot| *slot = Entry::default());
    }
    Book { last, shown, slots }
}

/// An entry of these many plates and serial numbers, now and then of a mode or a direction that does not exist.
fn any_entry(random: &mut Random, plates: usize, serials: usize) -> Entry {
    let pixel = Pixel { plate: random.below(plates) as u16, place: random.below(3) };
    let mode = random.pick(&[0, 0, 0, 1, 1, 1, 2, usize::MAX]);
    let direction = random.pick(&[1, 2, 4, 8, 0, 3]);
    let serial = random.below(serials) as u32;
    Entry { serial, key: Key { pixel, mode }, level: random.draw() as i16, direction }
}
