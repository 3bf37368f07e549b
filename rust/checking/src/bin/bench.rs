//! Filter and trace against the ordered queue and against one scan a level, with ends on crack against
//! ends anywhere, the filter between two plates against that of one, a trace that is entered in a book
//! against one that is not, and the correction against two searches and a sum: the same plates, the same
//! run, one thread. Times are processor time, so that other work on the machine counts little: the best of
//! three calls, or one call where that takes over two seconds, with each method's own buffers (the library's
//! are cleared first). The results are compared.
//!
//! `cargo run --release --bin bench [all]`: one scan a level is run where it ends in some seconds, and
//! with `all` on every plate, which takes some minutes.
use checking::plate::BOTH_ENDS;
use checking::random::{plate, Kind, Random};
use checking::{engine, fast, levels, queue, table, Plate, Setting};
use diilvak::limits::MAX_ENTRIES;
use diilvak::{raw, Book, Bounds, Pixel};
use std::hint::black_box;

/// The processor time that this process has taken, in seconds.
fn processor_time() -> f64 {
    #[repr(C)]
    struct Time {
        seconds: i64,
        nanoseconds: i64,
    }
    extern "C" {
        fn clock_gettime(clock: i32, time: *mut Time) -> i32;
    }
    const CLOCK_PROCESS_CPUTIME_ID: i32 = 2;
    let mut time = Time { seconds: 0, nanoseconds: 0 };
    // SAFETY: on 64-bit Linux, where the engine's library links, a timespec is these two numbers.
    let failed = unsafe { clock_gettime(CLOCK_PROCESS_CPUTIME_ID, &mut time) };
    assert_eq!(failed, 0);
    time.seconds as f64 + time.nanoseconds as f64 / 1e9
}

/// The best time of a call in seconds, and its answer.
fn time<T>(mut call: impl FnMut() -> T) -> (f64, T) {
    let mut best = f64::INFINITY;
    for run in 0.. {
        let start = processor_time();
        let answer = call();
        best = best.min(processor_time() - start);
        if run == 2 || best > 2.0 {
            return (best, answer);
        }
    }
    unreachable!()
}

/// The last answer of so many calls.
fn again<T>(times: usize, mut call: impl FnMut() -> T) -> T {
    for _ in 1..times {
        black_box(call());
    }
    call()
}

/// The library's times for a filter and a trace in the plate's middle, and the filtered plate.
fn library(unfiltered: &Plate, setting: Setting) -> (f64, f64, Plate) {
    let at = unfiltered.height() / 2 * unfiltered.width() + unfiltered.width() / 2;
    let setting = engine::setting(setting).expect("accepted");
    let plate = engine::plate(unfiltered);
    let (filter, filtered) = time(|| diilvak::filter(&plate, setting));
    let (trace, shown) = time(|| diilvak::trace(&plate, setting, at).expect("accepted"));
    assert_eq!(shown.level, filtered.levels()[at]);
    (filter, trace, unfiltered.with(filtered.into_levels()))
}

/// How many pixels one scan a level visits: both ways, every direction, level and gap count.
fn visits(plate: &Plate, setting: Setting) -> usize {
    let mut thresholds = plate.levels().to_vec();
    thresholds.sort_unstable();
    thresholds.dedup();
    2 * setting.chosen().count() * thresholds.len() * plate.pixels() * (setting.gaps + 1)
}

/// How many numbers the filter's recursion has on both sides: for every chosen direction, gap count and
/// pixel the places that the pixel can have in a whole path. What is made again is not counted.
fn numbers(plate: &Plate, setting: Setting) -> usize {
    let (width, height) = (plate.width(), plate.height());
    let places = |rank: usize, span: usize| {
        let (spare, last) = (span - setting.length, setting.length - 1);
        rank.min(last) + 1 - rank.saturating_sub(spare)
    };
    let straight = |lines: usize, across: usize| match setting.length <= lines {
        true => across * (0..lines).map(|rank| places(rank, lines)).sum::<usize>(),
        false => 0,
    };
    let diagonal = || {
        let span = width + height - 1;
        let pixels = (0..height).flat_map(|row| (0..width).map(move |column| row + column));
        match setting.length <= span {
            true => pixels.map(|rank| places(rank, span)).sum(),
            false => 0,
        }
    };
    let directions = [straight(height, width), straight(width, height), diagonal(), diagonal()];
    let chosen = (0..4).filter(|index| setting.directions >> index & 1 == 1);
    2 * (setting.gaps + 1) * chosen.map(|index| directions[index]).sum::<usize>()
}

/// The filter on plates that are awkward beside ones that are not: nanoseconds a pixel.
fn awkward() {
    let rows = [(1024, 8, 5, 2), (1024, 7, 5, 2), (1024, 1, 100, 2), (1, 1024, 100, 2)];
    println!("\n| plate | L | k | filter, nanoseconds a pixel |");
    println!("|---|---|---|---|");
    for (width, height, length, gaps) in rows {
        let plate = plate(&mut Random(256), Kind::Wall, width, height);
        let setting = Setting::new(length, gaps, 15, 0);
        let (filter, _, _) = library(&plate, setting);
        let each = filter * 1e9 / plate.pixels() as f64;
        println!("| {width} × {height} | {length} | {gaps} | {each:.0} |");
    }
}

/// Filter and trace where a crack has to end on crack beside where it need not.
fn ends() {
    println!("\n| plate | L | k | filter, ends 0 | ends 1 | ends 1 / ends 0 | trace, ends 0 | ends 1 | ends 1 / ends 0 |");
    println!("|---|---|---|---|---|---|---|---|---|");
    for (width, height, length, gaps) in [(256, 256, 30, 2), (1024, 64, 500, 2)] {
        let plate = plate(&mut Random(256), Kind::Wall, width, height);
        let [(filter, trace), (filter_1, trace_1)] = BOTH_ENDS.map(|ends| {
            let setting = Setting::new(length, gaps, 15, 0).with_ends(ends);
            let (filter, trace, filtered) = library(&plate, setting);
            assert!(filtered == fast::filter(&plate, setting), "ends {ends}: the results differ");
            (filter, trace)
        });
        println!(
            "| {width} × {height}, noise and curves | {length} | {gaps} | \
             {filter:.3} s | {filter_1:.3} s | {:.2} | {trace:.3} s | {trace_1:.3} s | {:.2} |",
            filter_1 / filter,
            trace_1 / trace,
        );
    }
}

/// A filter between two plates beside a filter of the lowest alone.
fn between() {
    let (width, height, length, gaps) = (256, 256, 30, 2);
    let mut random = Random(256);
    let lowest = plate(&mut random, Kind::Wall, width, height);
    let raised = lowest.levels().iter().map(|level| level + random.below(300) as i16).collect();
    let highest = lowest.with(raised);
    let setting = Setting::new(length, gaps, 15, 0);
    let bounds = Bounds { lowest: engine::plate(&lowest), highest: engine::plate(&highest) };
    let chosen = engine::setting(setting).expect("accepted");
    let (one, _) = time(|| diilvak::filter(&bounds.lowest, chosen));
    let (both, kept) = time(|| diilvak::filter_between(&bounds, chosen).expect("accepted"));
    for (plate, kept) in [(&lowest, kept.lowest), (&highest, kept.highest)] {
        let expected = fast::filter(plate, setting);
        assert!(kept.levels() == expected.levels(), "between two plates: the results differ");
    }
    println!("\n| plate | L | k | filter | between two plates | between / filter |");
    println!("|---|---|---|---|---|---|");
    println!(
        "| {width} × {height}, noise and curves | {length} | {gaps} | {one:.3} s | {both:.3} s | {:.2} |",
        both / one
    );
}

/// A trace that is entered in a full book, beside the trace alone: microseconds. On the second plate a trace
/// is so short that the book can be seen.
fn entering() {
    const TIMES: usize = 100;
    println!(
        "\n| plate | L | k | trace, microseconds | entered in a full book | entered / trace |"
    );
    println!("|---|---|---|---|---|---|");
    for (width, height, length, gaps) in [(256, 256, 30, 2), (8, 8, 4, 1)] {
        let from = engine::plate(&plate(&mut Random(256), Kind::Wall, width, height));
        let setting = engine::setting(Setting::new(length, gaps, 15, 0)).expect("accepted");
        let place = height / 2 * width + width / 2;
        let pixel = |plate| Pixel { plate, place };
        let mut book = Book::new();
        for number in 0..MAX_ENTRIES as u16 {
            book.enter(&from, setting, pixel(number)).expect("accepted");
        }
        let (alone, shown) =
            time(|| again(TIMES, || diilvak::trace(&from, setting, place).expect("accepted")));
        let (entered, (_, last)) =
            time(|| again(TIMES, || book.enter(&from, setting, pixel(5)).expect("accepted")));
        assert!(last == shown, "a trace that is entered differs");
        let each = |seconds: f64| seconds * 1e6 / TIMES as f64;
        println!(
            "| {width} × {height}, noise and curves | {length} | {gaps} | {:.1} | {:.1} | {:.2} |",
            each(alone),
            each(entered),
            entered / alone
        );
    }
}

/// The correction of a plate without faults, beside one that searches the readings, then the words, and
/// then adds: nanoseconds a pixel.
fn correction() {
    const TIMES: usize = 100;
    let (width, height) = (256, 256);
    let pixels = width * height;
    let mut random = Random(256);
    let readings: Vec<u16> = (0..pixels).map(|_| random.below(16_384) as u16).collect();
    let words: Vec<u16> =
        (0..pixels).map(|_| (random.below(32_768) as i32 - 16_384) as u16).collect();
    let (mut corrected, mut sums) = (vec![0; pixels], vec![0; pixels]);
    let (walk, _) = time(|| {
        for _ in 0..TIMES {
            let mut place = 0;
            let refused =
                raw::correct(width, height, &readings, &words, &mut corrected, &mut place);
            assert_eq!(refused, 0);
        }
    });
    let (searches, _) = time(|| {
        for _ in 0..TIMES {
            let (readings, words) = (black_box(&readings), black_box(&words));
            table::correct(width, height, readings, words, pixels).expect("no faults");
            for ((sum, &reading), &word) in sums.iter_mut().zip(readings).zip(words) {
                *sum = (i32::from(reading) + table::signed(word)) as i16;
            }
        }
    });
    assert!(corrected == sums, "the library and the sum differ");
    let each = |seconds: f64| seconds * 1e9 / (TIMES * pixels) as f64;
    println!("\n| plate | correction, nanoseconds a pixel | two searches and a sum | ratio |");
    println!("|---|---|---|---|");
    println!(
        "| {width} × {height} | {:.2} | {:.2} | {:.2} |",
        each(walk),
        each(searches),
        searches / walk
    );
}

fn main() {
    let all = std::env::args().any(|word| word == "all");
    let rows = [
        (Kind::Wall, 256, 256, 30, 0),
        (Kind::Wall, 256, 256, 30, 2),
        (Kind::Wall, 256, 256, 100, 2),
        (Kind::Wall, 256, 256, 200, 8),
        (Kind::Wall, 256, 256, 400, 2),
        (Kind::Wall, 1024, 64, 500, 2),
        (Kind::Wall, 1024, 64, 1000, 2),
        (Kind::Flat, 256, 256, 30, 2),
    ];
    println!("Four directions, opening. Both other methods make a whole filtered plate.");
    println!("– is not run: one scan a level would take minutes.");
    println!("Numbers are those of the filter's recursion, each counted once, a second.\n");
    println!("| plate | L | k | filter | trace | queue | queue / filter | trace / filter | numbers | one scan a level | scans / filter |");
    println!("|---|---|---|---|---|---|---|---|---|---|---|");
    for (kind, width, height, length, gaps) in rows {
        let plate = plate(&mut Random(256), kind, width, height);
        let setting = Setting::new(length, gaps, 15, 0);
        let (queue, expected) = time(|| queue::filter(&plate, setting));
        let (filter, trace, filtered) = library(&plate, setting);
        assert!(filtered == expected, "the library and the queue differ");
        let scans = (all || visits(&plate, setting) < 3_000_000_000).then(|| {
            let (scans, filtered) = time(|| levels::filter(&plate, setting));
            assert!(filtered == expected, "one scan a level and the queue differ");
            scans
        });
        let rate = numbers(&plate, setting) as f64 / filter / 1e9;
        let looks = if kind == Kind::Flat { "flat" } else { "noise and curves" };
        let or_dash = |shown: Option<String>| shown.unwrap_or("–".to_string());
        println!(
            "| {width} × {height}, {looks} | {length} | {gaps} | {filter:.3} s | {trace:.3} s | \
             {queue:.3} s | {:.2} | {:.2} | {rate:.1} · 10⁹ | {} | {} |",
            queue / filter,
            trace / filter,
            or_dash(scans.map(|t| format!("{t:.3} s"))),
            or_dash(scans.map(|t| format!("{:.2}", t / filter))),
        );
    }
    ends();
    between();
    entering();
    awkward();
    correction();
}
