//! Single calls with noise in all lent buffers, held to the refusal table.
use checking::engine::numbers;
use checking::lent::Lent;
use checking::random::Random;
use checking::table::{self, Between, Lengths};
use checking::{fast, Plate, Refusal, Setting};
use diilvak::raw;

/// The number of a verdict, 0 where it is accepted.
pub fn number(verdict: Result<(), Refusal>) -> usize {
    verdict.err().map_or(0, |refusal| refusal.number)
}

/// One raw filter with noise in all lent buffers, held to the refusal table: what it leaves, and what
/// it writes. Returns the refusal number.
pub fn filter_call(
    random: &mut Random,
    (width, height): (usize, usize),
    setting: Setting,
    lengths: Lengths,
) -> usize {
    let mut plate = Lent::new(lengths.plate, || random.draw() as i16);
    let mut result = Lent::new(lengths.result, || random.draw() as i16);
    let mut work = Lent::new(lengths.work, || random.draw() as u16);
    let found =
        raw::filter(width, height, plate.lend(), numbers(setting), result.lend(), work.lend());
    let call = format!("filter {width} × {height} {setting:?} {lengths:?}");
    assert_eq!(found, number(table::filter(width, height, setting, lengths)), "{call}");
    assert!(plate.untouched(), "{call}: the plate changed");
    if found == 0 {
        assert!(result.guards_untouched() && work.guards_untouched(), "{call}: beyond a buffer");
        let plate = Plate::new(width, height, plate.lend().to_vec()).unwrap();
        assert_eq!(result.lend(), fast::filter(&plate, setting).levels(), "{call}");
    } else {
        assert!(result.untouched() && work.untouched(), "{call}: a refusal changed a buffer");
    }
    found
}

/// The same of a filter between two plates, which also writes the place of every call.
pub fn between_call(
    random: &mut Random,
    (width, height): (usize, usize),
    setting: Setting,
    lent: Between,
) -> usize {
    let (lowest, highest) = (lent.lowest.to_vec(), lent.highest.to_vec());
    let [mut low, mut high] = lent.results.map(|length| Lent::new(length, || random.draw() as i16));
    let mut work = Lent::new(lent.work, || random.draw() as u16);
    let mut place = Lent::new(1, || random.draw() as usize);
    let found = raw::filter_between(
        width,
        height,
        &lowest,
        &highest,
        numbers(setting),
        low.lend(),
        high.lend(),
        work.lend(),
        &mut place.lend()[0],
    );
    let call = format!("between {width} × {height} {setting:?} {lent:?}");
    let expected = table::filter_between(width, height, setting, lent);
    assert_eq!(found, number(expected), "{call}");
    assert_eq!(place.lend()[0], expected.err().map_or(0, |refusal| refusal.place), "{call}");
    assert!(place.guards_untouched(), "{call}: beyond the place");
    assert!(lowest == lent.lowest && highest == lent.highest, "{call}: a plate changed");
    if found == 0 {
        let guards = low.guards_untouched() && high.guards_untouched() && work.guards_untouched();
        assert!(guards, "{call}: beyond a buffer");
        for (levels, result) in [(lowest, low.lend()), (highest, high.lend())] {
            let plate = Plate::new(width, height, levels).unwrap();
            assert_eq!(result, fast::filter(&plate, setting).levels(), "{call}");
        }
    } else {
        let untouched = low.untouched() && high.untouched() && work.untouched();
        assert!(untouched, "{call}: a refusal changed a buffer");
    }
    found
}

/// One raw correction with noise in the result, held to the table and to the sum.
pub fn correct_call(
    random: &mut Random,
    (width, height): (usize, usize),
    readings: &[u16],
    words: &[u16],
    room: usize,
) -> usize {
    let mut result = Lent::new(room, || random.draw() as i16);
    let mut place = Lent::new(1, || random.draw() as usize);
    let (lent_readings, lent_words) = (readings.to_vec(), words.to_vec());
    let found = raw::correct(
        width,
        height,
        &lent_readings,
        &lent_words,
        result.lend(),
        &mut place.lend()[0],
    );
    let call = format!("correct {width} × {height} {readings:?} {words:?}, room {room}");
    let expected = table::correct(width, height, readings, words, room);
    assert_eq!(found, number(expected), "{call}");
    assert_eq!(place.lend()[0], expected.err().map_or(0, |refusal| refusal.place), "{call}");
    assert!(lent_readings == readings && lent_words == words, "{call}: an input changed");
    assert!(place.guards_untouched() && result.guards_untouched(), "{call}: beyond a buffer");
    if found == 0 {
        let sum = |(&reading, &word)| (i32::from(reading) + table::signed(word)) as i16;
        let sums: Vec<i16> = readings.iter().zip(words).map(sum).collect();
        assert_eq!(result.lend(), sums, "{call}");
    } else {
        assert!(result.untouched(), "{call}: a refusal changed the result");
    }
    found
}
