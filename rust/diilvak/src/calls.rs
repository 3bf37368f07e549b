//! The calls, with buffers of their own.
use crate::{raw, Bounds, Direction, Plate, Refusal, Setting};

/// What a trace shows: a path through the traced pixel, and the pixel's filtered level.
#[derive(Clone, Debug, PartialEq, Eq, Hash)]
pub struct Trace {
    /// The direction of every step of the path, one of the setting's.
    pub direction: Direction,
    /// The level that [`filter`] gives the pixel by the same setting. At most as many pixels of the path
    /// as there are gaps are below it (closing: above it), and with [`Ends::OnCrack`](crate::Ends)
    /// neither of its ends is.
    pub level: i16,
    /// The places of the path in walking order, as many as the setting's length.
    pub path: Vec<usize>,
}

/// The version of the library that is linked; [`limits::VERSION`](crate::limits::VERSION) is that of
/// this package.
pub fn version() -> usize {
    raw::version()
}

/// The plate of readings, each with its correction added. A correction is a 16-bit word in two's
/// complement: the word 65534 is −2.
///
/// ```
/// let plate = diilvak::correct(4, 1, &[9, 7, 12, 8], &[0, 65534, 0, 0])?;
/// assert_eq!(plate.levels(), [9, 5, 12, 8]);
/// # Ok::<(), diilvak::Refusal>(())
/// ```
///
/// # Errors
///
/// [`Refusal::BadSize`]; [`Refusal::BadInput`] where there are not width × height readings and words;
/// [`Refusal::BadReading`] for the first bad reading, and only where there is none
/// [`Refusal::BadCorrection`] for the first bad correction.
pub fn correct(
    width: usize,
    height: usize,
    readings: &[u16],
    words: &[u16],
) -> Result<Plate, Refusal> {
    let mut result = vec![0; readings.len()];
    let mut place = 0;
    done(raw::correct(width, height, readings, words, &mut result, &mut place), place)?;
    Plate::new(width, height, result)
}

/// The opened or closed plate. No plate and no setting is refused.
///
/// Where no path of the setting's length fits on the plate, every level is −32768 (closing: 32767).
///
/// ```
/// use diilvak::{filter, Direction, Ends, Mode, Plate, Setting};
/// let anywhere = Setting::new(4, 1, Direction::East, Mode::Opening, Ends::Anywhere)?;
/// let plate = Plate::new(4, 1, vec![9, 5, 12, 8])?;
/// // The second pixel is the gap, and keeps its own level.
/// assert_eq!(filter(&plate, anywhere).levels(), [8, 5, 8, 8]);
///
/// // Here the gap is an end of the path.
/// let plate = Plate::new(4, 1, vec![5, 9, 12, 8])?;
/// assert_eq!(filter(&plate, anywhere).levels(), [5, 8, 8, 8]);
/// let on_crack = Setting::new(4, 1, Direction::East, Mode::Opening, Ends::OnCrack)?;
/// assert_eq!(filter(&plate, on_crack).levels(), [5, 5, 5, 5]);
/// # Ok::<(), diilvak::Refusal>(())
/// ```
pub fn filter(plate: &Plate, setting: Setting) -> Plate {
    let mut result = vec![0; plate.pixels()];
    let mut work = work_for(plate, setting);
    let (width, height) = (plate.width(), plate.height());
    let number = raw::filter(width, height, plate.levels(), setting.into(), &mut result, &mut work);
    assert_eq!(number, 0, "a plate and a setting within the limits are never refused");
    plate.with(result)
}

/// The lowest and the highest plate, each opened or closed: every plate between the two filters to one
/// between the two results, and at every pixel both results are reached by such plates. This holds in
/// either mode, and where no path of the setting's length fits on the plate too.
///
/// ```
/// use diilvak::{filter, filter_between, Bounds, Direction, Ends, Mode, Plate, Setting};
/// let row = |levels: [i16; 4]| Plate::new(4, 1, levels.to_vec());
/// let setting = Setting::new(4, 1, Direction::East, Mode::Opening, Ends::Anywhere)?;
/// let bounds = Bounds { lowest: row([9, 5, 12, 8])?, highest: row([9, 6, 12, 9])? };
/// let kept = filter_between(&bounds, setting)?;
/// assert_eq!(kept.lowest.levels(), [8, 5, 8, 8]);
/// assert_eq!(kept.highest.levels(), [9, 6, 9, 9]);
///
/// // A plate between the two.
/// assert_eq!(filter(&row([9, 5, 12, 9])?, setting).levels(), [9, 5, 9, 9]);
/// # Ok::<(), diilvak::Refusal>(())
/// ```
///
/// # Errors
///
/// [`Refusal::BadInput`] where the plates differ in width or in height; [`Refusal::BadBounds`] for the
/// first pixel whose lowest level is above its highest.
pub fn filter_between(bounds: &Bounds, setting: Setting) -> Result<Bounds, Refusal> {
    let Bounds { lowest, highest } = bounds;
    let (width, height) = (lowest.width(), lowest.height());
    // The library knows one size, and could not tell 4 × 1 from 2 × 2.
    if (highest.width(), highest.height()) != (width, height) {
        return Err(Refusal::BadInput);
    }
    let (mut low, mut high) = (vec![0; lowest.pixels()], vec![0; highest.pixels()]);
    let mut work = work_for(lowest, setting);
    let mut place = 0;
    let number = raw::filter_between(
        width,
        height,
        lowest.levels(),
        highest.levels(),
        setting.into(),
        &mut low,
        &mut high,
        &mut work,
        &mut place,
    );
    done(number, place)?;
    Ok(Bounds { lowest: lowest.with(low), highest: highest.with(high) })
}

/// A path through the pixel at a place, of the best level that any has. Which of several such paths is
/// shown is free.
///
/// ```
/// use diilvak::{filter, trace, Directions, Ends, Mode, Plate, Setting};
/// let plate = Plate::new(3, 3, vec![1, 1, 7, 1, 8, 1, 9, 1, 1])?;
/// let setting = Setting::new(3, 0, Directions::ALL, Mode::Opening, Ends::Anywhere)?;
/// let shown = trace(&plate, setting, 4)?;
/// assert_eq!((shown.level, shown.path.len()), (7, 3));
/// assert_eq!(shown.level, filter(&plate, setting).levels()[4]);
/// # Ok::<(), diilvak::Refusal>(())
/// ```
///
/// # Errors
///
/// [`Refusal::BadPlace`] where the place is not on the plate; [`Refusal::NoPath`] where no path of this
/// length goes through the pixel, which depends on the size, the length and the directions alone.
pub fn trace(plate: &Plate, setting: Setting, at: usize) -> Result<Trace, Refusal> {
    let (width, height, levels) = (plate.width(), plate.height(), plate.levels());
    traced(plate, setting, |path, work, bit, level| {
        raw::trace(width, height, levels, setting.into(), at, path, work, bit, level)
    })
}

/// What a C function shows that traces: it is lent a path, a work buffer and two numbers, for the bit of the
/// direction and the level, and answers with a number.
pub(crate) fn traced(
    plate: &Plate,
    setting: Setting,
    call: impl FnOnce(&mut [usize], &mut [u16], &mut usize, &mut i16) -> usize,
) -> Result<Trace, Refusal> {
    let mut path = vec![0; setting.length()];
    let mut work = work_for(plate, setting);
    let (mut bit, mut level) = (0, 0);
    done(call(&mut path, &mut work, &mut bit, &mut level), 0)?;
    let direction = Direction::from_bit(bit).expect("the direction is one of the setting's");
    Ok(Trace { direction, level, path })
}

/// Where a step leads from a place: none where it leaves the plate, or where there is no such place or
/// step. Steps have the numbers 0 to 2, in the order of [`Direction`]'s table.
///
/// ```
/// use diilvak::{step, Direction};
/// assert_eq!(step(3, 3, Direction::North, 4, 1), Some(1));
/// assert_eq!(step(3, 3, Direction::North, 1, 1), None);
/// ```
pub fn step(
    width: usize,
    height: usize,
    direction: Direction,
    place: usize,
    number: usize,
) -> Option<usize> {
    let mut to = 0;
    let moved = raw::step(width, height, direction.bit(), place, number, &mut to);
    (moved == 1).then_some(to)
}

fn work_for(plate: &Plate, setting: Setting) -> Vec<u16> {
    vec![0; raw::work_length(plate.width(), plate.height(), setting.gaps())]
}

/// The answer of a C function by its number, with the place that it reported.
pub(crate) fn done(number: usize, place: usize) -> Result<(), Refusal> {
    if number == 0 {
        return Ok(());
    }
    Err(Refusal::from_number(number, place).expect("the library's numbers are the header's"))
}
