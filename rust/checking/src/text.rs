//! The survey program's text, section 6's and the second edition of document 02, N5, read by itself, and
//! the judge of what the program prints.
use crate::plate::{bad_size, Plate, Refusal, Setting, Trace, ANYWHERE};
use crate::{listing, table};

const MAX_TEXT: usize = 16_384;
const MAX_PLATE: usize = 512;

/// What a text asks for, its plate already corrected.
pub struct Request {
    pub plate: Plate,
    pub setting: Setting,
    pub at: usize,
}

/// The lines that are left; `line` is the number of the last one taken.
struct Lines<'a> {
    left: &'a [u8],
    line: usize,
}

impl<'a> Lines<'a> {
    /// What stands after `name=` on the next line. Refused where the line is missing, has another
    /// name or has no newline.
    fn value(&mut self, name: &str) -> Result<&'a [u8], Refusal> {
        self.line += 1;
        let end = self.left.iter().position(|&byte| byte == b'\n').ok_or(self.bad())?;
        let line = &self.left[..end];
        self.left = &self.left[end + 1..];
        line.strip_prefix(name.as_bytes())
            .and_then(|rest| rest.strip_prefix(b"="))
            .ok_or(self.bad())
    }

    fn number(&mut self, name: &str) -> Result<u16, Refusal> {
        number(self.value(name)?).ok_or(self.bad())
    }

    fn list(&mut self, name: &str, count: usize) -> Result<Vec<u16>, Refusal> {
        let numbers: Option<Vec<u16>> =
            self.value(name)?.split(|&byte| byte == b',').map(number).collect();
        numbers.filter(|numbers| numbers.len() == count).ok_or(self.bad())
    }

    fn rows(&mut self, name: &str, width: usize, height: usize) -> Result<Vec<u16>, Refusal> {
        let rows: Result<Vec<_>, _> = (0..height).map(|_| self.list(name, width)).collect();
        Ok(rows?.concat())
    }

    fn bad(&self) -> Refusal {
        Refusal { number: 13, place: self.line }
    }
}

fn number(digits: &[u8]) -> Option<u16> {
    if !(1..=6).contains(&digits.len()) || !digits.iter().all(u8::is_ascii_digit) {
        return None;
    }
    let value = digits.iter().fold(0, |value, digit| 10 * value + u32::from(digit - b'0'));
    u16::try_from(value).ok()
}

pub fn read(text: &[u8]) -> Result<Request, Refusal> {
    let too_large = Refusal { number: 14, place: 0 };
    if text.len() > MAX_TEXT {
        return Err(too_large);
    }
    let mut lines = Lines { left: text, line: 0 };
    let has_ends = match lines.value("plate")? {
        b"1" => false,
        b"2" => true,
        _ => return Err(lines.bad()),
    };
    let width = usize::from(lines.number("width")?);
    let height = usize::from(lines.number("height")?);
    if bad_size(width, height) {
        return Err(Refusal { number: 1, place: 0 });
    }
    if width * height > MAX_PLATE {
        return Err(too_large);
    }
    let length = lines.number("length")?.into();
    let gaps = lines.number("gaps")?.into();
    let ends = if has_ends { lines.number("ends")?.into() } else { ANYWHERE };
    let directions = lines.number("ways")?.into();
    let mode = lines.number("mode")?.into();
    let setting = Setting { length, gaps, directions, mode, ends };
    let at = lines.number("at")?.into();
    let readings = lines.rows("row", width, height)?;
    let words = lines.rows("cor", width, height)?;
    if !lines.left.is_empty() {
        lines.line += 1;
        return Err(lines.bad());
    }
    table::correct(width, height, &readings, &words, readings.len())?;
    table::setting(setting)?;
    let level = |(&reading, &word)| (i32::from(reading) + table::signed(word)) as i16;
    let levels = readings.iter().zip(&words).map(level).collect();
    Ok(Request { plate: Plate::new(width, height, levels)?, setting, at })
}

/// Is this the answer to the text? The error says what is wrong with it. Of a shown path only what
/// demand 3 says is asked.
pub fn judge(text: &[u8], printed: &[u8]) -> Result<(), String> {
    let same = |left: &str, wanted: String| match left == wanted {
        true => Ok(()),
        false => Err(format!("{left:?}, not {wanted:?}")),
    };
    let printed = String::from_utf8_lossy(printed);
    let Request { plate, setting, at } = match read(text) {
        Ok(request) => request,
        Err(refusal) => return same(&printed, refused(refusal)),
    };
    let opened = listing::filter(&plate, setting);
    let map = map(&opened);
    let Some(rest) = printed.strip_prefix(&map) else {
        return same(&printed, map);
    };
    if at >= plate.pixels() {
        return same(rest, refused(Refusal { number: 11, place: 0 }));
    }
    let answer = shown(rest).ok_or(Refusal { number: 12, place: 0 });
    match &answer {
        Ok(trace) => same(rest, drawn(trace))?,
        Err(refusal) => same(rest, refused(*refusal))?,
    }
    let again = listing::trace(&opened, setting, at);
    listing::judge(&plate, setting, at, &answer, &opened, &again)
}

fn refused(refusal: Refusal) -> String {
    format!("refused={}\nplace={}\n", refusal.number, refusal.place)
}

fn list<T: ToString>(numbers: &[T]) -> String {
    numbers.iter().map(T::to_string).collect::<Vec<_>>().join(",")
}

fn map(plate: &Plate) -> String {
    let size = format!("width={}\nheight={}\n", plate.width(), plate.height());
    let rows = plate.levels().chunks(plate.width());
    rows.fold(size, |text, row| text + &format!("out={}\n", list(row)))
}

fn drawn(trace: &Trace) -> String {
    format!("way={}\nlevel={}\npath={}\n", trace.direction, trace.level, list(&trace.path))
}

/// The trace that the lines after the map show, if they show one.
fn shown(rest: &str) -> Option<Trace> {
    let mut lines = rest.lines();
    let mut value = |name| lines.next().and_then(|line| line.strip_prefix(name));
    let direction = value("way=")?.parse().ok()?;
    let level = value("level=")?.parse().ok()?;
    let path = value("path=")?.split(',').map(|place| place.parse().ok()).collect::<Option<_>>()?;
    Some(Trace { direction, level, path })
}
