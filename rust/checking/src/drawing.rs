//! Pictures of plates, panel by panel, as PNG; and the wall that they show.
use crate::random::Random;

/// Fine-grained stone with some bright specks, crossed by a crack that is only a little lighter and misses
/// a pixel here and there: the levels of a plate of this size, the same every time.
pub fn cracked_wall(width: usize, height: usize) -> Vec<i16> {
    let mut random = Random(3);
    // The sum of some even noises is close to a bell curve.
    let mut grain = || (0..4).map(|_| random.below(160) as i16).sum::<i16>();
    let mut levels: Vec<i16> = (0..width * height).map(|_| 1000 + grain()).collect();
    for _ in 0..width * height / 60 {
        levels[random.below(width * height)] += 400;
    }
    let mut row = 2 * height / 3;
    for column in 10..width - 10 {
        // The crack wanders up on the whole.
        row = (row + random.pick(&[0, 0, 0, 1, 2]) - 1).clamp(1, height - 2);
        if random.below(24) > 0 {
            levels[row * width + column] = 1520 + random.below(80) as i16;
        }
    }
    levels
}

// Colours of the palette: greys from black to white, then one to mark with.
const GREYS: usize = 15;
pub const WHITE: u8 = 14;
pub const RED: u8 = 15;

/// Which levels are black and which are white.
pub struct Greys {
    low: i32,
    high: i32,
}

impl Greys {
    /// Those that show most of a plate; a few pixels at either end are not worth a grey of their own.
    pub fn of(levels: &[i16]) -> Greys {
        let mut sorted = levels.to_vec();
        sorted.sort_unstable();
        let (low, high) = (sorted[sorted.len() / 50], sorted[sorted.len() * 199 / 200]);
        Greys { low: low.into(), high: high.into() }
    }

    /// The colour of each level.
    pub fn panel(&self, levels: &[i16]) -> Vec<u8> {
        let grey = |&level: &i16| {
            let above = i32::from(level).clamp(self.low, self.high) - self.low;
            (above * (GREYS as i32 - 1) / (self.high - self.low).max(1)) as u8
        };
        levels.iter().map(grey).collect()
    }
}

/// Screen pixels a plate pixel, and between the panels.
const SCALE: usize = 2;
const GUTTER: usize = 12;

/// Panels of this width side by side, as a PNG.
pub fn picture(width: usize, panels: &[Vec<u8>]) -> Vec<u8> {
    let height = panels[0].len() / width;
    let mut rows = Vec::new();
    for y in 0..height * SCALE {
        let mut row = Vec::new();
        for (i, panel) in panels.iter().enumerate() {
            if i > 0 {
                row.extend([WHITE; GUTTER]);
            }
            row.extend((0..width * SCALE).map(|x| panel[y / SCALE * width + x / SCALE]));
        }
        rows.push(row);
    }
    png(&rows)
}

/// A PNG of 4-bit palette colours, its data stored and not compressed.
fn png(rows: &[Vec<u8>]) -> Vec<u8> {
    let mut palette: Vec<u8> =
        (0..GREYS).flat_map(|g| [(g * 255 / (GREYS - 1)) as u8; 3]).collect();
    palette.extend([220, 30, 30]);
    let mut header = Vec::new();
    header.extend((rows[0].len() as u32).to_be_bytes());
    header.extend((rows.len() as u32).to_be_bytes());
    header.extend([4, 3, 0, 0, 0]);
    let mut pixels = Vec::new();
    for row in rows {
        pixels.push(0);
        pixels.extend(row.chunks(2).map(|pair| pair[0] << 4 | pair.get(1).unwrap_or(&0)));
    }
    let mut png = b"\x89PNG\r\n\x1a\n".to_vec();
    chunk(&mut png, b"IHDR", &header);
    chunk(&mut png, b"PLTE", &palette);
    chunk(&mut png, b"IDAT", &stored(&pixels));
    chunk(&mut png, b"IEND", &[]);
    png
}

/// A zlib stream of stored blocks.
fn stored(data: &[u8]) -> Vec<u8> {
    let mut stream = vec![0x78, 0x01];
    let blocks = data.chunks(65_535);
    let last = blocks.len() - 1;
    for (i, block) in blocks.enumerate() {
        let length = block.len() as u16;
        stream.push(u8::from(i == last));
        stream.extend(length.to_le_bytes());
        stream.extend((!length).to_le_bytes());
        stream.extend(block);
    }
    let (mut a, mut b) = (1u32, 0u32);
    for &byte in data {
        a = (a + u32::from(byte)) % 65_521;
        b = (b + a) % 65_521;
    }
    stream.extend((b << 16 | a).to_be_bytes());
    stream
}

fn chunk(png: &mut Vec<u8>, name: &[u8; 4], data: &[u8]) {
    png.extend((data.len() as u32).to_be_bytes());
    let start = png.len();
    png.extend(name);
    png.extend(data);
    let mut crc = !0u32;
    for &byte in &png[start..] {
        crc ^= u32::from(byte);
        for _ in 0..8 {
            crc = crc >> 1 ^ (0xedb8_8320 & (crc & 1).wrapping_neg());
        }
    }
    png.extend((!crc).to_be_bytes());
}
