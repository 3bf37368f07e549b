//! The findings book (document 02, N3), as lists of entries. All numbers are bare, and a book can be as wrong
//! as a caller can make it; the refusals are in [`table`](crate::table).

pub const MAX_ENTRIES: usize = 256;
pub const MAX_SERIAL: u32 = 4_294_967_295;

/// A place on a numbered plate.
#[derive(Clone, Copy, Debug, Default, PartialEq, Eq)]
pub struct Pixel {
    pub plate: u16,
    pub place: usize,
}

/// What an entry is about.
#[derive(Clone, Copy, Debug, Default, PartialEq, Eq)]
pub struct Key {
    pub pixel: Pixel,
    pub mode: usize,
}

#[derive(Clone, Copy, Debug, Default, PartialEq, Eq)]
pub struct Entry {
    pub serial: u32,
    pub key: Key,
    pub level: i16,
    pub direction: usize,
}

/// A book as it is handed over: the counter, how many entries it shows to stand, and all of its slots.
#[derive(Clone, PartialEq, Eq)]
pub struct Book {
    pub last: u32,
    pub shown: usize,
    pub slots: Vec<Entry>,
}

impl Book {
    /// A book in which these entries stand and the other slots are empty.
    pub fn of(last: u32, mut standing: Vec<Entry>) -> Book {
        let shown = standing.len();
        assert!(shown <= MAX_ENTRIES);
        standing.resize(MAX_ENTRIES, Entry::default());
        Book { last, shown, slots: standing }
    }

    /// The entries that stand, or, where more are shown than there can be, all slots.
    pub fn standing(&self) -> &[Entry] {
        &self.slots[..self.shown.min(MAX_ENTRIES)]
    }

    fn without(&self, gone: impl Fn(&Entry) -> bool) -> Vec<Entry> {
        self.standing().iter().copied().filter(|entry| !gone(entry)).collect()
    }

    /// After an accepted entering.
    pub fn entered(&self, key: Key, level: i16, direction: usize) -> Book {
        let serial = self.last + 1;
        let mut entries = self.without(|entry| entry.key == key);
        entries.push(Entry { serial, key, level, direction });
        Book::of(serial, entries)
    }

    /// After an accepted withdrawal.
    pub fn withdrawn(&self, serial: u32) -> Book {
        Book::of(self.last, self.without(|entry| entry.serial == serial))
    }
}

/// Without the empty slots at the end.
impl std::fmt::Debug for Book {
    fn fmt(&self, f: &mut std::fmt::Formatter) -> std::fmt::Result {
        let used = self.slots.iter().rposition(|entry| *entry != Entry::default());
        let used = &self.slots[..used.map_or(0, |last| last + 1)];
        write!(f, "last {}, {} shown: {used:?}", self.last, self.shown)
    }
}
