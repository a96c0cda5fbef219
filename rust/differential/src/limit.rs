//! Tables at the limit of 1,024 pages, or a little below it, and messages 13 for them.

use crate::guide::Guide;
use crate::image::page_starts;
use crate::message::{accesses, message};
use crate::{Call, Random, Settings};
use std::collections::BTreeMap;

/// How many pages stand below rwx at most.
pub const LIMIT: usize = 1024;

/// The pages below rwx with their accesses: by view, then page.
pub type Table = BTreeMap<(u16, u64), u8>;

/// An entry of a message 13: page and access.
pub type Entry = (u64, u8);

/// What an entry does, one after the other and as revision 1 has it.
#[derive(Clone, Copy, Debug, PartialEq, Eq)]
pub enum Deed {
    Skipped,
    Changes,
    /// It is applied, and its page stood like that before.
    Keeps,
}

/// The table of a whole image.
pub fn table(image: &[u8]) -> Table {
    let record = |start: usize| {
        let view = u16::from_le_bytes([image[start + 2], image[start + 3]]);
        let page = u64::from_le_bytes(*image[start + 6..].first_chunk().expect("a whole record"));
        ((view, page), image[start + 4])
    };
    page_starts(image).into_iter().map(record).collect()
}

/// View and entries of a message 13 whose count fits, be they as they may.
pub fn entries(message: &[u8]) -> Option<(u16, Vec<Entry>)> {
    let ([13, 0, size_low, size_high, ..], Some(data)) = (message, message.get(8..)) else { return None };
    let (head, entries) = data.split_at_checked(8)?;
    let (entries, rest) = entries.as_chunks::<16>();
    let is_whole = usize::from(u16::from_le_bytes([*size_low, *size_high])) == data.len();
    let is_counted = usize::from(u16::from_le_bytes([head[0], head[1]])) == entries.len() && rest.is_empty();
    let entry = |entry: &[u8; 16]| (u64::from_le_bytes(*entry.first_chunk().expect("an address")) >> 12, entry[8]);
    (is_whole && is_counted).then(|| (u16::from_le_bytes([head[2], head[3]]), entries.iter().map(entry).collect()))
}

/// The same of a message 13 in which nothing is at fault.
pub fn right_entries(settings: &Settings, message: &[u8]) -> Option<(u16, Vec<Entry>)> {
    let (view, entries) = entries(message)?;
    let is_allowed = settings.commands >> 13 & 1 == 1;
    let is_padded = message[12..16] == [0; 4] && message[16..].as_chunks::<16>().0.iter().all(|entry| entry[9..] == [0; 7]);
    let is_access = |access: u8| access == 7 || accesses(settings).contains(&access);
    let is_right =
        is_allowed && is_padded && u32::from(view) < settings.views && entries.iter().all(|(_, access)| is_access(*access));
    is_right.then_some((view, entries))
}

/// The entries act one after the other, as revision 1 has it.
pub fn act(table: &mut Table, view: u16, entries: &[Entry]) -> Vec<Deed> {
    let deed = |&(page, access): &Entry| {
        let before = table.get(&(view, page)).copied().unwrap_or(7);
        if before == 7 && access != 7 && table.len() >= LIMIT {
            return Deed::Skipped;
        }
        match access {
            7 => table.remove(&(view, page)),
            _ => table.insert((view, page), access),
        };
        if before == access {
            Deed::Keeps
        } else {
            Deed::Changes
        }
    };
    entries.iter().map(deed).collect()
}

/// A message 13 with these entries; addresses are anywhere in their pages.
pub fn of_entries(random: &mut Random, view: u16, entries: &[Entry]) -> Vec<u8> {
    let mut data = [(entries.len() as u16).to_le_bytes(), view.to_le_bytes(), [0; 2], [0; 2]].concat();
    for (page, access) in entries {
        let low = if random.one_in(4) { random.below(4096) } else { 0 };
        data.extend((page << 12 | low).to_le_bytes());
        data.extend([*access, 0, 0, 0, 0, 0, 0, 0]);
    }
    message(13, random.word() as u32, &data)
}

/// Makes entries for a view of a table.
struct Maker<'a> {
    random: &'a mut Random,
    accesses: &'static [u8],
    table: &'a Table,
    view: u16,
    /// The view's pages that stand below rwx.
    standing: Vec<u64>,
    entries: Vec<Entry>,
}

impl Maker<'_> {
    /// A page that stands at rwx, next to one that does not or far from them.
    fn new_page(&mut self) -> u64 {
        loop {
            let page = match self.standing.is_empty() || self.random.one_in(2) {
                true => self.random.word() >> 12,
                false => (self.random.pick(&self.standing) + 1 + self.random.below(3)) & ((1 << 52) - 1),
            };
            if !self.table.contains_key(&(self.view, page)) {
                return page;
            }
        }
    }

    /// A page that stands below rwx, if there is one.
    fn old_page(&mut self) -> u64 {
        match self.standing.is_empty() {
            true => self.new_page(),
            false => self.random.pick(&self.standing),
        }
    }

    fn access(&mut self) -> u8 {
        self.random.pick(self.accesses)
    }

    fn set_new(&mut self, count: usize) {
        for _ in 0..count {
            let entry = (self.new_page(), self.access());
            self.entries.push(entry);
        }
    }

    fn set_old(&mut self, count: usize) {
        for _ in 0..count {
            let entry = (self.old_page(), self.access());
            self.entries.push(entry);
        }
    }

    /// Different pages, as far as there are so many.
    fn forget(&mut self, count: usize) {
        let from = self.random.index(self.standing.len().max(1));
        let pages: Vec<u64> = self.standing.iter().cycle().skip(from).take(count.min(self.standing.len())).copied().collect();
        self.entries.extend(pages.into_iter().map(|page| (page, 7)));
    }

    fn anything(&mut self) {
        match self.random.below(6) {
            0 | 1 => self.set_new(1),
            2 => self.set_old(1),
            3 | 4 => self.forget(1),
            _ => {
                let page = self.new_page();
                self.entries.push((page, 7));
            }
        }
    }

    /// Entries for pages that others are for: behind them, between them or before them.
    fn again(&mut self, count: usize) {
        for _ in 0..count.min(self.entries.len()) {
            let page = self.random.pick(&self.entries).0;
            let access = if self.random.one_in(3) { 7 } else { self.access() };
            let at = self.random.index(self.entries.len() + 1);
            self.entries.insert(at, (page, access));
        }
    }
}

impl Guide {
    /// A message 13 for a table that is full, or nearly so: entries that need room, that use what others give back, and that are
    /// skipped, in all orders.
    pub fn at_limit(&self, random: &mut Random, table: &Table) -> Vec<u8> {
        let views = self.settings.views as u16;
        let known = table.keys().nth(random.index(table.len().max(1))).map(|(view, _)| *view);
        let view = match known {
            Some(view) if view < views && !random.one_in(8) => view,
            _ => random.below(views.into()) as u16,
        };
        let standing = table.range((view, 0)..=(view, u64::MAX)).map(|((_, page), _)| *page).collect();
        let room = LIMIT.saturating_sub(table.len()).min(40);
        let count = random.pick(&[0, 1, 1, 2, 3, 5, 12, 40]);
        let mut maker = Maker { random, accesses: accesses(&self.settings), table, view, standing, entries: Vec::new() };
        let plan = maker.random.below(11);
        match plan {
            // room is given back, and then there is just enough of it, more, or too little
            0 | 1 => {
                maker.forget(count);
                let given = maker.entries.len();
                let more = maker.random.index(3);
                maker.set_new((room + given + more).saturating_sub(1));
            }
            // it is given back too late
            2 => {
                let more = 1 + maker.random.index(3);
                maker.set_new(room + more);
                maker.forget(count.max(more));
            }
            // all of them stand already
            3 => maker.set_old(count.max(1)),
            // one page too many among these, the first, the last or between
            4 | 5 => {
                maker.set_new(room);
                maker.set_old(count);
                let (page, access) = (maker.new_page(), maker.access());
                let end = maker.entries.len();
                let at = match maker.random.below(3) {
                    0 => 0,
                    1 => end,
                    _ => maker.random.index(end + 1),
                };
                maker.entries.insert(at, (page, access));
            }
            // each page in the place of another
            6 => {
                for _ in 0..count.max(1) {
                    maker.forget(1);
                    maker.set_new(1);
                }
            }
            // just what there is room for
            7 => maker.set_new(room),
            // pages that come and go, so that others have their room
            8 => {
                maker.set_new(room);
                for _ in 0..count.clamp(1, 5) {
                    let last = maker.entries.last().map(|(page, _)| (*page, 7));
                    maker.entries.extend(last);
                    maker.set_new(1);
                }
            }
            _ => (0..count.max(2)).for_each(|_| maker.anything()),
        }
        if maker.random.one_in(3) {
            maker.again(count.clamp(1, 5));
        }
        let mut entries = maker.entries;
        if random.one_in(6) {
            (1..entries.len()).for_each(|at| entries.swap(at, random.index(at + 1)));
        }
        let mut bytes = of_entries(random, view, &entries);
        if random.one_in(12) && !entries.is_empty() {
            // -22 comes before
            let entry = 16 + 16 * random.index(entries.len());
            match random.below(3) {
                0 => bytes[entry + 9 + random.index(7)] = 1,
                _ => bytes[entry + 8] = random.pick(&[2, 6, 8, 0xFF]),
            }
        }
        bytes
    }

    /// Several of them in one write, each for the table that the ones before it leave; and what tells the revision.
    pub fn batch_at_limit(&self, random: &mut Random, table: &Table) -> Call {
        let mut table = table.clone();
        let mut bytes = Vec::new();
        for _ in 0..2 + random.index(3) {
            let message = self.at_limit(random, &table);
            table = after(&self.settings, table, &message);
            bytes.extend(message);
            if self.replies && random.one_in(3) {
                bytes.extend(message_1(random));
            }
        }
        self.write(random, bytes)
    }
}

fn message_1(random: &mut Random) -> Vec<u8> {
    message(1, random.word() as u32, &[])
}

/// The table that a message 13 leaves.
fn after(settings: &Settings, table: Table, message: &[u8]) -> Table {
    let Some((view, entries)) = right_entries(settings, message) else { return table };
    let mut changed = table.clone();
    let skips = act(&mut changed, view, &entries).contains(&Deed::Skipped);
    if skips && settings.revision == 2 {
        table
    } else {
        changed
    }
}
