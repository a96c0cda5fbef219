//! What a run has seen of the two revisions: what they make of message 13 where there may be no room, and what else differs.

use crate::limit::{self, Deed, Entry, Table, LIMIT};
use crate::run::Taken;
use crate::{image, told_error, Answer, Batch, Call, Settings};

/// What can become of a message 13 with more entries than there is room, if none is skipped.
const PASSED: [&str; 8] = [
    "no new page",
    "room enough for its new pages",
    "room that an earlier entry gave back",
    "room that a page had taken which the same message set",
    "1,024 pages before it and behind it",
    "1,024 pages behind it alone",
    "a page several times",
    "in silence",
];

/// What can become of one by which an entry is skipped.
const SKIPPED: [&str; 22] = [
    "its only entry",
    "its first entry alone",
    "its last entry alone",
    "an entry between alone",
    "several entries, not all",
    "every one of some entries",
    "others applied before it alone",
    "others applied behind it alone",
    "others applied before it and behind it",
    "nothing else to be changed",
    "room that a later entry gives back",
    "room that an earlier entry gave back, and too little",
    "room that there was, and too little",
    "a page changed twice before it",
    "its page set by a later entry",
    "on 1,024 pages",
    "on 1,023 pages",
    "on fewer",
    "fewer than 1,024 pages of its view",
    "-12 in a reply",
    "-12 by CMD_ERROR",
    "in silence",
];

/// Revisions that are refused.
const REFUSED: [&str; 3] = ["0", "3", "any other"];

/// What an image would be answered if it were not for the revision.
const OTHERWISE: [&str; 3] = ["loaded", "8", "9"];

/// What else is about the one revision or the other.
const OTHERS: [&str; 5] = [
    "GET_VERSION",
    "-22 where an entry would be skipped",
    "-12 in a batch, messages behind it",
    "an image that the other wrote is loaded",
    "an image with 1,024 pages that the other wrote is loaded",
];

/// The calls of two sessions that differ in the revision alone, and how far they go.
const SAME: [&str; 6] = [
    "an entry alike",
    "a batch alike",
    "an image alike",
    "no entry skipped to the end",
    "an entry skipped, and other tables by then",
    "an entry skipped, and the same tables by then",
];

#[derive(Clone, Default)]
pub(crate) struct RevisionCounts {
    /// The settings of the present session.
    settings: Option<Settings>,
    /// Its image, if no call has come since.
    image: Option<Vec<u8>>,
    /// The image before a message 13 that was the last call, the message, and the bytes that it wrote.
    message: Option<(Vec<u8>, Vec<u8>, Vec<u8>)>,
    /// The last image written.
    written: Option<(Settings, Vec<u8>)>,
    passed: [[u64; 8]; 2],
    skipped: [[u64; 22]; 2],
    /// By a session begun, and by an image read.
    refused: [[u64; 3]; 2],
    otherwise: [u64; 3],
    others: [[u64; 5]; 2],
    /// Messages that two such sessions answer alike.
    alike: [u64; 17],
    same: [u64; 6],
}

impl RevisionCounts {
    /// A call that both sides answered alike, and the bytes that it wrote.
    pub fn saw(&mut self, call: &Call, answer: Answer, bytes: &[u8]) {
        let is_handled = answer.number() == 0;
        match call {
            Call::Fresh { settings } => {
                self.saw_settings(settings, None, answer);
                if is_handled {
                    (self.settings, self.image, self.message) = (Some(settings.clone()), None, None);
                }
            }
            Call::Load { settings, keep, image } => {
                self.saw_settings(settings, Some(image), answer);
                self.saw_read(settings, image, answer);
                if is_handled && *keep {
                    (self.settings, self.image, self.message) = (Some(settings.clone()), Some(image.clone()), None);
                }
            }
            Call::Message { bytes: message, .. } => {
                let before = self.image.take();
                self.message = None;
                match message[..] {
                    [1, 0, ..] if is_handled => {
                        let settings = self.settings.as_ref().expect("a session has begun");
                        assert_eq!(bytes[16..20], settings.revision.to_le_bytes(), "both sides tell another version");
                        self.others[settings.revision as usize - 1][0] += 1;
                    }
                    [13, 0, ..] if is_handled => self.message = before.map(|image| (image, message.clone(), bytes.to_vec())),
                    _ => {}
                }
            }
            Call::Image { .. } if !bytes.is_empty() => {
                if let Some((before, message, written)) = self.message.take() {
                    self.saw_acted(&before, &message, &written, bytes);
                }
                self.image = Some(bytes.to_vec());
                self.written = self.settings.clone().map(|settings| (settings, bytes.to_vec()));
            }
            Call::ListReady { .. } | Call::ListCr { .. } | Call::Look { .. } | Call::Image { .. } => {}
            Call::Ready { .. } | Call::Enter { .. } | Call::Batch { .. } => (self.image, self.message) = (None, None),
        }
    }

    /// A session that was begun or refused.
    fn saw_settings(&mut self, settings: &Settings, image: Option<&[u8]>, answer: Answer) {
        if matches!(settings.revision, 1 | 2) {
            return;
        }
        assert_eq!(answer, Answer::BadSettings, "both sides took revision {}", settings.revision);
        let right = Settings { revision: 1, ..settings.clone() };
        if let Ok(_session) = reference::Session::fresh(right.clone()) {
            let column = match settings.revision {
                0 => 0,
                3 => 1,
                _ => 2,
            };
            self.refused[usize::from(image.is_some())][column] += 1;
            let otherwise = image.map(|image| reference::Session::read_image(right, image).map_or_else(Answer::number, |_| 0));
            count(&mut self.otherwise, &[0, 8, 9].map(|number| otherwise == Some(number)));
        }
    }

    /// An image that was read or refused.
    fn saw_read(&mut self, settings: &Settings, image: &[u8], answer: Answer) {
        let written = self.written.as_ref().filter(|(_, written)| written == image && matches!(settings.revision, 1 | 2));
        if written.is_some_and(|(writer, _)| differ(writer, settings)) {
            assert_eq!(answer.number(), 0, "both sides refused an image for its revision");
            let is_full = image::page_starts(image).len() == LIMIT;
            count(&mut self.others[settings.revision as usize - 1][3..], &[true, is_full]);
        }
    }

    /// A message 13, the images before it and behind it, and the bytes that it wrote.
    fn saw_acted(&mut self, before: &[u8], message: &[u8], bytes: &[u8], after: &[u8]) {
        let settings = self.settings.as_ref().expect("a session has begun");
        let (revision, error) = (settings.revision as usize, told_error(bytes));
        let Some((view, entries)) = limit::right_entries(settings, message) else {
            assert!(before == after, "both sides changed a table by a message that is at fault");
            if let (Some(-22), Some((view, entries))) = (error, limit::entries(message)) {
                let skips = limit::act(&mut limit::table(before), view, &entries).contains(&Deed::Skipped);
                self.others[revision - 1][1] += u64::from(skips);
            }
            return;
        };
        let table = limit::table(before);
        let mut changed = table.clone();
        let deeds = limit::act(&mut changed, view, &entries);
        let skips = deeds.contains(&Deed::Skipped);
        if !bytes.is_empty() {
            assert_eq!(error, skips.then_some(-12), "both sides gave this error to entries on {} pages", table.len());
        }
        let expected = if skips && revision == 2 { &table } else { &changed };
        assert!(limit::table(after) == *expected, "both sides made this of {} pages by revision {revision}", table.len());
        let rest = |image: &[u8]| image[..image::page_starts(image).first().copied().unwrap_or(image.len() - 6)].to_vec();
        assert!(rest(before) == rest(after), "both sides changed more than pages");
        let acted = Acted { view, entries: &entries, deeds: &deeds, table: &table, changed: &changed };
        match skips {
            true => count(&mut self.skipped[revision - 1], &acted.skipped(bytes)),
            false if table.len() + entries.len() > LIMIT => count(&mut self.passed[revision - 1], &acted.passed(bytes)),
            false => {}
        }
    }

    /// The messages of a batch, as they are taken one by one.
    pub fn saw_taken(&mut self, batch: &Batch, taken: &[Taken]) {
        let Some(settings) = &self.settings else { return };
        let refused =
            taken.iter().position(|taken| taken.message.starts_with(&[13, 0]) && told_error(taken.bytes) == Some(-12));
        let goes_on = matches!(batch.answer, Answer::Handled { .. }) && refused.is_some_and(|at| at + 1 < taken.len());
        self.others[settings.revision as usize - 1][2] += u64::from(goes_on);
    }

    /// A call that two sessions which differ in the revision alone answered alike, but for the version.
    pub fn saw_alike(&mut self, call: &Call) {
        match call {
            Call::Message { bytes, .. } => match bytes[..] {
                [id @ 1..=16, 0, ..] => self.alike[usize::from(id)] += 1,
                _ => self.alike[0] += 1,
            },
            Call::Enter { .. } => self.same[0] += 1,
            Call::Batch { .. } => self.same[1] += 1,
            Call::Image { .. } => self.same[2] += 1,
            _ => {}
        }
    }

    /// The end of two such sessions: whether an entry was skipped, and whether their tables are the same then.
    pub fn saw_end(&mut self, skips: bool, is_same: bool) {
        count(&mut self.same[3..], &[!skips, skips && !is_same, skips && is_same]);
    }

    pub fn add(&mut self, other: &RevisionCounts) {
        let sum = |into: &mut [u64], from: &[u64]| into.iter_mut().zip(from).for_each(|(into, from)| *into += from);
        sum(self.passed.as_flattened_mut(), other.passed.as_flattened());
        sum(self.skipped.as_flattened_mut(), other.skipped.as_flattened());
        sum(self.refused.as_flattened_mut(), other.refused.as_flattened());
        sum(&mut self.otherwise, &other.otherwise);
        sum(self.others.as_flattened_mut(), other.others.as_flattened());
        sum(&mut self.alike, &other.alike);
        sum(&mut self.same, &other.same);
    }

    /// Everything that a run has to see, with how often it did.
    pub fn wanted(&self) -> Vec<(String, u64)> {
        let rows = |what: &str, names: &[&str], counts: &[u64]| -> Vec<(String, u64)> {
            names.iter().zip(counts).map(|(name, count)| (format!("{what}: {name}"), *count)).collect()
        };
        let mut list = Vec::new();
        for (at, revision) in [1, 2].into_iter().enumerate() {
            let what = format!("message 13, revision {revision}");
            list.extend(rows(&format!("{what}, more entries than room, none skipped"), &PASSED, &self.passed[at]));
            list.extend(rows(&format!("{what}, skipped"), &SKIPPED, &self.skipped[at]));
            list.extend(rows(&format!("revision {revision}"), &OTHERS, &self.others[at]));
        }
        list.extend(rows("fresh: answer 7 for the revision alone", &REFUSED, &self.refused[0]));
        list.extend(rows("load: answer 7 for the revision alone", &REFUSED, &self.refused[1]));
        list.extend(rows("load: answer 7 for the revision, else", &OTHERWISE, &self.otherwise));
        list.extend(self.alike.iter().enumerate().map(|(id, count)| (format!("both revisions: message {id} alike"), *count)));
        list.extend(rows("both revisions", &SAME, &self.same));
        list
    }
}

/// Whether these differ in the revision, and in nothing else.
fn differ(one: &Settings, other: &Settings) -> bool {
    one.revision != other.revision && *one == Settings { revision: one.revision, ..other.clone() }
}

fn count(counts: &mut [u64], seen: &[bool]) {
    counts.iter_mut().zip(seen).for_each(|(count, seen)| *count += u64::from(*seen));
}

/// A message 13 with nothing at fault, what each of its entries does by revision 1, and the tables before it and then.
struct Acted<'a> {
    view: u16,
    entries: &'a [Entry],
    deeds: &'a [Deed],
    table: &'a Table,
    changed: &'a Table,
}

impl Acted<'_> {
    /// Whether an entry sets a page that stands at rwx before the message.
    fn is_new(&self, entry: &Entry) -> bool {
        entry.1 != 7 && !self.table.contains_key(&(self.view, entry.0))
    }

    /// How many pages of the message stand at rwx before it, among those that it sets.
    fn new_pages(&self) -> usize {
        let mut pages: Vec<u64> = self.entries.iter().filter(|entry| self.is_new(entry)).map(|entry| entry.0).collect();
        pages.sort();
        pages.dedup();
        pages.len()
    }

    /// Whether one of these entries forgets a page that stands below rwx before the message.
    fn gives_back(&self, entries: &[Entry]) -> bool {
        entries.iter().any(|(page, access)| *access == 7 && self.table.contains_key(&(self.view, *page)))
    }

    fn passed(&self, bytes: &[u8]) -> [bool; 8] {
        let room = LIMIT - self.table.len();
        let new = self.new_pages();
        let sets = |page: u64| self.entries.iter().filter(|entry| entry.0 == page && entry.1 != 7).count();
        let forgets_new = self
            .entries
            .iter()
            .any(|(page, access)| *access == 7 && !self.table.contains_key(&(self.view, *page)) && sets(*page) > 0);
        [
            new == 0,
            new > 0 && new <= room,
            new > room && self.gives_back(self.entries) && !forgets_new,
            new > room && !self.gives_back(self.entries) && forgets_new,
            new > 0 && room == 0 && self.changed.len() == LIMIT,
            room > 0 && self.changed.len() == LIMIT,
            self.entries.iter().any(|(page, _)| self.entries.iter().filter(|other| other.0 == *page).count() > 1),
            bytes.is_empty(),
        ]
    }

    fn skipped(&self, bytes: &[u8]) -> [bool; 22] {
        let (length, room) = (self.deeds.len(), LIMIT - self.table.len());
        let is_skipped = |at: usize| self.deeds[at] == Deed::Skipped;
        let places: Vec<usize> = (0..length).filter(|at| is_skipped(*at)).collect();
        let (first, last) = (places[0], places[places.len() - 1]);
        let alone = length > 1 && places.len() == 1;
        let changes = |deeds: &[Deed]| deeds.contains(&Deed::Changes);
        let (before, behind) = (changes(&self.deeds[..first]), changes(&self.deeds[first..]));
        // with the entries that forget pages moved to the front, all would pass
        let mut ordered = self.entries.to_vec();
        ordered.sort_by_key(|(_, access)| *access != 7);
        let later = !limit::act(&mut self.table.clone(), self.view, &ordered).contains(&Deed::Skipped);
        let changed_twice = (0..first).any(|at| {
            let same = |other: &usize| self.entries[*other].0 == self.entries[at].0 && self.deeds[*other] == Deed::Changes;
            (0..first).filter(same).count() > 1
        });
        let set_later = places.iter().any(|at| self.changed.contains_key(&(self.view, self.entries[*at].0)));
        let of_view = self.table.range((self.view, 0)..=(self.view, u64::MAX)).count();
        [
            length == 1,
            alone && first == 0,
            alone && last == length - 1,
            alone && first > 0 && last < length - 1,
            places.len() > 1 && places.len() < length,
            places.len() > 1 && places.len() == length,
            before && !behind,
            behind && !before,
            before && behind,
            !before && !behind,
            later && self.gives_back(&self.entries[first..]),
            self.gives_back(&self.entries[..first]),
            room > 0,
            changed_twice,
            set_later,
            room == 0,
            room == 1,
            room > 1,
            of_view < LIMIT && room == 0,
            bytes.len() == 16,
            bytes.len() == 568,
            bytes.is_empty(),
        ]
    }
}
