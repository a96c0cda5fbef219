//! What a run has seen of execute-only pages: the messages and images that ask for access 4, where the host has it and where not.

use crate::event_counts::Stands;
use crate::{image, told_error, Answer, Lookup, Settings, Told};

/// How messages 13 can ask for access 4, and what becomes of them. "Alone": all else in it is right.
const MESSAGES: [&str; 12] = [
    "not there: -22 for its only entry alone",
    "not there: -22 for its first entry alone",
    "not there: -22 for its last entry alone",
    "not there: -22 for an entry between alone",
    "not there: -22 for every one of some entries alone",
    "not there: CMD_ERROR -22 for access 4 alone",
    "not there: silence, for access 4 alone",
    "not there: -22 where the table has no room",
    "there: taken, its only entry",
    "there: taken, among others",
    "there: -12",
    "there: -22 for another fault",
];

/// What else can be at fault in a message that asks for access 4 where it is not there.
const FAULTS: [&str; 5] = ["count", "view", "padding", "padding of an entry", "access"];

/// The other accesses.
const OTHERS: [u8; 5] = [0, 1, 3, 5, 7];

/// The same message on the same tables.
const SAME_MESSAGES: [&str; 3] = ["taken", "-12", "-22"];

/// Why answer 9 can be given to a record of access 4.
const FORBIDDEN: [&str; 3] =
    ["not there: answer 9 for it alone", "not there: answer 9, the view lacking too", "there: answer 9 for its view"];

/// Why the form of a record can be bad, though its access is 4 and that is not there.
const FORMS: [&str; 6] = ["its view", "its zero byte", "its page", "its place", "one page too many", "a cut"];

/// The same image, read where access 4 is there and where not.
const SAME_IMAGES: [&str; 7] = [
    "answer 9 where it is not there, loaded where it is",
    "answer 9 where it is not there, 8 at a later record where it is",
    "answer 9 where it is not there, 9 at a later record where it is",
    "answer 8 at a record of access 4 both times",
    "answer 9 at a record of access 4 both times",
    "answer 8 before the first such record both times",
    "answer 9 before the first such record both times",
];

/// An image that a session wrote, read by settings that differ in this alone.
const WRITTEN: [&str; 2] =
    ["written where it is there, answer 9 where it is not", "written where it is not there, loaded where it is"];

#[derive(Clone, Default)]
pub(crate) struct AccessCounts {
    /// The settings of the present session.
    settings: Option<Settings>,
    /// The last message that asked for access 4, with its settings and error; the last image read, and the last one written.
    message: Option<(Settings, Vec<u8>, i32)>,
    read: Option<(Settings, Vec<u8>, Answer)>,
    written: Option<(Settings, Vec<u8>)>,
    messages: [u64; 12],
    faults: [u64; 5],
    /// Messages taken, by an access that they ask for, and images, where access 4 is not there.
    others: [[u64; 2]; 5],
    same_messages: [u64; 3],
    forbidden: [u64; 3],
    forms: [u64; 6],
    /// Images loaded with access 4.
    loaded: u64,
    same_images: [u64; 7],
    written_and_read: [u64; 2],
}

/// Whether these differ in whether the host has execute-only pages, and in nothing else.
fn differ(one: &Settings, other: &Settings) -> bool {
    *one == Settings { execute_only: !other.execute_only, ..other.clone() }
}

/// The record of a page of access 4 that begins here, cut as it may be.
fn executing(image: &[u8], offset: usize) -> Option<&[u8]> {
    let record = image.get(offset..)?;
    let record = &record[..record.len().min(14)];
    (record.starts_with(b"PA") && record.get(4) == Some(&4)).then_some(record)
}

/// View and page of a whole record.
fn pair(record: &[u8]) -> (u16, u64) {
    (u16::from_le_bytes([record[2], record[3]]), u64::from_le_bytes(*record[6..].first_chunk().expect("a page")))
}

impl AccessCounts {
    /// A session begins.
    pub fn begins(&mut self, settings: &Settings) {
        self.settings = Some(settings.clone());
    }

    /// A message 13 that was handled, and the bytes that it wrote.
    pub fn saw_message(&mut self, message: &[u8], bytes: &[u8], stands: Stands) {
        let settings = self.settings.as_ref().expect("a session has begun");
        if settings.commands >> 13 & 1 == 0 {
            // it was not looked at
            return;
        }
        let (head, entries) = message[8..].split_at(8);
        let (entries, rest) = entries.as_chunks::<16>();
        let (count, view) = (u16::from_le_bytes([head[0], head[1]]), u16::from_le_bytes([head[2], head[3]]));
        let faults = [
            entries.len() != usize::from(count) || !rest.is_empty(),
            u32::from(view) >= settings.views,
            head[4..] != [0; 4],
            entries.iter().any(|entry| entry[9..] != [0; 7]),
            entries.iter().any(|entry| !matches!(entry[8], 0 | 1 | 3 | 4 | 5 | 7)),
        ];
        let is_right = faults == [false; 5];
        let (is_told, error) = (!bytes.is_empty(), told_error(bytes).unwrap_or(0));
        let is_reply = bytes.len() == 16;
        let is_there = settings.execute_only;
        let fours = entries.iter().filter(|entry| entry[8] == 4).count();
        if is_told {
            let is_wrong = !is_right || fours > 0 && !is_there;
            assert_eq!(error == -22, is_wrong, "both sides gave {error} for accesses or their padding");
        }
        if is_reply && is_right && !is_there && error == 0 {
            for (counts, access) in self.others.iter_mut().zip(OTHERS) {
                counts[0] += u64::from(entries.iter().any(|entry| entry[8] == access));
            }
        }
        if fours == 0 {
            return;
        }

        let alone = is_right && !is_there;
        let place = |at: usize| fours == 1 && entries.len() > 1 && entries[at][8] == 4;
        let (first, last) = (place(0), place(entries.len() - 1));
        // nothing has changed
        let is_full = stands(Lookup::PageCount) == Some(Told::Number(1024));
        let at_rwx = |entry: &[u8; 16]| {
            let page = u64::from_le_bytes(*entry.first_chunk().expect("an address")) >> 12;
            stands(Lookup::Access { view: view.into(), page }) == Some(Told::Number(7))
        };
        let kinds = [
            alone && is_reply && entries.len() == 1,
            alone && is_reply && first,
            alone && is_reply && last,
            alone && is_reply && fours == 1 && entries.len() > 2 && !first && !last,
            alone && is_reply && fours > 1 && fours == entries.len(),
            alone && bytes.len() == 568,
            alone && !is_told,
            alone && is_told && is_full && entries.iter().any(|entry| entry[8] != 7 && at_rwx(entry)),
            is_there && is_reply && error == 0 && entries.len() == 1,
            is_there && is_reply && error == 0 && fours < entries.len(),
            is_there && error == -12,
            is_there && error == -22,
        ];
        self.messages.iter_mut().zip(kinds).for_each(|(count, seen)| *count += u64::from(seen));
        if let ([fault], false) = (&(0..5).filter(|fault| faults[*fault]).collect::<Vec<_>>()[..], is_there) {
            self.faults[*fault] += u64::from(is_told);
        }

        if !is_told {
            return;
        }
        if let Some((other, _, before)) = self.message.as_ref().filter(|(_, before, _)| before == message) {
            if differ(other, settings) {
                let (without, with) = if is_there { (*before, error) } else { (error, *before) };
                assert_eq!(without, -22, "both sides took access 4");
                let row = [0, -12, -22].iter().position(|known| *known == with).expect("an error of message 13");
                self.same_messages[row] += 1;
            }
        }
        self.message = Some((settings.clone(), message.to_vec(), error));
    }

    /// An image that the session wrote, if it did.
    pub fn saw_image(&mut self, image: &[u8]) {
        let settings = self.settings.as_ref().expect("a session has begun");
        self.written = (!image.is_empty()).then(|| (settings.clone(), image.to_vec()));
    }

    /// An image that was read or refused.
    pub fn saw_load(&mut self, settings: &Settings, image: &[u8], answer: Answer) {
        let is_there = settings.execute_only;
        match answer {
            Answer::Handled { .. } => {
                let pages = image::page_starts(image);
                let has = |access| pages.iter().any(|start| image[start + 4] == access);
                assert!(is_there || !has(4), "both sides loaded access 4");
                self.loaded += u64::from(has(4));
                for (counts, access) in self.others.iter_mut().zip(OTHERS).filter(|_| !is_there) {
                    counts[1] += u64::from(has(access));
                }
            }
            Answer::Forbidden { offset } => {
                if let Some(record) = executing(image, offset) {
                    let lacks_view = u32::from(pair(record).0) >= settings.views;
                    assert!(lacks_view || !is_there, "both sides gave answer 9 to access 4");
                    self.forbidden[usize::from(lacks_view) + usize::from(is_there)] += 1;
                }
            }
            Answer::BadForm { offset } => {
                if let Some(record) = executing(image, offset).filter(|_| !is_there) {
                    self.saw_form(settings, image, offset, record);
                }
            }
            _ => return,
        }

        let is_forbidden = |answer| match answer {
            Answer::Forbidden { offset } => executing(image, offset).is_some(),
            _ => false,
        };
        if let Some((writer, _)) = self.written.as_ref().filter(|(_, written)| written == image) {
            if differ(writer, settings) {
                let seen = if is_there { answer.number() == 0 } else { is_forbidden(answer) };
                self.written_and_read[usize::from(is_there)] += u64::from(seen);
            }
        }
        if let Some((other, _, before)) = self.read.as_ref().filter(|(_, read, _)| read == image) {
            if differ(other, settings) {
                let (without, with) = if is_there { (*before, answer) } else { (answer, *before) };
                self.saw_both(image, without, with);
            }
        }
        self.read = Some((settings.clone(), image.to_vec(), answer));
    }

    /// A record of access 4 whose form is bad.
    fn saw_form(&mut self, settings: &Settings, image: &[u8], offset: usize, record: &[u8]) {
        let before = image::starts(&image[..offset]);
        let marked = |mark: &[u8]| before.iter().filter(|start| image[**start..].starts_with(mark)).count();
        if marked(b"VC") < settings.vcpus as usize || marked(b"EN") > 0 {
            // no page has its record here
            return;
        }
        let faults = match record.len() {
            14 => {
                let (view, page) = pair(record);
                let last =
                    before.last().filter(|start| image[**start..].starts_with(b"PA")).map(|start| pair(&image[*start..]));
                [view > 7, record[5] != 0, page >> 52 != 0, Some((view, page)) <= last, marked(b"PA") == 1024, false]
            }
            _ => [false, false, false, false, false, true],
        };
        let faults: Vec<usize> = (0..6).filter(|fault| faults[*fault]).collect();
        assert!(!faults.is_empty(), "both sides gave answer 8 to access 4");
        if let [alone] = faults[..] {
            self.forms[alone] += 1;
        }
    }

    /// The answers to the same image where access 4 is not there, and where it is.
    fn saw_both(&mut self, image: &[u8], without: Answer, with: Answer) {
        let place = |answer| match answer {
            Answer::BadForm { offset } | Answer::Forbidden { offset } => Some(offset),
            _ => None,
        };
        let at = place(without);
        let is_such = at.is_some_and(|at| executing(image, at).is_some());
        if without != with {
            assert!(without.number() == 9 && is_such, "access 4 is no reason for {without:?}, where it is there {with:?}");
            assert!(place(with).is_none() || at < place(with), "{without:?}, and {with:?} before");
        }
        let first = image::page_starts(image).into_iter().find(|start| image[start + 4] == 4);
        let is_before = first.is_some() && at.is_some() && at < first;
        let row = match (without == with, with.number()) {
            (false, 0) => Some(0),
            (false, 8) => Some(1),
            (false, 9) => Some(2),
            (true, 8) if is_such => Some(3),
            (true, 9) if is_such => Some(4),
            (true, 8) if is_before => Some(5),
            (true, 9) if is_before => Some(6),
            _ => None,
        };
        if let Some(row) = row {
            self.same_images[row] += 1;
        }
    }

    pub fn add(&mut self, other: &AccessCounts) {
        let sum = |into: &mut [u64], from: &[u64]| into.iter_mut().zip(from).for_each(|(into, from)| *into += from);
        sum(&mut self.messages, &other.messages);
        sum(&mut self.faults, &other.faults);
        sum(self.others.as_flattened_mut(), other.others.as_flattened());
        sum(&mut self.same_messages, &other.same_messages);
        sum(&mut self.forbidden, &other.forbidden);
        sum(&mut self.forms, &other.forms);
        self.loaded += other.loaded;
        sum(&mut self.same_images, &other.same_images);
        sum(&mut self.written_and_read, &other.written_and_read);
    }

    /// Everything that a run has to see, with how often it did.
    pub fn wanted(&self) -> Vec<(String, u64)> {
        let mut list = Vec::new();
        let mut rows = |names: &[&str], counts: &[u64], told: &dyn Fn(&str) -> String| {
            list.extend(names.iter().zip(counts).map(|(name, count)| (told(name), *count)));
        };
        rows(&MESSAGES, &self.messages, &|name| format!("message 13, access 4 {name}"));
        rows(&FAULTS, &self.faults, &|name| format!("message 13, access 4 not there: -22, the {name} at fault too"));
        rows(&SAME_MESSAGES, &self.same_messages, &|name| {
            format!("message 13, the same: -22 where access 4 is not there, {name} where it is")
        });
        rows(&FORBIDDEN, &self.forbidden, &|name| format!("image, access 4 {name}"));
        rows(&FORMS, &self.forms, &|name| format!("image, access 4 not there: answer 8 at it for {name} alone"));
        rows(&["loaded"], &[self.loaded], &|name| format!("image, access 4 there: {name}"));
        rows(&SAME_IMAGES, &self.same_images, &|name| format!("image, the same with access 4: {name}"));
        rows(&WRITTEN, &self.written_and_read, &|name| format!("image, access 4: {name}"));
        for (access, [messages, images]) in OTHERS.iter().zip(self.others) {
            list.push((format!("message 13, access 4 not there: access {access} taken"), messages));
            if *access != 7 {
                list.push((format!("image, access 4 not there: access {access} loaded"), images));
            }
        }
        list
    }
}
