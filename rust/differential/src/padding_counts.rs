//! What a run has seen of padding that is not zero: the offsets that answers tell, and the messages that no offset is told of.

use crate::batch::messages;
use crate::event_counts::Stands;
use crate::message::{entry_padding, first_padding, has_known_size, PADDED};
use crate::{padding_of, Answer, Batch, Lookup, Settings, Told};

/// The runs of padding: the message, and the offsets of the first byte and the last. Of a message 13's entries it is the first one's.
const RUNS: [(u8, usize, usize); 17] = [
    (2, 10, 15),
    (3, 10, 15),
    (5, 11, 15),
    (8, 10, 15),
    (9, 10, 15),
    (9, 17, 23),
    (10, 10, 15),
    (10, 19, 23),
    (11, 10, 15),
    (11, 17, 19),
    (12, 10, 15),
    (12, 17, 19),
    (13, 12, 15),
    (13, 25, 31),
    (14, 10, 15),
    (14, 17, 23),
    (15, 11, 15),
];

/// What can be told of each run of padding.
const OFFSETS: [&str; 10] = [
    "its first byte",
    "its last byte",
    "a byte between",
    "in a reply",
    "by CMD_ERROR",
    "in silence",
    "nothing else at fault",
    "more of the run not zero",
    "a later run not zero",
    "another cause of -22 beside",
];

/// What can be told of message 13.
const ENTRIES: [&str; 12] = [
    "its only entry",
    "the first entry of some",
    "the last entry of some",
    "an entry between",
    "an offset above 255",
    "an offset above 32,767",
    "the first byte of 4,095 entries",
    "the last byte of 4,095 entries",
    "its head, entries at fault",
    "its head, entries at fault that the count does not fit",
    "its head, no entries",
    "an entry, a bad access before it",
];

/// What else would be answered if it were not for padding.
const OTHERWISE: [&str; 7] = ["0", "-11", "-1", "-95", "-16", "-12", "closing, message 15 without event 13"];

/// Why no offset is told although bytes that would be padding are not zero.
const UNTOLD: [&str; 12] = [
    "an unknown message, -1000",
    "an unknown message, closing",
    "a number that is one of a command with padding once it is cut, -1000",
    "an event reply, closing",
    "message 8 with replies off, closing",
    "message 9 without event 2, closing",
    "a size field unlike the bytes, closing",
    "entries that the count does not fit",
    "entries that are not whole",
    "a message that a batch used",
    "the last message that a batch used",
    "the last message that a batch used, with replies off",
];

/// The same, for each message with padding.
const REASONS: [&str; 5] = ["-1, not allowed", "closing, not allowed", "closing for its size", "answer 2", "answer 3"];

/// What can become of each where padding is as it should be.
const GOOD: [&str; 4] = ["-22 for another cause", "another error", "no error", "silence"];

#[derive(Clone, Default)]
pub(crate) struct PaddingCounts {
    /// The settings of the present session.
    settings: Option<Settings>,
    offsets: [[u64; 10]; RUNS.len()],
    entries: [u64; 12],
    otherwise: [u64; 7],
    untold: [u64; 12],
    reasons: [[u64; 5]; PADDED.len()],
    good: [[u64; 4]; PADDED.len()],
    /// Messages 15 with good padding that close without event 13.
    closing: u64,
}

impl PaddingCounts {
    /// A session begins.
    pub fn begins(&mut self, settings: &Settings) {
        self.settings = Some(settings.clone());
    }

    /// A message, its answer, the bytes that it wrote, and what stands after it.
    pub fn saw(&mut self, message: &[u8], answer: Answer, bytes: &[u8], stands: Stands) {
        let Some(settings) = self.settings.take() else { return };
        self.note(&settings, message, answer, bytes, stands);
        self.settings = Some(settings);
    }

    fn note(&mut self, settings: &Settings, message: &[u8], answer: Answer, bytes: &[u8], stands: Stands) {
        let Some((header, data)) = message.split_at_checked(8) else { return };
        let (id, told) = (u16::from_le_bytes([header[0], header[1]]), padding_of(answer));
        let is_whole = usize::from(u16::from_le_bytes([header[2], header[3]])) == data.len();
        let is_allowed = matches!(id, 1..=3 | 16) || id < 16 && settings.commands >> id & 1 == 1;
        let (handled, closes) = (answer.number() == 0, answer == Answer::Closing);
        let row = PADDED.iter().position(|known| *known == id);
        let first = first_padding(id, message);
        if handled {
            // test 6 is reached by what does not close, if it is a command that is allowed
            let expected = first.filter(|_| row.is_some() && is_allowed).unwrap_or(0);
            assert_eq!(told, expected, "both sides tell of this padding byte in a message {id}");
        }
        if told > 0 {
            let error = crate::told_error(bytes);
            assert!(bytes.is_empty() || error == Some(-22), "both sides tell of padding with the error {error:?}");
            return self.saw_offset(settings, message, told, bytes, stands);
        }

        let event = |event: u16| settings.events >> event & 1 == 1;
        let is_bad = first.is_some();
        let Some(row) = row else {
            let is_unknown = !matches!(id, 1..=16) && data.iter().any(|byte| *byte != 0);
            let cut = first_padding(id & 0xFF, message).is_some() && has_known_size(id & 0xFF, data);
            let is_reply = id == 16 && data.len() >= 16;
            let kinds = [
                is_unknown && handled,
                is_unknown && closes && is_whole,
                is_unknown && handled && cut,
                is_reply && closes && is_whole && data[2..8].iter().chain(&data[10..16]).any(|byte| *byte != 0),
            ];
            return count(&mut self.untold[..4], &kinds);
        };
        let is_sized = is_whole && has_known_size(id, data);
        if !is_bad {
            let (error, is_tested) = (crate::told_error(bytes), handled && is_allowed);
            let kinds = [
                is_tested && error == Some(-22),
                is_tested && error.is_some_and(|error| error != -22),
                is_tested && error.is_none() && !bytes.is_empty(),
                is_tested && error.is_none() && bytes.is_empty(),
            ];
            count(&mut self.good[row], &kinds);
            self.closing += u64::from(id == 15 && closes && is_sized && is_allowed && !event(13));
            if id == 13 && is_tested {
                let (entries, rest) = data[8..].as_chunks::<16>();
                let is_spoilt = entries.iter().any(|entry| entry[9..] != [0; 7]);
                count(&mut self.untold[7..9], &[is_spoilt && rest.is_empty(), is_spoilt && !rest.is_empty()]);
            }
            return;
        }
        let kinds = [
            id == 8 && closes && is_sized && is_allowed,
            id == 9 && closes && is_sized && is_allowed && !event(2),
            closes && !is_whole && is_allowed,
        ];
        count(&mut self.untold[4..7], &kinds);
        let kinds = [
            handled && !is_allowed,
            closes && is_whole && !is_allowed,
            closes && is_whole && is_allowed && !has_known_size(id, data),
            answer == Answer::Closed && is_sized && is_allowed,
            answer == Answer::ShortOut && is_sized && is_allowed,
        ];
        count(&mut self.reasons[row], &kinds);
    }

    /// A command with padding that is not zero, first at this offset.
    fn saw_offset(&mut self, settings: &Settings, message: &[u8], told: usize, bytes: &[u8], stands: Stands) {
        let (id, data) = (message[0], &message[8..]);
        let of_message = |(known, _, _): &(u8, usize, usize)| *known == id;
        // an entry's is that of the first one, moved
        let moved = if told < 32 { 0 } else { told / 16 * 16 - 16 };
        let is_in = |(_, first, last): &(u8, usize, usize)| (*first..=*last).contains(&(told - moved));
        let row = RUNS.iter().position(|run| of_message(run) && is_in(run)).expect("a run of padding");
        let (_, start, end) = RUNS[row];
        let (start, end) = (start + moved, end + moved);
        let is_later = match id {
            13 => told < 16 && entry_padding(message, 0).is_some() || told > 16 && entry_padding(message, told / 16).is_some(),
            _ => RUNS[row + 1..]
                .iter()
                .filter(|run| of_message(run))
                .any(|(_, first, last)| message[*first..=*last] != ZERO[*first..=*last]),
        };
        let is_more = message[told + 1..=end].iter().any(|byte| *byte != 0);
        let cause = has_other_cause(settings, id, data);
        let kinds = [
            told == start,
            told == end,
            start < told && told < end,
            bytes.len() == 16,
            bytes.len() == 568,
            bytes.is_empty(),
            !is_more && !is_later && !cause,
            is_more,
            is_later,
            cause,
        ];
        count(&mut self.offsets[row], &kinds);

        if id == 13 {
            let (entries, rest) = data[8..].as_chunks::<16>();
            let fits = entries.len() == usize::from(u16::from_le_bytes([data[0], data[1]])) && rest.is_empty();
            let (length, entry) = (entries.len(), (told / 16).wrapping_sub(1));
            let is_spoilt = entries.iter().any(|entry| entry[9..] != [0; 7]);
            let is_full = length == 4095;
            let kinds = [
                told > 16 && length == 1,
                told > 16 && length > 1 && entry == 0,
                told > 16 && length > 1 && entry == length - 1,
                told > 16 && entry > 0 && entry < length - 1,
                told > 255,
                told > 32_767,
                told == 25 && is_full,
                told == 65_535 && is_full,
                told < 16 && fits && is_spoilt,
                told < 16 && !fits && is_spoilt,
                told < 16 && entries.is_empty(),
                told > 16 && entries[..=entry].iter().any(|entry| !matches!(entry[8], 0 | 1 | 3 | 4 | 5 | 7)),
            ];
            count(&mut self.entries, &kinds);
        }
        if cause {
            return;
        }
        let number = |at: usize| u16::from_le_bytes([data[at], data[at + 1]]);
        let vcpu = u32::from(number(0));
        let is_vcpus = matches!(id, 8..=12 | 14);
        let is_unready = is_vcpus && stands(Lookup::IsReady { vcpu }) == Some(Told::Flag(false));
        let event = |event: u16| settings.events >> event & 1 == 1;
        let is_forbidden = match id {
            2 => !matches!(number(0), 1..=3) && settings.commands >> number(0) & 1 == 0,
            3 | 5 => !event(number(0)),
            10 => !event(number(8)),
            _ => false,
        };
        let is_lacking =
            id == 14 && settings.features[0] == 0 || id == 10 && number(8) == 8 && data[10] == 1 && !settings.descriptors;
        let is_queued = id == 9 && stands(Lookup::Pauses { vcpu }) == Some(Told::Number(8));
        let is_taken = id == 10 && number(8) == 4 && data[10] == 1 && settings.breakpoints;
        let is_full = id == 13 && stands(Lookup::PageCount) == Some(Told::Number(1024)) && {
            let view = number(2).into();
            data[8..].as_chunks::<16>().0.iter().any(|entry| {
                let page = u64::from_le_bytes(*entry.first_chunk().expect("an address")) >> 12;
                entry[8] != 7 && stands(Lookup::Access { view, page }) == Some(Told::Number(7))
            })
        };
        let is_closing = id == 15 && data[0] == 0 && data[2] == 1 && !event(13);
        let kinds = [
            !(is_unready || is_forbidden || is_lacking || is_queued || is_taken || is_full || is_closing),
            is_unready,
            is_forbidden && !is_unready,
            is_lacking && !is_forbidden && !is_unready,
            (is_queued || is_taken) && !is_forbidden && !is_unready,
            is_full,
            is_closing,
        ];
        count(&mut self.otherwise, &kinds);
    }

    /// The messages that a batch used: its answer tells of none of them.
    pub fn saw_batch(&mut self, bytes: &[u8], batch: &Batch) {
        let Some(settings) = &self.settings else { return };
        assert_eq!(padding_of(batch.answer), 0, "both sides tell of padding in a batch");
        let Answer::Handled { .. } = batch.answer else { return };
        let mut is_last = false;
        for message in messages(&bytes[..batch.used]) {
            let id = message.first_chunk().map_or(0, |id| u16::from_le_bytes(*id));
            let is_allowed = matches!(id, 2 | 3) || id < 16 && settings.commands >> id & 1 == 1;
            is_last = PADDED.contains(&id) && is_allowed && first_padding(id, message).is_some();
            self.untold[9] += u64::from(is_last);
        }
        count(&mut self.untold[10..], &[is_last, is_last && batch.count == 0]);
    }

    pub fn add(&mut self, other: &PaddingCounts) {
        let sum = |into: &mut [u64], from: &[u64]| into.iter_mut().zip(from).for_each(|(into, from)| *into += from);
        sum(self.offsets.as_flattened_mut(), other.offsets.as_flattened());
        sum(&mut self.entries, &other.entries);
        sum(&mut self.otherwise, &other.otherwise);
        sum(&mut self.untold, &other.untold);
        sum(self.reasons.as_flattened_mut(), other.reasons.as_flattened());
        sum(self.good.as_flattened_mut(), other.good.as_flattened());
        self.closing += other.closing;
    }

    /// Everything that a run has to see, with how often it did.
    pub fn wanted(&self) -> Vec<(String, u64)> {
        let mut list = Vec::new();
        for (row, ((id, start, end), counts)) in RUNS.iter().zip(&self.offsets).enumerate() {
            let has_later = *id == 13 || RUNS[row + 1..].iter().any(|(later, _, _)| later == id);
            for (column, name) in OFFSETS.iter().enumerate() {
                // message 8 closes with replies off
                let never = *id == 8 && matches!(column, 4 | 5) || column == 8 && !has_later;
                if !never {
                    list.push((format!("padding {start} to {end} of message {id}: {name}"), counts[column]));
                }
            }
        }
        let rows = |what: &str, names: &[&str], counts: &[u64]| -> Vec<(String, u64)> {
            names.iter().zip(counts).map(|(name, count)| (format!("{what}: {name}"), *count)).collect()
        };
        list.extend(rows("padding of message 13", &ENTRIES, &self.entries));
        list.extend(rows("padding told that would else be", &OTHERWISE, &self.otherwise));
        list.extend(rows("padding not told", &UNTOLD, &self.untold));
        for (id, counts) in PADDED.iter().zip(&self.reasons) {
            // messages 2 and 3 are always allowed, 13 closes only below 8 bytes, and without 15 replies are on
            let is_seen = |column: usize| !matches!((id, column), (2 | 3, 0 | 1) | (13, 2) | (15, 1));
            let all = rows(&format!("padding of message {id} not told"), &REASONS, counts);
            list.extend(all.into_iter().enumerate().filter(|(column, _)| is_seen(*column)).map(|(_, row)| row));
        }
        for (id, counts) in PADDED.iter().zip(&self.good) {
            // message 8 closes with replies off, and 15 has no other error
            let is_seen = |column: usize| !matches!((id, column), (8, 3) | (15, 1));
            let all = rows(&format!("padding of message {id} good"), &GOOD, counts);
            list.extend(all.into_iter().enumerate().filter(|(column, _)| is_seen(*column)).map(|(_, row)| row));
        }
        list.push(("padding of message 15 good: closing without event 13".into(), self.closing));
        list
    }
}

/// No bytes but zeros, as many as a message has that is not message 13.
const ZERO: [u8; 24] = [0; 24];

/// Whether a command's data, as many as it has, have a cause of -22 beside padding.
fn has_other_cause(settings: &Settings, id: u8, data: &[u8]) -> bool {
    let number = |at: usize| u16::from_le_bytes([data[at], data[at + 1]]);
    let register = || u32::from_le_bytes([data[12], data[13], data[14], data[15]]);
    if matches!(id, 8..=12 | 14) && u32::from(number(0)) >= settings.vcpus {
        return true;
    }
    match id {
        2 => !matches!(number(0), 1..=15),
        3 => !matches!(number(0), 1..=14),
        5 => !matches!(number(0), 1 | 12) || data[2] > 1,
        9 | 14 => data[8] > 1,
        10 => !matches!(number(8), 3..=5 | 7..=11 | 14) || data[10] > 1,
        11 => data[8] > 1 || !matches!(register(), 0 | 3 | 4),
        12 => data[8] > 1 || !matches!(register(), 0..0x2000 | 0xC000_0000..0xC000_2000),
        13 => {
            let (entries, rest) = data[8..].as_chunks::<16>();
            let is_bad = |access: u8| !matches!(access, 0 | 1 | 3 | 5 | 7) && (access != 4 || !settings.execute_only);
            entries.len() != usize::from(number(0))
                || !rest.is_empty()
                || u32::from(number(2)) >= settings.views
                || entries.iter().any(|entry| is_bad(entry[8]))
        }
        15 => data[..3].iter().any(|byte| *byte > 1),
        _ => false,
    }
}

fn count(into: &mut [u64], kinds: &[bool]) {
    into.iter_mut().zip(kinds).for_each(|(count, seen)| *count += u64::from(*seen));
}
