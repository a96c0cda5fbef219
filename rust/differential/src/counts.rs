//! What a run has seen.

use crate::access_counts::AccessCounts;
use crate::batch_counts::BatchCounts;
use crate::event_counts::{EventCounts, Stands};
use crate::fault_counts::FaultCounts;
use crate::look::LOOKUPS;
use crate::padding_counts::PaddingCounts;
use crate::revision_counts::RevisionCounts;
use crate::run::Taken;
use crate::{Call, Lookup, Told};
use reference::{Action, Answer, Batch, Settings, Signal};
use std::fmt;

/// Every error code of a reply.
pub const CODES: [i32; 9] = [0, -1, -2, -11, -12, -16, -22, -95, -1000];

/// The kinds of calls, as rows of the answers.
const WORDS: [&str; 9] = ["fresh", "load", "ready", "message", "batch", "enter", "image", "list_ready", "list_cr"];

/// The answers that each kind has.
const ANSWERS: [&[usize]; 9] = [
    &[0, 7],
    &[0, 7, 8, 9],
    &[0, 2, 4],
    &[0, 1, 2, 3, 12],
    &[0, 1, 2, 3, 11, 12],
    &[0, 2, 3, 4, 5, 6],
    &[0, 2, 3, 10],
    &[0, 4],
    &[0, 4, 14],
];

/// What calls on lists can be about.
const LISTS: [&str; 7] = [
    "no record",
    "20 records",
    "index at the length",
    "index past the length",
    "CR other than 0, 3, 4, record ready",
    "record not ready, CR 0, 3 or 4",
    "a ready mark other than 1",
];

/// What lookups can tell, and be asked.
const TOLD: [&str; 4] = ["nothing on", "something on", "no such number", "no such vCPU of this session"];

/// The signals, told apart by whether the call wrote a reply: a kick does, with replies on, and a crash or a resume never.
const SIGNALS: [&str; 9] = [
    "none",
    "kick, no wait, reply",
    "kick and wait, reply",
    "kick, no wait, no reply",
    "kick and wait, no reply",
    "crash",
    "resume to continue, with a value",
    "resume to continue, without",
    "resume to retry",
];

/// Where an image can be refused.
const PLACES: [&str; 8] = ["VM", "VC", "MS", "PA", "EN", "the length", "after EN", "another mark"];

/// The errors that each of the messages 1 to 15 gives in a reply.
const REPLIES: [&[i32]; 15] = [
    &[0],
    &[0, -1, -22],
    &[0, -1, -22],
    &[0, -1],
    &[0, -1, -22],
    &[0, -1, -2, -22],
    &[0, -1, -2, -22],
    &[0, -1, -11, -22],
    &[0, -1, -11, -16, -22],
    &[0, -1, -11, -16, -22, -95],
    &[0, -1, -11, -22],
    &[0, -1, -11, -22],
    &[0, -1, -12, -22],
    &[0, -1, -11, -22, -95],
    &[0, -1, -22],
];

/// With replies off: messages with reply data close, and so do those not allowed, so that -1 is about an event, or in message
/// 2 about a command.
fn off(id: usize) -> impl Iterator<Item = i32> {
    let codes = if matches!(id, 1 | 4 | 6 | 8) { &[] } else { REPLIES[id - 1] };
    codes.iter().copied().filter(move |&code| code != -1 || matches!(id, 2 | 3 | 5 | 10))
}

/// What a message wrote.
enum Wrote {
    Reply,
    CommandError,
    Nothing,
}

#[derive(Clone, Default)]
pub struct Counts {
    pub sessions: u64,
    pub messages: u64,
    pub images_read: u64,
    pub images_written: u64,
    /// The most messages of a session, and the most pages and bytes of an image.
    pub longest: u64,
    pub most_pages: u64,
    pub largest: u64,
    answers: [[u64; 15]; 9],
    /// Lookups: by name and by what they told or were asked.
    looked: [[u64; 4]; 12],
    /// Lookups in closed sessions.
    closed: u64,
    lists: [u64; 7],
    /// By message, 0 for an unknown one, and by error.
    replies: [[u64; 9]; 17],
    command_errors: [[u64; 9]; 17],
    /// Handled without a byte, by message.
    silent: [u64; 17],
    closing: [u64; 17],
    signals: [u64; 9],
    events: EventCounts,
    accesses: AccessCounts,
    batches: BatchCounts,
    faults: FaultCounts,
    padding: PaddingCounts,
    pub(crate) revisions: RevisionCounts,
    refused: [[u64; 2]; 8],
}

impl Counts {
    /// Takes note of a call that both sides answered alike; `bytes` are those written, and `stands` tells what stands after it.
    pub(crate) fn saw(&mut self, call: &Call, answer: Answer, bytes: &[u8], stands: Stands) {
        let row = WORDS.iter().position(|word| *word == call.word()).expect("a row for each word");
        self.answers[row][answer.number() as usize] += 1;
        self.revisions.saw(call, answer, bytes);
        match call {
            Call::Message { bytes: message, guest, .. } => {
                self.saw_message(message, answer, bytes);
                self.padding.saw(message, answer, bytes, stands);
                if message.starts_with(&[16, 0]) && matches!(answer.number(), 0 | 1 | 12) {
                    self.events.saw_reply(message, answer, stands);
                    self.faults.saw_reply(message, answer, *guest);
                }
                if message.starts_with(&[13, 0]) && answer.number() == 0 {
                    self.accesses.saw_message(message, bytes, stands);
                }
            }
            Call::Load { settings, image, .. } => {
                self.saw_load(image, answer);
                self.accesses.saw_load(settings, image, answer);
            }
            Call::Enter { .. } => {
                self.events.saw_entry(call, answer, bytes, stands);
                if let Answer::Handled { .. } = answer {
                    self.faults.saw_entry(call, bytes, stands);
                }
            }
            Call::Image { .. } => {
                self.images_written += 1;
                self.saw_image(bytes);
                self.accesses.saw_image(bytes);
            }
            Call::ListReady { records, index } | Call::ListCr { records, index, .. } => {
                let at = records.get(*index as usize);
                let wrong = matches!(call, Call::ListCr { cr, .. } if !matches!(cr, 0 | 3 | 4));
                let is_cr = matches!(call, Call::ListCr { .. });
                let kinds = [
                    records.is_empty(),
                    records.len() == 20,
                    *index == records.len() as u64,
                    *index > records.len() as u64,
                    is_cr && wrong && at.is_some_and(|record| record.ready != 0),
                    is_cr && !wrong && at.is_some_and(|record| record.ready == 0),
                    at.is_some_and(|record| record.ready > 1),
                ];
                self.lists.iter_mut().zip(kinds).for_each(|(count, seen)| *count += u64::from(seen));
            }
            // what is seen of a batch is noted before
            Call::Fresh { .. } | Call::Ready { .. } | Call::Batch { .. } | Call::Look { .. } => {}
        }
        match call {
            Call::Fresh { settings } | Call::Load { settings, keep: true, .. } if answer.number() == 0 => {
                self.events.forget();
                self.accesses.begins(settings);
                self.faults.begins(settings);
                self.padding.begins(settings);
            }
            _ if answer == Answer::Closing => {
                self.events.forget();
                self.faults.forget();
            }
            _ => {}
        }
    }

    /// Takes note of a batch that both sides answered alike, and of the signals listed.
    pub(crate) fn saw_batch(&mut self, call: &Call, batch: &Batch, listed: &[u32]) {
        let Call::Batch { bytes, .. } = call else { return };
        if let Answer::Handled { .. } | Answer::NoPage { .. } = batch.answer {
            self.events.saw_replies(&bytes[..batch.used]);
            self.faults.saw_replies(&bytes[..batch.used]);
        }
        self.batches.saw(call, batch, listed);
        self.padding.saw_batch(bytes, batch);
    }

    /// Takes note of a batch's messages as they are taken one by one.
    pub(crate) fn saw_taken(&mut self, call: &Call, batch: &Batch, taken: &[Taken]) {
        self.batches.saw_taken(call, batch, taken);
        self.faults.saw_taken(call, batch, taken);
        self.revisions.saw_taken(batch, taken);
    }

    /// How many batches there were, and how many messages they used.
    pub fn batches(&self) -> (u64, u64) {
        (self.batches.batches, self.batches.messages)
    }

    /// Takes note of a lookup, and says whether what is asked of no session is off, or at rwx.
    pub fn looked(&mut self, lookup: Lookup, told: Told, settings: &Settings) -> bool {
        let is_off = match (lookup, told) {
            (Lookup::Access { .. }, told) => told == Told::Number(7),
            (_, told) => matches!(told, Told::Flag(false) | Told::Number(0) | Told::Page(None)),
        };
        let is_cr = |cr| matches!(cr, 0 | 3 | 4);
        let is_msr = |msr| matches!(msr, 0..0x2000 | 0xC000_0000..0xC000_2000);
        let (vcpu, is_known) = match lookup {
            Lookup::IsOpen | Lookup::PageCount => (0, true),
            Lookup::IsReady { vcpu } | Lookup::Singlestep { vcpu } | Lookup::Pauses { vcpu } | Lookup::Awaited { vcpu } => {
                (vcpu, vcpu < 16)
            }
            Lookup::VmEvent { event } => (0, (1..15).contains(&event)),
            Lookup::VcpuEvent { vcpu, event } => (vcpu, vcpu < 16 && (1..15).contains(&event)),
            Lookup::Cr { vcpu, cr } => (vcpu, vcpu < 16 && is_cr(cr)),
            Lookup::Msr { vcpu, msr } => (vcpu, vcpu < 16 && is_msr(msr)),
            Lookup::Access { view, page } => (0, view < 8 && page < 1 << 52),
            Lookup::PageAt { i } => (0, i < 1024),
        };
        let row = &mut self.looked[lookup.row()];
        row[usize::from(!is_off)] += 1;
        row[2] += u64::from(!is_known);
        row[3] += u64::from(is_known && vcpu >= settings.vcpus);
        if lookup == Lookup::IsOpen {
            self.closed += u64::from(is_off);
        }
        is_off || is_known && vcpu < settings.vcpus
    }

    fn saw_message(&mut self, message: &[u8], answer: Answer, bytes: &[u8]) {
        self.messages += 1;
        let id = match message {
            [id @ 1..=16, 0, ..] => usize::from(*id),
            _ => 0,
        };
        match answer {
            Answer::Closing => self.closing[id] += 1,
            Answer::Handled { signal, .. } | Answer::NoPage { signal } => {
                let silent = 2 * usize::from(bytes.is_empty());
                self.signals[match signal {
                    Signal::None => 0,
                    Signal::Kick { wait, .. } => 1 + silent + usize::from(wait),
                    Signal::Crash { .. } => 5,
                    Signal::Resume { action: Action::Continue, value: 1.., .. } => 6,
                    Signal::Resume { action: Action::Continue, value: 0, .. } => 7,
                    Signal::Resume { action: Action::Retry, .. } => 8,
                }] += 1;
                let code = crate::told_error(bytes).unwrap_or(0);
                let column = CODES.iter().position(|known| *known == code);
                let column = column.unwrap_or_else(|| panic!("both sides gave the error {code}"));
                match written(bytes) {
                    Wrote::Nothing => self.silent[id] += 1,
                    Wrote::Reply => self.replies[id][column] += 1,
                    Wrote::CommandError => self.command_errors[id][column] += 1,
                }
            }
            _ => {}
        }
    }

    fn saw_load(&mut self, image: &[u8], answer: Answer) {
        self.images_read += 1;
        let (column, offset) = match answer {
            Answer::BadForm { offset } => (0, offset),
            Answer::Forbidden { offset } => (1, offset),
            Answer::Handled { .. } => return self.saw_image(image),
            _ => return,
        };
        let place = match image.get(offset..) {
            None | Some([]) => 5,
            _ if offset >= 6 && image[offset - 6..].starts_with(b"EN") => 6,
            Some([first, second, ..]) => {
                let mark = [*first, *second];
                PLACES[..5].iter().position(|place| place.as_bytes() == mark).unwrap_or(7)
            }
            Some(_) => 7,
        };
        self.refused[place][column] += 1;
    }

    /// An image that a session wrote or took.
    fn saw_image(&mut self, image: &[u8]) {
        self.largest = self.largest.max(image.len() as u64);
        // PA records are the last ones before EN
        let body = &image[..image.len().saturating_sub(6)];
        let pages = body.rchunks_exact(14).take_while(|record| record.starts_with(b"PA")).count();
        self.most_pages = self.most_pages.max(pages as u64);
    }

    pub fn add(&mut self, other: &Counts) {
        self.sessions += other.sessions;
        self.messages += other.messages;
        self.images_read += other.images_read;
        self.images_written += other.images_written;
        self.longest = self.longest.max(other.longest);
        self.most_pages = self.most_pages.max(other.most_pages);
        self.largest = self.largest.max(other.largest);
        sum(self.answers.as_flattened_mut(), other.answers.as_flattened());
        sum(self.replies.as_flattened_mut(), other.replies.as_flattened());
        sum(self.command_errors.as_flattened_mut(), other.command_errors.as_flattened());
        sum(self.looked.as_flattened_mut(), other.looked.as_flattened());
        self.closed += other.closed;
        sum(&mut self.lists, &other.lists);
        sum(&mut self.silent, &other.silent);
        sum(&mut self.closing, &other.closing);
        sum(&mut self.signals, &other.signals);
        self.events.add(&other.events);
        self.accesses.add(&other.accesses);
        self.batches.add(&other.batches);
        self.faults.add(&other.faults);
        self.padding.add(&other.padding);
        self.revisions.add(&other.revisions);
        sum(self.refused.as_flattened_mut(), other.refused.as_flattened());
    }

    /// Everything that a run has to see, with how often it did.
    pub fn wanted(&self) -> Vec<(String, u64)> {
        let mut list = Vec::new();
        for (row, numbers) in ANSWERS.iter().enumerate() {
            list.extend(numbers.iter().map(|&n| (format!("{}: answer {n}", WORDS[row]), self.answers[row][n])));
        }
        for (column, code) in CODES.iter().enumerate() {
            list.push((format!("error {code}"), self.replies.iter().chain(&self.command_errors).map(|row| row[column]).sum()));
        }
        for id in 1..16 {
            for code in REPLIES[id - 1] {
                list.push((format!("message {id}: reply {code}"), self.replies[id][column(*code)]));
            }
            for code in off(id) {
                let (what, count) = match code {
                    0 => ("silence".into(), self.silent[id]),
                    _ => (format!("CMD_ERROR {code}"), self.command_errors[id][column(code)]),
                };
                list.push((format!("message {id}: {what}"), count));
            }
        }
        list.push(("unknown message: reply -1000".into(), self.replies[0][column(-1000)]));
        list.push(("message 16: taken".into(), self.silent[16]));
        list.extend((0..17).map(|id| (format!("message {id}: closing"), self.closing[id])));
        list.extend(SIGNALS.iter().zip(self.signals).map(|(name, count)| (format!("signal: {name}"), count)));
        list.extend(self.events.wanted());
        list.extend(self.accesses.wanted());
        list.extend(self.batches.wanted());
        list.extend(self.faults.wanted());
        list.extend(self.padding.wanted());
        list.extend(self.revisions.wanted());
        for (place, [form, forbidden]) in PLACES.iter().zip(self.refused) {
            list.push((format!("image: bad form at {place}"), form));
            if matches!(*place, "VM" | "VC" | "PA") {
                list.push((format!("image: forbidden at {place}"), forbidden));
            }
        }
        for (row, counts) in self.looked.iter().enumerate() {
            let name = LOOKUPS[row];
            let columns = match name {
                // these are asked without a number
                "is_open" | "page_count" => 2,
                // and these not of a vCPU
                "vm_event" | "access" | "page_at" => 3,
                _ => 4,
            };
            list.extend(TOLD.iter().zip(counts).take(columns).map(|(told, count)| (format!("lookup {name}: {told}"), *count)));
        }
        list.push(("lookup: in a closed session".into(), self.closed));
        list.extend(LISTS.iter().zip(self.lists).map(|(name, count)| (format!("list: {name}"), count)));
        list.push(("image: 1,024 pages".into(), u64::from(self.most_pages == 1024)));
        list.push(("image: the longest".into(), u64::from(self.largest == semblurick::IMAGE_MAX as u64)));
        list
    }

    /// How many lookups there were.
    pub fn lookups(&self) -> u64 {
        self.looked.iter().map(|[off, on, ..]| off + on).sum()
    }

    /// What a run had to see and did not.
    pub fn missing(&self) -> Vec<String> {
        self.wanted().into_iter().filter(|(_, count)| *count == 0).map(|(name, _)| name).collect()
    }
}

/// What these bytes of a message's output are.
fn written(bytes: &[u8]) -> Wrote {
    match bytes.len() {
        0 => Wrote::Nothing,
        568 if bytes[..2] == [17, 0] => Wrote::CommandError,
        _ => Wrote::Reply,
    }
}

fn column(code: i32) -> usize {
    CODES.iter().position(|known| *known == code).expect("a known code")
}

fn sum(into: &mut [u64], from: &[u64]) {
    into.iter_mut().zip(from).for_each(|(into, from)| *into += from);
}

impl fmt::Display for Counts {
    fn fmt(&self, f: &mut fmt::Formatter<'_>) -> fmt::Result {
        writeln!(f, "{} sessions, {} messages, the longest with {}", self.sessions, self.messages, self.longest)?;
        let (batches, messages) = self.batches();
        writeln!(f, "{batches} batches with {messages} messages more, the longest with {}", self.batches.longest)?;
        writeln!(
            f,
            "{} images read, {} written, the largest of {} bytes",
            self.images_read, self.images_written, self.largest
        )?;
        self.wanted().iter().try_for_each(|(name, count)| writeln!(f, "{count:>9}  {name}"))
    }
}
