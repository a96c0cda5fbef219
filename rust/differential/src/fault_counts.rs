//! What a run has seen of page faults: the entries that offer them, and their replies, alone and in batches.

use crate::batch::messages;
use crate::event_counts::Stands;
use crate::fault::{Context, Fault, UNKNOWN};
use crate::run::Taken;
use crate::{Answer, Batch, Call, Feed, Lookup, Settings, Signal, Told};

const PAGE: u64 = 4096;

/// What entries that offer a page fault can be about. "Alone": all else would get it sent.
const ENTRIES: [&str; 12] = [
    "sent, view 0",
    "sent, another view",
    "sent, the page free in view 0",
    "sent, gva unknown",
    "sent, padding not zero",
    "sent, a write or a fetch alone",
    "sent, access that the page grants",
    "passed over for a free page alone",
    "passed over for a free page that another view guards",
    "passed over for a view not below the count alone",
    "passed over for a view that is guarded once it is cut",
    "passed over for its switch alone",
];

/// What replies can do, each alone and in a batch: the actions, the bytes that the reply supplies, those of the guest page, answer 12,
/// and closing. "Alone": all else in it is right.
const ACTIONS: [&str; 10] = [
    "continue of a read",
    "continue of no read, no bytes",
    "retry of a read, no bytes",
    "retry of no read, no bytes",
    "crash of a read, no bytes",
    "crash of no read, no bytes",
    "retry of a read, no such page",
    "continue of no read, no such page",
    "rep flag 0",
    "rep flag 1",
];

const SUPPLIED: [&str; 8] = [
    "supplied, all of it",
    "supplied, from within",
    "supplied, the last byte",
    "supplied, one byte of a size of 1",
    "supplied, a size of 255",
    "supplied, a size of 256",
    "supplied, the range past the last address",
    "supplied, no such page",
];

const PAGES: [&str; 10] = [
    "page, all of it",
    "page, from within",
    "page, the last byte",
    "page, the last one there is",
    "page, gva unknown",
    "page, gva unknown and in the range",
    "page, gva right before the range",
    "page, gva right behind the range",
    "page, a size of 0 at the gva",
    "page, in the range if its end wraps",
];

const NO_PAGES: [&str; 6] = [
    "12, gva unknown",
    "12, gva right behind the range",
    "12, rep flag 1",
    "12, a page cut by the end of guest memory",
    "12, a page right behind whole ones",
    "12, far behind",
];

const CLOSING: [&str; 5] = [
    "closing for a size of 257 alone",
    "closing for a larger size alone",
    "closing for a rep flag of 2 alone",
    "closing for a larger rep flag alone",
    "closing for padding of its context alone",
];

/// What else can be about batches with replies to faults.
const BATCHES: [&str; 9] = [
    "supplied, by a message that is not the first",
    "supplied, more behind it",
    "page, by a message that is not the first",
    "page, written before by the same batch",
    "12, the first message",
    "12, bytes and signals before it",
    "12, more behind it",
    "12, nothing behind it",
    "a crash, more used behind it",
];

#[derive(Clone, Default)]
struct Replies {
    actions: [u64; 10],
    supplied: [u64; 8],
    pages: [u64; 10],
    no_pages: [u64; 6],
    closing: [u64; 5],
}

impl Replies {
    fn rows(&self) -> [(&[&'static str], &[u64]); 5] {
        [
            (&ACTIONS, &self.actions),
            (&SUPPLIED, &self.supplied),
            (&PAGES, &self.pages),
            (&NO_PAGES, &self.no_pages),
            (&CLOSING, &self.closing),
        ]
    }
}

#[derive(Clone, Default)]
pub(crate) struct FaultCounts {
    /// The views of the present session, and the faults that its vCPUs await the replies of, with their seqs.
    views: u32,
    awaited: [Option<(Fault, u32)>; 16],
    entries: [u64; 12],
    /// Alone, and in batches.
    replies: [Replies; 2],
    batches: [u64; 9],
}

impl FaultCounts {
    /// A session begins.
    pub fn begins(&mut self, settings: &Settings) {
        self.views = settings.views;
        self.forget();
    }

    /// A session begins or closes: nothing is awaited.
    pub fn forget(&mut self) {
        self.awaited = [None; 16];
    }

    /// An entry that was handled, and the bytes that it wrote.
    pub fn saw_entry(&mut self, call: &Call, bytes: &[u8], stands: Stands) {
        let Call::Enter { vcpu, event, own, .. } = call else { return };
        let is_sent = bytes.get(12) == Some(&10);
        let Some(fault) = Fault::of(own).filter(|_| *event == 10) else { return };
        if is_sent {
            let seq = u32::from_le_bytes([bytes[4], bytes[5], bytes[6], bytes[7]]);
            self.awaited[*vcpu as usize] = Some((fault, seq));
        }
        let access = |view: u32| match stands(Lookup::Access { view, page: fault.page() }) {
            Some(Told::Number(access)) => access as u8,
            _ => 7,
        };
        let view = u32::from(fault.view);
        let is_there = view < self.views;
        let is_on = stands(Lookup::VcpuEvent { vcpu: *vcpu, event: 10 }) == Some(Told::Flag(true));
        let (is_guarded, others) = (access(view) != 7, (0..self.views).any(|other| access(other) != 7));
        assert_eq!(is_sent, is_on && is_guarded && is_there, "both sides are wrong about {fault:?}");
        let kinds = [
            is_sent && view == 0,
            is_sent && view != 0,
            is_sent && view != 0 && access(0) == 7,
            is_sent && fault.gva == UNKNOWN,
            is_sent && (own[17] != 0 || own[20..] != [0; 4]),
            is_sent && fault.access & 7 != 0 && !fault.is_read(),
            is_sent && fault.access & 7 != 0 && fault.access & 7 & !access(view) == 0,
            is_on && is_there && !is_guarded,
            is_on && is_there && !is_guarded && others,
            is_on && !is_there && others,
            is_on && !is_there && [7, 0xF, 0xFF, 0x7FFF].iter().any(|mask| access(view & mask) != 7),
            !is_on && is_there && is_guarded,
        ];
        count(&mut self.entries, &kinds);
    }

    /// A message 16 that was taken or closes, with so much guest memory lent.
    pub fn saw_reply(&mut self, message: &[u8], answer: Answer, guest: usize) {
        self.saw(0, message, answer, guest);
        if answer == Answer::Closing {
            self.forget();
        }
    }

    /// A batch by its messages one by one.
    pub fn saw_taken(&mut self, call: &Call, batch: &Batch, taken: &[Taken]) {
        let Call::Batch { guest, bytes, .. } = call else { return };
        let Some(last) = taken.last() else { return };
        let is_over = batch.used == bytes.len();
        let is_first = taken.len() == 1;
        let no_page = matches!(last.answer, Answer::NoPage { .. });
        let (is_supplied, page) = match last.answer {
            Answer::Handled { feed: Feed::Supplied { .. }, .. } => (true, None),
            Answer::Handled { feed: Feed::Page { at, length }, .. } => (false, Some(at as u64..(at + length) as u64)),
            _ => (false, None),
        };
        let crashes = taken[..taken.len() - 1].iter().any(|one| {
            matches!(one.answer, Answer::Handled { signal: Signal::Crash { .. }, .. }) && one.message.get(17) == Some(&10)
        });
        let kinds = [
            is_supplied && !is_first,
            is_supplied && !is_over,
            page.is_some() && !is_first,
            page.is_some_and(|page| taken.iter().filter_map(written).any(|to| to.start < page.end && page.start < to.end)),
            no_page && is_first,
            no_page && batch.count > 0 && batch.listed > 0,
            no_page && !is_over,
            no_page && is_over,
            crashes,
        ];
        count(&mut self.batches, &kinds);
        // what is awaited no more is noted with the batch itself, taken one by one or not
        let before = self.awaited;
        for one in taken {
            if one.message.starts_with(&[16, 0]) && matches!(one.answer.number(), 0 | 1 | 12) {
                self.saw(1, one.message, one.answer, *guest);
            }
        }
        self.awaited = before;
    }

    /// The messages of a batch, of which none closes: what they reply to is awaited no more.
    pub fn saw_replies(&mut self, bytes: &[u8]) {
        for message in messages(bytes) {
            if let [16, 0, _, _, _, _, _, _, vcpu, ..] = message {
                self.awaited[usize::from(*vcpu)] = None;
            }
        }
    }

    fn saw(&mut self, row: usize, message: &[u8], answer: Answer, guest: usize) {
        let Some((header, data)) = message.split_at_checked(8) else { return };
        let (Some(context), 288) = (Context::of(data), data.len()) else { return };
        if usize::from(u16::from_le_bytes([header[2], header[3]])) != 288 {
            return;
        }
        let (vcpu, action) = (u16::from_le_bytes([data[0], data[1]]), data[8]);
        let Some((fault, seq)) = self.awaited.get(usize::from(vcpu)).copied().flatten() else { return };
        let is_right = data[9] == 10
            && action <= 2
            && header[4..] == seq.to_le_bytes()
            && data[2..8].iter().chain(&data[10..16]).all(|byte| *byte == 0);
        if answer == Answer::Closing {
            let Context { size, rep, padding, .. } = context;
            let faults = [size > 256, rep > 1, padding != [0; 3]];
            if is_right && faults.iter().filter(|fault| **fault).count() == 1 {
                count(&mut self.replies[row].closing, &[size == 257, size > 257, rep == 2, rep > 2, faults[2]]);
            }
            return;
        }
        assert!(is_right && context.is_taken(), "both sides took a reply to a page fault that is at fault");
        self.awaited[usize::from(vcpu)] = None;

        let (supplied, page) = match answer {
            Answer::Handled { feed: Feed::Supplied { length, .. }, .. } => (Some(length), None),
            Answer::Handled { feed: Feed::Page { length, .. }, .. } => (None, Some(length as u64)),
            _ => (None, None),
        };
        let (no_page, no_bytes) = (answer.number() == 12, supplied.is_none() && page.is_none());
        let Context { address, size, rep, .. } = context;
        let end = u128::from(address) + u128::from(size);
        let (pages, is_even) = (guest as u64 / PAGE, (guest as u64).is_multiple_of(PAGE));
        let is_missing = fault.page() >= pages;
        let (is_read, is_unknown) = (fault.is_read(), fault.gva == UNKNOWN);
        let before = u128::from(fault.gva) + 1 == u128::from(address) && size > 0;
        let behind = !is_unknown && u128::from(fault.gva) == end && size > 0;
        let wraps = end > 1 << 64 && u128::from(fault.gva) + (1 << 64) < end;
        let is_whole = |size: u32| supplied.is_some() && context.size == size;
        let replies = &mut self.replies[row];
        let kinds = [
            action == 0 && is_read,
            action == 0 && !is_read && no_bytes && !no_page,
            action == 1 && is_read && no_bytes && !no_page,
            action == 1 && !is_read && no_bytes && !no_page,
            action == 2 && is_read && no_bytes && !no_page,
            action == 2 && !is_read && no_bytes && !no_page,
            action == 1 && is_read && is_missing && !no_page,
            action == 0 && !is_read && is_missing && !no_page,
            action != 2 && rep == 0,
            action != 2 && rep == 1,
        ];
        count(&mut replies.actions, &kinds);
        let kinds = [
            supplied.is_some_and(|length| length as u32 == size && size > 1),
            supplied.is_some_and(|length| (2..size as usize).contains(&length)),
            supplied == Some(1) && size > 1,
            is_whole(1),
            is_whole(255),
            is_whole(256),
            supplied.is_some() && end > 1 << 64,
            supplied.is_some() && is_missing,
        ];
        count(&mut replies.supplied, &kinds);
        let kinds = [
            page == Some(PAGE),
            page.is_some_and(|length| (2..PAGE).contains(&length)),
            page == Some(1),
            page.is_some() && fault.page() + 1 == pages,
            page.is_some() && is_unknown,
            page.is_some() && is_unknown && u128::from(UNKNOWN) < end,
            page.is_some() && before,
            page.is_some() && behind,
            page.is_some() && size == 0 && fault.gva == address,
            page.is_some() && wraps,
        ];
        count(&mut replies.pages, &kinds);
        let kinds = [
            no_page && is_unknown,
            no_page && behind,
            no_page && rep == 1,
            no_page && fault.page() == pages && !is_even,
            no_page && fault.page() == pages && is_even,
            no_page && fault.page() > pages,
        ];
        count(&mut replies.no_pages, &kinds);
    }

    pub fn add(&mut self, other: &FaultCounts) {
        let sum = |into: &mut [u64], from: &[u64]| into.iter_mut().zip(from).for_each(|(into, from)| *into += from);
        sum(&mut self.entries, &other.entries);
        for (into, from) in self.replies.iter_mut().zip(&other.replies) {
            sum(&mut into.actions, &from.actions);
            sum(&mut into.supplied, &from.supplied);
            sum(&mut into.pages, &from.pages);
            sum(&mut into.no_pages, &from.no_pages);
            sum(&mut into.closing, &from.closing);
        }
        sum(&mut self.batches, &other.batches);
    }

    /// Everything that a run has to see, with how often it did.
    pub fn wanted(&self) -> Vec<(String, u64)> {
        let mut list: Vec<_> = ENTRIES.iter().zip(self.entries).map(|(name, count)| (format!("fault {name}"), count)).collect();
        for (row, place) in ["alone", "in a batch"].into_iter().enumerate() {
            for (names, counts) in self.replies[row].rows() {
                let named = names.iter().zip(counts);
                list.extend(named.map(|(name, count)| (format!("reply to a fault, {place}: {name}"), *count)));
            }
        }
        list.extend(
            BATCHES.iter().zip(self.batches).map(|(name, count)| (format!("batch with a fault's reply: {name}"), count)),
        );
        list
    }
}

/// Where a message 7 wrote, if it did.
fn written(one: &Taken) -> Option<std::ops::Range<u64>> {
    let number = |at: usize| Some(u64::from_le_bytes(*one.message.get(at..)?.first_chunk()?));
    let is_done = one.message.starts_with(&[7, 0]) && one.answer.number() == 0;
    let (gpa, size) = (number(8)?, number(16)?);
    let told = crate::told_error(one.bytes);
    (is_done && !one.bytes.is_empty() && told.is_none()).then(|| gpa..gpa.saturating_add(size))
}

fn count(into: &mut [u64], kinds: &[bool]) {
    into.iter_mut().zip(kinds).for_each(|(count, seen)| *count += u64::from(*seen));
}
