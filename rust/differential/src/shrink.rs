//! Makes a failing list of calls short.

use crate::batch::{events, messages, messages_mut};
use crate::fault::Fault;
use crate::message::bad_padding;
use crate::{image, Call, Filter, Mismatch, Record, Runner, BATCH_ROOM, LIST_ROOM};
use std::ops::Range;
use std::time::{Duration, Instant};

/// How long to go on.
const PATIENCE: Duration = Duration::from_secs(30);

/// Lists up to this length are tried without any two of their calls.
const PAIRS: usize = 40;

/// The shortest list found that fails in the same way as these calls do.
pub fn shrink<L: Filter, R: Filter>(runner: &mut Runner<L, R>, calls: Vec<Call>, first: Mismatch) -> (Vec<Call>, Mismatch) {
    let (events, used) = (vec![0; calls.len()], vec![0; calls.len()]);
    let mut search = Search { runner, calls, events, used, mismatch: first, until: Instant::now() + PATIENCE };
    // a list that fails only now and then is given as it is
    if !search.offer(search.calls.clone()) {
        return (search.calls, search.mismatch);
    }
    loop {
        let before = search.calls.clone();
        search.split();
        search.drop_calls();
        search.drop_pairs();
        for at in 0..search.calls.len() {
            // the list may get shorter on the way
            if at < search.calls.len() {
                search.simplify(at);
            }
        }
        if search.calls == before || search.late() {
            return (search.calls, search.mismatch);
        }
    }
}

struct Search<'a, L, R> {
    runner: &'a mut Runner<L, R>,
    /// The best list so far, how many events each call wrote, how many bytes it used if it is a batch, and how it fails.
    calls: Vec<Call>,
    events: Vec<u32>,
    used: Vec<usize>,
    mismatch: Mismatch,
    until: Instant,
}

impl<L: Filter, R: Filter> Search<'_, L, R> {
    fn late(&self) -> bool {
        Instant::now() > self.until
    }

    /// Takes a list if it fails as the best one does.
    fn offer(&mut self, mut calls: Vec<Call>) -> bool {
        if self.late() {
            return false;
        }
        self.runner.reset();
        let (mut written, mut used) = (Vec::with_capacity(calls.len()), Vec::with_capacity(calls.len()));
        for (at, call) in calls.iter().enumerate() {
            match self.runner.step(at, call) {
                Ok(_) => {
                    written.push(events(self.runner.bytes()));
                    used.push(self.runner.batch().map_or(0, |batch| batch.used));
                }
                Err(mismatch) if !mismatch.is_like(&self.mismatch) => return false,
                Err(mismatch) => {
                    written.push(0);
                    used.push(0);
                    calls.truncate(at + 1);
                    (self.calls, self.events, self.used, self.mismatch) = (calls, written, used, mismatch);
                    return true;
                }
            }
        }
        false
    }

    /// Tries the list without these calls; then too with the seqs of the event replies behind them moved.
    fn without(&mut self, dropped: &[Range<usize>]) -> bool {
        let kept = |at: usize| !dropped.iter().any(|range| range.contains(&at));
        let shorter = |calls: &[Call]| -> Vec<Call> {
            calls.iter().enumerate().filter(|(at, _)| kept(*at)).map(|(_, call)| call.clone()).collect()
        };
        if self.offer(shorter(&self.calls)) {
            return true;
        }
        let mut calls = self.calls.clone();
        let mut fewer = 0;
        for (at, call) in calls.iter_mut().enumerate() {
            match call {
                Call::Fresh { .. } | Call::Load { keep: true, .. } if kept(at) => fewer = 0,
                Call::Message { bytes, .. } => move_seq(bytes, fewer),
                Call::Batch { bytes, .. } => messages_mut(bytes).for_each(|message| move_seq(message, fewer)),
                _ => {}
            }
            fewer += if kept(at) { 0 } else { self.events[at] };
        }
        calls != self.calls && self.offer(shorter(&calls))
    }

    /// Drops calls: halves, then quarters, and at last one by one.
    fn drop_calls(&mut self) {
        let mut size = self.calls.len().div_ceil(2);
        while size > 0 {
            let mut at = 0;
            while at < self.calls.len() {
                if !self.without(std::slice::from_ref(&(at..at + size))) {
                    at += size;
                }
            }
            size /= 2;
        }
    }

    /// Drops two calls at once: an event and its reply, or a switch and its way back.
    fn drop_pairs(&mut self) {
        let mut first = 0;
        while first < self.calls.len() && self.calls.len() <= PAIRS {
            let mut rest = first + 1..self.calls.len();
            if !rest.any(|second| self.without(&[first..first + 1, second..second + 1])) {
                first += 1;
            }
        }
    }

    /// Puts another call in the place of one.
    fn replace(&mut self, at: usize, call: Call) -> bool {
        if self.calls.get(at).is_none_or(|old| *old == call) {
            return false;
        }
        let mut calls = self.calls.clone();
        calls[at] = call;
        self.offer(calls)
    }

    fn simplify(&mut self, at: usize) {
        match &self.calls[at] {
            Call::Message { bytes, .. } if bytes.starts_with(&[13, 0]) && bytes.len() >= 16 => self.drop_entries(at),
            Call::Batch { .. } => self.drop_messages(at),
            Call::Enter { event: 10, .. } => self.lower(at),
            Call::Load { .. } => {
                self.drop_vcpus(at);
                self.drop_records(at);
            }
            _ => {}
        }
        let ways: &[fn(&mut Call)] = match self.calls.get(at) {
            Some(Call::Fresh { .. } | Call::Load { .. }) => BEGINNINGS,
            Some(Call::Message { .. }) => MESSAGES,
            Some(Call::Batch { .. }) => BATCHES,
            Some(Call::Enter { .. }) => ENTRIES,
            Some(Call::Image { .. }) => IMAGES,
            Some(Call::ListReady { .. } | Call::ListCr { .. }) => LISTS,
            Some(Call::Ready { .. } | Call::Look { .. }) | None => &[],
        };
        for way in ways {
            if let Some(mut call) = self.calls.get(at).cloned() {
                way(&mut call);
                self.replace(at, call);
            }
        }
    }

    /// Drops entries of a message 13; their count stays right where it was.
    fn drop_entries(&mut self, at: usize) {
        let Call::Message { bytes, out, guest } = self.calls[at].clone() else { return };
        let (head, entries) = bytes.split_at(16);
        let entries: Vec<&[u8]> = entries.chunks(16).collect();
        let counted = head[8..10] == (entries.len() as u16).to_le_bytes();
        self.fewer(at, entries, |entries| {
            let mut bytes = [head, &entries.concat()].concat();
            let size = bytes.len() as u16 - 8;
            bytes[2..4].copy_from_slice(&size.to_le_bytes());
            if counted {
                bytes[8..10].copy_from_slice(&(entries.len() as u16).to_le_bytes());
            }
            Call::Message { bytes, out, guest }
        });
    }

    /// Sends the messages that a batch used one by one, where the list then fails alike: each of them may be dropped.
    fn split(&mut self) {
        let mut at = 0;
        while at < self.calls.len() {
            if let Call::Batch { guest, bytes, .. } = &self.calls[at] {
                let single = |message: &[u8]| Call::Message { out: 4112, guest: *guest, bytes: message.to_vec() };
                let singles: Vec<Call> = messages(&bytes[..self.used[at]]).map(single).collect();
                let mut calls = self.calls.clone();
                calls.splice(at..=at, singles);
                if self.offer(calls) {
                    continue;
                }
            }
            at += 1;
        }
    }

    /// Drops messages of a batch; then pauses too, each with its place of the list.
    fn drop_messages(&mut self, at: usize) {
        for with_places in [false, true] {
            let Call::Batch { out, places, guest, bytes } = self.calls[at].clone() else { return };
            let pauses = |messages: &[&[u8]]| messages.iter().filter(|message| message.starts_with(&[9, 0])).count();
            let messages: Vec<&[u8]> = messages(&bytes).collect();
            let before = pauses(&messages);
            self.fewer(at, messages, |messages| {
                let dropped = if with_places { before - pauses(messages) } else { 0 };
                Call::Batch { out, places: places.saturating_sub(dropped), guest, bytes: messages.concat() }
            });
        }
    }

    /// Lowers the gva of a page fault, and the addresses of the replies behind it by as much.
    fn lower(&mut self, at: usize) {
        for kept in [0, 0xFF, 0xFFFF, u64::from(u32::MAX)] {
            let mut calls = self.calls.clone();
            let Call::Enter { own, .. } = &mut calls[at] else { return };
            let Some(Fault { gva, .. }) = Fault::of(own) else { return };
            own[..8].copy_from_slice(&(gva & kept).to_le_bytes());
            for call in &mut calls[at + 1..] {
                match call {
                    Call::Message { bytes, .. } => lower_address(bytes, gva & !kept),
                    Call::Batch { bytes, .. } => messages_mut(bytes).for_each(|message| lower_address(message, gva & !kept)),
                    _ => {}
                }
            }
            if calls != self.calls && self.offer(calls) {
                return;
            }
        }
    }

    /// Drops vCPUs, from the settings and from the image.
    fn drop_vcpus(&mut self, at: usize) {
        let Call::Load { settings, keep, image } = self.calls[at].clone() else { return };
        for vcpus in 1..settings.vcpus {
            let settings = reference::Settings { vcpus, ..settings.clone() };
            let image = image::with_vcpus(&image, vcpus as u16);
            if self.replace(at, Call::Load { settings, keep, image }) {
                return;
            }
        }
    }

    /// Drops records of an image; EN's count stays right where it was.
    fn drop_records(&mut self, at: usize) {
        let Call::Load { settings, keep, image } = self.calls[at].clone() else { return };
        let counted = image::is_counted(&image);
        // the last record goes with what follows it, known or not
        let mut bounds = image::starts(&image);
        bounds.push(image.len());
        let records: Vec<&[u8]> = bounds.windows(2).map(|bound| &image[bound[0]..bound[1]]).collect();
        self.fewer(at, records, |records| {
            let mut image = records.concat();
            if counted {
                image::count_again(&mut image);
            }
            Call::Load { settings: settings.clone(), keep, image }
        });
    }

    /// Drops parts of a call, as [`Search::drop_calls`] does with calls.
    fn fewer<T: Clone>(&mut self, at: usize, mut parts: Vec<T>, call: impl Fn(&[T]) -> Call) {
        let mut size = parts.len().div_ceil(2);
        while size > 0 && !self.late() {
            let mut from = 0;
            while from < parts.len() {
                let mut fewer = parts.clone();
                fewer.drain(from..(from + size).min(fewer.len()));
                if self.replace(at, call(&fewer)) {
                    parts = fewer;
                } else {
                    from += size;
                }
            }
            size /= 2;
        }
    }
}

/// Moves the seq of an event reply: there are so many events fewer before it.
fn move_seq(message: &mut [u8], fewer: u32) {
    if let [16, 0, _, _, a, b, c, d, ..] = message {
        [*a, *b, *c, *d] = u32::from_le_bytes([*a, *b, *c, *d]).wrapping_sub(fewer).to_le_bytes();
    }
}

/// The context of a reply to a page fault: address, size, and the rest of it with the supplied data.
fn context_mut(message: &mut [u8]) -> Option<(&mut [u8; 8], &mut [u8; 4], &mut [u8])> {
    let is_reply = message.starts_with(&[16, 0, 0x20, 1]);
    let context = message.get_mut(24..).filter(|_| is_reply)?;
    let (address, rest) = context.split_first_chunk_mut()?;
    let (size, rest) = rest.split_first_chunk_mut()?;
    Some((address, size, rest))
}

/// Moves the address of a reply to a page fault down.
fn lower_address(message: &mut [u8], by: u64) {
    if let Some((address, _, _)) = context_mut(message) {
        *address = u64::from_le_bytes(*address).wrapping_sub(by).to_le_bytes();
    }
}

/// Makes every message of a call plainer.
fn with_messages(call: &mut Call, change: impl Fn(&mut [u8])) {
    match call {
        Call::Message { bytes, .. } => change(bytes),
        Call::Batch { bytes, .. } => messages_mut(bytes).for_each(change),
        _ => {}
    }
}

/// The supplied data of replies to page faults, and all else in their contexts.
fn clear_data(call: &mut Call) {
    with_messages(call, |message| {
        if let Some((_, _, rest)) = context_mut(message) {
            rest.iter_mut().skip(4).for_each(|byte| *byte = 0);
        }
    });
}

fn clear_rep(call: &mut Call) {
    with_messages(call, |message| {
        if let Some((_, _, rest)) = context_mut(message) {
            rest.fill(0);
        }
    });
}

fn clear_context(call: &mut Call) {
    with_messages(call, |message| {
        if let Some((address, size, rest)) = context_mut(message) {
            (*address, *size) = ([0; 8], [0; 4]);
            rest.fill(0);
        }
    });
}

/// The padding that is not zero in a message, but for this one of its bytes.
fn clear_padding(call: &mut Call, kept: fn(&[usize]) -> Option<&usize>) {
    if let Call::Message { bytes, .. } = call {
        let places = bad_padding(bytes);
        let kept = kept(&places).copied();
        places.into_iter().filter(|at| Some(*at) != kept).for_each(|at| bytes[at] = 0);
    }
}

/// Ways to make calls plainer.
const BEGINNINGS: &[fn(&mut Call)] = &[
    |call| {
        if let Call::Load { settings, keep: true, .. } = call {
            *call = Call::Fresh { settings: settings.clone() };
        }
    },
    |call| with_settings(call, |settings| settings.commands = !0),
    |call| with_settings(call, |settings| settings.events = !0),
    |call| with_settings(call, |settings| settings.tsc = 0),
    |call| with_settings(call, |settings| settings.features = [1; 5]),
    |call| with_settings(call, |settings| settings.descriptors = true),
    |call| with_settings(call, |settings| settings.breakpoints = false),
    |call| with_settings(call, |settings| settings.execute_only = true),
    |call| with_settings(call, |settings| settings.revision = 1),
    |call| with_settings(call, |settings| settings.views = 1),
    |call| with_settings(call, |settings| settings.vcpus = 2),
    |call| with_settings(call, |settings| settings.vcpus = 1),
];

const MESSAGES: &[fn(&mut Call)] = &[
    |call| {
        if let Call::Message { out, .. } = call {
            *out = 4112;
        }
    },
    |call| {
        if let Call::Message { guest, .. } = call {
            *guest = 4096;
        }
    },
    |call| {
        if let Call::Message { guest, .. } = call {
            *guest = 0;
        }
    },
    |call| {
        if let Call::Message { bytes, .. } = call {
            bytes.iter_mut().skip(4).take(4).for_each(|byte| *byte = 0);
        }
    },
    // the new value of an event reply
    |call| match call {
        Call::Message { bytes, .. } if bytes.starts_with(&[16, 0]) => bytes.iter_mut().skip(24).for_each(|byte| *byte = 0),
        _ => {}
    },
    clear_data,
    clear_rep,
    clear_context,
    |call| clear_padding(call, <[usize]>::last),
    |call| clear_padding(call, <[usize]>::first),
    |call| clear_padding(call, |_| None),
];

const BATCHES: &[fn(&mut Call)] = &[
    |call| {
        if let Call::Batch { out, .. } = call {
            *out = BATCH_ROOM;
        }
    },
    |call| {
        if let Call::Batch { out, .. } = call {
            *out = 4112;
        }
    },
    |call| {
        if let Call::Batch { places, .. } = call {
            *places = LIST_ROOM;
        }
    },
    |call| {
        if let Call::Batch { places, .. } = call {
            *places = 1;
        }
    },
    |call| {
        if let Call::Batch { guest, .. } = call {
            *guest = 4096;
        }
    },
    |call| {
        if let Call::Batch { guest, .. } = call {
            *guest = 0;
        }
    },
    // the seqs, but those of event replies
    |call| {
        if let Call::Batch { bytes, .. } = call {
            let commands = messages_mut(bytes).filter(|message| !message.starts_with(&[16, 0]));
            commands.for_each(|message| message.iter_mut().skip(4).take(4).for_each(|byte| *byte = 0));
        }
    },
    clear_data,
    clear_rep,
    clear_context,
];

const ENTRIES: &[fn(&mut Call)] = &[
    |call| {
        if let Call::Enter { state, fill, out, .. } = call {
            (*state, *fill, *out) = (536, 0, 576);
        }
    },
    |call| {
        if let Call::Enter { event, own, .. } = call {
            *event = 0;
            own.clear();
        }
    },
    // all but the register that the bytes name, and that too
    |call| {
        if let Call::Enter { own, .. } = call {
            own.iter_mut().skip(4).for_each(|byte| *byte = 0);
        }
    },
    |call| {
        if let Call::Enter { own, .. } = call {
            own.iter_mut().skip(2).for_each(|byte| *byte = 0);
        }
    },
    |call| {
        if let Call::Enter { own, .. } = call {
            own.fill(0);
        }
    },
    // of a page fault the padding, its access but for a read, its view, and its place in the page
    |call| with_fault(call, |_| {}),
    |call| with_fault(call, |fault| fault.access &= 1),
    |call| with_fault(call, |fault| fault.view = 0),
    |call| with_fault(call, |fault| fault.gpa &= !0xFFF),
];

const IMAGES: &[fn(&mut Call)] = &[|call| {
    if let Call::Image { room } = call {
        *room = 0;
    }
}];

const LISTS: &[fn(&mut Call)] = &[
    |call| {
        if let Call::ListReady { records, index } | Call::ListCr { records, index, .. } = call {
            records.truncate(usize::try_from(*index).unwrap_or(0).saturating_add(1));
        }
    },
    |call| {
        if let Call::ListReady { records, .. } | Call::ListCr { records, .. } = call {
            records.iter_mut().for_each(|record| *record = Record { ready: record.ready.min(1), ..Record::default() });
        }
    },
];

/// A page fault without padding, and changed.
fn with_fault(call: &mut Call, change: impl Fn(&mut Fault)) {
    if let Call::Enter { event: 10, own, .. } = call {
        if let Some(mut fault) = Fault::of(own) {
            change(&mut fault);
            *own = fault.bytes([0; 5]);
        }
    }
}

fn with_settings(call: &mut Call, change: impl Fn(&mut reference::Settings)) {
    if let Call::Fresh { settings } | Call::Load { settings, .. } = call {
        change(settings);
    }
}
