//! Calls, each made twice.

use crate::lent::{self, Awaited};
use crate::library::*;
use crate::memory::{seen, Side, PAGE};
use crate::random::Random;
use crate::AT;
use std::ptr::{copy_nonoverlapping, write_bytes};
use std::slice::from_raw_parts_mut;
use std::sync::atomic::Ordering;

pub const KINDS: [(&str, &[u64]); 10] = [
    ("fresh", &[0, 7]),
    ("ready", &[0, 2, 4]),
    ("message", &[0, 1, 2, 3, 12]),
    ("enter", &[0, 2, 3, 4, 5, 6]),
    ("image_write", &[0, 2, 3, 10]),
    ("image_read", &[0, 7, 8, 9]),
    ("image_size", &[]),
    ("list_ready", &[0, 4]),
    ("list_cr", &[0, 4, 14]),
    ("batch", &[0, 1, 2, 3, 11, 12]),
];

pub const SIGNALS: [&str; 5] = ["none", "kick", "crash", "resume to continue", "resume to retry"];

pub const ENDS: [&str; 4] = ["the input is used up", "a resume", "short output", "no place in the list"];

pub const FED: [&str; 3] = ["nothing", "the message", "guest memory"];

pub const REVISIONS: [&str; 7] = [
    "1 reported",
    "1: pages set",
    "1: no room, and nothing moves",
    "1: no room, and the others act",
    "2 reported",
    "2: pages set",
    "2: no room, and none acts",
];

pub const PADDING: [&str; 3] = ["EINVAL, and none is told", "EINVAL", "replies are off"];

pub const LOOKUPS: [&str; 12] = [
    "is_open",
    "is_ready",
    "vm_event",
    "vcpu_event",
    "cr",
    "msr",
    "singlestep",
    "pauses",
    "awaited",
    "page_count",
    "access",
    "page_at",
];

/// The two sides, and what was seen.
pub struct Hostile {
    random: Random,
    end: Side,
    beginning: Side,
    pub calls: u64,
    pub answers: [[u64; 15]; 10],
    /// By signal of a message.
    pub signals: [u64; 5],
    /// By what ended a batch with answer 0.
    pub ends: [u64; 4],
    /// Of messages that resume a vCPU from a page fault, and of batches that a resume ends, by what it is fed from.
    pub fed: [[u64; 3]; 2],
    /// Messages that ask for execute-only pages, access 4: refused without the flag, and taken with it.
    pub execute_only: [u64; 2],
    /// By revision: `KVMI_GET_VERSION`, and what became of pages whose access a message sets.
    pub revisions: [u64; 7],
    /// Messages that are invalid: without a padding byte, and with one; and those with one while replies are off.
    pub padding: [u64; 3],
    /// By event that was offered: passed over, written.
    pub events: [[u64; 2]; 15],
    /// By lookup: nothing on, something on.
    pub lookups: [[u64; 2]; 12],
    awaited: Option<Awaited>,
    /// Images that sessions wrote, with the settings under which they can be read.
    images: Vec<(Session, Vec<u8>)>,
    guest: Vec<u8>,
}

impl Hostile {
    pub fn new(seed: u64) -> Hostile {
        let mut random = Random(seed);
        let guest = random.bytes(5 * PAGE);
        Hostile {
            random,
            end: Side::new(true),
            beginning: Side::new(false),
            calls: 0,
            answers: [[0; 15]; 10],
            signals: [0; 5],
            ends: [0; 4],
            fed: [[0; 3]; 2],
            execute_only: [0; 2],
            revisions: [0; 7],
            padding: [0; 3],
            events: [[0; 2]; 15],
            lookups: [[0; 2]; 12],
            awaited: None,
            images: Vec::new(),
            guest,
        }
    }

    fn session(&self) -> Session {
        // SAFETY: any bits are numbers.
        unsafe { self.end.session.cast::<Session>().read() }
    }

    fn set_session(&mut self, session: Session) {
        for side in [&self.end, &self.beginning] {
            // SAFETY: there is a session's room.
            unsafe { side.session.cast::<Session>().write(session) };
        }
    }

    /// Changes bytes on the first side and makes the second side equal.
    fn set_tables(&mut self, change: impl FnOnce(&mut Random, &mut [u8], &mut [u8])) {
        let (end, beginning) = (&self.end, &self.beginning);
        // SAFETY: there is room for the tables, and nothing else uses it.
        unsafe {
            change(&mut self.random, from_raw_parts_mut(end.vcpus, VCPU_BYTES), from_raw_parts_mut(end.pages, PAGE_BYTES));
            copy_nonoverlapping(end.vcpus, beginning.vcpus, VCPU_BYTES);
            copy_nonoverlapping(end.pages, beginning.pages, PAGE_BYTES);
        }
    }

    fn same_session(&self) {
        // SAFETY: the sides are only read.
        let same = unsafe { seen(self.end.session, SESSION) == seen(self.beginning.session, SESSION) };
        assert!(
            same,
            "the sessions differ:\n{:?}",
            [&self.end, &self.beginning].map(|side| unsafe { side.session.cast::<Session>().read() })
        );
    }

    fn same_tables(&self) {
        for (name, ours, theirs, size) in [
            ("the words of the vCPUs", self.end.vcpus, self.beginning.vcpus, VCPU_BYTES),
            ("the words of the pages", self.end.pages, self.beginning.pages, PAGE_BYTES),
        ] {
            // SAFETY: the sides are only read.
            let (ours, theirs) = unsafe { (seen(ours, size), seen(theirs, size)) };
            if let Some(at) = (ours != theirs).then(|| ours.iter().zip(theirs).position(|(a, b)| a != b)).flatten() {
                panic!("{name} differ at byte {at}");
            }
        }
    }

    /// A call, first on the side whose buffers are at the end, and then on the other. What only reads changes nothing: while the
    /// second side is still as it was, both are equal.
    fn twice(&mut self, reads: impl Fn(u64) -> Reads, call: impl Fn(&Side) -> u64) -> u64 {
        self.calls += 1;
        AT.store(self.calls, Ordering::Relaxed);
        let first = call(&self.end);
        match reads(first) {
            Reads::Nothing => {}
            Reads::Tables => self.same_tables(),
            Reads::All => {
                self.same_session();
                self.same_tables();
            }
        }
        let second = call(&self.beginning);
        assert_eq!(first, second, "the two answers");
        self.same_session();
        self.same_tables();
        first
    }

    /// A call with a result of twelve words: all of it is written, and the last one, which is reserved, is 0.
    fn called(&mut self, kind: usize, reads: impl Fn(u64) -> Reads, call: impl Fn(&Side) -> u64) -> (u64, [u64; 12]) {
        // SAFETY: there is a result's room.
        unsafe {
            write_bytes(self.end.result, 0xAA, RESULT);
            write_bytes(self.beginning.result, 0x55, RESULT);
        }
        let answer = self.twice(reads, call);
        // SAFETY: any bits are numbers.
        let [first, second] = [&self.end, &self.beginning].map(|side| unsafe { side.result.cast::<[u64; 12]>().read() });
        assert_eq!(first, second, "the two results");
        assert_eq!(first[11], 0, "the reserved word");
        self.note(kind, answer);
        (answer, first)
    }

    /// A call with a result, but for a batch.
    fn told(&mut self, kind: usize, reads: impl Fn(u64) -> Reads, call: impl Fn(&Side) -> u64) -> (u64, [u64; 12]) {
        let (answer, first) = self.called(kind, reads, call);
        let [count, offset, signal, vcpu, wait, action, value, source, _, _, padding, _] = first;
        assert!(padding == 0 || (kind, answer, signal) == (2, 0, 0), "{first:?}");
        assert!(signal <= 3 && wait <= 1 && action <= 1, "{first:?}");
        assert!((signal != 0 || vcpu == 0) && (signal == 1 || wait == 0), "{first:?}");
        assert!(signal == 3 || (action, value) == (0, 0), "{first:?}");
        assert!(if source == 0 { first[7..10] == [0; 3] } else { (answer, signal, action) == (0, 3, 0) }, "{first:?}");
        match answer {
            0 => {}
            // a resume, and no refusal
            12 => assert_eq!((count, signal, action), (0, 3, 0)),
            _ => assert_eq!((count, signal), (0, 0)),
        }
        if !matches!(answer, 8 | 9) {
            assert_eq!(offset, 0);
        }
        (answer, first)
    }

    fn note(&mut self, kind: usize, answer: u64) {
        assert!(KINDS[kind].1.contains(&answer), "{} answers {answer}", KINDS[kind].0);
        self.answers[kind][answer as usize] += 1;
    }

    /// Lends so many bytes of output, all alike.
    fn lend_out(&mut self, size: usize) {
        for side in [&self.end, &self.beginning] {
            // SAFETY: inside the room.
            unsafe { write_bytes(side.out(size), BLANK, size) };
        }
    }

    /// The outputs are equal, and past the count as they were.
    fn same_out(&self, size: usize, count: u64) -> &[u8] {
        // SAFETY: the sides are only read.
        let (ours, theirs) = unsafe { (seen(self.end.out(size), size), seen(self.beginning.out(size), size)) };
        assert!(ours == theirs, "the outputs differ");
        let (written, rest) = ours.split_at(count as usize);
        assert!(rest.iter().all(|byte| *byte == BLANK), "output past the count");
        written
    }

    /// Lends these bytes as a message, an image or a register block.
    fn lend_input(&mut self, bytes: &[u8]) {
        for side in [&self.end, &self.beginning] {
            // SAFETY: inside the room, which holds nothing else.
            unsafe { copy_nonoverlapping(bytes.as_ptr(), side.input(bytes.len()), bytes.len()) };
        }
    }

    fn same_input(&self, bytes: &[u8]) {
        for side in [&self.end, &self.beginning] {
            // SAFETY: the sides are only read.
            assert!(unsafe { seen(side.input(bytes.len()), bytes.len()) } == bytes, "the input changed");
        }
    }

    /// Lends these bytes as an event's own.
    fn lend_own(&mut self, bytes: &[u8]) {
        for side in [&self.end, &self.beginning] {
            // SAFETY: inside the room, which holds nothing else.
            unsafe { copy_nonoverlapping(bytes.as_ptr(), side.own(bytes.len()), bytes.len()) };
        }
    }

    fn same_own(&self, bytes: &[u8]) {
        for side in [&self.end, &self.beginning] {
            // SAFETY: the sides are only read.
            assert!(unsafe { seen(side.own(bytes.len()), bytes.len()) } == bytes, "the own bytes changed");
        }
    }

    /// Whether a session can begin under these settings.
    fn fits(&self) -> bool {
        let Session { vcpus, views, revision, .. } = self.session();
        (1..=16).contains(&vcpus) && (1..=8).contains(&views) && (1..=2).contains(&revision)
    }

    fn fresh(&mut self) {
        let fits = self.fits();
        let reads = |answer| if answer == 7 { Reads::Tables } else { Reads::Nothing };
        let (answer, _) =
            self.told(0, reads, |s| unsafe { semblurick_raw_fresh(s.session, s.vcpus, s.pages, s.result).into() });
        assert_eq!(answer != 7, fits, "a fresh session");
        self.awaited = None;
    }

    fn ready(&mut self, vcpu: u32) {
        // of the tables it knows nothing
        let reads = |answer| if answer == 0 { Reads::Tables } else { Reads::All };
        self.told(1, reads, |s| unsafe { semblurick_raw_ready(s.session, vcpu, s.result).into() });
    }

    fn message(&mut self) {
        let message = lent::message(&mut self.random, self.awaited);
        self.take(&message);
    }

    fn take(&mut self, message: &[u8]) {
        let out = match self.random.below(30) {
            0 => self.random.pick(&[0, 1, 16, 552, 4111]),
            1 => 4113 + self.random.below(100),
            _ => 4112,
        };
        let guest = self.random.pick(&[0, 1, PAGE - 1, PAGE, PAGE + 1, 4 * PAGE, 4 * PAGE, 5 * PAGE - 1]);
        self.lend_input(message);
        self.lend_out(out);
        for side in [&self.end, &self.beginning] {
            // SAFETY: inside the room, which holds nothing else.
            unsafe { copy_nonoverlapping(self.guest.as_ptr(), side.guest(guest), guest) };
        }
        let size = message.len();
        let fed = Fault::awaited(message, self.end.vcpus).map(|fault| fault.fed(message, guest));
        let is_access = message.starts_with(&[13, 0]);
        let stood = if is_access { self.standing() } else { Vec::new() };
        let (answer, result) = self.told(2, refusal, |s| unsafe {
            let (input, to, memory) = (s.input(size), s.out(out), s.guest(guest));
            semblurick_raw_message(s.session, s.vcpus, s.pages, input, size, to, out, memory, guest, s.result).into()
        });
        let written = self.same_out(out, result[0]);
        let is_done = written.get(8..12) == Some(&[0; 4]);
        let is_invalid = written.get(8..12) == Some(&(-22i32).to_le_bytes()[..]);
        let is_full = written.get(8..12) == Some(&(-12i32).to_le_bytes()[..]);
        let version = written.get(16..24).filter(|_| is_done && message.starts_with(&[1, 0])).map(little);
        let is_quiet = written.is_empty();
        // an id that is unknown or not allowed gets one of these errors, or closes: its padding is not looked at
        let is_unread = written.len() == 16 && [-1i32, -1000].iter().any(|error| written[8..12] == error.to_le_bytes());
        let padding = if answer != 0 || is_unread { 0 } else { lent::padding(message) };
        assert_eq!(result[10] as usize, padding, "the padding byte");
        self.padding[usize::from(padding != 0)] += u64::from(is_invalid);
        self.padding[2] += u64::from(padding != 0 && is_quiet);
        self.same_input(message);
        let mut entries = message.get(16..).unwrap_or_default().chunks_exact(16);
        if answer == 0 && is_access && entries.any(|entry| entry[8] == 4) {
            let has_flag = self.session().flags[7] != 0;
            assert!(has_flag || !is_done, "an execute-only page without the flag");
            self.execute_only[usize::from(has_flag)] += u64::from(if has_flag { is_done } else { is_invalid });
        }
        let revision = self.session().revision;
        assert_eq!(version.unwrap_or(revision.into()), revision.into(), "KVMI_GET_VERSION reports the revision");
        let acts = is_full && self.standing() != stood;
        assert!(revision != 2 || !acts, "revision 2 is all or nothing");
        if let (1 | 2, true) = (revision, version.is_some() || is_access && (is_done || is_full)) {
            let outcome = usize::from(is_access) + usize::from(is_full) + usize::from(acts);
            self.revisions[4 * (revision as usize - 1) + outcome] += 1;
        }
        // SAFETY: the sides are only read.
        let (ours, theirs) = unsafe { (seen(self.end.guest(guest), guest), seen(self.beginning.guest(guest), guest)) };
        assert!(ours == theirs, "the guest's memories differ");
        if message.first() != Some(&7) || answer != 0 {
            assert!(ours == &self.guest[..guest], "guest memory changed");
        }
        if matches!(answer, 0 | 12) {
            let [_, _, signal, _, _, action, value, source, at, length, ..] = result;
            self.signals[(signal + action) as usize] += 1;
            if signal == 3 {
                // what the reply says: its action, and its value, if it has one
                let said = match (&message[24..], message[17]) {
                    (context, 10) => context[13].into(),
                    (value, _) => value.iter().rev().fold(0, |n, byte| n << 8 | u64::from(*byte)),
                };
                assert_eq!((message[0], action, value), (16, message[16].into(), said), "a resume");
                assert_eq!(fed.unwrap_or_default(), (answer, [source, at, length]), "what it is fed");
                if fed.is_some() && answer == 0 {
                    self.fed[0][source as usize] += 1;
                }
            }
        }
        if answer == 1 || message.first() == Some(&16) {
            self.awaited = None;
        }
    }

    fn batch(&mut self) {
        let mut input: Vec<u8> = Vec::new();
        for _ in 0..self.random.below(7) {
            input.extend(lent::message(&mut self.random, self.awaited));
        }
        self.take_batch(&input);
    }

    /// The reply to a page fault, or what is nearly one: alone, or in a batch behind another message, or before one.
    fn reply(&mut self, awaited: Awaited) {
        let reply = lent::reply(&mut self.random, awaited);
        let other = lent::message(&mut self.random, None);
        match self.random.below(3) {
            0 => self.take(&reply),
            1 => self.take_batch(&[other, reply].concat()),
            _ => self.take_batch(&[reply, other].concat()),
        }
    }

    /// Several messages, and beside it the same ones by single calls on a copy of all that is lent.
    fn take_batch(&mut self, input: &[u8]) {
        let out = match self.random.below(30) {
            0 => self.random.pick(&[0, 1, 16, 552, 4111]),
            _ => 4112 + self.random.pick(&[0, 15, 16, 17, 100, 700, 5000, 20_000]),
        };
        let places = if self.random.percent(4) { 0 } else { self.random.pick(&[1, 1, 2, 3, 16]) };
        let guest = self.random.pick(&[0, PAGE - 1, PAGE, 4 * PAGE, 4 * PAGE, 5 * PAGE - 1]);
        self.lend_input(input);
        self.lend_out(out);
        for side in [&self.end, &self.beginning] {
            // SAFETY: inside the rooms, which hold nothing else.
            unsafe {
                copy_nonoverlapping(self.guest.as_ptr(), side.guest(guest), guest);
                write_bytes(side.signals(places), BLANK, 4 * places);
            }
        }
        let mut alone = Alone::new(&self.end, &self.guest[..guest], out);
        let number = alone.take(input, places);

        let size = input.len();
        let (answer, result) = self.called(9, refusal, |s| unsafe {
            let (bytes, to, list, memory) = (s.input(size), s.out(out), s.signals(places), s.guest(guest));
            semblurick_raw_batch(s.session, s.vcpus, s.pages, bytes, size, to, out, list, places, memory, guest, s.result)
                .into()
        });
        assert_eq!(answer, number.into(), "the answer to a batch");
        let Alone { used, count, listed, resume: [signal, ..], .. } = &alone;
        let told = [&[*used as u64, *count as u64, listed.len() as u64][..], &alone.resume].concat();
        assert_eq!(result[..10], told, "the result of a batch");
        assert_eq!(result[10], 0, "a batch tells no padding byte");
        assert!(self.same_out(out, result[1]) == &alone.out[..*count], "the output of a batch");
        self.same_input(input);
        let mut codes: Vec<u8> = listed.iter().flat_map(|code| code.to_le_bytes()).collect();
        codes.resize(4 * places, BLANK);
        for side in [&self.end, &self.beginning] {
            // SAFETY: the sides are only read.
            unsafe {
                assert!(seen(side.signals(places), 4 * places) == codes, "the list of signals");
                assert!(seen(side.guest(guest), guest) == alone.guest, "guest memory after a batch");
                let words = alone.words.as_ptr().cast::<u8>().cast_mut();
                let (session, tables) = (seen(words, SESSION), seen(words.add(SESSION), VCPU_BYTES + PAGE_BYTES));
                assert!(seen(side.session, SESSION) == session, "the session after a batch");
                assert!(seen(side.vcpus, VCPU_BYTES) == &tables[..VCPU_BYTES], "the words of the vCPUs after a batch");
                assert!(seen(side.pages, PAGE_BYTES) == &tables[VCPU_BYTES..], "the words of the pages after a batch");
            }
        }
        if answer == 0 {
            self.fed[1][result[7] as usize] += signal / 3;
            self.ends[if *used == size {
                0
            } else if *signal != 0 {
                1
            } else if out - *count < 4112 {
                2
            } else {
                3
            }] += 1;
        }
        if matches!(answer, 0 | 1 | 12) && *used > 0 {
            self.awaited = None;
        }
    }

    fn enter(&mut self, vcpu: u32) {
        let (event, own) = lent::offer(&mut self.random);
        self.offer(vcpu, event, &own);
    }

    /// A page fault, mostly of a page that stands below rwx.
    fn fault(&mut self, vcpu: u32) {
        let mut own = [&self.random.address().to_le_bytes()[..], &self.random.bytes(16)].concat();
        if let Some((view, page)) = self.guarded() {
            let gpa = (page << 12) + self.random.pick(&[0, 1, 2048, 4094, 4095]);
            own[8..16].copy_from_slice(&gpa.to_le_bytes());
            // another view, of the same low byte, has no such page
            let high = if self.random.percent(10) { self.random.word() as u8 } else { 0 };
            own[18..20].copy_from_slice(&[view as u8, high]);
        }
        self.offer(vcpu, 10, &own);
    }

    fn offer(&mut self, vcpu: u32, event: u32, own: &[u8]) {
        let size = match self.random.below(12) {
            0 => self.random.pick(&[0, 1, 535, 537]),
            _ => 536,
        };
        let out = match self.random.below(12) {
            0 => self.random.pick(&[0, 1, 552, 575]),
            1 => 577 + self.random.below(20),
            _ => 576,
        };
        let state = self.random.bytes(size);
        self.lend_input(&state);
        self.lend_own(own);
        self.lend_out(out);
        let is_on = self.is_on(vcpu, event, own);
        let (answer, result) = self.told(3, refusal, |s| unsafe {
            let (block, bytes, to) = (s.input(size), s.own(own.len()), s.out(out));
            semblurick_raw_enter(s.session, s.vcpus, s.pages, vcpu, block, size, event, bytes, own.len(), to, out, s.result)
                .into()
        });
        self.same_input(&state);
        self.same_own(own);
        // 2 and 4 come before 5, then 3, and then 6
        let is_bad = size != 536 || lent::own_size(event) != Some(own.len());
        assert!(matches!(answer, 2 | 4) || (answer == 5) == is_bad, "answer {answer} to event {event}, {} bytes", own.len());
        assert!(matches!(answer, 2 | 4 | 5) || (answer == 3) == (out < 576), "answer {answer} with an output of {out} bytes");
        let written = self.same_out(out, result[0]);
        let sent = written.get(12).copied();
        if let Some(sent) = sent {
            let own = if u32::from(sent) == event { own } else { &[] };
            let size = (544 + own.len() as u16).to_le_bytes();
            assert!(u32::from(sent) == event || sent == 2, "event {sent} where {event} was offered");
            assert_eq!(written[..4], [17, 0, size[0], size[1]], "an event's header");
            // a session of any bits may have vCPUs that no event can name
            let [low, high] = (vcpu.min(0xFFFF) as u16).to_le_bytes();
            assert_eq!(written[8..16], [0x20, 2, low, high, sent, 0, 0, 0], "an event's beginning");
            assert!(written[16..552] == state && written[552..] == *own, "an event's bytes");
            let seq = u32::from_le_bytes([written[4], written[5], written[6], written[7]]);
            let gva = own.get(..8).map_or(0, little);
            self.awaited = Some(Awaited { vcpu, event: sent, seq, gva });
        }
        if answer == 0 && event != 0 {
            assert_eq!(sent.map(u32::from) == Some(event), is_on, "event {event} is written exactly if it is on");
            self.events[event as usize][usize::from(is_on)] += 1;
        }
    }

    /// The words of the pages that stand below rwx.
    fn standing(&self) -> Vec<u8> {
        // SAFETY: the session and its tables are only read, and no more pages are told than there are words.
        unsafe { seen(self.end.pages, 8 * semblurick_raw_page_count(self.end.session)).to_vec() }
    }

    /// View and number of a page that stands below rwx.
    fn guarded(&mut self) -> Option<(u64, u64)> {
        let (session, pages) = (self.end.session, self.end.pages);
        let mut page = [0u64; 3];
        // SAFETY: the session and its tables are only read, and there are three words.
        let access = unsafe {
            let i = self.random.below(semblurick_raw_page_count(session));
            semblurick_raw_page_at(session, pages, i, page.as_mut_ptr().cast())
        };
        (access != 7).then_some((page[0], page[1]))
    }

    /// Whether an event that is offered is switched on, as the lookups tell.
    fn is_on(&self, vcpu: u32, event: u32, own: &[u8]) -> bool {
        let (session, vcpus, pages) = (self.end.session, self.end.vcpus, self.end.pages);
        let number = own.iter().take(if event == 5 { 2 } else { 4 }).rev().fold(0, |n, byte| n << 8 | u32::from(*byte));
        // SAFETY: the session and its tables are only read.
        unsafe {
            let for_vcpu = semblurick_raw_vcpu_event(session, vcpus, vcpu, event) != 0;
            match event {
                12 => semblurick_raw_vm_event(session, event) != 0,
                5 => for_vcpu && semblurick_raw_cr(session, vcpus, vcpu, number) != 0,
                9 => for_vcpu && semblurick_raw_msr(session, vcpus, vcpu, number) != 0,
                10 => {
                    let [view, gpa] = [18..20, 8..16].map(|at| own.get(at).map_or(0, little));
                    for_vcpu && semblurick_raw_access(session, pages, view as u32, gpa / PAGE as u64) != 7
                }
                _ => for_vcpu,
            }
        }
    }

    fn image_size(&mut self) -> usize {
        let size = self.twice(|_| Reads::All, |s| unsafe { semblurick_raw_image_size(s.session, s.vcpus, s.pages) as u64 });
        assert!(size <= IMAGE_MAX as u64, "an image of {size} bytes");
        size as usize
    }

    fn image_write(&mut self) {
        let size = self.image_size();
        let out = match self.random.below(8) {
            0 => size + 1 + self.random.below(100),
            1 => size - 1,
            2 => self.random.below(size),
            // the longest of them take long
            _ if size < 100_000 || self.random.percent(10) => size,
            _ => self.random.below(200),
        };
        self.lend_out(out);
        let (answer, result) = self.told(
            4,
            |_| Reads::All,
            |s| unsafe { semblurick_raw_image_write(s.session, s.vcpus, s.pages, s.out(out), out, s.result).into() },
        );
        let image = self.same_out(out, result[0]);
        if answer == 0 {
            assert_eq!(result[0], size as u64, "an image has its size");
            if size < 50_000 {
                let kept = (self.session(), image.to_vec());
                match self.images.len() {
                    32 => {
                        let at = self.random.below(32);
                        self.images[at] = kept;
                    }
                    _ => self.images.push(kept),
                }
            }
        }
    }

    fn image_read(&mut self) {
        let mut image = match self.images.is_empty() || self.random.percent(10) {
            true => {
                let size = self.random.below(100);
                self.random.bytes(size)
            }
            false => {
                let at = self.random.below(self.images.len());
                let (settings, image) = self.images[at].clone();
                if self.random.percent(80) {
                    // settings that fit, and all else of any bits
                    let mut session = lent::session(&mut self.random);
                    (session.vcpus, session.views) = (settings.vcpus, settings.views);
                    (session.events, session.flags) = (settings.events, settings.flags);
                    self.set_session(session);
                }
                image
            }
        };
        if self.random.percent(40) && !image.is_empty() {
            match self.random.below(3) {
                0 => image.truncate(self.random.below(image.len())),
                1 => image.push(0),
                _ => {
                    let at = self.random.below(image.len());
                    image[at] ^= 1 << self.random.below(8);
                }
            }
        }
        self.lend_input(&image);
        let (size, fits) = (image.len(), self.fits());
        let reads = |answer| if answer == 0 { Reads::Nothing } else { Reads::Tables };
        let (answer, result) = self.told(5, reads, |s| unsafe {
            semblurick_raw_image_read(s.session, s.vcpus, s.pages, s.input(size), size, s.result).into()
        });
        self.same_input(&image);
        assert_eq!(answer != 7, fits, "a session from an image");
        assert!(result[1] <= size as u64, "an offset outside the image");
        if answer == 0 {
            // what was taken is what is written
            assert_eq!(self.image_size(), size);
        }
        self.awaited = None;
    }

    fn lookup(&mut self) {
        let r = &mut self.random;
        let row = r.below(12);
        let (vcpu, event, cr) = (r.vcpu(), if r.percent(80) { r.below(21) as u32 } else { r.word() as u32 }, r.below(9) as u32);
        let cr = if r.percent(90) { cr } else { r.word() as u32 };
        let (msr, view, page) = (r.msr(), r.count(8).wrapping_sub(u32::from(r.percent(50))), r.page());
        let i = match r.below(4) {
            0 => r.pick(&[0, 1023, 1024, 1025, usize::MAX]),
            _ => r.below(1100),
        };
        let (view, page) = match r.percent(60) {
            true => (view, page),
            // one that is there, perhaps
            false => {
                let mut found = [0u64; 3];
                // SAFETY: the session is only read, and there is room for three words.
                _ = unsafe { semblurick_raw_page_at(self.end.session, self.end.pages, i, found.as_mut_ptr().cast()) };
                (found[0] as u32, found[1])
            }
        };
        let told = self.twice(
            |_| Reads::All,
            |s| unsafe {
                match row {
                    0 => semblurick_raw_is_open(s.session).into(),
                    1 => semblurick_raw_is_ready(s.session, vcpu).into(),
                    2 => semblurick_raw_vm_event(s.session, event).into(),
                    3 => semblurick_raw_vcpu_event(s.session, s.vcpus, vcpu, event).into(),
                    4 => semblurick_raw_cr(s.session, s.vcpus, vcpu, cr).into(),
                    5 => semblurick_raw_msr(s.session, s.vcpus, vcpu, msr).into(),
                    6 => semblurick_raw_singlestep(s.session, s.vcpus, vcpu).into(),
                    7 => semblurick_raw_pauses(s.session, s.vcpus, vcpu),
                    8 => semblurick_raw_awaited(s.session, s.vcpus, vcpu),
                    9 => semblurick_raw_page_count(s.session) as u64,
                    10 => semblurick_raw_access(s.session, s.pages, view, page).into(),
                    _ => {
                        write_bytes(s.page, if s.at_end { 0xAA } else { 0x55 }, 24);
                        semblurick_raw_page_at(s.session, s.pages, i, s.page).into()
                    }
                }
            },
        );
        let off = match row {
            0..7 => {
                assert!(told <= 1, "{} tells {told}", LOOKUPS[row]);
                told == 0
            }
            9 => {
                assert!(told <= 1024, "{told} pages");
                told == 0
            }
            10 => {
                assert!(told <= 7, "access {told}");
                assert!(told == 7 || view < 8 && page < 1 << 52, "a page that is not there");
                told == 7
            }
            11 => {
                // SAFETY: all three words were written.
                let [first, second] = [&self.end, &self.beginning].map(|side| unsafe { side.page.cast::<[u64; 3]>().read() });
                assert_eq!(first, second, "the two pages");
                let [view, page, access] = first;
                assert!(view < 512 && page < 1 << 52 && access <= 7 && access == told, "{first:?}");
                // SAFETY: the session is only read.
                let count = unsafe { semblurick_raw_page_count(self.end.session) };
                assert!(i < count || first == [0, 0, 7], "{first:?} at {i} of {count}");
                i >= count
            }
            _ => told == 0,
        };
        // what a closed session has, its tables do not tell
        let (is_open, of_tables) = (self.session().opened != 0, matches!(row, 3..9));
        assert!(off || !of_tables || is_open, "{} tells {told} of a closed session", LOOKUPS[row]);
        assert!(off || !of_tables || vcpu < 16, "{} tells {told} of vCPU {vcpu}", LOOKUPS[row]);
        self.lookups[row][usize::from(!off)] += 1;
    }

    fn list(&mut self) {
        let r = &mut self.random;
        let count = r.below(21);
        let mut records = r.bytes(count * RECORD);
        for record in records.chunks_mut(RECORD) {
            // not ready
            if r.percent(40) {
                record[..8].fill(0);
            }
        }
        let index = match r.below(6) {
            0 => r.pick(&[count, count + 1, 20, 21, usize::MAX, usize::MAX / RECORD + 1, 1 << 32]),
            _ => r.below(count.max(1)),
        };
        let (cr, on) = (if r.percent(60) { r.pick(&[0, 3, 4]) } else { r.word() as u32 >> r.below(32) }, r.word() as u32 & 1);
        let is_cr = r.percent(60);
        for side in [&self.end, &self.beginning] {
            // SAFETY: inside the room.
            unsafe { copy_nonoverlapping(records.as_ptr(), side.list(count), records.len()) };
        }
        let answer = self.twice(
            |_| Reads::All,
            |s| unsafe {
                match is_cr {
                    true => semblurick_list_cr(s.list(count), count, index, cr, on).into(),
                    false => semblurick_list_ready(s.list(count), count, index).into(),
                }
            },
        );
        self.note(if is_cr { 8 } else { 7 }, answer);
        // SAFETY: the sides are only read.
        let (ours, theirs) =
            unsafe { (seen(self.end.list(count), records.len()), seen(self.beginning.list(count), records.len())) };
        assert!(ours == theirs, "the lists differ");
        if answer == 0 {
            // the record's word that was set, and nothing else
            let at = index * RECORD + if is_cr { 16 } else { 0 };
            records[at..at + 8].copy_from_slice(&ours[at..at + 8]);
        }
        assert!(ours == records, "another word of the list changed");
    }

    /// A new session: of any bits, or one that began, or of few bits.
    fn begin(&mut self) {
        let session = lent::session(&mut self.random);
        self.set_session(session);
        self.awaited = None;
        match self.random.below(5) {
            0 | 1 => self.set_tables(|random, vcpus, pages| {
                random.fill(vcpus);
                random.fill(pages);
                // where no reply is awaited, entries are not all answered 6
                if random.percent(70) {
                    vcpus.chunks_mut(VCPU_BYTES / 16).for_each(|words| words[AWAITED..AWAITED + 8].fill(0));
                }
            }),
            2 => self.set_tables(|random, vcpus, pages| {
                vcpus.fill(0);
                pages.fill(0);
                for _ in 0..random.below(400) {
                    let at = random.below(VCPU_BYTES);
                    vcpus[at] = random.word() as u8;
                    let at = random.below(PAGE_BYTES);
                    pages[at] = random.word() as u8;
                }
            }),
            _ => {
                self.fresh();
                // of those that the settings have, most
                for vcpu in 0..self.session().vcpus.min(16) {
                    if self.session().opened != 0 && self.random.percent(80) {
                        self.ready(vcpu);
                    }
                }
                // a fault needs both a switch and a page, which by chance are rarely there
                if self.session().opened != 0 && self.random.percent(50) {
                    let guards = lent::guards(&mut self.random);
                    self.take(&guards);
                    let vcpus = self.session().vcpus.min(16) as u8;
                    (0..vcpus).for_each(|vcpu| self.take(&lent::faults_on(vcpu)));
                }
            }
        }
    }

    /// Some bits of what stands become others.
    fn spoil(&mut self) {
        let mut session = self.session();
        match self.random.below(7) {
            0 => session.opened ^= 1,
            1 => session.pages = self.random.word(),
            2 => session.ready = self.random.word(),
            3 => session.mode = self.random.word() as u32,
            4 => session.revision = self.random.count(2),
            _ => {
                let word = self.random.word().to_le_bytes();
                let (at, in_pages) = (self.random.word() as usize, self.random.percent(50));
                self.set_tables(|_, vcpus, pages| {
                    let table = if in_pages { pages } else { vcpus };
                    let at = at % (table.len() / 8) * 8;
                    table[at..at + 8].copy_from_slice(&word);
                });
            }
        }
        self.set_session(session);
    }

    fn call(&mut self) {
        let vcpu = match self.awaited {
            Some(awaited) if self.random.percent(20) => awaited.vcpu,
            _ if self.random.percent(50) => self.random.below(self.session().vcpus.clamp(1, 16) as usize) as u32,
            _ => self.random.vcpu(),
        };
        if let Some(awaited) = self.awaited.filter(|awaited| awaited.event == 10) {
            if self.random.percent(40) {
                return self.reply(awaited);
            }
        }
        match self.random.below(1000) {
            0..3 => self.fresh(),
            3..40 => self.ready(vcpu),
            40..140 => self.enter(vcpu),
            140..145 => self.image_write(),
            145..155 => _ = self.image_size(),
            155..175 => self.image_read(),
            175..400 => self.lookup(),
            400..450 => self.list(),
            450..490 => self.batch(),
            490..540 => self.fault(vcpu),
            _ => self.message(),
        }
    }

    /// So many calls, or a few more.
    pub fn run(&mut self, calls: u64) {
        while self.calls < calls {
            self.begin();
            for _ in 0..64 {
                if self.random.percent(6) {
                    self.spoil();
                }
                self.call();
                // a closed session shows little
                if self.session().opened == 0 && self.random.percent(30) {
                    break;
                }
            }
        }
    }
}

/// The messages of a batch by single calls, on a copy of what is lent.
struct Alone {
    /// A session, the words of the vCPUs and those of the pages.
    words: Vec<u64>,
    guest: Vec<u8>,
    out: Vec<u8>,
    used: usize,
    count: usize,
    listed: Vec<u32>,
    /// Signal, vCPU, action and value, and of what it is fed source, place and length.
    resume: [u64; 7],
}

impl Alone {
    fn new(side: &Side, guest: &[u8], out: usize) -> Alone {
        let mut words = vec![0; (SESSION + VCPU_BYTES + PAGE_BYTES) / 8];
        let to = words.as_mut_ptr().cast::<u8>();
        // SAFETY: there is room for all three, one behind the other.
        unsafe {
            copy_nonoverlapping(side.session, to, SESSION);
            copy_nonoverlapping(side.vcpus, to.add(SESSION), VCPU_BYTES);
            copy_nonoverlapping(side.pages, to.add(SESSION + VCPU_BYTES), PAGE_BYTES);
        }
        let (guest, out) = (guest.to_vec(), vec![BLANK; out]);
        Alone { words, guest, out, used: 0, count: 0, listed: Vec::new(), resume: [0; 7] }
    }

    /// Gives the number of the batch's answer.
    fn take(&mut self, input: &[u8], places: usize) -> u32 {
        let session = self.words.as_mut_ptr().cast::<u8>();
        // SAFETY: there is a session.
        if unsafe { semblurick_raw_is_open(session) } == 0 {
            return 2;
        }
        if self.out.len() < 4112 {
            return 3;
        }
        if places == 0 {
            return 11;
        }
        while self.used < input.len() && self.out.len() - self.count >= 4112 && self.listed.len() < places {
            let left = &input[self.used..];
            let size = match *left {
                [_, _, low, high, _, _, _, _, ..] => left.len().min(8 + usize::from(u16::from_le_bytes([low, high]))),
                _ => left.len(),
            };
            let (mut message, mut result) = (left[..size].to_vec(), [0u64; 12]);
            let out = &mut self.out[self.count..];
            // SAFETY: all of it is this struct's own.
            let number = unsafe {
                let (vcpus, pages) = (session.add(SESSION), session.add(SESSION + VCPU_BYTES));
                let (memory, told) = (self.guest.as_mut_ptr(), result.as_mut_ptr().cast());
                let (bytes, to, room) = (message.as_mut_ptr(), out.as_mut_ptr(), out.len());
                semblurick_raw_message(session, vcpus, pages, bytes, size, to, room, memory, self.guest.len(), told)
            };
            let [count, _, signal, vcpu, wait, action, value, source, at, length, ..] = result;
            // a part of the message is one of the input
            let at = if source == 1 { self.used as u64 + at } else { at };
            self.used += size;
            self.count += count as usize;
            match signal {
                1 => self.listed.push(256 + 2 * vcpu as u32 + wait as u32),
                2 => self.listed.push(512 + vcpu as u32),
                3 => {
                    self.resume = [signal, vcpu, action, value, source, at, length];
                    return number;
                }
                _ => {}
            }
            if number != 0 {
                return number;
            }
        }
        0
    }
}

/// A little-endian number.
fn little(bytes: &[u8]) -> u64 {
    bytes.iter().rev().fold(0, |n, byte| n << 8 | u64::from(*byte))
}

/// The page fault whose reply a vCPU awaits.
struct Fault {
    gva: u64,
    gpa: u64,
    access: u64,
}

impl Fault {
    /// The one to which a message is the reply, if it is one, as it stands among the words of the vCPUs.
    fn awaited(message: &[u8], vcpus: Bytes) -> Option<Fault> {
        let (vcpu, words) = (little(message.get(8..10)?) as usize, VCPU_BYTES / 16);
        if message[..2] != [16, 0] || message.len() != 296 || vcpu >= 16 {
            return None;
        }
        // SAFETY: the words are only read.
        let block = unsafe { &seen(vcpus, VCPU_BYTES)[vcpu * words..] };
        let [event, _seq, gva, gpa, access] = [0, 1, 2, 3, 4].map(|i| little(&block[AWAITED + 8 * i..][..8]));
        (event == 10).then_some(Fault { gva, gpa, access })
    }

    /// The answer to a reply that is taken, with so many bytes of guest memory; and of what feeds the instruction source, place and
    /// length.
    fn fed(&self, reply: &[u8], guest: usize) -> (u64, [u64; 3]) {
        let (address, size) = (little(&reply[24..32]), little(&reply[32..36]));
        if reply[16] != 0 || self.access & 1 == 0 {
            return (0, [0; 3]);
        }
        match self.gva.checked_sub(address) {
            Some(from) if self.gva != u64::MAX && from < size => return (0, [1, 40 + from, size - from]),
            _ => {}
        }
        let left = PAGE as u64 - self.gpa % PAGE as u64;
        match self.gpa.checked_add(left) {
            Some(end) if end <= guest as u64 => (0, [2, self.gpa, left]),
            _ => (12, [0; 3]),
        }
    }
}

/// What a call must not change.
pub enum Reads {
    Nothing,
    Tables,
    All,
}

/// Refusals change nothing; 12 is none.
pub fn refusal(answer: u64) -> Reads {
    match answer {
        0 | 1 | 12 => Reads::Nothing,
        _ => Reads::All,
    }
}

/// What stands in an output before it is written.
pub const BLANK: u8 = 0xC3;

/// Where among the words of a vCPU the event stands whose reply is awaited; then its seq, and of a page fault addresses and access.
const AWAITED: usize = 4 * 8;
