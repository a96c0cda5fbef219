//! Batches that are wrong in one way: the harness finds each, and shows it in a short list of calls.

mod wrong;

use differential::batch::{is_whole, messages};
use differential::drive::work;
use differential::{handled, padding_of, with_padding, Answer, Batch, Call, Feed, Filter, Plain, Signal};
use std::sync::atomic::AtomicBool;
use wrong::{choose, found_within, Fault, Lent, Wrong, PATIENCE, QUOTA};

/// A fault in batches alone, and what the two sides are first unlike in.
macro_rules! wrong_batch {
    ($(#[$doc:meta])* $test:ident, $fault:ident, $most:literal in $quota:ident, $part:literal,
        |$right:ident, $input:ident, $lent:ident| $body:expr) => {
        struct $fault;

        impl Fault for $fault {
            fn batch(&mut self, $right: &mut Plain, $input: &[u8], $lent: Lent) -> Batch {
                $body
            }
        }

        $(#[$doc])*
        #[test]
        fn $test() {
            let failure = found_within($quota, $most, || Box::new($fault));
            assert_eq!((failure.mismatch.word, failure.mismatch.part), ("batch", $part));
        }
    };
}

/// The loop over messages, with all in it that a filter could have wrong.
struct Ways {
    /// The least output before a message.
    least: usize,
    /// Whether a message may be taken with the list full, by the copy of the session that took it.
    takes_in_full_list: fn(Signal) -> bool,
    /// What becomes of an incomplete message: whether it is passed on.
    passes_incomplete: bool,
    /// Whether it goes on after a signal.
    goes_on: fn(Signal) -> bool,
    /// What is listed for a signal.
    code: fn(Signal) -> Option<u32>,
    /// Where what a message supplies begins: the message's start, and the place in it.
    place: fn(usize, usize) -> usize,
    /// Whether answer 12 ends it.
    ends_without_page: bool,
}

/// As it is right.
const RIGHT: Ways = Ways {
    least: 4112,
    takes_in_full_list: |_| false,
    passes_incomplete: true,
    goes_on,
    code,
    place: |start, at| start + at,
    ends_without_page: true,
};

fn goes_on(signal: Signal) -> bool {
    !matches!(signal, Signal::Resume { .. })
}

fn code(signal: Signal) -> Option<u32> {
    match signal {
        Signal::Kick { vcpu, wait } => Some(256 + 2 * u32::from(vcpu) + u32::from(wait)),
        Signal::Crash { vcpu } => Some(512 + u32::from(vcpu)),
        Signal::None | Signal::Resume { .. } => None,
    }
}

impl Ways {
    fn batch(&self, right: &mut Plain, input: &[u8], lent: Lent) -> Batch {
        let Lent { out, signals, guest } = lent;
        let refused = right.clone().batch(&[], out, signals, guest);
        if refused.answer.number() > 1 {
            return refused;
        }
        let (mut used, mut count, mut listed, mut resume, mut feed) = (0, 0, 0, Signal::None, Feed::None);
        for message in messages(input) {
            let left = out.len() - count;
            if left < self.least || !self.passes_incomplete && !is_whole(message) {
                break;
            }
            // more room than there may be: what is written past it is lost
            let mut room = vec![0; left.max(4112)];
            let (mut trial, mut memory) = (right.clone(), guest.to_vec());
            let (answer, _) = trial.message(message, &mut room, &mut memory);
            if listed == signals.len() {
                let signal = if let Answer::Handled { signal, .. } = answer { signal } else { Signal::None };
                if !(self.takes_in_full_list)(signal) {
                    break;
                }
            }
            *right = trial;
            guest.copy_from_slice(&memory);
            let start = used;
            used += message.len();
            let (written, signal) = match answer {
                Answer::Handled { count, signal, feed: fed, .. } => {
                    feed = match fed {
                        Feed::Supplied { at, length } => Feed::Supplied { at: (self.place)(start, at), length },
                        other => other,
                    };
                    (count, signal)
                }
                Answer::NoPage { signal } if self.ends_without_page => {
                    return Batch { answer, used, count, listed, resume: signal, feed: Feed::None };
                }
                Answer::NoPage { .. } => (0, Signal::None),
                _ => return Batch { answer, used, count, listed, resume, feed: Feed::None },
            };
            out[count..][..written.min(left)].copy_from_slice(&room[..written.min(left)]);
            count += written.min(left);
            if let Some(code) = (self.code)(signal) {
                signals[listed] = code;
                listed += 1;
            }
            if let Signal::Resume { .. } = signal {
                resume = signal;
            }
            if !(self.goes_on)(signal) {
                break;
            }
        }
        Batch { answer: Answer::Handled { count, signal: resume, feed, padding: 0 }, used, count, listed, resume, feed }
    }
}

/// The loop as it is right finds nothing, with its messages one by one neither.
struct Unfaulty;

impl Fault for Unfaulty {
    fn batch(&mut self, right: &mut Plain, input: &[u8], lent: Lent) -> Batch {
        RIGHT.batch(right, input, lent)
    }

    fn copied(&self) -> Option<Box<dyn Fault>> {
        Some(Box::new(Unfaulty))
    }
}

#[test]
fn the_right_loop_agrees() {
    choose(|| Box::new(Unfaulty));
    let counts = work::<Wrong, Plain>(1, 0, QUOTA, &AtomicBool::new(false)).unwrap_or_else(|failure| panic!("{failure}"));
    assert!(counts.batches().0 > 500);
}

wrong_batch! {
    goes_on_after_a_resume, AfterResume, 6 in QUOTA, "used bytes", |right, input, lent| {
        Ways { goes_on: |_| true, ..RIGHT }.batch(right, input, lent)
    }
}

wrong_batch! {
    stops_at_a_crash, AtCrash, 6 in QUOTA, "used bytes", |right, input, lent| {
        Ways { goes_on: |signal| goes_on(signal) && !matches!(signal, Signal::Crash { .. }), ..RIGHT }.batch(right, input, lent)
    }
}

wrong_batch! {
    writes_the_list_past_its_count, PastTheList, 2 in QUOTA, "signals", |right, input, lent| {
        let batch = right.batch(input, lent.out, lent.signals, lent.guest);
        if let (Answer::Handled { .. }, Some(place)) = (batch.answer, lent.signals.get_mut(batch.listed)) {
            *place = 0;
        }
        batch
    }
}

wrong_batch! {
    /// A refusal leaves the list as it is, too.
    writes_the_list_of_a_refused_batch, RefusedList, 2 in QUOTA, "signals", |right, input, lent| {
        let batch = right.batch(input, lent.out, lent.signals, lent.guest);
        if batch.answer == Answer::ShortOut {
            lent.signals.fill(0);
        }
        batch
    }
}

wrong_batch! {
    writes_the_output_past_its_count, PastTheOutput, 2 in QUOTA, "output", |right, input, lent| {
        let batch = right.batch(input, lent.out, lent.signals, lent.guest);
        if let (Answer::Closing, Some(byte)) = (batch.answer, lent.out.get_mut(batch.count)) {
            *byte = 0;
        }
        batch
    }
}

/// A batch whose closing message is counted otherwise.
fn closing(right: &mut Plain, input: &[u8], lent: Lent, otherwise: fn(&mut Batch, &[u8])) -> Batch {
    let mut batch = right.batch(input, lent.out, lent.signals, lent.guest);
    if batch.answer == Answer::Closing {
        otherwise(&mut batch, input);
    }
    batch
}

wrong_batch! {
    leaves_the_closing_message_unused, ClosingUnused, 2 in QUOTA, "used bytes", |right, input, lent| {
        closing(right, input, lent, |batch, input| {
            let last = messages(&input[..batch.used]).last();
            batch.used -= last.map_or(0, <[u8]>::len);
        })
    }
}

wrong_batch! {
    uses_all_behind_a_closing_message, ClosingAll, 2 in QUOTA, "used bytes", |right, input, lent| {
        closing(right, input, lent, |batch, input| batch.used = input.len())
    }
}

wrong_batch! {
    forgets_the_bytes_before_a_closing_message, ClosingBytes, 2 in QUOTA, "count of bytes", |right, input, lent| {
        closing(right, input, lent, |batch, _| batch.count = 0)
    }
}

wrong_batch! {
    forgets_the_signals_before_a_closing_message, ClosingSignals, 3 in QUOTA, "count of signals", |right, input, lent| {
        closing(right, input, lent, |batch, _| batch.listed = 0)
    }
}

wrong_batch! {
    /// The place is tested where it is needed alone.
    takes_in_a_full_list_what_signals_nothing, FullList, 3 in QUOTA, "used bytes", |right, input, lent| {
        Ways { takes_in_full_list: |signal| code(signal).is_none(), ..RIGHT }.batch(right, input, lent)
    }
}

wrong_batch! {
    /// A resume takes no place, but its message needs one.
    takes_a_resume_in_a_full_list, ResumeInFull, 7 in PATIENCE, "used bytes", |right, input, lent| {
        Ways { takes_in_full_list: |signal| matches!(signal, Signal::Resume { .. }), ..RIGHT }.batch(right, input, lent)
    }
}

wrong_batch! {
    takes_4111_bytes_of_output, Least4111, 2 in QUOTA, "used bytes", |right, input, lent| {
        Ways { least: 4111, ..RIGHT }.batch(right, input, lent)
    }
}

wrong_batch! {
    wants_4113_bytes_of_output, Least4113, 6 in QUOTA, "used bytes", |right, input, lent| {
        Ways { least: 4113, ..RIGHT }.batch(right, input, lent)
    }
}

wrong_batch! {
    lists_a_kick_without_its_wait, NoWait, 3 in QUOTA, "signals", |right, input, lent| {
        Ways { code: |signal| code(signal).map(|code| if code < 512 { code & !1 } else { code }), ..RIGHT }.batch(right, input, lent)
    }
}

wrong_batch! {
    lists_a_crash_as_a_kick_is, CrashTwice, 6 in QUOTA, "signals", |right, input, lent| {
        Ways { code: |signal| code(signal).map(|code| if code > 512 { 2 * code - 512 } else { code }), ..RIGHT }.batch(right, input, lent)
    }
}

wrong_batch! {
    lists_a_resume, ResumeListed, 7 in QUOTA, "count of signals", |right, input, lent| {
        let of_resume = |signal| if let Signal::Resume { vcpu, .. } = signal { Some(768 + u32::from(vcpu)) } else { code(signal) };
        Ways { code: of_resume, ..RIGHT }.batch(right, input, lent)
    }
}

wrong_batch! {
    loses_the_resume, ResumeLost, 6 in QUOTA, "resume", |right, input, lent| {
        let mut batch = right.batch(input, lent.out, lent.signals, lent.guest);
        if let Answer::Handled { count, .. } = batch.answer {
            let feed = batch.feed;
            (batch.answer, batch.resume) = (Answer::Handled { count, signal: Signal::None, feed, padding: 0 }, Signal::None);
        }
        batch
    }
}

wrong_batch! {
    /// The rest may come with the next write.
    waits_for_the_rest_of_a_message, Waits, 2 in QUOTA, "answer", |right, input, lent| {
        Ways { passes_incomplete: false, ..RIGHT }.batch(right, input, lent)
    }
}

wrong_batch! {
    /// An incomplete message closes, though there was no room for it.
    closes_without_room, RoomLast, 6 in PATIENCE, "answer", |right, input, lent| {
        let mut batch = right.batch(input, lent.out, lent.signals, lent.guest);
        let rest = &input[batch.used..];
        let is_cut = messages(rest).next().is_some_and(|message| !is_whole(message));
        if is_cut && matches!(batch.answer, Answer::Handled { signal: Signal::None, .. }) {
            right.message(&[], &mut vec![0; 4112], &mut []);
            (batch.answer, batch.used) = (Answer::Closing, input.len());
        }
        batch
    }
}

wrong_batch! {
    tests_11_before_3, ElevenFirst, 2 in QUOTA, "answer", |right, input, lent| {
        let mut batch = right.batch(input, lent.out, lent.signals, lent.guest);
        if batch.answer == Answer::ShortOut && lent.signals.is_empty() {
            batch.answer = Answer::NoPlace;
        }
        batch
    }
}

wrong_batch! {
    tests_3_before_2, ThreeFirst, 3 in QUOTA, "answer", |right, input, lent| {
        let mut batch = right.batch(input, lent.out, lent.signals, lent.guest);
        if batch.answer == Answer::Closed && lent.out.len() < 4112 {
            batch.answer = Answer::ShortOut;
        }
        batch
    }
}

wrong_batch! {
    takes_an_empty_batch_without_a_place, EmptyTaken, 2 in PATIENCE, "answer", |right, input, lent| {
        let mut batch = right.batch(input, lent.out, lent.signals, lent.guest);
        if batch.answer == Answer::NoPlace && input.is_empty() {
            batch.answer = handled(0);
        }
        batch
    }
}

/// A batch with a size field that is cut: a whole message that ends too soon closes, as an incomplete last one does.
fn cut_sizes(right: &mut Plain, input: &[u8], lent: Lent, sizes: usize) -> Batch {
    let mut at = 0;
    for message in messages(input) {
        let size = message.len().saturating_sub(8);
        if size >= sizes && is_whole(message) {
            at += 8 + size % sizes;
            break;
        }
        at += message.len();
    }
    right.batch(&input[..at], lent.out, lent.signals, lent.guest)
}

wrong_batch! {
    cuts_a_size_to_8_bits, Size8, 4 in QUOTA, "answer", |right, input, lent| cut_sizes(right, input, lent, 1 << 8)
}

wrong_batch! {
    cuts_a_size_to_15_bits, Size15, 2 in PATIENCE, "answer", |right, input, lent| cut_sizes(right, input, lent, 1 << 15)
}

wrong_batch! {
    /// Reads give what stood in guest memory before the batch.
    reads_what_stood_before, ReadsBefore, 3 in QUOTA, "output", |right, input, lent| {
        let before = lent.guest.to_vec();
        let (mut copy, mut written) = (right.clone(), 0);
        let batch = right.batch(input, lent.out, lent.signals, lent.guest);
        for message in messages(&input[..batch.used]) {
            let is_read = message.starts_with(&[6, 0]);
            // the session is the same for a read of memory as it was
            let mut room = vec![0; 4112];
            let mut memory = before.clone();
            let (answer, _) = copy.message(message, &mut room, &mut memory);
            let Answer::Handled { count, .. } = answer else { break };
            if is_read {
                lent.out[written..written + count].copy_from_slice(&room[..count]);
            }
            written += count;
        }
        batch
    }
}

wrong_batch! {
    /// Guest memory is not written where the batch closes later.
    undoes_writes_on_closing, WritesUndone, 2 in QUOTA, "guest memory", |right, input, lent| {
        let before = lent.guest.to_vec();
        let batch = right.batch(input, lent.out, lent.signals, lent.guest);
        if batch.answer == Answer::Closing {
            lent.guest.copy_from_slice(&before);
        }
        batch
    }
}

/// A batch that leaves the session as it was before its last message, if that is one of these.
fn without_last(right: &mut Plain, input: &[u8], lent: Lent, is_lost: fn(&[u8]) -> bool) -> Batch {
    let (mut copy, mut memory) = (right.clone(), lent.guest.to_vec());
    let batch = right.batch(input, lent.out, lent.signals, lent.guest);
    let used: Vec<&[u8]> = messages(&input[..batch.used]).collect();
    if let (Answer::Handled { .. }, Some((last, before))) = (batch.answer, used.split_last()) {
        if is_lost(last) {
            for message in before {
                copy.message(message, &mut [0; 4112], &mut memory);
            }
            *right = copy;
        }
    }
    batch
}

wrong_batch! {
    /// The place of supplied data is counted from the message.
    counts_supplied_data_from_the_message, FromMessage, 6 in QUOTA, "feed", |right, input, lent| {
        Ways { place: |_, at| at, ..RIGHT }.batch(right, input, lent)
    }
}

wrong_batch! {
    loses_what_is_fed, FeedLost, 6 in QUOTA, "feed", |right, input, lent| {
        let mut batch = right.batch(input, lent.out, lent.signals, lent.guest);
        if let Answer::Handled { count, signal, .. } = batch.answer {
            (batch.answer, batch.feed) = (Answer::Handled { count, signal, feed: Feed::None, padding: 0 }, Feed::None);
        }
        batch
    }
}

/// A batch that answer 12 ends otherwise.
fn no_page(right: &mut Plain, input: &[u8], lent: Lent, otherwise: fn(&mut Batch, &[u8])) -> Batch {
    let mut batch = right.batch(input, lent.out, lent.signals, lent.guest);
    if let Answer::NoPage { .. } = batch.answer {
        otherwise(&mut batch, input);
    }
    batch
}

wrong_batch! {
    goes_on_without_a_page, AfterNoPage, 6 in QUOTA, "answer", |right, input, lent| {
        Ways { ends_without_page: false, ..RIGHT }.batch(right, input, lent)
    }
}

wrong_batch! {
    leaves_the_reply_without_a_page_unused, NoPageUnused, 6 in QUOTA, "used bytes", |right, input, lent| {
        no_page(right, input, lent, |batch, input| {
            let last = messages(&input[..batch.used]).last();
            batch.used -= last.map_or(0, <[u8]>::len);
        })
    }
}

wrong_batch! {
    uses_all_behind_a_reply_without_a_page, NoPageAll, 6 in QUOTA, "used bytes", |right, input, lent| {
        no_page(right, input, lent, |batch, input| batch.used = input.len())
    }
}

wrong_batch! {
    answers_0_without_a_page, NoPageZero, 6 in QUOTA, "answer", |right, input, lent| {
        no_page(right, input, lent, |batch, _| {
            batch.answer = Answer::Handled { count: batch.count, signal: batch.resume, feed: Feed::None, padding: 0 };
        })
    }
}

wrong_batch! {
    loses_the_resume_without_a_page, NoPageResume, 6 in QUOTA, "resume", |right, input, lent| {
        no_page(right, input, lent, |batch, _| {
            (batch.answer, batch.resume) = (Answer::NoPage { signal: Signal::None }, Signal::None);
        })
    }
}

wrong_batch! {
    forgets_the_bytes_before_a_reply_without_a_page, NoPageBytes, 6 in QUOTA, "count of bytes", |right, input, lent| {
        no_page(right, input, lent, |batch, _| batch.count = 0)
    }
}

/// The batch, with an offset of padding in its answer: one of those that its used messages would be told of.
fn with_offset(right: &mut Plain, input: &[u8], lent: Lent, one: fn(&[usize]) -> Option<&usize>) -> Batch {
    let (mut copy, mut memory, mut room) = (right.clone(), lent.guest.to_vec(), vec![0; 4112]);
    let mut batch = right.batch(input, lent.out, lent.signals, lent.guest);
    let used = messages(&input[..batch.used]);
    let offsets: Vec<usize> = used.map(|message| padding_of(copy.message(message, &mut room, &mut memory).0)).collect();
    batch.answer = with_padding(batch.answer, one(&offsets).copied().unwrap_or(0));
    batch
}

wrong_batch! {
    /// What the last message would be told.
    carries_the_last_offset, LastOffset, 2 in QUOTA, "padding", |right, input, lent| {
        with_offset(right, input, lent, <[usize]>::last)
    }
}

wrong_batch! {
    /// The first one there is.
    carries_the_first_offset, FirstOffset, 2 in QUOTA, "padding", |right, input, lent| {
        with_offset(right, input, lent, |offsets| offsets.iter().find(|offset| **offset > 0))
    }
}

struct LastLost;

impl Fault for LastLost {
    fn batch(&mut self, right: &mut Plain, input: &[u8], lent: Lent) -> Batch {
        without_last(right, input, lent, |_| true)
    }
}

/// It shows in what is called afterwards.
#[test]
fn loses_the_last_message() {
    let failure = found_within(QUOTA, 4, || Box::new(LastLost));
    assert!(failure.list.iter().any(|call| matches!(call, Call::Batch { .. })));
}

/// A fault that both sides have: they agree, but the messages one by one do not, first in `part`.
macro_rules! wrong_twice {
    ($(#[$doc:meta])* $test:ident, $fault:ident, $part:literal, |$right:ident, $input:ident, $lent:ident| $body:expr) => {
        struct $fault;

        impl Fault for $fault {
            fn batch(&mut self, $right: &mut Plain, $input: &[u8], $lent: Lent) -> Batch {
                $body
            }

            fn copied(&self) -> Option<Box<dyn Fault>> {
                Some(Box::new($fault))
            }
        }

        $(#[$doc])*
        #[test]
        fn $test() {
            choose(|| Box::new($fault));
            let failure = work::<Wrong, Wrong>(1, 0, QUOTA, &AtomicBool::new(false)).err().expect("the fault is found");
            println!("{failure}");
            assert_eq!((failure.mismatch.word, failure.mismatch.part), ("batch", $part));
        }
    };
}

wrong_twice! {
    both_go_on_after_a_resume, BothAfterResume, "end singly", |right, input, lent| AfterResume.batch(right, input, lent)
}

wrong_twice! {
    both_stop_at_a_crash, BothAtCrash, "end singly", |right, input, lent| AtCrash.batch(right, input, lent)
}

wrong_twice! {
    both_take_4111_bytes, BothLeast4111, "end singly", |right, input, lent| Least4111.batch(right, input, lent)
}

wrong_twice! {
    both_carry_an_offset, BothOffsets, "padding", |right, input, lent| LastOffset.batch(right, input, lent)
}

wrong_twice! {
    both_take_in_a_full_list, BothFullList, "end singly", |right, input, lent| FullList.batch(right, input, lent)
}

wrong_twice! {
    both_leave_the_closing_message_unused, BothClosing, "end singly", |right, input, lent| ClosingUnused.batch(right, input, lent)
}

wrong_twice! {
    both_lose_the_resume, BothResumes, "counts singly", |right, input, lent| ResumeLost.batch(right, input, lent)
}

wrong_twice! {
    both_count_from_the_message, BothFromMessage, "feed singly", |right, input, lent| FromMessage.batch(right, input, lent)
}

wrong_twice! {
    both_answer_0_without_a_page, BothNoPageZero, "counts singly", |right, input, lent| NoPageZero.batch(right, input, lent)
}

wrong_twice! {
    both_list_no_wait, BothNoWait, "signals singly", |right, input, lent| NoWait.batch(right, input, lent)
}

wrong_twice! {
    both_read_what_stood_before, BothReadBefore, "output singly", |right, input, lent| ReadsBefore.batch(right, input, lent)
}

wrong_twice! {
    both_undo_writes, BothUndo, "guest memory singly", |right, input, lent| WritesUndone.batch(right, input, lent)
}

wrong_twice! {
    /// Of a last message that sets the reply mode, no image tells.
    both_lose_the_mode, BothModes, "next answer singly", |right, input, lent| {
        without_last(right, input, lent, |last| last.starts_with(&[15, 0]))
    }
}
