//! Filters that are wrong about which padding byte it was: the harness finds each, and shows it in a short list of calls.

mod wrong;

use differential::drive::work;
use differential::{padding_of, with_padding, Answer, Call, Filter, Plain};
use std::sync::atomic::AtomicBool;
use wrong::{choose, found_within, Fault, Wrong, PATIENCE, QUOTA};

/// What there is to be wrong about: a message, how many bytes it wrote, the offset that is told, and the session after it.
struct Case<'a> {
    right: &'a Plain,
    message: &'a [u8],
    count: usize,
    offset: usize,
}

/// A way to be wrong about the offset, which is all that the answer is changed in.
type WrongOffset = fn(&Case) -> usize;

struct Wrongly(WrongOffset);

impl Fault for Wrongly {
    fn message(&mut self, right: &mut Plain, message: &[u8], out: &mut [u8], guest: &mut [u8]) -> (Answer, Option<i32>) {
        let (answer, error) = right.message(message, out, guest);
        let Answer::Handled { count, .. } = answer else { return (answer, error) };
        let offset = (self.0)(&Case { right, message, count, offset: padding_of(answer) });
        (with_padding(answer, offset), error)
    }
}

/// A fault in the offset alone.
macro_rules! wrong_offset {
    ($(#[$doc:meta])* $test:ident, $most:literal in $quota:ident, |$case:ident| $body:expr) => {
        $(#[$doc])*
        #[test]
        fn $test() {
            let failure = found_within($quota, $most, || Box::new(Wrongly(|$case| $body)));
            assert_eq!((failure.mismatch.word, failure.mismatch.part), ("message", "padding"));
            assert!(matches!(failure.list.last(), Some(Call::Message { .. })));
        }
    };
}

impl Case<'_> {
    fn id(&self) -> u16 {
        self.message.first_chunk().map_or(0, |id| u16::from_le_bytes(*id))
    }

    /// The places of padding in a message with this number, entries too, whatever the count says.
    fn padding(&self, id: u16) -> Vec<usize> {
        let is_padding = |at: usize| match (id, at) {
            (2 | 3 | 8..=12 | 14, 10..=15) | (5 | 15, 11..=15) | (13, 12..=15) => true,
            (9 | 14, 17..=23) | (10, 19..=23) | (11 | 12, 17..=19) => true,
            (13, 16..) => at % 16 >= 9,
            _ => false,
        };
        (8..self.message.len()).filter(|at| is_padding(*at)).collect()
    }

    /// Those that are not zero.
    fn bad(&self, id: u16) -> Vec<usize> {
        self.padding(id).into_iter().filter(|at| self.message[*at] != 0).collect()
    }

    /// Whether a message 13 has as many entries as it counts.
    fn fits(&self) -> bool {
        // one that is not allowed may have no count
        let count = self.message[8..].first_chunk().map(|count| u16::from_le_bytes(*count));
        count.is_some_and(|count| self.message.len() == 16 + 16 * usize::from(count))
    }

    /// Whether the message with good padding would be -22 all the same.
    fn has_another_cause(&self) -> bool {
        let mut message = self.message.to_vec();
        self.padding(self.id()).into_iter().for_each(|at| message[at] = 0);
        // with replies on, so that the error is told
        let mut right = self.right.clone();
        let mut out = [0; 4112];
        right.message(&[15, 0, 8, 0, 0, 0, 0, 0, 1, 1, 0, 0, 0, 0, 0, 0], &mut out, &mut []);
        right.message(&message, &mut out, &mut []).1 == Some(-22)
    }
}

/// The right offset is found by the table that the wrong ones use, and is no fault.
#[test]
fn the_right_offset_is_no_fault() {
    choose(|| {
        Box::new(Wrongly(|case| {
            let id = case.id();
            let settings = case.right.0.settings();
            let is_allowed = matches!(id, 2 | 3) || id < 16 && settings.commands >> id & 1 == 1;
            let is_looked_at = |at: &usize| *at < 16 || id != 13 || case.fits();
            let first = if is_allowed { case.bad(id).into_iter().find(is_looked_at) } else { None };
            first.unwrap_or(0)
        }))
    });
    let result = work::<Wrong, Plain>(1, 0, QUOTA, &AtomicBool::new(false));
    let counts = result.unwrap_or_else(|failure| panic!("{failure}"));
    assert!(counts.messages >= QUOTA.messages);
}

wrong_offset! {
    /// 0 always.
    tells_of_none, 2 in QUOTA, |_case| 0
}

wrong_offset! {
    tells_of_the_last, 2 in QUOTA, |case| match case.offset {
        0 => 0,
        _ => *case.bad(case.id()).last().expect("a bad one"),
    }
}

wrong_offset! {
    /// The last of the run that the first one is in.
    tells_of_the_last_in_its_run, 2 in QUOTA, |case| {
        let bad = case.bad(case.id());
        let is_behind = |at: &usize| *at >= case.offset && *at / 8 == case.offset / 8;
        if case.offset == 0 { 0 } else { bad.into_iter().filter(is_behind).max().expect("a bad one") }
    }
}

wrong_offset! {
    /// Entries are looked at whatever the count says.
    looks_at_entries_that_do_not_fit, 2 in QUOTA, |case| match case.id() {
        13 if case.offset == 0 && case.right.0.settings().commands >> 13 & 1 == 1 => {
            case.bad(13).first().copied().unwrap_or(0)
        }
        _ => case.offset,
    }
}

wrong_offset! {
    /// The head is not looked at where the count does not fit.
    looks_at_no_head_that_does_not_fit, 2 in QUOTA, |case| match case.id() {
        13 if !case.fits() => 0,
        _ => case.offset,
    }
}

wrong_offset! {
    /// Entries before the head.
    looks_at_entries_first, 2 in QUOTA, |case| match case.id() {
        13 if case.offset > 0 && case.fits() => {
            case.bad(13).into_iter().find(|at| *at >= 16).unwrap_or(case.offset)
        }
        _ => case.offset,
    }
}

wrong_offset! {
    looks_at_the_head_alone, 2 in QUOTA, |case| match case.id() {
        13 if case.offset >= 16 => 0,
        _ => case.offset,
    }
}

wrong_offset! {
    looks_at_the_first_entry_alone, 2 in QUOTA, |case| match case.id() {
        13 if case.offset >= 32 => 0,
        _ => case.offset,
    }
}

wrong_offset! {
    /// All but the last entry of several.
    passes_over_the_last_entry, 2 in QUOTA, |case| match case.id() {
        13 if case.offset >= 32 && case.offset + 16 > case.message.len() => 0,
        _ => case.offset,
    }
}

wrong_offset! {
    /// The place in its entry.
    counts_from_the_entry, 2 in QUOTA, |case| match case.id() {
        13 if case.offset >= 16 => case.offset % 16,
        _ => case.offset,
    }
}

wrong_offset! {
    /// The offset in the data.
    counts_from_the_data, 2 in QUOTA, |case| case.offset.saturating_sub(8)
}

wrong_offset! {
    counts_from_one, 2 in QUOTA, |case| case.offset + usize::from(case.offset > 0)
}

wrong_offset! {
    /// The field, and not the byte: padding2 is a u32.
    tells_of_the_field, 2 in QUOTA, |case| match case.offset {
        offset @ 12..=15 => offset / 4 * 4,
        offset => offset,
    }
}

wrong_offset! {
    /// The vCPU header alone.
    looks_at_the_vcpu_header_alone, 2 in QUOTA, |case| match case.id() {
        9..=12 | 14 if case.offset > 15 => 0,
        _ => case.offset,
    }
}

wrong_offset! {
    /// All but the vCPU header.
    passes_over_the_vcpu_header, 2 in QUOTA, |case| match case.id() {
        id @ (8..=12 | 14) if case.offset > 0 => case.bad(id).into_iter().find(|at| *at > 15).unwrap_or(0),
        _ => case.offset,
    }
}

wrong_offset! {
    /// Message 14 has the padding of messages 11 and 12.
    mistakes_a_layout, 2 in QUOTA, |case| match case.id() {
        14 if case.offset > 19 => 0,
        _ => case.offset,
    }
}

wrong_offset! {
    /// The last byte of a CR, which is none of padding.
    takes_a_cr_for_padding, 2 in QUOTA, |case| match case.message {
        [11, 0, .., 1..=0xFF] if case.offset == 0 && case.count == 16 && case.right.0.settings().commands >> 11 & 1 == 1 => 23,
        _ => case.offset,
    }
}

wrong_offset! {
    /// A flag above 1.
    takes_a_flag_for_padding, 2 in QUOTA, |case| match case.message {
        [14, 0, 16, 0, ..] if case.offset == 0 && case.message[16] > 1 && case.right.0.settings().commands >> 14 & 1 == 1 => 16,
        _ => case.offset,
    }
}

wrong_offset! {
    tells_of_a_message_that_is_not_allowed, 2 in QUOTA, |case| match case.right.0.settings().commands >> (case.id() % 32) & 1 {
        0 if case.id() < 16 => case.bad(case.id()).first().copied().unwrap_or(0),
        _ => case.offset,
    }
}

wrong_offset! {
    /// A number that is cut to eight bits.
    tells_of_an_unknown_message, 2 in QUOTA, |case| match case.id() {
        id @ 0x100.. => case.bad(id & 0xFF).first().copied().unwrap_or(0),
        _ => case.offset,
    }
}

wrong_offset! {
    tells_of_none_in_silence, 3 in QUOTA, |case| if case.count == 0 { 0 } else { case.offset }
}

wrong_offset! {
    tells_of_none_with_a_command_error, 3 in QUOTA, |case| if case.count == 568 { 0 } else { case.offset }
}

wrong_offset! {
    /// With replies off alone.
    tells_of_none_in_a_reply, 2 in QUOTA, |case| if case.count == 16 { 0 } else { case.offset }
}

wrong_offset! {
    tells_of_none_beside_another_cause, 2 in QUOTA, |case| match case.offset {
        0 => 0,
        _ if case.has_another_cause() => 0,
        offset => offset,
    }
}

wrong_offset! {
    /// An entry's access is looked at before its padding, and that is all.
    tells_of_none_behind_a_bad_access, 2 in PATIENCE, |case| match case.id() {
        13 if case.offset >= 16 => {
            let entries = case.message[16..case.offset].iter().skip(8).step_by(16);
            let is_bad = |access: &u8| !matches!(access, 0 | 1 | 3 | 4 | 5 | 7);
            if entries.copied().any(|access| is_bad(&access)) { 0 } else { case.offset }
        }
        _ => case.offset,
    }
}

wrong_offset! {
    /// An offset that is cut to eight bits.
    cuts_the_offset, 2 in QUOTA, |case| case.offset & 0xFF
}

wrong_offset! {
    /// An offset that is cut to fifteen bits: more than 2,046 entries show it.
    cuts_the_highest_bit, 2 in PATIENCE, |case| case.offset & 0x7FFF
}

wrong_offset! {
    /// Only a byte's lowest bit is looked at.
    looks_at_one_bit, 2 in QUOTA, |case| {
        if case.offset > 0 && case.message[case.offset] & 1 == 0 { 0 } else { case.offset }
    }
}

wrong_offset! {
    /// Message 15 is told of only where it would not close with good padding.
    tells_of_none_before_test_5, 2 in PATIENCE, |case| match case.message {
        [15, 0, 8, 0, _, _, _, _, 0, _, 1, ..] if case.right.0.settings().events >> 13 & 1 == 0 => 0,
        _ => case.offset,
    }
}

/// What was told of a message is told of the next one too, if that has none of its own.
#[derive(Default)]
struct Stale(usize);

impl Fault for Stale {
    fn message(&mut self, right: &mut Plain, message: &[u8], out: &mut [u8], guest: &mut [u8]) -> (Answer, Option<i32>) {
        let (answer, error) = right.message(message, out, guest);
        let before = std::mem::replace(&mut self.0, padding_of(answer));
        match padding_of(answer) {
            0 => (with_padding(answer, before), error),
            _ => (answer, error),
        }
    }
}

#[test]
fn tells_of_the_message_before() {
    let failure = found_within(QUOTA, 3, || Box::<Stale>::default());
    assert_eq!((failure.mismatch.word, failure.mismatch.part), ("message", "padding"));
}

/// The answer is right, but the entries before the one with bad padding are applied.
struct Applies;

impl Fault for Applies {
    fn message(&mut self, right: &mut Plain, message: &[u8], out: &mut [u8], guest: &mut [u8]) -> (Answer, Option<i32>) {
        let (answer, error) = right.message(message, out, guest);
        if padding_of(answer) >= 25 && message.starts_with(&[13, 0]) {
            let entries = padding_of(answer) / 16 - 1;
            let mut before = message[..16 + 16 * entries].to_vec();
            before[2..4].copy_from_slice(&(8 + 16 * entries as u16).to_le_bytes());
            before[8..10].copy_from_slice(&(entries as u16).to_le_bytes());
            right.message(&before, &mut [0; 4112], guest);
        }
        (answer, error)
    }
}

#[test]
fn applies_entries_before_bad_padding() {
    let failure = found_within(QUOTA, 4, || Box::new(Applies));
    assert_ne!(failure.mismatch.part, "padding");
}
