//! Filters that are wrong about the revision: the harness finds each, and shows it in a short list of calls.

mod wrong;

use differential::drive::work;
use differential::limit::{act, entries, right_entries, Deed, Entry, Table, LIMIT};
use differential::{handled, told_error, Answer, Call, Filter, Lookup, Plain, Settings, Told};
use std::collections::{BTreeMap, BTreeSet};
use std::sync::atomic::AtomicBool;
use wrong::{choose, found, Fault, Wrong, QUOTA};

/// A message 13 with nothing at fault, the table before it, and what each entry does by revision 1.
struct Case<'a> {
    revision: u32,
    table: &'a Table,
    view: u16,
    entries: &'a [Entry],
    deeds: &'a [Deed],
}

/// What a filter makes of it: whether it gives -12, and the entries that it applies. None of these may be skipped.
struct Verdict {
    fails: bool,
    applied: Vec<Entry>,
}

const NOTHING: Verdict = Verdict { fails: true, applied: Vec::new() };

/// The entries that are not skipped.
fn unskipped(table: &Table, view: u16, entries: &[Entry]) -> Vec<Entry> {
    let deeds = act(&mut table.clone(), view, entries);
    entries.iter().zip(deeds).filter(|(_, deed)| *deed != Deed::Skipped).map(|(entry, _)| *entry).collect()
}

fn table_of(right: &Plain) -> Table {
    right.pages().into_iter().map(|(view, page, access)| ((view as u16, page), access)).collect()
}

impl Case<'_> {
    /// The first entry that is skipped.
    fn first(&self) -> Option<usize> {
        self.deeds.iter().position(|deed| *deed == Deed::Skipped)
    }

    fn by_revision_1(&self) -> Verdict {
        Verdict { fails: self.first().is_some(), applied: unskipped(self.table, self.view, self.entries) }
    }

    fn by_revision_2(&self) -> Verdict {
        match self.first() {
            Some(_) => NOTHING,
            None => self.by_revision_1(),
        }
    }

    fn right(&self) -> Verdict {
        match self.revision {
            1 => self.by_revision_1(),
            _ => self.by_revision_2(),
        }
    }

    fn stands(&self, page: u64) -> bool {
        self.table.contains_key(&(self.view, page))
    }

    /// How many pages would stand below rwx if there were no limit.
    fn pages_at_last(&self) -> usize {
        let last: BTreeMap<u64, u8> = self.entries.iter().copied().collect();
        let stay = self.table.keys().filter(|(view, page)| *view != self.view || !last.contains_key(page)).count();
        stay + last.values().filter(|access| **access != 7).count()
    }
}

/// A wrong verdict, by a filter that is right in all else.
struct Wrongly(fn(&Case) -> Verdict);

/// A message 13 with these entries and the seq of another.
fn message_13(seq: &[u8], count: u16, view: u16, entries: &[Entry]) -> Vec<u8> {
    let mut message = [&[13, 0][..], &(8 + 16 * entries.len() as u16).to_le_bytes(), seq].concat();
    message.extend([count.to_le_bytes(), view.to_le_bytes(), [0; 2], [0; 2]].concat());
    for (page, access) in entries {
        message.extend((page << 12).to_le_bytes());
        message.extend([*access, 0, 0, 0, 0, 0, 0, 0]);
    }
    message
}

/// An error in the place of -22: a reply's, or a CMD_ERROR's.
fn with_error(answer: Answer, out: &mut [u8], error: i32) -> (Answer, Option<i32>) {
    let at = match answer {
        Answer::Handled { count: 16, .. } => 8,
        Answer::Handled { count: 568, .. } => 552,
        _ => return (answer, None),
    };
    out[at..at + 4].copy_from_slice(&error.to_le_bytes());
    (answer, Some(error))
}

impl Fault for Wrongly {
    fn message(&mut self, right: &mut Plain, message: &[u8], out: &mut [u8], guest: &mut [u8]) -> (Answer, Option<i32>) {
        let settings = right.0.settings();
        let is_read = right.look(Lookup::IsOpen) == Told::Flag(true) && out.len() >= 4112;
        let Some((view, entries)) = right_entries(settings, message).filter(|_| is_read) else {
            return right.message(message, out, guest);
        };
        let table = table_of(right);
        let deeds = act(&mut table.clone(), view, &entries);
        let case = Case { revision: settings.revision, table: &table, view, entries: &entries, deeds: &deeds };
        let Verdict { fails, applied } = (self.0)(&case);
        assert!(!act(&mut table.clone(), view, &applied).contains(&Deed::Skipped), "an entry applied that is skipped");

        let seq = &message[4..8];
        right.message(&message_13(seq, applied.len() as u16, view, &applied), &mut [0; 4112], guest);
        match fails {
            false => right.message(&message_13(seq, 0, view, &[]), out, guest),
            true => {
                // one entry, it says, and has none
                let (answer, _) = right.message(&message_13(seq, 1, view, &[]), out, guest);
                with_error(answer, out, -12)
            }
        }
    }
}

/// The right verdict is no fault: what the wrong ones use is right.
#[test]
fn the_right_verdict_is_no_fault() {
    choose(|| Box::new(Wrongly(|case| case.right())));
    let result = work::<Wrong, Plain>(1, 0, QUOTA, &AtomicBool::new(false));
    let counts = result.unwrap_or_else(|failure| panic!("{failure}"));
    assert!(counts.messages >= QUOTA.messages);
}

/// A fault in message 13 of this revision alone.
macro_rules! wrong_verdict {
    ($(#[$doc:meta])* $test:ident, $revision:literal, |$case:ident| $body:expr) => {
        $(#[$doc])*
        #[test]
        fn $test() {
            let failure = found(5, || {
                Box::new(Wrongly(|$case| match $case.revision {
                    $revision => $body,
                    _ => $case.right(),
                }))
            });
            let is_begun = matches!(
                &failure.list[0],
                Call::Load { settings, .. } | Call::Fresh { settings } if settings.revision == $revision
            );
            assert!(is_begun && failure.list.iter().any(|call| matches!(call, Call::Message { bytes, .. } if bytes[0] == 13)));
        }
    };
}

wrong_verdict! {
    /// The revision is not looked at.
    acts_as_revision_1, 2, |case| case.by_revision_1()
}

wrong_verdict! {
    acts_as_revision_2, 1, |case| case.by_revision_2()
}

wrong_verdict! {
    keeps_what_was_applied_before_the_skip, 2, |case| match case.first() {
        Some(first) => Verdict { fails: true, applied: case.entries[..first].to_vec() },
        None => case.right(),
    }
}

wrong_verdict! {
    applies_what_comes_behind_the_skip, 2, |case| match case.first() {
        Some(first) => Verdict { fails: true, applied: unskipped(case.table, case.view, &case.entries[first..]) },
        None => case.right(),
    }
}

wrong_verdict! {
    /// Pages that the message forgets stay forgotten.
    keeps_what_was_forgotten_before_the_skip, 2, |case| match case.first() {
        Some(first) => {
            let forgotten = case.entries[..first].iter().copied().filter(|entry| entry.1 == 7);
            Verdict { fails: true, applied: forgotten.collect() }
        }
        None => case.right(),
    }
}

wrong_verdict! {
    /// Of a page that was changed twice, the last change alone is taken back.
    takes_back_one_change_of_a_page, 2, |case| match case.first() {
        Some(first) => {
            let mut pages: BTreeMap<u64, Vec<u8>> = BTreeMap::new();
            case.entries[..first].iter().for_each(|(page, access)| pages.entry(*page).or_default().push(*access));
            let left: Vec<Entry> = pages
                .iter()
                .filter_map(|(page, accesses)| match accesses[..] {
                    [.., left, _] => Some((*page, left)),
                    _ => None,
                })
                .collect();
            Verdict { fails: true, applied: unskipped(case.table, case.view, &left) }
        }
        None => case.right(),
    }
}

wrong_verdict! {
    /// Room that an earlier entry gave back is not counted.
    wants_room_for_every_new_page, 2, |case| {
        let new: BTreeSet<u64> =
            case.entries.iter().filter(|entry| entry.1 != 7 && !case.stands(entry.0)).map(|entry| entry.0).collect();
        if case.table.len() + new.len() > LIMIT { NOTHING } else { case.right() }
    }
}

wrong_verdict! {
    wants_room_for_every_entry, 2, |case| {
        if case.table.len() + case.entries.len() > LIMIT { NOTHING } else { case.right() }
    }
}

wrong_verdict! {
    /// Room that a later entry gives back is counted.
    counts_room_that_a_later_entry_gives_back, 2, |case| match case.pages_at_last() {
        ..=LIMIT => {
            let last: BTreeMap<u64, u8> = case.entries.iter().copied().collect();
            let mut applied: Vec<Entry> = last.into_iter().collect();
            applied.sort_by_key(|entry| entry.1 != 7);
            Verdict { fails: false, applied }
        }
        _ => NOTHING,
    }
}

wrong_verdict! {
    /// Every entry is held against the table as it stood before the message.
    reads_the_table_before_the_message, 2, |case| {
        let mut used = case.table.len();
        let is_skipped = |(page, access): &Entry| match (case.stands(*page), access) {
            (true, 7) => {
                used -= 1;
                false
            }
            (false, access) if *access != 7 => {
                used += 1;
                used > LIMIT
            }
            _ => false,
        };
        match case.entries.iter().any(is_skipped) {
            true => NOTHING,
            false => Verdict { fails: false, applied: case.by_revision_1().applied },
        }
    }
}

wrong_verdict! {
    /// A page at rwx that is forgotten gives room.
    gives_room_for_a_page_at_rwx, 2, |case| {
        let mut room = LIMIT - case.table.len();
        let mut table = case.table.clone();
        for entry in case.entries {
            match act(&mut table, case.view, &[*entry])[0] {
                Deed::Skipped if room == 0 => return NOTHING,
                Deed::Skipped => room -= 1,
                Deed::Keeps if entry.1 == 7 => room += 1,
                _ => room = room.max(LIMIT - table.len()),
            }
        }
        Verdict { fails: false, applied: case.by_revision_1().applied }
    }
}

wrong_verdict! {
    /// 1,024 pages are one too many.
    leaves_a_place_empty, 2, |case| {
        let mut table = case.table.clone();
        let fills = |entry: &Entry| {
            let before = table.len();
            act(&mut table, case.view, &[*entry]);
            before < table.len() && table.len() == LIMIT
        };
        if case.entries.iter().any(fills) { NOTHING } else { case.right() }
    }
}

wrong_verdict! {
    /// Pages of other views are not counted.
    counts_pages_of_the_view_alone, 2, |case| {
        let others = case.table.keys().filter(|(view, _)| *view != case.view).count();
        match case.first() {
            Some(_) if others > 0 && case.pages_at_last() - others < LIMIT => {
                Verdict { fails: false, applied: case.by_revision_1().applied }
            }
            _ => case.right(),
        }
    }
}

wrong_verdict! {
    /// The first entry alone is looked at.
    looks_for_a_skip_in_the_first_entry, 2, |case| match case.first() {
        Some(0) => NOTHING,
        _ => case.by_revision_1(),
    }
}

wrong_verdict! {
    /// The last entry alone is looked at.
    looks_for_a_skip_in_the_last_entry, 2, |case| match case.deeds.last() {
        Some(Deed::Skipped) => NOTHING,
        _ => case.by_revision_1(),
    }
}

wrong_verdict! {
    gives_no_error_to_a_skip, 2, |case| Verdict { fails: false, ..case.right() }
}

wrong_verdict! {
    gives_an_error_to_what_changes_nothing, 2, |case| match case.deeds.contains(&Deed::Changes) || case.entries.is_empty() {
        false if case.table.len() == LIMIT => NOTHING,
        _ => case.right(),
    }
}

wrong_verdict! {
    /// What is wrong by revision 1 is found as well.
    stops_at_the_first_skip_by_revision_1, 1, |case| match case.first() {
        Some(first) => Verdict { fails: true, applied: case.entries[..first].to_vec() },
        None => case.right(),
    }
}

/// A fault in messages alone.
macro_rules! wrong_message {
    ($(#[$doc:meta])* $test:ident, $fault:ident, $most:literal, |$right:ident, $message:ident, $out:ident, $guest:ident| $body:expr) => {
        struct $fault;

        impl Fault for $fault {
            fn message(&mut self, $right: &mut Plain, $message: &[u8], $out: &mut [u8], $guest: &mut [u8]) -> (Answer, Option<i32>) {
                $body
            }
        }

        $(#[$doc])*
        #[test]
        fn $test() {
            found($most, || Box::new($fault));
        }
    };
}

/// Whether it is a CMD_ERROR that tells of a skip by revision 2.
fn is_told(right: &Plain, message: &[u8], (answer, error): (Answer, Option<i32>)) -> bool {
    message.starts_with(&[13, 0])
        && right.0.settings().revision == 2
        && matches!(answer, Answer::Handled { count: 568, .. })
        && error == Some(-12)
}

wrong_message! {
    writes_no_command_error_for_a_skip, ErrorLost, 4, |right, message, out, guest| {
        let mut room = out.to_vec();
        let result = right.message(message, &mut room, guest);
        if is_told(right, message, result) {
            return (handled(0), None);
        }
        out.copy_from_slice(&room);
        result
    }
}

wrong_message! {
    /// The event's seq is the next one's too.
    takes_no_seq_for_a_skip, SeqKept, 5, |right, message, out, guest| {
        let before = right.clone();
        let result = right.message(message, out, guest);
        if is_told(right, message, result) {
            *right = before;
        }
        result
    }
}

wrong_message! {
    /// With replies off, all is applied that can be.
    applies_in_silence, AppliedSilently, 5, |right, message, out, guest| {
        let result = right.message(message, out, guest);
        let is_second = right.0.settings().revision == 2;
        match (right_entries(right.0.settings(), message), result.0) {
            (Some((view, entries)), Answer::Handled { count: 0, .. }) if is_second => {
                let applied = unskipped(&table_of(right), view, &entries);
                right.message(&message_13(&[0; 4], applied.len() as u16, view, &applied), &mut [0; 4112], guest);
                result
            }
            _ => result,
        }
    }
}

wrong_message! {
    /// A skip is told though an entry is at fault.
    tells_a_skip_before_a_fault, SkipFirst, 16, |right, message, out, guest| {
        let settings = right.0.settings().clone();
        let result = right.message(message, out, guest);
        let Some((view, entries)) = entries(message) else { return result };
        let skips = act(&mut table_of(right), view, &entries).contains(&Deed::Skipped);
        match result {
            (Answer::Handled { padding: 0, .. }, Some(-22)) if skips && settings.revision == 2 => with_error(result.0, out, -12),
            _ => result,
        }
    }
}

/// The version that a reply to message 1 tells, changed.
fn with_version(result: (Answer, Option<i32>), message: &[u8], out: &mut [u8], version: u32) -> (Answer, Option<i32>) {
    if let ([1, 0, ..], Answer::Handled { count: 32, .. }) = (message, result.0) {
        out[16..20].copy_from_slice(&version.to_le_bytes());
    }
    result
}

wrong_message! {
    tells_version_1_always, SaysOne, 2, |right, message, out, guest| {
        with_version(right.message(message, out, guest), message, out, 1)
    }
}

wrong_message! {
    tells_version_2_always, SaysTwo, 2, |right, message, out, guest| {
        with_version(right.message(message, out, guest), message, out, 2)
    }
}

wrong_message! {
    /// The version stands for both, and the revision behind it, where padding is.
    tells_the_revision_as_padding, SaysElsewhere, 2, |right, message, out, guest| {
        let result = right.message(message, out, guest);
        if let ([1, 0, ..], Answer::Handled { count: 32, .. }) = (message, result.0) {
            out.copy_within(16..20, 20);
            out[16..20].copy_from_slice(&[1, 0, 0, 0]);
        }
        result
    }
}

/// A fault in what settings are taken.
macro_rules! wrong_settings {
    ($(#[$doc:meta])* $test:ident, $fault:ident, |$settings:ident| $revision:expr) => {
        struct $fault;

        impl $fault {
            fn taken($settings: &Settings) -> Settings {
                Settings { revision: $revision, ..$settings.clone() }
            }
        }

        impl Fault for $fault {
            fn fresh(&self, settings: &Settings) -> Result<Plain, Answer> {
                Plain::fresh(&$fault::taken(settings))
            }

            fn load(&self, settings: &Settings, image: &[u8]) -> Result<Plain, Answer> {
                Plain::load(&$fault::taken(settings), image)
            }
        }

        $(#[$doc])*
        #[test]
        fn $test() {
            let failure = found(3, || Box::new($fault));
            assert!(matches!(&failure.list[0], Call::Fresh { .. } | Call::Load { .. }));
        }
    };
}

wrong_settings! {
    takes_revision_0, ZeroTaken, |settings| settings.revision.max(1)
}

wrong_settings! {
    takes_revision_3, ThreeTaken, |settings| if settings.revision == 3 { 2 } else { settings.revision }
}

wrong_settings! {
    takes_every_revision_above_2, LargeTaken, |settings| settings.revision.min(2)
}

wrong_settings! {
    /// The low half of the revision alone is looked at.
    cuts_the_revision, CutTaken, |settings| settings.revision & 0xFFFF
}

wrong_settings! {
    refuses_revision_2, TwoRefused, |settings| if settings.revision == 2 { 3 } else { settings.revision }
}

wrong_settings! {
    begins_with_revision_1_always, OneAlways, |settings| if settings.revision == 2 { 1 } else { settings.revision }
}

/// A fault in reading images alone.
macro_rules! wrong_load {
    ($(#[$doc:meta])* $test:ident, $fault:ident, $most:literal, |$settings:ident, $image:ident| $body:expr) => {
        struct $fault;

        impl Fault for $fault {
            fn load(&self, $settings: &Settings, $image: &[u8]) -> Result<Plain, Answer> {
                $body
            }
        }

        $(#[$doc])*
        #[test]
        fn $test() {
            let failure = found($most, || Box::new($fault));
            assert!(matches!(&failure.list[0], Call::Load { .. }));
        }
    };
}

wrong_load! {
    takes_any_revision_with_an_image, AnyLoaded, 1, |settings, image| {
        Plain::load(&Settings { revision: settings.revision.clamp(1, 2), ..settings.clone() }, image)
    }
}

wrong_load! {
    /// The image is read first.
    answers_8_and_9_before_7, ImageFirst, 1, |settings, image| {
        Plain::load(&Settings { revision: 1, ..settings.clone() }, image)?;
        Plain::load(settings, image)
    }
}

wrong_load! {
    loads_revision_1_always, OneLoaded, 3, |settings, image| {
        Plain::load(settings, image)?;
        Plain::load(&Settings { revision: 1, ..settings.clone() }, image)
    }
}

wrong_load! {
    /// Revision 2 is refused where the table is full.
    loads_no_full_table_by_revision_2, FullRefused, 1, |settings, image| {
        let loaded = Plain::load(settings, image)?;
        match settings.revision == 2 && loaded.pages().len() == LIMIT {
            true => Err(Answer::Forbidden { offset: 0 }),
            false => Ok(loaded),
        }
    }
}

#[test]
fn a_told_error_is_read_from_both_kinds_of_output() {
    let mut out = [0; 568];
    assert_eq!(with_error(handled(16), &mut out, -12).1, told_error(&out[..16]));
    out = [0; 568];
    (out[0], out[1]) = (17, 0);
    assert_eq!(with_error(handled(568), &mut out, -12).1, told_error(&out));
}

/// What both sides are wrong in alike.
fn both_wrong(fault: wrong::MakeFault) {
    choose(fault);
    let result = work::<Wrong, Wrong>(1, 0, QUOTA, &AtomicBool::new(false));
    assert!(result.is_ok(), "they differ");
}

/// Message 2 is not the same by both revisions.
struct Apart;

impl Fault for Apart {
    fn message(&mut self, right: &mut Plain, message: &[u8], out: &mut [u8], guest: &mut [u8]) -> (Answer, Option<i32>) {
        let result = right.message(message, out, guest);
        match result {
            (Answer::Handled { count: 16, .. }, None) if message.starts_with(&[2, 0]) && right.0.settings().revision == 2 => {
                with_error(result.0, out, -1)
            }
            _ => result,
        }
    }
}

#[test]
#[should_panic(expected = "both sides tell the revisions apart by message")]
fn both_sides_tell_the_revisions_apart() {
    both_wrong(|| Box::new(Apart));
}

#[test]
#[should_panic(expected = "by revision 2")]
fn both_sides_act_as_revision_1() {
    both_wrong(|| Box::new(Wrongly(|case| case.by_revision_1())));
}

#[test]
#[should_panic(expected = "by revision 1")]
fn both_sides_act_as_revision_2() {
    both_wrong(|| Box::new(Wrongly(|case| case.by_revision_2())));
}

#[test]
#[should_panic(expected = "both sides gave this error to entries")]
fn both_sides_give_no_error_to_a_skip() {
    both_wrong(|| Box::new(Wrongly(|case| Verdict { fails: false, ..case.right() })));
}

#[test]
#[should_panic(expected = "both sides tell another version")]
fn both_sides_tell_version_1_always() {
    both_wrong(|| Box::new(SaysOne));
}

#[test]
#[should_panic(expected = "both sides took revision 0")]
fn both_sides_take_revision_0() {
    both_wrong(|| Box::new(ZeroTaken));
}
