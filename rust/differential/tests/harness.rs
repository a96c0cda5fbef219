//! The harness itself: it finds a fault, shows it in a short list of calls, and finds none where there is none.

mod wrong;

use differential::drive::{work, Quota};
use differential::event::{fault_reply, register};
use differential::fault::{guard, Context, Fault as PageFault};
use differential::image::page_starts;
use differential::{
    handled, parse, Action, Answer, Call, Counts, Feed, Filter, Lookup, Plain, Record, Settings, Signal, Told, BATCH_ROOM,
    GUEST_ROOM, LIST_ROOM, OUT_ROOM, STATE_ROOM,
};
use std::collections::BTreeMap;
use std::sync::atomic::AtomicBool;
use wrong::{choose, found, found_within, Entry, Fault, Wrong, PATIENCE, QUOTA};

fn number(bytes: &[u8], at: usize) -> u64 {
    u64::from_le_bytes(bytes[at..at + 8].try_into().unwrap())
}

#[test]
fn agrees_with_itself() {
    let result = work::<Plain, Plain>(1, 0, QUOTA, &AtomicBool::new(false));
    let counts = result.unwrap_or_else(|failure| panic!("{failure}"));
    assert!(counts.messages >= QUOTA.messages && counts.images_read >= QUOTA.images);
}

/// What was not seen is told: at first, all that a run has to see.
#[test]
fn tells_what_is_missing() {
    let counts = Counts::default();
    assert!(counts.missing().len() == counts.wanted().len() && counts.missing().len() > 100);
    let result = work::<Plain, Plain>(1, 0, Quota { messages: 1000, images: 100 }, &AtomicBool::new(false));
    let counts = result.unwrap_or_else(|failure| panic!("{failure}"));
    assert!((1..counts.wanted().len()).contains(&counts.missing().len()), "{counts}");
}

/// Calls are read back from their text, and other lines are refused.
#[test]
fn texts_are_read_back() {
    let settings = Settings {
        vcpus: u32::MAX,
        views: 0,
        commands: 0x8000_0001,
        events: 0,
        tsc: u64::MAX,
        features: [0, 1, 2, 0x80, 0xFF],
        descriptors: false,
        breakpoints: true,
        execute_only: false,
        revision: 1,
    };
    let executing = Settings { execute_only: true, revision: u32::MAX, ..settings.clone() };
    let odd = Record { ready: 1, singlestep: 2, crs: 3, events: 4, pauses: 5, awaited: 6, awaited_seq: u64::MAX };
    let calls = [
        Call::Fresh { settings: settings.clone() },
        Call::Load { settings, keep: true, image: vec![0, 0xFF, 0x10] },
        Call::Fresh { settings: executing.clone() },
        Call::Load { settings: executing, keep: false, image: Vec::new() },
        Call::Ready { vcpu: u32::MAX },
        Call::Message { out: 0, guest: 1, bytes: Vec::new() },
        Call::Message { out: OUT_ROOM, guest: GUEST_ROOM, bytes: (0..=255).collect() },
        Call::Batch { out: 0, places: 0, guest: 0, bytes: Vec::new() },
        Call::Batch { out: BATCH_ROOM, places: LIST_ROOM, guest: GUEST_ROOM, bytes: (0..=255).collect() },
        Call::Enter { vcpu: 0, state: STATE_ROOM, fill: 255, event: 0, own: Vec::new(), out: 576 },
        Call::Enter { vcpu: u32::MAX, state: 0, fill: 0, event: u32::MAX, own: (0..=255).collect(), out: 0 },
        Call::Enter { vcpu: 1, state: 536, fill: 1, event: 10, own: (0..24).collect(), out: 576 },
        Call::Message { out: 4112, guest: 4097, bytes: [&[16, 0, 0x20, 1][..], &[0xEE; 292]].concat() },
        Call::Image { room: -1_000_000 },
        Call::ListReady { records: Vec::new(), index: u64::MAX },
        Call::ListCr { records: vec![Record::default(), odd], index: 1, cr: u32::MAX, on: true },
        Call::Look { lookup: Lookup::IsOpen },
        Call::Look { lookup: Lookup::IsReady { vcpu: u32::MAX } },
        Call::Look { lookup: Lookup::VmEvent { event: u32::MAX } },
        Call::Look { lookup: Lookup::VcpuEvent { vcpu: 1, event: 2 } },
        Call::Look { lookup: Lookup::Cr { vcpu: 1, cr: 3 } },
        Call::Look { lookup: Lookup::Msr { vcpu: 1, msr: 0xC000_0000 } },
        Call::Look { lookup: Lookup::Singlestep { vcpu: 1 } },
        Call::Look { lookup: Lookup::Pauses { vcpu: 1 } },
        Call::Look { lookup: Lookup::Awaited { vcpu: 1 } },
        Call::Look { lookup: Lookup::PageCount },
        Call::Look { lookup: Lookup::Access { view: u32::MAX, page: u64::MAX } },
        Call::Look { lookup: Lookup::PageAt { i: u64::MAX } },
    ];
    let lines: Vec<String> = calls.iter().map(Call::to_string).collect();
    assert_eq!(parse(&format!("# calls\n\n{}\n", lines.join("\n"))).unwrap(), calls);
    let settings = "vcpus=1 views=1 commands=0 events=0 tsc=0 features=0000000000 descriptors=0 breakpoints=0";
    parse(&format!("fresh {settings} execute_only=0 revision=2")).expect("a line with all settings");
    for line in [
        &format!("fresh {settings} revision=1"),
        &format!("fresh {settings} execute_only=0"),
        &format!("fresh {settings} execute_only=2 revision=1"),
        &format!("fresh {settings} execute_only=0 revision=-1"),
        &format!("fresh {settings} execute_only=0 revision=0x100000000"),
        "wake vcpu=0",
        "ready",
        "ready vcpu=-1",
        "ready vcpu=1 out=2",
        "image room",
        "enter vcpu=0 state=536 fill=0 out=576",
        "enter vcpu=0 state=536 fill=0 out=576 event=5",
        "enter vcpu=0 state=536 fill=0 out=576 event=0x100000000 own=",
        "enter vcpu=0 state=536 fill=0 out=576 event=5 own=0",
        "message out=4201 guest=0 bytes=",
        "batch out=4112 guest=0 bytes=",
        "batch out=4112 places=301 guest=0 bytes=",
        "batch out=65537 places=1 guest=0 bytes=",
        "batch out=4112 places=1 guest=0 bytes=000",
        "list_ready index=0 records=00",
        "list_cr index=0 cr=0 on=2 records=",
        "look name=nothing of=0 number=0",
        "look name=is_open of=1 number=0",
        "look name=msr of=0 number=0x100000000",
    ] {
        parse(line).expect_err(line);
    }
    parse("message out=16 guest=0 bytes=0").expect_err("half a byte");
}

/// "Keeping a record at rwx."
#[derive(Default)]
struct KeepsRwx(BTreeMap<(u16, u64), Vec<u8>>);

impl Fault for KeepsRwx {
    fn message(&mut self, right: &mut Plain, message: &[u8], out: &mut [u8], guest: &mut [u8]) -> (Answer, Option<i32>) {
        let (answer, error) = right.message(message, out, guest);
        if let (Answer::Handled { count: 16, .. }, None, [13, 0, ..]) = (answer, error, message) {
            for entry in message[16..].chunks(16) {
                let (view, page) = (u16::from_le_bytes([message[10], message[11]]), number(entry, 0) >> 12);
                match entry[8] {
                    7 => self.0.insert((view, page), [&b"PA"[..], &view.to_le_bytes(), &[7, 0], &page.to_le_bytes()].concat()),
                    _ => self.0.remove(&(view, page)),
                };
            }
        }
        (answer, error)
    }

    fn image_size(&self, right: &Plain) -> usize {
        right.image_size() + 14 * self.0.len()
    }

    fn write_image(&self, right: &Plain, out: &mut [u8]) -> Answer {
        let size = right.image_size();
        let Some((room, more)) = out.split_at_mut_checked(size) else { return right.write_image(&mut []) };
        match right.write_image(room) {
            Answer::Handled { count, .. } if more.len() >= 14 * self.0.len() => {
                more[..14 * self.0.len()].copy_from_slice(&self.0.values().flatten().copied().collect::<Vec<_>>());
                handled(count + 14 * self.0.len())
            }
            Answer::Handled { .. } => Answer::ShortOut,
            answer => answer,
        }
    }
}

#[test]
fn keeps_a_record_at_rwx() {
    let failure = found(3, || Box::new(KeepsRwx::default()));
    // an image is written behind a batch, too
    let [Call::Fresh { .. }, Call::Message { .. }, last] = &failure.list[..] else { panic!("a session and a message") };
    assert!(matches!(last, Call::Image { .. } | Call::Batch { .. }));
}

/// A fault in messages alone.
macro_rules! wrong_message {
    ($(#[$doc:meta])* $test:ident, $fault:ident, $most:literal, |$right:ident, $message:ident, $out:ident, $guest:ident| $body:expr) => {
        wrong_message! { $(#[$doc])* $test, $fault, $most in QUOTA, |$right, $message, $out, $guest| $body }
    };
    ($(#[$doc:meta])* $test:ident, $fault:ident, $most:literal in $quota:ident,
        |$right:ident, $message:ident, $out:ident, $guest:ident| $body:expr) => {
        struct $fault;

        impl Fault for $fault {
            fn message(&mut self, $right: &mut Plain, $message: &[u8], $out: &mut [u8], $guest: &mut [u8]) -> (Answer, Option<i32>) {
                $body
            }
        }

        $(#[$doc])*
        #[test]
        fn $test() {
            found_within($quota, $most, || Box::new($fault));
        }
    };
}

/// A reply's error, changed.
fn told((answer, _): (Answer, Option<i32>), out: &mut [u8], error: i32) -> (Answer, Option<i32>) {
    out[8..12].copy_from_slice(&error.to_le_bytes());
    (answer, Some(error))
}

wrong_message! {
    /// "Counting page entries from the size."
    counts_entries_from_the_size, CountsFromSize, 4, |right, message, out, guest| {
        let mut message = message.to_vec();
        if message.starts_with(&[13, 0]) && message.len() >= 16 && message.len().is_multiple_of(16) {
            let count = message.len() / 16 - 1;
            message[8..10].copy_from_slice(&(count as u16).to_le_bytes());
        }
        right.message(&message, out, guest)
    }
}

wrong_message! {
    /// "Stopping at the first skipped entry."
    stops_at_the_first_skipped_entry, StopsAtSkip, 16, |right, message, out, guest| {
        let mut trial = right.clone();
        let result = trial.message(message, out, guest);
        if result.1 != Some(-12) {
            *right = trial;
            return result;
        }
        // one entry at a time, up to the one that is skipped
        for entry in message[16..].chunks(16) {
            let mut one = message[..16].to_vec();
            (one[2], one[3], one[8], one[9]) = (24, 0, 1, 0);
            one.extend(entry);
            if right.message(&one, out, guest).1.is_some() {
                break;
            }
        }
        result
    }
}

wrong_message! {
    /// "Testing gpa + size with a sum that wraps."
    adds_with_a_sum_that_wraps, WrapsSum, 2, |right, message, out, guest| {
        let result = right.message(message, out, guest);
        match message {
            [6, 0, ..] if result.1 == Some(-22) && (number(message, 8) % 4096).wrapping_add(number(message, 16)) <= 4096 => {
                told(result, out, -2)
            }
            _ => result,
        }
    }
}

wrong_message! {
    /// Three calls: a session begins, a vCPU is made ready, and its facts are asked for.
    writes_past_the_count, PastTheCount, 3, |right, message, out, guest| {
        let result = right.message(message, out, guest);
        if let (Answer::Handled { count: 24, .. }, [8, 0, ..]) = (result.0, message) {
            out[24] = 0;
        }
        result
    }
}

wrong_message! {
    writes_guest_memory_on_an_error, GuestOnError, 2, |right, message, out, guest| {
        let result = right.message(message, out, guest);
        if let ([7, 0, ..], Some(-22), [.., last]) = (message, result.1, guest) {
            *last = 0;
        }
        result
    }
}

wrong_message! {
    forgets_the_kick_with_replies_off, KickLost, 4, |right, message, out, guest| {
        match right.message(message, out, guest) {
            (Answer::Handled { count: 0, signal: Signal::Kick { .. }, .. }, error) => (NOTHING, error),
            result => result,
        }
    }
}

/// A reply to an event with one action, as it would be with another; any other message as it is.
fn with_action(message: &[u8], wanted: (u8, u8), action: u8) -> Vec<u8> {
    let mut message = message.to_vec();
    match &mut message[..] {
        [16, 0, _, _, _, _, _, _, _, _, _, _, _, _, _, _, told, event, ..] if (*event, *told) == wanted => *told = action,
        _ => {}
    }
    message
}

wrong_message! {
    takes_a_retry_of_a_pause, RetryTaken, 5 in PATIENCE, |right, message, out, guest| {
        right.message(&with_action(message, (2, 1), 0), out, guest)
    }
}

wrong_message! {
    takes_a_retry_of_an_msr, MsrRetried, 6, |right, message, out, guest| {
        match right.message(&with_action(message, (9, 1), 0), out, guest) {
            (Answer::Handled { count, signal: Signal::Resume { vcpu, value, .. }, feed, padding }, error) if message[16] == 1 => {
                let signal = Signal::Resume { vcpu, action: Action::Retry, value };
                (Answer::Handled { count, signal, feed, padding }, error)
            }
            result => result,
        }
    }
}

wrong_message! {
    takes_a_reply_to_a_cr_without_its_value, CrUnvalued, 6 in PATIENCE, |right, message, out, guest| {
        match message {
            [16, 0, 16, 0, ..] if message.get(17) == Some(&5) => {
                let mut message = [message, &[0; 8]].concat();
                message[2] = 24;
                right.message(&message, out, guest)
            }
            _ => right.message(message, out, guest),
        }
    }
}

wrong_message! {
    takes_a_value_of_a_breakpoint, BreakpointValued, 5 in PATIENCE, |right, message, out, guest| {
        match message {
            [16, 0, 24, 0, rest @ ..] if message.len() == 32 && message[17] == 4 => {
                right.message(&[&[16, 0, 16, 0], &rest[..20]].concat(), out, guest)
            }
            _ => right.message(message, out, guest),
        }
    }
}

wrong_message! {
    cuts_the_new_value, ValueCut, 6, |right, message, out, guest| {
        match right.message(message, out, guest) {
            (Answer::Handled { count, signal: Signal::Resume { vcpu, action, value }, feed, padding }, error) => {
                let signal = Signal::Resume { vcpu, action, value: value & 0xFFFF_FFFF };
                (Answer::Handled { count, signal, feed, padding }, error)
            }
            result => result,
        }
    }
}

wrong_message! {
    forgets_the_resume_of_a_hypercall, ResumeLost, 5, |right, message, out, guest| {
        match right.message(message, out, guest) {
            (Answer::Handled { signal: Signal::Resume { .. }, .. }, error) if message[17] == 3 => (NOTHING, error),
            result => result,
        }
    }
}

wrong_message! {
    applies_the_mode_too_late, NowIgnored, 3, |right, message, out, guest| {
        let mut message = message.to_vec();
        if let [15, 0, 8, 0, _, _, _, _, _, now, ..] = &mut message[..] {
            *now &= !1;
        }
        right.message(&message, out, guest)
    }
}

wrong_message! {
    refuses_the_last_msr, LastMsr, 5, |right, message, out, guest| {
        match message {
            [12, 0, .., 0xFF, 0x1F, 0, 0xC0] => {
                let mut message = message.to_vec();
                message[21] = 0x20;
                right.message(&message, out, guest)
            }
            _ => right.message(message, out, guest),
        }
    }
}

wrong_message! {
    loses_a_pages_highest_bit, HighPage, 3, |right, message, out, guest| {
        let mut message = message.to_vec();
        if message.starts_with(&[13, 0]) {
            message.iter_mut().skip(16 + 7).step_by(16).for_each(|byte| *byte &= 0x7F);
        }
        right.message(&message, out, guest)
    }
}

/// The message, with another access in the place of one if it is a message 13; in the entries from this one on.
fn with_access(message: &[u8], from: u8, to: u8, first: usize) -> Vec<u8> {
    let mut message = message.to_vec();
    if message.starts_with(&[13, 0]) {
        let accesses = message.iter_mut().skip(16 + 8).step_by(16).skip(first);
        accesses.filter(|access| **access == from).for_each(|access| *access = to);
    }
    message
}

/// What the message would be answered if it asked for access 5 where it asks for 4.
fn with_5_for_4(right: &Plain, message: &[u8]) -> (Answer, Option<i32>) {
    right.clone().message(&with_access(message, 4, 5, 0), &mut [0; 4112], &mut [])
}

wrong_message! {
    takes_access_4_that_is_not_there, FourTaken, 2, |right, message, out, guest| {
        match right.0.settings().execute_only {
            true => right.message(message, out, guest),
            false => right.message(&with_access(message, 4, 5, 0), out, guest),
        }
    }
}

wrong_message! {
    /// Access 4 is looked for in the first entry alone.
    takes_access_4_in_later_entries, FourLater, 2, |right, message, out, guest| {
        match right.0.settings().execute_only {
            true => right.message(message, out, guest),
            false => right.message(&with_access(message, 4, 5, 1), out, guest),
        }
    }
}

wrong_message! {
    /// Access 5 is refused as 4 is.
    refuses_access_5_as_well, FiveRefused, 2, |right, message, out, guest| {
        match right.0.settings().execute_only {
            true => right.message(message, out, guest),
            false => right.message(&with_access(message, 5, 4, 0), out, guest),
        }
    }
}

wrong_message! {
    refuses_access_4_that_is_there, FourRefused, 2, |right, message, out, guest| {
        match right.0.settings().execute_only {
            true => right.message(&with_access(message, 4, 2, 0), out, guest),
            false => right.message(message, out, guest),
        }
    }
}

wrong_message! {
    /// The low bits of an access alone are looked at.
    takes_access_12_for_4, TwelveTaken, 2, |right, message, out, guest| {
        right.message(&with_access(message, 12, 4, 0), out, guest)
    }
}

wrong_message! {
    /// The entries before the one that is refused are applied.
    applies_entries_before_access_4, BeforeFour, 3, |right, message, out, guest| {
        let otherwise = with_5_for_4(right, message);
        match (right.message(message, out, guest), otherwise) {
            (result @ (_, Some(-22)), (Answer::Handled { .. }, None)) => {
                let before: Vec<u8> = message[16..].chunks(16).take_while(|entry| entry[8] != 4).flatten().copied().collect();
                let mut applied = [&message[..16], &before].concat();
                applied[2..4].copy_from_slice(&(8 + before.len() as u16).to_le_bytes());
                applied[8..10].copy_from_slice(&(before.len() as u16 / 16).to_le_bytes());
                right.message(&applied, &mut [0; 4112], guest);
                result
            }
            (result, _) => result,
        }
    }
}

wrong_message! {
    /// Where the table has no room, that is told.
    tells_a_full_table_before_access_4, FullFirst, 16, |right, message, out, guest| {
        let otherwise = with_5_for_4(right, message);
        match (right.message(message, out, guest), otherwise) {
            (result @ (Answer::Handled { count: 16, .. }, Some(-22)), (_, Some(-12))) => told(result, out, -12),
            (result, _) => result,
        }
    }
}

wrong_message! {
    mistakes_a_full_queue, FullQueue, 11, |right, message, out, guest| {
        match right.message(message, out, guest) {
            result @ (Answer::Handled { count: 16, .. }, Some(-16)) if message[0] == 9 => told(result, out, -11),
            result => result,
        }
    }
}

wrong_message! {
    takes_an_output_one_too_short, ShortTaken, 2, |right, message, out, guest| {
        if out.len() != 4111 {
            return right.message(message, out, guest);
        }
        let mut room = vec![0; 4112];
        let result = right.message(message, &mut room, guest);
        if let Answer::Handled { count, .. } = result.0 {
            let count = count.min(4111);
            out[..count].copy_from_slice(&room[..count]);
        }
        result
    }
}

wrong_message! {
    takes_padding_as_it_is, PaddingTaken, 3, |right, message, out, guest| {
        let mut message = message.to_vec();
        if let [14, 0, 16, 0, ..] = message[..] {
            if let Some(last) = message.get_mut(23) {
                *last = 0;
            }
        }
        right.message(&message, out, guest)
    }
}

wrong_message! {
    panics_on_an_empty_message, Panics, 2, |right, message, out, guest| {
        assert!(!message.is_empty());
        right.message(message, out, guest)
    }
}

/// Tells the error that a reply holds wrongly, though its bytes are right.
struct TellsWrongly;

impl Fault for TellsWrongly {
    fn message(&mut self, right: &mut Plain, message: &[u8], out: &mut [u8], guest: &mut [u8]) -> (Answer, Option<i32>) {
        let (answer, error) = right.message(message, out, guest);
        (answer, error.filter(|_| !message.starts_with(&[17, 0])))
    }
}

#[test]
fn tells_no_error_of_an_unknown_message() {
    found(2, || Box::new(TellsWrongly));
}

/// The seqs of a session's events, without those of CMD_ERROR.
struct SeqUncounted(u32);

impl Fault for SeqUncounted {
    fn message(&mut self, right: &mut Plain, message: &[u8], out: &mut [u8], guest: &mut [u8]) -> (Answer, Option<i32>) {
        let result = right.message(message, out, guest);
        self.0 += u32::from(matches!(result.0, Answer::Handled { count: 568, .. }) && out[0] == 17);
        result
    }

    fn enter(&mut self, right: &mut Plain, entry: &Entry, out: &mut [u8]) -> Answer {
        let answer = entry.of(right, out);
        if let Answer::Handled { count: 1.., .. } = answer {
            let seq = u32::from_le_bytes(out[4..8].try_into().unwrap()) - self.0;
            out[4..8].copy_from_slice(&seq.to_le_bytes());
        }
        answer
    }
}

#[test]
fn counts_command_errors_apart() {
    found(6, || Box::new(SeqUncounted(0)));
}

/// A fault in entries alone.
macro_rules! wrong_entry {
    ($(#[$doc:meta])* $test:ident, $fault:ident, $most:literal, |$right:ident, $entry:ident, $out:ident| $body:expr) => {
        struct $fault;

        impl Fault for $fault {
            fn enter(&mut self, $right: &mut Plain, $entry: &Entry, $out: &mut [u8]) -> Answer {
                $body
            }
        }

        $(#[$doc])*
        #[test]
        fn $test() {
            let failure = found($most, || Box::new($fault));
            assert_eq!(failure.mismatch.word, "enter");
        }
    };
}

const NOTHING: Answer = handled(0);

wrong_entry! {
    /// An entry is handled while its vCPU waits.
    enters_while_waiting, EntersWaiting, 5, |right, entry, out| match entry.of(right, out) {
        Answer::Waiting => NOTHING,
        answer => answer,
    }
}

wrong_entry! {
    /// A pause that is queued goes before the event offered.
    pauses_before_the_event, PauseFirst, 6, |right, entry, out| {
        let is_handled = matches!(entry.of(&mut right.clone(), &mut out.to_vec()), Answer::Handled { .. });
        match is_handled && right.0.pauses(entry.vcpu) > 0 {
            true => Entry { event: 0, own: &[], ..*entry }.of(right, out),
            false => entry.of(right, out),
        }
    }
}

wrong_entry! {
    /// A CR event is sent although the register's switch is off.
    sends_a_cr_that_is_off, CrOff, 4, |right, entry, out| with_register(right, entry, out, 5, 11)
}

wrong_entry! {
    /// An MSR event is sent although the register's switch is off.
    sends_an_msr_that_is_off, MsrOff, 4, |right, entry, out| with_register(right, entry, out, 9, 12)
}

/// An entry; where it offers an event that is passed over for its register alone, a message with this number switches that on
/// before, and off again.
fn with_register(right: &mut Plain, entry: &Entry, out: &mut [u8], event: u32, id: u8) -> Answer {
    let is_on = entry.event == event && right.0.vcpu_event(entry.vcpu, event);
    let is_passed_over = is_on && entry.of(&mut right.clone(), &mut out.to_vec()) == NOTHING;
    let Some(named) = register(event, entry.own).filter(|_| is_passed_over) else { return entry.of(right, out) };
    let switch = |enable: u8| {
        let data = [[entry.vcpu as u8, 0, 0, 0], [0; 4], [enable, 0, 0, 0], named.to_le_bytes()].concat();
        [&[id, 0, 16, 0, 0, 0, 0, 0], &data[..]].concat()
    };
    let mut room = vec![0; 4112];
    // not where there is no such register, or the message closes
    let (Answer::Handled { .. }, None) = right.clone().message(&switch(1), &mut room, &mut []) else {
        return entry.of(right, out);
    };
    right.message(&switch(1), &mut room, &mut []);
    let answer = entry.of(right, out);
    right.message(&switch(0), &mut room, &mut []);
    answer
}

wrong_entry! {
    /// CREATE_VCPU is passed over for a vCPU that is not ready.
    passes_over_a_new_vcpu, NewVcpu, 3, |right, entry, out| match entry.of(&mut right.clone(), &mut out.to_vec()) {
        Answer::Handled { .. } if entry.event == 12 && !right.0.is_ready(entry.vcpu) => NOTHING,
        _ => entry.of(right, out),
    }
}

wrong_entry! {
    /// A length that is cut to eight bits.
    cuts_a_length, LengthCut, 2, |right, entry, out| {
        Entry { own: &entry.own[..entry.own.len() % 256], ..*entry }.of(right, out)
    }
}

wrong_entry! {
    /// A number that is cut to sixteen bits.
    cuts_a_number, NumberCut, 2, |right, entry, out| Entry { event: entry.event & 0xFFFF, ..*entry }.of(right, out)
}

wrong_entry! {
    /// A page fault is not taken.
    refuses_a_page_fault, NoFaults, 2, |right, entry, out| match entry.event {
        10 => Entry { event: 1, ..*entry }.of(right, out),
        _ => entry.of(right, out),
    }
}

/// An entry; where it offers a page fault, what comes of it with this access of its page, which then stands as it did. The bytes that
/// are written are those lent.
fn with_page(right: &mut Plain, entry: &Entry, out: &mut [u8], fault: PageFault, access: u8) -> Answer {
    let stood = right.0.access(fault.view.into(), fault.page());
    let set = |right: &mut Plain, access: u8| {
        let data = guard(fault.view, fault.page(), access);
        let message = [&[13, 0, 24, 0, 0, 0, 0, 0], &data[..]].concat();
        right.message(&message, &mut [0; 4112], &mut [])
    };
    // not where the message closes, or has an error
    let (Answer::Handled { count: 16, .. }, None) = set(&mut right.clone(), access) else { return entry.of(right, out) };
    set(right, access);
    let answer = Entry { own: &fault.bytes([0; 5]), ..*entry }.of(right, out);
    set(right, stood);
    if let (Answer::Handled { count: 576, .. }, Some(own)) = (answer, out.get_mut(552..576)) {
        own.copy_from_slice(entry.own);
    }
    answer
}

/// The page fault that an entry offers with as many bytes as it has.
fn offered(entry: &Entry) -> Option<PageFault> {
    PageFault::of(entry.own).filter(|_| entry.event == 10)
}

wrong_entry! {
    /// A fault on a page at rwx is sent.
    sends_a_fault_of_a_free_page, FreePage, 4, |right, entry, out| match offered(entry) {
        Some(fault) if right.0.access(fault.view.into(), fault.page()) == 7 => with_page(right, entry, out, fault, 1),
        _ => entry.of(right, out),
    }
}

wrong_entry! {
    /// The view that the bytes name is not looked at.
    takes_every_view_for_view_0, ViewZero, 5, |right, entry, out| match offered(entry) {
        Some(fault) if right.0.access(0, fault.page()) == 7 => with_page(right, entry, out, fault, 7),
        _ => entry.of(right, out),
    }
}

wrong_entry! {
    /// The page has to forbid the access that the bytes tell.
    compares_the_access, AccessGranted, 5, |right, entry, out| match offered(entry) {
        Some(fault) if fault.access & !right.0.access(fault.view.into(), fault.page()) == 0 => with_page(right, entry, out, fault, 7),
        _ => entry.of(right, out),
    }
}

wrong_entry! {
    /// A view not below the count is refused.
    refuses_a_view_that_is_not_there, ViewRefused, 2, |right, entry, out| match (entry.of(&mut right.clone(), &mut out.to_vec()), offered(entry)) {
        (Answer::Handled { .. }, Some(fault)) if u32::from(fault.view) >= right.0.settings().views => Answer::BadState,
        _ => entry.of(right, out),
    }
}

/// A way to be wrong about the reply to a page fault: what is answered, by the fault, the reply's action and context, the right answer
/// and how much guest memory is lent.
type WrongReply = fn(&PageFault, u8, &Context, Answer, usize) -> Answer;

/// Wrong about such replies, which it knows the faults of.
struct WrongReplies(BTreeMap<u32, PageFault>, WrongReply);

impl Fault for WrongReplies {
    fn enter(&mut self, right: &mut Plain, entry: &Entry, out: &mut [u8]) -> Answer {
        let answer = entry.of(right, out);
        if let (Answer::Handled { count: 576, .. }, Some(fault)) = (answer, offered(entry)) {
            self.0.insert(entry.vcpu, fault);
        }
        answer
    }

    fn message(&mut self, right: &mut Plain, message: &[u8], out: &mut [u8], guest: &mut [u8]) -> (Answer, Option<i32>) {
        let (answer, error) = right.message(message, out, guest);
        match (message, Context::of(message.get(8..).unwrap_or_default())) {
            ([16, 0, ..], Some(context)) if matches!(answer.number(), 0 | 12) => {
                let fault = self.0.remove(&u32::from(message[8])).expect("it was sent");
                ((self.1)(&fault, message[16], &context, answer, guest.len()), error)
            }
            _ => (answer, error),
        }
    }
}

/// A fault in the replies to page faults alone.
macro_rules! wrong_reply {
    ($(#[$doc:meta])* $test:ident, $most:literal in $quota:ident,
        |$fault:ident, $action:ident, $context:ident, $answer:ident, $guest:ident| $body:expr) => {
        $(#[$doc])*
        #[test]
        fn $test() {
            let failure = found_within($quota, $most, || {
                Box::new(WrongReplies(BTreeMap::new(), |$fault, $action, $context, $answer, $guest| $body))
            });
            assert_eq!((failure.mismatch.word, failure.mismatch.id), ("message", 16));
        }
    };
}

/// The answer with other bytes for the instruction.
fn fed(answer: Answer, feed: Feed) -> Answer {
    match answer {
        Answer::Handled { signal, .. } | Answer::NoPage { signal } => Answer::Handled { count: 0, signal, feed, padding: 0 },
        _ => answer,
    }
}

/// What a reply supplies from a place on.
fn supplied(answer: Answer, from: u64, size: u32) -> Answer {
    fed(answer, Feed::Supplied { at: 40 + from as usize, length: size as usize - from as usize })
}

fn has_feed(answer: Answer) -> bool {
    !matches!(answer, Answer::Handled { feed: Feed::None, .. })
}

wrong_reply! {
    /// A gva at the range's end is taken to be in it.
    takes_a_gva_at_the_end, 6 in QUOTA, |fault, _action, context, answer, _guest| {
        let is_end = fault.gva.checked_sub(context.address) == Some(context.size.into()) && context.size > 0;
        match is_end && has_feed(answer) {
            true => supplied(answer, context.size.into(), context.size),
            false => answer,
        }
    }
}

wrong_reply! {
    /// A gva right before the range is taken to be in it.
    takes_a_gva_before_the_range, 6 in QUOTA, |fault, _action, context, answer, _guest| {
        match fault.gva.checked_add(1) == Some(context.address) && context.size > 0 && has_feed(answer) {
            true => supplied(answer, 0, context.size),
            false => answer,
        }
    }
}

wrong_reply! {
    /// The range's end is a sum that wraps.
    wraps_the_end_of_a_range, 6 in QUOTA, |fault, _action, context, answer, _guest| {
        let from = fault.gva.wrapping_sub(context.address);
        match from < context.size.into() && fault.gva < context.address && has_feed(answer) {
            true => supplied(answer, from, context.size),
            false => answer,
        }
    }
}

wrong_reply! {
    /// A gva of all ones is taken for an address.
    knows_an_unknown_gva, 6 in QUOTA, |fault, _action, context, answer, _guest| {
        let from = fault.gva.wrapping_sub(context.address);
        match fault.gva == u64::MAX && from < context.size.into() && has_feed(answer) {
            true => supplied(answer, from, context.size),
            false => answer,
        }
    }
}

wrong_reply! {
    /// The supplied data come from their start on.
    supplies_from_the_start, 6 in QUOTA, |_fault, _action, context, answer, _guest| match answer {
        Answer::Handled { feed: Feed::Supplied { .. }, .. } => supplied(answer, 0, context.size),
        _ => answer,
    }
}

wrong_reply! {
    /// The supplied data end with their room.
    supplies_all_256_bytes, 6 in QUOTA, |_fault, _action, _context, answer, _guest| match answer {
        Answer::Handled { feed: Feed::Supplied { at, .. }, .. } => fed(answer, Feed::Supplied { at, length: 8 + 288 - at }),
        _ => answer,
    }
}

wrong_reply! {
    /// The place of the supplied data is told without the header.
    counts_supplied_data_without_the_header, 6 in QUOTA, |_fault, _action, _context, answer, _guest| match answer {
        Answer::Handled { feed: Feed::Supplied { at, length }, .. } => fed(answer, Feed::Supplied { at: at - 8, length }),
        _ => answer,
    }
}

wrong_reply! {
    /// All of the page, and not from the gpa on.
    feeds_a_page_from_its_start, 6 in QUOTA, |_fault, _action, _context, answer, _guest| match answer {
        Answer::Handled { feed: Feed::Page { at, .. }, .. } => fed(answer, Feed::Page { at: at & !0xFFF, length: 4096 }),
        _ => answer,
    }
}

wrong_reply! {
    /// A page that the end of guest memory cuts is there as far as it goes.
    feeds_a_cut_page, 6 in QUOTA, |fault, _action, _context, answer, guest| match answer {
        Answer::NoPage { .. } if fault.gpa < guest as u64 => {
            fed(answer, Feed::Page { at: fault.gpa as usize, length: guest - fault.gpa as usize })
        }
        _ => answer,
    }
}

wrong_reply! {
    /// A page that is not there is no matter.
    answers_0_without_a_page, 6 in QUOTA, |_fault, _action, _context, answer, _guest| match answer {
        Answer::NoPage { .. } => fed(answer, Feed::None),
        _ => answer,
    }
}

wrong_reply! {
    /// A retry of a read needs the page.
    answers_12_to_a_retry, 6 in QUOTA, |fault, action, _context, answer, guest| match answer {
        Answer::Handled { signal, .. } if action == 1 && fault.is_read() && fault.page() >= guest as u64 >> 12 => Answer::NoPage { signal },
        _ => answer,
    }
}

wrong_reply! {
    /// A write that is continued needs the page.
    answers_12_to_a_write, 6 in QUOTA, |fault, action, _context, answer, guest| match answer {
        Answer::Handled { signal, feed: Feed::None, .. } if action == 0 && !fault.is_read() && fault.page() >= guest as u64 >> 12 => {
            Answer::NoPage { signal }
        }
        _ => answer,
    }
}

wrong_reply! {
    /// Of an access that is more than a read nothing is fed.
    feeds_reads_alone, 6 in QUOTA, |fault, _action, _context, answer, _guest| match fault.access {
        1 => answer,
        _ => fed(answer, Feed::None),
    }
}

wrong_reply! {
    /// Under answer 12 nothing is signalled.
    loses_the_resume_without_a_page, 6 in QUOTA, |_fault, _action, _context, answer, _guest| match answer {
        Answer::NoPage { .. } => Answer::NoPage { signal: Signal::None },
        _ => answer,
    }
}

wrong_reply! {
    /// The rep flag is not told.
    forgets_the_rep_flag, 6 in QUOTA, |_fault, _action, _context, answer, _guest| match answer {
        Answer::Handled { count, signal: Signal::Resume { vcpu, action, .. }, feed, padding } => {
            Answer::Handled { count, signal: Signal::Resume { vcpu, action, value: 0 }, feed, padding }
        }
        _ => answer,
    }
}

/// The message, and where it is a reply to a page fault, with a context changed.
fn with_context(message: &[u8], change: impl Fn(&mut Context)) -> Vec<u8> {
    match (message, Context::of(message.get(8..).unwrap_or_default())) {
        ([16, 0, ..], Some(mut context)) => {
            change(&mut context);
            let vcpu = u16::from_le_bytes([message[8], message[9]]);
            let data = fault_reply(vcpu, message[16], &context);
            [&message[..24], &data[16..]].concat()
        }
        _ => message.to_vec(),
    }
}

wrong_message! {
    takes_a_context_of_257_bytes, Size257, 6 in PATIENCE, |right, message, out, guest| {
        right.message(&with_context(message, |context| if context.size == 257 { context.size = 256 }), out, guest)
    }
}

wrong_message! {
    /// The size is cut to sixteen bits.
    cuts_a_context_size, SizeCut, 6 in PATIENCE, |right, message, out, guest| {
        right.message(&with_context(message, |context| context.size &= 0xFFFF), out, guest)
    }
}

wrong_message! {
    refuses_a_context_of_256_bytes, Size256, 6, |right, message, out, guest| {
        right.message(&with_context(message, |context| if context.size == 256 { context.size = 257 }), out, guest)
    }
}

wrong_message! {
    takes_a_rep_flag_of_2, RepTwo, 6 in PATIENCE, |right, message, out, guest| {
        right.message(&with_context(message, |context| if context.rep == 2 { context.rep = 1 }), out, guest)
    }
}

wrong_message! {
    takes_padding_of_a_context, ContextPadded, 6 in PATIENCE, |right, message, out, guest| {
        right.message(&with_context(message, |context| context.padding = [0; 3]), out, guest)
    }
}

wrong_entry! {
    /// An output that holds a pause event, but not every event.
    takes_552_bytes_of_output, Short552, 2, |right, entry, out| match entry.of(right, out) {
        Answer::ShortOut if out.len() >= 552 => entry.of(right, &mut [0; 576]),
        answer => answer,
    }
}

wrong_entry! {
    /// The output is tested before what is lent.
    tests_3_before_5, ThreeFirst, 2, |right, entry, out| match entry.of(right, out) {
        Answer::BadState if out.len() < 576 => Answer::ShortOut,
        answer => answer,
    }
}

wrong_entry! {
    /// The common size counts an event's own bytes.
    counts_own_bytes_in_the_common_size, CommonSize, 5, |right, entry, out| {
        let answer = entry.of(right, out);
        if let Answer::Handled { count: 553.., .. } = answer {
            out.copy_within(2..4, 8);
        }
        answer
    }
}

/// Closing leaves the tables as they were.
struct CloseKeeps(usize);

impl Fault for CloseKeeps {
    fn message(&mut self, right: &mut Plain, message: &[u8], out: &mut [u8], guest: &mut [u8]) -> (Answer, Option<i32>) {
        if !right.0.is_closed() {
            self.0 = right.image_size();
        }
        right.message(message, out, guest)
    }

    fn image_size(&self, right: &Plain) -> usize {
        match right.0.is_closed() {
            true => self.0,
            false => right.image_size(),
        }
    }
}

#[test]
fn keeps_tables_on_closing() {
    found(5, || Box::new(CloseKeeps(0)));
}

/// A fault in reading images alone.
macro_rules! wrong_load {
    ($(#[$doc:meta])* $test:ident, $fault:ident, |$settings:ident, $image:ident| $body:expr) => {
        struct $fault;

        impl Fault for $fault {
            fn load(&self, $settings: &Settings, $image: &[u8]) -> Result<Plain, Answer> {
                $body
            }
        }

        $(#[$doc])*
        #[test]
        fn $test() {
            let failure = found(1, || Box::new($fault));
            // and the image is short too
            let Call::Load { image, .. } = &failure.list[0] else { panic!("one image") };
            assert!(image.len() < 200, "{} bytes", image.len());
        }
    };
}

wrong_load! {
    takes_what_follows_the_end, TailTaken, |settings, image| {
        match Plain::load(settings, image) {
            Err(Answer::BadForm { offset }) if image[..offset].len() > 6 && image[offset - 6..].starts_with(b"EN") => {
                Plain::load(settings, &image[..offset])
            }
            result => result,
        }
    }
}

wrong_load! {
    refuses_a_cut_record_at_its_end, CutAtEnd, |settings, image| {
        match Plain::load(settings, image) {
            Err(Answer::BadForm { offset }) if image[offset..].starts_with(b"MS") && image.len() < offset + 8 => {
                Err(Answer::BadForm { offset: image.len() })
            }
            result => result,
        }
    }
}

wrong_load! {
    tests_form_of_all_before_answer_9, FormFirst, |settings, image| {
        let lenient = Settings { views: 8, events: !0, features: [1; 5], descriptors: true, breakpoints: false, execute_only: true, ..settings.clone() };
        match Plain::load(settings, image) {
            Err(Answer::Forbidden { offset }) => Plain::load(&lenient, image).and(Err(Answer::Forbidden { offset })),
            result => result,
        }
    }
}

wrong_load! {
    takes_nine_pauses, NinePauses, |settings, image| {
        let mut image = image.to_vec();
        let vcpus = image.get_mut(8..).unwrap_or_default().chunks_exact_mut(10);
        vcpus.filter(|record| record.starts_with(b"VC") && record[8] == 9).for_each(|record| record[8] = 8);
        Plain::load(settings, &image)
    }
}

wrong_load! {
    takes_pairs_twice, PairTwice, |settings, image| {
        match Plain::load(settings, image) {
            Err(Answer::BadForm { offset }) if offset >= 8 && image.get(offset..offset + 8) == Some(&image[offset - 8..offset]) => {
                Plain::load(settings, &[&image[..offset], &image[offset + 8..]].concat())
            }
            result => result,
        }
    }
}

/// Whether the image is refused for access 4 alone, at the record that begins here.
fn lacks_access_4(settings: &Settings, image: &[u8], offset: usize) -> bool {
    let nine = Some(Answer::Forbidden { offset });
    let executing = Settings { execute_only: true, ..settings.clone() };
    Plain::load(settings, image).err() == nine && Plain::load(&executing, image).err() != nine
}

wrong_load! {
    loads_access_4_that_is_not_there, FourLoaded, |settings, image| {
        match Plain::load(settings, image) {
            Err(Answer::Forbidden { .. }) => Plain::load(&Settings { execute_only: true, ..settings.clone() }, image),
            result => result,
        }
    }
}

wrong_load! {
    /// Access 4 that is not there breaks form.
    answers_8_to_access_4, EightForFour, |settings, image| {
        match Plain::load(settings, image) {
            Err(Answer::Forbidden { offset }) if lacks_access_4(settings, image, offset) => Err(Answer::BadForm { offset }),
            result => result,
        }
    }
}

wrong_load! {
    /// Access 4 is looked for before the record's zero byte.
    answers_9_before_form, NineFirst, |settings, image| {
        match Plain::load(settings, image) {
            Err(Answer::BadForm { offset }) if image[offset..].starts_with(b"PA") && image.len() >= offset + 14 => {
                let mut right = image.to_vec();
                right[offset + 5] = 0;
                let nine = lacks_access_4(settings, &right, offset);
                Err(if nine { Answer::Forbidden { offset } } else { Answer::BadForm { offset } })
            }
            result => result,
        }
    }
}

wrong_load! {
    /// Access 4 is looked for before the record's place among the others.
    answers_9_before_order, NineBeforeOrder, |settings, image| {
        match Plain::load(settings, image) {
            Err(Answer::BadForm { offset }) if image[offset..].starts_with(b"PA") && image.len() >= offset + 14 => {
                let mut right = image.to_vec();
                // the last page of the last view
                right[offset + 2] = settings.views as u8 - 1;
                right[offset + 6..offset + 14].copy_from_slice(&((1u64 << 52) - 1).to_le_bytes());
                let nine = lacks_access_4(settings, &right, offset) && image[offset + 13] == 0 && image[offset + 12] < 16;
                Err(if nine { Answer::Forbidden { offset } } else { Answer::BadForm { offset } })
            }
            result => result,
        }
    }
}

wrong_load! {
    /// Access 5 is refused as 4 is.
    loads_no_access_5, FiveForbidden, |settings, image| {
        let right = Plain::load(settings, image)?;
        match page_starts(image).into_iter().find(|start| image[start + 4] == 5) {
            Some(offset) if !settings.execute_only => Err(Answer::Forbidden { offset }),
            _ => Ok(right),
        }
    }
}

wrong_load! {
    loads_no_access_4_that_is_there, FourForbidden, |settings, image| {
        let right = Plain::load(settings, image)?;
        Plain::load(&Settings { execute_only: false, ..settings.clone() }, image).and(Ok(right))
    }
}

/// A fault in what a loaded session has.
macro_rules! wrong_loaded {
    ($(#[$doc:meta])* $test:ident, $fault:ident, $execute_only:literal) => {
        struct $fault;

        impl Fault for $fault {
            fn load(&self, settings: &Settings, image: &[u8]) -> Result<Plain, Answer> {
                let right = Plain::load(settings, image)?;
                Ok(Plain::load(&Settings { execute_only: $execute_only, ..settings.clone() }, image).unwrap_or(right))
            }
        }

        $(#[$doc])*
        #[test]
        fn $test() {
            let failure = found(2, || Box::new($fault));
            assert!(matches!(&failure.list[..], [Call::Load { .. }, Call::Message { bytes, .. }] if bytes.starts_with(&[13, 0])));
        }
    };
}

wrong_loaded! {
    /// A session that an image made has no execute-only pages.
    forgets_a_setting_when_loaded, LoadedWithout, false
}

wrong_loaded! {
    /// A session that an image made has execute-only pages.
    gains_a_setting_when_loaded, LoadedWith, true
}

/// A fault in what lookups tell alone.
macro_rules! wrong_look {
    ($(#[$doc:meta])* $test:ident, $fault:ident, $most:literal, $name:literal, |$right:ident, $lookup:ident| $body:expr) => {
        struct $fault;

        impl Fault for $fault {
            fn look(&self, $right: &Plain, $lookup: Lookup) -> Told {
                $body
            }
        }

        $(#[$doc])*
        #[test]
        fn $test() {
            let failure = found($most, || Box::new($fault));
            assert!(matches!(failure.list.last(), Some(Call::Look { lookup }) if lookup.name() == $name));
        }
    };
}

wrong_look! {
    /// A number outside the ranges reads another MSR's switch.
    takes_one_msr_for_another, MsrAlias, 4, "msr", |right, lookup| match lookup {
        Lookup::Msr { vcpu, msr } => right.look(Lookup::Msr { vcpu, msr: msr & 0xC000_1FFF }),
        _ => right.look(lookup),
    }
}

wrong_look! {
    /// Only the last MSR of all is wrong.
    misses_an_msr, MsrMissed, 4, "msr", |right, lookup| match lookup {
        Lookup::Msr { msr: 0xC000_1FFF, .. } => Told::Flag(false),
        _ => right.look(lookup),
    }
}

wrong_look! {
    takes_cr_3_for_cr_1, CrAlias, 4, "cr", |right, lookup| match lookup {
        Lookup::Cr { vcpu, cr: 1 } => right.look(Lookup::Cr { vcpu, cr: 3 }),
        _ => right.look(lookup),
    }
}

wrong_look! {
    cuts_an_event, EventCut, 4, "vm_event", |right, lookup| match lookup {
        Lookup::VmEvent { event } => right.look(Lookup::VmEvent { event: event & 0xFFFF }),
        _ => right.look(lookup),
    }
}

wrong_look! {
    cuts_a_vcpu, VcpuCut, 4, "is_ready", |right, lookup| match lookup {
        Lookup::IsReady { vcpu } => right.look(Lookup::IsReady { vcpu: vcpu & 0xFFFF }),
        _ => right.look(lookup),
    }
}

wrong_look! {
    tells_one_pause_less, PauseLess, 11, "pauses", |right, lookup| match right.look(lookup) {
        Told::Number(8) if matches!(lookup, Lookup::Pauses { .. }) => Told::Number(7),
        told => told,
    }
}

wrong_look! {
    awaits_another_event, OtherAwaited, 5, "awaited", |right, lookup| match right.look(lookup) {
        Told::Number(2) if matches!(lookup, Lookup::Awaited { .. }) => Told::Number(1),
        told => told,
    }
}

wrong_look! {
    takes_every_awaited_event_for_a_pause, AwaitsPauses, 6, "awaited", |right, lookup| match right.look(lookup) {
        Told::Number(1..) if matches!(lookup, Lookup::Awaited { .. }) => Told::Number(2),
        told => told,
    }
}

wrong_look! {
    /// CREATE_VCPU's reply is awaited by a vCPU that is not ready.
    awaits_only_when_ready, AwaitsReady, 4, "awaited", |right, lookup| match lookup {
        Lookup::Awaited { vcpu } if !right.0.is_ready(vcpu) => Told::Number(0),
        _ => right.look(lookup),
    }
}

wrong_look! {
    finds_a_page_in_any_view, AnyView, 4, "access", |right, lookup| match lookup {
        Lookup::Access { page, .. } => (0..8).map(|view| right.look(Lookup::Access { view, page })).find(|told| *told != Told::Number(7)).unwrap_or(Told::Number(7)),
        _ => right.look(lookup),
    }
}

wrong_look! {
    cuts_a_page, PageCut, 4, "access", |right, lookup| match lookup {
        Lookup::Access { view, page } => right.look(Lookup::Access { view, page: page & ((1 << 52) - 1) }),
        _ => right.look(lookup),
    }
}

wrong_look! {
    /// A bisection that never looks at the last page.
    misses_the_last_page, LastPage, 6, "access", |right, lookup| match lookup {
        Lookup::Access { view, page } if right.pages().last().is_some_and(|last| (last.0, last.1) == (view, page)) => Told::Number(7),
        _ => right.look(lookup),
    }
}

wrong_look! {
    repeats_the_last_page, LastRepeated, 4, "page_at", |right, lookup| match lookup {
        Lookup::PageAt { i } if i > 0 && i == right.pages().len() as u64 => right.look(Lookup::PageAt { i: i - 1 }),
        _ => right.look(lookup),
    }
}

wrong_look! {
    counts_pages_wrong, PageCounted, 4, "page_count", |right, lookup| match (lookup, right.look(lookup)) {
        (Lookup::PageCount, Told::Number(count @ 1..)) => Told::Number(count + 1),
        (_, told) => told,
    }
}

wrong_look! {
    /// A closed session has something on.
    stays_on, StaysOn, 3, "singlestep", |right, lookup| match lookup {
        Lookup::Singlestep { vcpu: 0 } if right.0.is_closed() => Told::Flag(true),
        _ => right.look(lookup),
    }
}

/// The list of pages alone is wrong.
struct Unsorted;

impl Fault for Unsorted {
    fn pages(&self, right: &Plain) -> Vec<(u32, u64, u8)> {
        let mut pages = right.pages();
        pages.sort_by_key(|page| page.1);
        pages
    }
}

#[test]
fn lists_pages_out_of_order() {
    choose(|| Box::new(Unsorted));
    let failure = work::<Wrong, Plain>(1, 0, QUOTA, &AtomicBool::new(false)).err().expect("the fault is found");
    assert_eq!(failure.mismatch.part, "page_at");
}

/// A fault in the calls on lists.
macro_rules! wrong_list {
    ($test:ident, $fault:ident, $word:literal, |$records:ident, $index:ident, $cr:ident| $body:expr) => {
        struct $fault;

        impl $fault {
            fn call($records: &mut [Record], $index: usize, $cr: Option<(u32, bool)>) -> Answer {
                $body
            }
        }

        impl Fault for $fault {
            fn list_ready(&self, records: &mut [Record], index: usize) -> Answer {
                $fault::call(records, index, None)
            }

            fn list_cr(&self, records: &mut [Record], index: usize, cr: u32, on: bool) -> Answer {
                $fault::call(records, index, Some((cr, on)))
            }
        }

        #[test]
        fn $test() {
            let failure = found(1, || Box::new($fault));
            assert_eq!(failure.mismatch.word, $word);
        }
    };
}

fn right_list(records: &mut [Record], index: usize, cr: Option<(u32, bool)>) -> Answer {
    match cr {
        None => Plain::list_ready(records, index),
        Some((cr, on)) => Plain::list_cr(records, index, cr, on),
    }
}

wrong_list! {
    tests_14_before_4, FourteenFirst, "list_cr", |records, index, cr| match cr {
        Some((cr, _)) if !matches!(cr, 0 | 3 | 4) => Answer::NotApplicable,
        _ => right_list(records, index, cr),
    }
}

wrong_list! {
    takes_an_index_at_the_length, AtLength, "list_ready", |records, index, cr| match cr {
        None if index == records.len() => handled(0),
        _ => right_list(records, index, cr),
    }
}

wrong_list! {
    marks_another_record, OtherRecord, "list_ready", |records, index, cr| {
        let answer = right_list(records, index, cr);
        if let (None, Some(next)) = (cr, records.get_mut(index.wrapping_add(1))) {
            next.ready |= 1 << 63;
        }
        answer
    }
}

wrong_list! {
    wants_a_ready_mark_of_1, ReadyIsOne, "list_cr", |records, index, cr| match cr {
        Some(_) if records.get(index).is_some_and(|record| record.ready > 1) => Answer::NotApplicable,
        _ => right_list(records, index, cr),
    }
}

wrong_list! {
    clears_other_bits, ClearsBits, "list_cr", |records, index, cr| {
        let answer = right_list(records, index, cr);
        if let (Some(_), Answer::Handled { .. }) = (cr, answer) {
            records[index].crs &= 7;
        }
        answer
    }
}
