//! Document 01, "Events", and document 02, W1: the entry of a vCPU, the events
//! that it is offered, and the event replies. What page faults have of their
//! own is in `faults.rs`.

mod common;

use common::*;
use reference::{Action, Answer, Settings, Signal};

/// Two ready vCPUs, with so many pauses queued for vCPU 1.
fn paused(pauses: usize) -> Bench {
    let mut bench = Bench::new(settings());
    for _ in 0..pauses {
        bench.ok(&pause(1, 0));
    }
    bench
}

fn block() -> Vec<u8> {
    (0..536u32).map(|at| (at * 7 + 1) as u8).collect()
}

/// The events that an entry offers: number, own bytes, and how the event
/// begins on vCPU 1 with seq 0.
const EVENTS: [(u32, usize, &str); 10] = [
    (3, 0, "1100200200000000 2002010003000000"),
    (4, 16, "1100300200000000 2002010004000000"),
    (5, 24, "1100380200000000 2002010005000000"),
    (7, 0, "1100200200000000 2002010007000000"),
    (8, 8, "1100280200000000 2002010008000000"),
    (9, 24, "1100380200000000 2002010009000000"),
    (10, 24, "1100380200000000 200201000A000000"),
    (11, 8, "1100280200000000 200201000B000000"),
    (12, 0, "1100200200000000 200201000C000000"),
    (14, 16, "1100300200000000 200201000E000000"),
];

/// What switches an event on for vCPU 1: that of CR for CR3, that of MSR for
/// 0xC0000080, that of PF for page 5.
fn switches(event: u32, enable: u8) -> Vec<Vec<u8>> {
    match event {
        12 => vec![vm_event(12, enable)],
        5 => vec![vcpu_event(1, 5, enable), control_cr(1, 3, enable)],
        9 => vec![vcpu_event(1, 9, enable), control_msr(1, 0xC000_0080, enable)],
        10 => vec![vcpu_event(1, 10, enable), page_access(0, &[(5 << 12, if enable == 1 { 4 } else { 7 })])],
        _ => vec![vcpu_event(1, event as u16, enable)],
    }
}

/// Two ready vCPUs, with one event on for vCPU 1.
fn switched_on(event: u32) -> Bench {
    let mut bench = Bench::new(settings());
    for message in switches(event, 1) {
        bench.ok(&message);
    }
    bench
}

/// Own bytes for an event, none of them zero but in the number of the register
/// or of the page and its view. No fault is a read.
fn own(event: u32, size: usize) -> Vec<u8> {
    let mut own: Vec<u8> = (0..size).map(|at| 0xF0 - at as u8).collect();
    match event {
        5 => own[..2].copy_from_slice(&[3, 0]),
        9 => own[..4].copy_from_slice(&[0x80, 0, 0, 0xC0]),
        10 if size == 24 => own.copy_from_slice(&fault(0xF1F2_F3F4, 0x5F00, 0xFE, 0)),
        _ => {}
    }
    own
}

/// A reply to an event, as long as it has to be.
fn reply(seq: u32, action: u8, event: u32, value: u64) -> Vec<u8> {
    match event {
        5 | 9 => value_reply(seq, 1, action, event as u8, value),
        10 => fault_reply(seq, 1, action, Context { rep: value as u8 & 1, ..NO_CONTEXT }),
        _ => event_reply(seq, 1, action, event as u8),
    }
}

/// The signal of a reply that is taken.
fn signalled(event: u32, action: u8, value: u64) -> Signal {
    let value = match event {
        5 | 9 => value,
        10 => value & 1,
        _ => 0,
    };
    match (action, event) {
        (0, 2) => Signal::None,
        (0, _) => Signal::Resume { vcpu: 1, action: Action::Continue, value },
        (1, _) => Signal::Resume { vcpu: 1, action: Action::Retry, value },
        _ => Signal::Crash { vcpu: 1 },
    }
}

#[test]
fn entry_writes_the_pause_event() {
    let mut bench = paused(2);
    assert_eq!(bench.enter(0, &block()), (handled(0), vec![]));
    let (answer, event) = bench.enter(1, &block());
    assert_eq!(answer, handled(552));
    assert_eq!(event[..16], hex("1100200200000000 2002010002000000"));
    assert_eq!(event[16..], block());
    // vCPU 0 does not wait for vCPU 1.
    assert_eq!(bench.enter(0, &block()), (handled(0), vec![]));
    assert_eq!(bench.enter(1, &block()), (Answer::Waiting, vec![]));
    let mut out = vec![UNTOUCHED; 100];
    assert_eq!(bench.session.write_image(&mut out), Answer::Busy);
    assert_eq!(bench.session.write_image(&mut []), Answer::Busy);
    assert_eq!(written(Answer::Busy, out), []);
    assert_eq!(bench.session.image_size(), 34);

    assert_eq!(bench.send(&event_reply(0, 1, 0, 2)), (handled(0), vec![]));
    assert_eq!(bench.image()[8..28], hex("56430000010000000000 56430100010000000100"));
    let (answer, event) = bench.enter(1, &[0; 536]);
    assert_eq!(answer, handled(552));
    assert_eq!(event[..16], hex("1100200201000000 2002010002000000"));
    assert_eq!(event[16..], [0; 536]);
    let (answer, bytes) = bench.send(&event_reply(1, 1, 2, 2));
    let signal = Signal::Crash { vcpu: 1 };
    assert_eq!(answer, with_signal(0, signal));
    assert!(bytes.is_empty());
    assert!(!bench.session.is_closed());
    assert_eq!(bench.enter(1, &block()), (handled(0), vec![]));
    // Once taken, it is awaited no more.
    assert!(bench.closes(&event_reply(1, 1, 2, 2)));
}

/// "entry 2, 4, 5, 3, 6".
#[test]
fn entry_refusals() {
    let mut bench = paused(2);
    let mut out = [UNTOUCHED; 575];
    let session = &mut bench.session;
    assert_eq!(session.enter(2, &[], 1, &[], &mut out), Answer::BadVcpu);
    assert_eq!(session.enter(0xFFFF, &block(), 0, &[], &mut out), Answer::BadVcpu);
    assert_eq!(session.enter(1, &[0; 535], 0, &[], &mut out), Answer::BadState);
    assert_eq!(session.enter(1, &[0; 537], 0, &[], &mut out), Answer::BadState);
    assert_eq!(session.enter(0, &[], 0, &[], &mut out), Answer::BadState);
    assert_eq!(session.enter(1, &block(), 1, &[], &mut out), Answer::BadState);
    assert_eq!(session.enter(1, &block(), 0, &[0], &mut out), Answer::BadState);
    // Even where nothing would be written, or no more than 552 bytes.
    for short in [0, 1, 16, 551, 552, 553, 560, 568, 575] {
        for vcpu in [0, 1] {
            for (event, own, _) in EVENTS.into_iter().chain([(0, 0, "")]) {
                assert_eq!(session.enter(vcpu, &block(), event, &vec![1; own], &mut out[..short]), Answer::ShortOut);
            }
        }
    }
    assert_eq!(out, [UNTOUCHED; 575]);
    assert_eq!(bench.image()[18..28], hex("56430100010000000200"));

    let mut least = [0; 576];
    assert_eq!(bench.session.enter(1, &block(), 0, &[], &mut least), handled(552));
    let session = &mut bench.session;
    assert_eq!(session.enter(1, &[], 0, &[], &mut least), Answer::BadState);
    assert_eq!(session.enter(1, &block(), 2, &[], &mut least), Answer::BadState);
    assert_eq!(session.enter(1, &block(), 5, &[0; 23], &mut least), Answer::BadState);
    assert_eq!(session.enter(1, &block(), 0, &[], &mut out), Answer::ShortOut);
    // Waiting is tested before any switch.
    for (event, own, _) in EVENTS.into_iter().chain([(0, 0, "")]) {
        assert_eq!(session.enter(1, &block(), event, &vec![1; own], &mut least), Answer::Waiting);
    }
}

#[test]
fn an_unready_vcpu_enters() {
    let mut bench = Bench::unready(settings());
    assert_eq!(bench.enter(1, &block()), (handled(0), vec![]));
}

/// "pauses queued at the start plus pauses accepted equals pause events sent
/// plus pauses queued"
#[test]
fn pauses_while_a_reply_is_awaited() {
    let mut bench = paused(8);
    assert_eq!(bench.error(&pause(1, 0)), EBUSY);
    assert_eq!(bench.enter(1, &block()).0, handled(552));
    bench.ok(&pause(1, 0));
    assert_eq!(bench.error(&pause(1, 0)), EBUSY);
    for seq in 0..9 {
        if seq > 0 {
            let (answer, event) = bench.enter(1, &block());
            assert_eq!(answer, handled(552));
            assert_eq!(event[4..8], u32::to_le_bytes(seq));
        }
        assert_eq!(bench.send(&event_reply(seq, 1, 0, 2)).0, handled(0));
    }
    assert_eq!(bench.enter(1, &block()), (handled(0), vec![]));
}

#[test]
fn event_replies_that_close() {
    let mut bench = paused(3);
    for _ in 0..2 {
        assert!(bench.closes(&event_reply(0, 1, 0, 2)));
        bench.ok(&vm_event(1, 1));
    }
    // Seq 0 was answered, seq 1 is awaited.
    bench.enter(1, &block());
    bench.send(&event_reply(0, 1, 0, 2));
    bench.enter(1, &block());

    let right = event_reply(1, 1, 0, 2);
    assert!(!bench.closes(&right));
    for at in [2, 3, 4, 5, 6, 7, 10, 11, 12, 13, 14, 15] {
        for bit in 0..8 {
            let mut spoiled = right.clone();
            spoiled[8 + at] = 1 << bit;
            assert!(bench.closes(&spoiled), "padding at {at}");
        }
    }
    for seq in [0, 2, 0x100, 0x1_0001, 0x0100_0001, u32::MAX] {
        assert!(bench.closes(&event_reply(seq, 1, 0, 2)));
    }
    for vcpu in [0, 2, 15, 16, 17, 0x101, 0xFFFF] {
        assert!(bench.closes(&event_reply(1, vcpu, 0, 2)));
    }
    for byte in 0..=255 {
        let taken = byte == 0 || byte == 2;
        assert_eq!(bench.closes(&event_reply(1, 1, byte, 2)), !taken);
        assert_eq!(bench.closes(&event_reply(1, 1, 0, byte)), byte != 2);
    }
    assert!(bench.closes(&msg(16, 1, &right[8..23])));
    // Closing drops the awaited event, and the session stays closed.
    assert_eq!(bench.send(&event_reply(1, 0, 0, 2)).0, Answer::Closing);
    assert_eq!(bench.enter(1, &block()), (Answer::Closed, vec![]));
    assert_eq!(bench.session.write_image(&mut [0; 99]), Answer::Closed);
}

/// Two vCPUs await at once, each its own seq.
#[test]
fn two_vcpus_await() {
    let mut bench = paused(1);
    bench.ok(&pause(0, 0));
    bench.enter(1, &block());
    bench.enter(0, &block());
    assert!(bench.closes(&event_reply(1, 1, 0, 2)));
    assert!(bench.closes(&event_reply(0, 0, 0, 2)));
    let (answer, _) = bench.send(&event_reply(1, 0, 2, 2));
    let signal = Signal::Crash { vcpu: 0 };
    assert_eq!(answer, with_signal(0, signal));
    assert_eq!(bench.session.write_image(&mut [0; 99]), Answer::Busy);
    assert_eq!(bench.send(&event_reply(0, 1, 0, 2)).0, handled(0));
    assert_eq!(bench.image().len(), 34);
}

/// "unless refused, it is sent exactly if its switch is on": the bytes, and
/// what is then awaited.
#[test]
fn entry_writes_each_event() {
    for (event, size, start) in EVENTS {
        let mut bench = switched_on(event);
        let image = bench.image();
        let own = own(event, size);
        let (answer, bytes) = bench.offer(1, &block(), event, &own);
        assert_eq!(answer, handled(552 + size));
        assert_eq!(bytes[..16], hex(start));
        assert_eq!(bytes[16..552], block());
        assert_eq!(bytes[552..], own);
        assert_eq!(bench.session.awaited(1), Some(event as u8));
        assert_eq!(bench.session.awaited(0), None);

        // "busy and waiting read any"
        assert_eq!(bench.session.write_image(&mut [0; 99]), Answer::Busy);
        assert_eq!(bench.offer(1, &block(), event, &own), (Answer::Waiting, vec![]));
        assert_eq!(bench.enter(1, &block()), (Answer::Waiting, vec![]));
        assert_eq!(bench.enter(0, &block()), (handled(0), vec![]));

        let (answer, bytes) = bench.send(&reply(0, 0, event, 7));
        assert_eq!(answer, with_signal(0, signalled(event, 0, 7)));
        assert!(bytes.is_empty());
        assert_eq!(bench.session.awaited(1), None);
        assert_eq!(bench.image(), image);
        // Once taken, it is awaited no more.
        assert!(bench.closes(&reply(0, 0, event, 7)));
        // The next one has the next seq.
        let (_, bytes) = bench.offer(1, &block(), event, &own);
        assert_eq!(bytes[4..8], [1, 0, 0, 0]);
        assert_eq!(bytes.len(), 552 + size);
    }
}

/// All bytes of an event, written out: CR 4 from 0x20 to 0x6A0.
#[test]
fn a_whole_event() {
    let mut bench = Bench::new(settings());
    bench.ok(&vcpu_event(0, 5, 1));
    bench.ok(&control_cr(0, 4, 1));
    let own = hex("0400 000000000000 2000000000000000 A006000000000000");
    let (answer, bytes) = bench.offer(0, &[0x5A; 536], 5, &own);
    assert_eq!(answer, handled(576));
    let expected = hex(&format!(
        "1100 3802 00000000  2002 0000 05 000000  {}  0400 000000000000 2000000000000000 A006000000000000",
        "5A".repeat(536)
    ));
    assert_eq!(bytes, expected);
    let (answer, _) = bench.send(&hex("1000 1800 00000000  0000 000000000000  00 05 000000000000  A106000000000080"));
    let signal = Signal::Resume { vcpu: 0, action: Action::Continue, value: 0x8000_0000_0000_06A1 };
    assert_eq!(answer, with_signal(0, signal));
}

/// "a switched-off event is passed over and a queued pause goes instead"
#[test]
fn switched_off_events_are_passed_over() {
    for (event, size, _) in EVENTS {
        let own = own(event, size);
        // All switches but those of this event are on, and this one's on
        // another vCPU.
        let mut bench = Bench::new(Settings { vcpus: 3, ..settings() });
        for vcpu in 0..3 {
            for (other, _, _) in EVENTS {
                if other != 12 && (other, vcpu) != (event, 1) {
                    bench.ok(&vcpu_event(vcpu, other as u16, 1));
                }
            }
            for message in [control_cr(vcpu, 3, 1), control_msr(vcpu, 0xC000_0080, 1), singlestep(vcpu, 1)] {
                bench.ok(&message);
            }
        }
        bench.ok(&vm_event(1, 1));
        if event != 12 {
            bench.ok(&vm_event(12, 1));
        }
        let image = bench.image();
        assert_eq!(bench.offer(1, &block(), event, &own), (handled(0), vec![]));
        assert_eq!(bench.session.awaited(1), None);
        assert_eq!(bench.image(), image);

        // With a pause queued, that goes, with the same block and no own bytes.
        bench.ok(&pause(1, 0));
        let (answer, bytes) = bench.offer(1, &block(), event, &own);
        assert_eq!(answer, handled(552));
        assert_eq!(bytes[..16], hex("1100200200000000 2002010002000000"));
        assert_eq!(bytes[16..], block());
        assert_eq!(bench.session.awaited(1), Some(2));
        assert_eq!(bench.send(&event_reply(0, 1, 0, 2)).0, handled(0));
        assert_eq!(bench.image(), image);

        // Switched on, it goes; switched off again, it does not.
        for (enable, count) in [(1, 552 + size), (0, 0)] {
            for message in switches(event, enable) {
                bench.ok(&message);
            }
            assert_eq!(bench.offer(1, &block(), event, &own).0, handled(count));
            if count > 0 {
                bench.send(&reply(1, 0, event, 0));
            }
        }
    }
}

/// "Entry order: offered event, then pause."
#[test]
fn an_offered_event_goes_before_a_pause() {
    for (event, size, start) in EVENTS {
        let mut bench = switched_on(event);
        bench.ok(&pause(1, 0));
        bench.ok(&pause(1, 0));
        let own = own(event, size);
        let (_, bytes) = bench.offer(1, &block(), event, &own);
        assert_eq!(bytes[..16], hex(start));
        assert_eq!(bench.session.pauses(1), 2);
        bench.send(&reply(0, 0, event, 0));
        let (_, bytes) = bench.enter(1, &block());
        assert_eq!(bytes[..16], hex("1100200201000000 2002010002000000"));
        assert_eq!(bench.session.pauses(1), 1);
        bench.send(&event_reply(1, 1, 0, 2));
        let (_, bytes) = bench.offer(1, &block(), event, &own);
        assert_eq!((bytes[4], u32::from(bytes[12])), (2, event));
        assert_eq!(bench.session.pauses(1), 1);
    }
}

/// "another number, or lent event bytes of the wrong length, switched on or
/// off, is answer 5"
#[test]
fn wrong_numbers_and_lengths() {
    // Nothing is on, and everything that can be is.
    let mut bench = paused(1);
    let off = bench.clone();
    for event in [1, 12] {
        bench.ok(&vm_event(event, 1));
    }
    for event in [3, 4, 5, 7, 8, 9, 10, 11, 14] {
        bench.ok(&vcpu_event(1, event, 1));
    }
    bench.ok(&control_cr(1, 3, 1));
    bench.ok(&control_msr(1, 0xC000_0080, 1));
    let mut waiting = bench.clone();
    waiting.offer(1, &block(), 3, &[]);
    for mut bench in [off, bench, waiting] {
        let before = bench.session.awaited(1);
        let far = [0x100, 0x103, 0x1_0000, 0x1_0005, 0x8000_0000, 0x8000_0003, u32::MAX, u32::MAX - 2];
        for event in (0..=300).chain(far) {
            let size = EVENTS.iter().find(|(known, _, _)| *known == event).map(|(_, size, _)| *size);
            let size = if event == 0 { Some(0) } else { size };
            for length in (0..=40).chain([256, 256 + 8, 256 + 16, 256 + 24, 0x1_0000, 0x1_0018]) {
                if size != Some(length) {
                    assert_eq!(bench.offer(1, &block(), event, &vec![3; length]), (Answer::BadState, vec![]));
                    assert_eq!(bench.session.enter(1, &block(), event, &vec![3; length], &mut []), Answer::BadState);
                }
            }
        }
        assert_eq!(bench.session.awaited(1), before);
        assert_eq!(bench.session.pauses(1), 1);
    }
}

/// "for CR and MSR also that of the register its bytes name"
#[test]
fn the_register_that_the_bytes_name() {
    let mut bench = Bench::new(settings());
    bench.ok(&vcpu_event(1, 5, 1));
    bench.ok(&vcpu_event(1, 9, 1));
    // An event goes out, and is answered.
    let sent = |bench: &Bench, event: u32, own: &[u8]| {
        let (answer, bytes) = bench.clone().offer(1, &block(), event, own);
        if bytes.is_empty() {
            assert_eq!(answer, handled(0));
            return false;
        }
        assert_eq!(answer, handled(576));
        assert_eq!(bytes[552..], *own);
        true
    };
    for on in [0, 3, 4] {
        let mut bench = bench.clone();
        bench.ok(&control_cr(0, 0, 1));
        bench.ok(&control_cr(0, 3, 1));
        bench.ok(&control_cr(0, 4, 1));
        bench.ok(&control_cr(1, on, 1));
        for cr in [0, 1, 2, 3, 4, 5, 6, 7, 8, 0x100, 0x103, 0x104, 0x8000, 65535] {
            // Only two bytes are the number; padding and values are copied.
            let mut own = vec![0xFF; 24];
            own[..2].copy_from_slice(&u16::to_le_bytes(cr));
            assert_eq!(sent(&bench, 5, &own), u32::from(cr) == on, "CR {cr} with {on} on");
        }
        bench.ok(&vcpu_event(1, 5, 0));
        let mut own = vec![0; 24];
        own[0] = on as u8;
        assert!(!sent(&bench, 5, &own));
    }
    let msrs = [0, 0x1FFF, 0x2000, 0xBFFF_FFFF, 0xC000_0000, 0xC000_1FFF, 0xC000_2000, 0xFFFF_FFFF];
    for on in [0, 0x1FFF, 0xC000_0000, 0xC000_1FFF] {
        let mut bench = bench.clone();
        for msr in [0, 0x1FFF, 0xC000_0000, 0xC000_1FFF] {
            bench.ok(&control_msr(0, msr, 1));
        }
        bench.ok(&control_msr(1, on, 1));
        for msr in msrs.into_iter().chain([1, 0x3FFF, 0x1_0000, 0x4000_0000, 0x8000_0000, 0x8000_1FFF]) {
            let mut own = vec![0xFF; 24];
            own[..4].copy_from_slice(&u32::to_le_bytes(msr));
            assert_eq!(sent(&bench, 9, &own), msr == on, "MSR {msr:#x} with {on:#x} on");
        }
        bench.ok(&vcpu_event(1, 9, 0));
        let mut own = vec![0; 24];
        own[..4].copy_from_slice(&on.to_le_bytes());
        assert!(!sent(&bench, 9, &own));
    }
    // With no register on, none is sent.
    for number in msrs {
        let mut own = vec![0; 24];
        own[..4].copy_from_slice(&number.to_le_bytes());
        assert!(!sent(&bench, 5, &own) && !sent(&bench, 9, &own));
    }
}

/// "Retry is taken for BREAKPOINT and DESCRIPTOR only", of PF "All three actions
/// are valid", and the signals.
#[test]
fn each_action_of_each_event() {
    for (event, size, _) in EVENTS.into_iter().chain([(2, 0, "")]) {
        let mut bench = if event == 2 { paused(1) } else { switched_on(event) };
        let offered = if event == 2 { 0 } else { event };
        bench.offer(1, &block(), offered, &own(event, size));
        for action in 0..=255 {
            for value in [0, 1, u64::MAX, 0x0123_4567_89AB_CDEF] {
                let message = reply(0, action, event, value);
                let taken = matches!(action, 0 | 2) || action == 1 && matches!(event, 4 | 8 | 10);
                assert_eq!(bench.closes(&message), !taken, "action {action} of event {event}");
                if taken {
                    let signal = signalled(event, action, value);
                    let (answer, bytes) = bench.clone().send(&message);
                    assert_eq!((answer, bytes), (with_signal(0, signal), vec![]));
                }
            }
        }
    }
}

/// "Replies carry 24 data bytes for CR and MSR, the new value last, and 16
/// otherwise", but for PF 288. "a wrong reply closes"
#[test]
fn each_reply_size_of_each_event() {
    for (event, size, _) in EVENTS.into_iter().chain([(2, 0, "")]) {
        let mut bench = if event == 2 { paused(1) } else { switched_on(event) };
        let offered = if event == 2 { 0 } else { event };
        bench.offer(1, &block(), offered, &own(event, size));
        let right = match event {
            5 | 9 => 24,
            10 => 288,
            _ => 16,
        };
        for action in [0, 2] {
            for length in (0..=48).chain([256 + 16, 256 + 24, 287, 288, 289, 512 + 32]) {
                let mut data = event_reply(0, 1, action, event as u8)[8..].to_vec();
                data.resize(length, 0);
                assert_eq!(bench.closes(&msg(16, 0, &data)), length != right, "{length} bytes to event {event}");
            }
        }
        // The size is that of the awaited event, and its number has to match.
        for other in 0..=255 {
            let mut long = fault_reply(0, 1, 0, NO_CONTEXT);
            long[17] = other;
            for data in [event_reply(0, 1, 0, other), value_reply(0, 1, 0, other, 5), long] {
                let fits = u32::from(other) == event && data.len() == 8 + right;
                assert_eq!(bench.closes(&data), !fits);
            }
        }
        // Padding, seq and vCPU, with the right size.
        let message = reply(0, 0, event, 5);
        for at in [2, 3, 4, 5, 6, 7, 10, 11, 12, 13, 14, 15] {
            let mut spoiled = message.clone();
            spoiled[8 + at] = 1;
            assert!(bench.closes(&spoiled), "padding at {at}");
        }
        for (at, byte) in [(4, 1), (7, 0x80), (8, 0), (8, 2), (9, 1)] {
            let mut spoiled = message.clone();
            spoiled[at] = byte;
            assert!(bench.closes(&spoiled));
        }
        assert!(!bench.closes(&message));
    }
}

/// Only the awaited record is read: switches may change meanwhile.
#[test]
fn switched_off_while_awaited() {
    for (event, size, _) in EVENTS {
        let mut bench = switched_on(event);
        bench.offer(1, &block(), event, &own(event, size));
        for message in switches(event, 0) {
            bench.ok(&message);
        }
        assert_eq!(bench.session.awaited(1), Some(event as u8));
        assert_eq!(bench.send(&reply(0, 0, event, 3)).0, with_signal(0, signalled(event, 0, 3)));
        assert_eq!(bench.offer(1, &block(), event, &own(event, size)), (handled(0), vec![]));
    }
}

/// A new vCPU is one that is not ready.
#[test]
fn create_vcpu_of_an_unready_vcpu() {
    let mut bench = Bench::unready(settings());
    bench.ok(&vm_event(12, 1));
    let image = bench.image();
    let (answer, bytes) = bench.offer(1, &block(), 12, &[]);
    assert_eq!(answer, handled(552));
    assert_eq!(bytes[..16], hex("1100200200000000 200201000C000000"));
    assert!(!bench.session.is_ready(1));
    assert_eq!(bench.session.awaited(1), Some(12));
    assert_eq!(bench.session.write_image(&mut [0; 99]), Answer::Busy);
    assert_eq!(bench.enter(1, &block()), (Answer::Waiting, vec![]));
    let signal = Signal::Resume { vcpu: 1, action: Action::Continue, value: 0 };
    assert_eq!(bench.send(&event_reply(0, 1, 0, 12)).0, with_signal(0, signal));
    assert_eq!(bench.image(), image);
    // The others have no switch on.
    for (event, size, _) in EVENTS {
        let sent = event == 12;
        assert_eq!(bench.clone().offer(1, &block(), event, &own(event, size)).0, handled(if sent { 552 } else { 0 }));
    }
    // A ready mark in between changes nothing about the reply.
    bench.offer(1, &block(), 12, &[]);
    assert_eq!(bench.session.ready(1), handled(0));
    let signal = Signal::Crash { vcpu: 1 };
    assert_eq!(bench.send(&event_reply(1, 1, 2, 12)).0, with_signal(0, signal));
}

/// SINGLESTEP has the switch of message 10 alone, and the vCPU's own state is
/// another thing.
#[test]
fn singlestep_events_need_their_switch_alone() {
    let mut bench = Bench::new(settings());
    bench.ok(&singlestep(1, 1));
    assert_eq!(bench.offer(1, &block(), 11, &[1; 8]), (handled(0), vec![]));
    bench.ok(&singlestep(1, 0));
    bench.ok(&vcpu_event(1, 11, 1));
    assert_eq!(bench.offer(1, &block(), 11, &[1; 8]).0, handled(560));
}

/// With replies off events go out all the same; they share the seq with the
/// command errors, and their replies are taken.
#[test]
fn events_with_replies_off() {
    let mut bench = switched_on(9);
    bench.ok(&pause(1, 0));
    bench.send(&response(0, 1, 1));
    let (_, bytes) = bench.send(&vm_event(4, 1));
    assert_eq!((bytes.len(), &bytes[4..8]), (568, &[0, 0, 0, 0][..]));
    let (answer, bytes) = bench.offer(1, &block(), 9, &own(9, 24));
    assert_eq!((answer, &bytes[4..8]), (handled(576), &[1, 0, 0, 0][..]));
    let (_, bytes) = bench.send(&vm_event(4, 1));
    assert_eq!(bytes[4..8], [2, 0, 0, 0]);
    let (answer, bytes) = bench.send(&value_reply(1, 1, 0, 9, 0xFEED));
    let signal = Signal::Resume { vcpu: 1, action: Action::Continue, value: 0xFEED };
    assert_eq!((answer, bytes), (with_signal(0, signal), vec![]));
    let (_, bytes) = bench.enter(1, &block());
    assert_eq!(bytes[4..8], [3, 0, 0, 0]);
}

/// Two vCPUs await different events; closing drops both without a signal.
#[test]
fn two_vcpus_await_different_events() {
    let mut bench = switched_on(5);
    bench.ok(&pause(0, 0));
    bench.offer(1, &block(), 5, &own(5, 24));
    bench.enter(0, &block());
    assert_eq!([0, 1].map(|vcpu| bench.session.awaited(vcpu)), [Some(2), Some(5)]);
    // Each takes its own reply alone.
    assert!(bench.closes(&event_reply(0, 1, 0, 2)));
    assert!(bench.closes(&event_reply(1, 1, 0, 2)));
    assert!(bench.closes(&value_reply(1, 1, 0, 5, 0)));
    assert!(bench.closes(&value_reply(1, 0, 0, 5, 0)));
    assert!(!bench.closes(&value_reply(0, 1, 0, 5, 0)));
    assert!(!bench.closes(&event_reply(1, 0, 0, 2)));
    assert_eq!(bench.send(&[]), (Answer::Closing, vec![]));
    assert_eq!([0, 1].map(|vcpu| bench.session.awaited(vcpu)), [None, None]);
    assert_eq!(bench.offer(1, &block(), 5, &own(5, 24)), (Answer::Closed, vec![]));
    assert_eq!(bench.offer(1, &block(), 1, &[]), (Answer::Closed, vec![]));
}
