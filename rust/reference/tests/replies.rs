//! Document 01, "Reply mode" and the command-error event.

mod common;

use common::*;
use reference::{Settings, Signal};

/// A command error's bytes, from document 01's "Events" and kvmi.rst's
/// "KVMI_EVENT_CMD_ERROR".
fn cmd_error(seq: u32, error: i32, msg_seq: u32, msg_id: u16) -> Vec<u8> {
    let mut bytes = hex("11003002");
    bytes.extend(seq.to_le_bytes());
    bytes.extend(hex("2002 0000 0D 000000"));
    bytes.resize(8 + 544, 0);
    bytes.extend(error.to_le_bytes());
    bytes.extend(msg_seq.to_le_bytes());
    bytes.extend(msg_id.to_le_bytes());
    bytes.extend([0; 6]);
    assert_eq!(bytes.len(), 568);
    bytes
}

/// Replies off, with the flag or without.
fn off(flags: u8) -> Bench {
    let mut bench = Bench::new(settings());
    assert_eq!(bench.send(&response(0, 1, flags)), (handled(0), vec![]));
    bench
}

fn with_seq(mut message: Vec<u8>, seq: u32) -> Vec<u8> {
    message[4..8].copy_from_slice(&seq.to_le_bytes());
    message
}

/// Each change of mode: whether this message and the next have a reply.
#[test]
fn now_and_from_the_next() {
    for (on_before, enable, now, own) in [
        (true, 1, 0, true),
        (true, 1, 1, true),
        (true, 0, 0, true),
        (true, 0, 1, false),
        (false, 1, 0, false),
        (false, 1, 1, true),
        (false, 0, 0, false),
        (false, 0, 1, false),
    ] {
        for flags in [0, 1] {
            let mut bench = if on_before { Bench::new(settings()) } else { off(1 - flags) };
            let message = with_seq(response(enable, now, flags), 77);
            let (answer, reply) = bench.send(&message);
            if own {
                assert_eq!(answer, handled(16));
                assert_eq!(reply, hex("0F0008004D000000 0000000000000000"));
            } else {
                assert_eq!(answer, handled(0));
            }
            let (_, reply) = bench.send(&with_seq(vm_event(2, 1), 9));
            match (enable, flags) {
                (1, _) => assert_eq!(reply, hex("0500080009000000 EAFFFFFF00000000")),
                // "Its flag is kept only with enable 0."
                (_, 1) => assert_eq!(reply, cmd_error(0, EINVAL, 9, 5)),
                _ => assert!(reply.is_empty()),
            }
            assert_eq!(bench.image().len(), 34);
        }
    }
}

#[test]
fn errors_in_message_15_follow_the_old_mode() {
    let bad = [
        response(2, 1, 0),
        response(0, 2, 0),
        response(0, 1, 2),
        response(0, 1, 3),
        response(0, 1, 0x80),
        response(1, 1, 2),
        msg(15, 0, &[0, 1, 0, 1, 0, 0, 0, 0]),
        msg(15, 0, &[1, 1, 1, 0, 0, 0, 0, 1]),
    ];
    // Document 02, W6: the last two are told apart by their padding.
    let padding = [0, 0, 0, 0, 0, 0, 11, 15];
    let mut on = Bench::new(settings());
    for message in &bad {
        assert_eq!(on.error(message), EINVAL);
    }
    on.ok(&vm_event(1, 1));

    let mut silent = off(0);
    for (message, padding) in bad.iter().zip(padding) {
        assert_eq!(silent.send(message), (with_padding(0, padding), vec![]));
    }

    let mut telling = off(1);
    for (seq, (message, padding)) in (0..).zip(bad.iter().zip(padding)) {
        let message = with_seq(message.clone(), 1000 + seq);
        let (answer, event) = telling.send(&message);
        assert_eq!(answer, with_padding(568, padding));
        assert_eq!(event, cmd_error(seq, EINVAL, 1000 + seq, 15));
    }
}

/// Test 5 of message 15.
#[test]
fn flag_without_event_13() {
    let lacking = Settings { events: !(1 << 13), ..settings() };
    let mut bench = Bench::new(lacking);
    assert!(bench.closes(&response(0, 0, 1)));
    assert!(bench.closes(&response(0, 1, 1)));
    // What test 6 would not pass is an error.
    assert_eq!(bench.would(&response(0, 2, 1)), EINVAL);
    assert_eq!(bench.would(&response(0, 0, 3)), EINVAL);
    assert_eq!(bench.would(&msg(15, 0, &[0, 0, 1, 1, 0, 0, 0, 0])), EINVAL);
    assert_eq!(bench.would(&msg(15, 0, &[0, 0, 1, 0, 0, 0, 0, 4])), EINVAL);
    assert_eq!(bench.would(&response(1, 1, 1)), 0);
    assert_eq!(bench.would(&response(0, 0, 0)), 0);
    // The same with replies off.
    bench.send(&response(0, 1, 0));
    assert!(bench.closes(&response(0, 0, 1)));
    assert!(!bench.closes(&response(0, 2, 1)));
    assert!(!bench.closes(&response(1, 0, 1)));
}

/// Tests 2, 3 and 4 with replies off.
#[test]
fn what_closes_with_replies_off() {
    for flags in [0, 1] {
        let bench = off(flags);
        for id in [0, 17, 0xFFFF] {
            assert!(bench.closes(&msg(id, 0, &[])));
        }
        for message in [msg(1, 0, &[]), msg(4, 0, &[]), read_physical(0, 1), read_physical(0, 0), vcpu_info(0), vcpu_info(9)] {
            assert!(bench.closes(&message));
        }
        for message in [
            check_command(4),
            check_event(4),
            vm_event(1, 1),
            write_physical(0, &[1]),
            pause(0, 0),
            vcpu_event(0, 3, 1),
            control_cr(0, 0, 1),
            control_msr(0, 0, 1),
            page_access(0, &[(0, 0)]),
            singlestep(0, 1),
            response(0, 0, 0),
        ] {
            assert!(!bench.closes(&message));
            let mut short = message.clone();
            short.truncate(15);
            short[2] = 7;
            short[3] = 0;
            assert!(bench.closes(&short));
        }
        let mut forbidding = Bench::new(Settings { commands: 1 << 15, ..settings() });
        assert_eq!(forbidding.would(&vm_event(1, 1)), EPERM);
        forbidding.send(&response(0, 1, flags));
        assert!(forbidding.closes(&vm_event(1, 1)));
        assert!(!forbidding.closes(&check_event(1)));
        assert!(!forbidding.closes(&check_command(5)));
        assert!(forbidding.closes(&msg(1, 0, &[])));
    }
}

/// The deeds are done all the same, and the signals given.
#[test]
fn deeds_with_replies_off() {
    let mut bench = off(0);
    let signal = Signal::Kick { vcpu: 1, wait: true };
    let (answer, _) = bench.send(&pause(1, 1));
    assert_eq!(answer, with_signal(0, signal));
    for message in [
        vm_event(12, 1),
        vcpu_event(1, 3, 1),
        control_cr(1, 4, 1),
        control_msr(1, 9, 1),
        singlestep(0, 1),
        page_access(0, &[(0x2000, 4)]),
        write_physical(3, &[1, 2]),
        // Errors, untold.
        pause(2, 0),
        check_event(15),
        page_access(0, &[(0x2000, 6)]),
    ] {
        assert_eq!(bench.send(&message), (handled(0), vec![]));
    }
    assert_eq!(
        bench.image(),
        hex("564D010002000010 56430000030000000000 56430100010408000100 \
             4D53010009000000 5041000004000200000000000000 454E05000000")
    );
    assert_eq!(bench.guest[..6], [0, 0, 0, 1, 2, 0]);
}

/// Each error that can be told, with one seq for each event.
#[test]
fn told_errors() {
    let mut bench = Bench::new(Settings {
        commands: !(1 << 8),
        events: !(1 << 3),
        features: [0; 5],
        descriptors: false,
        breakpoints: true,
        execute_only: false,
        ..settings()
    });
    let full: Vec<_> = (0..1024).map(|page| (page << 12, 0)).collect();
    bench.ok(&page_access(0, &full));
    for _ in 0..8 {
        bench.ok(&pause(1, 0));
    }
    bench.send(&response(0, 1, 1));
    let told = [
        (check_command(8), EPERM),
        (check_command(16), EINVAL),
        (check_event(3), EPERM),
        (vm_event(2, 0), EINVAL),
        (write_physical(4 << 12, &[0]), ENOENT),
        (write_physical(0, &[]), EINVAL),
        (pause(1, 0), EBUSY),
        (vcpu_event(0, 3, 0), EPERM),
        (vcpu_event(0, 8, 1), EOPNOTSUPP),
        (vcpu_event(0, 4, 1), EBUSY),
        (control_cr(0, 8, 1), EINVAL),
        (control_msr(0, 0x2000, 1), EINVAL),
        (page_access_as(2, 0, &[(0, 1)]), EINVAL),
        (page_access(0, &[(1 << 12, 7), (0, 4)]), EINVAL),
        (page_access(0, &[(1024 << 12, 1), (0, 7)]), ENOMEM),
        (singlestep(0, 0), EOPNOTSUPP),
        (response(3, 0, 0), EINVAL),
    ];
    for (seq, (message, error)) in (0u32..).zip(told) {
        let message = with_seq(message, !seq);
        let (answer, event) = bench.send(&message);
        assert_eq!(answer, handled(568));
        let id = u16::from(message[0]);
        assert_eq!(event, cmd_error(seq, error, !seq, id));
    }
    // The entry behind the skipped one acted.
    assert_eq!(bench.image().len(), 34 + 14 * 1023);
    // The event awaits no reply: the image was not busy, and one closes.
    for vcpu in 0..2 {
        assert!(bench.closes(&event_reply(0, vcpu, 0, 13)));
    }
    // A success takes no seq.
    assert_eq!(bench.send(&vm_event(1, 1)), (handled(0), vec![]));
    let (_, event) = bench.send(&vm_event(4, 1));
    assert_eq!(event, cmd_error(17, EINVAL, 0, 5));
}

/// Pause events are written with replies off, and share the seq.
#[test]
fn events_share_the_seq() {
    let mut bench = off(1);
    bench.send(&pause(0, 0));
    bench.send(&pause(1, 0));
    let (_, event) = bench.send(&vm_event(4, 1));
    assert_eq!(event, cmd_error(0, EINVAL, 0, 5));
    let (answer, event) = bench.enter(1, &[0xEE; 536]);
    assert_eq!(answer, handled(552));
    assert_eq!(event[..8], hex("1100200201000000"));
    let (_, event) = bench.send(&vm_event(4, 1));
    assert_eq!(event, cmd_error(2, EINVAL, 0, 5));
    let (_, event) = bench.enter(0, &[0xEE; 536]);
    assert_eq!(event[..8], hex("1100200203000000"));
    // EVENT_REPLY has no reply in either mode.
    assert_eq!(bench.send(&event_reply(1, 1, 0, 2)), (handled(0), vec![]));
    assert_eq!(bench.send(&response(1, 1, 0)).0, handled(16));
    assert_eq!(bench.send(&event_reply(3, 0, 0, 2)), (handled(0), vec![]));
}
