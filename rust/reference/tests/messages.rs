//! Document 01, "What is tested first", message by message.

mod common;

use common::*;
use reference::{Answer, Session, Settings, Signal};

/// A message of each id that is handled without error by a bench whose vCPUs
/// are ready, and the places of its padding bytes. kvmi.rst gives the layouts.
fn good() -> Vec<(Vec<u8>, Vec<usize>)> {
    vec![
        (msg(1, 0, &[]), vec![]),
        (check_command(4), vec![2, 3, 4, 5, 6, 7]),
        (check_event(14), vec![2, 3, 4, 5, 6, 7]),
        (msg(4, 0, &[]), vec![]),
        (vm_event(12, 1), vec![3, 4, 5, 6, 7]),
        (read_physical(0x3FFF, 1), vec![]),
        (write_physical(0x1000, &[3; 4096]), vec![]),
        (vcpu_info(1), vec![2, 3, 4, 5, 6, 7]),
        (pause(1, 1), vec![2, 3, 4, 5, 6, 7, 9, 10, 11, 12, 13, 14, 15]),
        (vcpu_event(1, 14, 1), vec![2, 3, 4, 5, 6, 7, 11, 12, 13, 14, 15]),
        (control_cr(1, 3, 1), vec![2, 3, 4, 5, 6, 7, 9, 10, 11]),
        (control_msr(1, 0xC000_0080, 1), vec![2, 3, 4, 5, 6, 7, 9, 10, 11]),
        (page_access(0, &[(0, 1), (0x1000, 5)]), vec![4, 5, 6, 7, 17, 18, 19, 20, 21, 22, 23, 33, 34, 35, 36, 37, 38, 39]),
        (singlestep(1, 1), vec![2, 3, 4, 5, 6, 7, 9, 10, 11, 12, 13, 14, 15]),
        (response(1, 1, 1), vec![3, 4, 5, 6, 7]),
    ]
}

#[test]
fn each_message_is_taken_and_its_padding_tested() {
    let bench = Bench::new(settings());
    for (message, padding) in good() {
        assert_eq!(bench.would(&message), 0, "{message:?}");
        for at in padding {
            for bit in 0..8 {
                let mut spoiled = message.clone();
                spoiled[8 + at] |= 1 << bit;
                assert_ne!(spoiled, message);
                let mut bench = bench.clone();
                let (image, guest) = (bench.image(), bench.guest.clone());
                assert_eq!(bench.error(&spoiled), EINVAL, "{message:?} at {at}");
                assert_eq!(bench.image(), image);
                assert!(bench.guest == guest);
            }
        }
    }
}

/// Test 1 and test 4.
#[test]
fn sizes_that_close() {
    let bench = Bench::new(settings());
    for length in 0..8 {
        assert!(bench.closes(&msg(1, 7, &[])[..length]));
    }
    for (message, _) in good() {
        // One byte too many or too few without a word of it in the header.
        let mut long = message.clone();
        long.push(0);
        assert!(bench.closes(&long));
        let mut short = message.clone();
        short.pop();
        assert!(bench.closes(&short));
        // With the header agreeing, the table decides.
        let id = u16::from_le_bytes([message[0], message[1]]);
        for length in 0..=64 {
            let mut data = message[8..].to_vec();
            if length == data.len() {
                continue;
            }
            data.resize(length, 0);
            let resized = msg(id, 0, &data);
            if id == 13 && length >= 8 {
                assert_eq!(bench.would(&resized), EINVAL, "length {length}");
            } else {
                assert!(bench.closes(&resized), "id {id} length {length}");
            }
        }
    }
    // Message 16 has 16 bytes of data, and no less than it.
    for length in 0..=40 {
        assert!(bench.closes(&msg(16, 0, &vec![0; length])));
    }
    // More bytes than a size can tell of.
    let mut huge = vec![0; 8 + 65_536];
    huge[0] = 13;
    assert!(bench.closes(&huge));
    huge.push(0);
    huge[2] = 1;
    assert!(bench.closes(&huge));
}

/// The largest data: 65,535 bytes.
#[test]
fn largest_messages() {
    let bench = Bench::new(settings());
    assert_eq!(bench.would(&msg(0, 1, &[0; 65_535])), ENOSYS);
    assert!(bench.closes(&msg(2, 1, &[0; 65_535])));
    assert_eq!(bench.would(&write_physical_as(0, 65_519, &[1; 65_519])), EINVAL);
    assert!(bench.closes(&write_physical_as(0, 65_518, &[1; 65_519])));
    // 8 + 16 × 4,095 is 65,528.
    let entries = vec![(0, 1); 4095];
    assert_eq!(bench.would(&page_access(0, &entries)), 0);
    let mut data = page_access(0, &entries)[8..].to_vec();
    data.resize(65_535, 0);
    assert_eq!(bench.would(&msg(13, 0, &data)), EINVAL);
}

/// Test 2.
#[test]
fn unknown_and_forbidden_ids() {
    let bench = Bench::new(settings());
    for id in [0, 17, 18, 31, 32, 33, 48, 0x100, 0x101, 0x8001, 0xFFFF] {
        let mut bench = bench.clone();
        let (answer, reply) = bench.send(&msg(id, 0xAABBCCDD, &[1, 2, 3]));
        assert_eq!(answer, handled(16));
        assert_eq!(reply[..2], id.to_le_bytes());
        assert_eq!(reply[2..], hex("0800DDCCBBAA 18FCFFFF00000000"));
    }
    // The bits of ids that are not known, and of those always allowed, say
    // nothing.
    let mut bench = Bench::new(Settings { commands: !0xFFF0, ..settings() });
    assert_eq!(bench.error(&msg(0, 0, &[])), ENOSYS);
    assert_eq!(bench.error(&msg(17, 0, &[])), ENOSYS);
    for id in 4..=15 {
        // The size is not tested before.
        assert_eq!(bench.error(&msg(id, 0, &[1, 2, 3])), EPERM);
        assert_eq!(bench.error(&check_command(id)), EPERM);
    }
    let mut bench = Bench::new(Settings { commands: 0, ..settings() });
    assert_eq!(bench.error(&msg(1, 0, &[])), 0);
    assert_eq!(bench.error(&check_event(1)), 0);
    for id in 1..=3 {
        assert_eq!(bench.error(&check_command(id)), 0);
    }
    assert!(bench.closes(&event_reply(0, 0, 0, 2)));
    // One bit allows one command.
    for allowed in 4..=15 {
        let bench = Bench::new(Settings { commands: 1 << allowed, ..settings() });
        for (message, _) in good() {
            let id = u16::from_le_bytes([message[0], message[1]]);
            let error = if id < 4 || id == allowed { 0 } else { EPERM };
            let expected = if id == 2 && allowed != 4 { EPERM } else { error };
            assert_eq!(bench.would(&message), expected, "{id} of {allowed}");
        }
    }
}

#[test]
fn message_1_and_4_and_8() {
    let mut bench = Bench::new(Settings { vcpus: 16, tsc: 0x0102030405060708, features: [0, 2, 0xFF, 0, 9], ..settings() });
    let (answer, reply) = bench.send(&msg(1, u32::MAX, &[]));
    assert_eq!(answer, handled(32));
    assert_eq!(reply, hex("01001800FFFFFFFF 0000000000000000 0100000000000000 0002FF0009000000"));
    let (answer, reply) = bench.send(&msg(4, 1, &[]));
    assert_eq!(answer, handled(32));
    assert_eq!(reply, hex("0400180001000000 0000000000000000 1000000000000000 0000000000000000"));
    let (answer, reply) = bench.send(&vcpu_info(15));
    assert_eq!(answer, handled(24));
    assert_eq!(reply, hex("0800100000000000 0000000000000000 0807060504030201"));
    assert_eq!(bench.error(&vcpu_info(16)), EINVAL);
    assert_eq!(bench.error(&vcpu_info(0x100)), EINVAL);
}

#[test]
fn message_2_and_3() {
    let bench = Bench::new(settings());
    for id in 1..=15 {
        assert_eq!(bench.would(&check_command(id)), 0);
    }
    for id in [0, 16, 17, 0x101, 0xFFFF] {
        assert_eq!(bench.would(&check_command(id)), EINVAL);
    }
    for event in 1..=14 {
        assert_eq!(bench.would(&check_event(event)), 0);
        let bench = Bench::new(Settings { events: !(1 << event), ..settings() });
        for other in 1..=14 {
            let expected = if other == event { EPERM } else { 0 };
            assert_eq!(bench.would(&check_event(other)), expected);
        }
    }
    for event in [0, 15, 16, 17, 18, 33, 0x102, 0xFFFF] {
        assert_eq!(bench.would(&check_event(event)), EINVAL);
    }
    // -22 comes before -1.
    let bench = Bench::new(Settings { commands: 0, events: 0, ..settings() });
    let mut message = check_event(3);
    message[15] = 1;
    assert_eq!(bench.would(&message), EINVAL);
    assert_eq!(bench.would(&check_event(3)), EPERM);
    assert_eq!(bench.would(&check_command(16)), EINVAL);
}

#[test]
fn message_5() {
    let mut bench = Bench::unready(settings());
    for event in 0..=20 {
        let expected = if event == 1 || event == 12 { 0 } else { EINVAL };
        assert_eq!(bench.would(&vm_event(event, 1)), expected);
        assert_eq!(bench.would(&vm_event(event, 0)), expected);
    }
    assert_eq!(bench.error(&vm_event(0x101, 1)), EINVAL);
    assert_eq!(bench.error(&vm_event(1, 2)), EINVAL);
    assert_eq!(bench.error(&vm_event(1, 0xFF)), EINVAL);
    let bits = |bench: &Bench| bench.image()[6..8].to_vec();
    assert_eq!(bits(&bench), [0, 0]);
    bench.ok(&vm_event(12, 1));
    assert_eq!(bits(&bench), [0, 0x10]);
    bench.ok(&vm_event(1, 1));
    bench.ok(&vm_event(1, 1));
    assert_eq!(bits(&bench), [2, 0x10]);
    bench.ok(&vm_event(12, 0));
    bench.ok(&vm_event(12, 0));
    assert_eq!(bits(&bench), [2, 0]);
    // "messages 3, 5, 10, event not allowed": to disable it too.
    let bench = Bench::unready(Settings { events: !2, ..settings() });
    assert_eq!(bench.would(&vm_event(1, 1)), EPERM);
    assert_eq!(bench.would(&vm_event(1, 0)), EPERM);
    assert_eq!(bench.would(&vm_event(1, 2)), EINVAL);
    assert_eq!(bench.would(&vm_event(12, 0)), 0);
}

#[test]
fn message_6_and_7() {
    let mut bench = Bench::new(settings());
    // Guest memory that ends inside its third page.
    bench.guest = (0..3 * 4096 - 1).map(|at| at as u8 ^ 0x5A).collect();
    let (answer, reply) = bench.send(&read_physical(4096, 4096));
    assert_eq!(answer, handled(4112));
    assert_eq!(reply[..16], hex("0600081000000000 0000000000000000"));
    assert_eq!(reply[16..], bench.guest[4096..8192]);
    let (answer, reply) = bench.send(&read_physical(4097, 3));
    assert_eq!(answer, handled(19));
    assert_eq!(reply, [&hex("06000B0000000000 0000000000000000")[..], &bench.guest[4097..4100]].concat());
    for (gpa, size, expected) in [
        (0, 0, EINVAL),
        (0, 4096, 0),
        (0, 4097, EINVAL),
        (1, 4095, 0),
        (1, 4096, EINVAL),
        (8191, 1, 0),
        (8191, 2, EINVAL),
        (8192, 1, ENOENT),
        (8192, 0, EINVAL),
        (12_286, 1, ENOENT),
        (12_288, 1, ENOENT),
        (u64::MAX, 1, ENOENT),
        (u64::MAX, 2, EINVAL),
        (u64::MAX, 0, EINVAL),
        (u64::MAX - 4095, 4096, ENOENT),
        (u64::MAX - 4095, 4097, EINVAL),
        // Sums that would wrap.
        (1, u64::MAX, EINVAL),
        (0, u64::MAX, EINVAL),
        (4095, u64::MAX, EINVAL),
        (4095, u64::MAX - 4094, EINVAL),
        (u64::MAX, u64::MAX, EINVAL),
        // The low half of the address alone would be inside.
        (1 << 32, 1, ENOENT),
        (0, 1 << 32 | 1, EINVAL),
    ] {
        assert_eq!(bench.would(&read_physical(gpa, size)), expected);
        if size <= 4097 {
            let mut copy = bench.clone();
            let bytes: Vec<u8> = (0..size).map(|at| at as u8 ^ 0xC3).collect();
            assert_eq!(copy.error(&write_physical(gpa, &bytes)), expected);
            let mut guest = bench.guest.clone();
            if expected == 0 {
                guest[gpa as usize..][..size as usize].copy_from_slice(&bytes);
            }
            assert!(copy.guest == guest);
        }
        // A size field unlike the bytes is test 4's.
        if size != 0 {
            assert!(bench.closes(&write_physical_as(gpa, size, &[])));
        }
    }
    assert!(bench.closes(&write_physical_as(0, 4, &[1, 2, 3])));
    assert!(bench.closes(&write_physical_as(0, 2, &[1, 2, 3])));
    // A size field that 16 would wrap to the size.
    assert!(bench.closes(&msg(7, 0, &[[0xFF; 8], [0xF8, 255, 255, 255, 255, 255, 255, 255]].concat())));
    assert!(bench.closes(&write_physical_as(0, (1 << 32) + 3, &[1, 2, 3])));

    for length in [0, 1, 4095] {
        bench.guest = vec![0; length];
        assert_eq!(bench.error(&read_physical(0, 1)), ENOENT);
        assert_eq!(bench.error(&write_physical(0, &[1])), ENOENT);
    }
}

/// "-22" before "-11", for each message that names a vCPU; an unready vCPU has
/// no other error before it.
#[test]
fn unready_vcpus() {
    let closed_off = Settings { events: 1 << 2, features: [0; 5], descriptors: false, breakpoints: true, ..settings() };
    for settings in [settings(), closed_off] {
        let mut bench = Bench::unready(settings);
        bench.session.ready(0);
        let messages: [(Vec<u8>, Vec<u8>); 6] = [
            (vcpu_info(1), vcpu_info(2)),
            (pause(1, 0), pause(1, 2)),
            (vcpu_event(1, 8, 1), vcpu_event(1, 12, 1)),
            (control_cr(1, 4, 1), control_cr(1, 2, 1)),
            (control_msr(1, 0, 1), control_msr(1, 0xC000_2000, 1)),
            (singlestep(1, 1), singlestep(1, 2)),
        ];
        let before = bench.image();
        for (unready, invalid) in messages {
            assert_eq!(bench.error(&unready), EAGAIN);
            assert_eq!(bench.error(&invalid), EINVAL);
            let mut past = unready.clone();
            past[8] = 2;
            assert_eq!(bench.error(&past), EINVAL);
            past[8] = 0;
            past[9] = 1;
            assert_eq!(bench.error(&past), EINVAL);
        }
        assert_eq!(bench.image(), before);
    }
}

#[test]
fn message_9() {
    let mut bench = Bench::new(settings());
    for wait in 2..=255 {
        assert_eq!(bench.would(&pause(0, wait)), EINVAL);
    }
    for (vcpu, wait) in [(0, false), (1, true), (1, false)] {
        let (answer, _) = bench.send(&pause(vcpu, u8::from(wait)));
        let signal = Signal::Kick { vcpu, wait };
        assert_eq!(answer, with_signal(16, signal));
    }
    assert_eq!(bench.image()[8..28], hex("56430000010000000100 56430100010000000200"));
    // Test 5: event 2 not allowed closes before any error, and after test 4's
    // size.
    let bench = Bench::unready(Settings { events: !(1 << 2), ..settings() });
    assert!(bench.closes(&pause(0, 0)));
    assert!(bench.closes(&pause(9, 0)));
    assert!(bench.closes(&pause(0, 7)));
    assert!(bench.closes(&msg(9, 0, &[0; 15])));
    // Test 2 is before.
    let bench = Bench::unready(Settings { events: 0, commands: 0, ..settings() });
    assert_eq!(bench.would(&pause(0, 0)), EPERM);
}

#[test]
fn message_10() {
    let taken = [3, 4, 5, 7, 8, 9, 10, 11, 14];
    let mut bench = Bench::new(settings());
    for event in 0..=33 {
        let expected = if taken.contains(&event) { 0 } else { EINVAL };
        assert_eq!(bench.would(&vcpu_event(0, event, 1)), expected);
        assert_eq!(bench.would(&vcpu_event(0, event, 0)), expected);
    }
    assert_eq!(bench.would(&vcpu_event(0, 0x103, 0)), EINVAL);
    assert_eq!(bench.would(&vcpu_event(0, 3, 2)), EINVAL);
    let mut bits = 0u16;
    for event in taken {
        bench.ok(&vcpu_event(1, event, 1));
        bits |= 1 << event;
        let image = bench.image();
        assert_eq!(image[8..18], hex("56430000010000000000"));
        assert_eq!(image[24..26], bits.to_le_bytes());
    }
    for event in taken {
        bench.ok(&vcpu_event(1, event, 0));
        bits &= !(1 << event);
        assert_eq!(bench.image()[24..26], bits.to_le_bytes());
    }

    for event in taken {
        let bench = Bench::new(Settings { events: !(1 << event), ..settings() });
        assert_eq!(bench.would(&vcpu_event(0, event, 0)), EPERM);
        assert_eq!(bench.would(&vcpu_event(0, event, 1)), EPERM);
        assert_eq!(bench.would(&vcpu_event(0, event, 2)), EINVAL);
    }

    // "-95 [...] enabling event 8 where it can't be caught", "-16 enabling
    // event 4 while the host has it": disabling is no error, and -1 is before.
    let lacking = Settings { descriptors: false, breakpoints: true, features: [0; 5], ..settings() };
    let bench = Bench::new(lacking.clone());
    for event in taken {
        let expected = match event {
            8 => EOPNOTSUPP,
            4 => EBUSY,
            _ => 0,
        };
        assert_eq!(bench.would(&vcpu_event(0, event, 1)), expected);
        assert_eq!(bench.would(&vcpu_event(0, event, 0)), 0);
    }
    let bench = Bench::new(Settings { events: 0, ..lacking });
    assert_eq!(bench.would(&vcpu_event(0, 8, 1)), EPERM);
    assert_eq!(bench.would(&vcpu_event(0, 4, 1)), EPERM);
}

#[test]
fn message_11() {
    let mut bench = Bench::new(settings());
    for cr in [1, 2, 5, 6, 7, 8, 0x100, 0x1_0000, 0x0300_0000, u32::MAX] {
        assert_eq!(bench.error(&control_cr(0, cr, 1)), EINVAL);
    }
    assert_eq!(bench.error(&control_cr(0, 0, 2)), EINVAL);
    for (cr, enable, bits) in [(0, 1, 1), (3, 1, 3), (4, 1, 7), (3, 1, 7), (3, 0, 5), (3, 0, 5), (0, 0, 4), (4, 0, 0)] {
        bench.ok(&control_cr(1, cr, enable));
        let image = bench.image();
        assert_eq!(image[8..18], hex("56430000010000000000"));
        assert_eq!(image[18..28], [0x56, 0x43, 1, 0, 1, bits, 0, 0, 0, 0]);
    }
}

#[test]
fn message_12() {
    let mut bench = Bench::new(settings());
    for msr in [0x2000, 0xBFFF_FFFF, 0xC000_2000, u32::MAX, 0x1_0000, 0x8000_0000] {
        assert_eq!(bench.error(&control_msr(0, msr, 1)), EINVAL);
        assert_eq!(bench.error(&control_msr(0, msr, 0)), EINVAL);
    }
    assert_eq!(bench.error(&control_msr(0, 1, 2)), EINVAL);
    let empty = bench.image();
    // Off when it was never on.
    bench.ok(&control_msr(1, 0xC000_0000, 0));
    assert_eq!(bench.image(), empty);
    for msr in [0xC000_1FFF, 0, 0xC000_0000, 0x1FFF, 63, 64, 0] {
        bench.ok(&control_msr(1, msr, 1));
    }
    bench.ok(&control_msr(0, 0xC000_1FFF, 1));
    let records = "4D530000FF1F00C0 4D53010000000000 4D5301003F000000 4D53010040000000 \
                   4D530100FF1F0000 4D530100000000C0 4D530100FF1F00C0 454E0A000000";
    assert_eq!(bench.image()[28..], hex(records));
    bench.ok(&control_msr(1, 0x1FFF, 0));
    bench.ok(&control_msr(1, 0xC000_1FFF, 0));
    bench.ok(&control_msr(1, 0x1FFE, 0));
    let records = "4D530000FF1F00C0 4D53010000000000 4D5301003F000000 4D53010040000000 \
                   4D530100000000C0 454E08000000";
    assert_eq!(bench.image()[28..], hex(records));
    for msr in [0, 63, 64, 0xC000_0000] {
        bench.ok(&control_msr(1, msr, 0));
    }
    bench.ok(&control_msr(0, 0xC000_1FFF, 0));
    assert_eq!(bench.image(), empty);
}

#[test]
fn message_13_errors_change_nothing() {
    let mut bench = Bench::new(Settings { views: 3, ..settings() });
    bench.ok(&page_access(2, &[(0x7000, 4)]));
    let before = bench.image();
    for access in 0..=255 {
        let expected = match access {
            0 | 1 | 3 | 4 | 5 | 7 => 0,
            _ => EINVAL,
        };
        let message = page_access(1, &[(0, 1), (0x1000, 0), (0x2000, access)]);
        assert_eq!(bench.would(&message), expected, "access {access}");
        if expected != 0 {
            assert_eq!(bench.error(&message), expected);
            assert_eq!(bench.image(), before);
        }
    }
    for (count, entries) in [(0, 1), (1, 0), (2, 1), (1, 2), (0xFFFF, 1), (0x1001, 1)] {
        let message = page_access_as(count, 0, &vec![(0, 1); entries]);
        assert_eq!(bench.error(&message), EINVAL);
    }
    for view in [3, 7, 8, 0x100, 0xFFFF] {
        assert_eq!(bench.error(&page_access(view, &[(0, 1)])), EINVAL);
        assert_eq!(bench.error(&page_access(view, &[])), EINVAL);
    }
    assert_eq!(bench.error(&page_access(0, &[])), 0);
    // Count and size agree but for a padded tail.
    let mut data = page_access(0, &[(0, 1)])[8..].to_vec();
    for _ in 0..16 {
        data.push(0);
        assert_eq!(bench.error(&msg(13, 0, &data)), EINVAL);
    }
    assert_eq!(bench.image(), before);
}

/// "access 4 without the flag is -22 in message 13": that value alone, in any
/// entry, and none acts.
#[test]
fn message_13_without_execute_only_pages() {
    let with_the_flag = Settings { views: 3, ..settings() };
    let without = Settings { execute_only: false, ..with_the_flag.clone() };
    let mut bench = Bench::new(without.clone());
    let (page, other) = (0x5000, 0x6000);
    bench.ok(&page_access(1, &[(page, 5), (other, 3)]));
    let before = bench.image();
    for access in 0..=255 {
        let expected = match access {
            0 | 1 | 3 | 5 | 7 => 0,
            _ => EINVAL,
        };
        for entries in [
            vec![(page, access)],
            vec![(0, access)],
            vec![(page, access), (other, 0)],
            vec![(page, 7), (other, access)],
            vec![(page, 7), (0, access), (other, 1)],
            vec![(page, access), (page, access)],
            // Another entry of the page behind it.
            vec![(page, access), (page, 7)],
        ] {
            let message = page_access(1, &entries);
            assert_eq!(bench.would(&message), expected, "{entries:?}");
            if expected != 0 {
                assert_eq!(bench.error(&message), expected);
                assert_eq!(bench.image(), before);
            }
            let mut flagged = Bench::new(with_the_flag.clone());
            assert_eq!(flagged.error(&message), if access == 4 { 0 } else { expected });
        }
    }
    // Beside other causes of -22, with the flag and without; and before -12.
    let spoiled = |at: usize| {
        let mut message = page_access(0, &[(page, 4), (other, 1)]);
        message[8 + at] = 1;
        message
    };
    let beside = [
        page_access(3, &[(page, 4)]),
        page_access(0, &[(page, 4), (other, 2)]),
        page_access(0, &[(page, 6), (other, 4)]),
        page_access_as(1, 0, &[(other, 1), (page, 4)]),
        page_access_as(2, 0, &[(page, 4)]),
        spoiled(4),
        spoiled(17),
        spoiled(39),
    ];
    for message in beside {
        assert_eq!(bench.error(&message), EINVAL);
        assert_eq!(Bench::new(with_the_flag.clone()).would(&message), EINVAL);
    }
    assert_eq!(bench.image(), before);
    let full: Vec<_> = (0..1024).map(|number| (number << 12, 1)).collect();
    for (settings, expected) in [(with_the_flag.clone(), ENOMEM), (without.clone(), EINVAL)] {
        let mut bench = Bench::new(settings);
        bench.ok(&page_access(0, &full));
        let before = bench.image();
        let message = page_access(0, &[(0, 0), (1024 << 12, 1), (1 << 12, 4)]);
        assert_eq!(bench.error(&message), expected);
        assert_eq!(bench.image() == before, expected == EINVAL);
        assert_eq!(bench.would(&page_access(0, &[(1024 << 12, 4)])), expected);
        assert_eq!(bench.would(&page_access(0, &[(1024 << 12, 5)])), ENOMEM);
    }
    // Tests 2 and 4 come before.
    let bench = Bench::new(Settings { commands: !(1 << 13), ..without });
    assert_eq!(bench.would(&page_access(0, &[(page, 4)])), EPERM);
}

#[test]
fn message_13_entries() {
    let mut bench = Bench::new(Settings { views: 8, ..settings() });
    // Pages need not exist in guest memory; numbers round down; the last entry
    // for a page stands.
    bench.ok(&page_access(7, &[(u64::MAX, 0), (0x1FFF, 3), (0x1000, 1), (0x3000, 7), (1 << 63, 4)]));
    bench.ok(&page_access(0, &[(0x1234, 5)]));
    let pages = "5041000005000100000000000000 5041070001000100000000000000 \
                 504107000400000000000000 0800 504107000000FFFFFFFFFFFF0F00 454E07000000";
    assert_eq!(bench.image()[28..], hex(pages));
    // In another view the page is another.
    bench.ok(&page_access(1, &[(0x1000, 7)]));
    bench.ok(&page_access(0, &[(0x1000, 0)]));
    bench.ok(&page_access(7, &[(0x1000, 7), (u64::MAX - 4095, 7)]));
    let pages = "5041000000000100000000000000 504107000400000000000000 0800 454E05000000";
    assert_eq!(bench.image()[28..], hex(pages));
}

/// "An entry is skipped exactly if its page stands at rwx, it asks for less,
/// and 1,024 pages (all views together) stand below rwx then."
#[test]
fn message_13_page_limit() {
    let page = |number: u64| number << 12;
    let mut bench = Bench::new(Settings { views: 2, ..settings() });
    // 1,000 pages of view 0 and 24 of view 1; one more of either is skipped.
    let many: Vec<_> = (0..1000).map(|number| (page(number), 1)).collect();
    bench.ok(&page_access(0, &many));
    let more: Vec<_> = (0..24).map(|number| (page(number), 1)).collect();
    bench.ok(&page_access(1, &more));
    let full = bench.image();
    assert_eq!(full.len(), 34 + 14 * 1024);
    assert_eq!(bench.error(&page_access(0, &[(page(1000), 0)])), ENOMEM);
    assert_eq!(bench.error(&page_access(1, &[(page(24), 5)])), ENOMEM);
    assert_eq!(bench.image(), full);
    // Neither asking for rwx nor a page below rwx is skipped.
    bench.ok(&page_access(0, &[(page(1000), 7), (page(3), 1)]));
    assert_eq!(bench.image(), full);

    // Skipped, applied, room made, applied into that room, skipped again.
    let message = page_access(
        0,
        &[(page(2000), 3), (page(0), 4), (page(1), 7), (page(2001), 5), (page(2002), 1), (page(2001), 0), (page(2000), 7)],
    );
    assert_eq!(bench.error(&message), ENOMEM);
    let image = bench.image();
    assert_eq!(image.len(), full.len());
    let pa = |index: usize| &image[28 + 14 * index..][..14];
    assert_eq!(pa(0), hex("504100000400 0000000000000000"));
    assert_eq!(pa(1), hex("504100000100 0200000000000000"));
    assert_eq!(pa(998), hex("504100000100 E703000000000000"));
    assert_eq!(pa(999), hex("504100000000 D107000000000000"));
    assert_eq!(pa(1000), hex("504101000100 0000000000000000"));

    // With an invalid entry behind a skip the error is -22 and nothing acts.
    let message = page_access(0, &[(page(3000), 1), (page(0), 0), (page(0), 2)]);
    assert_eq!(bench.error(&message), EINVAL);
    assert_eq!(bench.image(), image);

    // A page skipped and set by a later entry of the same message is set.
    let message = page_access(0, &[(page(3000), 1), (page(0), 7), (page(3000), 3)]);
    assert_eq!(bench.error(&message), ENOMEM);
    let image = bench.image();
    let last = &image[28 + 14 * 999..][..14];
    assert_eq!(last, hex("504100000300 B80B000000000000"));
}

#[test]
fn message_14() {
    let mut bench = Bench::new(settings());
    bench.ok(&singlestep(1, 1));
    assert_eq!(bench.image()[8..28], hex("56430000010000000000 56430100030000000000"));
    bench.ok(&singlestep(1, 0));
    assert_eq!(bench.image()[18..28], hex("56430100010000000000"));
    for enable in 2..=255 {
        assert_eq!(bench.error(&singlestep(1, enable)), EINVAL);
    }
    let lacking = Settings { features: [0, 1, 1, 1, 1], ..settings() };
    let bench = Bench::new(lacking);
    assert_eq!(bench.would(&singlestep(1, 1)), EOPNOTSUPP);
    assert_eq!(bench.would(&singlestep(1, 0)), EOPNOTSUPP);
    assert_eq!(bench.would(&singlestep(1, 2)), EINVAL);
    let bench = Bench::new(Settings { features: [0x80, 0, 0, 0, 0], ..settings() });
    assert_eq!(bench.would(&singlestep(1, 1)), 0);
}

/// Answers 2 and 3, in this order, before anything else.
#[test]
fn short_output_and_closed_sessions() {
    let mut session = Session::fresh(settings()).unwrap();
    let mut guest = vec![1; 4096];
    let mut out = vec![UNTOUCHED; 4111];
    for message in [msg(1, 0, &[]), vec![], event_reply(0, 0, 0, 2)] {
        let answer = session.message(&message, &mut out, &mut guest);
        assert_eq!(answer, Answer::ShortOut);
        assert_eq!(session.message(&message, &mut [], &mut guest), answer);
    }
    assert!(out.iter().all(|&byte| byte == UNTOUCHED));
    assert!(!session.is_closed());
    out.push(UNTOUCHED);
    let write = write_physical(0, &[5; 4]);
    assert_eq!(session.message(&write, &mut out, &mut guest), handled(16));
    assert_eq!(guest[..5], [5, 5, 5, 5, 1]);

    let mut bench = Bench { session, guest: vec![0; 8192] };
    bench.session.ready(0);
    bench.ok(&control_msr(0, 5, 1));
    bench.ok(&page_access(0, &[(0, 0)]));
    assert_eq!(bench.session.image_size(), 34 + 8 + 14);
    assert_eq!(bench.send(&[]).0, Answer::Closing);
    assert!(bench.session.is_closed());
    // "Closing makes all this fresh".
    assert_eq!(bench.session.image_size(), 34);
    for message in [msg(1, 0, &[]), vec![], write] {
        assert_eq!(bench.send(&message).0, Answer::Closed);
        let answer = bench.session.message(&message, &mut [], &mut []);
        assert_eq!(answer, Answer::Closed);
    }
    assert_eq!(bench.session.ready(0), Answer::Closed);
    assert_eq!(bench.session.ready(99), Answer::Closed);
    assert_eq!(bench.session.enter(99, &[], 99, &[], &mut []), Answer::Closed);
    assert_eq!(bench.session.write_image(&mut []), Answer::Closed);
    assert!(bench.guest.iter().all(|&byte| byte == 0));
}

#[test]
fn ready_marks_and_settings() {
    let mut bench = Bench::unready(settings());
    assert_eq!(bench.session.ready(2), Answer::BadVcpu);
    assert_eq!(bench.session.ready(0xFFFF), Answer::BadVcpu);
    assert_eq!(bench.session.ready(1), handled(0));
    assert_eq!(bench.session.ready(1), handled(0));
    assert_eq!(bench.image()[8..28], hex("56430000000000000000 56430100010000000000"));
    // Marking it again changes nothing else of it.
    bench.ok(&control_cr(1, 0, 1));
    assert_eq!(bench.session.ready(1), handled(0));
    assert_eq!(bench.image()[18..28], hex("56430100010100000000"));

    for vcpus in [0, 1, 16, 17, u32::MAX] {
        for views in [0, 1, 8, 9, u32::MAX] {
            for revision in [0, 1, 2, 3, u32::MAX] {
                let settings = Settings { vcpus, views, revision, ..settings() };
                let fits = (1..=16).contains(&vcpus) && (1..=8).contains(&views) && [1, 2].contains(&revision);
                let begun = Session::fresh(settings.clone());
                assert_eq!(begun.is_ok(), fits);
                if !fits {
                    assert_eq!(begun.err(), Some(Answer::BadSettings));
                    let loaded = Session::read_image(settings, &[]);
                    assert_eq!(loaded.err(), Some(Answer::BadSettings));
                }
            }
        }
    }
}
