//! Document 02, W6: "The padding test should report the message offset of the
//! first non-zero padding byte, in every command's host answer; 0 means padding
//! fine or test 6 not reached."

mod common;

use common::*;
use reference::{Answer, Feed, Settings, Signal};
use std::ops::RangeInclusive;

/// A run of padding: the message offsets of its first byte and its last.
type Run = RangeInclusive<usize>;

/// A message of each command that has padding, taken by a bench whose vCPUs are
/// ready, and its runs. kvmi.rst gives the layouts.
fn padded() -> Vec<(Vec<u8>, Vec<Run>)> {
    vec![
        (check_command(4), vec![10..=15]),
        (check_event(14), vec![10..=15]),
        (vm_event(12, 1), vec![11..=15]),
        (vcpu_info(1), vec![10..=15]),
        (pause(1, 1), vec![10..=15, 17..=23]),
        (vcpu_event(1, 14, 1), vec![10..=15, 19..=23]),
        (control_cr(1, 3, 1), vec![10..=15, 17..=19]),
        (control_msr(1, 0xC000_0080, 1), vec![10..=15, 17..=19]),
        (page_access(0, &[(0, 1), (0x1000, 5), (0x2000, 7)]), vec![12..=15, 25..=31, 41..=47, 57..=63]),
        (singlestep(1, 1), vec![10..=15, 17..=23]),
        (response(1, 1, 1), vec![11..=15]),
    ]
}

/// The messages that have none.
fn unpadded() -> Vec<Vec<u8>> {
    vec![msg(1, 0, &[]), msg(4, 0, &[]), read_physical(0x3FFF, 1), write_physical(0x1000, &[3; 4])]
}

/// The message with a byte that is not zero.
fn spoiled(message: &[u8], at: usize, value: u8) -> Vec<u8> {
    assert!(message[at] == 0 && value != 0);
    let mut message = message.to_vec();
    message[at] = value;
    message
}

/// The first and the last byte of each run.
fn ends(runs: &[Run]) -> impl Iterator<Item = usize> + '_ {
    runs.iter().flat_map(|run| [*run.start(), *run.end()])
}

/// A bench with every vCPU ready, replies off, and the flag kept or not.
fn quiet(settings: Settings, flag: u8) -> Bench {
    let mut bench = Bench::new(settings);
    assert_eq!(bench.send(&response(0, 1, flag)), (handled(0), vec![]));
    bench
}

/// A reply of -22 to this message.
fn reply(message: &[u8]) -> Vec<u8> {
    [&message[..2], &[8, 0], &message[4..8], &[0xEA, 0xFF, 0xFF, 0xFF, 0, 0, 0, 0]].concat()
}

/// A CMD_ERROR of -22 about this message.
fn cmd_error(seq: u32, message: &[u8]) -> Vec<u8> {
    let start = [&[17, 0, 0x30, 2][..], &seq.to_le_bytes(), &[0x20, 2, 0, 0, 13, 0, 0, 0]].concat();
    let about = [&[0xEA, 0xFF, 0xFF, 0xFF], &message[4..8], &message[..2], &[0; 6]].concat();
    [start, vec![0; 536], about].concat()
}

/// Sends a message to a copy, with replies on: -22, with this offset, and
/// nothing else than before.
fn told_by(bench: &Bench, message: &[u8]) -> usize {
    let mut copy = bench.clone();
    let (answer, bytes) = copy.send(message);
    assert_eq!(bytes, reply(message));
    assert_eq!(format!("{:?}", copy.session), format!("{:?}", bench.session));
    assert_eq!(copy.image(), bench.image());
    assert!(copy.guest == bench.guest);
    assert_eq!(answer, with_padding(16, told(answer)));
    told(answer)
}

/// Each byte of each message: one of padding is reported in its place, and no
/// other is, though it be at fault.
#[test]
fn each_byte() {
    let bench = Bench::new(settings());
    for (message, runs) in padded() {
        assert_eq!((bench.would(&message), told(bench.clone().send(&message).0)), (0, 0));
        for at in 8..message.len() {
            let is_padding = runs.iter().any(|run| run.contains(&at));
            for value in [1, 2, 0x80, 0xFF] {
                if is_padding {
                    assert_eq!(told_by(&bench, &spoiled(&message, at, value)), at, "{message:?}");
                } else {
                    let mut other = message.clone();
                    other[at] = value;
                    assert_eq!(told(bench.clone().send(&other).0), 0, "{other:?} at {at}");
                }
            }
        }
    }
    for message in unpadded() {
        assert_eq!((bench.would(&message), told(bench.clone().send(&message).0)), (0, 0));
        for at in 8..message.len() {
            for value in [1, 0xFF] {
                let mut other = message.clone();
                other[at] = value;
                assert_eq!(told(bench.clone().send(&other).0), 0, "{other:?} at {at}");
            }
        }
    }
}

/// Some of them byte by byte.
#[test]
fn examples() {
    let bench = Bench::new(settings());
    let told = |text: &str| told_by(&bench, &hex(text));
    assert_eq!(told("0B00 1000 07000000  0000 0000 00000000  01 00 0007 03000000"), 19);
    assert_eq!(told("0B00 1000 07000000  0000 0000 00000080  01 00 0007 03000000"), 15);
    assert_eq!(told("0E00 1000 07000000  0000 0000 00000000  01 000000 00000001"), 23);
    assert_eq!(told("0D00 1800 07000000  0100 0000 00000000  0010000000000000 01 00 0000 00000001"), 31);
    // A CR that is none, and no padding.
    assert_eq!(told("0B00 1000 07000000  0000 0000 00000000  01 00 0000 03000001"), 0);
}

/// "the first non-zero padding byte", of two and of all.
#[test]
fn the_lowest_of_several() {
    let bench = Bench::new(settings());
    for (message, runs) in padded() {
        let places: Vec<usize> = runs.iter().cloned().flatten().collect();
        for (i, &low) in places.iter().enumerate() {
            for &high in &places[i + 1..] {
                let both = spoiled(&spoiled(&message, low, 1), high, 0xFF);
                assert_eq!(told_by(&bench, &both), low, "{message:?} at {low} and {high}");
            }
        }
        // All from a place on.
        for from in 0..places.len() {
            let mut all = message.clone();
            places[from..].iter().for_each(|&at| all[at] = 0x40);
            assert_eq!(told_by(&bench, &all), places[from]);
        }
    }
}

/// The error of a message to a copy, and the offset told.
fn outcome(bench: &Bench, message: &[u8]) -> (i32, usize) {
    (bench.would(message), told(bench.clone().send(message).0))
}

/// "-22 EINVAL: padding not zero; [...]": the other causes alone tell of no
/// offset, and hide none.
#[test]
fn beside_another_cause() {
    let bench = Bench::new(Settings { execute_only: false, ..settings() });
    let v = |rest: &[Run]| [&[10..=15], rest].concat();
    let entries = || vec![12..=15, 25..=31, 41..=47];
    let causes = [
        (check_command(0), v(&[])),
        (check_command(16), v(&[])),
        (check_event(15), v(&[])),
        (check_event(0xFFFF), v(&[])),
        (vm_event(2, 1), vec![11..=15]),
        (vm_event(12, 2), vec![11..=15]),
        (vcpu_info(2), v(&[])),
        (pause(2, 1), v(&[17..=23])),
        (pause(0xFFFF, 1), v(&[17..=23])),
        (pause(1, 2), v(&[17..=23])),
        (vcpu_event(2, 5, 1), v(&[19..=23])),
        (vcpu_event(1, 1, 1), v(&[19..=23])),
        (vcpu_event(1, 5, 0xFF), v(&[19..=23])),
        (control_cr(2, 3, 1), v(&[17..=19])),
        (control_cr(1, 1, 1), v(&[17..=19])),
        (control_cr(1, 3, 2), v(&[17..=19])),
        (control_msr(2, 0, 1), v(&[17..=19])),
        (control_msr(1, 0x2000, 1), v(&[17..=19])),
        (control_msr(1, 0, 2), v(&[17..=19])),
        (page_access(1, &[(0, 1), (0x1000, 5)]), entries()),
        (page_access(0, &[(0, 2), (0x1000, 5)]), entries()),
        (page_access(0, &[(0, 1), (0x1000, 6)]), entries()),
        (page_access(0, &[(0, 4), (0x1000, 5)]), entries()),
        (page_access(0, &[(0, 5), (0x1000, 4)]), entries()),
        (singlestep(2, 1), v(&[17..=23])),
        (singlestep(1, 2), v(&[17..=23])),
        (response(2, 0, 0), vec![11..=15]),
        (response(0, 2, 0), vec![11..=15]),
        (response(0, 0, 2), vec![11..=15]),
    ];
    for (message, runs) in causes {
        assert_eq!(outcome(&bench, &message), (EINVAL, 0), "{message:?}");
        for at in ends(&runs) {
            assert_eq!(told_by(&bench, &spoiled(&message, at, 8)), at, "{message:?}");
        }
        let both = ends(&runs).fold(message.clone(), |message, at| spoiled(&message, at, 0x10));
        assert_eq!(told_by(&bench, &both), *runs[0].start());
    }
}

/// "errors, the first that applies": the codes behind -22 tell of no offset,
/// and with bad padding it is -22.
#[test]
fn before_another_code() {
    let mut bench = Bench::new(Settings {
        events: !(1 << 12 | 1 << 14),
        commands: !(1 << 4),
        features: [0; 5],
        descriptors: false,
        breakpoints: true,
        ..settings()
    });
    for _ in 0..8 {
        bench.ok(&pause(1, 0));
    }
    let unready = Bench::unready(settings());
    let cases = [
        (&bench, EPERM, check_command(4)),
        (&bench, EPERM, check_event(14)),
        (&bench, EPERM, vm_event(12, 0)),
        (&bench, EPERM, vcpu_event(1, 14, 0)),
        (&bench, EOPNOTSUPP, vcpu_event(1, 8, 1)),
        (&bench, EOPNOTSUPP, singlestep(1, 1)),
        (&bench, EBUSY, vcpu_event(1, 4, 1)),
        (&bench, EBUSY, pause(1, 1)),
        (&unready, EAGAIN, vcpu_info(1)),
        (&unready, EAGAIN, pause(1, 1)),
        (&unready, EAGAIN, vcpu_event(1, 14, 1)),
        (&unready, EAGAIN, control_cr(1, 3, 1)),
        (&unready, EAGAIN, control_msr(1, 1, 1)),
        (&unready, EAGAIN, singlestep(1, 1)),
    ];
    for (bench, error, message) in cases {
        assert_eq!(outcome(bench, &message), (error, 0), "{message:?}");
        assert_eq!(told_by(bench, &spoiled(&message, 15, 1)), 15);
        if let Some(23) = message.len().checked_sub(1).filter(|_| !matches!(message[0], 11 | 12)) {
            assert_eq!(told_by(bench, &spoiled(&message, 23, 1)), 23);
        }
    }
    assert_eq!(outcome(&bench, &read_physical(0x4000, 1)), (ENOENT, 0));
    assert_eq!(outcome(&bench, &write_physical(0x4000, &[1])), (ENOENT, 0));
    assert_eq!(outcome(&bench, &read_physical(0, 0)), (EINVAL, 0));
    assert_eq!(outcome(&bench, &write_physical(4095, &[1, 1])), (EINVAL, 0));
}

/// A full table: -12 tells of no offset, and bad padding is -22 before it, with
/// no entry applied.
#[test]
fn a_full_table() {
    let mut bench = Bench::new(settings());
    let pages: Vec<(u64, u8)> = (0..1023).map(|page| (page << 12, 1)).collect();
    bench.ok(&page_access(0, &pages));
    let message = page_access(0, &[(0xFFFF_F000, 1), (0xFFFF_E000, 1)]);
    for at in [12, 15, 25, 31, 41, 47] {
        assert_eq!(told_by(&bench, &spoiled(&message, at, 1)), at);
    }
    assert_eq!((bench.send(&message).0, bench.session.page_count()), (handled(16), 1024));
    assert_eq!(outcome(&bench, &message), (ENOMEM, 0));
    for at in [12, 15, 25, 31, 41, 47] {
        assert_eq!(told_by(&bench, &spoiled(&message, at, 1)), at);
    }
}

/// With replies off nothing is written, and with the flag kept one CMD_ERROR;
/// the offset is told all the same.
#[test]
fn with_replies_off() {
    for (message, runs) in padded() {
        for flag in [0, 1] {
            let bench = quiet(settings(), flag);
            for at in ends(&runs) {
                let message = spoiled(&message, at, 0x20);
                if message[0] == 8 {
                    // "Replies off and id 1, 4, 6 or 8: closes."
                    assert!(bench.closes(&message));
                    continue;
                }
                let mut copy = bench.clone();
                for seq in 0..2 {
                    let bytes = if flag == 1 { cmd_error(seq, &message) } else { vec![] };
                    assert_eq!(copy.send(&message), (with_padding(bytes.len(), at), bytes));
                }
                assert_eq!(copy.image(), bench.image());
                assert_eq!(copy.session.write_image(&mut []), Answer::ShortOut);
                assert!(copy.guest == bench.guest);
                if flag == 0 {
                    assert_eq!(format!("{:?}", copy.session), format!("{:?}", bench.session));
                }
            }
            // Another cause alone tells of none.
            let clean = check_event(0);
            let bytes = if flag == 1 { cmd_error(0, &clean) } else { vec![] };
            assert_eq!(bench.clone().send(&clean), (handled(bytes.len()), bytes));
        }
    }
}

/// "or test 6 not reached": test 2.
#[test]
fn ids_that_are_unknown_or_not_allowed() {
    let bench = Bench::new(settings());
    for id in [0, 17, 18, 19, 20, 21, 32, 0x0109, 0xFFFF] {
        for size in [0, 8, 16, 24] {
            let message = msg(id, 3, &vec![0xFF; size]);
            assert_eq!(outcome(&bench, &message), (ENOSYS, 0));
            for flag in [0, 1] {
                assert!(quiet(settings(), flag).closes(&message));
            }
        }
    }
    for (message, runs) in padded() {
        let id = message[0];
        if matches!(id, 2 | 3) {
            // "always allowed"
            let bench = Bench::new(Settings { commands: 0, ..settings() });
            assert_eq!(told_by(&bench, &spoiled(&message, 10, 1)), 10);
            continue;
        }
        let settings = Settings { commands: !(1 << id), ..settings() };
        let bench = Bench::new(settings.clone());
        for at in ends(&runs) {
            let message = spoiled(&message, at, 0xFF);
            assert_eq!(outcome(&bench, &message), (EPERM, 0));
            // Its size is not looked at either.
            assert_eq!(outcome(&bench, &msg(id.into(), 0, &[0xFF; 3])), (EPERM, 0));
            if id != 15 {
                for flag in [0, 1] {
                    assert!(quiet(settings.clone(), flag).closes(&message));
                }
            }
        }
    }
}

/// "or test 6 not reached": tests 1, 3, 4 and 5, that close with no offset.
#[test]
fn messages_that_close() {
    let bench = Bench::new(settings());
    for (message, runs) in padded() {
        let at = *runs[0].start();
        let message = spoiled(&message, at, 0xFF);
        // Test 1.
        assert!(bench.closes(&message[..message.len() - 1]));
        assert!(bench.closes(&[&message[..], &[0]].concat()));
        // Test 4, but for message 13.
        if message[0] != 13 {
            for size in [0, 1, 7, 9, 15, 17, 24] {
                let mut data = message[8..].to_vec();
                data.resize(size, 0xFF);
                assert!(bench.closes(&msg(message[0].into(), 0, &data)));
            }
        }
    }
    for size in 0..8 {
        assert!(bench.closes(&msg(13, 0, &vec![0xFF; size])));
    }
    // Test 5, message 9: before padding.
    let no_pause = Bench::new(Settings { events: !(1 << 2), ..settings() });
    for at in [10, 15, 17, 23] {
        assert!(no_pause.closes(&spoiled(&pause(1, 1), at, 1)));
    }
    // Test 5, message 15: only "that test 6 would pass", so that its padding is
    // zero; with padding it is -22, in either mode.
    let no_error = Settings { events: !(1 << 13), ..settings() };
    let bench = Bench::new(no_error.clone());
    let message = response(0, 1, 1);
    assert!(bench.closes(&message) && quiet(no_error.clone(), 0).closes(&message));
    for at in 11..=15 {
        let message = spoiled(&message, at, 1);
        assert_eq!(told_by(&bench, &message), at);
        assert_eq!(quiet(no_error.clone(), 0).send(&message), (with_padding(0, at), vec![]));
    }
}

/// EVENT_REPLY is no command: bad padding closes, and a reply that is taken
/// tells of no offset, under answer 12 neither.
#[test]
fn event_replies() {
    let mut bench = Bench::new(settings());
    bench.ok(&page_access(0, &[(0x1000, 0)]));
    bench.ok(&vcpu_event(1, 10, 1));
    bench.ok(&pause(0, 0));
    bench.enter(0, &[7; 536]);
    bench.offer(1, &[7; 536], 10, &fault(u64::MAX, 0x1000, 1, 0));
    let (plain, faulted) = (event_reply(0, 0, 0, 2), fault_reply(1, 1, 0, NO_CONTEXT));
    for at in (10..16).chain(18..24) {
        assert!(bench.closes(&spoiled(&plain, at, 1)) && bench.closes(&spoiled(&faulted, at, 1)));
    }
    for at in [36, 38, 39] {
        assert!(bench.closes(&spoiled(&faulted, at, 1)));
    }
    assert_eq!(bench.clone().send(&plain), (handled(0), vec![]));
    let (answer, _) = bench.clone().send(&faulted);
    assert!(matches!(answer, Answer::Handled { count: 0, feed: Feed::Page { .. }, padding: 0, .. }));
    bench.guest.truncate(0x1FFF);
    let (answer, _) = bench.send(&faulted);
    assert!(matches!(answer, Answer::NoPage { signal: Signal::Resume { vcpu: 1, .. } }), "{answer:?}");
}

/// "Entries are looked at only if the count fits".
#[test]
fn counts_that_do_not_fit() {
    let bench = Bench::new(settings());
    let entries = [(0, 1), (0x1000, 2), (0x2000, 5)];
    let all = |mut message: Vec<u8>| {
        for entry in message[16..].chunks_mut(16) {
            entry.iter_mut().skip(9).for_each(|byte| *byte = 0xFF);
        }
        message
    };
    for count in [0, 1, 2, 4, 0x103, 0x1003, 0x8003, 0xFFFF] {
        let message = all(page_access_as(count, 0, &entries));
        assert_eq!(told_by(&bench, &message), 0, "{count}");
        for at in 12..=15 {
            assert_eq!(told_by(&bench, &spoiled(&message, at, 1)), at);
        }
    }
    let message = all(page_access(0, &entries));
    assert_eq!(told_by(&bench, &message), 25);
    // Entries that are not whole: no count fits.
    for length in (16..message.len()).filter(|length| length % 16 != 0) {
        for count in [length / 16 - 1, length / 16] {
            let mut cut = msg(13, 0, &message[8..length]);
            cut[8] = count as u8;
            assert_eq!(told_by(&bench, &cut), 0, "{length} {count}");
            assert_eq!(told_by(&bench, &spoiled(&cut, 15, 1)), 15);
        }
    }
    // None at all.
    assert_eq!(outcome(&bench, &page_access(0, &[])), (0, 0));
    assert_eq!(told_by(&bench, &page_access_as(1, 0, &[])), 0);
    for at in 12..=15 {
        assert_eq!(told_by(&bench, &spoiled(&page_access(0, &[]), at, 1)), at);
        assert_eq!(told_by(&bench, &spoiled(&page_access_as(1, 0, &[]), at, 1)), at);
    }
}

/// As many entries as a message can have: the last byte's offset is 65,535.
#[test]
fn the_most_entries() {
    let mut bench = Bench::new(settings());
    let entries: Vec<(u64, u8)> = (0..4095).map(|_| (0x1000, 1)).collect();
    let message = page_access(0, &entries);
    assert_eq!(message.len(), 65_536);
    for entry in [0, 1, 13, 14, 15, 254, 255, 2046, 2047, 2048, 4093, 4094] {
        for at in 16 * entry + 25..=16 * entry + 31 {
            assert_eq!(told_by(&bench, &spoiled(&message, at, 1)), at);
            assert_eq!(told_by(&bench, &spoiled(&spoiled(&message, at, 1), 15, 1)), 15);
            if at < 65_535 {
                assert_eq!(told_by(&bench, &spoiled(&spoiled(&message, at, 1), 65_535, 1)), at);
            }
        }
    }
    // A bad access before it and behind it.
    let mut other = spoiled(&message, 16 * 2000 + 25, 1);
    (other[24], other[65_528]) = (2, 6);
    assert_eq!(told_by(&bench, &other), 16 * 2000 + 25);
    // With one entry more or fewer in the count, entries are not looked at.
    for count in [4094u16, 4096, 0, 0xFFFF] {
        other[8..10].copy_from_slice(&count.to_le_bytes());
        assert_eq!(told_by(&bench, &other), 0);
    }
    bench.ok(&message);
    assert_eq!(bench.session.page_count(), 1);
}

/// Answers 2 and 3 change nothing and tell of nothing; with room it is told.
#[test]
fn refusals() {
    for (message, runs) in padded() {
        let at = *runs[0].start();
        let message = spoiled(&message, at, 1);
        let mut bench = Bench::new(settings());
        let before = format!("{:?}", bench.session);
        let mut out = [UNTOUCHED; 4111];
        assert_eq!(bench.session.message(&message, &mut out, &mut bench.guest), Answer::ShortOut);
        assert_eq!((out, format!("{:?}", bench.session)), ([UNTOUCHED; 4111], before));
        assert_eq!(told(bench.send(&message).0), at);
        assert_eq!(bench.send(&[]), (Answer::Closing, vec![]));
        assert_eq!(bench.send(&message), (Answer::Closed, vec![]));
    }
}

/// Calls that are no messages have none either.
#[test]
fn other_calls() {
    let mut bench = Bench::new(settings());
    assert_eq!(bench.session.ready(0), handled(0));
    bench.send(&spoiled(&check_event(1), 10, 1));
    assert_eq!(bench.enter(0, &[7; 536]), (handled(0), vec![]));
    assert_eq!(told(bench.session.write_image(&mut vec![0; bench.session.image_size()])), 0);
}

/// "a batch carries none": wherever in it the message stands, and whatever the
/// mode; the bytes are those of the messages taken singly.
#[test]
fn batches_carry_none() {
    for flag in [None, Some(0), Some(1)] {
        let bench = flag.map_or_else(|| Bench::new(settings()), |flag| quiet(settings(), flag));
        for (message, runs) in padded() {
            if message[0] == 8 && flag.is_some() {
                continue;
            }
            for at in ends(&runs) {
                let (good, bad) = (check_event(1), spoiled(&message, at, 1));
                for list in [vec![&bad], vec![&good, &bad], vec![&bad, &good], vec![&bad, &bad]] {
                    let (mut together, mut singly) = (bench.clone(), bench.clone());
                    let mut bytes = Vec::new();
                    for message in &list {
                        let (answer, written) = singly.send(message);
                        assert_eq!(told(answer), if *message == &bad { at } else { 0 });
                        bytes.extend(written);
                    }
                    let input: Vec<u8> = list.into_iter().flatten().copied().collect();
                    let (mut out, mut signals) = (vec![UNTOUCHED; 8000], [9; 3]);
                    let batch = together.session.batch(&input, &mut out, &mut signals, &mut together.guest);
                    assert_eq!(batch.answer, handled(bytes.len()));
                    assert_eq!((batch.used, batch.count, batch.listed), (input.len(), bytes.len(), 0));
                    assert_eq!((written(batch.answer, out), signals), (bytes, [9; 3]));
                    assert_eq!(format!("{:?}", together.session), format!("{:?}", singly.session));
                }
            }
        }
    }
}
