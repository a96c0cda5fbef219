//! Document 02, W5: "Page faults with bytes supplied by the tool".

mod common;

use common::*;
use reference::{Action, Answer, Feed, Settings, Signal};

const R: u8 = 1;
const UNKNOWN: u64 = u64::MAX;

/// Where a reply's supplied data begin in the message.
const DATA: usize = 40;

/// Three vCPUs and three views, event 10 on for vCPU 1 and page 1 below rwx in
/// view 2. No two neighbouring bytes of the guest's four pages are the same.
fn bench() -> Bench {
    let mut bench = Bench::new(Settings { vcpus: 3, views: 3, ..settings() });
    for (at, byte) in bench.guest.iter_mut().enumerate() {
        *byte = (at + at / 251) as u8;
    }
    bench.ok(&vcpu_event(1, 10, 1));
    bench.ok(&page_access(2, &[(0x1000, 0)]));
    bench
}

/// vCPU 1 awaits the reply to this fault, with seq 0.
fn awaiting(gva: u64, gpa: u64, access: u8) -> Bench {
    let mut bench = bench();
    bench.ok(&page_access(1, &[(gpa, 5)]));
    let own = fault(gva, gpa, access, 1);
    let (answer, bytes) = bench.offer(1, &[7; 536], 10, &own);
    assert_eq!((answer, &bytes[552..]), (handled(576), &own[..]));
    bench
}

fn context(address: u64, size: u32) -> Context {
    Context { address, size, rep: 0 }
}

fn resume(action: Action, rep: u8) -> Signal {
    Signal::Resume { vcpu: 1, action, value: rep.into() }
}

/// What a continue of vCPU 1's fault is fed, none under answer 12. All but the
/// bytes is the same under both: nothing is written, the resume is given, the
/// event is awaited no more and guest memory stays.
fn fed(bench: &Bench, context: Context) -> Option<Feed> {
    let mut bench = bench.clone();
    let guest = bench.guest.clone();
    let message = fault_reply(0, 1, 0, context);
    let (answer, bytes) = bench.send(&message);
    assert!(bytes.is_empty() && !bench.session.is_closed() && bench.guest == guest);
    assert_eq!(bench.session.awaited(1), None);
    bench.image();
    assert!(bench.closes(&message));
    let expected = resume(Action::Continue, context.rep);
    match answer {
        Answer::Handled { count: 0, signal, feed, padding: 0 } => {
            assert_eq!((answer.number(), signal), (0, expected));
            let part = match feed {
                Feed::None => return Some(feed),
                Feed::Supplied { at, length } => &message[at..at + length],
                Feed::Page { at, length } => &guest[at..at + length],
            };
            // "a part of one of the two buffers", and never an empty one.
            assert!(!part.is_empty());
            Some(feed)
        }
        Answer::NoPage { signal } => {
            assert_eq!((answer.number(), signal), (12, expected));
            None
        }
        _ => panic!("{answer:?}"),
    }
}

/// The supplied data between two places.
fn data(from: usize, to: usize) -> Option<Feed> {
    Some(Feed::Supplied { at: DATA + from, length: to - from })
}

/// Guest memory between two addresses.
fn page(from: usize, to: usize) -> Option<Feed> {
    Some(Feed::Page { at: from, length: to - from })
}

/// All bytes of a fault, and of a reply to it.
#[test]
fn a_whole_fault() {
    let mut bench = Bench::new(settings());
    bench.ok(&vcpu_event(0, 10, 1));
    bench.ok(&page_access(0, &[(0x3000, 4)]));
    let own = hex("0080FFFFFFFFFFFF 0038000000000000 01 00 0000 00000000");
    let (answer, bytes) = bench.offer(0, &[0x5A; 536], 10, &own);
    assert_eq!(answer, handled(576));
    let expected = hex(&format!(
        "1100 3802 00000000  2002 0000 0A 000000  {}  0080FFFFFFFFFFFF 0038000000000000 01 00 0000 00000000",
        "5A".repeat(536)
    ));
    assert_eq!(bytes, expected);
    assert_eq!(bench.session.awaited(0), Some(10));
    let reply = hex(&format!(
        "1000 2001 00000000  0000 000000000000  00 0A 000000000000  F07FFFFFFFFFFFFF 12000000 00 01 0000  {}",
        "00".repeat(16) + "C3C4" + &"00".repeat(238)
    ));
    let (answer, bytes) = bench.send(&reply);
    let signal = Signal::Resume { vcpu: 0, action: Action::Continue, value: 1 };
    let feed = Feed::Supplied { at: 56, length: 2 };
    let expected = Answer::Handled { count: 0, signal, feed, padding: 0 };
    assert_eq!((answer, &reply[56..58]), (expected, &[0xC3, 0xC4][..]));
    assert!(bytes.is_empty());
}

/// "a PF is sent exactly for a page standing below rwx in the view its bytes
/// name, with the PF switch on".
#[test]
fn sent_for_a_page_below_rwx() {
    let last = u64::MAX << 12;
    for access in [0, 1, 3, 4, 5] {
        let mut bench = Bench::new(Settings { vcpus: 2, views: 3, ..settings() });
        bench.ok(&vcpu_event(1, 10, 1));
        for (view, entries) in
            [(0, vec![(0x5000, access)]), (1, vec![(0x7000, access), (0, access)]), (2, vec![(last, access), (0x6000, 7)])]
        {
            bench.ok(&page_access(view, &entries));
        }
        let guarded = [(0, 0x5000), (1, 0x7000), (1, 0), (2, last)];
        let sent = |bench: &Bench, vcpu: u16, own: &[u8]| {
            let mut bench = bench.clone();
            let before = bench.session.awaited(vcpu.into());
            let (answer, bytes) = bench.offer(vcpu, &[3; 536], 10, own);
            let is_sent = !bytes.is_empty();
            assert_eq!(answer, handled(if is_sent { 576 } else { 0 }));
            assert_eq!(bench.session.awaited(vcpu.into()), if is_sent { Some(10) } else { before });
            is_sent
        };
        // Views that are not there have no page below rwx, and the number is of
        // two bytes.
        for view in [0, 1, 2, 3, 4, 7, 8, 0x100, 0x101, 0x8000, 0xFFFF] {
            for start in [0, 0x4000, 0x5000, 0x6000, 0x7000, 0x8000, 1 << 32 | 0x5000, last, last - 0x1000, 1 << 63] {
                for gpa in [start, start + 1, start + 0xFFE, start + 0xFFF] {
                    let expected = guarded.contains(&(view, start));
                    for (gva, asked) in [(0, 1), (UNKNOWN, 2), (gpa, 4), (1, 0), (5, 0xFF)] {
                        let own = fault(gva, gpa, asked, view);
                        assert_eq!(sent(&bench, 1, &own), expected, "{view} {gpa:#x}");
                        // Its switch is another vCPU's.
                        assert!(!sent(&bench, 0, &own));
                    }
                }
            }
        }
        // Padding beside the view says nothing.
        for at in [17, 20, 21, 22, 23] {
            let mut own = fault(0, 0x5000, R, 0);
            own[at] ^= 0xFF;
            assert!(sent(&bench, 1, &own));
        }

        // Switched off, or forgotten.
        let own = fault(9, 0x7123, R, 1);
        for message in [vcpu_event(1, 10, 0), page_access(1, &[(0x7FFF, 7)])] {
            let mut bench = bench.clone();
            bench.ok(&message);
            assert!(!sent(&bench, 1, &own));
            // "a queued pause goes instead"
            bench.ok(&pause(1, 0));
            let (answer, bytes) = bench.offer(1, &[3; 536], 10, &own);
            assert_eq!((answer, &bytes[..16]), (handled(552), &hex("1100200200000000 2002010002000000")[..]));
            assert_eq!(bench.session.awaited(1), Some(2));
        }
        // It goes before a pause.
        let mut bench = bench.clone();
        bench.ok(&pause(1, 0));
        assert_eq!(bench.offer(1, &[3; 536], 10, &own).0, handled(576));
        assert_eq!((bench.session.awaited(1), bench.session.pauses(1)), (Some(10), 1));
    }
    // A page that an image brings.
    let image = hex("564D010001000000 56430000010000040000 5041010003000200000000000000 454E03000000");
    let given = Settings { vcpus: 1, views: 2, ..settings() };
    let mut session = reference::Session::read_image(given, &image).unwrap();
    assert_eq!(session.enter(0, &[0; 536], 10, &fault(0, 0x2000, R, 0), &mut [0; 576]), handled(0));
    assert_eq!(session.enter(0, &[0; 536], 10, &fault(0, 0x2000, R, 1), &mut [0; 576]), handled(576));
}

/// Where the bytes come from: an address, a size and a gva.
#[test]
fn examples() {
    let top = u64::MAX - 3;
    let whole = page(0x1F00, 0x2000);
    for (address, size, gva, expected) in [
        (0x1000, 16, 0x1004, data(4, 16)),
        (0x1000, 16, 0x1010, whole),
        (0x1000, 0, 0x1000, whole),
        (0, 256, UNKNOWN, whole),
        (UNKNOWN, 256, UNKNOWN, whole),
        (UNKNOWN - 255, 256, UNKNOWN, whole),
        (top, 256, UNKNOWN - 1, data(2, 256)),
        // A sum that wraps would supply this.
        (top, 256, 1, whole),
    ] {
        assert_eq!(fed(&awaiting(gva, 0x1F00, R), context(address, size)), expected, "{address:#x} {size} {gva:#x}");
    }
    for (gpa, guest, expected) in [(0x1FFF, 8192, page(0x1FFF, 0x2000)), (0x1FFF, 8191, None), (0x2000, 8192, None)] {
        let mut bench = awaiting(UNKNOWN, gpa, R);
        bench.guest.truncate(guest);
        assert_eq!(fed(&bench, NO_CONTEXT), expected);
    }
}

/// "in the context's [address, address + size)", at both of its ends.
#[test]
fn the_range_of_the_supplied_data() {
    let page = page(0x1000, 0x2000);
    for address in [0, 1, 0x1000, 0xFFFF_FFFF, 1 << 32, 1 << 63, u64::MAX - 256, u64::MAX - 255, u64::MAX - 1, u64::MAX] {
        for size in [0, 1, 2, 8, 255, 256] {
            let end = u128::from(address) + u128::from(size);
            let middle = address.wrapping_add(u64::from(size / 2));
            for near in [address, address.wrapping_add(u64::from(size)), middle] {
                for gva in [near.wrapping_sub(2), near.wrapping_sub(1), near, near.wrapping_add(1), near.wrapping_add(256)] {
                    let is_inside = address <= gva && u128::from(gva) < end && gva != UNKNOWN;
                    let expected = match is_inside {
                        true => data((gva - address) as usize, size as usize),
                        false => page,
                    };
                    let found = fed(&awaiting(gva, 0x1000, R), context(address, size));
                    assert_eq!(found, expected, "{address:#x} {size} {gva:#x}");
                }
            }
        }
    }
    // Every place of the longest one.
    for at in 0..256 {
        assert_eq!(fed(&awaiting(0x1000 + at, 0, R), context(0x1000, 256)), data(at as usize, 256));
    }
    // The numbers are of 64 bits and of 32.
    for bit in 9..64 {
        assert_eq!(fed(&awaiting(0x100 ^ 1 << bit, 0x1000, R), context(0x100, 256)), page);
    }
}

/// "reckoned without wrapping": addresses below the range's own are not in it.
#[test]
fn ranges_past_the_end() {
    let page = page(0x1000, 0x2000);
    for before in 1..=256 {
        let address = u64::MAX - before + 1;
        for gva in [0, 1, 255 - before.min(255), 256 - before, 257 - before] {
            assert_eq!(fed(&awaiting(gva, 0x1000, R), context(address, 256)), page, "{before} {gva}");
        }
        // The last address there is has no gva: it is unknown.
        assert_eq!(fed(&awaiting(UNKNOWN, 0x1000, R), context(address, 256)), page);
        if before > 1 {
            let from = before as usize - 2;
            assert_eq!(fed(&awaiting(UNKNOWN - 1, 0x1000, R), context(address, 256)), data(from, 256));
        }
    }
}

/// "Gva all ones means unknown", and no other does.
#[test]
fn an_unknown_gva() {
    for size in [0, 1, 2, 255, 256] {
        for address in [UNKNOWN, UNKNOWN - 1, UNKNOWN - 255, UNKNOWN - 256, 0] {
            assert_eq!(fed(&awaiting(UNKNOWN, 0x1234, R), context(address, size)), page(0x1234, 0x2000));
        }
    }
    for bit in 0..64 {
        let gva = UNKNOWN ^ 1 << bit;
        assert_eq!(fed(&awaiting(gva, 0x1234, R), context(gva, 1)), data(0, 1));
    }
}

/// "the page's bytes from gpa to the page end", of a page that "exists if it
/// lies wholly inside".
#[test]
fn the_guest_page() {
    for gpa in [0, 1, 0xFFF, 0x1000, 0x1001, 0x1800, 0x1FFE, 0x1FFF, 0x2000, 0x3000, 0x3FFF, 0x4000] {
        let bench = awaiting(UNKNOWN, gpa as u64, R);
        let end = (gpa | 0xFFF) + 1;
        for length in [0, 1, gpa, gpa + 1, end - 4096, end - 1, end, end + 1, 0x3FFF, 0x4000] {
            let mut bench = bench.clone();
            bench.guest.resize(length, 9);
            let expected = if end <= length { page(gpa, end) } else { None };
            assert_eq!(fed(&bench, NO_CONTEXT), expected, "{gpa:#x} of {length}");
        }
    }
    // Far addresses are not taken for near ones.
    for gpa in [u64::MAX, u64::MAX - 0xFFF, 1 << 63, 1 << 32, 1 << 32 | 0x1000, 1 << 52, 1 << 44] {
        assert_eq!(fed(&awaiting(UNKNOWN, gpa, R), NO_CONTEXT), None);
        // The page is not asked for where the data are supplied.
        assert_eq!(fed(&awaiting(6, gpa, R), context(4, 3)), data(2, 3));
    }
    let mut bench = awaiting(6, 0x1000, R);
    bench.guest.clear();
    assert_eq!(fed(&bench, context(4, 3)), data(2, 3));
    assert_eq!(fed(&bench, context(4, 2)), None);
}

/// "On a continued read (access bit R)": no other reply has bytes, or needs a
/// page.
#[test]
fn continued_reads_alone() {
    for access in 0..=255 {
        for gpa in [0x1000, 1 << 40] {
            let bench = awaiting(0x800, gpa, access);
            let is_read = access & 1 == 1;
            let expected = if is_read { data(16, 32) } else { Some(Feed::None) };
            assert_eq!(fed(&bench, context(0x7F0, 32)), expected);
            let expected = match (is_read, gpa) {
                (false, _) => Some(Feed::None),
                (true, 0x1000) => page(0x1000, 0x2000),
                (true, _) => None,
            };
            assert_eq!(fed(&bench, context(0x7F0, 16)), expected);
            for (action, rep) in [(1, 0), (1, 1), (2, 0), (2, 1)] {
                for size in [16, 32] {
                    let message = fault_reply(0, 1, action, Context { address: 0x7F0, size, rep });
                    let signal = if action == 1 { resume(Action::Retry, rep) } else { Signal::Crash { vcpu: 1 } };
                    let mut bench = bench.clone();
                    assert_eq!(bench.send(&message), (with_signal(0, signal), vec![]));
                    assert_eq!(bench.session.awaited(1), None);
                }
            }
        }
    }
}

/// "A resume's value is the rep flag", under answer 12 too.
#[test]
fn the_rep_flag() {
    for gpa in [0x1000, 1 << 40] {
        for access in [R, 2] {
            for rep in [0, 1] {
                // `fed` compares the signal.
                fed(&awaiting(0, gpa, access), Context { rep, ..NO_CONTEXT });
            }
        }
    }
}

/// "context size above 256 or rep flag above 1 closes", for every action, and
/// padding.
#[test]
fn replies_that_close() {
    for access in [R, 2] {
        let bench = awaiting(0x1000, 0x1000, access);
        for action in [0, 1, 2] {
            for size in [257, 258, 511, 512, 513, 1 << 16, 1 << 16 | 1, 1 << 31, u32::MAX] {
                assert!(bench.closes(&fault_reply(0, 1, action, context(0x1000, size))), "{size}");
            }
            for bit in 9..32 {
                assert!(bench.closes(&fault_reply(0, 1, action, context(0, 1 << bit))));
            }
            for size in 0..=256 {
                assert!(!bench.closes(&fault_reply(0, 1, action, context(0x1000, size))));
            }
            for rep in 0..=255 {
                let message = fault_reply(0, 1, action, Context { rep, ..NO_CONTEXT });
                assert_eq!(bench.closes(&message), rep > 1, "{rep}");
            }
            // Padding is at 28, 30 and 31 of the data, beside what every reply
            // has; no other byte of what is behind that closes, size and rep
            // flag excepted.
            let right = fault_reply(0, 1, action, context(0, 0));
            for at in 0..288 {
                let is_free = matches!(at, 16..=24 | 32..);
                let is_padding = matches!(at, 2..=7 | 10..=15 | 28 | 30 | 31);
                for bit in 0..8 {
                    let mut spoiled = right.clone();
                    spoiled[8 + at] ^= 1 << bit;
                    if is_free || is_padding {
                        assert_eq!(bench.closes(&spoiled), is_padding, "bit {bit} at {at}");
                    }
                }
            }
            for seq in [1, 0x100, u32::MAX] {
                assert!(bench.closes(&fault_reply(seq, 1, action, NO_CONTEXT)));
            }
            for vcpu in [0, 2, 3, 0x101, 0xFFFF] {
                assert!(bench.closes(&fault_reply(0, vcpu, action, NO_CONTEXT)));
            }
            // Any of the other sizes, whatever the event byte.
            for event in 0..=255 {
                assert!(bench.closes(&event_reply(0, 1, action, event)));
                assert!(bench.closes(&value_reply(0, 1, action, event, 0)));
            }
        }
        for action in 3..=255 {
            assert!(bench.closes(&fault_reply(0, 1, action, NO_CONTEXT)));
        }
    }
}

/// "a non-padding field of the reply not named here is free": supplied data, read
/// or not, and the address with any size.
#[test]
fn free_fields() {
    for address in [0, 1, 0x1000, 1 << 63, u64::MAX - 255, u64::MAX] {
        for size in [0, 1, 255, 256] {
            for byte in [0, 1, 0x7F, 0xFF] {
                for (action, access) in [(0, R), (0, 4), (1, R), (2, R)] {
                    let bench = awaiting(0x2000, 0x1000, access);
                    let mut message = fault_reply(0, 1, action, context(address, size));
                    message[DATA..].fill(byte);
                    assert!(!bench.closes(&message));
                }
            }
        }
    }
}

/// The awaited record alone is read, and the guest memory that the reply's call
/// is lent.
#[test]
fn what_changes_before_the_reply() {
    let mut bench = awaiting(0x77, 0x1F00, R);
    for message in [
        page_access(1, &[(0x1000, 7)]),
        page_access(2, &[(0x1000, 7)]),
        vcpu_event(1, 10, 0),
        write_physical(0x1F00, &[1, 2, 3]),
    ] {
        bench.ok(&message);
    }
    assert_eq!(fed(&bench, NO_CONTEXT), page(0x1F00, 0x2000));
    assert_eq!(fed(&bench, context(0x70, 8)), data(7, 8));
    bench.guest.truncate(0x1FFF);
    assert_eq!(fed(&bench, NO_CONTEXT), None);
    // No page at all is below rwx now, and no other fault goes out.
    assert_eq!(bench.send(&fault_reply(0, 1, 0, NO_CONTEXT)).0, Answer::NoPage { signal: resume(Action::Continue, 0) });
    assert_eq!(bench.offer(1, &[0; 536], 10, &fault(0, 0x1000, R, 1)), (handled(0), vec![]));
}

/// Each vCPU awaits its own fault, and a later one takes the place of one before.
#[test]
fn faults_of_two_vcpus() {
    let mut bench = bench();
    bench.ok(&vcpu_event(0, 10, 1));
    let read = |seq, vcpu, context| fault_reply(seq, vcpu, 0, context);
    bench.offer(1, &[7; 536], 10, &fault(0x10, 0x1234, R, 2));
    bench.offer(0, &[7; 536], 10, &fault(0x20, 0x1FFF, R | 4, 2));
    assert_eq!([0, 1, 2].map(|vcpu| bench.session.awaited(vcpu)), [Some(10), Some(10), None]);
    assert_eq!(bench.session.write_image(&mut [0; 99]), Answer::Busy);
    assert_eq!(bench.offer(1, &[7; 536], 10, &fault(0x30, 0x1000, R, 2)), (Answer::Waiting, vec![]));
    assert!(bench.closes(&read(0, 0, NO_CONTEXT)) && bench.closes(&read(1, 1, NO_CONTEXT)));
    let of = |vcpu, feed| {
        let signal = Signal::Resume { vcpu, action: Action::Continue, value: 0 };
        Answer::Handled { count: 0, signal, feed, padding: 0 }
    };
    let wide = context(0x10, 0x11);
    assert_eq!(bench.clone().send(&read(1, 0, wide)).0, of(0, Feed::Supplied { at: DATA + 16, length: 1 }));
    assert_eq!(bench.send(&read(0, 1, wide)).0, of(1, Feed::Supplied { at: DATA, length: 17 }));
    assert_eq!(bench.send(&read(1, 0, context(0x10, 0x10))).0, of(0, Feed::Page { at: 0x1FFF, length: 1 }));
    // The next fault of vCPU 1 is a write, and the one behind it a read of
    // another address.
    for (seq, own, feed) in
        [(2, fault(0x10, 0x1234, 2, 2), Feed::None), (3, fault(0x10, 0x1500, R, 2), Feed::Page { at: 0x1500, length: 0xB00 })]
    {
        assert_eq!(bench.offer(1, &[7; 536], 10, &own).0, handled(576));
        assert_eq!(bench.send(&read(seq, 1, NO_CONTEXT)).0, of(1, feed));
    }
}

/// Replies off, or on: event replies have none, and 12 is answered alike.
#[test]
fn with_replies_off() {
    for flags in [0, 1] {
        let mut bench = awaiting(6, 0x1800, R);
        bench.send(&response(0, 1, flags));
        assert_eq!(fed(&bench, context(0, 9)), data(6, 9));
        assert_eq!(fed(&bench, NO_CONTEXT), page(0x1800, 0x2000));
        bench.guest.clear();
        assert_eq!(fed(&bench, NO_CONTEXT), None);
        assert!(bench.closes(&fault_reply(0, 1, 0, context(0, 257))));
    }
}

/// "entry 2, 4, 5, 3, 6", and no event 10 of another length.
#[test]
fn refusals() {
    let mut waiting = awaiting(0, 0x1000, R);
    let own = fault(0, 0x1000, R, 2);
    let mut out = [UNTOUCHED; 576];
    for length in (0..24).chain(25..60) {
        let bytes = vec![0; length];
        assert_eq!(waiting.session.enter(1, &[0; 536], 10, &bytes, &mut out[..9]), Answer::BadState);
    }
    assert_eq!(waiting.session.enter(3, &[0; 536], 10, &own, &mut out), Answer::BadVcpu);
    assert_eq!(waiting.session.enter(1, &[0; 535], 10, &own, &mut out), Answer::BadState);
    assert_eq!(waiting.session.enter(1, &[0; 536], 10, &own, &mut out[..575]), Answer::ShortOut);
    assert_eq!(waiting.session.enter(1, &[0; 536], 10, &own, &mut out), Answer::Waiting);
    assert_eq!(out, [UNTOUCHED; 576]);
    // A short output refuses a reply before it is looked at.
    let mut out = [UNTOUCHED; 4111];
    let message = fault_reply(0, 1, 0, NO_CONTEXT);
    assert_eq!(waiting.session.message(&message, &mut out, &mut []), Answer::ShortOut);
    assert_eq!(waiting.session.awaited(1), Some(10));
    waiting.send(&[]);
    assert_eq!(waiting.session.awaited(1), None);
    assert_eq!(waiting.send(&message), (Answer::Closed, vec![]));
    assert_eq!(waiting.offer(1, &[0; 536], 10, &own), (Answer::Closed, vec![]));
}
