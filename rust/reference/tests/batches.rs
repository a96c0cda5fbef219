//! Document 02, W3: "Several messages in one write".

mod common;

use common::*;
use reference::{Action, Answer, Batch, Feed, Settings, Signal};

/// What a place of the list holds where nothing was listed.
const UNLISTED: u32 = 0xA5A5_A5A5;

/// A batch's result with the bytes written and the signals listed.
#[derive(Debug, PartialEq)]
struct Result {
    number: u32,
    used: usize,
    bytes: Vec<u8>,
    signals: Vec<u32>,
    resume: Signal,
    feed: Feed,
}

/// All that the session and its guest hold.
fn all(bench: &Bench) -> (String, Vec<u8>) {
    (format!("{:?}", bench.session), bench.guest.clone())
}

/// Takes a batch. Output and list past their counts are untouched, the answer
/// agrees with the counts, and the used messages, taken singly on a copy, leave
/// the same.
fn batch_in(bench: &mut Bench, input: &[u8], room: usize, places: usize) -> Result {
    let mut single = bench.clone();
    let before = all(bench);
    let (mut out, mut list) = (vec![UNTOUCHED; room], vec![UNLISTED; places]);
    let Batch { answer, used, count, listed, resume, feed } = bench.session.batch(input, &mut out, &mut list, &mut bench.guest);
    assert!(out[count..].iter().all(|&byte| byte == UNTOUCHED));
    assert!(list[listed..].iter().all(|&place| place == UNLISTED));
    match answer {
        Answer::Handled { .. } => assert_eq!(answer, Answer::Handled { count, signal: resume, feed, padding: 0 }),
        Answer::NoPage { .. } => {
            assert_eq!((answer, feed), (Answer::NoPage { signal: resume }, Feed::None));
            assert!(matches!(resume, Signal::Resume { action: Action::Continue, .. }));
        }
        Answer::Closing => assert!(resume == Signal::None && feed == Feed::None && bench.session.is_closed()),
        _ => {
            assert_eq!((used, count, listed, resume, feed), (0, 0, 0, Signal::None, Feed::None));
            assert!(all(bench) == before);
        }
    }
    out.truncate(count);
    list.truncate(listed);

    let (mut at, mut bytes, mut signals, mut last) = (0, Vec::new(), Vec::new(), (Signal::None, Feed::None));
    let mut number = 0;
    while at < used {
        assert_eq!(last, (Signal::None, Feed::None), "a resume ends the batch");
        assert!(!single.session.is_closed());
        let end = match input.get(at + 2..at + 8) {
            Some(rest) => (at + 8 + usize::from(u16::from_le_bytes([rest[0], rest[1]]))).min(input.len()),
            None => input.len(),
        };
        let (answer, written) = single.send(&input[at..end]);
        bytes.extend(written);
        number = answer.number();
        match answer {
            Answer::Handled { signal: Signal::Kick { vcpu, wait }, .. } => {
                signals.push(256 + 2 * u32::from(vcpu) + u32::from(wait))
            }
            Answer::Handled { signal: Signal::Crash { vcpu }, .. } => signals.push(512 + u32::from(vcpu)),
            // What is supplied is a part of the message, and so of the input.
            Answer::Handled { signal, feed: Feed::Supplied { at: part, length }, .. } => {
                last = (signal, Feed::Supplied { at: at + part, length })
            }
            Answer::Handled { signal, feed, .. } => last = (signal, feed),
            Answer::NoPage { signal } => last = (signal, Feed::None),
            answer => assert_eq!(answer, Answer::Closing),
        }
        at = end;
    }
    if matches!(answer.number(), 0 | 1 | 12) {
        assert_eq!(answer.number(), number);
    }
    assert_eq!((at, &bytes, &signals, last), (used, &out, &list, (resume, feed)));
    assert!(all(&single) == all(bench));
    Result { number: answer.number(), used, bytes: out, signals: list, resume, feed }
}

/// A batch with room for all of it.
fn batch(bench: &mut Bench, messages: &[Vec<u8>]) -> Result {
    batch_in(bench, &messages.concat(), 65_536, 300)
}

fn bench() -> Bench {
    Bench::new(settings())
}

fn version() -> Vec<u8> {
    msg(1, 0, &[])
}

/// The number, the used bytes, the count of output bytes and the signals.
fn short(result: &Result) -> (u32, usize, usize, &[u32]) {
    (result.number, result.used, result.bytes.len(), &result.signals)
}

/// A vCPU awaits a pause's reply with this seq.
fn paused(bench: &mut Bench, vcpu: u16, seq: u32) {
    bench.send(&pause(vcpu, 0));
    let (answer, event) = bench.enter(vcpu, &[7; 536]);
    assert_eq!((answer, &event[4..8]), (handled(552), &seq.to_le_bytes()[..]));
}

/// A vCPU awaits an event's reply with this seq.
fn offered(bench: &mut Bench, vcpu: u16, event: u8, own: &[u8], seq: u32) {
    bench.send(&vcpu_event(vcpu, event.into(), 1));
    let (answer, bytes) = bench.offer(vcpu, &[7; 536], event.into(), own);
    assert_eq!((answer, &bytes[4..8]), (handled(552 + own.len()), &seq.to_le_bytes()[..]));
}

/// Where the output or the list ends the batch, or an incomplete message.
#[test]
fn examples() {
    let two = [pause(1, 1), version()].concat();
    assert_eq!((pause(1, 1).len(), version().len()), (24, 8));
    let result = batch_in(&mut bench(), &two, 65_536, 1);
    assert_eq!(short(&result), (0, 24, 16, &[259][..]));
    assert_eq!(result.bytes, hex("0900080000000000 0000000000000000"));
    let result = batch_in(&mut bench(), &two, 65_536, 2);
    assert_eq!(short(&result), (0, 32, 48, &[259][..]));
    assert_eq!(
        result.bytes,
        hex("0900080000000000 0000000000000000 0100180000000000 0000000000000000 0100000000000000 0101010101000000")
    );
    let versions = [version(), version()].concat();
    assert_eq!(short(&batch_in(&mut bench(), &versions, 4112, 1)), (0, 8, 32, &[][..]));
    let tail = [version(), vec![1, 0, 0]].concat();
    assert_eq!(short(&batch_in(&mut bench(), &tail, 65_536, 1)), (1, 11, 32, &[][..]));
    assert_eq!(short(&batch_in(&mut bench(), &tail[8..], 4112, 1)), (1, 3, 0, &[][..]));
}

/// "Refusals, tested first, for an empty batch too: closed 2, short output 3, a
/// list with no place 11". What they leave untouched, `batch_in` tests.
#[test]
fn refusals() {
    let mut open = bench();
    offered(&mut open, 1, 3, &[], 0);
    open.send(&response(0, 1, 1));
    let mut closed = open.clone();
    closed.send(&[]);
    for input in [vec![], vec![9], version(), [pause(0, 1), pause(7, 0), event_reply(0, 1, 0, 3)].concat()] {
        for room in [0, 1, 4096, 4111, 4112, 65_536] {
            for places in [0, 1, 300] {
                let number = batch_in(&mut closed, &input, room, places).number;
                assert_eq!(number, 2);
                let number = batch_in(&mut open.clone(), &input, room, places).number;
                match (room, places) {
                    (..=4111, _) => assert_eq!(number, 3),
                    (_, 0) => assert_eq!(number, 11),
                    _ => assert!(number < 2),
                }
            }
        }
    }
    assert_eq!(Answer::NoPlace.number(), 11);
}

#[test]
fn an_empty_batch_does_nothing() {
    let mut bench = bench();
    let before = all(&bench);
    let nothing = Result { number: 0, used: 0, bytes: vec![], signals: vec![], resume: Signal::None, feed: Feed::None };
    assert_eq!(batch_in(&mut bench, &[], 4112, 1), nothing);
    assert!(all(&bench) == before);
}

/// "before one, under 4,112 output bytes [...] remain".
#[test]
fn output_room_before_every_message() {
    // Each has a reply of 16 bytes, so that the room for n of them is 4,112
    // + 16 × (n - 1).
    let checks = vec![check_event(4); 5].concat();
    for (room, used) in [(4112, 1), (4127, 1), (4128, 2), (4143, 2), (4144, 3), (4175, 4), (4176, 5), (4192, 5)] {
        assert_eq!(short(&batch_in(&mut bench(), &checks, room, 1)), (0, 16 * used, 16 * used, &[][..]), "{room}");
    }
    // Before one that writes nothing, one that closes and an incomplete one.
    let quiet = response(0, 1, 0);
    for next in [quiet, msg(16, 0, &[]), vec![0; 3], msg(1, 0, &[0; 20])[..9].to_vec()] {
        let input = [version(), next].concat();
        for room in [4112, 4143] {
            let mut bench = bench();
            assert_eq!(short(&batch_in(&mut bench, &input, room, 9)), (0, 8, 32, &[][..]));
            assert!(!bench.session.is_closed());
        }
        let result = batch_in(&mut bench(), &input, 4144, 9);
        assert_eq!((result.used, result.bytes.len()), (input.len(), 32));
    }
    // What writes nothing leaves the room for the next.
    let mut off = bench();
    off.send(&response(0, 1, 0));
    let silent = vec![vm_event(1, 1); 300].concat();
    assert_eq!(short(&batch_in(&mut off, &silent, 4112, 1)), (0, 300 * 16, 0, &[][..]));
}

/// "before one, [...] no list place remain".
#[test]
fn list_place_before_every_message() {
    let kick = pause(1, 0);
    for next in [version(), response(0, 1, 0), pause(0, 1), msg(16, 0, &[]), vec![0; 3], msg(1, 0, &[0; 20])[..9].to_vec()] {
        let input = [kick.clone(), next].concat();
        let mut full = bench();
        assert_eq!(short(&batch_in(&mut full, &input, 65_536, 1)), (0, 24, 16, &[258][..]));
        assert!(!full.session.is_closed());
        assert_eq!(batch_in(&mut bench(), &input, 65_536, 2).used, input.len());
    }
    // A reply that would resume needs a place too, though it takes none.
    let mut bench = bench();
    offered(&mut bench, 1, 3, &[], 0);
    let input = [pause(0, 0), event_reply(0, 1, 0, 3)].concat();
    let result = batch_in(&mut bench, &input, 65_536, 1);
    assert_eq!((short(&result), result.resume), ((0, 24, 16, &[256][..]), Signal::None));
    // The same write goes on with the rest: a place is there.
    let result = batch_in(&mut bench, &input[24..], 65_536, 1);
    let resume = Signal::Resume { vcpu: 1, action: Action::Continue, value: 0 };
    assert_eq!((short(&result), result.resume), ((0, 24, 0, &[][..]), resume));
}

/// "kick as 256 + 2 × vCPU + wait, crash as 512 + vCPU", for every vCPU.
#[test]
fn numbers_of_signals() {
    let mut bench = Bench::new(Settings { vcpus: 16, ..settings() });
    let kicks: Vec<_> = (0..16).flat_map(|vcpu| [pause(vcpu, 0), pause(vcpu, 1)]).collect();
    assert_eq!(batch(&mut bench, &kicks).signals, (256..288).collect::<Vec<u32>>());
    let mut crashes = Vec::new();
    for vcpu in 0..16 {
        bench.enter(vcpu, &[0; 536]);
        crashes.push(event_reply(vcpu.into(), vcpu, 2, 2));
    }
    let result = batch_in(&mut bench, &crashes.concat(), 4112, 17);
    assert_eq!(short(&result), (0, 16 * 24, 0, &(512..528).collect::<Vec<u32>>()[..]));
    assert!(!bench.session.is_closed());
}

/// "A resume is handed back beside the list and ends the batch."
#[test]
fn a_resume_ends_the_batch() {
    let value = 0x8000_0000_0000_0001;
    for (event, own, reply, resume) in [
        (3, 0, event_reply(0, 1, 0, 3), Signal::Resume { vcpu: 1, action: Action::Continue, value: 0 }),
        (4, 16, event_reply(0, 1, 1, 4), Signal::Resume { vcpu: 1, action: Action::Retry, value: 0 }),
        (5, 24, value_reply(0, 1, 0, 5, value), Signal::Resume { vcpu: 1, action: Action::Continue, value }),
    ] {
        let mut bench = bench();
        bench.send(&control_cr(1, 0, 1));
        offered(&mut bench, 1, event, &vec![0; own], 0);
        let used = 24 + reply.len();
        let result = batch(&mut bench, &[pause(0, 1), reply, version(), vec![0]]);
        assert_eq!((short(&result), result.resume), ((0, used, 16, &[257][..]), resume));
        // The rest is for the next call.
        let result = batch(&mut bench, &[version()]);
        assert_eq!((short(&result), result.resume), ((0, 8, 32, &[][..]), Signal::None));
    }
    // With one place, which it does not take.
    let mut bench = bench();
    offered(&mut bench, 0, 3, &[], 0);
    let result = batch_in(&mut bench, &event_reply(0, 0, 0, 3), 4112, 1);
    assert_eq!(
        (short(&result), result.resume),
        ((0, 24, 0, &[][..]), Signal::Resume { vcpu: 0, action: Action::Continue, value: 0 })
    );
}

/// A pause's continue is no resume, and a crash is in the list.
#[test]
fn a_pause_and_a_crash_go_on() {
    let mut bench = Bench::new(Settings { vcpus: 3, ..settings() });
    paused(&mut bench, 0, 0);
    paused(&mut bench, 1, 1);
    offered(&mut bench, 2, 7, &[], 2);
    let messages = [event_reply(1, 1, 0, 2), event_reply(2, 2, 2, 7), version(), event_reply(0, 0, 2, 2), pause(1, 1)];
    let result = batch(&mut bench, &messages);
    assert_eq!((short(&result), result.resume), ((0, 4 * 24 + 8, 32 + 16, &[514, 512, 259][..]), Signal::None));
}

/// "a closing message gives answer 1, counting the bytes and signals before it",
/// and "bytes after a closing message count as unused".
#[test]
fn a_closing_message() {
    let closing = [
        // test 4, a reply that is not awaited, test 4 of a command
        msg(1, 0, &[0]),
        event_reply(0, 0, 0, 2),
        msg(9, 0, &[]),
    ];
    for message in closing {
        let mut first = bench();
        first.guest[5] = 3;
        let (guest, length) = (first.guest.clone(), message.len());
        let rest = [message.clone(), version(), pause(0, 0), vec![1, 2, 3]];
        assert_eq!(short(&batch(&mut first, &rest)), (1, length, 0, &[][..]));
        assert!(first.guest == guest && first.session.image_size() == 34);

        let mut later = bench();
        let before = [pause(1, 1), write_physical(5, &[9]), version(), pause(0, 0)];
        let used: usize = before.iter().map(Vec::len).sum();
        let result = batch(&mut later, &[&before[..], &rest].concat());
        assert_eq!(short(&result), (1, used + length, 16 + 16 + 32 + 16, &[259, 256][..]));
        // "Settings and guest memory are kept."
        assert_eq!((later.guest[5], later.session.image_size()), (9, 34));
        assert_eq!(batch(&mut later, &[version()]).number, 2);
    }
    // Replies off, so that a message with reply data closes; and by test 5.
    let result = batch(&mut bench(), &[response(0, 0, 0), pause(1, 0), version(), pause(0, 0)]);
    assert_eq!(short(&result), (1, 16 + 24 + 8, 16, &[258][..]));
    let mut forbidding = Bench::new(Settings { events: !(1 << 13), ..settings() });
    assert_eq!(short(&batch(&mut forbidding, &[version(), response(0, 1, 1), version()])), (1, 8 + 16, 32, &[][..]));
}

/// "An incomplete last message closes", and is used to the end of the input.
#[test]
fn an_incomplete_last_message() {
    let whole = write_physical(3, &[1, 2, 3]);
    for cut in 1..whole.len() {
        let mut bench = bench();
        let input = [version(), pause(1, 0), whole[..cut].to_vec()].concat();
        assert_eq!(short(&batch_in(&mut bench, &input, 65_536, 9)), (1, input.len(), 48, &[258][..]));
        assert_eq!(bench.guest[3..6], [0; 3]);
    }
    // A size field that takes what follows for its data, and then lacks some.
    let mut long = version();
    long[2..4].copy_from_slice(&u16::MAX.to_le_bytes());
    let rest = vec![version(); 300].concat();
    let input = [version(), long.clone(), rest].concat();
    assert_eq!(short(&batch_in(&mut bench(), &input, 65_536, 9)), (1, input.len(), 32, &[][..]));
    // The longest message there is, with another behind it: an unknown one has a
    // reply whatever its data.
    let longest = [vec![99, 0], u16::MAX.to_le_bytes().to_vec(), vec![0; 4 + 65_535]].concat();
    let result = batch(&mut bench(), &[version(), longest, version()]);
    assert_eq!(short(&result), (0, 8 + 65_543 + 8, 32 + 16 + 32, &[][..]));
}

/// A later read sees what the same batch wrote.
#[test]
fn guest_memory_is_the_same_for_all() {
    let mut bench = bench();
    let messages =
        [read_physical(4, 2), write_physical(4, &[1, 2]), read_physical(4, 2), write_physical(5, &[3]), read_physical(4, 2)];
    let bytes = batch(&mut bench, &messages).bytes;
    let reads = [16, 16 + 2 + 16 + 16, 2 * (16 + 2 + 16) + 16].map(|at| [bytes[at], bytes[at + 1]]);
    assert_eq!(reads, [[0, 0], [1, 2], [1, 3]]);
    assert_eq!(bench.guest[..8], [0, 0, 0, 0, 1, 3, 0, 0]);
}

/// "Tools switch replies off, set state and switch them on in one write."
#[test]
fn replies_off_and_on() {
    let mut bench = bench();
    let messages = [
        response(0, 1, 0),
        vm_event(12, 1),
        vcpu_event(1, 3, 1),
        control_cr(1, 4, 1),
        pause(1, 1),
        // An error, untold.
        pause(2, 0),
        page_access(0, &[(0x2000, 4)]),
        response(1, 1, 0),
        check_event(15),
    ];
    let result = batch_in(&mut bench, &messages.concat(), 4128, 2);
    assert_eq!(result.bytes, hex("0F00080000000000 0000000000000000 0300080000000000 EAFFFFFF00000000"));
    assert_eq!((result.number, &result.signals[..]), (0, &[259][..]));
    assert_eq!(
        bench.image(),
        hex("564D010002000010 56430000010000000000 56430100010408000100 5041000004000200000000000000 454E04000000")
    );
}

/// "Each event takes the next seq": within a batch, and between batches.
#[test]
fn seqs_of_command_errors() {
    let mut bench = bench();
    let seqs = |bytes: &[u8]| -> Vec<u32> {
        assert_eq!(bytes.len() % 568, 0);
        let events = bytes.chunks(568);
        events
            .map(|event| {
                assert_eq!((&event[..4], event[12]), (&hex("11003002")[..], 13));
                u32::from_le_bytes(event[4..8].try_into().unwrap())
            })
            .collect()
    };
    let bad = vm_event(2, 1);
    let result = batch(&mut bench, &[response(0, 1, 1), bad.clone(), vm_event(1, 1), bad.clone(), bad.clone()]);
    assert_eq!(seqs(&result.bytes), [0, 1, 2]);
    paused(&mut bench, 1, 3);
    // The last error is not told, and takes no seq.
    let result = batch(&mut bench, &[bad.clone(), event_reply(3, 1, 0, 2), bad.clone(), response(0, 0, 0), bad.clone()]);
    assert_eq!(seqs(&result.bytes), [4, 5]);
    let result = batch(&mut bench, &[bad.clone(), response(0, 1, 1), bad.clone()]);
    assert_eq!(seqs(&result.bytes), [6]);
    // 568 bytes each: room for two, and then no more.
    let result = batch_in(&mut bench, &vec![bad; 4].concat(), 4112 + 568, 1);
    assert_eq!((result.used, seqs(&result.bytes)), (2 * 16, vec![7, 8]));
}

/// Whatever the write, calling again with the unused rest gets to its end.
#[test]
fn the_rest_goes_on() {
    let messages: Vec<_> =
        (0..8).flat_map(|n| [pause(0, n & 1), check_event(3), pause(1, 1), read_physical(0, 4096)]).collect();
    let input = messages.concat();
    let mut all_at_once = bench();
    let whole = batch(&mut all_at_once, &messages);
    assert_eq!((whole.number, whole.used, whole.signals.len()), (0, input.len(), 16));
    for (room, places) in [(4112, 1), (4112, 2), (4128, 300), (9000, 1), (65_536, 3)] {
        let mut bench = bench();
        let (mut at, mut bytes, mut signals) = (0, Vec::new(), Vec::new());
        while at < input.len() {
            let result = batch_in(&mut bench, &input[at..], room, places);
            assert!(result.number == 0 && result.used > 0);
            at += result.used;
            bytes.extend(result.bytes);
            signals.extend(result.signals);
        }
        assert!((&bytes, &signals) == (&whole.bytes, &whole.signals));
        assert!(all(&bench) == all(&all_at_once));
    }
}

/// vCPU 1 awaits the reply to a read of this gpa at gva 0x104, with seq 0.
fn faulted(gpa: u64) -> Bench {
    let mut bench = bench();
    bench.send(&page_access(0, &[(gpa, 0)]));
    offered(&mut bench, 1, 10, &fault(0x104, gpa, 1, 0), 0);
    bench
}

/// W5: the bytes for an instruction are a part of the input, or of guest memory
/// as the messages before have left it.
#[test]
fn bytes_for_an_instruction() {
    let resume = Signal::Resume { vcpu: 1, action: Action::Continue, value: 1 };
    let supplying = Context { address: 0x100, size: 16, rep: 1 };
    let missing = Context { address: 0x100, size: 4, rep: 1 };
    let before = [pause(0, 1), write_physical(0x1FFE, &[0xC1, 0xC2]), version()];
    let start = before.iter().map(Vec::len).sum::<usize>();
    for count in [0, 3] {
        let (start, written, listed): (usize, usize, &[u32]) = if count == 0 { (0, 0, &[]) } else { (start, 64, &[257]) };
        for behind in [vec![], version(), vec![0; 3]] {
            let input = |context| [&before[..count].concat()[..], &fault_reply(0, 1, 0, context), &behind].concat();
            let used = start + 296;

            let (mut bench, input, feed) = (faulted(0x1FFE), input(supplying), input(missing));
            let result = batch_in(&mut bench, &input, 65_536, 9);
            assert_eq!((short(&result), result.resume), ((0, used, written, listed), resume));
            assert_eq!(result.feed, Feed::Supplied { at: start + 44, length: 12 });
            assert!(input[start + 44..][..12].iter().copied().eq((4..16).map(supplied)));

            let mut bench = faulted(0x1FFE);
            let result = batch_in(&mut bench, &feed, 65_536, 9);
            assert_eq!((short(&result), result.resume), ((0, used, written, listed), resume));
            assert_eq!(result.feed, Feed::Page { at: 0x1FFE, length: 2 });
            let expected = if count == 0 { [0, 0] } else { [0xC1, 0xC2] };
            assert_eq!(bench.guest[0x1FFE..0x2000], expected);
        }
    }
}

/// W5: answer 12 "ends a batch with that answer, itself used".
#[test]
fn no_page_ends_the_batch() {
    let resume = Signal::Resume { vcpu: 1, action: Action::Continue, value: 1 };
    let reply = fault_reply(0, 1, 0, Context { address: 0x100, size: 4, rep: 1 });
    for gpa in [0x4000, 1 << 40, u64::MAX] {
        // A closing message behind it is not used.
        for behind in [vec![], version(), vec![0; 3], msg(16, 0, &[])] {
            let result = batch_in(&mut faulted(gpa), &[&reply[..], &behind].concat(), 4112, 1);
            assert_eq!((short(&result), result.resume, result.feed), ((12, 296, 0, &[][..]), resume, Feed::None));

            let mut bench = faulted(gpa);
            let before = [pause(0, 0), version(), pause(1, 1)];
            let result = batch_in(&mut bench, &[&before.concat()[..], &reply, &behind].concat(), 65_536, 3);
            assert_eq!((short(&result), result.resume), ((12, 56 + 296, 64, &[256, 259][..]), resume));
            assert_eq!((bench.session.awaited(1), bench.session.is_closed()), (None, false));
            // The rest is for the next call.
            assert_eq!(short(&batch(&mut bench, &[version()])), (0, 8, 32, &[][..]));
        }
        // With no room for it, it is not looked at.
        let mut bench = faulted(gpa);
        let input = [pause(0, 0), reply.clone()].concat();
        assert_eq!(short(&batch_in(&mut bench, &input, 65_536, 1)), (0, 24, 16, &[256][..]));
        assert_eq!(bench.session.awaited(1), Some(10));
        assert_eq!(short(&batch_in(&mut bench, &input[24..], 65_536, 1)), (12, 296, 0, &[][..]));
    }
}

/// The other replies to faults: a retry resumes without bytes, a crash goes on,
/// and what closes closes.
#[test]
fn other_replies_to_faults() {
    for gpa in [0x1000, 0x4000] {
        let context = Context { address: 0x104, size: 1, rep: 0 };
        let reply = |action, context| fault_reply(0, 1, action, context);
        let result = batch(&mut faulted(gpa), &[version(), reply(1, context), version()]);
        let resume = Signal::Resume { vcpu: 1, action: Action::Retry, value: 0 };
        assert_eq!((short(&result), result.resume, result.feed), ((0, 304, 32, &[][..]), resume, Feed::None));
        let result = batch(&mut faulted(gpa), &[version(), reply(2, context), version()]);
        assert_eq!((short(&result), result.resume, result.feed), ((0, 312, 64, &[513][..]), Signal::None, Feed::None));
        for wrong in [Context { size: 257, ..context }, Context { rep: 2, ..context }] {
            for action in [0, 1, 2] {
                let result = batch(&mut faulted(gpa), &[version(), reply(action, wrong), version()]);
                assert_eq!((short(&result), result.feed), ((1, 304, 32, &[][..]), Feed::None));
            }
        }
    }
    // A fault whose page is forgotten in the same batch is answered all the same.
    let result = batch(&mut faulted(0x1800), &[page_access(0, &[(0x1000, 7)]), vcpu_event(1, 10, 0), reply_to_read()]);
    assert_eq!((result.number, result.feed), (0, Feed::Page { at: 0x1800, length: 0x800 }));
}

fn reply_to_read() -> Vec<u8> {
    fault_reply(0, 1, 0, NO_CONTEXT)
}
