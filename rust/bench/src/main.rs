//! The proved filter beside the plain Rust implementation, in one run: ns a message, best of several rounds, and the ratio.
//! With `count`: instructions a call, beside their bounds. With `longest`: the longest time of a call.
mod callgrind;
mod longest;

use std::hint::black_box;
use std::process::ExitCode;
use std::time::Instant;

const ROUNDS: usize = 25;
const VCPUS: u32 = 16;
const GUEST: usize = 16 * 4096;

/// What both can do. An answer is how many bytes were written; every call here is handled, and that is asserted.
trait Filter: Sized {
    fn fresh(revision: u32) -> Self;
    fn ready(&mut self, vcpu: u32);
    fn message(&mut self, message: &[u8], out: &mut [u8], guest: &mut [u8]) -> usize;
    fn batch(&mut self, input: &[u8], out: &mut [u8], signals: &mut [u32], guest: &mut [u8]) -> usize;
    fn enter(&mut self, vcpu: u32, state: &[u8], out: &mut [u8]) -> usize;
    fn write_image(&self, out: &mut [u8]) -> usize;
    fn from_image(image: &[u8]) -> Self;
}

/// A call that is not simply answered 0, of either filter; out of line, so that what is counted is the call.
#[cold]
#[inline(never)]
fn unexpected() -> ! {
    panic!("a call of the bench is not answered 0")
}

fn proved_settings(revision: u32) -> semblurick::Settings {
    semblurick::Settings::allowing_all(VCPUS).views(8).revision(revision)
}

impl Filter for semblurick::Session {
    fn fresh(revision: u32) -> Self {
        semblurick::Session::fresh(&proved_settings(revision)).expect("settings in range")
    }

    fn ready(&mut self, vcpu: u32) {
        semblurick::Session::ready(self, vcpu).expect("a vCPU");
    }

    fn message(&mut self, message: &[u8], out: &mut [u8], guest: &mut [u8]) -> usize {
        match semblurick::Session::message(self, message, out, guest) {
            Ok(semblurick::Answer::Handled { bytes, feed: semblurick::Feed::None, .. }) => bytes.len(),
            _ => unexpected(),
        }
    }

    fn batch(&mut self, input: &[u8], out: &mut [u8], signals: &mut [u32], guest: &mut [u8]) -> usize {
        let done = semblurick::Session::batch(self, input, out, signals, guest).expect("a batch");
        assert_eq!(done.used, input.len());
        done.bytes.len()
    }

    fn enter(&mut self, vcpu: u32, state: &[u8], out: &mut [u8]) -> usize {
        semblurick::Session::enter(self, vcpu, state, out).expect("an entry").bytes.len()
    }

    fn write_image(&self, out: &mut [u8]) -> usize {
        semblurick::Session::write_image(self, out).expect("an image")
    }

    fn from_image(image: &[u8]) -> Self {
        semblurick::Session::from_image(&proved_settings(1), image).expect("an image")
    }
}

fn reference_settings(revision: u32) -> reference::Settings {
    reference::Settings {
        vcpus: VCPUS,
        views: 8,
        commands: !0,
        events: !0,
        tsc: 0,
        features: [1; 5],
        descriptors: true,
        breakpoints: false,
        execute_only: true,
        revision,
    }
}

fn count(answer: reference::Answer) -> usize {
    match answer {
        reference::Answer::Handled { count, .. } => count,
        _ => unexpected(),
    }
}

impl Filter for reference::Session {
    fn fresh(revision: u32) -> Self {
        reference::Session::fresh(reference_settings(revision)).expect("settings in range")
    }

    fn ready(&mut self, vcpu: u32) {
        count(reference::Session::ready(self, vcpu as u16));
    }

    fn message(&mut self, message: &[u8], out: &mut [u8], guest: &mut [u8]) -> usize {
        count(reference::Session::message(self, message, out, guest))
    }

    fn batch(&mut self, input: &[u8], out: &mut [u8], signals: &mut [u32], guest: &mut [u8]) -> usize {
        let done = reference::Session::batch(self, input, out, signals, guest);
        assert_eq!((count(done.answer), done.used), (done.count, input.len()));
        done.count
    }

    fn enter(&mut self, vcpu: u32, state: &[u8], out: &mut [u8]) -> usize {
        count(reference::Session::enter(self, vcpu as u16, state, 0, &[], out))
    }

    fn write_image(&self, out: &mut [u8]) -> usize {
        count(reference::Session::write_image(self, out))
    }

    fn from_image(image: &[u8]) -> Self {
        reference::Session::read_image(reference_settings(1), image).expect("an image")
    }
}

// ---- messages

struct Random(u64);

impl Random {
    /// Splitmix64.
    fn next(&mut self) -> u64 {
        self.0 = self.0.wrapping_add(0x9E37_79B9_7F4A_7C15);
        let mut z = self.0;
        z = (z ^ z >> 30).wrapping_mul(0xBF58_476D_1CE4_E5B9);
        z = (z ^ z >> 27).wrapping_mul(0x94D0_49BB_1331_11EB);
        z ^ z >> 31
    }

    fn below(&mut self, n: u64) -> u64 {
        self.next() % n
    }
}

fn message(id: u16, seq: u32, data: &[u8]) -> Vec<u8> {
    let size = data.len() as u16;
    [&id.to_le_bytes()[..], &size.to_le_bytes(), &seq.to_le_bytes(), data].concat()
}

fn on_vcpu(id: u16, seq: u32, vcpu: u64, data: [u8; 8]) -> Vec<u8> {
    message(id, seq, &[&(vcpu as u16).to_le_bytes()[..], &[0; 6], &data].concat())
}

/// enable u8, three zeros, a number u32
fn switch(enable: u64, number: u32) -> [u8; 8] {
    let n = number.to_le_bytes();
    [enable as u8, 0, 0, 0, n[0], n[1], n[2], n[3]]
}

/// event u16, enable u8, five zeros
fn event(event: u16, enable: u64) -> [u8; 8] {
    let e = event.to_le_bytes();
    [e[0], e[1], enable as u8, 0, 0, 0, 0, 0]
}

fn msr(rank: u64) -> u32 {
    if rank < 8192 {
        rank as u32
    } else {
        0xC000_0000 + (rank as u32 - 8192)
    }
}

fn small(r: &mut Random, seq: u32) -> Vec<u8> {
    let (vcpu, on) = (r.below(VCPUS.into()), r.below(2));
    match r.below(4) {
        0 => message(5, seq, &event([1, 12][r.below(2) as usize], on)),
        1 => on_vcpu(10, seq, vcpu, event([3, 4, 5, 7, 8, 9, 10, 11, 14][r.below(9) as usize], on)),
        2 => on_vcpu(11, seq, vcpu, switch(on, [0, 3, 4][r.below(3) as usize])),
        _ => on_vcpu(12, seq, vcpu, switch(on, msr(r.below(16384)))),
    }
}

fn access(view: u16, entries: &[(u64, u8)]) -> Vec<u8> {
    let mut data = Vec::new();
    data.extend((entries.len() as u16).to_le_bytes());
    data.extend(view.to_le_bytes());
    data.extend([0; 4]);
    for (page, access) in entries {
        data.extend((page * 4096).to_le_bytes());
        data.extend([*access, 0, 0, 0, 0, 0, 0, 0]);
    }
    message(13, 0, &data)
}

fn physical(id: u16, gpa: u64, bytes: &[u8]) -> Vec<u8> {
    let data = [&gpa.to_le_bytes()[..], &4096u64.to_le_bytes(), bytes].concat();
    message(id, 0, &data)
}

// ---- rows

struct Bench {
    out: Vec<u8>,
    guest: Vec<u8>,
}

impl Bench {
    fn new() -> Bench {
        Bench { out: vec![0; 4112], guest: vec![0; GUEST] }
    }

    fn send<F: Filter>(&mut self, f: &mut F, messages: &[Vec<u8>]) {
        for m in messages {
            black_box(f.message(black_box(m), &mut self.out, &mut self.guest));
        }
    }
}

fn begun<F: Filter>() -> F {
    begun_by(1)
}

fn begun_by<F: Filter>(revision: u32) -> F {
    let mut f = F::fresh(revision);
    for vcpu in 0..VCPUS {
        f.ready(vcpu);
    }
    f
}

/// So many pages of view 0, every third page number.
fn thirds(count: u64) -> Vec<Vec<u8>> {
    let pages: Vec<(u64, u8)> = (0..count).map(|i| (3 * i, 5)).collect();
    pages.chunks(250).map(|part| access(0, part)).collect()
}

/// What a round gives: how many calls it measured, and the nanoseconds of each.
struct Measured {
    calls: usize,
    ns: f64,
}

/// What is measured, for times and for counts: callgrind finds this function by its name.
#[no_mangle]
#[inline(never)]
fn measured_region(once: &mut dyn FnMut()) {
    once();
}

/// Measures so many calls, which are done once.
fn measure(calls: usize, mut once: impl FnMut()) -> Measured {
    let start = Instant::now();
    measured_region(&mut once);
    Measured { calls, ns: start.elapsed().as_nanos() as f64 / calls as f64 }
}

fn small_commands<F: Filter>() -> Measured {
    let mut r = Random(1);
    let list: Vec<_> = (0..4096).map(|seq| small(&mut r, seq)).collect();
    let (mut f, mut b) = (begun::<F>(), Bench::new());
    b.send(&mut f, &list);
    measure(list.len() * 16, || (0..16).for_each(|_| b.send(&mut f, &list)))
}

/// Writes of 64 small commands each, end to end.
fn batches() -> Vec<Vec<u8>> {
    let mut r = Random(1);
    let list: Vec<_> = (0..4096).map(|seq| small(&mut r, seq)).collect();
    list.chunks(64).map(|part| part.concat()).collect()
}

fn batch_commands<F: Filter>() -> Measured {
    let list = batches();
    let (mut f, mut b) = (begun::<F>(), Bench::new());
    let (mut out, mut signals) = (vec![0; 4112 + 64 * 16], [0; 64]);
    let mut send = || {
        for m in &list {
            black_box(f.batch(black_box(m), &mut out, &mut signals, &mut b.guest));
        }
    };
    send();
    measure(64 * list.len() * 16, || (0..16).for_each(|_| send()))
}

/// The same, each message cut off by its size field and taken by a call of its own.
fn batch_singly<F: Filter>() -> Measured {
    let list = batches();
    let (mut f, mut b) = (begun::<F>(), Bench::new());
    let mut out = vec![0; 4112 + 64 * 16];
    let mut send = || {
        for m in &list {
            let input: &[u8] = black_box(m);
            let (mut at, mut wrote) = (0, 0);
            while at < input.len() {
                let n = 8 + usize::from(u16::from_le_bytes([input[at + 2], input[at + 3]]));
                wrote += f.message(&input[at..at + n], &mut out[wrote..], &mut b.guest);
                at += n;
            }
            black_box(wrote);
        }
    };
    send();
    measure(64 * list.len() * 16, || (0..16).for_each(|_| send()))
}

fn pause_cycles<F: Filter>() -> Measured {
    let (mut f, mut b) = (begun::<F>(), Bench::new());
    let state = [7; 536];
    let (mut r, cycles) = (Random(2), 20_000u32);
    // pause, entry and reply: three calls
    let list: Vec<_> = (0..cycles)
        .map(|seq| {
            let vcpu = r.below(VCPUS.into());
            (vcpu as u32, on_vcpu(9, seq, vcpu, [0; 8]), on_vcpu(16, seq, vcpu, [0, 2, 0, 0, 0, 0, 0, 0]))
        })
        .collect();
    measure(3 * cycles as usize, || {
        for (vcpu, pause, reply) in &list {
            b.send(&mut f, std::slice::from_ref(pause));
            assert_eq!(f.enter(*vcpu, &state, &mut b.out), 552);
            b.send(&mut f, std::slice::from_ref(reply));
        }
    })
}

/// On so many pages, all of which stand below rwx before and behind each message.
fn ascending<F: Filter, const REVISION: u32, const PAGES: u64>() -> Measured {
    let (mut f, mut b) = (begun_by::<F>(REVISION), Bench::new());
    b.send(&mut f, &thirds(PAGES));
    let mut r = Random(3);
    let list: Vec<_> = (0..512)
        .map(|_| {
            let first = r.below(PAGES - 16);
            let entries: Vec<_> = (first..first + 16).map(|i| (3 * i, [0, 1, 3, 4, 5][r.below(5) as usize])).collect();
            access(0, &entries)
        })
        .collect();
    b.send(&mut f, &list);
    measure(list.len() * 8, || (0..8).for_each(|_| b.send(&mut f, &list)))
}

fn random_entries<F: Filter, const REVISION: u32>() -> Measured {
    let (mut f, mut b) = (begun_by::<F>(REVISION), Bench::new());
    let mut r = Random(4);
    // 256 random pages set, and the same forgotten in another order
    let list: Vec<_> = (0..64)
        .flat_map(|_| {
            let set: Vec<_> = (0..256).map(|_| (r.below(1 << 40), 5)).collect();
            let mut gone: Vec<_> = set.iter().map(|(page, _)| (*page, 7)).collect();
            for i in (1..gone.len()).rev() {
                gone.swap(i, r.below(i as u64 + 1) as usize);
            }
            [access(0, &set), access(0, &gone)]
        })
        .collect();
    b.send(&mut f, &thirds(500));
    b.send(&mut f, &list);
    measure(list.len() * 4, || (0..4).for_each(|_| b.send(&mut f, &list)))
}

fn reads<F: Filter>() -> Measured {
    let (mut f, mut b) = (begun::<F>(), Bench::new());
    let list: Vec<_> = (0..256).map(|i| physical(6, i % 16 * 4096, &[])).collect();
    b.send(&mut f, &list);
    measure(list.len() * 16, || (0..16).for_each(|_| b.send(&mut f, &list)))
}

fn writes<F: Filter>() -> Measured {
    let (mut f, mut b) = (begun::<F>(), Bench::new());
    let list: Vec<_> = (0..256).map(|i| physical(7, i % 16 * 4096, &[i as u8; 4096])).collect();
    b.send(&mut f, &list);
    measure(list.len() * 16, || (0..16).for_each(|_| b.send(&mut f, &list)))
}

/// 16 vCPUs, 256 MSR switches, 1,024 pages in all views.
fn full<F: Filter>() -> F {
    let (mut f, mut b) = (begun::<F>(), Bench::new());
    let mut r = Random(5);
    let mut on = std::collections::BTreeSet::new();
    while on.len() < 256 {
        let (vcpu, rank) = (r.below(VCPUS.into()), r.below(16384));
        on.insert((vcpu, rank));
        b.send(&mut f, &[on_vcpu(12, 0, vcpu, switch(1, msr(rank)))]);
    }
    for view in 0..8 {
        let entries: Vec<_> = (0..128).map(|_| (r.below(1 << 40), 5)).collect();
        b.send(&mut f, &[access(view, &entries)]);
    }
    f
}

fn image_writes<F: Filter>() -> Measured {
    let f = full::<F>();
    let mut out = vec![0; 1 << 16];
    assert_eq!(f.write_image(&mut out), 14 + 160 + 8 * 256 + 14 * 1024);
    measure(256, || (0..256).for_each(|_| _ = black_box(f.write_image(&mut out))))
}

fn image_reads<F: Filter>() -> Measured {
    let mut out = vec![0; 1 << 16];
    let n = full::<F>().write_image(&mut out);
    measure(256, || (0..256).for_each(|_| _ = black_box(F::from_image(black_box(&out[..n])))))
}

type Round = fn() -> Measured;

const ROWS: [(&str, Round, Round); 13] = [
    ("small commands: 5, 10, 11, 12", small_commands::<semblurick::Session>, small_commands::<reference::Session>),
    ("pause, entry, reply: each call", pause_cycles::<semblurick::Session>, pause_cycles::<reference::Session>),
    (
        "message 13: 16 ascending entries on 1,000 pages",
        ascending::<semblurick::Session, 1, 1000>,
        ascending::<reference::Session, 1, 1000>,
    ),
    (
        "message 13: 256 random entries, set and forgotten",
        random_entries::<semblurick::Session, 1>,
        random_entries::<reference::Session, 1>,
    ),
    (
        "message 13: 16 ascending entries on 1,000 pages, revision 2",
        ascending::<semblurick::Session, 2, 1000>,
        ascending::<reference::Session, 2, 1000>,
    ),
    (
        "message 13: 256 random entries, set and forgotten, revision 2",
        random_entries::<semblurick::Session, 2>,
        random_entries::<reference::Session, 2>,
    ),
    // more entries than there is room, and none of them needs any
    (
        "message 13: 16 ascending entries on 1,020 pages, revision 2",
        ascending::<semblurick::Session, 2, 1020>,
        ascending::<reference::Session, 2, 1020>,
    ),
    ("read 4,096 bytes", reads::<semblurick::Session>, reads::<reference::Session>),
    ("write 4,096 bytes", writes::<semblurick::Session>, writes::<reference::Session>),
    ("image write: 256 MSR switches, 1,024 pages", image_writes::<semblurick::Session>, image_writes::<reference::Session>),
    ("image read: the same", image_reads::<semblurick::Session>, image_reads::<reference::Session>),
    ("64 small commands in a batch: each", batch_commands::<semblurick::Session>, batch_commands::<reference::Session>),
    ("the same as single calls: each", batch_singly::<semblurick::Session>, batch_singly::<reference::Session>),
];

/// The least of several rounds of both, taken in turns, so that a busy machine is as busy for the one as for the other.
fn best(proved: Round, reference: Round) -> (f64, f64) {
    (0..ROUNDS).fold((f64::INFINITY, f64::INFINITY), |(ours, theirs), _| (ours.min(proved().ns), theirs.min(reference().ns)))
}

/// The rows that have a word, or all of them for an empty one.
fn times(word: &str) {
    println!("ns a message or image, best of {ROUNDS} rounds; output and guest buffers are not cleared between calls");
    println!("{:<64}{:>10}{:>12}{:>8}", "", "proved", "reference", "ratio");
    for (name, proved, reference) in ROWS.into_iter().filter(|row| row.0.contains(word)) {
        let (ours, theirs) = best(proved, reference);
        println!("{name:<64}{ours:>10.1}{theirs:>12.1}{:>7.2}x", theirs / ours);
    }
    println!("ratio: the reference's time over the proved filter's; above 1 the proved filter is faster");
}

fn main() -> ExitCode {
    let words: Vec<String> = std::env::args().skip(1).collect();
    let words: Vec<&str> = words.iter().map(String::as_str).collect();
    let done = match words[..] {
        ["count"] => callgrind::table(),
        ["count", ref words @ ..] => callgrind::run(words),
        ["longest"] => {
            longest::table();
            Ok(())
        }
        _ => {
            times(words.first().unwrap_or(&""));
            Ok(())
        }
    };
    match done {
        Ok(()) => ExitCode::SUCCESS,
        Err(text) => {
            eprintln!("bench: {text}");
            ExitCode::FAILURE
        }
    }
}
