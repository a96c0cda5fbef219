//! The longest time of a call, as measured: what a host has to reckon with when it makes one.
use crate::{access, msr, on_vcpu, proved_settings, Random, GUEST, VCPUS};
use semblurick::{Session, IMAGE_MAX, MESSAGE_OUT, PAGE_LIMIT, STATE_BYTES};
use std::hint::black_box;
use std::time::Instant;

/// As many entries as a message 13 can have: 8 + 16 * 4,094 of 65,535 bytes.
const ENTRIES: u64 = 4094;

/// A session, and what its calls are lent.
struct Host {
    session: Box<Session>,
    out: Vec<u8>,
    guest: Vec<u8>,
}

impl Host {
    fn new(revision: u32) -> Host {
        let mut session = Box::new(Session::closed());
        session.begin(&proved_settings(revision)).expect("settings in range");
        (0..VCPUS).for_each(|vcpu| session.ready(vcpu).expect("a vCPU"));
        Host { session, out: vec![0; IMAGE_MAX], guest: vec![0; GUEST] }
    }

    /// A message that gets a reply without data.
    fn send(&mut self, message: &[u8]) {
        let answer = self.session.message(black_box(message), &mut self.out[..MESSAGE_OUT], &mut self.guest).expect("open");
        assert_eq!(answer.bytes().len(), 16);
    }

    /// Makes a call so many times, and prints its median and worst. What comes before each is not measured.
    fn row(&mut self, name: &str, runs: usize, before: impl Fn(&mut Host), call: impl Fn(&mut Host)) {
        // the first touch the memory
        let mut times: Vec<f64> = (0..runs + 2)
            .map(|_| {
                before(self);
                let start = Instant::now();
                call(self);
                start.elapsed().as_nanos() as f64 / 1000.0
            })
            .skip(2)
            .collect();
        times.sort_by(f64::total_cmp);
        println!("{name:<92}{runs:>6}{:>10.2}{:>10.2}", times[runs / 2], times[runs - 1]);
    }
}

/// The longest image: every switch on, every page in use.
fn longest_image() -> Vec<u8> {
    let (vm_events, vcpu_events): (u16, u16) = (0x1002, 0x4FB8);
    let mut image = [&b"VM"[..], &1u16.to_le_bytes(), &(VCPUS as u16).to_le_bytes(), &vm_events.to_le_bytes()].concat();
    for vcpu in 0..VCPUS as u16 {
        image.extend([&b"VC"[..], &vcpu.to_le_bytes(), &[3, 7], &vcpu_events.to_le_bytes(), &[8, 0]].concat());
    }
    for vcpu in 0..VCPUS as u16 {
        (0..16384).for_each(|rank| image.extend([&b"MS"[..], &vcpu.to_le_bytes(), &msr(rank).to_le_bytes()].concat()));
    }
    for page in 0..PAGE_LIMIT as u64 {
        let (view, page) = ((page / 128) as u16, page % 128 * 1000);
        image.extend([&b"PA"[..], &view.to_le_bytes(), &[5, 0], &page.to_le_bytes()].concat());
    }
    let records = 1 + 16 + 16 * 16384 + PAGE_LIMIT as u32;
    image.extend([&b"EN"[..], &records.to_le_bytes()].concat());
    assert_eq!(image.len(), IMAGE_MAX);
    image
}

pub fn table() {
    println!("the longest calls of the proved filter: microseconds a call, with whatever else the machine does meanwhile");
    println!("{:<92}{:>6}{:>10}{:>10}", "", "runs", "median", "worst");
    let mut host = Host::new(1);
    let nothing = |_: &mut Host| {};

    let empty = host.session.clone();
    let every_page = access(0, &(1..=PAGE_LIMIT as u64).map(|page| (page, 5)).collect::<Vec<_>>());
    host.send(&every_page);
    let full = host.session.clone();
    let mut other = Host::new(2);
    other.send(&every_page);
    let full_2 = other.session;
    let mut r = Random(6);
    let mut random = |pages| (0..ENTRIES).map(|_| (r.below(pages), [0, 1, 3, 4, 5, 7][r.below(6) as usize])).collect();
    let again = |page| (0..ENTRIES).map(|i| (page, [7, 5][i as usize % 2])).collect();
    // the last entry is the first that is skipped
    let and_skipped = |page| {
        let mut entries: Vec<_> = again(page);
        entries.drain(..2);
        entries.extend([(page, 1), (5000, 1)]);
        entries
    };
    type Case<'a> = (&'a str, &'a Session, Vec<(u64, u8)>);
    let cases: [Case; 9] = [
        ("ascending, on an empty table", &empty, (0..ENTRIES).map(|page| (page, 5)).collect()),
        ("descending, on an empty table", &empty, (0..ENTRIES).rev().map(|page| (page, 5)).collect()),
        ("random, on an empty table", &empty, random(1 << 40)),
        ("random among 2,048 pages, on a full table", &full, random(2048)),
        ("the last of 1,024 pages forgotten and set", &full, again(PAGE_LIMIT as u64)),
        ("the first of 1,024 pages forgotten and set", &full, again(1)),
        ("random among 2,048 pages, on a full table, revision 2", &full_2, random(2048)),
        ("the first of 1,024 pages forgotten and set, revision 2", &full_2, again(1)),
        ("the same and then one that is skipped, revision 2", &full_2, and_skipped(1)),
    ];
    for (name, start, entries) in cases {
        let message = access(0, &entries);
        assert_eq!(message.len(), 8 + 8 + 16 * ENTRIES as usize);
        let name = format!("message 13, 4,094 entries: {name}");
        host.row(&name, 500, |host| host.session.as_mut().clone_from(start), |host| host.send(&message));
    }

    let (image, settings) = (longest_image(), proved_settings(1));
    host.row("image read, 2,111,662 bytes", 200, nothing, |host| {
        host.session.load(&settings, black_box(&image)).expect("an image");
    });
    let every = host.session.clone();
    host.row("image write, 2,111,662 bytes", 200, nothing, |host| {
        assert_eq!(host.session.write_image(&mut host.out), Ok(IMAGE_MAX));
    });
    assert!(host.out == image);
    host.row("image size, of the same", 200, nothing, |host| assert_eq!(host.session.image_size(), IMAGE_MAX));
    host.row(
        "a message that closes, of the same",
        1000,
        |host| host.session.clone_from(&every),
        |host| {
            let answer = host.session.message(black_box(&[]), &mut host.out, &mut host.guest).expect("open");
            assert!(answer.is_closing());
        },
    );
    host.row("fresh", 1000, nothing, |host| host.session.begin(black_box(&settings)).expect("settings in range"));

    // to compare: two that depend on no table
    let mut host = Host::new(1);
    let small = on_vcpu(11, 0, 3, [1, 0, 0, 0, 3, 0, 0, 0]);
    host.row("message 11", 10_000, nothing, |host| host.send(&small));
    host.row("an entry without an event", 10_000, nothing, |host| {
        let entry = host.session.enter(3, &[0; STATE_BYTES], &mut host.out).expect("an entry");
        assert!(entry.may_run());
    });
}
