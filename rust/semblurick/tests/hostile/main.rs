//! The library itself, lent memory of any bits: sessions and tables that no session ever had, messages, events and images that are
//! none.
//!
//! Every call is made twice, on equal copies: once with each buffer at the end of its pages, and once with each at their beginning, and
//! next to each is a page that cannot be touched. Both times the answer and every byte are the same; a lookup changes nothing, nor
//! does a refusal; a batch does what its messages do by single calls. A run is fixed by its seed, SEED or the number in SEMBLURICK_SEED.
#![cfg(all(target_os = "linux", target_arch = "x86_64"))]

mod calls;
mod lent;
mod library;
mod memory;
mod random;

use calls::{Hostile, ENDS, FED, KINDS, LOOKUPS, PADDING, REVISIONS, SIGNALS};
use library::{_exit, fork, signal, waitpid, write};
use memory::{Room, PAGE};
// the library comes with it
use semblurick as _;
use std::ffi::c_int;
use std::fmt::Write as _;
use std::io::Write as _;
use std::sync::atomic::{AtomicU64, Ordering};
use std::time::Instant;

const SEED: u64 = 1;
const CALLS: u64 = 1_000_000;
const TEST: &str = "cargo test --release --offline -p semblurick --test hostile";

/// The seed, and the number of the present call.
static FROM: AtomicU64 = AtomicU64::new(0);
pub static AT: AtomicU64 = AtomicU64::new(0);

/// A text that needs no memory but its own.
struct Line([u8; 400], usize);

impl std::fmt::Write for Line {
    fn write_str(&mut self, text: &str) -> std::fmt::Result {
        let room = self.0.get_mut(self.1..self.1 + text.len()).ok_or(std::fmt::Error)?;
        room.copy_from_slice(text.as_bytes());
        self.1 += text.len();
        Ok(())
    }
}

/// A call touched what it was not lent.
extern "C" fn caught(_number: c_int) {
    let mut line = Line([0; 400], 0);
    let (seed, at) = (FROM.load(Ordering::Relaxed), AT.load(Ordering::Relaxed));
    _ = write!(line, "\nhostile: call {at} touched memory that it was not lent\n");
    _ = write!(line, "To run this again, in the repository's folder:\n    (cd rust && SEMBLURICK_SEED={seed} {TEST})\n");
    // SAFETY: the line is there, and the process ends.
    unsafe {
        _ = write(2, line.0.as_ptr().cast(), line.1);
        _exit(99);
    }
}

fn catch() {
    let (bus, segmentation) = (7, 11);
    // SAFETY: the handler ends the process.
    unsafe {
        signal(segmentation, caught);
        signal(bus, caught);
    }
}

struct Again(u64);

impl Drop for Again {
    fn drop(&mut self) {
        if std::thread::panicking() {
            let (seed, at) = (self.0, AT.load(Ordering::Relaxed));
            eprintln!("\nhostile: call {at}. To run this again, in the repository's folder:\n    (cd rust && SEMBLURICK_SEED={seed} {TEST})");
        }
    }
}

/// Prints even where a test's own output is kept back.
fn say(text: &str) {
    std::io::stderr().write_all(format!("{text}\n").as_bytes()).expect("a line can be printed");
}

#[test]
fn memory_of_any_bits() {
    let seed = match std::env::var("SEMBLURICK_SEED") {
        Ok(text) => text.trim().parse().expect("SEMBLURICK_SEED is a number"),
        Err(_) => SEED,
    };
    say(&format!("hostile: seed {seed} (SEMBLURICK_SEED={seed})"));
    let _again = Again(seed);
    FROM.store(seed, Ordering::Relaxed);
    catch();
    let begun = Instant::now();
    let mut hostile = Hostile::new(seed);
    hostile.run(CALLS);
    let time = begun.elapsed().as_secs_f64();
    for ((name, numbers), seen) in KINDS.iter().zip(&hostile.answers) {
        for number in *numbers {
            let count = seen[*number as usize];
            println!("{count:>9}  {name}: answer {number}");
            assert!(count > 0, "{name}: answer {number} was not seen with seed {seed}");
        }
    }
    for (name, count) in SIGNALS.iter().zip(&hostile.signals) {
        println!("{count:>9}  signal: {name}");
        assert!(*count > 0, "no message had the signal {name} with seed {seed}");
    }
    for (name, count) in ENDS.iter().zip(&hostile.ends) {
        println!("{count:>9}  batch: ended by {name}");
        assert!(*count > 0, "no batch was ended by {name} with seed {seed}");
    }
    for (call, fed) in ["message", "batch"].iter().zip(&hostile.fed) {
        for (name, count) in FED.iter().zip(fed) {
            println!("{count:>9}  {call}: fed from {name}");
            assert!(*count > 0, "no {call} was fed from {name} with seed {seed}");
        }
    }
    let [refused, taken] = hostile.execute_only;
    println!("{refused:>9}  execute-only pages: refused without the flag\n{taken:>9}  execute-only pages: taken with it");
    assert!(refused > 0 && taken > 0, "execute-only pages met only one of both with seed {seed}");
    for (name, count) in REVISIONS.iter().zip(&hostile.revisions) {
        println!("{count:>9}  revision {name}");
        assert!(*count > 0, "revision {name} was not seen with seed {seed}");
    }
    for (name, count) in PADDING.iter().zip(&hostile.padding) {
        println!("{count:>9}  padding byte: {name}");
        assert!(*count > 0, "no message had a padding byte: {name}, with seed {seed}");
    }
    for event in (1..15).filter(|event| lent::own_size(*event).is_some()) {
        let [over, written] = hostile.events[event as usize];
        println!("{over:>9}  event {event}: passed over\n{written:>9}  event {event}: written");
        assert!(over > 0 && written > 0, "event {event} met only one of both with seed {seed}");
    }
    for (name, seen) in LOOKUPS.iter().zip(&hostile.lookups) {
        println!("{:>9}  lookup {name}: nothing on\n{:>9}  lookup {name}: something on", seen[0], seen[1]);
        assert!(seen[0] > 0 && seen[1] > 0, "{name} told only one thing with seed {seed}");
    }
    say(&format!("hostile: {} calls, each made twice, the same bytes; {time:.1} s", hostile.calls));
    assert!(hostile.calls >= CALLS);
}

/// The pages next to a buffer do catch what reads or writes one byte too far, behind it and before it.
#[test]
fn the_next_page_is_closed() {
    let room = Room::new(10);
    for (at, is_there) in [(0, true), (PAGE as isize - 1, true), (PAGE as isize, false), (-1, false)] {
        // SAFETY: the child touches one byte and ends.
        let status = unsafe {
            let child = fork();
            if child == 0 {
                extern "C" fn ended(_number: c_int) {
                    // SAFETY: the child ends.
                    unsafe { _exit(98) }
                }
                signal(11, ended);
                room.start.offset(at).write_volatile(1);
                _exit(0);
            }
            let mut status = 0;
            assert_eq!(waitpid(child, &mut status, 0), child);
            status
        };
        assert_eq!(status, if is_there { 0 } else { 98 << 8 }, "byte {at}");
    }
}
