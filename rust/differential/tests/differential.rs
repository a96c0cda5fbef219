//! The proved filter against the plain implementation of document 01.
//!
//! A run is fixed by its seed, SEED or the number in SEMBLURICK_SEED; SEMBLURICK_REPLAY names a file of calls to be made again.

use differential::drive::{drive, Quota};
use differential::{parse, run, Plain, Proved, Runner};
use std::io::Write;
use std::time::Instant;

const SEED: u64 = 1;
/// The least that a run does.
const MESSAGES: u64 = 3_000_000;
const IMAGES: u64 = 300_000;
const LOOKUPS: u64 = 100 * MESSAGES;
const BATCHES: u64 = 10_000;
const WORKERS: u64 = 2;

/// Prints even where a test's own output is kept back.
fn say(text: &str) {
    let mut line = text.trim_end().to_owned();
    line.push('\n');
    std::io::stderr().write_all(line.as_bytes()).expect("a line can be printed");
}

fn seed() -> u64 {
    match std::env::var("SEMBLURICK_SEED") {
        Ok(text) => text.trim().parse().expect("SEMBLURICK_SEED is a number"),
        Err(_) => SEED,
    }
}

/// Where the run fails, in whatever way, says how to make it again.
struct Again(u64);

impl Drop for Again {
    fn drop(&mut self) {
        if std::thread::panicking() {
            let test = "cargo test --release --offline -p differential --test differential both_sides_agree";
            eprintln!("\nTo run this again, in the repository's folder:\n    (cd rust && SEMBLURICK_SEED={} {test})", self.0);
        }
    }
}

#[test]
fn both_sides_agree() {
    let seed = seed();
    say(&format!("differential: seed {seed} (SEMBLURICK_SEED={seed})"));
    let _again = Again(seed);
    let begun = Instant::now();
    let quota = Quota { messages: MESSAGES.div_ceil(WORKERS), images: IMAGES.div_ceil(WORKERS) };
    let counts = drive::<Proved, Plain>(seed, WORKERS, quota)
        .unwrap_or_else(|failure| panic!("\n# left is the proved filter, right the plain one\n{failure}"));
    let time = begun.elapsed().as_secs_f64();
    println!("{counts}");
    let (batches, batched) = counts.batches();
    say(&format!(
        "differential: {} messages, {batches} batches with {batched} more, {} images read and {} written in {} sessions, with {} lookups, alike on both sides; {time:.1} s",
        counts.messages,
        counts.images_read,
        counts.images_written,
        counts.sessions,
        counts.lookups()
    ));
    assert!(counts.messages >= MESSAGES && counts.images_read >= IMAGES && counts.lookups() >= LOOKUPS);
    assert!(batches >= BATCHES && batched >= 10 * BATCHES);
    assert_eq!(counts.missing(), Vec::<String>::new(), "not seen with seed {seed}");
}

/// Makes the calls of a file again, if one is named.
#[test]
fn replay() {
    let Some(file) = std::env::var_os("SEMBLURICK_REPLAY") else { return };
    let text = std::fs::read_to_string(&file).expect("the file named in SEMBLURICK_REPLAY can be read");
    let calls = parse(&text).unwrap_or_else(|why| panic!("{}: {why}", file.display()));
    let mut runner = Runner::<Proved, Plain>::new();
    if let Err(mismatch) = run(&mut runner, &calls) {
        panic!("the two sides differ in {mismatch}\n{}", calls[mismatch.at]);
    }
    say(&format!("differential: {} calls replayed, alike on both sides", calls.len()));
}
