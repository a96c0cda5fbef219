//! Filters that are wrong in one way, and how the harness finds it.
#![allow(dead_code)]

use differential::drive::{work, Failure, Quota};
use differential::{parse, run, Answer, Batch, Filter, Lookup, Plain, Record, Runner, Settings, Told};
use std::cell::Cell;
use std::sync::atomic::AtomicBool;

/// A way to be wrong: each function does what the right filter does, unless a fault says otherwise.
pub trait Fault {
    fn fresh(&self, settings: &Settings) -> Result<Plain, Answer> {
        Plain::fresh(settings)
    }

    fn load(&self, settings: &Settings, image: &[u8]) -> Result<Plain, Answer> {
        Plain::load(settings, image)
    }

    fn message(&mut self, right: &mut Plain, message: &[u8], out: &mut [u8], guest: &mut [u8]) -> (Answer, Option<i32>) {
        right.message(message, out, guest)
    }

    fn batch(&mut self, right: &mut Plain, input: &[u8], lent: Lent) -> Batch {
        right.batch(input, lent.out, lent.signals, lent.guest)
    }

    fn enter(&mut self, right: &mut Plain, entry: &Entry, out: &mut [u8]) -> Answer {
        entry.of(right, out)
    }

    fn image_size(&self, right: &Plain) -> usize {
        right.image_size()
    }

    fn write_image(&self, right: &Plain, out: &mut [u8]) -> Answer {
        right.write_image(out)
    }

    fn look(&self, right: &Plain, lookup: Lookup) -> Told {
        right.look(lookup)
    }

    fn pages(&self, right: &Plain) -> Vec<(u32, u64, u8)> {
        right.pages()
    }

    fn list_ready(&self, records: &mut [Record], index: usize) -> Answer {
        Plain::list_ready(records, index)
    }

    fn list_cr(&self, records: &mut [Record], index: usize, cr: u32, on: bool) -> Answer {
        Plain::list_cr(records, index, cr, on)
    }

    /// The fault of a copy, where there are copies: the messages of a batch are taken one by one on one.
    fn copied(&self) -> Option<Box<dyn Fault>> {
        None
    }
}

/// What is lent to a batch.
pub struct Lent<'a> {
    pub out: &'a mut [u8],
    pub signals: &'a mut [u32],
    pub guest: &'a mut [u8],
}

/// What an entry is about.
#[derive(Clone, Copy)]
pub struct Entry<'a> {
    pub vcpu: u32,
    pub state: &'a [u8],
    pub event: u32,
    pub own: &'a [u8],
}

impl Entry<'_> {
    /// As the right filter does it.
    pub fn of(&self, right: &mut Plain, out: &mut [u8]) -> Answer {
        right.enter(self.vcpu, self.state, self.event, self.own, out)
    }
}

pub type MakeFault = fn() -> Box<dyn Fault>;

thread_local! {
    /// The fault of the sessions that this thread begins.
    static FAULT: Cell<Option<MakeFault>> = const { Cell::new(None) };
}

/// The right filter, but for the fault chosen.
pub struct Wrong {
    right: Plain,
    fault: Box<dyn Fault>,
}

/// Chooses the fault of the sessions that this thread begins.
pub fn choose(fault: MakeFault) {
    FAULT.set(Some(fault));
}

fn fault() -> Box<dyn Fault> {
    FAULT.get().expect("a fault was chosen")()
}

impl Filter for Wrong {
    fn fresh(settings: &Settings) -> Result<Wrong, Answer> {
        let fault = fault();
        Ok(Wrong { right: fault.fresh(settings)?, fault })
    }

    fn load(settings: &Settings, image: &[u8]) -> Result<Wrong, Answer> {
        let fault = fault();
        Ok(Wrong { right: fault.load(settings, image)?, fault })
    }

    fn ready(&mut self, vcpu: u32) -> Answer {
        self.right.ready(vcpu)
    }

    fn message(&mut self, message: &[u8], out: &mut [u8], guest: &mut [u8]) -> (Answer, Option<i32>) {
        self.fault.message(&mut self.right, message, out, guest)
    }

    fn batch(&mut self, input: &[u8], out: &mut [u8], signals: &mut [u32], guest: &mut [u8]) -> Batch {
        self.fault.batch(&mut self.right, input, Lent { out, signals, guest })
    }

    fn enter(&mut self, vcpu: u32, state: &[u8], event: u32, own: &[u8], out: &mut [u8]) -> Answer {
        self.fault.enter(&mut self.right, &Entry { vcpu, state, event, own }, out)
    }

    fn image_size(&self) -> usize {
        self.fault.image_size(&self.right)
    }

    fn write_image(&self, out: &mut [u8]) -> Answer {
        self.fault.write_image(&self.right, out)
    }

    fn look(&self, lookup: Lookup) -> Told {
        self.fault.look(&self.right, lookup)
    }

    fn pages(&self) -> Vec<(u32, u64, u8)> {
        self.fault.pages(&self.right)
    }

    fn list_ready(records: &mut [Record], index: usize) -> Answer {
        fault().list_ready(records, index)
    }

    fn list_cr(records: &mut [Record], index: usize, cr: u32, on: bool) -> Answer {
        fault().list_cr(records, index, cr, on)
    }

    fn copied(&self) -> Option<Wrong> {
        Some(Wrong { right: self.right.clone(), fault: self.fault.copied()? })
    }
}

pub const QUOTA: Quota = Quota { messages: 100_000, images: 10_000 };

/// For a fault that shows seldom, such as a wrong size of one event's reply alone.
pub const PATIENCE: Quota = Quota { messages: 400_000, images: 40_000 };

/// The fault is found soon, and the list that shows it has few calls, which show it again when read from their text.
pub fn found(most: usize, fault: MakeFault) -> Box<Failure> {
    found_within(QUOTA, most, fault)
}

pub fn found_within(quota: Quota, most: usize, fault: MakeFault) -> Box<Failure> {
    choose(fault);
    let failure = work::<Wrong, Plain>(1, 0, quota, &AtomicBool::new(false)).err().expect("the fault is found");
    println!("after {} messages and {} images:\n{failure}", failure.seen.messages, failure.seen.images_read);
    assert!(failure.list.len() <= most, "{} calls, and not at most {most}", failure.list.len());

    let calls = parse(&failure.to_string()).expect("what is printed can be replayed");
    assert_eq!(calls, failure.list);
    let again = run(&mut Runner::<Wrong, Plain>::new(), &calls).expect_err("it fails again");
    assert!(again.is_like(&failure.mismatch) && again.at == calls.len() - 1);
    run(&mut Runner::<Plain, Plain>::new(), &calls).expect("the right filter agrees with itself");
    failure
}
