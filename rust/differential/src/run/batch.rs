//! Batches on both sides; and the same messages one by one.

use super::{both, same, same_bytes, text_of, Lent, Pair, Runner, Unlike, BLANK};
use crate::batch::messages;
use crate::{padding_of, Call, Filter, Lookup};
use reference::{Answer, Batch, Feed, Signal};
use std::panic::{catch_unwind, AssertUnwindSafe};

/// A message of a batch, as it is taken alone: its answer, and what it writes.
#[derive(Clone, Copy)]
pub(crate) struct Taken<'a> {
    pub message: &'a [u8],
    pub answer: Answer,
    pub bytes: &'a [u8],
}

/// What a batch is lent.
#[derive(Clone, Copy)]
struct Room {
    out: usize,
    places: usize,
    guest: usize,
}

impl Room {
    fn batch<F: Filter>(self, filter: &mut F, bytes: &[u8], lent: &mut Lent) -> Batch {
        let Room { out, places, guest } = self;
        filter.batch(bytes, &mut lent.out[..out], &mut lent.signals[..places], &mut lent.guest[..guest])
    }
}

/// Compares lists as long as each other, place by place.
fn same_places(part: &'static str, left: &[u32], right: &[u32]) -> Result<(), Unlike> {
    match left.iter().zip(right).position(|(left, right)| left != right) {
        None => Ok(()),
        Some(at) => {
            let told = |place: u32| format!("{place} at place {at}");
            Err(Unlike { part, left: told(left[at]), right: told(right[at]) })
        }
    }
}

/// Messages whose answers tell the reply mode and the next event seq: an error, replies off with errors told, and an error.
const PROBES: [&[u8]; 3] = [
    &[3, 0, 8, 0, 1, 0, 0, 0, 0, 0, 0, 0, 0, 0, 0, 0],
    &[15, 0, 8, 0, 2, 0, 0, 0, 0, 1, 1, 0, 0, 0, 0, 0],
    &[3, 0, 8, 0, 3, 0, 0, 0, 0, 0, 0, 0, 0, 0, 0, 0],
];

impl<L: Filter, R: Filter> Runner<L, R> {
    /// A batch on both sides, and its used messages one by one on a copy of the left one, where it gives one.
    pub(super) fn make_batch(&mut self, pair: &mut Pair<L, R>, call: &Call) -> Result<Answer, Unlike> {
        let Call::Batch { out, places, guest, bytes } = call else { unreachable!("a batch") };
        let room = Room { out: *out, places: *places, guest: *guest };
        let copy = pair.left.copied();
        if copy.is_some() {
            self.single.guest.copy_from_slice(&self.left.guest);
        }
        self.lent = self.lent.max(*out);
        let (ours, theirs) = (&mut self.left, &mut self.right);
        let (left, right) = both(|| room.batch(&mut pair.left, bytes, ours), || room.batch(&mut pair.right, bytes, theirs))?;
        same("answer", &left.answer.number(), &right.answer.number())?;
        same("used bytes", &left.used, &right.used)?;
        same("count of bytes", &left.count, &right.count)?;
        same("count of signals", &left.listed, &right.listed)?;
        same("resume", &left.resume, &right.resume)?;
        same("feed", &left.feed, &right.feed)?;
        // "a batch carries none", whichever of its messages has bad padding
        same("padding", &padding_of(left.answer), &0)?;
        same("answer in full", &left.answer, &right.answer)?;
        (self.written, self.listed) = (left.count, left.listed);
        self.same_output(*out)?;
        same_places("signals", &self.left.signals, &self.right.signals)?;
        same_places("signals past the count", &self.left.signals[left.listed..], &self.signals[left.listed..])?;
        same_bytes("guest memory", &self.left.guest, &self.right.guest)?;
        self.same_fed(left.feed, bytes, *guest)?;
        self.batch = Some(left);
        if let Some(copy) = copy {
            let singly = catch_unwind(AssertUnwindSafe(|| self.same_singly(pair, copy, call, room, &left)));
            let panic = |panic| Unlike { part: "panic singly", left: text_of(panic), right: "did not panic".to_owned() };
            singly.unwrap_or_else(|text| Err(panic(text)))?;
        }
        self.write_image(pair, 0)?;
        self.image = 0;
        self.counts.saw_batch(call, &left, &self.left.signals[..left.listed]);
        Ok(left.answer)
    }

    /// "Outputs, signals, session and guest memory must equal the used messages taken singly".
    fn same_singly(&mut self, pair: &Pair<L, R>, mut copy: L, call: &Call, room: Room, batch: &Batch) -> Result<(), Unlike> {
        let Call::Batch { bytes, .. } = call else { unreachable!("a batch") };
        let lent = &mut self.single;
        let (mut used, mut count, mut listed, mut resume, mut feed) = (0, 0, 0, Signal::None, Feed::None);
        let mut answers = Vec::new();
        let (mut is_closing, mut number) = (false, 0);
        let is_refused = !matches!(batch.answer, Answer::Handled { .. } | Answer::Closing | Answer::NoPage { .. });
        let mut all = messages(bytes);
        let why = loop {
            if used >= batch.used {
                // why it may be that no more are used
                break match room {
                    _ if is_refused || is_closing || resume != Signal::None || used == bytes.len() => true,
                    Room { out, places, .. } => out - count < 4112 || listed == places,
                };
            }
            if is_closing || resume != Signal::None || listed == room.places {
                break false;
            }
            let message = all.next().expect("there are bytes of it");
            let start = used;
            used += message.len();
            let (answer, _) = copy.message(message, &mut lent.out[count..room.out], &mut lent.guest[..room.guest]);
            answers.push((message, answer, count));
            number = answer.number();
            let code = match answer {
                Answer::Handled { count: written, signal, feed: fed, .. } => {
                    count += written;
                    // a part of the message is one of the input
                    feed = match fed {
                        Feed::Supplied { at, length } => Feed::Supplied { at: start + at, length },
                        other => other,
                    };
                    match signal {
                        Signal::None => continue,
                        Signal::Kick { vcpu, wait: false } => 256 + 2 * u32::from(vcpu),
                        Signal::Kick { vcpu, wait: true } => 257 + 2 * u32::from(vcpu),
                        Signal::Crash { vcpu } => 512 + u32::from(vcpu),
                        Signal::Resume { .. } => {
                            resume = signal;
                            continue;
                        }
                    }
                }
                Answer::NoPage { signal } => {
                    resume = signal;
                    continue;
                }
                Answer::Closing => {
                    is_closing = true;
                    continue;
                }
                // there was no room for it
                _ => break false,
            };
            lent.signals[listed] = code;
            listed += 1;
        };
        let singly = (used, count, listed, resume, number);
        let is_same_output = lent.out[..room.out] == self.left.out[..room.out];
        let is_same_list = lent.signals == self.left.signals;
        let is_same_guest = lent.guest == self.left.guest;
        let taken = |(message, answer, at)| {
            let count = if let Answer::Handled { count, .. } = answer { count } else { 0 };
            Taken { message, answer, bytes: &lent.out[at..at + count] }
        };
        let taken: Vec<Taken> = answers.into_iter().map(taken).collect();
        if why {
            self.counts.saw_taken(call, batch, &taken);
        }
        // as at first, for the next batch
        lent.out[..count].copy_from_slice(&self.pattern[..count]);
        lent.signals[..listed].copy_from_slice(&self.signals[..listed]);

        same("end singly", &why, &true)?;
        let together =
            (batch.used, batch.count, batch.listed, batch.resume, if is_refused { 0 } else { batch.answer.number() });
        same("counts singly", &together, &singly)?;
        same("feed singly", &batch.feed, &feed)?;
        same("output singly", &is_same_output, &true)?;
        same("signals singly", &is_same_list, &true)?;
        same("guest memory singly", &is_same_guest, &true)?;
        self.same_session(&pair.left, copy, &bytes[..batch.used])
    }

    /// Two sessions of one filter: their images or, while a reply is awaited, what lookups tell; and what is beside the standing.
    fn same_session(&mut self, left: &L, mut copy: L, used: &[u8]) -> Result<(), Unlike> {
        let size = left.image_size();
        same("image_size singly", &size, &copy.image_size())?;
        let images = [&mut self.left.image, &mut self.single.image];
        for image in images {
            image.clear();
            image.resize(size, BLANK);
        }
        let answers = (left.write_image(&mut self.left.image), copy.write_image(&mut self.single.image));
        same("answer to writing the image singly", &answers.0, &answers.1)?;
        same_bytes("image singly", &self.left.image, &self.single.image)?;
        if answers.0 == Answer::Busy {
            let ask = |lookup| same("lookup singly", &left.look(lookup), &copy.look(lookup));
            (0..15).try_for_each(|event| ask(Lookup::VmEvent { event }))?;
            for vcpu in 0..16 {
                let plain =
                    [Lookup::IsReady { vcpu }, Lookup::Singlestep { vcpu }, Lookup::Pauses { vcpu }, Lookup::Awaited { vcpu }];
                plain.into_iter().try_for_each(ask)?;
                (0..15).try_for_each(|event| ask(Lookup::VcpuEvent { vcpu, event }))?;
                [0, 3, 4].into_iter().try_for_each(|cr| ask(Lookup::Cr { vcpu, cr }))?;
            }
            for message in messages(used) {
                if let [12, 0, 16, 0, _, _, _, _, low, high, .., a, b, c, d] = message {
                    let vcpu = u16::from_le_bytes([*low, *high]).into();
                    ask(Lookup::Msr { vcpu, msr: u32::from_le_bytes([*a, *b, *c, *d]) })?;
                }
            }
            same("pages singly", &left.pages(), &copy.pages())?;
        }
        let Some(mut left) = left.copied() else { return Ok(()) };
        let (ours, theirs) = (&mut self.left.image, &mut self.single.image);
        for image in [&mut *ours, &mut *theirs] {
            image.clear();
            image.resize(4112, BLANK);
        }
        for probe in PROBES {
            let answers = (left.message(probe, ours, &mut []), copy.message(probe, theirs, &mut []));
            same("next answer singly", &answers.0, &answers.1)?;
            same_bytes("next output singly", ours, theirs)?;
        }
        Ok(())
    }
}
