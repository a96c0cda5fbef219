//! Several messages in one write: mostly good ones, so that long batches run, and now and then damaged.

use crate::guide::Guide;
use crate::message::{damage, message};
use crate::{handled, Answer, Batch, Call, Random, BATCH_ROOM, LIST_ROOM};

/// How many bytes the first message of these has: as its size field says, or all of them where it is not whole.
fn cut(bytes: &[u8]) -> usize {
    match bytes {
        [_, _, low, high, _, _, _, _, data @ ..] => 8 + data.len().min(u16::from_le_bytes([*low, *high]).into()),
        _ => bytes.len(),
    }
}

/// Whether a message is as long as its header says.
pub fn is_whole(message: &[u8]) -> bool {
    matches!(message, [_, _, low, high, _, _, _, _, data @ ..] if data.len() == u16::from_le_bytes([*low, *high]).into())
}

/// The messages of one write, end to end; the last one may be incomplete.
pub fn messages(mut bytes: &[u8]) -> impl Iterator<Item = &[u8]> {
    std::iter::from_fn(move || {
        let (message, rest) = bytes.split_at(cut(bytes));
        bytes = rest;
        (!message.is_empty()).then_some(message)
    })
}

/// The same, to be changed.
pub fn messages_mut(mut bytes: &mut [u8]) -> impl Iterator<Item = &mut [u8]> {
    std::iter::from_fn(move || {
        let length = cut(bytes);
        let (message, rest) = std::mem::take(&mut bytes).split_at_mut(length);
        bytes = rest;
        (!message.is_empty()).then_some(message)
    })
}

/// How many events there are among what a call wrote; the reply to an unknown message with id 17 is shorter.
pub fn events(bytes: &[u8]) -> u32 {
    messages(bytes).map(|message| u32::from(message.len() >= 552 && message.starts_with(&[17, 0]))).sum()
}

impl Guide {
    /// Messages in one write, each good for what the ones before it leave; mostly.
    pub fn batch(&self, random: &mut Random) -> Call {
        let mut ahead = self.clone();
        ahead.taste.many = ahead.taste.many.min(4);
        // in a long batch few faults that close are enough
        ahead.taste.closing *= random.pick(&[0, 0, 0, 4]);
        let count = match random.below(16) {
            0 => 0,
            1..5 => 1 + random.index(5),
            5..11 => random.index(40),
            11..14 => random.index(150),
            14 => 100 + random.index(201),
            _ => 300,
        };
        let mut bytes = Vec::with_capacity(24 * count);
        let mut starts = Vec::with_capacity(count);
        // a reply that comes right after a pause, which may have filled the list
        let is_reply_next = !ahead.awaited.is_empty() && !ahead.closes(9) && random.one_in(6);
        for at in 0..count {
            let message = match at {
                0 if is_reply_next => ahead.of(random, 9),
                1 if is_reply_next => ahead.reply(random, false),
                _ => ahead.proper(random),
            };
            ahead.foresee(&message);
            starts.push(bytes.len());
            bytes.extend(message);
        }
        match random.below(40) {
            // cut anywhere
            0..3 => bytes.truncate(random.index(bytes.len() + 1)),
            // one size field is wrong
            3 if count > 0 => {
                let field = random.pick(&starts) + 2;
                let size = u16::from_le_bytes([bytes[field], bytes[field + 1]]);
                let size =
                    random.pick(&[size.wrapping_add(1), size.wrapping_sub(1), 0, size ^ 8, size ^ 0x100, 0x8000, 0xFFFF]);
                bytes[field..field + 2].copy_from_slice(&size.to_le_bytes());
            }
            // something behind the last one
            4 => {
                let length = random.pick(&[1, 2, 3, 4, 7, 8, 9, 15, 16, 24, 40]);
                bytes.extend(random.bytes(length));
            }
            // one is damaged in whatever way
            5 if count > 0 => {
                let at = random.index(count);
                let end = starts.get(at + 1).copied().unwrap_or(bytes.len());
                let mut message = bytes[starts[at]..end].to_vec();
                damage(random, &mut message);
                bytes.splice(starts[at]..end, message);
            }
            // an unknown one comes first, of a size at the edges
            6 if self.replies && random.one_in(4) => {
                let size = random.pick(&[0x7FFF, 0x8000, 0xFFFF]);
                bytes.splice(0..0, message(99, 0, &vec![0; size]));
            }
            _ => {}
        }
        self.write(random, bytes)
    }

    /// A batch with output, list and guest memory. Little room is often just that of some replies, or a byte less; and the list may
    /// be full with one of the pauses, or with the last.
    pub(crate) fn write(&self, random: &mut Random, bytes: Vec<u8>) -> Call {
        let out = match random.below(40) {
            0 => random.pick(&[0, 1, 16, 568, 4096, 4110, 4111]),
            1..4 => 4112,
            4..12 => 4110 + 16 * random.index(40) + random.pick(&[0, 1, 1, 2, 2, 3, 10]),
            12..18 => 4112 + random.index(3000),
            18..28 => 4112 + random.index(BATCH_ROOM - 4111),
            _ => BATCH_ROOM,
        };
        let pauses = messages(&bytes).filter(|message| message.starts_with(&[9, 0])).count();
        let places = match random.below(40) {
            0 => 0,
            1..9 if out < 4112 => 0,
            1..4 => 1,
            4..6 => 1 + random.index(4),
            6..9 => pauses.clamp(1, LIST_ROOM),
            9..16 => 1 + random.index(pauses.clamp(1, LIST_ROOM)),
            16..20 => 1 + random.index(40),
            20..28 => 1 + random.index(LIST_ROOM),
            _ => LIST_ROOM,
        };
        Call::Batch { out, places, guest: self.lent(random), bytes }
    }

    /// Takes note of a message of a batch, as far as the next ones depend on it.
    fn foresee(&mut self, message: &[u8]) {
        if let [id @ (12 | 13 | 15 | 16), 0, ..] = message {
            if self.command_allowed((*id).into()) {
                self.saw(&Call::message(message.to_vec()), handled(0), &[]);
            }
        }
    }

    /// Takes note of what became of a batch.
    pub fn saw_batch(&mut self, bytes: &[u8], batch: &Batch) {
        match batch.answer {
            Answer::Handled { .. } | Answer::NoPage { .. } => {
                messages(&bytes[..batch.used]).for_each(|message| self.foresee(message));
            }
            Answer::Closing => {
                self.closed = true;
                self.awaited.clear();
            }
            _ => {}
        }
    }
}
