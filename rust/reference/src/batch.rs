//! Several messages in one write: document 02, W3.
//!
//! "Add a call for messages end to end, each cut by its size field, with one
//! output and signals in a lent list of u32".

use crate::message::LEAST_OUTPUT;
use crate::session::Session;
use crate::wire::{u16_at, HEADER};
use crate::{Answer, Feed, Signal};

/// What became of a batch.
#[derive(Clone, Copy, Debug, PartialEq, Eq)]
pub struct Batch {
    /// 0, 1 or 12, or a refusal: 2, 3 or 11. Answer 0 has the count, the resume
    /// and the feed that stand below, too, and no offset of padding, and answer
    /// 12 the resume.
    pub answer: Answer,
    /// "it says how many input bytes it used"
    pub used: usize,
    /// Output bytes written, under answer 1 those before the closing message.
    pub count: usize,
    /// Places of the list written, under answer 1 those before the closing
    /// message.
    pub listed: usize,
    /// "A resume is handed back beside the list": that, or none.
    pub resume: Signal,
    /// Bytes for the instruction that the resume continues; of the supplied
    /// ones the place is counted from the input's start.
    pub feed: Feed,
}

impl Batch {
    /// A refusal leaves everything as it was.
    fn refused(answer: Answer) -> Batch {
        Batch { answer, used: 0, count: 0, listed: 0, resume: Signal::None, feed: Feed::None }
    }
}

impl Session {
    /// The messages of one write. Order: 2, 3, 11, then message by message.
    ///
    /// `out` receives replies and command-error events end to end, `signals`
    /// kicks and crashes; `guest` is guest memory. "A lent list past its count
    /// is untouched", and so is the output.
    pub fn batch(&mut self, input: &[u8], out: &mut [u8], signals: &mut [u32], guest: &mut [u8]) -> Batch {
        // "Refusals, tested first, for an empty batch too: closed 2, short
        // output 3, a list with no place 11".
        if self.is_closed() {
            return Batch::refused(Answer::Closed);
        }
        if out.len() < LEAST_OUTPUT {
            return Batch::refused(Answer::ShortOut);
        }
        if signals.is_empty() {
            return Batch::refused(Answer::NoPlace);
        }

        let (mut used, mut count, mut listed) = (0, 0, 0);
        let (mut resume, mut feed) = (Signal::None, Feed::None);
        // "Else it goes on unless a message closes or, before one, under 4,112
        // output bytes or no list place remain".
        while used < input.len() && out.len() - count >= LEAST_OUTPUT && listed < signals.len() {
            let start = used;
            let message = first(&input[start..]);
            used += message.len();
            // "Outputs, signals, session and guest memory must equal the used
            // messages taken singly".
            let (written, signal) = match self.message(message, &mut out[count..], guest) {
                // W6: "a batch carries none", so that the offset is dropped.
                Answer::Handled { count, signal, feed: fed, padding: _ } => {
                    feed = behind(start, fed);
                    (count, signal)
                }
                // "it ends a batch with that answer, itself used"
                answer @ Answer::NoPage { signal: resume } => {
                    return Batch { answer, used, count, listed, resume, feed: Feed::None };
                }
                // "a closing message gives answer 1, counting the bytes and
                // signals before it"; "bytes after a closing message count as
                // unused", so that its own are used. No refusal comes here: the
                // session is open, and the room was tested.
                closing => return Batch { answer: closing, used, count, listed, resume, feed },
            };
            count += written;
            let code = match signal {
                Signal::None => continue,
                // "kick as 256 + 2 × vCPU + wait, crash as 512 + vCPU"
                Signal::Kick { vcpu, wait } => 256 + 2 * u32::from(vcpu) + u32::from(wait),
                Signal::Crash { vcpu } => 512 + u32::from(vcpu),
                // "A resume is handed back beside the list and ends the batch."
                Signal::Resume { .. } => {
                    resume = signal;
                    break;
                }
            };
            signals[listed] = code;
            listed += 1;
        }
        let answer = Answer::Handled { count, signal: resume, feed, padding: 0 };
        Batch { answer, used, count, listed, resume, feed }
    }
}

/// What a message that begins at this place of the input is fed from.
fn behind(start: usize, feed: Feed) -> Feed {
    match feed {
        Feed::Supplied { at, length } => Feed::Supplied { at: start + at, length },
        other => other,
    }
}

/// The first of the messages in these bytes, "cut by its size field"; or all of
/// them if they hold no whole one: "An incomplete last message closes", as test
/// 1 of document 01 has it.
fn first(bytes: &[u8]) -> &[u8] {
    if bytes.len() < HEADER {
        return bytes;
    }
    let end = HEADER + usize::from(u16_at(bytes, 2));
    bytes.get(..end).unwrap_or(bytes)
}
