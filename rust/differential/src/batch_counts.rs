//! What a run has seen of batches: how they end, and what happens within.

use crate::batch::{is_whole, messages};
use crate::run::Taken;
use crate::{handled, told_error, Answer, Batch, Call, Signal, BATCH_ROOM, LIST_ROOM};

/// How a batch can end, each told by what is left.
const ENDS: [&str; 18] = [
    "the input is over",
    "no output room, a list place left",
    "no list place, output room left",
    "neither output room nor a list place",
    "4,111 bytes of output left",
    "no output room for an incomplete message",
    "no list place for an incomplete message",
    "a resume, more behind it",
    "a resume, nothing behind it",
    "a resume, the last place not taken",
    "closing by a rule, more behind it",
    "closing by a rule, nothing behind it",
    "closing by its first message",
    "closing, with bytes and signals before it",
    "closing by an incomplete message, its header whole",
    "closing by an incomplete message of less than 8 bytes",
    "answer 0, an empty one",
    "answer 0, the list full at the end of the input",
];

/// Refusals that more than one condition holds for, and those of empty batches.
const REFUSALS: [&str; 7] = [
    "answer 2, the output too short as well",
    "answer 2, no list place as well",
    "answer 3, no list place as well",
    "answer 3 for 4,111 bytes",
    "answer 2, an empty one",
    "answer 3, an empty one",
    "answer 11, an empty one",
];

/// What can happen within one.
const WITHIN: [&str; 23] = [
    "100 messages used",
    "200 messages used",
    "300 messages used, and none left",
    "100 messages used, and signals listed",
    "kick listed, no wait",
    "kick listed, wait",
    "crash listed",
    "20 signals listed",
    "kick of vCPU 15 listed",
    "crash of vCPU 8 or above listed",
    "4,112 bytes of output",
    "65,536 bytes of output",
    "a list of one place",
    "a list of 300 places",
    "10,000 bytes written",
    "a message of 32,768 data bytes or more, others used behind it",
    "CMD_ERROR",
    "two CMD_ERRORs, of seqs that follow",
    "replies switched off and on again",
    "a crash, more used behind it",
    "a pause's continue, more used behind it",
    "a read of what was written before",
    "4,112 bytes of output left before a message, not the first",
];

#[derive(Clone, Default)]
pub(crate) struct BatchCounts {
    pub batches: u64,
    /// The messages that they used, and the most that one did.
    pub messages: u64,
    pub longest: u64,
    ends: [u64; 18],
    refusals: [u64; 7],
    within: [u64; 23],
}

impl BatchCounts {
    /// A batch that both sides answered alike, with the signals listed.
    pub fn saw(&mut self, call: &Call, batch: &Batch, listed: &[u32]) {
        let Call::Batch { out, places, bytes, .. } = call else { return };
        let (out, places) = (*out, *places);
        let used: Vec<&[u8]> = messages(&bytes[..batch.used]).collect();
        let count = used.len() as u64;
        self.batches += 1;
        self.messages += count;
        self.longest = self.longest.max(count);

        let is_handled = matches!(batch.answer, Answer::Handled { .. });
        let is_closing = batch.answer == Answer::Closing;
        let is_empty = bytes.is_empty();
        let is_over = batch.used == bytes.len();
        let resumes = batch.resume != Signal::None;
        // why more is left, where nothing but room is lacking
        let stops = is_handled && !is_over && !resumes;
        let (left, is_full) = (out.saturating_sub(batch.count), batch.listed == places);
        let no_room = left < 4112;
        let next_is_cut = !messages(&bytes[batch.used..]).next().is_none_or(is_whole);
        let last_is_whole = used.last().is_some_and(|message| is_whole(message));
        let ends = [
            is_handled && is_over && !is_empty && !resumes,
            stops && no_room && !is_full,
            stops && is_full && !no_room,
            stops && is_full && no_room,
            stops && left == 4111 && !is_full,
            stops && no_room && !is_full && next_is_cut,
            stops && is_full && !no_room && next_is_cut,
            resumes && !is_over,
            resumes && is_over,
            resumes && batch.listed + 1 == places,
            is_closing && last_is_whole && !is_over,
            is_closing && last_is_whole && is_over,
            is_closing && last_is_whole && count == 1,
            is_closing && batch.count > 0 && batch.listed > 0,
            is_closing && used.last().is_some_and(|message| !is_whole(message) && message.len() >= 8),
            is_closing && used.last().is_some_and(|message| message.len() < 8),
            is_handled && is_empty,
            is_handled && is_over && is_full,
        ];
        sum(&mut self.ends, &ends.map(u64::from));

        let is = |answer| batch.answer == answer;
        let refusals = [
            is(Answer::Closed) && out < 4112,
            is(Answer::Closed) && places == 0,
            is(Answer::ShortOut) && places == 0,
            is(Answer::ShortOut) && out == 4111,
            is(Answer::Closed) && is_empty,
            is(Answer::ShortOut) && is_empty,
            is(Answer::NoPlace) && is_empty,
        ];
        sum(&mut self.refusals, &refusals.map(u64::from));

        let is_kick = |code: &u32| (256..288).contains(code);
        let within = [
            count >= 100,
            count >= 200,
            is_handled && is_over && count == 300,
            count >= 100 && !listed.is_empty(),
            listed.iter().any(|code| is_kick(code) && code % 2 == 0),
            listed.iter().any(|code| is_kick(code) && code % 2 == 1),
            listed.iter().any(|code| (512..528).contains(code)),
            listed.len() >= 20,
            listed.iter().any(|code| matches!(code, 286 | 287)),
            listed.iter().any(|code| (520..528).contains(code)),
            is_handled && out == 4112,
            is_handled && out == BATCH_ROOM,
            is_handled && places == 1,
            is_handled && places == LIST_ROOM,
            batch.count >= 10_000,
            used.split_last().is_some_and(|(_, before)| before.iter().any(|message| message.len() >= 8 + 0x8000)),
        ];
        sum(&mut self.within, &within.map(u64::from));
    }

    /// The same batch, by its messages one by one.
    pub fn saw_taken(&mut self, call: &Call, batch: &Batch, taken: &[Taken]) {
        let Call::Batch { out, .. } = call else { return };
        let is_event = |one: &&Taken| one.bytes.len() == 568 && one.bytes.starts_with(&[17, 0]);
        let seqs: Vec<u32> = taken.iter().filter(is_event).map(|one| seq(one.bytes)).collect();
        let modes = taken.iter().filter(|one| one.message.starts_with(&[15, 0]) && told_error(one.bytes).is_none());
        let modes: Vec<u8> = modes.filter_map(|one| one.message.get(8).copied()).collect();
        // with others behind them
        let before = &taken[..taken.len().saturating_sub(1)];
        let is_pause = |one: &&Taken| one.message.starts_with(&[16, 0]) && one.message.get(17) == Some(&2);
        let mut room = *out;
        let mut is_exact = false;
        for one in before {
            room -= one.bytes.len();
            is_exact |= room == 4112 && room < *out;
        }
        let kinds = [
            !seqs.is_empty(),
            seqs.windows(2).any(|pair| pair[1] == pair[0].wrapping_add(1)),
            batch.answer.number() == 0 && modes.windows(2).any(|pair| pair == [0, 1]),
            before.iter().any(|one| matches!(one.answer, Answer::Handled { signal: Signal::Crash { .. }, .. })),
            before.iter().filter(is_pause).any(|one| one.answer == handled(0)),
            reads_what_was_written(taken),
            is_exact,
        ];
        sum(&mut self.within[WITHIN.len() - kinds.len()..], &kinds.map(u64::from));
    }

    pub fn add(&mut self, other: &BatchCounts) {
        self.batches += other.batches;
        self.messages += other.messages;
        self.longest = self.longest.max(other.longest);
        sum(&mut self.ends, &other.ends);
        sum(&mut self.refusals, &other.refusals);
        sum(&mut self.within, &other.within);
    }

    /// Everything that a run has to see, with how often it did.
    pub fn wanted(&self) -> Vec<(String, u64)> {
        let ends = ENDS.iter().zip(self.ends).map(|(name, count)| (format!("batch ends: {name}"), count));
        let refusals = REFUSALS.iter().zip(self.refusals).map(|(name, count)| (format!("batch: {name}"), count));
        let within = WITHIN.iter().zip(self.within).map(|(name, count)| (format!("batch: {name}"), count));
        ends.chain(refusals).chain(within).collect()
    }
}

/// Whether a message 6 gave bytes that a message 7 before it had written.
fn reads_what_was_written(taken: &[Taken]) -> bool {
    let place = |one: &Taken| {
        let number = |at: usize| Some(u64::from_le_bytes(*one.message.get(at..)?.first_chunk()?));
        let (gpa, size) = (number(8)?, number(16)?);
        let is_done = one.answer.number() == 0 && !one.bytes.is_empty() && told_error(one.bytes).is_none();
        is_done.then(|| (gpa, gpa.saturating_add(size)))
    };
    let mut written = Vec::new();
    for one in taken {
        match one.message {
            [7, 0, ..] => written.extend(place(one)),
            [6, 0, ..] => {
                let read = place(one);
                if read.is_some_and(|(from, to)| written.iter().any(|(start, end)| from < *end && *start < to)) {
                    return true;
                }
            }
            _ => {}
        }
    }
    false
}

fn seq(bytes: &[u8]) -> u32 {
    u32::from_le_bytes([bytes[4], bytes[5], bytes[6], bytes[7]])
}

fn sum(into: &mut [u64], from: &[u64]) {
    into.iter_mut().zip(from).for_each(|(into, from)| *into += from);
}
