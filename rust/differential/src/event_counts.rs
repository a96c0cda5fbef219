//! What a run has seen of events: the entries that offer them, and their replies.

use crate::batch::messages;
use crate::event::{own_size, register, reply_size, takes_retry, Awaited, OFFERED, REPLY_SIZES};
use crate::fault::Context;
use crate::{Answer, Call, Lookup, Told};

/// What stands in the session of a call, after it.
pub(crate) type Stands<'a> = &'a dyn Fn(Lookup) -> Option<Told>;

/// What can become of each event that is offered.
const OFFERS: [&str; 5] = [
    "sent, no pause queued",
    "sent, a pause queued",
    "passed over, no bytes",
    "passed over, a pause goes instead",
    "answer 5 for its length",
];

/// Numbers that no entry takes; all above the last of them are counted behind it.
const OTHERS: [u32; 6] = [1, 2, 6, 13, 15, 16];

/// What else entries can be about.
const ENTRIES: [&str; 15] = [
    "none offered, no bytes",
    "none offered, a pause event",
    "answer 5 for the block alone",
    "answer 5 for bytes where none is offered",
    "answer 5, the output too short as well",
    "answer 5, a reply awaited as well",
    "answer 3 between 552 and 575 bytes",
    "answer 3, a reply awaited as well",
    "CREATE_VCPU of a vCPU that is not ready",
    "CR passed over for its register alone",
    "CR passed over for its event alone",
    "CR passed over, a number that has no switch",
    "MSR passed over for its register alone",
    "MSR passed over for its event alone",
    "MSR passed over, a number that has no switch",
];

/// The events whose replies can be awaited.
const AWAITED: [u8; 11] = [2, 3, 4, 5, 7, 8, 9, 10, 11, 12, 14];

/// What a reply to each of them can do. "Alone": all else in it is right.
const REPLIES: [&str; 11] = [
    "continue",
    "retry",
    "crash",
    "closing for a size of 16, 24 or 288 alone",
    "closing for another size alone",
    "closing for a retry alone",
    "closing for another action alone",
    "closing for its seq alone",
    "closing for its event alone",
    "closing for padding alone",
    "closing for its context alone",
];

/// How things can stand when a reply is taken.
const TAKEN: [&str; 5] = [
    "its event switched off by then",
    "its register switched off by then",
    "a vCPU that is not ready",
    "a new value of 0",
    "its page at rwx by then",
];

#[derive(Clone, Default)]
pub(crate) struct EventCounts {
    /// What each vCPU of the present session awaits.
    awaited: [Option<Awaited>; 16],
    offers: [[u64; 5]; 10],
    others: [u64; 7],
    entries: [u64; 15],
    replies: [[u64; 11]; 11],
    taken: [u64; 5],
    /// Closing replies of vCPUs that await none.
    unasked: u64,
}

impl EventCounts {
    /// A session begins or closes: nothing is awaited.
    pub fn forget(&mut self) {
        self.awaited = [None; 16];
    }

    pub fn saw_entry(&mut self, call: &Call, answer: Answer, bytes: &[u8], stands: Stands) {
        let Call::Enter { vcpu, state, event, own, out, .. } = call else { return };
        let (vcpu, event) = (*vcpu, *event);
        let row = OFFERED.iter().position(|(known, _)| *known == event);
        let sent = bytes.get(12).copied().map(u32::from);
        let handled = matches!(answer, Answer::Handled { .. });
        let (five, three) = (answer == Answer::BadState, answer == Answer::ShortOut);
        let right_block = *state == 536;
        match row {
            Some(row) if handled => {
                let column = match sent {
                    None => 2,
                    Some(sent) if sent != event => 3,
                    Some(_) => usize::from(is_on(stands, Lookup::Pauses { vcpu })),
                };
                self.offers[row][column] += 1;
            }
            Some(row) if five && right_block => self.offers[row][4] += 1,
            None if five && right_block && event != 0 => {
                let other = OTHERS.iter().position(|other| *other == event).unwrap_or(OTHERS.len());
                self.others[other] += 1;
            }
            _ => {}
        }
        if handled && sent.is_some() {
            self.awaited[vcpu as usize] = Some(Awaited::new(vcpu, own, bytes));
        }

        let waits = is_on(stands, Lookup::Awaited { vcpu });
        let event_on = is_on(stands, Lookup::VcpuEvent { vcpu, event });
        let named = register(event, own);
        let register_on = is_register_on(stands, vcpu, event, named);
        let has_switch = match event {
            5 => matches!(named, Some(0 | 3 | 4)),
            _ => matches!(named, Some(0..0x2000 | 0xC000_0000..0xC000_2000)),
        };
        let passed = |wanted| event == wanted && handled && sent != Some(event);
        let kinds = [
            handled && event == 0 && sent.is_none(),
            handled && event == 0 && sent.is_some(),
            five && !right_block && own_size(event) == Some(own.len()),
            five && right_block && event == 0,
            five && *out < 576,
            five && waits,
            three && (552..576).contains(out),
            three && waits,
            handled && sent == Some(12) && !is_on(stands, Lookup::IsReady { vcpu }),
            passed(5) && event_on && has_switch,
            passed(5) && register_on,
            passed(5) && event_on && !has_switch,
            passed(9) && event_on && has_switch,
            passed(9) && register_on,
            passed(9) && event_on && !has_switch,
        ];
        self.entries.iter_mut().zip(kinds).for_each(|(count, seen)| *count += u64::from(seen));
    }

    /// A message 16 that was taken or closes.
    pub fn saw_reply(&mut self, message: &[u8], answer: Answer, stands: Stands) {
        let closes = answer == Answer::Closing;
        let Some((header, data)) = message.split_at_checked(8) else { return };
        if usize::from(u16::from_le_bytes([header[2], header[3]])) != data.len() || data.len() < 16 {
            assert!(closes, "both sides took an event reply of {} bytes", message.len());
            return;
        }
        let seq = u32::from_le_bytes([header[4], header[5], header[6], header[7]]);
        let (vcpu, action, event) = (u16::from_le_bytes([data[0], data[1]]), data[8], data[9]);
        let Some(awaited) = self.awaited.get(usize::from(vcpu)).copied().flatten() else {
            assert!(closes, "both sides took an event reply of a vCPU that awaits none");
            self.unasked += 1;
            return;
        };
        let is_taken = matches!(action, 0 | 2) || action == 1 && takes_retry(awaited.event);
        let (wrong_size, known_size) = (data.len() != reply_size(awaited.event), REPLY_SIZES.contains(&data.len()));
        let context = Context::of(data).filter(|_| awaited.event == 10);
        let faults = [
            wrong_size && known_size,
            wrong_size && !known_size,
            !is_taken && action == 1,
            !is_taken && action != 1,
            seq != awaited.seq,
            event != awaited.event,
            data[2..8].iter().chain(&data[10..16]).any(|byte| *byte != 0),
            context.is_some_and(|context| !context.is_taken()),
        ];
        let row = AWAITED.iter().position(|known| *known == awaited.event).expect("an event that is awaited");
        if closes {
            if let [alone] = (0..faults.len()).filter(|fault| faults[*fault]).collect::<Vec<_>>()[..] {
                self.replies[row][3 + alone] += 1;
            }
            return;
        }
        assert_eq!(faults, [false; 8], "both sides took an event reply that is at fault");
        self.replies[row][usize::from(action)] += 1;
        self.awaited[usize::from(vcpu)] = None;

        let (vcpu, number) = (u32::from(vcpu), u32::from(event));
        let event_on = match event {
            2 => true,
            12 => is_on(stands, Lookup::VmEvent { event: number }),
            _ => is_on(stands, Lookup::VcpuEvent { vcpu, event: number }),
        };
        let kinds = [
            !event_on,
            awaited.register.is_some() && !is_register_on(stands, vcpu, number, awaited.register),
            !is_on(stands, Lookup::IsReady { vcpu }),
            data.len() == 24 && action == 0 && data[16..24] == [0; 8],
            awaited.fault.is_some_and(|fault| {
                stands(Lookup::Access { view: fault.view.into(), page: fault.page() }) == Some(Told::Number(7))
            }),
        ];
        self.taken.iter_mut().zip(kinds).for_each(|(count, seen)| *count += u64::from(seen));
    }

    /// The messages of a batch, of which none closes: what they reply to is awaited no more.
    pub fn saw_replies(&mut self, bytes: &[u8]) {
        for message in messages(bytes) {
            if let [16, 0, _, _, _, _, _, _, vcpu, ..] = message {
                self.awaited[usize::from(*vcpu)] = None;
            }
        }
    }

    pub fn add(&mut self, other: &EventCounts) {
        let sum = |into: &mut [u64], from: &[u64]| into.iter_mut().zip(from).for_each(|(into, from)| *into += from);
        sum(self.offers.as_flattened_mut(), other.offers.as_flattened());
        sum(&mut self.others, &other.others);
        sum(&mut self.entries, &other.entries);
        sum(self.replies.as_flattened_mut(), other.replies.as_flattened());
        sum(&mut self.taken, &other.taken);
        self.unasked += other.unasked;
    }

    /// Everything that a run has to see, with how often it did.
    pub fn wanted(&self) -> Vec<(String, u64)> {
        let mut list = Vec::new();
        for ((event, _), counts) in OFFERED.iter().zip(&self.offers) {
            list.extend(OFFERS.iter().zip(counts).map(|(name, count)| (format!("event {event} offered: {name}"), *count)));
        }
        let numbers = OTHERS.iter().map(u32::to_string).chain(["above 16".into()]);
        list.extend(numbers.zip(self.others).map(|(number, count)| (format!("entry: answer 5 for number {number}"), count)));
        list.extend(ENTRIES.iter().zip(self.entries).map(|(name, count)| (format!("entry: {name}"), count)));
        for (event, counts) in AWAITED.iter().zip(&self.replies) {
            for (column, name) in REPLIES.iter().enumerate() {
                // a retry is taken, or closes
                let never = if takes_retry(*event) { 5 } else { 1 };
                // and only that to a page fault has a context
                if column != never && (column != 10 || *event == 10) {
                    list.push((format!("reply to event {event}: {name}"), counts[column]));
                }
            }
        }
        list.extend(TAKEN.iter().zip(self.taken).map(|(name, count)| (format!("reply taken: {name}"), count)));
        list.push(("reply of a vCPU that awaits none: closing".into(), self.unasked));
        list
    }
}

fn is_on(stands: Stands, lookup: Lookup) -> bool {
    matches!(stands(lookup), Some(Told::Flag(true) | Told::Number(1..)))
}

/// Whether the register that an event names is switched on.
fn is_register_on(stands: Stands, vcpu: u32, event: u32, register: Option<u32>) -> bool {
    match (event, register) {
        (5, Some(cr)) => is_on(stands, Lookup::Cr { vcpu, cr }),
        (9, Some(msr)) => is_on(stands, Lookup::Msr { vcpu, msr }),
        _ => false,
    }
}
