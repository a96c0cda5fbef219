//! Entries, the events that they offer, and the replies to these: mostly good ones, and at the edges of every rule.

use crate::fault::{guard, Context, Fault};
use crate::guide::Guide;
use crate::message::{message, msr};
use crate::{Call, Random};

/// The events that an entry can offer, with how many bytes of its own each has.
pub const OFFERED: [(u32, usize); 10] =
    [(3, 0), (4, 16), (5, 24), (7, 0), (8, 8), (9, 24), (10, 24), (11, 8), (12, 0), (14, 16)];

/// How many bytes of its own an offered event has, 0 standing for none offered; no answer for another number.
pub fn own_size(event: u32) -> Option<usize> {
    match event {
        0 => Some(0),
        _ => OFFERED.iter().find(|(known, _)| *known == event).map(|(_, size)| *size),
    }
}

/// How many data bytes the reply to an event has.
pub fn reply_size(event: u8) -> usize {
    match event {
        5 | 9 => 24,
        10 => 288,
        _ => 16,
    }
}

/// The sizes that replies have.
pub const REPLY_SIZES: [usize; 3] = [16, 24, 288];

pub fn takes_retry(event: u8) -> bool {
    matches!(event, 4 | 8 | 10)
}

/// The register that the bytes of a CR or an MSR event name.
pub fn register(event: u32, own: &[u8]) -> Option<u32> {
    match event {
        5 => Some(u16::from_le_bytes(*own.first_chunk()?).into()),
        9 => Some(u32::from_le_bytes(*own.first_chunk()?)),
        _ => None,
    }
}

/// The data of an event reply: as many bytes as the event takes, the new value last. Of a page fault the lowest bit of the value is
/// the rep flag.
pub fn event_reply(vcpu: u16, action: u8, event: u8, value: u64) -> Vec<u8> {
    if event == 10 {
        return fault_reply(vcpu, action, &Context::plain(value as u8 & 1));
    }
    let mut data = reply_start(vcpu, action, event);
    if reply_size(event) == 24 {
        data.extend(value.to_le_bytes());
    }
    data
}

/// The data of a reply to a page fault.
pub fn fault_reply(vcpu: u16, action: u8, context: &Context) -> Vec<u8> {
    let mut data = reply_start(vcpu, action, 10);
    let [before, padding @ ..] = context.padding;
    data.extend(context.address.to_le_bytes());
    data.extend(context.size.to_le_bytes());
    data.extend([before, context.rep]);
    data.extend(padding);
    data.extend(&context.data);
    data
}

/// What the data of every event reply begin with.
fn reply_start(vcpu: u16, action: u8, event: u8) -> Vec<u8> {
    let mut data = vec![0; 16];
    data[..2].copy_from_slice(&vcpu.to_le_bytes());
    data[8] = action;
    data[9] = event;
    data
}

/// The messages that set the switches of an event, of the register that it names, and the guard of its page: their numbers and data.
/// A pause has none.
pub(crate) fn switches(
    vcpu: u16,
    event: u8,
    register: Option<u32>,
    page: Option<(u16, u64)>,
    enable: u8,
) -> Vec<(u16, Vec<u8>)> {
    let on_vcpu = |rest: [[u8; 4]; 2]| [vcpu.to_le_bytes().as_slice(), &[0; 6], rest.as_flattened()].concat();
    let mut list = match event {
        2 => vec![],
        12 => vec![(5, vec![event, 0, enable, 0, 0, 0, 0, 0])],
        _ => vec![(10, on_vcpu([[event, 0, enable, 0], [0; 4]]))],
    };
    let id = if event == 5 { 11 } else { 12 };
    list.extend(register.map(|register| (id, on_vcpu([[enable, 0, 0, 0], register.to_le_bytes()]))));
    list.extend(page.map(|(view, page)| (13, guard(view, page, if enable == 1 { 1 } else { 7 }))));
    list
}

/// An event whose reply is awaited.
#[derive(Clone, Copy)]
pub struct Awaited {
    pub vcpu: u16,
    pub event: u8,
    pub seq: u32,
    /// The register that the event named, if it is CR or MSR.
    pub register: Option<u32>,
    /// What a page fault told.
    pub fault: Option<Fault>,
}

impl Awaited {
    /// The event that an entry wrote.
    pub fn new(vcpu: u32, own: &[u8], bytes: &[u8]) -> Awaited {
        let event = bytes[12];
        let seq = u32::from_le_bytes([bytes[4], bytes[5], bytes[6], bytes[7]]);
        let fault = Fault::of(own).filter(|_| event == 10);
        Awaited { vcpu: vcpu as u16, event, seq, register: register(event.into(), own), fault }
    }
}

impl Guide {
    /// An entry; what it lends may be at fault.
    pub(crate) fn enter(&self, random: &mut Random) -> Call {
        let state = match random.below(25) {
            0 => random.pick(&[0, 1, 8, 535, 537, 544, 552, 1072]),
            _ => 536,
        };
        let out = match random.below(12) {
            0 => random.pick(&[0, 1, 16, 544, 551, 552, 553, 560, 568, 575, 575]),
            1 => random.pick(&[577, 584, 600, 4112]),
            _ => 576,
        };
        let vcpu = self.host_vcpu(random);
        let (mut event, mut own) = self.offer(random, vcpu);
        match random.below(30) {
            0 => event = random.below(17) as u32,
            1 => {
                // cut, some of these numbers would be right
                let any = random.word() as u32;
                event ^= random.pick(&[0x10, 0x20, 0x100, 1 << 16, 1 << 31, any]);
            }
            2 => {
                let length = random.pick(&[0, 1, 7, 8, 9, 15, 16, 17, 23, 24, 25, 32, own.len() + 256]);
                let length = if random.one_in(40) { own.len() + 0x1_0000 } else { length };
                own.resize(length, 0x5A);
            }
            _ => {}
        }
        Call::Enter { vcpu, state, fill: random.word() as u8, event, own, out }
    }

    /// An entry of a vCPU that is not refused, unless the vCPU waits.
    pub fn entry(&self, random: &mut Random, vcpu: u32) -> Call {
        let (event, own) = self.offer(random, vcpu);
        Call::Enter { vcpu, state: 536, fill: 0, event, own, out: 576 }
    }

    /// An event to be offered, or none, with its bytes. All but the register or page that they name are random, padding too.
    fn offer(&self, random: &mut Random, vcpu: u32) -> (u32, Vec<u8>) {
        let (event, size) = match random.below(8) {
            0..3 => (0, 0),
            _ => random.pick(&OFFERED),
        };
        let mut own = random.bytes(size);
        match event {
            5 => {
                let cr: u16 = match random.below(8) {
                    0 => random.pick(&[1, 2, 5, 7, 8, 32, 35, 0x100, 0x103, 0x8000, 0x8004, 0xFFFF]),
                    _ => random.pick(&[0, 3, 4]),
                };
                own[..2].copy_from_slice(&cr.to_le_bytes());
            }
            9 => {
                // mostly one that was switched on
                let known: Vec<u32> = self.msrs.iter().filter(|(on, _)| u32::from(*on) == vcpu).map(|(_, msr)| *msr).collect();
                let msr = match random.below(8) {
                    0 => msr(random, 2),
                    1..7 if !known.is_empty() => random.pick(&known),
                    _ => msr(random, 8),
                };
                own[..4].copy_from_slice(&msr.to_le_bytes());
            }
            10 => own = self.fault(random),
            _ => {}
        }
        (event, own)
    }

    /// Calls that get an event sent, if the settings let them: its vCPU ready, its switches on, and the entry that offers it.
    pub fn staged(&self, random: &mut Random) -> Vec<Call> {
        let vcpu = self.favourite;
        // more often those that have a register
        let (event, size) = match random.below(12) {
            0 => (5, 24),
            1 => (9, 24),
            _ => random.pick(&OFFERED),
        };
        let mut own = random.bytes(size);
        let register = match event {
            5 => Some(random.pick(&[0, 3, 4])),
            9 => Some(msr(random, 0)),
            _ => None,
        };
        if let Some(register) = register {
            own[..4].copy_from_slice(&register.to_le_bytes());
        }
        let page = (event == 10).then(|| (random.below(self.settings.views.into()) as u16, random.below(6)));
        if let Some((view, page)) = page {
            own[8..16].copy_from_slice(&(page << 12 | random.below(4096)).to_le_bytes());
            own[18..20].copy_from_slice(&view.to_le_bytes());
        }
        let mut calls = Vec::new();
        if event != 12 {
            calls.push(Call::Ready { vcpu: vcpu.into() });
        }
        for (id, data) in switches(vcpu, event as u8, register, page, 1) {
            if !self.closes(id) {
                calls.push(Call::message(message(id, 0, &data)));
            }
        }
        calls.push(Call::Enter { vcpu: vcpu.into(), state: 536, fill: 0, event, own, out: 576 });
        calls
    }

    /// Switches off an event that is awaited, or its register, or forgets its page.
    pub(crate) fn switch_off(&self, random: &mut Random) -> Option<(u16, Vec<u8>)> {
        let Awaited { vcpu, event, register, fault, .. } = self.awaited[random.index(self.awaited.len())];
        let switches = switches(vcpu, event, register, fault.map(|fault| (fault.view, fault.page())), 0);
        let (id, data) = switches.get(random.index(switches.len().max(1)))?;
        Some((*id, message(*id, random.word() as u32, data)))
    }

    /// An event reply: the right one, or one that closes.
    pub(crate) fn reply(&self, random: &mut Random, wrong: bool) -> Vec<u8> {
        let awaited = match self.awaited.len() {
            0 => {
                let (seq, event) = (random.below(3) as u32, random.pick(&[2, 2, 3, 5, 9, 10]));
                Awaited { vcpu: self.favourite, event, seq, register: None, fault: None }
            }
            length => {
                // pauses are many: what is wrong is more often about another event
                let others: Vec<usize> = (0..length).filter(|at| wrong && self.awaited[*at].event != 2).collect();
                let at = match random.percent(80) && !others.is_empty() {
                    true => random.pick(&others),
                    false => random.index(length),
                };
                self.awaited[at]
            }
        };
        self.reply_to(random, &awaited, wrong)
    }

    /// A reply to this event: the right one, or one that closes.
    pub(crate) fn reply_to(&self, random: &mut Random, awaited: &Awaited, wrong: bool) -> Vec<u8> {
        let Awaited { mut vcpu, mut seq, event, fault, .. } = *awaited;
        let mut action = match event {
            // only a read that is continued has bytes
            10 => random.pick(&[0, 0, 0, 0, 1, 2]),
            _ if takes_retry(event) => random.pick(&[0, 1, 1, 2]),
            _ => random.pick(&[0, 0, 2]),
        };
        let value = match random.below(4) {
            0 => random.pick(&[0, 1, 1 << 63, u64::MAX]),
            _ => random.word(),
        };
        let data = |random: &mut Random, vcpu, action| match fault {
            Some(fault) => fault_reply(vcpu, action, &Context::around(random, &fault)),
            None => event_reply(vcpu, action, event, value),
        };
        if !wrong {
            return message(16, seq, &data(random, vcpu, action));
        }
        let count = self.settings.vcpus as u16;
        let (mut told, mut padding, mut resized, mut context) = (event, None, None, None);
        match random.below(if fault.is_some() { 18 } else { 9 }) {
            0 => vcpu = random.pick(&[0, self.favourite, count, 15, 16, 17, 255, 256, vcpu + 0x100, 0xFFFF]),
            1 => seq ^= 1 << random.below(32),
            2 => seq = random.pick(&[seq.wrapping_add(1), seq.wrapping_sub(1), 0]),
            3 => action = random.pick(&[3, 4, 0x80, 0x81, 0x82, 0xFF]),
            4 => action = if takes_retry(event) { 3 } else { 1 },
            5 => told = random.pick(&[0, 1, 2, 3, 4, 5, 8, 9, 10, 12, 13, event ^ 0x80, event ^ 0x10, 0xFF]),
            6 => padding = Some(random.pick(&[2, 3, 4, 5, 6, 7, 10, 11, 12, 13, 14, 15])),
            7 => {
                let others: Vec<usize> = REPLY_SIZES.into_iter().filter(|size| *size != reply_size(event)).collect();
                resized = Some(random.pick(&others));
            }
            8 => resized = Some(random.pick(&[0, 8, 15, 17, 17, 18, 23, 25, 32, 40, 280, 287, 289, 544])),
            _ => context = fault.map(|fault| Context::wrong(random, &fault)),
        }
        let mut data = match &context {
            Some(context) => fault_reply(vcpu, action, context),
            None => data(random, vcpu, action),
        };
        // the size is that of the event awaited, or of the one that is told
        data[9] = told;
        if told != event && random.one_in(2) {
            resized = Some(reply_size(told));
        }
        if let Some(size) = resized {
            data.resize(size, random.word() as u8);
        }
        if let Some(at) = padding {
            data[at] = 1 << random.below(8);
        }
        message(16, seq, &data)
    }
}
