//! What is lent: sessions, messages, and events that are offered.

use crate::library::Session;
use crate::memory::PAGE;
use crate::random::Random;

pub fn session(random: &mut Random) -> Session {
    let word = random.word();
    Session {
        vcpus: random.count(16),
        views: random.count(8),
        commands: if random.percent(80) { !0 } else { random.word() as u32 },
        events: if random.percent(80) { !0 } else { random.word() as u32 },
        tsc_speed: word,
        flags: match random.below(4) {
            0 => [0; 8],
            1 => random.word().to_le_bytes(),
            _ => [1; 8],
        },
        revision: random.count(2),
        settings_padding: random.word() as u32,
        vm_events: random.word(),
        pages: match random.below(4) {
            0 => random.word(),
            1 => random.pick(&[0, 1, 1023, 1024, 1025, u64::MAX]),
            _ => random.below(1025) as u64,
        },
        opened: if random.percent(90) { random.pick(&[1, 2, 1 << 31, u32::MAX]) } else { 0 },
        mode: if random.percent(70) { 0 } else { random.pick(&[1, 2, 3, u32::MAX]) },
        seq: random.pick(&[0, 1, u32::MAX, word as u32]),
        padding: random.word() as u32,
        ready: if random.percent(70) { !0 } else { random.word() },
    }
}

/// An event whose reply a vCPU awaits.
#[derive(Clone, Copy)]
pub struct Awaited {
    pub vcpu: u32,
    pub event: u8,
    pub seq: u32,
    /// Of a page fault, the address.
    pub gva: u64,
}

/// How many own bytes an event has, if it can be offered.
pub fn own_size(event: u32) -> Option<usize> {
    match event {
        0 | 3 | 7 | 12 => Some(0),
        8 | 11 => Some(8),
        4 | 14 => Some(16),
        5 | 9 | 10 => Some(24),
        _ => None,
    }
}

/// An event that is offered, with own bytes: mostly as many as it has, and mostly of a register that has a switch.
pub fn offer(random: &mut Random) -> (u32, Vec<u8>) {
    let event = match random.below(12) {
        0 => random.word() as u32 >> random.below(32),
        1 => random.below(17) as u32 | random.pick(&[0, 1 << 5, 1 << 8, 1 << 16, 1 << 31]),
        _ => random.pick(&[0, 0, 0, 0, 3, 4, 5, 5, 5, 7, 8, 9, 9, 9, 10, 11, 12, 14]),
    };
    let size = match own_size(event) {
        Some(size) if random.percent(90) => size,
        _ => random.pick(&[0, 1, 7, 8, 9, 15, 16, 17, 23, 24, 25, 40, PAGE, 2 * PAGE]),
    };
    let mut own = random.bytes(size);
    match (event, &mut own[..]) {
        (5, [low, high, ..]) if random.percent(90) => (*low, *high) = (random.pick(&[0, 3, 4]), 0),
        (9, [_, _, _, _, ..]) => own[..4].copy_from_slice(&random.msr().to_le_bytes()),
        (10, [_, _, _, _, _, _, _, _, ..]) => own[..8].copy_from_slice(&random.address().to_le_bytes()),
        _ => {}
    }
    (event, own)
}

/// The first padding byte of a command that is not 0; 0 where there is none.
pub fn padding(message: &[u8]) -> usize {
    let [id, 0, ..] = *message else { return 0 };
    let counted = message.get(8..10).map_or(0, |count| 16 * usize::from(u16::from_le_bytes([count[0], count[1]])));
    let is_padding = |at: usize| match id {
        2 | 3 | 8 => at >= 10,
        5 | 15 => at >= 11,
        9 | 14 => at >= 10 && at != 16,
        10 => (10..16).contains(&at) || at >= 19,
        11 | 12 => (10..20).contains(&at) && at != 16,
        13 => (12..16).contains(&at) || (at >= 16 && at % 16 >= 9 && message.len() == 16 + counted),
        _ => false,
    };
    (8..message.len()).find(|at| is_padding(*at) && message[*at] != 0).unwrap_or(0)
}

/// KVMI_VM_SET_PAGE_ACCESS: the first pages of a view below rwx, and the last one.
pub fn guards(random: &mut Random) -> Vec<u8> {
    let pages = [0, 1, 2, 3, 4, 5, u64::MAX >> 12];
    let mut message = vec![13, 0, 8 + 16 * 7, 0, 0, 0, 0, 0, 7, 0, random.pick(&[0, 0, 1, 7]), 0, 0, 0, 0, 0];
    for page in pages {
        message.extend((page << 12).to_le_bytes());
        message.extend([random.pick(&[0, 1, 3, 5]), 0, 0, 0, 0, 0, 0, 0]);
    }
    message
}

/// KVMI_VCPU_CONTROL_EVENTS: page faults.
pub fn faults_on(vcpu: u8) -> Vec<u8> {
    vec![10, 0, 16, 0, 0, 0, 0, 0, vcpu, 0, 0, 0, 0, 0, 0, 0, 10, 0, 1, 0, 0, 0, 0, 0]
}

/// What a reply to a page fault has behind the action: mostly as it should be, with an address a little below another, or past it.
fn context(random: &mut Random, gva: u64) -> Vec<u8> {
    let size = if random.percent(95) { random.below(257) } else { 257 + random.below(3) };
    let rep = if random.percent(95) { random.below(2) as u8 } else { random.word() as u8 };
    let address = match random.below(8) {
        0 => random.address(),
        1 => gva.wrapping_add(1),
        _ => gva.wrapping_sub(random.below(size + 2) as u64),
    };
    [&address.to_le_bytes()[..], &[size as u8, (size >> 8) as u8, 0, 0, 0, rep, 0, 0], &random.bytes(256)].concat()
}

/// The reply to a page fault, mostly.
pub fn reply(random: &mut Random, awaited: Awaited) -> Vec<u8> {
    let [low, high] = (awaited.vcpu as u16).to_le_bytes();
    let begins = [16, 0, 32, 1].into_iter().chain(awaited.seq.to_le_bytes()).chain([low, high, 0, 0, 0, 0, 0, 0]);
    let mut reply: Vec<u8> = begins.chain([random.pick(&[0, 0, 0, 0, 1, 2]), 10, 0, 0, 0, 0, 0, 0]).collect();
    reply.extend(context(random, awaited.gva));
    if random.percent(4) {
        let at = random.below(40);
        reply[at] ^= 1 << random.below(8);
    }
    reply
}

/// A message: any bytes, or the layout of one with fields that mostly fit.
pub fn message(random: &mut Random, awaited: Option<Awaited>) -> Vec<u8> {
    if random.percent(10) {
        let size = random.pick(&[0, 1, 7, 8, 9, 16, 24, 40, 100]);
        return random.bytes(size);
    }
    let id = match random.below(20) {
        0 => random.pick(&[0, 17, 18, 256, 65535]),
        // EVENT_REPLY closes unless it is awaited
        1 if random.percent(10) => 16,
        1..7 if awaited.is_some() => 16,
        _ => 1 + random.below(15) as u16,
    };
    let mut data = Vec::new();
    if matches!(id, 8..=12 | 14 | 16) {
        data.extend((random.vcpu() as u16).to_le_bytes());
        data.extend([0; 6]);
    }
    let enable = if random.percent(95) { random.below(2) as u8 } else { random.word() as u8 };
    match id {
        2 | 3 => data.extend([random.below(18) as u8, 0, 0, 0, 0, 0, 0, 0]),
        5 | 10 => data.extend([random.below(16) as u8, 0, enable, 0, 0, 0, 0, 0]),
        6 | 7 => {
            let (page, at) = (random.below(5), random.pick(&[0, 0, 1, 4095, 2048]));
            let size = if random.percent(90) { 1 + random.below(PAGE - at) } else { random.pick(&[0, PAGE + 1 - at, 5000]) };
            let gpa = if random.percent(90) { (page * PAGE + at) as u64 } else { random.word() };
            data.extend([gpa.to_le_bytes(), (size as u64).to_le_bytes()].concat());
            if id == 7 {
                data.extend(random.bytes(size));
            }
        }
        9 | 14 => data.extend([enable, 0, 0, 0, 0, 0, 0, 0]),
        11 | 12 => {
            let number = if id == 11 { random.below(9) as u32 } else { random.msr() };
            data.extend([&[enable, 0, 0, 0][..], &number.to_le_bytes()].concat());
        }
        13 => {
            let count = match random.below(200) {
                0 => 4094,
                1..20 => random.below(200),
                _ => random.below(8),
            };
            data.extend([count as u8, (count >> 8) as u8, random.below(9) as u8, 0, 0, 0, 0, 0]);
            for _ in 0..count {
                data.extend((random.page() << 12).to_le_bytes());
                data.extend([random.pick(&[0, 1, 3, 4, 5, 7]), 0, 0, 0, 0, 0, 0, 0]);
            }
        }
        15 => data.extend([enable, random.below(2) as u8, random.below(2) as u8, 0, 0, 0, 0, 0]),
        16 => {
            let event = awaited.filter(|_| random.percent(95)).map_or(random.below(16) as u8, |awaited| awaited.event);
            data.extend([random.pick(&[0, 0, 2, 1]), event, 0, 0, 0, 0, 0, 0]);
            if event == 10 && random.percent(97) {
                let gva = random.address();
                data.extend(context(random, gva));
            } else if matches!(event, 5 | 9) != random.percent(3) {
                data.extend(random.bytes(8));
            }
        }
        _ => {}
    }
    let mut seq = random.word() as u32;
    if let (16, Some(awaited), true) = (id, awaited, random.percent(90)) {
        data[..2].copy_from_slice(&(awaited.vcpu as u16).to_le_bytes());
        seq = awaited.seq;
    }
    let mut bytes = [&id.to_le_bytes()[..], &(data.len() as u16).to_le_bytes(), &seq.to_le_bytes(), &data].concat();
    if random.percent(4) {
        match random.below(3) {
            0 => bytes.truncate(random.below(bytes.len() + 1)),
            1 => bytes.extend([0; 3]),
            _ => {
                let at = random.below(bytes.len());
                bytes[at] ^= 1 << random.below(8);
            }
        }
    }
    bytes
}
