//! Messages: the fields of each, with values at the edges of their rules, and damage.

use crate::guide::Guide;
use crate::{Call, Random, Settings};

const PAGE: u64 = 4096;

/// The highest page number.
const LAST_PAGE: u64 = (1 << 52) - 1;

/// A message: header and data.
pub fn message(id: u16, seq: u32, data: &[u8]) -> Vec<u8> {
    let mut bytes = Vec::with_capacity(8 + data.len());
    bytes.extend(id.to_le_bytes());
    bytes.extend((data.len() as u16).to_le_bytes());
    bytes.extend(seq.to_le_bytes());
    bytes.extend(data);
    bytes
}

impl Guide {
    /// The data of a message 1 to 15.
    pub(crate) fn data(&self, random: &mut Random, id: u16) -> Vec<u8> {
        let mut data = Vec::with_capacity(16);
        if matches!(id, 8..=12 | 14) {
            data.extend(self.vcpu(random).to_le_bytes());
            data.extend([0; 6]);
        }
        match id {
            1 | 4 | 8 => {}
            2 => {
                let command = match random.below(8) {
                    0 => random.pick(&[0, 15, 16, 17, 18, 31, 32, 33, 0x101, 0x10F, 0x8001, 0xFFFF]),
                    _ => 1 + random.below(15) as u16,
                };
                data.extend(command.to_le_bytes());
                data.extend([0; 6]);
            }
            3 => {
                let event = match random.below(8) {
                    0 => odd_event(random),
                    _ => 1 + random.below(14) as u16,
                };
                data.extend(event.to_le_bytes());
                data.extend([0; 6]);
            }
            5 | 10 => {
                let events: &[u16] = if id == 5 { &[1, 12] } else { &[3, 4, 4, 5, 7, 8, 8, 9, 10, 11, 14] };
                let event = match random.one_in(self.taste.faulty) {
                    true => odd_event(random),
                    false => random.pick(events),
                };
                data.extend(event.to_le_bytes());
                data.extend([self.flag(random), 0, 0, 0, 0, 0]);
            }
            6 => {
                let (gpa, size) = self.place(random);
                // sums with the address that wrap, and sizes that 32 bits can't hold
                let wrapping = [u64::MAX, 0u64.wrapping_sub(gpa), 1u64.wrapping_sub(gpa % PAGE), 1 << 32 | 1, 1 << 63 | 1];
                let size = match random.one_in(self.taste.faulty) {
                    true => random.pick(&wrapping),
                    false => size,
                };
                data.extend(gpa.to_le_bytes());
                data.extend(size.to_le_bytes());
            }
            7 => {
                let (gpa, size) = self.place(random);
                data.extend(gpa.to_le_bytes());
                data.extend(size.to_le_bytes());
                data.extend(random.bytes(size as usize));
            }
            9 | 14 => data.extend([self.flag(random), 0, 0, 0, 0, 0, 0, 0]),
            11 => {
                let cr = match random.one_in(self.taste.faulty) {
                    true => random.pick(&[1, 2, 5, 7, 8, 0x100, 0x103, 0x1_0000, 0x8000_0000, u32::MAX]),
                    false => random.pick(&[0, 3, 4]),
                };
                data.extend([self.flag(random), 0, 0, 0]);
                data.extend(cr.to_le_bytes());
            }
            12 => {
                let msr = match self.msrs.len() {
                    // some are switched off again
                    length @ 1.. if random.one_in(4) => self.msrs[random.index(length)].1,
                    _ => msr(random, self.taste.faulty),
                };
                data.extend([self.flag(random), 0, 0, 0]);
                data.extend(msr.to_le_bytes());
            }
            13 => data = self.pages(random),
            15 => data.extend(self.mode(random)),
            _ => unreachable!("message {id} is made elsewhere"),
        }
        data
    }

    fn vcpu(&self, random: &mut Random) -> u16 {
        let count = self.settings.vcpus as u16;
        if random.one_in(2 * self.taste.faulty) {
            let far = random.pick(&[16, 17, 63, 64, 0xFF, 0x100, 0x100 + self.favourite, 0x8000, 0xFFFF]);
            return random.pick(&[count, count + 1, far, far]);
        }
        match random.below(2) {
            0 => random.below(count.into()) as u16,
            _ => self.favourite,
        }
    }

    fn flag(&self, random: &mut Random) -> u8 {
        if random.one_in(2 * self.taste.faulty) {
            return random.pick(&[2, 3, 0x80, 0xFF]);
        }
        // more often on than off
        u8::from(random.percent(70))
    }

    /// The data of message 15.
    fn mode(&self, random: &mut Random) -> [u8; 8] {
        let enable = match self.replies {
            true => !random.percent(self.taste.quiet),
            false => random.percent(35),
        };
        let mut data = [enable.into(), random.below(2) as u8, u8::from(random.percent(65)), 0, 0, 0, 0, 0];
        let mut faulty = random.one_in(self.taste.faulty);
        if !enable && data[2] == 1 && !self.event_allowed(13) && !random.one_in(self.taste.closing) {
            // this would close, unless an error comes first
            match random.one_in(4) {
                true => faulty = true,
                false => data[2] = 0,
            }
        }
        if faulty {
            data[random.index(8)] = random.pick(&[2, 3, 0x80, 0xFF]);
        }
        data
    }

    /// An address and a size, which may be at fault but not by much.
    fn place(&self, random: &mut Random) -> (u64, u64) {
        let pages = self.guest as u64 / PAGE;
        let page = match random.below(16) {
            0 => pages,
            1 => random.pick(&[pages + 1, 1 << 20, 1 << 32, LAST_PAGE, 1 << 51, (1 << 20) + pages / 2]),
            _ => random.below(pages.max(1)),
        };
        let offset = match random.below(5) {
            0 => random.pick(&[0, 1, 4094, 4095]),
            1 => PAGE - 1 - random.below(40),
            _ => random.below(PAGE),
        };
        let room = PAGE - offset;
        let size = match random.below(6) {
            0 => room,
            1 => 1,
            2 => 1 + random.below(room),
            _ => 1 + random.below(room.min(40)),
        };
        let size = match random.one_in(self.taste.faulty) {
            true => random.pick(&[0, room + 1, room + 1, PAGE, PAGE + 1, 2 * PAGE]),
            false => size,
        };
        (page << 12 | offset, size)
    }

    /// The data of message 13.
    fn pages(&self, random: &mut Random) -> Vec<u8> {
        let count = match random.below(50) {
            0 => random.pick(&[0, 0, 255, 256, 256, 257, 1025]),
            1 if random.one_in(20) => 4095,
            1..5 => 1,
            _ => random.below(2 * self.taste.many),
        };
        self.entries(random, count)
    }

    /// The data of a message 13 with so many entries, some of them cut.
    fn entries(&self, random: &mut Random, count: u64) -> Vec<u8> {
        let faulty = self.taste.faulty;
        let views = self.settings.views as u16;
        let view = match random.one_in(2 * faulty) {
            true => random.pick(&[views, views, views + 1, 8, 0x100, 0x8000, 0xFFFF]),
            false => random.below(views.into()) as u16,
        };
        let told = match random.one_in(3 * faulty) {
            // the count told need not be that of the entries
            true => random.pick(&[count + 1, count.saturating_sub(1), 0, count ^ 0x100, count ^ 0x1000, 0xFFFF]),
            false => count,
        };
        let mut data = Vec::with_capacity(8 + 16 * count as usize);
        data.extend((told as u16).to_le_bytes());
        data.extend(view.to_le_bytes());
        data.extend([0; 4]);
        // mostly to less than rwx, so that the table fills; else it is emptied
        let forgetting = random.pick(&[10, 10, 30, 80]);
        for _ in 0..count {
            let page = match random.below(40) {
                0 => random.word() >> 12,
                1 => random.pick(&[0, LAST_PAGE, 1 << 51, (1 << 51) - 1]),
                _ => random.pick(&self.bases).wrapping_add(random.below(self.span)) & LAST_PAGE,
            };
            let low = match random.below(4) {
                0 => random.pick(&[1, 4095, 2048]),
                _ => 0,
            };
            let access = match random.percent(forgetting) {
                true => 7,
                false => random.pick(accesses(&self.settings)),
            };
            data.extend((page << 12 | low).to_le_bytes());
            data.extend([access, 0, 0, 0, 0, 0, 0, 0]);
        }
        if random.one_in(faulty) {
            execute(random, &mut data);
        }
        if count > 0 && random.one_in(3 * faulty) {
            let entry = match random.below(2) {
                0 => count - 1,
                _ => random.below(count),
            };
            data[8 + 16 * entry as usize + 8] = random.pick(&[2, 6, 8, 9, 12, 15, 0x17, 0x80, 0x84, 0x87, 0xFF]);
        }
        if random.one_in(6 * faulty) {
            // entries that are not whole
            let cut = data.len() - random.index(data.len() - 7);
            data.truncate(cut);
        }
        data
    }

    /// A message 13 that asks for execute-only pages, whether the host has them or not.
    pub fn executing(&self, random: &mut Random) -> Call {
        let mut data = self.pages(random);
        execute(random, &mut data);
        Call::message(message(13, 0, &data))
    }
}

/// The accesses below rwx that a host has.
pub fn accesses(settings: &Settings) -> &'static [u8] {
    match settings.execute_only {
        true => &[0, 1, 3, 4, 5],
        false => &[0, 1, 3, 5],
    }
}

/// Asks for access 4 in one entry of a message 13, in some or in all.
fn execute(random: &mut Random, data: &mut [u8]) {
    let (entries, _) = data[8..].as_chunks_mut::<16>();
    let last = entries.len().wrapping_sub(1);
    let one = match random.below(6) {
        0 => None,
        1 => {
            entries.iter_mut().filter(|_| random.one_in(3)).for_each(|entry| entry[8] = 4);
            return;
        }
        2 => Some(0),
        3 => Some(last),
        _ => Some(random.index(entries.len().max(1))),
    };
    entries.iter_mut().enumerate().filter(|(at, _)| one.is_none_or(|one| one == *at)).for_each(|(_, entry)| entry[8] = 4);
}

/// Events that are unknown, or not of the message.
fn odd_event(random: &mut Random) -> u16 {
    match random.below(3) {
        0 => random.below(18) as u16,
        _ => random.pick(&[0, 2, 6, 13, 15, 16, 17, 31, 32, 33, 64, 65, 0x100, 0x101, 0x104, 0x8001, 0xFFFF]),
    }
}

/// An MSR, often at the ends of the ranges; outside of them once in so many times.
pub fn msr(random: &mut Random, faulty: u64) -> u32 {
    let upper = random.pick(&[0, 0xC000_0000]);
    if random.one_in(faulty) {
        let far = random.pick(&[0x4000_0000, 0x8000_0000, 0xBFFF_FFFF, u32::MAX]);
        return random.pick(&[upper + 0x2000, upper + 0x2001, upper + 0x3FFF, upper + 0x4000, upper + 0x1_0000, far, far]);
    }
    let number = match random.below(4) {
        0 => random.pick(&[0, 1, 0x1FFE, 0x1FFF, 0x1000, 0xFFF]),
        1 => 60 + random.below(10) as u32,
        2 => 0x80 + random.below(6) as u32,
        _ => random.below(0x2000) as u32,
    };
    upper + number
}

/// A message with a number that document 01 doesn't have.
pub fn unknown(random: &mut Random, seq: u32) -> Vec<u8> {
    let id = match random.below(3) {
        0 => random.word() as u16 | 0x20,
        _ => random.pick(&[0, 17, 17, 18, 32, 33, 0xFF, 0x100, 0x101, 0x109, 0x110, 0x8001, 0xFFFF]),
    };
    let size = match random.below(3) {
        0 => 0,
        1 => random.pick(&[8, 16]),
        _ => random.index(40),
    };
    message(id, seq, &random.bytes(size))
}

/// Where padding begins and ends in each message's data; a message 13 has more in its entries.
fn padding(id: u16) -> &'static [(usize, usize)] {
    match id {
        2 | 3 | 8 => &[(2, 8)],
        5 | 15 => &[(3, 8)],
        9 | 14 => &[(2, 8), (9, 16)],
        10 => &[(2, 8), (11, 16)],
        11 | 12 => &[(2, 8), (9, 12)],
        13 => &[(4, 8)],
        _ => &[],
    }
}

/// The messages that have padding.
pub(crate) const PADDED: [u16; 11] = [2, 3, 5, 8, 9, 10, 11, 12, 13, 14, 15];

/// Whether a message that has padding has as many data as it should; of a message 13, its head.
pub(crate) fn has_known_size(id: u16, data: &[u8]) -> bool {
    match id {
        2 | 3 | 5 | 8 | 15 => data.len() == 8,
        9..=12 | 14 => data.len() == 16,
        13 => data.len() >= 8,
        _ => false,
    }
}

/// The offset in a message of its first padding byte that is not zero, were it one with this number. Entries of a message 13 are
/// looked at if its count fits.
pub(crate) fn first_padding(id: u16, message: &[u8]) -> Option<usize> {
    let bad = |at: &usize| message.get(*at).is_some_and(|byte| *byte != 0);
    let found = padding(id).iter().find_map(|(start, end)| (8 + start..8 + end).find(bad));
    found.or_else(|| entry_padding(message, 0).filter(|_| id == 13))
}

/// The same of the entries of a message 13, from this one on.
pub(crate) fn entry_padding(message: &[u8], from: usize) -> Option<usize> {
    let count = u16::from_le_bytes([*message.get(8)?, *message.get(9)?]);
    let (entries, rest) = message.get(16..)?.as_chunks::<16>();
    if entries.len() != usize::from(count) || !rest.is_empty() {
        return None;
    }
    let at = from + entries.get(from..)?.iter().position(|entry| entry[9..] != [0; 7])?;
    (9..16).find(|byte| entries[at][*byte] != 0).map(|byte| 16 + 16 * at + byte)
}

/// The offsets of all padding bytes of a message that are not zero, whatever the count of a message 13 says.
pub(crate) fn bad_padding(message: &[u8]) -> Vec<usize> {
    let id = message.first_chunk().map_or(0, |id| u16::from_le_bytes(*id));
    let in_entries = (16..message.len()).filter(|at| id == 13 && at % 16 >= 9);
    let places = padding(id).iter().flat_map(|(start, end)| 8 + start..8 + end).chain(in_entries);
    places.filter(|at| message.get(*at).is_some_and(|byte| *byte != 0)).collect()
}

/// Where to set a byte of padding in a message's data: often the first or the last byte of a run, and of the entries of a message 13
/// the first one or the last.
fn padding_place(random: &mut Random, id: u16, data: &[u8]) -> usize {
    let entries = data.len().saturating_sub(8) / 16;
    let (start, end) = match id {
        13 if entries > 0 && random.percent(75) => {
            let entry = match random.below(4) {
                0 => 0,
                1 => entries - 1,
                _ => random.index(entries),
            };
            (8 + 16 * entry + 9, 8 + 16 * entry + 16)
        }
        _ => random.pick(padding(id)),
    };
    match random.below(3) {
        0 => start,
        1 => end - 1,
        _ => start + random.index(end - start),
    }
}

/// Sets bytes of padding, one or some; then, now and then, bits of any byte.
fn spoil(random: &mut Random, id: u16, data: &mut [u8]) {
    let bytes = match random.below(8) {
        0..4 => 1,
        4 | 5 => 2,
        6 => 3 + random.index(6),
        _ => 40,
    };
    for _ in 0..bytes {
        let at = padding_place(random, id, data);
        data[at] = random.pick(&[1, 2, 0x10, 0x80, 0xFF]);
    }
    if random.one_in(3) {
        let end = data.len().min(24);
        let at = if random.one_in(2) { random.index(end) } else { random.index(data.len()) };
        data[at] |= 1 << random.below(8);
    }
}

impl Guide {
    /// The data of a message with padding that is not zero. No other fault is asked for, but there may be some.
    fn spoilt_data(&self, random: &mut Random, id: u16) -> Vec<u8> {
        let mut data = match id {
            13 => {
                let count = match random.below(48) {
                    0..4 => 4095,
                    4 => random.below(4096),
                    5..9 => 0,
                    9..17 => 1,
                    _ => random.below(24),
                };
                self.entries(random, count)
            }
            _ => self.data(random, id),
        };
        spoil(random, id, &mut data);
        if id == 13 && random.one_in(6) {
            // entries that are not whole, or one too many
            let length = data.len() + random.index(17);
            data.resize(length.min(0xFFFF), 1);
        }
        if id == 15 && random.one_in(2) {
            // what closes where event 13 is not allowed, if padding is good
            (data[0], data[1], data[2]) = (0, random.below(2) as u8, 1);
        }
        data
    }

    /// A command with padding that is not zero.
    pub fn spoilt(&self, random: &mut Random) -> Call {
        let id = loop {
            let id = random.pick(&PADDED);
            if !self.closes(id) && (self.command_allowed(id) || random.one_in(4)) {
                break id;
            }
        };
        let bytes = message(id, random.word() as u32, &self.spoilt_data(random, id));
        self.send(random, bytes)
    }

    /// A message with such padding that closes the session before padding is tested.
    pub fn spoilt_farewell(&self, random: &mut Random) -> Call {
        let mut closing: Vec<u16> = PADDED.into_iter().filter(|id| self.closes(*id)).collect();
        if closing.iter().any(|id| !self.command_allowed(*id)) && random.percent(70) {
            closing.retain(|id| !self.command_allowed(*id));
        }
        let bytes = match random.below(4) {
            0 | 1 if !closing.is_empty() => {
                let id = random.pick(&closing);
                let data = self.spoilt_data(random, id);
                message(id, 0, &data)
            }
            // the size field
            2 => {
                let id = random.pick(&PADDED);
                let mut bytes = message(id, 0, &self.spoilt_data(random, id));
                bytes[2] ^= 1 << random.below(8);
                bytes
            }
            _ => {
                let id = random.pick(&PADDED);
                let mut data = self.spoilt_data(random, id);
                let size = data.len() as u64;
                let any = random.below(32);
                data.resize(random.pick(&[size - 1, size + 1, size ^ 8, 7, 24, any]) as usize, 0);
                message(id, 0, &data)
            }
        };
        self.send(random, bytes)
    }
}

/// Sets a byte of padding.
pub fn spoil_padding(random: &mut Random, id: u16, data: &mut [u8]) {
    let places = padding(id);
    let entries = data.len().saturating_sub(8) / 16;
    let value = match random.below(2) {
        0 => 1 << random.below(8),
        _ => 1 + random.below(255) as u8,
    };
    if id == 13 && entries > 0 && random.percent(60) {
        data[8 + 16 * random.index(entries) + 9 + random.index(7)] = value;
    } else if !places.is_empty() {
        let (start, end) = random.pick(places);
        data[start + random.index(end - start)] = value;
    }
}

/// Bytes that are hardly a message.
pub fn wild(random: &mut Random) -> Vec<u8> {
    match random.below(5) {
        0 => Vec::new(),
        1 => {
            let length = random.index(9);
            random.bytes(length)
        }
        2 => {
            let length = random.index(64);
            random.bytes(length)
        }
        // a known number, and data of a good size, but random
        3 => {
            let (id, size) = (1 + random.below(16) as u16, random.pick(&[0, 8, 16, 24, 40, 288]));
            message(id, random.word() as u32, &random.bytes(size))
        }
        _ => {
            let (id, size) = (random.below(20) as u16, random.index(40));
            message(id, random.word() as u32, &vec![0; size])
        }
    }
}

/// Damages a message: its size, its end, its number or any bit.
pub fn damage(random: &mut Random, bytes: &mut Vec<u8>) {
    let set_size = |bytes: &mut Vec<u8>| {
        let size = bytes.len().saturating_sub(8) as u16;
        if let Some(field) = bytes.get_mut(2..4) {
            field.copy_from_slice(&size.to_le_bytes());
        }
    };
    if random.one_in(60) {
        // as many bytes more as the size field can't tell
        bytes.resize(bytes.len() + 0x1_0000, 0);
        return;
    }
    match random.below(8) {
        0 if bytes.len() >= 4 => {
            let size = u16::from_le_bytes([bytes[2], bytes[3]]);
            let size = random.pick(&[size.wrapping_add(1), size.wrapping_sub(1), 0, size ^ 0x100, size ^ 0x8000, 0xFFFF]);
            bytes[2..4].copy_from_slice(&size.to_le_bytes());
        }
        1 => bytes.truncate(random.index(bytes.len() + 1)),
        2 => {
            bytes.truncate(random.index(bytes.len() + 1));
            set_size(bytes);
        }
        3 => {
            let more = 1 + random.index(16);
            bytes.extend(random.bytes(more));
            set_size(bytes);
        }
        4 => {
            let more = random.pick(&[1, 8, 16]);
            bytes.extend(vec![0; more]);
            set_size(bytes);
        }
        5 if !bytes.is_empty() => bytes[0] = random.below(20) as u8,
        6 if !bytes.is_empty() => {
            bytes.pop();
            set_size(bytes);
        }
        _ if !bytes.is_empty() => {
            let at = random.index(bytes.len());
            bytes[at] ^= 1 << random.below(8);
        }
        _ => {}
    }
}
