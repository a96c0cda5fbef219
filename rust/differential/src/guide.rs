//! The calls of a session: mostly good, at the edges of every rule, and damaged.
//!
//! A [`Guide`] keeps just enough in mind of what was answered to make most calls good ones: many faults close a session, and a
//! closed one shows little.

use crate::event::{event_reply, Awaited};
use crate::fault::GUARDED;
use crate::image::page_starts;
use crate::message::{damage, message, spoil_padding, unknown, wild};
use crate::{Answer, Call, Random, Settings, GUEST_ROOM};

/// What a session is mostly about.
#[derive(Clone)]
pub(crate) struct Taste {
    /// The weight of each message, 0 for unknown ones.
    messages: [u32; 17],
    /// Of a hundred calls, how many are entries.
    entries: u64,
    /// One in so many fields is at fault, in a way that an error answers.
    pub(crate) faulty: u64,
    /// One in so many messages is at fault in a way that closes, or may; 0 for none.
    pub(crate) closing: u64,
    /// Of a hundred messages 15 with replies on, how many switch them off.
    pub(crate) quiet: u64,
    /// The entries that a message 13 mostly has.
    pub(crate) many: u64,
}

impl Taste {
    fn new(random: &mut Random) -> Taste {
        let mut taste = Taste {
            messages: [10; 17],
            entries: 6,
            faulty: random.pick(&[8, 20, 20, 60]),
            closing: random.pick(&[0, 0, 400, 100, 25]),
            quiet: 30,
            many: 4,
        };
        taste.messages[0] = 3;
        taste.messages[15] = 4;
        match random.below(11) {
            // page access
            0 | 1 => {
                taste.messages[13] = 80;
                taste.many = random.pick(&[4, 40, 200]);
            }
            // pauses and their events
            2 | 3 => {
                taste.messages[9] = 80;
                taste.messages[16] = 60;
                taste.entries = random.pick(&[5, 15, 30]);
            }
            // replies off
            4 => {
                taste.messages[15] = 20;
                taste.quiet = 80;
            }
            // guest memory
            5 => {
                taste.messages[6] = 60;
                taste.messages[7] = 60;
            }
            // events: their switches, the entries that offer them, and the replies
            6..9 => {
                taste.messages[5] = 20;
                taste.messages[9] = 20;
                taste.messages[10] = 80;
                taste.messages[11] = 30;
                taste.messages[12] = 30;
                taste.messages[16] = 80;
                taste.entries = random.pick(&[15, 30, 40]);
            }
            // page faults
            9 => {
                taste.messages[10] = 60;
                taste.messages[13] = 40;
                taste.messages[16] = 80;
                taste.entries = random.pick(&[15, 30, 40]);
            }
            _ => {}
        }
        taste
    }
}

/// How many MSRs that were switched on are kept in mind.
const MSRS: usize = 16;

/// Makes the calls of one session.
#[derive(Clone)]
pub struct Guide {
    pub settings: Settings,
    pub closed: bool,
    pub(crate) taste: Taste,
    /// The events whose replies are awaited.
    pub(crate) awaited: Vec<Awaited>,
    /// MSRs that were switched on, each with its vCPU; the last ones.
    pub(crate) msrs: Vec<(u16, u32)>,
    /// Pages that were guarded, each with its view; the last ones.
    pub(crate) guarded: Vec<(u16, u64)>,
    /// Whether replies are on.
    pub(crate) replies: bool,
    /// The vCPU that is mostly meant.
    pub(crate) favourite: u16,
    /// Guest memory that is mostly lent.
    pub(crate) guest: usize,
    /// Where pages mostly are, and in how many.
    pub(crate) bases: [u64; 2],
    pub(crate) span: u64,
}

impl Guide {
    pub fn new(random: &mut Random, settings: &Settings) -> Guide {
        let taste = Taste::new(random);
        let span = match taste.many {
            4 => random.pick(&[4, 30, 600]),
            _ => random.pick(&[300, 1100, 3000]),
        };
        let mut base = || match random.below(6) {
            0 => 0,
            1 => (1 << 52) - span,
            2 => random.pick(&[1 << 20, 1 << 32, 1 << 40, 1 << 48, 1 << 51]) - span / 2,
            3 => 3,
            _ => random.below(1 << 52),
        };
        let bases = [base(), base()];
        Guide {
            settings: settings.clone(),
            closed: false,
            taste,
            awaited: Vec::new(),
            msrs: Vec::new(),
            guarded: Vec::new(),
            replies: true,
            favourite: random.below(settings.vcpus.into()) as u16,
            guest: lent_guest(random),
            bases,
            span,
        }
    }

    /// Takes note of a call's answer and of the bytes written.
    pub fn saw(&mut self, call: &Call, answer: Answer, bytes: &[u8]) {
        let count = match answer {
            Answer::Handled { count, .. } => count,
            // the reply is taken all the same
            Answer::NoPage { .. } => 0,
            _ => {
                if answer == Answer::Closing {
                    self.closed = true;
                    self.awaited.clear();
                }
                return;
            }
        };
        match call {
            Call::Enter { vcpu, own, .. } if count > 0 => self.awaited.push(Awaited::new(*vcpu, own, bytes)),
            Call::Message { bytes: message, .. } => match message[..] {
                [15, 0, 8, 0, _, _, _, _, enable @ ..=1, ..=1, ..=1, 0, 0, 0, 0, 0] if crate::told_error(bytes).is_none() => {
                    self.replies = enable == 1;
                }
                [12, 0, 16, 0, _, _, _, _, low, high, _, _, _, _, _, _, 1, 0, 0, 0, a, b, c, d]
                    if crate::told_error(bytes).is_none() =>
                {
                    if self.msrs.len() == MSRS {
                        self.msrs.remove(0);
                    }
                    self.msrs.push((u16::from_le_bytes([low, high]), u32::from_le_bytes([a, b, c, d])));
                }
                [13, 0, _, _, _, _, _, _, _, _, low, high, _, _, _, _, ref entries @ ..]
                    if crate::told_error(bytes).is_none() =>
                {
                    let view = u16::from_le_bytes([low, high]);
                    for entry in entries.as_chunks::<16>().0 {
                        let gpa = u64::from_le_bytes(*entry.first_chunk().expect("16 bytes"));
                        self.guarded(view, gpa >> 12, entry[8]);
                    }
                }
                [16, 0, _, _, _, _, _, _, low, high, ..] => {
                    let vcpu = u16::from_le_bytes([low, high]);
                    self.awaited.retain(|awaited| awaited.vcpu != vcpu);
                }
                _ => {}
            },
            Call::Load { settings, keep: true, .. } | Call::Fresh { settings } => {
                self.settings = settings.clone();
                self.replies = true;
                self.awaited.clear();
                self.saw_tables(call);
            }
            _ => {}
        }
    }

    /// Takes note of the pages that are guarded as a session begins.
    pub fn saw_tables(&mut self, call: &Call) {
        self.guarded.clear();
        let Call::Load { image, .. } = call else { return };
        for start in page_starts(image).into_iter().rev().take(GUARDED) {
            if let [_, _, low, high, access, _, page @ ..] = &image[start..] {
                let page = page.first_chunk().map_or(0, |page| u64::from_le_bytes(*page));
                self.guarded(u16::from_le_bytes([*low, *high]), page, *access);
            }
        }
    }

    /// Takes note of a page's access.
    fn guarded(&mut self, view: u16, page: u64, access: u8) {
        self.guarded.retain(|known| *known != (view, page));
        if access != 7 {
            if self.guarded.len() == GUARDED {
                self.guarded.remove(0);
            }
            self.guarded.push((view, page));
        }
    }

    /// Ready marks for most vCPUs, as a session begins.
    pub fn marks(&self, random: &mut Random) -> Vec<Call> {
        let share = random.pick(&[50, 90, 100]);
        (0..self.settings.vcpus).filter(|_| random.percent(share)).map(|vcpu| Call::Ready { vcpu }).collect()
    }

    /// The replies that are awaited.
    pub fn replies(&self) -> Vec<Call> {
        let reply = |awaited: &Awaited| event_reply(awaited.vcpu, 0, awaited.event, u64::from(awaited.seq) << 40);
        self.awaited.iter().map(|awaited| Call::message(message(16, awaited.seq, &reply(awaited)))).collect()
    }

    /// The next call.
    pub fn call(&self, random: &mut Random) -> Call {
        match random.below(100) {
            0 | 1 => Call::Ready { vcpu: self.host_vcpu(random) },
            2 => Call::Image { room: random.pick(&[0, 0, 0, 1, 40, -1, -6, -14, -1_000_000]) },
            roll if roll < 3 + self.taste.entries => self.enter(random),
            _ => {
                let bytes = match random.one_in(4 * self.taste.closing) {
                    true => wild(random),
                    false => self.proper(random),
                };
                self.send(random, bytes)
            }
        }
    }

    /// Switches replies off.
    pub fn quiet(&self, random: &mut Random) -> Call {
        let told = u8::from(self.event_allowed(13) && random.one_in(2));
        self.send(random, message(15, 0, &[0, 1, told, 0, 0, 0, 0, 0]))
    }

    /// A message that closes the session, mostly.
    pub fn farewell(&self, random: &mut Random) -> Call {
        let closing: Vec<u16> = (0..16).filter(|id| self.closes(*id)).collect();
        let awaited = if self.awaited.is_empty() { 1 } else { 20 };
        let flag = self.command_allowed(15) && !self.event_allowed(13);
        let mut bytes = match random.weighted(&[awaited, 3 * u32::from(flag), 4 * u32::from(!closing.is_empty()), 1, 8]) {
            0 => self.reply(random, true),
            1 => message(15, 0, &[0, random.below(2) as u8, 1, 0, 0, 0, 0, 0]),
            2 => {
                let id = random.pick(&closing);
                self.of(random, id)
            }
            // the size field
            3 => {
                let mut bytes = self.of(random, 7);
                let bit = random.pick(&[0, 1, 8, 15, 16, 31, 32, 63]);
                if let Some(byte) = bytes.get_mut(16 + bit / 8) {
                    *byte ^= 1 << (bit % 8);
                }
                bytes
            }
            _ => {
                let mut bytes = self.proper(random);
                damage(random, &mut bytes);
                bytes
            }
        };
        if random.one_in(6) {
            // whatever may be tested first
            if let Some(byte) = bytes.iter_mut().skip(8).nth(random.index(16)) {
                *byte ^= 1 << random.below(8);
            }
        }
        self.send(random, bytes)
    }

    pub(crate) fn host_vcpu(&self, random: &mut Random) -> u32 {
        let count = self.settings.vcpus;
        match random.below(24) {
            0 => random.pick(&[count + 1, 16, 17, 63, 64, 255, 256, 1 << 16, (1 << 16) + 1, 1 << 31, u32::MAX]),
            1 => count,
            2..8 => random.below(count.into()) as u32,
            _ => self.favourite.into(),
        }
    }

    /// A message with output and guest memory; it may be damaged.
    pub(crate) fn send(&self, random: &mut Random, mut bytes: Vec<u8>) -> Call {
        let out = match random.below(40) {
            0 => random.pick(&[0, 1, 8, 15, 16, 552, 568, 4096, 4110, 4111]),
            1..4 => 4112 + random.index(80),
            _ => 4112,
        };
        let guest = self.lent(random);
        if random.one_in(self.taste.closing) {
            damage(random, &mut bytes);
        }
        Call::Message { out, guest, bytes }
    }

    /// How much guest memory is lent.
    pub(crate) fn lent(&self, random: &mut Random) -> usize {
        match random.below(40) {
            0 => lent_guest(random),
            _ => self.guest,
        }
    }

    pub(crate) fn command_allowed(&self, id: u16) -> bool {
        matches!(id, 1..=3 | 16) || self.settings.commands >> id & 1 == 1
    }

    pub(crate) fn event_allowed(&self, event: u16) -> bool {
        self.settings.events >> event & 1 == 1
    }

    /// Whether a message would close the session, whatever its data; 0 is an unknown one.
    pub(crate) fn closes(&self, id: u16) -> bool {
        match id {
            0 | 1 | 4 | 6 | 8 => !self.replies,
            9 if self.command_allowed(9) => !self.event_allowed(2),
            16 => self.awaited.is_empty(),
            _ => !self.replies && !self.command_allowed(id),
        }
    }

    /// A message that a tool could mean, though some fields may be at fault.
    pub(crate) fn proper(&self, random: &mut Random) -> Vec<u8> {
        // an event that is awaited is switched off before its reply comes
        if !self.awaited.is_empty() && random.one_in(20) {
            match self.switch_off(random) {
                Some((id, bytes)) if !self.closes(id) => return bytes,
                _ => {}
            }
        }
        let id = loop {
            let id = random.weighted(&self.taste.messages) as u16;
            // those not allowed are all answered alike
            if id != 0 && !self.command_allowed(id) && !random.one_in(8) {
                continue;
            }
            if !self.closes(id) || random.one_in(self.taste.closing) {
                break id;
            }
        };
        self.of(random, id)
    }

    /// A message with this number, 0 for an unknown one.
    pub(crate) fn of(&self, random: &mut Random, id: u16) -> Vec<u8> {
        let seq = match random.below(3) {
            0 => random.pick(&[0, 1, 2, 0xFF, u32::MAX]),
            _ => random.word() as u32,
        };
        match id {
            0 => unknown(random, seq),
            16 => {
                let wrong = random.one_in(self.taste.closing);
                self.reply(random, wrong)
            }
            // not looked at
            _ if !self.command_allowed(id) && random.one_in(2) => {
                let size = random.index(40);
                message(id, seq, &random.bytes(size))
            }
            _ => {
                let mut data = self.data(random, id);
                if random.one_in(2 * self.taste.faulty) {
                    spoil_padding(random, id, &mut data);
                }
                message(id, seq, &data)
            }
        }
    }
}

fn lent_guest(random: &mut Random) -> usize {
    let length = random.pick(&[0, 1, 4095, 4096, 4097, 8191, 8192, 8192, 12288, 12288, 16383, 16384, 16384, 16384, GUEST_ROOM]);
    match random.below(10) {
        0 => random.index(GUEST_ROOM + 1),
        _ => length,
    }
}
