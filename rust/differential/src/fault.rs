//! Page faults: the bytes that offer them, and the replies that say what an instruction reads.

use crate::event::{switches, Awaited};
use crate::guide::Guide;
use crate::message::{damage, message};
use crate::{Call, Random};

const PAGE: u64 = 4096;

/// The highest page number.
const LAST_PAGE: u64 = (1 << 52) - 1;

/// Gva all ones.
pub const UNKNOWN: u64 = u64::MAX;

/// How many guarded pages are kept in mind.
pub const GUARDED: usize = 16;

/// What the own bytes of a page fault tell.
#[derive(Clone, Copy, Debug, PartialEq, Eq)]
pub struct Fault {
    pub gva: u64,
    pub gpa: u64,
    pub access: u8,
    pub view: u16,
}

impl Fault {
    /// Of 24 own bytes.
    pub fn of(own: &[u8]) -> Option<Fault> {
        let (words, rest) = own.as_chunks::<8>();
        match (words, rest) {
            ([gva, gpa, [access, _, low, high, ..]], []) => Some(Fault {
                gva: u64::from_le_bytes(*gva),
                gpa: u64::from_le_bytes(*gpa),
                access: *access,
                view: u16::from_le_bytes([*low, *high]),
            }),
            _ => None,
        }
    }

    pub fn page(&self) -> u64 {
        self.gpa >> 12
    }

    /// Whether it is a read, among others.
    pub fn is_read(&self) -> bool {
        self.access & 1 == 1
    }

    /// The own bytes, with this padding.
    pub fn bytes(&self, padding: [u8; 5]) -> Vec<u8> {
        let mut own = [self.gva.to_le_bytes(), self.gpa.to_le_bytes()].concat();
        own.extend([self.access, padding[0]]);
        own.extend(self.view.to_le_bytes());
        own.extend(&padding[1..]);
        own
    }
}

/// What a reply to a page fault has beside the action.
#[derive(Clone, Debug, PartialEq, Eq)]
pub struct Context {
    pub address: u64,
    pub size: u32,
    pub rep: u8,
    pub padding: [u8; 3],
    pub data: Vec<u8>,
}

impl Context {
    /// One that supplies nothing.
    pub fn plain(rep: u8) -> Context {
        Context { address: 0, size: 0, rep, padding: [0; 3], data: vec![0x3C; 256] }
    }

    /// One that a fault's reply is taken with: around its gva mostly, and at both ends of the range.
    pub fn around(random: &mut Random, fault: &Fault) -> Context {
        let size = match random.below(4) {
            0 => random.pick(&[0, 0, 1, 1, 2, 255, 256]),
            1 => 256,
            _ => random.below(257) as u32,
        };
        let wide = u64::from(size);
        // below 0 these wrap, and then the gva is not inside
        let address = match random.below(12) {
            0 => fault.gva,
            1 => fault.gva.wrapping_sub(wide).wrapping_add(1),
            2 => fault.gva.wrapping_sub(wide),
            3 => fault.gva.wrapping_add(1),
            4 => random.pick(&[0, 1, UNKNOWN, UNKNOWN - wide, UNKNOWN - 255, 1 << 63]),
            5 => random.word(),
            6 => fault.gpa,
            // no half of an address is left out
            7 => fault.gva ^ 1 << random.below(64),
            _ => fault.gva.wrapping_sub(random.below(wide.max(1))),
        };
        Context { address, size, rep: random.below(2) as u8, padding: [0; 3], data: random.bytes(256) }
    }

    /// One that closes.
    pub fn wrong(random: &mut Random, fault: &Fault) -> Context {
        let mut context = Context::around(random, fault);
        match random.below(8) {
            0..3 => context.size = 257,
            3 => context.size = random.pick(&[258, 511, 512, 513, 1 << 16, 1 << 16 | 16, 1 << 31, u32::MAX]),
            4 | 5 => context.rep = 2,
            6 => context.rep = random.pick(&[3, 0x80, 0x81, 0xFE, 0xFF]),
            _ => context.padding[random.index(3)] = 1 << random.below(8),
        }
        context
    }

    /// Of a reply's 288 data bytes.
    pub fn of(reply: &[u8]) -> Option<Context> {
        let (head, data) = reply.get(16..)?.split_at_checked(16)?;
        (data.len() == 256).then(|| Context {
            address: u64::from_le_bytes(*head.first_chunk().expect("16 bytes")),
            size: u32::from_le_bytes(*head[8..].first_chunk().expect("8 bytes")),
            rep: head[13],
            padding: [head[12], head[14], head[15]],
            data: data.to_vec(),
        })
    }

    /// Whether a reply with it is taken.
    pub fn is_taken(&self) -> bool {
        self.size <= 256 && self.rep <= 1 && self.padding == [0; 3]
    }
}

impl Guide {
    /// The own bytes of a page fault: mostly of a page that is guarded in the view named, else of one beside it.
    pub(crate) fn fault(&self, random: &mut Random) -> Vec<u8> {
        let views = self.settings.views as u16;
        let (mut view, mut page) = match self.guarded.len() {
            0 => (random.below(views.into()) as u16, random.below(6)),
            length => self.guarded[random.index(length)],
        };
        match random.below(10) {
            0 => view = random.pick(&[0, views - 1, view ^ 1]),
            // a view that is not there, or that is one if its number is cut
            1 => view = random.pick(&[views, views + 1, 7, 8, view | 8, view | 0x10, view | 0x100, view | 0x8000, 0xFFFF]),
            2 => {
                let far = page ^ 1 << random.below(52);
                page = random.pick(&[page.wrapping_add(1), page.wrapping_sub(1), far]) & LAST_PAGE;
            }
            _ => {}
        }
        fault_at(random, view, page)
    }

    /// Calls that get a page fault sent, mostly, and if the settings let them: its vCPU ready, its switch on, a page guarded, and the
    /// entry that offers the fault.
    pub fn faulted(&self, random: &mut Random) -> Vec<Call> {
        let vcpu = self.favourite;
        let pages = self.guest as u64 / PAGE;
        let page = match random.below(10) {
            0..5 => random.below(pages.max(1)),
            5 => pages.saturating_sub(1),
            // behind the last page that exists, cut by the end or not
            6 | 7 => pages,
            8 => pages + 1 + random.below(3),
            _ => random.pick(&[1 << 20, 1 << 32, (1 << 20) + pages / 2, (1 << 40) + pages / 2, 1 << 51, LAST_PAGE]),
        };
        let view = random.below(self.settings.views.into()) as u16;
        let is_on = !random.one_in(12);
        let mut calls = vec![Call::Ready { vcpu: vcpu.into() }];
        calls.extend(self.replies().into_iter().filter(|_| random.one_in(2)));
        let guarded = (!random.one_in(12)).then_some((view, page));
        for (id, data) in switches(vcpu, 10, None, guarded, is_on.into()) {
            if !self.closes(id) {
                calls.push(Call::message(message(id, 0, &data)));
            }
        }
        if !is_on && !self.closes(13) {
            // the page is guarded all the same
            let data = guard(view, page, random.pick(&[0, 1, 3, 5]));
            calls.push(Call::message(message(13, 0, &data)));
        }
        let own = match random.below(12) {
            0 => self.fault(random),
            // the view that is named is not there
            1 => {
                let far = random.pick(&[0, 1, 0x100]);
                fault_at(random, self.settings.views as u16 + far, page)
            }
            // of another view, where the page is free mostly
            2 if self.settings.views > 1 => fault_at(random, (view + 1) % self.settings.views as u16, page),
            _ => fault_at(random, view, page),
        };
        calls.push(Call::Enter { vcpu: vcpu.into(), state: 536, fill: random.word() as u8, event: 10, own, out: 576 });
        calls
    }

    /// A reply to a page fault that is awaited, alone or in a batch, and one that closes once in so many times. Another call where none
    /// is awaited.
    pub fn answered(&self, random: &mut Random, wrong: u64) -> Call {
        let faults: Vec<&Awaited> = self.awaited.iter().filter(|awaited| awaited.fault.is_some()).collect();
        if faults.is_empty() {
            return self.call(random);
        }
        let awaited = faults[random.index(faults.len())];
        let is_wrong = random.one_in(wrong);
        let reply = self.reply_to(random, awaited, is_wrong);
        match random.below(5) {
            0 | 1 => self.batch_with(random, reply),
            _ => {
                let guest = self.lent(random);
                Call::Message { out: 4112, guest, bytes: reply }
            }
        }
    }

    /// A batch that has this message among others.
    fn batch_with(&self, random: &mut Random, reply: Vec<u8>) -> Call {
        let mut ahead = self.clone();
        // nothing else closes
        ahead.taste.closing = 0;
        ahead.taste.many = ahead.taste.many.min(4);
        ahead.awaited.clear();
        let mut some = |most: usize| -> Vec<u8> {
            let count = random.index(most + 1);
            (0..count).flat_map(|_| ahead.harmless(random)).collect()
        };
        let (before, mut behind) = (some(4), some(3));
        match random.below(12) {
            0 => damage(random, &mut behind),
            1 => behind.extend(&[1, 0, 0][..1 + random.index(3)]),
            _ => {}
        }
        self.write(random, [before, reply, behind].concat())
    }

    /// A message that does not close, whatever the mode; a write of guest memory for one.
    fn harmless(&self, random: &mut Random) -> Vec<u8> {
        let id = random.pick(&[7, 7, 9, 9, 3, 2, 13, 10, 11]);
        match self.closes(id) || !self.command_allowed(id) {
            true => message(3, 0, &[4, 0, 0, 0, 0, 0, 0, 0]),
            false => self.of(random, id),
        }
    }
}

/// The own bytes of a fault on a page in a view.
fn fault_at(random: &mut Random, view: u16, page: u64) -> Vec<u8> {
    let low = match random.below(4) {
        0 => random.pick(&[0, 1, 4094, 4095]),
        1 => PAGE - 1 - random.below(40),
        2 => 0,
        _ => random.below(PAGE),
    };
    let gpa = page << 12 | low;
    let gva = match random.below(10) {
        0 | 1 => UNKNOWN,
        2 => random.pick(&[0, 1, UNKNOWN - 1, UNKNOWN - 2, 1 << 63, 1 << 32, (1 << 32) - 1]),
        // where a sum that wraps ends
        3 | 4 => random.below(300),
        5 => UNKNOWN - 1 - random.below(300),
        6 => gpa,
        _ => random.word(),
    };
    let access = match random.below(8) {
        0 => random.pick(&[0, 2, 4, 6]),
        1 => random.pick(&[3, 5, 7]),
        2 => random.word() as u8,
        _ => 1,
    };
    let [a, b, c, d, e, ..] = random.word().to_le_bytes();
    let padding = if random.one_in(3) { [0; 5] } else { [a, b, c, d, e] };
    Fault { gva, gpa, access, view }.bytes(padding)
}

/// The data of a message 13 that gives a page an access.
pub fn guard(view: u16, page: u64, access: u8) -> Vec<u8> {
    let mut data = vec![1, 0];
    data.extend(view.to_le_bytes());
    data.extend([0; 4]);
    data.extend((page << 12).to_le_bytes());
    data.extend([access, 0, 0, 0, 0, 0, 0, 0]);
    data
}
