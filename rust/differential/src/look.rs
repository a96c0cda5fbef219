//! Lookups: what both sides are asked between calls.
//!
//! After every call what it touched is asked, and some of the rest; every so often, and after an image, all of it.

use crate::batch::messages;
use crate::event::register;
use crate::fault::Fault;
use crate::message::msr;
use crate::{Call, Random};
use std::fmt;

/// One question to a filter; any number may be asked.
#[derive(Clone, Copy, Debug, PartialEq, Eq)]
pub enum Lookup {
    IsOpen,
    IsReady { vcpu: u32 },
    VmEvent { event: u32 },
    VcpuEvent { vcpu: u32, event: u32 },
    Cr { vcpu: u32, cr: u32 },
    Msr { vcpu: u32, msr: u32 },
    Singlestep { vcpu: u32 },
    Pauses { vcpu: u32 },
    Awaited { vcpu: u32 },
    PageCount,
    Access { view: u32, page: u64 },
    PageAt { i: u64 },
}

/// What a filter tells.
#[derive(Clone, Copy, Debug, PartialEq, Eq)]
pub enum Told {
    Flag(bool),
    Number(u64),
    /// View, page and access.
    Page(Option<(u32, u64, u8)>),
}

/// The names of the lookups.
pub const LOOKUPS: [&str; 12] = [
    "is_open",
    "is_ready",
    "vm_event",
    "vcpu_event",
    "cr",
    "msr",
    "singlestep",
    "pauses",
    "awaited",
    "page_count",
    "access",
    "page_at",
];

impl Lookup {
    /// Which of the names it has.
    pub fn row(self) -> usize {
        match self {
            Lookup::IsOpen => 0,
            Lookup::IsReady { .. } => 1,
            Lookup::VmEvent { .. } => 2,
            Lookup::VcpuEvent { .. } => 3,
            Lookup::Cr { .. } => 4,
            Lookup::Msr { .. } => 5,
            Lookup::Singlestep { .. } => 6,
            Lookup::Pauses { .. } => 7,
            Lookup::Awaited { .. } => 8,
            Lookup::PageCount => 9,
            Lookup::Access { .. } => 10,
            Lookup::PageAt { .. } => 11,
        }
    }

    pub fn name(self) -> &'static str {
        LOOKUPS[self.row()]
    }

    /// What is asked for, as two numbers, for the text.
    fn numbers(self) -> (u64, u64) {
        match self {
            Lookup::IsOpen | Lookup::PageCount => (0, 0),
            Lookup::IsReady { vcpu } | Lookup::Singlestep { vcpu } | Lookup::Pauses { vcpu } | Lookup::Awaited { vcpu } => {
                (vcpu.into(), 0)
            }
            Lookup::VmEvent { event } => (0, event.into()),
            Lookup::VcpuEvent { vcpu, event } => (vcpu.into(), event.into()),
            Lookup::Cr { vcpu, cr } => (vcpu.into(), cr.into()),
            Lookup::Msr { vcpu, msr } => (vcpu.into(), msr.into()),
            Lookup::Access { view, page } => (view.into(), page),
            Lookup::PageAt { i } => (0, i),
        }
    }

    /// The lookup with a name, for a vCPU or a view and another number; 0 for what it has none of.
    pub fn named(name: &str, of: u32, number: u64) -> Option<Lookup> {
        let vcpu = of;
        let narrow = u32::try_from(number);
        let lookup = match name {
            "is_open" => Lookup::IsOpen,
            "is_ready" => Lookup::IsReady { vcpu },
            "vm_event" => Lookup::VmEvent { event: narrow.ok()? },
            "vcpu_event" => Lookup::VcpuEvent { vcpu, event: narrow.ok()? },
            "cr" => Lookup::Cr { vcpu, cr: narrow.ok()? },
            "msr" => Lookup::Msr { vcpu, msr: narrow.ok()? },
            "singlestep" => Lookup::Singlestep { vcpu },
            "pauses" => Lookup::Pauses { vcpu },
            "awaited" => Lookup::Awaited { vcpu },
            "page_count" => Lookup::PageCount,
            "access" => Lookup::Access { view: of, page: number },
            "page_at" => Lookup::PageAt { i: number },
            _ => return None,
        };
        (lookup.numbers() == (of.into(), number)).then_some(lookup)
    }
}

impl fmt::Display for Lookup {
    fn fmt(&self, f: &mut fmt::Formatter<'_>) -> fmt::Result {
        let (of, number) = self.numbers();
        write!(f, "name={} of={of} number={number:#x}", self.name())
    }
}

/// vCPUs, views, events, CRs and MSRs that no session has, or that look like one which it has.
const FAR: [u32; 10] = [17, 31, 32, 63, 64, 255, 0x100, 1 << 16, 1 << 31, u32::MAX];

const LAST_PAGE: u64 = (1 << 52) - 1;

/// MSRs at the ends of the ranges, and those that would be taken for them if a number were cut.
const MSR_EDGES: [u32; 14] = [
    0,
    0x1FFF,
    0x2000,
    0x3FFF,
    0x4000,
    0x1_0000,
    0x4000_0000,
    0x8000_0000,
    0xBFFF_FFFF,
    0xC000_0000,
    0xC000_1FFF,
    0xC000_2000,
    0xC000_3FFF,
    u32::MAX,
];

fn half(bytes: &[u8], at: usize) -> Option<u32> {
    Some(u16::from_le_bytes(*bytes.get(at..)?.first_chunk()?).into())
}

fn word(bytes: &[u8], at: usize) -> Option<u32> {
    Some(u32::from_le_bytes(*bytes.get(at..)?.first_chunk()?))
}

/// A number as it is, or one that a cut would make it.
fn far(random: &mut Random, near: u32) -> u32 {
    match random.below(3) {
        0 => random.pick(&FAR),
        1 => near | random.pick(&[0x100, 1 << 16, 1 << 31]),
        _ => random.word() as u32,
    }
}

/// What to ask after a call: what it touched, and some of the rest. `pages` is how many stand below rwx.
pub fn near(random: &mut Random, call: &Call, pages: usize, list: &mut Vec<Lookup>) {
    list.extend([Lookup::IsOpen, Lookup::PageCount]);
    vm_events(random, list);

    // the message, or some of a batch
    let sent: [&[u8]; 4] = match call {
        Call::Message { bytes, .. } => [bytes, &[], &[], &[]],
        Call::Batch { bytes, .. } => {
            let count = messages(bytes).count().max(1);
            [(); 4].map(|()| messages(bytes).nth(random.index(count)).unwrap_or_default())
        }
        _ => [&[]; 4],
    };
    let of_host = match call {
        Call::Ready { vcpu } => Some((*vcpu, None)),
        Call::Enter { vcpu, event, own, .. } => Some((*vcpu, register(*event, own))),
        _ => None,
    };
    let touched = |bytes: &&[u8]| match half(bytes, 0) {
        Some(8..=12 | 14 | 16) => Some((half(bytes, 8)?, word(bytes, 20))),
        _ => None,
    };
    let other = match random.below(4) {
        0 => random.pick(&[15, 16, 17, 0x100, 0x1_0000]),
        1 => {
            let near = random.below(16) as u32;
            far(random, near)
        }
        _ => random.below(16) as u32,
    };
    let touched: Vec<(u32, Option<u32>)> = of_host.into_iter().chain(sent.iter().filter_map(touched)).collect();
    let register = touched.first().and_then(|(_, register)| *register);
    for (vcpu, register) in touched.into_iter().chain([(other, register)]) {
        switches(random, vcpu, list);
        for number in register.into_iter().chain([random.pick(&MSR_EDGES), msr(random, 8)]) {
            list.push(Lookup::Msr { vcpu, msr: number });
        }
    }

    if let Call::Enter { event: 10, own, .. } = call {
        if let Some(fault) = Fault::of(own) {
            let (view, page) = (u32::from(fault.view), fault.page());
            list.extend([(view, page), (view, page + 1), (view ^ 1, page)].map(|(view, page)| Lookup::Access { view, page }));
        }
    }
    for bytes in sent {
        if let (Some(13), Some(view), Some(entries)) = (half(bytes, 0), half(bytes, 10), bytes.get(16..)) {
            // the first, the last and one between
            let count = entries.len() / 16;
            let places = [0, count.wrapping_sub(1), if count > 0 { random.index(count) } else { 0 }];
            for gpa in places.into_iter().filter_map(|at| entries.get(16 * at..)?.first_chunk()) {
                let page = u64::from_le_bytes(*gpa) >> 12;
                list.extend([page, page.wrapping_add(1)].map(|page| Lookup::Access { view, page }));
            }
        }
    }
    let view = match random.below(4) {
        0 => far(random, 0),
        _ => random.below(10) as u32,
    };
    let page = match random.below(4) {
        0 => random.pick(&[0, 1, LAST_PAGE, LAST_PAGE + 1, 1 << 63, u64::MAX]),
        1 => random.word(),
        _ => random.below(5000),
    };
    list.push(Lookup::Access { view, page });
    if pages > 0 {
        list.push(Lookup::PageAt { i: random.below(pages as u64) });
    }
    list.push(Lookup::PageAt { i: pages as u64 });
    if random.one_in(8) {
        list.push(Lookup::PageAt { i: random.pick(&[pages as u64 + 1, 1023, 1024, 1025, 1 << 32, u64::MAX]) });
    }
}

fn vm_events(random: &mut Random, list: &mut Vec<Lookup>) {
    list.extend((0..=20).map(|event| Lookup::VmEvent { event }));
    let near = random.pick(&[1, 12]);
    list.push(Lookup::VmEvent { event: far(random, near) });
}

/// Everything of a vCPU but its MSR switches.
fn switches(random: &mut Random, vcpu: u32, list: &mut Vec<Lookup>) {
    list.extend([Lookup::IsReady { vcpu }, Lookup::Singlestep { vcpu }, Lookup::Pauses { vcpu }, Lookup::Awaited { vcpu }]);
    list.extend((0..=20).map(|event| Lookup::VcpuEvent { vcpu, event }));
    list.extend((0..=8).map(|cr| Lookup::Cr { vcpu, cr }));
    let (event, cr) = (random.pick(&[3, 5, 10, 14]), random.pick(&[0, 3, 4]));
    list.push(Lookup::VcpuEvent { vcpu, event: far(random, event) });
    list.push(Lookup::Cr { vcpu, cr: far(random, cr) });
}

/// Everything but the pages below rwx: of MSRs those at the edges and some more, or all of one vCPU. `pages` are those below rwx;
/// what lies beside some of them is asked.
pub fn all(random: &mut Random, all_msrs: bool, pages: &[(u32, u64, u8)], list: &mut Vec<Lookup>) {
    list.extend([Lookup::IsOpen, Lookup::PageCount]);
    vm_events(random, list);
    list.extend(FAR.map(|event| Lookup::VmEvent { event }));
    let everyone = (0..18).chain(FAR);
    for vcpu in everyone.clone() {
        switches(random, vcpu, list);
        list.extend(MSR_EDGES.map(|msr| Lookup::Msr { vcpu, msr }));
        list.extend([(); 4].map(|()| Lookup::Msr { vcpu, msr: msr(random, 16) }));
    }
    if all_msrs {
        let vcpu = random.below(17) as u32;
        list.extend((0..0x2040).chain(0xBFFF_FFC0..0xC000_2040).map(|msr| Lookup::Msr { vcpu, msr }));
    }
    for _ in 0..pages.len().min(32) {
        let (view, page, _) = random.pick(pages);
        let places =
            [(view + 1, page), (view ^ 1, page), (view, page + 1), (view, page.wrapping_sub(1)), (view, page | 1 << 52)];
        list.extend(places.map(|(view, page)| Lookup::Access { view, page }));
        list.push(Lookup::Access { view: view | 1 << 16, page });
    }
    for view in everyone {
        list.extend([0, LAST_PAGE, LAST_PAGE + 1, u64::MAX].map(|page| Lookup::Access { view, page }));
    }
    let count = pages.len() as u64;
    list.extend([count, count + 1, 1023, 1024, 1025, 1 << 32, u64::MAX].map(|i| Lookup::PageAt { i }));
}
