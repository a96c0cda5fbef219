//! A session's standing: the tables that messages change and the image holds.
//!
//! Document 01: "Standing: VM event switches; for each vCPU its ready mark,
//! event switches, CR0/CR3/CR4 switches, MSR switches, singlestep and queued
//! pauses (0..8); for each view and page number an access."

use crate::wire::error::EAGAIN;
use std::collections::btree_map::{BTreeMap, Entry};

/// Document 01: "queued pauses (0..8)".
pub(crate) const PAUSE_LIMIT: u8 = 8;

/// Document 01: "1,024 pages (all views together)".
pub(crate) const PAGE_LIMIT: usize = 1024;

/// "a page (4,096 bytes)".
pub(crate) const PAGE: u64 = 4096;

/// "a page (4,096 bytes) exists if it lies wholly inside" guest memory.
pub(crate) fn page_exists(gpa: u64, guest: &[u8]) -> bool {
    gpa / PAGE < guest.len() as u64 / PAGE
}

/// Access bits: "R 1, W 2, X 4".
pub(crate) const R: u8 = 1;
pub(crate) const RWX: u8 = 7;

/// X without R.
pub(crate) const EXECUTE_ONLY: u8 = 4;

#[derive(Clone, Debug)]
pub(crate) struct Standing {
    /// The events that message 5 switched on: bit e for event e.
    pub vm_events: u16,
    /// One for every vCPU of the settings.
    pub vcpus: Vec<Vcpu>,
    pub pages: Pages,
}

impl Standing {
    /// "A fresh session has every switch off, no vCPU ready, no pauses, every
    /// page at rwx".
    pub fn fresh(vcpus: u32) -> Standing {
        Standing { vm_events: 0, vcpus: vec![Vcpu::default(); vcpus as usize], pages: Pages::default() }
    }

    /// The record of a vCPU below the count, or "-11 EAGAIN: the vCPU is not
    /// ready".
    pub fn ready_vcpu(&mut self, vcpu: u16) -> Result<&mut Vcpu, i32> {
        let vcpu = &mut self.vcpus[usize::from(vcpu)];
        if vcpu.ready {
            Ok(vcpu)
        } else {
            Err(EAGAIN)
        }
    }
}

#[derive(Clone, Debug, Default)]
pub(crate) struct Vcpu {
    pub ready: bool,
    pub singlestep: bool,
    /// 1, 2, 4 for CR0, CR3, CR4, as in the image.
    pub crs: u8,
    /// Bit e for event e, as in the image.
    pub events: u16,
    pub pauses: u8,
    pub msrs: Msrs,
}

/// The image's bit for a control register; none for one "other than 0, 3, 4".
pub(crate) fn cr_bit(cr: u32) -> Option<u8> {
    match cr {
        0 => Some(1),
        3 => Some(2),
        4 => Some(4),
        _ => None,
    }
}

/// The MSR switches of one vCPU: a bit for each of the 16,384 MSRs that
/// message 12 takes, in ascending order. The bits are allocated when the first
/// switch is turned on.
#[derive(Clone, Debug, Default)]
pub(crate) struct Msrs {
    words: Option<Box<[u64; Msrs::WORDS]>>,
    on: usize,
}

/// An MSR that message 12 takes, as its rank among them.
#[derive(Clone, Copy)]
pub(crate) struct Msr(u16);

impl Msr {
    /// MSRs in each of the two ranges.
    const RANGE: u32 = 0x2000;
    /// The first MSR of the upper range.
    const UPPER: u32 = 0xC000_0000;

    /// None for an "MSR outside 0..0x1FFF and 0xC0000000..0xC0001FFF".
    pub fn new(number: u32) -> Option<Msr> {
        if number < Msr::RANGE {
            Some(Msr(number as u16))
        } else if (Msr::UPPER..Msr::UPPER + Msr::RANGE).contains(&number) {
            Some(Msr((number - Msr::UPPER + Msr::RANGE) as u16))
        } else {
            None
        }
    }

    pub fn number(self) -> u32 {
        let rank = u32::from(self.0);
        if rank < Msr::RANGE {
            rank
        } else {
            rank - Msr::RANGE + Msr::UPPER
        }
    }
}

impl Msrs {
    const WORDS: usize = 2 * Msr::RANGE as usize / 64;

    pub fn set(&mut self, msr: Msr, enable: bool) {
        let (word, bit) = (usize::from(msr.0 / 64), 1u64 << (msr.0 % 64));
        if enable {
            let words = self.words.get_or_insert_with(|| Box::new([0; Msrs::WORDS]));
            if words[word] & bit == 0 {
                words[word] |= bit;
                self.on += 1;
            }
        } else if let Some(words) = &mut self.words {
            if words[word] & bit != 0 {
                words[word] &= !bit;
                self.on -= 1;
            }
        }
    }

    pub fn get(&self, msr: Msr) -> bool {
        let (word, bit) = (usize::from(msr.0 / 64), 1u64 << (msr.0 % 64));
        self.words.as_ref().is_some_and(|words| words[word] & bit != 0)
    }

    /// How many switches are on.
    pub fn len(&self) -> usize {
        self.on
    }

    /// The MSRs switched on, ascending.
    pub fn iter(&self) -> impl Iterator<Item = u32> + '_ {
        // Nothing to walk through when no switch is on.
        let words = match &self.words {
            Some(words) if self.on > 0 => &words[..],
            _ => &[],
        };
        words.iter().enumerate().flat_map(|(index, &word)| {
            let mut left = word;
            std::iter::from_fn(move || {
                if left == 0 {
                    return None;
                }
                let rank = index as u32 * 64 + left.trailing_zeros();
                left &= left - 1;
                Some(Msr(rank as u16).number())
            })
        })
    }
}

/// The pages below rwx of all views; a page not among them stands at rwx.
#[derive(Clone, Debug, Default)]
pub(crate) struct Pages {
    /// The view above the page number's 52 bits, so that the order of the keys
    /// is the image's "by view then page".
    below: BTreeMap<u64, u8>,
}

impl Pages {
    const PAGE_BITS: u32 = 52;

    fn key(view: u16, page: u64) -> u64 {
        u64::from(view) << Pages::PAGE_BITS | page
    }

    /// One entry of message 13 acts; false if it is skipped.
    pub fn set(&mut self, view: u16, page: u64, access: u8) -> bool {
        self.put(Pages::key(view, page), access).is_some()
    }

    /// The entries of a message act in order, or none of them if one would be
    /// skipped; false then.
    pub fn set_all(&mut self, view: u16, entries: impl ExactSizeIterator<Item = (u64, u8)>) -> bool {
        let mut changed = Vec::with_capacity(entries.len());
        for (page, access) in entries {
            let key = Pages::key(view, page);
            let Some(before) = self.put(key, access) else {
                // Taken back from the last to the first, so that each finds the
                // room that it had.
                for (key, before) in changed.into_iter().rev() {
                    self.put(key, before);
                }
                return false;
            };
            changed.push((key, before));
        }
        true
    }

    /// Whether so many more pages are within the limit.
    pub fn has_room(&self, more: usize) -> bool {
        self.below.len() + more <= PAGE_LIMIT
    }

    /// Sets an access and gives the one before; none if it is skipped: "An
    /// entry is skipped exactly if its page stands at rwx, it asks for less, and
    /// 1,024 pages (all views together) stand below rwx then."
    #[inline(always)]
    fn put(&mut self, key: u64, access: u8) -> Option<u8> {
        if access == RWX {
            // "Access 7 forgets a page, and its room is used again."
            return Some(self.below.remove(&key).unwrap_or(RWX));
        }
        let full = self.below.len() >= PAGE_LIMIT;
        match self.below.entry(key) {
            Entry::Occupied(mut entry) => Some(entry.insert(access)),
            Entry::Vacant(_) if full => None,
            Entry::Vacant(entry) => {
                entry.insert(access);
                Some(RWX)
            }
        }
    }

    /// The access of a page that stands below rwx; none does in a view above 7
    /// or from page 2^52 on.
    pub fn get(&self, view: u32, page: u64) -> Option<u8> {
        if view > 7 || page >> Pages::PAGE_BITS != 0 {
            return None;
        }
        self.below.get(&Pages::key(view as u16, page)).copied()
    }

    /// How many pages stand below rwx.
    pub fn len(&self) -> usize {
        self.below.len()
    }

    /// View, page number and access of each page below rwx, by view then page.
    pub fn iter(&self) -> impl Iterator<Item = (u16, u64, u8)> + '_ {
        self.below.iter().map(|(&key, &access)| {
            let view = (key >> Pages::PAGE_BITS) as u16;
            let page = key & ((1 << Pages::PAGE_BITS) - 1);
            (view, page, access)
        })
    }
}
