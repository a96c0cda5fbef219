//! What stands: a host asks for it, to program its hardware.
//!
//! Document 01, "Settings, and a session's standing": "Standing: VM event
//! switches; for each vCPU its ready mark, event switches, CR0/CR3/CR4
//! switches, MSR switches, singlestep and queued pauses (0..8); for each view
//! and page number an access. Beside the standing: [...] each vCPU's awaited
//! event, and whether closed."
//!
//! Any number is taken. A switch that document 01 doesn't have is off, a vCPU
//! that the settings don't have has nothing, and a page of which nothing is
//! said stands at rwx. "Closing makes all this fresh".

use crate::standing::{cr_bit, Msr, Vcpu, RWX};
use crate::{Session, Settings};

/// A page below rwx.
#[derive(Clone, Copy, Debug, PartialEq, Eq)]
pub struct Page {
    pub view: u32,
    /// "Page number is gpa / 4096, rounded down."
    pub page: u64,
    /// "Access bits: R 1, W 2, X 4".
    pub access: u8,
}

impl Session {
    fn vcpu(&self, vcpu: u32) -> Option<&Vcpu> {
        self.standing.vcpus.get(usize::try_from(vcpu).ok()?)
    }

    /// The settings, closed as the session may be: "Settings and guest memory
    /// are kept."
    pub fn settings(&self) -> &Settings {
        &self.settings
    }

    /// Whether the session is open.
    pub fn is_open(&self) -> bool {
        !self.is_closed()
    }

    /// A vCPU's ready mark.
    pub fn is_ready(&self, vcpu: u32) -> bool {
        self.vcpu(vcpu).is_some_and(|vcpu| vcpu.ready)
    }

    /// Whether an event is on for the VM.
    pub fn vm_event(&self, event: u32) -> bool {
        has(self.standing.vm_events, event)
    }

    /// Whether an event is on for a vCPU.
    pub fn vcpu_event(&self, vcpu: u32, event: u32) -> bool {
        self.vcpu(vcpu).is_some_and(|vcpu| has(vcpu.events, event))
    }

    /// A vCPU's switch of CR 0, 3 or 4.
    pub fn cr(&self, vcpu: u32, cr: u32) -> bool {
        let is_on = |vcpu: &Vcpu| cr_bit(cr).is_some_and(|bit| vcpu.crs & bit != 0);
        self.vcpu(vcpu).is_some_and(is_on)
    }

    /// A vCPU's switch of an MSR that message 12 takes.
    pub fn msr(&self, vcpu: u32, msr: u32) -> bool {
        let is_on = |vcpu: &Vcpu| Msr::new(msr).is_some_and(|msr| vcpu.msrs.get(msr));
        self.vcpu(vcpu).is_some_and(is_on)
    }

    /// Whether a vCPU is single-stepped.
    pub fn singlestep(&self, vcpu: u32) -> bool {
        self.vcpu(vcpu).is_some_and(|vcpu| vcpu.singlestep)
    }

    /// A vCPU's queued pauses, 0..=8.
    pub fn pauses(&self, vcpu: u32) -> u8 {
        self.vcpu(vcpu).map_or(0, |vcpu| vcpu.pauses)
    }

    /// The event whose reply a vCPU awaits.
    pub fn awaited(&self, vcpu: u32) -> Option<u8> {
        let awaited = self.awaited.get(usize::try_from(vcpu).ok()?)?;
        awaited.map(|awaited| awaited.event)
    }

    /// How many pages stand below rwx, "all views together".
    pub fn page_count(&self) -> usize {
        self.standing.pages.len()
    }

    /// The access of a page in a view.
    pub fn access(&self, view: u32, page: u64) -> u8 {
        self.standing.pages.get(view, page).unwrap_or(RWX)
    }

    /// The i-th page below rwx, "by view then page" as in the image.
    pub fn page_at(&self, i: usize) -> Option<Page> {
        // Not walked through in vain.
        (i < self.page_count()).then(|| self.pages().nth(i)).flatten()
    }

    /// The pages below rwx, "by view then page" as in the image.
    pub fn pages(&self) -> impl Iterator<Item = Page> + '_ {
        let pages = self.standing.pages.iter();
        pages.map(|(view, page, access)| Page { view: view.into(), page, access })
    }
}

/// Whether the switch of an event is on: "bit e for event e".
fn has(switches: u16, event: u32) -> bool {
    1u16.checked_shl(event).is_some_and(|bit| switches & bit != 0)
}
