//! What stands: the lookups of a session. A host asks them to bring its hardware to what the tool wants.

use crate::{ffi, Event, Session};
use core::fmt;
use core::iter::FusedIterator;
use core::mem::MaybeUninit;
use core::ops::Range;

/// Lookups. None refuses, and any number is taken: what a session does not have is off, 0, or at rwx, and so is everything once it
/// is closed. The access of a page is found by bisection, the others in constant time.
///
/// ```
/// use semblurick::{Access, Event, Session, Settings, MESSAGE_OUT};
///
/// let mut session = Session::fresh(&Settings::allowing_all(2)).unwrap();
/// session.ready(1).unwrap();
/// let (mut out, mut guest) = ([0; MESSAGE_OUT], [0; 4096]);
///
/// // KVMI_VCPU_CONTROL_EVENTS on vCPU 1: event 5 (CR) on
/// let events = [10, 0, 16, 0, 0, 0, 0, 0, 1, 0, 0, 0, 0, 0, 0, 0, 5, 0, 1, 0, 0, 0, 0, 0];
/// assert!(session.message(&events, &mut out, &mut guest).unwrap().error().is_none());
/// assert!(session.vcpu_event(1, Event::Cr) && !session.vcpu_event(0, Event::Cr));
///
/// // KVMI_VM_SET_PAGE_ACCESS: page 3 of view 0 to r-x
/// let guard = [13, 0, 24, 0, 1, 0, 0, 0, 1, 0, 0, 0, 0, 0, 0, 0, 0, 0x30, 0, 0, 0, 0, 0, 0, 5, 0, 0, 0, 0, 0, 0, 0];
/// assert!(session.message(&guard, &mut out, &mut guest).unwrap().error().is_none());
/// assert_eq!(session.access(0, 3).to_string(), "r-x");
/// assert_eq!(session.access(0, 4), Access::RWX);
/// let pages: Vec<_> = session.pages().map(|page| (page.view, page.page, page.access.bits())).collect();
/// assert_eq!(pages, [(0, 3, 5)]);
/// ```
impl Session {
    /// Whether the session is open.
    #[must_use]
    #[inline]
    pub fn is_open(&self) -> bool {
        // SAFETY: the session is only read; so it is in all lookups.
        unsafe { ffi::semblurick_raw_is_open(&self.raw) != 0 }
    }

    /// Whether the session was closed, or never begun.
    #[must_use]
    #[inline]
    pub fn is_closed(&self) -> bool {
        !self.is_open()
    }

    /// Whether a vCPU is marked ready.
    #[must_use]
    #[inline]
    pub fn is_ready(&self, vcpu: u32) -> bool {
        // SAFETY: as above.
        unsafe { ffi::semblurick_raw_is_ready(&self.raw, vcpu) != 0 }
    }

    /// Whether an event, an [`Event`] or its number, is on for the VM: `KVMI_VM_CONTROL_EVENTS` sets it.
    #[must_use]
    #[inline]
    pub fn vm_event(&self, event: impl Into<u32>) -> bool {
        // SAFETY: as above.
        unsafe { ffi::semblurick_raw_vm_event(&self.raw, event.into()) != 0 }
    }

    /// Whether an event, an [`Event`] or its number, is on for a vCPU: `KVMI_VCPU_CONTROL_EVENTS` sets it.
    #[must_use]
    #[inline]
    pub fn vcpu_event(&self, vcpu: u32, event: impl Into<u32>) -> bool {
        // SAFETY: as above.
        unsafe { ffi::semblurick_raw_vcpu_event(&self.raw, &self.vcpus, vcpu, event.into()) != 0 }
    }

    /// Whether writes to a control register, 0, 3 or 4, are to be caught on a vCPU: `KVMI_VCPU_CONTROL_CR` sets it.
    #[must_use]
    #[inline]
    pub fn cr(&self, vcpu: u32, cr: u32) -> bool {
        // SAFETY: as above.
        unsafe { ffi::semblurick_raw_cr(&self.raw, &self.vcpus, vcpu, cr) != 0 }
    }

    /// Whether writes to an MSR are to be caught on a vCPU: `KVMI_VCPU_CONTROL_MSR` sets it, for the MSRs 0 to 0x1FFF and 0xC0000000
    /// to 0xC0001FFF.
    #[must_use]
    #[inline]
    pub fn msr(&self, vcpu: u32, msr: u32) -> bool {
        // SAFETY: as above.
        unsafe { ffi::semblurick_raw_msr(&self.raw, &self.vcpus, vcpu, msr) != 0 }
    }

    /// Whether a vCPU is to be single-stepped: `KVMI_VCPU_CONTROL_SINGLESTEP` sets it.
    #[must_use]
    #[inline]
    pub fn singlestep(&self, vcpu: u32) -> bool {
        // SAFETY: as above.
        unsafe { ffi::semblurick_raw_singlestep(&self.raw, &self.vcpus, vcpu) != 0 }
    }

    /// How many pauses are queued for a vCPU, at most [`PAUSE_LIMIT`](crate::PAUSE_LIMIT).
    #[must_use]
    #[inline]
    pub fn pauses(&self, vcpu: u32) -> usize {
        // SAFETY: as above.
        unsafe { ffi::semblurick_raw_pauses(&self.raw, &self.vcpus, vcpu) as usize }
    }

    /// The event of a vCPU whose reply is awaited.
    #[must_use]
    #[inline]
    pub fn awaited(&self, vcpu: u32) -> Option<Event> {
        // SAFETY: as above.
        let number = unsafe { ffi::semblurick_raw_awaited(&self.raw, &self.vcpus, vcpu) };
        Event::from_number(u16::try_from(number).ok()?)
    }

    /// How many pages stand below rwx, in all views together; at most [`PAGE_LIMIT`](crate::PAGE_LIMIT).
    #[must_use]
    #[inline]
    pub fn page_count(&self) -> usize {
        // SAFETY: as above.
        unsafe { ffi::semblurick_raw_page_count(&self.raw) }
    }

    /// The access of a page in a view. A page's number is its guest physical address over 4,096. It is [`Access::X`], execute only,
    /// only where the settings have [`execute_only`](crate::Settings::execute_only).
    #[must_use]
    #[inline]
    pub fn access(&self, view: u32, page: u64) -> Access {
        // SAFETY: as above.
        Access(unsafe { ffi::semblurick_raw_access(&self.raw, &self.pages, view, page) } as u8)
    }

    /// The i-th of the pages below rwx, by view and then by number, as an image has them; none from
    /// [`page_count`](Session::page_count) on.
    #[must_use]
    #[inline]
    pub fn page_at(&self, i: usize) -> Option<Page> {
        let mut found = MaybeUninit::<[u64; 3]>::uninit();
        // SAFETY: as above, and the call writes all three words; it gives the last of them, too.
        let (access, [view, page, _]) = unsafe {
            let access = ffi::semblurick_raw_page_at(&self.raw, &self.pages, i, found.as_mut_ptr());
            (Access(access as u8), found.assume_init())
        };
        (access != Access::RWX).then_some(Page { view: view as u32, page, access })
    }

    /// The pages below rwx, by view and then by number: a host walks them after an image was read.
    #[inline]
    pub fn pages(&self) -> Pages<'_> {
        Pages { session: self, left: 0..self.page_count() }
    }
}

/// What the guest may do with a page. `{}` is `r-x` and the like.
#[derive(Clone, Copy, PartialEq, Eq, Hash)]
pub struct Access(u8);

impl Access {
    /// Nothing.
    pub const NONE: Access = Access(0);
    /// Reading.
    pub const R: Access = Access(1);
    /// Writing.
    pub const W: Access = Access(2);
    /// Executing.
    pub const X: Access = Access(4);
    /// All three: what a page has of which nothing else was said.
    pub const RWX: Access = Access(7);

    /// R 1, W 2, X 4; other bits are dropped.
    #[must_use]
    pub const fn from_bits(bits: u8) -> Access {
        Access(bits & 7)
    }

    /// R 1, W 2, X 4, as on the wire and in an image.
    #[must_use]
    pub const fn bits(self) -> u8 {
        self.0
    }

    /// Whether it grants all that another does.
    #[must_use]
    pub const fn grants(self, other: Access) -> bool {
        self.0 & other.0 == other.0
    }
}

impl fmt::Display for Access {
    fn fmt(&self, f: &mut fmt::Formatter<'_>) -> fmt::Result {
        let letters = [(Access::R, "r"), (Access::W, "w"), (Access::X, "x")];
        letters.iter().try_for_each(|(one, letter)| f.write_str(if self.grants(*one) { letter } else { "-" }))
    }
}

impl fmt::Debug for Access {
    fn fmt(&self, f: &mut fmt::Formatter<'_>) -> fmt::Result {
        fmt::Display::fmt(self, f)
    }
}

/// A page below rwx.
#[derive(Clone, Copy, Debug, PartialEq, Eq, Hash)]
#[non_exhaustive]
pub struct Page {
    /// Its view.
    pub view: u32,
    /// Its number: guest physical address over 4,096.
    pub page: u64,
    /// What the guest may do with it.
    pub access: Access,
}

/// The pages below rwx; [`Session::pages`] gives it.
#[derive(Clone)]
#[must_use = "iterators do nothing unless they are walked"]
pub struct Pages<'a> {
    session: &'a Session,
    left: Range<usize>,
}

impl Iterator for Pages<'_> {
    type Item = Page;

    #[inline]
    fn next(&mut self) -> Option<Page> {
        self.session.page_at(self.left.next()?)
    }

    #[inline]
    fn size_hint(&self) -> (usize, Option<usize>) {
        self.left.size_hint()
    }

    #[inline]
    fn nth(&mut self, n: usize) -> Option<Page> {
        self.session.page_at(self.left.nth(n)?)
    }
}

impl DoubleEndedIterator for Pages<'_> {
    #[inline]
    fn next_back(&mut self) -> Option<Page> {
        self.session.page_at(self.left.next_back()?)
    }
}

impl ExactSizeIterator for Pages<'_> {}

impl FusedIterator for Pages<'_> {}

impl fmt::Debug for Pages<'_> {
    fn fmt(&self, f: &mut fmt::Formatter<'_>) -> fmt::Result {
        f.debug_list().entries(self.clone()).finish()
    }
}
