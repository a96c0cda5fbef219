//! Page faults: document 02, W5.
//!
//! "Send PF (event data 568) and take its reply (288 data bytes)." kvmi.rst,
//! "KVMI_EVENT_PF", has both layouts. "On a continued read (access bit R) the
//! host wants the bytes to feed the instruction: the bytes come from the reply's
//! data or from the guest page."

use crate::standing::{page_exists, PAGE, R};
use crate::wire::{is_zero, u16_at, u32_at, u64_at, HEADER};
use crate::Feed;

/// What an awaited fault's record keeps for its reply.
#[derive(Clone, Copy, Debug, PartialEq, Eq)]
pub(crate) struct Fault {
    pub gva: u64,
    pub gpa: u64,
    pub access: u8,
}

/// Bytes of `struct kvmi_event_pf`: gva u64, gpa u64, access u8, padding1 u8,
/// padding2 u16, padding3 u32.
pub(crate) const EVENT: usize = 24;

impl Fault {
    /// Of an event's own bytes.
    pub fn of(own: &[u8]) -> Fault {
        Fault { gva: u64_at(own, 0), gpa: u64_at(own, 8), access: own[16] }
    }
}

/// "the view its bytes name": a view is a u16, and padding2 is the only one that
/// kvmi.rst leaves free.
pub(crate) fn view(own: &[u8]) -> u16 {
    u16_at(own, 18)
}

/// Where in a reply's data `struct kvmi_event_pf_reply` begins, behind the vCPU
/// header and `struct kvmi_event_reply`, and where in it the supplied data do.
const CONTEXT_AT: usize = 16;
const SUPPLIED_AT: usize = 16;

/// The most that a reply supplies: ctx_data[256].
const SUPPLIED: u32 = 256;

/// "take its reply (288 data bytes)"
pub(crate) const REPLY: usize = CONTEXT_AT + SUPPLIED_AT + SUPPLIED as usize;

/// Gva "-1/UNMAPPED_GVA": "Gva all ones means unknown."
const UNKNOWN: u64 = u64::MAX;

/// What a fault's reply says beside its action.
pub(crate) struct Context {
    address: u64,
    size: u64,
    /// "A resume's value is the rep flag".
    pub rep: u64,
}

impl Context {
    /// Of a reply's 288 data bytes. kvmi.rst, `struct kvmi_event_pf_reply`:
    /// ctx_addr u64, ctx_size u32, padding1 u8, rep_complete u8, padding2 u16,
    /// ctx_data[256].
    ///
    /// None if padding is not zero, and "context size above 256 or rep flag
    /// above 1 closes". "a non-padding field of the reply not named here is
    /// free".
    pub fn of(data: &[u8]) -> Option<Context> {
        let context = &data[CONTEXT_AT..];
        let (address, size, rep) = (u64_at(context, 0), u32_at(context, 8), context[13]);
        let padding_is_zero = context[12] == 0 && is_zero(&context[14..16]);
        let taken = padding_is_zero && size <= SUPPLIED && rep <= 1;
        taken.then(|| Context { address, size: size.into(), rep: rep.into() })
    }

    /// The bytes for an instruction that is continued after this fault; none if
    /// it needs "the guest page where none exists".
    pub fn feed(&self, fault: Fault, guest: &[u8]) -> Option<Feed> {
        // "On a continued read (access bit R)".
        if fault.access & R == 0 {
            return Some(Feed::None);
        }
        // "If gva is known and in the context's [address, address + size),
        // reckoned without wrapping, they are the supplied data from gva to its
        // end".
        if fault.gva != UNKNOWN && fault.gva >= self.address && fault.gva - self.address < self.size {
            let before = fault.gva - self.address;
            let at = HEADER + CONTEXT_AT + SUPPLIED_AT + before as usize;
            return Some(Feed::Supplied { at, length: (self.size - before) as usize });
        }
        // "else the page's bytes from gpa to the page end"
        let length = (PAGE - fault.gpa % PAGE) as usize;
        page_exists(fault.gpa, guest).then_some(Feed::Page { at: fault.gpa as usize, length })
    }
}
