//! A filter for the host end of a KVMI introspection channel, in plain Rust.
//!
//! kvmi.rst (API version 1) gives the layouts; document 01 gives the numbers,
//! the order of the tests, the host's answers and the table image, and decides
//! where kvmi.rst is silent or contradicts itself. Document 02 changes them: of
//! its requests W1, the other events, W2, execute-only pages, W3, several
//! messages in one write, W5, page faults, W6, which padding byte it was, and
//! W7, revision 2, are built; W4 changes no answer.
//! Comments quote or name the sentence that a rule stands for; `NOTES.md` lists
//! the readings of sentences that are open.
//!
//! * [`Session::message`] takes one message of the tool, and
//!   [`Session::batch`] several of them,
//! * [`Session::ready`] and [`Session::enter`] are the host's calls,
//! * [`Session::write_image`] and [`Session::read_image`] hand the tables from
//!   one host to another,
//! * the lookups of [`Session`] tell what stands,
//! * [`list`] has the calls on records that the host lends.

#![forbid(unsafe_code)]

mod batch;
mod event;
mod fault;
mod image;
pub mod list;
mod lookup;
mod message;
mod session;
mod standing;
mod wire;

pub use batch::Batch;
pub use lookup::Page;
pub use session::Session;
use standing::EXECUTE_ONLY;

/// Document 01, "Settings, and a session's standing": the first paragraph; and
/// document 02, W2: "It becomes a settings flag", W7: "The revision is a
/// setting".
#[derive(Clone, Debug, PartialEq, Eq)]
pub struct Settings {
    /// vCPU count, 1..=16.
    pub vcpus: u32,
    /// View count, 1..=8.
    pub views: u32,
    /// Allowed commands: bit k for command k, unknown bits ignored.
    pub commands: u32,
    /// Allowed events: bit k for event k, unknown bits ignored.
    pub events: u32,
    /// The eight-byte TSC speed that VCPU_GET_INFO tells.
    pub tsc: u64,
    /// The five feature bytes that GET_VERSION tells; the first is singlestep
    /// (0 lacking, any other value present).
    pub features: [u8; 5],
    /// Whether descriptor events (event 8) can be caught.
    pub descriptors: bool,
    /// Whether breakpoints (event 4) are already taken by the host.
    pub breakpoints: bool,
    /// Whether the processor has execute-only pages, access 4.
    pub execute_only: bool,
    /// The revision that GET_VERSION tells, 1 or 2: by 2, message 13 applies
    /// all of its entries or none.
    pub revision: u32,
}

impl Settings {
    /// Answer 7: "a count out of its range", and by document 02, W7, "a revision
    /// other than 1 or 2".
    fn check(&self) -> Result<(), Answer> {
        if (1..=16).contains(&self.vcpus) && (1..=8).contains(&self.views) && (1..=2).contains(&self.revision) {
            Ok(())
        } else {
            Err(Answer::BadSettings)
        }
    }

    /// "1, 2, 3 and 16 are always allowed"; the others as the bit set says.
    fn allows_command(&self, id: u16) -> bool {
        match id {
            1 | 2 | 3 | 16 => true,
            4..=15 => self.commands & (1 << id) != 0,
            _ => false,
        }
    }

    /// Whether each event in `bits` (bit e for event e) is allowed.
    fn allows_events(&self, bits: u16) -> bool {
        u32::from(bits) & !self.events == 0
    }

    /// "the singlestep feature (first feature byte 0)" is the lacking one.
    fn singlestep(&self) -> bool {
        self.features[0] != 0
    }

    /// Document 02, W2: "access 4 is a processor capability"; the other accesses
    /// every host has. Message 13 and a PA record are refused by this alike.
    fn has_access(&self, access: u8) -> bool {
        access != EXECUTE_ONLY || self.execute_only
    }

    /// Document 02, W7: "revision 2 applies no entry of a page-access message if
    /// any would be skipped".
    fn all_or_nothing(&self) -> bool {
        self.revision == 2
    }
}

/// What a handled call asks of the host beside the bytes written.
#[derive(Clone, Copy, Debug, PartialEq, Eq)]
pub enum Signal {
    None,
    /// An accepted pause: kick the vCPU out of the guest, and wait for it or not.
    Kick {
        vcpu: u16,
        wait: bool,
    },
    /// An event reply with the crash action.
    Crash {
        vcpu: u16,
    },
    /// Another reply to an event that an entry offered: "resume(vCPU, action,
    /// new value or 0)". The value is CR's or MSR's, or PF's rep flag.
    Resume {
        vcpu: u16,
        action: Action,
        value: u64,
    },
}

/// The action of an event reply: "0 continue or 2 crash (1 is retry)". A crash
/// has a signal of its own.
#[derive(Clone, Copy, Debug, PartialEq, Eq)]
pub enum Action {
    Continue,
    Retry,
}

/// Document 02, W5: "the host wants the bytes to feed the instruction", and "It
/// must be a part of one of the two buffers."
#[derive(Clone, Copy, Debug, PartialEq, Eq)]
pub enum Feed {
    /// None: only a read that is continued wants bytes.
    None,
    /// "the supplied data from gva to its end": this part of the message, its
    /// header counted; of a batch, of the input.
    Supplied { at: usize, length: usize },
    /// "the page's bytes from gpa to the page end": this part of guest memory.
    Page { at: usize, length: usize },
}

/// Document 01, "Host answers", and document 02: W3, "a list with no place 11",
/// and W5, "where none exists is answer 12". The number of each is named beside
/// it.
#[derive(Clone, Copy, Debug, PartialEq, Eq)]
pub enum Answer {
    /// 0: handled; so many bytes were written. `padding` is of document 02, W6:
    /// "the message offset of the first non-zero padding byte"; "0 means
    /// padding fine or test 6 not reached", and every call but that of a
    /// message has 0.
    Handled { count: usize, signal: Signal, feed: Feed, padding: usize },
    /// 1: this call closed the session.
    Closing,
    /// 2: the session was closed before.
    Closed,
    /// 3: the output is too short.
    ShortOut,
    /// 4: a host call names a vCPU not below the count.
    BadVcpu,
    /// 5: the lent register block is not 536 bytes, no event with this number
    /// is offered, or its own bytes are not as many as it has.
    BadState,
    /// 6: that vCPU's event reply is awaited.
    Waiting,
    /// 7: a count of the settings is out of its range, or the revision is
    /// neither 1 nor 2.
    BadSettings,
    /// 8: the image breaks a rule of form at this offset.
    BadForm { offset: usize },
    /// 9: the image wants, at this offset, what the settings lack.
    Forbidden { offset: usize },
    /// 10: an image is asked while a reply is awaited.
    Busy,
    /// 11: the lent list of signals has no place.
    NoPlace,
    /// 12: as 0, with no byte written, but the guest page does not exist that
    /// was to feed the instruction.
    NoPage { signal: Signal },
    /// 14: the CR switch of a list has no such CR, or the record is not ready.
    NotApplicable,
}

impl Answer {
    /// Document 01's number of this answer.
    pub fn number(self) -> u32 {
        match self {
            Answer::Handled { .. } => 0,
            Answer::Closing => 1,
            Answer::Closed => 2,
            Answer::ShortOut => 3,
            Answer::BadVcpu => 4,
            Answer::BadState => 5,
            Answer::Waiting => 6,
            Answer::BadSettings => 7,
            Answer::BadForm { .. } => 8,
            Answer::Forbidden { .. } => 9,
            Answer::Busy => 10,
            Answer::NoPlace => 11,
            Answer::NoPage { .. } => 12,
            Answer::NotApplicable => 14,
        }
    }

    /// Handled, with nothing asked of the host.
    fn handled(count: usize) -> Answer {
        Answer::Handled { count, signal: Signal::None, feed: Feed::None, padding: 0 }
    }
}
