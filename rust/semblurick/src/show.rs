//! Bytes and sessions as a person reads them.

use crate::{ffi, Command, Errno, Event, EventSet, Session};
use core::fmt;

/// How many bytes are shown.
const SHOWN: usize = 32;

/// How many messages are named.
const NAMED: usize = 8;

/// The bytes of a CMD_ERROR event, the only event that a message writes. Of those that entries write, BREAKPOINT and CPUID have as
/// many.
const COMMAND_ERROR: usize = 568;

/// Bytes in hex digits, the first of them where there are many.
pub(crate) struct Hex<'a>(pub &'a [u8]);

impl fmt::Debug for Hex<'_> {
    fn fmt(&self, f: &mut fmt::Formatter<'_>) -> fmt::Result {
        f.write_str("[")?;
        for (i, byte) in self.0.iter().take(SHOWN).enumerate() {
            write!(f, "{}{byte:02x}", if i == 0 { "" } else { " " })?;
        }
        match self.0.len().saturating_sub(SHOWN) {
            0 => f.write_str("]"),
            more => write!(f, " and {more} more]"),
        }
    }
}

/// Whether these bytes are an event. A reply to an unknown message with id 17 begins alike, but has 16 bytes.
fn is_event(bytes: &[u8]) -> bool {
    bytes.len() >= 552 && bytes[..2] == [17, 0]
}

/// The event that these bytes are.
pub(crate) fn event(bytes: &[u8]) -> Option<Event> {
    let number = bytes.get(12).filter(|_| is_event(bytes))?;
    Event::from_number((*number).into())
}

/// The error in what a message wrote: of a reply, or the one that a CMD_ERROR event tells.
pub(crate) fn error(bytes: &[u8]) -> Option<Errno> {
    // a reply to an unknown message with id 17 begins alike, but has 16 bytes
    let at = if bytes.len() == COMMAND_ERROR && bytes[..2] == [17, 0] { 552 } else { 8 };
    let code = bytes.get(at..)?.first_chunk()?;
    Errno::from_number(i32::from_le_bytes(*code))
}

/// The id of a message that was written, by name where it has one.
struct Id<'a>(&'a [u8]);

impl fmt::Debug for Id<'_> {
    fn fmt(&self, f: &mut fmt::Formatter<'_>) -> fmt::Result {
        let id = u16::from_le_bytes([self.0[0], self.0[1]]);
        match Command::from_number(id) {
            Some(command) => f.write_str(command.name()),
            None if is_event(self.0) => f.write_str("KVMI_EVENT"),
            None => write!(f, "{id}"),
        }
    }
}

/// What a batch wrote, message by message: id, seq and error, where there is one; the first of them where there are many.
pub(crate) struct Messages<'a>(pub &'a [u8]);

impl fmt::Debug for Messages<'_> {
    fn fmt(&self, f: &mut fmt::Formatter<'_>) -> fmt::Result {
        f.write_str("[")?;
        let (mut rest, mut count) = (self.0, 0);
        while let Some(&[_, _, size, size_high, seq @ ..]) = rest.first_chunk::<8>() {
            let length = 8 + usize::from(u16::from_le_bytes([size, size_high]));
            let (message, behind) = rest.split_at(length.min(rest.len()));
            if count < NAMED {
                write!(f, "{}{:?} {}", if count == 0 { "" } else { ", " }, Id(message), u32::from_le_bytes(seq))?;
                error(message).map_or(Ok(()), |error| write!(f, " {error}"))?;
            }
            (rest, count) = (behind, count + 1);
        }
        match count.saturating_sub(NAMED) {
            0 => f.write_str("]"),
            more => write!(f, " and {more} more]"),
        }
    }
}

/// The fields of what a call wrote: the message and its seq, and of an event which it is, and of which vCPU.
pub(crate) fn header(list: &mut fmt::DebugStruct<'_, '_>, bytes: &[u8]) {
    let Some(&[_, _, _, _, seq @ ..]) = bytes.first_chunk::<8>() else { return };
    list.field("id", &Id(bytes)).field("seq", &u32::from_le_bytes(seq));
    if let Some(event) = event(bytes) {
        list.field("event", &event).field("vcpu", &u16::from_le_bytes([bytes[10], bytes[11]]));
    }
}

/// A word without the quotes of a string's `Debug`.
struct Bare(&'static str);

impl fmt::Debug for Bare {
    fn fmt(&self, f: &mut fmt::Formatter<'_>) -> fmt::Result {
        f.write_str(self.0)
    }
}

/// Where the seq of the event that a vCPU awaits stands among the words of the vCPUs: no lookup tells it.
const VCPU_WORDS: usize = ffi::VCPU_WORDS / 16;
const AWAITED_SEQ: usize = 5;

/// A session as a support engineer reads it.
impl fmt::Debug for Session {
    fn fmt(&self, f: &mut fmt::Formatter<'_>) -> fmt::Result {
        struct Vcpus<'a>(&'a Session);

        impl fmt::Debug for Vcpus<'_> {
            fn fmt(&self, f: &mut fmt::Formatter<'_>) -> fmt::Result {
                let count = self.0.raw.settings.vcpus.min(16);
                f.debug_list().entries((0..count).map(|vcpu| Vcpu(self.0, vcpu))).finish()
            }
        }

        struct Vcpu<'a>(&'a Session, u32);

        impl fmt::Debug for Vcpu<'_> {
            fn fmt(&self, f: &mut fmt::Formatter<'_>) -> fmt::Result {
                let &Vcpu(session, vcpu) = self;
                let events: EventSet = Event::ALL.iter().copied().filter(|event| session.vcpu_event(vcpu, *event)).collect();
                let msrs = (0..0x2000).chain(0xC000_0000..0xC000_2000).filter(|msr| session.msr(vcpu, *msr)).count();
                let mut list = f.debug_struct("Vcpu");
                list.field("ready", &session.is_ready(vcpu)).field("events", &events);
                list.field("crs", &Registers(session, vcpu)).field("msrs_on", &msrs);
                list.field("singlestep", &session.singlestep(vcpu)).field("pauses", &session.pauses(vcpu));
                if let Some(event) = session.awaited(vcpu) {
                    let seq = session.vcpus[VCPU_WORDS * vcpu as usize + AWAITED_SEQ];
                    list.field("awaits_reply_to", &event).field("seq", &seq);
                }
                list.finish()
            }
        }

        struct Registers<'a>(&'a Session, u32);

        impl fmt::Debug for Registers<'_> {
            fn fmt(&self, f: &mut fmt::Formatter<'_>) -> fmt::Result {
                let names = [(0, "CR0"), (3, "CR3"), (4, "CR4")].into_iter();
                f.debug_set().entries(names.filter(|(cr, _)| self.0.cr(self.1, *cr)).map(|(_, name)| Bare(name))).finish()
            }
        }

        let replies = match self.raw.mode {
            0 => "on",
            1 => "off",
            _ => "off, errors told by KVMI_EVENT_CMD_ERROR",
        };
        let vm_events: EventSet = Event::ALL.iter().copied().filter(|event| self.vm_event(*event)).collect();
        f.debug_struct("Session")
            .field("closed", &self.is_closed())
            .field("replies", &Bare(replies))
            .field("next_event_seq", &self.raw.seq)
            .field("vm_events", &vm_events)
            .field("pages_below_rwx", &self.page_count())
            .field("vcpus", &Vcpus(self))
            .field("settings", &self.settings())
            .finish()
    }
}
