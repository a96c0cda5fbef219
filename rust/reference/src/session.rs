//! The session, its closing and the host's calls.

use crate::event::{self, LONGEST, STATE};
use crate::fault::{self, Fault};
use crate::image;
use crate::standing::{Standing, PAGE, RWX};
use crate::wire::event as events;
use crate::wire::{u16_at, u32_at};
use crate::{Answer, Settings};

/// One introspection channel, from its beginning to its closing.
#[derive(Clone, Debug)]
pub struct Session {
    pub(crate) settings: Settings,
    pub(crate) standing: Standing,
    // "Beside the standing: the reply mode, the next event seq, each vCPU's
    // awaited event, and whether closed."
    pub(crate) replies: Replies,
    pub(crate) next_seq: u32,
    pub(crate) awaited: [Option<Awaited>; 16],
    closed: bool,
}

/// An event whose reply a vCPU awaits. "The awaited record now holds which
/// event it is".
#[derive(Clone, Copy, Debug, PartialEq, Eq)]
pub(crate) struct Awaited {
    pub event: u8,
    pub seq: u32,
    /// Of a page fault, what its reply is taken with.
    pub fault: Option<Fault>,
}

/// The reply mode that message 15 sets.
#[derive(Clone, Copy, Debug, PartialEq, Eq)]
pub(crate) enum Replies {
    On,
    /// "Its flag is kept only with enable 0": whether an error is told by a
    /// CMD_ERROR event.
    Off {
        tell_errors: bool,
    },
}

impl Session {
    /// Begins a fresh session; answer 7 if the settings are bad.
    pub fn fresh(settings: Settings) -> Result<Session, Answer> {
        settings.check()?;
        let standing = Standing::fresh(settings.vcpus);
        Ok(Session::with(settings, standing))
    }

    /// An open session with this standing and all beside it fresh: "replies on,
    /// next event seq 0".
    fn with(settings: Settings, standing: Standing) -> Session {
        Session { settings, standing, replies: Replies::On, next_seq: 0, awaited: [None; 16], closed: false }
    }

    /// "Closing makes all this fresh, drops awaited events and stays closed.
    /// Settings and guest memory are kept."
    pub(crate) fn close(&mut self) -> Answer {
        self.standing = Standing::fresh(self.settings.vcpus);
        self.replies = Replies::On;
        self.next_seq = 0;
        self.awaited = [None; 16];
        self.closed = true;
        Answer::Closing
    }

    /// Whether the session was closed.
    pub fn is_closed(&self) -> bool {
        self.closed
    }

    /// Marks a vCPU ready. Order: 2, 4.
    pub fn ready(&mut self, vcpu: u16) -> Answer {
        if self.closed {
            return Answer::Closed;
        }
        let Some(record) = self.standing.vcpus.get_mut(usize::from(vcpu)) else {
            return Answer::BadVcpu;
        };
        record.ready = true;
        Answer::handled(0)
    }

    /// A vCPU is about to enter the guest; `block` is its register state. It
    /// is offered an event by number, with the event's own bytes, or 0 for none
    /// with no bytes. Order: 2, 4, 5, 3, 6.
    ///
    /// Document 02, W1: "Entry order: offered event, then pause." Document 01:
    /// "with a pause queued, writes the pause event (552 bytes), one pause
    /// less, reply awaited; else 0 bytes."
    pub fn enter(&mut self, vcpu: u16, block: &[u8], event: u32, own: &[u8], out: &mut [u8]) -> Answer {
        if self.closed {
            return Answer::Closed;
        }
        let index = usize::from(vcpu);
        if index >= self.standing.vcpus.len() {
            return Answer::BadVcpu;
        }
        // "another number, or lent event bytes of the wrong length, switched on
        // or off, is answer 5"
        let event = match event::offered(event) {
            Some((event, size)) if own.len() == size && block.len() == STATE => event,
            _ => return Answer::BadState,
        };
        if out.len() < LONGEST {
            return Answer::ShortOut;
        }
        if self.awaited[index].is_some() {
            return Answer::Waiting;
        }
        // "a switched-off event is passed over and a queued pause goes instead"
        if self.is_on(vcpu, event, own) {
            return self.send(vcpu, event, block, own, out);
        }
        let record = &mut self.standing.vcpus[index];
        if record.pauses == 0 {
            return Answer::handled(0);
        }
        record.pauses -= 1;
        self.send(vcpu, events::PAUSE_VCPU, block, &[], out)
    }

    /// Whether an offered event is sent: "exactly if its switch is on, and for
    /// CR and MSR also that of the register its bytes name".
    fn is_on(&self, vcpu: u16, event: u8, own: &[u8]) -> bool {
        let (vcpu, number) = (u32::from(vcpu), u32::from(event));
        match event {
            0 => false,
            // Message 5 has its switch, and message 10 those of the others.
            events::CREATE_VCPU => self.vm_event(number),
            events::CR => self.vcpu_event(vcpu, number) && self.cr(vcpu, u16_at(own, 0).into()),
            events::MSR => self.vcpu_event(vcpu, number) && self.msr(vcpu, u32_at(own, 0)),
            // W5: "a PF is sent exactly for a page standing below rwx in the
            // view its bytes name, with the PF switch on".
            events::PF => {
                let page = Fault::of(own).gpa / PAGE;
                self.vcpu_event(vcpu, number) && self.access(fault::view(own).into(), page) != RWX
            }
            _ => self.vcpu_event(vcpu, number),
        }
    }

    /// Writes an event, whose reply is awaited from now on.
    fn send(&mut self, vcpu: u16, event: u8, block: &[u8], own: &[u8], out: &mut [u8]) -> Answer {
        let seq = self.take_seq();
        let fault = (event == events::PF).then(|| Fault::of(own));
        self.awaited[usize::from(vcpu)] = Some(Awaited { event, seq, fault });
        Answer::handled(event::put(out, seq, vcpu, event, block, own))
    }

    /// "Each event takes the next seq, which goes from 4,294,967,295 to 0."
    pub(crate) fn take_seq(&mut self) -> u32 {
        let seq = self.next_seq;
        self.next_seq = seq.wrapping_add(1);
        seq
    }

    /// The length of the table image of the present standing, closed or busy
    /// as the session may be.
    pub fn image_size(&self) -> usize {
        image::size(&self.standing)
    }

    /// Writes the table image. Order: 2, 10, 3.
    pub fn write_image(&self, out: &mut [u8]) -> Answer {
        if self.closed {
            return Answer::Closed;
        }
        if self.awaited.iter().any(Option::is_some) {
            return Answer::Busy;
        }
        let size = self.image_size();
        let Some(out) = out.get_mut(..size) else {
            return Answer::ShortOut;
        };
        image::write(&self.standing, out);
        Answer::handled(size)
    }

    /// Begins a session from a table image. Order: 7, then 8 or 9. "Loaded
    /// sessions have replies on, seq 0."
    pub fn read_image(settings: Settings, image: &[u8]) -> Result<Session, Answer> {
        settings.check()?;
        let standing = image::read(&settings, image)?;
        Ok(Session::with(settings, standing))
    }
}
