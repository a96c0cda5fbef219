//! The events: those that an entry writes, and the command error.
//!
//! Document 01, "Events": "Event data: common size 544, vCPU, event, three
//! zeros, 536 copied state bytes." kvmi.rst, "Events", `struct kvmi_event`:
//! size u16, vcpu u16, event u8, padding[3], arch. Document 02, W1: "The bytes
//! after the first 544 are lent beside the state block and copied."

use crate::fault;
use crate::wire::{event, id, put_header, Header, HEADER};

/// Bytes of a lent register block.
pub(crate) const STATE: usize = 536;

/// Bytes of `struct kvmi_event`: its own size field.
const COMMON: u16 = 544;

/// Bytes of the longest event, CR's, MSR's or PF's: "entry output below 576 is
/// answer 3".
pub(crate) const LONGEST: usize = OWN_AT + 24;

/// A command error's "message size field 560".
const CMD_ERROR_SIZE: u16 = COMMON + 16;

/// Where the state block begins: after the header, size, vCPU, event and zeros.
const STATE_AT: usize = HEADER + 8;

/// Where an event's own bytes begin, "after the first 544".
const OWN_AT: usize = STATE_AT + STATE;

/// The event with a number that an entry offers, and how many own bytes it
/// has; 0 is "for none with no bytes". None for "another number".
pub(crate) fn offered(number: u32) -> Option<(u8, usize)> {
    let number = u8::try_from(number).ok()?;
    let size = match number {
        0 => 0,
        // `struct kvmi_event` alone.
        event::HYPERCALL | event::XSETBV | event::CREATE_VCPU => 0,
        // gpa u64, insn_len u8, padding[7].
        event::BREAKPOINT => 16,
        // cr u16, padding[3] of u16, old_value u64, new_value u64.
        event::CR => 24,
        // descriptor u8, write u8, padding[6].
        event::DESCRIPTOR => 8,
        // msr u32, padding u32, old_value u64, new_value u64.
        event::MSR => 24,
        // Document 02, W5: "event data 568".
        event::PF => fault::EVENT,
        // failed u8, padding[7]: "The singlestep block goes with the event."
        event::SINGLESTEP => 8,
        // function u32, index u32, insn_length u8, padding1[3], padding2 u32.
        event::CPUID => 16,
        _ => return None,
    };
    Some((number, size))
}

/// Whether a reply to this event carries a new value: "24 data bytes for CR
/// and MSR, the new value last, and 16 otherwise".
pub(crate) fn has_new_value(event: u8) -> bool {
    matches!(event, event::CR | event::MSR)
}

/// Data bytes of the reply to an event.
pub(crate) fn reply_size(event: u8) -> usize {
    match event {
        event::PF => fault::REPLY,
        _ if has_new_value(event) => 24,
        _ => 16,
    }
}

/// Writes all of an event that comes before its state block.
fn put_start(out: &mut [u8], size: u16, seq: u32, vcpu: u16, event: u8) {
    put_header(out, id::EVENT, size, seq);
    out[8..10].copy_from_slice(&COMMON.to_le_bytes());
    out[10..12].copy_from_slice(&vcpu.to_le_bytes());
    out[12] = event;
    out[13..STATE_AT].fill(0);
}

/// Writes an event of a vCPU with its own bytes, at most 24; returns its
/// length.
pub(crate) fn put(out: &mut [u8], seq: u32, vcpu: u16, event: u8, state: &[u8], own: &[u8]) -> usize {
    put_start(out, COMMON + own.len() as u16, seq, vcpu, event);
    out[STATE_AT..OWN_AT].copy_from_slice(state);
    let end = OWN_AT + own.len();
    out[OWN_AT..end].copy_from_slice(own);
    end
}

/// Writes a command error about the message with this header; returns its
/// length. "CMD_ERROR has vCPU 0, a zero state block and 001's 16 bytes after
/// it": kvmi.rst, "KVMI_EVENT_CMD_ERROR": err s32, msg_seq u32, msg_id u16,
/// padding[3] of u16.
pub(crate) fn put_cmd_error(out: &mut [u8], seq: u32, error: i32, about: &Header) -> usize {
    put_start(out, CMD_ERROR_SIZE, seq, 0, event::CMD_ERROR);
    let (state, rest) = out[STATE_AT..].split_at_mut(STATE);
    state.fill(0);
    rest[0..4].copy_from_slice(&error.to_le_bytes());
    rest[4..8].copy_from_slice(&about.seq.to_le_bytes());
    rest[8..10].copy_from_slice(&about.id.to_le_bytes());
    rest[10..16].fill(0);
    HEADER + usize::from(CMD_ERROR_SIZE)
}

#[cfg(test)]
mod tests {
    use crate::fault::Fault;
    use crate::session::Awaited;
    use crate::{Action, Answer, Feed, Session, Settings, Signal};

    fn session() -> Session {
        let settings = Settings {
            vcpus: 2,
            views: 1,
            commands: !0,
            events: !0,
            tsc: 0,
            features: [1; 5],
            descriptors: true,
            breakpoints: false,
            execute_only: true,
            revision: 1,
        };
        let mut session = Session::fresh(settings).unwrap();
        session.next_seq = u32::MAX;
        for vcpu in 0..2 {
            session.ready(vcpu);
        }
        session
    }

    /// A message of one byte's worth of vCPU, eight bytes more and some behind.
    fn message(id: u8, seq: u32, vcpu: u8, rest: [u8; 8], more: &[u8]) -> Vec<u8> {
        let mut message = vec![id, 0];
        message.extend((16 + more.len() as u16).to_le_bytes());
        message.extend(seq.to_le_bytes());
        message.extend([vcpu, 0, 0, 0, 0, 0, 0, 0]);
        message.extend(rest);
        message.extend(more);
        message
    }

    /// "Each event takes the next seq, which goes from 4,294,967,295 to 0." and
    /// the reply has to match it.
    #[test]
    fn seq_wraps() {
        let mut session = session();
        let mut out = vec![0; 4112];
        for vcpu in 0..2 {
            let pause = message(9, 0, vcpu, [0; 8], &[]);
            let signal = Signal::Kick { vcpu: vcpu.into(), wait: false };
            let answer = Answer::Handled { count: 16, signal, feed: Feed::None, padding: 0 };
            assert_eq!(session.message(&pause, &mut out, &mut []), answer);
        }
        assert_eq!(session.enter(1, &[3; 536], 0, &[], &mut out), Answer::handled(552));
        assert_eq!(out[..8], [17, 0, 0x20, 2, 0xff, 0xff, 0xff, 0xff]);
        assert_eq!(session.enter(0, &[3; 536], 0, &[], &mut out), Answer::handled(552));
        assert_eq!(out[..8], [17, 0, 0x20, 2, 0, 0, 0, 0]);
        assert_eq!(session.next_seq, 1);

        let mut reply = message(16, u32::MAX, 1, [0, 2, 0, 0, 0, 0, 0, 0], &[]);
        assert_eq!(session.message(&reply, &mut out, &mut []), Answer::handled(0));
        assert_eq!(session.awaited[..2], [Some(Awaited { event: 2, seq: 0, fault: None }), None]);
        // vCPU 0 awaits seq 0, not 4,294,967,295.
        reply[8] = 0;
        assert_eq!(session.message(&reply, &mut out, &mut []), Answer::Closing);
        assert_eq!(session.next_seq, 0);
        assert_eq!(session.awaited, [None; 16]);
    }

    /// The same with each event that is offered, and its own bytes.
    #[test]
    fn seq_wraps_with_offered_events() {
        for (event, own) in [(3, 0), (4, 16), (5, 24), (7, 0), (8, 8), (9, 24), (10, 24), (11, 8), (12, 0), (14, 16)] {
            let mut session = session();
            let mut out = vec![0; 4112];
            session.standing.vm_events = 1 << 12;
            session.standing.pages.set(0, 0, 1);
            for vcpu in &mut session.standing.vcpus {
                vcpu.events = !(1 << 12);
                vcpu.crs = 1;
                vcpu.msrs.set(crate::standing::Msr::new(0).unwrap(), true);
            }
            let own = vec![0; own];
            for (vcpu, seq, next) in [(1, u32::MAX, 0), (0, 0, 1)] {
                assert_eq!(session.enter(vcpu, &[3; 536], event.into(), &own, &mut out), Answer::handled(552 + own.len()));
                assert_eq!(out[4..8], seq.to_le_bytes());
                assert_eq!(session.next_seq, next);
                let fault = (event == 10).then_some(Fault { gva: 0, gpa: 0, access: 0 });
                assert_eq!(session.awaited[usize::from(vcpu)], Some(Awaited { event, seq, fault }));
            }
            let (more, value): (&[u8], u64) = match event {
                5 | 9 => (&[0xFF; 8], u64::MAX),
                10 => (&[0; 272], 0),
                _ => (&[], 0),
            };
            for (vcpu, seq) in [(1, u32::MAX), (0, 0)] {
                let reply = message(16, seq, vcpu, [0, event, 0, 0, 0, 0, 0, 0], more);
                let signal = Signal::Resume { vcpu: vcpu.into(), action: Action::Continue, value };
                let answer = Answer::Handled { count: 0, signal, feed: Feed::None, padding: 0 };
                assert_eq!(session.message(&reply, &mut out, &mut []), answer);
            }
            assert_eq!(session.awaited, [None; 16]);
        }
    }
}
