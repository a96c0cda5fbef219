//! The messages of the tool: document 01, "Messages" and "What is tested
//! first"; the layouts are those of kvmi.rst, "Commands".

use crate::event;
use crate::fault::{self, Context};
use crate::session::{Replies, Session};
use crate::standing::{cr_bit, page_exists, Msr, PAGE, PAUSE_LIMIT};
use crate::wire::error::*;
use crate::wire::event as events;
use crate::wire::{id, is_zero, put_reply, u16_at, u32_at, u64_at, Header, HEADER, REPLY};
use crate::{Action, Answer, Feed, Signal};
use std::ops::Range;

/// Answer 3: "output below 4,112 (message)".
pub(crate) const LEAST_OUTPUT: usize = REPLY + PAGE as usize;

/// Bytes of `struct kvmi_vm_set_page_access` before its entries, and of one
/// `struct kvmi_page_access_entry`.
const ACCESS_HEAD: usize = 8;
const ACCESS_ENTRY: usize = 16;

/// A message that was carried out.
struct Done {
    /// Bytes of reply data, already in their place in the output.
    data: usize,
    signal: Signal,
    /// Bytes for the instruction; none where "a continue [...] needs the guest
    /// page where none exists".
    feed: Option<Feed>,
}

impl Done {
    /// "Returns struct kvmi_error_code" alone.
    const PLAIN: Done = Done::with_data(0);

    const fn with_data(data: usize) -> Done {
        Done { data, ..Done::with_signal(Signal::None) }
    }

    const fn with_signal(signal: Signal) -> Done {
        Done { data: 0, signal, feed: Some(Feed::None) }
    }
}

/// Why a message was not carried out.
enum Refusal {
    /// A rule says "closes".
    Closes,
    /// An error for the tool.
    Error(i32),
}

impl From<i32> for Refusal {
    fn from(error: i32) -> Refusal {
        Refusal::Error(error)
    }
}

impl Session {
    /// One message of the tool. Order: 2, 3, then the tests below.
    ///
    /// `out` receives the reply or the command-error event, if any; `guest` is
    /// guest memory, "a lent run of bytes from address 0".
    pub fn message(&mut self, msg: &[u8], out: &mut [u8], guest: &mut [u8]) -> Answer {
        if self.is_closed() {
            return Answer::Closed;
        }
        if out.len() < LEAST_OUTPUT {
            return Answer::ShortOut;
        }
        // Test 1: "Fewer than 8 bytes, or size unequal to the bytes that
        // follow: closes."
        let Some((header, data)) = Header::split(msg) else {
            return self.close();
        };
        // The mode that this message's own reply follows; message 15 may
        // change it.
        let mut mode = self.replies;
        match self.carry_out(&header, data, &mut mode, out, guest) {
            Err(Refusal::Closes) => self.close(),
            Err(Refusal::Error(error)) => Answer::Handled {
                count: match mode {
                    Replies::On => put_reply(out, &header, error, 0),
                    // "While replies are off nothing is written, but an error
                    // with the flag kept writes one CMD_ERROR event."
                    Replies::Off { tell_errors: true } => {
                        let seq = self.take_seq();
                        event::put_cmd_error(out, seq, error, &header)
                    }
                    Replies::Off { tell_errors: false } => 0,
                },
                signal: Signal::None,
                feed: Feed::None,
                // Document 02, W6: "0 means padding fine or test 6 not
                // reached". Padding that is not zero is -22, whatever else is
                // at fault, and an id that is unknown or not allowed never is.
                padding: if error == EINVAL { first_padding(header.id, data) } else { 0 },
            },
            // "answer 12 and hands back no bytes, all else as under answer 0".
            Ok(Done { signal, feed: None, .. }) => Answer::NoPage { signal },
            Ok(Done { data, signal, feed: Some(feed) }) => Answer::Handled {
                count: match mode {
                    // The table: EVENT_REPLY has "no reply".
                    _ if header.id == id::EVENT_REPLY => 0,
                    Replies::On => put_reply(out, &header, 0, data),
                    Replies::Off { .. } => 0,
                },
                signal,
                feed,
                // "0 means padding fine".
                padding: 0,
            },
        }
    }

    /// Tests 2 to 6 and the deed. Output is written for reply data alone.
    fn carry_out(
        &mut self,
        header: &Header,
        data: &[u8],
        mode: &mut Replies,
        out: &mut [u8],
        guest: &mut [u8],
    ) -> Result<Done, Refusal> {
        let replies_on = self.replies == Replies::On;

        // Test 2: "Id 0 or above 16: -1000 (ENOSYS). Id not allowed: -1 (EPERM)
        // [...] With replies off, either closes."
        if !self.settings.allows_command(header.id) {
            if !replies_on {
                return Err(Refusal::Closes);
            }
            let known = (id::GET_VERSION..=id::EVENT_REPLY).contains(&header.id);
            return Err(Refusal::Error(if known { EPERM } else { ENOSYS }));
        }

        // Test 3: "Replies off and id 1, 4, 6 or 8: closes."
        let has_reply_data = matches!(header.id, id::GET_VERSION | id::VM_GET_INFO | id::VM_READ_PHYSICAL | id::VCPU_GET_INFO);
        if has_reply_data && !replies_on {
            return Err(Refusal::Closes);
        }

        // Test 4: "Data size unlike the table: closes."
        if !size_fits(header.id, data) {
            return Err(Refusal::Closes);
        }

        // Tests 5 and 6, in each command.
        let reply = &mut out[REPLY..];
        match header.id {
            id::GET_VERSION => Ok(self.get_version(reply)),
            id::VM_CHECK_COMMAND => Ok(self.check_command(data)?),
            id::VM_CHECK_EVENT => Ok(self.check_event(data)?),
            id::VM_GET_INFO => Ok(self.get_info(reply)),
            id::VM_CONTROL_EVENTS => Ok(self.control_vm_events(data)?),
            id::VM_READ_PHYSICAL => Ok(read_physical(data, reply, guest)?),
            id::VM_WRITE_PHYSICAL => Ok(write_physical(data, guest)?),
            id::VCPU_GET_INFO => Ok(self.get_vcpu_info(data, reply)?),
            id::VCPU_PAUSE => self.pause(data),
            id::VCPU_CONTROL_EVENTS => Ok(self.control_vcpu_events(data)?),
            id::VCPU_CONTROL_CR => Ok(self.control_cr(data)?),
            id::VCPU_CONTROL_MSR => Ok(self.control_msr(data)?),
            id::VM_SET_PAGE_ACCESS => Ok(self.set_page_access(data)?),
            id::VCPU_CONTROL_SINGLESTEP => Ok(self.control_singlestep(data)?),
            id::VM_CONTROL_CMD_RESPONSE => self.control_cmd_response(data, mode),
            id::EVENT_REPLY => self.event_reply(header.seq, data, guest),
            // Test 2 let no other id pass.
            _ => Err(Refusal::Error(ENOSYS)),
        }
    }

    /// kvmi.rst, "KVMI_GET_VERSION": version u32, padding u32, features: five
    /// bytes and padding[3]. "features are the five setting bytes and three
    /// zeros"; document 02, W7: "The revision is a setting, [...] reported by
    /// GET_VERSION."
    fn get_version(&self, reply: &mut [u8]) -> Done {
        reply[..16].fill(0);
        reply[..4].copy_from_slice(&self.settings.revision.to_le_bytes());
        reply[8..13].copy_from_slice(&self.settings.features);
        Done::with_data(16)
    }

    /// kvmi.rst, "KVMI_VM_CHECK_COMMAND": id u16, padding1 u16, padding2 u32.
    fn check_command(&self, data: &[u8]) -> Result<Done, i32> {
        let id = u16_at(data, 0);
        // "in message 2 an id outside 1..15"
        valid(is_zero(&data[2..8]) && (1..=15).contains(&id))?;
        // "-1 EPERM: [...] message 2, command not allowed"
        ensure(self.settings.allows_command(id), EPERM)?;
        Ok(Done::PLAIN)
    }

    /// kvmi.rst, "KVMI_VM_CHECK_EVENT": id u16, padding1 u16, padding2 u32.
    fn check_event(&self, data: &[u8]) -> Result<Done, i32> {
        let bit = event_bit(u16_at(data, 0), events::KNOWN)?;
        valid(is_zero(&data[2..8]))?;
        ensure(self.settings.allows_events(bit), EPERM)?;
        Ok(Done::PLAIN)
    }

    /// kvmi.rst, "KVMI_VM_GET_INFO": vcpu_count u32, padding[3] of u32.
    fn get_info(&self, reply: &mut [u8]) -> Done {
        reply[..16].fill(0);
        reply[..4].copy_from_slice(&self.settings.vcpus.to_le_bytes());
        Done::with_data(16)
    }

    /// kvmi.rst, "KVMI_VM_CONTROL_EVENTS": event_id u16, enable u8, padding1
    /// u8, padding2 u32.
    fn control_vm_events(&mut self, data: &[u8]) -> Result<Done, i32> {
        let bit = event_bit(u16_at(data, 0), events::VM)?;
        let enable = flag(data[2])?;
        valid(is_zero(&data[3..8]))?;
        ensure(self.settings.allows_events(bit), EPERM)?;
        switch(&mut self.standing.vm_events, bit, enable);
        Ok(Done::PLAIN)
    }

    /// kvmi.rst, "The commands related to vCPUs start with": vcpu u16, padding1
    /// u16, padding2 u32. -22 if padding is not zero or the "vCPU not below the
    /// count".
    fn vcpu_header(&self, data: &[u8]) -> Result<u16, i32> {
        let vcpu = u16_at(data, 0);
        valid(is_zero(&data[2..8]) && u32::from(vcpu) < self.settings.vcpus)?;
        Ok(vcpu)
    }

    /// kvmi.rst, "KVMI_VCPU_GET_INFO": the vCPU header; replies tsc_speed u64.
    fn get_vcpu_info(&mut self, data: &[u8], reply: &mut [u8]) -> Result<Done, i32> {
        let vcpu = self.vcpu_header(data)?;
        self.standing.ready_vcpu(vcpu)?;
        reply[..8].copy_from_slice(&self.settings.tsc.to_le_bytes());
        Ok(Done::with_data(8))
    }

    /// kvmi.rst, "KVMI_VCPU_PAUSE": the vCPU header, wait u8, padding1 u8,
    /// padding2 u16, padding3 u32.
    fn pause(&mut self, data: &[u8]) -> Result<Done, Refusal> {
        // Test 5: "Message 9 while event 2 is not allowed: closes."
        if !self.settings.allows_events(events::bit(events::PAUSE_VCPU)) {
            return Err(Refusal::Closes);
        }
        let vcpu = self.vcpu_header(data)?;
        let wait = flag(data[8])?;
        valid(is_zero(&data[9..16]))?;
        let record = self.standing.ready_vcpu(vcpu)?;
        // "-16 EBUSY: [...] message 9 with 8 pauses queued"
        ensure(record.pauses < PAUSE_LIMIT, EBUSY)?;
        record.pauses += 1;
        Ok(Done::with_signal(Signal::Kick { vcpu, wait }))
    }

    /// kvmi.rst, "KVMI_VCPU_CONTROL_EVENTS": the vCPU header, event_id u16,
    /// enable u8, padding1 u8, padding2 u32.
    fn control_vcpu_events(&mut self, data: &[u8]) -> Result<Done, i32> {
        let vcpu = self.vcpu_header(data)?;
        let bit = event_bit(u16_at(data, 8), events::VCPU)?;
        let enable = flag(data[10])?;
        valid(is_zero(&data[11..16]))?;
        let record = self.standing.ready_vcpu(vcpu)?;
        ensure(self.settings.allows_events(bit), EPERM)?;
        // "enabling event 8 where it can't be caught"
        let uncaught = bit == events::bit(events::DESCRIPTOR) && !self.settings.descriptors;
        ensure(!(enable && uncaught), EOPNOTSUPP)?;
        // "enabling event 4 while the host has it"
        let taken = bit == events::bit(events::BREAKPOINT) && self.settings.breakpoints;
        ensure(!(enable && taken), EBUSY)?;
        switch(&mut record.events, bit, enable);
        Ok(Done::PLAIN)
    }

    /// kvmi.rst, "KVMI_VCPU_CONTROL_CR": the vCPU header, enable u8, padding1
    /// u8, padding2 u16, cr u32.
    fn control_cr(&mut self, data: &[u8]) -> Result<Done, i32> {
        let vcpu = self.vcpu_header(data)?;
        let enable = flag(data[8])?;
        let bit = cr_bit(u32_at(data, 12)).ok_or(EINVAL)?;
        valid(is_zero(&data[9..12]))?;
        let record = self.standing.ready_vcpu(vcpu)?;
        if enable {
            record.crs |= bit;
        } else {
            record.crs &= !bit;
        }
        Ok(Done::PLAIN)
    }

    /// kvmi.rst, "KVMI_VCPU_CONTROL_MSR": the vCPU header, enable u8, padding1
    /// u8, padding2 u16, msr u32.
    fn control_msr(&mut self, data: &[u8]) -> Result<Done, i32> {
        let vcpu = self.vcpu_header(data)?;
        let enable = flag(data[8])?;
        let msr = Msr::new(u32_at(data, 12)).ok_or(EINVAL)?;
        valid(is_zero(&data[9..12]))?;
        let record = self.standing.ready_vcpu(vcpu)?;
        record.msrs.set(msr, enable);
        Ok(Done::PLAIN)
    }

    /// kvmi.rst, "KVMI_VM_SET_PAGE_ACCESS": count u16, view u16, padding u32,
    /// then count entries: gpa u64, access u8, padding1 u8, padding2 u16,
    /// padding3 u32.
    fn set_page_access(&mut self, data: &[u8]) -> Result<Done, i32> {
        let (head, entries) = data.split_at(ACCESS_HEAD);
        let view = u16_at(head, 2);
        // Test 4: "a count that disagrees is -22".
        valid(count_fits(data))?;
        valid(u32::from(view) < self.settings.views)?;
        valid(is_zero(&head[4..8]))?;
        let entries = entries.chunks_exact(ACCESS_ENTRY);
        for entry in entries.clone() {
            // "any access other than 0, 1, 3, 4, 5, 7": "W needs R".
            valid(matches!(entry[8], 0 | 1 | 3 | 4 | 5 | 7))?;
            // Document 02, W2: "access 4 without the flag is -22 in message 13".
            valid(self.settings.has_access(entry[8]))?;
            valid(is_zero(&entry[9..16]))?;
        }
        let pages = &mut self.standing.pages;
        let entries = entries.map(|entry| (u64_at(entry, 0) / PAGE, entry[8]));
        // Document 02, W7: "revision 2 applies no entry of a page-access message
        // if any would be skipped, else acts as revision 1." With room for every
        // entry none would be.
        if self.settings.all_or_nothing() && !pages.has_room(entries.len()) {
            ensure(pages.set_all(view, entries), ENOMEM)?;
            return Ok(Done::PLAIN);
        }
        // "Entries of message 13 act in order. [...] Others are applied, later
        // ones too; any skip gives -12."
        let mut skipped = false;
        for (page, access) in entries {
            if !pages.set(view, page, access) {
                skipped = true;
            }
        }
        ensure(!skipped, ENOMEM)?;
        Ok(Done::PLAIN)
    }

    /// kvmi.rst, "KVMI_VCPU_CONTROL_SINGLESTEP": enable u8, padding[7]; "001
    /// omits the vCPU header; we take one".
    fn control_singlestep(&mut self, data: &[u8]) -> Result<Done, i32> {
        let vcpu = self.vcpu_header(data)?;
        let enable = flag(data[8])?;
        valid(is_zero(&data[9..16]))?;
        let record = self.standing.ready_vcpu(vcpu)?;
        // "message 14 without the singlestep feature", on or off.
        ensure(self.settings.singlestep(), EOPNOTSUPP)?;
        record.singlestep = enable;
        Ok(Done::PLAIN)
    }

    /// kvmi.rst, "KVMI_VM_CONTROL_CMD_RESPONSE": enable u8, now u8, flags u8,
    /// padding1 u8, padding2 u32. `own` is the mode of this message's own
    /// reply.
    fn control_cmd_response(&mut self, data: &[u8], own: &mut Replies) -> Result<Done, Refusal> {
        let enable = flag(data[0])?;
        let now = flag(data[1])?;
        // "response flags above 1"
        let tell_errors = flag(data[2])?;
        valid(is_zero(&data[3..8]))?;
        // Test 5: "Message 15 that test 6 would pass, with enable 0 and flag
        // bit 0 set while event 13 is not allowed: closes."
        let may_tell = self.settings.allows_events(events::bit(events::CMD_ERROR));
        if !enable && tell_errors && !may_tell {
            return Err(Refusal::Closes);
        }
        self.replies = if enable { Replies::On } else { Replies::Off { tell_errors } };
        // "message 15 with now 1 applies to its own reply, with now 0 from the
        // next message"
        if now {
            *own = self.replies;
        }
        Ok(Done::PLAIN)
    }

    /// kvmi.rst, "Events": the vCPU header, action u8, event u8, padding1 u16,
    /// padding2 u32; `struct kvmi_event_cr_reply`, `struct
    /// kvmi_event_msr_reply`: new_val u64; `struct kvmi_event_pf_reply`.
    ///
    /// "An EVENT_REPLY closes unless padding is zero, the vCPU awaits one, seq
    /// and event match, and the action is 0 continue or 2 crash (1 is retry)."
    fn event_reply(&mut self, seq: u32, data: &[u8], guest: &[u8]) -> Result<Done, Refusal> {
        let (vcpu, action, event) = (u16_at(data, 0), data[8], data[9]);
        open_if(is_zero(&data[2..8]) && is_zero(&data[10..16]))?;
        // A vCPU not below the count awaits nothing.
        let record = self.awaited.get_mut(usize::from(vcpu)).ok_or(Refusal::Closes)?;
        let awaited = record.ok_or(Refusal::Closes)?;
        open_if(awaited.event == event && awaited.seq == seq)?;
        // Document 02, W1: "Replies carry 24 data bytes for CR and MSR, the new
        // value last, and 16 otherwise"; W5: "take its reply (288 data bytes)".
        open_if(data.len() == event::reply_size(event))?;
        let context = match awaited.fault {
            Some(_) => Some(Context::of(data).ok_or(Refusal::Closes)?),
            None => None,
        };
        let value = match &context {
            // "A resume's value is the rep flag".
            Some(context) => context.rep,
            None if event::has_new_value(event) => u64_at(data, 16),
            None => 0,
        };
        let signal = match (action, event) {
            // "Such a continue or retry, unlike a pause's, is signalled as
            // resume(vCPU, action, new value or 0)."
            (0, events::PAUSE_VCPU) => Signal::None,
            (0, _) => Signal::Resume { vcpu, action: Action::Continue, value },
            // "Retry is taken for BREAKPOINT and DESCRIPTOR only." Of PF: "All
            // three actions are valid."
            (1, events::BREAKPOINT | events::DESCRIPTOR | events::PF) => Signal::Resume { vcpu, action: Action::Retry, value },
            (2, _) => Signal::Crash { vcpu },
            _ => return Err(Refusal::Closes),
        };
        // "Once taken, it is awaited no more. A crash is signalled; the session
        // stays open."
        *record = None;
        let feed = match (action, awaited.fault, context) {
            (0, Some(fault), Some(context)) => context.feed(fault, guest),
            _ => Some(Feed::None),
        };
        Ok(Done { data: 0, signal, feed })
    }
}

/// A rule says "closes unless".
fn open_if(holds: bool) -> Result<(), Refusal> {
    if holds {
        Ok(())
    } else {
        Err(Refusal::Closes)
    }
}

/// The table's "Data bytes" column, for ids 1 to 16.
fn size_fits(id: u16, data: &[u8]) -> bool {
    let size = data.len();
    match id {
        id::GET_VERSION | id::VM_GET_INFO => size == 0,
        id::VM_CHECK_COMMAND | id::VM_CHECK_EVENT | id::VM_CONTROL_EVENTS | id::VCPU_GET_INFO | id::VM_CONTROL_CMD_RESPONSE => {
            size == 8
        }
        // "16 + size field"
        id::VM_WRITE_PHYSICAL => size >= 16 && u64_at(data, 8) == (size - 16) as u64,
        // "Message 13 closes only below 8 bytes"
        id::VM_SET_PAGE_ACCESS => size >= ACCESS_HEAD,
        // Which of the three, its event decides.
        id::EVENT_REPLY => size == 16 || size == 24 || size == fault::REPLY,
        _ => size == 16,
    }
}

/// Whether message 13's count agrees with its size: "8 + 16 × count".
fn count_fits(data: &[u8]) -> bool {
    data.len() == ACCESS_HEAD + ACCESS_ENTRY * usize::from(u16_at(data, 0))
}

/// Document 02, W6: "The padding test should report the message offset of the
/// first non-zero padding byte"; 0 if there is none. `data` are those of a
/// command that is answered -22. The layouts stand beside the commands above.
#[cold]
fn first_padding(id: u16, data: &[u8]) -> usize {
    let first = |mut run: Range<usize>| run.find(|&at| data[at] != 0);
    let first = match id {
        id::VM_CHECK_COMMAND | id::VM_CHECK_EVENT | id::VCPU_GET_INFO => first(2..8),
        id::VM_CONTROL_EVENTS | id::VM_CONTROL_CMD_RESPONSE => first(3..8),
        id::VCPU_PAUSE | id::VCPU_CONTROL_SINGLESTEP => first(2..8).or_else(|| first(9..16)),
        id::VCPU_CONTROL_EVENTS => first(2..8).or_else(|| first(11..16)),
        id::VCPU_CONTROL_CR | id::VCPU_CONTROL_MSR => first(2..8).or_else(|| first(9..12)),
        // "Entries are looked at only if the count fits".
        id::VM_SET_PAGE_ACCESS if count_fits(data) => {
            let entries = (ACCESS_HEAD..data.len()).step_by(ACCESS_ENTRY);
            let mut in_entries = entries.filter_map(|entry| first(entry + 9..entry + 16));
            first(4..8).or_else(|| in_entries.next())
        }
        id::VM_SET_PAGE_ACCESS => first(4..8),
        // GET_VERSION, VM_GET_INFO, VM_READ_PHYSICAL and VM_WRITE_PHYSICAL have
        // no padding, and EVENT_REPLY is no command: it closes instead.
        _ => None,
    };
    first.map_or(0, |at| HEADER + at)
}

/// kvmi.rst, "KVMI_VM_READ_PHYSICAL": gpa u64, size u64.
fn read_physical(data: &[u8], reply: &mut [u8], guest: &[u8]) -> Result<Done, i32> {
    let (start, size) = physical(data, guest)?;
    reply[..size].copy_from_slice(&guest[start..start + size]);
    Ok(Done::with_data(size))
}

/// kvmi.rst, "KVMI_VM_WRITE_PHYSICAL": gpa u64, size u64, data.
fn write_physical(data: &[u8], guest: &mut [u8]) -> Result<Done, i32> {
    let (start, size) = physical(data, guest)?;
    guest[start..start + size].copy_from_slice(&data[16..]);
    Ok(Done::PLAIN)
}

/// The gpa and size that begin messages 6 and 7, as a place wholly inside one
/// page that exists.
fn physical(data: &[u8], guest: &[u8]) -> Result<(usize, usize), i32> {
    let (gpa, size) = (u64_at(data, 0), u64_at(data, 8));
    // "physical size 0, or (gpa mod 4096) + size above 4096", with no sum that
    // could wrap.
    valid(size != 0 && size <= PAGE - gpa % PAGE)?;
    // "-2 ENOENT: the physical page does not exist".
    ensure(page_exists(gpa, guest), ENOENT)?;
    Ok((gpa as usize, size as usize))
}

/// "enable, wait or now above 1" is -22, "response flags above 1" too.
fn flag(byte: u8) -> Result<bool, i32> {
    match byte {
        0 => Ok(false),
        1 => Ok(true),
        _ => Err(EINVAL),
    }
}

/// The bit of an event that the message takes; "unknown event or event not of
/// that message" is -22.
fn event_bit(number: u16, taken: u16) -> Result<u16, i32> {
    events::bit_among(number, taken).ok_or(EINVAL)
}

fn switch(bits: &mut u16, bit: u16, enable: bool) {
    if enable {
        *bits |= bit;
    } else {
        *bits &= !bit;
    }
}

fn valid(holds: bool) -> Result<(), i32> {
    ensure(holds, EINVAL)
}

fn ensure(holds: bool, error: i32) -> Result<(), i32> {
    if holds {
        Ok(())
    } else {
        Err(error)
    }
}
