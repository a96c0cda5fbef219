//! A host in Rust that takes messages as they come off a connection, several at once. The tool switches replies off, guards a hundred
//! pages and switches replies on in one write; its second write comes in two parts, its third resumes a vCPU, its fourth pauses a vCPU
//! and then reads guest memory, its fifth asks about reads of a page and its sixth says what a vCPU reads there, and its last one crashes a
//! vCPU and is cut, while another waits.
use semblurick::{
    own, Access, Action, Command, Event, Feed, Refusal, Session, Settings, Signal, ENTRY_OUT, HEADER_BYTES, MESSAGE_OUT,
    PAGE_BYTES, STATE_BYTES,
};
use std::collections::{BTreeMap, BTreeSet};
use std::process;

const VCPUS: u32 = 2;
const GUEST_PAGES: usize = 512;
const FIRST: u64 = 0x80;
const GUARDED: u8 = 100;

/// A vCPU's registers.
const STATE: [u8; STATE_BYTES] = [0; STATE_BYTES];

// ---- the host

fn send_to_tool(_bytes: &[u8]) {}

/// The vCPU leaves the guest. With `wait` this returns when it is out.
fn kick(vcpu: u32, wait: bool) {
    println!("vCPU {vcpu} is out{}", if wait { ", and the tool waits for it" } else { "" });
}

/// The first message of these bytes, if all of it is there.
fn first(bytes: &[u8]) -> Option<&[u8]> {
    let &[_, _, size, size_high, ..] = bytes.first_chunk::<HEADER_BYTES>()?;
    bytes.get(..HEADER_BYTES + usize::from(u16::from_le_bytes([size, size_high])))
}

/// How many of these bytes are whole messages.
fn whole(bytes: &[u8]) -> usize {
    let mut at = 0;
    while let Some(message) = first(&bytes[at..]) {
        at += message.len();
    }
    at
}

/// How many of these bytes go into one call. The guest runs meanwhile, and so a message that reads or writes its memory begins a call of
/// its own: by then the guards of those before it are in hardware, and the vCPUs that they pause are out.
fn at_once(bytes: &[u8]) -> usize {
    let mut at = 0;
    while let Some(message) = first(&bytes[at..]) {
        let command = Command::from_number(u16::from_le_bytes([message[0], message[1]]));
        if at > 0 && matches!(command, Some(Command::VmReadPhysical | Command::VmWritePhysical)) {
            return at;
        }
        at += message.len();
    }
    bytes.len()
}

struct Host {
    session: Session,
    /// The pages that this host has guarded; a real one writes page tables here.
    guarded: BTreeMap<(u32, u64), Access>,
    /// The vCPUs that are to be crashed; a real host stops the whole guest.
    crashed: BTreeSet<u32>,
    /// What was read and not used yet: a cut message, and what came behind it.
    held: Vec<u8>,
}

impl Host {
    /// The vCPU is about to enter the guest, offering nothing.
    fn enter(&mut self, vcpu: u32) {
        self.offer(vcpu, 0u32, &[]);
    }

    /// The same, with an event that it offers; one that is to be crashed never enters. Answer 2: there is no tool any more, and it runs.
    fn offer(&mut self, vcpu: u32, event: impl Into<u32>, own: &[u8]) {
        if self.crashed.contains(&vcpu) {
            return;
        }
        let mut out = [0; ENTRY_OUT];
        let entry = self.session.enter_event(vcpu, &STATE, event, own, &mut out);
        let (answer, bytes) = entry.map_or_else(|refusal| (refusal.number(), &[][..]), |entry| (0, entry.bytes));
        println!("vCPU {vcpu} enters: answer {answer}, {} bytes", bytes.len());
        send_to_tool(bytes);
    }

    /// After a batch: the pages that its messages name, as they stand now; `examples/host.rs` has the switches, too.
    fn program(&mut self, mut used: &[u8]) {
        while let Some(message) = first(used) {
            used = &used[message.len()..];
            if message[..2] != Command::VmSetPageAccess.number().to_le_bytes() || message.len() < 16 {
                continue;
            }
            let view = u32::from(u16::from_le_bytes([message[10], message[11]]));
            for entry in message[16..].chunks_exact(16).filter_map(|entry| entry.first_chunk()) {
                let page = u64::from_le_bytes(*entry) / PAGE_BYTES as u64;
                match self.session.access(view, page) {
                    Access::RWX => self.guarded.remove(&(view, page)),
                    access => self.guarded.insert((view, page), access),
                };
            }
        }
    }

    /// One batch, on the guest's physical memory. Gives how many bytes it used. A real host, whose guest runs meanwhile, has a pointer to
    /// that memory, and calls `batch_at`.
    fn take(&mut self, input: &[u8], memory: &mut [u8]) -> Result<usize, Refusal> {
        // with an event, a pause or another: a closed session tells it no more
        let waited: Vec<u32> = (0..VCPUS).filter(|vcpu| self.session.awaited(*vcpu).is_some()).collect();
        // it goes on while MESSAGE_OUT bytes of the one, and a place of the other, are left
        let (mut out, mut signals) = ([0; 2 * MESSAGE_OUT], [0; 16]);
        let batch = self.session.batch(input, &mut out, &mut signals, memory)?;
        let (number, count) = (batch.number(), batch.bytes.len());
        println!("batch of {} bytes: answer {number}, {} used, {count} to send", input.len(), batch.used);

        // what the tool reads is so by then: first the hardware, then the vCPUs that it wants out, then the bytes
        match batch.closing {
            true => self.guarded.clear(),
            false => self.program(&input[..batch.used]),
        }
        for signal in batch.signals() {
            match signal {
                Signal::Kick { vcpu, wait } => kick(vcpu, wait),
                Signal::Crash { vcpu } => {
                    println!("vCPU {vcpu} is to be crashed");
                    self.crashed.insert(vcpu);
                }
                _ => {}
            }
        }
        send_to_tool(batch.bytes);
        if batch.closing {
            println!("the connection ends");
        }

        // last, and before the rest of the input, the vCPUs that go on, which may write their next event
        if let Signal::Resume { vcpu, .. } = batch.resume {
            // from a read that faulted it is fed: by the tool, or from memory; a real host asks the device where there is no page
            let read = match batch.feed {
                Feed::Supplied(bytes) => format!(", and reads '{}' of the input", String::from_utf8_lossy(bytes)),
                Feed::Page(bytes) => format!(", and reads '{}' of memory", String::from_utf8_lossy(bytes)),
                _ if batch.no_page => ", and reads from a device".to_owned(),
                _ => String::new(),
            };
            println!("vCPU {vcpu} goes on from its event{read}");
        }
        // by the resume; from a pause without a signal; where it is closing all, as if there were no tool
        for vcpu in waited {
            if self.session.awaited(vcpu).is_none() {
                self.enter(vcpu);
            }
        }
        for signal in batch.signals() {
            if let Signal::Kick { vcpu, .. } = signal {
                self.enter(vcpu);
            }
        }
        Ok(batch.used)
    }

    /// What came off the connection. The whole messages are handed over; one that is cut would close the session, and so it is kept
    /// until the rest of it has come, unless the tool is gone.
    fn receive(&mut self, bytes: &[u8], memory: &mut [u8], is_end: bool) -> Result<(), Refusal> {
        self.held.extend(bytes);
        let ready = if is_end { self.held.len() } else { whole(&self.held) };
        println!("read {} bytes, {} are kept", bytes.len(), self.held.len() - ready);
        let input: Vec<u8> = self.held.drain(..ready).collect();
        let mut rest = &input[..];
        while !rest.is_empty() && self.session.is_open() {
            rest = &rest[self.take(&rest[..at_once(rest)], memory)?..];
        }
        Ok(())
    }
}

// ---- the tool

fn message(command: Command, seq: u32, data: &[u8]) -> Vec<u8> {
    [&command.number().to_le_bytes()[..], &(data.len() as u16).to_le_bytes(), &seq.to_le_bytes(), data].concat()
}

fn on_vcpu(command: Command, seq: u32, vcpu: u8, data: [u8; 8]) -> Vec<u8> {
    message(command, seq, &[[vcpu, 0, 0, 0, 0, 0, 0, 0], data].concat())
}

/// Replies on or off, from this message on.
fn replies(seq: u32, enable: bool) -> Vec<u8> {
    message(Command::VmControlCmdResponse, seq, &[enable.into(), 1, 0, 0, 0, 0, 0, 0])
}

/// So many pages, from one on.
fn guards(seq: u32, first: u64, pages: u8, access: u8) -> Vec<u8> {
    let mut data = vec![pages, 0, 0, 0, 0, 0, 0, 0];
    for page in first..first + u64::from(pages) {
        data.extend((page * PAGE_BYTES as u64).to_le_bytes());
        data.extend([access, 0, 0, 0, 0, 0, 0, 0]);
    }
    message(Command::VmSetPageAccess, seq, &data)
}

fn event_on(seq: u32, vcpu: u8, event: Event) -> Vec<u8> {
    on_vcpu(Command::VcpuControlEvents, seq, vcpu, [event.number() as u8, 0, 1, 0, 0, 0, 0, 0])
}

/// The vCPU is to leave the guest before the reply.
fn pause(seq: u32, vcpu: u8) -> Vec<u8> {
    on_vcpu(Command::VcpuPause, seq, vcpu, [1, 0, 0, 0, 0, 0, 0, 0])
}

fn read(seq: u32, gpa: u64, size: u64) -> Vec<u8> {
    message(Command::VmReadPhysical, seq, &[gpa.to_le_bytes(), size.to_le_bytes()].concat())
}

/// To the event with this seq.
fn reply(seq: u32, vcpu: u8, action: Action, event: Event) -> Vec<u8> {
    on_vcpu(Command::EventReply, seq, vcpu, [action.number(), event.number() as u8, 0, 0, 0, 0, 0, 0])
}

/// To a page fault: the vCPU continues, and reads this text from the address on.
fn supplied(seq: u32, vcpu: u8, address: u64, text: &str) -> Vec<u8> {
    let mut data = vec![vcpu, 0, 0, 0, 0, 0, 0, 0, Action::Continue.number(), Event::Pf.number() as u8, 0, 0, 0, 0, 0, 0];
    data.extend(address.to_le_bytes());
    data.extend((text.len() as u64).to_le_bytes());
    data.extend(text.as_bytes());
    data.resize(288, 0);
    message(Command::EventReply, seq, &data)
}

fn run() -> Result<(), Refusal> {
    let session = Session::fresh(&Settings::allowing_all(VCPUS))?;
    let memory = &mut vec![0; GUEST_PAGES * PAGE_BYTES][..];
    let mut host = Host { session, guarded: BTreeMap::new(), crashed: BTreeSet::new(), held: Vec::new() };
    for vcpu in 0..VCPUS {
        host.session.ready(vcpu)?;
    }

    host.receive(&[replies(1, false), guards(2, FIRST, GUARDED, 5), replies(3, true)].concat(), memory, false)?;
    println!("{} pages are guarded", host.guarded.len());

    // a read may end in a message, here after 30 bytes of 48
    let write = [event_on(4, 0, Event::Xsetbv), pause(5, 1)].concat();
    host.receive(&write[..30], memory, false)?;
    host.receive(&write[30..], memory, false)?;

    // vCPU 0 executes XSETBV, and waits; then the tool answers both events
    host.offer(0, Event::Xsetbv, &[]);
    let answers = [reply(0, 1, Action::Continue, Event::PauseVcpu), reply(1, 0, Action::Continue, Event::Xsetbv)].concat();
    host.receive(&[answers, message(Command::GetVersion, 6, &[])].concat(), memory, false)?;

    // the read is of a guest whose vCPU 1 is out
    host.receive(&[pause(7, 1), read(8, FIRST * PAGE_BYTES as u64, 64)].concat(), memory, false)?;

    // the tool guards a page against all access, and vCPU 0 reads there, at 0x405004: it sees what the tool says, from its address on
    host.receive(&[event_on(9, 0, Event::Pf), guards(10, 5, 1, 0)].concat(), memory, false)?;
    let read = own::Pf { gva: 0x405004, gpa: 0x5004, access: Access::R.bits(), view: 0 };
    host.offer(0, Event::Pf, &read.bytes());
    let version = |seq| message(Command::GetVersion, seq, &[]);
    host.receive(&[version(11), supplied(3, 0, 0x405000, "the tool's words"), version(12)].concat(), memory, false)?;

    // vCPU 0 executes XSETBV once more, and waits; the tool crashes vCPU 1, and is gone in the middle of the next message
    host.offer(0, Event::Xsetbv, &[]);
    let crash = reply(2, 1, Action::Crash, Event::PauseVcpu);
    host.receive(&[&crash[..], &version(13)[..3]].concat(), memory, true)?;
    println!("{} pages are guarded", host.guarded.len());
    Ok(())
}

fn main() {
    if let Err(refusal) = run() {
        println!("refused: {refusal}");
        process::exit(1);
    }
}
