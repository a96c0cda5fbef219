//! A host in Rust: takes the messages that stand end to end in a file, answers them, programs what they switch, lets a kicked vCPU
//! enter the guest, asks the tool about the guest's writes to CR3 and its reads of guarded pages, and hands the session over by an image.
//! Its log has a line for each, and names the padding byte that a command failed for. Usage: host FILE
use semblurick::{
    own, Access, Action, Answer, Command, Entry, Event, Feed, Refusal, Session, Settings, Signal, ENTRY_OUT, HEADER_BYTES,
    MESSAGE_OUT, PAGE_BYTES, STATE_BYTES,
};
use std::collections::{BTreeMap, BTreeSet};
use std::{env, fs, process};

const VCPUS: u32 = 2;

/// How many bytes an instruction of this guest reads.
const READ: usize = 16;

/// Where vCPU 0 reads, once its page faults are on.
const TO_READ: [u64; 4] = [0x2FF0, 0x2FF0, 0x5000, 0x2FF0];

#[derive(Clone, Copy, PartialEq, Eq, PartialOrd, Ord)]
enum Intercept {
    VmEvent { event: u32 },
    VcpuEvent { vcpu: u32, event: u32 },
    Cr { vcpu: u32, cr: u32 },
    Msr { vcpu: u32, msr: u32 },
}

/// What this host has programmed, brought up to date by lookups; a real one writes page tables and a VMCS here.
#[derive(Default, PartialEq)]
struct Hardware {
    /// Below rwx, by view and page.
    pages: BTreeMap<(u32, u64), Access>,
    intercepts: BTreeSet<Intercept>,
    /// The vCPUs that are single-stepped.
    stepped: BTreeSet<u32>,
}

impl Hardware {
    fn set_page(&mut self, view: u32, page: u64, access: Access) {
        match access {
            Access::RWX => self.pages.remove(&(view, page)),
            _ => self.pages.insert((view, page), access),
        };
    }

    fn set(&mut self, intercept: Intercept, on: bool) {
        match on {
            true => self.intercepts.insert(intercept),
            false => self.intercepts.remove(&intercept),
        };
    }

    fn step(&mut self, vcpu: u32, on: bool) {
        match on {
            true => self.stepped.insert(vcpu),
            false => self.stepped.remove(&vcpu),
        };
    }

    /// An intercept, as it stands in a session.
    fn look(&mut self, session: &Session, intercept: Intercept) {
        let on = match intercept {
            Intercept::VmEvent { event } => session.vm_event(event),
            Intercept::VcpuEvent { vcpu, event } => session.vcpu_event(vcpu, event),
            Intercept::Cr { vcpu, cr } => session.cr(vcpu, cr),
            Intercept::Msr { vcpu, msr } => session.msr(vcpu, msr),
        };
        self.set(intercept, on);
    }

    /// After a message: what it names, as it stands now. One that got an error has changed nothing, and so does this. None where
    /// it names nothing.
    fn program(&mut self, session: &Session, message: &[u8]) -> Option<()> {
        let (half, word) = (|at| Some(number(message, at, 2)? as u32), |at| Some(number(message, at, 4)? as u32));
        match Command::from_number(half(0)? as u16)? {
            Command::VmControlEvents => self.look(session, Intercept::VmEvent { event: half(8)? }),
            Command::VcpuControlEvents => self.look(session, Intercept::VcpuEvent { vcpu: half(8)?, event: half(16)? }),
            Command::VcpuControlCr => self.look(session, Intercept::Cr { vcpu: half(8)?, cr: word(20)? }),
            Command::VcpuControlMsr => self.look(session, Intercept::Msr { vcpu: half(8)?, msr: word(20)? }),
            Command::VcpuControlSinglestep => self.step(half(8)?, session.singlestep(half(8)?)),
            Command::VmSetPageAccess => {
                let view = half(10)?;
                for entry in message.get(16..)?.chunks_exact(16) {
                    let page = number(entry, 0, 8)? / PAGE_BYTES as u64;
                    self.set_page(view, page, session.access(view, page));
                }
            }
            _ => {}
        }
        Some(())
    }

    /// After a session began or closed: everything.
    fn all(session: &Session) -> Hardware {
        let mut hardware = Hardware::default();
        for event in Event::ALL.iter().map(|event| u32::from(*event)) {
            hardware.look(session, Intercept::VmEvent { event });
            (0..VCPUS).for_each(|vcpu| hardware.look(session, Intercept::VcpuEvent { vcpu, event }));
        }
        for vcpu in 0..VCPUS {
            [0, 3, 4].into_iter().for_each(|cr| hardware.look(session, Intercept::Cr { vcpu, cr }));
            let msrs = (0..0x2000).chain(0xC000_0000..0xC000_2000);
            msrs.for_each(|msr| hardware.look(session, Intercept::Msr { vcpu, msr }));
            hardware.step(vcpu, session.singlestep(vcpu));
        }
        session.pages().for_each(|page| hardware.set_page(page.view, page.page, page.access));
        hardware
    }

    /// The same, read off an image, to see that both agree. None where a record is cut.
    fn stated(mut image: &[u8]) -> Option<Hardware> {
        let mut hardware = Hardware::default();
        loop {
            // a vCPU or a view; in VM the version
            let (of, bits) = (number(image, 2, 2)? as u32, |at, size| Some(number(image, at, size)? as u32));
            let events = || Some((0..16).zip([bits(6, 2)?; 16]).filter(|(e, bits)| bits >> e & 1 == 1).map(|(e, _)| e));
            let size = match image.get(..2)? {
                b"VM" => {
                    events()?.for_each(|event| hardware.set(Intercept::VmEvent { event }, true));
                    8
                }
                b"VC" => {
                    events()?.for_each(|event| hardware.set(Intercept::VcpuEvent { vcpu: of, event }, true));
                    for (bit, cr) in [(1, 0), (2, 3), (4, 4)] {
                        hardware.set(Intercept::Cr { vcpu: of, cr }, bits(5, 1)? & bit != 0);
                    }
                    hardware.step(of, bits(4, 1)? & 2 != 0);
                    10
                }
                b"MS" => {
                    hardware.set(Intercept::Msr { vcpu: of, msr: bits(4, 4)? }, true);
                    8
                }
                b"PA" => {
                    hardware.set_page(of, number(image, 6, 8)?, Access::from_bits(bits(4, 1)? as u8));
                    14
                }
                _ => return Some(hardware),
            };
            image = image.get(size..)?;
        }
    }
}

/// A little-endian number of so many bytes.
fn number(bytes: &[u8], at: usize, size: usize) -> Option<u64> {
    Some(bytes.get(at..at + size)?.iter().rev().fold(0, |number, byte| number << 8 | u64::from(*byte)))
}

/// The length of the next message: what its header says, or all that is left.
fn next(stream: &[u8]) -> usize {
    let size = number(stream, 2, 2).filter(|_| stream.len() >= 8).map_or(stream.len(), |size| 8 + size as usize);
    size.min(stream.len())
}

/// The vCPU that a reply to an event names. None where it is another message.
fn replied(message: &[u8]) -> Option<u32> {
    let id = number(message, 0, 2)? as u16;
    (id == Command::EventReply.number()).then_some(number(message, 8, 2)? as u32)
}

fn send_to_tool(_bytes: &[u8]) {}

/// The vCPU leaves the guest. With `wait` this returns when it is out.
fn kick(_vcpu: u32, _wait: bool) {}

/// What became of an entry; the event goes to the tool, if there is one.
fn send_event(what: &str, entry: Result<Entry<'_>, Refusal>) {
    let (answer, bytes) = entry.map_or_else(|refusal| (refusal.number(), &[][..]), |entry| (0, entry.bytes));
    println!("{what}: answer {answer}, {} bytes", bytes.len());
    send_to_tool(bytes);
}

/// Whether the processor has execute-only pages, access 4; a real host reads bit 0 of IA32_VMX_EPT_VPID_CAP, MSR 0x48C.
fn has_execute_only() -> bool {
    true
}

/// A vCPU's registers.
const STATE: [u8; STATE_BYTES] = [0; STATE_BYTES];

struct Host {
    session: Session,
    hardware: Hardware,
    /// What CR3 of each vCPU holds, and what the guest wrote last: another value while the tool is asked.
    cr3: [u64; VCPUS as usize],
    written: [u64; VCPUS as usize],
    /// Where a read of each vCPU is that waits, while the tool is asked.
    reads: [Option<u64>; VCPUS as usize],
    /// Which of the reads of vCPU 0 is the next.
    next_read: usize,
}

impl Host {
    /// One message: what it switches stands in hardware, and a vCPU that the tool waits for is out, before the tool reads that it is
    /// done.
    fn take(&mut self, message: &[u8], guest: &mut [u8]) {
        let mut out = [0; MESSAGE_OUT];
        let answer = match self.session.message(message, &mut out, guest) {
            Ok(answer) => answer,
            Err(refusal) => {
                println!("message {}: answer {}, 0 bytes", message[0], refusal.number());
                return;
            }
        };
        println!("message {}: answer {}, {} bytes", message[0], answer.number(), answer.bytes().len());
        if let Some(offset) = answer.padding() {
            // of which the tool reads that it is EINVAL, and with replies off not even that
            println!("message {}: byte {offset}, padding, is not zero", message[0]);
        }
        if answer.is_closing() {
            // everything is off, and no reply comes any more
            self.hardware = Hardware::all(&self.session);
            for (vcpu, written) in (0..).zip(self.written) {
                if written != self.cr3[vcpu as usize] {
                    self.set_cr3(vcpu, written);
                }
                if let Some(gpa) = self.reads[vcpu as usize].take() {
                    read_as_ever(vcpu, gpa, guest);
                }
            }
            return;
        }
        self.hardware.program(&self.session, message);
        if let Signal::Kick { vcpu, wait } = answer.signal() {
            kick(vcpu, wait);
        }
        send_to_tool(answer.bytes());
        match answer.signal() {
            Signal::Kick { vcpu, .. } => self.enter(vcpu),
            Signal::Resume { vcpu, action, value } => {
                match self.reads[vcpu as usize].take() {
                    // to retry is to execute the instruction again, which faults or not by the guards of that time
                    Some(_) if action == Action::Retry => self.next_read -= 1,
                    Some(gpa) => match (answer, answer.feed()) {
                        (Answer::NoPage { .. }, _) => read_as_ever(vcpu, gpa, guest),
                        (_, Feed::Supplied(bytes)) => read_from(vcpu, "the tool", bytes),
                        (_, Feed::Page(bytes)) => read_from(vcpu, "memory", bytes),
                        (_, feed) => unreachable!("a read is {feed}"),
                    },
                    // this host asks about nothing else
                    None => self.set_cr3(vcpu, value),
                }
                self.enter(vcpu);
            }
            Signal::Crash { vcpu } => {
                println!("vCPU {vcpu} is to be crashed");
                // the write or the read that waited is dropped
                self.written[vcpu as usize] = self.cr3[vcpu as usize];
                self.reads[vcpu as usize] = None;
            }
            Signal::None => {
                // a vCPU goes on from a pause; another may be queued
                if let Some(vcpu) = replied(message) {
                    self.enter(vcpu);
                }
            }
            _ => {}
        }
    }

    /// The vCPU is about to enter the guest again: a queued pause is told now, and the vCPU waits for the tool's reply. One that waits
    /// already is answered 6.
    fn enter(&mut self, vcpu: u32) {
        let mut out = [0; ENTRY_OUT];
        send_event(&format!("vCPU {vcpu} enters"), self.session.enter(vcpu, &STATE, &mut out));
    }

    fn set_cr3(&mut self, vcpu: u32, value: u64) {
        (self.cr3[vcpu as usize], self.written[vcpu as usize]) = (value, value);
        println!("vCPU {vcpu}: CR3 is {value:#x}");
    }

    /// The guest writes CR3. Where the tool watches it, it is asked first, and the vCPU waits; else the write is carried out.
    fn write_cr3(&mut self, vcpu: u32, value: u64) -> Result<(), Refusal> {
        let mut out = [0; ENTRY_OUT];
        let event = own::Cr { cr: 3, old_value: self.cr3[vcpu as usize], new_value: value };
        let entry = self.session.enter_event(vcpu, &STATE, Event::Cr, &event.bytes(), &mut out);
        send_event(&format!("vCPU {vcpu} writes CR3"), entry);
        match entry {
            Ok(entry) if entry.event() == Some(Event::Cr) => self.written[vcpu as usize] = value,
            // what was sent, if anything, is a pause
            Ok(_) | Err(Refusal::Closed) => self.set_cr3(vcpu, value),
            Err(refusal) => return Err(refusal),
        }
        Ok(())
    }

    /// The guest reads. Where a guard is in its way the tool is asked, if it wants to be, and the vCPU waits; else the read is carried
    /// out.
    fn read(&mut self, vcpu: u32, gva: u64, gpa: u64, guest: &[u8]) -> Result<(), Refusal> {
        let access = self.hardware.pages.get(&(0, gpa / PAGE_BYTES as u64)).copied().unwrap_or(Access::RWX);
        if access.grants(Access::R) {
            // without a fault the host does not even see it
            read_as_ever(vcpu, gpa, guest);
            return Ok(());
        }
        let mut out = [0; ENTRY_OUT];
        let event = own::Pf { gva, gpa, access: Access::R.bits(), view: 0 };
        let entry = self.session.enter_event(vcpu, &STATE, Event::Pf, &event.bytes(), &mut out);
        send_event(&format!("vCPU {vcpu} reads at {gva:#x}"), entry);
        match entry {
            Ok(entry) if entry.event() == Some(Event::Pf) => self.reads[vcpu as usize] = Some(gpa),
            // what was sent, if anything, is a pause
            Ok(_) | Err(Refusal::Closed) => read_as_ever(vcpu, gpa, guest),
            Err(refusal) => return Err(refusal),
        }
        Ok(())
    }

    /// What the guest does meanwhile: after two of the messages vCPU 0 writes CR3, and once its page faults are on it reads, an address
    /// after the other, unless it waits.
    fn run_guest(&mut self, message: &[u8], guest: &[u8]) -> Result<(), Refusal> {
        if message.len() < HEADER_BYTES || self.session.awaited(0).is_some() {
            return Ok(());
        }
        let reads = match Command::from_number(u16::from_le_bytes([message[0], message[1]])) {
            Some(Command::GetVersion) => return self.write_cr3(0, 0x1000),
            Some(Command::VcpuControlCr) => return self.write_cr3(0, 0x2000),
            Some(Command::VcpuControlEvents) => self.session.vcpu_event(0, Event::Pf),
            Some(Command::EventReply) => self.next_read > 0,
            _ => false,
        };
        match TO_READ.get(self.next_read).filter(|_| reads) {
            Some(gpa) => {
                self.next_read += 1;
                self.read(0, 0x400000 + gpa, *gpa, guest)
            }
            None => Ok(()),
        }
    }
}

/// The instruction reads [`READ`] bytes, of those that it is fed; where these are fewer, a real host reads the rest at the next address, as
/// any other.
fn read_from(vcpu: u32, place: &str, bytes: &[u8]) {
    let text = String::from_utf8_lossy(&bytes[..bytes.len().min(READ)]);
    println!("vCPU {vcpu} reads '{text}' from {place}");
}

/// As if there were no tool: what is no memory is a device.
fn read_as_ever(vcpu: u32, gpa: u64, guest: &[u8]) {
    match guest.get(gpa as usize..) {
        Some(bytes @ [_, ..]) => read_from(vcpu, "memory", bytes),
        _ => read_from(vcpu, "a device", b"a device's bytes"),
    }
}

/// Whether the hardware is as an image states.
fn check(hardware: &Hardware, image: &[u8]) -> bool {
    let same = Hardware::stated(image).is_some_and(|stated| stated == *hardware);
    if !same {
        println!("hardware: not as the image states");
    }
    same
}

fn run(stream: &[u8]) -> Result<bool, Refusal> {
    // 2 where the tool's vendor speaks revision 2: page access all or nothing
    let settings = Settings::allowing_all(VCPUS).execute_only(has_execute_only()).revision(1);
    let session = Session::fresh(&settings)?;
    let mut host = Host {
        session,
        hardware: Hardware::default(),
        cr3: Default::default(),
        written: Default::default(),
        reads: Default::default(),
        next_read: 0,
    };
    for vcpu in 0..VCPUS {
        host.session.ready(vcpu)?;
    }
    let mut guest = [0; 4 * PAGE_BYTES];
    let mut rest = stream;
    while !rest.is_empty() {
        let (message, after) = rest.split_at(next(rest));
        host.take(message, &mut guest);
        host.run_guest(message, &guest)?;
        rest = after;
    }
    let mut image = vec![0; host.session.image_size()];
    println!("image: answer 0, {} bytes", host.session.write_image(&mut image)?);
    if !check(&host.hardware, &image) {
        return Ok(false);
    }

    // on the new host, under settings of its own, here the same; answer 9: they lack what the image has
    let there = Session::from_image(&settings, &image)?;
    println!("new host: answer 0");
    let hardware = Hardware::all(&there);
    let mut again = vec![0; there.image_size()];
    there.write_image(&mut again)?;
    println!("its image: {}", if again == image { "the same" } else { "another" });
    if again != image || !check(&hardware, &again) {
        return Ok(false);
    }
    let Hardware { pages, intercepts, stepped } = &hardware;
    let (pages, intercepts, stepped) = (pages.len(), intercepts.len(), stepped.len());
    println!("hardware: {pages} pages below rwx, {intercepts} intercepts, {stepped} vCPUs single-stepped");
    println!("hardware: as the image states");
    Ok(true)
}

fn main() {
    let Some(stream) = env::args_os().nth(1).and_then(|path| fs::read(path).ok()) else {
        eprintln!("usage: host FILE");
        process::exit(2);
    };
    match run(&stream) {
        Ok(same) => process::exit(if same { 0 } else { 1 }),
        Err(refusal) => {
            println!("refused: {refusal}");
            process::exit(1)
        }
    }
}
