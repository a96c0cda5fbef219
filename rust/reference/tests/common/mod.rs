//! Builders and a bench for the tests.
#![allow(dead_code)]

use reference::{Answer, Feed, Session, Settings, Signal};

pub const EPERM: i32 = -1;
pub const ENOENT: i32 = -2;
pub const EAGAIN: i32 = -11;
pub const ENOMEM: i32 = -12;
pub const EBUSY: i32 = -16;
pub const EINVAL: i32 = -22;
pub const EOPNOTSUPP: i32 = -95;
pub const ENOSYS: i32 = -1000;

/// What the output holds where nothing was written.
pub const UNTOUCHED: u8 = 0xA5;

pub const fn handled(count: usize) -> Answer {
    with_signal(count, Signal::None)
}

/// Answer 0 with no bytes for an instruction.
pub const fn with_signal(count: usize, signal: Signal) -> Answer {
    Answer::Handled { count, signal, feed: Feed::None, padding: 0 }
}

/// Answer 0 to a command with padding that is not zero, first at this offset.
pub const fn with_padding(count: usize, padding: usize) -> Answer {
    Answer::Handled { count, signal: Signal::None, feed: Feed::None, padding }
}

/// The runner's settings: 2 vCPUs, 1 view, all allowed, all five features 1,
/// TSC speed 0, descriptor events catchable, breakpoints free, execute-only
/// pages, revision 1.
pub fn settings() -> Settings {
    Settings {
        vcpus: 2,
        views: 1,
        commands: !0,
        events: !0,
        tsc: 0,
        features: [1; 5],
        descriptors: true,
        breakpoints: false,
        execute_only: true,
        revision: 1,
    }
}

/// The bytes that these hexadecimal digits stand for.
pub fn hex(text: &str) -> Vec<u8> {
    let digits: Vec<u8> = text
        .bytes()
        .filter(|byte| !byte.is_ascii_whitespace())
        .map(|digit| (digit as char).to_digit(16).expect("a hex digit") as u8)
        .collect();
    assert_eq!(digits.len() % 2, 0);
    digits.chunks(2).map(|pair| pair[0] << 4 | pair[1]).collect()
}

/// A message with a size that agrees.
pub fn msg(id: u16, seq: u32, data: &[u8]) -> Vec<u8> {
    let mut bytes = Vec::with_capacity(8 + data.len());
    bytes.extend(id.to_le_bytes());
    bytes.extend(u16::try_from(data.len()).unwrap().to_le_bytes());
    bytes.extend(seq.to_le_bytes());
    bytes.extend(data);
    bytes
}

pub fn check_command(id: u16) -> Vec<u8> {
    let id = id.to_le_bytes();
    msg(2, 0, &[id[0], id[1], 0, 0, 0, 0, 0, 0])
}

pub fn check_event(event: u16) -> Vec<u8> {
    let id = event.to_le_bytes();
    msg(3, 0, &[id[0], id[1], 0, 0, 0, 0, 0, 0])
}

pub fn vm_event(event: u16, enable: u8) -> Vec<u8> {
    let id = event.to_le_bytes();
    msg(5, 0, &[id[0], id[1], enable, 0, 0, 0, 0, 0])
}

pub fn read_physical(gpa: u64, size: u64) -> Vec<u8> {
    msg(6, 0, &[gpa.to_le_bytes(), size.to_le_bytes()].concat())
}

/// With a size field that agrees with the bytes.
pub fn write_physical(gpa: u64, bytes: &[u8]) -> Vec<u8> {
    write_physical_as(gpa, bytes.len() as u64, bytes)
}

pub fn write_physical_as(gpa: u64, size: u64, bytes: &[u8]) -> Vec<u8> {
    let mut data = [gpa.to_le_bytes(), size.to_le_bytes()].concat();
    data.extend(bytes);
    msg(7, 0, &data)
}

/// A message with the vCPU header and eight more bytes.
pub fn vcpu_msg(id: u16, vcpu: u16, rest: [u8; 8]) -> Vec<u8> {
    let mut data = vcpu.to_le_bytes().to_vec();
    data.resize(8, 0);
    data.extend(rest);
    msg(id, 0, &data)
}

pub fn vcpu_info(vcpu: u16) -> Vec<u8> {
    let mut data = vcpu.to_le_bytes().to_vec();
    data.resize(8, 0);
    msg(8, 0, &data)
}

pub fn pause(vcpu: u16, wait: u8) -> Vec<u8> {
    vcpu_msg(9, vcpu, [wait, 0, 0, 0, 0, 0, 0, 0])
}

pub fn vcpu_event(vcpu: u16, event: u16, enable: u8) -> Vec<u8> {
    let id = event.to_le_bytes();
    vcpu_msg(10, vcpu, [id[0], id[1], enable, 0, 0, 0, 0, 0])
}

pub fn control_cr(vcpu: u16, cr: u32, enable: u8) -> Vec<u8> {
    let cr = cr.to_le_bytes();
    vcpu_msg(11, vcpu, [enable, 0, 0, 0, cr[0], cr[1], cr[2], cr[3]])
}

pub fn control_msr(vcpu: u16, msr: u32, enable: u8) -> Vec<u8> {
    let msr = msr.to_le_bytes();
    vcpu_msg(12, vcpu, [enable, 0, 0, 0, msr[0], msr[1], msr[2], msr[3]])
}

/// Entries are gpa and access; the count agrees.
pub fn page_access(view: u16, entries: &[(u64, u8)]) -> Vec<u8> {
    page_access_as(entries.len() as u16, view, entries)
}

pub fn page_access_as(count: u16, view: u16, entries: &[(u64, u8)]) -> Vec<u8> {
    let mut data = [count.to_le_bytes(), view.to_le_bytes(), [0; 2], [0; 2]].concat();
    for (gpa, access) in entries {
        data.extend(gpa.to_le_bytes());
        data.extend([*access, 0, 0, 0, 0, 0, 0, 0]);
    }
    msg(13, 0, &data)
}

pub fn singlestep(vcpu: u16, enable: u8) -> Vec<u8> {
    vcpu_msg(14, vcpu, [enable, 0, 0, 0, 0, 0, 0, 0])
}

pub fn response(enable: u8, now: u8, flags: u8) -> Vec<u8> {
    msg(15, 0, &[enable, now, flags, 0, 0, 0, 0, 0])
}

pub fn event_reply(seq: u32, vcpu: u16, action: u8, event: u8) -> Vec<u8> {
    let vcpu = vcpu.to_le_bytes();
    let data = [vcpu[0], vcpu[1], 0, 0, 0, 0, 0, 0, action, event, 0, 0, 0, 0, 0, 0];
    msg(16, seq, &data)
}

/// A reply to CR or MSR, with the new value.
pub fn value_reply(seq: u32, vcpu: u16, action: u8, event: u8, value: u64) -> Vec<u8> {
    let data = [&event_reply(seq, vcpu, action, event)[8..], &value.to_le_bytes()].concat();
    msg(16, seq, &data)
}

/// The own bytes of a page fault, with padding that is not zero.
pub fn fault(gva: u64, gpa: u64, access: u8, view: u16) -> Vec<u8> {
    let mut own = [gva.to_le_bytes(), gpa.to_le_bytes()].concat();
    own.extend([access, 0xE1]);
    own.extend(view.to_le_bytes());
    own.extend([0xE2; 4]);
    own
}

/// What a reply to a page fault says beside its action.
#[derive(Clone, Copy)]
pub struct Context {
    pub address: u64,
    pub size: u32,
    pub rep: u8,
}

pub const NO_CONTEXT: Context = Context { address: 0, size: 0, rep: 0 };

/// The byte of the supplied data at a place.
pub fn supplied(at: usize) -> u8 {
    (at * 5 + 3) as u8
}

/// A reply to a page fault; the supplied data are all there, whatever the size.
pub fn fault_reply(seq: u32, vcpu: u16, action: u8, context: Context) -> Vec<u8> {
    let mut data = event_reply(seq, vcpu, action, 10)[8..].to_vec();
    data.extend(context.address.to_le_bytes());
    data.extend(context.size.to_le_bytes());
    data.extend([0, context.rep, 0, 0]);
    data.extend((0..256).map(supplied));
    msg(16, seq, &data)
}

/// A session with its guest memory. Every call checks that output past the
/// count is untouched.
#[derive(Clone)]
pub struct Bench {
    pub session: Session,
    pub guest: Vec<u8>,
}

impl Bench {
    /// Fresh, with no vCPU ready and four zero pages.
    pub fn unready(settings: Settings) -> Bench {
        Bench { session: Session::fresh(settings).unwrap(), guest: vec![0; 4 * 4096] }
    }

    /// Fresh, with every vCPU ready and four zero pages.
    pub fn new(settings: Settings) -> Bench {
        let vcpus = settings.vcpus as u16;
        let mut bench = Bench::unready(settings);
        for vcpu in 0..vcpus {
            assert_eq!(bench.session.ready(vcpu), handled(0));
        }
        bench
    }

    /// The answer and the bytes written.
    pub fn send(&mut self, message: &[u8]) -> (Answer, Vec<u8>) {
        let mut out = vec![UNTOUCHED; 4112];
        let answer = self.session.message(message, &mut out, &mut self.guest);
        (answer, written(answer, out))
    }

    /// The reply's error; checks the whole shape of an error reply.
    pub fn error(&mut self, message: &[u8]) -> i32 {
        let (answer, bytes) = self.send(message);
        assert!(matches!(answer, Answer::Handled { .. }), "{answer:?}");
        assert!(bytes.len() >= 16);
        assert_eq!(bytes[..2], message[..2]);
        assert_eq!(usize::from(u16::from_le_bytes([bytes[2], bytes[3]])), bytes.len() - 8);
        assert_eq!(bytes[4..8], message[4..8]);
        assert_eq!(bytes[12..16], [0; 4]);
        let error = i32::from_le_bytes(bytes[8..12].try_into().unwrap());
        if error != 0 {
            let padding = if error == EINVAL { told(answer) } else { 0 };
            assert_eq!(answer, with_padding(16, padding));
        }
        error
    }

    /// Sends a message that has to be handled without error.
    pub fn ok(&mut self, message: &[u8]) {
        assert_eq!(self.error(message), 0);
    }

    /// The message, sent to a copy, closes: 0 bytes, all fresh, guest kept.
    pub fn closes(&self, message: &[u8]) -> bool {
        let mut copy = self.clone();
        let (answer, bytes) = copy.send(message);
        if answer != Answer::Closing {
            assert!(!copy.session.is_closed());
            return false;
        }
        assert!(bytes.is_empty());
        assert!(copy.session.is_closed());
        assert!(copy.guest == self.guest);
        true
    }

    /// The error to a message sent to a copy.
    pub fn would(&self, message: &[u8]) -> i32 {
        self.clone().error(message)
    }

    /// An entry with no event offered.
    pub fn enter(&mut self, vcpu: u16, block: &[u8]) -> (Answer, Vec<u8>) {
        self.offer(vcpu, block, 0, &[])
    }

    /// An entry with an event offered, and its own bytes.
    pub fn offer(&mut self, vcpu: u16, block: &[u8], event: u32, own: &[u8]) -> (Answer, Vec<u8>) {
        let mut out = vec![UNTOUCHED; 600];
        let answer = self.session.enter(vcpu, block, event, own, &mut out);
        (answer, written(answer, out))
    }

    pub fn image(&self) -> Vec<u8> {
        let size = self.session.image_size();
        let mut out = vec![UNTOUCHED; size + 3];
        let answer = self.session.write_image(&mut out);
        assert_eq!(answer, handled(size));
        written(answer, out)
    }
}

/// The offset that the answer tells of padding.
pub fn told(answer: Answer) -> usize {
    match answer {
        Answer::Handled { padding, .. } => padding,
        _ => 0,
    }
}

/// The bytes that the answer says were written; the others are untouched.
pub fn written(answer: Answer, mut out: Vec<u8>) -> Vec<u8> {
    let count = match answer {
        Answer::Handled { count, .. } => count,
        _ => 0,
    };
    assert!(out[count..].iter().all(|&byte| byte == UNTOUCHED));
    out.truncate(count);
    out
}
