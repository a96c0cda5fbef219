//! Numbers and bytes on the channel.
//!
//! Document 01: "All numbers are little-endian. A header is id u16, size u16,
//! seq u32; then `size` bytes of data."

/// Document 01, "Messages": the table's ids, and "Outgoing events have id 17".
pub(crate) mod id {
    pub const GET_VERSION: u16 = 1;
    pub const VM_CHECK_COMMAND: u16 = 2;
    pub const VM_CHECK_EVENT: u16 = 3;
    pub const VM_GET_INFO: u16 = 4;
    pub const VM_CONTROL_EVENTS: u16 = 5;
    pub const VM_READ_PHYSICAL: u16 = 6;
    pub const VM_WRITE_PHYSICAL: u16 = 7;
    pub const VCPU_GET_INFO: u16 = 8;
    pub const VCPU_PAUSE: u16 = 9;
    pub const VCPU_CONTROL_EVENTS: u16 = 10;
    pub const VCPU_CONTROL_CR: u16 = 11;
    pub const VCPU_CONTROL_MSR: u16 = 12;
    pub const VM_SET_PAGE_ACCESS: u16 = 13;
    pub const VCPU_CONTROL_SINGLESTEP: u16 = 14;
    pub const VM_CONTROL_CMD_RESPONSE: u16 = 15;
    pub const EVENT_REPLY: u16 = 16;
    pub const EVENT: u16 = 17;
}

/// "Events 1..14 in 001's order".
pub(crate) mod event {
    pub const UNHOOK: u8 = 1;
    pub const PAUSE_VCPU: u8 = 2;
    pub const HYPERCALL: u8 = 3;
    pub const BREAKPOINT: u8 = 4;
    pub const CR: u8 = 5;
    pub const TRAP: u8 = 6;
    pub const XSETBV: u8 = 7;
    pub const DESCRIPTOR: u8 = 8;
    pub const MSR: u8 = 9;
    pub const PF: u8 = 10;
    pub const SINGLESTEP: u8 = 11;
    pub const CREATE_VCPU: u8 = 12;
    pub const CMD_ERROR: u8 = 13;
    pub const CPUID: u8 = 14;

    /// Bit e for event e.
    pub const fn bit(event: u8) -> u16 {
        1 << event
    }

    /// Every known event: what message 3 may ask for.
    pub const KNOWN: u16 = VM | VCPU | bit(PAUSE_VCPU) | bit(TRAP) | bit(CMD_ERROR);

    /// "Message 5 takes events 1 and 12".
    pub const VM: u16 = bit(UNHOOK) | bit(CREATE_VCPU);

    /// "message 10 takes 3, 4, 5, 7, 8, 9, 10, 11, 14".
    pub const VCPU: u16 = bit(HYPERCALL)
        | bit(BREAKPOINT)
        | bit(CR)
        | bit(XSETBV)
        | bit(DESCRIPTOR)
        | bit(MSR)
        | bit(PF)
        | bit(SINGLESTEP)
        | bit(CPUID);

    /// The bit of the event with this number if it is among `taken`.
    pub fn bit_among(number: u16, taken: u16) -> Option<u16> {
        let bit = 1u16.checked_shl(u32::from(number))?;
        (bit & taken != 0).then_some(bit)
    }
}

/// "Error numbers are Linux's"; a reply carries "a signed 32-bit number, zero
/// or below". kvmi.rst's -KVM_ENOSYS is document 01's "-1000 (ENOSYS)".
pub(crate) mod error {
    pub const EPERM: i32 = -1;
    pub const ENOENT: i32 = -2;
    pub const EAGAIN: i32 = -11;
    pub const ENOMEM: i32 = -12;
    pub const EBUSY: i32 = -16;
    pub const EINVAL: i32 = -22;
    pub const EOPNOTSUPP: i32 = -95;
    pub const ENOSYS: i32 = -1000;
}

/// Bytes of `struct kvmi_msg_hdr`.
pub(crate) const HEADER: usize = 8;

/// Bytes before a reply's data: the header and `struct kvmi_error_code`.
pub(crate) const REPLY: usize = HEADER + 8;

/// The header of an incoming message.
pub(crate) struct Header {
    pub id: u16,
    pub seq: u32,
}

impl Header {
    /// Parts a message into its header and data. Document 01, "What is tested
    /// first", test 1: none with "fewer than 8 bytes, or size unequal to the
    /// bytes that follow".
    pub fn split(message: &[u8]) -> Option<(Header, &[u8])> {
        let (header, data) = message.split_at_checked(HEADER)?;
        if usize::from(u16_at(header, 2)) != data.len() {
            return None;
        }
        let header = Header { id: u16_at(header, 0), seq: u32_at(header, 4) };
        Some((header, data))
    }
}

/// Writes a header: id u16, size u16, seq u32.
pub(crate) fn put_header(out: &mut [u8], id: u16, size: u16, seq: u32) {
    out[0..2].copy_from_slice(&id.to_le_bytes());
    out[2..4].copy_from_slice(&size.to_le_bytes());
    out[4..8].copy_from_slice(&seq.to_le_bytes());
}

/// Writes the beginning of a reply: "the header with its own size, the error
/// (a signed 32-bit number, zero or below), four zero bytes". `data` is the
/// number of data bytes that follow; returns the length of the whole reply.
pub(crate) fn put_reply(out: &mut [u8], header: &Header, error: i32, data: usize) -> usize {
    // At most 4,096 bytes follow (VM_READ_PHYSICAL), so the size fits.
    put_header(out, header.id, (8 + data) as u16, header.seq);
    out[8..12].copy_from_slice(&error.to_le_bytes());
    out[12..16].fill(0);
    REPLY + data
}

pub(crate) fn u16_at(bytes: &[u8], at: usize) -> u16 {
    u16::from_le_bytes([bytes[at], bytes[at + 1]])
}

pub(crate) fn u32_at(bytes: &[u8], at: usize) -> u32 {
    let mut number = [0; 4];
    number.copy_from_slice(&bytes[at..at + 4]);
    u32::from_le_bytes(number)
}

pub(crate) fn u64_at(bytes: &[u8], at: usize) -> u64 {
    let mut number = [0; 8];
    number.copy_from_slice(&bytes[at..at + 8]);
    u64::from_le_bytes(number)
}

/// Whether these padding bytes are zero.
pub(crate) fn is_zero(bytes: &[u8]) -> bool {
    bytes.iter().all(|&byte| byte == 0)
}
