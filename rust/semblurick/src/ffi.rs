//! The library's own interface, as `include/semblurick.h` declares it.

pub const VCPU_WORDS: usize = 4352;
pub const PAGE_WORDS: usize = 1024;

#[repr(C)]
#[derive(Clone, Copy)]
pub struct Settings {
    pub vcpus: u32,
    pub views: u32,
    pub commands: u32,
    pub events: u32,
    pub tsc_speed: u64,
    pub features: [u8; 5],
    pub descriptors: u8,
    pub breakpoints_taken: u8,
    pub execute_only: u8,
    pub revision: u32,
}

#[repr(C)]
#[derive(Clone, Copy)]
pub struct Session {
    pub settings: Settings,
    pub vm_events: u64,
    pub pages: u64,
    pub opened: u32,
    pub mode: u32,
    pub seq: u32,
    pub ready: u64,
}

#[repr(C)]
#[derive(Clone, Copy)]
pub struct Outcome {
    pub count: u64,
    pub offset: u64,
    pub signal: u64,
    pub vcpu: u64,
    pub wait: u64,
    pub action: u64,
    pub value: u64,
    pub source: u64,
    pub at: u64,
    pub length: u64,
    pub padding: u64,
    /// Kept for later; 0 in every answer.
    pub reserved: u64,
}

/// What a batch tells; as large as an [`Outcome`].
#[repr(C)]
#[derive(Clone, Copy)]
pub struct BatchOutcome {
    pub used: u64,
    pub count: u64,
    pub listed: u64,
    pub signal: u64,
    pub vcpu: u64,
    pub action: u64,
    pub value: u64,
    pub source: u64,
    pub at: u64,
    pub length: u64,
    /// Kept for later; 0 in every answer.
    pub reserved: [u64; 2],
}

/// A vCPU's record in a list that the host keeps.
#[repr(C)]
#[derive(Clone, Copy, Debug, Default, PartialEq, Eq, Hash)]
pub struct Vcpu {
    /// Not 0: the vCPU is ready.
    pub ready: u64,
    /// Not 0: it is to be single-stepped.
    pub singlestep: u64,
    /// The CR switches: bits 0, 1, 2 for CR0, CR3, CR4.
    pub crs: u64,
    /// The event switches: bit e for event e.
    pub events: u64,
    /// How many pauses are queued.
    pub pauses: u64,
    /// The event whose reply is awaited; 0: none.
    pub awaited: u64,
    /// That event's seq.
    pub awaited_seq: u64,
}

pub type Vcpus = [u64; VCPU_WORDS];
pub type Pages = [u64; PAGE_WORDS];

const _: () = {
    assert!(core::mem::size_of::<Settings>() == 40);
    assert!(core::mem::offset_of!(Settings, execute_only) == 31 && core::mem::offset_of!(Settings, revision) == 32);
    assert!(core::mem::size_of::<Session>() == 80);
    assert!(core::mem::size_of::<Outcome>() == 96);
    assert!(core::mem::size_of::<BatchOutcome>() == 96);
    assert!(core::mem::offset_of!(Outcome, source) == 56 && core::mem::offset_of!(BatchOutcome, source) == 56);
    assert!(core::mem::offset_of!(Outcome, padding) == 80 && core::mem::offset_of!(Outcome, reserved) == 88);
    assert!(core::mem::size_of::<Vcpu>() == 56);
};

extern "C" {
    pub fn semblurick_raw_fresh(session: *mut Session, vcpus: *mut Vcpus, pages: *mut Pages, result: *mut Outcome) -> u32;
    pub fn semblurick_raw_ready(session: *mut Session, vcpu: u32, result: *mut Outcome) -> u32;
    pub fn semblurick_raw_message(
        session: *mut Session,
        vcpus: *mut Vcpus,
        pages: *mut Pages,
        msg: *const u8,
        msg_size: usize,
        out: *mut u8,
        out_size: usize,
        guest: *mut u8,
        guest_size: usize,
        result: *mut Outcome,
    ) -> u32;
    pub fn semblurick_raw_batch(
        session: *mut Session,
        vcpus: *mut Vcpus,
        pages: *mut Pages,
        input: *const u8,
        input_size: usize,
        out: *mut u8,
        out_size: usize,
        signals: *mut u32,
        signals_size: usize,
        guest: *mut u8,
        guest_size: usize,
        result: *mut BatchOutcome,
    ) -> u32;
    pub fn semblurick_raw_enter(
        session: *mut Session,
        vcpus: *mut Vcpus,
        pages: *const Pages,
        vcpu: u32,
        state: *const u8,
        state_size: usize,
        event: u32,
        own: *const u8,
        own_size: usize,
        out: *mut u8,
        out_size: usize,
        result: *mut Outcome,
    ) -> u32;
    pub fn semblurick_raw_image_size(session: *const Session, vcpus: *const Vcpus, pages: *const Pages) -> usize;
    pub fn semblurick_raw_image_write(
        session: *const Session,
        vcpus: *const Vcpus,
        pages: *const Pages,
        out: *mut u8,
        out_size: usize,
        result: *mut Outcome,
    ) -> u32;
    pub fn semblurick_raw_image_read(
        session: *mut Session,
        vcpus: *mut Vcpus,
        pages: *mut Pages,
        image: *const u8,
        image_size: usize,
        result: *mut Outcome,
    ) -> u32;

    // lookups: they only read, and take any number
    pub fn semblurick_raw_is_open(session: *const Session) -> u32;
    pub fn semblurick_raw_is_ready(session: *const Session, vcpu: u32) -> u32;
    pub fn semblurick_raw_vm_event(session: *const Session, event: u32) -> u32;
    pub fn semblurick_raw_vcpu_event(session: *const Session, vcpus: *const Vcpus, vcpu: u32, event: u32) -> u32;
    pub fn semblurick_raw_cr(session: *const Session, vcpus: *const Vcpus, vcpu: u32, cr: u32) -> u32;
    pub fn semblurick_raw_msr(session: *const Session, vcpus: *const Vcpus, vcpu: u32, msr: u32) -> u32;
    pub fn semblurick_raw_singlestep(session: *const Session, vcpus: *const Vcpus, vcpu: u32) -> u32;
    pub fn semblurick_raw_pauses(session: *const Session, vcpus: *const Vcpus, vcpu: u32) -> u64;
    pub fn semblurick_raw_awaited(session: *const Session, vcpus: *const Vcpus, vcpu: u32) -> u64;
    pub fn semblurick_raw_page_count(session: *const Session) -> usize;
    pub fn semblurick_raw_access(session: *const Session, pages: *const Pages, view: u32, page: u64) -> u32;
    pub fn semblurick_raw_page_at(session: *const Session, pages: *const Pages, i: usize, page: *mut [u64; 3]) -> u32;

    // vCPU records in a list that the host keeps
    pub fn semblurick_list_ready(vcpus: *mut Vcpu, count: usize, index: usize) -> u32;
    pub fn semblurick_list_cr(vcpus: *mut Vcpu, count: usize, index: usize, cr: u32, on: u32) -> u32;
}
