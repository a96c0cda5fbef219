//! The library, as include/semblurick.h declares it, and what the C library is asked for.

use std::ffi::{c_int, c_void};

pub const VCPU_BYTES: usize = 8 * 4352;
pub const PAGE_BYTES: usize = 8 * 1024;
pub const IMAGE_MAX: usize = 2_111_662;
pub const RECORD: usize = 56;
pub const RESULT: usize = 96;

#[repr(C)]
#[derive(Clone, Copy, Debug, PartialEq)]
pub struct Session {
    pub vcpus: u32,
    pub views: u32,
    pub commands: u32,
    pub events: u32,
    pub tsc_speed: u64,
    /// The five features, and then whether descriptor events can be caught, breakpoints are taken, pages can be execute-only.
    pub flags: [u8; 8],
    pub revision: u32,
    pub settings_padding: u32,
    pub vm_events: u64,
    pub pages: u64,
    pub opened: u32,
    pub mode: u32,
    pub seq: u32,
    pub padding: u32,
    pub ready: u64,
}

pub const SESSION: usize = size_of::<Session>();
const _: () = assert!(SESSION == 80);

pub type Bytes = *mut u8;

extern "C" {
    pub fn semblurick_raw_fresh(session: Bytes, vcpus: Bytes, pages: Bytes, result: Bytes) -> u32;
    pub fn semblurick_raw_ready(session: Bytes, vcpu: u32, result: Bytes) -> u32;
    pub fn semblurick_raw_message(
        session: Bytes,
        vcpus: Bytes,
        pages: Bytes,
        msg: Bytes,
        msg_size: usize,
        out: Bytes,
        out_size: usize,
        guest: Bytes,
        guest_size: usize,
        result: Bytes,
    ) -> u32;
    pub fn semblurick_raw_batch(
        session: Bytes,
        vcpus: Bytes,
        pages: Bytes,
        input: Bytes,
        input_size: usize,
        out: Bytes,
        out_size: usize,
        signals: Bytes,
        signals_size: usize,
        guest: Bytes,
        guest_size: usize,
        result: Bytes,
    ) -> u32;
    pub fn semblurick_raw_enter(
        session: Bytes,
        vcpus: Bytes,
        pages: Bytes,
        vcpu: u32,
        state: Bytes,
        state_size: usize,
        event: u32,
        own: Bytes,
        own_size: usize,
        out: Bytes,
        out_size: usize,
        result: Bytes,
    ) -> u32;
    pub fn semblurick_raw_image_size(session: Bytes, vcpus: Bytes, pages: Bytes) -> usize;
    pub fn semblurick_raw_image_write(
        session: Bytes,
        vcpus: Bytes,
        pages: Bytes,
        out: Bytes,
        out_size: usize,
        result: Bytes,
    ) -> u32;
    pub fn semblurick_raw_image_read(
        session: Bytes,
        vcpus: Bytes,
        pages: Bytes,
        image: Bytes,
        size: usize,
        result: Bytes,
    ) -> u32;
    pub fn semblurick_raw_is_open(session: Bytes) -> u32;
    pub fn semblurick_raw_is_ready(session: Bytes, vcpu: u32) -> u32;
    pub fn semblurick_raw_vm_event(session: Bytes, event: u32) -> u32;
    pub fn semblurick_raw_vcpu_event(session: Bytes, vcpus: Bytes, vcpu: u32, event: u32) -> u32;
    pub fn semblurick_raw_cr(session: Bytes, vcpus: Bytes, vcpu: u32, cr: u32) -> u32;
    pub fn semblurick_raw_msr(session: Bytes, vcpus: Bytes, vcpu: u32, msr: u32) -> u32;
    pub fn semblurick_raw_singlestep(session: Bytes, vcpus: Bytes, vcpu: u32) -> u32;
    pub fn semblurick_raw_pauses(session: Bytes, vcpus: Bytes, vcpu: u32) -> u64;
    pub fn semblurick_raw_awaited(session: Bytes, vcpus: Bytes, vcpu: u32) -> u64;
    pub fn semblurick_raw_page_count(session: Bytes) -> usize;
    pub fn semblurick_raw_access(session: Bytes, pages: Bytes, view: u32, page: u64) -> u32;
    pub fn semblurick_raw_page_at(session: Bytes, pages: Bytes, i: usize, page: Bytes) -> u32;
    pub fn semblurick_list_ready(vcpus: Bytes, count: usize, index: usize) -> u32;
    pub fn semblurick_list_cr(vcpus: Bytes, count: usize, index: usize, cr: u32, on: u32) -> u32;

    // of the C library
    pub fn mmap(at: *mut c_void, size: usize, protection: c_int, flags: c_int, file: c_int, offset: i64) -> *mut c_void;
    pub fn mprotect(at: *mut c_void, size: usize, protection: c_int) -> c_int;
    pub fn signal(number: c_int, handler: extern "C" fn(c_int)) -> usize;
    pub fn write(file: c_int, bytes: *const c_void, size: usize) -> isize;
    pub fn fork() -> c_int;
    pub fn waitpid(child: c_int, status: *mut c_int, options: c_int) -> c_int;
    pub fn _exit(status: c_int) -> !;
}
