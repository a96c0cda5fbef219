//! The host's end of a virtual machine introspection channel.
//!
//! A security tool sends KVMI messages about a guest. A [`Session`] checks each one, changes its permission and event
//! tables, and writes what goes back to the tool; its lookups tell what the host's hardware is to enforce. The filter itself is
//! proved; this crate is a safe wrapper of its static library, without `std` and without dependencies.
//!
//! ```
//! use semblurick::{Session, Settings, Signal};
//!
//! let settings = Settings::allowing_all(2);
//! let mut session = Session::fresh(&settings)?;
//! session.ready(0)?;
//!
//! // KVMI_VCPU_PAUSE of vCPU 0, wait 1, seq 7
//! let message = [9, 0, 16, 0, 7, 0, 0, 0, 0, 0, 0, 0, 0, 0, 0, 0, 1, 0, 0, 0, 0, 0, 0, 0];
//! let (mut out, mut guest) = ([0; semblurick::MESSAGE_OUT], [0; 4 * 4096]);
//! let answer = session.message(&message, &mut out, &mut guest)?;
//! match answer.signal() {
//!     Signal::Kick { vcpu, wait } => assert_eq!((vcpu, wait), (0, true)), // here the vCPU leaves the guest
//!     _ => unreachable!("a pause was asked for"),
//! }
//! // and then the bytes go to the tool
//! assert_eq!(answer.bytes(), [9, 0, 8, 0, 7, 0, 0, 0, 0, 0, 0, 0, 0, 0, 0, 0]);
//!
//! // the vCPU is about to run again: its pause event goes to the tool, and it waits for the reply
//! let entry = session.enter(0, &[0; semblurick::STATE_BYTES], &mut out)?;
//! assert!(!entry.may_run());
//!
//! // KVMI_EVENT_REPLY: vCPU 0, continue, to event 2 with seq 0
//! let reply = [16, 0, 16, 0, 0, 0, 0, 0, 0, 0, 0, 0, 0, 0, 0, 0, 0, 2, 0, 0, 0, 0, 0, 0];
//! assert!(session.message(&reply, &mut out, &mut guest)?.bytes().is_empty());
//!
//! // handed to a new host: as bytes, and back
//! let mut image = vec![0; session.image_size()];
//! session.write_image(&mut image)?;
//! let moved = Session::from_image(&settings, &image)?;
//! assert!(moved.is_ready(0) && moved.pauses(0) == 0);
//! # Ok::<(), semblurick::Refusal>(())
//! ```
//!
//! What the guest does and the tool may watch, a write to CR3 for one, the host offers as an event: [`Session::enter_event`]. Where it
//! is a read of a guarded page, the tool may say what the guest reads there: [`Feed`]. Several messages that came at once, the host
//! hands over at once: [`Session::batch`]. Which padding byte a command failed for is for the host's log: [`Answer::padding`].
//!
//! # Building
//! `build.rs` links `libsemblurick.a` from the folder that `SEMBLURICK_LIB_DIR` names, or from the repository's `target/staticlib`, where
//! `./library` makes it. Where there is none it links the two libraries of which that is made, `libhost.a` and `libhost_batch.a`; the
//! second may stand in a folder of its own, which `SEMBLURICK_BATCH_LIB_DIR` names.
//!
//! # What can grow
//! Types that a later version adds to are `#[non_exhaustive]`: settings are made by [`Settings::new`] and setters, and a `match` has a
//! `_` arm. A capability that is new in the settings is absent from [`Settings::new`] until a host names it, and present in
//! [`Settings::allowing_all`]: see [`Settings::execute_only`]. The [`revision`](Settings::revision) of the protocol is 1 in both.
//!
//! # Threads
//! Every type here is [`Send`] and [`Sync`]. A call that changes a session borrows it mutably, so that there is one at a time for a
//! guest; the library has no state of its own, so that different sessions go their ways at once.
#![no_std]
#![warn(missing_docs, missing_debug_implementations)]

mod answer;
mod ffi;
mod lookup;
mod names;
pub mod own;
mod session;
mod settings;
mod show;
pub mod vcpu_list;

pub use answer::{Answer, Batch, Entry, Feed, Refusal, Signal, Signals};
pub use lookup::{Access, Page, Pages};
pub use names::{Action, Command, CommandSet, Errno, Event, EventSet};
pub use session::Session;
pub use settings::{Features, Settings};
pub use vcpu_list::Vcpu;

/// The most vCPUs of a guest.
pub const MAX_VCPUS: u32 = 16;
/// The most views.
pub const MAX_VIEWS: u32 = 8;
/// The bytes of a page.
pub const PAGE_BYTES: usize = 4096;
/// The bytes of a message's header.
pub const HEADER_BYTES: usize = 8;
/// The bytes of the longest message that a header can state.
pub const MESSAGE_MAX: usize = HEADER_BYTES + u16::MAX as usize;
/// The bytes of the longest event, header included: that of a CR, an MSR or a page fault.
pub const EVENT_MAX: usize = 576;
/// The least output for [`Session::message`], and for each message of a [`Session::batch`].
pub const MESSAGE_OUT: usize = 4112;
/// The least output for [`Session::enter`] and [`Session::enter_event`], whatever they write.
pub const ENTRY_OUT: usize = 576;
/// The bytes of a vCPU's register block.
pub const STATE_BYTES: usize = 536;
/// The bytes of the longest image.
pub const IMAGE_MAX: usize = 14 + 10 * 16 + 8 * 16 * 16384 + 14 * PAGE_LIMIT;
/// How many pages can stand below rwx, in all views together.
pub const PAGE_LIMIT: usize = 1024;
/// How many pauses can be queued for a vCPU.
pub const PAUSE_LIMIT: usize = 8;

// what the chapter on threads says
const _: () = {
    const fn is_shared<T: Send + Sync>() {}
    is_shared::<Session>();
    is_shared::<Settings>();
    is_shared::<Answer<'_>>();
    is_shared::<Batch<'_>>();
    is_shared::<Feed<'_>>();
    is_shared::<Signals<'_>>();
    is_shared::<Entry<'_>>();
    is_shared::<Refusal>();
    is_shared::<Pages<'_>>();
    is_shared::<Vcpu>();
};

/// What must not compile: settings that name every field, a `match` that knows every signal or every source of bytes, an answer that
/// outlives what was lent, and answers that are dropped.
///
/// ```compile_fail,E0639
/// let settings = semblurick::Settings { vcpus: 2, ..semblurick::Settings::new(1) };
/// ```
/// ```compile_fail,E0004
/// fn follow(signal: semblurick::Signal) {
///     match signal {
///         semblurick::Signal::None | semblurick::Signal::Kick { .. } => {}
///         semblurick::Signal::Crash { .. } | semblurick::Signal::Resume { .. } => {}
///     }
/// }
/// ```
/// ```compile_fail,E0004
/// fn feed(feed: semblurick::Feed<'_>) {
///     match feed {
///         semblurick::Feed::None | semblurick::Feed::Supplied(_) => {}
///         semblurick::Feed::Page(_) | semblurick::Feed::PageAt { .. } => {}
///     }
/// }
/// ```
/// ```compile_fail,E0506
/// fn take(session: &mut semblurick::Session, message: &mut [u8], out: &mut [u8]) -> Result<usize, semblurick::Refusal> {
///     let answer = session.message(message, out, &mut [])?;
///     message[0] = 0;
///     Ok(answer.feed().bytes().map_or(0, <[u8]>::len))
/// }
/// ```
/// ```compile_fail,E0506
/// fn take(session: &mut semblurick::Session, out: &mut [u8], guest: &mut [u8]) -> Result<usize, semblurick::Refusal> {
///     let answer = session.message(&[], out, guest)?;
///     guest[0] = 0;
///     Ok(answer.feed().bytes().map_or(0, <[u8]>::len))
/// }
/// ```
/// ```compile_fail
/// #![deny(unused_must_use)]
/// fn take(session: &mut semblurick::Session, out: &mut [u8]) -> Result<(), semblurick::Refusal> {
///     session.message(&[], out, &mut [])?;
///     Ok(())
/// }
/// ```
/// ```compile_fail
/// #![deny(unused_must_use)]
/// fn take(session: &mut semblurick::Session, out: &mut [u8]) -> Result<(), semblurick::Refusal> {
///     session.batch(&[], out, &mut [0; 16], &mut [])?;
///     Ok(())
/// }
/// ```
/// ```compile_fail
/// #![deny(unused_must_use)]
/// fn enter(session: &mut semblurick::Session, out: &mut [u8]) -> Result<(), semblurick::Refusal> {
///     session.enter(0, &[], out)?;
///     Ok(())
/// }
/// ```
/// ```compile_fail
/// #![deny(unused_must_use)]
/// fn offer(session: &mut semblurick::Session, out: &mut [u8]) -> Result<(), semblurick::Refusal> {
///     session.enter_event(0, &[], semblurick::Event::Xsetbv, &[], out)?;
///     Ok(())
/// }
/// ```
/// ```
/// #![deny(unused_must_use)]
/// fn take(session: &mut semblurick::Session, out: &mut [u8]) -> Result<(), semblurick::Refusal> {
///     _ = session.message(&[], out, &mut [])?;
///     _ = session.batch(&[], out, &mut [0; 16], &mut [])?;
///     _ = session.enter(0, &[], out)?;
///     _ = session.enter_event(0, &[], semblurick::Event::Xsetbv, &[], out)?;
///     Ok(())
/// }
/// ```
#[cfg(doctest)]
struct Refused;
