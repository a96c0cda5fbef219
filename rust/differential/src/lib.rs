//! Differential tests: the proved filter and the plain implementation of document 01 take the same calls, and everything that
//! can be seen of them is compared.
//!
//! * [`Call`] is one call, with a text form that can be replayed;
//! * [`Runner`] makes calls on both sides and compares answers, outputs, guest memory and images, and what lookups tell;
//! * [`look`] has the lookups that are asked between calls;
//! * [`settings`], [`guide`], [`batch`], [`event`], [`fault`], [`limit`], [`image`] and [`list`] make settings, calls, writes of several
//!   messages, entries with their events, page faults with what feeds their instructions, messages for tables with little room or none,
//!   images and lists of records, good and damaged;
//! * [`shrink`] makes a failing list of calls short;
//! * [`drive`] does all this for a seed, and [`Counts`] says what was seen.

#![forbid(unsafe_code)]

mod access_counts;
pub mod batch;
mod batch_counts;
mod call;
mod counts;
pub mod drive;
pub mod event;
mod event_counts;
pub mod fault;
mod fault_counts;
mod filter;
pub mod guide;
pub mod image;
pub mod limit;
pub mod list;
pub mod look;
mod message;
mod padding_counts;
mod random;
mod revision_counts;
mod run;
pub mod settings;
pub mod shrink;

pub use call::{parse, Call, BATCH_ROOM, GUEST_ROOM, LIST_ROOM, OUT_ROOM, STATE_ROOM};
pub use counts::{Counts, CODES};
pub use filter::{handled, padding_of, told_error, with_padding, Filter, Plain, Proved};
pub use look::{Lookup, Told};
pub use random::Random;
pub use reference::list::Record;
pub use reference::{Action, Answer, Batch, Feed, Settings, Signal};
pub use run::{run, Mismatch, Runner};
