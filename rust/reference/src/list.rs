//! vCPU records in a list that the host lends.
//!
//! Document 01, "Settings, and a session's standing": "Marking a vCPU ready and
//! the CR switch are also offered where the vCPU records are a list that the
//! host lends; an index at or past its length is answered 4, then 14 is
//! tested."

use crate::standing::cr_bit;
use crate::Answer;

/// A record: document 01 has its fields, and the interface their widths.
#[derive(Clone, Copy, Debug, Default, PartialEq, Eq)]
pub struct Record {
    /// Not 0: ready.
    pub ready: u64,
    /// Not 0: single-stepped.
    pub singlestep: u64,
    /// "1, 2, 4 for CR0, CR3, CR4".
    pub crs: u64,
    /// "bit e for event e".
    pub events: u64,
    pub pauses: u64,
    /// The event whose reply is awaited, 0 for none, and its seq.
    pub awaited: u64,
    pub awaited_seq: u64,
}

/// Marks the vCPU at an index ready. Answer 4, or 0: 14 is not for this call.
pub fn ready(records: &mut [Record], index: usize) -> Answer {
    let Some(record) = records.get_mut(index) else {
        return Answer::BadVcpu;
    };
    record.ready = 1;
    Answer::handled(0)
}

/// Sets the CR switch of the vCPU at an index. Answer 4, then "14 not
/// applicable [...]: CR not 0, 3, 4, or the record is not ready", or 0.
pub fn set_cr(records: &mut [Record], index: usize, cr: u32, on: bool) -> Answer {
    let Some(record) = records.get_mut(index) else {
        return Answer::BadVcpu;
    };
    let Some(bit) = cr_bit(cr).filter(|_| record.ready != 0) else {
        return Answer::NotApplicable;
    };
    match on {
        true => record.crs |= u64::from(bit),
        false => record.crs &= !u64::from(bit),
    }
    Answer::handled(0)
}
