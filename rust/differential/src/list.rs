//! Lists of vCPU records, and the calls on them.

use crate::call::record_of;
use crate::{Call, Random, Record};

/// A record of any bits; its ready mark is set about half of the time.
fn record(random: &mut Random) -> Record {
    let mut record = record_of([(); 7].map(|()| match random.below(3) {
        0 => random.pick(&[0, 1, 7, 1 << 32, 1 << 63, u64::MAX]),
        _ => random.word(),
    }));
    if random.percent(45) {
        record.ready = 0;
    }
    record
}

/// A call on a list of 0 to 20 records.
pub fn call(random: &mut Random) -> Call {
    let length = random.below(21);
    let records = (0..length).map(|_| record(random)).collect();
    let index = match random.below(12) {
        0 => length,
        1 => random.pick(&[length + 1, 16, 20, 21, 255, 1 << 32, (1 << 32) + length / 2, u64::MAX, u64::MAX / 56 + 1]),
        2 => length.saturating_sub(1),
        _ => random.below(length.max(1)),
    };
    if random.one_in(3) {
        return Call::ListReady { records, index };
    }
    let cr = match random.below(4) {
        0 => random.below(9) as u32,
        1 => random.pick(&[0x100, 0x103, 0x1_0004, 1 << 31, 1 << 31 | 3, u32::MAX, 32, 35]),
        _ => random.pick(&[0, 3, 4]),
    };
    Call::ListCr { records, index, cr, on: random.one_in(2) }
}
