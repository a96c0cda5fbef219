//! The table image: document 01, "The table image".
//!
//! "Each record begins with two mark bytes, ASCII; zero bytes must be zero."

use crate::standing::{Msr, Standing, PAGE_LIMIT, PAUSE_LIMIT};
use crate::wire::event::{self, bit};
use crate::wire::{u16_at, u32_at, u64_at};
use crate::{Answer, Settings};

// The records' marks and whole lengths.

/// "`VM`: version u16 = 1, vCPU count u16, VM event bits u16."
const VM: &[u8; 2] = b"VM";
const VM_SIZE: usize = 8;

/// "`VC`: vCPU u16, flags u8 (1 ready, 2 singlestep), CR bits u8 (1, 2, 4 for
/// CR0, CR3, CR4), event bits u16 (bit e for event e, as in VM), pauses u8,
/// zero u8."
const VC: &[u8; 2] = b"VC";
const VC_SIZE: usize = 10;
const READY: u8 = 1;
const SINGLESTEP: u8 = 2;

/// "`MS` (each MSR switch on): vCPU u16, MSR u32."
const MS: &[u8; 2] = b"MS";
const MS_SIZE: usize = 8;

/// "`PA` (each page below rwx): view u16, access u8, zero u8, page u64."
const PA: &[u8; 2] = b"PA";
const PA_SIZE: usize = 14;

/// "`EN`: u32 count of the records before it."
const EN: &[u8; 2] = b"EN";
const EN_SIZE: usize = 6;

const VERSION: u16 = 1;

/// "Page is below 2^52."
const PAGE_END: u64 = 1 << 52;

/// The length of this standing's image.
pub(crate) fn size(standing: &Standing) -> usize {
    VM_SIZE + VC_SIZE * standing.vcpus.len() + MS_SIZE * msr_count(standing) + PA_SIZE * standing.pages.len() + EN_SIZE
}

fn msr_count(standing: &Standing) -> usize {
    standing.vcpus.iter().map(|vcpu| vcpu.msrs.len()).sum()
}

/// Writes this standing's image into `out`, which is exactly as long.
///
/// "Order: one VM; one VC for every vCPU, ascending; MS by vCPU then MSR; PA by
/// view then page, never access 7, at most 1,024; EN, then nothing."
pub(crate) fn write(standing: &Standing, out: &mut [u8]) {
    let mut out = Output { left: out };

    let record = out.record::<VM_SIZE>(VM);
    record[2..4].copy_from_slice(&VERSION.to_le_bytes());
    record[4..6].copy_from_slice(&(standing.vcpus.len() as u16).to_le_bytes());
    record[6..8].copy_from_slice(&standing.vm_events.to_le_bytes());

    for (index, vcpu) in (0u16..).zip(&standing.vcpus) {
        let record = out.record::<VC_SIZE>(VC);
        record[2..4].copy_from_slice(&index.to_le_bytes());
        record[4] = flag(READY, vcpu.ready) | flag(SINGLESTEP, vcpu.singlestep);
        record[5] = vcpu.crs;
        record[6..8].copy_from_slice(&vcpu.events.to_le_bytes());
        record[8] = vcpu.pauses;
        record[9] = 0;
    }

    for (index, vcpu) in (0u16..).zip(&standing.vcpus) {
        for msr in vcpu.msrs.iter() {
            let record = out.record::<MS_SIZE>(MS);
            record[2..4].copy_from_slice(&index.to_le_bytes());
            record[4..8].copy_from_slice(&msr.to_le_bytes());
        }
    }

    for (view, page, access) in standing.pages.iter() {
        let record = out.record::<PA_SIZE>(PA);
        record[2..4].copy_from_slice(&view.to_le_bytes());
        record[4] = access;
        record[5] = 0;
        record[6..14].copy_from_slice(&page.to_le_bytes());
    }

    let before = 1 + standing.vcpus.len() + msr_count(standing) + standing.pages.len();
    let record = out.record::<EN_SIZE>(EN);
    record[2..6].copy_from_slice(&(before as u32).to_le_bytes());
}

/// A flag bit of a VC record.
fn flag(bit: u8, set: bool) -> u8 {
    if set {
        bit
    } else {
        0
    }
}

/// The part of the output that is not written yet.
struct Output<'a> {
    left: &'a mut [u8],
}

impl<'a> Output<'a> {
    /// The next record, its mark written.
    fn record<const SIZE: usize>(&mut self, mark: &[u8; 2]) -> &'a mut [u8; SIZE] {
        let left = std::mem::take(&mut self.left);
        let (record, left) = left.split_first_chunk_mut().expect("the output is as long as the image");
        self.left = left;
        record[..2].copy_from_slice(mark);
        record
    }
}

/// Reads an image under these settings: the standing it states, or answer 8 or
/// 9 at the first record that calls for one.
///
/// "A record is tested for form, then for answer 9 at its start".
pub(crate) fn read(settings: &Settings, image: &[u8]) -> Result<Standing, Answer> {
    let mut input = Input { image, start: 0, end: 0, records: 0 };
    let mut standing = Standing::fresh(settings.vcpus);

    let record = input.record::<VM_SIZE>(VM)?;
    let (version, count) = (u16_at(record, 2), u16_at(record, 4));
    let events = u16_at(record, 6);
    // "Another version, a vCPU count outside 1..16 [...] or an event bit that
    // message 5 (VM) [...] doesn't take break form."
    input.form(version == VERSION)?;
    input.form((1..=16).contains(&count))?;
    input.form(events & !event::VM == 0)?;
    // "vCPU count unlike the settings' [...] event not allowed"
    input.allowed(u32::from(count) == settings.vcpus)?;
    input.allowed(settings.allows_events(events))?;
    standing.vm_events = events;

    for (index, vcpu) in (0u16..).zip(&mut standing.vcpus) {
        let record = input.record::<VC_SIZE>(VC)?;
        let [flags, crs, pauses, zero] = [record[4], record[5], record[8], record[9]];
        let events = u16_at(record, 6);
        // "one VC for every vCPU, ascending"
        input.form(u16_at(record, 2) == index)?;
        // "pauses above 8, a flag or CR bit not named [...] or an event bit
        // that message [...] 10 (VC) doesn't take"
        input.form(flags & !(READY | SINGLESTEP) == 0)?;
        input.form(crs & !7 == 0)?;
        input.form(events & !event::VCPU == 0)?;
        input.form(pauses <= PAUSE_LIMIT)?;
        input.form(zero == 0)?;
        // "An unready vCPU has only zeros and no MS."
        let ready = flags & READY != 0;
        let only_zeros = flags == 0 && crs == 0 && events == 0 && pauses == 0;
        input.form(ready || only_zeros)?;
        // "event not allowed, pauses without event 2 allowed, event 4 held by
        // the host, event 8 or singlestep not supported"
        let pause_allowed = settings.allows_events(bit(event::PAUSE_VCPU));
        let breakpoints = events & bit(event::BREAKPOINT) != 0;
        let descriptors = events & bit(event::DESCRIPTOR) != 0;
        let singlestep = flags & SINGLESTEP != 0;
        input.allowed(settings.allows_events(events))?;
        input.allowed(pauses == 0 || pause_allowed)?;
        input.allowed(!breakpoints || !settings.breakpoints)?;
        input.allowed(!descriptors || settings.descriptors)?;
        input.allowed(!singlestep || settings.singlestep())?;
        vcpu.ready = ready;
        vcpu.singlestep = singlestep;
        vcpu.crs = crs;
        vcpu.events = events;
        vcpu.pauses = pauses;
    }

    // "MS by vCPU then MSR [...] No pair twice."
    let mut last = None;
    while input.next_is(MS) {
        let record = input.record::<MS_SIZE>(MS)?;
        let (index, number) = (u16_at(record, 2), u32_at(record, 4));
        // "a vCPU not below it" breaks form, and an unready vCPU has no MS.
        let vcpu = standing.vcpus.get_mut(usize::from(index)).filter(|vcpu| vcpu.ready).ok_or(input.bad_form())?;
        let msr = Msr::new(number).ok_or(input.bad_form())?;
        input.form(last < Some((index, number)))?;
        vcpu.msrs.set(msr, true);
        last = Some((index, number));
    }

    // "PA by view then page, never access 7, at most 1,024 [...] No pair
    // twice."
    let mut last = None;
    while input.next_is(PA) {
        let record = input.record::<PA_SIZE>(PA)?;
        let (view, page) = (u16_at(record, 2), u64_at(record, 6));
        let [access, zero] = [record[4], record[5]];
        input.form(standing.pages.len() < PAGE_LIMIT)?;
        // "a view above 7 [...] an access other than 0, 1, 3, 4, 5"
        input.form(view <= 7)?;
        input.form(matches!(access, 0 | 1 | 3 | 4 | 5))?;
        input.form(zero == 0)?;
        input.form(page < PAGE_END)?;
        input.form(last < Some((view, page)))?;
        // "view not below theirs"
        input.allowed(u32::from(view) < settings.views)?;
        // Document 02, W2: "access 4 without the flag is [...] answer 9 in a PA
        // record".
        input.allowed(settings.has_access(access))?;
        standing.pages.set(view, page, access);
        last = Some((view, page));
    }

    let before = input.records;
    let record = input.record::<EN_SIZE>(EN)?;
    input.form(u32_at(record, 2) as usize == before)?;
    // "EN, then nothing": "the byte after EN, if any follow".
    if input.end != image.len() {
        return Err(Answer::BadForm { offset: input.end });
    }
    Ok(standing)
}

/// An image on its way through the reader.
struct Input<'a> {
    image: &'a [u8],
    /// Where the record last taken begins and ends.
    start: usize,
    end: usize,
    /// How many records were taken.
    records: usize,
}

impl<'a> Input<'a> {
    /// Whether the next record has this mark.
    fn next_is(&self, mark: &[u8; 2]) -> bool {
        self.image[self.end..].starts_with(mark)
    }

    /// Takes the next record, which has to have this mark and to be whole.
    ///
    /// "Form fails at the start of the first record that breaks a rule or is
    /// cut (the length, if EN is missing [...])": with no record left, the
    /// start is the length.
    fn record<const SIZE: usize>(&mut self, mark: &[u8; 2]) -> Result<&'a [u8; SIZE], Answer> {
        self.start = self.end;
        self.form(self.next_is(mark))?;
        let record = self.image[self.start..].first_chunk().ok_or(self.bad_form())?;
        self.end += SIZE;
        self.records += 1;
        Ok(record)
    }

    /// Answer 8 for the record last taken unless this holds.
    fn form(&self, holds: bool) -> Result<(), Answer> {
        if holds {
            Ok(())
        } else {
            Err(self.bad_form())
        }
    }

    fn bad_form(&self) -> Answer {
        Answer::BadForm { offset: self.start }
    }

    /// Answer 9 for the record last taken unless this holds.
    fn allowed(&self, holds: bool) -> Result<(), Answer> {
        if holds {
            Ok(())
        } else {
            Err(Answer::Forbidden { offset: self.start })
        }
    }
}
