//! Images: made, and mutated or cut.

use crate::message::{accesses, msr};
use crate::{Random, Settings};

/// The events that messages 5 and 10 take, as bits.
const VM_EVENTS: u16 = 0x1002;
const VCPU_EVENTS: u16 = 0x4FB8;

/// An image that these settings take.
pub fn made(random: &mut Random, settings: &Settings) -> Vec<u8> {
    let allowed = settings.events as u16;
    let mut image = vm(settings.vcpus as u16, random.word() as u16 & VM_EVENTS & allowed);
    let ready: Vec<bool> = (0..settings.vcpus).map(|_| random.percent(80)).collect();
    for (vcpu, &ready) in ready.iter().enumerate() {
        let mut record = vc(vcpu as u16);
        if ready {
            let mut events = random.word() as u16 & VCPU_EVENTS & allowed;
            if settings.breakpoints {
                events &= !(1 << 4);
            }
            if !settings.descriptors {
                events &= !(1 << 8);
            }
            record[4] = 1 | if settings.features[0] != 0 { random.pick(&[0, 2]) } else { 0 };
            record[5] = random.below(8) as u8;
            record[6..8].copy_from_slice(&events.to_le_bytes());
            record[8] = if allowed >> 2 & 1 == 1 { random.pick(&[0, 0, 1, 7, 8]) } else { 0 };
        }
        image.extend(record);
    }
    for vcpu in (0..).zip(&ready).filter(|(_, ready)| **ready).map(|(vcpu, _)| vcpu) {
        let count = match random.below(60) {
            0 => 200,
            1..30 => random.below(5),
            _ => 0,
        };
        let mut msrs: Vec<u32> = (0..count).map(|_| msr(random, 0)).collect();
        msrs.sort();
        msrs.dedup();
        msrs.iter().for_each(|msr| image.extend(ms(vcpu, *msr)));
    }
    let count = match random.below(40) {
        0 => random.pick(&[1020, 1023, 1024, 1024]),
        1 => 1 + random.below(1023),
        2..12 => 0,
        _ => 1 + random.below(12),
    };
    pages(random, settings, count, &mut image);
    finish(&mut image);
    image
}

/// An image with so many pages, and no vCPU but the ready ones.
pub fn full(random: &mut Random, settings: &Settings, count: u64) -> Vec<u8> {
    let mut image = vm(settings.vcpus as u16, 0);
    for vcpu in 0..settings.vcpus {
        let mut record = vc(vcpu as u16);
        record[4] = 1;
        image.extend(record);
    }
    pages(random, settings, count, &mut image);
    finish(&mut image);
    image
}

/// The longest image: every switch on, every page in use. These settings have all.
pub fn longest(random: &mut Random, settings: &Settings) -> Vec<u8> {
    let mut image = vm(16, VM_EVENTS);
    for vcpu in 0..16 {
        let mut record = vc(vcpu);
        record[4..9].copy_from_slice(&[3, 7, VCPU_EVENTS as u8, (VCPU_EVENTS >> 8) as u8, 8]);
        image.extend(record);
    }
    for vcpu in 0..16 {
        let msrs = (0..0x2000).chain(0xC000_0000..0xC000_2000);
        msrs.for_each(|msr| image.extend(ms(vcpu, msr)));
    }
    pages(random, settings, 1024, &mut image);
    finish(&mut image);
    image
}

/// So many pages that these settings take, near each other or far.
fn pages(random: &mut Random, settings: &Settings, count: u64, image: &mut Vec<u8>) {
    let base = random.pick(&[0, 5, 1 << 20, (1 << 32) - 50, 1 << 51, (1 << 52) - 3000]);
    let mut pages = std::collections::BTreeSet::new();
    while (pages.len() as u64) < count {
        let page = match random.below(12) {
            0 => random.word() >> 12,
            1 => random.pick(&[0, (1 << 52) - 1, 1 << 51]),
            _ => base + random.below(3000),
        };
        pages.insert((random.below(settings.views.into()) as u16, page));
    }
    let accesses = accesses(settings);
    pages.iter().for_each(|&(view, page)| image.extend(pa(view, random.pick(accesses), page)));
}

fn vm(vcpus: u16, events: u16) -> Vec<u8> {
    [*b"VM", [1, 0], vcpus.to_le_bytes(), events.to_le_bytes()].concat()
}

fn vc(vcpu: u16) -> [u8; 10] {
    let [low, high] = vcpu.to_le_bytes();
    [b'V', b'C', low, high, 0, 0, 0, 0, 0, 0]
}

fn ms(vcpu: u16, msr: u32) -> Vec<u8> {
    [&b"MS"[..], &vcpu.to_le_bytes(), &msr.to_le_bytes()].concat()
}

fn pa(view: u16, access: u8, page: u64) -> Vec<u8> {
    [&b"PA"[..], &view.to_le_bytes(), &[access, 0], &page.to_le_bytes()].concat()
}

/// Appends EN.
fn finish(image: &mut Vec<u8>) {
    let count = starts(image).len() as u32;
    image.extend(b"EN");
    image.extend(count.to_le_bytes());
}

/// Where each record begins, as far as the marks are known and the records whole.
pub fn starts(image: &[u8]) -> Vec<usize> {
    let mut starts = Vec::new();
    let mut at = 0;
    while let Some(mark) = image.get(at..at + 2) {
        let size = match mark {
            b"VM" | b"MS" => 8,
            b"VC" => 10,
            b"PA" => 14,
            b"EN" => 6,
            _ => break,
        };
        if image.len() < at + size {
            break;
        }
        starts.push(at);
        at += size;
    }
    starts
}

/// Where the record that begins at `starts[index]` ends.
fn end(image: &[u8], starts: &[usize], index: usize) -> usize {
    starts.get(index + 1).copied().unwrap_or(image.len())
}

/// Where the count of the first EN stands, and what it should be.
fn count(image: &[u8]) -> Option<(usize, [u8; 4])> {
    let (before, end) = (0u32..).zip(starts(image)).find(|(_, start)| image[*start..].starts_with(b"EN"))?;
    Some((end + 2, before.to_le_bytes()))
}

/// Makes the count of the first EN right.
pub fn count_again(image: &mut [u8]) {
    if let Some((at, count)) = count(image) {
        image[at..at + 4].copy_from_slice(&count);
    }
}

/// Whether the first EN's count is right.
pub fn is_counted(image: &[u8]) -> bool {
    count(image).is_some_and(|(at, count)| image[at..at + 4] == count)
}

/// The image without the vCPUs from this one on.
pub fn with_vcpus(image: &[u8], vcpus: u16) -> Vec<u8> {
    let mut bounds = starts(image);
    bounds.push(image.len());
    let mut rest = Vec::with_capacity(image.len());
    for bound in bounds.windows(2) {
        let record = &image[bound[0]..bound[1]];
        match record {
            [b'V', b'M', ..] => rest.extend([&record[..4], &vcpus.to_le_bytes(), &record[6..]].concat()),
            [b'V', b'C', low, high, ..] | [b'M', b'S', low, high, ..] if u16::from_le_bytes([*low, *high]) >= vcpus => {}
            _ => rest.extend(record),
        }
    }
    if is_counted(image) {
        count_again(&mut rest);
    }
    rest
}

/// Where each page's record begins, as far as the records are whole.
pub fn page_starts(image: &[u8]) -> Vec<usize> {
    starts(image).into_iter().filter(|start| image[*start..].starts_with(b"PA")).collect()
}

/// The image with 5 in the place of each access 4.
pub fn readable(image: &[u8]) -> Vec<u8> {
    let mut image = image.to_vec();
    for start in page_starts(&image) {
        if image[start + 4] == 4 {
            image[start + 4] = 5;
        }
    }
    image
}

/// An image that these settings take, but for access 4 of one page, of some or of all; it may be at fault too, in one of these
/// records or elsewhere.
pub fn executing(random: &mut Random, image: &[u8], settings: &Settings) -> Vec<u8> {
    let mut image = image.to_vec();
    if random.one_in(30) {
        // one page too many
        image = readable(&full(random, settings, 1025));
        let last = image.len() - 6 - 14;
        image[last + 4] = 4;
        return image;
    }
    if page_starts(&image).is_empty() {
        image.truncate(image.len() - 6);
        let count = 1 + random.below(6);
        pages(random, settings, count, &mut image);
        finish(&mut image);
    }
    let Some(start) = execute(random, &mut image) else { return image };
    match random.below(16) {
        0 => image[start + 5] = 1 << random.below(8),
        1 => image[start + 6..start + 14].copy_from_slice(&random.pick(&[1u64 << 52, 1 << 63, u64::MAX]).to_le_bytes()),
        2 => image[start + 2..start + 4].copy_from_slice(&random.pick(&[8u16, 9, 0x100, 0xFFFF]).to_le_bytes()),
        // a view that the settings lack
        3 | 4 => {
            let view = u64::from(settings.views) + random.below(u64::from(9 - settings.views));
            image[start + 2..start + 4].copy_from_slice(&(view.min(7) as u16).to_le_bytes());
        }
        // the view and the page of the record before
        5 if start >= 14 && image[start - 14..].starts_with(b"PA") => {
            image.copy_within(start - 12..start - 10, start + 2);
            image.copy_within(start - 8..start, start + 6);
        }
        // cut behind its access
        6 => image.truncate(start + 5 + random.index(9)),
        7..10 => mutate(random, &mut image, settings),
        _ => {}
    }
    image
}

/// Gives access 4 to one page, some or all; tells where the record of one of them begins.
fn execute(random: &mut Random, image: &mut [u8]) -> Option<usize> {
    let starts = page_starts(image);
    let one = match random.below(4) {
        0 => *starts.last()?,
        _ => random.pick(starts.get(..).filter(|starts| !starts.is_empty())?),
    };
    let share = random.pick(&[0, 0, 30, 100]);
    for start in starts {
        if start == one || random.percent(share) {
            image[start + 4] = 4;
        }
    }
    Some(one)
}

/// A mutated image: records edited, swapped, doubled, dropped, added; bytes flipped, cut or appended; sometimes as it was.
pub fn mutated(random: &mut Random, image: &[u8], settings: &Settings) -> Vec<u8> {
    let mut image = image.to_vec();
    let times = random.pick(&[1, 1, 1, 1, 2, 3]);
    for _ in 0..times {
        mutate(random, &mut image, settings);
    }
    image
}

fn mutate(random: &mut Random, image: &mut Vec<u8>, settings: &Settings) {
    let starts = starts(image);
    if starts.is_empty() {
        *image = made(random, settings);
        return;
    }
    let index = chosen(random, image, &starts);
    let (start, stop) = (starts[index], end(image, &starts, index));
    match random.weighted(&[8, 10, 6, 5, 8, 8, 10, 30, 12, 8, 6, 1]) {
        // as it was
        0 => {}
        // cut, often at a record's start or next to it
        1 => {
            let length = image.len() as u64;
            let at = match random.below(3) {
                0 => random.below(length + 1),
                1 => (start as u64 + random.below(4)).saturating_sub(1),
                _ => length - random.below(15).min(length),
            };
            image.truncate(at as usize);
        }
        2 => {
            let more = match random.below(5) {
                0 => vec![0],
                1 => b"EN".to_vec(),
                2 => image[image.len().saturating_sub(6)..].to_vec(),
                3 => vec![b'E'],
                _ => {
                    let more = 1 + random.index(20);
                    random.bytes(more)
                }
            };
            image.extend(more);
        }
        // EN's count
        3 => {
            if let Some(&last) = starts.last().filter(|last| image[**last..].starts_with(b"EN")) {
                let count = starts.len() as u32 - 1;
                let count = random.pick(&[
                    count + 1,
                    count.wrapping_sub(1),
                    0,
                    count + 0x100,
                    count + 0x1_0000,
                    count | 1 << 31,
                    u32::MAX,
                ]);
                image[last + 2..last + 6].copy_from_slice(&count.to_le_bytes());
            }
        }
        // dropped
        4 => {
            image.drain(start..stop);
            mostly_count_again(random, image);
        }
        // doubled
        5 => {
            let record = image[start..stop].to_vec();
            image.splice(start..start, record);
            mostly_count_again(random, image);
        }
        // swapped with the next, or with any other
        6 => {
            let other = match random.below(3) {
                0 => chosen(random, image, &starts),
                _ => (index + 1).min(starts.len() - 1),
            };
            let (first, second) = (index.min(other), index.max(other));
            if first != second {
                let moved = image[starts[first]..end(image, &starts, first)].to_vec();
                let other = image[starts[second]..end(image, &starts, second)].to_vec();
                image.splice(starts[second]..end(image, &starts, second), moved);
                image.splice(starts[first]..starts[first + 1], other);
            }
        }
        7 => edit(random, image, start, settings),
        8 => {
            add(random, image, &starts, settings);
            mostly_count_again(random, image);
        }
        9 => {
            for _ in 0..random.pick(&[1, 1, 2, 5]) {
                let at = random.index(image.len());
                image[at] = match random.below(3) {
                    0 => random.word() as u8,
                    1 => image[at].wrapping_add(1),
                    _ => image[at] ^ 1 << random.below(8),
                };
            }
        }
        10 => {
            execute(random, image);
        }
        _ => {
            let length = random.index(40);
            *image = random.bytes(length);
        }
    }
}

fn mostly_count_again(random: &mut Random, image: &mut [u8]) {
    if random.percent(80) {
        count_again(image);
    }
}

/// One of the records: any, or the first or last with some mark, or the one after it.
fn chosen(random: &mut Random, image: &[u8], starts: &[usize]) -> usize {
    let any = random.index(starts.len());
    if random.one_in(2) {
        return any;
    }
    let mark = random.pick(&[b"VM", b"VC", b"MS", b"PA", b"EN"]);
    let mut marked = starts.iter().enumerate().filter(|(_, start)| image[**start..].starts_with(mark)).map(|(index, _)| index);
    match random.below(3) {
        0 => marked.next().unwrap_or(any),
        1 => marked.next_back().unwrap_or(any),
        _ => marked.next_back().map_or(any, |index| (index + 1).min(starts.len() - 1)),
    }
}

/// Changes one field of a record, mostly to a value at the edge of a rule.
fn edit(random: &mut Random, image: &mut [u8], start: usize, settings: &Settings) {
    let (before, record) = image.split_at_mut(start);
    let put = |record: &mut [u8], at: usize, bytes: &[u8]| record[at..at + bytes.len()].copy_from_slice(bytes);
    let vcpus = settings.vcpus as u16;
    match &record[..2] {
        b"VM" => match random.below(4) {
            0 => put(record, 2, &random.pick(&[0u16, 2, 0x100, 0x101, 0xFFFF]).to_le_bytes()),
            1 => put(record, 4, &random.pick(&[0, 1, 2, 16, 17, vcpus + 1, vcpus - 1, vcpus | 0x100, 0xFFFF]).to_le_bytes()),
            2 => put(record, 6, &random.pick(&[0, 2, 0x1000, VM_EVENTS]).to_le_bytes()),
            _ => record[6 + random.index(2)] ^= 1 << random.below(8),
        },
        b"VC" => match random.below(7) {
            0 => put(record, 2, &random.pick(&[0, 1, vcpus, vcpus - 1, 15, 16, 0x100, 0xFFFF]).to_le_bytes()),
            1 => record[4] = random.pick(&[0, 1, 2, 3, 4, 5, 7, 0x81]),
            2 => record[5] = random.pick(&[0, 1, 7, 8, 9, 0x80, 0xFF]),
            3 => record[6 + random.index(2)] ^= 1 << random.below(8),
            4 => {
                record[4] |= 1;
                put(record, 6, &(random.word() as u16 & VCPU_EVENTS).to_le_bytes());
            }
            5 => record[8] = random.pick(&[0, 1, 7, 8, 9, 0x80, 0xFF]),
            _ => record[9] = random.pick(&[1, 0x80, 0xFF]),
        },
        b"MS" => match random.below(4) {
            0 => put(record, 2, &random.pick(&[0, 1, vcpus, vcpus - 1, 16, 0x100, 0xFFFF]).to_le_bytes()),
            1 => put(record, 4, &msr(random, 1).to_le_bytes()),
            2 => put(record, 4, &msr(random, 0).to_le_bytes()),
            _ => put(record, 4, &near(random, before, b"MS", 4, 4)[..4]),
        },
        b"PA" => match random.below(6) {
            0 => put(record, 2, &random.pick(&[0, 1, settings.views as u16, 7, 8, 0x100, 0x8000, 0xFFFF]).to_le_bytes()),
            1 => record[4] = random.pick(&[0, 1, 2, 3, 4, 4, 5, 6, 7, 8, 12, 0x81, 0x84, 0xFF]),
            2 => record[5] = random.pick(&[1, 0x80, 0xFF]),
            3 => put(record, 6, &random.pick(&[0u64, 1, (1 << 52) - 1, 1 << 52, 1 << 63, u64::MAX]).to_le_bytes()),
            4 => put(record, 6, &(random.word() >> 12).to_le_bytes()),
            _ => put(record, 6, &near(random, before, b"PA", 6, 8)),
        },
        _ => {
            // EN, or a mark
            let at = random.index(2);
            record[at] = random.pick(b"VMCSPAEN\0");
        }
    }
}

/// The number in the record before, or one more or less: at the edge of order.
fn near(random: &mut Random, before: &[u8], mark: &[u8; 2], at: usize, size: usize) -> [u8; 8] {
    let mut number = [0; 8];
    let start = before.len().wrapping_sub(at + size);
    if let Some(record) = before.get(start..).filter(|record| record.starts_with(mark)) {
        number[..size].copy_from_slice(&record[at..]);
    }
    let number = u64::from_le_bytes(number);
    random.pick(&[number, number, number.wrapping_add(1), number.wrapping_sub(1)]).to_le_bytes()
}

/// Adds a record, mostly where its kind may stand.
fn add(random: &mut Random, image: &mut Vec<u8>, starts: &[usize], settings: &Settings) {
    let first = |mark: &[&[u8]]| starts.iter().copied().find(|start| mark.iter().any(|mark| image[*start..].starts_with(mark)));
    let any = starts[random.index(starts.len())];
    let (record, at) = match random.below(8) {
        0 => (vm(settings.vcpus as u16, 0), any),
        1 => (vc(random.pick(&[0, settings.vcpus as u16, 15, 16])).to_vec(), first(&[b"MS", b"PA", b"EN"]).unwrap_or(any)),
        2 | 3 => {
            let vcpu = random.below(u64::from(settings.vcpus) + 1) as u16;
            (ms(vcpu, msr(random, 8)), first(&[b"PA", b"EN"]).unwrap_or(any))
        }
        4 | 5 => {
            let view = random.below(u64::from(settings.views) + 2) as u16;
            (pa(view, random.pick(&[0, 1, 3, 4, 5, 7]), (1 << 52) - random.below(3)), first(&[b"EN"]).unwrap_or(any))
        }
        6 => (b"EN\x01\0\0\0".to_vec(), any),
        _ => {
            let record = match random.below(2) {
                0 => ms(random.below(settings.vcpus.into()) as u16, msr(random, 0)),
                _ => pa(random.below(settings.views.into()) as u16, 1, random.below(3000)),
            };
            (record, any)
        }
    };
    image.splice(at..at, record);
}
