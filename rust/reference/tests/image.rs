//! Document 01, "The table image".

mod common;

use common::*;
use reference::{Answer, Session, Settings};

fn vm(version: u16, count: u16, events: u16) -> Vec<u8> {
    let numbers = [version, count, events].map(u16::to_le_bytes);
    [b"VM", &numbers.concat()[..]].concat()
}

fn vc(vcpu: u16, flags: u8, crs: u8, events: u16, pauses: u8) -> Vec<u8> {
    let (vcpu, events) = (vcpu.to_le_bytes(), events.to_le_bytes());
    [b"VC", &vcpu[..], &[flags, crs], &events, &[pauses, 0]].concat()
}

fn ms(vcpu: u16, msr: u32) -> Vec<u8> {
    [b"MS", &vcpu.to_le_bytes()[..], &msr.to_le_bytes()].concat()
}

fn pa(view: u16, access: u8, page: u64) -> Vec<u8> {
    let view = view.to_le_bytes();
    [b"PA", &view[..], &[access, 0], &page.to_le_bytes()].concat()
}

fn en(count: u32) -> Vec<u8> {
    [b"EN", &count.to_le_bytes()[..]].concat()
}

/// Two vCPUs, vCPU 1 alone ready, with something of each kind.
fn rich() -> Vec<Vec<u8>> {
    vec![
        vm(1, 2, 0x1002),
        vc(0, 0, 0, 0, 0),
        vc(1, 3, 7, 0b0100_1111_1011_1000, 8),
        ms(1, 0),
        ms(1, 0x1FFF),
        ms(1, 0xC000_0000),
        ms(1, 0xC000_1FFF),
        pa(0, 0, 0),
        pa(0, 5, (1 << 52) - 1),
        pa(1, 4, 0),
        pa(7, 3, 1),
        pa(7, 1, 0x1_0000_0000),
        en(12),
    ]
}

fn wide() -> Settings {
    Settings { views: 8, ..settings() }
}

fn load(settings: &Settings, image: &[u8]) -> Result<Bench, Answer> {
    Session::read_image(settings.clone(), image).map(|session| Bench { session, guest: vec![0; 4 * 4096] })
}

/// The answer that refuses these records.
fn refused(settings: &Settings, records: &[Vec<u8>]) -> Answer {
    load(settings, &records.concat()).err().expect("refused")
}

fn accepted(settings: &Settings, records: &[Vec<u8>]) {
    let image = records.concat();
    let bench = load(settings, &image).unwrap_or_else(|answer| panic!("{answer:?}"));
    assert_eq!(bench.image(), image);
}

fn bad_form(offset: usize) -> Answer {
    Answer::BadForm { offset }
}

fn forbidden(offset: usize) -> Answer {
    Answer::Forbidden { offset }
}

/// Where a record begins.
fn start(records: &[Vec<u8>], index: usize) -> usize {
    records[..index].iter().map(Vec::len).sum()
}

/// `rich` with the record at the index replaced.
fn with(index: usize, record: Vec<u8>) -> Vec<Vec<u8>> {
    let mut records = rich();
    records[index] = record;
    records
}

#[test]
fn accepted_images_are_written_again() {
    accepted(&wide(), &rich());
    accepted(&settings(), &[vm(1, 2, 0), vc(0, 0, 0, 0, 0), vc(1, 0, 0, 0, 0), en(3)]);
    accepted(&settings(), &[vm(1, 2, 0), vc(0, 1, 0, 0, 0), vc(1, 1, 0, 0, 0), en(3)]);
    let settings = Settings { vcpus: 16, ..settings() };
    let mut records = vec![vm(1, 16, 2)];
    records.extend((0..16).map(|vcpu| vc(vcpu, 1, 0, 0, vcpu as u8 / 2)));
    records.extend((0..16).map(|vcpu| ms(vcpu, 15 - u32::from(vcpu))));
    records.extend((0..1024).map(|page| pa(0, 1, page * page)));
    records.push(en(17 + 16 + 1024));
    accepted(&settings, &records);
}

/// A loaded session has the standing, replies on and seq 0.
#[test]
fn loaded_sessions() {
    let mut bench = load(&wide(), &rich().concat()).unwrap();
    assert!(!bench.session.is_closed());
    assert_eq!(bench.error(&vcpu_info(0)), EAGAIN);
    assert_eq!(bench.error(&vcpu_info(1)), 0);
    assert_eq!(bench.error(&pause(1, 0)), EBUSY);
    let (answer, event) = bench.enter(1, &[9; 536]);
    assert_eq!(answer, handled(552));
    assert_eq!(event[..16], hex("1100200200000000 2002010002000000"));
    bench.ok(&pause(1, 0));
    assert_eq!(bench.send(&event_reply(0, 1, 0, 2)).0, handled(0));
    assert_eq!(bench.image(), rich().concat());
    // Everything that it states can be taken back.
    bench.ok(&vm_event(1, 0));
    bench.ok(&vm_event(12, 0));
    for event in [3, 4, 5, 7, 8, 9, 10, 11, 14] {
        bench.ok(&vcpu_event(1, event, 0));
    }
    for cr in [0, 3, 4] {
        bench.ok(&control_cr(1, cr, 0));
    }
    for msr in [0, 0x1FFF, 0xC000_0000, 0xC000_1FFF] {
        bench.ok(&control_msr(1, msr, 0));
    }
    bench.ok(&singlestep(1, 0));
    bench.ok(&page_access(0, &[(0, 7), (u64::MAX, 7)]));
    bench.ok(&page_access(1, &[(0, 7)]));
    bench.ok(&page_access(7, &[(0x1000, 7), (1 << 44, 7)]));
    let records = [vm(1, 2, 0), vc(0, 0, 0, 0, 0), vc(1, 1, 0, 0, 8), en(3)];
    assert_eq!(bench.image(), records.concat());
}

/// The page limit counts the pages loaded.
#[test]
fn loaded_pages_count() {
    let mut records = vec![vm(1, 2, 0), vc(0, 0, 0, 0, 0), vc(1, 0, 0, 0, 0)];
    records.extend((0..1024).map(|page| pa((page / 128) as u16, 0, page)));
    records.push(en(1027));
    let bench = load(&wide(), &records.concat()).unwrap();
    assert_eq!(bench.would(&page_access(0, &[(1024 << 12, 0)])), ENOMEM);
    // The 1,025th breaks form, though its view is also one that is lacking.
    records.pop();
    let end = start(&records, records.len());
    records.push(pa(7, 0, 5000));
    records.push(en(1028));
    assert_eq!(refused(&wide(), &records), bad_form(end));
    let fewer = Settings { views: 1, ..settings() };
    for page in 0..1024 {
        records[3 + page] = pa(0, 0, page as u64);
    }
    assert_eq!(refused(&fewer, &records), bad_form(end));
    records.remove(1026);
    assert_eq!(refused(&fewer, &records), forbidden(end - 14));
}

/// Every cut fails at the start of the record that is cut, or at the length.
#[test]
fn cut_images() {
    for records in [rich(), vec![vm(1, 2, 0), vc(0, 0, 0, 0, 0), vc(1, 0, 0, 0, 0), en(3)]] {
        let image = records.concat();
        let mut starts: Vec<usize> = (0..records.len()).map(|index| start(&records, index)).collect();
        starts.push(image.len());
        for length in 0..image.len() {
            let offset = *starts.iter().rev().find(|&&at| at <= length).unwrap();
            let answer = load(&wide(), &image[..length]).err();
            assert_eq!(answer, Some(bad_form(offset)), "cut to {length}");
        }
        for tail in [vec![0], vec![b'E'], en(4), vm(1, 2, 0), pa(7, 1, 1 << 40)] {
            let longer = [&image[..], &tail].concat();
            let answer = load(&wide(), &longer).err();
            assert_eq!(answer, Some(bad_form(image.len())));
        }
    }
}

/// A cut record is not tested for answer 9.
#[test]
fn cut_before_forbidden() {
    let forbidding = Settings { vcpus: 3, ..settings() };
    let image = rich().concat();
    for length in 0..8 {
        let answer = load(&forbidding, &image[..length]).err();
        assert_eq!(answer, Some(bad_form(0)));
    }
    for length in 8..image.len() {
        let answer = load(&forbidding, &image[..length]).err();
        assert_eq!(answer, Some(forbidden(0)));
    }
}

#[test]
fn unknown_marks() {
    let records = rich();
    for index in 0..records.len() {
        for mark in [b"vm", b"VD", b"NE", b"\0\0", b"WM", b"V\0", b"MV"] {
            let mut spoiled = records.clone();
            spoiled[index][..2].copy_from_slice(mark);
            assert_eq!(refused(&wide(), &spoiled), bad_form(start(&records, index)));
        }
    }
}

#[test]
fn order_of_records() {
    let records = rich();
    // Any record but the last left out: the first that then stands wrong.
    let left_out = |index: usize| {
        let mut records = rich();
        records.remove(index);
        refused(&wide(), &records)
    };
    assert_eq!(left_out(0), bad_form(0));
    assert_eq!(left_out(1), bad_form(8));
    assert_eq!(left_out(2), bad_form(18));
    let end = start(&records, 12);
    for index in 3..=6 {
        assert_eq!(left_out(index), bad_form(end - 8));
    }
    for index in 7..=11 {
        assert_eq!(left_out(index), bad_form(end - 14));
    }
    assert_eq!(left_out(12), bad_form(end));

    // Any record twice: the second breaks.
    for (index, record) in records.iter().enumerate() {
        let mut twice = rich();
        twice.insert(index, record.clone());
        twice.last_mut().unwrap()[2] += 1;
        let second = start(&twice, index + 1);
        assert_eq!(refused(&wide(), &twice), bad_form(second));
    }

    // Any two neighbours exchanged: at the first of the places, or at the
    // second if the first may stand there.
    for index in 0..records.len() - 1 {
        let mut exchanged = rich();
        exchanged.swap(index, index + 1);
        let answer = refused(&wide(), &exchanged);
        // MS with MS, MS with PA, PA with PA: the later one goes first.
        let second = (3..=10).contains(&index);
        let place = index + usize::from(second);
        assert_eq!(answer, bad_form(start(&exchanged, place)), "at {index}");
    }

    // EN before every VC, before MS and before PA.
    for index in 1..=2 {
        let mut early = rich();
        early.insert(index, en(index as u32));
        assert_eq!(refused(&wide(), &early), bad_form(start(&records, index)));
    }
    for index in [3, 7] {
        let mut early = rich();
        early.insert(index, en(index as u32));
        assert_eq!(refused(&wide(), &early), bad_form(start(&records, index) + 6));
    }
}

#[test]
fn form_of_vm() {
    for (version, count, events) in [(0, 2, 0), (2, 2, 0), (0x101, 2, 0), (1, 0, 0), (1, 17, 0), (1, 0x102, 0), (1, 0xFFFF, 0)]
    {
        assert_eq!(refused(&wide(), &with(0, vm(version, count, events))), bad_form(0));
    }
    for bit in 0..16 {
        let records = with(0, vm(1, 2, 1 << bit));
        if bit == 1 || bit == 12 {
            accepted(&wide(), &records);
            let forbidding = Settings { events: !(1 << bit), ..wide() };
            assert_eq!(refused(&forbidding, &records), forbidden(0));
        } else {
            assert_eq!(refused(&wide(), &records), bad_form(0));
        }
    }
    for count in [1, 3, 16] {
        assert_eq!(refused(&wide(), &with(0, vm(1, count, 0))), forbidden(0));
        // Form comes before answer 9.
        assert_eq!(refused(&wide(), &with(0, vm(1, count, 1))), bad_form(0));
        assert_eq!(refused(&wide(), &with(0, vm(2, count, 0))), bad_form(0));
    }
}

#[test]
fn form_of_vc() {
    let second = with(1, vc(0, 1, 0, 0, 0));
    accepted(&wide(), &second);
    for record in [
        vc(1, 1, 0, 0, 0),
        vc(2, 1, 0, 0, 0),
        vc(0x100, 1, 0, 0, 0),
        vc(0, 5, 0, 0, 0),
        vc(0, 0x81, 0, 0, 0),
        vc(0, 1, 8, 0, 0),
        vc(0, 1, 0x80, 0, 0),
        vc(0, 1, 0, 0, 9),
        vc(0, 1, 0, 0, 255),
        // Unready, and something is not zero.
        vc(0, 2, 0, 0, 0),
        vc(0, 0, 1, 0, 0),
        vc(0, 0, 0, 8, 0),
        vc(0, 0, 0, 0, 1),
    ] {
        assert_eq!(refused(&wide(), &with(1, record)), bad_form(8));
    }
    let mut zero = vc(0, 1, 0, 0, 0);
    zero[9] = 1;
    assert_eq!(refused(&wide(), &with(1, zero)), bad_form(8));
    let taken = [3, 4, 5, 7, 8, 9, 10, 11, 14];
    for event in 0..16 {
        let records = with(1, vc(0, 1, 0, 1 << event, 0));
        if taken.contains(&event) {
            accepted(&wide(), &records);
        } else {
            assert_eq!(refused(&wide(), &records), bad_form(8));
        }
    }
    for pauses in 0..=8 {
        accepted(&wide(), &with(1, vc(0, 1, 0, 0, pauses)));
    }
    for crs in 0..=7 {
        accepted(&wide(), &with(1, vc(0, 1, crs, 0, 0)));
    }
}

#[test]
fn forbidden_vcs() {
    let plain = |record: Vec<u8>| vec![vm(1, 2, 0), vc(0, 1, 0, 0, 0), record, en(3)];
    let without_features = Settings { features: [0, 1, 1, 1, 1], ..settings() };
    let without_descriptors = Settings { descriptors: false, ..settings() };
    let held_breakpoints = Settings { breakpoints: true, ..settings() };
    let without_events = Settings { events: 0, ..settings() };
    let singlestep = vc(1, 3, 0, 0, 0);
    assert_eq!(refused(&without_features, &plain(singlestep.clone())), forbidden(18));
    accepted(&without_descriptors, &plain(singlestep.clone()));
    accepted(&held_breakpoints, &plain(singlestep.clone()));
    accepted(&without_events, &plain(singlestep));
    // Event 11 is a switch of message 10, which does not ask for the feature.
    accepted(&without_features, &plain(vc(1, 1, 0, 1 << 11, 0)));
    assert_eq!(refused(&without_descriptors, &plain(vc(1, 1, 0, 1 << 8, 0))), forbidden(18));
    assert_eq!(refused(&held_breakpoints, &plain(vc(1, 1, 0, 1 << 4, 0))), forbidden(18));
    accepted(&without_descriptors, &plain(vc(1, 1, 0, 1 << 4, 0)));
    accepted(&held_breakpoints, &plain(vc(1, 1, 0, 1 << 8, 0)));
    for event in [3, 4, 5, 7, 8, 9, 10, 11, 14] {
        let forbidding = Settings { events: !(1 << event), ..settings() };
        assert_eq!(refused(&forbidding, &plain(vc(1, 1, 0, 1 << event, 0))), forbidden(18));
        accepted(&forbidding, &plain(vc(1, 1, 7, 0, 8)));
    }
    let without_pauses = Settings { events: !(1 << 2), ..settings() };
    assert_eq!(refused(&without_pauses, &plain(vc(1, 1, 0, 0, 1))), forbidden(18));
    accepted(&without_pauses, &plain(vc(1, 1, 7, 0b0100_1111_1011_1000, 0)));
    // No event bit of the image is one for CR or MSR switches.
    accepted(&without_events, &[vm(1, 2, 0), vc(0, 1, 7, 0, 0), vc(1, 0, 0, 0, 0), ms(0, 5), en(4)]);
    // Nor are the allowed commands asked.
    let no_commands = Settings { commands: 0, ..wide() };
    accepted(&no_commands, &rich());
    // Form comes before answer 9 in one record, and answer 9 in an earlier
    // record before form in a later one.
    let mut zero = vc(1, 3, 0, 0, 0);
    zero[9] = 1;
    assert_eq!(refused(&without_features, &plain(zero)), bad_form(18));
    let mut records = plain(vc(1, 3, 0, 0, 0));
    records[3] = en(0);
    assert_eq!(refused(&without_features, &records), forbidden(18));
    records[1][9] = 1;
    assert_eq!(refused(&without_features, &records), bad_form(8));
}

#[test]
fn form_of_ms() {
    let base = |records: &[Vec<u8>]| {
        let mut all = vec![vm(1, 2, 0), vc(0, 1, 0, 0, 0), vc(1, 1, 0, 0, 0)];
        all.extend_from_slice(records);
        all.push(en(3 + records.len() as u32));
        all
    };
    accepted(&settings(), &base(&[ms(0, 0xC000_1FFF), ms(1, 0)]));
    for msr in [0x2000, 0xBFFF_FFFF, 0xC000_2000, u32::MAX] {
        assert_eq!(refused(&settings(), &base(&[ms(0, 0), ms(0, msr)])), bad_form(36));
    }
    for vcpu in [2, 16, 0x100, 0xFFFF] {
        assert_eq!(refused(&settings(), &base(&[ms(0, 0), ms(vcpu, 0)])), bad_form(36));
    }
    assert_eq!(refused(&settings(), &base(&[ms(0, 1), ms(0, 1)])), bad_form(36));
    assert_eq!(refused(&settings(), &base(&[ms(0, 2), ms(0, 1)])), bad_form(36));
    assert_eq!(refused(&settings(), &base(&[ms(1, 0), ms(0, 1)])), bad_form(36));
    assert_eq!(refused(&settings(), &base(&[ms(0, 0xC000_0000), ms(0, 0x1FFF)])), bad_form(36));
    assert_eq!(refused(&settings(), &base(&[pa(0, 1, 1), ms(1, 0)])), bad_form(42));
    // "An unready vCPU has [...] no MS."
    let records = [vm(1, 2, 0), vc(0, 0, 0, 0, 0), vc(1, 1, 0, 0, 0), ms(0, 0), en(4)];
    assert_eq!(refused(&settings(), &records), bad_form(28));
}

#[test]
fn form_of_pa() {
    let base = |records: &[Vec<u8>]| {
        let mut all = vec![vm(1, 2, 0), vc(0, 1, 0, 0, 0), vc(1, 1, 0, 0, 0)];
        all.extend_from_slice(records);
        all.push(en(3 + records.len() as u32));
        all
    };
    for access in 0..=255 {
        let records = base(&[pa(0, access, 1)]);
        match access {
            0 | 1 | 3 | 4 | 5 => accepted(&wide(), &records),
            _ => assert_eq!(refused(&wide(), &records), bad_form(28)),
        }
    }
    let mut zero = pa(0, 1, 1);
    zero[5] = 0x80;
    assert_eq!(refused(&wide(), &base(&[zero])), bad_form(28));
    accepted(&wide(), &base(&[pa(0, 1, (1 << 52) - 1)]));
    for page in [1 << 52, 1 << 63, u64::MAX] {
        assert_eq!(refused(&wide(), &base(&[pa(0, 1, page)])), bad_form(28));
    }
    for view in [8, 9, 0x100, 0xFFFF] {
        assert_eq!(refused(&wide(), &base(&[pa(view, 1, 1)])), bad_form(28));
        assert_eq!(refused(&settings(), &base(&[pa(view, 1, 1)])), bad_form(28));
    }
    for view in 0..8 {
        for views in 1..=8 {
            let settings = Settings { views, ..settings() };
            let records = base(&[pa(view, 1, 1)]);
            if u32::from(view) < views {
                accepted(&settings, &records);
            } else {
                assert_eq!(refused(&settings, &records), forbidden(28));
                // Form comes before.
                let records = base(&[pa(view, 7, 1)]);
                assert_eq!(refused(&settings, &records), bad_form(28));
            }
        }
    }
    for (first, second) in [
        (pa(0, 1, 5), pa(0, 1, 5)),
        (pa(0, 1, 5), pa(0, 3, 5)),
        (pa(0, 1, 5), pa(0, 1, 4)),
        (pa(1, 1, 5), pa(0, 1, 6)),
        // Numbers, not bytes, are in order.
        (pa(0, 1, 0x100), pa(0, 1, 0x01)),
    ] {
        let records = base(&[first, second]);
        assert_eq!(refused(&wide(), &records), bad_form(42));
    }
    accepted(&wide(), &base(&[pa(0, 1, 6), pa(1, 1, 5), pa(1, 1, 0x100)]));
}

/// "access 4 without the flag is [...] answer 9 in a PA record", after form and
/// beside the view.
#[test]
fn without_execute_only_pages() {
    let base = |records: &[Vec<u8>]| {
        let mut all = vec![vm(1, 2, 0), vc(0, 1, 0, 0, 0), vc(1, 1, 0, 0, 0)];
        all.extend_from_slice(records);
        all.push(en(3 + records.len() as u32));
        all
    };
    let without = Settings { execute_only: false, ..wide() };
    for access in 0..=255 {
        let records = base(&[pa(0, access, 1)]);
        match access {
            0 | 1 | 3 | 5 => accepted(&without, &records),
            4 => assert_eq!(refused(&without, &records), forbidden(28)),
            _ => assert_eq!(refused(&without, &records), bad_form(28)),
        }
    }
    // The first of them decides; with the flag all are taken.
    let several = base(&[pa(0, 5, 1), pa(0, 3, 2), pa(3, 4, 0), pa(3, 4, 1), pa(7, 1, 0)]);
    assert_eq!(refused(&without, &several), forbidden(56));
    accepted(&wide(), &several);
    assert_eq!(refused(&without, &rich()), forbidden(start(&rich(), 9)));
    accepted(&without, &with(9, pa(1, 5, 0)));

    // Form comes first in the record: its view, its zero byte, its page, its
    // place.
    let mut zero = pa(0, 4, 6);
    zero[5] = 1;
    for record in [pa(8, 4, 6), zero, pa(0, 4, 1 << 52), pa(0, 4, 5), pa(0, 4, 4)] {
        let records = base(&[pa(0, 1, 5), record]);
        assert_eq!(refused(&without, &records), bad_form(42));
        assert_eq!(refused(&wide(), &records), bad_form(42));
    }
    let image = base(&[pa(0, 1, 5), pa(0, 4, 6)]).concat();
    for length in 43..56 {
        assert_eq!(load(&without, &image[..length]).err(), Some(bad_form(42)));
    }
    for length in 56..=image.len() {
        assert_eq!(load(&without, &image[..length]).err(), Some(forbidden(42)));
    }
    let mut many: Vec<_> = (0..1024).map(|page| pa(0, 1, page)).collect();
    many.push(pa(0, 4, 1024));
    assert_eq!(refused(&without, &base(&many)), bad_form(28 + 14 * 1024));
    many.remove(0);
    assert_eq!(refused(&without, &base(&many)), forbidden(28 + 14 * 1023));

    // The view is the other reason of answer 9.
    for (execute_only, views) in [(false, 2), (false, 3), (true, 2)] {
        let settings = Settings { views, execute_only, ..settings() };
        assert_eq!(refused(&settings, &base(&[pa(0, 1, 5), pa(2, 4, 6)])), forbidden(42));
    }
    // An earlier 8 or 9 goes before, a later one doesn't.
    let narrow = Settings { views: 1, ..without.clone() };
    assert_eq!(refused(&narrow, &base(&[pa(0, 4, 5), pa(1, 1, 5)])), forbidden(28));
    assert_eq!(refused(&narrow, &base(&[pa(0, 1, 5), pa(1, 1, 5), pa(2, 4, 5)])), forbidden(42));
    for later in [pa(0, 7, 6), pa(0, 1, 5), pa(8, 1, 6), en(0)] {
        assert_eq!(refused(&without, &base(&[pa(0, 4, 5), later])), forbidden(28));
    }
    assert_eq!(refused(&without, &base(&[pa(0, 2, 4), pa(0, 4, 5)])), bad_form(28));
    let mut records = base(&[pa(0, 4, 5)]);
    records[1] = vc(0, 3, 0, 0, 0);
    let lacking = Settings { features: [0; 5], ..without.clone() };
    assert_eq!(refused(&lacking, &records), forbidden(8));
    assert_eq!(refused(&Settings { vcpus: 3, ..without.clone() }, &records), forbidden(0));
    records[1] = vc(0, 5, 0, 0, 0);
    assert_eq!(refused(&without, &records), bad_form(8));

    // What a session with the flag wrote, and what such a loaded one takes.
    let mut bench = load(&wide(), &base(&[pa(0, 3, 1)]).concat()).unwrap();
    let message = page_access(0, &[(2 << 12, 4)]);
    bench.ok(&message);
    assert_eq!(load(&without, &bench.image()).err(), Some(forbidden(42)));
    bench.ok(&page_access(0, &[(2 << 12, 5)]));
    let mut bench = load(&without, &bench.image()).unwrap();
    assert_eq!(bench.error(&message), EINVAL);
    assert_eq!(load(&wide(), &bench.image()).unwrap().error(&message), 0);
}

#[test]
fn form_of_en() {
    for count in [0, 11, 13, 12 | 1 << 16, 12 | 1 << 24, u32::MAX] {
        let records = with(12, en(count));
        let offset = start(&records, 12);
        assert_eq!(refused(&wide(), &records), bad_form(offset));
        // Also where bytes follow.
        let image = [&records.concat()[..], &[0]].concat();
        assert_eq!(load(&wide(), &image).err(), Some(bad_form(offset)));
    }
}

#[test]
fn writer_needs_room() {
    let bench = load(&wide(), &rich().concat()).unwrap();
    let size = bench.session.image_size();
    assert_eq!(size, rich().concat().len());
    for length in [0, 1, size - 1] {
        let mut out = vec![UNTOUCHED; length];
        assert_eq!(bench.session.write_image(&mut out), Answer::ShortOut);
        assert!(out.iter().all(|&byte| byte == UNTOUCHED));
    }
    let mut out = vec![UNTOUCHED; size];
    assert_eq!(bench.session.write_image(&mut out), handled(size));
    assert_eq!(out, rich().concat());
}
