//! What stands, asked by lookups, and the list form.
mod common;

use common::*;
use reference::list::{self, Record};
use reference::{Answer, Page, Session, Settings};

/// Every switch that messages set is seen, where it was set and nowhere else.
#[test]
fn what_stands() {
    let given = Settings { vcpus: 3, views: 2, ..settings() };
    let mut bench = Bench::new(given.clone());
    for message in [
        vm_event(12, 1),
        vcpu_event(2, 14, 1),
        control_cr(2, 3, 1),
        control_msr(2, 0x1FFF, 1),
        singlestep(2, 1),
        pause(2, 0),
        pause(2, 0),
        page_access(1, &[(5 << 12, 1), (3 << 12 | 7, 4), (u64::MAX, 0)]),
        page_access(0, &[(9 << 12, 5), (1 << 12, 3), (1 << 12, 7)]),
    ] {
        bench.ok(&message);
    }
    let check_with = |session: &Session, msrs: &[u32]| {
        assert_eq!(*session.settings(), given);
        for vcpu in [0, 1, 2, 3, 15, 16, 0x1_0002, u32::MAX] {
            assert_eq!(session.is_ready(vcpu), vcpu < 3);
            assert_eq!(session.singlestep(vcpu), vcpu == 2);
            for event in (0..40).chain([0x1_000E, u32::MAX]) {
                assert_eq!(session.vcpu_event(vcpu, event), vcpu == 2 && event == 14);
                assert_eq!(session.vm_event(event), event == 12);
            }
            for cr in (0..9).chain([0x100, 0x103, u32::MAX]) {
                assert_eq!(session.cr(vcpu, cr), vcpu == 2 && cr == 3);
            }
            for msr in [0, 0x1FFE, 0x1FFF, 0x2000, 0x3FFF, 0xBFFF_FFFF, 0xC000_0000, 0xC000_1FFF, 0xC000_2000, u32::MAX] {
                assert_eq!(session.msr(vcpu, msr), vcpu == 2 && msrs.contains(&msr));
            }
        }
        let last = (1 << 52) - 1;
        let pages = [(0, 9, 5), (1, 3, 4), (1, 5, 1), (1, last, 0)].map(|(view, page, access)| Page { view, page, access });
        assert_eq!(session.page_count(), 4);
        assert!(session.pages().eq(pages));
        for (i, page) in pages.into_iter().enumerate() {
            assert_eq!(session.page_at(i), Some(page));
            assert_eq!(session.access(page.view, page.page), page.access);
        }
        assert_eq!(session.page_at(4), None);
        for (view, page) in
            [(0, 1), (0, 3), (2, 5), (8, 5), (0x1_0001, 5), (u32::MAX, 5), (1, 1 << 52 | 5), (1, u64::MAX), (0, last)]
        {
            assert_eq!(session.access(view, page), 7);
        }
    };
    let check = |session: &Session| check_with(session, &[0x1FFF]);
    check(&bench.session);
    assert_eq!([0, 1, 2, 3].map(|vcpu| bench.session.pauses(vcpu)), [0, 0, 2, 0]);
    check(&Session::read_image(given.clone(), &bench.image()).unwrap());

    // "MSR outside 0..0x1FFF and 0xC0000000..0xC0001FFF": the four ends have
    // a switch each, the numbers beside them none. Each end has its turn to be
    // the first on and the first off.
    let mut copy = bench.clone();
    copy.ok(&control_msr(2, 0x1FFF, 0));
    check_with(&copy.session, &[]);
    let mut ends = [0, 0x1FFF, 0xC000_0000, 0xC000_1FFF];
    for _ in ends {
        for (i, end) in ends.into_iter().enumerate() {
            copy.ok(&control_msr(2, end, 1));
            check_with(&copy.session, &ends[..=i]);
        }
        for beside in [0x2000, 0xBFFF_FFFF, 0xC000_2000, 0xFFFF_FFFF] {
            for enable in [0, 1] {
                assert_eq!(copy.error(&control_msr(2, beside, enable)), EINVAL);
                check_with(&copy.session, &ends);
            }
        }
        check_with(&Session::read_image(given.clone(), &copy.image()).unwrap(), &ends);
        for (i, end) in ends.into_iter().enumerate() {
            copy.ok(&control_msr(2, end, 0));
            check_with(&copy.session, &ends[i + 1..]);
        }
        ends.rotate_left(1);
    }

    assert_eq!(bench.enter(2, &[0; 536]).0, handled(552));
    assert_eq!([0, 1, 2, 3, 16, u32::MAX].map(|vcpu| bench.session.awaited(vcpu)), [None, None, Some(2), None, None, None]);
    assert_eq!(bench.session.pauses(2), 1);
    check(&bench.session);
    assert!(bench.session.is_open());

    // "Closing makes all this fresh, drops awaited events"
    assert_eq!(bench.send(&[]).0, Answer::Closing);
    let session = &bench.session;
    assert!(!session.is_open() && !session.is_ready(2) && !session.vm_event(12) && !session.vcpu_event(2, 14));
    assert!(!session.cr(2, 3) && !session.msr(2, 0x1FFF) && !session.singlestep(2));
    assert_eq!((session.pauses(2), session.awaited(2), session.page_count()), (0, None, 0));
    assert_eq!((session.access(1, 5), session.page_at(0)), (7, None));
    // "Settings and guest memory are kept."
    assert_eq!(*session.settings(), given);
}

/// "an index at or past its length is answered 4, then 14 is tested": of the
/// CR switch alone.
#[test]
fn records_in_a_list() {
    let other = Record { ready: 0, singlestep: 9, crs: !7, events: 9, pauses: 9, awaited: 9, awaited_seq: 9 };
    let mut records = [other; 3];
    for index in [3, 4, usize::MAX] {
        assert_eq!(list::ready(&mut records, index), Answer::BadVcpu);
        assert_eq!(list::set_cr(&mut records, index, 1, true), Answer::BadVcpu);
    }
    assert_eq!(list::set_cr(&mut records, 1, 0, true), Answer::NotApplicable);
    assert_eq!(records, [other; 3]);
    assert_eq!(list::ready(&mut records, 1), handled(0));
    assert_eq!(records, [other, Record { ready: 1, ..other }, other]);
    for cr in [1, 2, 5, 8, 0x100, u32::MAX] {
        assert_eq!(list::set_cr(&mut records, 1, cr, true), Answer::NotApplicable);
    }
    for (cr, on, crs) in [(0, true, 1), (3, true, 3), (4, true, 7), (3, false, 5), (3, false, 5)] {
        assert_eq!(list::set_cr(&mut records, 1, cr, on), handled(0));
        assert_eq!(records, [other, Record { ready: 1, crs: !7 | crs, ..other }, other]);
    }
    // any word but 0 is a ready mark
    records[2].ready = 1 << 63;
    assert_eq!(list::set_cr(&mut records, 2, 4, true), handled(0));
    assert_eq!(records[2], Record { ready: 1 << 63, crs: !7 | 4, ..other });
    assert_eq!(list::ready(&mut [], 0), Answer::BadVcpu);
    assert_eq!(Answer::NotApplicable.number(), 14);
}
