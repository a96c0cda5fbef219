//! The wrapper's own promises: settings by name, revisions, lookups, events that are offered, page faults, padding bytes, batches, the list
//! form, in place and on threads.
use semblurick::{
    own, vcpu_list, Access, Action, Answer, Batch, Command, CommandSet, Entry, Errno, Event, EventSet, Features, Feed, Page,
    Pages, Refusal, Session, Settings, Signal, Signals, Vcpu, ENTRY_OUT, EVENT_MAX, IMAGE_MAX, MAX_VCPUS, MAX_VIEWS,
    MESSAGE_OUT, PAGE_LIMIT, PAUSE_LIMIT, STATE_BYTES,
};
use std::error::Error;
use std::mem::{size_of, MaybeUninit};
use std::thread;

fn message(id: u16, data: &[u8]) -> Vec<u8> {
    [&id.to_le_bytes()[..], &(data.len() as u16).to_le_bytes(), &[0; 4], data].concat()
}

fn on_vcpu(id: u16, vcpu: u16, data: [u8; 8]) -> Vec<u8> {
    message(id, &[&vcpu.to_le_bytes()[..], &[0; 6], &data].concat())
}

fn access(view: u16, entries: &[(u64, u8)]) -> Vec<u8> {
    let mut data = [&(entries.len() as u16).to_le_bytes()[..], &view.to_le_bytes(), &[0; 4]].concat();
    for (page, access) in entries {
        data.extend([&(page << 12).to_le_bytes()[..], &[*access, 0, 0, 0, 0, 0, 0, 0]].concat());
    }
    message(13, &data)
}

/// Sends messages that are handled without error.
fn send(session: &mut Session, messages: &[Vec<u8>]) {
    let (mut out, mut guest) = ([0; MESSAGE_OUT], [0; 4096]);
    for message in messages {
        let answer = session.message(message, &mut out, &mut guest).unwrap();
        assert!(!answer.is_closing() && answer.error().is_none(), "{answer:?}");
    }
}

#[test]
fn settings_by_name() {
    let least = Settings::new(3);
    assert_eq!((least.vcpus, least.views, least.commands, least.events), (3, 1, CommandSet::NONE, EventSet::NONE));
    assert_eq!((least.tsc_speed, least.features), (0, Features::NONE));
    assert!(!least.descriptors && !least.breakpoints_taken && !least.execute_only);
    assert_eq!([least.revision, Settings::default().revision, Settings::allowing_all(1).revision], [1; 3]);
    assert_eq!(Settings::default(), Settings::new(1));
    assert_eq!(Features::default(), Features::NONE);
    const CHOSEN: Settings = Settings::new(16)
        .views(8)
        .commands(CommandSet::NONE.with(Command::VcpuPause))
        .events(EventSet::ALL.without(Event::Pf))
        .tsc_speed(1 << 40)
        .features(Features::NONE.singlestep(2).vmfunc(3).eptp(4).ve(5).spp(255))
        .descriptors(true)
        .breakpoints_taken(true)
        .execute_only(true)
        .revision(2);
    // each flag and the revision by itself: none stands for another
    for i in 0..16 {
        let [descriptors, breakpoints_taken, execute_only, second] = [1, 2, 4, 8].map(|bit| i & bit != 0);
        let revision = if second { 2 } else { 1 };
        let flags = CHOSEN.descriptors(descriptors).breakpoints_taken(breakpoints_taken).execute_only(execute_only);
        let flags = flags.revision(revision);
        assert_eq!(Session::fresh(&flags).unwrap().settings(), flags);
        assert_eq!((flags.descriptors, flags.breakpoints_taken), (descriptors, breakpoints_taken));
        assert_eq!((flags.execute_only, flags.views, flags.revision), (execute_only, CHOSEN.views, revision));
    }
    assert_eq!((CHOSEN.views, CHOSEN.commands.bits(), CHOSEN.events.bits()), (8, 1 << 9, !(1 << 10)));
    let all = Settings::allowing_all(2);
    assert_eq!((all.views, all.commands, all.events, all.features), (1, CommandSet::ALL, EventSet::ALL, Features::ALL));
    assert!(all.descriptors && !all.breakpoints_taken && all.execute_only);
    for (vcpus, views) in [(0, 1), (MAX_VCPUS + 1, 1), (1, 0), (1, MAX_VIEWS + 1)] {
        assert_eq!(Session::fresh(&Settings::new(vcpus).views(views)).err(), Some(Refusal::BadSettings));
    }
    assert!(Session::fresh(&Settings::new(MAX_VCPUS).views(MAX_VIEWS)).is_ok());
}

/// What nothing allows: the tool gets EPERM, and the four messages that need no permission are answered.
#[test]
fn nothing_is_allowed_at_first() {
    let mut session = Session::fresh(&Settings::new(1)).unwrap();
    session.ready(0).unwrap();
    let (mut out, mut guest) = ([0; MESSAGE_OUT], [0; 4096]);
    for id in 4..16 {
        let error = session.message(&message(id, &[]), &mut out, &mut guest).unwrap().error();
        assert_eq!(error, Some(Errno::Eperm), "message {id}");
    }
    assert_eq!(session.message(&message(1, &[]), &mut out, &mut guest).unwrap().error(), None);
}

#[test]
fn lookups() {
    let settings = Settings::allowing_all(3).views(2);
    let mut session = Session::fresh(&settings).unwrap();
    assert!(session.is_open() && !session.is_closed());
    session.ready(2).unwrap();
    send(
        &mut session,
        &[
            message(5, &[12, 0, 1, 0, 0, 0, 0, 0]),
            on_vcpu(10, 2, [9, 0, 1, 0, 0, 0, 0, 0]),
            on_vcpu(11, 2, [1, 0, 0, 0, 4, 0, 0, 0]),
            on_vcpu(12, 2, [1, 0, 0, 0, 0xFF, 0x1F, 0, 0xC0]),
            on_vcpu(14, 2, [1, 0, 0, 0, 0, 0, 0, 0]),
            on_vcpu(9, 2, [0; 8]),
            on_vcpu(9, 2, [0; 8]),
            access(1, &[(7, 4), (5, 1), ((1 << 52) - 1, 0)]),
            access(0, &[(9, 3)]),
        ],
    );
    let check = |session: &Session| {
        for vcpu in (0..20).chain([255, 256, 258, 1 << 16 | 2, 1 << 31 | 2, u32::MAX]) {
            let is = vcpu == 2;
            assert_eq!(session.is_ready(vcpu), is, "{vcpu}");
            assert_eq!(session.singlestep(vcpu), is, "{vcpu}");
            for event in Event::ALL {
                assert_eq!(session.vcpu_event(vcpu, *event), is && *event == Event::Msr);
                assert_eq!(session.vcpu_event(vcpu, u32::from(*event)), is && *event == Event::Msr);
            }
            for cr in (0..9).chain([1 << 8 | 4, 1 << 31 | 4, u32::MAX]) {
                assert_eq!(session.cr(vcpu, cr), is && cr == 4);
            }
            for msr in [0, 0x1FFE, 0x1FFF, 0x2000, 0x3FFF, 0xBFFF_FFFF, 0xC000_0000, 0xC000_1FFE, 0xC000_2000, u32::MAX] {
                assert!(!session.msr(vcpu, msr));
            }
            assert_eq!(session.msr(vcpu, 0xC000_1FFF), is);
        }
        for event in (0u32..40).chain([1 << 8 | 12, 1 << 16 | 12, 1 << 31 | 12, u32::MAX]) {
            assert_eq!(session.vm_event(event), event == 12);
        }
        assert!(session.vm_event(Event::CreateVcpu) && !session.vm_event(Event::Unhook));
        assert_eq!(session.page_count(), 4);
        let pages: Vec<Page> = session.pages().collect();
        let told: Vec<_> = pages.iter().map(|page| (page.view, page.page, page.access.bits())).collect();
        assert_eq!(told, [(0, 9, 3), (1, 5, 1), (1, 7, 4), (1, (1 << 52) - 1, 0)]);
        for (i, page) in pages.iter().enumerate() {
            assert_eq!(session.page_at(i), Some(*page));
            assert_eq!(session.access(page.view, page.page), page.access);
        }
        for i in [4, 1023, 1024, usize::MAX] {
            assert_eq!(session.page_at(i), None);
        }
        for (view, page) in [(0, 5), (1, 9), (2, 5), (8, 5), (1 << 16 | 1, 5), (u32::MAX, 5), (1, 1 << 52 | 5), (1, u64::MAX)] {
            assert_eq!(session.access(view, page), Access::RWX, "view {view}, page {page}");
        }
        assert_eq!(
            (session.pages().len(), session.pages().next_back(), session.pages().nth(2)),
            (4, Some(pages[3]), Some(pages[2]))
        );
        let mut some = session.pages();
        assert_eq!((some.next(), some.next_back(), some.len()), (Some(pages[0]), Some(pages[3]), 2));
        assert_eq!((some.by_ref().count(), some.next(), some.next_back()), (2, None, None));
    };
    check(&session);
    assert_eq!((session.pauses(2), session.pauses(1), session.pauses(3)), (2, 0, 0));

    // the same in a session that its image makes
    let mut image = vec![0; session.image_size()];
    session.write_image(&mut image).unwrap();
    let moved = Session::from_image(&settings, &image).unwrap();
    check(&moved);
    assert_eq!((moved.pauses(2), moved.awaited(2)), (2, None));

    let mut out = [0; MESSAGE_OUT];
    assert!(!session.enter(2, &[0; STATE_BYTES], &mut out).unwrap().may_run());
    assert_eq!((session.pauses(2), session.awaited(2), session.awaited(0)), (1, Some(Event::PauseVcpu), None));
    check(&session);
    send(&mut session, &[on_vcpu(16, 2, [0, 2, 0, 0, 0, 0, 0, 0])]);
    assert_eq!((session.pauses(2), session.awaited(2)), (1, None));

    // a closed session has nothing, and neither has one that was refused in place, whatever its tables have been
    let mut refused = [session.clone(), session.clone()];
    assert_eq!(refused[0].begin(&Settings::new(0)), Err(Refusal::BadSettings));
    assert_eq!(refused[1].load(&settings, &image[..20]), Err(Refusal::BadForm { offset: 18 }));
    assert!(session.message(&[], &mut out, &mut []).unwrap().is_closing());
    for session in [&session, &Session::closed(), &refused[0], &refused[1]] {
        assert!(session.is_closed() && !session.is_open() && !session.is_ready(2) && !session.vm_event(Event::CreateVcpu));
        assert!(
            !session.vcpu_event(2, Event::Msr) && !session.cr(2, 4) && !session.msr(2, 0xC000_1FFF) && !session.singlestep(2)
        );
        assert_eq!((session.pauses(2), session.awaited(2)), (0, None));
        assert_eq!((session.page_count(), session.page_at(0), session.access(1, 5)), (0, None, Access::RWX));
        assert_eq!(session.pages().next(), None);
    }
}

/// The reply to an event, with these bytes behind the action and the event.
fn reply(vcpu: u16, seq: u32, action: Action, event: Event, more: &[u8]) -> Vec<u8> {
    let data = [&vcpu.to_le_bytes()[..], &[0; 6], &[action.number(), event.number() as u8, 0, 0, 0, 0, 0, 0], more].concat();
    [&[16, 0][..], &(data.len() as u16).to_le_bytes(), &seq.to_le_bytes(), &data].concat()
}

/// What a reply to a page fault has behind the action and the event: what the tool supplies from an address on, and rep_complete.
fn context(address: u64, supplied: &[u8], rep: u8) -> Vec<u8> {
    let size = (supplied.len() as u32).to_le_bytes();
    let mut bytes = [&address.to_le_bytes()[..], &size, &[0, rep, 0, 0], supplied].concat();
    // past the size anything
    bytes.resize(272, 0xEE);
    bytes
}

/// An event that can be offered: its own bytes, whether it can be retried, what a reply has more, and the value that this gives.
struct Offered {
    event: Event,
    own: Vec<u8>,
    retried: bool,
    more: Vec<u8>,
    value: u64,
}

fn offered() -> [Offered; 10] {
    let (old_value, new_value) = (0x1122_3344_5566_7788, 0x99AA_BBCC_DDEE_FF00);
    let plain = |event, own: &[u8]| Offered { event, own: own.into(), retried: false, more: vec![], value: 0 };
    let retried = |event, own: &[u8]| Offered { retried: true, ..plain(event, own) };
    let valued =
        |event, own: &[u8]| Offered { more: vec![8, 7, 6, 5, 4, 3, 2, 1], value: 0x0102_0304_0506_0708, ..plain(event, own) };
    let fault = own::Pf { gva: old_value, gpa: 0x5678, access: Access::W.bits(), view: 0 }.bytes();
    [
        plain(Event::Hypercall, &[]),
        retried(Event::Breakpoint, &own::Breakpoint { gpa: old_value, insn_len: 1 }.bytes()),
        valued(Event::Cr, &own::Cr { cr: 4, old_value, new_value }.bytes()),
        plain(Event::Xsetbv, &[]),
        retried(Event::Descriptor, &own::Descriptor { descriptor: 2, write: true }.bytes()),
        valued(Event::Msr, &own::Msr { msr: 0xC000_0082, old_value, new_value }.bytes()),
        Offered { more: context(old_value, &[7; 256], 1), value: 1, ..retried(Event::Pf, &fault) },
        plain(Event::Singlestep, &own::Singlestep { failed: true }.bytes()),
        plain(Event::CreateVcpu, &[]),
        plain(Event::Cpuid, &own::Cpuid { function: 1, index: 2, insn_length: 2 }.bytes()),
    ]
}

#[test]
fn own_bytes() {
    let sizes = offered().map(|one| (one.event.number(), one.own.len()));
    assert_eq!(sizes, [(3, 0), (4, 16), (5, 24), (7, 0), (8, 8), (9, 24), (10, 24), (11, 8), (12, 0), (14, 16)]);
    let most = own::Pf { gva: u64::MAX, gpa: u64::MAX, access: 255, view: u16::MAX };
    assert_eq!(most.bytes(), [[255; 8], [255; 8], [255, 0, 255, 255, 0, 0, 0, 0]].concat()[..]);
    let most = own::Breakpoint { gpa: u64::MAX, insn_len: 255 };
    assert_eq!(most.bytes(), [255, 255, 255, 255, 255, 255, 255, 255, 255, 0, 0, 0, 0, 0, 0, 0]);
    let most = own::Cr { cr: u16::MAX, old_value: u64::MAX, new_value: u64::MAX };
    assert_eq!(most.bytes(), [[255, 255, 0, 0, 0, 0, 0, 0], [255; 8], [255; 8]].concat()[..]);
    let most = own::Msr { msr: u32::MAX, old_value: u64::MAX, new_value: u64::MAX };
    assert_eq!(most.bytes(), [[255, 255, 255, 255, 0, 0, 0, 0], [255; 8], [255; 8]].concat()[..]);
    assert_eq!(own::Descriptor { descriptor: 255, write: false }.bytes(), [255, 0, 0, 0, 0, 0, 0, 0]);
    let most = own::Cpuid { function: u32::MAX, index: u32::MAX, insn_length: 255 };
    assert_eq!(most.bytes(), [255, 255, 255, 255, 255, 255, 255, 255, 255, 0, 0, 0, 0, 0, 0, 0]);
    assert_eq!(own::Singlestep::default().bytes(), [0; 8]);
}

#[test]
fn events_that_are_offered() {
    let mut session = Session::fresh(&Settings::allowing_all(2)).unwrap();
    session.ready(1).unwrap();
    send(&mut session, &[on_vcpu(11, 1, [1, 0, 0, 0, 4, 0, 0, 0]), on_vcpu(12, 1, [1, 0, 0, 0, 0x82, 0, 0, 0xC0])]);
    send(&mut session, &[access(0, &[(5, 5)])]);
    let state: Vec<u8> = (0..STATE_BYTES).map(|i| i as u8).collect();
    let (mut out, mut event_out) = ([0; MESSAGE_OUT], [0; ENTRY_OUT]);
    let mut seq = 0;
    for Offered { event, own, retried, more, value } in offered() {
        // passed over, and then, with a pause that is queued, the pause instead
        let entry = session.enter_event(1, &state, event, &own, &mut event_out).unwrap();
        assert_eq!((entry.may_run(), session.awaited(1)), (true, None), "{event}");
        send(&mut session, &[on_vcpu(9, 1, [0; 8])]);
        let entry = session.enter_event(1, &state, event, &own, &mut event_out).unwrap();
        assert_eq!((entry.event(), entry.bytes.len()), (Some(Event::PauseVcpu), 552), "{event}");
        let pause = reply(1, seq, Action::Continue, Event::PauseVcpu, &[]);
        let answer = session.message(&pause, &mut out, &mut []).unwrap();
        assert_eq!((answer.signal(), answer.bytes()), (Signal::None, &[][..]));
        seq += 1;

        // switched on: it goes before a pause
        send(&mut session, &[on_vcpu(9, 1, [0; 8])]);
        let number = event.number() as u8;
        send(
            &mut session,
            &[match event {
                Event::CreateVcpu => message(5, &[number, 0, 1, 0, 0, 0, 0, 0]),
                _ => on_vcpu(10, 1, [number, 0, 1, 0, 0, 0, 0, 0]),
            }],
        );
        let resumes = [Some(Action::Continue), retried.then_some(Action::Retry)];
        for action in resumes.into_iter().flatten().chain([Action::Crash]) {
            let entry = session.enter_event(1, &state, u32::from(event), &own, &mut event_out).unwrap();
            assert_eq!((entry.event(), entry.bytes.len()), (Some(event), 552 + own.len()));
            assert_eq!(entry.bytes[4..8], u32::to_le_bytes(seq));
            assert_eq!(entry.bytes[16..], [&state[..], &own].concat());
            assert_eq!((session.awaited(1), session.pauses(1)), (Some(event), 1));
            assert_eq!(session.enter(1, &state, &mut event_out), Err(Refusal::Waiting));
            assert_eq!(session.write_image(&mut out), Err(Refusal::Busy));
            let reply = reply(1, seq, action, event, &more);
            let answer = session.message(&reply, &mut out, &mut []).unwrap();
            let signal = match action {
                Action::Crash => Signal::Crash { vcpu: 1 },
                _ => Signal::Resume { vcpu: 1, action, value },
            };
            assert_eq!((answer.signal(), answer.bytes(), session.awaited(1)), (signal, &[][..], None), "{event} {action}");
            assert_eq!((answer.number(), answer.feed(), answer.feed().bytes()), (0, Feed::None, None), "{event} {action}");
            seq += 1;
        }
        // one that it has not, and a reply of another size, close
        let wrong = if more.is_empty() { &[0; 8][..] } else { &[] };
        for (action, more) in [(Action::Retry, &more[..]), (Action::Continue, wrong)] {
            if action == Action::Continue || !retried {
                let mut session = session.clone();
                assert!(!session.enter_event(1, &state, event, &own, &mut event_out).unwrap().may_run());
                assert!(session.message(&reply(1, seq, action, event, more), &mut out, &mut []).unwrap().is_closing());
                assert_eq!((session.is_closed(), session.awaited(1)), (true, None));
            }
        }
        assert!(session.enter(1, &state, &mut event_out).unwrap().event() == Some(Event::PauseVcpu));
        send(&mut session, &[reply(1, seq, Action::Continue, Event::PauseVcpu, &[])]);
        seq += 1;
    }
    assert_eq!(ENTRY_OUT, EVENT_MAX);
}

#[test]
fn refused_offers() {
    let mut session = Session::fresh(&Settings::allowing_all(1)).unwrap();
    session.ready(0).unwrap();
    let (state, mut out) = ([0; STATE_BYTES], [0; ENTRY_OUT]);
    let numbers = (0u32..70).chain([1 << 8, 1 << 16, 1 << 16 | 5, 1 << 31 | 3, u32::MAX]);
    for number in numbers {
        let taken = offered().into_iter().find(|one| u32::from(one.event) == number).map(|one| one.own.len());
        let taken = if number == 0 { Some(0) } else { taken };
        for size in 0..40 {
            let own = vec![0xFF; size];
            let fits = taken == Some(size);
            let entry = session.enter_event(0, &state, number, &own, &mut out);
            assert_eq!(entry.err(), (!fits).then_some(Refusal::BadState), "event {number}, {size} bytes");
            let entry = session.enter_event(0, &state, number, &own, &mut out[..ENTRY_OUT - 1]);
            assert_eq!(entry.err(), Some(if fits { Refusal::ShortOut } else { Refusal::BadState }));
            assert_eq!(session.enter_event(1, &state, number, &own, &mut []).err(), Some(Refusal::BadVcpu));
            assert_eq!(session.enter_event(0, &state[1..], number, &own, &mut out).err(), Some(Refusal::BadState));
        }
    }
    // for the VM, and before the vCPU is ready
    let mut session = Session::fresh(&Settings::allowing_all(1)).unwrap();
    send(&mut session, &[message(5, &[12, 0, 1, 0, 0, 0, 0, 0])]);
    assert_eq!(session.enter_event(0, &state, Event::CreateVcpu, &[], &mut out).unwrap().event(), Some(Event::CreateVcpu));
    assert_eq!(session.enter_event(0, &state, 2u32, &[], &mut out), Err(Refusal::BadState));
    assert_eq!(session.enter_event(0, &state, Event::CreateVcpu, &[], &mut out), Err(Refusal::Waiting));
    assert!(session.message(&[], &mut [0; MESSAGE_OUT], &mut []).unwrap().is_closing());
    assert_eq!(session.enter_event(9, &[], 2u32, &[1], &mut []), Err(Refusal::Closed));
}

/// A fresh session of two views: vCPU 1 has page faults on, and what is guarded is page 1 of view 0, pages 1 and 3 of view 1, and in both
/// the last page that there is.
fn faulting() -> Session {
    let mut session = Session::fresh(&Settings::allowing_all(2).views(2)).unwrap();
    session.ready(1).unwrap();
    let last = u64::MAX >> 12;
    let guards = [access(0, &[(1, 4), (last, 0)]), access(1, &[(1, 5), (3, 1), (last, 3)])];
    send(&mut session, &[&guards[..], &[on_vcpu(10, 1, [10, 0, 1, 0, 0, 0, 0, 0])]].concat());
    session
}

/// The event is written, and vCPU 1 waits.
fn fault(session: &mut Session, gva: u64, gpa: u64, access: u8, view: u16) {
    let mut out = [0; ENTRY_OUT];
    let own = own::Pf { gva, gpa, access, view }.bytes();
    let entry = session.enter_event(1, &[0; STATE_BYTES], Event::Pf, &own, &mut out).unwrap();
    assert_eq!((entry.event(), entry.bytes.len(), &entry.bytes[552..]), (Some(Event::Pf), EVENT_MAX, &own[..]));
    assert_eq!(session.awaited(1), Some(Event::Pf));
}

/// The resume of vCPU 1.
fn resume(action: Action, value: u64) -> Signal {
    Signal::Resume { vcpu: 1, action, value }
}

const UNKNOWN: u64 = u64::MAX;

/// A page fault goes out by the vCPU's switch, and by what the view that its bytes name says of the page, for whatever access.
#[test]
fn faults_that_are_written() {
    let (state, mut out) = ([0; STATE_BYTES], [0; ENTRY_OUT]);
    for (gpa, view, is_written) in [
        (0x1000, 0, true),
        (0x1FFF, 0, true),
        (0xFFF, 0, false),
        (0x2000, 0, false),
        (0x3000, 0, false),
        (0x1000, 1, true),
        (0x3FFF, 1, true),
        (u64::MAX, 0, true),
        (u64::MAX - 4095, 1, true),
        (u64::MAX - 4096, 1, false),
        (0x1000, 2, false),
        (0x3000, 257, false),
        (0x1000, 256, false),
        (u64::MAX, u16::MAX, false),
    ] {
        for access in [0, 1, 2, 3, 4, 7, 8, 255] {
            let mut session = faulting();
            let own = own::Pf { gva: UNKNOWN, gpa, access, view }.bytes();
            assert_eq!(session.enter_event(0, &state, Event::Pf, &own, &mut out).unwrap().event(), None);
            let entry = session.enter_event(1, &state, Event::Pf, &own, &mut out).unwrap();
            assert_eq!(entry.event(), is_written.then_some(Event::Pf), "{gpa:#x} in view {view}");
        }
    }
    let own = own::Pf { gva: 0, gpa: 0x1000, access: 1, view: 0 }.bytes();
    for off in [on_vcpu(10, 1, [10, 0, 0, 0, 0, 0, 0, 0]), access(0, &[(1, 7)])] {
        let mut session = faulting();
        send(&mut session, &[off, on_vcpu(9, 1, [0; 8])]);
        let entry = session.enter_event(1, &state, Event::Pf, &own, &mut out).unwrap();
        assert_eq!(entry.event(), Some(Event::PauseVcpu));
    }
}

/// What a continued read is fed: the place in the reply or in two pages of guest memory, or that there is no page.
#[derive(Clone, Copy)]
enum Fed {
    Reply(usize, usize),
    Guest(usize, usize),
    NoPage,
}

#[test]
fn what_a_fault_is_fed() {
    let top = u64::MAX;
    let data: Vec<u8> = (0..=255).collect();
    for (gva, gpa, address, size, fed) in [
        // what is supplied, from the address that faulted on
        (0x1004, 0x1000, 0x1000, 16, Fed::Reply(4, 16)),
        (0x1000, 0x1000, 0x1000, 16, Fed::Reply(0, 16)),
        (0x100F, 0x1000, 0x1000, 16, Fed::Reply(15, 16)),
        (0x10FF, 0x1000, 0x1000, 256, Fed::Reply(255, 256)),
        (0, 0x1000, 0, 1, Fed::Reply(0, 1)),
        (top - 1, 0x1000, top - 3, 256, Fed::Reply(2, 256)),
        // whether there is a page or not
        (0x1004, top, 0x1000, 16, Fed::Reply(4, 16)),
        // past it, before it, and none
        (0x1010, 0x1000, 0x1000, 16, Fed::Guest(0x1000, 0x2000)),
        (0xFFF, 0x1800, 0x1000, 16, Fed::Guest(0x1800, 0x2000)),
        (0x1000, 0x1FFF, 0x1000, 0, Fed::Guest(0x1FFF, 0x2000)),
        // an address that is not known, and a range that would wrap
        (UNKNOWN, 0x1001, top - 255, 256, Fed::Guest(0x1001, 0x2000)),
        (UNKNOWN, 0x1001, top, 256, Fed::Guest(0x1001, 0x2000)),
        (1, 0x1000, top - 3, 256, Fed::Guest(0x1000, 0x2000)),
        (0, 0x1000, top, 256, Fed::Guest(0x1000, 0x2000)),
        // pages that are not there
        (UNKNOWN, top, 0, 256, Fed::NoPage),
        (0x1010, top - 4095, 0x1000, 16, Fed::NoPage),
    ] {
        for rep in [0, 1] {
            let mut session = faulting();
            fault(&mut session, gva, gpa, 5, 0);
            let message = reply(1, 0, Action::Continue, Event::Pf, &context(address, &data[..size], rep));
            let mut twin = session.clone();
            let (mut out, mut guest) = ([0; MESSAGE_OUT], [0xCC; 0x2000]);
            guest[0x1FFF] = 0xDD;
            let lent = guest;
            let place = guest.as_ptr();
            let answer = session.message(&message, &mut out, &mut guest).unwrap();
            assert_eq!((answer.signal(), answer.bytes()), (resume(Action::Continue, rep.into()), &[][..]));
            let is_part = |bytes: &[u8], whole: *const u8, at| bytes.as_ptr() == whole.wrapping_add(at);
            match (fed, answer) {
                (Fed::Reply(from, to), Answer::Handled { feed: Feed::Supplied(bytes), .. }) => {
                    assert!(bytes == &data[from..to] && is_part(bytes, message.as_ptr(), 40 + from));
                    assert_eq!(answer.feed().bytes(), Some(bytes));
                }
                (Fed::Guest(from, to), Answer::Handled { feed: Feed::Page(bytes), .. }) => {
                    assert!(bytes == &lent[from..to] && is_part(bytes, place, from));
                    assert_eq!(answer.feed().bytes(), Some(bytes));
                }
                (Fed::NoPage, Answer::NoPage { signal, .. }) => assert_eq!(signal, answer.signal()),
                _ => panic!("{answer:?}"),
            }
            let number = if let Fed::NoPage = fed { 12 } else { 0 };
            assert_eq!((answer.number(), answer.is_closing(), answer.error()), (number, false, None));
            assert_eq!((session.awaited(1), session.is_open(), guest == lent), (None, true, true));

            // without memory there is no page, and the session moves all the same
            let told = twin.message(&message, &mut out, &mut []).unwrap();
            match fed {
                Fed::Reply(from, to) => assert_eq!(told.feed().bytes(), Some(&data[from..to])),
                _ => assert_eq!(
                    (told.number(), told.feed(), told.signal()),
                    (12, Feed::None, resume(Action::Continue, rep.into()))
                ),
            }
            assert!(all(&twin) == all(&session));
        }
    }
}

/// Bytes are wanted for a continue of a read alone, by the access that was offered. What closes does so for every action.
#[test]
fn replies_to_a_fault() {
    let (mut out, mut guest) = ([0; MESSAGE_OUT], [0; 0x2000]);
    for access in 0..=255 {
        for (action, rep) in [(Action::Continue, 0), (Action::Continue, 1), (Action::Retry, 0), (Action::Retry, 1)] {
            // page 3 is not in memory
            let mut session = faulting();
            fault(&mut session, UNKNOWN, 0x3123, access, 1);
            // what changes meanwhile does not matter
            send(&mut session, &[on_vcpu(10, 1, [10, 0, 0, 0, 0, 0, 0, 0]), self::access(1, &[(3, 7)])]);
            let message = reply(1, 0, action, Event::Pf, &context(0, &[1; 256], rep));
            let answer = session.message(&message, &mut out, &mut guest).unwrap();
            let is_wanted = access & 1 == 1 && action == Action::Continue;
            assert_eq!((answer.number(), answer.feed()), (if is_wanted { 12 } else { 0 }, Feed::None), "access {access}");
            assert_eq!((answer.signal(), session.awaited(1)), (resume(action, rep.into()), None));
        }
    }
    for action in [Action::Continue, Action::Retry, Action::Crash] {
        let right = context(0x1000, &[3; 256], 1);
        let with = |at: usize, bytes: &[u8]| [&right[..at], bytes, &right[at + bytes.len()..]].concat();
        let wrong = [
            with(8, &257u32.to_le_bytes()),
            with(8, &[0xFF; 4]),
            with(12, &[1]),
            with(13, &[2]),
            with(14, &[1]),
            with(15, &[1]),
        ];
        let sizes = [right[..271].to_vec(), [&right[..], &[0]].concat(), vec![], vec![0; 8]];
        for more in wrong.iter().chain(&sizes) {
            let mut session = faulting();
            fault(&mut session, 0x1000, 0x1000, 1, 0);
            assert!(session.message(&reply(1, 0, action, Event::Pf, more), &mut out, &mut guest).unwrap().is_closing());
        }
        let mut session = faulting();
        fault(&mut session, 0x1000, 0x1000, 1, 0);
        let message = reply(1, 0, action, Event::Pf, &right);
        let answer = session.message(&message, &mut out, &mut guest).unwrap();
        match action {
            Action::Continue => assert_eq!(answer.feed(), Feed::Supplied(&[3; 256])),
            Action::Retry => assert_eq!((answer.signal(), answer.feed()), (resume(action, 1), Feed::None)),
            _ => assert_eq!((answer.signal(), answer.feed()), (Signal::Crash { vcpu: 1 }, Feed::None)),
        }
    }
}

/// In a batch the part is of the input. Where there is no page it ends as it ends with a resume.
#[test]
fn a_batch_is_fed() {
    let (pause, version) = (on_vcpu(9, 1, [1, 0, 0, 0, 0, 0, 0, 0]), message(1, &[]));
    let supplied = reply(1, 0, Action::Continue, Event::Pf, &context(0x1000, b"what the guest is to read", 1));
    let write = message(7, &[&0x1FFBu64.to_le_bytes()[..], &5u64.to_le_bytes(), b"hello"].concat());
    let (mut out, mut signals) = ([0; 2 * MESSAGE_OUT], [0; 16]);

    let (mut session, mut guest) = (faulting(), [0; 0x2000]);
    fault(&mut session, 0x1009, 0x1009, 1, 0);
    let input = [&pause[..], &supplied, &version].concat();
    let done = session.batch(&input, &mut out, &mut signals, &mut guest).unwrap();
    assert_eq!((done.number(), done.used, done.bytes.len(), done.listed), (0, 24 + 296, 16, &[259][..]));
    assert_eq!((done.resume, done.closing, done.no_page), (resume(Action::Continue, 1), false, false));
    assert_eq!(done.feed, Feed::Supplied(b"guest is to read"));
    assert_eq!(done.feed.bytes().unwrap().as_ptr(), input[24 + 40 + 9..].as_ptr());

    // the page, with what was written before in the same batch
    let mut session = faulting();
    fault(&mut session, UNKNOWN, 0x1FFC, 1, 1);
    let input = [&write[..], &supplied].concat();
    let done = session.batch(&input, &mut out, &mut signals, &mut guest).unwrap();
    assert_eq!((done.number(), done.used, done.feed), (0, input.len(), Feed::Page(b"ello")));

    // no page: it is used, ends the batch, and what those before it wrote and signalled is there
    for (before, count, listed) in [(&[][..], 0, &[][..]), (&pause[..], 16, &[259]), (&version, 32, &[])] {
        let mut session = faulting();
        fault(&mut session, 5, u64::MAX, 7, 0);
        let input = [before, &supplied, &pause].concat();
        let done = session.batch(&input, &mut out, &mut signals, &mut guest).unwrap();
        assert_eq!((done.number(), done.used, done.bytes.len(), done.listed), (12, before.len() + 296, count, listed));
        assert_eq!((done.resume, done.closing, done.no_page), (resume(Action::Continue, 1), false, true));
        assert_eq!((done.feed, done.feed.bytes()), (Feed::None, None));
        let rest = &input[done.used..];
        assert_eq!((session.is_open(), session.awaited(1)), (true, None));
        let done = session.batch(rest, &mut out, &mut signals, &mut guest).unwrap();
        assert_eq!((done.number(), done.used, done.listed, done.no_page), (0, 24, &[259][..], false));
    }
}

/// Where no reference stands for guest memory, the page's part is told by its place.
#[test]
fn fed_from_behind_a_pointer() {
    let mut guest = vec![0u8; 0x2000];
    let lent = std::ptr::slice_from_raw_parts_mut(guest.as_mut_ptr(), guest.len());
    let (mut out, mut signals) = ([0; 2 * MESSAGE_OUT], [0; 1]);
    for (gva, gpa, feed) in [
        (UNKNOWN, 0x1ABC, Feed::PageAt { at: 0x1ABC, length: 0x544 }),
        (UNKNOWN, 0x1FFF, Feed::PageAt { at: 0x1FFF, length: 1 }),
        (7, 0x1ABC, Feed::Supplied(b"plied")),
        (UNKNOWN, u64::MAX, Feed::None),
    ] {
        let mut session = faulting();
        fault(&mut session, gva, gpa, 1, 0);
        let mut twin = session.clone();
        let message = reply(1, 0, Action::Continue, Event::Pf, &context(4, b"supplied", 0));
        // SAFETY: nothing else uses the memory while the calls run.
        let answer = unsafe { session.message_at(&message, &mut out, lent) }.unwrap();
        let number = if gpa == u64::MAX { 12 } else { 0 };
        assert_eq!((answer.number(), answer.feed(), answer.signal()), (number, feed, resume(Action::Continue, 0)));
        assert_eq!(answer.feed().bytes(), (gva == 7).then_some(&b"plied"[..]));
        // SAFETY: as before.
        let done = unsafe { twin.batch_at(&message, &mut out, &mut signals, lent) }.unwrap();
        assert_eq!((done.number(), done.used, done.feed, done.no_page), (number, 296, feed, number == 12));
    }
}

/// Commands that succeed, with the offsets of their padding: from the first to the last of each run.
fn padded() -> Vec<(Vec<u8>, Vec<std::ops::RangeInclusive<usize>>)> {
    vec![
        (message(2, &[9, 0, 0, 0, 0, 0, 0, 0]), vec![10..=15]),
        (message(3, &[5, 0, 0, 0, 0, 0, 0, 0]), vec![10..=15]),
        (message(5, &[12, 0, 1, 0, 0, 0, 0, 0]), vec![11..=15]),
        (message(8, &[1, 0, 0, 0, 0, 0, 0, 0]), vec![10..=15]),
        (on_vcpu(9, 1, [1, 0, 0, 0, 0, 0, 0, 0]), vec![10..=15, 17..=23]),
        (on_vcpu(10, 1, [5, 0, 1, 0, 0, 0, 0, 0]), vec![10..=15, 19..=23]),
        (on_vcpu(11, 1, [1, 0, 0, 0, 3, 0, 0, 0]), vec![10..=15, 17..=19]),
        (on_vcpu(12, 1, [1, 0, 0, 0, 0x82, 0, 0, 0xC0]), vec![10..=15, 17..=19]),
        (access(0, &[(7, 5), (9, 1)]), vec![12..=15, 25..=31, 41..=47]),
        (on_vcpu(14, 1, [1, 0, 0, 0, 0, 0, 0, 0]), vec![10..=15, 17..=23]),
        (message(15, &[1, 0, 0, 0, 0, 0, 0, 0]), vec![11..=15]),
    ]
}

/// The first padding byte of a command that is not zero is told: every one, with replies on, behind a pointer, with replies off, and none
/// where another byte is wrong.
#[test]
fn padding_bytes() {
    let (mut out, mut guest) = ([0; MESSAGE_OUT], vec![0u8; 4096]);
    for (clean, runs) in padded() {
        let is_padding = |at: usize| runs.iter().any(|run| run.contains(&at));
        let mut session = begun();
        let answer = session.clone().message(&clean, &mut out, &mut guest).unwrap().padding();
        assert_eq!(answer, None);
        for at in 8..clean.len() {
            let mut wrong = clean.clone();
            wrong[at] |= 0x80;
            let answer = if is_padding(at) { Some(at) } else { None };
            assert_eq!(session.clone().message(&wrong, &mut out, &mut guest).unwrap().padding(), answer, "{wrong:?}");
        }
        // from each on: the first; nothing changes
        let (before, mut wrong) = (all(&session), clean.clone());
        for at in (8..clean.len()).rev().filter(|at| is_padding(*at)) {
            wrong[at] = 1;
            let answer = session.message(&wrong, &mut out, &mut guest).unwrap();
            assert_eq!((answer.number(), answer.error(), answer.padding()), (0, Some(Errno::Einval), Some(at)));
            assert_eq!((answer.bytes().len(), answer.signal(), answer.feed()), (16, Signal::None, Feed::None));
            assert!(matches!(answer, Answer::Handled { padding: Some(offset), .. } if offset.get() as usize == at));
            let lent = std::ptr::slice_from_raw_parts_mut(guest.as_mut_ptr(), guest.len());
            // SAFETY: nothing else uses the memory while the call runs.
            let answer = unsafe { session.message_at(&wrong, &mut out, lent) }.unwrap();
            assert_eq!((answer.error(), answer.padding()), (Some(Errno::Einval), Some(at)));
        }
        assert!(all(&session) == before);
        // with another cause of EINVAL beside it: of 13 a count that does not fit, so that no entry is looked at
        wrong[8] = 200;
        let first = *runs[0].start();
        assert_eq!(session.message(&wrong, &mut out, &mut guest).unwrap().padding(), Some(first));
        runs[0].clone().for_each(|at| wrong[at] = 0);
        let next = runs.get(1).map(|run| *run.start()).filter(|_| clean[0] != 13);
        let answer = session.message(&wrong, &mut out, &mut guest).unwrap();
        assert_eq!((answer.error(), answer.padding()), (Some(Errno::Einval), next));
        // a batch has the same bytes
        let mut signals = [0; 1];
        wrong[first] = 1;
        let done = session.batch(&wrong, &mut out, &mut signals, &mut guest).unwrap();
        assert_eq!((done.number(), done.used, done.bytes.len(), done.listed), (0, wrong.len(), 16, &[][..]));

        // not allowed, but for 2 and 3
        let mut few = Session::fresh(&Settings::allowing_all(2).commands(CommandSet::NONE)).unwrap();
        let answer = few.message(&wrong, &mut out, &mut guest).unwrap();
        let told = if clean[0] < 4 { (Some(Errno::Einval), Some(first)) } else { (Some(Errno::Eperm), None) };
        assert_eq!((answer.error(), answer.padding()), told);

        // replies off: no bytes, and no error in them; message 8 closes
        send(&mut session, &[message(15, &[0, 1, 0, 0, 0, 0, 0, 0])]);
        let answer = session.message(&wrong, &mut out, &mut guest).unwrap();
        let told = if clean[0] == 8 { (1, None) } else { (0, Some(first)) };
        assert_eq!((answer.number(), answer.padding(), answer.error(), answer.bytes()), (told.0, told.1, None, &[][..]));
    }

    // unknown; cut; a reply to an event, whose padding closes
    let (mut session, unknown, whole) = (begun(), message(99, &[0xFF; 8]), message(11, &[0xFF; 16]));
    let answer = session.message(&unknown, &mut out, &mut guest).unwrap();
    assert_eq!((answer.error(), answer.padding()), (Some(Errno::Enosys), None));
    let mut reply = reply(1, 0, Action::Continue, Event::PauseVcpu, &[]);
    for at in [None, Some(10), Some(15), Some(18), Some(23)] {
        let mut session = session.clone();
        send(&mut session, &[on_vcpu(9, 1, [0; 8])]);
        assert!(!session.enter(1, &[0; STATE_BYTES], &mut out).unwrap().may_run());
        at.into_iter().for_each(|at| reply[at] = 1);
        let answer = session.message(&reply, &mut out, &mut guest).unwrap();
        assert_eq!((answer.number(), answer.padding()), (u32::from(at.is_some()), None));
        at.into_iter().for_each(|at| reply[at] = 0);
    }
    let cut = session.message(&whole[..23], &mut out, &mut guest).unwrap();
    assert_eq!((cut, cut.padding()), (Answer::Closing, None));
}

/// The longest message that has entries: its last byte is padding.
#[test]
fn the_last_padding_byte() {
    let mut session = begun();
    let mut longest = access(0, &[(1, 7); 4095]);
    *longest.last_mut().unwrap() = 1;
    let mut out = [0; MESSAGE_OUT];
    assert_eq!(session.message(&longest, &mut out, &mut []).unwrap().padding(), Some(65_535));
    longest[15] = 1;
    assert_eq!(session.message(&longest, &mut out, &mut []).unwrap().padding(), Some(15));
}

/// What a batch is lent.
const UNTOUCHED: (u8, u32) = (0xC3, 0xDEAD_BEEF);

/// A batch on an output and a list of these sizes, past its counts untouched. Gives its number, used bytes, what was written, what was
/// listed, and the resume.
fn batch(session: &mut Session, input: &[u8], out: usize, places: usize) -> (u32, usize, Vec<u8>, Vec<u32>, Signal) {
    let (mut out, mut signals, mut guest) = (vec![UNTOUCHED.0; out], vec![UNTOUCHED.1; places], [0; 4096]);
    let done = session.batch(input, &mut out, &mut signals, &mut guest).unwrap();
    assert_eq!(done.number(), u32::from(done.closing));
    let told = (done.number(), done.used, done.bytes.to_vec(), done.listed.to_vec(), done.resume);
    assert!(out.starts_with(&told.2) && out[told.2.len()..].iter().all(|byte| *byte == UNTOUCHED.0));
    assert!(signals.starts_with(&told.3) && signals[told.3.len()..].iter().all(|code| *code == UNTOUCHED.1));
    told
}

/// Two vCPUs, of which the second is ready; everything is allowed.
fn begun() -> Session {
    let mut session = Session::fresh(&Settings::allowing_all(2)).unwrap();
    session.ready(1).unwrap();
    session
}

/// All that a session has.
fn all(session: &Session) -> (String, Vec<u8>) {
    let mut image = vec![0; session.image_size()];
    let written = session.write_image(&mut image);
    (format!("{session:?} {written:?} {:?}", session.pages()), image)
}

/// Message 9 with wait, of vCPU 1, has 24 bytes and a reply of 16; message 1 has 8 and 32.
#[test]
fn batches_of_two() {
    let (pause, version) = (on_vcpu(9, 1, [1, 0, 0, 0, 0, 0, 0, 0]), message(1, &[]));
    let both = [&pause[..], &version].concat();
    let told = batch(&mut begun(), &both, 2 * MESSAGE_OUT, 1);
    assert_eq!((told.0, told.1, told.2.len(), &told.3[..], told.4), (0, 24, 16, &[259][..], Signal::None));
    let told = batch(&mut begun(), &both, 2 * MESSAGE_OUT, 2);
    assert_eq!((told.0, told.1, told.2.len(), &told.3[..], told.4), (0, 32, 48, &[259][..], Signal::None));
    let told = batch(&mut begun(), &[&version[..], &version].concat(), MESSAGE_OUT, 16);
    assert_eq!((told.0, told.1, told.2.len(), told.3.len()), (0, 8, 32, 0));
    let told = batch(&mut begun(), &[&version[..], &version].concat(), MESSAGE_OUT + 32, 16);
    assert_eq!((told.0, told.1, told.2.len(), told.3.len()), (0, 16, 64, 0));

    // an incomplete last message closes, and is used; but for room it is left
    let mut session = begun();
    let told = batch(&mut session, &[&version[..], &[1, 0, 0]].concat(), 2 * MESSAGE_OUT, 16);
    assert_eq!((told.0, told.1, told.2.len(), told.3.len(), session.is_closed()), (1, 11, 32, 0, true));
    let mut session = begun();
    let told = batch(&mut session, &[1, 0, 0], MESSAGE_OUT, 1);
    assert_eq!((told.0, told.1, told.2.len(), told.3.len(), session.is_closed()), (1, 3, 0, 0, true));
    let mut session = begun();
    let told = batch(&mut session, &[&version[..], &[1, 0, 0]].concat(), MESSAGE_OUT, 16);
    assert_eq!((told.0, told.1, told.2.len(), session.is_closed()), (0, 8, 32, false));
    let told = batch(&mut session, &[&pause[..], &pause[..23]].concat(), 2 * MESSAGE_OUT, 1);
    assert_eq!((told.0, told.1, told.3, session.is_closed()), (0, 24, vec![259], false));

    // what stands behind a message that closes is not used; what stood before it is counted
    for wrong in [message(1, &[0]), message(9, &[0; 15]), on_vcpu(16, 1, [0, 2, 0, 0, 0, 0, 0, 0])] {
        let mut session = begun();
        let told = batch(&mut session, &[&pause[..], &wrong, &pause].concat(), 2 * MESSAGE_OUT, 16);
        assert_eq!((told.0, told.1, told.2.len(), &told.3[..]), (1, 24 + wrong.len(), 16, &[259][..]));
        assert!(session.is_closed() && session.pauses(1) == 0);
    }

    // the longest that a size field can say
    let long = message(99, &[7; 65_535]);
    let told = batch(&mut begun(), &[&long[..], &version].concat(), 2 * MESSAGE_OUT, 1);
    assert_eq!((told.0, told.1, told.2.len()), (0, 65_543 + 8, 16 + 32));
    // none
    assert_eq!(batch(&mut begun(), &[], MESSAGE_OUT, 1), (0, 0, vec![], vec![], Signal::None));
}

/// Each refusal, in its order, leaves session, output, list and guest memory; for an empty input too.
#[test]
fn refused_batches() {
    let pause = on_vcpu(9, 1, [0; 8]);
    let mut closed = begun();
    assert!(closed.message(&[], &mut [0; MESSAGE_OUT], &mut []).unwrap().is_closing());
    for input in [&pause[..], &[], &[1, 0, 0]] {
        for (is_closed, out, places, refusal) in [
            (true, MESSAGE_OUT, 1, Refusal::Closed),
            (true, 0, 0, Refusal::Closed),
            (true, MESSAGE_OUT, 0, Refusal::Closed),
            (false, MESSAGE_OUT - 1, 1, Refusal::ShortOut),
            (false, MESSAGE_OUT - 1, 0, Refusal::ShortOut),
            (false, 0, 16, Refusal::ShortOut),
            (false, MESSAGE_OUT, 0, Refusal::NoPlace),
            (false, 2 * MESSAGE_OUT, 0, Refusal::NoPlace),
        ] {
            let mut session = if is_closed { closed.clone() } else { begun() };
            let before = all(&session);
            let (mut out, mut signals, mut guest) = (vec![UNTOUCHED.0; out], vec![UNTOUCHED.1; places], [5; 4096]);
            assert_eq!(session.batch(input, &mut out, &mut signals, &mut guest), Err(refusal));
            assert!(out.iter().all(|byte| *byte == UNTOUCHED.0) && signals.iter().all(|code| *code == UNTOUCHED.1));
            assert!(guest == [5; 4096] && all(&session) == before);
        }
    }
    assert_eq!((Refusal::NoPlace.number(), Refusal::NoPlace.to_string()), (11, "the list of signals has no place".to_owned()));
}

/// A write of all kinds: replies off and on, an error as an event, guest memory written and read, kicks, a pause that goes on, a crash
/// and two resumes. The vCPUs wait with events before it.
fn all_kinds() -> (Session, Vec<Vec<u8>>) {
    let mut session = Session::fresh(&Settings::allowing_all(4)).unwrap();
    let (state, mut out) = ([0; STATE_BYTES], [0; ENTRY_OUT]);
    for vcpu in 0..4 {
        session.ready(vcpu.into()).unwrap();
        send(&mut session, &[on_vcpu(10, vcpu, [4, 0, 1, 0, 0, 0, 0, 0]), on_vcpu(10, vcpu, [7, 0, 1, 0, 0, 0, 0, 0])]);
    }
    send(&mut session, &[on_vcpu(9, 0, [0; 8])]);
    let int3 = own::Breakpoint { gpa: 0x1000, insn_len: 1 }.bytes();
    assert_eq!(session.enter(0, &state, &mut out).unwrap().event(), Some(Event::PauseVcpu));
    assert_eq!(session.enter_event(1, &state, Event::Breakpoint, &int3, &mut out).unwrap().event(), Some(Event::Breakpoint));
    assert_eq!(session.enter_event(2, &state, Event::Xsetbv, &[], &mut out).unwrap().event(), Some(Event::Xsetbv));
    assert_eq!(session.enter_event(3, &state, Event::Xsetbv, &[], &mut out).unwrap().event(), Some(Event::Xsetbv));
    let at = |size: u64| [4090u64.to_le_bytes(), size.to_le_bytes()].concat();
    let messages = vec![
        message(15, &[0, 1, 1, 0, 0, 0, 0, 0]),
        access(0, &(0..100).map(|page| (page, 5)).collect::<Vec<_>>()),
        on_vcpu(9, 9, [0; 8]),
        message(15, &[1, 1, 0, 0, 0, 0, 0, 0]),
        reply(0, 0, Action::Continue, Event::PauseVcpu, &[]),
        message(7, &[&at(3)[..], b"abc"].concat()),
        reply(3, 3, Action::Crash, Event::Xsetbv, &[]),
        on_vcpu(9, 3, [1, 0, 0, 0, 0, 0, 0, 0]),
        reply(1, 1, Action::Retry, Event::Breakpoint, &[]),
        message(6, &at(4)),
        on_vcpu(9, 0, [0; 8]),
        reply(2, 2, Action::Continue, Event::Xsetbv, &[]),
        message(99, &[1, 2, 3]),
        on_vcpu(9, 2, [1, 0, 0, 0, 0, 0, 0, 0]),
    ];
    (session, messages)
}

/// Whatever room there is, calls until the input is used up do what the single messages do.
#[test]
fn a_batch_is_its_messages() {
    let (mut single, messages) = all_kinds();
    let (mut out, mut memory, mut bytes, mut signals) = ([0; MESSAGE_OUT], [0; 4096], Vec::<u8>::new(), Vec::new());
    for message in &messages {
        let answer = single.message(message, &mut out, &mut memory).unwrap();
        bytes.extend(answer.bytes());
        signals.extend(Some(answer.signal()).filter(|signal| *signal != Signal::None));
    }
    assert_eq!(
        signals,
        [
            Signal::Crash { vcpu: 3 },
            Signal::Kick { vcpu: 3, wait: true },
            Signal::Resume { vcpu: 1, action: Action::Retry, value: 0 },
            Signal::Kick { vcpu: 0, wait: false },
            Signal::Resume { vcpu: 2, action: Action::Continue, value: 0 },
            Signal::Kick { vcpu: 2, wait: true },
        ]
    );
    let input = messages.concat();
    let resumes = [messages[..9].concat().len(), messages[..12].concat().len(), input.len()];
    for room in [0, 1, 15, 16, 31, 32, 568, 599, 600, MESSAGE_OUT] {
        for places in [1, 2, 3, 16] {
            let (mut session, _) = all_kinds();
            let (mut out, mut listed) = (vec![0; MESSAGE_OUT + room], vec![0; places]);
            let (mut guest, mut wrote, mut told, mut at, mut ends) = ([0; 4096], Vec::<u8>::new(), Vec::new(), 0, Vec::new());
            while at < input.len() {
                let done = session.batch(&input[at..], &mut out, &mut listed, &mut guest).unwrap();
                assert!(done.used > 0 && !done.closing && done.signals().len() == done.signals().count());
                wrote.extend(done.bytes);
                assert!(done.signals().all(|signal| !matches!(signal, Signal::None | Signal::Resume { .. })));
                assert_eq!(done.signals().len(), done.listed.len());
                told.extend(done.signals().chain(Some(done.resume).filter(|signal| *signal != Signal::None)));
                at += done.used;
                ends.push(at);
                assert_eq!(done.resume != Signal::None, resumes[..2].contains(&at));
            }
            assert!(wrote == bytes && told == signals && guest == memory, "{room} bytes more, {places} places");
            assert!(all(&session) == all(&single));
            if (room, places) == (MESSAGE_OUT, 16) {
                // a resume ends a batch, and nothing else does
                assert_eq!(ends, resumes);
            }
        }
    }
}

#[test]
fn listed_signals() {
    for vcpu in 0..MAX_VCPUS {
        assert_eq!(Signal::from_listed(256 + 2 * vcpu), Some(Signal::Kick { vcpu, wait: false }));
        assert_eq!(Signal::from_listed(257 + 2 * vcpu), Some(Signal::Kick { vcpu, wait: true }));
        assert_eq!(Signal::from_listed(512 + vcpu), Some(Signal::Crash { vcpu }));
    }
    for code in (0..256).chain(288..512).chain(528..1100).chain([1 << 16 | 256, 1 << 31 | 512, u32::MAX]) {
        assert_eq!(Signal::from_listed(code), None);
    }
    // every vCPU, as the library lists it
    let mut session = Session::fresh(&Settings::allowing_all(MAX_VCPUS)).unwrap();
    (0..MAX_VCPUS).for_each(|vcpu| session.ready(vcpu).unwrap());
    let input: Vec<u8> = (0..16).flat_map(|vcpu| on_vcpu(9, vcpu, [u8::from(vcpu % 3 == 0), 0, 0, 0, 0, 0, 0, 0])).collect();
    let (mut out, mut signals) = ([0; 2 * MESSAGE_OUT], [0; 16]);
    let done = session.batch(&input, &mut out, &mut signals, &mut []).unwrap();
    assert!(done.signals().eq((0..16).map(|vcpu| Signal::Kick { vcpu, wait: vcpu % 3 == 0 })) && done.used == input.len());
    assert_eq!((done.listed[0], done.listed[15], done.bytes.len()), (257, 287, 256));
}

#[test]
fn limits() {
    let mut session = Session::fresh(&Settings::allowing_all(1)).unwrap();
    session.ready(0).unwrap();
    for i in 0..PAUSE_LIMIT {
        assert_eq!(session.pauses(0), i);
        send(&mut session, &[on_vcpu(9, 0, [0; 8])]);
    }
    let (mut out, mut guest) = ([0; MESSAGE_OUT], [0; 4096]);
    assert_eq!(session.message(&on_vcpu(9, 0, [0; 8]), &mut out, &mut guest).unwrap().error(), Some(Errno::Ebusy));
    assert_eq!(session.pauses(0), PAUSE_LIMIT);
    for i in 0..PAGE_LIMIT as u64 {
        send(&mut session, &[access(0, &[(i, 1)])]);
    }
    assert_eq!(session.message(&access(0, &[(5000, 1)]), &mut out, &mut guest).unwrap().error(), Some(Errno::Enomem));
    assert_eq!((session.page_count(), session.pages().len()), (PAGE_LIMIT, PAGE_LIMIT));
    assert!(session.pages().enumerate().all(|(i, page)| page.page == i as u64));
    assert!(session.image_size() <= IMAGE_MAX);
}

#[test]
fn access_in_letters() {
    let texts: Vec<String> = (0..8).map(|bits| Access::from_bits(bits).to_string()).collect();
    assert_eq!(texts, ["---", "r--", "-w-", "rw-", "--x", "r-x", "-wx", "rwx"]);
    assert_eq!(Access::from_bits(0xFD), Access::from_bits(5));
    assert!(Access::RWX.grants(Access::W) && !Access::from_bits(5).grants(Access::W) && Access::NONE.grants(Access::NONE));
    assert_eq!([Access::R, Access::W, Access::X, Access::RWX].map(Access::bits), [1, 2, 4, 7]);
    let mut session = Session::fresh(&Settings::allowing_all(1)).unwrap();
    send(&mut session, &[access(0, &[(3, 5)])]);
    assert_eq!(format!("{:?}", session.pages()), "[Page { view: 0, page: 3, access: r-x }]");
}

/// Access 4, and no other, is taken only where the settings have it.
#[test]
fn execute_only_pages() {
    let has = Settings::allowing_all(2).views(2);
    let lacks = has.clone().execute_only(false);
    let (mut out, mut guest) = ([0; MESSAGE_OUT], [0; 4096]);
    for settings in [&has, &lacks] {
        for bits in 0..=255 {
            let mut session = Session::fresh(settings).unwrap();
            let is_taken = matches!(bits, 0 | 1 | 3 | 5 | 7) || bits == 4 && settings.execute_only;
            let error = session.message(&access(1, &[(9, bits)]), &mut out, &mut guest).unwrap().error();
            assert_eq!(error, (!is_taken).then_some(Errno::Einval), "access {bits}");
            assert_eq!(session.access(1, 9), if is_taken { Access::from_bits(bits) } else { Access::RWX });
            assert_eq!(session.page_count(), usize::from(is_taken && bits != 7));
        }
    }

    // before any entry acts, wherever the access stands
    let mut session = Session::fresh(&lacks).unwrap();
    send(&mut session, &[access(0, &[(1, 5)])]);
    for entries in [[(1, 1), (2, 1), (3, 4)], [(1, 4), (2, 1), (3, 1)], [(1, 7), (1, 4), (1, 7)]] {
        let message = access(0, &entries);
        let answer = session.message(&message, &mut out, &mut guest).unwrap();
        assert_eq!((answer.error(), answer.bytes().len(), answer.signal()), (Some(Errno::Einval), 16, Signal::None));
        let pages: Vec<_> = session.pages().map(|page| (page.page, page.access.bits())).collect();
        assert_eq!(pages, [(1, 5)]);
    }

    // an image: VM, two VCs, and PAs at 28, 42 and 56
    let mut session = Session::fresh(&has).unwrap();
    send(&mut session, &[access(0, &[(1, 5), (2, 4)]), access(1, &[(2, 4)])]);
    let mut image = vec![0; session.image_size()];
    session.write_image(&mut image).unwrap();
    assert_eq!(Session::from_image(&has, &image).unwrap().pages().collect::<Vec<_>>(), session.pages().collect::<Vec<_>>());
    assert_eq!(Session::from_image(&lacks, &image).err(), Some(Refusal::Forbidden { offset: 42 }));
    assert_eq!(session.load(&lacks, &image), Err(Refusal::Forbidden { offset: 42 }));
    assert!(session.is_closed() && session.access(0, 2) == Access::RWX);
    image[42 + 4] = 5;
    assert_eq!(Session::from_image(&lacks, &image).err(), Some(Refusal::Forbidden { offset: 56 }));
    // form comes first
    image[56 + 5] = 1;
    assert_eq!(Session::from_image(&lacks, &image).err(), Some(Refusal::BadForm { offset: 56 }));
    (image[56 + 4], image[56 + 5]) = (1, 0);
    assert_eq!(Session::from_image(&lacks, &image).unwrap().page_count(), 3);
}

fn image_of(session: &Session) -> Vec<u8> {
    let mut image = vec![0; session.image_size()];
    session.write_image(&mut image).unwrap();
    image
}

/// 1 and 2 begin a session, and `KVMI_GET_VERSION` reports which it is; with another number none begins, fresh or from an image, which
/// is not looked at.
#[test]
fn revisions() {
    let settings = Settings::allowing_all(1).features(Features::NONE.ve(9));
    let (mut out, mut guest) = ([0; MESSAGE_OUT], [0; 4096]);
    let image = image_of(&Session::fresh(&settings).unwrap());
    for revision in [1, 2] {
        let settings = settings.clone().revision(revision);
        let mut session = Session::fresh(&settings).unwrap();
        // a new host reads the image under either
        for session in [&mut session, &mut Session::from_image(&settings, &image).unwrap()] {
            assert_eq!(session.settings(), settings);
            let asked = message(1, &[]);
            let answer = session.message(&asked, &mut out, &mut guest).unwrap();
            let reply =
                [1, 0, 24, 0, 0, 0, 0, 0, 0, 0, 0, 0, 0, 0, 0, 0, revision as u8, 0, 0, 0, 0, 0, 0, 0, 0, 0, 0, 9, 0, 0, 0, 0];
            assert_eq!(answer.bytes(), reply);
        }
    }
    for revision in [0, 3, 4, 255, 256, 257, 258, 1 << 16 | 1, 1 << 16 | 2, 1 << 31 | 1, 1 << 31 | 2, u32::MAX] {
        let other = settings.clone().revision(revision);
        assert_eq!(Session::fresh(&other).err(), Some(Refusal::BadSettings), "revision {revision}");
        for image in [&image[..], &image[1..], &[]] {
            assert_eq!(Session::from_image(&other, image).err(), Some(Refusal::BadSettings), "revision {revision}");
        }
        // in place: what was there is closed
        for image in [None, Some(&image)] {
            let mut session = Session::fresh(&settings).unwrap();
            send(&mut session, &[access(0, &[(3, 1)])]);
            let begun = match image {
                Some(image) => session.load(&other, image),
                None => session.begin(&other),
            };
            assert_eq!(begun, Err(Refusal::BadSettings));
            assert!(session.is_closed() && session.page_count() == 0 && session.access(0, 3) == Access::RWX);
        }
    }
}

/// How many pages stand, the entries of a message, and which of them are skipped.
type Row<'a> = (usize, &'a [(u64, u8)], &'a [usize]);

/// A message that sets the access of pages where there is little room: what of it acts is, in revision 1, all but what is skipped; in
/// revision 2 all or nothing.
#[test]
fn page_access_by_revision() {
    let (mut out, mut guest) = ([0; 2 * MESSAGE_OUT], [0; 4096]);
    let rows: [Row; 13] = [
        (PAGE_LIMIT, &[(3, 7), (5000, 1)], &[]),
        (PAGE_LIMIT, &[(5000, 1), (3, 7)], &[0]),
        (PAGE_LIMIT, &[(5000, 1)], &[0]),
        (PAGE_LIMIT, &[(5000, 7), (6000, 7)], &[]),
        (PAGE_LIMIT, &[(3, 1), (4, 0), (1023, 4)], &[]),
        (PAGE_LIMIT, &[(3, 1), (5000, 1), (4, 0)], &[1]),
        (PAGE_LIMIT, &[(5000, 1), (3, 7), (5000, 3)], &[0]),
        (PAGE_LIMIT, &[(3, 7), (5000, 1), (6000, 1), (4, 7), (3, 1)], &[2]),
        (PAGE_LIMIT, &[(3, 7), (3, 1), (3, 7), (3, 0)], &[]),
        (PAGE_LIMIT - 1, &[(5000, 1)], &[]),
        (PAGE_LIMIT - 1, &[(5000, 1), (6000, 1)], &[1]),
        (PAGE_LIMIT - 1, &[(5000, 1), (5000, 7), (6000, 1)], &[]),
        (PAGE_LIMIT - 2, &[(5000, 1), (6000, 1), (7000, 1), (8000, 1)], &[2, 3]),
    ];
    for revision in [1, 2] {
        for (stand, entries, skipped) in rows {
            let case = format!("revision {revision}, {stand} pages, {entries:?}");
            let mut full = Session::fresh(&Settings::allowing_all(1).views(2).revision(revision)).unwrap();
            let pages: Vec<_> = (1024 - stand as u64..1024).map(|page| (page, 5)).collect();
            send(&mut full, &[access(1, &pages)]);
            assert_eq!(full.page_count(), stand);

            // what it should leave, by a message for each entry that acts
            let mut left = full.clone();
            if revision == 1 || skipped.is_empty() {
                let acting = entries.iter().enumerate().filter(|(i, _)| !skipped.contains(i));
                acting.for_each(|(_, entry)| send(&mut left, &[access(1, &[*entry])]));
            }
            let error = (!skipped.is_empty()).then_some(Errno::Enomem);
            let set = access(1, entries);

            let mut session = full.clone();
            let answer = session.message(&set, &mut out, &mut guest).unwrap();
            assert_eq!((answer.error(), answer.signal(), answer.padding()), (error, Signal::None, None), "{case}");
            assert_eq!(answer.bytes().len(), 16, "{case}");
            assert!(image_of(&session) == image_of(&left) && session.pages().eq(left.pages()), "{case}");

            // with replies off but for errors, and off for all
            for (flags, size) in [(1, 568), (0, 0)] {
                let mut session = full.clone();
                send(&mut session, &[message(15, &[0, 1, flags, 0, 0, 0, 0, 0])]);
                let answer = session.message(&set, &mut out, &mut guest).unwrap();
                let is_told = error.is_some() && size > 0;
                assert_eq!(answer.error(), error.filter(|_| is_told), "{case}");
                assert_eq!(answer.bytes().len(), if is_told { size } else { 0 }, "{case}");
                assert!(format!("{session:?}").contains(&format!("next_event_seq: {}", u32::from(is_told))), "{case}");
                assert_eq!(image_of(&session), image_of(&left), "{case}");
            }

            // in a batch
            let mut session = full.clone();
            let input = [set, message(1, &[])].concat();
            let (number, used, bytes, ..) = batch(&mut session, &input, out.len(), 1);
            assert_eq!((number, used, bytes.len()), (0, input.len(), 16 + 32), "{case}");
            assert_eq!(image_of(&session), image_of(&left), "{case}");
        }

        // EINVAL comes first
        let mut session = Session::fresh(&Settings::allowing_all(1).revision(revision)).unwrap();
        let pages: Vec<_> = (0..PAGE_LIMIT as u64).map(|page| (page, 5)).collect();
        send(&mut session, &[access(0, &pages)]);
        let before = image_of(&session);
        let error = session.message(&access(0, &[(5000, 1), (3, 7), (4, 2)]), &mut out, &mut guest).unwrap().error();
        assert_eq!(error, Some(Errno::Einval));
        assert_eq!(image_of(&session), before);
    }
}

#[test]
fn the_list_form() {
    assert_eq!(size_of::<Vcpu>(), 56);
    let odd = |seed: u64| Vcpu {
        ready: 0,
        singlestep: seed,
        crs: !7,
        events: seed << 8,
        pauses: seed << 16,
        awaited: seed << 24,
        awaited_seq: seed << 32,
    };
    let mut vcpus = [odd(1), odd(2), odd(3)];
    let before = vcpus;
    for index in [3, 4, 16, 1 << 32, usize::MAX] {
        assert_eq!(vcpu_list::ready(&mut vcpus, index), Err(Refusal::BadVcpu));
        assert_eq!(vcpu_list::set_cr(&mut vcpus, index, 1, true), Err(Refusal::BadVcpu));
    }
    assert_eq!(vcpu_list::set_cr(&mut vcpus, 1, 0, true), Err(Refusal::NotApplicable));
    assert_eq!(vcpus, before);
    assert_eq!(vcpu_list::ready(&mut vcpus, 1), Ok(()));
    assert_eq!(vcpus, [before[0], Vcpu { ready: 1, ..before[1] }, before[2]]);
    for cr in [1, 2, 5, 6, 7, 8, 32, 1 << 16, 1 << 31, u32::MAX] {
        assert_eq!(vcpu_list::set_cr(&mut vcpus, 1, cr, true), Err(Refusal::NotApplicable));
    }
    for (cr, crs) in [(0, !7 | 1), (3, !7 | 3), (4, !7 | 7)] {
        assert_eq!(vcpu_list::set_cr(&mut vcpus, 1, cr, true), Ok(()));
        assert_eq!(vcpus[1].crs, crs);
    }
    assert_eq!(vcpu_list::set_cr(&mut vcpus, 1, 3, false), Ok(()));
    assert_eq!(vcpus, [before[0], Vcpu { ready: 1, crs: !7 | 5, ..before[1] }, before[2]]);
    assert_eq!(vcpu_list::ready(&mut [], 0), Err(Refusal::BadVcpu));
    assert_eq!(vcpu_list::set_cr(&mut [], 0, 0, false), Err(Refusal::BadVcpu));
    assert_eq!(Refusal::NotApplicable.number(), 14);
    assert_eq!(Refusal::NotApplicable.to_string(), "no such CR, or the vCPU is not ready");
}

#[test]
fn refusals_are_errors() {
    fn begin(vcpus: u32) -> Result<Session, Box<dyn Error + Send + Sync>> {
        Ok(Session::fresh(&Settings::new(vcpus))?)
    }
    assert_eq!(begin(0).unwrap_err().to_string(), "the settings have a count or the revision out of its range");
    let refusals = [
        Refusal::Closed,
        Refusal::ShortOut,
        Refusal::BadVcpu,
        Refusal::BadState,
        Refusal::Waiting,
        Refusal::BadSettings,
        Refusal::BadForm { offset: 5 },
        Refusal::Forbidden { offset: 5 },
        Refusal::Busy,
        Refusal::NoPlace,
        Refusal::NotApplicable,
    ];
    assert_eq!(refusals.map(Refusal::number), [2, 3, 4, 5, 6, 7, 8, 9, 10, 11, 14]);
    let texts = refusals.map(|refusal| refusal.to_string());
    assert!((1..texts.len()).all(|i| !texts[..i].contains(&texts[i])));
}

#[test]
fn a_session_begins_where_nothing_stands() {
    let mut place = Box::new(MaybeUninit::uninit());
    assert_eq!(Session::fresh_in(&mut place, &Settings::new(0)).err(), Some(Refusal::BadSettings));
    let settings = Settings::allowing_all(2);
    let session = Session::fresh_in(&mut place, &settings).unwrap();
    session.ready(1).unwrap();
    let mut image = vec![0; session.image_size()];
    session.write_image(&mut image).unwrap();
    let mut place = Box::new(MaybeUninit::uninit());
    assert_eq!(Session::from_image_in(&mut place, &settings, &[]).err(), Some(Refusal::BadForm { offset: 0 }));
    let moved = Session::from_image_in(&mut place, &settings, &image).unwrap();
    assert!(moved.is_ready(1) && !moved.is_ready(0));
    let mut again = vec![0; moved.image_size()];
    moved.write_image(&mut again).unwrap();
    assert_eq!(again, image);
    assert_eq!(size_of::<Session>(), 43_088);
}

/// Guest memory that no reference stands for.
#[test]
fn memory_behind_a_pointer() {
    let mut session = Session::fresh(&Settings::allowing_all(1)).unwrap();
    let (mut out, mut guest) = ([0; MESSAGE_OUT], vec![0u8; 8192]);
    let lent = std::ptr::slice_from_raw_parts_mut(guest.as_mut_ptr(), guest.len());
    let write = message(7, &[&4100u64.to_le_bytes()[..], &3u64.to_le_bytes(), b"abc"].concat());
    // SAFETY: nothing else uses the memory while the calls run.
    let answer = unsafe { session.message_at(&write, &mut out, lent) }.unwrap();
    assert_eq!((answer.bytes().len(), answer.error()), (16, None));
    let read = message(6, &[4099u64.to_le_bytes(), 5u64.to_le_bytes()].concat());
    // SAFETY: as before.
    let answer = unsafe { session.message_at(&read, &mut out, lent) }.unwrap();
    assert_eq!(&answer.bytes()[16..], b"\0abc\0");
    // both in one batch: the read sees what the write left
    let write = message(7, &[&4101u64.to_le_bytes()[..], &1u64.to_le_bytes(), b"B"].concat());
    let (input, mut out, mut signals) = ([&write[..], &read].concat(), [0; 2 * MESSAGE_OUT], [0; 1]);
    // SAFETY: as before.
    let done = unsafe { session.batch_at(&input, &mut out, &mut signals, lent) }.unwrap();
    assert_eq!(
        (done.used, done.bytes.len(), &done.bytes[32..], done.signals().next()),
        (25 + 24, 16 + 21, &b"\0aBc\0"[..], None)
    );
    // SAFETY: as before.
    assert_eq!(unsafe { session.batch_at(&input, &mut out, &mut [], lent) }, Err(Refusal::NoPlace));
    assert_eq!(&guest[4100..4103], b"aBc");
}

#[test]
fn send_and_sync() {
    fn both<T: Send + Sync + 'static>() {}
    both::<Session>();
    both::<Settings>();
    both::<Answer<'static>>();
    both::<Batch<'static>>();
    both::<Feed<'static>>();
    both::<Signals<'static>>();
    both::<Entry<'static>>();
    both::<Refusal>();
    both::<Signal>();
    both::<Pages<'static>>();
    both::<Page>();
    both::<Vcpu>();

    // sessions on threads of their own, and one that several read
    let mut sessions: Vec<Box<Session>> =
        (0..4).map(|_| Box::new(Session::fresh(&Settings::allowing_all(4)).unwrap())).collect();
    thread::scope(|scope| {
        for (vcpu, session) in (0..).zip(&mut sessions) {
            scope.spawn(move || session.ready(vcpu).unwrap());
        }
    });
    let shared = &sessions[3];
    thread::scope(|scope| {
        for _ in 0..4 {
            scope.spawn(|| assert!(shared.is_ready(3) && !shared.is_ready(0)));
        }
    });
    let moved = sessions.remove(1);
    assert!(thread::spawn(move || moved.is_ready(1)).join().unwrap());
}
