//! The two filters, seen through one interface.

use crate::{Lookup, Told};
use reference::list::Record;
use reference::{Action, Answer, Batch, Feed, Settings, Signal};
use std::cell::RefCell;
use std::ops::Range;

/// What can be asked of a filter. `fresh` and `load` begin a session or refuse it.
pub trait Filter: Sized {
    fn fresh(settings: &Settings) -> Result<Self, Answer>;
    fn load(settings: &Settings, image: &[u8]) -> Result<Self, Answer>;
    fn ready(&mut self, vcpu: u32) -> Answer;
    /// The answer, and the error that the bytes written tell.
    fn message(&mut self, message: &[u8], out: &mut [u8], guest: &mut [u8]) -> (Answer, Option<i32>);
    fn batch(&mut self, input: &[u8], out: &mut [u8], signals: &mut [u32], guest: &mut [u8]) -> Batch;
    fn enter(&mut self, vcpu: u32, state: &[u8], event: u32, own: &[u8], out: &mut [u8]) -> Answer;
    fn image_size(&self) -> usize;
    fn write_image(&self, out: &mut [u8]) -> Answer;
    fn look(&self, lookup: Lookup) -> Told;
    /// View, page and access of each page below rwx.
    fn pages(&self) -> Vec<(u32, u64, u8)>;
    fn list_ready(records: &mut [Record], index: usize) -> Answer;
    fn list_cr(records: &mut [Record], index: usize, cr: u32, on: bool) -> Answer;

    /// The settings, where the filter tells them.
    fn settings(&self) -> Option<Settings> {
        None
    }

    /// A copy of the session, where the filter gives one.
    fn copied(&self) -> Option<Self> {
        None
    }
}

/// The proved filter, in its wrapper.
pub struct Proved(Option<Box<semblurick::Session>>);

thread_local! {
    /// Sessions that are done with: the next one begins in the memory of one of them, whatever stands there, as in a host that has
    /// one place for its guest.
    static USED: RefCell<Vec<Box<semblurick::Session>>> = const { RefCell::new(Vec::new()) };
}

impl Drop for Proved {
    fn drop(&mut self) {
        USED.with_borrow_mut(|used| used.extend(self.0.take().filter(|_| used.len() < 4)));
    }
}

impl Proved {
    /// A session in memory that was used before, if there is some.
    fn begun(
        new: impl FnOnce() -> Result<semblurick::Session, semblurick::Refusal>,
        again: impl FnOnce(&mut semblurick::Session) -> Result<(), semblurick::Refusal>,
    ) -> Result<Proved, Answer> {
        let Some(mut session) = USED.with_borrow_mut(Vec::pop) else {
            return new().map(|session| Proved(Some(Box::new(session)))).map_err(refused);
        };
        let answer = again(&mut session).map_err(refused);
        if answer.is_err() {
            assert_nothing_on(&session);
        }
        let proved = Proved(Some(session));
        answer.map(|()| proved)
    }

    fn s(&self) -> &semblurick::Session {
        self.0.as_ref().expect("it is there until it is dropped")
    }

    fn s_mut(&mut self) -> &mut semblurick::Session {
        self.0.as_mut().expect("it is there until it is dropped")
    }
}

/// A session that was refused where another had been is a closed one.
fn assert_nothing_on(s: &semblurick::Session) {
    assert!(s.is_closed() && s.page_count() == 0 && s.page_at(0).is_none() && s.pages().len() == 0);
    assert!(!semblurick::Event::ALL.iter().any(|event| s.vm_event(*event)));
    for vcpu in 0..16 {
        assert!(!s.is_ready(vcpu) && !s.singlestep(vcpu) && s.pauses(vcpu) == 0 && s.awaited(vcpu).is_none());
        assert!(!semblurick::Event::ALL.iter().any(|event| s.vcpu_event(vcpu, *event)));
        assert!(
            ![0, 3, 4].iter().any(|cr| s.cr(vcpu, *cr))
                && ![0, 0x1FFF, 0xC000_0000, 0xC000_1FFF].iter().any(|msr| s.msr(vcpu, *msr))
        );
    }
}

impl Filter for Proved {
    fn fresh(settings: &Settings) -> Result<Proved, Answer> {
        let settings = wrapped(settings);
        Proved::begun(|| semblurick::Session::fresh(&settings), |session| session.begin(&settings))
    }

    fn load(settings: &Settings, image: &[u8]) -> Result<Proved, Answer> {
        let settings = wrapped(settings);
        Proved::begun(|| semblurick::Session::from_image(&settings, image), |session| session.load(&settings, image))
    }

    fn ready(&mut self, vcpu: u32) -> Answer {
        self.s_mut().ready(vcpu).map_or_else(refused, |()| handled(0))
    }

    fn message(&mut self, message: &[u8], out: &mut [u8], guest: &mut [u8]) -> (Answer, Option<i32>) {
        let lent = [message.as_ptr_range(), guest.as_ptr_range()];
        let (answer, error, fed) = match self.s_mut().message(message, out, guest) {
            Err(refusal) => return (refused(refusal), None),
            Ok(answer) => {
                let error = answer.error().map(semblurick::Errno::number);
                let fed = Fed::new(answer.feed(), lent);
                let signal = signalled(answer.signal());
                let (number, told) = (answer.number(), answer.padding());
                let answer = match answer {
                    semblurick::Answer::Closing => Answer::Closing,
                    semblurick::Answer::Handled { bytes, padding, .. } => {
                        let padding = padding.map_or(0, |offset| offset.get() as usize);
                        Answer::Handled { count: bytes.len(), signal, feed: fed.feed, padding }
                    }
                    semblurick::Answer::NoPage { .. } => Answer::NoPage { signal },
                    other => panic!("the reference has no {other}"),
                };
                assert_eq!(number, answer.number());
                assert_eq!(
                    told,
                    Some(padding_of(answer)).filter(|padding| *padding != 0),
                    "the offset of padding, by its name"
                );
                (answer, error, fed)
            }
        };
        fed.check(message, guest);
        (answer, error)
    }

    fn batch(&mut self, input: &[u8], out: &mut [u8], signals: &mut [u32], guest: &mut [u8]) -> Batch {
        let (first, list) = (out.as_ptr(), signals.as_ptr());
        let lent = [input.as_ptr_range(), guest.as_ptr_range()];
        let (batch, fed) = match self.s_mut().batch(input, out, signals, guest) {
            Err(refusal) => {
                let (resume, feed) = (Signal::None, Feed::None);
                return Batch { answer: refused(refusal), used: 0, count: 0, listed: 0, resume, feed };
            }
            Ok(batch) => {
                assert!(batch.bytes.as_ptr() == first && batch.listed.as_ptr() == list);
                let (used, count, listed) = (batch.used, batch.bytes.len(), batch.listed.len());
                let resume = signalled(batch.resume);
                let fed = Fed::new(batch.feed, lent);
                let feed = fed.feed;
                let answer = match (batch.closing, batch.no_page) {
                    (true, false) => Answer::Closing,
                    (false, true) => Answer::NoPage { signal: resume },
                    // "a batch carries none"
                    (false, false) => Answer::Handled { count, signal: resume, feed, padding: 0 },
                    (true, true) => panic!("a batch that closes has no resume"),
                };
                assert_eq!(batch.number(), answer.number());
                (Batch { answer, used, count, listed, resume, feed }, fed)
            }
        };
        fed.check(input, guest);
        batch
    }

    fn enter(&mut self, vcpu: u32, state: &[u8], event: u32, own: &[u8], out: &mut [u8]) -> Answer {
        let s = self.s_mut();
        let named = u16::try_from(event).ok().and_then(semblurick::Event::from_number);
        let entry = match (named, event, own) {
            (_, 0, []) => s.enter(vcpu, state, out),
            (Some(event), _, _) => s.enter_event(vcpu, state, event, own, out),
            _ => s.enter_event(vcpu, state, event, own, out),
        };
        entry.map_or_else(refused, |entry| {
            assert_eq!(entry.may_run(), entry.bytes.is_empty());
            assert_eq!(entry.event().map(|event| event.number()), entry.bytes.get(12).copied().map(u16::from));
            handled(entry.bytes.len())
        })
    }

    fn image_size(&self) -> usize {
        self.s().image_size()
    }

    fn write_image(&self, out: &mut [u8]) -> Answer {
        self.s().write_image(out).map_or_else(refused, handled)
    }

    fn look(&self, lookup: Lookup) -> Told {
        let s = self.s();
        match lookup {
            Lookup::IsOpen => {
                assert_ne!(s.is_open(), s.is_closed());
                Told::Flag(s.is_open())
            }
            Lookup::IsReady { vcpu } => Told::Flag(s.is_ready(vcpu)),
            Lookup::VmEvent { event } => Told::Flag(s.vm_event(event)),
            Lookup::VcpuEvent { vcpu, event } => Told::Flag(s.vcpu_event(vcpu, event)),
            Lookup::Cr { vcpu, cr } => Told::Flag(s.cr(vcpu, cr)),
            Lookup::Msr { vcpu, msr } => Told::Flag(s.msr(vcpu, msr)),
            Lookup::Singlestep { vcpu } => Told::Flag(s.singlestep(vcpu)),
            Lookup::Pauses { vcpu } => Told::Number(s.pauses(vcpu) as u64),
            Lookup::Awaited { vcpu } => Told::Number(s.awaited(vcpu).map_or(0, |event| event.number().into())),
            Lookup::PageCount => Told::Number(s.page_count() as u64),
            Lookup::Access { view, page } => Told::Number(s.access(view, page).bits().into()),
            Lookup::PageAt { i } => Told::Page(s.page_at(i as usize).map(|page| (page.view, page.page, page.access.bits()))),
        }
    }

    fn pages(&self) -> Vec<(u32, u64, u8)> {
        let pages = self.s().pages();
        assert_eq!(pages.len(), self.s().page_count());
        pages.map(|page| (page.view, page.page, page.access.bits())).collect()
    }

    fn list_ready(records: &mut [Record], index: usize) -> Answer {
        on_list(records, |vcpus| semblurick::vcpu_list::ready(vcpus, index))
    }

    fn list_cr(records: &mut [Record], index: usize, cr: u32, on: bool) -> Answer {
        on_list(records, |vcpus| semblurick::vcpu_list::set_cr(vcpus, index, cr, on))
    }

    fn settings(&self) -> Option<Settings> {
        let told = self.s().settings();
        let f = told.features;
        Some(Settings {
            vcpus: told.vcpus,
            views: told.views,
            commands: told.commands.bits(),
            events: told.events.bits(),
            tsc: told.tsc_speed,
            features: [f.singlestep, f.vmfunc, f.eptp, f.ve, f.spp],
            descriptors: told.descriptors,
            breakpoints: told.breakpoints_taken,
            execute_only: told.execute_only,
            revision: told.revision,
        })
    }

    fn copied(&self) -> Option<Proved> {
        Some(Proved(self.0.clone()))
    }
}

/// What the wrapper feeds an instruction: as the reference has it, and the bytes as they stood.
struct Fed {
    feed: Feed,
    bytes: Vec<u8>,
}

impl Fed {
    /// The place of the wrapper's bytes in the message or in guest memory, which lie here.
    fn new(feed: semblurick::Feed, [message, guest]: [Range<*const u8>; 2]) -> Fed {
        let place = |part: &[u8], lent: Range<*const u8>| {
            let (lent, part) = (lent.start.addr()..lent.end.addr(), part.as_ptr_range());
            let (start, end) = (part.start.addr(), part.end.addr());
            assert!(lent.start <= start && start < end && end <= lent.end, "bytes for an instruction that were not lent");
            (start - lent.start, end - start)
        };
        let bytes = feed.bytes().unwrap_or_default().to_vec();
        let feed = match feed {
            semblurick::Feed::None => Feed::None,
            semblurick::Feed::Supplied(part) => {
                let (at, length) = place(part, message);
                Feed::Supplied { at, length }
            }
            semblurick::Feed::Page(part) => {
                let (at, length) = place(part, guest);
                Feed::Page { at, length }
            }
            other => panic!("the reference has no {other}"),
        };
        Fed { feed, bytes }
    }

    /// The bytes are those that stand in that place.
    fn check(&self, message: &[u8], guest: &[u8]) {
        match self.feed {
            Feed::None => assert!(self.bytes.is_empty()),
            Feed::Supplied { at, length } => assert_eq!(self.bytes, message[at..at + length]),
            Feed::Page { at, length } => assert_eq!(self.bytes, guest[at..at + length]),
        }
    }
}

/// A signal of the wrapper, as the reference has it.
fn signalled(signal: semblurick::Signal) -> Signal {
    let narrow = |vcpu: u32| u16::try_from(vcpu).expect("a vCPU below 16");
    match signal {
        semblurick::Signal::None => Signal::None,
        semblurick::Signal::Kick { vcpu, wait } => Signal::Kick { vcpu: narrow(vcpu), wait },
        semblurick::Signal::Crash { vcpu } => Signal::Crash { vcpu: narrow(vcpu) },
        semblurick::Signal::Resume { vcpu, action, value } => {
            let action = match action {
                semblurick::Action::Continue => Action::Continue,
                semblurick::Action::Retry => Action::Retry,
                other => panic!("a resume has no {other}"),
            };
            Signal::Resume { vcpu: narrow(vcpu), action, value }
        }
        other => panic!("the reference has no {other}"),
    }
}

/// A call on the wrapper's records, which get the words of these and give them back.
fn on_list(records: &mut [Record], call: impl FnOnce(&mut [semblurick::Vcpu]) -> Result<(), semblurick::Refusal>) -> Answer {
    let vcpu = |r: &Record| semblurick::Vcpu {
        ready: r.ready,
        singlestep: r.singlestep,
        crs: r.crs,
        events: r.events,
        pauses: r.pauses,
        awaited: r.awaited,
        awaited_seq: r.awaited_seq,
    };
    let mut vcpus: Vec<semblurick::Vcpu> = records.iter().map(vcpu).collect();
    let answer = call(&mut vcpus).map_or_else(refused, |()| handled(0));
    for (record, v) in records.iter_mut().zip(&vcpus) {
        *record = Record {
            ready: v.ready,
            singlestep: v.singlestep,
            crs: v.crs,
            events: v.events,
            pauses: v.pauses,
            awaited: v.awaited,
            awaited_seq: v.awaited_seq,
        };
    }
    answer
}

/// Answer 0 with nothing asked of the host.
pub const fn handled(count: usize) -> Answer {
    Answer::Handled { count, signal: Signal::None, feed: Feed::None, padding: 0 }
}

/// The offset of padding that an answer tells, 0 for none.
pub fn padding_of(answer: Answer) -> usize {
    match answer {
        Answer::Handled { padding, .. } => padding,
        _ => 0,
    }
}

/// The answer with another offset of padding, if it is one that has them.
pub fn with_padding(answer: Answer, padding: usize) -> Answer {
    match answer {
        Answer::Handled { count, signal, feed, .. } => Answer::Handled { count, signal, feed, padding },
        _ => answer,
    }
}

fn refused(refusal: semblurick::Refusal) -> Answer {
    use semblurick::Refusal;
    let answer = match refusal {
        Refusal::Closed => Answer::Closed,
        Refusal::ShortOut => Answer::ShortOut,
        Refusal::BadVcpu => Answer::BadVcpu,
        Refusal::BadState => Answer::BadState,
        Refusal::Waiting => Answer::Waiting,
        Refusal::BadSettings => Answer::BadSettings,
        Refusal::BadForm { offset } => Answer::BadForm { offset },
        Refusal::Forbidden { offset } => Answer::Forbidden { offset },
        Refusal::Busy => Answer::Busy,
        Refusal::NoPlace => Answer::NoPlace,
        Refusal::NotApplicable => Answer::NotApplicable,
        other => panic!("the reference has no {other}"),
    };
    assert_eq!(refusal.number(), answer.number());
    answer
}

fn wrapped(settings: &Settings) -> semblurick::Settings {
    let [singlestep, vmfunc, eptp, ve, spp] = settings.features;
    let features = semblurick::Features::NONE.singlestep(singlestep).vmfunc(vmfunc).eptp(eptp).ve(ve).spp(spp);
    semblurick::Settings::new(settings.vcpus)
        .views(settings.views)
        .commands(semblurick::CommandSet::from_bits(settings.commands))
        .events(semblurick::EventSet::from_bits(settings.events))
        .tsc_speed(settings.tsc)
        .features(features)
        .descriptors(settings.descriptors)
        .breakpoints_taken(settings.breakpoints)
        .execute_only(settings.execute_only)
        .revision(settings.revision)
}

/// The plain implementation.
#[derive(Clone)]
pub struct Plain(pub reference::Session);

impl Filter for Plain {
    fn fresh(settings: &Settings) -> Result<Plain, Answer> {
        reference::Session::fresh(settings.clone()).map(Plain)
    }

    fn load(settings: &Settings, image: &[u8]) -> Result<Plain, Answer> {
        reference::Session::read_image(settings.clone(), image).map(Plain)
    }

    fn ready(&mut self, vcpu: u32) -> Answer {
        self.0.ready(narrow(vcpu))
    }

    fn message(&mut self, message: &[u8], out: &mut [u8], guest: &mut [u8]) -> (Answer, Option<i32>) {
        let answer = self.0.message(message, out, guest);
        match answer {
            Answer::Handled { count, .. } => (answer, told_error(&out[..count])),
            _ => (answer, None),
        }
    }

    fn batch(&mut self, input: &[u8], out: &mut [u8], signals: &mut [u32], guest: &mut [u8]) -> Batch {
        self.0.batch(input, out, signals, guest)
    }

    fn enter(&mut self, vcpu: u32, state: &[u8], event: u32, own: &[u8], out: &mut [u8]) -> Answer {
        self.0.enter(narrow(vcpu), state, event, own, out)
    }

    fn image_size(&self) -> usize {
        self.0.image_size()
    }

    fn write_image(&self, out: &mut [u8]) -> Answer {
        self.0.write_image(out)
    }

    fn look(&self, lookup: Lookup) -> Told {
        let s = &self.0;
        match lookup {
            Lookup::IsOpen => Told::Flag(s.is_open()),
            Lookup::IsReady { vcpu } => Told::Flag(s.is_ready(vcpu)),
            Lookup::VmEvent { event } => Told::Flag(s.vm_event(event)),
            Lookup::VcpuEvent { vcpu, event } => Told::Flag(s.vcpu_event(vcpu, event)),
            Lookup::Cr { vcpu, cr } => Told::Flag(s.cr(vcpu, cr)),
            Lookup::Msr { vcpu, msr } => Told::Flag(s.msr(vcpu, msr)),
            Lookup::Singlestep { vcpu } => Told::Flag(s.singlestep(vcpu)),
            Lookup::Pauses { vcpu } => Told::Number(s.pauses(vcpu).into()),
            Lookup::Awaited { vcpu } => Told::Number(s.awaited(vcpu).unwrap_or(0).into()),
            Lookup::PageCount => Told::Number(s.page_count() as u64),
            Lookup::Access { view, page } => Told::Number(s.access(view, page).into()),
            Lookup::PageAt { i } => Told::Page(s.page_at(i as usize).map(|page| (page.view, page.page, page.access))),
        }
    }

    fn pages(&self) -> Vec<(u32, u64, u8)> {
        self.0.pages().map(|page| (page.view, page.page, page.access)).collect()
    }

    fn list_ready(records: &mut [Record], index: usize) -> Answer {
        reference::list::ready(records, index)
    }

    fn list_cr(records: &mut [Record], index: usize, cr: u32, on: bool) -> Answer {
        reference::list::set_cr(records, index, cr, on)
    }

    fn settings(&self) -> Option<Settings> {
        Some(self.0.settings().clone())
    }

    fn copied(&self) -> Option<Plain> {
        Some(self.clone())
    }
}

/// A number that 16 bits can't hold is a vCPU that isn't there, like the highest of them.
fn narrow(vcpu: u32) -> u16 {
    vcpu.try_into().unwrap_or(u16::MAX)
}

/// The error that written bytes tell, if it is not 0: a CMD_ERROR's own, told by id 17 and 568 bytes together, or a reply's.
pub fn told_error(bytes: &[u8]) -> Option<i32> {
    let at = if bytes.len() == 568 && bytes[..2] == [17, 0] { 552 } else { 8 };
    let code = bytes.get(at..at + 4)?;
    let code = i32::from_le_bytes(code.try_into().expect("four bytes"));
    (code != 0).then_some(code)
}
