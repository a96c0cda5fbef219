//! A session, and the calls on it.

use crate::{ffi, Action, Answer, Batch, Entry, Feed, Refusal, Settings, Signal};
use core::mem::MaybeUninit;
use core::num::NonZeroU32;
use core::ptr::addr_of_mut;

/// A session, with its tables: 43,088 bytes.
///
/// [`fresh`](Session::fresh) and [`from_image`](Session::from_image) give one by value. Where the stack is small or the move of 43 KB
/// is too dear, keep the memory in a `static` or a box and begin in place: [`begin`](Session::begin) and [`load`](Session::load) on a
/// session that is there, [`fresh_in`](Session::fresh_in) and [`from_image_in`](Session::from_image_in) on memory that holds none yet.
#[derive(Clone)]
#[repr(C)]
pub struct Session {
    pub(crate) raw: ffi::Session,
    pub(crate) vcpus: ffi::Vcpus,
    pub(crate) pages: ffi::Pages,
}

impl Session {
    /// A session that is closed: memory for one that [`begin`](Session::begin) or [`load`](Session::load) makes in place.
    ///
    /// ```
    /// use semblurick::{Session, Settings};
    /// use std::sync::Mutex;
    ///
    /// static GUEST: Mutex<Session> = Mutex::new(Session::closed());
    ///
    /// let mut session = GUEST.lock().unwrap();
    /// assert!(session.is_closed());
    /// session.begin(&Settings::allowing_all(1))?;
    /// session.ready(0)?;
    /// # Ok::<(), semblurick::Refusal>(())
    /// ```
    #[must_use]
    pub const fn closed() -> Session {
        let settings = ffi::Settings {
            vcpus: 0,
            views: 0,
            commands: 0,
            events: 0,
            tsc_speed: 0,
            features: [0; 5],
            descriptors: 0,
            breakpoints_taken: 0,
            execute_only: 0,
            revision: 0,
        };
        let raw = ffi::Session { settings, vm_events: 0, pages: 0, opened: 0, mode: 0, seq: 0, ready: 0 };
        Session { raw, vcpus: [0; ffi::VCPU_WORDS], pages: [0; ffi::PAGE_WORDS] }
    }

    /// A session with every switch off and no vCPU ready.
    ///
    /// # Errors
    /// [`Refusal::BadSettings`].
    #[inline]
    pub fn fresh(settings: &Settings) -> Result<Session, Refusal> {
        Session::made(settings, None)
    }

    /// A session as an image states.
    ///
    /// # Errors
    /// [`Refusal::BadSettings`]; then [`Refusal::BadForm`] or [`Refusal::Forbidden`], for the first record that calls for one. What the
    /// old host's processor had and this one's lacks is forbidden: an execute-only page without [`Settings::execute_only`].
    #[inline]
    pub fn from_image(settings: &Settings, image: &[u8]) -> Result<Session, Refusal> {
        Session::made(settings, Some(image))
    }

    /// Begins as [`fresh`](Session::fresh) does, in place of what was there. Refused, the session is closed.
    ///
    /// # Errors
    /// [`Refusal::BadSettings`].
    #[inline]
    pub fn begin(&mut self, settings: &Settings) -> Result<(), Refusal> {
        // SAFETY: the session is borrowed for this call alone.
        unsafe { Session::begin_at(self, settings, None) }
    }

    /// Begins as [`from_image`](Session::from_image) does, in place of what was there. Refused, the session is closed.
    ///
    /// # Errors
    /// [`Refusal::BadSettings`]; then [`Refusal::BadForm`] or [`Refusal::Forbidden`], for the first record that calls for one.
    #[inline]
    pub fn load(&mut self, settings: &Settings, image: &[u8]) -> Result<(), Refusal> {
        // SAFETY: the session is borrowed for this call alone.
        unsafe { Session::begin_at(self, settings, Some(image)) }
    }

    /// Begins as [`fresh`](Session::fresh) does, in memory where anything may stand: nothing is cleared first, and nothing moved.
    ///
    /// ```
    /// use semblurick::{Session, Settings};
    /// use std::mem::MaybeUninit;
    ///
    /// let mut place = Box::new(MaybeUninit::uninit());
    /// let session: &mut Session = Session::fresh_in(&mut place, &Settings::allowing_all(1))?;
    /// session.ready(0)?;
    /// # Ok::<(), semblurick::Refusal>(())
    /// ```
    ///
    /// # Errors
    /// [`Refusal::BadSettings`].
    #[inline]
    pub fn fresh_in<'a>(place: &'a mut MaybeUninit<Session>, settings: &Settings) -> Result<&'a mut Session, Refusal> {
        Session::made_in(place, settings, None)
    }

    /// Begins as [`from_image`](Session::from_image) does, in memory where anything may stand, as [`fresh_in`](Session::fresh_in).
    ///
    /// # Errors
    /// [`Refusal::BadSettings`]; then [`Refusal::BadForm`] or [`Refusal::Forbidden`], for the first record that calls for one.
    #[inline]
    pub fn from_image_in<'a>(
        place: &'a mut MaybeUninit<Session>,
        settings: &Settings,
        image: &[u8],
    ) -> Result<&'a mut Session, Refusal> {
        Session::made_in(place, settings, Some(image))
    }

    /// A new session: fresh, or as an image states. The library writes it in memory that was never cleared.
    #[inline]
    fn made(settings: &Settings, image: Option<&[u8]>) -> Result<Session, Refusal> {
        let mut session = MaybeUninit::uninit();
        Session::made_in(&mut session, settings, image)?;
        // SAFETY: it was not refused, so that every word is written.
        Ok(unsafe { session.assume_init() })
    }

    #[inline]
    fn made_in<'a>(
        place: &'a mut MaybeUninit<Session>,
        settings: &Settings,
        image: Option<&[u8]>,
    ) -> Result<&'a mut Session, Refusal> {
        // SAFETY: the place is borrowed for this call alone.
        unsafe { Session::begin_at(place.as_mut_ptr(), settings, image) }?;
        // SAFETY: it was not refused, so that every word is written.
        Ok(unsafe { place.assume_init_mut() })
    }

    /// Begins a session, fresh or as an image states, at a place where anything may stand. Every word of it and of its tables is
    /// then written; but refused, the session is closed and no word of the tables is written.
    ///
    /// # Safety
    /// The place is memory for a session, and this call alone uses it.
    #[inline]
    unsafe fn begin_at(place: *mut Session, settings: &Settings, image: Option<&[u8]>) -> Result<(), Refusal> {
        let mut values = Place::uninit();
        // SAFETY: the caller lends the place, the image is only read, and of the session the library uses the settings alone,
        // which are written first.
        let told = unsafe {
            let (raw, vcpus, pages) = (addr_of_mut!((*place).raw), addr_of_mut!((*place).vcpus), addr_of_mut!((*place).pages));
            addr_of_mut!((*raw).settings).write(settings.raw());
            Told::by(&mut values, |result| match image {
                None => ffi::semblurick_raw_fresh(raw, vcpus, pages, result),
                Some(image) => ffi::semblurick_raw_image_read(raw, vcpus, pages, image.as_ptr(), image.len(), result),
            })
        };
        told.done().map(|_| ())
    }

    /// Marks a vCPU ready: the tool can use it from now on.
    ///
    /// # Errors
    /// [`Refusal::Closed`], [`Refusal::BadVcpu`], tested in this order.
    #[inline]
    pub fn ready(&mut self, vcpu: u32) -> Result<(), Refusal> {
        let mut place = Place::uninit();
        // SAFETY: the session is borrowed for this call alone.
        let told = unsafe { Told::by(&mut place, |result| ffi::semblurick_raw_ready(&mut self.raw, vcpu, result)) };
        told.done().map(|_| ())
    }

    /// Takes one message of the tool, header included. `guest` is the guest's physical memory from address 0; a page exists if it
    /// lies wholly inside. The answer has the bytes of `out` that go to the tool; and where it resumes a vCPU from a page fault those of
    /// `message` or of `guest` that the instruction reads: [`Feed`]. All three are borrowed until it is done with.
    ///
    /// Nobody else may use that memory meanwhile, as `&mut` says; where the guest runs, see [`message_at`](Session::message_at).
    ///
    /// # Errors
    /// [`Refusal::Closed`]; [`Refusal::ShortOut`] where `out` has less than [`MESSAGE_OUT`](crate::MESSAGE_OUT) bytes, whatever the
    /// message is. Tested in this order.
    #[inline]
    pub fn message<'a>(&mut self, message: &'a [u8], out: &'a mut [u8], guest: &'a mut [u8]) -> Result<Answer<'a>, Refusal> {
        let mut place = Place::uninit();
        // SAFETY: the memory is borrowed, and nothing else uses it during this call.
        let told = unsafe { self.told(&mut place, message, out, guest) };
        if told.is_usual() {
            return Ok(told.usual(out));
        }
        told.unusual(message, out, Some(guest))
    }

    /// [`message`](Session::message) on guest memory that no reference may stand for, since the guest's vCPUs or devices run
    /// meanwhile. Only `KVMI_VM_READ_PHYSICAL` and `KVMI_VM_WRITE_PHYSICAL` touch it, and nothing but the bytes that a read gives
    /// depends on what stands in it. The reply to a page fault asks how long it is: the part that the instruction reads is told by its
    /// place, [`Feed::PageAt`].
    ///
    /// # Safety
    /// The pointer is not null, and for all of its length the memory is mapped for reading and writing until the call ends and is no
    /// part of the session, the message or `out`. No reference to any of it is alive in this program.
    ///
    /// # Errors
    /// As [`message`](Session::message).
    #[inline]
    pub unsafe fn message_at<'a>(
        &mut self,
        message: &'a [u8],
        out: &'a mut [u8],
        guest: *mut [u8],
    ) -> Result<Answer<'a>, Refusal> {
        let mut place = Place::uninit();
        // SAFETY: the caller lends the memory.
        let told = unsafe { self.told(&mut place, message, out, guest) };
        if told.is_usual() {
            return Ok(told.usual(out));
        }
        told.unusual(message, out, None)
    }

    /// What the library tells of a message.
    ///
    /// # Safety
    /// As for [`message_at`](Session::message_at).
    #[inline]
    unsafe fn told<'t>(&mut self, place: &'t mut Place, message: &[u8], out: &mut [u8], guest: *mut [u8]) -> Told<'t> {
        // SAFETY: the slices are borrowed for this call, what is `&mut` overlaps nothing else, and the caller lends the memory.
        unsafe {
            Told::by(place, |result| {
                ffi::semblurick_raw_message(
                    &mut self.raw,
                    &mut self.vcpus,
                    &mut self.pages,
                    message.as_ptr(),
                    message.len(),
                    out.as_mut_ptr(),
                    out.len(),
                    guest.cast(),
                    guest.len(),
                    result,
                )
            })
        }
    }

    /// Takes several messages of the tool that stand end to end, as one write of it may have them. The session, its tables and the bytes
    /// of guest memory are then as if [`message`](Session::message) had taken the used ones one by one; what they wrote stands end to
    /// end in `out`, their kicks and crashes in `signals`, in their order. Past what the [`Batch`] has of them, both are untouched.
    ///
    /// A guest that runs meanwhile is not as after single messages: `KVMI_VM_READ_PHYSICAL` and `KVMI_VM_WRITE_PHYSICAL`, 6 and 7, read
    /// and write its memory during the call, before a guard of this batch is in hardware and before a vCPU that it kicks is out of the
    /// guest. A tool may count on either in one write: guard a page, then read it; pause a vCPU with wait, then write its code. So,
    /// unless the vCPUs stand still until the batch is followed, a host cuts what it hands over before each message 6 or 7 that stands
    /// behind others: that one begins a call of its own, after those before it are followed (`examples/batch.rs`). A list of one place
    /// ends a batch behind each kick, but not behind a guard.
    ///
    /// A message is its header and as many bytes as its size field says. Where fewer are left the last one is incomplete, and closes
    /// the session: a host that reads a stream hands over the whole messages of what it has read, and keeps the rest until more has
    /// come. It hands over a cut tail only where the stream has ended.
    ///
    /// One message after the other is taken, until the input is used up, or
    /// - a message closes the session: [`Batch::closing`]. It is used, the bytes behind it are not, and what those before it wrote and
    ///   signalled is there;
    /// - a message resumes a vCPU from an event: [`Batch::resume`], from a page fault with [`Batch::feed`] or [`Batch::no_page`]. It is
    ///   used, and the resume is followed before the rest is handed over;
    /// - before a message, whatever it would write or signal, less than [`MESSAGE_OUT`](crate::MESSAGE_OUT) bytes of `out` or no place
    ///   of `signals` are left.
    ///
    /// Where the session is open and [`Batch::used`] is below the input's length, call again with the rest, once this is done with: a
    /// batch that is not refused uses one message at least, if there is one.
    ///
    /// A host follows it in this order: first what the used messages name goes to hardware; then what is listed, so that every vCPU
    /// that is kicked with `wait` is out of the guest before any of the bytes are sent; then the bytes go to the tool; last the resume,
    /// since a vCPU that goes on may write its next event; what it is fed from a page fault is a part of `input` or of `guest`.
    /// [`Batch`] says what differs where the session closes. A vCPU that is to be crashed is not let into the guest any more.
    ///
    /// ```
    /// use semblurick::{Session, Settings, Signal, MESSAGE_OUT};
    ///
    /// let mut session = Session::fresh(&Settings::allowing_all(2))?;
    /// session.ready(1)?;
    ///
    /// // KVMI_VM_CONTROL_CMD_RESPONSE, from now on: replies off, and on again
    /// let off = [15, 0, 8, 0, 1, 0, 0, 0, 0, 1, 0, 0, 0, 0, 0, 0];
    /// let on = [15, 0, 8, 0, 3, 0, 0, 0, 1, 1, 0, 0, 0, 0, 0, 0];
    /// // KVMI_VM_SET_PAGE_ACCESS: a hundred pages of view 0, from page 16 on, to r-x
    /// let mut guard = vec![13, 0, 0x48, 6, 2, 0, 0, 0, 100, 0, 0, 0, 0, 0, 0, 0];
    /// for page in 16..116u64 {
    ///     guard.extend((page << 12).to_le_bytes());
    ///     guard.extend([5, 0, 0, 0, 0, 0, 0, 0]);
    /// }
    /// // KVMI_VCPU_PAUSE of vCPU 1, wait 1
    /// let pause = [9, 0, 16, 0, 4, 0, 0, 0, 1, 0, 0, 0, 0, 0, 0, 0, 1, 0, 0, 0, 0, 0, 0, 0];
    ///
    /// // all of it in one write
    /// let write = [&off[..], &guard, &on, &pause].concat();
    /// let (mut out, mut signals) = ([0; 2 * MESSAGE_OUT], [0; 16]);
    /// let mut rest = &write[..];
    /// while !rest.is_empty() {
    ///     let batch = session.batch(rest, &mut out, &mut signals, &mut [])?;
    ///     // what the used messages name stands in hardware, and then what is listed is followed
    ///     for signal in batch.signals() {
    ///         match signal {
    ///             Signal::Kick { vcpu, wait } => assert_eq!((vcpu, wait), (1, true)), // here the vCPU leaves the guest
    ///             _ => unreachable!("a pause was asked for"),
    ///         }
    ///     }
    ///     // and then the bytes go to the tool: two replies, of 16 bytes each
    ///     assert_eq!((batch.bytes[0], batch.bytes[16], batch.bytes.len()), (15, 9, 32));
    ///     // and last the resume, if there is one
    ///     assert_eq!((batch.resume, batch.closing), (Signal::None, false));
    ///     rest = &rest[batch.used..];
    /// }
    /// assert_eq!((session.page_count(), session.access(0, 115).to_string()), (100, "r-x".to_owned()));
    /// # Ok::<(), semblurick::Refusal>(())
    /// ```
    ///
    /// # Errors
    /// [`Refusal::Closed`]; [`Refusal::ShortOut`] where `out` has less than [`MESSAGE_OUT`](crate::MESSAGE_OUT) bytes;
    /// [`Refusal::NoPlace`] where `signals` has no place. Tested in this order, for an empty input too; nothing is used then.
    #[inline]
    pub fn batch<'a>(
        &mut self,
        input: &'a [u8],
        out: &'a mut [u8],
        signals: &'a mut [u32],
        guest: &'a mut [u8],
    ) -> Result<Batch<'a>, Refusal> {
        // SAFETY: the memory is borrowed, and nothing else uses it during this call.
        let batch = unsafe { self.batch_at(input, out, signals, guest) }?;
        Ok(match batch.feed {
            Feed::PageAt { at, length } => Batch { feed: Feed::Page(&guest[at..at + length]), ..batch },
            _ => batch,
        })
    }

    /// [`batch`](Session::batch) on guest memory that no reference may stand for, since the guest's vCPUs or devices run meanwhile, as
    /// [`message_at`](Session::message_at).
    ///
    /// # Safety
    /// As for [`message_at`](Session::message_at), and the memory is no part of `signals`.
    ///
    /// # Errors
    /// As [`batch`](Session::batch).
    #[inline]
    pub unsafe fn batch_at<'a>(
        &mut self,
        input: &'a [u8],
        out: &'a mut [u8],
        signals: &'a mut [u32],
        guest: *mut [u8],
    ) -> Result<Batch<'a>, Refusal> {
        let mut told = MaybeUninit::<ffi::BatchOutcome>::uninit();
        // SAFETY: the slices are borrowed for this call, what is `&mut` overlaps nothing else, and the caller lends the memory.
        let number = unsafe {
            ffi::semblurick_raw_batch(
                &mut self.raw,
                &mut self.vcpus,
                &mut self.pages,
                input.as_ptr(),
                input.len(),
                out.as_mut_ptr(),
                out.len(),
                signals.as_mut_ptr(),
                signals.len(),
                guest.cast(),
                guest.len(),
                told.as_mut_ptr(),
            )
        };
        // SAFETY: the call has written every word.
        let told = unsafe { told.assume_init() };
        if number > 1 && number != NO_PAGE {
            return Err(Refusal::of(number, 0));
        }
        let resume = match told.signal {
            0 => Signal::None,
            number => resume(number, told.vcpu as u32, told.action, told.value),
        };
        Ok(Batch {
            bytes: &out[..told.count as usize],
            listed: &signals[..told.listed as usize],
            used: told.used as usize,
            resume,
            closing: number == 1,
            feed: Feed::of(told.source, told.at, told.length, input, None),
            no_page: number == NO_PAGE,
        })
    }

    /// To be called before a vCPU enters the guest, with its register block. Where a pause is queued its event is written, and
    /// the vCPU has to wait for the tool's reply; else there are no bytes, and it may run. It may call again after each message.
    ///
    /// # Errors
    /// [`Refusal::Closed`]: nothing is awaited any more; [`Refusal::BadVcpu`]; [`Refusal::BadState`]; [`Refusal::ShortOut`] where
    /// `out` has less than [`ENTRY_OUT`](crate::ENTRY_OUT) bytes, even if none would be written; [`Refusal::Waiting`]: the tool's reply
    /// is still awaited. Tested in this order.
    #[inline]
    pub fn enter<'a>(&mut self, vcpu: u32, state: &[u8], out: &'a mut [u8]) -> Result<Entry<'a>, Refusal> {
        self.enter_event(vcpu, state, 0u32, &[], out)
    }

    /// To be called in place of [`enter`](Session::enter) for a vCPU that left the guest for what the tool may watch, before the host
    /// carries that out: offers it as an event, with its [own bytes](crate::own). The event is an [`Event`](crate::Event) or its
    /// number; a bare number is written `5u32`. After it has offered, the vCPU asks again by [`enter`](Session::enter).
    ///
    /// The event is written exactly if its switch is on: the vCPU's, of `KVMI_EVENT_CREATE_VCPU` the VM's, and of a CR and an MSR also
    /// that of the register which the own bytes name. A page fault is written exactly if the vCPU's switch is on and the page stands below
    /// rwx in the view that the own bytes name, for whatever access, and whether guest memory has that page or not.
    ///
    /// The vCPU then waits until a message's answer signals [`Signal::Resume`] or [`Signal::Crash`]; resumed, from a page fault with what
    /// it is fed ([`Feed`]), it calls [`enter`](Session::enter) before it runs, and does not offer the same event again: that would be
    /// another one. After a retry of a page fault the instruction is executed again, and faults or not by the page's rights of that time.
    /// Where the session closes no signal comes, and the answer is [`Refusal::Closed`]: the vCPU goes on as if the event had been off.
    ///
    /// An event that is off is passed over: the host carries out at once what it was about, as if there were no tool. A queued pause
    /// goes instead, with the register block that was lent, from before that operation; else there are no bytes. [`Entry::event`]
    /// tells which event was written.
    ///
    /// ```
    /// use semblurick::{own, Action, Event, Session, Settings, Signal, ENTRY_OUT, MESSAGE_OUT, STATE_BYTES};
    ///
    /// let mut session = Session::fresh(&Settings::allowing_all(1))?;
    /// session.ready(0)?;
    /// let (mut out, mut event) = ([0; MESSAGE_OUT], [0; ENTRY_OUT]);
    /// let (state, write) = ([0; STATE_BYTES], own::Cr { cr: 3, old_value: 0x1000, new_value: 0x2000 }.bytes());
    ///
    /// // the guest writes CR3, and nobody watches it: the host carries the write out
    /// assert_eq!(session.enter_event(0, &state, Event::Cr, &write, &mut event)?.event(), None);
    ///
    /// // KVMI_VCPU_CONTROL_EVENTS and KVMI_VCPU_CONTROL_CR: CR events on, and CR3
    /// let events = [10, 0, 16, 0, 0, 0, 0, 0, 0, 0, 0, 0, 0, 0, 0, 0, 5, 0, 1, 0, 0, 0, 0, 0];
    /// let cr3 = [11, 0, 16, 0, 0, 0, 0, 0, 0, 0, 0, 0, 0, 0, 0, 0, 1, 0, 0, 0, 3, 0, 0, 0];
    /// assert!(session.message(&events, &mut out, &mut [])?.error().is_none());
    /// assert!(session.message(&cr3, &mut out, &mut [])?.error().is_none());
    ///
    /// // the guest writes it once more: now the bytes go to the tool, and the vCPU waits
    /// assert_eq!(session.enter_event(0, &state, Event::Cr, &write, &mut event)?.event(), Some(Event::Cr));
    ///
    /// // KVMI_EVENT_REPLY: continue, to event 5 with seq 0, and 0x3000 is what CR3 is to hold
    /// let reply = [16, 0, 24, 0, 0, 0, 0, 0, 0, 0, 0, 0, 0, 0, 0, 0, 0, 5, 0, 0, 0, 0, 0, 0, 0, 0x30, 0, 0, 0, 0, 0, 0];
    /// let signal = session.message(&reply, &mut out, &mut [])?.signal();
    /// assert_eq!(signal, Signal::Resume { vcpu: 0, action: Action::Continue, value: 0x3000 });
    ///
    /// // the vCPU enters the guest, offering nothing
    /// assert!(session.enter(0, &state, &mut event)?.may_run());
    /// # Ok::<(), semblurick::Refusal>(())
    /// ```
    ///
    /// # Errors
    /// As [`enter`](Session::enter), in the same order; [`Refusal::BadState`] also where no such event can be offered, or its own bytes
    /// have another length, whether it is switched on or off. Events 3, 4, 5, 7 to 12 and 14 can be offered, and 0, with no bytes,
    /// for none.
    #[inline]
    pub fn enter_event<'a>(
        &mut self,
        vcpu: u32,
        state: &[u8],
        event: impl Into<u32>,
        own: &[u8],
        out: &'a mut [u8],
    ) -> Result<Entry<'a>, Refusal> {
        let mut place = Place::uninit();
        // SAFETY: the session and the slices are borrowed for this call, and what is `&mut` overlaps nothing else.
        let told = unsafe {
            Told::by(&mut place, |result| {
                ffi::semblurick_raw_enter(
                    &mut self.raw,
                    &mut self.vcpus,
                    &self.pages,
                    vcpu,
                    state.as_ptr(),
                    state.len(),
                    event.into(),
                    own.as_ptr(),
                    own.len(),
                    out.as_mut_ptr(),
                    out.len(),
                    result,
                )
            })
        };
        let count = told.done()?;
        Ok(Entry { bytes: &out[..count] })
    }

    /// How many bytes the image of this session has, closed or busy as it may be.
    #[must_use]
    #[inline]
    pub fn image_size(&self) -> usize {
        // SAFETY: all three are only read.
        unsafe { ffi::semblurick_raw_image_size(&self.raw, &self.vcpus, &self.pages) }
    }

    /// Writes the image, for a new host, and says how many bytes it has.
    ///
    /// # Errors
    /// [`Refusal::Closed`]; [`Refusal::Busy`] where any vCPU's event reply is awaited; [`Refusal::ShortOut`] where `out` has less than
    /// [`image_size`](Session::image_size) bytes. Tested in this order.
    #[inline]
    pub fn write_image(&self, out: &mut [u8]) -> Result<usize, Refusal> {
        let mut place = Place::uninit();
        // SAFETY: the session is only read, and the output overlaps nothing else.
        let told = unsafe {
            Told::by(&mut place, |result| {
                ffi::semblurick_raw_image_write(&self.raw, &self.vcpus, &self.pages, out.as_mut_ptr(), out.len(), result)
            })
        };
        told.done()
    }

    /// The settings that it began with.
    #[must_use]
    pub fn settings(&self) -> Settings {
        Settings::of(&self.raw.settings)
    }
}

/// The number of the answer that is no refusal and has no page.
const NO_PAGE: u32 = 12;

/// A resume. The library promises that no signal but those before it has another number.
#[inline]
fn resume(number: u64, vcpu: u32, action: u64, value: u64) -> Signal {
    debug_assert_eq!(number, 3, "a signal's number");
    let action = if action == 1 { Action::Retry } else { Action::Continue };
    Signal::Resume { vcpu, action, value }
}

/// Where a call of the library writes an answer's values. They stay there, since to copy them costs as much as what is read of them.
type Place = MaybeUninit<ffi::Outcome>;

/// What a call of the library told: the answer's number, and its values.
#[derive(Clone, Copy)]
struct Told<'t> {
    number: u32,
    values: &'t ffi::Outcome,
}

impl<'t> Told<'t> {
    /// # Safety
    /// The call is one of the library's, with the result that it is handed: they write every word of it, whatever they answer.
    #[inline]
    unsafe fn by(place: &'t mut Place, call: impl FnOnce(*mut ffi::Outcome) -> u32) -> Told<'t> {
        let number = call(place.as_mut_ptr());
        // SAFETY: the call has written every word.
        Told { number, values: unsafe { place.assume_init_ref() } }
    }

    /// Whether a message was taken, as almost every one is, nothing is fed, and no padding byte is told: one test for all three.
    #[inline]
    fn is_usual(&self) -> bool {
        self.number | self.values.source as u32 | self.values.padding as u32 == 0
    }

    /// The answer then.
    #[inline]
    fn usual<'a>(&self, out: &'a [u8]) -> Answer<'a> {
        Answer::Handled { bytes: &out[..self.values.count as usize], signal: self.signal(), feed: Feed::None, padding: None }
    }

    /// The answer to any message, or the refusal. The guest's memory is there where a reference stands for it.
    #[cold]
    fn unusual<'a>(self, message: &'a [u8], out: &'a [u8], guest: Option<&'a [u8]>) -> Result<Answer<'a>, Refusal> {
        let &ffi::Outcome { source, at, length, padding, .. } = self.values;
        match self.number {
            1 => Ok(Answer::Closing),
            NO_PAGE => Ok(Answer::NoPage { signal: self.signal() }),
            _ => {
                let (bytes, feed) = (&out[..self.done()?], Feed::of(source, at, length, message, guest));
                Ok(Answer::Handled { bytes, signal: self.signal(), feed, padding: NonZeroU32::new(padding as u32) })
            }
        }
    }

    #[inline]
    fn signal(&self) -> Signal {
        let vcpu = self.values.vcpu as u32;
        match self.values.signal {
            0 => Signal::None,
            1 => Signal::Kick { vcpu, wait: self.values.wait != 0 },
            2 => Signal::Crash { vcpu },
            number => resume(number, vcpu, self.values.action, self.values.value),
        }
    }

    /// The count of answer 0, or the refusal.
    #[inline]
    fn done(&self) -> Result<usize, Refusal> {
        match self.number {
            0 => Ok(self.values.count as usize),
            number => Err(Refusal::of(number, self.values.offset)),
        }
    }
}
