//! What calls answer: answers, entries, signals and refusals.

use crate::show::{self, Hex};
use crate::{Action, Errno, Event, MAX_VCPUS, STATE_BYTES};
use core::fmt;
use core::iter::{Copied, FusedIterator};
use core::num::NonZeroU32;
use core::slice;

/// How many signals a line for a log has.
const SIGNALS: usize = 8;

/// What the host is to do beside sending the bytes.
#[derive(Clone, Copy, Debug, PartialEq, Eq, Hash)]
#[non_exhaustive]
#[must_use = "the tool waits for what a signal asks"]
pub enum Signal {
    /// Nothing.
    None,
    /// Get a vCPU out of the guest.
    Kick {
        /// Which one.
        vcpu: u32,
        /// Before the bytes are sent: the tool wants it out when it is answered.
        wait: bool,
    },
    /// The tool asks that a vCPU, and so the guest, be crashed.
    Crash {
        /// Which one.
        vcpu: u32,
    },
    /// A vCPU goes on from the event that it waits with, which [`Session::enter_event`](crate::Session::enter_event) wrote; from a
    /// pause it goes on without a signal.
    Resume {
        /// Which one.
        vcpu: u32,
        /// [`Action::Continue`]: what the event was about is carried out. [`Action::Retry`]: it is not, and the vCPU enters the guest
        /// again. Never [`Action::Crash`]: that is [`Signal::Crash`].
        action: Action,
        /// Of a CR or an MSR event, what the register is to hold. Of a page fault, the reply's `rep_complete`: 1 where an instruction
        /// with a REP prefix is to be carried out just once, or at least no other fault of it is to be offered; else 0. Of any other
        /// event, 0.
        value: u64,
    },
}

impl Signal {
    /// The one that a number in the list of a [`Batch`] stands for: a kick is 256 + 2 * vCPU + wait, a crash 512 + vCPU.
    #[must_use]
    pub const fn from_listed(code: u32) -> Option<Signal> {
        const KICK: u32 = 256;
        const CRASH: u32 = 512;
        const KICKS: u32 = KICK + 2 * MAX_VCPUS - 1;
        const CRASHES: u32 = CRASH + MAX_VCPUS - 1;
        match code {
            KICK..=KICKS => Some(Signal::Kick { vcpu: (code - KICK) / 2, wait: code % 2 == 1 }),
            CRASH..=CRASHES => Some(Signal::Crash { vcpu: code - CRASH }),
            _ => None,
        }
    }
}

impl fmt::Display for Signal {
    fn fmt(&self, f: &mut fmt::Formatter<'_>) -> fmt::Result {
        match self {
            Signal::None => f.write_str("no signal"),
            Signal::Kick { vcpu, wait: true } => write!(f, "kick vCPU {vcpu} and wait"),
            Signal::Kick { vcpu, wait: false } => write!(f, "kick vCPU {vcpu}"),
            Signal::Crash { vcpu } => write!(f, "crash vCPU {vcpu}"),
            Signal::Resume { vcpu, action, value } => {
                let action = if *action == Action::Retry { "retry" } else { "continue" };
                write!(f, "resume vCPU {vcpu}: {action}, value {value:#x}")
            }
        }
    }
}

/// What an instruction reads whose page fault the tool continues: bytes from the address that faulted on, one at least. They are a part of
/// what was lent, not a copy. The instruction takes as many as it reads; where it reads more, the host reads the rest as at any other
/// address, which may be guarded, too.
///
/// There are some where the access that was offered has R, and the tool's action is [`Action::Continue`]. Where the guest virtual address
/// is known and among those that the tool's reply supplies, they are what it supplies, from that address to the end; else they are those
/// of the guest page, from the guest physical address to the end of the page. Where that page does not lie wholly inside the memory that
/// is lent with the reply there are none: [`Answer::NoPage`].
///
/// ```
/// use semblurick::{own, Access, Action, Event, Feed, Session, Settings, Signal, ENTRY_OUT, MESSAGE_OUT, STATE_BYTES};
///
/// let mut session = Session::fresh(&Settings::allowing_all(1))?;
/// session.ready(0)?;
/// let (mut out, mut event, mut guest) = ([0; MESSAGE_OUT], [0; ENTRY_OUT], [0xCC; 2 * 4096]);
///
/// // KVMI_VCPU_CONTROL_EVENTS and KVMI_VM_SET_PAGE_ACCESS: page faults on, and page 1 to --x
/// let events = [10, 0, 16, 0, 0, 0, 0, 0, 0, 0, 0, 0, 0, 0, 0, 0, 10, 0, 1, 0, 0, 0, 0, 0];
/// let guard = [13, 0, 24, 0, 0, 0, 0, 0, 1, 0, 0, 0, 0, 0, 0, 0, 0, 0x10, 0, 0, 0, 0, 0, 0, 4, 0, 0, 0, 0, 0, 0, 0];
/// assert!(session.message(&events, &mut out, &mut guest)?.error().is_none());
/// assert!(session.message(&guard, &mut out, &mut guest)?.error().is_none());
///
/// // KVMI_EVENT_REPLY: continue, to event 10, with what the guest is to read from an address on
/// let reply = |seq, address: u64, supplied: &[u8]| {
///     let mut reply = vec![16, 0, 32, 1, seq, 0, 0, 0, 0, 0, 0, 0, 0, 0, 0, 0, 0, 10, 0, 0, 0, 0, 0, 0];
///     reply.extend(address.to_le_bytes());
///     reply.extend((supplied.len() as u64).to_le_bytes()); // a u32, padding, and rep_complete 0
///     reply.extend(supplied);
///     reply.resize(8 + 288, 0);
///     reply
/// };
///
/// // the guest reads its own code, at 0x7f1ff8, which is 0x1ff8 in its memory: the tool is asked, and shows it something else
/// let read = own::Pf { gva: 0x7F1FF8, gpa: 0x1FF8, access: Access::R.bits(), view: 0 }.bytes();
/// assert_eq!(session.enter_event(0, &[0; STATE_BYTES], Event::Pf, &read, &mut event)?.event(), Some(Event::Pf));
/// let shown = reply(0, 0x7F1FF0, b"not seen, but this is");
/// let answer = session.message(&shown, &mut out, &mut guest)?;
/// assert_eq!(answer.signal(), Signal::Resume { vcpu: 0, action: Action::Continue, value: 0 });
/// assert_eq!(answer.feed(), Feed::Supplied(b", but this is"));
///
/// // and once more: this time the tool supplies nothing, and the guest reads what stands in its memory
/// assert_eq!(session.enter_event(0, &[0; STATE_BYTES], Event::Pf, &read, &mut event)?.event(), Some(Event::Pf));
/// let unchanged = reply(1, 0, &[]);
/// assert_eq!(session.message(&unchanged, &mut out, &mut guest)?.feed(), Feed::Page(&[0xCC; 8]));
/// # Ok::<(), semblurick::Refusal>(())
/// ```
#[derive(Clone, Copy, PartialEq, Eq)]
#[non_exhaustive]
#[must_use = "the instruction that faulted reads these bytes"]
pub enum Feed<'a> {
    /// No bytes are wanted; or, with [`Answer::NoPage`] and where [`Batch::no_page`] is set, there are none.
    None,
    /// What the tool supplied with its reply: a part of the message, after a batch of the input.
    Supplied(&'a [u8]),
    /// What stands in guest memory.
    Page(&'a [u8]),
    /// The same, by its place in guest memory, inside what was lent: from [`message_at`](crate::Session::message_at) and
    /// [`batch_at`](crate::Session::batch_at), since no reference may stand for that memory. The host reads it, by its pointer.
    PageAt {
        /// The offset of the first byte: the guest physical address that faulted.
        at: usize,
        /// How many there are.
        length: usize,
    },
}

impl<'a> Feed<'a> {
    /// The bytes, where there are some and a reference stands for them: not of [`Feed::PageAt`].
    #[must_use]
    pub const fn bytes(&self) -> Option<&'a [u8]> {
        match self {
            Feed::Supplied(bytes) | Feed::Page(bytes) => Some(bytes),
            Feed::None | Feed::PageAt { .. } => None,
        }
    }

    /// The one that the library tells, of a message or, after a batch, of its input; and of the guest's memory, where a reference stands
    /// for it.
    #[inline]
    pub(crate) fn of(source: u64, at: u64, length: u64, message: &'a [u8], guest: Option<&'a [u8]>) -> Feed<'a> {
        let (at, length) = (at as usize, length as usize);
        // the library promises that there is no other
        debug_assert!(source <= 2, "a feed's source: {source}");
        match (source, guest) {
            (0, _) => Feed::None,
            (1, _) => Feed::Supplied(&message[at..at + length]),
            (_, Some(guest)) => Feed::Page(&guest[at..at + length]),
            (_, None) => Feed::PageAt { at, length },
        }
    }
}

impl fmt::Display for Feed<'_> {
    fn fmt(&self, f: &mut fmt::Formatter<'_>) -> fmt::Result {
        match self {
            Feed::None => f.write_str("fed nothing"),
            Feed::Supplied(bytes) => write!(f, "fed {} bytes of the message", bytes.len()),
            Feed::Page(bytes) => write!(f, "fed {} bytes of guest memory", bytes.len()),
            Feed::PageAt { at, length } => write!(f, "fed {length} bytes of guest memory at {at:#x}"),
        }
    }
}

impl fmt::Debug for Feed<'_> {
    fn fmt(&self, f: &mut fmt::Formatter<'_>) -> fmt::Result {
        match self {
            Feed::None => f.write_str("None"),
            Feed::Supplied(bytes) => f.debug_tuple("Supplied").field(&Hex(bytes)).finish(),
            Feed::Page(bytes) => f.debug_tuple("Page").field(&Hex(bytes)).finish(),
            Feed::PageAt { at, length } => f.debug_struct("PageAt").field("at", at).field("length", length).finish(),
        }
    }
}

/// What became of a message. `{}` is a line for a log, and `{:?}` shows the bytes too.
#[derive(Clone, Copy, PartialEq, Eq)]
#[non_exhaustive]
#[must_use = "the bytes go to the tool, and the signal is to be followed"]
pub enum Answer<'a> {
    /// It was taken.
    #[non_exhaustive]
    Handled {
        /// These bytes of the output go to the tool; there may be none.
        bytes: &'a [u8],
        /// What the host is to do beside.
        signal: Signal,
        /// What the instruction reads, where the signal resumes a vCPU from a page fault.
        feed: Feed<'a>,
        /// Of a command that failed since its padding is not all zero, the offset in the message of the first byte that is not:
        /// [`padding`](Answer::padding).
        padding: Option<NonZeroU32>,
    },
    /// It broke a rule that closes the session. Nothing goes to the tool, and every later call is refused.
    Closing,
    /// It was taken, and this is no refusal: a reply that continues a page fault, and the instruction would be fed from a guest page that
    /// does not lie wholly inside the memory which was lent. Nothing goes to the tool, and the vCPU is resumed; the host feeds it by its
    /// own means, as if there were no tool: from a device, for one.
    #[non_exhaustive]
    NoPage {
        /// The [`Signal::Resume`] of the vCPU.
        signal: Signal,
    },
}

impl<'a> Answer<'a> {
    /// Its number among the host answers.
    #[must_use]
    pub const fn number(&self) -> u32 {
        match self {
            Answer::Handled { .. } => 0,
            Answer::Closing => 1,
            Answer::NoPage { .. } => 12,
        }
    }

    /// The bytes of the output that go to the tool.
    #[must_use]
    pub const fn bytes(&self) -> &'a [u8] {
        match self {
            Answer::Handled { bytes, .. } => bytes,
            Answer::Closing | Answer::NoPage { .. } => &[],
        }
    }

    /// What the host is to do beside sending the bytes.
    pub const fn signal(&self) -> Signal {
        match self {
            Answer::Handled { signal, .. } | Answer::NoPage { signal } => *signal,
            Answer::Closing => Signal::None,
        }
    }

    /// What the instruction reads, where the signal resumes a vCPU from a page fault.
    pub const fn feed(&self) -> Feed<'a> {
        match self {
            Answer::Handled { feed, .. } => *feed,
            Answer::Closing | Answer::NoPage { .. } => Feed::None,
        }
    }

    /// For whoever is asked about an `EINVAL`: which padding byte it was. Where a command failed since its padding is not all zero, the
    /// offset in the message, header included, of the first byte of it that is not. It is told with replies off, too, when there are no
    /// bytes and so no [`error`](Answer::error); and beside any other cause of `EINVAL`, which may be left once the padding is put right.
    ///
    /// None where all padding is zero, so that an `EINVAL` has another cause: with any other error, therefore, and with none. None also
    /// where padding was not looked at: of a command that is unknown or not allowed, and where the session closes; and so of
    /// `KVMI_EVENT_REPLY`, which closes it where its padding is not all zero. The padding of the entries of `KVMI_VM_SET_PAGE_ACCESS` is
    /// looked at only where the message has as many of them as its count says.
    ///
    /// A [`Batch`] tells none: a host that wants it takes the messages one by one.
    ///
    /// ```
    /// use semblurick::{Errno, Session, Settings, MESSAGE_OUT};
    ///
    /// let mut session = Session::fresh(&Settings::allowing_all(1))?;
    /// session.ready(0)?;
    /// let mut out = [0; MESSAGE_OUT];
    ///
    /// // KVMI_VCPU_CONTROL_CR: enable 1, CR3, and a byte of its padding is not zero
    /// let message = [11, 0, 16, 0, 0, 0, 0, 0, 0, 0, 0, 0, 0, 0, 0, 0, 1, 0, 0, 7, 3, 0, 0, 0];
    /// let answer = session.message(&message, &mut out, &mut [])?;
    /// assert_eq!((answer.error(), answer.padding()), (Some(Errno::Einval), Some(19)));
    /// assert_eq!(answer.to_string(), "EINVAL, 16 bytes, no signal, byte 19 of the message, padding, is not zero");
    /// # Ok::<(), semblurick::Refusal>(())
    /// ```
    #[must_use]
    pub const fn padding(&self) -> Option<usize> {
        match self {
            Answer::Handled { padding: Some(offset), .. } => Some(offset.get() as usize),
            Answer::Handled { padding: None, .. } | Answer::Closing | Answer::NoPage { .. } => None,
        }
    }

    /// Whether the message closed the session.
    #[must_use]
    pub const fn is_closing(&self) -> bool {
        matches!(self, Answer::Closing)
    }

    /// The error in the bytes: of a reply, or the one that a CMD_ERROR event tells. None where there is no error, and where
    /// there are no bytes.
    #[must_use]
    pub fn error(&self) -> Option<Errno> {
        show::error(self.bytes())
    }

    /// The same, and where there are no bytes the error that a padding byte stands for.
    fn failure(&self) -> Option<Errno> {
        self.error().or(self.padding().map(|_| Errno::Einval))
    }
}

impl fmt::Display for Answer<'_> {
    fn fmt(&self, f: &mut fmt::Formatter<'_>) -> fmt::Result {
        match self {
            Answer::Closing => f.write_str("the session closes"),
            Answer::NoPage { signal } => write!(f, "taken, no bytes, {signal}, no guest page to feed it from"),
            Answer::Handled { bytes, signal, feed, padding } => {
                match (self.failure(), bytes.len()) {
                    (Some(error), 0) => write!(f, "{error}, no bytes, {signal}")?,
                    (Some(error), count) => write!(f, "{error}, {count} bytes, {signal}")?,
                    (None, 0) => write!(f, "taken, no bytes, {signal}")?,
                    (None, count) => write!(f, "done, {count} bytes, {signal}")?,
                }
                if *feed != Feed::None {
                    write!(f, ", {feed}")?;
                }
                padding.map_or(Ok(()), |offset| write!(f, ", {}", Padding(offset)))
            }
        }
    }
}

impl fmt::Debug for Answer<'_> {
    fn fmt(&self, f: &mut fmt::Formatter<'_>) -> fmt::Result {
        let (bytes, signal, feed, padding) = match self {
            Answer::Handled { bytes, signal, feed, padding } => (bytes, signal, feed, padding),
            Answer::Closing => return f.write_str("Closing"),
            Answer::NoPage { signal } => return f.debug_struct("NoPage").field("signal", signal).finish(),
        };
        let mut list = f.debug_struct("Handled");
        show::header(&mut list, bytes);
        if let Some(error) = self.failure() {
            list.field("error", &error);
        }
        if let Some(offset) = padding {
            list.field("because", &Padding(*offset));
        }
        list.field("bytes", &Hex(bytes)).field("signal", signal);
        if *feed != Feed::None {
            list.field("feed", feed);
        }
        list.finish()
    }
}

/// The offset of a padding byte, as a log has it.
struct Padding(NonZeroU32);

impl fmt::Display for Padding {
    fn fmt(&self, f: &mut fmt::Formatter<'_>) -> fmt::Result {
        write!(f, "byte {} of the message, padding, is not zero", self.0)
    }
}

impl fmt::Debug for Padding {
    fn fmt(&self, f: &mut fmt::Formatter<'_>) -> fmt::Result {
        fmt::Display::fmt(self, f)
    }
}

/// What became of a batch. `{}` is a line for a log, and `{:?}` shows the bytes too.
///
/// What a host does, in this order: what the used messages name to hardware, and where it is [`closing`](Batch::closing) every guard off
/// the guest; [`signals`](Batch::signals); [`bytes`](Batch::bytes) to the tool, and where it is closing the connection ends; last
/// [`resume`](Batch::resume), from a page fault with its [`feed`](Batch::feed), and where it is closing every vCPU that waited goes on,
/// with whatever event, as if there were no tool.
///
/// It does not tell which padding byte a command failed for, as [`Answer::padding`] does: for that, the messages are taken one by one.
#[derive(Clone, Copy, PartialEq, Eq)]
#[non_exhaustive]
#[must_use = "the bytes go to the tool, the signals are to be followed, and the input may not be used up"]
pub struct Batch<'a> {
    /// These bytes of the output go to the tool, what the messages wrote, end to end; there may be none. With a message that closes,
    /// those of the messages before it.
    pub bytes: &'a [u8],
    /// The kicks and crashes, in the messages' order, as they are listed: [`Signal::from_listed`] reads one, and
    /// [`signals`](Batch::signals) all. Its length is the count that is called `listed` in C.
    pub listed: &'a [u32],
    /// How many bytes of the input were used: those of the messages that were taken, of one at least where there is input.
    pub used: usize,
    /// The [`Signal::Resume`] that ended it, or [`Signal::None`]. It is to be followed last, after the bytes are sent, since a vCPU that
    /// goes on may write its next event, into the same buffer for one; and before the rest of the input is handed over.
    pub resume: Signal,
    /// Whether the last message that was used closed the session.
    pub closing: bool,
    /// What the instruction reads, where the resume is from a page fault.
    pub feed: Feed<'a>,
    /// Whether the last message that was used is one that is answered [`Answer::NoPage`] by itself. This is no refusal: the resume is
    /// followed, and the host feeds the instruction by its own means.
    pub no_page: bool,
}

impl<'a> Batch<'a> {
    /// Its number among the host answers.
    #[must_use]
    pub const fn number(&self) -> u32 {
        match (self.closing, self.no_page) {
            (true, _) => 1,
            (false, true) => 12,
            (false, false) => 0,
        }
    }

    /// The kicks and crashes that are listed, in the messages' order: what the host is to do before it sends the bytes. The
    /// [`resume`](Batch::resume) is not among them: it is followed last, after the bytes are sent.
    pub fn signals(&self) -> Signals<'a> {
        Signals { listed: self.listed.iter().copied() }
    }
}

impl fmt::Display for Batch<'_> {
    fn fmt(&self, f: &mut fmt::Formatter<'_>) -> fmt::Result {
        let (mut signals, count) = (self.signals(), self.bytes.len());
        write!(f, "used {} bytes, wrote {count}", self.used)?;
        signals.by_ref().take(SIGNALS).try_for_each(|signal| write!(f, ", {signal}"))?;
        match signals.len() {
            0 => {}
            more => write!(f, " and {more} more")?,
        }
        if self.listed.is_empty() || self.resume != Signal::None {
            write!(f, ", {}", self.resume)?;
        }
        if self.feed != Feed::None {
            write!(f, ", {}", self.feed)?;
        }
        f.write_str(match (self.closing, self.no_page) {
            (true, _) => ", the session closes",
            (false, true) => ", no guest page to feed it from",
            (false, false) => "",
        })
    }
}

impl fmt::Debug for Batch<'_> {
    fn fmt(&self, f: &mut fmt::Formatter<'_>) -> fmt::Result {
        let mut list = f.debug_struct("Batch");
        list.field("used", &self.used).field("messages", &show::Messages(self.bytes)).field("bytes", &Hex(self.bytes));
        list.field("signals", &self.signals()).field("resume", &self.resume).field("closing", &self.closing);
        if self.feed != Feed::None {
            list.field("feed", &self.feed);
        }
        if self.no_page {
            list.field("no_page", &self.no_page);
        }
        list.finish()
    }
}

/// The listed signals of a batch; [`Batch::signals`] gives it.
#[derive(Clone)]
#[must_use = "iterators do nothing unless they are walked"]
pub struct Signals<'a> {
    listed: Copied<slice::Iter<'a, u32>>,
}

impl Iterator for Signals<'_> {
    type Item = Signal;

    #[inline]
    fn next(&mut self) -> Option<Signal> {
        let code = self.listed.next()?;
        let signal = Signal::from_listed(code);
        // the library promises that it lists nothing else
        debug_assert!(signal.is_some(), "{code} in the list of signals");
        Some(signal.unwrap_or(Signal::None))
    }

    #[inline]
    fn size_hint(&self) -> (usize, Option<usize>) {
        self.listed.size_hint()
    }
}

impl ExactSizeIterator for Signals<'_> {}

impl FusedIterator for Signals<'_> {}

impl fmt::Debug for Signals<'_> {
    fn fmt(&self, f: &mut fmt::Formatter<'_>) -> fmt::Result {
        f.debug_list().entries(self.clone()).finish()
    }
}

/// What became of an entry. `{}` is a line for a log, and `{:?}` shows the bytes too.
#[derive(Clone, Copy, PartialEq, Eq)]
#[non_exhaustive]
#[must_use = "the bytes go to the tool, and the vCPU waits where there are some"]
pub struct Entry<'a> {
    /// The event, to be sent to the tool; or no bytes.
    pub bytes: &'a [u8],
}

impl Entry<'_> {
    /// Whether the vCPU may run: no event was written.
    #[must_use]
    pub const fn may_run(&self) -> bool {
        self.bytes.is_empty()
    }

    /// The event that was written, whose reply the vCPU awaits: the one that was offered, or a pause.
    #[must_use]
    pub fn event(&self) -> Option<Event> {
        show::event(self.bytes)
    }
}

impl fmt::Display for Entry<'_> {
    fn fmt(&self, f: &mut fmt::Formatter<'_>) -> fmt::Result {
        match self.event() {
            Some(event) => write!(f, "{event}, {} bytes", self.bytes.len()),
            None => f.write_str("may run, no bytes"),
        }
    }
}

impl fmt::Debug for Entry<'_> {
    fn fmt(&self, f: &mut fmt::Formatter<'_>) -> fmt::Result {
        let mut list = f.debug_struct("Entry");
        show::header(&mut list, self.bytes);
        list.field("bytes", &Hex(self.bytes)).finish()
    }
}

/// Why a call was refused. It changed nothing, but that [`Session::begin`](crate::Session::begin) and
/// [`Session::load`](crate::Session::load) leave a closed session.
#[derive(Clone, Copy, Debug, PartialEq, Eq, Hash)]
#[non_exhaustive]
#[must_use = "a refused call did nothing"]
pub enum Refusal {
    /// The session was closed.
    Closed,
    /// The output is too small: [`MESSAGE_OUT`](crate::MESSAGE_OUT), [`ENTRY_OUT`](crate::ENTRY_OUT) or
    /// [`Session::image_size`](crate::Session::image_size) bytes are needed.
    ShortOut,
    /// The vCPU is not below the count.
    BadVcpu,
    /// The register block is not [`STATE_BYTES`] bytes; or no such event can be offered, or its own bytes have another length, whether
    /// it is switched on or off.
    BadState,
    /// That vCPU's event reply is awaited.
    Waiting,
    /// A count of the settings is out of its range, or their [`revision`](crate::Settings::revision) is neither 1 nor 2.
    BadSettings,
    /// The image breaks a rule.
    BadForm {
        /// Of the record that breaks it; the image's length, if its end is missing; the byte after the end.
        offset: usize,
    },
    /// The image wants what the settings lack: a view, an event that is not allowed, access 4 without
    /// [`Settings::execute_only`](crate::Settings::execute_only).
    Forbidden {
        /// Of the record that wants it.
        offset: usize,
    },
    /// An event reply is awaited, so that there is no image.
    Busy,
    /// The list of signals of a batch has no place.
    NoPlace,
    /// The CR is not 0, 3 or 4, or the record in the list is not ready.
    NotApplicable,
}

impl Refusal {
    /// Its number among the host answers.
    #[must_use]
    pub const fn number(self) -> u32 {
        match self {
            Refusal::Closed => 2,
            Refusal::ShortOut => 3,
            Refusal::BadVcpu => 4,
            Refusal::BadState => 5,
            Refusal::Waiting => 6,
            Refusal::BadSettings => 7,
            Refusal::BadForm { .. } => 8,
            Refusal::Forbidden { .. } => 9,
            Refusal::Busy => 10,
            Refusal::NoPlace => 11,
            Refusal::NotApplicable => 14,
        }
    }

    pub(crate) fn of(number: u32, offset: u64) -> Refusal {
        let offset = offset as usize;
        match number {
            2 => Refusal::Closed,
            3 => Refusal::ShortOut,
            4 => Refusal::BadVcpu,
            5 => Refusal::BadState,
            6 => Refusal::Waiting,
            7 => Refusal::BadSettings,
            8 => Refusal::BadForm { offset },
            9 => Refusal::Forbidden { offset },
            10 => Refusal::Busy,
            11 => Refusal::NoPlace,
            14 => Refusal::NotApplicable,
            // the library promises that there is no other
            _ => unreachable!("host answer {number}"),
        }
    }
}

impl fmt::Display for Refusal {
    fn fmt(&self, f: &mut fmt::Formatter<'_>) -> fmt::Result {
        match self {
            Refusal::Closed => f.write_str("the session is closed"),
            Refusal::ShortOut => f.write_str("the output is too small"),
            Refusal::BadVcpu => f.write_str("no such vCPU"),
            Refusal::BadState => {
                write!(f, "the register block is not {STATE_BYTES} bytes, or no event of that number and length can be offered")
            }
            Refusal::Waiting => f.write_str("this vCPU's event reply is awaited"),
            Refusal::BadSettings => f.write_str("the settings have a count or the revision out of its range"),
            Refusal::BadForm { offset } => write!(f, "the image breaks a rule at byte {offset}"),
            Refusal::Forbidden { offset } => write!(f, "the image wants what the settings lack at byte {offset}"),
            Refusal::Busy => f.write_str("an event reply is awaited"),
            Refusal::NoPlace => f.write_str("the list of signals has no place"),
            Refusal::NotApplicable => f.write_str("no such CR, or the vCPU is not ready"),
        }
    }
}

impl core::error::Error for Refusal {}
