//! Calls on both sides, and the comparing.

mod batch;

use crate::look::{self, Lookup, Told};
use crate::{handled, padding_of, with_padding};
use crate::{Call, Counts, Filter, Random, BATCH_ROOM, GUEST_ROOM, LIST_ROOM, OUT_ROOM, STATE_ROOM};
pub(crate) use batch::Taken;
use reference::list::Record;
use reference::{Answer, Batch, Feed, Settings};
use std::fmt;
use std::panic::{catch_unwind, AssertUnwindSafe};

/// Bytes that no call is lent, after each output and guest memory, and places after each list: they are compared too.
const GUARD: usize = 64;

/// What stands in an image's output before it is written.
const BLANK: u8 = 0xC3;

/// The first difference of a list of calls.
#[derive(Clone, Debug)]
pub struct Mismatch {
    /// Which call of the list it was.
    pub at: usize,
    /// The call's word and what was unlike; for a message, its number too.
    pub word: &'static str,
    pub part: &'static str,
    pub id: u16,
    pub left: String,
    pub right: String,
    /// The lookup that shows it, where it is between calls: the first behind the call.
    pub lookup: Option<Lookup>,
}

impl Mismatch {
    /// Whether two are of the same kind. Of images it does not matter what is unlike.
    pub fn is_like(&self, other: &Mismatch) -> bool {
        (self.word, self.id) == (other.word, other.id) && (self.part == other.part || self.word == "image")
    }
}

impl fmt::Display for Mismatch {
    fn fmt(&self, f: &mut fmt::Formatter<'_>) -> fmt::Result {
        let Mismatch { at, word, part, left, right, .. } = self;
        write!(f, "call {} ({word}): {part}\nleft:  {left}\nright: {right}", at + 1)
    }
}

/// What a side lends to its filter.
struct Lent {
    out: Vec<u8>,
    guest: Vec<u8>,
    image: Vec<u8>,
    signals: Vec<u32>,
}

struct Pair<L, R> {
    left: L,
    right: R,
    settings: Settings,
}

/// How much is asked between two calls.
#[derive(Clone, Copy, PartialEq, Eq)]
pub enum Looks {
    /// What the call touched, and some of the rest.
    Near,
    /// All but MSRs.
    All,
    /// All, and every MSR of a vCPU.
    Msrs,
}

/// Makes calls on a left and a right filter, each with memory of its own.
pub struct Runner<L, R> {
    session: Option<Pair<L, R>>,
    /// The session of an image that was read and is not kept, until the next call.
    passing: Option<Pair<L, R>>,
    /// Lookups to be asked.
    lookups: Vec<Lookup>,
    left: Lent,
    right: Lent,
    /// For the messages of a batch, one by one.
    single: Lent,
    /// What stands in the outputs, guest memories and lists at first, and what register blocks are taken from: no byte is zero.
    pattern: Vec<u8>,
    guest: Vec<u8>,
    signals: Vec<u32>,
    states: Vec<u8>,
    /// How many bytes of the outputs the last call wrote, how many of the images, and how many places of the lists.
    written: usize,
    image: usize,
    listed: usize,
    /// The last call's answer, and its result if it was a batch.
    answer: Option<Answer>,
    batch: Option<Batch>,
    /// The most output that was lent, since it was all as at first.
    lent: usize,
    pub counts: Counts,
}

fn text_of(panic: Box<dyn std::any::Any + Send>) -> String {
    let text = panic.downcast_ref::<String>().cloned();
    let text = text.or(panic.downcast_ref::<&str>().map(|text| (*text).to_owned()));
    format!("panicked: {}", text.unwrap_or_default())
}

/// Both results, or which side panicked.
fn both<A, B>(left: impl FnOnce() -> A, right: impl FnOnce() -> B) -> Result<(A, B), Unlike> {
    let told = text_of;
    let answered = || "did not panic".to_owned();
    match (catch_unwind(AssertUnwindSafe(left)), catch_unwind(AssertUnwindSafe(right))) {
        (Ok(left), Ok(right)) => Ok((left, right)),
        (Err(left), Ok(_)) => Err(Unlike { part: "panic", left: told(left), right: answered() }),
        (Ok(_), Err(right)) => Err(Unlike { part: "panic", left: answered(), right: told(right) }),
        (Err(left), Err(right)) => Err(Unlike { part: "panic", left: told(left), right: told(right) }),
    }
}

/// A mismatch whose place is not known yet.
struct Unlike {
    part: &'static str,
    left: String,
    right: String,
}

/// The lookup that two filters do not answer alike, or not as they have to.
fn unlike(lookup: Lookup, left: Told, right: Told) -> Unlike {
    Unlike { part: lookup.name(), left: format!("{lookup:?} gives {left:?}"), right: format!("{lookup:?} gives {right:?}") }
}

fn same<T: PartialEq + fmt::Debug>(part: &'static str, left: &T, right: &T) -> Result<(), Unlike> {
    if left == right {
        Ok(())
    } else {
        Err(Unlike { part, left: format!("{left:?}"), right: format!("{right:?}") })
    }
}

fn same_bytes(part: &'static str, left: &[u8], right: &[u8]) -> Result<(), Unlike> {
    if left == right {
        return Ok(());
    }
    let at = left.iter().zip(right).position(|(left, right)| left != right).unwrap_or(left.len().min(right.len()));
    let told = |bytes: &[u8]| {
        let end = bytes.len().min(at + 16);
        format!("{} bytes, from byte {at}: {:02x?}", bytes.len(), &bytes[at.min(end)..end])
    };
    Err(Unlike { part, left: told(left), right: told(right) })
}

impl<L: Filter, R: Filter> Default for Runner<L, R> {
    fn default() -> Self {
        Runner::new()
    }
}

impl<L: Filter, R: Filter> Runner<L, R> {
    pub fn new() -> Runner<L, R> {
        let bytes = |seed, length| -> Vec<u8> { Random::new(seed).bytes(length).into_iter().map(|byte| byte.max(1)).collect() };
        let (pattern, guest, states) = (bytes(0, BATCH_ROOM + GUARD), bytes(1, GUEST_ROOM + GUARD), bytes(2, STATE_ROOM + 256));
        let (words, _) = pattern.as_chunks();
        let signals: Vec<u32> = words[..LIST_ROOM + GUARD].iter().map(|word| u32::from_le_bytes(*word)).collect();
        let lent = || Lent { out: pattern.clone(), guest: guest.clone(), image: Vec::new(), signals: signals.clone() };
        let (left, right, single) = (lent(), lent(), lent());
        Runner {
            session: None,
            passing: None,
            lookups: Vec::new(),
            left,
            right,
            single,
            pattern,
            guest,
            signals,
            states,
            written: 0,
            image: 0,
            listed: 0,
            answer: None,
            batch: None,
            lent: 0,
            counts: Counts::default(),
        }
    }

    /// No session, and lent memory as at first.
    pub fn reset(&mut self) {
        (self.session, self.passing) = (None, None);
        (self.written, self.image, self.listed) = (0, 0, 0);
        (self.answer, self.batch) = (None, None);
        let end = compared(self.lent);
        for lent in [&mut self.left, &mut self.right, &mut self.single] {
            lent.out[..end].copy_from_slice(&self.pattern[..end]);
            lent.guest.copy_from_slice(&self.guest);
            lent.signals.copy_from_slice(&self.signals);
        }
        self.lent = 0;
    }

    /// The last call's answer.
    pub fn answer(&self) -> Option<Answer> {
        self.answer
    }

    /// The last call's result, if it was a batch.
    pub fn batch(&self) -> Option<&Batch> {
        self.batch.as_ref()
    }

    /// The bytes that the last call wrote, images excepted.
    pub fn bytes(&self) -> &[u8] {
        &self.left.out[..self.written]
    }

    /// The image that the last call wrote.
    pub fn image(&self) -> &[u8] {
        &self.left.image[..self.image]
    }

    /// Makes one call, the `at`th. No answer where there is no session.
    pub fn step(&mut self, at: usize, call: &Call) -> Result<Option<Answer>, Mismatch> {
        // the outputs as at first
        for lent in [&mut self.left, &mut self.right] {
            lent.out[..self.written].copy_from_slice(&self.pattern[..self.written]);
            lent.signals[..self.listed].copy_from_slice(&self.signals[..self.listed]);
        }
        (self.written, self.image, self.listed) = (0, 0, 0);
        (self.answer, self.batch, self.passing) = (None, None, None);
        let answer = self.make(call).map_err(|Unlike { part, left, right }| {
            let id = match call {
                Call::Message { bytes, .. } => bytes.first_chunk().map_or(0, |id| u16::from_le_bytes(*id)),
                _ => 0,
            };
            Mismatch { at, word: call.word(), part, id, left, right, lookup: None }
        })?;
        self.answer = answer;
        Ok(answer)
    }

    /// Asks both sides what stands after a call, the `at`th: the first lookup that is answered unlike would be the next call.
    pub fn look(&mut self, random: &mut Random, at: usize, call: &Call, looks: Looks) -> Result<(), Mismatch> {
        let passing = self.passing.take();
        let is_passing = passing.is_some();
        let Some(pair) = passing.or_else(|| self.session.take()) else { return Ok(()) };
        let mut list = std::mem::take(&mut self.lookups);
        list.clear();
        let asked = catch_unwind(AssertUnwindSafe(|| self.ask(random, &pair, call, looks, &mut list)));
        self.lookups = list;
        match is_passing {
            true => self.passing = Some(pair),
            false => self.session = Some(pair),
        }
        let asked = asked.unwrap_or_else(|panic| {
            let panic = Unlike { part: "panic", left: text_of(panic), right: "a lookup panicked".to_owned() };
            Err((Lookup::IsOpen, panic))
        });
        asked.map_err(|(lookup, Unlike { part, left, right })| Mismatch {
            at: at + 1,
            word: "look",
            part,
            id: 0,
            left,
            right,
            lookup: Some(lookup),
        })
    }

    fn ask(
        &mut self,
        random: &mut Random,
        pair: &Pair<L, R>,
        call: &Call,
        looks: Looks,
        list: &mut Vec<Lookup>,
    ) -> Result<(), (Lookup, Unlike)> {
        let Pair { left, right, settings } = pair;
        if looks == Looks::Near {
            let count = match right.look(Lookup::PageCount) {
                Told::Number(count) => count as usize,
                told => panic!("the count of pages is {told:?}"),
            };
            look::near(random, call, count, list);
        } else {
            // the pages below rwx: the list of them, each by its place and by its number
            let pages = right.pages();
            let ours = left.pages();
            for (i, page) in pages.iter().enumerate() {
                let (lookup, told) = (Lookup::PageAt { i: i as u64 }, Told::Page(Some(*page)));
                self.counts.looked(lookup, told, settings);
                if ours.get(i) != Some(page) {
                    return Err((lookup, unlike(lookup, Told::Page(ours.get(i).copied()), told)));
                }
                let access = (Lookup::Access { view: page.0, page: page.1 }, Told::Number(page.2.into()));
                for (lookup, told) in [(lookup, told), access] {
                    let found = left.look(lookup);
                    if found != told {
                        return Err((lookup, unlike(lookup, found, told)));
                    }
                }
            }
            if ours.len() > pages.len() {
                let (lookup, i) = (Lookup::PageAt { i: pages.len() as u64 }, pages.len());
                return Err((lookup, unlike(lookup, Told::Page(ours.get(i).copied()), Told::Page(None))));
            }
            look::all(random, looks == Looks::Msrs, &pages, list);
        }
        list.iter().try_for_each(|lookup| self.same_look(pair, *lookup))
    }

    /// Asks both sides. What no session has is off, or at rwx.
    fn same_look(&mut self, pair: &Pair<L, R>, lookup: Lookup) -> Result<(), (Lookup, Unlike)> {
        let (left, right) = (pair.left.look(lookup), pair.right.look(lookup));
        let is_sound = self.counts.looked(lookup, left, &pair.settings);
        match left == right && is_sound {
            true => Ok(()),
            false => Err((lookup, unlike(lookup, left, right))),
        }
    }

    fn make(&mut self, call: &Call) -> Result<Option<Answer>, Unlike> {
        let answer = match call {
            Call::Fresh { settings } => self.fresh(settings)?,
            Call::Load { settings, keep, image } => self.load(settings, *keep, image)?,
            Call::ListReady { records, index } => {
                let index = *index as usize;
                self.on_list(records, |records| L::list_ready(records, index), |records| R::list_ready(records, index))?
            }
            Call::ListCr { records, index, cr, on } => {
                let (index, cr, on) = (*index as usize, *cr, *on);
                self.on_list(
                    records,
                    |records| L::list_cr(records, index, cr, on),
                    |records| R::list_cr(records, index, cr, on),
                )?
            }
            Call::Look { lookup } => {
                let Some(pair) = self.session.take() else { return Ok(None) };
                let asked = catch_unwind(AssertUnwindSafe(|| self.same_look(&pair, *lookup)));
                self.session = Some(pair);
                let panic = |panic| Unlike { part: "panic", left: text_of(panic), right: "a lookup panicked".to_owned() };
                asked.map_err(panic)?.map_err(|(_, unlike)| unlike)?;
                return Ok(None);
            }
            _ => {
                let Some(mut pair) = self.session.take() else { return Ok(None) };
                let answer = self.on(&mut pair, call)?;
                same("is_open", &pair.left.look(Lookup::IsOpen), &pair.right.look(Lookup::IsOpen))?;
                self.session = Some(pair);
                answer
            }
        };
        let bytes = if self.image > 0 { &self.left.image[..self.image] } else { &self.left.out[..self.written] };
        let stands = |lookup| self.session.as_ref().map(|pair| pair.right.look(lookup));
        self.counts.saw(call, answer, bytes, &stands);
        Ok(Some(answer))
    }

    fn fresh(&mut self, settings: &Settings) -> Result<Answer, Unlike> {
        let (left, right) = both(|| L::fresh(settings), || R::fresh(settings))?;
        self.begun(settings, left, right)
    }

    fn load(&mut self, settings: &Settings, keep: bool, image: &[u8]) -> Result<Answer, Unlike> {
        let (left, right) = both(|| L::load(settings, image), || R::load(settings, image))?;
        let before = self.session.take();
        let answer = self.begun(settings, left, right)?;
        if let Some(mut pair) = self.session.take() {
            // an image that is taken is the one that is written
            let written = self.write_image(&mut pair, 0)?;
            same("answer to writing the image read", &written, &handled(image.len()))?;
            same_bytes("image written after reading", self.image(), image)?;
            match keep {
                true => self.session = Some(pair),
                false => self.passing = Some(pair),
            }
        }
        self.image = 0;
        self.session = self.session.take().or(before);
        Ok(answer)
    }

    /// Both sides have begun a session, or both have refused for the same reason.
    fn begun(&mut self, settings: &Settings, left: Result<L, Answer>, right: Result<R, Answer>) -> Result<Answer, Unlike> {
        match (left, right) {
            (Ok(left), Ok(right)) => {
                same("is_open", &left.look(Lookup::IsOpen), &right.look(Lookup::IsOpen))?;
                self.session = Some(Pair { left, right, settings: settings.clone() });
                Ok(handled(0))
            }
            (left, right) => {
                let (left, right) = (left.map(|_| "a session"), right.map(|_| "a session"));
                same("answer", &left, &right)?;
                Ok(left.expect_err("one of them was refused"))
            }
        }
    }

    /// A call on copies of these records: the answer, and all records afterwards.
    fn on_list(
        &mut self,
        records: &[Record],
        left: impl FnOnce(&mut [Record]) -> Answer,
        right: impl FnOnce(&mut [Record]) -> Answer,
    ) -> Result<Answer, Unlike> {
        let (mut ours, mut theirs) = (records.to_vec(), records.to_vec());
        let (left, right) = both(|| left(&mut ours), || right(&mut theirs))?;
        same("answer", &left, &right)?;
        same("records", &ours, &theirs)?;
        Ok(left)
    }

    fn on(&mut self, pair: &mut Pair<L, R>, call: &Call) -> Result<Answer, Unlike> {
        match call {
            Call::Ready { vcpu } => {
                let (left, right) = both(|| pair.left.ready(*vcpu), || pair.right.ready(*vcpu))?;
                same("answer", &left, &right)?;
                Ok(left)
            }
            Call::Message { out, guest, bytes } => {
                let (ours, theirs) = (&mut self.left, &mut self.right);
                let (left, right) = both(
                    || pair.left.message(bytes, &mut ours.out[..*out], &mut ours.guest[..*guest]),
                    || pair.right.message(bytes, &mut theirs.out[..*out], &mut theirs.guest[..*guest]),
                )?;
                // the offset of padding by itself: a list that shows a difference in it alone stays one
                let unpadded = |(answer, error)| (with_padding(answer, 0), error);
                same("answer and error", &unpadded(left), &unpadded(right))?;
                same("padding", &padding_of(left.0), &padding_of(right.0))?;
                self.written = written(left.0);
                self.same_output(*out)?;
                same_bytes("guest memory", &self.left.guest, &self.right.guest)?;
                if let Answer::Handled { feed, .. } = left.0 {
                    self.same_fed(feed, bytes, *guest)?;
                }
                Ok(left.0)
            }
            Call::Enter { vcpu, state, fill, event, own, out } => {
                let state = &self.states[usize::from(*fill)..][..*state];
                let (ours, theirs) = (&mut self.left.out[..*out], &mut self.right.out[..*out]);
                let (left, right) = both(
                    || pair.left.enter(*vcpu, state, *event, own, ours),
                    || pair.right.enter(*vcpu, state, *event, own, theirs),
                )?;
                same("answer", &left, &right)?;
                self.written = written(left);
                self.same_output(*out)?;
                Ok(left)
            }
            Call::Batch { .. } => self.make_batch(pair, call),
            Call::Image { room } => self.write_image(pair, *room),
            _ => unreachable!("these are made elsewhere"),
        }
    }

    /// Compares the outputs in full, of which so many bytes were lent; past the count they have to be as they were.
    fn same_output(&self, lent: usize) -> Result<(), Unlike> {
        let (from, end) = (self.written, compared(lent));
        same_bytes("output", &self.left.out[..end], &self.right.out[..end])?;
        same_bytes("output past the count", &self.left.out[from..end], &self.pattern[from..end])
    }

    /// Compares the bytes that an instruction is fed: a part of what was sent, or of the guest memory that was lent.
    fn same_fed(&self, feed: Feed, sent: &[u8], guest: usize) -> Result<(), Unlike> {
        let part = |lent: &Lent| match feed {
            Feed::None => Some(Vec::new()),
            Feed::Supplied { at, length } => sent.get(at..)?.get(..length).map(<[u8]>::to_vec),
            Feed::Page { at, length } => lent.guest[..guest].get(at..)?.get(..length).map(<[u8]>::to_vec),
        };
        let (ours, theirs) = (part(&self.left), part(&self.right));
        same("bytes for an instruction", &ours, &theirs)?;
        same(
            "whether there are bytes for an instruction",
            &ours.is_some_and(|part| part.is_empty() == (feed == Feed::None)),
            &true,
        )
    }

    /// Writes the images with so many bytes more lent than they need.
    fn write_image(&mut self, pair: &mut Pair<L, R>, room: i64) -> Result<Answer, Unlike> {
        let (size, other) = both(|| pair.left.image_size(), || pair.right.image_size())?;
        same("image_size", &size, &other)?;
        // no image is longer than this by far
        let out = (size as i64).saturating_add(room).clamp(0, 1 << 23) as usize;
        for lent in [&mut self.left, &mut self.right] {
            lent.image.clear();
            lent.image.resize(out + GUARD, BLANK);
        }
        let (ours, theirs) = (&mut self.left.image[..out], &mut self.right.image[..out]);
        let (left, right) = both(|| pair.left.write_image(ours), || pair.right.write_image(theirs))?;
        same("answer", &left, &right)?;
        if let Answer::Handled { count, .. } = left {
            same("count of an image's bytes", &count, &size)?;
            self.image = count;
        }
        same_bytes("image", &self.left.image, &self.right.image)?;
        let rest = &self.left.image[self.image..];
        same_bytes("image's output past the count", rest, &vec![BLANK; rest.len()])?;
        self.same_told(pair)?;
        Ok(left)
    }

    /// What a filter tells of itself: settings as they were given, and ready marks as the image has them.
    fn same_told(&self, pair: &Pair<L, R>) -> Result<(), Unlike> {
        for told in [pair.left.settings(), pair.right.settings()].iter().flatten() {
            same("settings told and given", told, &pair.settings)?;
        }
        let image = self.image();
        if image.is_empty() && pair.left.look(Lookup::IsOpen) == Told::Flag(true) {
            return Ok(());
        }
        let is_ready = |vcpu: u32| {
            let record = image.get(8 + 10 * vcpu as usize..).filter(|record| record.starts_with(b"VC"));
            record.is_some_and(|record| record[4] & 1 == 1)
        };
        for vcpu in (0..17).chain([32, 63, 64, 65, u32::MAX]) {
            let known = vcpu < pair.settings.vcpus && is_ready(vcpu);
            for told in [pair.left.look(Lookup::IsReady { vcpu }), pair.right.look(Lookup::IsReady { vcpu })] {
                same("ready mark told and in the image", &told, &Told::Flag(known))?;
            }
        }
        Ok(())
    }
}

/// How many bytes of the outputs are compared where so many are lent.
fn compared(lent: usize) -> usize {
    lent.max(OUT_ROOM) + GUARD
}

/// How many bytes a message or an entry wrote.
fn written(answer: Answer) -> usize {
    match answer {
        Answer::Handled { count, .. } => count,
        _ => 0,
    }
}

/// Makes a list of calls from the beginning.
pub fn run<L: Filter, R: Filter>(runner: &mut Runner<L, R>, calls: &[Call]) -> Result<(), Mismatch> {
    runner.reset();
    calls.iter().enumerate().try_for_each(|(at, call)| runner.step(at, call).map(|_| ()))
}
