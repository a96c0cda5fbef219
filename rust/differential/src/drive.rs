//! Whole runs: sessions and images from a seed, on two threads.

use crate::batch::{messages, messages_mut};
use crate::guide::Guide;
use crate::limit::{self, Deed, Table};
use crate::run::Looks;
use crate::{image, list, settings, shrink, Answer, Batch, Call, Counts, Filter, Mismatch, Random, Runner, Settings};
use std::fmt;
use std::sync::atomic::{AtomicBool, Ordering};
use std::thread;

/// How much a worker has to do.
#[derive(Clone, Copy)]
pub struct Quota {
    pub messages: u64,
    pub images: u64,
}

/// A mismatch, and the shortest list found that shows it.
pub struct Failure {
    pub seed: u64,
    pub worker: u64,
    pub session: u64,
    /// How many calls there were at first.
    pub calls: usize,
    pub list: Vec<Call>,
    pub mismatch: Mismatch,
    /// What this worker had seen until then.
    pub seen: Counts,
}

/// As a file to be replayed: what is not a call has # first.
impl fmt::Display for Failure {
    fn fmt(&self, f: &mut fmt::Formatter<'_>) -> fmt::Result {
        let Failure { seed, worker, session, calls, list, mismatch, .. } = self;
        writeln!(f, "# the two sides differ in {}", mismatch.to_string().replace('\n', "\n# "))?;
        writeln!(f, "# seed {seed}, worker {worker}, session {session}; of {calls} calls these {} are left", list.len())?;
        writeln!(f, "# to replay them, name a file with these lines in SEMBLURICK_REPLAY")?;
        list.iter().try_for_each(|call| writeln!(f, "{call}"))
    }
}

/// A run of `workers` threads, each with this quota.
pub fn drive<L: Filter, R: Filter>(seed: u64, workers: u64, quota: Quota) -> Result<Counts, Box<Failure>> {
    let stop = AtomicBool::new(false);
    let results: Vec<_> = thread::scope(|scope| {
        let stop = &stop;
        let threads: Vec<_> = (0..workers).map(|worker| scope.spawn(move || work::<L, R>(seed, worker, quota, stop))).collect();
        threads.into_iter().map(|thread| thread.join().expect("a worker does not panic")).collect()
    });
    let mut counts = Counts::default();
    for result in results {
        counts.add(&result?);
    }
    Ok(counts)
}

/// One worker: sessions until the quota is done, and the longest image at last; or until a mismatch is found.
pub fn work<L: Filter, R: Filter>(seed: u64, worker: u64, quota: Quota, stop: &AtomicBool) -> Result<Counts, Box<Failure>> {
    let (looks, spoils) = (Random::new(seed), Random::new(seed));
    let mut player = Player::<L, R> { runner: Runner::new(), calls: Vec::new(), images: Vec::new(), looks, spoils, made: 0 };
    for session in 0.. {
        let mut random = Random::part(seed, worker, session);
        // of their own, so that what is asked between calls does not change the calls
        player.looks = Random::part(!seed, worker, session);
        player.spoils = Random::part(seed ^ SPOILS, worker, session);
        let counts = &player.runner.counts;
        let done = counts.messages >= quota.messages && counts.images_read >= quota.images;
        let result = if done { player.longest(&mut random) } else { player.session(&mut random) };
        if let Err(mismatch) = result {
            stop.store(true, Ordering::Relaxed);
            let Player { mut runner, calls, .. } = player;
            let (length, seen) = (calls.len(), runner.counts.clone());
            let (list, mismatch) = shrink::shrink(&mut runner, calls, mismatch);
            return Err(Box::new(Failure { seed, worker, session, calls: length, list, mismatch, seen }));
        }
        if done || stop.load(Ordering::Relaxed) {
            break;
        }
    }
    Ok(player.runner.counts)
}

/// What can be seen of a call by itself.
#[derive(Debug, PartialEq)]
struct Seen {
    answer: Option<Answer>,
    batch: Option<Batch>,
    bytes: Vec<u8>,
    image: Vec<u8>,
}

/// Plays sessions and keeps the calls of the present one.
struct Player<L, R> {
    runner: Runner<L, R>,
    calls: Vec<Call>,
    /// Images of sessions before, with their settings.
    images: Vec<(Settings, Vec<u8>)>,
    /// For what is asked between calls, and how many calls there were.
    looks: Random,
    made: u64,
    /// For commands with padding that is not zero: they change no tables, and the calls between them are as without them.
    spoils: Random,
}

/// How many images are kept.
const KEPT: usize = 32;

/// Once in so many calls all is asked that stands, and every MSR of a vCPU.
const ALL_LOOKS: u64 = 64;
const ALL_MSRS: u64 = 4096;

/// Once in so many calls of a session, several messages come in one write.
const BATCHES: u64 = 120;

/// Once in so many calls of a session, page faults are offered and answered.
const FAULTS: u64 = 120;

/// Once in so many calls of a session a command has padding that is not zero, by a seed of its own; and so has, once in so many
/// sessions that are open at their end, a message that closes them.
const SPOILT: u64 = 20;
const SPOILT_AT_END: u64 = 3;
const SPOILS: u64 = 1 << 63;

/// Once in so many sessions, messages 13 come for a table that is full, or nearly so; and as often, the same calls by both revisions.
const LIMITS: u64 = 12;

/// One in so many replies to these closes the session, and one in so many at its end.
const WRONG: u64 = 60;
const WRONG_AT_END: u64 = 3;

impl<L: Filter, R: Filter> Player<L, R> {
    fn call(&mut self, call: Call) -> Result<Option<Answer>, Mismatch> {
        self.calls.push(call);
        let at = self.calls.len() - 1;
        let answer = self.runner.step(at, &self.calls[at])?;

        self.made += 1;
        let looks = match &self.calls[at] {
            // they are about no session
            Call::ListReady { .. } | Call::ListCr { .. } => return Ok(answer),
            _ if self.made.is_multiple_of(ALL_MSRS) => Looks::Msrs,
            Call::Load { keep: true, .. } => Looks::All,
            _ if self.made.is_multiple_of(ALL_LOOKS) => Looks::All,
            _ => Looks::Near,
        };
        self.runner.look(&mut self.looks, at, &self.calls[at], looks).inspect_err(|mismatch| {
            // so that the session is there to be asked
            if let Call::Load { keep, .. } = &mut self.calls[at] {
                *keep = true;
            }
            self.calls.extend(mismatch.lookup.map(|lookup| Call::Look { lookup }));
        })?;
        Ok(answer)
    }

    /// A call that the guide is told of.
    fn guided(&mut self, guide: &mut Guide, call: Call) -> Result<(), Mismatch> {
        let answer = self.call(call)?.expect("there is a session");
        let call = self.calls.last().expect("the call made");
        match (call, self.runner.batch()) {
            (Call::Batch { bytes, .. }, Some(batch)) => guide.saw_batch(bytes, batch),
            _ => guide.saw(call, answer, self.runner.bytes()),
        }
        Ok(())
    }

    fn session(&mut self, random: &mut Random) -> Result<(), Mismatch> {
        self.calls.clear();
        self.runner.reset();
        self.runner.counts.sessions += 1;
        let before = self.runner.counts.messages;

        let mut settings = settings::good(random);
        if random.one_in(30) {
            self.call(Call::Fresh { settings: settings::bad(random) })?;
        }
        match random.below(20) {
            0..5 => {
                let image = image::made(random, &settings);
                self.call(Call::Load { settings: settings.clone(), keep: true, image })?;
            }
            // the table is full, or nearly so
            5 => {
                let count = random.pick(&[1000, 1023, 1024]);
                let image = image::full(random, &settings, count);
                self.call(Call::Load { settings: settings.clone(), keep: true, image })?;
            }
            6..8 if !self.images.is_empty() => {
                let (known, image) = self.images[random.index(self.images.len())].clone();
                settings = known;
                self.call(Call::Load { settings: settings.clone(), keep: true, image })?;
            }
            _ => {
                self.call(Call::Fresh { settings: settings.clone() })?;
            }
        }

        let mut guide = Guide::new(random, &settings);
        guide.saw_tables(self.calls.last().expect("a session was begun"));
        for call in guide.marks(random) {
            self.guided(&mut guide, call)?;
        }
        let length = random.pick(&[30, 100, 200, 400]);
        for _ in 0..length {
            let call = guide.call(random);
            self.guided(&mut guide, call)?;
            if !guide.closed && random.one_in(BATCHES) {
                let call = guide.batch(random);
                self.guided(&mut guide, call)?;
            }
            if !guide.closed && random.one_in(FAULTS) {
                self.faults(random, &mut guide, WRONG)?;
            }
            if !guide.closed && self.spoils.one_in(SPOILT) {
                let call = guide.spoilt(&mut self.spoils);
                self.guided(&mut guide, call)?;
            }
            if guide.closed {
                break;
            }
            if random.one_in(150) {
                self.hand_over(random, &mut guide)?;
            }
        }
        let image = self.end(random, &mut guide)?;
        self.runner.counts.longest = self.runner.counts.longest.max(self.runner.counts.messages - before);

        let image = image.unwrap_or_else(|| image::made(random, &guide.settings));
        self.mutated(random, &guide.settings, &image)?;
        if random.one_in(4) {
            self.with_and_without(random, &guide, &image)?;
        }
        let settings = guide.settings;
        for _ in 0..8 {
            let call = list::call(&mut self.looks);
            self.call(call)?;
        }
        if random.one_in(LIMITS) {
            self.at_limit(random, &settings)?;
        }
        if random.one_in(LIMITS) {
            self.by_both_revisions(random, &settings, &image)?;
        }
        match self.images.len() {
            KEPT => self.images[random.index(KEPT)] = (settings, image),
            _ => self.images.push((settings, image)),
        }
        Ok(())
    }

    /// Page faults, each offered and then answered, alone or in a batch; once in so many times wrongly.
    fn faults(&mut self, random: &mut Random, guide: &mut Guide, wrong: u64) -> Result<(), Mismatch> {
        for _ in 0..1 + random.below(4) {
            for call in guide.faulted(random) {
                self.guided(guide, call)?;
            }
            // something comes between, now and then
            if !guide.closed && random.one_in(6) {
                let call = guide.call(random);
                self.guided(guide, call)?;
            }
            if guide.closed {
                break;
            }
            let call = guide.answered(random, wrong);
            self.guided(guide, call)?;
            if guide.closed {
                break;
            }
        }
        Ok(())
    }

    /// The session's image, once no reply is awaited; none of a closed one.
    fn image(&mut self, guide: &mut Guide) -> Result<Option<Vec<u8>>, Mismatch> {
        for call in guide.replies() {
            self.guided(guide, call)?;
        }
        let answer = self.call(Call::Image { room: 0 })?;
        Ok(matches!(answer, Some(Answer::Handled { .. })).then(|| self.runner.image().to_vec()))
    }

    /// The session goes on in the one that its image makes, with the same settings or others.
    fn hand_over(&mut self, random: &mut Random, guide: &mut Guide) -> Result<(), Mismatch> {
        let Some(image) = self.image(guide)? else { return Ok(()) };
        let settings = match random.below(2) {
            0 => settings::other(random, &guide.settings),
            _ => guide.settings.clone(),
        };
        self.guided(guide, Call::Load { settings, keep: true, image })
    }

    /// A session's last calls, and its image if it was open until then.
    fn end(&mut self, random: &mut Random, guide: &mut Guide) -> Result<Option<Vec<u8>>, Mismatch> {
        if random.one_in(8) {
            // with replies awaited too
            self.call(Call::Image { room: 0 })?;
        }
        let image = self.image(guide)?;
        if !guide.closed && random.one_in(4) {
            self.faults(random, guide, WRONG_AT_END)?;
        }
        if !guide.closed && random.percent(60) {
            if random.percent(90) {
                for call in guide.staged(random) {
                    self.guided(guide, call)?;
                }
            }
            for vcpu in 0..guide.settings.vcpus.min(3) {
                let call = guide.entry(random, vcpu);
                self.guided(guide, call)?;
            }
            if random.one_in(4) {
                let call = guide.quiet(random);
                self.guided(guide, call)?;
            }
            let call = guide.farewell(random);
            self.guided(guide, call)?;
        }
        if !guide.closed && self.spoils.one_in(SPOILT_AT_END) {
            if guide.command_allowed(15) && self.spoils.percent(70) {
                let call = guide.quiet(&mut self.spoils);
                self.guided(guide, call)?;
            }
            let call = guide.spoilt_farewell(&mut self.spoils);
            self.guided(guide, call)?;
        }
        // mostly it is closed now, whatever is asked of it
        for _ in 0..random.below(4) {
            let call = guide.call(random);
            self.guided(guide, call)?;
        }
        if random.one_in(16) {
            let call = guide.batch(random);
            self.guided(guide, call)?;
        }
        self.call(Call::Image { room: 0 })?;
        Ok(image)
    }

    /// Images made of this one.
    fn mutated(&mut self, random: &mut Random, settings: &Settings, image: &[u8]) -> Result<(), Mismatch> {
        for _ in 0..12 {
            let image = image::mutated(random, image, settings);
            let settings = match random.below(40) {
                0 => settings::bad(random),
                1 => Settings { revision: settings::odd_revision(random), ..settings.clone() },
                2..8 => settings::other(random, settings),
                _ => settings.clone(),
            };
            self.call(Call::Load { settings, keep: false, image })?;
        }
        Ok(())
    }

    /// The same image, and then the same message on the same tables, with execute-only pages and without.
    fn with_and_without(&mut self, random: &mut Random, guide: &Guide, image: &[u8]) -> Result<(), Mismatch> {
        let flags = random.pick(&[[false, true], [true, false]]);
        let others = match random.below(4) {
            0 => settings::other(random, &guide.settings),
            _ => guide.settings.clone(),
        };
        let executing = image::executing(random, image, &guide.settings);
        for execute_only in flags {
            let settings = Settings { execute_only, ..others.clone() };
            self.call(Call::Load { settings, keep: false, image: executing.clone() })?;
        }
        let tables = image::readable(&match random.below(8) {
            0 => image::full(random, &guide.settings, 1024),
            _ => image.to_vec(),
        });
        let message = guide.executing(random);
        for execute_only in flags {
            let settings = Settings { execute_only, ..guide.settings.clone() };
            self.call(Call::Load { settings, keep: true, image: tables.clone() })?;
            self.call(message.clone())?;
            self.call(Call::Image { room: 0 })?;
        }
        Ok(())
    }

    /// Messages 13 for a table that is full, or nearly so, with the image before each and behind it; then by the other revision.
    fn at_limit(&mut self, random: &mut Random, settings: &Settings) -> Result<(), Mismatch> {
        let mut settings = settings.clone();
        if !random.one_in(40) {
            settings.commands |= 1 << 13;
        }
        let count = random.pick(&[1024, 1024, 1024, 1023, 1023, 1022, 1020, 1000]);
        let mut image = image::full(random, &settings, count);
        for _ in 0..2 {
            self.call(Call::Load { settings: settings.clone(), keep: true, image })?;
            let mut guide = Guide::new(random, &settings);
            if guide.command_allowed(15) && random.percent(40) {
                let call = guide.quiet(random);
                self.guided(&mut guide, call)?;
            }
            for _ in 0..2 + random.below(6) {
                self.call(Call::Image { room: 0 })?;
                let table = limit::table(self.runner.image());
                let call = match random.one_in(8) {
                    true => guide.batch_at_limit(random, &table),
                    false => Call::message(guide.at_limit(random, &table)),
                };
                self.guided(&mut guide, call)?;
            }
            if guide.closed {
                break;
            }
            self.call(Call::Image { room: 0 })?;
            image = self.runner.image().to_vec();
            settings.revision = 3 - settings.revision;
        }
        Ok(())
    }

    /// The same calls by both revisions, until a message 13 skips an entry. But for the version that is told, every answer and all that
    /// is written are the same, images too.
    fn by_both_revisions(&mut self, random: &mut Random, settings: &Settings, image: &[u8]) -> Result<(), Mismatch> {
        let revisions = random.pick(&[[1, 2], [2, 1]]);
        let [first, second] = revisions.map(|revision| Settings { revision, ..settings.clone() });
        let begin = |settings: &Settings, image: &Option<Vec<u8>>| match image.clone() {
            Some(image) => Call::Load { settings: settings.clone(), keep: true, image },
            None => Call::Fresh { settings: settings.clone() },
        };
        let image = match random.below(4) {
            0 => None,
            1 => Some(image.to_vec()),
            _ => {
                let count = random.pick(&[1024, 1023, 1020, 1000]);
                Some(image::full(random, settings, count))
            }
        };

        self.calls.clear();
        self.runner.reset();
        let mut guide = Guide::new(random, &first);
        self.guided(&mut guide, begin(&first, &image))?;
        let mut table = image.as_deref().map(limit::table).unwrap_or_default();
        let (mut seen, mut skips) = (Vec::new(), false);
        let mut marks = guide.marks(random);
        for _ in 0..random.pick(&[20, 60, 150]) {
            let call = match marks.pop() {
                Some(call) => call,
                None if table.len() > 900 && random.one_in(6) => Call::message(guide.at_limit(random, &table)),
                None if random.one_in(30) => guide.batch(random),
                None if random.one_in(20) => Call::Image { room: 0 },
                None => guide.call(random),
            };
            self.guided(&mut guide, call.clone())?;
            skips = self.skips(&first, &mut table, &call);
            seen.push((call, self.seen()));
            if guide.closed || skips {
                break;
            }
        }
        let last = Call::Image { room: 0 };
        self.call(last.clone())?;
        let end = self.seen();

        self.calls.clear();
        self.runner.reset();
        self.call(begin(&second, &image))?;
        let count = seen.len();
        for (at, (call, before)) in seen.into_iter().enumerate() {
            self.call(call.clone())?;
            // the messages of a batch behind one that skips may find other tables
            let is_compared = !(skips && at + 1 == count && matches!(call, Call::Batch { .. }));
            if is_compared {
                assert_eq!(before, self.seen(), "both sides tell the revisions apart by {call}");
                self.runner.counts.revisions.saw_alike(&call);
            }
        }
        self.call(last.clone())?;
        let is_same = end == self.seen();
        assert!(is_same || skips, "both sides tell the revisions apart by an image");
        if is_same {
            self.runner.counts.revisions.saw_alike(&last);
        }
        self.runner.counts.revisions.saw_end(skips, is_same);
        Ok(())
    }

    /// What the last call gave and wrote, but for the version that message 1 tells.
    fn seen(&self) -> Seen {
        let mut bytes = self.runner.bytes().to_vec();
        for reply in messages_mut(&mut bytes) {
            if let [1, 0, 24, 0, _, _, _, _, _, _, _, _, _, _, _, _, version @ ..] = reply {
                version[..4].fill(0);
            }
        }
        Seen { answer: self.runner.answer(), batch: self.runner.batch().copied(), bytes, image: self.runner.image().to_vec() }
    }

    /// Whether a message 13 of the last call skips an entry; the table is as the call leaves it, if none does.
    fn skips(&self, settings: &Settings, table: &mut Table, call: &Call) -> bool {
        let taken = match (call, self.runner.answer(), self.runner.batch()) {
            (Call::Message { bytes, .. }, Some(Answer::Handled { .. }), _) => &bytes[..],
            (Call::Batch { bytes, .. }, _, Some(batch)) => &bytes[..batch.used],
            _ => &[],
        };
        messages(taken).any(|message| {
            let entries = limit::right_entries(settings, message);
            entries.is_some_and(|(view, entries)| limit::act(table, view, &entries).contains(&Deed::Skipped))
        })
    }

    /// The longest image there is, and some like it.
    fn longest(&mut self, random: &mut Random) -> Result<(), Mismatch> {
        self.calls.clear();
        self.runner.reset();
        let settings = Settings {
            vcpus: 16,
            views: 8,
            commands: !0,
            events: !0,
            tsc: 0,
            features: [1; 5],
            descriptors: true,
            breakpoints: false,
            execute_only: true,
            revision: 1,
        };
        let image = image::longest(random, &settings);
        self.call(Call::Load { settings: settings.clone(), keep: true, image: image.clone() })?;
        for room in [0, -1, 1] {
            self.call(Call::Image { room })?;
        }
        self.mutated(random, &settings, &image)
    }
}
