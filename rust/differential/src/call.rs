//! Calls, and their text: one call a line, a word and then `name=value` pairs.

use crate::Lookup;
use reference::list::Record;
use reference::Settings;
use std::fmt;
use std::fmt::Write;

/// The most that calls can lend: output, guest memory and register block; and a batch its output and its list.
pub const OUT_ROOM: usize = 4200;
pub const BATCH_ROOM: usize = 65_536;
pub const LIST_ROOM: usize = 300;
pub const GUEST_ROOM: usize = 4 * 4096 + 64;
pub const STATE_ROOM: usize = 1100;

/// One call on both sides. All but those that begin a session or use a list need a session and do nothing without one.
#[derive(Clone, Debug, PartialEq, Eq)]
pub enum Call {
    /// Begins a session; it takes the place of the one before, unless it is refused.
    Fresh { settings: Settings },
    /// Reads an image. The session is dropped once compared, unless it is to be kept.
    Load { settings: Settings, keep: bool, image: Vec<u8> },
    /// Marks a vCPU ready.
    Ready { vcpu: u32 },
    /// A message, with so many bytes of output and guest memory lent.
    Message { out: usize, guest: usize, bytes: Vec<u8> },
    /// Several messages in one write, with so many bytes of output, places of a list and bytes of guest memory lent.
    Batch { out: usize, places: usize, guest: usize, bytes: Vec<u8> },
    /// An entry, with so many bytes of a register block, chosen by `fill`, and of output lent; and an event offered, with its own
    /// bytes.
    Enter { vcpu: u32, state: usize, fill: u8, event: u32, own: Vec<u8>, out: usize },
    /// Writes the image, with so many bytes more lent than it has.
    Image { room: i64 },
    /// Marks a vCPU of a list ready.
    ListReady { records: Vec<Record>, index: u64 },
    /// Sets a CR switch of a vCPU of a list.
    ListCr { records: Vec<Record>, index: u64, cr: u32, on: bool },
    /// Asks what stands. A run asks between its calls, and has this as a call only where the two sides then differ.
    Look { lookup: Lookup },
}

impl Call {
    pub fn word(&self) -> &'static str {
        match self {
            Call::Fresh { .. } => "fresh",
            Call::Load { .. } => "load",
            Call::Ready { .. } => "ready",
            Call::Message { .. } => "message",
            Call::Batch { .. } => "batch",
            Call::Enter { .. } => "enter",
            Call::Image { .. } => "image",
            Call::ListReady { .. } => "list_ready",
            Call::ListCr { .. } => "list_cr",
            Call::Look { .. } => "look",
        }
    }

    /// A message in full room.
    pub fn message(bytes: Vec<u8>) -> Call {
        Call::Message { out: 4112, guest: 4 * 4096, bytes }
    }
}

impl fmt::Display for Call {
    fn fmt(&self, f: &mut fmt::Formatter<'_>) -> fmt::Result {
        f.write_str(self.word())?;
        match self {
            Call::Fresh { settings } => put_settings(f, settings),
            Call::Load { settings, keep, image } => {
                put_settings(f, settings)?;
                write!(f, " keep={} image=", u8::from(*keep))?;
                put_hex(f, image)
            }
            Call::Ready { vcpu } => write!(f, " vcpu={vcpu}"),
            Call::Message { out, guest, bytes } => {
                write!(f, " out={out} guest={guest} bytes=")?;
                put_hex(f, bytes)
            }
            Call::Batch { out, places, guest, bytes } => {
                write!(f, " out={out} places={places} guest={guest} bytes=")?;
                put_hex(f, bytes)
            }
            Call::Enter { vcpu, state, fill, event, own, out } => {
                write!(f, " vcpu={vcpu} state={state} fill={fill} out={out} event={event} own=")?;
                put_hex(f, own)
            }
            Call::Image { room } => write!(f, " room={room}"),
            Call::ListReady { records, index } => {
                write!(f, " index={index:#x} records=")?;
                put_hex(f, &record_bytes(records))
            }
            Call::ListCr { records, index, cr, on } => {
                write!(f, " index={index:#x} cr={cr:#x} on={} records=", u8::from(*on))?;
                put_hex(f, &record_bytes(records))
            }
            Call::Look { lookup } => write!(f, " {lookup}"),
        }
    }
}

fn put_settings(f: &mut fmt::Formatter<'_>, s: &Settings) -> fmt::Result {
    write!(f, " vcpus={} views={} commands={:#x} events={:#x} tsc={}", s.vcpus, s.views, s.commands, s.events, s.tsc)?;
    f.write_str(" features=")?;
    put_hex(f, &s.features)?;
    write!(f, " descriptors={} breakpoints={}", u8::from(s.descriptors), u8::from(s.breakpoints))?;
    write!(f, " execute_only={} revision={}", u8::from(s.execute_only), s.revision)
}

fn put_hex(f: &mut fmt::Formatter<'_>, bytes: &[u8]) -> fmt::Result {
    let digit = |nibble: u8| char::from(b"0123456789abcdef"[usize::from(nibble)]);
    bytes.iter().try_for_each(|byte| {
        f.write_char(digit(byte >> 4))?;
        f.write_char(digit(byte & 15))
    })
}

/// The words of a record, in the order in which it has them.
pub fn record_words(r: &Record) -> [u64; 7] {
    [r.ready, r.singlestep, r.crs, r.events, r.pauses, r.awaited, r.awaited_seq]
}

pub fn record_of([ready, singlestep, crs, events, pauses, awaited, awaited_seq]: [u64; 7]) -> Record {
    Record { ready, singlestep, crs, events, pauses, awaited, awaited_seq }
}

fn record_bytes(records: &[Record]) -> Vec<u8> {
    records.iter().flat_map(record_words).flat_map(u64::to_le_bytes).collect()
}

/// Reads a list of calls; empty lines and those with `#` first are passed over.
pub fn parse(text: &str) -> Result<Vec<Call>, String> {
    let lines = text.lines().enumerate().map(|(index, line)| (index + 1, line.trim()));
    let lines = lines.filter(|(_, line)| !line.is_empty() && !line.starts_with('#'));
    lines.map(|(number, line)| parse_call(line).map_err(|why| format!("line {number}: {why}"))).collect()
}

fn parse_call(line: &str) -> Result<Call, String> {
    let mut words = line.split_whitespace();
    let word = words.next().ok_or("no word")?;
    let mut fields = Fields(words.map(|word| word.split_once('=').ok_or(format!("no = in {word}"))).collect::<Result<_, _>>()?);
    let call = match word {
        "fresh" => Call::Fresh { settings: fields.settings()? },
        "load" => Call::Load { settings: fields.settings()?, keep: fields.flag("keep")?, image: fields.hex("image")? },
        "ready" => Call::Ready { vcpu: fields.number("vcpu")? },
        "message" => Call::Message {
            out: fields.up_to("out", OUT_ROOM)?,
            guest: fields.up_to("guest", GUEST_ROOM)?,
            bytes: fields.hex("bytes")?,
        },
        "batch" => Call::Batch {
            out: fields.up_to("out", BATCH_ROOM)?,
            places: fields.up_to("places", LIST_ROOM)?,
            guest: fields.up_to("guest", GUEST_ROOM)?,
            bytes: fields.hex("bytes")?,
        },
        "enter" => Call::Enter {
            vcpu: fields.number("vcpu")?,
            state: fields.up_to("state", STATE_ROOM)?,
            fill: fields.number("fill")?,
            event: fields.number("event")?,
            own: fields.hex("own")?,
            out: fields.up_to("out", OUT_ROOM)?,
        },
        "image" => Call::Image { room: fields.number("room")? },
        "list_ready" => Call::ListReady { records: fields.records()?, index: fields.number("index")? },
        "list_cr" => Call::ListCr {
            records: fields.records()?,
            index: fields.number("index")?,
            cr: fields.number("cr")?,
            on: fields.flag("on")?,
        },
        "look" => {
            let (name, of, number) = (fields.take("name")?, fields.number("of")?, fields.number("number")?);
            Call::Look { lookup: Lookup::named(name, of, number).ok_or(format!("no lookup {name} of these numbers"))? }
        }
        _ => return Err(format!("unknown word {word}")),
    };
    match fields.0.first() {
        Some((name, _)) => Err(format!("{word} has no {name}")),
        None => Ok(call),
    }
}

/// The pairs of a line that are not taken yet.
struct Fields<'a>(Vec<(&'a str, &'a str)>);

impl<'a> Fields<'a> {
    fn take(&mut self, name: &str) -> Result<&'a str, String> {
        let at = self.0.iter().position(|(known, _)| *known == name).ok_or(format!("no {name}"))?;
        Ok(self.0.remove(at).1)
    }

    fn number<T: TryFrom<i128>>(&mut self, name: &str) -> Result<T, String> {
        let text = self.take(name)?;
        let number = match text.strip_prefix("0x") {
            Some(digits) => i128::from_str_radix(digits, 16),
            None => text.parse(),
        };
        number.ok().and_then(|number| number.try_into().ok()).ok_or(format!("{name}={text} is no such number"))
    }

    fn up_to(&mut self, name: &str, most: usize) -> Result<usize, String> {
        match self.number(name)? {
            number if number <= most => Ok(number),
            _ => Err(format!("{name} is above {most}")),
        }
    }

    fn flag(&mut self, name: &str) -> Result<bool, String> {
        match self.number(name)? {
            0u8 => Ok(false),
            1 => Ok(true),
            _ => Err(format!("{name} is neither 0 nor 1")),
        }
    }

    fn hex(&mut self, name: &str) -> Result<Vec<u8>, String> {
        let text = self.take(name)?;
        let nibble = |at: usize| text.get(at..at + 1).and_then(|digit| u8::from_str_radix(digit, 16).ok());
        let bytes: Option<Vec<u8>> = (0..text.len()).step_by(2).map(|at| Some(nibble(at)? << 4 | nibble(at + 1)?)).collect();
        bytes.ok_or(format!("{name} is not in hex digits, two for a byte"))
    }

    fn records(&mut self) -> Result<Vec<Record>, String> {
        let bytes = self.hex("records")?;
        let (words, rest) = bytes.as_chunks::<8>();
        let (records, more) = words.as_chunks::<7>();
        match rest.is_empty() && more.is_empty() {
            true => Ok(records.iter().map(|words| record_of(words.map(u64::from_le_bytes))).collect()),
            false => Err("records are not of 56 bytes each".to_owned()),
        }
    }

    fn settings(&mut self) -> Result<Settings, String> {
        Ok(Settings {
            vcpus: self.number("vcpus")?,
            views: self.number("views")?,
            commands: self.number("commands")?,
            events: self.number("events")?,
            tsc: self.number("tsc")?,
            features: self.hex("features")?.try_into().map_err(|_| "features are not five bytes")?,
            descriptors: self.flag("descriptors")?,
            breakpoints: self.flag("breakpoints")?,
            execute_only: self.flag("execute_only")?,
            revision: self.number("revision")?,
        })
    }
}
