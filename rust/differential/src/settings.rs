//! Settings of all kinds.

use crate::{Random, Settings};

/// Settings with counts in range; mostly much is allowed.
pub fn good(random: &mut Random) -> Settings {
    let vcpus = match random.below(4) {
        0 => 1 + random.below(16) as u32,
        _ => random.pick(&[1, 2, 2, 3, 4, 15, 16]),
    };
    let views = match random.below(4) {
        0 => 1 + random.below(8) as u32,
        _ => random.pick(&[1, 1, 2, 7, 8]),
    };
    Settings {
        vcpus,
        views,
        commands: set(random),
        events: set(random),
        tsc: match random.below(4) {
            0 => random.pick(&[0, 1, u64::MAX, 1 << 63]),
            _ => random.word(),
        },
        features: features(random),
        descriptors: random.percent(75),
        breakpoints: random.percent(25),
        execute_only: random.percent(50),
        revision: 1 + random.below(2) as u32,
    }
}

/// A bit set: all, all but one, all but some, few, or none; with or without bits that no number has.
fn set(random: &mut Random) -> u32 {
    let bits = match random.below(20) {
        0..10 => !0,
        10..14 => !(1 << random.below(17)),
        14..17 => (random.word() | random.word()) as u32,
        17 => random.word() as u32,
        18 => 1 << random.below(17) | 1 << random.below(17),
        _ => 0,
    };
    match random.below(3) {
        0 => bits & 0x1_FFFE,
        1 => bits ^ (random.word() as u32 & 0xFFFE_0001),
        _ => bits,
    }
}

fn features(random: &mut Random) -> [u8; 5] {
    let mut features = [1; 5];
    if random.one_in(2) {
        random.fill(&mut features);
    }
    match random.below(6) {
        0 | 1 => features[0] = 0,
        2 => features[0] = random.pick(&[1, 2, 0x80, 0xFF]),
        _ => {}
    }
    features
}

/// Settings with a count out of its range, or with a revision that is neither 1 nor 2.
pub fn bad(random: &mut Random) -> Settings {
    let mut settings = good(random);
    let which = random.below(5);
    if which > 2 || random.one_in(6) {
        settings.revision = odd_revision(random);
    }
    if which > 2 {
        return settings;
    }
    if which != 0 {
        settings.vcpus = random.pick(&[0, 17, 18, 32, 256, 257, 1 << 16, (1 << 16) + 2, 1 << 31, u32::MAX]);
    }
    if which != 1 {
        settings.views = random.pick(&[0, 9, 10, 16, 256, 257, 1 << 16, (1 << 16) + 2, 1 << 31, u32::MAX]);
    }
    settings
}

/// A revision that is neither 1 nor 2.
pub fn odd_revision(random: &mut Random) -> u32 {
    random.pick(&[0, 0, 3, 3, 4, 256, 257, 1 << 16, (1 << 16) + 2, 1 << 25, (1 << 31) + 1, u32::MAX])
}

/// Settings that differ in what an image can want.
pub fn other(random: &mut Random, settings: &Settings) -> Settings {
    let mut other = settings.clone();
    match random.below(12) {
        0 => other.vcpus = (other.vcpus % 16) + 1,
        1 => other.vcpus = random.pick(&[1, 2, 16]),
        2 => other.views = 1 + random.below(8) as u32,
        3 => other.views = 1,
        4 => other.events &= !(1 << random.below(15)),
        5 => other.events = set(random),
        6 => other.features[0] = 0,
        7 => other.descriptors = false,
        8 => other.breakpoints = true,
        9 => other.execute_only = !other.execute_only,
        10 => other.revision = 3 - other.revision,
        _ => other.commands = set(random),
    }
    other
}
