//! Document 02, W7: "Revision 2: page access all or nothing."

mod common;

use common::*;
use reference::{Answer, Session, Settings};
use std::collections::BTreeMap;

const LIMIT: usize = 1024;

/// View and page number, with the access.
type Table = BTreeMap<(u16, u64), u8>;

/// Entries of one message: page number and access.
type Entries = [(u64, u8)];

fn by(revision: u32) -> Settings {
    Settings { views: 3, revision, ..settings() }
}

fn message(view: u16, entries: &Entries) -> Vec<u8> {
    let entries: Vec<_> = entries.iter().map(|&(page, access)| (page << 12 | 0xABC, access)).collect();
    page_access(view, &entries)
}

/// A bench on which so many pages stand below rwx: from page 0 on in view 0, but
/// for the last two of them, which are pages 0 of views 1 and 2.
fn with_pages(settings: Settings, count: usize) -> Bench {
    let mut bench = Bench::new(settings);
    let most: Vec<_> = (0..count as u64 - 2).map(|page| (page, 1)).collect();
    bench.ok(&message(0, &most));
    bench.ok(&message(1, &[(0, 3)]));
    bench.ok(&message(2, &[(0, 5)]));
    assert_eq!(bench.session.page_count(), count);
    bench
}

/// The pages that stand below rwx, as the image tells them.
fn table(bench: &Bench) -> Table {
    let image = bench.image();
    let start = 8 + 10 * 2;
    let records = image[start..image.len() - 6].chunks(14).map(|record| {
        assert_eq!(record[..2], *b"PA");
        let view = u16::from_le_bytes([record[2], record[3]]);
        let page = u64::from_le_bytes(record[6..].try_into().unwrap());
        ((view, page), record[4])
    });
    records.collect()
}

/// What revision 1 makes of a table, and whether it skips an entry.
fn applied(before: &Table, view: u16, entries: &Entries) -> (Table, bool) {
    let (mut table, mut skips) = (before.clone(), false);
    for &(page, access) in entries {
        let key = (view, page);
        if access == 7 {
            table.remove(&key);
        } else if table.contains_key(&key) || table.len() < LIMIT {
            table.insert(key, access);
        } else {
            skips = true;
        }
    }
    (table, skips)
}

/// Sends the entries by either revision to a bench with so many pages: the error,
/// and whether the table is another then, by revision 1 and by revision 2.
fn both(count: usize, view: u16, entries: &Entries) -> [(i32, bool); 2] {
    [1, 2].map(|revision| {
        let mut bench = with_pages(by(revision), count);
        let before = table(&bench);
        let error = bench.error(&message(view, entries));
        let after = table(&bench);
        let (changed, skips) = applied(&before, view, entries);
        assert_eq!(error, if skips { ENOMEM } else { 0 }, "{entries:?} on {count} pages");
        let expected = if skips && revision == 2 { &before } else { &changed };
        assert!(after == *expected, "{entries:?} on {count} pages by revision {revision}");
        (error, after != before)
    })
}

#[test]
fn the_version_is_the_revision() {
    for (revision, version) in [(1, "01000000"), (2, "02000000")] {
        let mut bench = Bench::unready(Settings { features: [0, 2, 0xFF, 0, 9], ..by(revision) });
        let (answer, reply) = bench.send(&msg(1, 0x0A0B, &[]));
        assert_eq!(answer, handled(32));
        let expected = format!("010018000B0A0000 0000000000000000 {version}00000000 0002FF0009000000");
        assert_eq!(reply, hex(&expected));
    }
}

/// "a revision other than 1 or 2 is answer 7": no session begins, and the image
/// is not looked at.
#[test]
fn other_revisions() {
    let good = Bench::new(by(1)).image();
    for revision in [0, 3, 4, 257, 0x1_0001, 0x2_0000, 0x0200_0000, 0x8000_0002, u32::MAX - 1, u32::MAX] {
        let settings = by(revision);
        assert_eq!(Session::fresh(settings.clone()).err(), Some(Answer::BadSettings));
        let mut forbidden = good.clone();
        // Three vCPUs, of which the settings have two.
        forbidden[4] = 3;
        for image in [&good[..], &good[1..], &forbidden, &[]] {
            let answer = Session::read_image(settings.clone(), image).err();
            assert_eq!(answer, Some(Answer::BadSettings), "revision {revision}");
        }
        // Beside a count out of its range.
        let settings = Settings { vcpus: 17, ..settings };
        assert_eq!(Session::fresh(settings).err(), Some(Answer::BadSettings));
    }
    for revision in [1, 2] {
        assert!(Session::fresh(by(revision)).is_ok());
        assert!(Session::read_image(by(revision), &good).is_ok());
        let counts = Settings { views: 9, ..by(revision) };
        assert_eq!(Session::read_image(counts, &good).err(), Some(Answer::BadSettings));
        let bad = Session::read_image(by(revision), &good[1..]).err();
        assert_eq!(bad, Some(Answer::BadForm { offset: 0 }));
    }
}

/// Room that an earlier entry of the message gave back counts, and room that a
/// later one gives does not.
#[test]
fn two_orders() {
    assert_eq!(both(LIMIT, 0, &[(5, 7), (5000, 1)]), [(0, true), (0, true)]);
    assert_eq!(both(LIMIT, 0, &[(5000, 1), (5, 7)]), [(ENOMEM, true), (ENOMEM, false)]);
    // The same where the page that goes is the page that comes.
    assert_eq!(both(LIMIT, 0, &[(5, 7), (5, 3)]), [(0, true), (0, true)]);
    assert_eq!(both(LIMIT, 0, &[(5000, 1), (5000, 7)]), [(ENOMEM, false), (ENOMEM, false)]);
    // The page of another view is another page.
    assert_eq!(both(LIMIT, 1, &[(0, 7), (1, 1)]), [(0, true), (0, true)]);
    assert_eq!(both(LIMIT, 1, &[(5, 7), (5, 1)]), [(ENOMEM, false), (ENOMEM, false)]);
}

/// An entry that is skipped first, in the middle or last, with what is applied
/// around it.
#[test]
fn a_skip_anywhere() {
    for entries in [
        [(5000, 1), (3, 5), (4, 0)],
        [(3, 5), (5000, 1), (4, 0)],
        [(3, 5), (4, 0), (5000, 1)],
        [(3, 7), (5000, 1), (5001, 1)],
        [(5000, 1), (3, 7), (5001, 1)],
        [(3, 7), (3, 5), (5000, 0)],
    ] {
        assert_eq!(both(LIMIT, 0, &entries), [(ENOMEM, true), (ENOMEM, false)], "{entries:?}");
    }
    // One place is left: the second new page is skipped, whatever the view.
    for view in 0..3 {
        assert_eq!(both(LIMIT - 1, view, &[(5000, 1)]), [(0, true), (0, true)]);
        assert_eq!(both(LIMIT - 1, view, &[(5000, 1), (5001, 1)]), [(ENOMEM, true), (ENOMEM, false)]);
        let given_back = [(5000, 1), (5000, 7), (5001, 1), (5001, 7), (5002, 1)];
        assert_eq!(both(LIMIT - 1, view, &given_back), [(0, true), (0, true)]);
    }
    // Nothing is skipped: more entries than room, none of which needs any.
    for count in [LIMIT - 1, LIMIT] {
        let standing: Vec<_> = (0..40).map(|page| (page, 5)).collect();
        assert_eq!(both(count, 0, &standing), [(0, true), (0, true)]);
        let at_rwx: Vec<_> = (5000..5040).map(|page| (page, 7)).collect();
        assert_eq!(both(count, 0, &at_rwx), [(0, false), (0, false)]);
        assert_eq!(both(count, 0, &[]), [(0, false), (0, false)]);
        let one_page: Vec<_> = [7, 1, 7, 0, 3, 7, 5].map(|access| (9, access)).to_vec();
        assert_eq!(both(count, 0, &one_page), [(0, true), (0, true)]);
    }
}

/// One page several times in a message: the table before has each as it stood,
/// not as an earlier entry left it.
#[test]
fn a_page_several_times() {
    for entries in [
        vec![(3, 5), (3, 0), (3, 3), (5000, 1)],
        vec![(3, 7), (5000, 1), (3, 1)],
        vec![(3, 7), (3, 5), (3, 7), (3, 0), (5000, 1)],
        vec![(3, 7), (5000, 1), (5000, 7), (5000, 3), (5001, 1)],
        vec![(3, 7), (4, 7), (5000, 1), (5001, 1), (3, 0)],
    ] {
        assert_eq!(both(LIMIT, 0, &entries), [(ENOMEM, true), (ENOMEM, false)], "{entries:?}");
    }
    let entries = [(5000, 1), (5000, 0), (5000, 5), (5001, 1)];
    assert_eq!(both(LIMIT - 1, 0, &entries), [(ENOMEM, true), (ENOMEM, false)]);
    assert_eq!(both(LIMIT - 1, 0, &entries[..3]), [(0, true), (0, true)]);
}

/// Every message of up to four entries out of seven, on a table that is full and
/// on tables with one, two and three places.
#[test]
fn every_short_message() {
    let kinds = [(3, 0), (3, 7), (4, 7), (5000, 1), (5001, 3), (5002, 5), (5000, 7)];
    let mut outcomes = BTreeMap::new();
    for count in LIMIT - 3..=LIMIT {
        let benches = [1, 2].map(|revision| with_pages(by(revision), count));
        let before = table(&benches[0]);
        for length in 1..=4u32 {
            for number in 0..kinds.len().pow(length) {
                let entry = |place| kinds[number / kinds.len().pow(place) % kinds.len()];
                let entries: Vec<_> = (0..length).map(entry).collect();
                let (after, skips) = applied(&before, 0, &entries);
                for (revision, bench) in (1..).zip(&benches) {
                    let mut session = bench.session.clone();
                    let mut out = [UNTOUCHED; 4112];
                    assert_eq!(session.message(&message(0, &entries), &mut out, &mut []), handled(16));
                    let error = i32::from_le_bytes(out[8..12].try_into().unwrap());
                    assert_eq!(error, if skips { ENOMEM } else { 0 });
                    let expected = if skips && revision == 2 { &before } else { &after };
                    assert_eq!(session.page_count(), expected.len());
                    for page in [3, 4, 5000, 5001, 5002] {
                        let access = expected.get(&(0, page)).copied().unwrap_or(7);
                        assert_eq!(session.access(0, page), access, "{entries:?} by revision {revision}");
                    }
                    *outcomes.entry((revision, skips, *expected != before)).or_insert(0) += 1;
                }
            }
        }
    }
    // By either revision each is seen but one: by revision 2 a skip changes
    // nothing.
    let seen: Vec<_> = outcomes.iter().filter(|(_, seen)| **seen > 40).map(|(outcome, _)| *outcome).collect();
    assert_eq!(
        seen,
        [
            (1, false, false),
            (1, false, true),
            (1, true, false),
            (1, true, true),
            (2, false, false),
            (2, false, true),
            (2, true, false)
        ],
        "{outcomes:?}"
    );
    assert_eq!(outcomes.len(), seen.len());
}

/// The largest messages: 4,095 entries, on a fresh table and on a full one.
#[test]
fn the_most_entries() {
    let pages = |count: u64| (0..count).map(|page| (page * 3, 1));
    let ones = |count: usize| std::iter::repeat_n((0, 5), count);
    for (entries, expected) in [
        (pages(1024).chain(ones(4095 - 1024)).collect(), [(0, 1024), (0, 1024)]),
        (pages(1025).chain(ones(4095 - 1025)).collect(), [(ENOMEM, 1024), (ENOMEM, 0)]),
        (ones(4095 - 1025).chain(pages(1025)).collect(), [(ENOMEM, 1024), (ENOMEM, 0)]),
        (pages(4095).collect(), [(ENOMEM, 1024), (ENOMEM, 0)]),
    ] {
        let entries: Vec<_> = entries;
        assert_eq!(entries.len(), 4095);
        for (revision, (error, count)) in (1..).zip(expected) {
            let mut bench = Bench::new(by(revision));
            assert_eq!(bench.error(&message(0, &entries)), error);
            assert_eq!(bench.session.page_count(), count);
        }
    }
    // A full table that is forgotten and set again, twice.
    for revision in [1, 2] {
        let mut bench = with_pages(by(revision), LIMIT);
        let old = || (0..1022).map(|page| (page, 7));
        let new = || (0..1022).map(|page| (7000 + page, 3));
        let entries: Vec<_> = old().chain(new()).collect();
        bench.ok(&message(0, &entries));
        assert_eq!((bench.session.page_count(), bench.session.access(0, 7000)), (LIMIT, 3));
        // In the other order 1,022 entries are skipped.
        let entries: Vec<_> = (0..1022).map(|page| (page, 1)).chain(new().map(|(page, _)| (page, 7))).collect();
        assert_eq!(bench.error(&message(0, &entries)), ENOMEM);
        let left = if revision == 1 { 2 } else { LIMIT };
        assert_eq!(bench.session.page_count(), left);
    }
}

/// -22 comes before -12 by either revision, and nothing is applied.
#[test]
fn invalid_entries_before_a_skip() {
    for revision in [1, 2] {
        let full = with_pages(Settings { execute_only: false, ..by(revision) }, LIMIT);
        let good = [(3, 5), (5000, 1), (4, 7)];
        assert_eq!(full.would(&message(0, &good)), ENOMEM);
        for access in [2, 4, 6, 8, 0xFF] {
            for place in 0..3 {
                let mut entries = good;
                entries[place].1 = access;
                let mut bench = full.clone();
                assert_eq!(bench.error(&message(0, &entries)), EINVAL);
                assert_eq!(bench.image(), full.image());
            }
        }
        for at in [12, 15, 25, 31, 41, 63] {
            let mut bench = full.clone();
            let mut spoiled = message(0, &good);
            spoiled[at] = 0x40;
            assert_eq!(bench.send(&spoiled).0, with_padding(16, at));
            assert_eq!(bench.image(), full.image());
        }
        assert_eq!(full.would(&message(3, &good)), EINVAL);
        let mut counted = message(0, &good);
        counted[8] = 2;
        assert_eq!(full.would(&counted), EINVAL);
        // -12 tells of no padding.
        assert_eq!(full.clone().send(&message(0, &good)).0, handled(16));
    }
}

/// "While replies are off nothing is written, but an error with the flag kept
/// writes one CMD_ERROR event": the only thing that a skip does by revision 2.
#[test]
fn a_skip_with_replies_off() {
    let entries = [(3, 7), (5000, 1), (5001, 1), (4, 0)];
    for flag in [0, 1] {
        let mut bench = with_pages(by(2), LIMIT);
        assert_eq!(bench.send(&response(0, 1, flag)).0, handled(0));
        let (before, image) = (format!("{:?}", bench.session), bench.image());
        for seq in 0..3u32 {
            let mut message = message(0, &entries);
            message[4..8].copy_from_slice(&[1, 2, 3, 4]);
            let (answer, event) = bench.send(&message);
            if flag == 1 {
                assert_eq!(answer, handled(568));
                assert_eq!(event[..8], [&hex("11003002")[..], &seq.to_le_bytes()].concat());
                assert_eq!(event[8..16], hex("200200000D000000"));
                assert_eq!(event[16..552], [0; 536]);
                // -12, the message's seq and its id.
                assert_eq!(event[552..], hex("F4FFFFFF 01020304 0D00 000000000000"));
            } else {
                assert_eq!(answer, handled(0));
                assert_eq!(format!("{:?}", bench.session), before);
            }
            assert_eq!(bench.image(), image);
        }
        // What passes is done in silence, and takes no seq.
        assert_eq!(bench.send(&message(0, &[(3, 7), (5000, 1)])), (handled(0), vec![]));
        assert_eq!((bench.session.access(0, 3), bench.session.access(0, 5000)), (7, 1));
        let (_, event) = bench.send(&message(0, &entries));
        assert_eq!(event.get(4..8), (flag == 1).then_some(&[3, 0, 0, 0][..]));
        // By revision 1 the event is the same, but entries are applied.
        let mut other = with_pages(by(1), LIMIT);
        other.send(&response(0, 1, flag));
        let (answer, event) = other.send(&message(0, &entries));
        assert_eq!((answer, event.len()), (handled(568 * usize::from(flag)), 568 * usize::from(flag)));
        assert_eq!([3, 4, 5000, 5001].map(|page| other.session.access(0, page)), [7, 0, 1, 7]);
    }
}

/// An image tells of no revision: what one wrote the other reads and writes
/// again, and the reader's decides from there on.
#[test]
fn images_between_revisions() {
    for (writer, reader) in [(1, 2), (2, 1), (1, 1), (2, 2)] {
        for count in [LIMIT - 1, LIMIT] {
            let image = with_pages(by(writer), count).image();
            let session = Session::read_image(by(reader), &image).unwrap();
            let mut bench = Bench { session, guest: vec![0; 4096] };
            assert_eq!(bench.image(), image);
            assert_eq!(bench.send(&msg(1, 0, &[])).1[16..20], [reader as u8, 0, 0, 0]);
            let error = bench.error(&message(0, &[(3, 7), (5000, 1), (5001, 1), (5002, 1)]));
            assert_eq!(error, ENOMEM);
            assert_eq!(bench.image() == image, reader == 2);
            assert_eq!(bench.session.access(0, 5000) == 1, reader == 1);
        }
    }
}

/// A skip in a batch: the messages behind it find the table as it was.
#[test]
fn a_skip_in_a_batch() {
    let input = [
        message(0, &[(3, 7), (5000, 1), (5001, 1)]),
        // By revision 2 no place is left, by revision 1 none either.
        message(1, &[(5000, 1)]),
        message(0, &[(3, 7), (5002, 1)]),
        msg(1, 9, &[]),
    ]
    .concat();
    // By revision 1 page 3 is gone, so that the third finds no room.
    for (revision, errors, pages) in [(1, [ENOMEM, ENOMEM, ENOMEM], [7, 1, 7]), (2, [ENOMEM, ENOMEM, 0], [7, 7, 1])] {
        let mut bench = with_pages(by(revision), LIMIT);
        let mut out = vec![UNTOUCHED; 3 * 4112];
        let answer = bench.session.batch(&input, &mut out, &mut [0; 4], &mut bench.guest);
        assert_eq!((answer.used, answer.count), (input.len(), 3 * 16 + 32));
        let found = [0, 1, 2].map(|index| i32::from_le_bytes(out[16 * index + 8..][..4].try_into().unwrap()));
        assert_eq!(found, errors);
        assert_eq!([3, 5000, 5002].map(|page| bench.session.access(0, page)), pages);
        assert_eq!(out[48 + 16..48 + 20], [revision as u8, 0, 0, 0]);
    }
}

/// A page that a skip kept from being set is at rwx: no fault of it is sent.
#[test]
fn faults_after_a_skip() {
    for (revision, written) in [(1, 576), (2, 0)] {
        let mut bench = with_pages(by(revision), LIMIT);
        bench.ok(&vcpu_event(1, 10, 1));
        assert_eq!(bench.error(&message(0, &[(3, 7), (5000, 1), (5001, 1)])), ENOMEM);
        let own = fault(0, 5000 << 12, 1, 0);
        assert_eq!(bench.offer(1, &[0; 536], 10, &own).0, handled(written));
        // Page 3 stands by revision 2 alone.
        let own = fault(0, 3 << 12, 1, 0);
        assert_eq!(bench.offer(0, &[0; 536], 10, &own).0, handled(0));
        bench.ok(&vcpu_event(0, 10, 1));
        assert_eq!(bench.offer(0, &[0; 536], 10, &own).0, handled(576 - written));
    }
}

/// Message 13 with no skip, and every message but it and 1, has the same answer,
/// bytes and effect by both.
#[test]
fn all_else_is_alike() {
    let [mut one, mut two] = [1, 2].map(|revision| with_pages(by(revision), LIMIT - 20));
    let messages = [
        check_command(13),
        check_event(10),
        msg(4, 3, &[]),
        vm_event(12, 1),
        read_physical(0, 16),
        write_physical(5, &[1, 2, 3]),
        vcpu_info(1),
        pause(1, 1),
        vcpu_event(0, 3, 1),
        control_cr(0, 4, 1),
        control_msr(1, 0x1FFF, 1),
        message(2, &[(7000, 1), (0, 7), (7001, 4)]),
        message(2, &(0..19).map(|page| (8000 + page, 1)).collect::<Vec<_>>()),
        message(0, &[(3, 5); 60]),
        message(1, &[(0, 2)]),
        singlestep(0, 1),
        msg(0, 5, &[]),
        msg(17, 5, &[]),
        response(0, 0, 1),
        vm_event(2, 1),
        message(9, &[]),
        response(1, 1, 0),
    ];
    for message in messages {
        assert_eq!(one.send(&message), two.send(&message), "{message:?}");
        assert_eq!(one.image(), two.image());
        assert!(one.guest == two.guest);
    }
    assert_eq!(one.session.page_count(), LIMIT);
    for bench in [&mut one, &mut two] {
        assert_eq!(bench.enter(1, &[9; 536]).0, handled(552));
        assert_eq!(bench.send(&event_reply(2, 1, 0, 2)).0, handled(0));
        assert_eq!(bench.send(&msg(1, 0, &[1])).0, Answer::Closing);
    }
}
