//! What a support engineer reads.
use semblurick::{
    own, Action, Answer, Command, CommandSet, Errno, Event, EventSet, Feed, Refusal, Session, Settings, Signal, ENTRY_OUT,
    MESSAGE_OUT, STATE_BYTES,
};

fn on_vcpu(id: u16, seq: u32, vcpu: u16, data: [u8; 8]) -> Vec<u8> {
    [&id.to_le_bytes()[..], &[16, 0], &seq.to_le_bytes(), &vcpu.to_le_bytes(), &[0; 6], &data].concat()
}

/// A message's answer as a line of a log and as `{:?}` shows it.
fn said(session: &mut Session, message: &[u8]) -> (String, String) {
    let (mut out, mut guest) = ([0; MESSAGE_OUT], [0; 4096]);
    let answer = session.message(message, &mut out, &mut guest);
    (answer.map_or_else(|refusal| refusal.to_string(), |answer| answer.to_string()), format!("{answer:?}"))
}

fn says(session: &mut Session, message: &[u8], line: &str, shown: &str) {
    assert_eq!(said(session, message), (line.to_owned(), shown.to_owned()));
}

#[test]
fn answers_say_what_happened() {
    let mut session = Session::fresh(&Settings::allowing_all(2)).unwrap();
    session.ready(1).unwrap();
    says(
        &mut session,
        &on_vcpu(9, 1, 0, [0; 8]),
        "EAGAIN, 16 bytes, no signal",
        "Ok(Handled { id: KVMI_VCPU_PAUSE, seq: 1, error: EAGAIN, bytes: [09 00 08 00 01 00 00 00 f5 ff ff ff 00 00 00 00], \
         signal: None })",
    );
    says(
        &mut session,
        &on_vcpu(9, 2, 1, [1, 0, 0, 0, 0, 0, 0, 0]),
        "done, 16 bytes, kick vCPU 1 and wait",
        "Ok(Handled { id: KVMI_VCPU_PAUSE, seq: 2, bytes: [09 00 08 00 02 00 00 00 00 00 00 00 00 00 00 00], \
         signal: Kick { vcpu: 1, wait: true } })",
    );
    // a reply to an unknown message with the number of events is no event
    says(
        &mut session,
        &[17, 0, 0, 0, 255, 0, 0, 0],
        "ENOSYS, 16 bytes, no signal",
        "Ok(Handled { id: 17, seq: 255, error: ENOSYS, bytes: [11 00 08 00 ff 00 00 00 18 fc ff ff 00 00 00 00], signal: None })",
    );
    // a long reply is cut
    says(
        &mut session,
        &[&[6, 0, 16, 0, 3, 0, 0, 0][..], &[0; 8], &4096u64.to_le_bytes()].concat(),
        "done, 4112 bytes, no signal",
        &format!(
            "Ok(Handled {{ id: KVMI_VM_READ_PHYSICAL, seq: 3, bytes: [06 00 08 10 03 00 00 00{} and 4080 more], signal: None }})",
            " 00".repeat(24)
        ),
    );

    let mut event = [0; ENTRY_OUT];
    let entry = session.enter(1, &[0xAB; STATE_BYTES], &mut event).unwrap();
    assert_eq!((entry.may_run(), entry.event(), entry.bytes.len()), (false, Some(Event::PauseVcpu), 552));
    assert_eq!(entry.to_string(), "KVMI_EVENT_PAUSE_VCPU, 552 bytes");
    assert_eq!(
        format!("{entry:?}"),
        "Entry { id: KVMI_EVENT, seq: 0, event: KVMI_EVENT_PAUSE_VCPU, vcpu: 1, bytes: [11 00 20 02 00 00 00 00 20 02 01 00 02 00 00 \
         00 ab ab ab ab ab ab ab ab ab ab ab ab ab ab ab ab and 520 more] }"
    );
    assert_eq!(session.enter(1, &[0; STATE_BYTES], &mut event), Err(Refusal::Waiting));
    assert_eq!(Refusal::Waiting.to_string(), "this vCPU's event reply is awaited");
    let entry = session.enter(0, &[0; STATE_BYTES], &mut event).unwrap();
    assert_eq!((entry.may_run(), entry.event(), entry.to_string()), (true, None, "may run, no bytes".to_owned()));
    assert_eq!(format!("{entry:?}"), "Entry { bytes: [] }");
    assert_eq!(session.write_image(&mut event), Err(Refusal::Busy));

    let crash = on_vcpu(16, 0, 1, [2, 2, 0, 0, 0, 0, 0, 0]);
    says(&mut session, &crash, "taken, no bytes, crash vCPU 1", "Ok(Handled { bytes: [], signal: Crash { vcpu: 1 } })");
    // replies off, and errors told by events
    says(
        &mut session,
        &[15, 0, 8, 0, 4, 0, 0, 0, 0, 1, 1, 0, 0, 0, 0, 0],
        "taken, no bytes, no signal",
        "Ok(Handled { bytes: [], signal: None })",
    );
    let (line, shown) = said(&mut session, &on_vcpu(9, 5, 7, [0; 8]));
    assert_eq!(line, "EINVAL, 568 bytes, no signal");
    assert!(
        shown.starts_with(
            "Ok(Handled { id: KVMI_EVENT, seq: 1, event: KVMI_EVENT_CMD_ERROR, vcpu: 0, error: EINVAL, bytes: [11 00"
        ),
        "{shown}"
    );
    assert!(shown.ends_with(" 00 and 536 more], signal: None })") && shown.len() < 300, "{shown}");
    assert_eq!(said(&mut session, &[]), ("the session closes".to_owned(), "Ok(Closing)".to_owned()));
    assert_eq!(said(&mut session, &[]), ("the session is closed".to_owned(), "Err(Closed)".to_owned()));
    assert!(session.is_closed());
}

#[test]
fn a_padding_byte_is_said() {
    let mut session = Session::fresh(&Settings::allowing_all(2)).unwrap();
    session.ready(1).unwrap();
    // KVMI_VCPU_CONTROL_CR: padding at 17 to 19, and cr at 20
    let watch = |seq, padding, cr| on_vcpu(11, seq, 1, [1, 0, 0, padding, cr, 0, 0, 0]);
    let reply = |seq| format!("[0b 00 08 00 {seq:02x} 00 00 00 ea ff ff ff 00 00 00 00]");
    says(
        &mut session,
        &watch(1, 7, 3),
        "EINVAL, 16 bytes, no signal, byte 19 of the message, padding, is not zero",
        &format!(
            "Ok(Handled {{ id: KVMI_VCPU_CONTROL_CR, seq: 1, error: EINVAL, because: byte 19 of the message, padding, is not zero, \
             bytes: {}, signal: None }})",
            reply(1)
        ),
    );
    // another cause of the same error: no byte is said
    says(
        &mut session,
        &watch(2, 0, 2),
        "EINVAL, 16 bytes, no signal",
        &format!("Ok(Handled {{ id: KVMI_VCPU_CONTROL_CR, seq: 2, error: EINVAL, bytes: {}, signal: None }})", reply(2)),
    );
    // a batch says none
    batch_says(
        &mut session,
        &watch(3, 7, 3),
        "used 24 bytes, wrote 16, no signal",
        &format!(
            "Ok(Batch {{ used: 24, messages: [KVMI_VCPU_CONTROL_CR 3 EINVAL], bytes: {}, signals: [], resume: None, closing: \
             false }})",
            reply(3)
        ),
    );
    // replies off, but for errors by events
    let off = |flags| [15, 0, 8, 0, 4, 0, 0, 0, 0, 1, flags, 0, 0, 0, 0, 0];
    assert_eq!(said(&mut session, &off(1)).0, "taken, no bytes, no signal");
    let (line, shown) = said(&mut session, &watch(5, 7, 3));
    assert_eq!(line, "EINVAL, 568 bytes, no signal, byte 19 of the message, padding, is not zero");
    assert!(
        shown.starts_with(
            "Ok(Handled { id: KVMI_EVENT, seq: 0, event: KVMI_EVENT_CMD_ERROR, vcpu: 0, error: EINVAL, because: byte 19 of the \
             message, padding, is not zero, bytes: [11 00"
        ),
        "{shown}"
    );
    // and off: there are no bytes, and the error is said all the same
    assert_eq!(said(&mut session, &off(0)).0, "taken, no bytes, no signal");
    says(
        &mut session,
        &watch(6, 7, 3),
        "EINVAL, no bytes, no signal, byte 19 of the message, padding, is not zero",
        "Ok(Handled { error: EINVAL, because: byte 19 of the message, padding, is not zero, bytes: [], signal: None })",
    );
    says(&mut session, &watch(7, 0, 2), "taken, no bytes, no signal", "Ok(Handled { bytes: [], signal: None })");
}

/// A batch as a line of a log and as `{:?}` shows it.
fn batch_says(session: &mut Session, input: &[u8], line: &str, shown: &str) {
    let (mut out, mut signals) = ([0; 3 * MESSAGE_OUT], [0; 32]);
    let batch = session.batch(input, &mut out, &mut signals, &mut []);
    let said = batch.map_or_else(|refusal| refusal.to_string(), |batch| batch.to_string());
    assert_eq!((said, format!("{batch:?}")), (line.to_owned(), shown.to_owned()));
}

#[test]
fn batches_say_what_happened() {
    let mut session = Session::fresh(&Settings::allowing_all(2)).unwrap();
    session.ready(1).unwrap();
    let pause = |seq, vcpu, wait| on_vcpu(9, seq, vcpu, [wait, 0, 0, 0, 0, 0, 0, 0]);
    let nothing = "Ok(Batch { used: 0, messages: [], bytes: [], signals: [], resume: None, closing: false })";
    batch_says(&mut session, &[], "used 0 bytes, wrote 0, no signal", nothing);
    batch_says(
        &mut session,
        &[pause(1, 1, 1), pause(2, 0, 0), pause(3, 1, 0)].concat(),
        "used 72 bytes, wrote 48, kick vCPU 1 and wait, kick vCPU 1",
        "Ok(Batch { used: 72, messages: [KVMI_VCPU_PAUSE 1, KVMI_VCPU_PAUSE 2 EAGAIN, KVMI_VCPU_PAUSE 3], bytes: [09 00 08 00 01 00 00 \
         00 00 00 00 00 00 00 00 00 09 00 08 00 02 00 00 00 f5 ff ff ff 00 00 00 00 and 16 more], signals: [Kick { vcpu: 1, wait: \
         true }, Kick { vcpu: 1, wait: false }], resume: None, closing: false })",
    );
    // a resume ends it
    let mut out = [0; ENTRY_OUT];
    let on = on_vcpu(10, 4, 1, [7, 0, 1, 0, 0, 0, 0, 0]);
    assert_eq!(said(&mut session, &on).0, "done, 16 bytes, no signal");
    assert!(!session.enter_event(1, &[0; STATE_BYTES], Event::Xsetbv, &[], &mut out).unwrap().may_run());
    let go = on_vcpu(16, 0, 1, [0, 7, 0, 0, 0, 0, 0, 0]);
    batch_says(
        &mut session,
        &[pause(5, 1, 0), go, pause(6, 1, 0)].concat(),
        "used 48 bytes, wrote 16, kick vCPU 1, resume vCPU 1: continue, value 0x0",
        "Ok(Batch { used: 48, messages: [KVMI_VCPU_PAUSE 5], bytes: [09 00 08 00 05 00 00 00 00 00 00 00 00 00 00 00], signals: \
         [Kick { vcpu: 1, wait: false }], resume: Resume { vcpu: 1, action: KVMI_EVENT_ACTION_CONTINUE, value: 0 }, closing: false })",
    );
    // many are cut; what closes is said last, and an error that an event tells is named
    let many: Vec<u8> = (6..17).flat_map(|seq| pause(seq, 1, 0)).collect();
    let (mut out, mut signals) = ([0; 2 * MESSAGE_OUT], [0; 32]);
    let batch =
        session.clone().batch(&many, &mut out, &mut signals, &mut []).map(|batch| (batch.to_string(), format!("{batch:?}")));
    let (line, shown) = batch.unwrap();
    assert_eq!(line, "used 264 bytes, wrote 176, kick vCPU 1, kick vCPU 1, kick vCPU 1, kick vCPU 1, kick vCPU 1");
    assert!(
        shown.contains("KVMI_VCPU_PAUSE 11 EBUSY, KVMI_VCPU_PAUSE 12 EBUSY, KVMI_VCPU_PAUSE 13 EBUSY and 3 more]"),
        "{shown}"
    );
    let mut other = Session::fresh(&Settings::allowing_all(16)).unwrap();
    (0..16).for_each(|vcpu| other.ready(vcpu).unwrap());
    let all: Vec<u8> = (0..16).flat_map(|vcpu| pause(1, vcpu, 0)).collect();
    let line = other.batch(&all, &mut out, &mut signals, &mut []).unwrap().to_string();
    assert!(line.starts_with("used 384 bytes, wrote 256, kick vCPU 0, kick vCPU 1, "), "{line}");
    assert!(line.ends_with(", kick vCPU 7 and 8 more"), "{line}");
    // the resume stands behind them, and is never cut
    let mut event = [0; ENTRY_OUT];
    assert_eq!(said(&mut other, &on_vcpu(10, 1, 0, [7, 0, 1, 0, 0, 0, 0, 0])).0, "done, 16 bytes, no signal");
    assert!(!other.enter_event(0, &[0; STATE_BYTES], Event::Xsetbv, &[], &mut event).unwrap().may_run());
    let go = on_vcpu(16, 0, 0, [0, 7, 0, 0, 0, 0, 0, 0]);
    let line = other.clone().batch(&go, &mut out, &mut signals, &mut []).unwrap().to_string();
    assert_eq!(line, "used 24 bytes, wrote 0, resume vCPU 0: continue, value 0x0");
    let line = other.batch(&[&all[..9 * 24], &go].concat(), &mut out, &mut signals, &mut []).unwrap().to_string();
    assert!(line.ends_with(", kick vCPU 7 and 1 more, resume vCPU 0: continue, value 0x0"), "{line}");
    let off = [15, 0, 8, 0, 4, 0, 0, 0, 0, 1, 1, 0, 0, 0, 0, 0];
    let (line, shown) = {
        let input = [&off[..], &pause(7, 0, 0), &[9]].concat();
        let batch = session.batch(&input, &mut out, &mut signals, &mut []).unwrap();
        (batch.to_string(), format!("{batch:?}"))
    };
    assert_eq!(line, "used 41 bytes, wrote 568, no signal, the session closes");
    assert!(shown.starts_with("Batch { used: 41, messages: [KVMI_EVENT 1 EAGAIN], bytes: [11 00 30 02"), "{shown}");
    assert!(shown.ends_with(" and 536 more], signals: [], resume: None, closing: true }"), "{shown}");
    batch_says(&mut session, &[], "the session is closed", "Err(Closed)");
}

#[test]
fn an_offered_event_says_what_it_is() {
    let mut session = Session::fresh(&Settings::allowing_all(2)).unwrap();
    session.ready(1).unwrap();
    let mut out = [0; ENTRY_OUT];
    let write = own::Cr { cr: 0, old_value: 0x8005_0033, new_value: 0x33 }.bytes();
    let entry = session.enter_event(1, &[0; STATE_BYTES], Event::Cr, &write, &mut out).unwrap();
    assert_eq!((entry.event(), entry.to_string()), (None, "may run, no bytes".to_owned()));

    assert_eq!(said(&mut session, &on_vcpu(10, 1, 1, [5, 0, 1, 0, 0, 0, 0, 0])).0, "done, 16 bytes, no signal");
    assert_eq!(said(&mut session, &on_vcpu(11, 2, 1, [1, 0, 0, 0, 0, 0, 0, 0])).0, "done, 16 bytes, no signal");
    let entry = session.enter_event(1, &[0; STATE_BYTES], Event::Cr, &write, &mut out).unwrap();
    assert_eq!((entry.may_run(), entry.event()), (false, Some(Event::Cr)));
    assert_eq!(entry.to_string(), "KVMI_EVENT_CR, 576 bytes");
    let shown = format!("{entry:?}");
    let begins =
        "Entry { id: KVMI_EVENT, seq: 0, event: KVMI_EVENT_CR, vcpu: 1, bytes: [11 00 38 02 00 00 00 00 20 02 01 00 05 00";
    assert!(shown.starts_with(begins) && shown.ends_with(" 00 and 544 more] }"), "{shown}");
    assert!(format!("{session:?}").contains("awaits_reply_to: KVMI_EVENT_CR, seq: 0"), "{session:?}");

    let mut reply = on_vcpu(16, 0, 1, [0, 5, 0, 0, 0, 0, 0, 0]);
    reply.extend(0x8005_0033u64.to_le_bytes());
    reply[2] = 24;
    says(
        &mut session,
        &reply,
        "taken, no bytes, resume vCPU 1: continue, value 0x80050033",
        "Ok(Handled { bytes: [], signal: Resume { vcpu: 1, action: KVMI_EVENT_ACTION_CONTINUE, value: 2147811379 } })",
    );
    let retry = Signal::Resume { vcpu: 15, action: Action::Retry, value: 0 };
    assert_eq!(retry.to_string(), "resume vCPU 15: retry, value 0x0");

    // a breakpoint's event has as many bytes as a CMD_ERROR event, and is none
    assert_eq!(said(&mut session, &on_vcpu(10, 3, 1, [4, 0, 1, 0, 0, 0, 0, 0])).0, "done, 16 bytes, no signal");
    let int3 = own::Breakpoint { gpa: 0x1234, insn_len: 1 }.bytes();
    let entry = session.enter_event(1, &[0; STATE_BYTES], Event::Breakpoint, &int3, &mut out).unwrap();
    assert_eq!(entry.to_string(), "KVMI_EVENT_BREAKPOINT, 568 bytes");

    let refused = session.enter_event(1, &[0; STATE_BYTES], Event::Trap, &[0; 24], &mut out).unwrap_err();
    let text = "the register block is not 536 bytes, or no event of that number and length can be offered";
    assert_eq!((refused, refused.to_string()), (Refusal::BadState, text.to_owned()));
}

/// The answer to a page fault's reply, with so many bytes of guest memory, and that of a batch behind a pause.
fn fed(gva: u64, gpa: u64, access: u8, guest: usize) -> [String; 4] {
    let mut session = Session::fresh(&Settings::allowing_all(2)).unwrap();
    session.ready(1).unwrap();
    let guard = [&[13, 0, 24, 0, 1, 0, 0, 0, 1][..], &[0; 8], &[0x10, 0, 0, 0, 0, 0, 0, 1], &[0; 7]].concat();
    for message in [on_vcpu(10, 1, 1, [10, 0, 1, 0, 0, 0, 0, 0]), guard] {
        assert_eq!(said(&mut session, &message).0, "done, 16 bytes, no signal");
    }
    let (mut out, mut signals, mut guest) = ([0; 2 * MESSAGE_OUT], [0; 16], vec![0xAB; guest]);
    let read = own::Pf { gva, gpa, access, view: 0 }.bytes();
    let entry = session.enter_event(1, &[0; STATE_BYTES], Event::Pf, &read, &mut out).unwrap();
    assert_eq!(entry.to_string(), "KVMI_EVENT_PF, 576 bytes");
    assert!(format!("{session:?}").contains("awaits_reply_to: KVMI_EVENT_PF, seq: 0"), "{session:?}");
    let mut reply = on_vcpu(16, 0, 1, [0, 10, 0, 0, 0, 0, 0, 0]);
    (reply[2], reply[3]) = (32, 1);
    reply.extend([&0x7000u64.to_le_bytes()[..], &[12, 0, 0, 0, 0, 1, 0, 0], b"bytes for it"].concat());
    reply.resize(296, 0);
    let input = [on_vcpu(9, 7, 1, [0; 8]), reply.clone()].concat();
    let mut twin = session.clone();
    let answer = session.message(&reply, &mut out, &mut guest).unwrap();
    let [line, shown] = [answer.to_string(), format!("{answer:?}")];
    let batch = twin.batch(&input, &mut out, &mut signals, &mut guest).unwrap();
    [line, shown, batch.to_string(), format!("{batch:?}")]
}

#[test]
fn what_is_fed_is_said() {
    let taken = "taken, no bytes, resume vCPU 1: continue, value 0x1";
    let resume = "Resume { vcpu: 1, action: KVMI_EVENT_ACTION_CONTINUE, value: 1 }";
    let batch = "used 320 bytes, wrote 16, kick vCPU 1, resume vCPU 1: continue, value 0x1";
    let shown = format!(
        "Batch {{ used: 320, messages: [KVMI_VCPU_PAUSE 7], bytes: [09 00 08 00 07 00 00 00 00 00 00 00 00 00 00 00], signals: \
         [Kick {{ vcpu: 1, wait: false }}], resume: {resume}, closing: false"
    );
    let page = format!("Page([{}ab and 32 more])", "ab ".repeat(31));
    for (gva, gpa, access, guest, line, feed) in [
        (0x7008, 0x1FC0, 1, 0x2000, ", fed 4 bytes of the message", ", feed: Supplied([72 20 69 74])"),
        (0x700C, 0x1FC0, 1, 0x2000, ", fed 64 bytes of guest memory", &format!(", feed: {page}")),
        (0x7008, 0x1FC0, 2, 0x2000, "", ""),
    ] {
        let said = fed(gva, gpa, access, guest);
        assert_eq!(said[0], format!("{taken}{line}"));
        assert_eq!(said[1], format!("Handled {{ bytes: [], signal: {resume}{feed} }}"));
        assert_eq!(said[2], format!("{batch}{line}"));
        assert_eq!(said[3], format!("{shown}{feed} }}"));
    }
    // no page
    let said = fed(0x700C, 0x1FC0, 1, 0x1FFF);
    assert_eq!(said[0], format!("{taken}, no guest page to feed it from"));
    assert_eq!(said[1], format!("NoPage {{ signal: {resume} }}"));
    assert_eq!(said[2], format!("{batch}, no guest page to feed it from"));
    assert_eq!(said[3], format!("{shown}, no_page: true }}"));

    let at = Feed::PageAt { at: 0x1FC0, length: 64 };
    assert_eq!(
        (at.to_string(), format!("{at:?}")),
        ("fed 64 bytes of guest memory at 0x1fc0".into(), "PageAt { at: 8128, length: 64 }".into())
    );
    assert_eq!((Feed::None.to_string(), format!("{:?}", Feed::None)), ("fed nothing".to_owned(), "None".to_owned()));
}

#[test]
fn a_session_reads_as_names() {
    let mut session = Session::fresh(&Settings::allowing_all(2).revision(2)).unwrap();
    session.ready(1).unwrap();
    let (mut out, mut guest) = ([0; MESSAGE_OUT], [0; 4096]);
    for message in [
        on_vcpu(10, 1, 1, [5, 0, 1, 0, 0, 0, 0, 0]),
        on_vcpu(11, 2, 1, [1, 0, 0, 0, 3, 0, 0, 0]),
        on_vcpu(12, 3, 1, [1, 0, 0, 0, 0x82, 0, 0, 0xC0]),
        on_vcpu(9, 4, 1, [0; 8]),
    ] {
        assert!(
            matches!(session.message(&message, &mut out, &mut guest), Ok(answer @ Answer::Handled { .. }) if answer.error().is_none())
        );
    }
    assert!(!session.enter(1, &[0; STATE_BYTES], &mut out).unwrap().may_run());
    let text = format!("{session:?}");
    for part in [
        "closed: false",
        "replies: on",
        "next_event_seq: 1",
        "KVMI_EVENT_CR",
        "CR3",
        "msrs_on: 1",
        "awaits_reply_to: KVMI_EVENT_PAUSE_VCPU",
        "execute_only: true",
        "revision: 2",
    ] {
        assert!(text.contains(part), "{part} is not in {text}");
    }
}

#[test]
fn numbers_and_names() {
    for command in Command::ALL {
        assert_eq!(Command::from_number(command.number()), Some(*command));
    }
    for event in Event::ALL {
        assert_eq!(Event::from_number(event.number()), Some(*event));
    }
    for error in Errno::ALL {
        assert_eq!(Errno::from_number(error.number()), Some(*error));
    }
    assert_eq!([0, 1, 2].map(Action::from_number), [Action::Continue, Action::Retry, Action::Crash].map(Some));
    assert_eq!((Action::from_number(3), Action::ALL.len()), (None, 3));
    assert_eq!(Command::from_number(0), None);
    assert_eq!(Event::from_number(15), None);
    let set: EventSet = [Event::Cr, Event::Msr].into_iter().collect();
    assert_eq!(format!("{set:?}"), "{KVMI_EVENT_CR, KVMI_EVENT_MSR}");
    assert_eq!(set.without(Event::Msr).with(Event::Pf).bits(), 1 << 5 | 1 << 10);
    assert!(CommandSet::ALL.has(Command::EventReply) && !CommandSet::NONE.has(Command::GetVersion));
    assert_eq!(Signal::Kick { vcpu: 3, wait: false }.to_string(), "kick vCPU 3");
}

#[test]
fn every_refusal_of_a_beginning() {
    let settings = Settings::allowing_all(2);
    assert_eq!(Session::fresh(&settings.clone().views(9)).err(), Some(Refusal::BadSettings));
    assert_eq!(Session::fresh(&Settings::allowing_all(17)).err(), Some(Refusal::BadSettings));
    assert_eq!(Session::fresh(&settings.clone().revision(0)).err(), Some(Refusal::BadSettings));
    let session = Session::fresh(&settings).unwrap();
    let mut image = vec![0; session.image_size()];
    session.write_image(&mut image).unwrap();
    assert_eq!(Session::from_image(&settings, &image[..33]).err(), Some(Refusal::BadForm { offset: 28 }));
    assert_eq!(Session::from_image(&Settings::allowing_all(3), &image).err(), Some(Refusal::Forbidden { offset: 0 }));
    assert_eq!(session.write_image(&mut image[..33]), Err(Refusal::ShortOut));
    assert_eq!(session.clone().ready(2), Err(Refusal::BadVcpu));
    assert_eq!(session.clone().ready(65_536), Err(Refusal::BadVcpu));
    assert_eq!(session.clone().enter(0, &[0; 535], &mut image), Err(Refusal::BadState));
}

#[test]
fn a_session_begins_in_place() {
    static mut PLACE: Session = Session::closed();
    // SAFETY: this test alone names it.
    let session = unsafe { &mut *core::ptr::addr_of_mut!(PLACE) };
    assert_eq!(session.ready(0), Err(Refusal::Closed));
    let settings = Settings::allowing_all(1);
    session.begin(&settings).unwrap();
    session.ready(0).unwrap();
    let mut image = vec![0; session.image_size()];
    session.write_image(&mut image).unwrap();
    assert_eq!(session.load(&settings, &image[1..]), Err(Refusal::BadForm { offset: 0 }));
    assert!(session.is_closed());
    session.load(&settings, &image).unwrap();
    assert!(session.is_ready(0) && !session.is_closed());
}
