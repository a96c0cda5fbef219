//! Document 01, "Cases": P1 to P12 and the runner's example.

mod common;

use common::*;
use reference::Signal;

#[test]
fn p1_fresh_image() {
    let bench = Bench::unready(settings());
    let image = bench.image();
    assert_eq!(image, hex("564D010002000000 56430000000000000000 56430100000000000000 454E03000000"));
    assert_eq!(image.len(), 34);
}

#[test]
fn p2_pause_of_a_vcpu_past_the_count() {
    let mut bench = Bench::new(settings());
    let message = hex("0900100008000000 0200000000000000 0000000000000000");
    let (answer, reply) = bench.send(&message);
    assert_eq!(answer, handled(16));
    assert_eq!(reply, hex("0900080008000000 EAFFFFFF00000000"));
}

#[test]
fn p3_empty_message_closes() {
    assert!(Bench::new(settings()).closes(&[]));
}

#[test]
fn p4_size_one_too_large_closes() {
    assert!(Bench::new(settings()).closes(&hex("0100010007000000")));
    let mut message = pause(0, 0);
    message[2] += 1;
    assert!(Bench::new(settings()).closes(&message));
}

#[test]
fn p5_p6_physical_at_the_page_end() {
    let mut bench = Bench::new(settings());
    assert_eq!(bench.error(&read_physical(4095, 1)), 0);
    assert_eq!(bench.error(&read_physical(4095, 2)), EINVAL);
    assert_eq!(bench.error(&write_physical(4095, &[7])), 0);
    assert_eq!(bench.error(&write_physical(4095, &[8, 9])), EINVAL);
    assert_eq!(bench.guest[4094..4098], [0, 7, 0, 0]);
}

#[test]
fn p7_p8_msr_at_the_range_end() {
    let mut bench = Bench::new(settings());
    assert_eq!(bench.error(&control_msr(0, 0x1FFF, 1)), 0);
    assert_eq!(bench.error(&control_msr(0, 0x2000, 1)), EINVAL);
}

#[test]
fn p9_p10_eighth_and_ninth_pause() {
    let mut bench = Bench::new(settings());
    for _ in 0..8 {
        let (answer, reply) = bench.send(&pause(1, 1));
        let signal = Signal::Kick { vcpu: 1, wait: true };
        assert_eq!(answer, with_signal(16, signal));
        assert_eq!(reply, hex("0900080000000000 0000000000000000"));
    }
    let before = bench.image();
    assert_eq!(bench.error(&pause(1, 1)), EBUSY);
    assert_eq!(bench.image(), before);
    assert_eq!(before[18..28], hex("56430100010000000800"));
}

#[test]
fn p11_access_2() {
    let mut bench = Bench::new(settings());
    assert_eq!(bench.error(&page_access(0, &[(0, 2)])), EINVAL);
}

#[test]
fn p12_set_and_forgotten_in_one_message() {
    let mut bench = Bench::new(settings());
    let before = bench.image();
    assert_eq!(bench.error(&page_access(0, &[(0x5000, 1), (0x5FFF, 7)])), 0);
    assert_eq!(bench.image(), before);
}

/// The runner program as document 01 tells it.
fn run(mut input: &[u8]) -> String {
    let mut bench = Bench::new(settings());
    let mut lines = String::new();
    let mut index = 0;
    while !input.is_empty() {
        let length = match input {
            [_, _, low, high, _, _, _, _, ..] => {
                let length = 8 + usize::from(u16::from_le_bytes([*low, *high]));
                if length > 65_536 {
                    return lines + "end long\n";
                }
                length.min(input.len())
            }
            cut => cut.len(),
        };
        let (message, rest) = input.split_at(length);
        input = rest;
        let id = match message {
            [low, high, ..] => u16::from_le_bytes([*low, *high]).to_string(),
            _ => "-".to_string(),
        };
        let seq = match message.get(4..8) {
            Some(seq) => u32::from_le_bytes(seq.try_into().unwrap()).to_string(),
            None => "-".to_string(),
        };
        let (answer, bytes) = bench.send(message);
        // A command error's own err lies behind its state block.
        let at = match bytes.first() {
            Some(17) => Some(552),
            Some(_) => Some(8),
            None => None,
        };
        let error = match at {
            Some(at) => i32::from_le_bytes(bytes[at..at + 4].try_into().unwrap()).to_string(),
            None => "-".to_string(),
        };
        let (number, count) = (answer.number(), bytes.len());
        lines += &format!("{index} {id} {seq} {number} {count} {error}\n");
        index += 1;
        if bench.session.is_closed() {
            return lines + "end closed\n";
        }
    }
    lines + "end open\n"
}

#[test]
fn runner_example() {
    let input = hex("0100000007000000 0900100008000000 0200000000000000 0000000000000000");
    assert_eq!(run(&input), "0 1 7 0 32 0\n1 9 8 0 16 -22\nend open\n");
    let mut bench = Bench::new(settings());
    let (answer, reply) = bench.send(&input[..8]);
    assert_eq!(answer, handled(32));
    assert_eq!(reply, hex("0100180007000000 0000000000000000 0100000000000000 0101010101000000"));
    let (answer, reply) = bench.send(&input[8..]);
    assert_eq!(answer, handled(16));
    assert_eq!(reply, hex("0900080008000000 EAFFFFFF00000000"));
}

#[test]
fn runner_tails_and_errors() {
    assert_eq!(run(&[]), "end open\n");
    assert_eq!(run(&[1]), "0 - - 1 0 -\nend closed\n");
    assert_eq!(run(&hex("01000000 0700")), "0 1 - 1 0 -\nend closed\n");
    assert_eq!(run(&hex("0900100008000000 02")), "0 9 8 1 0 -\nend closed\n");
    // 8 + 65,528 is 65,536 and no more, 8 + 65,529 is more.
    assert_eq!(run(&hex("0900F8FF08000000")), "0 9 8 1 0 -\nend closed\n");
    assert_eq!(run(&hex("0900F9FF08000000")), "end long\n");
    let input = [response(0, 1, 1), msg(9, 5, &[0; 16]), msg(12, 6, &[1; 16])].concat();
    assert_eq!(run(&input), "0 15 0 0 0 -\n1 9 5 0 0 -\n2 12 6 0 568 -22\nend open\n");
}
