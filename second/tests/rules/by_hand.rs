//! The numbers worked out by hand, the pool's numbers, and the errors of this trade.

use second::answer::Refusal;
use second::emission::pad;
use second::message::{Message, PostArguments};
use second::trace::answers;

use crate::{dialogue, each};

fn send(length: u64) -> Result<Message, Refusal> {
    let post = PostArguments {
        ticket: 1,
        kind: 0,
        has_immediate: 0,
        value: 0,
        fence: 0,
        length,
        offset: 0,
        address: 0,
        key: 0,
    };
    Message::checked(&post, 256)
}

fn packets(length: u64) -> u32 {
    send(length).expect("in range").packets()
}

#[test]
fn one_to_three_packets_of_a_length() {
    assert_eq!([packets(0), packets(256), packets(257)], [1, 1, 2]);
}

#[test]
fn four_send_of_600() {
    let message = send(600).expect("in range");
    let split: Vec<(u8, u32)> =
        (0..message.packets()).map(|at| (message.opcode_at(at), message.payload_at(at))).collect();
    assert_eq!(split, [(0, 256), (1, 256), (2, 88)]);
}

#[test]
fn five_pad_for_5_bytes() {
    assert_eq!(pad(5), 3);
    assert_eq!([pad(0), pad(1), pad(2), pad(3), pad(4), pad(2_147_483_647)], [0, 3, 2, 1, 0, 1]);
}

#[test]
fn six_ack_past_the_wrap() {
    dialogue(
        "open 0 1 16777214 1 1 4 8 7 7 0
         post 0 1 0 0 0 0 1 0 0 0 => first 16777214
         post 0 2 0 0 0 0 1 0 0 0 => first 16777215
         post 0 3 0 0 0 0 1 0 0 0 => first 0
         post 0 4 0 0 0 0 1 0 0 0 => first 1
         emit 0 4
         show 0 => pair 0 ready 16777214 2 2 2 4 7 7 0 0 0/16777214/1/0/1 1/16777215/2/0/1 2/0/3/0/1 3/1/4/0/1
         ack 0 0 31 => done 1:0 2:0 3:0
         show 0 => pair 0 ready 1 2 2 2 1 7 7 0 0 3/1/4/0/1",
    );
}

#[test]
fn seven_dropped_at_both_borders() {
    let four_sends =
        "open 0 1 5 1 1 4 8 7 7 0\npost 0 9 0 0 0 0 1024 0 0 0\npost 0 8 0 0 0 0 1 0 0 0\nemit 0 4";
    each(
        four_sends,
        &[
            ("show 0", "pair 0 ready 5 9 9 10 5 7 7 0 0 0/5/9/0/256 1/6/9/256/256 2/7/9/512/256 3/8/9/768/256 4/9/8/0/1"),
            ("ack 0 9 31", "dropped"),
            ("ack 0 4 31", "dropped"),
            ("ack 0 8 31", "done 9:0"),
            ("ack 0 5 31", "done"),
            ("response 0 9 16 0", "dropped"),
            ("response 0 4 16 0", "dropped"),
            ("response 0 5 16 0", "refused 9"),
            ("ack 0 9 99\nshow 0", "pair 0 ready 5 9 9 10 5 7 7 0 0 0/5/9/0/256 1/6/9/256/256 2/7/9/512/256 3/8/9/768/256 4/9/8/0/1"),
        ],
    );
}

const SEND_READ_SEND: &str = "open 0 1 10 1 1 4 8 7 7 0
    post 0 1 0 0 0 0 100 0 0 0
    post 0 2 2 0 0 0 1000 0 4096 7
    post 0 3 0 0 0 0 100 0 0 0
    emit 0 64";

#[test]
fn eight_ack_past_a_read() {
    each(
        SEND_READ_SEND,
        &[
            ("show 0", "pair 0 ready 10 16 16 16 3 7 7 0 0 0/10/1/0/100 1/11/2/0/1000 2/15/3/0/100"),
            ("ack 0 15 31", "resending 1:0"),
            ("ack 0 15 31\nshow 0", "pair 0 ready 11 11 16 16 2 7 7 0 0 1/11/2/0/1000 2/15/3/0/100"),
        ],
    );
}

#[test]
fn shares_and_ceilings() {
    let two_pairs = "open 0 1 0 1 1 100 256 7 7 0
        open 1 1 0 1 1 56 256 7 7 0
        post 0 1 0 0 0 0 51200 0 0 0";
    each(
        two_pairs,
        &[
            ("post 0 2 0 0 0 0 1 0 0 0", "refused 8"),
            ("post 1 2 0 0 0 0 14336 0 0 0", "first 0"),
            ("post 1 2 0 0 0 0 14337 0 0 0", "refused 8"),
            ("open 2 1 0 1 1 1 256 7 7 0", "refused 8"),
        ],
    );
}

/// An ACK of Sends that leaves R held.
#[test]
fn error_of_the_trade_ack_covers_r() {
    dialogue(
        "open 0 1 5 1 1 4 8 7 7 0
         post 0 9 0 0 0 0 1024 0 0 0
         emit 0 4
         ack 0 6 31 => done
         show 0 => pair 0 ready 7 9 9 9 2 7 7 0 0 2/7/9/512/256 3/8/9/768/256
         ack 0 8 31 => done 9:0
         show 0 => pair 0 ready 9 9 9 9 0 7 7 0 0",
    );
}

/// PSNs compared as plain numbers, wrong at 16,777,215.
#[test]
fn error_of_the_trade_plain_numbers() {
    dialogue(
        "open 0 1 16777215 1 1 4 8 7 7 0
         post 0 9 0 0 0 0 1024 0 0 0 => first 16777215
         emit 0 4
         ack 0 3 31 => dropped
         ack 0 16777214 31 => dropped
         ack 0 16777215 31 => done
         show 0 => pair 0 ready 0 3 3 3 3 7 7 0 0 1/0/9/256/256 2/1/9/512/256 3/2/9/768/256
         ack 0 16777215 31 => dropped
         ack 0 2 31 => done 9:0",
    );
}

/// An ACK past an unanswered read that frees the read.
#[test]
fn error_of_the_trade_ack_frees_no_read() {
    for r in 11..=15 {
        let trace = format!("{SEND_READ_SEND}\nack 0 {r} 0\nshow 0\nfree\n");
        let text = answers(&trace);
        let lines: Vec<&str> = text.lines().rev().take(3).collect();
        assert_eq!(lines[2], "resending 1:0", "ACK {r}");
        assert_eq!(lines[1], "pair 0 ready 11 11 16 16 2 7 7 0 0 1/11/2/0/1000 2/15/3/0/100", "ACK {r}");
        assert!(lines[0].starts_with("free 3 4 5 ") && lines[0].ends_with(" 255 0"), "ACK {r}: {}", lines[0]);
    }
}

#[test]
fn the_example_of_the_trace() {
    let trace = "open 3 77 16777214 65535 1 4 8 7 7 14
        post 3 901 0 0 0 0 600 4096 0 0
        emit 3 2
        ack 3 16777214 31
        show 3\n";
    let text = answers(trace);
    let lines: Vec<&str> = text.lines().collect();
    assert_eq!(lines[..3], ["done", "first 16777214", "emitted 2"]);
    // Opcode, flags, P_Key, far pair, AckReq and PSN; zeros; 12 bytes, ticket 901, offset 4096, 256 bytes.
    let zeros = "00".repeat(20);
    assert_eq!(lines[3], format!("record 0080ffff0000004d80fffffe{zeros}0000000c000003850000100000000100"));
    assert_eq!(lines[4], format!("record 0180ffff0000004d80ffffff{zeros}0000000c000003850000110000000100"));
    assert_eq!(lines[5], "done");
    assert_eq!(lines[6], "pair 3 ready 16777215 0 0 1 2 7 7 0 0 1/16777215/901/4352/256 2/0/901/4608/88");
    assert_eq!(lines.len(), 7);
}
