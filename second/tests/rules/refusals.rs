//! Refusals 1 to 4 and 9, and their order, at their borders. Posts' own are beside this file.

use crate::{dialogue, each, last};

const ONE_SEND: &str = "open 0 1 5 1 1 4 8 7 7 14\npost 0 9 0 0 0 0 1 0 0 0\nemit 0 1";
/// Pair 0 is ended, with a share of 4.
const ENDED: &str = "open 0 1 5 1 1 4 8 7 7 14\npost 0 9 0 0 0 0 1 0 0 0\nemit 0 1\nack 0 5 99";

#[test]
fn a_pair_over_63_is_1_whatever_else_is_wrong() {
    let wide = "18446744073709551615";
    for pair in ["64", "65", "4294967296", wide] {
        for line in [
            format!("open {pair} {wide} {wide} {wide} {wide} {wide} {wide} {wide} {wide} {wide}"),
            format!("post {pair} {wide} {wide} {wide} {wide} {wide} {wide} {wide} {wide} {wide}"),
            format!("emit {pair} {wide}"),
            format!("ack {pair} {wide} {wide}"),
            format!("response {pair} {wide} {wide} {wide}"),
            format!("timer {pair} {wide}"),
            format!("close {pair}"),
            format!("show {pair}"),
        ] {
            assert_eq!(last(&format!("room 0 0\n{line}")), "refused 1", "{line}");
        }
    }
    each(
        "",
        &[("open 63 1 5 1 1 4 8 7 7 14", "done"), ("show 63", "pair 63 closed"), ("emit 63 1", "refused 2")],
    );
}

/// Every call but open on a closed pair, every call but close on an ended one, with bad arguments too.
#[test]
fn wrong_state() {
    let calls = [
        ("post 0 1 0 0 0 0 1 0 0 0", "post 0 1 3 0 0 0 1 0 0 0"),
        ("emit 0 1", "emit 0 0"),
        ("ack 0 5 31", "ack 0 16777216 64"),
        ("response 0 5 16 0", "response 0 5 12 0"),
        ("timer 0 0", "timer 0 4294967296"),
    ];
    for (good, bad) in calls {
        for line in [good, bad] {
            for state in ["", ENDED, "room 0 0"] {
                assert_eq!(last(&format!("{state}\n{line}")), "refused 2", "{line}");
            }
        }
        let written = last(&format!("{ONE_SEND}\n{good}"));
        assert_ne!(written, "refused 2", "{good}");
        assert_eq!(last(&format!("{ONE_SEND}\nroom 0 0\n{bad}")), "refused 3", "{bad}");
    }
    each("", &[("close 0", "refused 2"), ("open 0 1 5 1 1 4 8 7 7 14", "done")]);
    each(
        ENDED,
        &[
            ("close 0", "done"),
            ("open 0 1 5 1 1 4 8 7 7 14", "refused 2"),
            ("open 0 1 5 1 0 4 8 7 7 14", "refused 2"),
        ],
    );
    each(ONE_SEND, &[("close 0", "done 9:1"), ("open 0 1 5 1 1 257 257 8 7 14", "refused 2")]);
    each(ENDED, &[("close 0\nshow 0", "pair 0 closed"), ("close 0\nopen 0 1 5 1 1 4 8 7 7 14", "done")]);
}

#[test]
fn ranges_of_open() {
    each(
        "",
        &[
            ("open 0 16777215 16777215 65535 5 256 256 7 7 31", "done"),
            ("open 0 0 0 0 1 1 1 0 0 0", "done"),
            ("open 0 16777216 0 0 1 1 1 0 0 0", "refused 3"),
            ("open 0 0 16777216 0 1 1 1 0 0 0", "refused 3"),
            ("open 0 0 4294967296 0 1 1 1 0 0 0", "refused 3"),
            ("open 0 0 0 65536 1 1 1 0 0 0", "refused 3"),
            ("open 0 0 0 0 0 1 1 0 0 0", "refused 3"),
            ("open 0 0 0 0 6 1 1 0 0 0", "refused 3"),
            ("open 0 0 0 0 1 0 1 0 0 0", "refused 3"),
            ("open 0 0 0 0 1 0 0 0 0 0", "refused 3"),
            ("open 0 0 0 0 1 2 1 0 0 0", "refused 3"),
            ("open 0 0 0 0 1 1 256 0 0 0", "done"),
            ("open 0 0 0 0 1 1 257 0 0 0", "refused 3"),
            ("open 0 0 0 0 1 257 257 0 0 0", "refused 3"),
            ("open 0 0 0 0 1 1 1 8 0 0", "refused 3"),
            ("open 0 0 0 0 1 1 1 0 8 0", "refused 3"),
            ("open 0 0 0 0 1 1 1 0 0 32", "refused 3"),
            ("open 0 0 0 0 1 18446744073709551615 18446744073709551615 0 0 0", "refused 3"),
        ],
    );
}

#[test]
fn the_sum_of_shares() {
    each(
        "open 0 0 0 0 1 200 256 0 0 0",
        &[
            ("open 1 0 0 0 1 56 256 0 0 0", "done"),
            ("open 1 0 0 0 1 57 256 0 0 0", "refused 8"),
            ("open 1 0 0 0 1 57 56 0 0 0", "refused 3"),
            ("open 1 0 0 0 1 56 56 0 0 0\nopen 2 0 0 0 1 1 1 0 0 0", "refused 8"),
        ],
    );
    // An ended pair keeps its share until it is closed.
    each(
        &format!("{ENDED}\nopen 1 0 0 0 1 252 252 0 0 0"),
        &[
            ("open 2 0 0 0 1 1 1 0 0 0", "refused 8"),
            ("close 0\nopen 2 0 0 0 1 4 4 0 0 0", "done"),
            ("close 0\nopen 2 0 0 0 1 5 5 0 0 0", "refused 8"),
        ],
    );
}

#[test]
fn ranges_of_emit_events_and_timer() {
    each(
        ONE_SEND,
        &[
            ("emit 0 0", "refused 3"),
            ("emit 0 1", "emitted 0"),
            ("emit 0 64", "emitted 0"),
            ("emit 0 65", "refused 3"),
            ("emit 0 4294967297", "refused 3"),
            ("ack 0 16777215 0", "dropped"),
            ("ack 0 16777216 0", "refused 3"),
            ("ack 0 16777221 0", "refused 3"),
            ("response 0 16777215 13 0", "dropped"),
            ("response 0 16777216 13 0", "refused 3"),
            ("response 0 0 12 0", "refused 3"),
            ("response 0 0 16 4294967295", "dropped"),
            ("response 0 0 16 4294967296", "refused 3"),
            ("response 0 0 17 0", "refused 3"),
            ("response 0 0 269 0", "refused 3"),
            ("timer 0 4294967295", "resending"),
            ("timer 0 4294967296", "refused 3"),
        ],
    );
}

#[test]
fn every_syndrome() {
    for syndrome in 0..=300 {
        let written = last(&format!("{ONE_SEND}\nack 0 5 {syndrome}"));
        let expected = match syndrome {
            0..=31 => "done 9:0",
            32..=63 => "held",
            96..=98 => "resending",
            99 => "ended 9:1",
            _ => "refused 3",
        };
        assert_eq!(written, expected, "syndrome {syndrome}");
    }
}

#[test]
fn buffers_too_short() {
    each(
        ONE_SEND,
        &[
            ("room 47 512\nemit 0 1", "refused 4"),
            ("room 48 0\nemit 0 1", "emitted 0"),
            ("room 3071 512\nemit 0 64", "refused 4"),
            ("room 3072 0\nemit 0 64", "emitted 0"),
            ("room 3024 0\nemit 0 63", "emitted 0"),
            ("room 0 511\nack 0 5 31", "refused 4"),
            ("room 0 512\nack 0 5 31", "done 9:0"),
            ("room 0 511\nack 0 9 31", "refused 4"),
            ("room 0 511\nack 0 9 64", "refused 3"),
            ("room 0 511\nresponse 0 5 16 0", "refused 4"),
            ("room 0 512\nresponse 0 5 16 0", "refused 9"),
            ("room 0 511\nresponse 0 4 16 0", "refused 4"),
            ("room 0 511\ntimer 0 0", "refused 4"),
            ("room 0 512\ntimer 0 0", "idle"),
            ("room 0 511\nclose 0", "refused 4"),
            ("room 0 512\nclose 0", "done 9:1"),
            ("room 0 0\npost 0 1 0 0 0 0 1 0 0 0", "first 6"),
            ("room 0 0\nopen 1 1 1 1 1 1 1 1 1 1", "done"),
        ],
    );
    each(ENDED, &[("room 0 511\nclose 0", "refused 4"), ("room 0 511\nemit 0 1", "refused 2")]);
    // A held pair writes nothing, but its call is still tested.
    each(
        &format!("{ONE_SEND}\nack 0 5 33"),
        &[("emit 0 0", "refused 3"), ("room 47 512\nemit 0 1", "refused 4"), ("emit 0 1", "emitted 0")],
    );
}

#[test]
fn responses_that_do_not_fit() {
    // Send 10, Read 11 to 14 of 1,000 bytes, a read of nothing at 15, Send 16, Read 17 not emitted.
    let mixed = "open 0 1 10 1 1 4 8 7 7 0
        post 0 1 0 0 0 0 100 0 0 0
        post 0 2 2 0 0 0 1000 0 0 0
        post 0 3 2 0 0 0 0 77 0 0
        post 0 4 0 0 0 0 0 0 0 0
        post 0 5 2 0 0 0 0 0 0 0
        emit 0 4";
    each(
        mixed,
        &[
            ("response 0 10 13 256", "refused 9"),
            ("response 0 11 13 256", "done@0 1:0"),
            ("response 0 11 14 256", "done@0 1:0"),
            ("response 0 11 13 255", "refused 9"),
            ("response 0 11 13 257", "refused 9"),
            ("response 0 11 15 256", "refused 9"),
            ("response 0 11 16 256", "refused 9"),
            ("response 0 14 15 232", "resending 1:0"),
            ("response 0 14 16 232", "resending 1:0"),
            ("response 0 14 15 256", "refused 9"),
            ("response 0 14 14 232", "refused 9"),
            ("response 0 14 13 232", "refused 9"),
            ("response 0 15 16 0", "resending 1:0"),
            ("response 0 15 16 1", "refused 9"),
            ("response 0 15 14 0", "refused 9"),
            ("response 0 16 16 0", "refused 9"),
            ("response 0 17 16 0", "dropped"),
        ],
    );
    // A refusal changes nothing.
    let before = last(&format!("{mixed}\nshow 0"));
    each(mixed, &[("response 0 14 14 232\nshow 0", &before), ("ack 0 10 128\nshow 0", &before)]);
}

#[test]
fn refused_calls_change_nothing() {
    dialogue(
        "open 0 1 5 1 1 4 8 3 3 14
         post 0 9 0 0 0 0 600 0 0 0
         emit 0 2
         timer 0 1000
         show 0 => pair 0 ready 5 7 7 8 3 3 3 1000 0 0/5/9/0/256 1/6/9/256/256 2/7/9/512/88
         post 0 9 0 0 0 0 2147483647 0 0 0 => refused 5
         emit 0 0 => refused 3
         ack 0 5 64 => refused 3
         response 0 5 13 256 => refused 9
         timer 0 4294967296 => refused 3
         room 0 0
         close 0 => refused 4
         timer 0 1 => refused 4
         ack 0 5 31 => refused 4
         show 0 => pair 0 ready 5 7 7 8 3 3 3 1000 0 0/5/9/0/256 1/6/9/256/256 2/7/9/512/88",
    );
}
