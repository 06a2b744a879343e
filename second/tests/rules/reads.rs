//! Reads: responses in their places, answered in part and asked for again.

use crate::{dialogue, each, last};

/// Read 11 to 14 of 1,000 bytes, to offset 5000 from address 2^20, then Send 15; all emitted.
const READ: &str = "open 0 77 11 65535 1 4 8 7 7 1
    post 0 2 2 0 0 0 1000 5000 1048576 9
    post 0 3 0 0 0 0 100 0 0 0
    emit 0 64";

/// The record of a read request by its four parts that change.
fn request(psn: &str, address: &str, length: &str, offset: &str) -> String {
    let bth = format!("0c80ffff0000004d80{psn}");
    format!("record {bth}{address}00000009{length}000000000000001c00000002{offset}00000000")
}

#[test]
fn a_read_request() {
    // PSN 11; address 2^20; length 1000; offset 5000.
    let whole = request("00000b", "0000000000100000", "000003e8", "00001388");
    each("open 0 77 11 65535 1 4 8 7 7 1\npost 0 2 2 0 0 0 1000 5000 1048576 9", &[("emit 0 1", &whole)]);
}

#[test]
fn responses_in_order() {
    dialogue(&format!(
        "{READ}
         response 0 11 13 256 => done@5000
         show 0 => pair 0 ready 12 16 16 16 2 7 7 0 0 0/11/2/5000/1000 1/15/3/0/100
         response 0 11 13 256 => dropped
         response 0 12 14 256 => done@5256
         response 0 13 14 256 => done@5512
         show 0 => pair 0 ready 14 16 16 16 2 7 7 0 0 0/11/2/5000/1000 1/15/3/0/100
         response 0 14 15 232 => done@5768 2:0
         show 0 => pair 0 ready 15 16 16 16 1 7 7 0 0 1/15/3/0/100
         ack 0 15 31 => done 3:0"
    ));
}

#[test]
fn a_read_answered_in_part_is_asked_for_again() {
    let answered = format!("{READ}\nresponse 0 11 13 256\nresponse 0 12 14 256");
    // PSN 13; address and offset 512 further; 488 bytes left.
    let rest = request("00000d", "0000000000100200", "000001e8", "00001588");
    let all = request("00000b", "0000000000100000", "000003e8", "00001388");
    each(
        &answered,
        &[
            ("emit 0 1", "emitted 0"),
            ("ack 0 15 31", "resending"),
            ("ack 0 15 31\nshow 0", "pair 0 ready 13 13 16 16 2 7 7 0 0 0/11/2/5000/1000 1/15/3/0/100"),
            ("ack 0 15 31\nemit 0 1", &rest),
            ("ack 0 13 31\nemit 0 1", &rest),
            ("ack 0 13 96\nemit 0 1", &rest),
            ("ack 0 13 33\ntimer 0 10000\nemit 0 1", &rest),
            ("timer 0 8192\nemit 0 1", &rest),
            ("response 0 14 15 232\nemit 0 1", &rest),
            (
                "ack 0 15 31\nemit 0 1\nshow 0",
                "pair 0 ready 13 15 16 16 2 7 7 0 0 0/11/2/5000/1000 1/15/3/0/100",
            ),
            (
                "ack 0 15 31\nresponse 0 13 14 256\nshow 0",
                "pair 0 ready 14 14 16 16 2 7 7 0 0 0/11/2/5000/1000 1/15/3/0/100",
            ),
            ("ack 0 15 31\nresponse 0 13 13 256", "done@5512"),
            ("ack 0 12 31", "dropped"),
            ("response 0 12 14 256", "dropped"),
            ("close 0", "done 2:1 3:1"),
        ],
    );
    each(READ, &[("ack 0 11 31\nemit 0 1", &all), ("response 0 12 14 256\nemit 0 1", &all)]);
}

#[test]
fn the_last_place_alone_is_left() {
    // PSN 14; 768 further; 232 bytes left.
    let last_part = request("00000e", "0000000000100300", "000000e8", "00001688");
    let answered =
        format!("{READ}\nresponse 0 11 13 256\nresponse 0 12 14 256\nresponse 0 13 14 256\nack 0 15 31");
    each(
        &answered,
        &[
            ("emit 0 1", &last_part),
            ("emit 0 1\nresponse 0 14 16 232", "done@5768 2:0"),
            ("response 0 14 15 232", "done@5768 2:0"),
        ],
    );
}

#[test]
fn a_response_skipped_is_resent() {
    each(
        READ,
        &[
            ("response 0 12 14 256", "resending"),
            (
                "response 0 12 14 256\nshow 0",
                "pair 0 ready 11 11 16 16 2 7 7 0 0 0/11/2/5000/1000 1/15/3/0/100",
            ),
            ("response 0 14 15 232", "resending"),
        ],
    );
}

#[test]
fn naks_beyond_a_read_stop_at_it() {
    each(
        READ,
        &[
            ("ack 0 15 96", "resending"),
            ("ack 0 15 96\nshow 0", "pair 0 ready 11 11 16 16 2 7 7 0 0 0/11/2/5000/1000 1/15/3/0/100"),
            ("ack 0 12 96\nshow 0", "pair 0 ready 11 11 16 16 2 7 7 0 0 0/11/2/5000/1000 1/15/3/0/100"),
            ("ack 0 15 33", "held"),
            ("ack 0 15 99", "ended 2:1 3:1"),
            ("ack 0 15 99\nshow 0", "pair 0 ended 16 16 16 16 0 7 7 0 0"),
        ],
    );
}

#[test]
fn the_first_of_two_reads_stops_a_release() {
    // Send 5, Read 6 and 7, Send 8, Read 9, Send 10.
    let two = "open 0 1 5 1 1 4 8 7 7 1
        post 0 1 0 0 0 0 1 0 0 0
        post 0 2 2 0 0 0 512 0 0 0
        post 0 3 0 0 0 0 1 0 0 0
        post 0 4 2 0 0 0 256 64 0 0
        post 0 5 0 0 0 0 1 0 0 0
        emit 0 64";
    each(
        two,
        &[
            ("ack 0 10 31", "resending 1:0"),
            ("ack 0 5 31", "done 1:0"),
            ("response 0 9 16 256", "resending 1:0"),
            ("response 0 6 13 256", "done@0 1:0"),
            ("response 0 6 13 256\nresponse 0 7 15 256\nack 0 10 31", "resending 3:0"),
            ("response 0 6 13 256\nresponse 0 7 15 256\nresponse 0 9 16 256", "done@64 3:0 4:0"),
            ("response 0 6 13 256\nresponse 0 7 15 256\nresponse 0 9 15 256\nack 0 10 31", "done 5:0"),
            ("response 0 6 13 256\nresponse 0 9 15 256", "resending"),
        ],
    );
}

#[test]
fn a_read_of_nothing() {
    let bth = "0c8000010000000180000005";
    let record =
        format!("record {bth}ffffffffffffffff0000000300000000000000000000001c00000001ffffffff00000000");
    dialogue(&format!(
        "open 0 1 5 1 1 4 8 7 7 1
         post 0 1 2 0 0 0 0 4294967295 18446744073709551615 3 => first 5
         show 0 => pair 0 ready 5 5 5 6 1 7 7 0 0 0/5/1/4294967295/0
         emit 0 1 => {record}
         response 0 5 13 0 => refused 9
         response 0 5 16 1 => refused 9
         response 0 5 16 0 => done@4294967295 1:0
         show 0 => pair 0 ready 6 6 6 6 0 7 7 0 0"
    ));
}

#[test]
fn a_read_across_the_wrap() {
    dialogue(
        "open 0 1 16777214 1 1 4 8 7 7 1
         post 0 1 2 0 0 0 1000 0 0 0 => first 16777214
         post 0 2 0 0 0 0 1 0 0 0 => first 2
         emit 0 2
         response 0 16777214 13 256 => done@0
         response 0 16777215 14 256 => done@256
         response 0 0 14 256 => done@512
         response 0 16777215 14 256 => dropped
         show 0 => pair 0 ready 1 3 3 3 2 7 7 0 0 0/16777214/1/0/1000 1/2/2/0/1
         ack 0 2 31 => resending
         response 0 1 15 232 => done@768 1:0
         ack 0 2 31 => done 2:0",
    );
}

#[test]
fn counts_return_with_each_response() {
    let worn = format!("{READ}\ntimer 0 8192\nemit 0 64\ntimer 0 5");
    each(
        &worn,
        &[
            ("show 0", "pair 0 ready 11 16 16 16 2 6 7 5 0 0/11/2/5000/1000 1/15/3/0/100"),
            (
                "response 0 11 13 256\nshow 0",
                "pair 0 ready 12 16 16 16 2 7 7 0 0 0/11/2/5000/1000 1/15/3/0/100",
            ),
            (
                "response 0 12 14 256\nshow 0",
                "pair 0 ready 11 11 16 16 2 6 7 0 0 0/11/2/5000/1000 1/15/3/0/100",
            ),
        ],
    );
}

#[test]
fn the_greatest_read() {
    let greatest =
        "open 0 1 1 1 1 1 1 7 7 1\npost 0 1 2 0 0 0 2147483392 2147483904 18446744071562068224 0\nemit 0 1";
    assert_eq!(
        last(&format!("{greatest}\nshow 0")),
        "pair 0 ready 1 8388608 8388608 8388608 1 7 7 0 0 0/1/1/2147483904/2147483392"
    );
    each(
        greatest,
        &[
            ("response 0 8388607 15 256", "resending"),
            ("response 0 8388608 15 256", "dropped"),
            ("response 0 0 15 256", "dropped"),
            ("response 0 1 13 256", "done@2147483904"),
        ],
    );
}
