//! Timer steps: the clock, its retries, and the hold of an RNR.

use crate::{dialogue, each, last};

#[test]
fn every_timeout_code() {
    for code in 1..=31u32 {
        let timeout = 4096u64 << code;
        let mut trace = format!("open 0 1 5 1 1 4 8 1 7 {code}\npost 0 9 0 0 0 0 1 0 0 0\nemit 0 1\n");
        let mut left = timeout - 1;
        while left > 0 {
            let step = left.min(4_294_967_295);
            trace += &format!("timer 0 {step}\n");
            left -= step;
        }
        assert_eq!(last(&trace), "idle", "code {code}");
        let shown = last(&format!("{trace}show 0"));
        assert_eq!(shown, format!("pair 0 ready 5 6 6 6 1 1 7 {} 0 0/5/9/0/1", timeout - 1), "code {code}");
        assert_eq!(last(&format!("{trace}timer 0 0")), "idle", "code {code}");
        assert_eq!(last(&format!("{trace}timer 0 1")), "resending", "code {code}");
        assert_eq!(
            last(&format!("{trace}timer 0 1\nshow 0")),
            "pair 0 ready 5 5 6 6 1 0 7 0 0 0/5/9/0/1",
            "code {code}"
        );
    }
}

#[test]
fn code_0_never_times_out() {
    dialogue(
        "open 0 1 5 1 1 4 8 0 0 0
         post 0 9 0 0 0 0 1 0 0 0
         emit 0 1
         timer 0 4294967295 => idle
         timer 0 4294967295 => idle
         show 0 => pair 0 ready 5 6 6 6 1 0 0 0 0 0/5/9/0/1",
    );
}

#[test]
fn nothing_outstanding_is_idle() {
    dialogue(
        "open 0 1 5 1 1 4 8 0 0 1
         timer 0 4294967295 => idle
         post 0 9 0 0 0 0 1 0 0 0
         timer 0 4294967295 => idle
         emit 0 1
         ack 0 5 31 => done 9:0
         timer 0 4294967295 => idle
         show 0 => pair 0 ready 6 6 6 6 0 0 0 0 0",
    );
}

#[test]
fn retries_run_out() {
    dialogue(
        "open 0 1 5 1 1 4 8 2 0 1
         post 0 9 0 0 0 0 600 0 0 0
         emit 0 1
         timer 0 8191 => idle
         timer 0 4294967295 => resending
         timer 0 8192 => resending
         show 0 => pair 0 ready 5 5 6 8 3 0 0 0 0 0/5/9/0/256 1/6/9/256/256 2/7/9/512/88
         timer 0 8191 => idle
         timer 0 1 => ended 9:1
         show 0 => pair 0 ended 8 8 8 8 0 0 0 0 0
         timer 0 1 => refused 2
         close 0 => done",
    );
}

#[test]
fn a_resend_while_x_is_at_u_still_counts() {
    // The clock runs by U and H, wherever X stands.
    dialogue(
        "open 0 1 5 1 1 4 8 1 0 1
         post 0 9 0 0 0 0 600 0 0 0
         emit 0 2
         ack 0 6 96 => resending
         timer 0 8000 => idle
         show 0 => pair 0 ready 6 6 7 8 2 1 0 8000 0 1/6/9/256/256 2/7/9/512/88
         ack 0 6 96 => resending
         show 0 => pair 0 ready 6 6 7 8 2 1 0 0 0 1/6/9/256/256 2/7/9/512/88",
    );
}

const HELD: &str = "open 0 1 5 1 1 4 8 2 7 1
    post 0 9 0 0 0 0 600 0 0 0
    emit 0 3
    timer 0 500
    ack 0 5 34";

#[test]
fn a_hold_runs_down() {
    let packets = "0/5/9/0/256 1/6/9/256/256 2/7/9/512/88";
    each(
        HELD,
        &[
            ("show 0", &format!("pair 0 ready 5 5 8 8 3 2 7 0 20000 {packets}")),
            ("emit 0 3", "emitted 0"),
            ("timer 0 0", "idle"),
            ("timer 0 19999", "idle"),
            ("timer 0 19999\nshow 0", &format!("pair 0 ready 5 5 8 8 3 2 7 0 1 {packets}")),
            ("timer 0 19999\nemit 0 1", "emitted 0"),
            ("timer 0 19999\ntimer 0 1", "resumed"),
            ("timer 0 20000", "resumed"),
            ("timer 0 4294967295", "resumed"),
            ("timer 0 4294967295\nshow 0", &format!("pair 0 ready 5 5 8 8 3 2 7 0 0 {packets}")),
            ("timer 0 20000\ntimer 0 8191", "idle"),
            ("timer 0 20000\ntimer 0 8192", "resending"),
            ("timer 0 5000\nack 0 5 33\nshow 0", &format!("pair 0 ready 5 5 8 8 3 2 7 0 10000 {packets}")),
            ("timer 0 5000\nack 0 5 35\nshow 0", &format!("pair 0 ready 5 5 8 8 3 2 7 0 30000 {packets}")),
        ],
    );
}

#[test]
fn a_hold_outlives_acks_naks_and_posts() {
    each(
        HELD,
        &[
            ("ack 0 5 31\nshow 0", "pair 0 ready 6 6 8 8 2 2 7 0 20000 1/6/9/256/256 2/7/9/512/88"),
            ("ack 0 7 31\nshow 0", "pair 0 ready 8 8 8 8 0 2 7 0 20000"),
            ("ack 0 7 31\ntimer 0 1", "idle"),
            ("ack 0 7 31\ntimer 0 20000", "resumed"),
            ("ack 0 6 96\nshow 0", "pair 0 ready 6 6 8 8 2 2 7 0 20000 1/6/9/256/256 2/7/9/512/88"),
            ("post 0 8 0 0 0 0 1 0 0 0\nemit 0 9", "emitted 0"),
            ("ack 0 6 99\nshow 0", "pair 0 ended 8 8 8 8 0 2 7 0 0"),
            ("close 0", "done 9:1"),
        ],
    );
    // A read's responses too.
    dialogue(
        "open 0 1 5 1 1 4 8 2 7 1
         post 0 9 2 0 0 0 600 0 0 0
         emit 0 1
         ack 0 5 34 => held
         response 0 5 13 256 => done@0
         show 0 => pair 0 ready 6 6 8 8 1 2 7 0 20000 0/5/9/0/600
         emit 0 1 => emitted 0
         timer 0 20000 => resumed
         emit 0 1
         show 0 => pair 0 ready 6 8 8 8 1 2 7 0 0 0/5/9/0/600",
    );
}
