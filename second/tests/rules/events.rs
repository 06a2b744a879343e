//! Acknowledgements: release, completions, NAKs, RNRs and the retry counts.

use crate::{dialogue, each, last};

const WAITS: [u64; 32] = [
    655_360_000,
    10_000,
    20_000,
    30_000,
    40_000,
    60_000,
    80_000,
    120_000,
    160_000,
    240_000,
    320_000,
    480_000,
    640_000,
    960_000,
    1_280_000,
    1_920_000,
    2_560_000,
    3_840_000,
    5_120_000,
    7_680_000,
    10_240_000,
    15_360_000,
    20_480_000,
    30_720_000,
    40_960_000,
    61_440_000,
    81_920_000,
    122_880_000,
    163_840_000,
    245_760_000,
    327_680_000,
    491_520_000,
];

const THREE: &str =
    "open 0 1 5 1 1 4 8 3 2 14\npost 0 9 0 0 0 0 600 0 0 0\npost 0 8 0 0 0 0 1 0 0 0\nemit 0 3";

#[test]
fn all_rnr_waits() {
    for (code, wait) in WAITS.iter().enumerate() {
        let shown = last(&format!("{THREE}\nack 0 5 {}\nshow 0", 32 + code));
        let expected =
            format!("pair 0 ready 5 5 8 9 4 3 1 0 {wait} 0/5/9/0/256 1/6/9/256/256 2/7/9/512/88 3/8/8/0/1");
        assert_eq!(shown, expected, "code {code}");
    }
}

#[test]
fn an_ack_releases_r_itself() {
    each(
        THREE,
        &[
            ("ack 0 5 0", "done"),
            ("ack 0 6 0\nshow 0", "pair 0 ready 7 8 8 9 2 3 2 0 0 2/7/9/512/88 3/8/8/0/1"),
            ("ack 0 7 0", "done 9:0"),
            ("ack 0 7 31\nshow 0", "pair 0 ready 8 8 8 9 1 3 2 0 0 3/8/8/0/1"),
            ("ack 0 8 0", "dropped"),
            ("emit 0 1\nack 0 8 0", "done 9:0 8:0"),
            ("emit 0 1\nack 0 8 0\nshow 0", "pair 0 ready 9 9 9 9 0 3 2 0 0"),
        ],
    );
}

#[test]
fn naks_release_before_r_and_resend() {
    for code in 96..=98 {
        let shown = last(&format!("{THREE}\nack 0 7 {code}\nshow 0"));
        assert_eq!(shown, "pair 0 ready 7 7 8 9 2 3 2 0 0 2/7/9/512/88 3/8/8/0/1", "code {code}");
        let shown = last(&format!("{THREE}\nack 0 5 {code}\nshow 0"));
        assert_eq!(
            shown, "pair 0 ready 5 5 8 9 4 3 2 0 0 0/5/9/0/256 1/6/9/256/256 2/7/9/512/88 3/8/8/0/1",
            "code {code}"
        );
    }
    each(
        &format!("{THREE}\nemit 0 1"),
        &[
            ("ack 0 8 96", "resending 9:0"),
            ("ack 0 8 99", "ended 9:0 8:1"),
            ("ack 0 8 99\nshow 0", "pair 0 ended 9 9 9 9 0 3 2 0 0"),
            // The first message has lost its front packets, and is flushed with its last.
            ("ack 0 6 99", "ended 9:1 8:1"),
            ("ack 0 8 33", "held 9:0"),
        ],
    );
}

#[test]
fn resending_does_not_take_back_h() {
    dialogue(
        "open 0 1 5 1 1 4 8 3 2 14
         post 0 9 0 0 0 0 600 0 0 0
         emit 0 3
         ack 0 5 96 => resending
         show 0 => pair 0 ready 5 5 8 8 3 3 2 0 0 0/5/9/0/256 1/6/9/256/256 2/7/9/512/88
         emit 0 1
         show 0 => pair 0 ready 5 6 8 8 3 3 2 0 0 0/5/9/0/256 1/6/9/256/256 2/7/9/512/88
         ack 0 7 31 => done 9:0
         show 0 => pair 0 ready 8 8 8 8 0 3 2 0 0",
    );
}

#[test]
fn x_stays_ahead_of_u() {
    dialogue(
        "open 0 1 16777214 1 1 4 8 3 2 14
         post 0 9 0 0 0 0 1280 0 0 0
         emit 0 5
         ack 0 16777214 96 => resending
         emit 0 4
         ack 0 16777215 31 => done
         show 0 => pair 0 ready 0 2 3 3 3 3 2 0 0 2/0/9/512/256 3/1/9/768/256 4/2/9/1024/256",
    );
}

#[test]
fn rnr_counts_run_out() {
    dialogue(
        "open 0 1 5 1 1 4 8 3 2 14
         post 0 9 0 0 0 0 600 0 0 0
         emit 0 3
         ack 0 5 33 => held
         ack 0 5 34 => held
         show 0 => pair 0 ready 5 5 8 8 3 3 0 0 20000 0/5/9/0/256 1/6/9/256/256 2/7/9/512/88
         ack 0 5 33 => ended 9:1
         show 0 => pair 0 ended 8 8 8 8 0 3 0 0 0
         free",
    );
    // With a setting of 0 the first RNR ends the pair.
    dialogue(
        "open 0 1 5 1 1 4 8 3 0 14
         post 0 9 0 0 0 0 600 0 0 0
         emit 0 3
         ack 0 5 33 => ended 9:1",
    );
}

#[test]
fn rnr_count_is_looked_at_after_the_release() {
    dialogue(
        "open 0 1 5 1 1 4 8 3 1 14
         post 0 9 0 0 0 0 600 0 0 0
         emit 0 3
         ack 0 5 33 => held
         ack 0 6 33 => held
         show 0 => pair 0 ready 6 6 8 8 2 3 0 0 10000 1/6/9/256/256 2/7/9/512/88
         ack 0 6 33 => ended 9:1",
    );
    // With a setting of 0 the restored count is 0 too.
    dialogue(
        "open 0 1 5 1 1 4 8 3 0 14
         post 0 9 0 0 0 0 600 0 0 0
         post 0 8 0 0 0 0 1 0 0 0
         emit 0 4
         ack 0 8 33 => ended 9:0 8:1",
    );
}

#[test]
fn rnr_setting_7_never_runs_out() {
    let mut trace = "open 0 1 5 1 1 4 8 3 7 14\npost 0 9 0 0 0 0 600 0 0 0\nemit 0 3\n".to_string();
    for _ in 0..20 {
        trace += "ack 0 5 33\n";
        assert_eq!(last(&trace), "held");
    }
    assert_eq!(
        last(&(trace + "show 0")),
        "pair 0 ready 5 5 8 8 3 3 7 0 10000 0/5/9/0/256 1/6/9/256/256 2/7/9/512/88"
    );
}

#[test]
fn counts_return_when_u_moves_and_only_then() {
    let worn = "open 0 1 5 1 1 4 8 3 2 1
        post 0 9 0 0 0 0 600 0 0 0
        emit 0 3
        timer 0 8192
        emit 0 3
        ack 0 5 33
        timer 0 10000
        emit 0 3
        timer 0 100";
    let packets = "0/5/9/0/256 1/6/9/256/256 2/7/9/512/88";
    each(
        worn,
        &[
            ("show 0", &format!("pair 0 ready 5 8 8 8 3 2 1 100 0 {packets}")),
            ("ack 0 5 31\nshow 0", "pair 0 ready 6 8 8 8 2 3 2 0 0 1/6/9/256/256 2/7/9/512/88"),
            ("ack 0 6 96\nshow 0", "pair 0 ready 6 6 8 8 2 3 2 0 0 1/6/9/256/256 2/7/9/512/88"),
            ("ack 0 6 33\nshow 0", "pair 0 ready 6 6 8 8 2 3 1 0 10000 1/6/9/256/256 2/7/9/512/88"),
            ("ack 0 5 96\nshow 0", &format!("pair 0 ready 5 5 8 8 3 2 1 0 0 {packets}")),
            ("ack 0 5 99\nshow 0", "pair 0 ended 8 8 8 8 0 2 1 0 0"),
            ("ack 0 6 99\nshow 0", "pair 0 ended 8 8 8 8 0 3 2 0 0"),
            ("ack 0 8 31\nshow 0", &format!("pair 0 ready 5 8 8 8 3 2 1 100 0 {packets}")),
        ],
    );
}

#[test]
fn freed_slots_join_the_end_in_order() {
    dialogue(
        "open 0 1 5 1 1 4 128 3 2 1
         open 1 1 5 1 1 4 128 3 2 1
         post 0 1 0 0 0 0 512 0 0 0
         post 1 2 0 0 0 0 512 0 0 0
         post 0 3 0 0 0 0 256 0 0 0
         emit 0 3
         emit 1 2
         ack 1 5 31 => done
         ack 0 7 31 => done 1:0 3:0
         close 1 => done 2:1
         post 0 4 0 0 0 0 32768 0 0 0 => first 8
         post 1 0 0 0 0 0 0 0 0 0 => refused 2
         open 1 1 5 1 1 4 128 3 2 1
         post 1 5 0 0 0 0 31488 0 0 0
         free => free 2 0 1 4 3",
    );
}

#[test]
fn a_reopened_pair_is_as_new() {
    dialogue(
        "open 0 1 5 1 1 4 8 0 0 1
         post 0 9 0 0 0 0 600 0 0 0
         emit 0 3
         ack 0 6 33 => ended 9:1
         close 0 => done
         show 0 => pair 0 closed
         open 0 2 99 2 2 1 1 4 5 6 => done
         show 0 => pair 0 ready 99 99 99 99 0 4 5 0 0
         post 0 1 0 0 0 0 512 0 0 0 => first 99
         show 0 => pair 0 ready 99 99 99 100 1 4 5 0 0 3/99/1/0/512",
    );
}
