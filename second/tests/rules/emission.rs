//! Emission: opcodes, records, budget, and where X and H go.

use second::trace::answers;

use crate::{dialogue, each};

/// The opcodes and header lengths of a post's packets, from their records.
fn opcodes(post: &str) -> Vec<(u8, u8)> {
    let text = answers(format!("open 0 77 16777215 65535 1 4 8 7 7 1\n{post}\nemit 0 64"));
    let records = text.lines().filter_map(|line| line.strip_prefix("record "));
    let byte = |record: &str, at: usize| u8::from_str_radix(&record[2 * at..][..2], 16).expect("hexadecimal");
    records.map(|record| (byte(record, 0), byte(record, 35))).collect()
}

#[test]
fn opcodes_of_every_split() {
    assert_eq!(opcodes("post 0 1 0 0 0 0 0 0 0 0"), [(4, 12)]);
    assert_eq!(opcodes("post 0 1 0 0 0 0 256 0 0 0"), [(4, 12)]);
    assert_eq!(opcodes("post 0 1 0 1 0 0 256 0 0 0"), [(5, 16)]);
    assert_eq!(opcodes("post 0 1 0 0 0 0 257 0 0 0"), [(0, 12), (2, 12)]);
    assert_eq!(opcodes("post 0 1 0 1 0 0 512 0 0 0"), [(0, 12), (3, 16)]);
    assert_eq!(opcodes("post 0 1 0 0 0 0 1000 0 0 0"), [(0, 12), (1, 12), (1, 12), (2, 12)]);
    assert_eq!(opcodes("post 0 1 1 0 0 0 0 0 0 0"), [(10, 28)]);
    assert_eq!(opcodes("post 0 1 1 1 0 0 1 0 0 0"), [(11, 32)]);
    assert_eq!(opcodes("post 0 1 1 0 0 0 257 0 0 0"), [(6, 28), (8, 12)]);
    assert_eq!(opcodes("post 0 1 1 1 0 0 513 0 0 0"), [(6, 28), (7, 12), (9, 16)]);
    assert_eq!(opcodes("post 0 1 2 0 0 0 1000 0 0 0"), [(12, 28)]);
}

#[test]
fn a_write_with_immediate_byte_by_byte() {
    let text = answers(
        "open 0 77 16777215 65535 1 4 8 7 7 1
         post 0 258 1 1 168496141 0 261 4096 1311768467463790320 19088743
         emit 0 64",
    );
    let first = [
        "0680ffff",         // Write First; solicited event, pad 0; P_Key
        "0000004d",         // far pair 77
        "80ffffff",         // AckReq, PSN 16,777,215
        "123456789abcdef0", // address
        "01234567",         // key
        "00000105",         // the whole message's 261 bytes
        "00000000",         // no immediate here
        "0000001c",         // 28 header bytes
        "00000102",         // ticket
        "00001000",         // offset 4096
        "00000100",         // 256 bytes
    ];
    let second = [
        "09b0ffff",             // Write Last with immediate; solicited event, pad 3
        "0000004d",             // far pair 77
        "80000000",             // AckReq, PSN 0
        "0a0b0c0d",             // immediate
        "00000000000000000000", // zeros after the header
        "000000000000",
        "00000010", // 16 header bytes
        "00000102", // ticket
        "00001100", // offset 4352
        "00000005", // 5 bytes
    ];
    let lines: Vec<&str> = text.lines().skip(2).collect();
    assert_eq!(lines[0], "emitted 2");
    assert_eq!(lines[1], format!("record {}", first.concat()));
    assert_eq!(lines[2], format!("record {}", second.concat()));
}

#[test]
fn the_budget_and_what_is_left() {
    let five = "open 0 1 16777214 1 1 8 8 7 7 1\npost 0 1 0 0 0 0 1025 0 0 0";
    let packets = "0/16777214/1/0/256 1/16777215/1/256/256 2/0/1/512/256 3/1/1/768/256 4/2/1/1024/1";
    each(
        five,
        &[
            ("emit 0 2\nshow 0", &format!("pair 0 ready 16777214 0 0 3 5 7 7 0 0 {packets}")),
            ("emit 0 5\nshow 0", &format!("pair 0 ready 16777214 3 3 3 5 7 7 0 0 {packets}")),
            ("emit 0 64\nshow 0", &format!("pair 0 ready 16777214 3 3 3 5 7 7 0 0 {packets}")),
            ("emit 0 5\nemit 0 1", "emitted 0"),
        ],
    );
    let count = |lines: &str| {
        answers(format!("{five}\n{lines}")).lines().filter(|line| line.starts_with("record")).count()
    };
    assert_eq!([count("emit 0 1"), count("emit 0 4"), count("emit 0 5"), count("emit 0 6")], [1, 4, 5, 5]);
    assert_eq!(count("emit 0 3\nemit 0 3"), 5);
    assert_eq!(count("emit 0 5\nack 0 16777215 96\nemit 0 64"), 9);
}

#[test]
fn emission_goes_on_past_h_after_a_resend() {
    dialogue(
        "open 0 1 5 1 1 8 8 7 7 1
         post 0 1 0 0 0 0 1024 0 0 0
         emit 0 2
         ack 0 5 96 => resending
         show 0 => pair 0 ready 5 5 7 9 4 7 7 0 0 0/5/1/0/256 1/6/1/256/256 2/7/1/512/256 3/8/1/768/256
         emit 0 3
         show 0 => pair 0 ready 5 8 8 9 4 7 7 0 0 0/5/1/0/256 1/6/1/256/256 2/7/1/512/256 3/8/1/768/256",
    );
}

#[test]
fn every_pmtu() {
    for (code, pmtu) in [(1, 256), (2, 512), (3, 1024), (4, 2048), (5, 4096)] {
        let open = format!("open 0 1 0 1 {code} 1 2 7 7 1");
        let shown = |length: u32| format!("post 0 1 0 0 0 0 {length} 0 0 0\nshow 0");
        each(
            &open,
            &[
                (&shown(pmtu), &format!("pair 0 ready 0 0 0 1 1 7 7 0 0 0/0/1/0/{pmtu}")),
                (&shown(pmtu + 1), &format!("pair 0 ready 0 0 0 2 2 7 7 0 0 0/0/1/0/{pmtu} 1/1/1/{pmtu}/1")),
                (
                    &shown(2 * pmtu),
                    &format!("pair 0 ready 0 0 0 2 2 7 7 0 0 0/0/1/0/{pmtu} 1/1/1/{pmtu}/{pmtu}"),
                ),
                (&format!("post 0 1 0 0 0 0 {} 0 0 0", 2 * pmtu + 1), "refused 5"),
            ],
        );
    }
}
