//! Refusals 3 and 5 to 8 of a post, and their order, at their borders.

use crate::each;

const OPEN: &str = "open 0 1 5 1 1 4 8 7 7 14";

#[test]
fn ranges_of_post() {
    each(
        OPEN,
        &[
            ("post 0 4294967295 0 0 0 0 1 0 0 0", "first 5"),
            ("post 0 4294967296 0 0 0 0 1 0 0 0", "refused 3"),
            ("post 0 1 2 0 0 0 1 0 0 0", "first 5"),
            ("post 0 1 3 0 0 0 1 0 0 0", "refused 3"),
            ("post 0 1 4294967296 0 0 0 1 0 0 0", "refused 3"),
            ("post 0 1 0 1 4294967295 0 1 0 0 0", "first 5"),
            ("post 0 1 0 1 4294967296 0 1 0 0 0", "refused 3"),
            ("post 0 1 0 0 18446744073709551615 0 1 0 0 0", "first 5"),
            ("post 0 1 0 2 0 0 1 0 0 0", "refused 3"),
            ("post 0 1 1 1 0 0 1 0 0 0", "first 5"),
            ("post 0 1 2 1 0 0 1 0 0 0", "refused 3"),
            ("post 0 1 2 0 18446744073709551615 0 1 0 0 0", "first 5"),
            ("post 0 1 0 0 0 1 1 0 0 0", "first 5"),
            ("post 0 1 0 0 0 2 1 0 0 0", "refused 3"),
            ("post 0 1 0 0 0 0 1 0 0 4294967295", "first 5"),
            ("post 0 1 0 0 0 0 1 0 0 4294967296", "refused 3"),
            ("post 0 1 1 0 0 0 1 0 0 4294967296", "refused 3"),
        ],
    );
}

#[test]
fn lengths_offsets_and_addresses() {
    each(
        "open 0 1 5 1 5 4 8 7 7 14",
        &[
            ("post 0 1 2 0 0 0 2147483647 0 0 0", "first 5"),
            ("post 0 1 2 0 0 0 2147483648 0 0 0", "refused 3"),
            ("post 0 1 0 0 0 0 2147483647 0 0 0", "refused 5"),
            ("post 0 1 0 0 0 0 2147483648 0 0 0", "refused 3"),
            ("post 0 1 0 0 0 0 0 4294967295 0 0", "first 5"),
            ("post 0 1 0 0 0 0 0 4294967296 0 0", "refused 3"),
            ("post 0 1 0 0 0 0 1 4294967295 0 0", "first 5"),
            ("post 0 1 0 0 0 0 2 4294967295 0 0", "refused 3"),
            ("post 0 1 2 0 0 0 2147483647 2147483649 0 0", "first 5"),
            ("post 0 1 2 0 0 0 2147483647 2147483650 0 0", "refused 3"),
            ("post 0 1 0 0 0 0 1 18446744073709551615 0 0", "refused 3"),
            ("post 0 1 1 0 0 0 1 0 18446744073709551615 0", "first 5"),
            ("post 0 1 1 0 0 0 2 0 18446744073709551615 0", "refused 3"),
            ("post 0 1 2 0 0 0 1 0 18446744073709551615 0", "first 5"),
            ("post 0 1 2 0 0 0 2 0 18446744073709551615 0", "refused 3"),
            ("post 0 1 1 0 0 0 0 0 18446744073709551615 0", "first 5"),
            ("post 0 1 2 0 0 0 0 0 18446744073709551615 0", "first 5"),
            ("post 0 1 0 0 0 0 2 0 18446744073709551615 0", "first 5"),
            ("post 0 1 2 0 0 0 2147483647 0 18446744071562067969 0", "first 5"),
            ("post 0 1 2 0 0 0 2147483647 0 18446744071562067970 0", "refused 3"),
        ],
    );
}

#[test]
fn more_slots_than_the_ceiling() {
    each(
        OPEN,
        &[
            ("post 0 1 0 0 0 0 2048 0 0 0", "first 5"),
            ("post 0 1 0 0 0 0 2049 0 0 0", "refused 5"),
            ("post 0 1 1 1 0 0 2048 0 0 0", "first 5"),
            ("post 0 1 1 1 0 0 2049 0 0 0", "refused 5"),
            ("post 0 1 2 0 0 0 2049 0 0 0", "first 5"),
        ],
    );
    // 5 comes before 6 and 8.
    each(
        &format!("{OPEN}\npost 0 1 2 0 0 0 2000 0 0 0"),
        &[("post 0 1 0 0 0 1 2049 0 0 0", "refused 5"), ("post 0 1 0 0 0 0 2049 0 0 0", "refused 5")],
    );
}

#[test]
fn a_fence_waits_for_reads() {
    let read_held = format!("{OPEN}\npost 0 1 2 0 0 0 512 0 0 0\nemit 0 1");
    each(
        &read_held,
        &[
            ("post 0 2 0 0 0 1 1 0 0 0", "refused 6"),
            ("post 0 2 1 0 0 1 1 0 0 0", "refused 6"),
            ("post 0 2 2 0 0 1 1 0 0 0", "refused 6"),
            ("post 0 2 0 0 0 0 1 0 0 0", "first 7"),
            ("post 0 2 0 0 0 2 1 0 0 0", "refused 3"),
            ("response 0 5 13 256\npost 0 2 0 0 0 1 1 0 0 0", "refused 6"),
            ("response 0 5 13 256\nresponse 0 6 15 256\npost 0 2 0 0 0 1 1 0 0 0", "first 7"),
            ("close 0\nopen 0 1 5 1 1 4 8 7 7 14\npost 0 2 0 0 0 1 1 0 0 0", "first 5"),
        ],
    );
    // Sends are no reads, and another pair's read is not this pair's.
    each(
        &format!("{read_held}\nopen 1 1 9 1 1 4 8 7 7 14\npost 1 2 0 0 0 0 1 0 0 0"),
        &[("post 1 3 2 0 0 1 1 0 0 0", "first 10")],
    );
}

#[test]
fn too_many_numbers_open() {
    // At 256 bytes a packet, 2147483392 bytes are 8,388,607 packets.
    each(
        OPEN,
        &[
            ("post 0 1 2 0 0 0 2147483392 0 0 0", "first 5"),
            ("post 0 1 2 0 0 0 2147483393 0 0 0", "refused 7"),
            ("post 0 1 2 0 0 0 2147483647 0 0 0", "refused 7"),
        ],
    );
    each(
        &format!("{OPEN}\npost 0 1 2 0 0 0 2147483136 0 0 0"),
        &[
            ("post 0 2 0 0 0 0 256 0 0 0", "first 8388611"),
            ("post 0 2 0 0 0 0 257 0 0 0", "refused 7"),
            ("post 0 2 0 0 0 1 257 0 0 0", "refused 6"),
            ("post 0 2 2 0 0 0 0 0 0 0", "first 8388611"),
            ("post 0 2 2 0 0 0 257 0 0 0", "refused 7"),
            ("post 0 2 0 0 0 0 2048 0 0 0", "refused 7"),
        ],
    );
    // Answers to the read make way again.
    each(
        &format!("{OPEN}\npost 0 1 2 0 0 0 2147483392 0 0 0\nemit 0 1"),
        &[
            ("post 0 2 0 0 0 0 0 0 0 0", "refused 7"),
            ("response 0 5 13 256\npost 0 2 0 0 0 0 0 0 0 0", "first 8388612"),
            ("response 0 5 13 256\npost 0 2 0 0 0 0 257 0 0 0", "refused 7"),
        ],
    );
}

#[test]
fn no_room() {
    // Up to the pair's ceiling.
    each(
        &format!("{OPEN}\npost 0 1 0 0 0 0 1280 0 0 0"),
        &[
            ("post 0 2 0 0 0 0 768 0 0 0", "first 10"),
            ("post 0 2 0 0 0 0 769 0 0 0", "refused 8"),
            ("post 0 2 2 0 0 0 769 0 0 0", "first 10"),
        ],
    );
    // Up to the sum of 256: pair 0 may take what pair 1's share leaves.
    let shared = "open 0 1 0 1 1 1 256 7 7 0\nopen 1 1 0 1 1 250 256 7 7 0";
    each(
        shared,
        &[
            ("post 0 2 0 0 0 0 1536 0 0 0", "first 0"),
            ("post 0 2 0 0 0 0 1537 0 0 0", "refused 8"),
            ("post 1 2 0 0 0 0 65280 0 0 0", "first 0"),
            ("post 1 2 0 0 0 0 65281 0 0 0", "refused 8"),
            ("post 1 2 0 0 0 0 64000 0 0 0\npost 0 2 0 0 0 0 1536 0 0 0", "first 0"),
            ("post 1 2 0 0 0 0 64256 0 0 0\npost 0 2 0 0 0 0 1536 0 0 0", "refused 8"),
            ("post 1 2 0 0 0 0 65280 0 0 0\npost 0 2 0 0 0 0 256 0 0 0", "first 0"),
            ("post 1 2 0 0 0 0 65280 0 0 0\npost 0 2 0 0 0 0 257 0 0 0", "refused 8"),
        ],
    );
    // A packet released makes way again; the whole card is one pair's.
    each(
        "open 0 1 0 1 1 1 256 7 7 0\npost 0 1 0 0 0 0 65536 0 0 0\nemit 0 2",
        &[
            ("post 0 2 0 0 0 0 0 0 0 0", "refused 8"),
            ("free", "free"),
            ("ack 0 0 31\nfree", "free 0"),
            ("ack 0 0 31\npost 0 2 0 0 0 0 0 0 0 0", "first 256"),
            ("ack 0 1 31\npost 0 2 0 0 0 0 513 0 0 0", "refused 8"),
        ],
    );
}
