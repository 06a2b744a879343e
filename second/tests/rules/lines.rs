//! How lines are read, and every way in which one is not.

use second::trace::{answers, run};

#[test]
fn blanks_and_comments_write_nothing() {
    assert_eq!(answers(""), "");
    assert_eq!(answers("\n \n\t \t\n# fresh\n#\n  \t#fresh\n"), "");
    assert_eq!(answers("\n\n#\nbad\n"), "unread 4\n");
}

#[test]
fn words_are_separated_by_spaces_or_tabs() {
    assert_eq!(answers(" \tshow \t  63\t\n"), "pair 63 closed\n");
    assert_eq!(answers("show\t00000000000000000000000063"), "pair 63 closed\n");
}

/// One line for each way in which a line can fail.
const UNREAD: [&str; 53] = [
    "show",
    "show 1 2",
    "show x",
    "show -1",
    "show +1",
    "show 1x",
    "show 0x1",
    "show 1.0",
    "show 1,",
    "shows 1",
    "Show 1",
    "SHOW 1",
    "fresh 1",
    "free 0",
    "fresh #",
    "emit 1",
    "emit 1 2 3",
    "timer 1",
    "close",
    "close 1 1",
    "ack 1 2",
    "ack 1 2 3 4",
    "response 1 2 13",
    "response 1 2 13 0 0",
    "open 1 1 1 1 1 1 1 1 1",
    "open 1 1 1 1 1 1 1 1 1 1 1",
    "post 1 1 1 1 1 1 1 1 1",
    "post 1 1 1 1 1 1 1 1 1 1 1",
    "room 1",
    "room 1 1 1",
    "room 8193 0",
    "room 0 2049",
    "room 18446744073709551615 0",
    "write 1 1 1 1 1 1 1 1 1 1",
    "write 1 1 1 1 1 1 1 1 1 1 1 1",
    "read",
    "read 0",
    "read 0g",
    "read abc",
    "read --",
    "read -00",
    "read 00 00",
    "read 00 -",
    "read 0x00",
    "show 1\r",
    "fresh\r",
    "\r",
    "fresh\u{b}",
    "show 1\u{a0}",
    "fresh\0",
    "-",
    "0",
    "1 show",
];

#[test]
fn lines_that_are_not_read() {
    for line in UNREAD {
        assert_eq!(answers(line), "unread 1\n", "{line:?}");
    }
    assert_eq!(answers(b"\xff\xfe fresh\n"), "unread 1\n");
    assert_eq!(answers(b"# \xff\xfe\n\x80\n"), "unread 2\n");
}

#[test]
fn a_number_over_64_bits_is_not_read() {
    assert_eq!(answers("show 18446744073709551615"), "refused 1\n");
    assert_eq!(answers("show 18446744073709551616"), "unread 1\n");
    assert_eq!(answers("show 18446744073709551620"), "unread 1\n");
    assert_eq!(answers("show 99999999999999999999"), "unread 1\n");
    assert_eq!(answers("show 184467440737095516150"), "unread 1\n");
    // Too wide for a pair or an argument, but read.
    assert_eq!(answers("emit 18446744073709551615 18446744073709551615"), "refused 1\n");
}

#[test]
fn the_next_line_goes_on_and_nothing_changed() {
    let text = answers("open 0 1 0 1 1 1 1 0 0 0\nroom 9000 0\nopen 1 1\nshow 0\nclose 0\n");
    assert_eq!(text, "done\nunread 2\nunread 3\npair 0 ready 0 0 0 0 0 0 0 0 0\ndone\n");
}

#[test]
fn a_line_of_20000_bytes_is_read_and_one_more_is_not() {
    let padded = |length: usize| format!("{:<length$}", "show 1");
    assert_eq!(answers(padded(20_000) + "\n"), "pair 1 closed\n");
    assert_eq!(answers(padded(20_001) + "\n"), "unread 1\n");
    assert_eq!(answers(padded(20_000)), "pair 1 closed\n");
    assert_eq!(answers(padded(20_001)), "unread 1\n");
    assert_eq!(
        answers(padded(20_001) + "\nshow 2\n" + &padded(20_000) + "\nbad"),
        "unread 1\npair 2 closed\npair 1 closed\nunread 4\n"
    );
    let zeros = "0".repeat(19_993);
    assert_eq!(answers(format!("show {zeros}63")), "pair 63 closed\n");
    assert_eq!(answers(format!("show {zeros}063")), "unread 1\n");
}

#[test]
fn an_overlong_comment_or_blank_line_is_not_read_either() {
    let comment = |length: usize| "#".repeat(length) + "\n";
    let blank = |length: usize| " ".repeat(length) + "\n";
    assert_eq!(answers(comment(20_000) + &blank(20_000)), "");
    assert_eq!(answers(comment(20_001) + &blank(20_001)), "unread 1\nunread 2\n");
    assert_eq!(answers(comment(1_000_000) + "fresh\n"), "unread 1\ndone\n");
}

#[test]
fn the_last_line_may_lack_its_newline() {
    assert_eq!(answers("fresh\nfresh"), "done\ndone\n");
    assert_eq!(answers("fresh\nfresh\n"), "done\ndone\n");
    assert_eq!(answers("fresh\n\n\nx"), "done\nunread 4\n");
}

#[test]
fn hexadecimal_digits_are_of_either_case() {
    let frame = "frame 4 0 43981 1193046 10 0 0 0 0 0 0 12 0\n";
    assert_eq!(answers("read 0480ABCD001234568000000A"), frame);
    assert_eq!(answers("read 0480abcd001234568000000a"), frame);
    assert_eq!(answers("read 0480aBcD001234568000000A\n"), frame);
    assert_eq!(answers("read -"), "refused 11\n");
    // A line has room for 9,997 bytes.
    let long = |bytes: usize| "04".to_string() + &"00".repeat(bytes - 1);
    assert_eq!(answers(format!("read {}", long(9_996))), "frame 4 0 0 0 0 0 0 0 0 0 0 12 9984\n");
    assert_eq!(answers(format!("read {}", long(9_997))), "refused 14\n");
    assert_eq!(answers(format!("read {}", long(9_998))), "unread 1\n");
}

#[test]
fn buffers_outlive_a_fresh_start() {
    let text = answers(
        "room 47 511\nfresh\nopen 0 1 0 1 1 1 1 0 0 0\nemit 0 1\nclose 0\nroom 48 512\nemit 0 1\nclose 0\n",
    );
    assert_eq!(text, "room\ndone\ndone\nrefused 4\nrefused 4\nroom\nemitted 0\ndone\n");
    assert_eq!(answers("room 8192 2048\nroom 0 0\n"), "room\nroom\n");
}

#[test]
fn a_fresh_start_closes_and_frees_in_order() {
    let text = answers("open 0 1 0 1 1 3 3 0 0 0\npost 0 1 0 0 0 0 600 0 0 0\nfresh\nshow 0\nfree\n");
    let all: Vec<String> = (0..256).map(|slot| slot.to_string()).collect();
    assert_eq!(text, format!("done\nfirst 0\ndone\npair 0 closed\nfree {}\n", all.join(" ")));
}

/// A writer that takes a few bytes and then fails.
struct Failing(usize);

impl std::io::Write for Failing {
    fn write(&mut self, bytes: &[u8]) -> std::io::Result<usize> {
        let taken = bytes.len().min(self.0);
        self.0 -= taken;
        if taken == 0 {
            return Err(std::io::ErrorKind::BrokenPipe.into());
        }
        Ok(taken)
    }

    fn flush(&mut self) -> std::io::Result<()> {
        Ok(())
    }
}

#[test]
fn a_failing_output_is_told() {
    assert!(run(&b"fresh\n"[..], Failing(5)).is_ok());
    assert!(run(&b"fresh\nfresh\n"[..], Failing(5)).is_err());
}
