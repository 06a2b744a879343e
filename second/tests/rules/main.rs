//! The rules, asked through traces.

mod audit;
mod by_hand;
mod emission;
mod events;
mod frames;
mod generated;
mod headers;
mod lines;
mod program;
mod reads;
mod refusals;
mod refusals_of_posts;
mod timers;
mod wireshark;

use second::trace::answers;

/// The last line that a trace writes.
fn last(trace: &str) -> String {
    answers(trace).lines().last().unwrap_or("").to_string()
}

/// Each line on its own after the same beginning, with what it must write last.
fn each(beginning: &str, asked: &[(&str, &str)]) {
    for (line, expected) in asked {
        let written = last(&format!("{beginning}\n{line}\n"));
        assert_eq!(&written, expected, "{line}");
    }
}

/// A trace of lines and what each writes, the answer after `=>`; no answer means it may be any.
fn dialogue(text: &str) {
    let mut trace = String::new();
    for line in text.lines().map(str::trim).filter(|line| !line.is_empty()) {
        let (call, expected) = line.split_once("=>").unwrap_or((line, ""));
        trace += call;
        trace += "\n";
        let expected = expected.trim();
        if !expected.is_empty() {
            assert_eq!(last(&trace), expected, "after\n{trace}");
        }
    }
}
