//! Random traces: the invariants hold after every call, and everything is reached.

use std::collections::BTreeMap;

use second::audit::check;
use second::limits::SLOTS;
use second::pair::Pair;
use second::random::{self, Generator};
use second::trace::answers;

const REACHED: &str = "
    open done, open refused 1, open refused 2, open refused 3, open refused 8,
    post first, post refused 1, post refused 2, post refused 3, post refused 5, post refused 6, post refused 7,
    post refused 8,
    emit emitted, emit refused 1, emit refused 2, emit refused 3, emit refused 4,
    ack done, ack dropped, ack resending, ack held, ack ended, ack refused 1, ack refused 2, ack refused 3,
    ack refused 4,
    response done, response dropped, response resending, response refused 1, response refused 2, response refused 3,
    response refused 4, response refused 9,
    timer idle, timer resumed, timer resending, timer ended, timer refused 1, timer refused 2, timer refused 3,
    timer refused 4,
    close done, close refused 1, close refused 2, close refused 4,
    fresh done, room room, room unread, show pair, show refused 1, free free,
    write header, write refused 3, write refused 12,
    read frame, read refused 11, read refused 12, read refused 13, read refused 14, read unread";

/// States of a ready pair that a trace should come to, by name.
fn states(pair: &Pair, whole_card: bool) -> Vec<&'static str> {
    let partly = pair.packets.front().is_some_and(|first| first.psn != pair.oldest);
    let far = |psn| pair.oldest.distance(psn);
    let states = [
        ("wrapped", pair.given.number() < pair.oldest.number()),
        ("partly answered", partly),
        ("partly answered and to be resent", partly && pair.next == pair.oldest),
        ("partly answered behind the wrap", partly && pair.packets[0].psn.number() > pair.oldest.number()),
        ("resent in part", far(pair.next) > 0 && far(pair.next) < far(pair.fresh)),
        ("held", pair.hold > 0),
        ("held and empty", pair.hold > 0 && pair.packets.is_empty()),
        ("elapsed", pair.elapsed > 0),
        ("no retry left", pair.retries_left == 0 && pair.settings.retry > 0),
        ("no RNR retry left", pair.rnr_left == 0 && pair.settings.rnr_retry > 0),
        ("front of a message gone", pair.packets.front().is_some_and(|first| first.place > 0)),
        ("over 200 packets", pair.held() > 200),
        ("at its ceiling", pair.held() == pair.settings.ceiling),
        ("over its share", pair.held() > pair.settings.share),
        ("millions of PSNs", far(pair.given) > 4_000_000),
        ("two reads", pair.packets.iter().filter(|packet| packet.is_read()).count() > 1),
        ("card full", whole_card),
    ];
    states.into_iter().filter(|(_, here)| *here).map(|(name, _)| name).collect()
}

const STATES: usize = 17;

/// The call and its answer's first word, or the refusal.
fn outcome(line: &[u8], answer: &str) -> String {
    let text = String::from_utf8_lossy(line);
    let call = text.split_whitespace().next().unwrap_or("nothing");
    let words: Vec<&str> = answer.split_whitespace().collect();
    match words[..] {
        [] => format!("{call} silent"),
        ["refused", number] => format!("{call} refused {number}"),
        [word, ..] => format!("{call} {}", word.split('@').next().unwrap_or(word)),
    }
}

#[test]
fn invariants_hold_and_everything_is_reached() {
    let mut outcomes: BTreeMap<String, u32> = BTreeMap::new();
    let mut reached: BTreeMap<&str, u32> = BTreeMap::new();
    let mut completions = [0; 2];
    for seed in 1..=3 {
        let mut generator = Generator::new(seed);
        for step in 1..=10_000 {
            let (line, answer) = generator.next_line();
            let card = &generator.model().card;
            assert_eq!(check(card), Ok(()), "seed {seed}, line {step}");
            *outcomes.entry(outcome(&line, &answer)).or_default() += 1;
            for (status, count) in [":0", ":1"].iter().zip(&mut completions) {
                *count += answer.split_whitespace().filter(|word| word.ends_with(status)).count();
            }
            let full = card.claimed() == SLOTS;
            for pair in card.pairs.iter().flatten().filter(|pair| !pair.ended) {
                states(pair, full).into_iter().for_each(|state| *reached.entry(state).or_default() += 1);
            }
        }
    }
    for expected in REACHED.split(',').map(str::trim) {
        assert!(outcomes.contains_key(expected), "never {expected:?}");
    }
    assert!(reached.len() == STATES && reached.values().all(|&count| count > 20), "{reached:?}");
    assert!(completions.iter().all(|&count| count > 1000), "{completions:?}");
}

/// What plain traces seldom or never come to: many messages at once, openings at every border.
#[test]
fn wide_traces_reach_more() {
    let (mut most, mut openings) = (0, BTreeMap::new());
    for seed in 1..=3 {
        let mut generator = Generator::wide(seed);
        for step in 1..=10_000 {
            let (line, answer) = generator.next_line();
            assert_eq!(check(&generator.model().card), Ok(()), "seed {seed}, line {step}");
            most = most.max(answer.matches(":0").count());
            let outcome = outcome(&line, &answer);
            if outcome.starts_with("open ") {
                *openings.entry(outcome).or_insert(0) += 1;
            }
        }
    }
    assert!(most > 50, "{most} messages released at once");
    assert!(openings["open refused 1"] > 50 && openings["open refused 3"] > 50, "{openings:?}");
}

#[test]
fn read_again_as_text_a_trace_answers_the_same() {
    let mut generator = Generator::new(77);
    let (mut trace, mut expected) = (Vec::new(), String::new());
    for _ in 0..4000 {
        let (line, answer) = generator.next_line();
        trace.extend(line);
        trace.push(b'\n');
        expected += &answer;
    }
    assert!(answers(&trace) == expected);
}

#[test]
fn a_seed_decides_the_trace() {
    let text = |seed: u64, lines: u64| {
        let mut output = Vec::new();
        random::write(seed, lines, &mut output).expect("memory does not fail");
        output
    };
    let long = text(5, 1000);
    assert_eq!(long.iter().filter(|&&byte| byte == b'\n').count(), 1000);
    assert!(text(5, 1000) == long);
    assert!(text(6, 1000) != long);
    assert!(long.starts_with(&text(5, 300)));
    assert_eq!(text(5, 0), b"");
}
