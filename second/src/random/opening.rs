//! Calls on a pair that is not ready: mostly the one that makes it so.

use super::aim::around_responses;
use super::draft::Draft;
use super::numbers::Numbers;
use super::stage::{Mood, Stage};
use crate::card::Card;
use crate::limits::SLOTS;
use crate::psn::Psn;

pub fn call(numbers: &mut Numbers, stage: &Stage, card: &Card, ended: bool) -> Draft {
    let pair = stage.pair;
    if numbers.one_in(5) {
        return elsewhere(numbers, pair);
    }
    if ended {
        return Draft::new("close", [pair]);
    }
    open(numbers, stage, card)
}

/// A call that the pair's state does not allow, with arguments that may be wrong too.
fn elsewhere(numbers: &mut Numbers, pair: u64) -> Draft {
    match numbers.below(7) {
        0 => Draft::new("emit", [pair, numbers.within(0..=65)]),
        1 => Draft::new("ack", [pair, numbers.bits(Psn::BITS + 1), numbers.within(0..=130)]),
        2 => Draft::new("response", [pair, numbers.bits(Psn::BITS), around_responses(numbers), 256]),
        3 => Draft::new("timer", [pair, numbers.bits(33)]),
        4 => Draft::new("post", [pair, 1, numbers.below(4), 0, 0, 0, numbers.bits(12), 0, 0, 0]),
        5 => Draft::new("close", [pair]),
        _ => Draft::new("open", [pair, 1, 1, 1, numbers.below(7), 1, 1, 1, 1, 1]),
    }
}

fn open(numbers: &mut Numbers, stage: &Stage, card: &Card) -> Draft {
    let [share, ceiling] = room(numbers, stage, SLOTS.saturating_sub(card.claimed()) as u64);
    let retry = numbers.weighted(&[(4, 0), (6, 1), (4, 2), (2, 6), (4, 7)]);
    let rnr_retry = numbers.weighted(&[(4, 0), (6, 1), (4, 2), (2, 6), (4, 7)]);
    let timeout = match numbers.below(20) {
        0..=2 => 0,
        3..=13 => numbers.within(1..=8),
        14..=18 => numbers.within(9..=20),
        _ => numbers.within(21..=31),
    };
    let settings = [
        stage.pair,
        numbers.bits(Psn::BITS),
        first_psn(numbers),
        numbers.bits(16),
        numbers.weighted(&[(12, 1), (3, 2), (2, 3), (1, 4), (2, 5)]),
        share,
        ceiling,
        retry,
        rnr_retry,
        timeout,
    ];
    Draft::new("open", settings)
}

/// Mostly just before the wrap, or before half of the range.
fn first_psn(numbers: &mut Numbers) -> u64 {
    match numbers.below(10) {
        0..=5 => u64::from(Psn::COUNT - 1) - numbers.below(60),
        6 => u64::from(Psn::REACH) - numbers.below(60),
        7 => numbers.below(3),
        _ => numbers.bits(Psn::BITS),
    }
}

/// Share and ceiling; a crowded stage takes what is left or a little more.
fn room(numbers: &mut Numbers, stage: &Stage, left: u64) -> [u64; 2] {
    let all = SLOTS as u64;
    let near_left = numbers.near(left).clamp(1, all);
    let small = numbers.within(1..=12);
    let half = numbers.within(1..=left.max(1));
    let share = match stage.mood {
        Mood::Crowded => numbers.weighted(&[(3, near_left), (4, half), (2, small), (1, all)]),
        _ => numbers.weighted(&[(1, near_left), (2, half), (9, small)]),
    };
    let above = numbers.within(share..=all);
    let whole = if stage.mood == Mood::Many { 40 } else { 3 };
    let ceiling = numbers.weighted(&[(whole, all), (3, share), (2, (share + 5).min(all)), (3, above)]);
    [share, ceiling]
}
