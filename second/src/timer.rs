//! The timer step.

use crate::answer::{Answer, Outcome, Refusal};
use crate::card::{need_completions, Card};
use crate::message::narrow;
use crate::release::Releasing;

impl Card {
    pub fn timer(&mut self, pair: u64, ns: u64, numbers: usize) -> Result<Outcome, Refusal> {
        let (pair, free) = self.ready(pair)?;
        let step = u64::from(narrow(ns)?);
        need_completions(numbers)?;
        let mut releasing = Releasing::new(pair, free);
        let answer =
            if releasing.pair.hold > 0 { wait(&mut releasing, step) } else { tick(&mut releasing, step) };
        Ok(releasing.answer(answer))
    }
}

/// A hold runs down; what is left of the step after its end is not counted.
fn wait(releasing: &mut Releasing, step: u64) -> Answer {
    let pair = &mut *releasing.pair;
    if step >= pair.hold {
        pair.hold = 0;
        Answer::Resumed
    } else {
        pair.hold -= step;
        Answer::Idle
    }
}

/// The clock runs while something emitted is unacknowledged.
fn tick(releasing: &mut Releasing, step: u64) -> Answer {
    let pair = &mut *releasing.pair;
    let Some(timeout) = pair.settings.timeout() else {
        return Answer::Idle;
    };
    if pair.oldest == pair.fresh {
        return Answer::Idle;
    }
    if pair.elapsed + step < timeout {
        pair.elapsed += step;
        return Answer::Idle;
    }
    if pair.retries_left == 0 {
        releasing.end();
        return Answer::Ended;
    }
    pair.retries_left -= 1;
    releasing.resend();
    Answer::Resending
}
