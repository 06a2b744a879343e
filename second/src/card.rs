//! The card's tables, and the calls that open, post and close.

use std::collections::VecDeque;

use crate::answer::{require, Answer, Outcome, Refusal};
use crate::limits::{COMPLETION_NUMBERS, PAIRS, SLOTS};
use crate::message::{Message, PostArguments};
use crate::pair::{OpenArguments, Packet, Pair, Settings};
use crate::psn::Psn;
use crate::release::Releasing;

#[derive(Clone, PartialEq, Eq, Debug)]
pub struct Card {
    /// `None` is a closed pair.
    pub pairs: Vec<Option<Pair>>,
    /// The free queue, first in, first out.
    pub free: VecDeque<u16>,
}

/// A pair's number as an index, else refusal 1.
fn index(number: u64) -> Result<usize, Refusal> {
    require(number < PAIRS as u64, Refusal::NoSuchPair)?;
    Ok(number as usize)
}

/// Refusal 4 unless the completion buffer lent has all its numbers.
pub fn need_completions(numbers: usize) -> Result<(), Refusal> {
    require(numbers >= COMPLETION_NUMBERS, Refusal::ShortBuffer)
}

impl Card {
    pub fn fresh() -> Card {
        Card { pairs: vec![None; PAIRS], free: (0..SLOTS as u16).collect() }
    }

    /// A pair to look at; refusal 1.
    pub fn pair(&self, number: u64) -> Result<Option<&Pair>, Refusal> {
        Ok(self.pairs[index(number)?].as_ref())
    }

    /// The pair of a call that wants it ready, with the free queue; refusals 1 and 2.
    pub fn ready(&mut self, number: u64) -> Result<(&mut Pair, &mut VecDeque<u16>), Refusal> {
        match &mut self.pairs[index(number)?] {
            Some(pair) if !pair.ended => Ok((pair, &mut self.free)),
            _ => Err(Refusal::WrongState),
        }
    }

    /// The audit's last sum: over open pairs, the larger of share and held.
    pub fn claimed(&self) -> usize {
        self.pairs.iter().flatten().map(|pair| pair.claim(pair.held())).sum()
    }

    pub fn open(&mut self, number: u64, arguments: &OpenArguments) -> Result<Answer, Refusal> {
        let at = index(number)?;
        require(self.pairs[at].is_none(), Refusal::WrongState)?;
        let (settings, first) = Settings::checked(arguments)?;
        require(self.claimed() + settings.share <= SLOTS, Refusal::NoRoom)?;
        self.pairs[at] = Some(Pair::opened(settings, first));
        Ok(Answer::Done)
    }

    /// Answers the message's first PSN.
    pub fn post(&mut self, number: u64, arguments: &PostArguments) -> Result<Psn, Refusal> {
        let claimed = self.claimed();
        let (pair, free) = self.ready(number)?;
        let message = Message::checked(arguments, pair.settings.pmtu)?;
        let slots = message.slots();
        require(slots <= pair.settings.ceiling, Refusal::OverCeiling)?;
        require(!(message.fence && pair.holds_read()), Refusal::Fenced)?;
        let reach = pair.oldest.distance(pair.given) + message.packets();
        require(reach <= Psn::REACH, Refusal::TooFar)?;
        let held = pair.held() + slots;
        require(held <= pair.settings.ceiling, Refusal::NoRoom)?;
        require(claimed - pair.claim(pair.held()) + pair.claim(held) <= SLOTS, Refusal::NoRoom)?;
        let first = pair.given;
        for (place, slot) in free.drain(..slots).enumerate() {
            let place = place as u32;
            pair.packets.push_back(Packet { slot, psn: first.plus(place), place, message });
        }
        pair.given = first.plus(message.packets());
        Ok(first)
    }

    /// Flushes all that the pair holds; an ended pair may be closed too.
    pub fn close(&mut self, number: u64, numbers: usize) -> Result<Outcome, Refusal> {
        let entry = &mut self.pairs[index(number)?];
        let pair = entry.as_mut().ok_or(Refusal::WrongState)?;
        need_completions(numbers)?;
        let mut releasing = Releasing::new(pair, &mut self.free);
        releasing.flush();
        let outcome = releasing.answer(Answer::Done);
        *entry = None;
        Ok(outcome)
    }
}
