//! Acknowledgements and read responses.

use crate::answer::{require, Answer, Outcome, Refusal, Status};
use crate::card::{need_completions, Card};
use crate::limits::{ENDLESS_RNR, RNR_UNIT, RNR_WAITS};
use crate::message::narrow;
use crate::opcode;
use crate::pair::{Packet, Pair};
use crate::psn::Psn;
use crate::release::Releasing;

/// What an acknowledgement's syndrome says.
enum Syndrome {
    Ack,
    /// A NAK of code 0, 1 or 2.
    Resend,
    /// A NAK of code 3.
    Final,
    /// The wait in ns.
    NotReady(u64),
}

/// The top three bits of eight say which; refusal 3 for any other.
fn syndrome(number: u64) -> Result<Syndrome, Refusal> {
    let low = number % 32;
    match (number / 32, low) {
        (0b000, _) => Ok(Syndrome::Ack),
        (0b001, _) => Ok(Syndrome::NotReady(RNR_WAITS[low as usize] * RNR_UNIT)),
        (0b011, 0..=2) => Ok(Syndrome::Resend),
        (0b011, 3) => Ok(Syndrome::Final),
        _ => Err(Refusal::OutOfRange),
    }
}

fn dropped() -> Outcome {
    Outcome { answer: Answer::Dropped, completions: Vec::new() }
}

impl Card {
    pub fn ack(
        &mut self,
        pair: u64,
        psn: u64,
        syndrome_bits: u64,
        numbers: usize,
    ) -> Result<Outcome, Refusal> {
        let (pair, free) = self.ready(pair)?;
        let r = Psn::new(psn).ok_or(Refusal::OutOfRange)?;
        let syndrome = syndrome(syndrome_bits)?;
        need_completions(numbers)?;
        if !pair.awaits(r) {
            return Ok(dropped());
        }
        let mut releasing = Releasing::new(pair, free);
        let answer = match syndrome {
            Syndrome::Ack => acknowledged(&mut releasing, r),
            Syndrome::Resend => {
                releasing.before(r);
                releasing.resend();
                Answer::Resending
            }
            Syndrome::Final => {
                releasing.before(r);
                releasing.end();
                Answer::Ended
            }
            Syndrome::NotReady(wait) => not_ready(&mut releasing, r, wait),
        };
        Ok(releasing.answer(answer))
    }

    pub fn response(
        &mut self,
        pair: u64,
        psn: u64,
        opcode: u64,
        length: u64,
        numbers: usize,
    ) -> Result<Outcome, Refusal> {
        let (pair, free) = self.ready(pair)?;
        let r = Psn::new(psn).ok_or(Refusal::OutOfRange)?;
        require(opcode::is_read_response(opcode), Refusal::OutOfRange)?;
        let length = narrow(length)?;
        need_completions(numbers)?;
        if !pair.awaits(r) {
            return Ok(dropped());
        }
        let read = read_at(pair, r).ok_or(Refusal::Misfit)?;
        let place = read.psn.distance(r);
        require(length == read.message.payload_at(place), Refusal::Misfit)?;
        let is_last = read.message.is_last(place);
        require(opcode::ends_a_read(opcode) == is_last, Refusal::Misfit)?;
        let offset = read.message.offset_at(place);
        let mut releasing = Releasing::new(pair, free);
        if releasing.before(r) {
            releasing.resend();
            return Ok(releasing.answer(Answer::Resending));
        }
        // Nothing stopped before R, so R is the first that the front read still awaits.
        releasing.advance(r.next());
        if is_last {
            releasing.take_front(1, Status::Released);
        }
        Ok(releasing.answer(Answer::DoneAt(offset)))
    }
}

/// An ACK covers R itself, but does not answer a read.
fn acknowledged(releasing: &mut Releasing, r: Psn) -> Answer {
    if releasing.before(r.next()) {
        releasing.resend();
        Answer::Resending
    } else {
        Answer::Done
    }
}

/// The count is looked at after the release, which may have restored it.
fn not_ready(releasing: &mut Releasing, r: Psn, wait: u64) -> Answer {
    releasing.before(r);
    if releasing.pair.settings.rnr_retry < ENDLESS_RNR {
        if releasing.pair.rnr_left == 0 {
            releasing.end();
            return Answer::Ended;
        }
        releasing.pair.rnr_left -= 1;
    }
    releasing.resend();
    releasing.pair.hold = wait;
    Answer::Held
}

/// The read held that has R among its PSNs.
fn read_at(pair: &Pair, r: Psn) -> Option<Packet> {
    let holds_r = |packet: &&Packet| packet.is_read() && packet.psn.distance(r) < packet.numbers();
    pair.packets.iter().find(holds_r).copied()
}
