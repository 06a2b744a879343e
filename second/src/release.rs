//! Release and flush: packets leave the front of a pair's list, their slots join the free queue.

use std::collections::VecDeque;

use crate::answer::{Answer, Completion, Outcome, Status};
use crate::pair::Pair;
use crate::psn::Psn;

/// One call's release on a pair.
pub struct Releasing<'a> {
    pub pair: &'a mut Pair,
    free: &'a mut VecDeque<u16>,
    /// U as the call found it: "before" and "further" go by distance from here.
    origin: Psn,
    completions: Vec<Completion>,
}

impl<'a> Releasing<'a> {
    pub fn new(pair: &'a mut Pair, free: &'a mut VecDeque<u16>) -> Releasing<'a> {
        let origin = pair.oldest;
        Releasing { pair, free, origin, completions: Vec::new() }
    }

    pub fn answer(self, answer: Answer) -> Outcome {
        Outcome { answer, completions: self.completions }
    }

    /// Takes packets off the front; a message completes with its last one.
    pub fn take_front(&mut self, count: usize, status: Status) {
        for packet in self.pair.packets.drain(..count) {
            self.free.push_back(packet.slot);
            if packet.ends_message() {
                self.completions.push(Completion { ticket: packet.message.ticket, status });
            }
        }
    }

    pub fn flush(&mut self) {
        self.take_front(self.pair.held(), Status::Flushed);
    }

    /// Ends the pair: it keeps its share and its counts until it is closed.
    pub fn end(&mut self) {
        self.flush();
        let pair = &mut *self.pair;
        pair.ended = true;
        pair.oldest = pair.given;
        pair.next = pair.given;
        pair.fresh = pair.given;
        pair.elapsed = 0;
        pair.hold = 0;
    }

    /// Releases before `b`; true if a read that is not wholly answered stopped it.
    pub fn before(&mut self, b: Psn) -> bool {
        let count = self.pair.packets.len();
        let is_before =
            |pair: &Pair, index| self.origin.distance(pair.unanswered(index)) < self.origin.distance(b);
        let stop =
            (0..count).find(|&index| self.pair.packets[index].is_read() && is_before(self.pair, index));
        let (release, to) = match stop {
            Some(index) => (index, self.pair.unanswered(index)),
            None => ((0..count).take_while(|&index| is_before(self.pair, index)).count(), b),
        };
        self.take_front(release, Status::Released);
        if to != self.origin {
            self.advance(to);
        }
        stop.is_some()
    }

    /// Moves U: both counts and the clock start anew, and X does not stay behind.
    pub fn advance(&mut self, to: Psn) {
        let pair = &mut *self.pair;
        pair.oldest = to;
        pair.retries_left = pair.settings.retry;
        pair.rnr_left = pair.settings.rnr_retry;
        pair.elapsed = 0;
        pair.next = self.origin.further(pair.next, to);
    }

    /// Emission starts again at U.
    pub fn resend(&mut self) {
        self.pair.next = self.pair.oldest;
        self.pair.elapsed = 0;
    }
}
