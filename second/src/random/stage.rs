//! A stretch of lines about the same few pairs, so that their states become deep.

use super::numbers::Numbers;
use crate::limits::PAIRS;

/// What a stretch dwells on.
#[derive(Clone, Copy, PartialEq, Eq)]
pub enum Mood {
    Mixed,
    /// Long messages and large shares.
    Crowded,
    Reads,
    /// Timers and RNRs rather than ACKs.
    Trouble,
    /// Messages of one packet, many before an ACK.
    Many,
    /// Pairs that soon close again, and openings at the borders of their arguments.
    Doors,
}

/// Which traces are drawn. A seed's plain ones stay as they are, since answers to some are kept.
#[derive(Clone, Copy, PartialEq, Eq)]
pub enum Range {
    Plain,
    /// With the moods that plain traces lack, and more arguments at borders.
    Wide,
}

const PLAIN: [Mood; 4] = [Mood::Mixed, Mood::Crowded, Mood::Reads, Mood::Trouble];
const WIDE: [Mood; 6] = [Mood::Mixed, Mood::Crowded, Mood::Reads, Mood::Trouble, Mood::Many, Mood::Doors];

pub struct Stage {
    pub pairs: Vec<u64>,
    /// The pair that calls go to just now.
    pub pair: u64,
    pub mood: Mood,
    pub lines_left: u64,
}

impl Stage {
    pub fn new(numbers: &mut Numbers, range: Range) -> Stage {
        let last = PAIRS as u64 - 1;
        let count = numbers.within(1..=4);
        let pairs: Vec<u64> = (0..count)
            .map(|_| if numbers.one_in(4) { numbers.pick(&[0, last]) } else { numbers.within(0..=last) })
            .collect();
        let moods = if range == Range::Wide { &WIDE[..] } else { &PLAIN[..] };
        let mood = numbers.pick(moods);
        Stage { pair: pairs[0], pairs, mood, lines_left: numbers.within(100..=1200) }
    }

    pub fn is_over(&self) -> bool {
        self.lines_left == 0
    }
}
