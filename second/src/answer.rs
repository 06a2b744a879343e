//! What a call answers: an answer with completions, or a refusal.

use std::fmt;

/// Refusals by the numbers of the rules. 15, the audit's, has no place here: these tables
/// only ever come from a fresh start.
#[derive(Clone, Copy, PartialEq, Eq, Debug)]
pub enum Refusal {
    NoSuchPair = 1,
    WrongState = 2,
    OutOfRange = 3,
    ShortBuffer = 4,
    OverCeiling = 5,
    Fenced = 6,
    TooFar = 7,
    NoRoom = 8,
    Misfit = 9,
    ShortFrame = 11,
    UnknownOpcode = 12,
    WrongVersion = 13,
    BadRest = 14,
}

impl Refusal {
    pub fn number(self) -> u32 {
        self as u32
    }
}

/// Refusal `why` unless `fine`.
pub fn require(fine: bool, why: Refusal) -> Result<(), Refusal> {
    if fine {
        Ok(())
    } else {
        Err(why)
    }
}

#[derive(Clone, Copy, PartialEq, Eq, Debug)]
pub enum Answer {
    Dropped,
    Done,
    /// A read response taken; its payload belongs at this offset.
    DoneAt(u32),
    Resending,
    Held,
    Ended,
    Idle,
    Resumed,
}

impl fmt::Display for Answer {
    fn fmt(&self, out: &mut fmt::Formatter) -> fmt::Result {
        match self {
            Answer::Dropped => write!(out, "dropped"),
            Answer::Done => write!(out, "done"),
            Answer::DoneAt(place) => write!(out, "done@{place}"),
            Answer::Resending => write!(out, "resending"),
            Answer::Held => write!(out, "held"),
            Answer::Ended => write!(out, "ended"),
            Answer::Idle => write!(out, "idle"),
            Answer::Resumed => write!(out, "resumed"),
        }
    }
}

/// How a message left its pair.
#[derive(Clone, Copy, PartialEq, Eq, Debug)]
pub enum Status {
    Released = 0,
    Flushed = 1,
}

#[derive(Clone, Copy, PartialEq, Eq, Debug)]
pub struct Completion {
    pub ticket: u32,
    pub status: Status,
}

impl fmt::Display for Completion {
    fn fmt(&self, out: &mut fmt::Formatter) -> fmt::Result {
        write!(out, " {}:{}", self.ticket, self.status as u32)
    }
}

/// The answer of an event, a timer step or a close, with its completions in PSN order.
#[derive(Clone, PartialEq, Eq, Debug)]
pub struct Outcome {
    pub answer: Answer,
    pub completions: Vec<Completion>,
}

impl fmt::Display for Outcome {
    fn fmt(&self, out: &mut fmt::Formatter) -> fmt::Result {
        write!(out, "{}", self.answer)?;
        self.completions.iter().try_for_each(|done| write!(out, "{done}"))
    }
}
