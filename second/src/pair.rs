//! One open pair: its settings, its PSNs, its clock and its list of packets.

use std::collections::VecDeque;

use crate::answer::{require, Refusal};
use crate::limits::{LAST_TIMEOUT_CODE, MOST_RETRIES, PMTU_CODES, SLOTS, SMALLEST_PMTU, TIMEOUT_UNIT};
use crate::message::{Kind, Message};
use crate::psn::Psn;

/// An opening's arguments as they come, of any width.
#[derive(Clone, Copy, Debug)]
pub struct OpenArguments {
    pub far: u64,
    pub psn: u64,
    pub pkey: u64,
    pub pmtu: u64,
    pub share: u64,
    pub ceiling: u64,
    pub retry: u64,
    pub rnr_retry: u64,
    pub timeout: u64,
}

/// Settings in range.
#[derive(Clone, Copy, PartialEq, Eq, Debug)]
pub struct Settings {
    pub far: u32,
    pub pkey: u16,
    pub pmtu: u32,
    pub share: usize,
    pub ceiling: usize,
    pub retry: u32,
    pub rnr_retry: u32,
    pub timeout_code: u32,
}

impl Settings {
    /// The settings and the first PSN; refusal 3 for any argument out of its range.
    pub fn checked(open: &OpenArguments) -> Result<(Settings, Psn), Refusal> {
        let out = Refusal::OutOfRange;
        let far = Psn::new(open.far).ok_or(out)?.number();
        let first = Psn::new(open.psn).ok_or(out)?;
        let pkey = u16::try_from(open.pkey).map_err(|_| out)?;
        require(PMTU_CODES.contains(&open.pmtu), out)?;
        require((1..=open.ceiling).contains(&open.share), out)?;
        require(open.ceiling <= SLOTS as u64, out)?;
        require(open.retry <= MOST_RETRIES, out)?;
        require(open.rnr_retry <= MOST_RETRIES, out)?;
        require(open.timeout <= LAST_TIMEOUT_CODE, out)?;
        let settings = Settings {
            far,
            pkey,
            pmtu: SMALLEST_PMTU << (open.pmtu - PMTU_CODES.start()),
            share: open.share as usize,
            ceiling: open.ceiling as usize,
            retry: open.retry as u32,
            rnr_retry: open.rnr_retry as u32,
            timeout_code: open.timeout as u32,
        };
        Ok((settings, first))
    }

    /// The timeout in ns; code 0 means there is none.
    pub fn timeout(&self) -> Option<u64> {
        (self.timeout_code > 0).then(|| TIMEOUT_UNIT << self.timeout_code)
    }
}

/// A held packet: a place in a message, or a whole read.
#[derive(Clone, Copy, PartialEq, Eq, Debug)]
pub struct Packet {
    pub slot: u16,
    /// Its PSN, or a read's first one.
    pub psn: Psn,
    /// Packets of its message before it; 0 for a read.
    pub place: u32,
    pub message: Message,
}

impl Packet {
    pub fn is_read(&self) -> bool {
        self.message.kind == Kind::Read
    }

    /// PSNs it stands for.
    pub fn numbers(&self) -> u32 {
        if self.is_read() {
            self.message.packets()
        } else {
            1
        }
    }

    /// The first PSN after it.
    pub fn end(&self) -> Psn {
        self.psn.plus(self.numbers())
    }

    pub fn ends_message(&self) -> bool {
        self.is_read() || self.message.is_last(self.place)
    }

    pub fn offset(&self) -> u32 {
        self.message.offset_at(self.place)
    }

    /// The payload bytes it carries, or the whole message's for a read.
    pub fn length(&self) -> u32 {
        if self.is_read() {
            self.message.length
        } else {
            self.message.payload_at(self.place)
        }
    }
}

/// An open pair, ready or ended.
#[derive(Clone, PartialEq, Eq, Debug)]
pub struct Pair {
    pub settings: Settings,
    pub ended: bool,
    /// U, the oldest unacknowledged PSN.
    pub oldest: Psn,
    /// X, the next to emit.
    pub next: Psn,
    /// H, the first never emitted.
    pub fresh: Psn,
    /// N, the next to be given.
    pub given: Psn,
    pub retries_left: u32,
    pub rnr_left: u32,
    /// ns since the clock was last set to 0.
    pub elapsed: u64,
    /// ns for which an RNR still holds the pair.
    pub hold: u64,
    pub packets: VecDeque<Packet>,
}

impl Pair {
    pub fn opened(settings: Settings, first: Psn) -> Pair {
        Pair {
            settings,
            ended: false,
            oldest: first,
            next: first,
            fresh: first,
            given: first,
            retries_left: settings.retry,
            rnr_left: settings.rnr_retry,
            elapsed: 0,
            hold: 0,
            packets: VecDeque::new(),
        }
    }

    pub fn held(&self) -> usize {
        self.packets.len()
    }

    pub fn holds_read(&self) -> bool {
        self.packets.iter().any(Packet::is_read)
    }

    /// What the pair takes of the slots if it holds so many: its share is always kept for it.
    pub fn claim(&self, held: usize) -> usize {
        self.settings.share.max(held)
    }

    /// The first PSN of a held packet that is not answered yet: the front one's is always U.
    pub fn unanswered(&self, index: usize) -> Psn {
        if index == 0 {
            self.oldest
        } else {
            self.packets[index].psn
        }
    }

    /// Whether R lies in the open range, from U up to before H.
    pub fn awaits(&self, r: Psn) -> bool {
        self.oldest.distance(r) < self.oldest.distance(self.fresh)
    }
}
