//! A post's message and how it is cut into packets.

use crate::answer::{require, Refusal};
use crate::limits::{ADDRESS_LIMIT, LENGTH_LIMIT, OFFSET_LIMIT};
use crate::opcode;

#[derive(Clone, Copy, PartialEq, Eq, Debug)]
pub enum Kind {
    Send,
    Write,
    Read,
}

/// A post's arguments as they come, of any width.
#[derive(Clone, Copy, Debug)]
pub struct PostArguments {
    pub ticket: u64,
    pub kind: u64,
    pub has_immediate: u64,
    pub value: u64,
    pub fence: u64,
    pub length: u64,
    pub offset: u64,
    pub address: u64,
    pub key: u64,
}

/// A message whose arguments are in range, cut at its pair's PMTU.
#[derive(Clone, Copy, PartialEq, Eq, Debug)]
pub struct Message {
    pub ticket: u32,
    pub kind: Kind,
    pub immediate: Option<u32>,
    pub fence: bool,
    pub length: u32,
    pub offset: u32,
    pub address: u64,
    pub key: u32,
    pub pmtu: u32,
}

/// A number of 32 bits, else refusal 3.
pub fn narrow(number: u64) -> Result<u32, Refusal> {
    u32::try_from(number).map_err(|_| Refusal::OutOfRange)
}

fn in_range(fine: bool) -> Result<(), Refusal> {
    require(fine, Refusal::OutOfRange)
}

fn flag(number: u64) -> Result<bool, Refusal> {
    in_range(number <= 1)?;
    Ok(number == 1)
}

impl Message {
    /// Refusal 3 for any argument out of its range.
    pub fn checked(post: &PostArguments, pmtu: u32) -> Result<Message, Refusal> {
        let kind = match post.kind {
            0 => Kind::Send,
            1 => Kind::Write,
            2 => Kind::Read,
            _ => return Err(Refusal::OutOfRange),
        };
        // The value counts only where there is an immediate.
        let immediate = if flag(post.has_immediate)? { Some(narrow(post.value)?) } else { None };
        in_range(kind != Kind::Read || immediate.is_none())?;
        in_range(post.length < LENGTH_LIMIT && post.offset < OFFSET_LIMIT)?;
        in_range(post.offset + post.length <= OFFSET_LIMIT)?;
        let reaches_far = kind != Kind::Send && post.length > 0;
        in_range(!reaches_far || u128::from(post.address) + u128::from(post.length) <= ADDRESS_LIMIT)?;
        Ok(Message {
            ticket: narrow(post.ticket)?,
            kind,
            immediate,
            fence: flag(post.fence)?,
            length: narrow(post.length)?,
            offset: narrow(post.offset)?,
            address: post.address,
            key: narrow(post.key)?,
            pmtu,
        })
    }

    /// Packets that carry the message, and so its PSNs: responses, for a read.
    pub fn packets(&self) -> u32 {
        self.length.div_ceil(self.pmtu).max(1)
    }

    /// Slots it takes: a read's one request, else one for each packet.
    pub fn slots(&self) -> usize {
        match self.kind {
            Kind::Read => 1,
            Kind::Send | Kind::Write => self.packets() as usize,
        }
    }

    pub fn is_last(&self, place: u32) -> bool {
        place + 1 == self.packets()
    }

    /// Bytes before the packet at this place.
    pub fn bytes_before(&self, place: u32) -> u32 {
        place * self.pmtu
    }

    /// Where in the host's memory the packet at this place has its payload.
    pub fn offset_at(&self, place: u32) -> u32 {
        self.offset + self.bytes_before(place)
    }

    /// Payload bytes of the packet at this place: all but the last carry the PMTU.
    pub fn payload_at(&self, place: u32) -> u32 {
        if self.is_last(place) {
            self.length - self.bytes_before(place)
        } else {
            self.pmtu
        }
    }

    /// The opcode of the packet at this place; a read's request has but one.
    pub fn opcode_at(&self, place: u32) -> u8 {
        let first = match self.kind {
            Kind::Read => return opcode::READ_REQUEST,
            Kind::Send => opcode::SEND_FIRST,
            Kind::Write => opcode::WRITE_FIRST,
        };
        let step = match (place == 0, self.is_last(place), self.immediate.is_some()) {
            (true, false, _) => opcode::SEND_FIRST,
            (false, false, _) => opcode::SEND_MIDDLE,
            (false, true, false) => opcode::SEND_LAST,
            (false, true, true) => opcode::SEND_LAST_IMMEDIATE,
            (true, true, false) => opcode::SEND_ONLY,
            (true, true, true) => opcode::SEND_ONLY_IMMEDIATE,
        };
        first + step
    }
}
