//! The opcodes and which parts each one's header has.

use std::ops::RangeInclusive;

pub const SEND_FIRST: u8 = 0;
pub const SEND_MIDDLE: u8 = 1;
pub const SEND_LAST: u8 = 2;
pub const SEND_LAST_IMMEDIATE: u8 = 3;
pub const SEND_ONLY: u8 = 4;
pub const SEND_ONLY_IMMEDIATE: u8 = 5;
pub const WRITE_FIRST: u8 = 6;
pub const WRITE_MIDDLE: u8 = 7;
pub const WRITE_LAST: u8 = 8;
pub const WRITE_LAST_IMMEDIATE: u8 = 9;
pub const WRITE_ONLY: u8 = 10;
pub const WRITE_ONLY_IMMEDIATE: u8 = 11;
pub const READ_REQUEST: u8 = 12;
pub const READ_RESPONSE_FIRST: u8 = 13;
pub const READ_RESPONSE_MIDDLE: u8 = 14;
pub const READ_RESPONSE_LAST: u8 = 15;
pub const READ_RESPONSE_ONLY: u8 = 16;
pub const ACKNOWLEDGE: u8 = 17;

pub const READ_RESPONSES: RangeInclusive<u64> = READ_RESPONSE_FIRST as u64..=READ_RESPONSE_ONLY as u64;

pub const BTH_BYTES: usize = 12;
pub const RETH_BYTES: usize = 16;
pub const IMMEDIATE_BYTES: usize = 4;
pub const AETH_BYTES: usize = 4;

pub fn is_known(opcode: u8) -> bool {
    opcode <= ACKNOWLEDGE
}

/// The opcodes of a read's responses.
pub fn is_read_response(opcode: u64) -> bool {
    READ_RESPONSES.contains(&opcode)
}

/// The response opcodes that stand at a read's last place, and nowhere else.
pub fn ends_a_read(opcode: u64) -> bool {
    opcode == u64::from(READ_RESPONSE_LAST) || opcode == u64::from(READ_RESPONSE_ONLY)
}

pub fn has_reth(opcode: u8) -> bool {
    matches!(opcode, WRITE_FIRST | WRITE_ONLY | WRITE_ONLY_IMMEDIATE | READ_REQUEST)
}

pub fn has_immediate(opcode: u8) -> bool {
    matches!(opcode, SEND_LAST_IMMEDIATE | SEND_ONLY_IMMEDIATE | WRITE_LAST_IMMEDIATE | WRITE_ONLY_IMMEDIATE)
}

pub fn has_aeth(opcode: u8) -> bool {
    matches!(opcode, READ_RESPONSE_FIRST | READ_RESPONSE_LAST | READ_RESPONSE_ONLY | ACKNOWLEDGE)
}

/// A frame of these is its headers and nothing after them.
pub fn has_no_payload(opcode: u8) -> bool {
    matches!(opcode, READ_REQUEST | ACKNOWLEDGE)
}

/// Bytes of the headers, BTH included.
pub fn header_length(opcode: u8) -> usize {
    let part = |present: bool, bytes: usize| if present { bytes } else { 0 };
    BTH_BYTES
        + part(has_reth(opcode), RETH_BYTES)
        + part(has_immediate(opcode), IMMEDIATE_BYTES)
        + part(has_aeth(opcode), AETH_BYTES)
}
