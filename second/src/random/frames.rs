//! `write` and `read` lines: headers good, at their borders and damaged.

use super::draft::Draft;
use super::numbers::Numbers;
use crate::opcode;
use crate::wire::{self, Header, FIELDS};
use crate::words::to_hex;

fn header(numbers: &mut Numbers) -> Header {
    Header {
        opcode: numbers.within(0..=opcode::ACKNOWLEDGE.into()) as u8,
        pad: numbers.bits(2) as u8,
        pkey: numbers.bits(16) as u16,
        far: numbers.bits(24) as u32,
        psn: numbers.bits(24) as u32,
        address: numbers.any(),
        key: numbers.bits(32) as u32,
        length: numbers.bits(32) as u32,
        immediate: numbers.bits(32) as u32,
        syndrome: numbers.bits(8) as u8,
        msn: numbers.bits(24) as u32,
    }
}

/// One field in six lines goes to or over its border.
pub fn write(numbers: &mut Numbers) -> Draft {
    let mut fields = header(numbers).fields();
    const LIMITS: [u128; FIELDS] =
        [18, 4, 1 << 16, 1 << 24, 1 << 24, 1 << 64, 1 << 32, 1 << 32, 1 << 32, 1 << 8, 1 << 24];
    if numbers.one_in(6) {
        let at = numbers.below(LIMITS.len() as u64) as usize;
        fields[at] = u64::try_from(LIMITS[at] - u128::from(numbers.bits(1))).unwrap_or(u64::MAX);
    }
    if numbers.one_in(20) {
        fields[0] = numbers.near(256);
    }
    Draft::new("write", fields)
}

pub fn read(numbers: &mut Numbers) -> Vec<u8> {
    let mut frame = frame(numbers);
    match numbers.below(12) {
        0 => frame.truncate(numbers.below(frame.len() as u64 + 1) as usize),
        1 => frame.extend((0..numbers.within(1..=5)).map(|_| 0)),
        2 => {
            let at = numbers.below(12) as usize;
            frame[at] = numbers.bits(8) as u8;
        }
        3 => frame[1] |= numbers.bits(4) as u8,
        4 => frame[0] = numbers.near(18) as u8,
        5 => frame = (0..numbers.below(40)).map(|_| numbers.bits(8) as u8).collect(),
        _ => {}
    }
    let digits = if frame.is_empty() { "-".to_string() } else { to_hex(&frame) };
    let digits = if numbers.one_in(8) { digits.to_uppercase() } else { digits };
    format!("read {digits}").into_bytes()
}

/// A written header with a rest; the bits that reading ignores may be anything.
fn frame(numbers: &mut Numbers) -> Vec<u8> {
    let mut header = header(numbers);
    let bare = opcode::has_no_payload(header.opcode);
    if bare {
        header.pad = if numbers.one_in(8) { header.pad } else { 0 };
    }
    let written = wire::write(&header).expect("every field is in range");
    let mut frame = written.bytes[..written.length].to_vec();
    if numbers.one_in(2) {
        frame[1] ^= numbers.pick(&[0, 0x80, 0x40, 0xc0]);
        frame[4] = numbers.bits(8) as u8;
        frame[8] = numbers.bits(8) as u8;
    }
    let rest = match numbers.below(10) {
        0 => 0,
        1 => numbers.below(9),
        2 => 4 * numbers.below(300),
        _ if bare => 0,
        _ => 4 * numbers.within(1..=4),
    };
    frame.extend((0..rest).map(|_| numbers.bits(8) as u8));
    frame
}
