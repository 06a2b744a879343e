//! Emission: packets from X upward, each as a record of header and four numbers.

use crate::answer::{require, Refusal};
use crate::card::Card;
use crate::limits::{BUDGETS, HEADER_BYTES, RECORD_BYTES};
use crate::pair::Pair;
use crate::wire::{self, Header};

pub type Record = [u8; RECORD_BYTES];

/// Bytes that fill a payload up to a multiple of 4.
pub fn pad(payload: u32) -> u8 {
    (payload.wrapping_neg() % 4) as u8
}

impl Card {
    /// The records written; `bytes` is the length of the buffer lent for them.
    pub fn emit(&mut self, pair: u64, budget: u64, bytes: usize) -> Result<Vec<Record>, Refusal> {
        let (pair, _) = self.ready(pair)?;
        require(BUDGETS.contains(&budget), Refusal::OutOfRange)?;
        let budget = budget as usize;
        require(bytes >= RECORD_BYTES * budget, Refusal::ShortBuffer)?;
        if pair.hold > 0 {
            return Ok(Vec::new());
        }
        let due = first_due(pair);
        let end = pair.held().min(due + budget);
        let records = (due..end).map(|index| record(pair, index)).collect();
        if due < end {
            pair.next = pair.packets[end - 1].end();
            pair.fresh = pair.oldest.further(pair.fresh, pair.next);
        }
        Ok(records)
    }
}

/// The first packet that ends after X.
fn first_due(pair: &Pair) -> usize {
    let emitted = pair.oldest.distance(pair.next);
    pair.packets.iter().take_while(|packet| pair.oldest.distance(packet.end()) <= emitted).count()
}

/// A read partly answered is asked for again from U on.
fn record(pair: &Pair, index: usize) -> Record {
    let packet = &pair.packets[index];
    let message = &packet.message;
    let psn = pair.unanswered(index);
    let answered = message.bytes_before(packet.psn.distance(psn));
    let payload = if packet.is_read() { 0 } else { packet.length() };
    let header = Header {
        opcode: message.opcode_at(packet.place),
        pad: pad(payload),
        pkey: pair.settings.pkey,
        far: pair.settings.far,
        psn: psn.number(),
        address: message.address + u64::from(answered),
        key: message.key,
        length: message.length - answered,
        immediate: message.immediate.unwrap_or(0),
        ..Header::default()
    };
    let written = wire::write(&header).expect("a stored packet's fields are in range");
    let mut record = [0; RECORD_BYTES];
    record[..HEADER_BYTES].copy_from_slice(&written.bytes);
    let numbers = [written.length as u32, message.ticket, packet.offset() + answered, payload];
    for (place, number) in record[HEADER_BYTES..].chunks_exact_mut(4).zip(numbers) {
        place.copy_from_slice(&number.to_be_bytes());
    }
    record
}
