//! Headers to bytes and back.

use crate::answer::{require, Refusal};
use crate::limits::HEADER_BYTES;
use crate::opcode;
use crate::psn::Psn;

const SOLICITED_EVENT: u8 = 0x80;
const ACKNOWLEDGE_REQUEST: u8 = 0x80;
const MOST_PAD: u8 = 3;
const VERSION_BITS: u8 = 0x0f;
const PAD_SHIFT: u32 = 4;

/// The fields of BTH, RETH, immediate and AETH. Those that the opcode lacks are not written
/// and are read as 0.
#[derive(Clone, Copy, PartialEq, Eq, Debug, Default)]
pub struct Header {
    pub opcode: u8,
    pub pad: u8,
    pub pkey: u16,
    pub far: u32,
    pub psn: u32,
    pub address: u64,
    pub key: u32,
    pub length: u32,
    pub immediate: u32,
    pub syndrome: u8,
    pub msn: u32,
}

/// Fields of a header, in the order in which a trace has them.
pub const FIELDS: usize = 11;

impl Header {
    pub fn fields(&self) -> [u64; FIELDS] {
        [
            self.opcode.into(),
            self.pad.into(),
            self.pkey.into(),
            self.far.into(),
            self.psn.into(),
            self.address,
            self.key.into(),
            self.length.into(),
            self.immediate.into(),
            self.syndrome.into(),
            self.msn.into(),
        ]
    }
}

/// A header as bytes, zeros after it.
#[derive(Clone, Copy, PartialEq, Eq, Debug)]
pub struct Written {
    pub bytes: [u8; HEADER_BYTES],
    pub length: usize,
}

/// What a frame was read as.
#[derive(Clone, Copy, PartialEq, Eq, Debug)]
pub struct Frame {
    pub header: Header,
    pub header_length: usize,
    /// The rest after the headers, less the pad.
    pub payload_length: usize,
}

/// Bytes filled from the front.
struct Filling {
    bytes: [u8; HEADER_BYTES],
    length: usize,
}

impl Filling {
    fn put(&mut self, part: &[u8]) {
        self.bytes[self.length..][..part.len()].copy_from_slice(part);
        self.length += part.len();
    }

    /// A byte, then 24 bits.
    fn put_split(&mut self, byte: u8, low: u32) {
        self.put(&(u32::from(byte) << 24 | low).to_be_bytes());
    }
}

/// Refusal 3 for a field out of its range, then 12.
pub fn write(header: &Header) -> Result<Written, Refusal> {
    let narrow = |field: u32| field < Psn::COUNT;
    let in_range = header.pad <= MOST_PAD && narrow(header.far) && narrow(header.psn) && narrow(header.msn);
    require(in_range, Refusal::OutOfRange)?;
    require(opcode::is_known(header.opcode), Refusal::UnknownOpcode)?;
    let mut out = Filling { bytes: [0; HEADER_BYTES], length: 0 };
    out.put(&[header.opcode, SOLICITED_EVENT | header.pad << PAD_SHIFT]);
    out.put(&header.pkey.to_be_bytes());
    out.put_split(0, header.far);
    out.put_split(ACKNOWLEDGE_REQUEST, header.psn);
    if opcode::has_reth(header.opcode) {
        out.put(&header.address.to_be_bytes());
        out.put(&header.key.to_be_bytes());
        out.put(&header.length.to_be_bytes());
    }
    if opcode::has_immediate(header.opcode) {
        out.put(&header.immediate.to_be_bytes());
    }
    if opcode::has_aeth(header.opcode) {
        out.put_split(header.syndrome, header.msn);
    }
    Ok(Written { bytes: out.bytes, length: out.length })
}

/// Bytes taken from the front; the reader has made sure of their number.
struct Taking<'a>(&'a [u8]);

impl Taking<'_> {
    fn take(&mut self, bytes: usize) -> u64 {
        let (part, rest) = self.0.split_at(bytes);
        self.0 = rest;
        part.iter().fold(0, |number, &byte| number << 8 | u64::from(byte))
    }
}

/// Refusals in order: 11 below a BTH, 12, 11 below what the opcode needs, 13, 14.
pub fn read(frame: &[u8]) -> Result<Frame, Refusal> {
    require(frame.len() >= opcode::BTH_BYTES, Refusal::ShortFrame)?;
    let code = frame[0];
    require(opcode::is_known(code), Refusal::UnknownOpcode)?;
    let header_length = opcode::header_length(code);
    require(frame.len() >= header_length, Refusal::ShortFrame)?;
    require(frame[1] & VERSION_BITS == 0, Refusal::WrongVersion)?;
    let header = fields(frame);
    let rest = frame.len() - header_length;
    let pad = usize::from(header.pad);
    let rest_fits = rest.is_multiple_of(4) && rest >= pad && !(opcode::has_no_payload(code) && rest > 0);
    require(rest_fits, Refusal::BadRest)?;
    Ok(Frame { header, header_length, payload_length: rest - pad })
}

/// The fields of a frame that is long enough; reserved bits and the writer's three are ignored.
fn fields(frame: &[u8]) -> Header {
    let mut from = Taking(frame);
    let mut header = Header { opcode: from.take(1) as u8, ..Header::default() };
    header.pad = from.take(1) as u8 >> PAD_SHIFT & MOST_PAD;
    header.pkey = from.take(2) as u16;
    from.take(1);
    header.far = from.take(3) as u32;
    from.take(1);
    header.psn = from.take(3) as u32;
    if opcode::has_reth(header.opcode) {
        header.address = from.take(8);
        header.key = from.take(4) as u32;
        header.length = from.take(4) as u32;
    }
    if opcode::has_immediate(header.opcode) {
        header.immediate = from.take(4) as u32;
    }
    if opcode::has_aeth(header.opcode) {
        header.syndrome = from.take(1) as u8;
        header.msn = from.take(3) as u32;
    }
    header
}
