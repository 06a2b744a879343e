//! Every number of the rules and of the trace, each in one place.

use std::ops::RangeInclusive;

/// Pairs of a card, numbered from 0.
pub const PAIRS: usize = 64;
/// Slots of a card; also the most that shares and held packets may sum to.
pub const SLOTS: usize = 256;

/// Bytes a header is written into, zeros after it.
pub const HEADER_BYTES: usize = 32;
/// Bytes of one emission record: the header, then four 32-bit numbers.
pub const RECORD_BYTES: usize = 48;
/// Numbers that an event's completion buffer needs.
pub const COMPLETION_NUMBERS: usize = 512;
/// Packets that one emission may be asked for.
pub const BUDGETS: RangeInclusive<u64> = 1..=64;

/// PMTU codes; code 1 stands for 256 bytes, each further one for twice as many.
pub const PMTU_CODES: RangeInclusive<u64> = 1..=5;
pub const SMALLEST_PMTU: u32 = 256;
/// Both retry settings go up to this.
pub const MOST_RETRIES: u64 = 7;
/// The RNR retry setting that never runs out.
pub const ENDLESS_RNR: u32 = 7;
pub const LAST_TIMEOUT_CODE: u64 = 31;
/// The timeout of code 0's doubling, in ns; code 0 itself means no timeout.
pub const TIMEOUT_UNIT: u64 = 4096;

/// Message lengths are below this.
pub const LENGTH_LIMIT: u64 = 1 << 31;
/// Offsets are below this, and no payload passes it.
pub const OFFSET_LIMIT: u64 = 1 << 32;
/// No payload at the far end passes this.
pub const ADDRESS_LIMIT: u128 = 1 << 64;

/// The waits of an RNR's low five bits, in units of `RNR_UNIT`.
pub const RNR_WAITS: [u64; 32] = [
    65536, 1, 2, 3, 4, 6, 8, 12, 16, 24, 32, 48, 64, 96, 128, 192, //
    256, 384, 512, 768, 1024, 1536, 2048, 3072, 4096, 6144, 8192, 12288, 16384, 24576, 32768, 49152,
];
/// One unit of those waits, in ns.
pub const RNR_UNIT: u64 = 10_000;
/// The longest of those waits, in ns.
pub const LONGEST_HOLD: u64 = 655_360_000;

/// Bytes that a line of a trace may have, its newline not counted.
pub const LINE_BYTES: usize = 20_000;
/// Lengths of the lent buffers before the first line.
pub const FIRST_ROOM: (usize, usize) = (3072, 512);
/// The longest buffers that a trace may ask for.
pub const MOST_ROOM: (u64, u64) = (8192, 2048);
