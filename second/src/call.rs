//! A line as a call.

use crate::limits::MOST_ROOM;
use crate::message::PostArguments;
use crate::pair::OpenArguments;
use crate::wire::FIELDS;
use crate::words::{hex, number, words};

/// One call, its numbers of any width.
pub enum Call {
    Fresh,
    Open { pair: u64, settings: OpenArguments },
    Post { pair: u64, post: PostArguments },
    Emit { pair: u64, budget: u64 },
    Ack { pair: u64, psn: u64, syndrome: u64 },
    Response { pair: u64, psn: u64, opcode: u64, length: u64 },
    Timer { pair: u64, ns: u64 },
    Close { pair: u64 },
    Room { bytes: usize, numbers: usize },
    Show { pair: u64 },
    Free,
    Write { fields: [u64; FIELDS] },
    Read { frame: Vec<u8> },
}

/// What a line holds.
pub enum Meaning {
    /// Blanks or a comment.
    Nothing,
    Call(Call),
    Unread,
}

pub fn meaning(line: &[u8]) -> Meaning {
    let mut words = words(line);
    match words.next() {
        None => Meaning::Nothing,
        Some(name) if name.starts_with(b"#") => Meaning::Nothing,
        Some(name) => call(name, words).map_or(Meaning::Unread, Meaning::Call),
    }
}

/// Exactly so many numbers, and no word after them.
fn numbers<'a, const COUNT: usize>(mut words: impl Iterator<Item = &'a [u8]>) -> Option<[u64; COUNT]> {
    let mut numbers = [0; COUNT];
    for place in &mut numbers {
        *place = number(words.next()?)?;
    }
    words.next().is_none().then_some(numbers)
}

/// `None` if the line is not read.
fn call<'a>(name: &[u8], mut words: impl Iterator<Item = &'a [u8]>) -> Option<Call> {
    let call = match name {
        b"fresh" => numbers(words).map(|[]| Call::Fresh)?,
        b"open" => open(numbers(words)?),
        b"post" => post(numbers(words)?),
        b"emit" => numbers(words).map(|[pair, budget]| Call::Emit { pair, budget })?,
        b"ack" => numbers(words).map(|[pair, psn, syndrome]| Call::Ack { pair, psn, syndrome })?,
        b"response" => {
            let [pair, psn, opcode, length] = numbers(words)?;
            Call::Response { pair, psn, opcode, length }
        }
        b"timer" => numbers(words).map(|[pair, ns]| Call::Timer { pair, ns })?,
        b"close" => numbers(words).map(|[pair]| Call::Close { pair })?,
        b"room" => room(numbers(words)?)?,
        b"show" => numbers(words).map(|[pair]| Call::Show { pair })?,
        b"free" => numbers(words).map(|[]| Call::Free)?,
        b"write" => Call::Write { fields: numbers(words)? },
        b"read" => {
            let frame = hex(words.next()?)?;
            words.next().is_none().then_some(Call::Read { frame })?
        }
        _ => return None,
    };
    Some(call)
}

fn open([pair, far, psn, pkey, pmtu, share, ceiling, retry, rnr_retry, timeout]: [u64; 10]) -> Call {
    let settings = OpenArguments { far, psn, pkey, pmtu, share, ceiling, retry, rnr_retry, timeout };
    Call::Open { pair, settings }
}

fn post([pair, ticket, kind, has_immediate, value, fence, length, offset, address, key]: [u64; 10]) -> Call {
    let post = PostArguments { ticket, kind, has_immediate, value, fence, length, offset, address, key };
    Call::Post { pair, post }
}

fn room([bytes, numbers]: [u64; 2]) -> Option<Call> {
    let fits = bytes <= MOST_ROOM.0 && numbers <= MOST_ROOM.1;
    fits.then_some(Call::Room { bytes: bytes as usize, numbers: numbers as usize })
}
