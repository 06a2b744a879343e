//! A trace carried out on one card, answers written.

use std::fmt::Write as _;
use std::io::{self, BufRead, Write};

use crate::answer::Refusal;
use crate::audit;
use crate::call::{meaning, Call, Meaning};
use crate::card::Card;
use crate::emission::Record;
use crate::limits::FIRST_ROOM;
use crate::message::narrow;
use crate::pair::Pair;
use crate::wire::{self, Frame, Header, FIELDS};
use crate::words::{to_hex, Line, Lines};

/// The tables, and the lengths of the lent buffers.
pub struct Trace {
    pub card: Card,
    pub bytes: usize,
    pub numbers: usize,
    line: u64,
}

impl Default for Trace {
    fn default() -> Trace {
        let (bytes, numbers) = FIRST_ROOM;
        Trace { card: Card::fresh(), bytes, numbers, line: 0 }
    }
}

impl Trace {
    /// What the next line of the input writes; nothing for blanks and comments.
    pub fn next(&mut self, line: Line) -> String {
        self.line += 1;
        let meaning = match line {
            Line::Whole(text) => meaning(text),
            Line::TooLong => Meaning::Unread,
        };
        match meaning {
            Meaning::Nothing => String::new(),
            Meaning::Unread => format!("unread {}\n", self.line),
            Meaning::Call(call) => {
                let answer = self.carry_out(call);
                debug_assert_eq!(audit::check(&self.card), Ok(()), "line {}", self.line);
                answer.unwrap_or_else(|refusal| format!("refused {}", refusal.number())) + "\n"
            }
        }
    }

    fn carry_out(&mut self, call: Call) -> Result<String, Refusal> {
        let Trace { card, bytes, numbers, .. } = self;
        Ok(match call {
            Call::Fresh => {
                *card = Card::fresh();
                "done".to_string()
            }
            Call::Open { pair, settings } => card.open(pair, &settings)?.to_string(),
            Call::Post { pair, post } => format!("first {}", card.post(pair, &post)?.number()),
            Call::Emit { pair, budget } => emitted(&card.emit(pair, budget, *bytes)?),
            Call::Ack { pair, psn, syndrome } => card.ack(pair, psn, syndrome, *numbers)?.to_string(),
            Call::Response { pair, psn, opcode, length } => {
                card.response(pair, psn, opcode, length, *numbers)?.to_string()
            }
            Call::Timer { pair, ns } => card.timer(pair, ns, *numbers)?.to_string(),
            Call::Close { pair } => card.close(pair, *numbers)?.to_string(),
            Call::Room { bytes: new_bytes, numbers: new_numbers } => {
                (*bytes, *numbers) = (new_bytes, new_numbers);
                "room".to_string()
            }
            Call::Show { pair } => shown(pair, card.pair(pair)?),
            Call::Free => joined("free", &card.free),
            Call::Write { fields } => written(fields)?,
            Call::Read { frame } => read(&wire::read(&frame)?),
        })
    }
}

/// `first` and each of the others after a space.
fn joined(first: &str, others: impl IntoIterator<Item = impl ToString>) -> String {
    others.into_iter().fold(first.to_string(), |line, other| line + " " + &other.to_string())
}

fn emitted(records: &[Record]) -> String {
    let first = format!("emitted {}", records.len());
    records.iter().fold(first, |text, record| text + "\nrecord " + &to_hex(record))
}

fn shown(number: u64, pair: Option<&Pair>) -> String {
    let Some(pair) = pair else {
        return format!("pair {number} closed");
    };
    let state = if pair.ended { "ended" } else { "ready" };
    let mut text = format!("pair {number} {state}");
    for psn in [pair.oldest, pair.next, pair.fresh, pair.given] {
        let _ = write!(text, " {}", psn.number());
    }
    let _ = write!(text, " {} {} {}", pair.held(), pair.retries_left, pair.rnr_left);
    let _ = write!(text, " {} {}", pair.elapsed, pair.hold);
    for packet in &pair.packets {
        let (slot, psn, ticket) = (packet.slot, packet.psn.number(), packet.message.ticket);
        let _ = write!(text, " {slot}/{psn}/{ticket}/{}/{}", packet.offset(), packet.length());
    }
    text
}

/// A number too wide for its field is refusal 3, before the writer's own refusals.
fn written(fields: [u64; FIELDS]) -> Result<String, Refusal> {
    let byte = |number| u8::try_from(number).map_err(|_| Refusal::OutOfRange);
    let [opcode, pad, pkey, far, psn, address, key, length, value, syndrome, msn] = fields;
    let header = Header {
        opcode: byte(opcode)?,
        pad: byte(pad)?,
        pkey: u16::try_from(pkey).map_err(|_| Refusal::OutOfRange)?,
        far: narrow(far)?,
        psn: narrow(psn)?,
        address,
        key: narrow(key)?,
        length: narrow(length)?,
        immediate: narrow(value)?,
        syndrome: byte(syndrome)?,
        msn: narrow(msn)?,
    };
    let written = wire::write(&header)?;
    Ok(format!("header {} {}", written.length, to_hex(&written.bytes)))
}

fn read(frame: &Frame) -> String {
    joined("frame", frame.header.fields()) + &format!(" {} {}", frame.header_length, frame.payload_length)
}

/// Reads a whole trace and writes its answers.
pub fn run(input: impl BufRead, mut output: impl Write) -> io::Result<()> {
    let mut lines = Lines::new(input);
    let mut trace = Trace::default();
    while let Some(line) = lines.next_line()? {
        output.write_all(trace.next(line).as_bytes())?;
    }
    output.flush()
}

/// The answers to a trace at hand.
pub fn answers(input: impl AsRef<[u8]>) -> String {
    let mut output = Vec::new();
    run(input.as_ref(), &mut output).expect("memory does not fail");
    String::from_utf8(output).expect("answers are plain text")
}
