//! Random traces that go deep: a model card runs along, so that calls can be aimed at its state.

mod aim;
mod damage;
mod draft;
mod frames;
mod numbers;
mod opening;
mod stage;

use std::collections::VecDeque;
use std::io::{self, Write};

use crate::limits::{FIRST_ROOM, LINE_BYTES, MOST_ROOM, RECORD_BYTES, SLOTS};
use crate::trace::Trace;
use crate::words::Line;
use draft::Draft;
use numbers::Numbers;
use stage::{Mood, Range, Stage};

/// Writes so many lines of a trace; the same seed gives the same lines.
pub fn write(seed: u64, lines: u64, output: impl Write) -> io::Result<()> {
    write_lines(Generator::new(seed), lines, output)
}

/// The same of a wider range of traces.
pub fn write_wide(seed: u64, lines: u64, output: impl Write) -> io::Result<()> {
    write_lines(Generator::wide(seed), lines, output)
}

fn write_lines(mut generator: Generator, lines: u64, mut output: impl Write) -> io::Result<()> {
    for _ in 0..lines {
        let (line, _) = generator.next_line();
        output.write_all(&line)?;
        output.write_all(b"\n")?;
    }
    output.flush()
}

/// What the next line is about.
#[derive(Clone, Copy)]
enum Topic {
    Pair,
    Show,
    Free,
    Room,
    Write,
    Read,
    Fresh,
    Damaged,
}

pub struct Generator {
    range: Range,
    numbers: Numbers,
    model: Trace,
    stage: Stage,
    /// Lines that a new stage begins with.
    waiting: VecDeque<Draft>,
}

impl Generator {
    pub fn new(seed: u64) -> Generator {
        Generator::of(seed, Range::Plain)
    }

    pub fn wide(seed: u64) -> Generator {
        Generator::of(seed, Range::Wide)
    }

    fn of(seed: u64, range: Range) -> Generator {
        let mut numbers = Numbers::new(seed);
        let stage = Stage::new(&mut numbers, range);
        Generator { range, numbers, model: Trace::default(), stage, waiting: VecDeque::new() }
    }

    /// The tables after the lines so far.
    pub fn model(&self) -> &Trace {
        &self.model
    }

    /// The next line without its newline, and what it writes.
    pub fn next_line(&mut self) -> (Vec<u8>, String) {
        if self.stage.is_over() {
            self.stage = Stage::new(&mut self.numbers, self.range);
            self.clear_the_stage();
        }
        self.stage.lines_left -= 1;
        let line = self.line();
        let read = if line.len() > LINE_BYTES { Line::TooLong } else { Line::Whole(&line) };
        let answer = self.model.next(read);
        (line, answer)
    }

    /// Closes most of the pairs that the new stage has no part for.
    fn clear_the_stage(&mut self) {
        if self.numbers.one_in(4) {
            self.waiting.push_back(Draft::new("fresh", []));
            return;
        }
        for pair in 0..self.model.card.pairs.len() {
            let idle = !self.stage.pairs.contains(&(pair as u64)) && self.model.card.pairs[pair].is_some();
            if idle && !self.numbers.one_in(4) {
                self.waiting.push_back(Draft::new("close", [pair as u64]));
            }
        }
    }

    fn line(&mut self) -> Vec<u8> {
        if let Some(draft) = self.waiting.pop_front() {
            return draft.line();
        }
        let mut draft = match self.topic() {
            Topic::Damaged => return self.damaged(),
            Topic::Read => return frames::read(&mut self.numbers),
            Topic::Write => frames::write(&mut self.numbers),
            Topic::Fresh => Draft::new("fresh", []),
            Topic::Free => Draft::new("free", []),
            Topic::Show => Draft::new("show", [self.stage.pair]),
            Topic::Room => self.room(),
            Topic::Pair => self.pair_call(),
        };
        if self.numbers.one_in(self.lines_to_a_border(&draft)) {
            damage::to_a_border(&mut self.numbers, &mut draft);
        }
        if self.numbers.one_in(30) {
            return damage::restyled(&mut self.numbers, &draft);
        }
        draft.line()
    }

    /// One line in so many has an argument at a border.
    fn lines_to_a_border(&self, draft: &Draft) -> u64 {
        match self.range {
            Range::Plain => 40,
            Range::Wide if self.stage.mood == Mood::Doors && draft.name == "open" => 2,
            Range::Wide => 15,
        }
    }

    fn topic(&mut self) -> Topic {
        let short_of_room = self.model.bytes < FIRST_ROOM.0 || self.model.numbers < FIRST_ROOM.1;
        let topics = [
            (700, Topic::Pair),
            (130, Topic::Show),
            (25, Topic::Free),
            (if short_of_room { 60 } else { 6 }, Topic::Room),
            (30, Topic::Write),
            (40, Topic::Read),
            (1, Topic::Fresh),
            (20, Topic::Damaged),
        ];
        self.numbers.weighted(&topics)
    }

    fn pair_call(&mut self) -> Draft {
        if self.numbers.one_in(6) {
            self.stage.pair = self.numbers.pick(&self.stage.pairs);
        }
        self.leave_a_pair_without_room();
        let card = &self.model.card;
        match &card.pairs[self.stage.pair as usize] {
            Some(pair) if !pair.ended => aim::call(&mut self.numbers, &self.stage, card, pair),
            other => opening::call(&mut self.numbers, &self.stage, card, other.is_some()),
        }
    }

    /// A full card opens no pair: mostly goes on with one that is open.
    fn leave_a_pair_without_room(&mut self) {
        let card = &self.model.card;
        let full = card.claimed() == SLOTS && card.pairs[self.stage.pair as usize].is_none();
        if full && !self.numbers.one_in(8) {
            let open: Vec<u64> =
                (0..).zip(&card.pairs).filter(|(_, pair)| pair.is_some()).map(|(at, _)| at).collect();
            self.stage.pair = self.numbers.pick(&open);
        }
    }

    /// Short buffers now and then, and soon long enough ones again.
    fn room(&mut self) -> Draft {
        let (bytes, numbers) = (FIRST_ROOM.0 as u64, FIRST_ROOM.1 as u64);
        let lengths = match self.numbers.below(8) {
            0 => [self.numbers.near(RECORD_BYTES as u64), numbers],
            1 => [self.numbers.near(bytes), self.numbers.near(numbers)],
            2 => [bytes, numbers - 1],
            3 => [self.numbers.near(MOST_ROOM.0), self.numbers.near(MOST_ROOM.1)],
            4 => [self.numbers.below(bytes), numbers],
            _ => [bytes, numbers],
        };
        Draft::new("room", lengths)
    }

    fn damaged(&mut self) -> Vec<u8> {
        let draft = self.pair_call();
        damage::damaged(&mut self.numbers, &draft)
    }
}
