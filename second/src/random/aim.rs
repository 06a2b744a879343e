//! Calls on a ready pair, aimed at its PSNs, its room and its clock.

use super::draft::Draft;
use super::numbers::Numbers;
use super::stage::{Mood, Stage};
use crate::card::Card;
use crate::limits::{BUDGETS, SLOTS};
use crate::message::Kind;
use crate::opcode;
use crate::pair::{Packet, Pair};
use crate::psn::Psn;

#[derive(Clone, Copy)]
enum Choice {
    Post,
    Emit,
    Ack,
    Response,
    Timer,
    Close,
    Open,
}

pub fn call(numbers: &mut Numbers, stage: &Stage, card: &Card, pair: &Pair) -> Draft {
    let number = stage.pair;
    match choice(numbers, stage, pair) {
        Choice::Post => post(numbers, stage, card, pair),
        Choice::Emit => Draft::new("emit", [number, budget(numbers)]),
        Choice::Ack => Draft::new("ack", [number, target(numbers, pair), syndrome(numbers, stage)]),
        Choice::Response => {
            let [psn, opcode, length] = response(numbers, pair);
            Draft::new("response", [number, psn, opcode, length])
        }
        Choice::Timer => Draft::new("timer", [number, step(numbers, pair)]),
        Choice::Close => Draft::new("close", [number]),
        Choice::Open => Draft::new("open", [number, 1, 1, 1, 1, 1, 1, 1, 1, 1]),
    }
}

/// What may be of use in this state, now and then something that is not.
fn choice(numbers: &mut Numbers, stage: &Stage, pair: &Pair) -> Choice {
    let useful = |is_useful: bool, weight: u64| if is_useful { weight } else { 20 };
    let trouble = stage.mood == Mood::Trouble;
    let many = stage.mood == Mood::Many;
    let has_room = pair.held() < pair.settings.ceiling;
    let awaits = pair.oldest != pair.fresh;
    let emitted_read = emitted_reads(pair).next().is_some();
    let read_in_front = pair.packets.front().is_some_and(Packet::is_read);
    // A read of millions of PSNs is never answered to its end.
    let stuck = pair.packets.iter().any(|packet| packet.numbers() > 1000);
    let acks = if many && has_room { 6 } else { 220 };
    let posts = if many { 900 } else { 220 };
    let timers = if many { 6 } else { 60 };
    let closes = if stage.mood == Mood::Doors { 150 } else { 3 };
    numbers.weighted(&[
        (useful(has_room, posts), Choice::Post),
        (useful(pair.next != pair.given && pair.hold == 0, 240), Choice::Emit),
        (useful(awaits, if trouble || read_in_front { 100 } else { acks }), Choice::Ack),
        (useful(emitted_read, 260), Choice::Response),
        (if trouble || pair.hold > 0 { 180 } else { timers }, Choice::Timer),
        (if stuck { closes.max(15) } else { closes }, Choice::Close),
        (2, Choice::Open),
    ])
}

fn budget(numbers: &mut Numbers) -> u64 {
    let most = *BUDGETS.end();
    let some = numbers.within(1..=8);
    let any = numbers.within(BUDGETS);
    numbers.weighted(&[(50, some), (10, any), (8, most), (1, 0), (1, most + 1)])
}

fn post(numbers: &mut Numbers, stage: &Stage, card: &Card, pair: &Pair) -> Draft {
    let reads = match stage.mood {
        Mood::Reads => 6,
        Mood::Many => 0,
        _ => 2,
    };
    let kind = numbers.weighted(&[(4, Kind::Send), (3, Kind::Write), (reads, Kind::Read)]);
    let length = match kind {
        Kind::Read => read_length(numbers, pair),
        Kind::Send | Kind::Write => sent_length(numbers, stage, card, pair),
    };
    let ticket = if numbers.one_in(20) { numbers.bits(32) } else { numbers.within(1..=9999) };
    let immediate = kind != Kind::Read && numbers.one_in(3) || numbers.one_in(150);
    let value = if numbers.one_in(30) { numbers.any() } else { numbers.bits(32) };
    let offset = below_a_limit(numbers, 1 << 32, length);
    let address = below_a_limit(numbers, 1 << 64, length);
    let arguments = [
        stage.pair,
        ticket,
        kind as u64,
        immediate.into(),
        value,
        numbers.one_in(8).into(),
        length,
        offset,
        address,
        numbers.bits(32),
    ];
    Draft::new("post", arguments)
}

/// Anywhere that leaves room for the length, or just at the limit, or one over it.
fn below_a_limit(numbers: &mut Numbers, limit: u128, length: u64) -> u64 {
    let most = limit - u128::from(length).min(limit);
    let place = match numbers.below(40) {
        0..=2 => most,
        3 => most + 1,
        4..=8 => 0,
        _ => u128::from(numbers.any()) % (most + 1),
    };
    u64::try_from(place).unwrap_or(u64::MAX)
}

/// A length that takes so many packets, often at a border.
fn length_of(numbers: &mut Numbers, packets: u64, pmtu: u64) -> u64 {
    let tail = match numbers.below(5) {
        0 => 1,
        1 => pmtu - 1,
        2 => pmtu,
        _ => numbers.within(1..=pmtu),
    };
    (packets.max(1) - 1) * pmtu + tail
}

fn sent_length(numbers: &mut Numbers, stage: &Stage, card: &Card, pair: &Pair) -> u64 {
    let ceiling = pair.settings.ceiling as u64;
    let to_ceiling = ceiling - pair.held() as u64;
    let others = (card.claimed() - pair.claim(pair.held())) as u64;
    let to_sum = (SLOTS as u64).saturating_sub(others + pair.held() as u64);
    let long = if stage.mood == Mood::Crowded { 30 } else { 5 };
    let few = numbers.within(2..=4);
    let some = numbers.within(1..=to_ceiling.max(1));
    let packets = numbers.weighted(&[
        (if stage.mood == Mood::Many { 4000 } else { 45 }, 1),
        (30, few),
        (long, some),
        (long, to_ceiling),
        (2, to_ceiling + 1),
        (long, to_sum),
        (2, to_sum + 1),
        (1, ceiling + 1),
    ]);
    match numbers.below(60) {
        0 => numbers.near((1 << 31) - 1),
        1..=5 => 0,
        _ => length_of(numbers, packets, pair.settings.pmtu.into()),
    }
}

fn read_length(numbers: &mut Numbers, pair: &Pair) -> u64 {
    let left = u64::from(Psn::REACH - pair.oldest.distance(pair.given));
    let packets = match numbers.below(60) {
        0 => left,
        1 => left + 1,
        2 => numbers.bits(23),
        3..=8 => return 0,
        9..=12 => numbers.within(5..=40),
        13 => return (1 << 31) - 1,
        _ => numbers.within(1..=4),
    };
    length_of(numbers, packets, pair.settings.pmtu.into()).min((1 << 31) - 1)
}

fn before(psn: Psn) -> Psn {
    psn.plus(Psn::COUNT - 1)
}

/// A PSN at, before or past the borders of the open range, of X, and of the packets held.
fn target(numbers: &mut Numbers, pair: &Pair) -> u64 {
    let open = pair.oldest.distance(pair.fresh).max(1);
    let first_read = pair.packets.iter().position(Packet::is_read);
    let reachable = first_read.map_or(pair.fresh, |index| pair.unanswered(index));
    let useful = if reachable == pair.oldest { reachable } else { before(reachable) };
    let held = numbers.below(pair.held().max(1) as u64) as usize;
    let start = pair.packets.get(held).map_or(pair.given, |packet| packet.psn);
    let inside = pair.oldest.plus(numbers.below(open.into()) as u32);
    let any = pair.oldest.plus(numbers.bits(Psn::BITS) as u32);
    let psn = numbers.weighted(&[
        (30, pair.oldest),
        (25, useful),
        (8, reachable),
        (10, before(pair.fresh)),
        (4, pair.fresh),
        (4, before(pair.oldest)),
        (4, pair.next),
        (4, before(pair.next)),
        (2, pair.given),
        (10, start),
        (15, inside),
        (2, any),
    ]);
    psn.number().into()
}

fn syndrome(numbers: &mut Numbers, stage: &Stage) -> u64 {
    let trouble = if stage.mood == Mood::Trouble { 40 } else { 8 };
    let low = numbers.below(32);
    let any = numbers.below(256);
    let at_borders = if stage.mood == Mood::Doors { 30 } else { 0 };
    numbers.weighted(&[
        (60, low),
        (trouble, 32 + low),
        (8, 96),
        (2, 97),
        (2, 98),
        (1, 99),
        (2, any),
        (at_borders, 94 + low % 8),
    ])
}

/// The reads held that H is past.
fn emitted_reads(pair: &Pair) -> impl Iterator<Item = usize> + '_ {
    let emitted = |index: &usize| pair.packets[*index].is_read() && pair.awaits(pair.unanswered(*index));
    (0..pair.held()).filter(emitted)
}

/// A response opcode, or one just outside their range.
pub fn around_responses(numbers: &mut Numbers) -> u64 {
    numbers.within(opcode::READ_RESPONSES.start() - 1..=opcode::READ_RESPONSES.end() + 1)
}

/// Mostly the response that the first read awaits next.
fn response(numbers: &mut Numbers, pair: &Pair) -> [u64; 3] {
    let reads: Vec<usize> = emitted_reads(pair).collect();
    let Some(&first) = reads.first() else {
        return [target(numbers, pair), numbers.within(opcode::READ_RESPONSES), numbers.below(300)];
    };
    let index = if numbers.one_in(8) { numbers.pick(&reads) } else { first };
    let read = &pair.packets[index];
    let count = read.numbers();
    let due = read.psn.distance(pair.unanswered(index));
    let any = numbers.below(count.into()) as u32;
    let place = numbers.weighted(&[
        (60, due),
        (4, due + 1),
        (4, count - 1),
        (3, any),
        (2, count),
        (2, due.saturating_sub(1)),
    ]);
    let [opcode, length] = fitting(numbers, read, place.min(count - 1));
    [read.psn.plus(place).number().into(), opcode, length]
}

/// Mostly the opcode and the length that a read's place wants.
fn fitting(numbers: &mut Numbers, read: &Packet, place: u32) -> [u64; 2] {
    let right = if read.message.is_last(place) {
        [opcode::READ_RESPONSE_LAST, opcode::READ_RESPONSE_ONLY]
    } else {
        [opcode::READ_RESPONSE_FIRST, opcode::READ_RESPONSE_MIDDLE]
    };
    let opcode = if numbers.one_in(25) { around_responses(numbers) } else { numbers.pick(&right).into() };
    let payload = u64::from(read.message.payload_at(place));
    let length = if numbers.one_in(25) { numbers.near(payload) } else { payload };
    [opcode, length]
}

/// A step that just reaches the end of the hold or the timeout, or just does not.
fn step(numbers: &mut Numbers, pair: &Pair) -> u64 {
    let most = u64::from(u32::MAX);
    let left = match pair.settings.timeout() {
        _ if pair.hold > 0 => pair.hold,
        Some(timeout) => (timeout - pair.elapsed).min(most),
        None => 100_000,
    };
    let part = numbers.within(0..=left);
    numbers.weighted(&[(4, left), (3, left - 1), (2, left + 1), (3, part), (1, 0), (1, most)])
}
