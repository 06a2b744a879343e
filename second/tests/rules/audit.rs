//! The invariants' check: it passes what calls leave, and finds each kind of damage.

use second::audit::check;
use second::card::Card;
use second::pair::Pair;
use second::psn::Psn;
use second::trace::Trace;
use second::words::Line;

/// Pair 0 has a read partly answered, a Send of three packets and a Write, H before the Write; pair 1 is ended.
const TABLES: &str = "open 0 1 16777214 1 1 8 10 3 3 1
    post 0 1 2 0 0 0 1000 0 0 0
    post 0 2 0 0 0 0 600 0 0 0
    post 0 3 1 0 0 0 100 0 0 0
    emit 0 4
    response 0 16777214 13 256
    timer 0 100
    open 1 1 5 1 1 8 10 3 3 1
    post 1 4 0 0 0 0 1 0 0 0
    emit 1 1
    ack 1 5 99";

fn tables(lines: &str) -> Card {
    let mut trace = Trace::default();
    for line in lines.lines() {
        let answer = trace.next(Line::Whole(line.as_bytes()));
        assert!(!answer.starts_with("refused") && !answer.starts_with("unread"), "{line}");
    }
    trace.card
}

/// The check passes before the damage and names it after.
fn found(expected: &str, damage: impl FnOnce(&mut Card)) {
    let mut card = tables(TABLES);
    assert_eq!(check(&card), Ok(()));
    damage(&mut card);
    let finding = check(&card).expect_err(expected);
    assert!(finding.ends_with(expected), "found {finding:?}, not {expected:?}");
}

fn found_in_pair(number: usize, expected: &str, damage: impl FnOnce(&mut Pair)) {
    found(expected, |card| damage(card.pairs[number].as_mut().expect("an open pair")));
}

fn psn(number: u64) -> Psn {
    Psn::new(number).expect("24 bits")
}

#[test]
fn a_fresh_card_passes() {
    assert_eq!(check(&Card::fresh()), Ok(()));
}

#[test]
fn slots() {
    let expected = "a slot is missing or stands twice";
    found(expected, |card| card.free.truncate(100));
    found(expected, |card| card.free.push_back(0));
    found(expected, |card| card.free[3] = card.free[4]);
    found(expected, |card| card.free.push_back(256));
    found_in_pair(0, expected, |pair| pair.packets[1].slot = 200);
    found("shares and held packets sum to more than the slots", |card| {
        card.pairs[0].as_mut().expect("open").settings.share = 249;
    });
}

#[test]
fn settings_and_counts() {
    found_in_pair(0, "share out of range", |pair| pair.settings.share = 0);
    found_in_pair(0, "share out of range", |pair| pair.settings.share = 11);
    found_in_pair(1, "ceiling out of range", |pair| pair.settings.ceiling = 257);
    found_in_pair(0, "more held than the ceiling", |pair| {
        pair.settings.share = 4;
        pair.settings.ceiling = 4;
    });
    found_in_pair(0, "a count left is over its setting", |pair| pair.retries_left = 4);
    found_in_pair(1, "a count left is over its setting", |pair| pair.rnr_left = 4);
}

#[test]
fn an_ended_pair() {
    found_in_pair(0, "an ended pair holds packets", |pair| pair.ended = true);
    found_in_pair(1, "an ended pair's PSNs are not all N", |pair| pair.oldest = psn(5));
    found_in_pair(1, "an ended pair's PSNs are not all N", |pair| pair.next = psn(5));
    found_in_pair(1, "an ended pair's PSNs are not all N", |pair| pair.fresh = psn(7));
    found_in_pair(1, "an ended pair's clock runs", |pair| pair.elapsed = 1);
    found_in_pair(1, "an ended pair's clock runs", |pair| pair.hold = 1);
}

#[test]
fn the_row_from_u_to_n() {
    found_in_pair(1, "nothing held, but U is not N", |pair| {
        pair.ended = false;
        pair.given = psn(7);
    });
    found_in_pair(0, "the first packet does not stand at U", |pair| pair.oldest = psn(2));
    found_in_pair(0, "the first packet does not stand at U", |pair| pair.oldest = psn(16_777_213));
    found_in_pair(0, "a packet does not start where the one before ends", |pair| {
        pair.packets[2].psn = psn(9);
    });
    found_in_pair(0, "the last packet does not end at N", |pair| pair.given = psn(7));
}

#[test]
fn the_order_of_psns() {
    found_in_pair(0, "U, X, H, N out of order", |pair| pair.next = psn(6));
    found_in_pair(0, "U, X, H, N out of order", |pair| pair.fresh = psn(7));
    found_in_pair(0, "U, X, H, N out of order", |pair| pair.next = psn(16_777_214));
    found_in_pair(0, "X or H inside a packet's numbers", |pair| pair.next = psn(0));
    found_in_pair(0, "H not past a read partly answered", |pair| {
        pair.next = pair.oldest;
        pair.fresh = pair.oldest;
    });
    found_in_pair(0, "N too far from U", |pair| {
        // The read ends at the same place, but starts half the range before it.
        let read = &mut pair.packets[0];
        read.message.length = 8_388_610 * 256;
        read.psn = psn(2).plus(Psn::COUNT - 8_388_610);
        pair.oldest = read.psn;
    });
}

#[test]
fn messages_and_their_splits() {
    found_in_pair(0, "a message is not its whole split", |pair| pair.packets[2].place = 2);
    found_in_pair(0, "a message is not its whole split", |pair| pair.packets[1].place = 1);
    found_in_pair(0, "a message is not its whole split", |pair| pair.packets[2].message.ticket = 9);
    found_in_pair(0, "the last message is cut off", |pair| pair.packets[4].message.length = 257);
    found_in_pair(0, "a message is not cut at the pair's PMTU", |pair| pair.settings.pmtu = 512);
    found_in_pair(0, "a packet stands past its message's end", |pair| pair.packets[0].place = 1);
}

#[test]
fn a_message_over_the_ceiling() {
    // Of a message of 8 packets only the last is still held.
    let rear = "open 0 1 5 1 1 1 8 3 3 1\npost 0 1 0 0 0 0 2048 0 0 0\nemit 0 8\nack 0 11 31";
    let mut card = tables(rear);
    let pair = card.pairs[0].as_mut().expect("open");
    pair.settings.ceiling = 7;
    let expected = "pair 0: a message has more slots than the ceiling";
    assert_eq!(check(&card), Err(expected.to_string()));
}

#[test]
fn the_clock() {
    found_in_pair(0, "hold too long", |pair| pair.hold = 655_360_001);
    found_in_pair(0, "elapsed time too long", |pair| pair.hold = 1);
    found_in_pair(0, "elapsed time too long", |pair| pair.elapsed = 8192);
    found_in_pair(0, "elapsed time too long", |pair| pair.settings.timeout_code = 0);
}
