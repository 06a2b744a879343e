//! What holds of the tables after every call, tested on this representation.

use crate::card::Card;
use crate::limits::{LONGEST_HOLD, SLOTS};
use crate::pair::{Packet, Pair};
use crate::psn::Psn;

/// The first thing that does not hold, if any.
pub type Finding = Result<(), String>;

fn holds(fine: bool, what: &str) -> Finding {
    if fine {
        Ok(())
    } else {
        Err(what.to_string())
    }
}

pub fn check(card: &Card) -> Finding {
    slots_once(card)?;
    holds(card.claimed() <= SLOTS, "shares and held packets sum to more than the slots")?;
    for (number, pair) in card.pairs.iter().enumerate() {
        if let Some(pair) = pair {
            let finding = if pair.ended { ended(pair) } else { ready(pair) };
            finding.map_err(|what| format!("pair {number}: {what}"))?;
        }
    }
    Ok(())
}

/// Each slot is held by one packet or free, once.
fn slots_once(card: &Card) -> Finding {
    let held = card.pairs.iter().flatten().flat_map(|pair| pair.packets.iter().map(|packet| packet.slot));
    let mut all: Vec<u16> = held.chain(card.free.iter().copied()).collect();
    all.sort_unstable();
    holds(all.iter().copied().eq(0..SLOTS as u16), "a slot is missing or stands twice")
}

fn ended(pair: &Pair) -> Finding {
    settings(pair)?;
    holds(pair.packets.is_empty(), "an ended pair holds packets")?;
    let at_given = [pair.oldest, pair.next, pair.fresh].iter().all(|&psn| psn == pair.given);
    holds(at_given, "an ended pair's PSNs are not all N")?;
    holds(pair.elapsed == 0 && pair.hold == 0, "an ended pair's clock runs")
}

fn ready(pair: &Pair) -> Finding {
    settings(pair)?;
    row(pair)?;
    order(pair)?;
    messages(pair)?;
    clock(pair)
}

fn settings(pair: &Pair) -> Finding {
    let settings = &pair.settings;
    holds((1..=settings.ceiling).contains(&settings.share), "share out of range")?;
    holds(settings.ceiling <= SLOTS, "ceiling out of range")?;
    holds(pair.held() <= settings.ceiling, "more held than the ceiling")?;
    let counts = pair.retries_left <= settings.retry && pair.rnr_left <= settings.rnr_retry;
    holds(counts, "a count left is over its setting")
}

/// The packets stand one after another from U to N.
fn row(pair: &Pair) -> Finding {
    let (Some(first), Some(last)) = (pair.packets.front(), pair.packets.back()) else {
        return holds(pair.oldest == pair.given, "nothing held, but U is not N");
    };
    let answered = first.psn.distance(pair.oldest);
    holds(answered < first.numbers(), "the first packet does not stand at U")?;
    let joined =
        pair.packets.iter().zip(pair.packets.iter().skip(1)).all(|(one, next)| one.end() == next.psn);
    holds(joined, "a packet does not start where the one before ends")?;
    holds(last.end() == pair.given, "the last packet does not end at N")
}

/// U, X, H, N in order, X and H on borders.
fn order(pair: &Pair) -> Finding {
    let from_oldest = |psn: Psn| pair.oldest.distance(psn);
    let [next, fresh, given] = [pair.next, pair.fresh, pair.given].map(from_oldest);
    holds(next <= fresh && fresh <= given, "U, X, H, N out of order")?;
    holds(given <= Psn::REACH, "N too far from U")?;
    let on_border = |psn: Psn| {
        psn == pair.oldest || psn == pair.given || pair.packets.iter().any(|packet| packet.psn == psn)
    };
    holds(on_border(pair.next) && on_border(pair.fresh), "X or H inside a packet's numbers")?;
    let partly_answered = pair.packets.front().filter(|first| first.psn != pair.oldest);
    let past = partly_answered.is_none_or(|first| from_oldest(first.end()) <= fresh);
    holds(past, "H not past a read partly answered")
}

/// Each message's packets are its whole split, the first message's perhaps only the rear of it.
fn messages(pair: &Pair) -> Finding {
    let starts = |packet: &Packet| packet.place == 0;
    for (one, next) in pair.packets.iter().zip(pair.packets.iter().skip(1)) {
        let goes_on = next.place == one.place + 1 && next.message == one.message;
        let fits = if one.ends_message() { starts(next) } else { goes_on };
        holds(fits, "a message is not its whole split")?;
    }
    let whole = pair.packets.back().is_none_or(Packet::ends_message);
    holds(whole, "the last message is cut off")?;
    let cut_at_pmtu = pair.packets.iter().all(|packet| packet.message.pmtu == pair.settings.pmtu);
    holds(cut_at_pmtu, "a message is not cut at the pair's PMTU")?;
    let known_places = pair.packets.iter().all(|packet| (packet.place as usize) < packet.message.slots());
    holds(known_places, "a packet stands past its message's end")?;
    let within_ceiling = pair.packets.iter().all(|packet| packet.message.slots() <= pair.settings.ceiling);
    holds(within_ceiling, "a message has more slots than the ceiling")
}

fn clock(pair: &Pair) -> Finding {
    holds(pair.hold <= LONGEST_HOLD, "hold too long")?;
    let runs = pair.oldest != pair.fresh && pair.hold == 0;
    let limit = pair.settings.timeout().filter(|_| runs).unwrap_or(1);
    holds(pair.elapsed < limit, "elapsed time too long")
}
