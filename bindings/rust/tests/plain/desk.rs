//! The scope paper's desk, by brute force: a round makes each seat's whole list of pairs and drops those up to its mark.

use super::{account_of, joined, kind_told, pair_words, written, Set, ACCOUNT, IMAGE};
use sasnuvarth::raw::{FlatDesk, FlatSeat};

pub const SEAT: u32 = 9;
pub const LIMIT: u32 = 10;
pub const DESK: u32 = 11;

/// What is stored for who asks for limit 0.
const HOUSE_LIMIT: u32 = 8;
/// What may be asked for and stored at most.
const MOST_A_ROUND: u32 = 32;

const CLOSED: FlatSeat = FlatSeat { opened: 0, account: 0, kind: 0, limit: 0, marked: 0, a: 0, d: 0 };

/// A seat as a call tells it: numbers that mean nothing are 0, 1 stands for "not 0", and the kind is one of three.
fn told(s: &FlatSeat) -> FlatSeat {
    match (s.opened, s.marked) {
        (0, _) => CLOSED,
        (_, 0) => FlatSeat { opened: 1, kind: kind_told(s.kind), marked: 0, a: 0, d: 0, ..*s },
        _ => FlatSeat { opened: 1, kind: kind_told(s.kind), marked: 1, ..*s },
    }
}

fn all_told(desk: &FlatDesk) -> FlatDesk {
    FlatDesk { seats: desk.seats.map(|s| told(&s)) }
}

pub fn fits(desk: &FlatDesk) -> bool {
    desk.seats.iter().filter(|s| s.opened != 0).all(|s| {
        let mark = s.marked == 0 || (account_of(s.a) == s.account && account_of(s.d) == s.account);
        s.account <= 15 && s.limit >= 1 && s.limit <= MOST_A_ROUND && mark
    })
}

pub fn open_desk() -> FlatDesk {
    FlatDesk { seats: [CLOSED; 8] }
}

pub fn open_seat(desk: &FlatDesk, i: u32, account: u32, kind: u32, limit: u32) -> (u32, FlatDesk) {
    let number = match () {
        _ if !fits(desk) => DESK,
        _ if i > 7 || desk.seats[i as usize].opened != 0 => SEAT,
        _ if account > 15 => ACCOUNT,
        _ if limit > MOST_A_ROUND => LIMIT,
        _ => 0,
    };
    if number != 0 {
        return (number, *desk);
    }
    let mut after = all_told(desk);
    let limit = if limit == 0 { HOUSE_LIMIT } else { limit };
    after.seats[i as usize] = FlatSeat { opened: 1, account, kind: kind_told(kind), limit, ..CLOSED };
    (0, after)
}

pub fn close_seat(desk: &FlatDesk, i: u32) -> (u32, FlatDesk) {
    let number = match () {
        _ if !fits(desk) => DESK,
        _ if i > 7 || desk.seats[i as usize].opened == 0 => SEAT,
        _ => 0,
    };
    if number != 0 {
        return (number, *desk);
    }
    let mut after = all_told(desk);
    after.seats[i as usize] = CLOSED;
    (0, after)
}

/// The number, the counts, the desk and the buffer after a round. A set is none where its image is not valid.
pub fn round(outer: Option<&Set>, inner: Option<&Set>, desk: &FlatDesk, buffer: &[u32]) -> (u32, [u32; 8], FlatDesk, Vec<u32>) {
    let mut counts = [0; 8];
    let (Some(outer), Some(inner)) = (outer, inner) else {
        return (IMAGE, counts, *desk, buffer.to_vec());
    };
    if !fits(desk) || buffer.len() != 1024 {
        return (DESK, counts, *desk, buffer.to_vec());
    }
    let (mut after, mut words) = (all_told(desk), buffer.to_vec());
    for (i, s) in after.seats.iter_mut().enumerate().filter(|(_, s)| s.opened != 0) {
        let mut pairs = joined(outer, inner, s.account, s.kind);
        pairs.retain(|(a, d)| s.marked == 0 || (d.start, a.start) > (s.d, s.a));
        pairs.truncate(s.limit as usize);
        let part = &mut words[128 * i..128 * (i + 1)];
        let handed = written(part, &pair_words(&pairs));
        part.copy_from_slice(&handed);
        counts[i] = pairs.len() as u32;
        if let Some((a, d)) = pairs.last() {
            *s = FlatSeat { marked: 1, a: a.start, d: d.start, ..*s };
        }
    }
    (0, counts, after, words)
}

/// The number, the first word and how many words of a part.
pub fn part(desk: &FlatDesk, buffer: &[u32], i: u32, count: u32) -> (u32, usize, usize) {
    let number = match () {
        _ if !fits(desk) || buffer.len() != 1024 => DESK,
        _ if i > 7 || desk.seats[i as usize].opened == 0 => SEAT,
        _ if count > desk.seats[i as usize].limit => LIMIT,
        _ => 0,
    };
    if number == 0 { (0, 128 * i as usize, 4 * count as usize) } else { (number, 0, 0) }
}
