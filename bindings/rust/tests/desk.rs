//! Histories of two sets and a desk: every number, count, seat and word of the round buffer compared with the plain definitions.

mod plain;

use plain::chance::{nest, Chance, SHAPES};
use plain::desk::{close_seat, open_desk, open_seat, part, round};
use plain::image::read;
use plain::{account_of, Set, OUTER};
use sasnuvarth::raw::*;
use sasnuvarth::{Desk, Kind, Mark, Refusal, Region, Seat, HOUSE_LIMIT, MOST_A_ROUND};

fn check_open_seat(desk: &FlatDesk, i: u32, account: u32, kind: u32, limit: u32) -> (u32, FlatDesk) {
    let told = unsafe { sasnuvarth_open_seat(*desk, i, account, kind, limit) };
    let right = open_seat(desk, i, account, kind, limit);
    assert_eq!((told.number, told.desk), right, "open seat {i} for {account}, limit {limit}, of {desk:?}");
    right
}

fn check_close_seat(desk: &FlatDesk, i: u32) -> (u32, FlatDesk) {
    let told = unsafe { sasnuvarth_close_seat(*desk, i) };
    let right = close_seat(desk, i);
    assert_eq!((told.number, told.desk), right, "close seat {i} of {desk:?}");
    right
}

fn check_round(outer: &[u32], inner: &[u32], desk: &FlatDesk, buffer: &mut [u32]) -> (u32, [u32; 8], FlatDesk) {
    let (x, y): (Option<Set>, Option<Set>) = (read(outer).map(|r| r.set), read(inner).map(|r| r.set));
    let (number, counts, after, words) = round(x.as_ref(), y.as_ref(), desk, buffer);
    let told = unsafe {
        sasnuvarth_round(outer.as_ptr(), outer.len(), inner.as_ptr(), inner.len(), *desk, buffer.as_mut_ptr(), buffer.len())
    };
    assert_eq!((told.number, told.counts, told.desk), (number, counts, after), "round of {desk:?}");
    assert_eq!(buffer, words);
    (number, counts, after)
}

fn check_part(desk: &FlatDesk, buffer: &[u32], i: u32, count: u32) -> u32 {
    let told = unsafe { sasnuvarth_part(*desk, buffer.as_ptr(), buffer.len(), i, count) };
    assert_eq!((told.number, told.first, told.words), part(desk, buffer, i, count), "part {count} of {i} of {desk:?}");
    told.number
}

fn open_image(shares: &[u32; 16]) -> Box<[u32]> {
    let mut image = sasnuvarth::blank_image();
    sasnuvarth::open_set(&mut image, shares).unwrap();
    image
}

/// Some number of a seat is changed: to what may mean the same, or to what may break its ranges.
fn disturb(chance: &mut Chance, desk: &mut FlatDesk) {
    let s = &mut desk.seats[chance.below(8) as usize];
    let near = chance.pick(&[0, 1, 2, 8, 9, 15, 16, 31, 32, 33, u32::MAX]);
    let position = chance.pick(&[5, 3 * 268_435_456 + 7, 15 * 268_435_456 + 40]);
    match chance.below(7) {
        0 => s.opened = near,
        1 => s.account = near,
        2 => s.kind = near,
        3 => s.limit = near,
        4 => s.marked = near,
        5 => s.a = position,
        _ => s.d = position,
    }
}

/// A call on the desk, by chance; its number.
fn call(chance: &mut Chance, outer: &[u32], inner: &[u32], desk: &mut FlatDesk, buffer: &mut Vec<u32>) -> u32 {
    let i = if chance.percent(90) { chance.below(8) } else { chance.pick(&[8, 9, u32::MAX]) };
    let account = if chance.percent(80) { chance.pick(&[0, 3, 15]) } else { 10 + chance.below(12) };
    let limit = if chance.percent(60) { chance.below(6) } else { chance.below(35) };
    let (number, after) = match chance.below(20) {
        0..=5 => check_open_seat(desk, i, account, chance.kind(), limit),
        6..=7 => check_close_seat(desk, i),
        8..=12 => {
            let (number, _, after) = check_round(outer, inner, desk, buffer);
            (number, after)
        }
        13 => {
            let (number, _, after) = check_round(inner, inner, desk, buffer);
            (number, after)
        }
        14 => {
            let n = chance.pick(&[0, 128, 1023, 1025]);
            let mut other = chance.words(n);
            check_part(desk, &other, i, 1);
            let (number, _, after) = check_round(outer, &inner[..12_288 - chance.below(2) as usize], desk, &mut other);
            (number, after)
        }
        15..=17 => (check_part(desk, buffer, i, limit), *desk),
        18 => {
            disturb(chance, desk);
            return 0;
        }
        _ => (0, if plain::desk::fits(desk) { *desk } else { open_desk() }),
    };
    *desk = after;
    number
}

#[test]
fn desk_histories() {
    let mut met = [0u32; 12];
    for seed in 0..100 {
        let chance = &mut Chance::new(5000 + seed);
        let mut shares = [1; 16];
        let accounts = [0, 3, 15];
        let mut pool: Vec<Region> = Vec::new();
        for &a in &accounts {
            shares[a as usize] = 150;
            let n = 2 + chance.below(60);
            pool.extend(nest(chance, SHAPES[(seed + u64::from(a)) as usize % 3], a * 268_435_456, 2, n));
        }
        let (mut outer, mut inner) = (open_image(&shares), open_image(&shares));
        let (mut desk, mut buffer) = (unsafe { sasnuvarth_open_desk() }, chance.words(1024));
        assert_eq!(desk, open_desk());
        for _ in 0..150 {
            if chance.percent(40) {
                let r = chance.deeper(&pool);
                let image = if chance.percent(50) { &mut outer } else { &mut inner };
                if chance.percent(75) {
                    sasnuvarth::save(image, account_of(r.start), r).ok();
                } else {
                    sasnuvarth::delete(image, account_of(r.start), r.start).ok();
                }
            }
            met[call(chance, &outer, &inner, &mut desk, &mut buffer) as usize] += 1;
        }
    }
    println!("numbers of calls on the desk: {met:?}");
    assert!([0, 1, 3, 9, 10, 11].iter().all(|&n| met[n] > 20), "every number is met: {met:?}");
}

/// The scope paper's example: at limit 3 a seat is handed 3, 3, 2, 0. By the safe calls.
#[test]
fn dealt_in_rounds() {
    let mut shares = [0; 16];
    shares[0] = 10;
    let (mut outer, mut inner) = (open_image(&shares), open_image(&shares));
    OUTER.iter().for_each(|r| sasnuvarth::save(&mut outer, 0, *r).unwrap());
    for start in [25, 35, 55, 70, 95] {
        sasnuvarth::save(&mut inner, 0, Region { start, end: start + 1, level: 3, reference: 0 }).unwrap();
    }
    let (mut desk, mut buffer) = (Desk::open(), vec![7; 1024]);
    assert_eq!(desk.open_seat(2, 0, Kind::Ancestor, 3), Ok(()));
    assert_eq!(desk.open_seat(2, 0, Kind::Ancestor, 3), Err(Refusal::Seat));
    assert_eq!(desk.open_seat(3, 16, Kind::Ancestor, 3), Err(Refusal::Account));
    assert_eq!(desk.open_seat(3, 0, Kind::Ancestor, 33), Err(Refusal::Limit));
    let mut handed = Vec::new();
    for count in [3, 3, 2, 0] {
        assert_eq!(desk.round(&outer, &inner, &mut buffer), Ok([0, 0, count, 0, 0, 0, 0, 0]));
        handed.extend(desk.part(&buffer, 2, count).unwrap().chunks_exact(4).map(|q| (q[2], q[0])));
    }
    assert_eq!(handed, [(25, 10), (25, 20), (35, 10), (35, 20), (35, 30), (55, 10), (70, 10), (70, 60)]);
    let seat = Seat::Open { account: 0, kind: Kind::Ancestor, limit: 3, mark: Mark::Last { a: 60, d: 70 } };
    assert_eq!(desk.seats()[2], seat);
    assert_eq!(Desk::of(desk.seats()), desk);
    assert_eq!(desk.part(&buffer, 2, 4), Err(Refusal::Limit));
    assert_eq!(desk.part(&buffer[1..], 2, 1), Err(Refusal::Desk));
    assert_eq!(desk.round(&outer, &inner[1..], &mut buffer), Err(Refusal::Image));
    assert_eq!(desk.close_seat(2), Ok(()));
    assert_eq!(desk, Desk::open());
    assert_eq!(desk.part(&buffer, 2, 0), Err(Refusal::Seat));
}

/// A set dealt with itself, by ancestor or self: a round may begin behind a d's own pair, or before it.
#[test]
fn dealt_with_self() {
    let mut shares = [0; 16];
    shares[0] = 10;
    let mut set = open_image(&shares);
    OUTER.iter().for_each(|r| sasnuvarth::save(&mut set, 0, *r).unwrap());
    let all = [(10, 10), (20, 10), (20, 20), (30, 10), (30, 20), (30, 30), (60, 10), (60, 60)];
    for limit in 1..=9 {
        let (mut desk, mut buffer) = (Desk::open(), vec![7; 1024]);
        assert_eq!(desk.open_seat(5, 0, Kind::AncestorOrSelf, limit), Ok(()));
        for right in all.chunks(limit as usize).chain([&[][..]]) {
            let count = desk.round(&set, &set, &mut buffer).unwrap()[5];
            let handed: Vec<(u32, u32)> = desk.part(&buffer, 5, count).unwrap().chunks_exact(4).map(|q| (q[2], q[0])).collect();
            assert_eq!(handed, right);
        }
        let seat = Seat::Open { account: 0, kind: Kind::AncestorOrSelf, limit, mark: Mark::Last { a: 60, d: 60 } };
        assert_eq!(desk.seats()[5], seat);
        assert_eq!(Desk::of(desk.seats()), desk);
    }
}

/// Twenty pairs to a seat that was opened with limit 0, to one that asks for nine, and to one from before that has 32 stored.
#[test]
fn house_limit() {
    let mut shares = [0; 16];
    shares[0] = 20;
    let (mut outer, mut inner) = (open_image(&shares), open_image(&shares));
    sasnuvarth::save(&mut outer, 0, Region { start: 1, end: 100, level: 8, reference: 7 }).unwrap();
    for i in 0..20 {
        sasnuvarth::save(&mut inner, 0, Region { start: 10 + 2 * i, end: 11 + 2 * i, level: 9, reference: i }).unwrap();
    }
    let seat = |limit| Seat::Open { account: 0, kind: Kind::Ancestor, limit, mark: Mark::Fresh };
    let mut seats = [Seat::Closed; 8];
    seats[2] = seat(MOST_A_ROUND);
    let (mut desk, mut buffer) = (Desk::of(seats), vec![7; 1024]);
    assert_eq!(desk.open_seat(0, 0, Kind::Ancestor, 0), Ok(()));
    assert_eq!(desk.open_seat(1, 0, Kind::Ancestor, HOUSE_LIMIT + 1), Ok(()));
    assert_eq!(desk.open_seat(3, 0, Kind::Ancestor, MOST_A_ROUND + 1), Err(Refusal::Limit));
    assert_eq!(desk.seats()[..4], [seat(8), seat(9), seat(32), Seat::Closed]);
    assert_eq!(desk.part(&buffer, 0, 8).map(<[u32]>::len), Ok(32));
    assert_eq!(desk.part(&buffer, 0, 9), Err(Refusal::Limit));
    for counts in [[8, 9, 20], [8, 9, 0], [4, 2, 0], [0, 0, 0]] {
        let told = desk.round(&outer, &inner, &mut buffer).unwrap();
        assert_eq!(told[..3], counts);
    }
}
