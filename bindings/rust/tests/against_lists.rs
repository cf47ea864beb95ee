//! Histories of calls, each answer and every lent word compared with the plain definitions in `plain`.

mod plain;

use plain::chance::{mislevel, nest, Chance, Shape, SHAPES};
use plain::image::{read, Read};
use plain::*;
use sasnuvarth::raw::*;
use sasnuvarth::{Ancestors, Choice, Item, Kind, Listed, Refusal, Region, IMAGE_WORDS, ITEM_WORDS};

/// A set as the library has it, and what it should mean: none where the image is not valid.
struct Side {
    image: Vec<u32>,
    held: Option<Set>,
}

fn open(shares: [u32; 16]) -> Side {
    let mut image = vec![0xDEAD_BEEF; IMAGE_WORDS];
    assert_eq!(sasnuvarth::open_set(&mut image, &shares), Ok(()));
    Side { image, held: Some(Set::empty(shares)) }
}

// ---- calls that change a set

/// The number of a call that changes a set: IMAGE first.
fn number_of(held: &mut Option<Set>, own: impl FnOnce(&mut Set) -> u32) -> u32 {
    held.as_mut().map_or(IMAGE, own)
}

fn check_open(image: &[u32], shares: [u32; 16]) {
    let mut after = image.to_vec();
    let number = unsafe { sasnuvarth_open_set(after.as_mut_ptr(), after.len(), shares.as_ptr()) };
    assert_eq!(number, open_number(image.len(), &shares));
    if number == 0 {
        assert_eq!(read(&after).expect("an opened image is valid").set, Set::empty(shares));
        let mut other = vec![7; IMAGE_WORDS];
        assert_eq!(sasnuvarth::open_set(&mut other, &shares), Ok(()));
        assert_eq!(after, other, "an opening reads no old word");
    } else {
        assert_eq!(after, image);
        assert_eq!(sasnuvarth::open_set(&mut after, &shares).err(), Refusal::of(number));
    }
}

fn check_save(side: &mut Side, account: u32, r: Region) -> u32 {
    let before = side.image.clone();
    let image = &mut side.image;
    let number = unsafe { sasnuvarth_save(image.as_mut_ptr(), image.len(), account, r.start, r.end, r.level, r.reference) };
    assert_eq!(number, number_of(&mut side.held, |s| s.save(account, r)), "save {r:?} in {account}");
    if number != 0 {
        assert_eq!(*image, before, "a refusal changes no word");
    }
    let mut again = before;
    assert_eq!(sasnuvarth::save(&mut again, account, r).err(), Refusal::of(number));
    assert_eq!(again, *image);
    number
}

fn check_delete(side: &mut Side, account: u32, start: u32) -> u32 {
    let before = side.image.clone();
    let image = &mut side.image;
    let number = unsafe { sasnuvarth_delete(image.as_mut_ptr(), image.len(), account, start) };
    assert_eq!(number, number_of(&mut side.held, |s| s.delete(account, start)), "delete {start} of {account}");
    if number != 0 {
        assert_eq!(*image, before, "a refusal changes no word");
    }
    let mut again = before;
    assert_eq!(sasnuvarth::delete(&mut again, account, start).err(), Refusal::of(number));
    assert_eq!(again, *image);
    number
}

/// An item by the library's own single call; its number.
fn singly(image: &mut [u32], item: &[u32]) -> u32 {
    match item[0] {
        0 => unsafe { sasnuvarth_save(image.as_mut_ptr(), image.len(), item[1], item[2], item[3], item[4], item[5]) },
        1 => unsafe { sasnuvarth_delete(image.as_mut_ptr(), image.len(), item[1], item[2]) },
        _ => FORM,
    }
}

/// A batch, once more by the safe call, and once more by single calls: these leave the same set, with the same numbers.
fn check_batch(side: &mut Side, items: &[u32], lent: &[u32]) -> (u32, Vec<u32>) {
    let before = side.image.clone();
    let (image, mut places) = (&mut side.image, lent.to_vec());
    let number = unsafe {
        sasnuvarth_batch(image.as_mut_ptr(), image.len(), items.as_ptr(), items.len(), places.as_mut_ptr(), places.len())
    };
    let right = side.held.as_mut().map_or((IMAGE, lent.to_vec()), |s| s.batch(items, lent));
    assert_eq!((number, &places), (right.0, &right.1), "batch of {items:?}, {} places", lent.len());
    let told = if number == 0 { &places[..items.len() / ITEM_WORDS] } else { &[] };
    if told.iter().all(|&n| n != 0) {
        assert_eq!(*image, before, "a refusal changes no word");
    }
    let (mut again, mut out) = (before.clone(), lent.to_vec());
    assert_eq!(sasnuvarth::batch(&mut again, items, &mut out).err(), Refusal::of(number));
    assert_eq!((&again, &out), (&*image, &places));
    if number == 0 {
        let mut other = before;
        let numbers: Vec<u32> = items.chunks_exact(ITEM_WORDS).map(|item| singly(&mut other, item)).collect();
        assert_eq!(told, numbers, "one by one");
        assert_eq!(read(&other).map(|m| m.set), read(image).map(|m| m.set), "what is left, one by one");
    }
    (number, places)
}

// ---- searches: each takes what the image means, and the words to lend

fn expect_items(number: u32, out: &[u32], items: Vec<[u32; 4]>) -> (usize, usize, Vec<u32>) {
    let items = if number == 0 { items } else { Vec::new() };
    (items.len(), items.len().min(out.len() / 4), written(out, &items))
}

fn check_ancestors(image: &[u32], meant: &Option<Read>, account: u32, p: u32, choice: u32, lent: &[u32]) {
    let number = meant.as_ref().map_or(IMAGE, |m| m.set.point_number(account, p));
    let found = meant.as_ref().map_or(Vec::new(), |m| m.set.ancestors(choice, p));
    let (total, _, words) = expect_items(number, lent, region_words(&found));
    let steps = meant.as_ref().filter(|_| number == 0).map_or(0, |m| m.steps(choice, p));
    let mut out = lent.to_vec();
    let told = unsafe { sasnuvarth_ancestors(image.as_ptr(), image.len(), account, p, choice, out.as_mut_ptr(), out.len()) };
    assert_eq!((told.number, told.total, told.steps), (number, total, steps), "ancestors of {p} in {account} by {choice}");
    assert!(steps <= 4 + 2 * total);
    assert_eq!(out, words);
    let mut out = lent.to_vec();
    let safe = sasnuvarth::ancestors(image, account, p, if choice == 0 { Choice::Strict } else { Choice::WithSelf }, &mut out);
    assert_eq!(safe, Refusal::of(number).map_or(Ok(Ancestors { total, steps }), Err));
    assert_eq!(out, words);
}

fn check_parent(image: &[u32], meant: &Option<Read>, account: u32, p: u32, level: u32) {
    let number = meant.as_ref().map_or(IMAGE, |m| m.set.point_number(account, p));
    let found = meant.as_ref().filter(|_| number == 0).and_then(|m| m.set.parent(p, level));
    let told = unsafe { sasnuvarth_parent(image.as_ptr(), image.len(), account, p, level) };
    let r = found.unwrap_or(Region { start: 0, end: 0, level: 0, reference: 0 });
    assert_eq!((told.number, told.found), (number, found.is_some()), "parent of {p} at {level} in {account}");
    assert_eq!((told.start, told.end, told.level, told.reference), (r.start, r.end, r.level, r.reference));
    assert_eq!(sasnuvarth::parent(image, account, p, level), Refusal::of(number).map_or(Ok(found), Err));
}

/// Bounds of a descendant search; with a level, of a child search.
#[derive(Clone, Copy, Debug)]
struct Bounds {
    account: u32,
    start: u32,
    end: u32,
    after: u32,
    level: Option<u32>,
}

fn check_inward(image: &[u32], meant: &Option<Read>, b: Bounds, lent: &[u32]) {
    let Bounds { account, start, end, after, level } = b;
    let number = meant.as_ref().map_or(IMAGE, |m| m.set.bounds_number(account, start, end));
    let found = meant.as_ref().map_or(Vec::new(), |m| match level {
        None => m.set.descendants(start, end, after),
        Some(l) => m.set.children(start, end, l, after),
    });
    let (total, count, words) = expect_items(number, lent, region_words(&found));
    let more = count < total;
    let mut out = lent.to_vec();
    let (i, n, o, m) = (image.as_ptr(), image.len(), out.as_mut_ptr(), out.len());
    let told = match level {
        None => unsafe { sasnuvarth_descendants(i, n, account, start, end, after, o, m) },
        Some(l) => unsafe { sasnuvarth_children(i, n, account, start, end, l, after, o, m) },
    };
    assert_eq!((told.number, told.count, told.more), (number, count, more), "{b:?}");
    assert_eq!(out, words);
    let mut out = lent.to_vec();
    let safe = match level {
        None => sasnuvarth::descendants(image, account, start, end, after, &mut out),
        Some(l) => sasnuvarth::children(image, account, start, end, l, after, &mut out),
    };
    assert_eq!(safe, Refusal::of(number).map_or(Ok(Listed { count, more }), Err));
    assert_eq!(out, words);
}

fn check_join(outer: (&[u32], &Option<Read>), inner: (&[u32], &Option<Read>), account: u32, kind: u32, lent: &[u32]) {
    let both = outer.1.as_ref().zip(inner.1.as_ref());
    let number = both.map_or(IMAGE, |_| join_number(account));
    let pairs = both.map_or(Vec::new(), |(x, y)| joined(&x.set, &y.set, account, kind));
    let (total, _, words) = expect_items(number, lent, pair_words(&pairs));
    let (x, y, mut out) = (outer.0, inner.0, lent.to_vec());
    let told = unsafe { sasnuvarth_join(x.as_ptr(), x.len(), y.as_ptr(), y.len(), account, kind, out.as_mut_ptr(), out.len()) };
    assert_eq!((told.number, told.total), (number, total), "join of {account} by {kind}");
    assert_eq!(out, words);
    let mut out = lent.to_vec();
    let safe = sasnuvarth::join(x, y, account, [Kind::Ancestor, Kind::Parent, Kind::AncestorOrSelf][kind_told(kind) as usize], &mut out);
    assert_eq!(safe, Refusal::of(number).map_or(Ok(total), Err));
    assert_eq!(out, words);
}

/// All ancestors, with room for as many as there are.
fn all_ancestors(image: &[u32], account: u32, p: u32, choice: Choice) -> Vec<u32> {
    let total = sasnuvarth::ancestors(image, account, p, choice, &mut []).unwrap().total;
    let mut out = vec![0; 4 * total];
    assert_eq!(sasnuvarth::ancestors(image, account, p, choice, &mut out).map(|told| told.total), Ok(total));
    out
}

/// All pairs, each as a's start and d's.
fn all_pairs(outer: &[u32], inner: &[u32], account: u32, kind: Kind) -> Vec<(u32, u32)> {
    let total = sasnuvarth::join(outer, inner, account, kind, &mut []).unwrap();
    let mut out = vec![0; 4 * total];
    assert_eq!(sasnuvarth::join(outer, inner, account, kind, &mut out), Ok(total));
    out.chunks_exact(4).map(|q| (q[0], q[2])).collect()
}

/// With self is strict and one more at the end: what starts at p, if that is held; and of each d's pairs in its own set, itself.
fn check_self(image: &[u32], meant: &Option<Read>, p: u32) {
    let Some(Read { set, .. }) = meant else { return };
    let account = account_of(p);
    let mut right = all_ancestors(image, account, p, Choice::Strict);
    right.extend(set.regions.iter().filter(|r| r.start == p).flat_map(|r| [r.start, r.end, r.level, r.reference]));
    assert_eq!(all_ancestors(image, account, p, Choice::WithSelf), right, "with self of {p}");
    let mut right = all_pairs(image, image, account, Kind::Ancestor);
    right.extend(set.regions.iter().filter(|r| account_of(r.start) == account).map(|r| (r.start, r.start)));
    right.sort_by_key(|&(_, d)| d); // which leaves a d's pairs as they stand: its own behind the others
    assert_eq!(all_pairs(image, image, account, Kind::AncestorOrSelf), right, "with self in {account}");
}

// ---- arguments by chance

/// Positions worth asking: at and beside starts and ends, elsewhere in their documents, and far off.
fn position(chance: &mut Chance, near: &[Region]) -> u32 {
    if near.is_empty() || chance.percent(8) {
        return chance.pick(&[0, 1, 100, 65_535, 65_536, 268_435_455, 268_435_456, u32::MAX]);
    }
    let r = chance.pick(near);
    match chance.below(20) {
        0..=5 => r.start,
        6..=8 => r.end,
        9..=11 => r.start.wrapping_add(1),
        12 => r.start.wrapping_sub(1),
        13..=14 => r.end.wrapping_add(1),
        15..=16 => r.end.wrapping_sub(1),
        17 => r.start.wrapping_add(chance.below(65_536)),
        18 => chance.word(),
        _ => r.start / 2 + r.end / 2,
    }
}

fn account_for(chance: &mut Chance, p: u32) -> u32 {
    match chance.below(20) {
        0 => 16,
        1 => chance.word(),
        2 => chance.below(16),
        _ => account_of(p),
    }
}

fn level(chance: &mut Chance) -> u32 {
    match chance.below(12) {
        0 => 0,
        1 => chance.pick(&[255, 256, u32::MAX]),
        _ => 1 + chance.below(6),
    }
}

fn lent_words(chance: &mut Chance) -> Vec<u32> {
    let n = match chance.below(5) {
        0 => chance.below(9),
        1 => chance.below(100),
        2 => 0,
        _ => chance.below(2200),
    };
    chance.words(n as usize)
}

/// A region to save: one that was set aside, or made of two positions.
fn candidate(chance: &mut Chance, pool: &[Region]) -> Region {
    if !pool.is_empty() && chance.percent(70) {
        return chance.deeper(pool);
    }
    let start = position(chance, pool);
    let end = if chance.percent(50) { position(chance, pool) } else { start.wrapping_add(chance.below(30)) };
    Region { start, end, level: level(chance), reference: chance.word() }
}

/// Reads both images, compares what they mean, and asks some searches and joins of them.
fn look(chance: &mut Chance, outer: &Side, inner: &Side, pool: &[Region], asks: u32) {
    let (x, y) = (read(&outer.image), read(&inner.image));
    for (meant, side) in [(&x, outer), (&y, inner)] {
        assert_eq!(meant.as_ref().map(|m| m.set.clone()), side.held.as_ref().map(Set::sorted), "what the image means");
    }
    for _ in 0..asks {
        let (image, meant) = if chance.percent(50) { (&outer.image, &x) } else { (&inner.image, &y) };
        let p = position(chance, pool);
        let account = account_for(chance, p);
        let lent = lent_words(chance);
        let (end, after) = (position(chance, pool), if chance.percent(60) { 0 } else { position(chance, pool) });
        let l = level(chance);
        match chance.below(7) {
            0 => check_ancestors(image, meant, account, p, chance.choice(), &lent),
            1 => check_parent(image, meant, account, p, l),
            2 => check_inward(image, meant, Bounds { account, start: p, end, after, level: None }, &lent),
            3 => check_inward(image, meant, Bounds { account, start: p, end, after, level: Some(l) }, &lent),
            4 => check_join((&outer.image, &x), (&inner.image, &y), account, chance.kind(), &lent),
            5 => check_join((image, meant), (image, meant), account, chance.kind(), &lent),
            _ => check_self(image, meant, p),
        }
    }
}

fn one_change(chance: &mut Chance, side: &mut Side, pool: &[Region], saves: u32) -> u32 {
    if chance.percent(saves) {
        let r = candidate(chance, pool);
        let account = account_for(chance, r.start);
        return check_save(side, account, r);
    }
    let held = side.held.as_ref().map_or(&pool[..], |s| &s.regions);
    let start = if chance.percent(80) && !held.is_empty() { chance.pick(held).start } else { position(chance, pool) };
    let account = account_for(chance, start);
    check_delete(side, account, start)
}

/// Words of a delete: those behind its start mean nothing.
fn delete_words(chance: &mut Chance, account: u32, start: u32) -> [u32; ITEM_WORDS] {
    [1, account, start, chance.word(), chance.word(), chance.word()]
}

/// An item: a save, a delete of what is held or may be by then, or neither.
fn some_item(chance: &mut Chance, held: &[Region], pool: &[Region], saves: u32) -> [u32; ITEM_WORDS] {
    let mut item = if chance.percent(saves) {
        let r = candidate(chance, pool);
        Item::Save { account: account_for(chance, r.start), region: r }.words()
    } else {
        let from = if held.is_empty() || chance.percent(30) { pool } else { held };
        let start = if chance.percent(80) && !from.is_empty() { chance.pick(from).start } else { position(chance, pool) };
        let account = account_for(chance, start);
        delete_words(chance, account, start)
    };
    if chance.percent(5) {
        let other = 2 + chance.below(u32::MAX - 1);
        item[0] = chance.pick(&[2, 3, 256, 65_536, 1 << 31, u32::MAX, other]);
    }
    item
}

/// Items, some of them followed by a delete of the same start and by themselves again.
fn some_items(chance: &mut Chance, held: &[Region], pool: &[Region], saves: u32, n: usize) -> Vec<u32> {
    let mut items = Vec::new();
    while items.len() < n * ITEM_WORDS {
        let item = some_item(chance, held, pool, saves);
        items.extend(item);
        if chance.percent(10) {
            items.extend(delete_words(chance, item[1], item[2]));
            items.extend(item);
        }
    }
    items.truncate(n * ITEM_WORDS);
    items
}

/// A batch, now and then of words that are not whole items, or with too few places. Tells its items too.
fn one_batch(chance: &mut Chance, side: &mut Side, pool: &[Region], saves: u32) -> (u32, Vec<u32>, Vec<u32>) {
    let n = if chance.percent(5) { 0 } else { chance.below(25) as usize };
    let mut items = some_items(chance, side.held.as_ref().map_or(pool, |s| &s.regions), pool, saves, n);
    if chance.percent(10) {
        items.truncate(items.len().saturating_sub(1 + chance.below(5) as usize));
    }
    let places = match chance.below(10) {
        0 => chance.below(1 + n as u32) as usize,
        1..=4 => n + chance.below(10) as usize,
        _ => n,
    };
    let lent = chance.words(places);
    let (number, places) = check_batch(side, &items, &lent);
    (number, items, places)
}

// ---- the tests

/// Shares, and some regions of one account to draw from, where most things meet.
fn tight_places(chance: &mut Chance, shape: Shape) -> ([u32; 16], Vec<Region>) {
    let account = chance.pick(&[0, 1, 7, 15]);
    let base = account * 268_435_456 + chance.below(4096) * 65_536 + chance.pick(&[0, 0, 64_000]);
    let (gap, n) = (1 + chance.below(3), 10 + chance.below(60));
    let mut pool = nest(chance, shape, base, gap, n);
    mislevel(chance, &mut pool);
    let mut shares = [2; 16];
    shares[account as usize] = chance.pick(&[0, 1, 5, 30, 100, 470]);
    (shares, pool)
}

/// Many small sets in tight places.
#[test]
fn short_histories() {
    let mut met = [0u32; 15];
    for seed in 0..300 {
        let chance = &mut Chance::new(seed);
        let (shares, pool) = tight_places(chance, SHAPES[seed as usize % 3]);
        let (mut outer, mut inner) = (open(shares), open(shares));
        for step in 0..60 {
            let side = if chance.percent(60) { &mut outer } else { &mut inner };
            met[one_change(chance, side, &pool, 75) as usize] += 1;
            if step % 4 == 0 {
                look(chance, &outer, &inner, &pool, 6);
            }
        }
    }
    println!("numbers of saves and deletes: {met:?}");
    assert!([0, 2, 3, 4, 5, 6, 7, 14].iter().all(|&n| met[n] > 20), "every number is met: {met:?}");
}

/// Shares that sum to 500, and for each account twenty regions more than its share.
fn in_order(chance: &mut Chance, shape: Shape, order: u32, accounts: u32) -> ([u32; 16], Vec<Region>) {
    let mut shares = [0; 16];
    let mut pool = Vec::new();
    for i in 0..accounts {
        let (account, n) = (15 - 3 * i, 500 / accounts);
        shares[account as usize] = n;
        let (gap, document) = (chance.pick(&[1, 3, 50]), chance.below(4096));
        pool.extend(nest(chance, shape, account * 268_435_456 + 65_536 * document, gap, n + 20));
    }
    match order {
        0 => pool.sort_by_key(|r| r.start),
        1 => pool.sort_by_key(|r| std::cmp::Reverse(r.start)),
        _ => chance.shuffle(&mut pool),
    }
    (shares, pool)
}

/// Sets grown to 500 regions, changed for long, and emptied, in each shape and order.
fn long_history(seed: u64, shape: Shape, order: u32, accounts: u32) {
    let chance = &mut Chance::new(seed);
    let (shares, pool) = in_order(chance, shape, order, accounts);
    let (mut outer, mut inner) = (open(shares), open(shares));
    for (i, r) in pool.iter().enumerate() {
        check_save(&mut outer, account_of(r.start), *r);
        if i % 2 == 0 {
            check_save(&mut inner, account_of(r.start), *r);
        }
        if i % 40 == 0 {
            look(chance, &outer, &inner, &pool, 8);
        }
    }
    assert_eq!(outer.held.as_ref().unwrap().regions.len(), 500 / accounts as usize * accounts as usize);
    look(chance, &outer, &inner, &pool, 60);
    for step in 0..200 {
        one_change(chance, &mut outer, &pool, 55);
        if step % 40 == 0 {
            look(chance, &outer, &inner, &pool, 8);
        }
    }
    let mut starts: Vec<u32> = outer.held.as_ref().unwrap().regions.iter().map(|r| r.start).collect();
    match chance.below(3) {
        0 => starts.sort(),
        1 => starts.sort_by_key(|&s| std::cmp::Reverse(s)),
        _ => chance.shuffle(&mut starts),
    }
    for (i, &start) in starts.iter().enumerate() {
        assert_eq!(check_delete(&mut outer, account_of(start), start), 0);
        if i % 40 == 0 {
            look(chance, &outer, &inner, &pool, 8);
        }
    }
    look(chance, &outer, &inner, &pool, 8);
}

#[test]
fn long_histories_flat() {
    (0..3).for_each(|order| long_history(100 + u64::from(order), Shape::Flat, order, 1 + order));
}

#[test]
fn long_histories_mixed() {
    (0..3).for_each(|order| long_history(200 + u64::from(order), Shape::Mixed, order, 3 - order));
}

#[test]
fn long_histories_deep() {
    (0..3).for_each(|order| long_history(300 + u64::from(order), Shape::Deep, order, 1 + order));
}

/// Whether one of the batch is told SHARE, then one of its account is deleted and another one saved.
fn freed(items: &[u32], told: &[u32]) -> bool {
    let items: Vec<&[u32]> = items.chunks_exact(ITEM_WORDS).collect();
    let Some(full) = told.iter().position(|&n| n == SHARE) else { return false };
    let next = |first: u32, from: usize| (from..items.len()).find(|&i| told[i] == 0 && items[i][..2] == [first, items[full][1]]);
    next(1, full).and_then(|deleted| next(0, deleted)).is_some()
}

/// Whether some start is saved, deleted and saved in the batch.
fn saved_again(items: &[u32], told: &[u32]) -> bool {
    let done: Vec<&[u32]> = items.chunks_exact(ITEM_WORDS).zip(told).filter(|(_, &n)| n == 0).map(|(item, _)| item).collect();
    done.iter().any(|i| done.iter().filter(|j| j[0] == 0 && j[2] == i[2]).count() > 1)
}

/// Many small batches in tight places, on sets that the batches before have made.
#[test]
fn short_batches() {
    let (mut calls, mut met, mut freeing, mut again, mut empty, mut further) = ([0u32; 15], [0u32; 15], 0, 0, 0, 0);
    for seed in 0..200 {
        let chance = &mut Chance::new(7000 + seed);
        let (shares, pool) = tight_places(chance, SHAPES[seed as usize % 3]);
        let (mut outer, mut inner) = (open(shares), open(shares));
        for _ in 0..20 {
            let side = if chance.percent(60) { &mut outer } else { &mut inner };
            let (number, items, places) = one_batch(chance, side, &pool, 70);
            look(chance, &outer, &inner, &pool, 3);
            calls[number as usize] += 1;
            if number == 0 {
                let told = &places[..items.len() / ITEM_WORDS];
                told.iter().for_each(|&n| met[n as usize] += 1);
                freeing += u32::from(freed(&items, told));
                again += u32::from(saved_again(&items, told));
                empty += u32::from(items.is_empty());
                further += u32::from(places.len() > told.len());
            }
        }
    }
    println!("numbers of batches: {calls:?}; of their items: {met:?}");
    println!("a share freed in {freeing}, a start saved again in {again}, no items in {empty}, further places in {further}");
    assert!([0, 12, 13].iter().all(|&n| calls[n] > 20), "every number of a batch is met: {calls:?}");
    assert!([0, 2, 3, 4, 5, 6, 7, 12, 14].iter().all(|&n| met[n] > 20), "every number of an item is met: {met:?}");
    assert!([freeing, again, empty, further].iter().all(|&n| n > 20));
}

/// Sets grown to 500 regions by one batch, changed by others, and emptied by one, in each shape and order.
fn long_batches(seed: u64, shape: Shape, order: u32, accounts: u32) {
    let chance = &mut Chance::new(seed);
    let (shares, pool) = in_order(chance, shape, order, accounts);
    let (mut side, other) = (open(shares), open(shares));
    let items: Vec<u32> = pool.iter().flat_map(|r| Item::Save { account: account_of(r.start), region: *r }.words()).collect();
    let (number, places) = check_batch(&mut side, &items, &chance.words(pool.len()));
    let done = 500 / accounts as usize * accounts as usize;
    assert_eq!((number, places.iter().filter(|&&n| n == 0).count()), (0, done));
    assert_eq!(places.iter().filter(|&&n| n == SHARE).count(), 20 * accounts as usize);
    look(chance, &side, &other, &pool, 40);
    for _ in 0..10 {
        let items = some_items(chance, &side.held.as_ref().unwrap().regions, &pool, 50, 100);
        assert_eq!(check_batch(&mut side, &items, &chance.words(100)).0, 0);
        look(chance, &side, &other, &pool, 8);
    }
    let mut held = side.held.as_ref().unwrap().regions.clone();
    chance.shuffle(&mut held);
    let items: Vec<u32> = held.iter().flat_map(|r| delete_words(chance, account_of(r.start), r.start)).collect();
    assert_eq!(check_batch(&mut side, &items, &chance.words(held.len())), (0, vec![0; held.len()]));
    look(chance, &side, &other, &pool, 8);
}

#[test]
fn long_batches_of_each_shape() {
    for (i, shape) in SHAPES.into_iter().enumerate() {
        (0..3).for_each(|order| long_batches(8000 + 10 * i as u64 + u64::from(order), shape, order, 1 + order));
    }
}

/// A word that an image uses, more often than not.
fn some_place(chance: &mut Chance, image: &[u32]) -> usize {
    let page = |c: &mut Chance| 57 * (1 + c.below(160) as usize);
    let record = |c: &mut Chance| 9177 + 6 * (1 + c.below(500) as usize);
    match chance.below(10) {
        0 => chance.below(18) as usize,
        1 => chance.below(IMAGE_WORDS as u32) as usize,
        2..=5 => {
            let at = (0..40).map(|_| page(chance)).find(|&p| image[p] != 0).unwrap_or(57);
            at + chance.below(57) as usize
        }
        6 => page(chance) + chance.below(3) as usize,
        _ => {
            let at = (0..40).map(|_| record(chance)).find(|&q| image[q + 1] != 0).unwrap_or(9183);
            at + chance.below(6) as usize
        }
    }
}

fn damage(chance: &mut Chance, image: &mut [u32]) {
    let (i, j) = (some_place(chance, image), some_place(chance, image));
    match chance.below(7) {
        0 => image[i] = chance.word(),
        1 => image[i] = image[i].wrapping_add(1),
        2 => image[i] = image[i].wrapping_sub(1),
        3 => image[i] = 0,
        4 => image[i] = image[j],
        5 => image.swap(i, j),
        _ => image[i] = 1 + chance.below(10),
    }
}

/// Images with a word or a few changed. Where the seven rules still hold, the image means a set, perhaps another one, and every
/// call is held to that; where they do not, every call answers IMAGE and leaves all words.
#[test]
fn damaged_images() {
    let (mut refused, mut changed, mut same) = (0, 0, 0);
    for seed in 0..40 {
        let chance = &mut Chance::new(1000 + seed);
        let n = chance.pick(&[3, 8, 9, 40, 120, 300, 500]);
        let mut pool = nest(chance, SHAPES[seed as usize % 3], 65_536 * 5, 3, n);
        chance.shuffle(&mut pool);
        let mut good = open([500, 0, 0, 0, 0, 0, 0, 0, 0, 0, 0, 0, 0, 0, 0, 0]);
        for r in &pool {
            check_save(&mut good, 0, *r);
        }
        let was = good.held.as_ref().unwrap().sorted();
        for _ in 0..40 {
            let mut image = good.image.clone();
            (0..1 + chance.below(3)).for_each(|_| damage(chance, &mut image));
            let held = read(&image).map(|m| m.set);
            match &held {
                None => refused += 1,
                Some(set) if *set == was => same += 1,
                Some(_) => changed += 1,
            }
            let mut bad = Side { image, held };
            look(chance, &bad, &good, &pool, 3);
            look(chance, &good, &bad, &pool, 2);
            one_change(chance, &mut bad, &pool, 100);
            one_change(chance, &mut bad, &pool, 0);
            one_batch(chance, &mut bad, &pool, 50);
            check_open(&bad.image, [chance.below(40); 16]);
        }
    }
    println!("damaged images: {refused} not valid, {changed} of another set, {same} of the same");
    assert!(refused > 300 && changed > 30 && same > 100);
}

/// Lent words that are no image by their number.
#[test]
fn other_lengths() {
    let chance = &mut Chance::new(7);
    let mut good = open([30; 16]);
    let pool = nest(chance, Shape::Mixed, 65_536, 2, 30);
    for r in &pool {
        assert_eq!(check_save(&mut good, 0, *r), 0);
    }
    for n in [0, 1, 57, 12_287, 12_289, 24_576] {
        let mut image = good.image.clone();
        image.resize(n, 0);
        check_open(&image, [30; 16]);
        check_open(&image, [32; 16]);
        let mut bad = Side { image, held: None };
        look(chance, &bad, &good, &pool, 20);
        look(chance, &good, &bad, &pool, 20);
        one_change(chance, &mut bad, &pool, 100);
        one_change(chance, &mut bad, &pool, 0);
        (0..10).for_each(|_| assert_eq!(one_batch(chance, &mut bad, &pool, 50).0, IMAGE));
    }
    check_open(&good.image, [31; 16]);
    check_open(&good.image, [32; 16]);
    check_open(&good.image, [u32::MAX; 16]);
}

fn starts(out: &[u32], n: usize) -> Vec<u32> {
    out.chunks_exact(4).take(n).map(|r| r[0]).collect()
}

/// The scope paper's own examples.
#[test]
fn bench_examples() {
    let mut shares = [0; 16];
    shares[0] = 10;
    let mut outer = open(shares).image;
    let region = |start, end, level, reference| Region { start, end, level, reference };
    for r in OUTER {
        assert_eq!(sasnuvarth::save(&mut outer, 0, r), Ok(()));
    }
    let out = &mut [0; 64];
    for (p, right) in [(35, &[10, 20, 30][..]), (30, &[10, 20]), (40, &[10, 20]), (10, &[]), (90, &[])] {
        let told = sasnuvarth::ancestors(&outer, 0, p, Choice::Strict, out).unwrap();
        assert_eq!(starts(out, told.total), right);
    }
    for ((start, end), right) in [((10, 90), &[20, 30, 60][..]), ((20, 50), &[30])] {
        let told = sasnuvarth::descendants(&outer, 0, start, end, 0, out).unwrap();
        assert_eq!((starts(out, told.count), told.more), (right.to_vec(), false));
    }
    assert_eq!(sasnuvarth::parent(&outer, 0, 35, 4).unwrap().map(|r| r.start), Some(30));
    assert_eq!(sasnuvarth::parent(&outer, 0, 35, 1), Ok(None));
    assert_eq!(sasnuvarth::save(&mut outer, 0, region(30, 45, 1, 0)), Err(Refusal::Held));
    assert_eq!(sasnuvarth::save(&mut outer, 0, region(45, 55, 1, 0)), Err(Refusal::Cross));
    assert_eq!(sasnuvarth::save(&mut outer, 0, region(50, 55, 1, 0)), Err(Refusal::Cross));
    assert_eq!(sasnuvarth::save(&mut outer, 0, region(5, 95, 1, 0)), Err(Refusal::Level));
    assert_eq!(sasnuvarth::save(&mut outer, 0, region(33, 37, 3, 0)), Err(Refusal::Level));
    assert_eq!(sasnuvarth::save(&mut outer, 0, region(7, 7, 1, 0)), Err(Refusal::Region));
    assert_eq!(sasnuvarth::save(&mut outer, 0, region(65_530, 65_540, 1, 0)), Err(Refusal::Region));
    let mut inner = open(shares).image;
    for start in [25, 35, 55, 70, 95] {
        assert_eq!(sasnuvarth::save(&mut inner, 0, region(start, start + 1, 3, 0)), Ok(()));
    }
    assert_eq!(sasnuvarth::join(&outer, &inner, 0, Kind::Ancestor, out), Ok(8));
    let ds: Vec<u32> = out.chunks_exact(4).take(8).map(|q| q[2]).collect();
    assert_eq!(ds, [25, 25, 35, 35, 35, 55, 70, 70]);
    assert_eq!(sasnuvarth::join(&outer, &inner, 0, Kind::Parent, out), Ok(3));
    let once: Vec<(u32, u32)> = out.chunks_exact(4).take(3).map(|q| (q[0], q[2])).collect();
    assert_eq!(once, [(20, 25), (20, 35), (60, 70)]);
}

/// By hand, with self: a start counts and an end does not. Across sets it is the position that counts and no level; a parent is strict.
#[test]
fn with_self() {
    let mut shares = [0; 16];
    (shares[0], shares[1]) = (10, 10);
    let (mut outer, mut inner) = (open(shares).image, open(shares).image);
    for r in OUTER {
        assert_eq!(sasnuvarth::save(&mut outer, 0, r), Ok(()));
    }
    for (p, right) in [(30, &[10, 20, 30][..]), (35, &[10, 20, 30]), (40, &[10, 20]), (90, &[]), (10, &[10]), (9, &[])] {
        let found = all_ancestors(&outer, 0, p, Choice::WithSelf);
        assert_eq!(starts(&found, found.len() / 4), right);
    }
    let pairs = [(10, 10), (10, 20), (20, 20), (10, 30), (20, 30), (30, 30), (10, 60), (60, 60)];
    assert_eq!(all_pairs(&outer, &outer, 0, Kind::AncestorOrSelf), pairs);
    for (start, end, level) in [(20, 25, 3), (30, 85, 1), (40, 41, 2), (90, 91, 5)] {
        assert_eq!(sasnuvarth::save(&mut inner, 0, Region { start, end, level, reference: 0 }), Ok(()));
    }
    let across = [(10, 20), (20, 20), (10, 30), (20, 30), (30, 30), (10, 40), (20, 40)];
    assert_eq!(all_pairs(&outer, &inner, 0, Kind::AncestorOrSelf), across);
    assert_eq!(all_pairs(&outer, &inner, 0, Kind::Parent), [(10, 40)]);
    // at the first position of an account, and at the last start of a document before it
    let first = 268_435_456;
    for (account, start) in [(0, first - 2), (1, first)] {
        let r = Region { start, end: start + 1, level: 1, reference: 0 };
        assert_eq!(sasnuvarth::save(&mut outer, account, r), Ok(()));
        assert_eq!(all_ancestors(&outer, account, start, Choice::Strict), []);
        assert_eq!(all_ancestors(&outer, account, start, Choice::WithSelf), [start, start + 1, 1, 0]);
    }
    assert_eq!(all_pairs(&outer, &outer, 1, Kind::AncestorOrSelf), [(first, first)]);
    assert_eq!(all_pairs(&outer, &outer, 0, Kind::AncestorOrSelf).last(), Some(&(first - 2, first - 2)));
}

/// A level for each of 255 regions one inside the other; then none is left, around, between or inside.
#[test]
fn as_deep_as_levels() {
    let mut shares = [0; 16];
    shares[0] = 300;
    let mut side = open(shares);
    let region = |i: u32, level| Region { start: 10 * i, end: 10_000 - 10 * i, level, reference: i };
    for i in 1..=255 {
        assert_eq!(check_save(&mut side, 0, region(i, i)), 0);
    }
    for level in [1, 100, 255] {
        assert_eq!(check_save(&mut side, 0, Region { start: 5, end: 9_995, level, reference: 0 }), LEVEL);
        assert_eq!(check_save(&mut side, 0, Region { start: 1_005, end: 8_995, level, reference: 0 }), LEVEL);
        assert_eq!(check_save(&mut side, 0, Region { start: 2_555, end: 2_556, level, reference: 0 }), LEVEL);
    }
    look(&mut Chance::new(3), &side, &open(shares), &[region(7, 7), region(255, 255)], 40);
}

/// By hand: a share of two is full, freed and filled again; a start is saved, deleted and saved; none of the refused stops the others.
#[test]
fn batch_by_hand() {
    let mut shares = [0; 16];
    shares[0] = 2;
    let mut side = open(shares);
    let save = |account, start, end, level| {
        let region = Region { start, end, level, reference: 100 + start };
        Item::Save { account, region }.words()
    };
    let delete = |account, start| Item::Delete { account, start }.words();
    assert_eq!(save(3, 10, 90, 1), [0, 3, 10, 90, 1, 110]);
    assert_eq!(delete(3, 10)[..3], [1, 3, 10]);
    let steps = [
        (save(0, 10, 90, 1), 0),
        (save(0, 20, 50, 2), 0),
        (save(0, 60, 80, 2), SHARE),
        ([2, 0, 20, 50, 2, 0], FORM),
        ([1, 0, 20, 7, 0, u32::MAX], 0),
        ([1, 0, 20, 50, 2, 0], ABSENT),
        (save(0, 60, 80, 2), 0),
        (delete(0, 60), 0),
        (save(0, 60, 70, 9), 0),
        (save(0, 60, 70, 9), HELD),
        ([0, 16, 50, 20, 2, 0], REGION),
        (save(16, 30, 40, 2), ACCOUNT),
        (save(1, 30, 40, 2), ACCOUNT),
        (delete(16, 60), ACCOUNT),
        ([u32::MAX, 16, 50, 20, 0, 0], FORM),
        (save(0, 5, 65, 1), CROSS),
        (save(0, 61, 62, 9), LEVEL),
    ];
    let items: Vec<u32> = steps.iter().flat_map(|s| s.0).collect();
    let numbers: Vec<u32> = steps.iter().map(|s| s.1).collect();
    // words that are not whole items, whatever the places; places too few; no words at all
    let lent = vec![77; numbers.len() + 2];
    for words in [1, 5, 7, items.len() - 1] {
        assert_eq!(check_batch(&mut side, &items[..words], &lent), (FORM, lent.clone()));
        assert_eq!(check_batch(&mut side, &items[..words], &[]), (FORM, vec![]));
    }
    assert_eq!(check_batch(&mut side, &items, &lent[3..]), (ROOM, lent[3..].to_vec()));
    assert_eq!(check_batch(&mut side, &items[..6], &[]), (ROOM, vec![]));
    assert_eq!(check_batch(&mut side, &[], &[]), (0, vec![]));
    assert_eq!(check_batch(&mut side, &[], &lent), (0, lent.clone()));
    let right: Vec<u32> = numbers.iter().copied().chain([77, 77]).collect();
    assert_eq!(check_batch(&mut side, &items, &lent), (0, right));
    let held = [(10, 90, 1), (60, 70, 9)].map(|(start, end, level)| Region { start, end, level, reference: 100 + start });
    assert_eq!(read(&side.image).unwrap().set.regions, held);
    // an image that is not valid: told before all else
    side.image[1] = 0;
    side.held = None;
    for words in [0, 5, 6] {
        assert_eq!(check_batch(&mut side, &items[..words], &[]), (IMAGE, vec![]));
    }
    assert_eq!(sasnuvarth::batch(&mut side.image, &items, &mut [0; 17]), Err(Refusal::Image));
}
