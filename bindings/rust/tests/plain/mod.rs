//! The scope paper's definitions by brute force: a set is a list of regions in no order, and every answer is worked out by looking
//! at all of them. Nothing here knows of trees; `image` reads an image's words, `chance` makes inputs.
#![allow(dead_code)]

pub mod chance;
pub mod desk;
pub mod image;

use sasnuvarth::Region;

pub const IMAGE: u32 = 1;
pub const REGION: u32 = 2;
pub const ACCOUNT: u32 = 3;
pub const HELD: u32 = 4;
pub const CROSS: u32 = 5;
pub const SHARE: u32 = 6;
pub const ABSENT: u32 = 7;
pub const SHARES: u32 = 8;
pub const FORM: u32 = 12;
pub const ROOM: u32 = 13;
pub const LEVEL: u32 = 14;

pub fn document_of(p: u32) -> u32 {
    p / 65_536
}

pub fn account_of(p: u32) -> u32 {
    p / 268_435_456
}

pub fn well_bound(start: u32, end: u32) -> bool {
    start < end && document_of(start) == document_of(end)
}

pub fn well_formed(r: &Region) -> bool {
    well_bound(r.start, r.end) && r.level >= 1 && r.level <= 255
}

fn around(x: &Region, y: &Region) -> bool {
    x.start < y.start && y.end < x.end
}

pub fn nested(x: &Region, y: &Region) -> bool {
    let apart = x.end < y.start || y.end < x.start;
    apart || around(x, y) || around(y, x)
}

/// Whether the levels say how the two nest: what lies around has the smaller one.
pub fn leveled(x: &Region, y: &Region) -> bool {
    (!around(x, y) || x.level < y.level) && (!around(y, x) || y.level < x.level)
}

/// By a choice's number: 0 is strict, and by any other the first bound may be p itself.
pub fn spans(choice: u32, (start, end): (u32, u32), p: u32) -> bool {
    (start < p || (choice != 0 && start == p)) && p < end
}

pub fn holds(choice: u32, r: &Region, p: u32) -> bool {
    spans(choice, (r.start, r.end), p)
}

fn foreign(account: u32, p: u32) -> bool {
    account > 15 || account_of(p) != account
}

#[derive(Clone, Debug, PartialEq, Eq)]
pub struct Set {
    pub shares: [u32; 16],
    pub regions: Vec<Region>,
}

fn ascending(mut regions: Vec<Region>) -> Vec<Region> {
    regions.sort_by_key(|r| r.start);
    regions
}

pub fn open_number(words: usize, shares: &[u32; 16]) -> u32 {
    let sum: u64 = shares.iter().map(|&s| u64::from(s)).sum();
    match () {
        _ if words != 12_288 => IMAGE,
        _ if sum > 500 => SHARES,
        _ => 0,
    }
}

pub fn batch_number(items: &[u32], places: &[u32]) -> u32 {
    match () {
        _ if items.chunks(6).any(|item| item.len() < 6) => FORM,
        _ if items.chunks(6).count() > places.len() => ROOM,
        _ => 0,
    }
}

impl Set {
    pub fn empty(shares: [u32; 16]) -> Set {
        Set { shares, regions: Vec::new() }
    }

    /// The same set, its regions by start: for comparing.
    pub fn sorted(&self) -> Set {
        Set { shares: self.shares, regions: ascending(self.regions.clone()) }
    }

    fn held_by(&self, account: u32) -> usize {
        self.regions.iter().filter(|r| account_of(r.start) == account).count()
    }

    pub fn save_number(&self, account: u32, r: &Region) -> u32 {
        match () {
            _ if !well_formed(r) => REGION,
            _ if foreign(account, r.start) => ACCOUNT,
            _ if self.regions.iter().any(|x| x.start == r.start) => HELD,
            _ if self.regions.iter().any(|x| !nested(x, r)) => CROSS,
            _ if self.regions.iter().any(|x| !leveled(x, r)) => LEVEL,
            _ if self.held_by(account) >= self.shares[account as usize] as usize => SHARE,
            _ => 0,
        }
    }

    pub fn delete_number(&self, account: u32, start: u32) -> u32 {
        match () {
            _ if foreign(account, start) => ACCOUNT,
            _ if !self.regions.iter().any(|x| x.start == start) => ABSENT,
            _ => 0,
        }
    }

    pub fn save(&mut self, account: u32, r: Region) -> u32 {
        let number = self.save_number(account, &r);
        if number == 0 {
            self.regions.push(r);
        }
        number
    }

    pub fn delete(&mut self, account: u32, start: u32) -> u32 {
        let number = self.delete_number(account, start);
        if number == 0 {
            self.regions.retain(|r| r.start != start);
        }
        number
    }

    /// The number of a batch, and the places behind it: one item after the other, by the single calls.
    pub fn batch(&mut self, items: &[u32], places: &[u32]) -> (u32, Vec<u32>) {
        let (number, mut after) = (batch_number(items, places), places.to_vec());
        if number == 0 {
            for (place, item) in after.iter_mut().zip(items.chunks(6)) {
                *place = match item[0] {
                    0 => self.save(item[1], Region { start: item[2], end: item[3], level: item[4], reference: item[5] }),
                    1 => self.delete(item[1], item[2]),
                    _ => FORM,
                };
            }
        }
        (number, after)
    }

    pub fn point_number(&self, account: u32, p: u32) -> u32 {
        if foreign(account, p) { ACCOUNT } else { 0 }
    }

    pub fn bounds_number(&self, account: u32, start: u32, end: u32) -> u32 {
        match () {
            _ if !well_bound(start, end) => REGION,
            _ if foreign(account, start) => ACCOUNT,
            _ => 0,
        }
    }

    pub fn ancestors(&self, choice: u32, p: u32) -> Vec<Region> {
        ascending(self.regions.iter().filter(|r| holds(choice, r, p)).copied().collect())
    }

    /// One or none: no two ancestors of a position have the same level.
    pub fn parent(&self, p: u32, level: u32) -> Option<Region> {
        let mut above = self.ancestors(0, p).into_iter().filter(|r| r.level.checked_add(1) == Some(level));
        let parent = above.next();
        assert_eq!(above.next(), None, "a second parent of {p} at {level}");
        parent
    }

    pub fn descendants(&self, start: u32, end: u32, after: u32) -> Vec<Region> {
        ascending(self.regions.iter().filter(|r| r.start > start && r.start < end && r.start > after).copied().collect())
    }

    pub fn children(&self, start: u32, end: u32, level: u32, after: u32) -> Vec<Region> {
        self.descendants(start, end, after).into_iter().filter(|r| level.checked_add(1) == Some(r.level)).collect()
    }
}

pub fn join_number(account: u32) -> u32 {
    if account > 15 { ACCOUNT } else { 0 }
}

/// A kind's number as a call tells it: 0 by ancestor, 2 by ancestor or self, and for all others 1, by parent.
pub fn kind_told(kind: u32) -> u32 {
    if kind == 0 || kind == 2 { kind } else { 1 }
}

/// The pairs (a, d) of an account. By parent each d stands in one of them at most.
pub fn joined(outer: &Set, inner: &Set, account: u32, kind: u32) -> Vec<(Region, Region)> {
    let (choice, by_parent) = (u32::from(kind == 2), kind_told(kind) == 1);
    let mut pairs = Vec::new();
    for a in outer.regions.iter().filter(|a| account_of(a.start) == account) {
        for d in inner.regions.iter().filter(|d| account_of(d.start) == account) {
            if holds(choice, a, d.start) && (!by_parent || a.level + 1 == d.level) {
                pairs.push((*a, *d));
            }
        }
    }
    pairs.sort_by_key(|(a, d)| (d.start, a.start));
    assert!(!by_parent || pairs.windows(2).all(|two| two[0].1.start < two[1].1.start), "a second parent of one region in {account}");
    pairs
}

/// The outer set of the scope paper's example.
pub const OUTER: [Region; 4] = [
    Region { start: 10, end: 90, level: 1, reference: 101 },
    Region { start: 20, end: 50, level: 2, reference: 102 },
    Region { start: 30, end: 40, level: 3, reference: 103 },
    Region { start: 60, end: 80, level: 2, reference: 104 },
];

/// Lent words after items of four were written into them, as many as fit.
pub fn written(out: &[u32], items: &[[u32; 4]]) -> Vec<u32> {
    let mut after = out.to_vec();
    for (room, item) in after.chunks_exact_mut(4).zip(items) {
        room.copy_from_slice(item);
    }
    after
}

pub fn region_words(regions: &[Region]) -> Vec<[u32; 4]> {
    regions.iter().map(|r| [r.start, r.end, r.level, r.reference]).collect()
}

pub fn pair_words(pairs: &[(Region, Region)]) -> Vec<[u32; 4]> {
    pairs.iter().map(|(a, d)| [a.start, a.reference, d.start, d.reference]).collect()
}
