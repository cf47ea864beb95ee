//! Reads an image's words as docs/LAYOUT.md lays them out, and tests the scope paper's seven rules one by one, by brute force.

use super::{account_of, holds, leveled, nested, spans, well_formed, Set};
use sasnuvarth::Region;

pub struct Entry {
    region: Region,
    flag: u32,
}

pub struct Key {
    key: u32,
    pair: (u32, u32),
    places: Vec<u32>,
    list: Vec<Region>,
}

/// A page: a leaf has entries, an inner page keys and one child more.
pub struct Page {
    place: u32,
    next: u32,
    entries: Vec<Entry>,
    keys: Vec<Key>,
    children: Vec<Page>,
}

pub struct Read {
    pub set: Set,
    root: Page,
}

fn region_at(words: &[u32], at: usize) -> Region {
    Region { start: words[at], end: words[at + 1], level: words[at + 2], reference: words[at + 3] }
}

/// A stab list; none where it leaves the places or does not end.
fn list_from(words: &[u32], head: u32) -> Option<(Vec<u32>, Vec<Region>)> {
    let (mut places, mut regions, mut q) = (Vec::new(), Vec::new(), head);
    while q != 0 {
        if q > 500 || places.len() == 500 {
            return None;
        }
        let at = 9177 + 6 * q as usize;
        places.push(q);
        regions.push(region_at(words, at));
        q = words[at + 4];
    }
    Some((places, regions))
}

/// The pages from a place on down, `below` of them under it; none where a place or a fill is out of range.
fn page_from(words: &[u32], place: u32, below: u32, least: usize) -> Option<Page> {
    if place < 1 || place > 160 {
        return None;
    }
    let at = 57 * place as usize;
    let fill = words[at + 1] as usize;
    if fill < least || fill > 8 {
        return None;
    }
    let mut page = Page { place, next: words[at + 2], entries: Vec::new(), keys: Vec::new(), children: Vec::new() };
    if below == 0 {
        for i in 0..fill {
            let entry = at + 3 + 6 * i;
            page.entries.push(Entry { region: region_at(words, entry), flag: words[entry + 4] });
        }
        return Some(page);
    }
    for i in 0..fill {
        let key = at + 3 + 4 * i;
        let (places, list) = list_from(words, words[key + 3])?;
        page.keys.push(Key { key: words[key], pair: (words[key + 1], words[key + 2]), places, list });
    }
    for i in 0..=fill {
        page.children.push(page_from(words, words[at + 39 + i], below - 1, 4)?);
    }
    Some(page)
}

impl Page {
    fn leaves<'a>(&'a self, into: &mut Vec<&'a Page>) {
        if self.children.is_empty() {
            into.push(self);
        }
        self.children.iter().for_each(|c| c.leaves(into));
    }

    fn pages<'a>(&'a self, into: &mut Vec<&'a Page>) {
        into.push(self);
        self.children.iter().for_each(|c| c.pages(into));
    }

    /// Starts and keys from left to right: (is a key, number).
    fn in_order(&self, into: &mut Vec<(bool, u32)>) {
        into.extend(self.entries.iter().map(|e| (false, e.region.start)));
        for (i, child) in self.children.iter().enumerate() {
            child.in_order(into);
            into.extend(self.keys.get(i).map(|k| (true, k.key)));
        }
    }
}

fn stabs(key: u32, r: &Region) -> bool {
    r.start <= key && key <= r.end
}

/// Rules 3, 4 and 5 of an inner page and those below it: each key's list is what it should be, and its pair.
fn lists_right(page: &Page, above: &[u32], regions: &[Region]) -> bool {
    for (i, k) in page.keys.iter().enumerate() {
        let earlier: Vec<u32> = page.keys[..i].iter().map(|e| e.key).collect();
        let own: Vec<Region> = regions
            .iter()
            .filter(|r| stabs(k.key, r) && !earlier.iter().chain(above).any(|&e| stabs(e, r)))
            .copied()
            .collect();
        let pair = own.first().map_or((0, 0), |r| (r.start, r.end));
        if k.list != own || k.pair != pair {
            return false;
        }
    }
    let mut here: Vec<u32> = page.keys.iter().map(|k| k.key).collect();
    here.extend(above);
    page.children.iter().all(|c| lists_right(c, &here, regions))
}

/// Rule 7: every place is listed as often as it is in use.
fn placed(used: impl Fn(u32) -> bool, places: u32, listed: &[u32]) -> bool {
    (1..=places).all(|p| listed.iter().filter(|&&q| q == p).count() == usize::from(used(p)))
}

fn tree_right(words: &[u32], root: &Page, regions: &[Region]) -> bool {
    let (mut leaves, mut pages, mut items) = (Vec::new(), Vec::new(), Vec::new());
    root.leaves(&mut leaves);
    root.pages(&mut pages);
    root.in_order(&mut items);
    let links = leaves.iter().skip(1).map(|l| l.place).chain([0]);
    let linked = leaves.iter().zip(links).all(|(l, next)| l.next == next);
    let ascending = regions.windows(2).all(|w| w[0].start < w[1].start);
    let separated = items.iter().enumerate().all(|(i, &(key, k))| {
        !key || (items[..i].iter().all(|&(other, s)| other || s < k) && items[i..].iter().all(|&(other, s)| other || k <= s))
    });
    let keys: Vec<u32> = items.iter().filter(|i| i.0).map(|i| i.1).collect();
    let flagged = leaves.iter().flat_map(|l| &l.entries).all(|e| e.flag == u32::from(keys.iter().any(|&k| stabs(k, &e.region))));
    let places: Vec<u32> = pages.iter().map(|p| p.place).collect();
    let records: Vec<u32> = pages.iter().flat_map(|p| &p.keys).flat_map(|k| k.places.clone()).collect();
    linked
        && ascending
        && separated
        && flagged
        && lists_right(root, &[], regions)
        && placed(|p| words[57 * p as usize] != 0, 160, &places)
        && placed(|q| words[9177 + 6 * q as usize + 1] != 0, 500, &records)
}

fn set_right(set: &Set) -> bool {
    let sum: u64 = set.shares.iter().map(|&s| u64::from(s)).sum();
    let rs = &set.regions;
    let held = |a: usize| rs.iter().filter(|r| account_of(r.start) as usize == a).count();
    sum <= 500
        && rs.iter().all(well_formed)
        && rs.iter().enumerate().all(|(i, x)| rs[i + 1..].iter().all(|y| nested(x, y) && leveled(x, y)))
        && (0..16).all(|a| held(a) <= set.shares[a] as usize)
}

/// The set that an image means, if it is valid.
pub fn read(words: &[u32]) -> Option<Read> {
    if words.len() != 12_288 || words[1] < 1 || words[1] > 4 {
        return None;
    }
    let below = words[1] - 1;
    let root = page_from(words, words[0], below, if below == 0 { 0 } else { 1 })?;
    let mut leaves = Vec::new();
    root.leaves(&mut leaves);
    let regions: Vec<Region> = leaves.iter().flat_map(|l| &l.entries).map(|e| e.region).collect();
    let mut shares = [0; 16];
    shares.copy_from_slice(&words[2..18]);
    let set = Set { shares, regions };
    let right = tree_right(words, &root, &set.regions) && set_right(&set);
    right.then_some(Read { set, root })
}

impl Read {
    /// Steps of an ancestor search: pages on p's path, and in each inner page there the records looked at.
    pub fn steps(&self, choice: u32, p: u32) -> usize {
        let (mut page, mut steps) = (&self.root, 1);
        while !page.children.is_empty() {
            let right_of = page.keys.iter().filter(|k| k.key <= p).count();
            for k in page.keys.iter().take(right_of + 1).filter(|k| spans(choice, k.pair, p)) {
                let held = k.list.iter().take_while(|r| holds(choice, r, p)).count();
                steps += (held + 1).min(k.list.len());
            }
            page = &page.children[right_of];
            steps += 1;
        }
        steps
    }
}
