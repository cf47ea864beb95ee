//! What the library is measured against: regions in an array sorted by start, searched by scans; and the Stack-Tree-Desc merge join of
//! two such arrays. Neither tests an image: there is none.

use sasnuvarth::{Kind, Region};

pub struct Sorted {
    pub share: usize,
    pub regions: Vec<Region>,
}

fn crosses(x: &Region, y: &Region) -> bool {
    let apart = x.end < y.start || y.end < x.start;
    let around = (x.start < y.start && y.end < x.end) || (y.start < x.start && x.end < y.end);
    !apart && !around
}

fn contradicts(x: &Region, y: &Region) -> bool {
    let in_order = |a: &Region, b: &Region| a.start > b.start || a.end < b.end || a.level < b.level;
    !in_order(x, y) || !in_order(y, x)
}

fn well_formed(r: &Region) -> bool {
    r.start < r.end && r.start >> 16 == r.end >> 16 && r.level >= 1 && r.level <= 255
}

/// Lent words, written four at a time as long as they last, and a count of all.
pub struct Out<'a> {
    words: &'a mut [u32],
    pub total: usize,
}

impl<'a> Out<'a> {
    pub fn new(words: &'a mut [u32]) -> Out<'a> {
        Out { words, total: 0 }
    }

    fn is_full(&self) -> bool {
        4 * self.total + 4 > self.words.len()
    }

    fn put(&mut self, item: [u32; 4]) {
        let at = 4 * self.total;
        if let Some(room) = self.words.get_mut(at..at + 4) {
            room.copy_from_slice(&item);
        }
        self.total += 1;
    }

    fn put_region(&mut self, r: &Region) {
        self.put([r.start, r.end, r.level, r.reference]);
    }

    fn put_pair(&mut self, a: &Region, d: &Region) {
        self.put([a.start, a.reference, d.start, d.reference]);
    }
}

/// The first start that comes too late to hold d's: by ancestor or self d's own does not.
fn too_late(kind: Kind, d: &Region) -> u32 {
    d.start + u32::from(kind == Kind::AncestorOrSelf)
}

/// Of an a that starts in time.
fn pairs(kind: Kind, a: &Region, d: &Region) -> bool {
    d.start < a.end && (kind != Kind::Parent || a.level + 1 == d.level)
}

impl Sorted {
    pub fn save(&mut self, account: u32, r: Region) -> u32 {
        if !well_formed(&r) {
            return 2;
        }
        if account > 15 || r.start >> 28 != account {
            return 3;
        }
        let at = self.regions.partition_point(|x| x.start < r.start);
        if self.regions.get(at).is_some_and(|x| x.start == r.start) {
            return 4;
        }
        if self.regions.iter().any(|x| crosses(x, &r)) {
            return 5;
        }
        if self.regions.iter().any(|x| contradicts(x, &r)) {
            return 14;
        }
        if self.regions.iter().filter(|x| x.start >> 28 == account).count() >= self.share {
            return 6;
        }
        self.regions.insert(at, r);
        0
    }

    pub fn delete(&mut self, account: u32, start: u32) -> u32 {
        if account > 15 || start >> 28 != account {
            return 3;
        }
        match self.regions.iter().position(|x| x.start == start) {
            None => 7,
            Some(at) => {
                self.regions.remove(at);
                0
            }
        }
    }

    pub fn ancestors(&self, p: u32, out: &mut Out) {
        for r in self.regions.iter().take_while(|r| r.start < p) {
            if p < r.end {
                out.put_region(r);
            }
        }
    }

    /// There is one or none, so the scan ends at the first that fits.
    pub fn parent(&self, p: u32, level: u32) -> Option<Region> {
        for r in &self.regions {
            if r.start >= p {
                return None;
            }
            if p < r.end && r.level.wrapping_add(1) == level {
                return Some(*r);
            }
        }
        None
    }

    pub fn descendants(&self, start: u32, end: u32, after: u32, out: &mut Out) {
        for r in self.regions.iter().skip_while(|r| r.start <= start || r.start <= after).take_while(|r| r.start < end) {
            out.put_region(r);
        }
    }

    pub fn children(&self, start: u32, end: u32, level: u32, after: u32, out: &mut Out) {
        for r in self.regions.iter().skip_while(|r| r.start <= start || r.start <= after).take_while(|r| r.start < end) {
            if r.level == level + 1 {
                out.put_region(r);
            }
        }
    }

    /// For each d, a scan of the other array.
    pub fn join(&self, inner: &Sorted, kind: Kind, out: &mut Out) {
        for d in &inner.regions {
            let late = too_late(kind, d);
            for a in self.regions.iter().take_while(|a| a.start < late) {
                if pairs(kind, a, d) {
                    out.put_pair(a, d);
                }
            }
        }
    }

    /// The next pairs past a mark (d's start, a's start), as many as fit.
    pub fn join_past(&self, inner: &Sorted, kind: Kind, mark: (u32, u32), out: &mut Out) {
        for d in inner.regions.iter().skip_while(|d| d.start < mark.0) {
            let late = too_late(kind, d);
            for a in self.regions.iter().take_while(|a| a.start < late) {
                if pairs(kind, a, d) && (d.start, a.start) > mark {
                    if out.is_full() {
                        return;
                    }
                    out.put_pair(a, d);
                }
            }
        }
    }

    /// Stack-Tree-Desc: both arrays are read once; the stack has the regions of outer that hold the place read.
    pub fn merge_join(&self, inner: &Sorted, kind: Kind, out: &mut Out) {
        let mut stack: Vec<&Region> = Vec::with_capacity(64);
        let mut coming = self.regions.iter().peekable();
        for d in &inner.regions {
            let late = too_late(kind, d);
            while let Some(a) = coming.next_if(|a| a.start < late) {
                while stack.last().is_some_and(|top| top.end < a.start) {
                    stack.pop();
                }
                stack.push(a);
            }
            while stack.last().is_some_and(|top| top.end <= d.start) {
                stack.pop();
            }
            for a in &stack {
                if pairs(kind, a, d) {
                    out.put_pair(a, d);
                }
            }
        }
    }
}
