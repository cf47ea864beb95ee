//! Inputs by chance, the same in every run.

use sasnuvarth::Region;

pub struct Chance(u64);

impl Chance {
    pub fn new(seed: u64) -> Chance {
        Chance(seed.wrapping_mul(0x9E37_79B9_7F4A_7C15) ^ 0x2545_F491_4F6C_DD1D)
    }

    pub fn word(&mut self) -> u32 {
        self.0 = self.0.wrapping_add(0x9E37_79B9_7F4A_7C15);
        let mut z = self.0;
        z = (z ^ (z >> 30)).wrapping_mul(0xBF58_476D_1CE4_E5B9);
        z = (z ^ (z >> 27)).wrapping_mul(0x94D0_49BB_1331_11EB);
        (z >> 32) as u32
    }

    /// A number below n, which is not 0.
    pub fn below(&mut self, n: u32) -> u32 {
        (u64::from(self.word()) * u64::from(n) >> 32) as u32
    }

    pub fn percent(&mut self, n: u32) -> bool {
        self.below(100) < n
    }

    pub fn pick<T: Copy>(&mut self, from: &[T]) -> T {
        from[self.below(from.len() as u32) as usize]
    }

    pub fn shuffle<T>(&mut self, items: &mut [T]) {
        for i in (1..items.len()).rev() {
            items.swap(i, self.below(i as u32 + 1) as usize);
        }
    }

    /// One of them, now and then a level deeper: so two sets may have a start in common where the levels are a parent's and its child's.
    pub fn deeper(&mut self, from: &[Region]) -> Region {
        let r = self.pick(from);
        Region { level: r.level + u32::from(self.percent(15)), ..r }
    }

    /// A number for a choice: 0 and the others mean two.
    pub fn choice(&mut self) -> u32 {
        if self.percent(90) { self.below(2) } else { self.word() }
    }

    /// A number for a kind: 0, 2 and the others mean three.
    pub fn kind(&mut self) -> u32 {
        if self.percent(90) { self.below(4) } else { self.word() }
    }

    /// Words to lend, of no meaning.
    pub fn words(&mut self, n: usize) -> Vec<u32> {
        (0..n).map(|_| self.word()).collect()
    }
}

#[derive(Clone, Copy, Debug, PartialEq)]
pub enum Shape {
    Flat,
    Mixed,
    Deep,
}

pub const SHAPES: [Shape; 3] = [Shape::Flat, Shape::Mixed, Shape::Deep];

/// As deep as regions can lie in one another: a level for each.
pub const DEEPEST: usize = 255;

/// n regions that nest rightly and are leveled as they nest, in one document from `base` on. Positions stand `gap` apart. The deep shape goes down to the
/// last level, and has the others side by side there.
pub fn nest(chance: &mut Chance, shape: Shape, base: u32, gap: u32, n: u32) -> Vec<Region> {
    // a walk of opened and closed elements: a region is one that was opened and closed
    let (mut open, mut regions, mut p, mut opened) = (Vec::new(), Vec::new(), base, 0);
    while opened < n || !open.is_empty() {
        let around = open.last().map_or(0, |&(_, level)| level);
        let opens = opened < n
            && around < DEEPEST as u32
            && match shape {
                Shape::Flat => open.is_empty(),
                Shape::Deep => true,
                Shape::Mixed => open.is_empty() || chance.percent(50),
            };
        p += 1 + chance.below(gap);
        if opens {
            // some elements between the two are not in the set, but the deep shape has all
            let left_out = if shape != Shape::Deep && chance.percent(10) { chance.below(3) } else { 0 };
            open.push((p, (around + 1 + left_out).min(DEEPEST as u32)));
            opened += 1;
        } else {
            let (start, level) = open.pop().unwrap();
            regions.push(Region { start, end: p, level, reference: chance.word() });
        }
    }
    regions
}

/// The same regions, some of them at levels that say something else.
pub fn mislevel(chance: &mut Chance, regions: &mut [Region]) {
    for r in regions {
        if chance.percent(10) {
            r.level = 1 + chance.below(DEEPEST as u32);
        }
    }
}
