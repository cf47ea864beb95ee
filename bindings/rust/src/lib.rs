//! Sets of regions in lent images, joins of two of them, and a desk that deals such a join out in rounds: safe calls of the proved
//! library.
//!
//! The library keeps nothing and allocates nothing. A set is an image of [`IMAGE_WORDS`] words that the caller owns; answers go
//! into words that the caller lends, as many as fit, and all other words stay as they were. What each call answers is proved, of
//! every input. What is not proved is this border: that `raw` names the functions rightly, and the `unsafe` blocks below, each of
//! which only takes slices apart. A shared slice goes over for words that are read and an exclusive one for words that are
//! written, so that Rust's own rules give the proofs what they ask of their caller.

mod desk;
pub mod raw;

pub use desk::{Desk, Mark, Seat, BUFFER_WORDS, HOUSE_LIMIT, MOST_A_ROUND};

/// Words of an image.
pub const IMAGE_WORDS: usize = 12288;

/// Words of an item of a batch.
pub const ITEM_WORDS: usize = 6;

/// An element of a document: where it starts and ends, its depth, and the caller's reference to it.
#[derive(Clone, Copy, Debug, PartialEq, Eq)]
pub struct Region {
    pub start: u32,
    pub end: u32,
    pub level: u32,
    pub reference: u32,
}

/// One change of a batch.
#[derive(Clone, Copy, Debug, PartialEq, Eq)]
pub enum Item {
    Save { account: u32, region: Region },
    Delete { account: u32, start: u32 },
}

impl Item {
    /// As a batch takes it. Behind a delete's start no word is read; here they are 0.
    pub fn words(self) -> [u32; ITEM_WORDS] {
        match self {
            Item::Save { account, region: Region { start, end, level, reference } } => [0, account, start, end, level, reference],
            Item::Delete { account, start } => [1, account, start, 0, 0, 0],
        }
    }
}

/// Whether a region that starts at a position holds it. One that ends there never does.
#[derive(Clone, Copy, Debug, PartialEq, Eq)]
pub enum Choice {
    Strict,
    WithSelf,
}

impl Choice {
    fn number(self) -> u32 {
        match self {
            Choice::Strict => 0,
            Choice::WithSelf => 1,
        }
    }
}

/// What a join pairs.
#[derive(Clone, Copy, Debug, PartialEq, Eq)]
pub enum Kind {
    Ancestor,
    Parent,
    /// By position alone: across two sets any a that starts where d does is paired too, whatever the levels.
    AncestorOrSelf,
}

impl Kind {
    fn of(number: u32) -> Kind {
        match number {
            0 => Kind::Ancestor,
            2 => Kind::AncestorOrSelf,
            _ => Kind::Parent,
        }
    }

    fn number(self) -> u32 {
        match self {
            Kind::Ancestor => 0,
            Kind::Parent => 1,
            Kind::AncestorOrSelf => 2,
        }
    }
}

/// Why a call was refused, by the library's numbers. A refusal changes no lent word.
#[derive(Clone, Copy, Debug, PartialEq, Eq)]
pub enum Refusal {
    /// The image is not of 12,288 words, or not valid.
    Image = 1,
    /// The region or the bounds are not well formed.
    Region = 2,
    /// The account is above 15, or a position is of another account.
    Account = 3,
    /// The set already has a region there: another one starts at that position.
    Held = 4,
    /// It crosses a held region.
    Cross = 5,
    /// The account holds its share.
    Share = 6,
    /// Nothing in the set starts at that position.
    Absent = 7,
    /// The shares sum to more than 500.
    Shares = 8,
    /// The seat is above 7, opened twice, or closed.
    Seat = 9,
    /// The limit is above 32, or the count above the seat's limit.
    Limit = 10,
    /// An open seat is out of its ranges, or the buffer is not of 1,024 words.
    Desk = 11,
    /// A batch's words are not whole items; of an item: its first word is neither a save's nor a delete's.
    Form = 12,
    /// There are fewer places than items.
    Room = 13,
    /// Its level contradicts a held region's: it has to be greater than those of all regions around it, and smaller than those of all inside.
    Level = 14,
}

impl Refusal {
    /// The refusal with that number; 0 is none.
    pub fn of(number: u32) -> Option<Refusal> {
        Some(match number {
            1 => Refusal::Image,
            2 => Refusal::Region,
            3 => Refusal::Account,
            4 => Refusal::Held,
            5 => Refusal::Cross,
            6 => Refusal::Share,
            7 => Refusal::Absent,
            8 => Refusal::Shares,
            9 => Refusal::Seat,
            10 => Refusal::Limit,
            11 => Refusal::Desk,
            12 => Refusal::Form,
            13 => Refusal::Room,
            14 => Refusal::Level,
            _ => return None,
        })
    }
}

/// A call's answer, or why it was refused.
pub type Answer<T> = Result<T, Refusal>;

fn done<T>(number: u32, answer: T) -> Answer<T> {
    match Refusal::of(number) {
        None => Ok(answer),
        Some(refusal) => Err(refusal),
    }
}

/// What an ancestor search tells: how many ancestors there are, and the steps that it made.
#[derive(Clone, Copy, Debug, PartialEq, Eq)]
pub struct Ancestors {
    pub total: usize,
    pub steps: usize,
}

/// What a descendant or child search tells: how many regions it wrote, and whether more remain.
#[derive(Clone, Copy, Debug, PartialEq, Eq)]
pub struct Listed {
    pub count: usize,
    pub more: bool,
}

/// An image's words, all 0: to be opened before use.
pub fn blank_image() -> Box<[u32]> {
    vec![0; IMAGE_WORDS].into_boxed_slice()
}

/// Makes an image an empty set, with so many regions for each account. The old words are not read.
pub fn open_set(image: &mut [u32], shares: &[u32; 16]) -> Answer<()> {
    let number = unsafe { raw::sasnuvarth_open_set(image.as_mut_ptr(), image.len(), shares.as_ptr()) };
    done(number, ())
}

/// Saves a region.
pub fn save(image: &mut [u32], account: u32, region: Region) -> Answer<()> {
    let Region { start, end, level, reference } = region;
    let number = unsafe { raw::sasnuvarth_save(image.as_mut_ptr(), image.len(), account, start, end, level, reference) };
    done(number, ())
}

/// Deletes the region that starts at `start`.
pub fn delete(image: &mut [u32], account: u32, start: u32) -> Answer<()> {
    let number = unsafe { raw::sasnuvarth_delete(image.as_mut_ptr(), image.len(), account, start) };
    done(number, ())
}

/// Saves and deletes in the items' order, six words each ([`Item::words`]; any words may be given), with one test of the image for all of
/// them. Each item's place gets its number: what the single call would answer on what the items before it left ([`Refusal::of`] names it; 0 is
/// done). A refused item changes nothing and does not stop the others. Further places stay.
pub fn batch(image: &mut [u32], items: &[u32], places: &mut [u32]) -> Answer<()> {
    let number = unsafe {
        raw::sasnuvarth_batch(image.as_mut_ptr(), image.len(), items.as_ptr(), items.len(), places.as_mut_ptr(), places.len())
    };
    done(number, ())
}

/// The regions that hold p, by the choice, outermost first: four words each, as many as fit. With self the one that starts at p is the last.
pub fn ancestors(image: &[u32], account: u32, p: u32, choice: Choice, out: &mut [u32]) -> Answer<Ancestors> {
    let told = unsafe {
        raw::sasnuvarth_ancestors(image.as_ptr(), image.len(), account, p, choice.number(), out.as_mut_ptr(), out.len())
    };
    done(told.number, Ancestors { total: told.total, steps: told.steps })
}

/// The region that strictly holds p and whose level is one less than the given one. There is at most one: no two that hold p have the same
/// level.
pub fn parent(image: &[u32], account: u32, p: u32, level: u32) -> Answer<Option<Region>> {
    let told = unsafe { raw::sasnuvarth_parent(image.as_ptr(), image.len(), account, p, level) };
    let region = Region { start: told.start, end: told.end, level: told.level, reference: told.reference };
    done(told.number, told.found.then_some(region))
}

/// The regions that start strictly inside the bounds and behind `after`, ascending: four words each, as many as fit.
pub fn descendants(image: &[u32], account: u32, start: u32, end: u32, after: u32, out: &mut [u32]) -> Answer<Listed> {
    let told = unsafe {
        raw::sasnuvarth_descendants(image.as_ptr(), image.len(), account, start, end, after, out.as_mut_ptr(), out.len())
    };
    done(told.number, Listed { count: told.count, more: told.more })
}

/// Those of the descendants whose level is one more than the given one.
pub fn children(image: &[u32], account: u32, start: u32, end: u32, level: u32, after: u32, out: &mut [u32]) -> Answer<Listed> {
    let told = unsafe {
        raw::sasnuvarth_children(image.as_ptr(), image.len(), account, start, end, level, after, out.as_mut_ptr(), out.len())
    };
    done(told.number, Listed { count: told.count, more: told.more })
}

/// The pairs of an account, a of outer and d of inner, by d's start and then a's: four words each (a start, a reference, d start,
/// d reference), as many as fit. Answers how many there are. Both sets may be one image. By parent each d stands in one pair at most.
/// By ancestor or self, where both are one set, each d's last pair is with itself.
pub fn join(outer: &[u32], inner: &[u32], account: u32, kind: Kind, out: &mut [u32]) -> Answer<usize> {
    let told = unsafe {
        raw::sasnuvarth_join(
            outer.as_ptr(),
            outer.len(),
            inner.as_ptr(),
            inner.len(),
            account,
            kind.number(),
            out.as_mut_ptr(),
            out.len(),
        )
    };
    done(told.number, told.total)
}
