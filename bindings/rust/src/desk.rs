//! The desk of eight partner seats.

use crate::raw::{self, FlatDesk, FlatSeat};
use crate::{done, Answer, Kind};

/// Words of a round buffer: 128 for each seat.
pub const BUFFER_WORDS: usize = 1024;

/// Pairs a round of a seat that is opened with limit 0.
pub const HOUSE_LIMIT: u32 = 8;

/// Pairs a round that a seat may ask for at most.
pub const MOST_A_ROUND: u32 = 32;

/// How far a seat has been served: the last pair handed, by a's start and d's start.
#[derive(Clone, Copy, Debug, PartialEq, Eq)]
pub enum Mark {
    Fresh,
    Last { a: u32, d: u32 },
}

#[derive(Clone, Copy, Debug, PartialEq, Eq)]
pub enum Seat {
    Closed,
    Open { account: u32, kind: Kind, limit: u32, mark: Mark },
}

/// Eight seats. A round serves them from 0 to 7.
#[derive(Clone, Copy, Debug, PartialEq, Eq)]
pub struct Desk {
    flat: FlatDesk,
}

fn flat_seat(seat: Seat) -> FlatSeat {
    let Seat::Open { account, kind, limit, mark } = seat else {
        return FlatSeat { opened: 0, account: 0, kind: 0, limit: 0, marked: 0, a: 0, d: 0 };
    };
    let (marked, a, d) = match mark {
        Mark::Fresh => (0, 0, 0),
        Mark::Last { a, d } => (1, a, d),
    };
    FlatSeat { opened: 1, account, kind: kind.number(), limit, marked, a, d }
}

fn seat_of(flat: FlatSeat) -> Seat {
    if flat.opened == 0 {
        return Seat::Closed;
    }
    let mark = if flat.marked == 0 { Mark::Fresh } else { Mark::Last { a: flat.a, d: flat.d } };
    Seat::Open { account: flat.account, kind: Kind::of(flat.kind), limit: flat.limit, mark }
}

impl Desk {
    /// A desk whose seats are all closed.
    pub fn open() -> Desk {
        Desk { flat: unsafe { raw::sasnuvarth_open_desk() } }
    }

    /// A desk as it was told before by [`Desk::seats`].
    pub fn of(seats: [Seat; 8]) -> Desk {
        Desk { flat: FlatDesk { seats: seats.map(flat_seat) } }
    }

    pub fn seats(&self) -> [Seat; 8] {
        self.flat.seats.map(seat_of)
    }

    /// Opens a closed seat. A limit of 0 asks for as many pairs a round as the house gives, [`HOUSE_LIMIT`]; by number up to
    /// [`MOST_A_ROUND`] may be asked for.
    pub fn open_seat(&mut self, seat: u32, account: u32, kind: Kind, limit: u32) -> Answer<()> {
        let told = unsafe { raw::sasnuvarth_open_seat(self.flat, seat, account, kind.number(), limit) };
        self.flat = told.desk;
        done(told.number, ())
    }

    /// Closes an open seat and forgets its mark.
    pub fn close_seat(&mut self, seat: u32) -> Answer<()> {
        let told = unsafe { raw::sasnuvarth_close_seat(self.flat, seat) };
        self.flat = told.desk;
        done(told.number, ())
    }

    /// Hands each open seat its next pairs, as many as its limit, from word 128 times the seat on, and answers the eight counts.
    /// Both sets may be one image.
    pub fn round(&mut self, outer: &[u32], inner: &[u32], buffer: &mut [u32]) -> Answer<[u32; 8]> {
        let told = unsafe {
            raw::sasnuvarth_round(
                outer.as_ptr(),
                outer.len(),
                inner.as_ptr(),
                inner.len(),
                self.flat,
                buffer.as_mut_ptr(),
                buffer.len(),
            )
        };
        self.flat = told.desk;
        done(told.number, told.counts)
    }

    /// A seat's part of the round buffer: `count` pairs of four words.
    pub fn part<'a>(&self, buffer: &'a [u32], seat: u32, count: u32) -> Answer<&'a [u32]> {
        let told = unsafe { raw::sasnuvarth_part(self.flat, buffer.as_ptr(), buffer.len(), seat, count) };
        done(told.number, &buffer[told.first..told.first + told.words])
    }
}
