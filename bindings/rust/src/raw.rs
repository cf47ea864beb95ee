//! The archive's functions as they stand in `include/sasnuvarth.h`.

#[repr(C)]
pub struct AncestorsAnswer {
    pub number: u32,
    pub total: usize,
    pub steps: usize,
}

#[repr(C)]
pub struct ParentAnswer {
    pub number: u32,
    pub found: bool,
    pub start: u32,
    pub end: u32,
    pub level: u32,
    pub reference: u32,
}

#[repr(C)]
pub struct ListAnswer {
    pub number: u32,
    pub more: bool,
    pub count: usize,
}

#[repr(C)]
pub struct JoinAnswer {
    pub number: u32,
    pub total: usize,
}

#[repr(C)]
#[derive(Clone, Copy, Debug, PartialEq, Eq)]
pub struct FlatSeat {
    pub opened: u32,
    pub account: u32,
    pub kind: u32,
    pub limit: u32,
    pub marked: u32,
    pub a: u32,
    pub d: u32,
}

#[repr(C)]
#[derive(Clone, Copy, Debug, PartialEq, Eq)]
pub struct FlatDesk {
    pub seats: [FlatSeat; 8],
}

#[repr(C)]
pub struct DeskAnswer {
    pub number: u32,
    pub desk: FlatDesk,
}

#[repr(C)]
pub struct RoundAnswer {
    pub number: u32,
    pub counts: [u32; 8],
    pub desk: FlatDesk,
}

#[repr(C)]
pub struct PartAnswer {
    pub number: u32,
    pub first: usize,
    pub words: usize,
}

extern "C" {
    pub fn sasnuvarth_open_set(image: *mut u32, image_words: usize, shares: *const u32) -> u32;
    pub fn sasnuvarth_save(
        image: *mut u32,
        image_words: usize,
        account: u32,
        start: u32,
        end: u32,
        level: u32,
        reference: u32,
    ) -> u32;
    pub fn sasnuvarth_delete(image: *mut u32, image_words: usize, account: u32, start: u32) -> u32;
    pub fn sasnuvarth_batch(
        image: *mut u32,
        image_words: usize,
        items: *const u32,
        item_words: usize,
        places: *mut u32,
        place_words: usize,
    ) -> u32;
    pub fn sasnuvarth_ancestors(
        image: *const u32,
        image_words: usize,
        account: u32,
        p: u32,
        choice: u32,
        out: *mut u32,
        out_words: usize,
    ) -> AncestorsAnswer;
    pub fn sasnuvarth_parent(image: *const u32, image_words: usize, account: u32, p: u32, level: u32) -> ParentAnswer;
    pub fn sasnuvarth_descendants(
        image: *const u32,
        image_words: usize,
        account: u32,
        start: u32,
        end: u32,
        after: u32,
        out: *mut u32,
        out_words: usize,
    ) -> ListAnswer;
    pub fn sasnuvarth_children(
        image: *const u32,
        image_words: usize,
        account: u32,
        start: u32,
        end: u32,
        level: u32,
        after: u32,
        out: *mut u32,
        out_words: usize,
    ) -> ListAnswer;
    pub fn sasnuvarth_join(
        outer: *const u32,
        outer_words: usize,
        inner: *const u32,
        inner_words: usize,
        account: u32,
        kind: u32,
        out: *mut u32,
        out_words: usize,
    ) -> JoinAnswer;
    pub fn sasnuvarth_open_desk() -> FlatDesk;
    pub fn sasnuvarth_open_seat(desk: FlatDesk, seat: u32, account: u32, kind: u32, limit: u32) -> DeskAnswer;
    pub fn sasnuvarth_close_seat(desk: FlatDesk, seat: u32) -> DeskAnswer;
    pub fn sasnuvarth_round(
        outer: *const u32,
        outer_words: usize,
        inner: *const u32,
        inner_words: usize,
        desk: FlatDesk,
        buffer: *mut u32,
        buffer_words: usize,
    ) -> RoundAnswer;
    pub fn sasnuvarth_part(desk: FlatDesk, buffer: *const u32, buffer_words: usize, seat: u32, count: u32) -> PartAnswer;
}
