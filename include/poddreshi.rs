//! The C interface as Rust sees it; `poddreshi.h` has the promises. A user takes what it calls, so the rest may lie unused.
#![allow(dead_code)]

/// One pair of a page: two positions, and the place for its answer.
#[repr(C)]
#[derive(Clone, Copy, PartialEq, Eq, Debug)]
pub struct Query {
    pub first: usize,
    pub second: usize,
    pub answer: u64,
}

extern "C" {
    pub fn poddreshi_validate(file: *const u8, length: usize) -> u64;
    pub fn poddreshi_build(
        file: *const u8, length: usize,
        parents: *mut u16, parents_length: usize,
        components: *mut u16, components_length: usize,
        depths: *mut u16, depths_length: usize,
        ranks: *mut u16, ranks_length: usize,
        last_ranks: *mut u16, last_ranks_length: usize,
        tags: *mut u8, tags_length: usize,
    ) -> u64;
    pub fn poddreshi_tags(file: *const u8, length: usize, tags: *mut u8, tags_length: usize) -> u64;
    pub fn poddreshi_short_tags(file: *const u8, length: usize, tags: *mut u8, tags_length: usize) -> u64;
    pub fn poddreshi_add(
        file: *const u8, length: usize,
        plan: u16, window_offset: u32, window_length: u32,
        changed: *mut u8, changed_length: usize,
        tags: *mut u8, tags_length: usize,
    ) -> u64;
    pub fn poddreshi_withdraw(
        file: *const u8, length: usize,
        plan: u16, at: usize,
        changed: *mut u8, changed_length: usize,
        tags: *mut u8, tags_length: usize,
    ) -> u64;
    pub fn poddreshi_reach(file: *const u8, length: usize, at: usize) -> u64;
    pub fn poddreshi_chain(file: *const u8, length: usize, first: usize, second: usize, out: *mut u16, out_length: usize) -> u64;
    pub fn poddreshi_neighbours(file: *const u8, length: usize, at: usize, out: *mut u16, out_length: usize) -> u64;
    pub fn poddreshi_margin(file: *const u8, length: usize, first: usize, second: usize, margin: *mut i64) -> u64;
    pub fn poddreshi_same(first: *const u8, first_length: usize, second: *const u8, second_length: usize) -> u64;
    pub fn poddreshi_pair(first: *const u8, first_length: usize, second: *const u8, second_length: usize) -> u64;
    pub fn poddreshi_pair_at(tags: *const u8, length: usize, first: usize, second: usize) -> u64;
    pub fn poddreshi_page(tags: *const u8, length: usize, queries: *mut Query, queries_length: usize) -> u64;
    pub fn poddreshi_short_pair(first: *const u8, first_length: usize, second: *const u8, second_length: usize) -> u64;
    pub fn poddreshi_short_pair_at(tags: *const u8, length: usize, first: usize, second: usize) -> u64;
    pub fn poddreshi_lookup(tags: *const u8, length: usize, at: usize, offset: *mut usize) -> u64;
    pub fn poddreshi_write(plan: u16, component: u16, depth: u16, rank: u16, last: u16, out: *mut u8, length: usize) -> u64;
    pub fn poddreshi_short_write(plan: u16, component: u16, depth: u16, rank: u16, out: *mut u8, length: usize) -> u64;
}
