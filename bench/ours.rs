//! The library's side: the exports of `crates/bench_port`.

use crate::cases::{Case, Cited, Work};

// A slice crosses as a pointer and a length; the allocator that each export takes has no bytes.
macro_rules! exports {
    ($($name:ident)*) => {
        unsafe extern "C" {
            $(fn $name(
                work: u32,
                slots: usize,
                standing: *const Cited,
                standing_len: usize,
                asked: *const Cited,
                asked_len: usize,
                rounds: usize,
            ) -> u64;)*
        }
    };
}

exports!(bench_short bench_sheet);

unsafe extern "C" {
    safe fn bench_slot_bytes() -> usize;
    safe fn bench_pair_bytes() -> usize;
    safe fn bench_arena_bytes() -> usize;
}

macro_rules! call {
    ($name:ident, $case:ident, $work:ident, $rounds:ident) => {
        // the slices outlive the call
        unsafe {
            $name(
                $work as u32,
                $case.slots,
                $case.standing.as_ptr(),
                $case.standing.len(),
                $case.asked.as_ptr(),
                $case.asked.len(),
                $rounds,
            )
        }
    };
}

pub fn short(case: &Case, work: Work, rounds: usize) -> u64 {
    call!(bench_short, case, work, rounds)
}

pub fn sheet(case: &Case, work: Work, rounds: usize) -> u64 {
    call!(bench_sheet, case, work, rounds)
}

/// Bytes of a slot of values, of a slot of pointers, and of an arena.
pub fn bytes() -> [usize; 3] {
    [bench_slot_bytes(), bench_pair_bytes(), bench_arena_bytes()]
}
