//! The crate's side: the same work as in `ours.rt.txt`, over the crate's heap stack, with indices of all 16 bits and generations of all 32.

use std::fmt;
use std::io::Read;
use std::num::NonZeroUsize;
use triple_arena::traits::*;
use triple_arena::utils::traits::{PtrGen, PtrInx};
use triple_arena::{DirectArena, HeapBacking, ptr_struct};
macro_rules! recast_whole {
    ($($part:ident)*) => {
        $(impl Recast<$part> for $part {
            fn recast<R: Recaster<Item = $part>>(&mut self, recaster: &R) -> Result<(), R::Item> {
                recaster.recast_item(self)
            }
        })*
    };
}
recast_whole!(Short Season);
#[derive(Clone, Copy, Debug, Hash, PartialEq, Eq, PartialOrd, Ord)]
pub struct Short(u16);
impl PtrInx for Short {
    #[inline]
    fn try_from_usize(inx: NonZeroUsize) -> Option<Self> {
        u16::try_from(inx.get()).ok().map(Short)
    }
    #[inline]
    fn try_into_usize(this: Self) -> Option<NonZeroUsize> {
        NonZeroUsize::new(usize::from(this.0))
    }
    fn max_index() -> Option<NonZeroUsize> {
        NonZeroUsize::new(usize::from(u16::MAX))
    }
    fn best_effort_invalid() -> Self {
        Short(u16::MAX)
    }
    fn fmt_hex(this: Self, f: &mut fmt::Formatter<'_>) -> fmt::Result {
        write!(f, "{:x}", this.0)
    }
}
#[derive(Clone, Copy, Debug, Hash, PartialEq, Eq, PartialOrd, Ord)]
pub struct Season(u32);
impl PtrGen for Season {
    fn one() -> Self {
        Season(1)
    }
    fn two() -> Self {
        Season(2)
    }
    fn generational_inc(this: Self) -> (Self, bool) {
        let (n, o) = this.0.overflowing_add(1);
        (Season(n), o)
    }
    fn fmt_hex(this: Self, f: &mut fmt::Formatter<'_>) -> fmt::Result {
        write!(f, "{:x}", this.0)
    }
}
ptr_struct!(Pointer[Short](Season));

type Register = DirectArena<Pointer, u32, HeapBacking>;

fn pointer(slot: u16) -> Pointer {
    Pointer::_from_raw(Short(slot), Season(7))
}
fn grow(register: &mut Register) -> u32 {
    let mut sum = 0u32;
    for n in 1..65_535u16 {
        if usize::from(n) > register.capacity() {
            let _ = register.reallocate_min_capacity(usize::from(n));
        }
        if let Ok(e) = register.direct_insert_within_capacity(pointer(n)) {
            e.insert(u32::from(n));
            sum = sum.wrapping_add(1);
        }
    }
    sum
}
fn get(register: &Register) -> u32 {
    let mut sum = 0u32;
    for n in 1..65_535u16 {
        if let Some(v) = register.get(pointer(n)) {
            sum = sum.wrapping_add(*v);
        }
    }
    sum
}
fn remove(register: &mut Register) -> u32 {
    let mut sum = 0u32;
    for n in 1..65_535u16 {
        if n % 2 == 0 {
            if let Some(v) = register.remove(pointer(n)).allow() {
                sum = sum.wrapping_add(v);
            }
        }
    }
    sum
}
fn main() {
    let mut digit = [0u8; 1];
    let _ = std::io::stdin().read(&mut digit);
    let last = digit[0].saturating_sub(b'0');
    let mut register = Register::new();
    let mut sum = 0u32;
    if last > 0 {
        sum = sum.wrapping_add(grow(&mut register));
    }
    if last > 1 {
        for _ in 0..10 {
            sum = sum.wrapping_add(get(&register));
        }
    }
    if last > 2 {
        sum = sum.wrapping_add(remove(&mut register));
    }
    if last > 3 {
        let _ = register.compress_with(false, |_, _, _| {});
        sum = sum.wrapping_add(get(&register));
    }
    if last > 4 {
        let _ = register.reallocate_min_capacity(0);
        sum = sum.wrapping_add(register.capacity() as u32);
    }
    println!("{sum}");
}
