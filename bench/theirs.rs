//! The crate's side: the same workloads as in `crates/bench_port`, over the crate's fixed stack.

use std::fmt;
use std::num::{NonZeroU16, NonZeroU32, NonZeroUsize};

use triple_arena::traits::*;
use triple_arena::utils::DirectSlot;
use triple_arena::utils::traits::{PtrGen, PtrInx};
use triple_arena::{DirectArena, FixedHeapBacking, InvalidationResult, ptr_struct};

use crate::cases::{Case, Cited, Work};

// The crate wants each part of a pointer to be recast as a whole.
macro_rules! recast_whole {
    ($($part:ident)*) => {
        $(impl Recast<$part> for $part {
            fn recast<R: Recaster<Item = $part>>(&mut self, recaster: &R) -> Result<(), R::Item> {
                recaster.recast_item(self)
            }
        })*
    };
}

recast_whole!(Sheet Short Season);

/// A sheet of 200 lines and a line on it, as the library has them; the crate has no such kind.
#[derive(Clone, Copy, Debug, Hash, PartialEq, Eq, PartialOrd, Ord)]
pub struct Sheet {
    sheet: u16,
    line: u16,
}

impl PtrInx for Sheet {
    #[inline]
    fn try_from_usize(inx: NonZeroUsize) -> Option<Self> {
        let before = u16::try_from(inx.get() - 1).ok()?;
        let sheet = before / 200;
        (sheet < 40).then_some(Sheet {
            sheet,
            line: before % 200 + 1,
        })
    }

    #[inline]
    fn try_into_usize(this: Self) -> Option<NonZeroUsize> {
        let converts = this.sheet < 40 && (1..=200).contains(&this.line);
        let n = 200 * usize::from(this.sheet) + usize::from(this.line);
        if converts { NonZeroUsize::new(n) } else { None }
    }

    fn max_index() -> Option<NonZeroUsize> {
        NonZeroUsize::new(8000)
    }

    fn best_effort_invalid() -> Self {
        Sheet { sheet: 40, line: 0 }
    }

    fn fmt_hex(this: Self, f: &mut fmt::Formatter<'_>) -> fmt::Result {
        write!(f, "{:x}.{:x}", this.sheet, this.line)
    }
}

/// An index of all 16 bits, of which 0 does not convert, as the library's; the crate's own has no 0.
#[derive(Clone, Copy, Debug, Hash, PartialEq, Eq, PartialOrd, Ord)]
pub struct Short(u16);

impl PtrInx for Short {
    #[inline]
    fn try_from_usize(inx: NonZeroUsize) -> Option<Self> {
        u16::try_from(inx.get()).ok().map(Short)
    }

    #[inline]
    fn try_into_usize(this: Self) -> Option<NonZeroUsize> {
        NonZeroUsize::new(usize::from(this.0))
    }

    fn max_index() -> Option<NonZeroUsize> {
        NonZeroUsize::new(usize::from(u16::MAX))
    }

    fn best_effort_invalid() -> Self {
        Short(u16::MAX)
    }

    fn fmt_hex(this: Self, f: &mut fmt::Formatter<'_>) -> fmt::Result {
        write!(f, "{:x}", this.0)
    }
}

/// A generation of all 32 bits, as the library's season; the crate's own leaves out 0.
#[derive(Clone, Copy, Debug, Hash, PartialEq, Eq, PartialOrd, Ord)]
pub struct Season(u32);

impl PtrGen for Season {
    fn one() -> Self {
        Season(1)
    }

    fn two() -> Self {
        Season(2)
    }

    fn generational_inc(this: Self) -> (Self, bool) {
        let (next, overflow) = this.0.overflowing_add(1);
        (Season(next), overflow)
    }

    fn fmt_hex(this: Self, f: &mut fmt::Formatter<'_>) -> fmt::Result {
        write!(f, "{:x}", this.0)
    }
}

ptr_struct!(
    ShortOwn[NonZeroU16](NonZeroU32);
    ShortAlike[Short](Season);
    SheetOwn[Sheet](NonZeroU32);
    SheetAlike[Sheet](Season)
);

/// A generation that is a season's number.
pub trait Numbered: PtrGen {
    fn of(season: u32) -> Option<Self>;
    fn season(self) -> u32;
}

impl Numbered for NonZeroU32 {
    fn of(season: u32) -> Option<Self> {
        NonZeroU32::new(season)
    }

    fn season(self) -> u32 {
        self.get()
    }
}

impl Numbered for Season {
    fn of(season: u32) -> Option<Self> {
        Some(Season(season))
    }

    fn season(self) -> u32 {
        self.0
    }
}

type Register<P, V> = DirectArena<P, V, FixedHeapBacking>;

// what a call adds to the checksum that finds nothing
const NONE: u64 = 1_000_003;

fn pointers<P: Ptr<Gen: Numbered>>(cited: &[Cited]) -> Vec<P> {
    let pointer = |c: &Cited| {
        let inx = P::Inx::try_from_usize(NonZeroUsize::new(c.slot as usize)?)?;
        Some(P::_from_raw(inx, P::Gen::of(c.season)?))
    };
    cited.iter().filter_map(pointer).collect()
}

fn season<P: Ptr<Gen: Numbered>>(p: P) -> u32 {
    p.generation().season()
}

fn number<P: Ptr>(p: P) -> u64 {
    P::Inx::try_into_usize(p.inx()).map_or(0, |n| n.get() as u64)
}

fn empty<P: Ptr, V>(slots: usize) -> Register<P, V> {
    Register::with_min_capacity(slots).ok().unwrap()
}

fn put<P: Ptr, V>(arena: &mut Register<P, V>, p: P, v: V) -> bool {
    match arena.direct_insert_within_capacity(p) {
        Ok(entry) => {
            entry.insert(v);
            true
        }
        Err(_) => false,
    }
}

fn fill<P: Ptr<Gen: Numbered>>(arena: &mut Register<P, u32>, pointers: &[P]) {
    arena.clear().allow();
    for p in pointers {
        put(arena, *p, season(*p));
    }
}

fn mixed(sum: u64, x: u64) -> u64 {
    sum.wrapping_mul(6_364_136_223_846_793_005).wrapping_add(x)
}

fn contents<P: Ptr<Gen: Numbered>>(arena: &Register<P, u32>, sum: u64) -> u64 {
    let mut sum = mixed(sum, slots(arena));
    for (p, v) in arena.iter() {
        sum = mixed(sum, number(p));
        sum = mixed(sum, u64::from(season(p)));
        sum = mixed(sum, u64::from(*v));
    }
    sum
}

fn slots<P: Ptr, V>(arena: &Register<P, V>) -> u64 {
    use triple_arena::utils::traits::NonZeroInxGenericStack;
    arena.backing().len() as u64
}

#[inline(never)]
fn insert_all<P: Ptr<Gen: Numbered>>(arena: &mut Register<P, u32>, asked: &[P], sum: u64) -> u64 {
    let mut sum = sum;
    for p in asked {
        sum = sum.wrapping_add(if put(arena, *p, season(*p)) { 1 } else { NONE });
    }
    sum
}

fn insert<P: Ptr<Gen: Numbered>>(case: &Case, rounds: usize) -> u64 {
    let asked = pointers::<P>(&case.asked);
    let mut arena = empty(case.slots);
    let mut sum = 0;
    for _ in 0..rounds {
        arena.clear().allow();
        sum = insert_all(&mut arena, &asked, sum);
    }
    contents(&arena, sum)
}

fn fills<P: Ptr<Gen: Numbered>>(case: &Case, rounds: usize) -> u64 {
    let first = pointers::<P>(&case.standing);
    let mut arena = empty(case.slots);
    for _ in 0..rounds {
        fill(&mut arena, &first);
    }
    contents(&arena, 0)
}

#[inline(never)]
fn get_all<P: Ptr>(arena: &Register<P, u32>, asked: &[P], sum: u64) -> u64 {
    let mut sum = sum;
    for p in asked {
        sum = sum.wrapping_add(arena.get(*p).map_or(NONE, |v| u64::from(*v)));
    }
    sum
}

#[inline(never)]
fn edit_all<P: Ptr<Gen: Numbered>>(arena: &mut Register<P, u32>, asked: &[P], sum: u64) -> u64 {
    let mut sum = sum;
    for p in asked {
        let value = season(*p).wrapping_mul(3);
        let answer = arena.get_mut(*p).map_or(NONE, |v| {
            *v = value;
            u64::from(*v)
        });
        sum = sum.wrapping_add(answer);
    }
    sum
}

/// Calls on a standing arena: questions and edits.
fn standing<P: Ptr<Gen: Numbered>>(
    case: &Case,
    rounds: usize,
    call: fn(&mut Register<P, u32>, &[P], u64) -> u64,
) -> u64 {
    let asked = pointers::<P>(&case.asked);
    let mut arena = empty(case.slots);
    fill(&mut arena, &pointers(&case.standing));
    let mut sum = 0;
    for _ in 0..rounds {
        sum = call(&mut arena, &asked, sum);
    }
    contents(&arena, sum)
}

#[inline(never)]
fn remove_all<P: Ptr>(arena: &mut Register<P, u32>, asked: &[P], sum: u64) -> u64 {
    let mut sum = sum;
    for p in asked {
        sum = sum.wrapping_add(match arena.remove(*p) {
            InvalidationResult::Success(v) => u64::from(v),
            _ => NONE,
        });
    }
    sum
}

fn remove<P: Ptr<Gen: Numbered>>(case: &Case, rounds: usize) -> u64 {
    let first = pointers::<P>(&case.standing);
    let asked = pointers::<P>(&case.asked);
    let mut arena = empty(case.slots);
    let mut sum = 0;
    for _ in 0..rounds {
        fill(&mut arena, &first);
        sum = remove_all(&mut arena, &asked, sum);
    }
    contents(&arena, sum)
}

const LIST: usize = 8;

#[inline(never)]
fn edit_lists<P: Ptr>(arena: &mut Register<P, u32>, asked: &[P::Inx], sum: u64) -> u64 {
    let mut sum = sum;
    for list in asked.as_chunks::<LIST>().0 {
        sum = sum.wrapping_add(match arena.get_disjoint_inx_mut(*list) {
            Ok(records) => {
                for (_, v) in records {
                    *v = v.saturating_add(1);
                }
                1
            }
            Err(_) => 3,
        });
    }
    sum
}

fn list_edit<P: Ptr<Gen: Numbered>>(case: &Case, rounds: usize) -> u64 {
    let asked: Vec<P::Inx> = pointers::<P>(&case.asked).iter().map(|p| p.inx()).collect();
    let mut arena = empty::<P, u32>(case.slots);
    fill(&mut arena, &pointers(&case.standing));
    let mut sum = 0;
    for _ in 0..rounds {
        sum = edit_lists(&mut arena, &asked, sum);
    }
    contents(&arena, sum)
}

#[inline(never)]
fn compress_once<P: Ptr>(arena: &mut Register<P, u32>) {
    arena
        .compress_with(false, |_, v, _| *v = v.saturating_add(1))
        .allow();
}

fn compress<P: Ptr<Gen: Numbered>>(case: &Case, rounds: usize) -> u64 {
    let first = pointers::<P>(&case.standing);
    let mut arena = empty(case.slots);
    for _ in 0..rounds {
        fill(&mut arena, &first);
        compress_once(&mut arena);
    }
    contents(&arena, 0)
}

#[inline(never)]
fn clone_once<P: Ptr>(arena: &mut Register<P, u32>, source: &Register<P, u32>) -> bool {
    arena
        .clone_from_with(source, |_, v| v.saturating_add(1))
        .is_ok()
}

fn clone_from<P: Ptr<Gen: Numbered>>(case: &Case, rounds: usize) -> u64 {
    let mut source = empty(case.slots);
    fill(&mut source, &pointers::<P>(&case.standing));
    let mut arena = empty(case.slots);
    let mut sum = 0_u64;
    for _ in 0..rounds {
        sum += u64::from(clone_once(&mut arena, &source));
    }
    contents(&arena, sum)
}

// one step for each record, and one more, which finds none
#[inline(never)]
fn walk<P: Ptr<Gen: Numbered>>(
    arena: &Register<P, u32>,
    mut advancer: impl Advancer<Register<P, u32>, Item = P>,
    sum: u64,
) -> u64 {
    let mut sum = sum;
    for _ in 0..arena.len() + 1 {
        if let Some(p) = advancer.advance(arena) {
            sum = sum.wrapping_add(number(p) ^ u64::from(season(p)));
        }
    }
    sum
}

fn walks<P: Ptr<Gen: Numbered>>(case: &Case, rev: bool, rounds: usize) -> u64 {
    let mut arena = empty(case.slots);
    fill(&mut arena, &pointers::<P>(&case.standing));
    let start = if rev { case.slots } else { 1 };
    let start = P::Inx::try_from_usize(NonZeroUsize::new(start).unwrap()).unwrap();
    let mut sum = 0;
    for _ in 0..rounds {
        let advancer = arena.advancer_inx(start, rev);
        sum = walk(&arena, advancer, sum);
    }
    contents(&arena, sum)
}

fn fill_directory<P: Ptr>(directory: &mut Register<P, P>, from: &[P], to: &[P]) {
    for (p, q) in from.iter().zip(to) {
        put(directory, *p, *q);
    }
}

#[inline(never)]
fn recast_once<P: Ptr + Recast<P>>(arena: &mut Register<P, P>, directory: &Register<P, P>) -> bool {
    arena.recast(directory).is_ok()
}

fn recast<P: Ptr<Gen: Numbered> + Recast<P>>(case: &Case, rounds: usize) -> u64 {
    let first = pointers::<P>(&case.standing);
    let mut directory = empty(case.slots);
    fill_directory(&mut directory, &first, &pointers(&case.asked));
    let mut arena = empty(case.slots);
    fill_directory(&mut arena, &first, &first);
    let mut sum = 0_u64;
    for _ in 0..rounds {
        sum += u64::from(recast_once(&mut arena, &directory));
    }
    let mut sum = mixed(sum, slots(&arena));
    for (_, q) in arena.iter() {
        sum = mixed(sum, number(*q));
        sum = mixed(sum, u64::from(season(*q)));
    }
    sum
}

pub fn run<P: Ptr<Gen: Numbered> + Recast<P>>(case: &Case, work: Work, rounds: usize) -> u64 {
    match work {
        Work::Insert => insert::<P>(case, rounds),
        Work::Get => standing::<P>(case, rounds, |a, asked, sum| get_all(a, asked, sum)),
        Work::Edit => standing::<P>(case, rounds, edit_all),
        Work::Remove => remove::<P>(case, rounds),
        Work::ListEdit => list_edit::<P>(case, rounds),
        Work::Compress => compress::<P>(case, rounds),
        Work::CloneFrom => clone_from::<P>(case, rounds),
        Work::Forward => walks::<P>(case, false, rounds),
        Work::Backward => walks::<P>(case, true, rounds),
        Work::Recast => recast::<P>(case, rounds),
        Work::Fill => fills::<P>(case, rounds),
    }
}

fn bytes_of<P: Ptr>() -> [usize; 3] {
    [
        size_of::<DirectSlot<P, u32>>(),
        size_of::<DirectSlot<P, P>>(),
        size_of::<Register<P, u32>>(),
    ]
}

/// Bytes of a slot of values, of a slot of pointers, and of an arena: the crate's own generation, and one of all 32 bits.
pub fn bytes() -> [[usize; 3]; 2] {
    [bytes_of::<ShortOwn>(), bytes_of::<ShortAlike>()]
}
