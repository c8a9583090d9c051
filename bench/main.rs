//! Times the library beside the Rust crate: the same inputs, equal capacities, alternating runs.
//!
//! `bench measure [TEXT]` writes what it measured of the cases whose title has TEXT; `bench table FILE` prints the table
//! of what several such runs wrote, and ends with status 1 where the sides gave different checksums.

mod cases;
mod ours;
mod table;
mod theirs;

use cases::{Case, Kind, Work};
use std::hint::black_box;
use std::time::Instant;
use table::Sides;

// Each link moves the code of both sides by this many bytes: loops run faster or slower by where they begin.
#[cfg(pad = "16")]
std::arch::global_asm!(".section .text.pad,\"axR\",@progbits", ".space 16");
#[cfg(pad = "32")]
std::arch::global_asm!(".section .text.pad,\"axR\",@progbits", ".space 32");
#[cfg(pad = "48")]
std::arch::global_asm!(".section .text.pad,\"axR\",@progbits", ".space 48");

/// How often the sides take turns at a case.
const TURNS: usize = 3;

/// How long the calls of one time should last, in nanoseconds.
const LONG: u64 = 2_000_000;

const MOST_ROUNDS: usize = 2_000;

/// Of so many times the least counts: what disturbs a time makes it longer.
const REPEATS: usize = 3;

/// One side: carries out a workload so many times on a case's inputs, and answers a checksum.
type Side = fn(&Case, Work, usize) -> u64;

fn sides(kind: Kind) -> Sides<Side> {
    match kind {
        Kind::Short => Sides {
            port: ours::short,
            own: theirs::run::<theirs::ShortOwn>,
            alike: theirs::run::<theirs::ShortAlike>,
        },
        Kind::Sheet => Sides {
            port: ours::sheet,
            own: theirs::run::<theirs::SheetOwn>,
            alike: theirs::run::<theirs::SheetAlike>,
        },
    }
}

/// The least time of so many rounds with all that comes before and after them, and the checksum.
fn least(side: Side, case: &Case, work: Work, rounds: usize) -> (u64, u64) {
    let mut least = u64::MAX;
    let mut sum = 0;
    for _ in 0..REPEATS {
        let start = Instant::now();
        sum = black_box(side(black_box(case), work, rounds));
        least = least.min(start.elapsed().as_nanos() as u64);
    }
    (least, sum)
}

/// A round's time, in picoseconds: what further rounds add to the first.
fn of_a_round(side: Side, case: &Case, work: Work, rounds: usize) -> (u64, u64) {
    let (one, _) = least(side, case, work, 1);
    let (all, sum) = least(side, case, work, 1 + rounds);
    (all.saturating_sub(one) * 1000 / rounds as u64, sum)
}

/// The time of a round's calls alone, and the checksum.
fn of_the_calls(side: Side, case: &Case, rounds: usize) -> [u64; 2] {
    let (time, sum) = of_a_round(side, case, case.work, rounds);
    let before = case.work.before();
    let before = before.map_or(0, |work| of_a_round(side, case, work, rounds).0);
    [time.saturating_sub(before), sum]
}

/// How many rounds make a time long enough.
fn rounds(case: &Case, sides: &Sides<Side>) -> usize {
    let (round, _) = of_a_round(sides.alike, case, case.work, 8);
    ((LONG * 1000 / round.max(1)) as usize).clamp(4, MOST_ROUNDS)
}

/// A line for each turn: the case, and of each side the time and the checksum.
fn measure(case: &Case) {
    let sides = sides(case.kind);
    let rounds = rounds(case, &sides);
    for turn in 0..TURNS {
        let mut line = Sides::<[u64; 2]>::default();
        for k in 0..3 {
            let place = (turn + k) % 3;
            *line.each_mut()[place] = of_the_calls(*sides.each()[place], case, rounds);
        }
        println!("{}\t{}", case.title(), table::written(&line));
    }
}

fn main() {
    let mut args = std::env::args().skip(1);
    match (args.next().as_deref(), args.next()) {
        (Some("measure"), text) => {
            let text = text.unwrap_or_default();
            let cases = cases::all().into_iter();
            cases
                .filter(|case| case.title().contains(&text))
                .for_each(|case| measure(&case));
        }
        (Some("table"), Some(file)) => {
            let lines = std::fs::read_to_string(file).expect("what was measured");
            if !table::print(&cases::all(), &lines) {
                eprintln!("the sides gave different checksums");
                std::process::exit(1);
            }
        }
        _ => panic!("bench measure [TEXT], or bench table FILE"),
    }
}
