//! The table: times of each side, and ratios with their spread over the rounds.

use std::fmt;

use crate::cases::Case;
use crate::{ours, theirs};

/// The library, the crate with its own generation, and the crate with a generation of all 32 bits.
#[derive(Clone, Default)]
pub struct Sides<T> {
    pub port: T,
    pub own: T,
    pub alike: T,
}

impl<T> Sides<T> {
    pub fn each(&self) -> [&T; 3] {
        [&self.port, &self.own, &self.alike]
    }

    pub fn each_mut(&mut self) -> [&mut T; 3] {
        [&mut self.port, &mut self.own, &mut self.alike]
    }
}

/// A turn as a line has it behind the case's title: of each side the time in picoseconds and the checksum.
pub fn written(round: &Sides<[u64; 2]>) -> String {
    let numbers = round.each().map(|[time, sum]| format!("{time} {sum}"));
    numbers.join(" ")
}

fn read(text: &str) -> Option<Sides<[u64; 2]>> {
    let numbers: Vec<u64> = text.split(' ').filter_map(|n| n.parse().ok()).collect();
    let [p, ps, o, os, a, als] = *numbers.as_slice() else {
        return None;
    };
    Some(Sides {
        port: [p, ps],
        own: [o, os],
        alike: [a, als],
    })
}

struct Row<'a> {
    case: &'a Case,
    rounds: Vec<Sides<[u64; 2]>>,
}

/// The lowest quarter, the middle and the highest quarter.
struct Spread([f64; 3]);

impl Spread {
    fn of(numbers: impl Iterator<Item = f64>) -> Spread {
        let mut sorted: Vec<f64> = numbers.collect();
        sorted.sort_by(f64::total_cmp);
        Spread([1, 2, 3].map(|quarter| sorted[(sorted.len() - 1) * quarter / 4]))
    }
}

impl fmt::Display for Spread {
    fn fmt(&self, f: &mut fmt::Formatter<'_>) -> fmt::Result {
        let Spread([low, middle, high]) = self;
        write!(f, "{middle:.2} ({low:.2}..{high:.2})")
    }
}

impl Row<'_> {
    fn times(&self, side: usize) -> Spread {
        let one = |r: &Sides<[u64; 2]>| r.each()[side][0] as f64 / 1000.0 / self.case.per as f64;
        Spread::of(self.rounds.iter().map(one))
    }

    fn ratio(&self, side: usize) -> Spread {
        let one = |r: &Sides<[u64; 2]>| r.port[0] as f64 / r.each()[side][0].max(1) as f64;
        Spread::of(self.rounds.iter().map(one))
    }

    /// Whether all sides gave one checksum in each round, and not that of a run that found no memory.
    fn agree(&self) -> bool {
        let one =
            |r: &Sides<[u64; 2]>| r.port[1] != 0 && r.each().iter().all(|s| s[1] == r.port[1]);
        self.rounds.iter().all(one)
    }
}

impl fmt::Display for Row<'_> {
    fn fmt(&self, f: &mut fmt::Formatter<'_>) -> fmt::Result {
        let Case {
            kind,
            slots,
            name,
            unit,
            ..
        } = self.case;
        let [port, own, alike] = [0, 1, 2].map(|side| self.times(side).0[1]);
        write!(
            f,
            "| {kind:?} | {slots:>5} | {name:<19} | {unit:<6} | {port:>5.2} | {alike:>5.2} | {own:>5.2} | {} | {} |{}",
            self.ratio(2),
            self.ratio(1),
            if self.agree() {
                ""
            } else {
                " CHECKSUMS DIFFER"
            },
        )
    }
}

/// Prints the times and the sizes, and answers whether all checksums agree.
pub fn print(cases: &[Case], lines: &str) -> bool {
    println!(
        "| index | slots | work | ns for a | port | crate, same slots | crate, own slots | port / same | port / own |"
    );
    println!("|---|---|---|---|---|---|---|---|---|");
    let mut agree = true;
    for case in cases {
        let of_case = |line: &str| {
            line.strip_prefix(&case.title())?
                .strip_prefix('\t')
                .and_then(read)
        };
        let rounds: Vec<_> = lines.lines().filter_map(of_case).collect();
        if rounds.is_empty() {
            continue;
        }
        let row = Row { case, rounds };
        agree &= row.agree();
        println!("{row}");
    }
    println!();
    memory();
    agree
}

fn memory() {
    let [own, alike] = theirs::bytes();
    println!("| bytes | port | crate, same slots | crate, own slots |");
    println!("|---|---|---|---|");
    let names = ["a slot of values", "a slot of pointers", "an arena"];
    for (i, name) in names.iter().enumerate() {
        println!(
            "| {name} | {} | {} | {} |",
            ours::bytes()[i],
            alike[i],
            own[i]
        );
    }
}
