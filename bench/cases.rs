//! What is timed: workloads, sizes and inputs, made alike on every run.

/// A slot's number and a season, as the library's exports take them.
#[repr(C)]
#[derive(Clone, Copy)]
pub struct Cited {
    pub slot: u32,
    pub season: u32,
}

#[derive(Clone, Copy, Debug, PartialEq)]
pub enum Kind {
    Short,
    Sheet,
}

/// The workloads, under the numbers that the library's exports know.
#[derive(Clone, Copy, Debug, PartialEq)]
pub enum Work {
    Insert = 0,
    Get = 1,
    Edit = 2,
    Remove = 3,
    ListEdit = 4,
    Compress = 5,
    CloneFrom = 6,
    Forward = 7,
    Backward = 8,
    Recast = 9,
    Fill = 10,
}

impl Work {
    /// What a round of it does before the calls, that takes time worth naming.
    pub fn before(self) -> Option<Work> {
        matches!(self, Work::Remove | Work::Compress).then_some(Work::Fill)
    }
}

pub struct Case {
    pub kind: Kind,
    pub work: Work,
    pub name: String,
    pub slots: usize,
    /// What stands at first.
    pub standing: Vec<Cited>,
    /// What is asked for, in order.
    pub asked: Vec<Cited>,
    /// What one time is divided by: calls, or slots.
    pub per: usize,
    pub unit: &'static str,
}

impl Case {
    pub fn title(&self) -> String {
        format!("{:?} {} {}", self.kind, self.slots, self.name)
    }
}

/// A generator of numbers that look random, the same on every run.
struct Numbers(u64);

impl Numbers {
    fn below(&mut self, n: usize) -> usize {
        self.0 ^= self.0 << 13;
        self.0 ^= self.0 >> 7;
        self.0 ^= self.0 << 17;
        (self.0 % n as u64) as usize
    }

    fn shuffled(&mut self, list: &[Cited]) -> Vec<Cited> {
        let mut list = list.to_vec();
        for i in (1..list.len()).rev() {
            list.swap(i, self.below(i + 1));
        }
        list
    }

    /// So many of the list, in its order, the last among them.
    fn some(&mut self, list: &[Cited], count: usize) -> Vec<Cited> {
        let (last, front) = list.split_last().unwrap();
        let mut some = self.shuffled(front);
        some.truncate(count - 1);
        some.sort_unstable_by_key(|c| c.slot);
        some.push(*last);
        some
    }
}

fn at(slot: usize) -> Cited {
    let season = (slot as u32).wrapping_mul(2_654_435_761) >> 8 | 1;
    Cited {
        slot: slot as u32,
        season,
    }
}

/// Slots 1 to a number, each with its season.
fn up_to(slots: usize) -> Vec<Cited> {
    (1..=slots).map(at).collect()
}

/// The same slots, each with another season.
fn other_seasons(standing: &[Cited]) -> Vec<Cited> {
    let other = |c: &Cited| Cited {
        season: c.season + 1,
        ..*c
    };
    standing.iter().map(other).collect()
}

/// The slots that nothing stands in.
fn free(standing: &[Cited], slots: usize) -> Vec<Cited> {
    let mut all = up_to(slots);
    all.retain(|c| standing.binary_search_by_key(&c.slot, |s| s.slot).is_err());
    all
}

/// The workloads on single records, and what names many.
fn on_records(kind: Kind, slots: usize, cases: &mut Vec<Case>) {
    let mut numbers = Numbers(0x9E37_79B9_7F4A_7C15);
    let every = up_to(slots);
    let mixed = numbers.shuffled(&every);
    let others = other_seasons(&mixed);
    let some = numbers.some(&every, slots / 2);
    let gaps = numbers.shuffled(&free(&some, slots));
    let led = numbers.shuffled(&some);
    let lists = slots / 8;
    let mut add = |work, name: &str, standing: &[Cited], asked: &[Cited], per, unit| {
        cases.push(Case {
            kind,
            work,
            name: name.to_string(),
            slots,
            standing: standing.to_vec(),
            asked: asked.to_vec(),
            per,
            unit,
        });
    };
    add(Work::Insert, "insert, rising", &[], &every, slots, "call");
    add(Work::Insert, "insert, random", &[], &mixed, slots, "call");
    add(Work::Get, "get, hit", &every, &mixed, slots, "call");
    add(
        Work::Get,
        "get, other season",
        &every,
        &others,
        slots,
        "call",
    );
    add(
        Work::Get,
        "get, free slot",
        &some,
        &gaps,
        gaps.len(),
        "call",
    );
    add(Work::Edit, "edit", &every, &mixed, slots, "call");
    add(Work::Remove, "remove", &every, &mixed, slots, "call");
    add(
        Work::ListEdit,
        "list edit of 8",
        &every,
        &mixed,
        lists,
        "call",
    );
    add(
        Work::Recast,
        "recast, 50 %",
        &some,
        &led,
        some.len(),
        "record",
    );
}

/// The workloads that go over all slots, at three occupancies.
fn on_slots(kind: Kind, slots: usize, cases: &mut Vec<Case>) {
    let works = [
        (Work::Compress, "compress"),
        (Work::CloneFrom, "clone"),
        (Work::Forward, "walk forward"),
        (Work::Backward, "walk backward"),
    ];
    let mut numbers = Numbers(0xD1B5_4A32_D192_ED03);
    for (work, name) in works {
        for percent in [10, 50, 90] {
            cases.push(Case {
                kind,
                work,
                name: format!("{name}, {percent} %"),
                slots,
                standing: numbers.some(&up_to(slots), slots * percent / 100),
                asked: Vec::new(),
                per: slots,
                unit: "slot",
            });
        }
    }
}

pub fn all() -> Vec<Case> {
    let mut cases = Vec::new();
    let sizes = [
        (Kind::Short, 1_000),
        (Kind::Short, 8_000),
        (Kind::Short, 65_535),
        (Kind::Sheet, 1_000),
        (Kind::Sheet, 8_000),
    ];
    for (kind, slots) in sizes {
        on_records(kind, slots, &mut cases);
        on_slots(kind, slots, &mut cases);
    }
    cases
}
