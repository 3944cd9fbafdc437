// The settler's algorithm in plain Rust, step by step: what the proved code is measured against.
use std::cmp::Reverse;

#[derive(Clone, Copy, PartialEq, Eq)]
pub enum Limit {
    Phases(u16),
    Unlimited,
}

#[derive(Clone, Copy, PartialEq, Eq, Debug)]
pub enum Outcome {
    Window(u64),
    Late(u64),
}

#[repr(C)]
#[derive(Clone, Copy, PartialEq, Eq)]
pub struct Row {
    pub id: u16,
    pub core: u8,
    pub rank: u8,
    pub spacing: u32,
    pub deadline: u32,
    pub a: u32,
    pub e: u32,
    pub r: u32,
}

impl Row {
    pub fn cost(&self) -> u32 {
        self.a + self.e + self.r
    }
}

// ---- arbiters, as far as settling asks them

pub trait Arbiter {
    fn ports(&self) -> u8;
    fn limit(&self, a: u8, b: u8) -> Result<Limit, ()>;
}

pub struct Queue {
    pub ports: u8,
}

pub struct RoundRobin {
    pub ports: u8,
}

fn one_each(ports: u8, a: u8, b: u8) -> Result<Limit, ()> {
    if a >= ports || b >= ports || a == b {
        return Err(());
    }
    Ok(Limit::Phases(1))
}

impl Arbiter for Queue {
    fn ports(&self) -> u8 {
        self.ports
    }
    fn limit(&self, a: u8, b: u8) -> Result<Limit, ()> {
        one_each(self.ports, a, b)
    }
}

impl Arbiter for RoundRobin {
    fn ports(&self) -> u8 {
        self.ports
    }
    fn limit(&self, a: u8, b: u8) -> Result<Limit, ()> {
        one_each(self.ports, a, b)
    }
}

pub struct Favour<B> {
    pub below: B,
    pub port: u8,
}

impl<B: Arbiter> Arbiter for Favour<B> {
    fn ports(&self) -> u8 {
        self.below.ports()
    }
    fn limit(&self, a: u8, b: u8) -> Result<Limit, ()> {
        let ports = self.below.ports();
        if a >= ports || b >= ports || a == b {
            return Err(());
        }
        if b == self.port {
            return Ok(Limit::Unlimited);
        }
        if a == self.port {
            return Ok(Limit::Phases(1));
        }
        self.below.limit(a, b)
    }
}

pub enum Either<A, B> {
    First(A),
    Second(B),
}

impl<A: Arbiter, B: Arbiter> Arbiter for Either<A, B> {
    fn ports(&self) -> u8 {
        match self {
            Either::First(x) => x.ports(),
            Either::Second(y) => y.ports(),
        }
    }
    fn limit(&self, a: u8, b: u8) -> Result<Limit, ()> {
        match self {
            Either::First(x) => x.limit(a, b),
            Either::Second(y) => y.limit(a, b),
        }
    }
}

pub type Base = Either<Queue, RoundRobin>;
pub type Bus = Either<Base, Either<Favour<Base>, Favour<Favour<Base>>>>;

pub fn bus_of(bottom: u8, favours: &[u8], ports: u8) -> Bus {
    let base = if bottom == 1 {
        Either::First(Queue { ports })
    } else {
        Either::Second(RoundRobin { ports })
    };
    match favours {
        [] => Either::First(base),
        [port] => Either::Second(Either::First(Favour { below: base, port: *port })),
        [outer, inner, ..] => Either::Second(Either::Second(Favour {
            below: Favour { below: base, port: *inner },
            port: *outer,
        })),
    }
}

// ---- offers and shares

#[derive(Clone, Copy, PartialEq, Eq, PartialOrd, Ord)]
pub enum Phase {
    A,
    R,
}

#[derive(Clone, Copy, PartialEq, Eq, PartialOrd, Ord)]
pub struct Offer {
    length: Reverse<u32>,
    place: usize,
    phase: Phase,
    core: u8,
    spacing: u32,
    deadline: u32,
}

impl Offer {
    fn new(row: Row, place: usize, phase: Phase) -> Offer {
        let length = match phase {
            Phase::A => row.a,
            Phase::R => row.r,
        };
        Offer { length: Reverse(length), place, phase, core: row.core, spacing: row.spacing, deadline: row.deadline }
    }

    fn many(&self, w: u32) -> u64 {
        let spacing = u64::from(self.spacing);
        (u64::from(w) + u64::from(self.deadline) + (spacing - 1)) / spacing
    }
}

enum Cap {
    AtMost(u64),
    Unlimited,
}

impl Cap {
    fn new(turns: u64, limit: Limit) -> Cap {
        match limit {
            Limit::Phases(n) => Cap::AtMost(turns * u64::from(n)),
            Limit::Unlimited => Cap::Unlimited,
        }
    }

    fn take(&mut self, many: u64) -> u64 {
        match *self {
            Cap::AtMost(left) => {
                let taken = left.min(many);
                *self = Cap::AtMost(left - taken);
                taken
            }
            Cap::Unlimited => many,
        }
    }
}

fn share(offers: &[Offer], core: u8, w: u32, cap: Cap) -> u64 {
    let mut left = cap;
    let mut ticks: u64 = 0;
    for offer in offers {
        if offer.core == core {
            let count = left.take(offer.many(w));
            ticks += u64::from(offer.length.0) * count;
        }
    }
    ticks
}

// ---- demand

fn blocker(rows: &[Row], task: &Row) -> Option<u32> {
    let mut longest: Option<u32> = None;
    for other in rows {
        if other.core == task.core && other.rank > task.rank {
            longest = Some(longest.unwrap_or(0).max(other.cost()));
        }
    }
    longest
}

fn jobs_within(rows: &[Row], task: &Row, w: u32) -> (u64, u64) {
    let mut count: u64 = 0;
    let mut ticks: u64 = 0;
    for other in rows {
        if other.core != task.core || other.rank > task.rank {
            continue;
        }
        let spacing = u64::from(other.spacing);
        let more = (u64::from(w) + (spacing - 1)) / spacing;
        count += more;
        ticks += u64::from(other.cost()) * more;
    }
    (count, ticks)
}

fn demand<B: Arbiter>(rows: &[Row], offers: &[Offer], arbiter: &B, place: usize, w: u32) -> u64 {
    let task = rows[place];
    let blocker = blocker(rows, &task);
    let (count, own) = jobs_within(rows, &task, w);
    let turns = if blocker.is_some() { 2 * count + 2 } else { 2 * count };
    let mut others: u64 = 0;
    for core in 0..arbiter.ports() {
        if core == task.core {
            continue;
        }
        match arbiter.limit(task.core, core) {
            Ok(limit) => others += share(offers, core, w, Cap::new(turns, limit)),
            Err(()) => unreachable!(),
        }
    }
    u64::from(blocker.unwrap_or(0)) + own + others
}

// ---- settling

// `jumps` counts the demands that were reckoned; it costs one addition each
fn outcome_of<B: Arbiter>(rows: &[Row], offers: &[Offer], arbiter: &B, place: usize, jumps: &mut u64) -> Outcome {
    let deadline = rows[place].deadline;
    let mut w: u32 = 1;
    loop {
        *jumps += 1;
        let needed = demand(rows, offers, arbiter, place, w);
        if needed <= u64::from(w) {
            break Outcome::Window(u64::from(w));
        }
        if needed > u64::from(deadline) {
            break Outcome::Late(demand(rows, offers, arbiter, place, deadline));
        }
        w = needed as u32;
    }
}

pub struct Plan {
    rows: Vec<Row>,
    outcomes: Vec<Outcome>,
    tasks: Vec<Row>,
    offers: Vec<Offer>,
    pub jumps: u64,
}

impl Plan {
    pub fn open() -> Plan {
        Plan {
            rows: Vec::with_capacity(64),
            outcomes: Vec::with_capacity(64),
            tasks: Vec::with_capacity(64),
            offers: Vec::with_capacity(128),
            jumps: 0,
        }
    }

    pub fn add(&mut self, row: Row) {
        self.rows.push(row);
    }

    fn insert(&mut self, x: Offer) {
        let i = self.offers.iter().position(|y| x < *y).unwrap_or(self.offers.len());
        self.offers.insert(i, x);
    }

    #[inline(never)]
    pub fn settle<B: Arbiter>(&mut self, arbiter: &B) -> usize {
        self.tasks.clear();
        self.offers.clear();
        for place in 0..self.rows.len() {
            let row = self.rows[place];
            self.tasks.push(row);
            self.insert(Offer::new(row, place, Phase::A));
            self.insert(Offer::new(row, place, Phase::R));
        }
        self.outcomes.clear();
        for place in 0..self.tasks.len() {
            let outcome = outcome_of(&self.tasks, &self.offers, arbiter, place, &mut self.jumps);
            self.outcomes.push(outcome);
        }
        self.outcomes.iter().filter(|o| matches!(o, Outcome::Late(_))).count()
    }

    pub fn outcomes(&self) -> &[Outcome] {
        &self.outcomes
    }
}
