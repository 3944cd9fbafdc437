// Settling 64 tasks on 16 cores: the proved code, out of its static library, against plain Rust, in one process.
mod plain;

use plain::{Outcome, Plan, Row, bus_of};

#[repr(C)]
#[derive(Clone, Copy, PartialEq, Eq, Debug)]
struct Found {
    late: u64,
    ticks: u64,
}

#[repr(C)]
struct Timespec {
    seconds: i64,
    nanoseconds: i64,
}

// the clock of this thread's own processor time, so that other processes on the machine count for nothing
const THREAD_CPUTIME: i32 = 3;

fn now() -> f64 {
    let mut t = Timespec { seconds: 0, nanoseconds: 0 };
    assert_eq!(unsafe { clock_gettime(THREAD_CPUTIME, &mut t) }, 0);
    t.seconds as f64 + t.nanoseconds as f64 / 1e9
}

unsafe extern "C" {
    fn clock_gettime(clock: i32, time: *mut Timespec) -> i32;
    fn settler_settle(
        cores: u8,
        bottom: u8,
        favours: *const u8,
        favours_len: usize,
        tasks: *const Row,
        tasks_len: usize,
        times: u32,
        found: *mut Found,
        found_len: usize,
    ) -> usize;
}

struct Case {
    name: &'static str,
    favours: &'static [u8],
    rows: Vec<Row>,
    times: u32,
    // how often both are measured, by turns; the best counts
    rounds: u32,
}

fn row(id: u16, core: u8, rank: u8, spacing: u32, deadline: u32, phases: (u32, u32, u32)) -> Row {
    Row { id, core, rank, spacing, deadline, a: phases.0, e: phases.1, r: phases.2 }
}

// four tasks on each core, each with far more time than it needs
fn easy() -> Vec<Row> {
    (0..64u16)
        .map(|i| {
            let spacing = 1_000_000 + 10_000 * u32::from(i);
            row(i + 1, (i / 4) as u8, (i % 4 + 1) as u8, spacing, spacing, (20 + u32::from(i), 300, 10))
        })
        .collect()
}

// Core 0 has a first task that takes all of it or nearly, and 48 more; each other core has one task that brings one job
// as long as it can. So each jump is short, and the search goes on for long below a deadline of 10,000,000.
fn dense(first: Row) -> Vec<Row> {
    let mut rows = vec![first];
    for i in 1..49u16 {
        rows.push(row(i + 1, 0, (i + 1) as u8, 10_000_000, 10_000_000, (1, 1, 1)));
    }
    for core in 1..16u16 {
        rows.push(row(49 + core, core as u8, 1, 10_000_000, 3, (1, 1, 1)));
    }
    rows
}

// Two favoured ports whose phases no limit bounds take the bus without end; all others wait for them.
fn favoured() -> Vec<Row> {
    let mut rows = vec![row(1, 0, 1, 4, 4, (1, 1, 1)), row(2, 1, 1, 4, 4, (1, 1, 1))];
    for i in 2..64u16 {
        rows.push(row(i + 1, (2 + i % 14) as u8, (i / 14 + 1) as u8, 10_000_000, 10_000_000, (1, 1, 1)));
    }
    rows
}

fn proved(case: &Case, times: u32) -> (f64, usize, Vec<Found>) {
    let mut found = vec![Found { late: 0, ticks: 0 }; case.rows.len()];
    let began = now();
    let late = unsafe {
        settler_settle(
            16,
            1,
            case.favours.as_ptr(),
            case.favours.len(),
            case.rows.as_ptr(),
            case.rows.len(),
            times,
            found.as_mut_ptr(),
            found.len(),
        )
    };
    (now() - began, late, found)
}

fn plain(case: &Case, times: u32) -> (f64, usize, Vec<Found>, u64) {
    let began = now();
    let mut plan = Plan::open();
    for row in &case.rows {
        plan.add(*row);
    }
    let bus = bus_of(1, case.favours, 16);
    let mut late = 0;
    for _ in 0..times {
        late = plan.settle(std::hint::black_box(&bus));
    }
    let took = now() - began;
    let found = plan
        .outcomes()
        .iter()
        .map(|outcome| match outcome {
            Outcome::Window(ticks) => Found { late: 0, ticks: *ticks },
            Outcome::Late(ticks) => Found { late: 1, ticks: *ticks },
        })
        .collect();
    (took, late, found, plan.jumps / u64::from(times))
}

fn main() {
    let cases = [
        Case { name: "easy", favours: &[], rows: easy(), times: 500, rounds: 20 },
        Case { name: "easy, two ports favoured", favours: &[3, 7], rows: easy(), times: 500, rounds: 20 },
        Case { name: "two favoured ports take the bus", favours: &[0, 1], rows: favoured(), times: 1, rounds: 2 },
        Case { name: "core 0 full", favours: &[], rows: dense(row(1, 0, 1, 3, 3, (1, 1, 1))), times: 1, rounds: 2 },
        Case { name: "core 0 all but full", favours: &[], rows: dense(row(1, 0, 1, 60_000, 60_000, (1, 59_997, 1))), times: 1, rounds: 2 },
    ];
    println!("| plan | late | demands reckoned | plain Rust, ms | proved, ms | ratio |");
    println!("| --- | --- | --- | --- | --- | --- |");
    let mut worst: f64 = 0.0;
    for case in &cases {
        let (mut fast, mut ours) = (f64::MAX, f64::MAX);
        let mut jumps = 0;
        let mut late = 0;
        for _ in 0..case.rounds {
            let p = plain(case, case.times);
            let q = proved(case, case.times);
            assert_eq!((p.1, &p.2), (q.1, &q.2), "{}: the two disagree", case.name);
            fast = fast.min(p.0);
            ours = ours.min(q.0);
            jumps = p.3;
            late = p.1;
        }
        let per = 1000.0 / f64::from(case.times);
        worst = worst.max(ours / fast);
        println!("| {} | {} | {} | {:.3} | {:.3} | {:.2} |", case.name, late, jumps, fast * per, ours * per, ours / fast);
    }
    println!("\nthe worst ratio: {worst:.2}");
}
