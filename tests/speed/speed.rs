//! How fast the library is beside the same algorithms in Rust (same.rs), both measured in one run. Prints a line for each measurement: its name,
//! the library's microseconds a call and, where it is compared, Rust's, by tabs; `run` makes ratios of them.

#[path = "../../rust/chantspruce.rs"]
#[allow(dead_code)]
mod chantspruce;
mod same;

use std::hint::black_box;
use std::time::Instant;

use same::{LONG, Outcome, Wafer};

/// Rounds of each measurement; library and Rust take turns, and the medians are compared.
const ROUNDS: usize = 41;

/// A small generator of random numbers (xorshift), with a fixed seed.
struct Random(u64);

impl Random {
    fn below(&mut self, k: usize) -> usize {
        self.0 ^= self.0 << 13;
        self.0 ^= self.0 >> 7;
        self.0 ^= self.0 << 17;
        (self.0 >> 16) as usize % k
    }
}

/// A healthy 30 x 30 grid: 0 at processors, 2 elsewhere.
fn healthy() -> Vec<u8> {
    let processor = |x: usize, y: usize| {
        let edge = |i: usize| i == 0 || i == 31;
        !(edge(x) && edge(y))
    };
    (0..LONG).map(|p| if processor(p / 32, p % 32) { 0 } else { 2 }).collect()
}

fn with_faults(random: &mut Random, inner: usize, spares: usize) -> Vec<u8> {
    let mut grid = healthy();
    let mut left = (inner, spares);
    while left != (0, 0) {
        let p = random.below(LONG);
        let is_inner = (1..=30).contains(&(p / 32)) && (1..=30).contains(&(p % 32));
        let quota = if is_inner { &mut left.0 } else { &mut left.1 };
        if grid[p] == 0 && *quota > 0 {
            grid[p] = 1;
            *quota -= 1;
        }
    }
    grid
}

/// The first random map with so many faults whose outcome, under the limit, is as wanted.
fn find_map(inner: usize, limit: u32, wanted: fn(Outcome) -> bool) -> Vec<u8> {
    let mut random = Random(88172645463325252 + inner as u64);
    let mut directions = vec![0; LONG];
    for attempt in 0.. {
        let grid = with_faults(&mut random, inner, (attempt / 40) % 60);
        let found = same::plan_repair(30, 30, &grid, &mut directions, limit);
        if wanted(found.expect("a map of the right form")) {
            return grid;
        }
    }
    unreachable!()
}

fn map_file(grid: &[u8]) -> Vec<u8> {
    let faults: Vec<usize> = (0..LONG).filter(|&p| grid[p] == 1).collect();
    let mut bytes = vec![30, 30];
    if faults.len() >= 128 {
        bytes.push(128 + (faults.len() % 128) as u8);
        bytes.push((faults.len() / 128) as u8);
    } else {
        bytes.push(faults.len() as u8);
    }
    bytes.extend(faults.iter().flat_map(|&p| [(p / 32) as u8, (p % 32) as u8]));
    bytes
}

fn median(mut times: Vec<f64>) -> f64 {
    times.sort_by(f64::total_cmp);
    times[times.len() / 2]
}

fn microseconds(calls: usize, work: &mut dyn FnMut()) -> f64 {
    let start = Instant::now();
    for _ in 0..calls {
        work();
    }
    start.elapsed().as_secs_f64() * 1e6 / calls as f64
}

/// Prints microseconds a call of both.
fn compare(what: &str, calls: usize, library: &mut dyn FnMut(), rust: &mut dyn FnMut()) {
    let (mut ours, mut theirs) = (Vec::new(), Vec::new());
    microseconds(calls, library);
    microseconds(calls, rust);
    for _ in 0..ROUNDS {
        ours.push(microseconds(calls, library));
        theirs.push(microseconds(calls, rust));
    }
    println!("{what}\t{}\t{}", median(ours), median(theirs));
}

fn compare_trials(faults: usize) {
    let limit = 100_000;
    let grid = find_map(faults, limit, |o| matches!(o, Outcome::Spent(_)));
    let (mut a, mut b) = (vec![0; LONG], vec![0; LONG]);
    compare(
        &format!("{limit} trials, 30 x 30, {faults} faults"),
        1,
        &mut || {
            black_box(chantspruce::plan_repair(30, 30, black_box(&grid), &mut a, limit)).ok();
        },
        &mut || {
            black_box(same::plan_repair(30, 30, black_box(&grid), &mut b, limit)).ok();
        },
    );
}

/// A map that few trials repair.
fn compare_few(faults: usize) {
    let limit = 1000;
    let grid = find_map(faults, limit, |o| matches!(o, Outcome::Repaired(_)));
    let (mut a, mut b) = (vec![0; LONG], vec![0; LONG]);
    compare(
        &format!("plan_repair, 30 x 30, {faults} faults"),
        200,
        &mut || {
            black_box(chantspruce::plan_repair(30, 30, black_box(&grid), &mut a, limit)).ok();
        },
        &mut || {
            black_box(same::plan_repair(30, 30, black_box(&grid), &mut b, limit)).ok();
        },
    );
}

/// A 30 x 30 map whose inner faults are at these rows and columns.
fn with_faults_at(is_fault: fn(usize, usize) -> bool) -> Vec<u8> {
    let mut grid = healthy();
    for (x, y) in (1..=30).flat_map(|x| (1..=30).map(move |y| (x, y))) {
        grid[32 * x + y] = u8::from(is_fault(x, y));
    }
    grid
}

/// The exact planner on a map, with what it decides. The two buffers differ at first, so that they are alike only where both are written. A round
/// has as many calls as take about a millisecond, 1 to 50.
fn compare_exactly(name: &str, n: usize, m: usize, grid: &[u8]) {
    let (mut a, mut b) = (vec![5; LONG], vec![6; LONG]);
    let decided = chantspruce::plan_exactly(n, m, grid, &mut a).expect("a map of the right form");
    let found = same::plan_exactly(n, m, grid, &mut b).expect("a map of the right form");
    assert_eq!(format!("{decided:?}"), format!("{found:?}"), "two decisions for the same map");
    let mut library = || {
        black_box(chantspruce::plan_exactly(n, m, black_box(grid), &mut a)).ok();
    };
    let mut rust = || {
        black_box(same::plan_exactly(n, m, black_box(grid), &mut b)).ok();
    };
    let calls = (1000.0 / microseconds(1, &mut library)).clamp(1.0, 50.0) as usize;
    compare(&format!("plan_exactly, {name}: {found:?}"), calls, &mut library, &mut rust);
    assert!(a == b, "two exact plans for the same map");
}

/// All planners on the same map, each with what it finds.
fn compare_planners(name: &str, grid: &[u8]) {
    let limit = 1_000_000;
    let (mut a, mut b) = (vec![0; LONG], vec![0; LONG]);
    let found = same::plan_repair(30, 30, grid, &mut b, limit).expect("a map of the right form");
    compare(
        &format!("plan_repair, {name}: {found:?}"),
        if matches!(found, Outcome::Spent(_)) { 1 } else { 50 },
        &mut || {
            black_box(chantspruce::plan_repair(30, 30, black_box(grid), &mut a, limit)).ok();
        },
        &mut || {
            black_box(same::plan_repair(30, 30, black_box(grid), &mut b, limit)).ok();
        },
    );
    assert!(a == b, "two plans for the same map");
    let found = same::plan_quickly(30, 30, grid, &mut b, limit).expect("a map of the right form");
    compare(
        &format!("plan_quickly, {name}: {found:?}"),
        50,
        &mut || {
            black_box(chantspruce::plan_quickly(30, 30, black_box(grid), &mut a, limit)).ok();
        },
        &mut || {
            black_box(same::plan_quickly(30, 30, black_box(grid), &mut b, limit)).ok();
        },
    );
    assert!(a == b, "two quick plans for the same map");
    compare_exactly(name, 30, 30, grid);
}

/// Rows, columns and grid of a map file.
fn read_file(path: &str) -> (usize, usize, Vec<u8>) {
    let mut grid = vec![0; LONG];
    let (n, m, _) = same::read_map(&std::fs::read(path).expect("a map file"), &mut grid).expect("a map");
    (n, m, grid)
}

fn compare_all_planners() {
    let random = find_map(40, 1_000_000, |o| matches!(o, Outcome::Repaired(_)));
    compare_planners("40 faults", &random);
    let rim = |x, y| x == 1 || x == 30 || y == 1 || y == 30;
    compare_planners("116 faults at the rim", &with_faults_at(rim));
    compare_planners("900 faults", &with_faults_at(|_, _| true));
    let (_, _, spent) = read_file("examples/spent.map");
    compare_planners("examples/spent.map", &spent);
}

/// The exact planner on maps that spend another planner and on hard ones: hard-repaired.map and hard-beyond.map were found by a hill climb over
/// 30 x 30 maps for the longest time, as estimated from counts of the planner's steps.
fn compare_exactly_on_files() {
    for path in ["examples/both-spent.map", "examples/quick-spent.map", "tests/speed/hard-repaired.map", "tests/speed/hard-beyond.map"] {
        let (n, m, grid) = read_file(path);
        compare_exactly(path.trim_start_matches("tests/speed/"), n, m, &grid);
    }
}

fn compare_reading() {
    let file = map_file(&with_faults_at(|_, _| true));
    let (mut a, mut b) = (vec![0; LONG], vec![0; LONG]);
    compare(
        "read_map, 30 x 30, 900 faults",
        200,
        &mut || {
            black_box(chantspruce::read_map(black_box(&file), &mut a)).ok();
        },
        &mut || {
            black_box(same::read_map(black_box(&file), &mut b)).ok();
        },
    );
}

fn compare_plan(faults: usize) {
    let grid = find_map(faults, 100_000, |o| matches!(o, Outcome::Repaired(_)));
    let mut directions = vec![0; LONG];
    same::plan_repair(30, 30, &grid, &mut directions, 100_000).expect("a plan");
    let directions = directions;
    compare(
        &format!("check_plan, 30 x 30, {faults} faults"),
        200,
        &mut || {
            black_box(chantspruce::check_plan(30, 30, black_box(&grid), &directions)).ok();
        },
        &mut || {
            black_box(same::check_plan(30, 30, black_box(&grid), &directions)).ok();
        },
    );
    let (mut a, mut b) = (vec![0u16; LONG], vec![0u16; LONG]);
    compare(
        &format!("place_cells, 30 x 30, {faults} faults"),
        200,
        &mut || {
            black_box(chantspruce::place_cells(30, 30, black_box(&grid), &directions, &mut a)).ok();
        },
        &mut || {
            black_box(same::place_cells(30, 30, black_box(&grid), &directions, &mut b)).ok();
        },
    );
    let (mut across, mut down) = (vec![0; LONG], vec![0; LONG]);
    let (mut across2, mut down2) = (vec![0; LONG], vec![0; LONG]);
    compare(
        &format!("route_switches, 30 x 30, {faults} faults"),
        200,
        &mut || {
            black_box(chantspruce::route_switches(30, 30, black_box(&grid), &directions, &mut across, &mut down)).ok();
        },
        &mut || {
            black_box(same::route_switches(30, 30, black_box(&grid), &directions, &mut across2, &mut down2)).ok();
        },
    );
    let wafer = Wafer { n: 30, m: 30, grid: &grid, directions: &directions, across: &across, down: &down };
    let links: Vec<(usize, usize)> = (0..2 * LONG)
        .map(|k| (k / 2, k % 2))
        .filter(|&(p, side)| {
            let (x, y) = (p / 32, p % 32);
            x >= 1 && y >= 1 && x <= 30 - side && y <= 29 + side
        })
        .collect();
    compare(
        &format!("follow_link, all {} links, {faults} faults", links.len()),
        1,
        &mut || {
            for &(cell, side) in &links {
                black_box(chantspruce::follow_link(30, 30, &grid, &directions, &across, &down, cell, side)).ok();
            }
        },
        &mut || {
            for &(cell, side) in &links {
                black_box(same::follow_link(&wafer, cell, side)).ok();
            }
        },
    );
}

/// The lent buffers of a run.
struct Buffers {
    directions: Vec<u8>,
    places: Vec<u16>,
    across: Vec<u8>,
    down: Vec<u8>,
}

impl Buffers {
    fn new() -> Buffers {
        Buffers { directions: vec![0; LONG], places: vec![0; LONG], across: vec![0; LONG], down: vec![0; LONG] }
    }
}

fn compare_run(faults: usize) {
    let limit = 100_000;
    let grid = find_map(faults, limit, |o| matches!(o, Outcome::Repaired(_)));
    let (mut a, mut b) = (Buffers::new(), Buffers::new());
    let mut library = || {
        let (d, p, x, y) = (&mut a.directions, &mut a.places, &mut a.across, &mut a.down);
        black_box(chantspruce::repair_run(30, 30, black_box(&grid), limit, d, p, x, y)).expect("a run").links
    };
    let mut rust = || {
        let (d, p, x, y) = (&mut b.directions, &mut b.places, &mut b.across, &mut b.down);
        black_box(same::repair_run(30, 30, black_box(&grid), limit, d, p, x, y)).expect("a run").1
    };
    assert_eq!((library(), rust()), (1740, 1740));
    compare(
        &format!("repair_run, 30 x 30, {faults} faults"),
        20,
        &mut || {
            library();
        },
        &mut || {
            rust();
        },
    );
}

fn assert_same(a: &chantspruce::Session, b: &same::Session) {
    let counters = [&a.south, &a.north, &a.east, &a.west];
    let alike = (a.rows, a.columns, &a.grid, &a.directions) == (b.n, b.m, &b.grid, &b.directions);
    assert!(alike && counters.iter().zip(&b.counters).all(|(a, b)| *a == b), "two sessions");
}

fn compare_start(grid: &[u8], directions: &[u8], faults: usize) {
    compare(
        &format!("start_session, 30 x 30, {faults} faults"),
        50,
        &mut || {
            black_box(chantspruce::Session::start(30, 30, black_box(grid), directions)).ok();
        },
        &mut || {
            black_box(same::start_session(30, 30, black_box(grid), directions)).ok();
        },
    );
}

/// The preview of a failure that is accepted; both give the same.
fn compare_preview(a: &chantspruce::Session, b: &same::Session, place: usize, faults: usize) {
    let seen = a.preview_failure(place).expect("a preview");
    let counters = [seen.south, seen.north, seen.east, seen.west];
    assert_eq!(b.preview(true, place).ok(), Some((seen.direction, counters)), "two previews");
    compare(
        &format!("preview of a failure, 30 x 30, {faults} faults"),
        50,
        &mut || {
            black_box(black_box(a).preview_failure(black_box(place))).ok();
        },
        &mut || {
            black_box(black_box(b).preview(true, black_box(place))).ok();
        },
    );
}

/// The start of a session, and a report with the report that takes it back, of the first processor that gets a path, and its preview.
fn compare_session(faults: usize) {
    let grid = find_map(faults, 1_000_000, |o| matches!(o, Outcome::Repaired(_)));
    let mut directions = vec![0; LONG];
    same::plan_repair(30, 30, &grid, &mut directions, 1_000_000).expect("a plan");
    compare_start(&grid, &directions, faults);
    let mut a = chantspruce::Session::start(30, 30, &grid, &directions).expect("a plan");
    let mut b = same::start_session(30, 30, &grid, &directions).expect("a plan");
    assert_same(&a, &b);
    let gets_path = |&p: &usize| b.clone().report(true, p).is_ok() && (1..=30).contains(&(p / 32)) && (1..=30).contains(&(p % 32));
    let place = (0..LONG).find(gets_path).expect("a processor that gets a path");
    a.fail(place).expect("a report");
    b.report(true, place).expect("a report");
    assert_same(&a, &b);
    a.recover(place).expect("a report");
    b.report(false, place).expect("a report");
    assert_same(&a, &b);
    compare(
        &format!("fail and recover, 30 x 30, {faults} faults"),
        50,
        &mut || {
            black_box(a.fail(black_box(place))).ok();
            black_box(a.recover(black_box(place))).ok();
        },
        &mut || {
            black_box(b.report(true, black_box(place))).ok();
            black_box(b.report(false, black_box(place))).ok();
        },
    );
    assert_same(&a, &b);
    compare_preview(&a, &b, place, faults);
    assert_same(&a, &b);
}

/// Prints the microseconds from the bytes of an example's map file to its listing, which is all that the bench program does between reading and
/// writing.
fn measure_listing(name: &str) {
    let file = std::fs::read(format!("examples/{name}.map")).expect("an example");
    let mut out = vec![0; chantspruce::LISTING_ROOM];
    let mut work = || {
        black_box(chantspruce::report(black_box(&file), &mut out)).ok();
    };
    let calls = if name == "spent" { 1 } else { 50 };
    let times = (0..ROUNDS).map(|_| microseconds(calls, &mut work)).collect();
    println!("bytes to listing, examples/{name}.map\t{}", median(times));
}

fn main() {
    compare_few(5);
    for faults in [20, 34, 40, 60] {
        compare_trials(faults);
    }
    compare_all_planners();
    compare_exactly_on_files();
    compare_reading();
    compare_plan(20);
    compare_plan(50);
    compare_run(20);
    compare_session(40);
    for name in ["first", "large", "beyond", "spent"] {
        measure_listing(name);
    }
}
