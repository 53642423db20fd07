//! The library's algorithms once more, in plain Rust: what speed.rs measures the library against.

pub const LONG: usize = 1024;

#[derive(Clone, Copy, Debug, PartialEq)]
pub struct Refusal {
    pub number: u8,
    pub place: usize,
    pub second: usize,
}

pub type Tested = Result<(), Refusal>;

fn refuse<T>(number: u8, place: usize, second: usize) -> Result<T, Refusal> {
    Err(Refusal { number, place, second })
}

// Positions and maps.

fn is_inner_at(n: usize, m: usize, x: usize, y: usize) -> bool {
    1 <= x && x <= n && 1 <= y && y <= m
}

fn is_inner(n: usize, m: usize, p: usize) -> bool {
    is_inner_at(n, m, p / 32, p % 32)
}

fn is_processor_at(n: usize, m: usize, x: usize, y: usize) -> bool {
    x <= n + 1 && y <= m + 1 && !((x == 0 || x == n + 1) && (y == 0 || y == m + 1))
}

fn is_faulty(mark: u8) -> bool {
    mark == 1 || mark == 3
}

/// Asks first what holds at most positions, as the library does; so do the tests 4 and 16.
fn is_allowed(n: usize, m: usize, x: usize, y: usize, mark: u8) -> bool {
    if is_inner_at(n, m, x, y) {
        return mark <= 1 || mark == 3;
    }
    if is_processor_at(n, m, x, y) { mark <= 1 } else { mark == 2 }
}

fn check_map(n: usize, m: usize, right: bool, grid: &[u8]) -> Tested {
    if !((1..=30).contains(&n) && (1..=30).contains(&m)) {
        return refuse(1, 0, 0);
    }
    if !right {
        return refuse(2, 0, 0);
    }
    for x in 0..32 {
        for y in 0..32 {
            let (p, mark) = (32 * x + y, grid[32 * x + y]);
            if !is_allowed(n, m, x, y, mark) {
                return refuse(3, p, 0);
            }
        }
    }
    Ok(())
}

// Paths.

fn length_of(n: usize, m: usize, p: usize, d: u8) -> usize {
    let (x, y) = (p / 32, p % 32);
    match d {
        1 => n + 2 - x,
        2 => x + 1,
        3 => m + 2 - y,
        _ => y + 1,
    }
}

fn step_ahead(p: usize, d: u8, k: usize) -> usize {
    match d {
        1 => p + 32 * k,
        2 => p - 32 * k,
        3 => p + k,
        _ => p - k,
    }
}

fn is_from_rim(n: usize, m: usize, p: usize, d: u8) -> bool {
    match d {
        1 => p / 32 == 1,
        2 => p / 32 == n,
        3 => p % 32 == 1,
        _ => p % 32 == m,
    }
}

fn is_open(n: usize, m: usize, grid: &[u8], p: usize, d: u8) -> bool {
    if grid[p] == 3 && !is_from_rim(n, m, p, d) {
        return false;
    }
    (1..length_of(n, m, p, d)).all(|k| !is_faulty(grid[step_ahead(p, d, k)]))
}

/// How two paths clash, by the geometry: 0 not at all, 1 they meet, 2 a near-miss.
const fn clash(d: usize, e: usize, rows: isize, columns: isize) -> u8 {
    const FAR: isize = 9;
    /// First and last row and column that a path takes up.
    const fn extent(x: isize, y: isize, d: usize) -> [isize; 4] {
        match d {
            1 => [x, FAR, y, y],
            2 => [-FAR, x, y, y],
            3 => [x, x, y, FAR],
            _ => [x, x, -FAR, y],
        }
    }
    if rows == 0 && columns == 0 {
        return 0;
    }
    let [top, bottom, west, east] = extent(0, 0, d);
    let [up, down, left, right] = extent(rows, columns, e);
    if top <= down && up <= bottom && west <= right && left <= east {
        return 1;
    }
    let near = match (d, e) {
        (1, 2) => columns.abs() == 1 && rows > 0,
        (2, 1) => columns.abs() == 1 && rows < 0,
        (3, 4) => rows.abs() == 1 && columns > 0,
        (4, 3) => rows.abs() == 1 && columns < 0,
        _ => false,
    };
    if near { 2 } else { 0 }
}

const CLASHES: [u8; 400] = {
    let mut table = [0; 400];
    let mut i = 0;
    while i < 400 {
        table[i] = clash(i / 100 + 1, i / 25 % 4 + 1, (i / 5 % 5) as isize - 2, (i % 5) as isize - 2);
        i += 1;
    }
    table
};

fn class_of(first: u8, second: u8) -> usize {
    (second as usize + 2).saturating_sub(first as usize).min(4)
}

#[allow(clippy::too_many_arguments)]
fn find_entry(table: &[u8; 400], x: u8, y: u8, d: u8, v: u8, w: u8, e: u8) -> u8 {
    let pair = (d as usize - 1) * 4 + e as usize - 1;
    table[pair * 25 + 5 * class_of(x, v) + class_of(y, w)]
}

// The plan check.

fn list_faults(n: usize, m: usize, grid: &[u8], out: &mut [u16; LONG]) -> usize {
    let mut count = 0;
    for (p, &mark) in grid.iter().enumerate() {
        if is_inner(n, m, p) && is_faulty(mark) {
            out[count] = p as u16;
            count += 1;
        }
    }
    count
}

fn note_places(starts: &[u16], rows: &mut [u8], columns: &mut [u8]) {
    for (k, &p) in starts.iter().enumerate() {
        rows[k] = (p / 32) as u8;
        columns[k] = (p % 32) as u8;
    }
}

fn check_directions(n: usize, m: usize, grid: &[u8], directions: &[u8]) -> Tested {
    for (p, (&mark, &d)) in grid.iter().zip(directions).enumerate() {
        let fault = is_inner(n, m, p) && is_faulty(mark);
        let wrong = if d == 0 { fault } else { d > 4 || !fault };
        if wrong {
            return refuse(4, p, 0);
        }
    }
    Ok(())
}

fn check_paths(n: usize, m: usize, grid: &[u8], starts: &[u16], ds: &[u8]) -> Tested {
    for (&p, &d) in starts.iter().zip(ds) {
        if !is_open(n, m, grid, p as usize, d) {
            return refuse(5, p as usize, 0);
        }
    }
    let (mut rows, mut columns) = ([0; LONG], [0; LONG]);
    note_places(starts, &mut rows, &mut columns);
    let table = CLASHES;
    for i in 0..starts.len() {
        for j in i + 1..starts.len() {
            if ds[j] == 1 {
                continue;
            }
            match find_entry(&table, rows[i], columns[i], ds[i], rows[j], columns[j], ds[j]) {
                0 => {}
                1 => return refuse(6, starts[i] as usize, starts[j] as usize),
                _ => return refuse(7, starts[i] as usize, starts[j] as usize),
            }
        }
    }
    Ok(())
}

fn check_tests(n: usize, m: usize, right: bool, grid: &[u8], directions: &[u8]) -> Tested {
    check_map(n, m, right, grid)?;
    check_directions(n, m, grid, directions)?;
    let mut starts = [0u16; LONG];
    let mut ds = [0u8; LONG];
    let count = list_faults(n, m, grid, &mut starts);
    for k in 0..count {
        ds[k] = directions[starts[k] as usize];
    }
    check_paths(n, m, grid, &starts[..count], &ds[..count])
}

pub fn check_plan(n: usize, m: usize, grid: &[u8], directions: &[u8]) -> Tested {
    check_tests(n, m, grid.len() == LONG && directions.len() == LONG, grid, directions)
}

// Sessions.

#[derive(Clone)]
pub struct Session {
    pub n: usize,
    pub m: usize,
    pub grid: [u8; LONG],
    pub directions: [u8; LONG],
    /// South, north, east, west.
    pub counters: [[u8; LONG]; 4],
}

fn is_on(n: usize, m: usize, p: usize, q: usize, e: u8) -> bool {
    let (x, y, v, w) = (p / 32, p % 32, q / 32, q % 32);
    let (top, bottom) = (if e == 2 { 0 } else { v }, if e == 1 { n + 1 } else { v });
    let (left, right) = (if e == 4 { 0 } else { w }, if e == 3 { m + 1 } else { w });
    top <= x && x <= bottom && left <= y && y <= right
}

/// The counter of direction d at p, where the path from q in direction e comes (up) or goes.
#[allow(clippy::too_many_arguments)]
fn alter_at(table: &[u8; 400], n: usize, m: usize, up: bool, q: usize, e: u8, d: u8, p: usize, counter: u8) -> u8 {
    if !is_inner(n, m, p) || p == q {
        return counter;
    }
    if find_entry(table, (p / 32) as u8, (p % 32) as u8, d, (q / 32) as u8, (q % 32) as u8, e) == 0 {
        return counter;
    }
    if up { counter.saturating_add(1) } else { counter.saturating_sub(1) }
}

impl Session {
    /// Alters the counters by the path from q in direction e, in place.
    fn alter_all(&mut self, up: bool, q: usize, e: u8) {
        let (n, m) = (self.n, self.m);
        let [south, north, east, west] = &mut self.counters;
        for p in 0..LONG {
            south[p] = alter_at(&CLASHES, n, m, up, q, e, 1, p, south[p]);
            north[p] = alter_at(&CLASHES, n, m, up, q, e, 2, p, north[p]);
            east[p] = alter_at(&CLASHES, n, m, up, q, e, 3, p, east[p]);
            west[p] = alter_at(&CLASHES, n, m, up, q, e, 4, p, west[p]);
        }
    }

    fn judge_failing(&self, p: usize) -> Result<u8, Refusal> {
        let (n, m) = (self.n, self.m);
        if is_faulty(self.grid[p]) {
            return refuse(22, p, 0);
        }
        for (q, &e) in self.directions.iter().enumerate() {
            if e != 0 && is_on(n, m, p, q, e) {
                return refuse(23, p, 0);
            }
        }
        if !is_inner(n, m, p) {
            return Ok(0);
        }
        let qualifies = |d: &u8| self.counters[*d as usize - 1][p] == 0 && is_open(n, m, &self.grid, p, *d);
        (1..=4).find(qualifies).map_or_else(|| refuse(24, p, 0), Ok)
    }

    fn judge(&self, failing: bool, p: usize) -> Result<u8, Refusal> {
        check_plan(self.n, self.m, &self.grid, &self.directions)?;
        if !is_processor_at(self.n, self.m, p / 32, p % 32) {
            return refuse(15, 0, 0);
        }
        if failing {
            return self.judge_failing(p);
        }
        match self.grid[p] {
            0 => refuse(22, p, 0),
            3 => refuse(23, p, 0),
            _ => Ok(self.directions[p]),
        }
    }

    /// The direction that the processor would have and the counters as they would be: the report, made on a copy.
    pub fn preview(&self, failing: bool, p: usize) -> Result<(u8, [[u8; LONG]; 4]), Refusal> {
        let mut copy = self.clone();
        copy.report(failing, p)?;
        Ok((copy.directions[p], copy.counters))
    }

    pub fn report(&mut self, failing: bool, p: usize) -> Tested {
        let e = self.judge(failing, p)?;
        self.grid[p] = u8::from(failing);
        self.directions[p] = if failing { e } else { 0 };
        if e != 0 {
            self.alter_all(failing, p, e);
        }
        Ok(())
    }
}

pub fn start_session(n: usize, m: usize, grid: &[u8], directions: &[u8]) -> Result<Session, Refusal> {
    check_plan(n, m, grid, directions)?;
    let mut session = Session { n, m, grid: [0; LONG], directions: [0; LONG], counters: [[0; LONG]; 4] };
    session.grid.copy_from_slice(grid);
    session.directions.copy_from_slice(directions);
    for (q, &e) in directions.iter().enumerate() {
        if e != 0 {
            session.alter_all(true, q, e);
        }
    }
    Ok(session)
}

// The planner.

#[derive(Clone, Copy, Debug, PartialEq)]
pub enum Outcome {
    Repaired(u32),
    Beyond(u32),
    Spent(u32),
}

/// What the trials work over: the faults' starts, rows and columns, the clash table, what is known of open paths, and the directions kept.
struct Trials<'a> {
    n: usize,
    m: usize,
    grid: &'a [u8],
    starts: &'a [u16],
    rows: &'a [u8],
    columns: &'a [u8],
    table: &'a [u8; 400],
    notes: &'a mut [u8],
    chosen: &'a mut [u8],
}

impl Trials<'_> {
    fn is_open_once(&mut self, k: usize, d: u8) -> bool {
        let at = 4 * k + d as usize - 1;
        if self.notes[at] != 0 {
            return self.notes[at] == 2;
        }
        let open = is_open(self.n, self.m, self.grid, self.starts[k] as usize, d);
        self.notes[at] = if open { 2 } else { 1 };
        open
    }

    fn is_clear_of(&self, k: usize, d: u8) -> bool {
        let (x, y) = (self.rows[k], self.columns[k]);
        (0..k).rev().all(|j| find_entry(self.table, self.rows[j], self.columns[j], self.chosen[j], x, y, d) == 0)
    }

    fn is_kept(&mut self, k: usize, d: u8) -> bool {
        self.is_open_once(k, d) && (d == 1 || self.is_clear_of(k, d))
    }

    fn search(&mut self, limit: u32) -> Outcome {
        let (mut k, mut d, mut spent) = (0, 1u8, 0u32);
        while k < self.starts.len() {
            if d > 4 {
                if k == 0 {
                    return Outcome::Beyond(spent);
                }
                k -= 1;
                d = self.chosen[k] + 1;
                continue;
            }
            if spent == limit {
                return Outcome::Spent(limit);
            }
            spent += 1;
            if self.is_kept(k, d) {
                self.chosen[k] = d;
                k += 1;
                d = 1;
            } else {
                d += 1;
            }
        }
        Outcome::Repaired(spent)
    }
}

fn search(n: usize, m: usize, grid: &[u8], starts: &[u16], chosen: &mut [u8], limit: u32) -> Outcome {
    let (mut rows, mut columns, mut notes) = ([0; LONG], [0; LONG], [0; 4 * LONG]);
    note_places(starts, &mut rows, &mut columns);
    let (rows, columns, table, notes) = (&rows, &columns, &CLASHES, &mut notes);
    Trials { n, m, grid, starts, rows, columns, table, notes, chosen }.search(limit)
}

fn write_found(found: Outcome, starts: &[u16], chosen: &[u8], directions: &mut [u8]) {
    directions.fill(0);
    if let Outcome::Repaired(_) = found {
        for (&p, &d) in starts.iter().zip(chosen) {
            directions[p as usize] = d;
        }
    }
}

fn find_plan(n: usize, m: usize, grid: &[u8], directions: &mut [u8], limit: u32) -> Outcome {
    let mut starts = [0u16; LONG];
    let mut chosen = [0u8; LONG];
    let count = list_faults(n, m, grid, &mut starts);
    let found = search(n, m, grid, &starts[..count], &mut chosen, limit);
    write_found(found, &starts[..count], &chosen[..count], directions);
    found
}

pub fn plan_repair(n: usize, m: usize, grid: &[u8], directions: &mut [u8], limit: u32) -> Result<Outcome, Refusal> {
    check_map(n, m, grid.len() == LONG && directions.len() == LONG, grid)?;
    Ok(find_plan(n, m, grid, directions, limit))
}

// The quick planner.

/// How far in a position lies on a side.
fn depth(p: usize, d: u8) -> usize {
    match d {
        1 => 31 - p / 32,
        2 => p / 32,
        3 => 31 - p % 32,
        _ => p % 32,
    }
}

fn find_least(left: &[u16], d: u8) -> usize {
    left.iter().fold(31, |least, &p| least.min(depth(p as usize, d)))
}

/// Where in the list the first fault is that lies outermost on a side and has an open path there.
fn find_outward(n: usize, m: usize, grid: &[u8], left: &[u16], d: u8) -> Option<usize> {
    let least = find_least(left, d);
    left.iter().position(|&p| depth(p as usize, d) == least && is_open(n, m, grid, p as usize, d))
}

/// Settles one fault after the other: `held` gets their positions, `ways` their directions, `left` keeps the others. How many
/// are settled.
fn peel(n: usize, m: usize, grid: &[u8], left: &mut [u16], held: &mut [u16], ways: &mut [u8]) -> usize {
    let count = left.len();
    let mut settled = 0;
    let mut d = 4;
    while 0 < d {
        let rest = count - settled;
        if let Some(at) = find_outward(n, m, grid, &left[..rest], d) {
            held[settled] = left[at];
            ways[settled] = d;
            for k in at..rest - 1 {
                left[k] = left[k + 1];
            }
            settled += 1;
            d = 4;
        } else {
            d -= 1;
        }
    }
    settled
}

fn find_quickly(n: usize, m: usize, grid: &[u8], directions: &mut [u8], limit: u32) -> Outcome {
    let (mut left, mut held) = ([0u16; LONG], [0u16; LONG]);
    let (mut ways, mut chosen) = ([0u8; LONG], [0u8; LONG]);
    let count = list_faults(n, m, grid, &mut left);
    let settled = peel(n, m, grid, &mut left[..count], &mut held, &mut ways);
    let rest = count - settled;
    let found = search(n, m, grid, &left[..rest], &mut chosen, limit);
    write_found(found, &left[..rest], &chosen[..rest], directions);
    if let Outcome::Repaired(_) = found {
        for k in 0..settled {
            directions[held[k] as usize] = ways[k];
        }
    }
    found
}

pub fn plan_quickly(n: usize, m: usize, grid: &[u8], directions: &mut [u8], limit: u32) -> Result<Outcome, Refusal> {
    check_map(n, m, grid.len() == LONG && directions.len() == LONG, grid)?;
    Ok(find_quickly(n, m, grid, directions, limit))
}

// The exact planner.

#[derive(Clone, Copy, Debug, PartialEq)]
pub enum Decision {
    Repaired,
    Beyond,
}

/// Room for the faults: a plan has at most 120, as many as a 30 x 30 array has spares.
const ROOM: usize = 128;

/// Room for the faults that the lists name.
const LISTED: usize = 2048;

fn is_side(a: usize, b: usize, x: usize, y: usize) -> bool {
    if a < b { x < y } else { y < x }
}

/// Whether the ends at (ua, va) and (ub, vb) leave direction d to a fault at (u, v).
fn does_fit(ua: usize, va: usize, ub: usize, vb: usize, u: usize, v: usize, d: u8) -> bool {
    match d {
        1 => (ub <= u) & ((ua < u) | is_side(va, vb, va, v)),
        2 => (u <= ua) & ((u < ub) | is_side(va, vb, v, vb)),
        3 => ((ua < u) | (va < v)) & ((u < ub) | (vb < v)),
        4 => ((ua < u) | (v < va)) & ((u < ub) | (v < vb)),
        _ => false,
    }
}

/// South and east, north and west exchanged.
fn exchange(d: u8) -> u8 {
    match d {
        1 => 3,
        2 => 4,
        3 => 1,
        4 => 2,
        _ => 0,
    }
}

/// Whether the pair (a, b) leaves direction d to the fault at p.
fn does_leave(columns: bool, a: usize, b: usize, p: usize, d: u8) -> bool {
    if columns {
        return does_fit(a % 32, a / 32, b % 32, b / 32, p % 32, p / 32, exchange(d));
    }
    does_fit(a / 32, a % 32, b / 32, b % 32, p / 32, p % 32, d)
}

fn is_tried(columns: bool, a: usize, b: usize) -> bool {
    if columns {
        return a % 32 < b % 32;
    }
    (a / 32 < b / 32) | (a % 32 != b % 32)
}

fn find_lowest(south: bool, north: bool, east: bool, west: bool) -> u8 {
    if south {
        return 1;
    }
    if north {
        return 2;
    }
    if east {
        return 3;
    }
    if west { 4 } else { 0 }
}

fn find_highest(south: bool, north: bool, east: bool, west: bool) -> u8 {
    if west {
        return 4;
    }
    if east {
        return 3;
    }
    if north {
        return 2;
    }
    if south { 1 } else { 0 }
}

fn pick(passes: bool, x: u8, y: u8) -> u8 {
    if passes { x } else { y }
}

fn does_pass(clashes: &[u8; 400], starts: &[u16], f: usize, d: u8, g: usize, e: u8) -> bool {
    let (p, q) = (starts[f], starts[g]);
    find_entry(clashes, (p / 32) as u8, (p % 32) as u8, d, (q / 32) as u8, (q % 32) as u8, e) == 0
}

/// Takes from fault g the options that do not pass with direction d of fault f; false where it is left none.
fn strike_one(clashes: &[u8; 400], starts: &[u16], lo: &mut [u8], hi: &mut [u8], f: usize, d: u8, g: usize) -> bool {
    let (low, high) = (lo[g], hi[g]);
    let a = does_pass(clashes, starts, f, d, g, low);
    if low == high {
        return a;
    }
    let b = does_pass(clashes, starts, f, d, g, high);
    if !(a | b) {
        return false;
    }
    lo[g] = pick(a, low, high);
    hi[g] = pick(b, high, low);
    true
}

/// The same for the faults in places begin to end of the lists.
#[allow(clippy::too_many_arguments)]
fn strike_listed(
    clashes: &[u8; 400],
    starts: &[u16],
    lists: &[u8],
    begin: usize,
    end: usize,
    lo: &mut [u8],
    hi: &mut [u8],
    f: usize,
) -> bool {
    let d = lo[f];
    lists[begin..end].iter().all(|&g| strike_one(clashes, starts, lo, hi, f, d, g as usize))
}

/// The same for every fault from this one on, except f.
fn strike_rest(clashes: &[u8; 400], starts: &[u16], from: usize, lo: &mut [u8], hi: &mut [u8], f: usize) -> bool {
    let d = lo[f];
    (from..starts.len()).all(|g| g == f || strike_one(clashes, starts, lo, hi, f, d, g))
}

/// The same for every other fault: those that row f names, and those from its rest on.
#[allow(clippy::too_many_arguments)]
fn strike(clashes: &[u8; 400], starts: &[u16], lists: &[u8], ends: &[u16], rest: &[u8], lo: &mut [u8], hi: &mut [u8], f: usize) -> bool {
    let (begin, end) = (ends[f] as usize, ends[f + 1] as usize);
    if !strike_listed(clashes, starts, lists, begin, end, lo, hi, f) {
        return false;
    }
    strike_rest(clashes, starts, rest[f] as usize, lo, hi, f)
}

/// The first fault from `from` on that has one option and is not marked, or the number of all.
fn find_from(from: usize, count: usize, lo: &[u8], hi: &[u8], done: &[u8]) -> usize {
    (from..count).find(|&k| (lo[k] == hi[k]) & (done[k] == 0)).unwrap_or(count)
}

/// The first such fault from `from` on, else the first of all.
fn find_next(from: usize, count: usize, lo: &[u8], hi: &[u8], done: &[u8]) -> usize {
    let f = find_from(from, count, lo, hi, done);
    if f < count {
        return f;
    }
    find_from(0, count, lo, hi, done)
}

/// Closes every fault that has one option, and those that then have one; false where a fault is left none.
#[allow(clippy::too_many_arguments)]
fn spread(
    clashes: &[u8; 400],
    starts: &[u16],
    lists: &[u8],
    ends: &[u16],
    rest: &[u8],
    lo: &mut [u8],
    hi: &mut [u8],
    done: &mut [u8],
) -> bool {
    let count = starts.len();
    let mut f = find_next(0, count, lo, hi, done);
    while f < count {
        if !strike(clashes, starts, lists, ends, rest, lo, hi, f) {
            return false;
        }
        done[f] = 1;
        f = find_next(f + 1, count, lo, hi, done);
    }
    true
}

/// Gives fault k the lesser of its two options, where the propagation allows it; else changes nothing.
#[allow(clippy::too_many_arguments)]
fn settle_low(
    clashes: &[u8; 400],
    starts: &[u16],
    lists: &[u8],
    ends: &[u16],
    rest: &[u8],
    lo: &mut [u8],
    hi: &mut [u8],
    done: &mut [u8],
    k: usize,
) -> bool {
    let (mut low, mut high, mut marks) = ([0; ROOM], [0; ROOM], [0; ROOM]);
    low.copy_from_slice(lo);
    high.copy_from_slice(hi);
    marks.copy_from_slice(done);
    high[k] = lo[k];
    if !spread(clashes, starts, lists, ends, rest, &mut low, &mut high, &mut marks) {
        return false;
    }
    lo.copy_from_slice(&low);
    hi.copy_from_slice(&high);
    done.copy_from_slice(&marks);
    true
}

/// The lesser of its options where the propagation allows it, else the greater; false where it allows neither.
#[allow(clippy::too_many_arguments)]
fn settle(
    clashes: &[u8; 400],
    starts: &[u16],
    lists: &[u8],
    ends: &[u16],
    rest: &[u8],
    lo: &mut [u8],
    hi: &mut [u8],
    done: &mut [u8],
    k: usize,
) -> bool {
    if lo[k] == hi[k] {
        return true;
    }
    if settle_low(clashes, starts, lists, ends, rest, lo, hi, done, k) {
        return true;
    }
    lo[k] = hi[k];
    spread(clashes, starts, lists, ends, rest, lo, hi, done)
}

#[allow(clippy::too_many_arguments)]
fn solve(
    clashes: &[u8; 400],
    starts: &[u16],
    lists: &[u8],
    ends: &[u16],
    rest: &[u8],
    lo: &mut [u8],
    hi: &mut [u8],
    done: &mut [u8],
) -> bool {
    (0..starts.len()).all(|k| settle(clashes, starts, lists, ends, rest, lo, hi, done, k))
}

/// Whether the first buffer's directions come before the second's.
fn is_before(count: usize, a: &[u8], b: &[u8]) -> bool {
    for k in 0..count {
        if a[k] < b[k] {
            return true;
        }
        if b[k] < a[k] {
            return false;
        }
    }
    false
}

/// The best so far, or the first solution of these options where that comes before it.
#[allow(clippy::too_many_arguments)]
fn try_options(
    clashes: &[u8; 400],
    starts: &[u16],
    lists: &[u8],
    ends: &[u16],
    rest: &[u8],
    lo: &mut [u8],
    hi: &mut [u8],
    have: bool,
    best: &mut [u8],
) -> bool {
    let count = starts.len();
    let mut done = [0; ROOM];
    if !spread(clashes, starts, lists, ends, rest, lo, hi, &mut done) {
        return have;
    }
    if have & !is_before(count, lo, best) {
        return true;
    }
    if !solve(clashes, starts, lists, ends, rest, lo, hi, &mut done) {
        return have;
    }
    if have & !is_before(count, lo, best) {
        return true;
    }
    best.copy_from_slice(lo);
    true
}

/// Whether direction d is allowed to fault k, at p, alone and by the pair (a, b).
fn is_offered(columns: bool, a: usize, b: usize, table: &[u8], p: usize, k: usize, d: u8) -> bool {
    if table[4 * k + d as usize - 1] != 1 {
        return false;
    }
    does_leave(columns, a, b, p, d)
}

/// The options that the pair (a, b) leaves; false where a fault is left none.
fn set_options(columns: bool, a: usize, b: usize, starts: &[u16], table: &[u8], lo: &mut [u8], hi: &mut [u8]) -> bool {
    for (k, &p) in starts.iter().enumerate() {
        let south = is_offered(columns, a, b, table, p as usize, k, 1);
        let north = is_offered(columns, a, b, table, p as usize, k, 2);
        let east = is_offered(columns, a, b, table, p as usize, k, 3);
        let west = is_offered(columns, a, b, table, p as usize, k, 4);
        let low = find_lowest(south, north, east, west);
        if low == 0 {
            return false;
        }
        lo[k] = low;
        hi[k] = find_highest(south, north, east, west);
    }
    true
}

/// The best plan so far, and those that the pair (a, b) leaves. True where there is one.
#[allow(clippy::too_many_arguments)]
fn try_pair(
    clashes: &[u8; 400],
    starts: &[u16],
    table: &[u8],
    lists: &[u8],
    ends: &[u16],
    rest: &[u8],
    columns: bool,
    a: usize,
    b: usize,
    have: bool,
    best: &mut [u8],
) -> bool {
    let (mut lo, mut hi) = ([0; ROOM], [0; ROOM]);
    if !set_options(columns, a, b, starts, table, &mut lo, &mut hi) {
        return have;
    }
    try_options(clashes, starts, lists, ends, rest, &mut lo, &mut hi, have, best)
}

/// The position of an end.
fn find_end(starts: &[u16], none: usize, k: usize) -> usize {
    if k < starts.len() {
        return starts[k] as usize;
    }
    none
}

/// Whether an end may go in direction d, alone.
fn may_end(table: &[u8], count: usize, k: usize, d: u8) -> bool {
    if k < count {
        return table[4 * k + d as usize - 1] == 1;
    }
    true
}

/// The best plan so far, and those that the pair of faults a and b leaves.
#[allow(clippy::too_many_arguments)]
fn try_ends(
    clashes: &[u8; 400],
    starts: &[u16],
    table: &[u8],
    lists: &[u8],
    ends: &[u16],
    rest: &[u8],
    columns: bool,
    a: usize,
    b: usize,
    have: bool,
    best: &mut [u8],
) -> bool {
    if !may_end(table, starts.len(), b, pick(columns, 3, 1)) {
        return have;
    }
    let (p, q) = (find_end(starts, 0, a), find_end(starts, 1023, b));
    if !is_tried(columns, p, q) {
        return have;
    }
    try_pair(clashes, starts, table, lists, ends, rest, columns, p, q, have, best)
}

/// The best plan so far, and those that any pair with fault a leaves.
#[allow(clippy::too_many_arguments)]
fn try_row(
    clashes: &[u8; 400],
    starts: &[u16],
    table: &[u8],
    lists: &[u8],
    ends: &[u16],
    rest: &[u8],
    columns: bool,
    a: usize,
    had: bool,
    best: &mut [u8],
) -> bool {
    let count = starts.len();
    if !may_end(table, count, a, pick(columns, 4, 2)) {
        return had;
    }
    let mut have = had;
    for b in 0..count + 1 {
        have = try_ends(clashes, starts, table, lists, ends, rest, columns, a, b, have, best);
    }
    have
}

/// The best plan so far, and those that any pair leaves, by rows or by columns.
#[allow(clippy::too_many_arguments)]
fn try_pairs(
    clashes: &[u8; 400],
    starts: &[u16],
    table: &[u8],
    lists: &[u8],
    ends: &[u16],
    rest: &[u8],
    columns: bool,
    had: bool,
    best: &mut [u8],
) -> bool {
    let mut have = had;
    for a in 0..starts.len() + 1 {
        have = try_row(clashes, starts, table, lists, ends, rest, columns, a, have, best);
    }
    have
}

/// The directions allowed alone, four for each fault.
fn list_open(n: usize, m: usize, grid: &[u8], starts: &[u16], table: &mut [u8]) {
    for i in 0..4 * starts.len() {
        let open = is_open(n, m, grid, starts[i / 4] as usize, (i % 4) as u8 + 1);
        table[i] = pick(open, 1, 0);
    }
}

/// Whether every fault has a direction that is allowed alone.
fn have_paths(count: usize, table: &[u8]) -> bool {
    (0..count).all(|k| {
        let i = 4 * k;
        let vertical = (table[i] == 1) | (table[i + 1] == 1);
        let horizontal = (table[i + 2] == 1) | (table[i + 3] == 1);
        vertical | horizontal
    })
}

/// Whether direction d of fault f and direction e of fault g are both allowed alone, and their paths clash.
fn does_clash(clashes: &[u8; 400], starts: &[u16], table: &[u8], f: usize, d: u8, g: usize, e: u8) -> bool {
    if table[4 * f + d as usize - 1] != 1 {
        return false;
    }
    if table[4 * g + e as usize - 1] != 1 {
        return false;
    }
    !does_pass(clashes, starts, f, d, g, e)
}

/// Whether two faults may clash: in some of their directions that are allowed alone.
fn may_clash(clashes: &[u8; 400], starts: &[u16], table: &[u8], f: usize, g: usize) -> bool {
    if f == g {
        return false;
    }
    (0..16).any(|i| does_clash(clashes, starts, table, f, i / 4 + 1, g, i % 4 + 1))
}

/// Row f of the lists: the faults that may clash with f. Where the lists are full it ends, and the rest is not listed.
fn list_row(clashes: &[u8; 400], starts: &[u16], table: &[u8], lists: &mut [u8], ends: &mut [u16], rest: &mut [u8], f: usize) {
    let mut end = ends[f] as usize;
    let mut g = 0;
    while (g < starts.len()) & (end < LISTED) {
        if may_clash(clashes, starts, table, f, g) {
            lists[end] = g as u8;
            end += 1;
        }
        g += 1;
    }
    ends[f + 1] = end as u16;
    rest[f] = g as u8;
}

fn list_rows(clashes: &[u8; 400], starts: &[u16], table: &[u8], lists: &mut [u8], ends: &mut [u16], rest: &mut [u8]) {
    for f in 0..starts.len() {
        list_row(clashes, starts, table, lists, ends, rest, f);
    }
}

/// The first of all plans, where there is one.
fn find_best(n: usize, m: usize, grid: &[u8], starts: &[u16], best: &mut [u8]) -> bool {
    let mut table = [0; 4 * ROOM];
    list_open(n, m, grid, starts, &mut table);
    if !have_paths(starts.len(), &table) {
        return false;
    }
    let clashes = CLASHES;
    let (mut lists, mut ends, mut rest) = ([0; LISTED], [0; ROOM + 1], [0; ROOM]);
    list_rows(&clashes, starts, &table, &mut lists, &mut ends, &mut rest);
    let rows = try_pairs(&clashes, starts, &table, &lists, &ends, &rest, false, false, best);
    try_pairs(&clashes, starts, &table, &lists, &ends, &rest, true, rows, best)
}

fn write_best(found: bool, starts: &[u16], best: &[u8], directions: &mut [u8]) {
    directions.fill(0);
    if found {
        for (&p, &d) in starts.iter().zip(best) {
            directions[p as usize] = d;
        }
    }
}

fn find_among(n: usize, m: usize, grid: &[u8], starts: &[u16], directions: &mut [u8]) -> bool {
    if 2 * (n + m) < starts.len() {
        directions.fill(0);
        return false;
    }
    let mut best = [0; ROOM];
    let found = find_best(n, m, grid, starts, &mut best);
    write_best(found, starts, &best[..starts.len()], directions);
    found
}

fn find_exactly(n: usize, m: usize, grid: &[u8], directions: &mut [u8]) -> Decision {
    let mut starts = [0u16; LONG];
    let count = list_faults(n, m, grid, &mut starts);
    if find_among(n, m, grid, &starts[..count], directions) {
        return Decision::Repaired;
    }
    Decision::Beyond
}

pub fn plan_exactly(n: usize, m: usize, grid: &[u8], directions: &mut [u8]) -> Result<Decision, Refusal> {
    check_map(n, m, grid.len() == LONG && directions.len() == LONG, grid)?;
    Ok(find_exactly(n, m, grid, directions))
}

// Placement and routing.

fn trace_paths(n: usize, m: usize, grid: &[u8], directions: &[u8]) -> [u8; LONG] {
    let mut traced = [0u8; LONG];
    let mut starts = [0u16; LONG];
    let count = list_faults(n, m, grid, &mut starts);
    for &p in starts[..count].iter().rev() {
        let d = directions[p as usize];
        for k in 0..length_of(n, m, p as usize, d) {
            traced[step_ahead(p as usize, d, k)] = d;
        }
    }
    traced
}

fn place(n: usize, m: usize, grid: &[u8], directions: &[u8], places: &mut [u16]) {
    let traced = trace_paths(n, m, grid, directions);
    for (p, place) in places.iter_mut().enumerate() {
        *place = if is_inner(n, m, p) {
            let q = match traced[p] {
                1 => p + 32,
                2 => p - 32,
                3 => p + 1,
                4 => p - 1,
                _ => p,
            };
            q as u16
        } else {
            0
        };
    }
}

pub fn place_cells(n: usize, m: usize, grid: &[u8], directions: &[u8], places: &mut [u16]) -> Tested {
    let right = grid.len() == LONG && directions.len() == LONG && places.len() == LONG;
    check_tests(n, m, right, grid, directions)?;
    place(n, m, grid, directions, places);
    Ok(())
}

fn vertical_state(d: u8, fault: bool) -> u8 {
    if d != 1 && d != 2 {
        return 0;
    }
    if !fault && d == 1 {
        return 1;
    }
    if fault && d == 1 {
        return 2;
    }
    if fault && d == 2 {
        return 3;
    }
    4
}

fn state_at(grid: &[u8], traced: &[u8; LONG], down: bool, p: usize) -> u8 {
    let d = traced[p];
    let turned = match d {
        1 => 3,
        2 => 4,
        3 => 1,
        4 => 2,
        _ => d,
    };
    vertical_state(if down { turned } else { d }, is_faulty(grid[p]))
}

fn switch_letter(west: u8, east: u8) -> u8 {
    match west * 5 + east {
        13 | 17 => b'a',
        1..=2 | 11 | 15 | 20 | 23 => b'c',
        3..=5 | 7 | 10 | 19 => b'd',
        _ => b'b',
    }
}

fn is_switch(n: usize, m: usize, down: bool, x: usize, y: usize) -> bool {
    let (v, w) = if down { (x + 1, y) } else { (x, y + 1) };
    is_processor_at(n, m, x, y) && is_processor_at(n, m, v, w)
}

fn fill_letters(n: usize, m: usize, grid: &[u8], traced: &[u8; LONG], down: bool, out: &mut [u8]) {
    for (p, letter) in out.iter_mut().enumerate() {
        *letter = if is_switch(n, m, down, p / 32, p % 32) {
            let q = if down { p + 32 } else { p + 1 };
            switch_letter(state_at(grid, traced, down, p), state_at(grid, traced, down, q))
        } else {
            0
        };
    }
}

fn route(n: usize, m: usize, grid: &[u8], directions: &[u8], across: &mut [u8], down: &mut [u8]) {
    let traced = trace_paths(n, m, grid, directions);
    fill_letters(n, m, grid, &traced, false, across);
    fill_letters(n, m, grid, &traced, true, down);
}

pub fn route_switches(n: usize, m: usize, grid: &[u8], directions: &[u8], across: &mut [u8], down: &mut [u8]) -> Tested {
    let right = grid.len() == LONG && directions.len() == LONG && across.len() == LONG && down.len() == LONG;
    check_tests(n, m, right, grid, directions)?;
    route(n, m, grid, directions, across, down);
    Ok(())
}

// The follower. Sides are 0 W, 1 E, 2 N, 3 S; kinds 0 processor, 1 across switch, 2 down switch.

#[derive(Clone, Copy)]
struct Port {
    kind: u8,
    row: usize,
    column: usize,
    side: u8,
}

#[derive(Clone, Copy, Debug, PartialEq)]
pub struct Landing {
    pub position: usize,
    pub port: u8,
    pub switches: u8,
}

#[derive(Clone, Copy)]
pub struct Wafer<'a> {
    pub n: usize,
    pub m: usize,
    pub grid: &'a [u8],
    pub directions: &'a [u8],
    pub across: &'a [u8],
    pub down: &'a [u8],
}

fn stretch_from(n: usize, m: usize, from: Port) -> Option<Port> {
    let Port { kind, row, column, side } = from;
    let i = if side < 2 { column } else { row };
    let own = kind == 1 + side / 2;
    let next = if side % 2 == 0 {
        if own { i } else { i.checked_sub(1)? }
    } else if kind == 0 {
        i
    } else {
        i + 1
    };
    let other = if kind == 0 {
        1 + side / 2
    } else if own {
        0
    } else {
        kind
    };
    let (row, column) = if side < 2 { (row, next) } else { (next, column) };
    let stands = match other {
        0 => is_processor_at(n, m, row, column),
        1 => is_switch(n, m, false, row, column),
        _ => is_switch(n, m, true, row, column),
    };
    stands.then_some(Port { kind: other, row, column, side: side ^ 1 })
}

enum Inside {
    Ends,
    On(u8),
    Stops,
}

fn straight(axis: u8, side: u8) -> Inside {
    if side / 2 == axis { Inside::On(side ^ 1) } else { Inside::Stops }
}

fn inside_at(w: &Wafer, port: Port) -> Inside {
    let p = 32 * port.row + port.column;
    let side = port.side;
    if port.kind == 0 {
        if !(is_inner(w.n, w.m, p) && is_faulty(w.grid[p])) {
            return Inside::Ends;
        }
        if w.grid[p] == 3 {
            return Inside::Stops;
        }
        return match w.directions[p] {
            1 | 2 => straight(1, side),
            3 | 4 => straight(0, side),
            _ => Inside::Stops,
        };
    }
    let letter = if port.kind == 1 { w.across[p] } else { w.down[p] };
    match letter {
        b'a' => straight(2 - port.kind, side),
        b'b' => straight(port.kind - 1, side),
        b'c' => Inside::On(3 - side),
        b'd' => Inside::On((side + 2) % 4),
        _ => Inside::Stops,
    }
}

fn follow(w: &Wafer, from: usize, side: u8) -> Result<Landing, Refusal> {
    let mut at = Port { kind: 0, row: from / 32, column: from % 32, side: 1 + 2 * side };
    let (mut last, mut passed) = (from, 0u8);
    loop {
        let Some(port) = stretch_from(w.n, w.m, at) else {
            return refuse(17, last, 0);
        };
        let place = 32 * port.row + port.column;
        let fourth = port.kind != 0 && passed == 3;
        match inside_at(w, port) {
            Inside::Ends if is_faulty(w.grid[place]) => return refuse(17, last, 0),
            Inside::Ends => {
                return Ok(Landing { position: place, port: port.side, switches: passed });
            }
            Inside::On(_) | Inside::Stops if fourth => return refuse(18, place, 0),
            Inside::Stops if port.kind == 0 => return refuse(17, last, 0),
            Inside::Stops => return refuse(17, place, 0),
            Inside::On(side) => {
                if port.kind != 0 {
                    last = place;
                    passed += 1;
                }
                at = Port { side, ..port };
            }
        }
    }
}

fn is_switch_byte(exists: bool, byte: u8) -> bool {
    if exists { (b'a'..=b'd').contains(&byte) } else { byte == 0 }
}

fn are_switch_bytes(n: usize, m: usize, p: usize, a: u8, d: u8) -> bool {
    if is_inner(n, m, p) {
        return is_switch_byte(true, a) && is_switch_byte(true, d);
    }
    let (x, y) = (p / 32, p % 32);
    is_switch_byte(is_switch(n, m, false, x, y), a) && is_switch_byte(is_switch(n, m, true, x, y), d)
}

fn check_switches(w: &Wafer) -> Tested {
    for (p, (&a, &d)) in w.across.iter().zip(w.down).enumerate() {
        if !are_switch_bytes(w.n, w.m, p, a, d) {
            return refuse(16, p, 0);
        }
    }
    Ok(())
}

pub fn follow_link(w: &Wafer, cell: usize, side: usize) -> Result<Landing, Refusal> {
    let right = w.grid.len() == LONG && w.directions.len() == LONG && w.across.len() == LONG && w.down.len() == LONG;
    check_tests(w.n, w.m, right, w.grid, w.directions)?;
    if !(is_inner(w.n, w.m, cell) && side < 2) {
        return refuse(15, 0, 0);
    }
    check_switches(w)?;
    let mut places = [0u16; LONG];
    place(w.n, w.m, w.grid, w.directions, &mut places);
    follow(w, places[cell] as usize, side as u8)
}

// A run.

fn has_neighbour(n: usize, m: usize, side: usize, p: usize) -> bool {
    is_inner(n, m, p) && if side == 0 { p % 32 < m } else { p / 32 < n }
}

fn is_reached(w: &Wafer, places: &[u16], side: usize, p: usize) -> bool {
    if !has_neighbour(w.n, w.m, side, p) {
        return false;
    }
    let to = places[if side == 0 { p + 1 } else { p + 32 }] as usize;
    match follow(w, places[p] as usize, side as u8) {
        Ok(l) => l.position == to && l.port as usize == 2 * side && l.switches <= 3,
        Err(_) => false,
    }
}

fn count_links(w: &Wafer, places: &[u16], side: usize) -> usize {
    (0..LONG).filter(|&p| is_reached(w, places, side, p)).count()
}

/// The outcome, and after `Repaired` how many links to a neighbour are found to reach it.
#[allow(clippy::too_many_arguments)]
pub fn repair_run(
    n: usize,
    m: usize,
    grid: &[u8],
    limit: u32,
    directions: &mut [u8],
    places: &mut [u16],
    across: &mut [u8],
    down: &mut [u8],
) -> Result<(Outcome, usize), Refusal> {
    let lent = grid.len() == LONG && directions.len() == LONG && places.len() == LONG;
    check_map(n, m, lent && across.len() == LONG && down.len() == LONG, grid)?;
    let found = find_plan(n, m, grid, directions, limit);
    let Outcome::Repaired(_) = found else {
        return Ok((found, 0));
    };
    place(n, m, grid, directions, places);
    route(n, m, grid, directions, across, down);
    let wafer = Wafer { n, m, grid, directions, across, down };
    Ok((found, count_links(&wafer, places, 0) + count_links(&wafer, places, 1)))
}

// The map reader.

/// At most so many groups from an offset on, of a number that begins at `start`.
fn read_groups(s: &[u8], start: usize, groups: usize, at: usize) -> Result<(u32, usize), Refusal> {
    if groups == 0 {
        return refuse(9, start, 0);
    }
    let Some(&low) = s.get(at) else {
        return refuse(8, s.len(), 0);
    };
    if low < 128 {
        return Ok((low as u32, at + 1));
    }
    let (rest, next) = read_groups(s, start, groups - 1, at + 1)?;
    if rest == 0 {
        return refuse(9, start, 0);
    }
    Ok((low as u32 - 128 + 128 * rest, next))
}

fn read_number(s: &[u8], at: usize) -> Result<(u32, usize), Refusal> {
    let Some(&first) = s.get(at) else {
        return refuse(8, s.len(), 0);
    };
    if first < 128 {
        return Ok((first as u32, at + 1));
    }
    read_groups(s, at, 3, at)
}

fn read_size(s: &[u8], at: usize) -> Result<(usize, usize), Refusal> {
    let (v, next) = read_number(s, at)?;
    if !(1..=30).contains(&v) {
        return refuse(1, at, 0);
    }
    Ok((v as usize, next))
}

/// Reads a list of `count` places into `b`, faults (`mark` 1) or dead processors (3), and returns the offset after it.
fn read_places(s: &[u8], n: usize, m: usize, mark: u8, count: u32, from: usize, b: &mut [u8; LONG]) -> Result<usize, Refusal> {
    let (mut at, mut before) = (from, 0);
    for _ in 0..count {
        let (x, second) = read_number(s, at)?;
        let (y, next) = read_number(s, second)?;
        let (x, y) = (x as usize, y as usize);
        let allowed = if mark == 1 { is_processor_at(n, m, x, y) } else { is_inner_at(n, m, x, y) };
        if !allowed {
            return refuse(if mark == 1 { 10 } else { 20 }, at, 0);
        }
        let p = 32 * x + y;
        if is_faulty(b[p]) {
            return refuse(11, at, 0);
        }
        if p < before {
            return refuse(19, at, 0);
        }
        b[p] = mark;
        before = p;
        at = next;
    }
    Ok(at)
}

pub fn read_map(s: &[u8], grid: &mut [u8]) -> Result<(usize, usize, usize), Refusal> {
    if grid.len() != LONG {
        return refuse(2, 0, 0);
    }
    let (n, at) = read_size(s, 0)?;
    let (m, at) = read_size(s, at)?;
    let (count, at) = read_number(s, at)?;
    let mut b = [0u8; LONG];
    for x in 0..32 {
        for y in 0..32 {
            b[32 * x + y] = if is_processor_at(n, m, x, y) { 0 } else { 2 };
        }
    }
    let at = read_places(s, n, m, 1, count, at, &mut b)?;
    let mut dead = 0;
    if at < s.len() {
        let (second, next) = read_number(s, at)?;
        if second == 0 {
            return refuse(12, at, 0);
        }
        let end = read_places(s, n, m, 3, second, next, &mut b)?;
        if end < s.len() {
            return refuse(12, end, 0);
        }
        dead = second;
    }
    grid.copy_from_slice(&b);
    Ok((n, m, (count + dead) as usize))
}
