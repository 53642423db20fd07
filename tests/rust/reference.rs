//! The operations once more, as plainly as documents 01 and 02 and docs/DECISIONS.md put them, for the comparison with the library.
//! Nothing here is taken from the library: paths are lists of cells, and links run over a map of ports.

use std::collections::BTreeSet;

/// The length of each buffer that is indexed by position.
pub const LENGTH: usize = 1024;

/// The limit that the listing plans with.
const LISTING_LIMIT: u32 = 1_000_000;

/// The highest number of a file: three groups of seven bits.
pub const HIGHEST: u32 = 2_097_151;

/// The marks of a grid.
pub const HEALTHY: u8 = 0;
pub const FAULTY: u8 = 1;
pub const NO_PROCESSOR: u8 = 2;
/// A faulty processor that joins none of its ports.
pub const DEAD: u8 = 3;

pub fn is_faulty(mark: u8) -> bool {
    mark == FAULTY || mark == DEAD
}

/// A refusal: its number, place and second place.
#[derive(Clone, Copy, Debug, PartialEq, Eq)]
pub struct Refusal {
    pub number: u32,
    pub place: usize,
    pub second: usize,
}

fn refuse<T>(number: u32, place: usize) -> Result<T, Refusal> {
    Err(Refusal { number, place, second: 0 })
}

#[derive(Clone, Copy, Debug, PartialEq, Eq)]
pub enum Outcome {
    Repaired(u32),
    Beyond(u32),
    Spent(u32),
    /// Of the exact planner, which counts no trials.
    Decided(Decision),
}

#[derive(Clone, Copy, Debug, PartialEq, Eq)]
pub enum Decision {
    Repaired,
    Beyond,
}

/// Where a link ends: the position and port entered, and the switches passed.
#[derive(Clone, Copy, Debug, PartialEq, Eq)]
pub struct Arrival {
    pub position: usize,
    pub port: usize,
    pub switches: usize,
}

/// N, M and the count of a file.
#[derive(Clone, Copy, Debug, PartialEq, Eq)]
pub struct Head {
    pub rows: usize,
    pub columns: usize,
    pub count: usize,
}

/// Row and column.
pub type Cell = (usize, usize);

pub fn position(cell: Cell) -> usize {
    32 * cell.0 + cell.1
}

fn cell(position: usize) -> Cell {
    (position / 32, position % 32)
}

/// An array of an allowed size.
#[derive(Clone, Copy)]
pub struct Array {
    pub rows: usize,
    pub columns: usize,
}

impl Array {
    pub fn new(n: usize, m: usize) -> Option<Array> {
        let allowed = 1..=30;
        (allowed.contains(&n) && allowed.contains(&m)).then_some(Array { rows: n, columns: m })
    }

    pub fn is_inner(&self, (x, y): Cell) -> bool {
        (1..=self.rows).contains(&x) && (1..=self.columns).contains(&y)
    }

    pub fn is_processor(&self, (x, y): Cell) -> bool {
        let outer_row = x == 0 || x == self.rows + 1;
        let outer_column = y == 0 || y == self.columns + 1;
        x <= self.rows + 1 && y <= self.columns + 1 && !(outer_row && outer_column)
    }

    pub fn has_across(&self, (x, y): Cell) -> bool {
        self.is_processor((x, y)) && self.is_processor((x, y + 1))
    }

    pub fn has_down(&self, (x, y): Cell) -> bool {
        self.is_processor((x, y)) && self.is_processor((x + 1, y))
    }

    /// All rows and columns of the array, corners included, in row order.
    pub fn cells(self) -> impl Iterator<Item = Cell> {
        (0..=self.rows + 1).flat_map(move |x| (0..=self.columns + 1).map(move |y| (x, y)))
    }

    /// The logical cells in row order.
    pub fn inner_cells(self) -> impl Iterator<Item = Cell> {
        self.cells().filter(move |&c| self.is_inner(c))
    }
}

/// The lowest position at which a test of a buffer fails.
fn lowest(wrong: impl Fn(Cell, usize) -> bool) -> Option<usize> {
    for x in 0..32 {
        for y in 0..32 {
            if wrong((x, y), position((x, y))) {
                return Some(position((x, y)));
            }
        }
    }
    None
}

// The tests 1 to 7.

fn test_size(n: usize, m: usize) -> Result<Array, Refusal> {
    Array::new(n, m).map_or_else(|| refuse(1, 0), Ok)
}

fn test_lengths(lengths: &[usize]) -> Result<(), Refusal> {
    if lengths.iter().all(|&l| l == LENGTH) { Ok(()) } else { refuse(2, 0) }
}

fn test_marks(array: Array, grid: &[u8]) -> Result<(), Refusal> {
    let allowed = |c: Cell, mark: u8| match mark {
        HEALTHY | FAULTY => array.is_processor(c),
        NO_PROCESSOR => !array.is_processor(c),
        DEAD => array.is_inner(c),
        _ => false,
    };
    lowest(|c, p| !allowed(c, grid[p])).map_or(Ok(()), |p| refuse(3, p))
}

/// The tests 1 to 3; `others` are the lengths of the buffers besides the grid.
fn test_map(n: usize, m: usize, grid: &[u8], others: &[usize]) -> Result<Array, Refusal> {
    let array = test_size(n, m)?;
    test_lengths(&[grid.len()])?;
    test_lengths(others)?;
    test_marks(array, grid)?;
    Ok(array)
}

fn test_directions(array: Array, grid: &[u8], directions: &[u8]) -> Result<(), Refusal> {
    let is_fault = |c: Cell, p: usize| array.is_inner(c) && is_faulty(grid[p]);
    let wrong = |c: Cell, p: usize| if is_fault(c, p) { !(1..=4).contains(&directions[p]) } else { directions[p] != 0 };
    lowest(wrong).map_or(Ok(()), |p| refuse(4, p))
}

#[derive(Clone, Copy, PartialEq, Eq)]
pub enum Direction {
    South = 1,
    North = 2,
    East = 3,
    West = 4,
}

use Direction::{East, North, South, West};

/// The directions in the order in which they are tried, which is that of their bytes.
pub const DIRECTIONS: [Direction; 4] = [South, North, East, West];

pub struct Path {
    pub start: Cell,
    pub direction: Direction,
    /// From the start to the spare.
    pub cells: Vec<Cell>,
    /// Whether it goes south from row 1, north from row N, east from column 1 or west from column M: then no link runs through its start.
    pub from_rim: bool,
}

impl Path {
    pub fn new(array: Array, start: Cell, direction: Direction) -> Path {
        let (x, y) = start;
        let cells = match direction {
            South => (x..=array.rows + 1).map(|r| (r, y)).collect(),
            North => (0..=x).rev().map(|r| (r, y)).collect(),
            East => (y..=array.columns + 1).map(|c| (x, c)).collect(),
            West => (0..=y).rev().map(|c| (x, c)).collect(),
        };
        let from_rim = match direction {
            South => x == 1,
            North => x == array.rows,
            East => y == 1,
            West => y == array.columns,
        };
        Path { start, direction, cells, from_rim }
    }

    pub fn is_vertical(&self) -> bool {
        matches!(self.direction, South | North)
    }

    pub fn is_open(&self, grid: &[u8]) -> bool {
        let starts_dead = grid[position(self.start)] == DEAD;
        self.cells[1..].iter().all(|&c| grid[position(c)] == HEALTHY) && (!starts_dead || self.from_rim)
    }

    fn meets(&self, other: &Path) -> bool {
        self.cells.iter().any(|c| other.cells.contains(c))
    }

    pub fn nearly_misses(&self, other: &Path) -> bool {
        opposed(self, other) || opposed(other, self)
    }
}

/// The near-miss rule for a south path with a north path and an east path with a west path.
fn opposed(a: &Path, b: &Path) -> bool {
    let ((x1, y1), (x2, y2)) = (a.start, b.start);
    match (a.direction, b.direction) {
        (South, North) => y1.abs_diff(y2) == 1 && x1 < x2,
        (East, West) => x1.abs_diff(x2) == 1 && y1 < y2,
        _ => false,
    }
}

fn inner_faults(array: Array, grid: &[u8]) -> Vec<Cell> {
    array.inner_cells().filter(|&c| is_faulty(grid[position(c)])).collect()
}

fn paths(array: Array, grid: &[u8], directions: &[u8]) -> Vec<Path> {
    let direction = |c: Cell| DIRECTIONS[directions[position(c)] as usize - 1];
    inner_faults(array, grid).into_iter().map(|c| Path::new(array, c, direction(c))).collect()
}

fn test_pairs(paths: &[Path]) -> Result<(), Refusal> {
    for (i, a) in paths.iter().enumerate() {
        for b in &paths[i + 1..] {
            let refused = |number| Err(Refusal { number, place: position(a.start), second: position(b.start) });
            if a.meets(b) {
                return refused(6);
            }
            if a.nearly_misses(b) {
                return refused(7);
            }
        }
    }
    Ok(())
}

/// A map with a plan for it.
struct Planned {
    array: Array,
    paths: Vec<Path>,
}

/// The tests 1 to 7; `others` are the lengths of the buffers besides grid and directions.
fn test_plan(n: usize, m: usize, grid: &[u8], directions: &[u8], others: &[usize]) -> Result<Planned, Refusal> {
    let array = test_map(n, m, grid, &[&[directions.len()], others].concat())?;
    test_directions(array, grid, directions)?;
    let paths = paths(array, grid, directions);
    test_paths(grid, &paths)?;
    Ok(Planned { array, paths })
}

/// The tests 5 to 7.
fn test_paths(grid: &[u8], paths: &[Path]) -> Result<(), Refusal> {
    if let Some(closed) = paths.iter().find(|p| !p.is_open(grid)) {
        return refuse(5, position(closed.start));
    }
    test_pairs(paths)
}

pub fn check_plan(n: usize, m: usize, grid: &[u8], directions: &[u8]) -> Result<(), Refusal> {
    test_plan(n, m, grid, directions, &[]).map(|_| ())
}

/// The plan check of a list of faults, each with its position and direction: its 4 is where the list parts from the inner faults.
pub fn check_fault_list(n: usize, m: usize, grid: &[u8], list: &[(usize, u8)]) -> Result<(), Refusal> {
    let array = test_map(n, m, grid, &[])?;
    let faults = inner_faults(array, grid);
    let agree = |(fault, &(place, direction)): (&Cell, &(usize, u8))| position(*fault) == place && (1..=4).contains(&direction);
    let same = faults.iter().zip(list).take_while(|&pair| agree(pair)).count();
    let places = [faults.get(same).map(|&c| position(c)), list.get(same).map(|entry| entry.0)];
    if let Some(lowest) = places.into_iter().flatten().min() {
        return refuse(4, lowest);
    }
    let path = |(&c, entry): (&Cell, &(usize, u8))| Path::new(array, c, DIRECTIONS[entry.1 as usize - 1]);
    test_paths(grid, &faults.iter().zip(list).map(path).collect::<Vec<Path>>())
}

// Sessions.

/// A map with its plan, and how many paths stand in the way of one from each inner position: south, north, east, west.
#[derive(Clone, Debug, PartialEq, Eq)]
pub struct Session {
    pub rows: usize,
    pub columns: usize,
    pub grid: Vec<u8>,
    pub directions: Vec<u8>,
    pub counters: [Vec<u8>; 4],
}

/// What a report changed: the direction of the path that came or went, 0 for none, and whether a counter was at its end already.
#[derive(Clone, Copy, Debug, Default, PartialEq, Eq)]
pub struct Change {
    pub direction: u8,
    pub stopped: bool,
}

/// The session beside a refused start.
pub fn no_session() -> Session {
    let zeros = || vec![0; LENGTH];
    Session { rows: 0, columns: 0, grid: zeros(), directions: zeros(), counters: [zeros(), zeros(), zeros(), zeros()] }
}

/// The positions of a path, a bit for each.
fn bits(path: &Path) -> [u64; LENGTH / 64] {
    let mut bits = [0; LENGTH / 64];
    path.cells.iter().map(|&c| position(c)).for_each(|p| bits[p / 64] |= 1 << (p % 64));
    bits
}

/// For each direction and inner position, how many of these paths, but for the one from there, meet or nearly miss a path from there.
pub fn count(array: Array, kept: &[Path]) -> [Vec<u8>; 4] {
    let taken: Vec<[u64; LENGTH / 64]> = kept.iter().map(bits).collect();
    DIRECTIONS.map(|direction| {
        let mut counters = vec![0; LENGTH];
        for c in array.inner_cells() {
            let path = Path::new(array, c, direction);
            let own = bits(&path);
            let meets = |with: &[u64; LENGTH / 64]| own.iter().zip(with).any(|(a, b)| a & b != 0);
            let clashing = kept.iter().zip(&taken).filter(|&(k, t)| k.start != c && (meets(t) || path.nearly_misses(k)));
            counters[position(c)] = clashing.count().min(255) as u8;
        }
        counters
    })
}

pub fn start_session(n: usize, m: usize, grid: &[u8], directions: &[u8]) -> Result<Session, Refusal> {
    let plan = test_plan(n, m, grid, directions, &[])?;
    let counters = count(plan.array, &plan.paths);
    Ok(Session { rows: n, columns: m, grid: grid.to_vec(), directions: directions.to_vec(), counters })
}

/// Whether its directions are a plan and its counters are those made afresh.
pub fn is_sound(session: &Session) -> bool {
    start_session(session.rows, session.columns, &session.grid, &session.directions).as_ref() == Ok(session)
}

/// A processor fails or recovers; the session is altered where this is accepted.
pub fn report_processor(session: &mut Session, failing: bool, place: usize) -> Result<Change, Refusal> {
    let Planned { array, paths } = test_plan(session.rows, session.columns, &session.grid, &session.directions, &[])?;
    let at = cell(place);
    if !array.is_processor(at) {
        return refuse(15, 0);
    }
    if is_faulty(session.grid[place]) == failing {
        return refuse(22, place);
    }
    let direction = if failing {
        if paths.iter().any(|path| path.cells.contains(&at)) {
            return refuse(23, place);
        }
        if array.is_inner(at) { free_direction(array, session, at).map_or_else(|| refuse(24, place), |d| Ok(d as u8))? } else { 0 }
    } else {
        if session.grid[place] == DEAD {
            return refuse(23, place);
        }
        session.directions[place]
    };
    (session.grid[place], session.directions[place]) = if failing { (FAULTY, direction) } else { (HEALTHY, 0) };
    let path = DIRECTIONS.into_iter().find(|&d| d as u8 == direction).map(|d| Path::new(array, at, d));
    let stopped = path.is_some_and(|path| alter_counters(array, session, &path, failing));
    Ok(Change { direction, stopped })
}

/// What a report would leave: the direction of the reported processor and all counters. `change` is what the report would change.
#[derive(Clone, Debug, PartialEq, Eq)]
pub struct Foretold {
    pub direction: u8,
    pub counters: [Vec<u8>; 4],
    pub change: Change,
}

/// The preview of a report, without one: the counters are those of the session, with a count of the path that would come or go added or
/// subtracted.
pub fn preview_processor(session: &Session, failing: bool, place: usize) -> Result<Foretold, Refusal> {
    let Planned { array, paths } = test_plan(session.rows, session.columns, &session.grid, &session.directions, &[])?;
    if !array.is_processor(cell(place)) {
        return refuse(15, 0);
    }
    let change = match (failing, session.grid[place]) {
        (true, HEALTHY) => foresee_path(array, &paths, session, place)?,
        (false, FAULTY) => paths.into_iter().find(|path| position(path.start) == place),
        (false, DEAD) => return refuse(23, place),
        _ => return refuse(22, place),
    };
    let mut counters = session.counters.clone();
    let mut stopped = false;
    let counts = count(array, change.as_slice());
    for (counter, &by) in counters.iter_mut().flatten().zip(counts.iter().flatten()) {
        let exact = i32::from(*counter) + if failing { i32::from(by) } else { -i32::from(by) };
        *counter = exact.clamp(0, 255) as u8;
        stopped |= exact != i32::from(*counter);
    }
    let direction = change.map_or(0, |path| path.direction as u8);
    Ok(Foretold { direction: if failing { direction } else { 0 }, counters, change: Change { direction, stopped } })
}

/// The path that a healthy processor would get if it failed; a spare gets none.
fn foresee_path(array: Array, paths: &[Path], session: &Session, place: usize) -> Result<Option<Path>, Refusal> {
    let at = cell(place);
    if paths.iter().flat_map(|path| &path.cells).any(|&c| c == at) {
        return refuse(23, place);
    }
    if !array.is_inner(at) {
        return Ok(None);
    }
    let clear = DIRECTIONS.iter().zip(&session.counters).filter(|(_, counters)| counters[place] == 0);
    let mut ways = clear.map(|(&direction, _)| Path::new(array, at, direction));
    ways.find(|path| path.is_open(&session.grid)).map_or_else(|| refuse(24, place), |path| Ok(Some(path)))
}

fn free_direction(array: Array, session: &Session, at: Cell) -> Option<Direction> {
    let is_free = |d: Direction| session.counters[d as usize - 1][position(at)] == 0;
    DIRECTIONS.into_iter().find(|&d| Path::new(array, at, d).is_open(&session.grid) && is_free(d))
}

/// Alters the counters of other processors that a path counts in, and says whether one of these was at its end.
fn alter_counters(array: Array, session: &mut Session, path: &Path, up: bool) -> bool {
    let mut stopped = false;
    for c in array.inner_cells().filter(|&c| c != path.start) {
        for direction in DIRECTIONS {
            let own = Path::new(array, c, direction);
            if own.meets(path) || own.nearly_misses(path) {
                let counter = &mut session.counters[direction as usize - 1][position(c)];
                let new = if up { counter.checked_add(1) } else { counter.checked_sub(1) };
                stopped |= new.is_none();
                *counter = new.unwrap_or(*counter);
            }
        }
    }
    stopped
}

// The planners.

struct Search<'a> {
    array: Array,
    grid: &'a [u8],
    faults: Vec<Cell>,
    /// The settled paths, then those of the faults.
    kept: Vec<Path>,
    /// How many paths are settled.
    settled: usize,
    /// The cells of the kept paths.
    taken: [bool; LENGTH],
    trials: u32,
    limit: u32,
}

enum End {
    Full,
    Exhausted,
    Spent,
}

impl Search<'_> {
    /// Tries the directions of the next fault, each with all that can follow it.
    fn extend(&mut self) -> End {
        let Some(&fault) = self.faults.get(self.kept.len() - self.settled) else {
            return End::Full;
        };
        for direction in DIRECTIONS {
            if self.trials == self.limit {
                return End::Spent;
            }
            self.trials += 1;
            let path = Path::new(self.array, fault, direction);
            if !self.fits(&path) {
                continue;
            }
            self.keep(path);
            match self.extend() {
                End::Exhausted => self.undo(),
                end => return end,
            }
        }
        End::Exhausted
    }

    fn fits(&self, path: &Path) -> bool {
        let free = path.cells.iter().all(|&c| !self.taken[position(c)]);
        free && path.is_open(self.grid) && !self.kept.iter().any(|k| k.nearly_misses(path))
    }

    fn keep(&mut self, path: Path) {
        path.cells.iter().for_each(|&c| self.taken[position(c)] = true);
        self.kept.push(path);
    }

    fn undo(&mut self) {
        if let Some(path) = self.kept.pop() {
            path.cells.iter().for_each(|&c| self.taken[position(c)] = false);
        }
    }
}

/// The outcome, and the paths of the plan in row order.
type Found = (Outcome, Vec<Path>);

/// A planner, on a map that passes its tests, under a limit.
pub type Planner = fn(Array, &[u8], u32) -> Found;

/// The trials over these faults, with the settled paths kept from the start.
fn search(array: Array, grid: &[u8], settled: Vec<Path>, faults: Vec<Cell>, limit: u32) -> Found {
    let mut search = Search { array, grid, faults, kept: Vec::new(), settled: settled.len(), taken: [false; LENGTH], trials: 0, limit };
    settled.into_iter().for_each(|path| search.keep(path));
    match search.extend() {
        End::Full => {
            search.kept.sort_by_key(|path| path.start);
            (Outcome::Repaired(search.trials), search.kept)
        }
        End::Exhausted => (Outcome::Beyond(search.trials), Vec::new()),
        End::Spent => (Outcome::Spent(limit), Vec::new()),
    }
}

/// The planner that searches over all faults.
pub fn search_all(array: Array, grid: &[u8], limit: u32) -> Found {
    search(array, grid, Vec::new(), inner_faults(array, grid), limit)
}

/// The quick planner.
pub fn settle_and_search(array: Array, grid: &[u8], limit: u32) -> Found {
    let (settled, unsettled) = settle(array, grid);
    search(array, grid, settled, unsettled, limit)
}

/// The paths of the faults that the quick planner settles, and its other faults in row order.
pub fn settle(array: Array, grid: &[u8]) -> (Vec<Path>, Vec<Cell>) {
    // by row and then by column, which is row order
    let mut unsettled: BTreeSet<Cell> = inner_faults(array, grid).into_iter().collect();
    let mut settled = Vec::new();
    while let Some(path) = next_settled(array, grid, &unsettled) {
        unsettled.remove(&path.start);
        settled.push(path);
    }
    (settled, unsettled.into_iter().collect())
}

fn next_settled(array: Array, grid: &[u8], unsettled: &BTreeSet<Cell>) -> Option<Path> {
    [West, East, North, South].into_iter().find_map(|side| {
        let outermost = unsettled.iter().filter(|&&fault| is_outermost(fault, side, unsettled));
        outermost.map(|&fault| Path::new(array, fault, side)).find(|path| path.is_open(grid))
    })
}

/// Whether no unsettled fault has a smaller column (west), a larger one (east), a smaller row (north), a larger one (south).
pub fn is_outermost((x, y): Cell, side: Direction, unsettled: &BTreeSet<Cell>) -> bool {
    !unsettled.iter().any(|other| match side {
        West => other.1 < y,
        East => other.1 > y,
        North => other.0 < x,
        South => other.0 > x,
    })
}

// The exact planner. Directions are tried in fault order as above, but without a limit; each that is tried takes from the
// faults after it what clashes, so that it also decides maps on which the trials are spent.

/// An open path.
struct Open {
    path: Path,
    /// Its cells: for each row a bit for each column.
    bits: [u32; 32],
}

impl Open {
    fn new(path: Path) -> Open {
        let mut bits = [0; 32];
        path.cells.iter().for_each(|&(x, y)| bits[x] |= 1 << y);
        Open { path, bits }
    }

    fn clashes(&self, other: &Open) -> bool {
        self.bits.iter().zip(other.bits).any(|(a, b)| a & b != 0) || self.path.nearly_misses(&other.path)
    }
}

/// For each fault in row order the paths that are left to it, in the order in which they are tried.
type Left<'a> = Vec<Vec<&'a Open>>;

/// Takes from the faults the paths that clash with the only path of one of the faults `only`, or of one that is then left with
/// only one. Nothing comes back where a fault is left with none.
fn narrowed(mut left: Left, mut only: Vec<usize>) -> Option<Left> {
    while let Some(fault) = only.pop() {
        let &path = left[fault].first()?;
        for (other, paths) in left.iter_mut().enumerate().filter(|(other, _)| *other != fault) {
            let before = paths.len();
            paths.retain(|p| !p.clashes(path));
            match paths.len() {
                0 => return None,
                1 if before > 1 => only.push(other),
                _ => {}
            }
        }
    }
    Some(left)
}

/// The first choice of one of the paths left to each fault in which no two clash. Those before `fault` have one that clashes
/// with none that is left.
fn first_choice(left: Left, fault: usize) -> Option<Left> {
    let Some(paths) = left.get(fault) else {
        return Some(left);
    };
    paths.iter().find_map(|&path| {
        let mut chosen = left.clone();
        chosen[fault] = vec![path];
        first_choice(narrowed(chosen, vec![fault])?, fault + 1)
    })
}

/// The first of all plans, if there is one.
fn first_plan(array: Array, grid: &[u8]) -> Option<Vec<Path>> {
    let paths = |fault: Cell| DIRECTIONS.map(|direction| Path::new(array, fault, direction)).into_iter();
    let open = |fault: Cell| paths(fault).filter(|path| path.is_open(grid)).map(Open::new).collect();
    let all: Vec<Vec<Open>> = inner_faults(array, grid).into_iter().map(open).collect();
    let left: Left = all.iter().map(|open| open.iter().collect()).collect();
    let only = (0..left.len()).filter(|&fault| left[fault].len() < 2).collect();
    let chosen = first_choice(narrowed(left, only)?, 0)?;
    Some(chosen.iter().map(|paths| Path::new(array, paths[0].path.start, paths[0].path.direction)).collect())
}

/// The exact planner, which does not read the limit.
pub fn decide(array: Array, grid: &[u8], _: u32) -> Found {
    match first_plan(array, grid) {
        Some(paths) => (Outcome::Decided(Decision::Repaired), paths),
        None => (Outcome::Decided(Decision::Beyond), Vec::new()),
    }
}

fn write_directions(paths: &[Path], directions: &mut [u8]) {
    directions.fill(0);
    for path in paths {
        directions[position(path.start)] = path.direction as u8;
    }
}

/// Plans with any of the planners.
pub fn plan(planner: Planner, n: usize, m: usize, grid: &[u8], directions: &mut [u8], limit: u32) -> Result<Outcome, Refusal> {
    let array = test_map(n, m, grid, &[directions.len()])?;
    let (outcome, paths) = planner(array, grid, limit);
    write_directions(&paths, directions);
    Ok(outcome)
}

// Placement and routing.

fn write_places(plan: &Planned, places: &mut [u16]) {
    places.fill(0);
    for c in plan.array.inner_cells() {
        places[position(c)] = position(c) as u16;
    }
    for step in plan.paths.iter().flat_map(|p| p.cells.windows(2)) {
        places[position(step[0])] = position(step[1]) as u16;
    }
}

pub fn place_cells(n: usize, m: usize, grid: &[u8], directions: &[u8], places: &mut [u16]) -> Result<(), Refusal> {
    let plan = test_plan(n, m, grid, directions, &[places.len()])?;
    write_places(&plan, places);
    Ok(())
}

/// The letters by the states of two processors: a row for each state of the first.
const TABLE: [&[u8; 5]; 5] = [b"bccdd", b"dbdxx", b"dcxax", b"cxaxd", b"cxxcb"];

fn letter(first: usize, second: usize) -> u8 {
    match TABLE[first][second] {
        b'x' => b'b',
        letter => letter,
    }
}

/// The routing states along the paths of two opposite directions: 1 and 2 on the first, 4 and 3 on the second, healthy and faulty.
fn states(plan: &Planned, first: Direction, second: Direction) -> [usize; LENGTH] {
    let mut states = [0; LENGTH];
    for path in &plan.paths {
        let (healthy, faulty) = match path.direction {
            d if d == first => (1, 2),
            d if d == second => (4, 3),
            _ => continue,
        };
        path.cells.iter().for_each(|&c| states[position(c)] = healthy);
        states[position(path.start)] = faulty;
    }
    states
}

fn write_switches(plan: &Planned, across: &mut [u8], down: &mut [u8]) {
    let vertical = states(plan, South, North);
    let horizontal = states(plan, East, West);
    across.fill(0);
    down.fill(0);
    for (x, y) in plan.array.cells() {
        let here = position((x, y));
        if plan.array.has_across((x, y)) {
            across[here] = letter(vertical[here], vertical[position((x, y + 1))]);
        }
        if plan.array.has_down((x, y)) {
            down[here] = letter(horizontal[here], horizontal[position((x + 1, y))]);
        }
    }
}

pub fn route_switches(n: usize, m: usize, grid: &[u8], directions: &[u8], across: &mut [u8], down: &mut [u8]) -> Result<(), Refusal> {
    let plan = test_plan(n, m, grid, directions, &[across.len(), down.len()])?;
    write_switches(&plan, across, down);
    Ok(())
}

// The follower.

/// The kinds of things that have ports.
const PROCESSOR: usize = 0;
const ACROSS: usize = 1;
const DOWN: usize = 2;

/// The ports of each.
const W: usize = 0;
const E: usize = 1;
const N: usize = 2;
const S: usize = 3;

const PORTS: usize = 3 * LENGTH * 4;
const NOTHING: u16 = u16::MAX;

/// A port as one number.
fn port(kind: usize, c: Cell, side: usize) -> usize {
    (kind * LENGTH + position(c)) * 4 + side
}

/// The track of a wafer: for each port the port at the other end of its stretch, and the port that it is joined to inside.
struct Track {
    stretch: [u16; PORTS],
    join: [u16; PORTS],
}

fn pair(map: &mut [u16; PORTS], a: usize, b: usize) {
    map[a] = b as u16;
    map[b] = a as u16;
}

/// The ports that a letter joins, in an across switch and in a down switch.
fn joins(kind: usize, letter: u8) -> &'static [(usize, usize)] {
    match (kind, letter) {
        (ACROSS, b'a') => &[(N, S)],
        (ACROSS, b'b') => &[(W, E)],
        (ACROSS, b'c') => &[(W, S), (E, N)],
        (ACROSS, b'd') => &[(W, N), (E, S)],
        (DOWN, b'a') => &[(W, E)],
        (DOWN, b'b') => &[(N, S)],
        (DOWN, b'c') => &[(N, E), (S, W)],
        (DOWN, b'd') => &[(N, W), (S, E)],
        _ => &[],
    }
}

impl Track {
    /// A fault joins two of its ports by its path, unless it is dead.
    fn new(plan: &Planned, grid: &[u8], across: &[u8], down: &[u8]) -> Track {
        let mut track = Track { stretch: [NOTHING; PORTS], join: [NOTHING; PORTS] };
        for c in plan.array.cells() {
            track.lay_across(plan.array, c, across);
            track.lay_down(plan.array, c, down);
        }
        for path in plan.paths.iter().filter(|p| grid[position(p.start)] != DEAD) {
            let (a, b) = if path.is_vertical() { (N, S) } else { (W, E) };
            pair(&mut track.join, port(PROCESSOR, path.start, a), port(PROCESSOR, path.start, b));
        }
        track
    }

    fn lay_across(&mut self, array: Array, (x, y): Cell, letters: &[u8]) {
        if !array.has_across((x, y)) {
            return;
        }
        pair(&mut self.stretch, port(PROCESSOR, (x, y), E), port(ACROSS, (x, y), W));
        pair(&mut self.stretch, port(ACROSS, (x, y), E), port(PROCESSOR, (x, y + 1), W));
        if array.has_across((x + 1, y)) {
            pair(&mut self.stretch, port(ACROSS, (x, y), S), port(ACROSS, (x + 1, y), N));
        }
        self.join_switch(ACROSS, (x, y), letters);
    }

    fn lay_down(&mut self, array: Array, (x, y): Cell, letters: &[u8]) {
        if !array.has_down((x, y)) {
            return;
        }
        pair(&mut self.stretch, port(PROCESSOR, (x, y), S), port(DOWN, (x, y), N));
        pair(&mut self.stretch, port(DOWN, (x, y), S), port(PROCESSOR, (x + 1, y), N));
        if array.has_down((x, y + 1)) {
            pair(&mut self.stretch, port(DOWN, (x, y), E), port(DOWN, (x, y + 1), W));
        }
        self.join_switch(DOWN, (x, y), letters);
    }

    fn join_switch(&mut self, kind: usize, c: Cell, letters: &[u8]) {
        for &(a, b) in joins(kind, letters[position(c)]) {
            pair(&mut self.join, port(kind, c, a), port(kind, c, b));
        }
    }

    /// The end of the link that leaves the processor `from` by the port `side`.
    fn follow(&self, grid: &[u8], from: usize, side: usize) -> Result<Arrival, Refusal> {
        let mut leaving = port(PROCESSOR, cell(from), side);
        let (mut last, mut switches) = (from, 0);
        loop {
            let entered = self.stretch[leaving];
            if entered == NOTHING {
                return refuse(17, last);
            }
            let place = entered as usize / 4 % LENGTH;
            let is_switch = entered as usize / 4 >= LENGTH;
            if is_switch && switches == 3 {
                return refuse(18, place);
            }
            if is_switch {
                (last, switches) = (place, switches + 1);
            } else if grid[place] == HEALTHY {
                return Ok(Arrival { position: place, port: entered as usize % 4, switches });
            }
            if self.join[entered as usize] == NOTHING {
                return refuse(17, last);
            }
            leaving = self.join[entered as usize] as usize;
        }
    }
}

fn test_switches(array: Array, across: &[u8], down: &[u8]) -> Result<(), Refusal> {
    let fits = |switch: bool, byte: u8| if switch { (b'a'..=b'd').contains(&byte) } else { byte == 0 };
    let wrong = |c: Cell, p: usize| !fits(array.has_across(c), across[p]) || !fits(array.has_down(c), down[p]);
    lowest(wrong).map_or(Ok(()), |p| refuse(16, p))
}

#[allow(clippy::too_many_arguments)]
pub fn follow_link(
    n: usize,
    m: usize,
    grid: &[u8],
    directions: &[u8],
    across: &[u8],
    down: &[u8],
    of: usize,
    side: usize,
) -> Result<Arrival, Refusal> {
    let plan = test_plan(n, m, grid, directions, &[across.len(), down.len()])?;
    if !plan.array.is_inner(cell(of)) || side > 1 {
        return refuse(15, 0);
    }
    test_switches(plan.array, across, down)?;
    let mut places = [0; LENGTH];
    write_places(&plan, &mut places);
    Track::new(&plan, grid, across, down).follow(grid, places[of] as usize, [E, S][side])
}

// The run.

/// Outcome and links found to reach their neighbour.
pub type Ran = (Outcome, usize);

/// A run with any of the planners.
#[allow(clippy::too_many_arguments)]
pub fn run(
    planner: Planner,
    n: usize,
    m: usize,
    grid: &[u8],
    limit: u32,
    directions: &mut [u8],
    places: &mut [u16],
    across: &mut [u8],
    down: &mut [u8],
) -> Result<Ran, Refusal> {
    let array = test_map(n, m, grid, &[directions.len(), places.len(), across.len(), down.len()])?;
    let (outcome, paths) = planner(array, grid, limit);
    write_directions(&paths, directions);
    let (Outcome::Repaired(_) | Outcome::Decided(Decision::Repaired)) = outcome else {
        return Ok((outcome, 0));
    };
    let plan = Planned { array, paths };
    write_places(&plan, places);
    write_switches(&plan, across, down);
    Ok((outcome, count_links(&plan, grid, places, &Track::new(&plan, grid, across, down))))
}

fn count_links(plan: &Planned, grid: &[u8], places: &[u16], track: &Track) -> usize {
    let mut links = 0;
    for (i, j) in plan.array.inner_cells() {
        for (side, neighbour, port) in [(E, (i, j + 1), W), (S, (i + 1, j), N)] {
            let end = track.follow(grid, places[position((i, j))] as usize, side);
            let wanted = places[position(neighbour)] as usize;
            let arrived = end.is_ok_and(|a| a.position == wanted && a.port == port && a.switches <= 3);
            links += usize::from(plan.array.is_inner(neighbour) && arrived);
        }
    }
    links
}

// Files.

/// The value of the number at an offset, and the offset after it.
pub fn read_number(file: &[u8], at: usize) -> Result<(u32, usize), Refusal> {
    let group = |byte: u8, weight: u32| u32::from(byte % 128) * weight;
    match *file.get(at..).unwrap_or(&[]) {
        [low @ ..=127, ..] => Ok((group(low, 1), at + 1)),
        [128..=255, 0, ..] | [128..=255, 128..=255, 0 | 128..=255, ..] => refuse(9, at),
        [low, high @ ..=127, ..] => Ok((group(low, 1) + group(high, 128), at + 2)),
        [low, middle, high, ..] => Ok((group(low, 1) + group(middle, 128) + group(high, 16_384), at + 3)),
        [] | [_] | [_, _] => refuse(8, file.len()),
    }
}

/// A file read from left to right.
struct Reader<'a> {
    file: &'a [u8],
    at: usize,
}

impl Reader<'_> {
    fn number(&mut self) -> Result<usize, Refusal> {
        let (value, next) = read_number(self.file, self.at)?;
        self.at = next;
        Ok(value as usize)
    }

    fn side(&mut self) -> Result<usize, Refusal> {
        let start = self.at;
        match self.number()? {
            value @ 1..=30 => Ok(value),
            _ => refuse(1, start),
        }
    }

    fn is_done(&self) -> bool {
        self.at == self.file.len()
    }

    fn end(&self) -> Result<(), Refusal> {
        if self.is_done() { Ok(()) } else { refuse(12, self.at) }
    }
}

/// 19: a record's cell is in a row above that of the record before it, or further left in the same row.
fn test_order(before: Option<Cell>, cell: Cell, start: usize) -> Result<(), Refusal> {
    if before.is_some_and(|b| cell < b) { refuse(19, start) } else { Ok(()) }
}

/// Reads a list of so many places of a map and marks each. `allowed` says where such a mark may stand, and another place is refused with `number`.
fn read_places(
    reader: &mut Reader,
    count: usize,
    allowed: impl Fn(Cell) -> bool,
    number: u32,
    mark: u8,
    marks: &mut [u8; LENGTH],
) -> Result<(), Refusal> {
    let mut before = None;
    for _ in 0..count {
        let start = reader.at;
        let place = (reader.number()?, reader.number()?);
        if !allowed(place) {
            return refuse(number, start);
        }
        if is_faulty(marks[position(place)]) {
            return refuse(11, start);
        }
        test_order(before, place, start)?;
        before = Some(place);
        marks[position(place)] = mark;
    }
    Ok(())
}

/// Reads the second count of a map, where the file goes on after the first list. Where it ends there, no processor is dead.
fn read_second_count(reader: &mut Reader) -> Result<usize, Refusal> {
    if reader.is_done() {
        return Ok(0);
    }
    let start = reader.at;
    match reader.number()? {
        0 => refuse(12, start),
        count => Ok(count),
    }
}

pub fn read_map(file: &[u8], grid: &mut [u8]) -> Result<Head, Refusal> {
    test_lengths(&[grid.len()])?;
    let mut reader = Reader { file, at: 0 };
    let array = Array { rows: reader.side()?, columns: reader.side()? };
    let mut marks = [NO_PROCESSOR; LENGTH];
    array.cells().filter(|&c| array.is_processor(c)).for_each(|c| marks[position(c)] = HEALTHY);
    let first = reader.number()?;
    read_places(&mut reader, first, |c| array.is_processor(c), 10, FAULTY, &mut marks)?;
    let second = read_second_count(&mut reader)?;
    read_places(&mut reader, second, |c| array.is_inner(c), 20, DEAD, &mut marks)?;
    reader.end()?;
    grid.copy_from_slice(&marks);
    Ok(Head { rows: array.rows, columns: array.columns, count: first + second })
}

/// Reads a plan file: what a map file's reader returns of it, and T.
pub fn read_plan(file: &[u8], directions: &mut [u8]) -> Result<(Head, usize), Refusal> {
    test_lengths(&[directions.len()])?;
    let mut reader = Reader { file, at: 0 };
    let array = Array { rows: reader.side()?, columns: reader.side()? };
    let mut found = [0; LENGTH];
    let count = reader.number()?;
    let mut before = None;
    for _ in 0..count {
        let place = reader.at;
        let start = (reader.number()?, reader.number()?);
        let direction = reader.number()?;
        if !array.is_inner(start) {
            return refuse(10, place);
        }
        if found[position(start)] != 0 {
            return refuse(11, place);
        }
        if !(1..=4).contains(&direction) {
            return refuse(13, place);
        }
        test_order(before, start, place)?;
        before = Some(start);
        found[position(start)] = direction as u8;
    }
    let trials = reader.number()?;
    reader.end()?;
    directions.copy_from_slice(&found);
    Ok((Head { rows: array.rows, columns: array.columns, count }, trials))
}

/// Adds the groups of a number, the low ones first. A number above the highest of a file gets more than three.
pub fn push_number(file: &mut Vec<u8>, mut value: usize) {
    while value >= 128 {
        file.push((value % 128 + 128) as u8);
        value /= 128;
    }
    file.push(value as u8);
}

/// The number of records, and the numbers of each.
fn push_records<R: AsRef<[usize]>>(file: &mut Vec<u8>, records: &[R]) {
    push_number(file, records.len());
    records.iter().flat_map(|r| r.as_ref()).for_each(|&value| push_number(file, value));
}

/// A file of records that have the given numbers each.
pub fn file_of<R: AsRef<[usize]>>(array: Array, records: &[R]) -> Vec<u8> {
    let mut file = vec![array.rows as u8, array.columns as u8];
    push_records(&mut file, records);
    file
}

/// A map file: the faults, then the dead processors where there are any.
pub fn map_file_of(array: Array, faults: &[[usize; 2]], dead: &[[usize; 2]]) -> Vec<u8> {
    let mut file = file_of(array, faults);
    if !dead.is_empty() {
        push_records(&mut file, dead);
    }
    file
}

/// A plan file: the paths, then T.
pub fn plan_file_of(array: Array, paths: &[[usize; 3]], trials: usize) -> Vec<u8> {
    let mut file = file_of(array, paths);
    push_number(&mut file, trials);
    file
}

/// Puts all bytes at the front of `out`, or none.
fn put(bytes: &[u8], out: &mut [u8]) -> Result<usize, Refusal> {
    let Some(front) = out.get_mut(..bytes.len()) else {
        return refuse(14, bytes.len());
    };
    front.copy_from_slice(bytes);
    Ok(bytes.len())
}

/// The places of a map that have a mark, spares included, in row order.
pub fn map_records(array: Array, grid: &[u8], mark: u8) -> Vec<[usize; 2]> {
    array.cells().filter(|&c| grid[position(c)] == mark).map(|(x, y)| [x, y]).collect()
}

/// The paths of a direction buffer in row order.
pub fn plan_records(array: Array, directions: &[u8]) -> Vec<[usize; 3]> {
    let record = |(x, y): Cell| [x, y, directions[position((x, y))] as usize];
    array.inner_cells().map(record).filter(|r| r[2] != 0).collect()
}

pub fn write_map(n: usize, m: usize, grid: &[u8], out: &mut [u8]) -> Result<usize, Refusal> {
    let array = test_map(n, m, grid, &[])?;
    put(&map_file_of(array, &map_records(array, grid, FAULTY), &map_records(array, grid, DEAD)), out)
}

pub fn write_plan(n: usize, m: usize, directions: &[u8], trials: u32, out: &mut [u8]) -> Result<usize, Refusal> {
    let array = test_size(n, m)?;
    test_lengths(&[directions.len()])?;
    if let Some(p) = lowest(|c, p| directions[p] > 4 || (directions[p] != 0 && !array.is_inner(c))) {
        return refuse(4, p);
    }
    if trials > HIGHEST {
        return refuse(21, 0);
    }
    put(&plan_file_of(array, &plan_records(array, directions), trials as usize), out)
}

// The listing.

/// The listing of a map file, by any of the planners.
pub fn listing(planner: Planner, file: &[u8]) -> String {
    let mut grid = [0; LENGTH];
    match read_map(file, &mut grid) {
        Err(e) => format!("refused {} {}\n", e.number, e.place),
        Ok(head) => list_map(planner, head, &grid),
    }
}

fn list_map(planner: Planner, head: Head, grid: &[u8]) -> String {
    let array = Array { rows: head.rows, columns: head.columns };
    let first = format!("map {} {} {}\n", head.rows, head.columns, head.count);
    let (outcome, paths) = planner(array, grid, LISTING_LIMIT);
    let lines = || list_plan(&Planned { array, paths });
    match outcome {
        Outcome::Beyond(trials) => format!("{first}beyond {trials}\n"),
        Outcome::Spent(limit) => format!("{first}spent {limit}\n"),
        Outcome::Repaired(trials) => format!("{first}repaired {trials}\n{}", lines()),
        Outcome::Decided(Decision::Beyond) => format!("{first}beyond\n"),
        Outcome::Decided(Decision::Repaired) => format!("{first}repaired\n{}", lines()),
    }
}

fn list_plan(plan: &Planned) -> String {
    let mut text = String::new();
    for path in &plan.paths {
        let letter = ["S", "N", "E", "W"][path.direction as usize - 1];
        text += &format!("path {} {} {letter}\n", path.start.0, path.start.1);
    }
    let mut places = [0; LENGTH];
    write_places(plan, &mut places);
    for (i, j) in plan.array.inner_cells() {
        let (row, column) = cell(places[position((i, j))] as usize);
        text += &format!("cell {i} {j} {row} {column}\n");
    }
    let (mut across, mut down) = ([0; LENGTH], [0; LENGTH]);
    write_switches(plan, &mut across, &mut down);
    let letters = |buffer: &[u8]| buffer.iter().filter(|b| **b != 0).map(|b| *b as char).collect::<String>();
    text + &format!("across {}\ndown {}\n", letters(&across), letters(&down))
}

pub fn report(planner: Planner, file: &[u8], out: &mut [u8]) -> Result<usize, Refusal> {
    put(listing(planner, file).as_bytes(), out)
}
