//! The inputs of the comparison: maps, plans, switches, files and sessions, sound and damaged, from a fixed seed for each operation.

use chantspruce::Fault;

use crate::reference::{
    self, Array, Cell, Change, DEAD, DIRECTIONS, Direction, FAULTY, HEALTHY, HIGHEST, LENGTH, NO_PROCESSOR, Outcome, Path, Planner,
    Session, is_faulty, is_outermost, position,
};
use std::collections::BTreeSet;

/// The arguments of a call. An operation uses some of them; buffers that it does not use are empty.
#[derive(Clone, Debug, Default)]
pub struct Case {
    pub n: usize,
    pub m: usize,
    pub limit: u32,
    pub trials: u32,
    pub cell: usize,
    pub side: usize,
    pub at: usize,
    pub grid: Vec<u8>,
    pub directions: Vec<u8>,
    pub faults: Vec<Fault>,
    pub places: Vec<u16>,
    pub across: Vec<u8>,
    pub down: Vec<u8>,
    pub file: Vec<u8>,
    pub out: Vec<u8>,
    /// The session that a call is handed or gives, and the report.
    pub session: Option<Session>,
    pub failing: bool,
    pub place: usize,
    /// What an accepted report changes or would change, set by the reference.
    pub change: Change,
    /// The counters that a preview gives: south, north, east, west.
    pub counters: [Vec<u8>; 4],
}

/// Sizes that no array has.
const BAD_SIZES: [usize; 8] = [0, 31, 32, 255, 257, 1 << 32, (1 << 32) + 1, usize::MAX];

/// Lengths that no buffer of 1,024 has.
const BAD_LENGTHS: [usize; 6] = [0, 1, 32, 1023, 1025, 2048];

/// The lowest and highest numbers of one, two and three bytes. The last has four, which no number of a file has.
const EDGES: [usize; 7] = [0, 127, 128, 16_383, 16_384, 2_097_151, 2_097_152];

/// Trials that no file has, at the edges of what four and five bytes hold.
const TOO_MANY: [u32; 8] = [2_097_152, 2_097_153, 1 << 24, (1 << 28) - 1, 1 << 28, 1 << 31, (1 << 31) + 1, u32::MAX];

/// The bytes of no number: cut, with the third top bit set, or not in the shortest form.
const NO_NUMBERS: [&[u8]; 14] = [
    &[],
    &[0x80],
    &[0xFF],
    &[0x80, 0x80],
    &[0xFF, 0xFF],
    &[0x80, 0],
    &[0x82, 0],
    &[0xFF, 0],
    &[0x80, 0x80, 0],
    &[0xFF, 0x80, 0],
    &[0xFF, 0xFF, 0],
    &[0x80, 0x80, 0x80],
    &[0xFF, 0xFF, 0xFF],
    &[0x80, 0x80, 0x80, 1],
];

/// Trials after which the planner is not asked further, where a case needs to know them.
pub const ENOUGH: u32 = 2000;

/// One way to damage a case.
type Damage = fn(&mut Maker, &mut Case);

const MAP_DAMAGES: [Damage; 6] =
    [Maker::bad_size, Maker::other_size, Maker::bad_length, Maker::bad_mark, Maker::dead_outside, Maker::turn_health];

const PLAN_DAMAGES: [Damage; 10] = [
    Maker::bad_size,
    Maker::other_size,
    Maker::bad_length,
    Maker::bad_mark,
    Maker::dead_outside,
    Maker::turn_health,
    Maker::dead_fault,
    Maker::bad_direction,
    Maker::lost_direction,
    Maker::turn_direction,
];

/// Damages of a session's size, grid and directions, whose lengths are fixed.
const SESSION_DAMAGES: [Damage; 9] = [
    Maker::bad_size,
    Maker::other_size,
    Maker::bad_mark,
    Maker::dead_outside,
    Maker::turn_health,
    Maker::dead_fault,
    Maker::bad_direction,
    Maker::lost_direction,
    Maker::turn_direction,
];

const LIST_DAMAGES: [Damage; 12] = [
    Maker::bad_size,
    Maker::other_size,
    Maker::bad_length,
    Maker::bad_mark,
    Maker::dead_outside,
    Maker::turn_health,
    Maker::dead_fault,
    Maker::lost_fault,
    Maker::more_faults,
    Maker::swapped_faults,
    Maker::moved_fault,
    Maker::turned_fault,
];

const LINK_DAMAGES: [Damage; 4] = [Maker::bad_switch, Maker::turn_letter, Maker::bad_cell, Maker::bad_side];

pub struct Maker {
    state: u64,
    /// What buffers may hold before a call.
    noise: Vec<u8>,
    noise_words: Vec<u16>,
    /// How many of the pairs of bytes were made into a file so far.
    pairs: usize,
    /// The session that a list of reports has reached, and how many reports are left of it.
    field: Option<Session>,
    left: usize,
}

impl Maker {
    pub fn new(seed: u64) -> Maker {
        let mut maker = Maker { state: seed, noise: Vec::new(), noise_words: Vec::new(), pairs: 0, field: None, left: 0 };
        maker.noise = (0..1 << 16).map(|_| maker.random() as u8).collect();
        maker.noise_words = (0..1 << 16).map(|_| maker.random() as u16).collect();
        maker
    }

    // Random choices.

    /// The generator splitmix64.
    fn random(&mut self) -> u64 {
        self.state = self.state.wrapping_add(0x9E37_79B9_7F4A_7C15);
        let mut z = self.state;
        z = (z ^ (z >> 30)).wrapping_mul(0xBF58_476D_1CE4_E5B9);
        z = (z ^ (z >> 27)).wrapping_mul(0x94D0_49BB_1331_11EB);
        z ^ (z >> 31)
    }

    fn below(&mut self, bound: usize) -> usize {
        ((self.random() >> 32) as usize * bound) >> 32
    }

    fn one_in(&mut self, n: usize) -> bool {
        self.below(n) == 0
    }

    fn pick<T: Copy>(&mut self, from: &[T]) -> T {
        from[self.below(from.len())]
    }

    fn noise(&mut self, length: usize) -> &[u8] {
        let start = self.below(self.noise.len() - length);
        &self.noise[start..start + length]
    }

    fn noise_words(&mut self) -> Vec<u16> {
        let start = self.below(self.noise_words.len() - LENGTH);
        self.noise_words[start..start + LENGTH].to_vec()
    }

    // Maps.

    /// A size: 30 x 30 once in `rare`, sometimes any or to 8 x 8, and mostly to `small` x `small`.
    fn array(&mut self, rare: usize, small: usize) -> Array {
        let most = match self.below(rare) {
            0 => return Array { rows: 30, columns: 30 },
            1 => 30,
            2..=40 => 8,
            _ => small,
        };
        Array { rows: 1 + self.below(most), columns: 1 + self.below(most) }
    }

    /// A case with a map that has no fault.
    fn healthy(&mut self, array: Array) -> Case {
        let mut grid = vec![NO_PROCESSOR; LENGTH];
        for row in 1..=array.rows {
            grid[32 * row..32 * row + array.columns + 2].fill(HEALTHY);
        }
        for row in [0, array.rows + 1] {
            grid[32 * row + 1..32 * row + array.columns + 1].fill(HEALTHY);
        }
        Case { n: array.rows, m: array.columns, grid, ..Case::default() }
    }

    fn inner(&mut self, array: Array) -> Cell {
        (1 + self.below(array.rows), 1 + self.below(array.columns))
    }

    fn spare(&mut self, array: Array) -> Cell {
        let (x, y) = self.inner(array);
        self.pick(&[(0, y), (array.rows + 1, y), (x, 0), (x, array.columns + 1)])
    }

    /// An inner position in the first or last row or column.
    fn rim(&mut self, array: Array) -> Cell {
        let (x, y) = self.inner(array);
        self.pick(&[(1, y), (array.rows, y), (x, 1), (x, array.columns)])
    }

    /// A path from the rim straight across the array.
    fn crossing(&mut self, array: Array) -> Path {
        let (x, y) = self.inner(array);
        let direction = self.pick(&DIRECTIONS);
        let start = match direction {
            Direction::South => (1, y),
            Direction::North => (array.rows, y),
            Direction::East => (x, 1),
            Direction::West => (x, array.columns),
        };
        Path::new(array, start, direction)
    }

    /// A map with faults anywhere, fewer to the row where the array is large. Half of the maps have dead processors.
    fn scattered(&mut self, array: Array) -> Case {
        let mut case = self.healthy(array);
        let area = array.rows * array.columns;
        let share = self.pick(&[1, 2, 4, 8]) * (1 + (array.rows + array.columns) / 12);
        for _ in 0..self.below(area / share + 3) {
            let fault = self.inner(array);
            case.grid[position(fault)] = FAULTY;
        }
        for _ in 0..self.pick(&[0, 0, 1, 2, 4, 8]) {
            let fault = self.spare(array);
            case.grid[position(fault)] = FAULTY;
        }
        if self.one_in(2) {
            self.deaden(array, &mut case);
        }
        case
    }

    /// Makes processors dead: one at the rim, one anywhere, several at the rim, or some of the faults.
    fn deaden(&mut self, array: Array, case: &mut Case) {
        match self.below(6) {
            0 | 1 => case.grid[position(self.rim(array))] = DEAD,
            2 => case.grid[position(self.inner(array))] = DEAD,
            3 => (0..1 + self.below(4)).for_each(|_| case.grid[position(self.rim(array))] = DEAD),
            _ => {
                let share = self.pick(&[1, 2, 3, 4]);
                for fault in inner_faults(case) {
                    case.grid[fault] = if self.one_in(share) { DEAD } else { FAULTY };
                }
            }
        }
    }

    /// Faults with free choices, and one below them, dead or not, that has none: about as many trials as the listing's limit.
    fn hard(&mut self) -> Case {
        let array = Array { rows: 12 + self.below(19), columns: 30 };
        let mut case = self.healthy(array);
        for column in (1..30).step_by(2) {
            let row = 1 + self.below(4);
            case.grid[position((row, column))] = FAULTY;
        }
        self.add_core(array, &mut case);
        case
    }

    /// The same for the quick planner, which settles nothing there, or only a fault added in the last row. Almost every column
    /// has a fault, in turns higher and lower, and the first row only one, so that the others can go south or north.
    fn hard_closed(&mut self) -> Case {
        let array = Array { rows: 12 + self.below(19), columns: 30 };
        let mut case = self.healthy(array);
        case.grid[position((1, 1))] = FAULTY;
        for column in 2..30 {
            let row = if column % 2 == 1 { 2 } else { 4 } + self.below(2);
            case.grid[position((row, column))] = FAULTY;
        }
        self.add_core(array, &mut case);
        self.close_outward(&mut case);
        if self.one_in(2) {
            case.grid[position((array.rows, 1 + self.below(30)))] = FAULTY;
        }
        case
    }

    /// Adds a fault without an open path, dead or not, near the last row, and the four around it.
    fn add_core(&mut self, array: Array, case: &mut Case) {
        let (x, y) = (array.rows - 2, 2 + self.below(28));
        for fault in [(x - 1, y), (x + 1, y), (x, y - 1), (x, y + 1)] {
            case.grid[position(fault)] = FAULTY;
        }
        case.grid[position((x, y))] = self.pick(&[FAULTY, DEAD]);
    }

    /// A map with faults only in the two rows and columns next to the spares, dead ones among them.
    fn near_rim(&mut self, array: Array) -> Case {
        let mut case = self.healthy(array);
        for _ in 0..self.below(2 * (array.rows + array.columns)) {
            let (x, y) = self.rim(array);
            let inwards = self.pick(&[(x, y), (x, y), (x + 1, y), (x - 1, y), (x, y + 1), (x, y - 1)]);
            if array.is_inner(inwards) {
                case.grid[position(inwards)] = FAULTY;
            }
        }
        for _ in 0..self.pick(&[0, 0, 1, 4]) {
            case.grid[position(self.spare(array))] = FAULTY;
        }
        if self.one_in(4) {
            self.deaden(array, &mut case);
        }
        case
    }

    /// A map with faults only in one row or one column, mostly the first or the last, dead ones among them.
    fn in_line(&mut self, array: Array) -> Case {
        let mut case = self.healthy(array);
        let (x, y) = if self.one_in(4) { self.inner(array) } else { self.rim(array) };
        let (along_row, share, dead) = (self.one_in(2), 1 + self.below(4), self.pick(&[1, 2, LENGTH]));
        for c in array.inner_cells().filter(|c| if along_row { c.0 == x } else { c.1 == y }) {
            let faulty = if self.one_in(dead) { DEAD } else { FAULTY };
            case.grid[position(c)] = if self.one_in(share) { faulty } else { HEALTHY };
        }
        for _ in 0..self.pick(&[0, 0, 1, 4]) {
            case.grid[position(self.spare(array))] = FAULTY;
        }
        case
    }

    /// A map with faults that the quick planner does not settle: a planned one, which stays repairable, or any.
    fn closed(&mut self, array: Array) -> Case {
        let mut case = if self.one_in(4) { self.scattered(array) } else { self.planned(array) };
        self.close_outward(&mut case);
        case
    }

    /// Makes the spares faulty to which the outward paths of the outermost faults lead. In a planned map a fault whose own path
    /// goes outward keeps its spare, so that it can be settled, or is made healthy, and the next ones count as outermost.
    fn close_outward(&mut self, case: &mut Case) {
        let array = Array { rows: case.n, columns: case.m };
        let mut left: BTreeSet<Cell> = array.inner_cells().filter(|&c| is_faulty(case.grid[position(c)])).collect();
        let keeps = self.one_in(2);
        while let Some(fault) = close_lines(array, case, &left) {
            left.remove(&fault);
            if !keeps {
                case.grid[position(fault)] = HEALTHY;
                case.directions[position(fault)] = 0;
            }
        }
    }

    /// A map that mostly takes the quick planner more trials than the first one. Both try east before west for the
    /// second fault. For the first planner east meets the first fault's path south. The quick one settles the first fault
    /// north and keeps east; only at the last fault, which must go north, does it find that there is no plan with east.
    fn misled(&mut self) -> Case {
        let array = Array { rows: 5 + self.below(26), columns: 9 + self.below(22) };
        let mut case = self.healthy(array);
        let row = 2 + self.below(array.rows - 3);
        let second = 4 + self.below(array.columns - 6);
        let first = second + 1 + self.below(array.columns - 2 - second);
        let last = first + 2 + self.below(array.columns - 1 - first);
        let faults = [(1, first), (row, second), (row + 1, second), (row + 2, last)];
        let spares = [(0, second), (row + 1, 0), (row + 2, array.columns + 1), (array.rows + 1, last)];
        let between = (1..second).map(|y| (row + 1, y)).filter(|_| self.one_in(2)).collect::<Vec<Cell>>();
        faults.into_iter().chain(spares).chain(between).for_each(|c| case.grid[position(c)] = FAULTY);
        case
    }

    /// A map with most paths open, since no two faults are in the same row or column, and with nothing to settle; some get dead
    /// processors after that. Where it is large both other planners may take very many trials.
    fn core(&mut self, array: Array) -> Case {
        let mut case = self.healthy(array);
        let mut columns: Vec<usize> = (1..=array.columns).collect();
        for row in 1..=array.rows {
            if !columns.is_empty() && !self.one_in(3) {
                let column = columns.swap_remove(self.below(columns.len()));
                case.grid[position((row, column))] = FAULTY;
            }
        }
        self.close_outward(&mut case);
        if self.one_in(4) {
            self.deaden(array, &mut case);
        }
        case
    }

    /// A map with very many faults: half or all of the processors, or most of those next to the spares, where there may be a
    /// plan.
    fn crowded(&mut self, array: Array) -> Case {
        let mut case = self.healthy(array);
        if self.one_in(2) {
            self.any_faults(array, &mut case);
            return case;
        }
        let share = self.pick(&[4, 64, LENGTH]);
        for (x, y) in array.inner_cells() {
            let at_rim = [1, array.rows].contains(&x) || [1, array.columns].contains(&y);
            if at_rim && !self.one_in(share) {
                case.grid[position((x, y))] = FAULTY;
            }
        }
        case
    }

    /// Gives every inner fault some direction.
    fn directed(&mut self, mut case: Case) -> Case {
        case.directions = vec![0; LENGTH];
        for fault in inner_faults(&case) {
            case.directions[fault] = 1 + self.below(4) as u8;
        }
        case
    }

    /// A map with a plan, made fault by fault in any order. In half of the maps some of the faults whose paths are from the rim are dead.
    fn planned(&mut self, array: Array) -> Case {
        let mut case = self.healthy(array);
        case.directions = vec![0; LENGTH];
        let mut paths: Vec<Path> = Vec::new();
        let mut taken = [false; LENGTH];
        let dead = self.one_in(2);
        for _ in 0..self.below(3 * (array.rows + array.columns)) {
            let path = if dead && self.one_in(3) { self.crossing(array) } else { self.path(array) };
            let free = path.cells.iter().all(|&c| !taken[position(c)] && case.grid[position(c)] == HEALTHY);
            if free && !paths.iter().any(|p| p.nearly_misses(&path)) {
                path.cells.iter().for_each(|&c| taken[position(c)] = true);
                let is_dead = dead && path.from_rim && !self.one_in(4);
                case.grid[position(path.start)] = if is_dead { DEAD } else { FAULTY };
                case.directions[position(path.start)] = path.direction as u8;
                paths.push(path);
            }
        }
        for _ in 0..self.below(4) {
            let spare = position(self.spare(array));
            case.grid[spare] = if taken[spare] { HEALTHY } else { FAULTY };
        }
        case
    }

    /// A path from anywhere.
    fn path(&mut self, array: Array) -> Path {
        let start = self.inner(array);
        Path::new(array, start, self.pick(&DIRECTIONS))
    }

    /// A map with directions, which mostly are a plan.
    fn with_directions(&mut self, array: Array) -> Case {
        let mut case = match self.below(8) {
            0 => self.scattered(array),
            _ => self.planned(array),
        };
        if case.directions.is_empty() || self.one_in(6) {
            return self.directed(case);
        }
        for _ in 0..self.pick(&[0, 0, 0, 1, 2]) {
            self.turn_direction(&mut case);
        }
        if self.one_in(12) {
            self.dead_fault(&mut case);
        }
        case
    }

    // Damages.

    /// Damages one case in `often`, in one way or in up to three.
    fn spoil(&mut self, case: &mut Case, often: usize, ways: &[Damage]) {
        if self.one_in(often) {
            for _ in 0..self.pick(&[1, 1, 1, 1, 2, 3]) {
                self.pick(ways)(self, case);
            }
        }
    }

    fn bad_size(&mut self, case: &mut Case) {
        let size = self.pick(&BAD_SIZES);
        if self.one_in(2) { case.n = size } else { case.m = size }
    }

    fn other_size(&mut self, case: &mut Case) {
        let size = 1 + self.below(30);
        if self.one_in(2) { case.n = size } else { case.m = size }
    }

    /// Makes one of the buffers in use too short or too long.
    fn bad_length(&mut self, case: &mut Case) {
        let length = self.pick(&BAD_LENGTHS);
        let words = usize::from(!case.places.is_empty());
        let bytes = [&mut case.grid, &mut case.directions, &mut case.across, &mut case.down];
        let mut used: Vec<&mut Vec<u8>> = bytes.into_iter().filter(|b| !b.is_empty()).collect();
        match self.below(used.len() + words) {
            chosen if chosen < used.len() => used[chosen].resize(length, 0),
            _ => case.places.resize(length, 0),
        }
    }

    /// A position, mostly in the array or beside it.
    fn place(&mut self, case: &Case) -> usize {
        match self.below(4) {
            0 => self.below(LENGTH),
            _ => position((self.below(case.n.min(29) + 3), self.below(case.m.min(29) + 3))),
        }
    }

    /// Changes the byte at some position to one of the given.
    fn change(&mut self, case: &mut Case, buffer: fn(&mut Case) -> &mut Vec<u8>, bytes: &[u8]) {
        let (place, byte) = (self.place(case), self.pick(bytes));
        if let Some(old) = buffer(case).get_mut(place) {
            *old = byte;
        }
    }

    fn bad_mark(&mut self, case: &mut Case) {
        self.change(case, |c| &mut c.grid, &[0, 1, 2, 3, 255]);
    }

    /// Marks as dead a position that is not inner: a spare, a corner, or one outside the array.
    fn dead_outside(&mut self, case: &mut Case) {
        let (n, m) = (case.n.min(30), case.m.min(30));
        let (x, y) = (self.below(n + 1), self.below(m + 1));
        let places = [(0, y), (n + 1, y), (x, 0), (x, m + 1), (0, 0), (0, m + 1), (n + 1, 0), (n + 1, m + 1), (x, 31), (31, y)];
        let place = position(self.pick(&places));
        if let Some(mark) = case.grid.get_mut(place) {
            *mark = DEAD;
        }
    }

    fn turn_health(&mut self, case: &mut Case) {
        let (place, faulty) = (self.place(case), self.pick(&[FAULTY, FAULTY, DEAD]));
        match case.grid.get(place) {
            Some(&HEALTHY) => case.grid[place] = faulty,
            Some(&(FAULTY | DEAD)) => case.grid[place] = HEALTHY,
            _ => {}
        }
    }

    /// Makes one of the faults dead, wherever its path goes; it may be a spare.
    fn dead_fault(&mut self, case: &mut Case) {
        let faults: Vec<usize> = (0..case.grid.len()).filter(|&p| case.grid[p] == FAULTY).collect();
        if !faults.is_empty() {
            case.grid[self.pick(&faults)] = DEAD;
        }
    }

    fn bad_direction(&mut self, case: &mut Case) {
        self.change(case, |c| &mut c.directions, &[1, 2, 3, 4, 5, 255]);
    }

    /// Changes the direction of some path.
    fn change_path(&mut self, case: &mut Case, bytes: &[u8]) {
        let starts: Vec<usize> = (0..case.directions.len()).filter(|&p| case.directions[p] != 0).collect();
        if !starts.is_empty() {
            let start = self.pick(&starts);
            case.directions[start] = self.pick(bytes);
        }
    }

    fn lost_direction(&mut self, case: &mut Case) {
        self.change_path(case, &[0, 0, 5, 255]);
    }

    fn turn_direction(&mut self, case: &mut Case) {
        self.change_path(case, &[1, 2, 3, 4]);
    }

    fn bad_switch(&mut self, case: &mut Case) {
        let bytes = [0, b'a', b'b', b'c', b'd', b'e', b'`', b'A', 255];
        if self.one_in(2) { self.change(case, |c| &mut c.across, &bytes) } else { self.change(case, |c| &mut c.down, &bytes) }
    }

    /// Changes letters of switches that there are.
    fn turn_letter(&mut self, case: &mut Case) {
        for _ in 0..1 + self.below(4) {
            let (place, letter) = (self.place(case), b'a' + self.below(4) as u8);
            let buffer = if self.one_in(2) { &mut case.across } else { &mut case.down };
            if let Some(b'a'..=b'd') = buffer.get(place) {
                buffer[place] = letter;
            }
        }
    }

    fn bad_cell(&mut self, case: &mut Case) {
        let beyond = [0, 31, 32, LENGTH - 1, LENGTH, 1 << 16, 1 << 32, usize::MAX];
        let wide = [case.cell ^ LENGTH, case.cell ^ (1 << 16), case.cell ^ (1 << 32), case.cell ^ (1 << 63)];
        case.cell = match self.below(3) {
            0 => self.pick(&beyond),
            1 => self.pick(&wide),
            _ => self.place(case),
        };
    }

    fn bad_side(&mut self, case: &mut Case) {
        case.side = self.pick(&[2, 3, 255, 256, 257, 1 << 32, (1 << 32) + 1, usize::MAX]);
    }

    // The inputs of each operation.

    pub fn for_check(&mut self) -> Case {
        let array = self.array(512, 4);
        let mut case = self.with_directions(array);
        self.spoil(&mut case, 3, &PLAN_DAMAGES);
        case
    }

    /// The faults of a direction buffer as a list, in row order, or damaged.
    pub fn for_list(&mut self) -> Case {
        let array = self.array(512, 4);
        let mut case = self.with_directions(array);
        let starts = inner_faults(&case).into_iter();
        case.faults = starts.map(|position| Fault { position, direction: case.directions[position] }).collect();
        case.directions = Vec::new();
        self.spoil(&mut case, 3, &LIST_DAMAGES);
        case
    }

    /// An entry of the list for which there is room, if any.
    fn entry(&mut self, case: &Case) -> Option<usize> {
        (!case.faults.is_empty()).then(|| self.below(case.faults.len()))
    }

    fn lost_fault(&mut self, case: &mut Case) {
        if let Some(at) = self.entry(case) {
            case.faults.remove(at);
        }
    }

    /// Adds an entry: one that is there already, or any other, a few times or very often.
    fn more_faults(&mut self, case: &mut Case) {
        let at = self.below(case.faults.len() + 1);
        let any = Fault { position: self.place(case), direction: self.below(6) as u8 };
        let fault = case.faults.get(at).copied().filter(|_| self.one_in(2)).unwrap_or(any);
        let times = self.pick(&[1, 1, 1, 2, LENGTH, LENGTH + 1]);
        case.faults.splice(at..at, vec![fault; times]);
    }

    fn swapped_faults(&mut self, case: &mut Case) {
        if let (Some(a), Some(b)) = (self.entry(case), self.entry(case)) {
            case.faults.swap(a, b);
        }
    }

    fn moved_fault(&mut self, case: &mut Case) {
        if let Some(at) = self.entry(case) {
            let old = case.faults[at].position;
            let wide = [old ^ LENGTH, old ^ (1 << 16), old ^ (1 << 32), old ^ (1 << 63), usize::MAX];
            case.faults[at].position = if self.one_in(2) { self.pick(&wide) } else { self.place(case) };
        }
    }

    fn turned_fault(&mut self, case: &mut Case) {
        if let Some(at) = self.entry(case) {
            case.faults[at].direction = self.pick(&[0, 1, 2, 3, 4, 5, 255]);
        }
    }

    /// A session with a report. In one of three its size, grid or directions are damaged, in one of three its counters; the others
    /// have right counters where their directions are a plan.
    pub fn for_report_processor(&mut self) -> Case {
        let array = self.array(512, 4);
        let mut case = if self.one_in(8) { self.with_directions(array) } else { self.planned(array) };
        let right = reference::start_session(case.n, case.m, &case.grid, &case.directions).map(|session| session.counters);
        let mut counters = right.unwrap_or_else(|_| [(); 4].map(|()| self.noise(LENGTH).to_vec()));
        self.spoil(&mut case, 3, &SESSION_DAMAGES);
        if self.one_in(3) {
            self.spoil_counters(&case, &mut counters);
        }
        let (grid, directions) = (std::mem::take(&mut case.grid), std::mem::take(&mut case.directions));
        let session = Session { rows: case.n, columns: case.m, grid, directions, counters };
        self.with_report(case, session)
    }

    /// Changes the four counters: one buffer or all, one byte, all bytes to an end or near it, or all to any bytes.
    fn spoil_counters(&mut self, case: &Case, counters: &mut [Vec<u8>; 4]) {
        let chosen = self.below(5);
        for buffer in counters.iter_mut().enumerate().filter(|(i, _)| chosen == 4 || chosen == *i).map(|(_, b)| b) {
            match self.below(4) {
                0 => buffer[self.place(case)] = self.pick(&[0, 1, 2, 254, 255]),
                1 => buffer.fill(self.pick(&[0, 0, 1, 254, 255])),
                2 => buffer.iter_mut().for_each(|b| *b = self.pick(&[0, 0, 0, 1, 255])),
                _ => buffer.copy_from_slice(self.noise(LENGTH)),
            }
        }
    }

    /// Adds a report of a processor, or of a place where there may be none.
    fn with_report(&mut self, mut case: Case, session: Session) -> Case {
        let array = Array { rows: session.rows.min(30), columns: session.columns.min(30) };
        let array = if array.rows * array.columns == 0 { Array { rows: 1, columns: 1 } } else { array };
        let faults: Vec<usize> = (0..LENGTH).filter(|&p| is_faulty(session.grid[p])).collect();
        (case.n, case.m) = (session.rows, session.columns);
        case.place = match self.below(16) {
            0 => self.place(&case),
            1 => {
                case.cell = position(self.inner(array));
                self.bad_cell(&mut case);
                case.cell
            }
            2 | 3 => position(self.spare(array)),
            4..=7 if !faults.is_empty() => self.pick(&faults),
            _ => position(self.inner(array)),
        };
        let is_fault = session.grid.get(case.place).is_some_and(|&mark| is_faulty(mark));
        case.failing = if self.one_in(8) { is_fault } else { !is_fault };
        case.session = Some(session);
        case
    }

    /// The next report of a list to a session that began with an accepted start.
    pub fn for_field(&mut self) -> Case {
        while self.left == 0 {
            let array = self.array(512, 5);
            let case = if self.one_in(4) { self.directed_healthy(array) } else { self.planned(array) };
            self.field = reference::start_session(case.n, case.m, &case.grid, &case.directions).ok();
            self.left = if self.field.is_some() { 1 + self.below(60) } else { 0 };
        }
        self.left -= 1;
        let session = self.field.clone().unwrap_or_else(reference::no_session);
        let case = self.with_report(Case::default(), session);
        if let Some(session) = &mut self.field {
            reference::report_processor(session, case.failing, case.place).ok();
        }
        case
    }

    /// A map without a fault, and its plan.
    fn directed_healthy(&mut self, array: Array) -> Case {
        let case = self.healthy(array);
        self.directed(case)
    }

    pub fn for_placing(&mut self) -> Case {
        let array = self.array(512, 4);
        let mut case = self.with_directions(array);
        case.places = self.noise_words();
        self.spoil(&mut case, 3, &PLAN_DAMAGES);
        case
    }

    pub fn for_routing(&mut self) -> Case {
        let array = self.array(512, 4);
        let mut case = self.with_directions(array);
        case.across = self.noise(LENGTH).to_vec();
        case.down = self.noise(LENGTH).to_vec();
        self.spoil(&mut case, 3, &PLAN_DAMAGES);
        case
    }

    pub fn for_link(&mut self) -> Case {
        let array = self.array(512, 6);
        let mut case = if self.one_in(4) { self.with_directions(array) } else { self.planned(array) };
        (case.across, case.down) = (vec![0; LENGTH], vec![0; LENGTH]);
        case.cell = self.near_dead(&case).unwrap_or(position(self.inner(array)));
        case.side = self.below(2);
        match self.below(3) {
            0 => self.any_letters(array, &mut case),
            roll => self.routed_letters(array, &mut case, roll == 1),
        }
        self.spoil(&mut case, 4, &LINK_DAMAGES);
        self.spoil(&mut case, 8, &PLAN_DAMAGES);
        case
    }

    /// The position of a dead processor or beside it, in half of the cases that have one.
    fn near_dead(&mut self, case: &Case) -> Option<usize> {
        let array = Array { rows: case.n, columns: case.m };
        let dead: Vec<Cell> = array.inner_cells().filter(|&c| case.grid[position(c)] == DEAD).collect();
        if dead.is_empty() || self.one_in(2) {
            return None;
        }
        let (x, y) = self.pick(&dead);
        let beside = self.pick(&[(x, y), (x, y), (x - 1, y), (x + 1, y), (x, y - 1), (x, y + 1)]);
        array.is_inner(beside).then_some(position(beside))
    }

    /// Gives every switch the letter that routing gives it, or changes some of these; any letter where the directions are no plan.
    fn routed_letters(&mut self, array: Array, case: &mut Case, turned: bool) {
        if reference::route_switches(case.n, case.m, &case.grid, &case.directions, &mut case.across, &mut case.down).is_err() {
            self.any_letters(array, case);
        }
        if turned {
            self.turn_letter(case);
        }
    }

    /// Gives every switch some letter, more often one that joins all its ports.
    fn any_letters(&mut self, array: Array, case: &mut Case) {
        for c in array.cells() {
            if array.has_across(c) {
                case.across[position(c)] = self.pick(b"abccdd");
            }
            if array.has_down(c) {
                case.down[position(c)] = self.pick(b"abccdd");
            }
        }
    }

    /// A limit for a map: small for most small arrays, else about the trials that the planner takes, or far above them.
    fn limit(&mut self, planner: Planner, case: &Case) -> u32 {
        if case.n * case.m < 100 && !self.one_in(4) {
            return self.pick(&[0, 1, 2, 3, 4, 5, 6, 8, 12, 20, 50, 100, 500]);
        }
        match trials(planner, case) {
            Some(t) => self.pick(&[t, t.saturating_sub(1), t + 1, u32::MAX]),
            None => ENOUGH,
        }
    }

    fn for_plan(&mut self, rare: usize, small: usize) -> Case {
        let array = self.array(rare, small);
        let mut case = match self.below(512) {
            0 => self.hard(),
            1..=63 => self.planned(array),
            _ => self.scattered(array),
        };
        case.limit = self.limit(reference::search_all, &case);
        case.directions = self.noise(LENGTH).to_vec();
        case
    }

    /// A map for the quick planner. In small arrays it settles most faults, so that maps where it should not are larger.
    fn for_settling(&mut self, rare: usize, small: usize) -> Case {
        let array = self.array(rare, small);
        match self.below(16) {
            0..=3 => self.near_rim(array),
            4 | 5 => self.in_line(array),
            6..=9 => {
                let larger = self.array(rare, 8);
                self.closed(larger)
            }
            10 => self.planned(array),
            _ => self.scattered(array),
        }
    }

    fn for_quick_plan(&mut self, rare: usize, small: usize) -> Case {
        let mut case = if self.one_in(512) { self.hard_closed() } else { self.for_settling(rare, small) };
        case.limit = self.limit(reference::settle_and_search, &case);
        case.directions = self.noise(LENGTH).to_vec();
        case
    }

    /// A map for the exact planner, which has no limit: mostly a small one.
    fn for_exact_plan(&mut self, rare: usize, small: usize) -> Case {
        let (array, larger) = (self.array(rare, small), self.array(rare, 2 * small));
        let large = Array { rows: 20 + self.below(11), columns: 20 + self.below(11) };
        let mut case = match self.below(512) {
            0 => self.hard(),
            1 => self.hard_closed(),
            2 => self.core(large),
            3..=6 => self.crowded(larger),
            7..=66 => self.core(larger),
            67..=194 => self.closed(larger),
            195..=226 => self.near_rim(array),
            227..=258 => self.in_line(array),
            259..=322 => self.planned(array),
            _ => self.scattered(array),
        };
        case.directions = self.noise(LENGTH).to_vec();
        case
    }

    pub fn for_planner(&mut self) -> Case {
        let mut case = self.for_plan(512, 4);
        self.spoil(&mut case, 4, &MAP_DAMAGES);
        case
    }

    pub fn for_quick_planner(&mut self) -> Case {
        let mut case = self.for_quick_plan(512, 4);
        self.spoil(&mut case, 4, &MAP_DAMAGES);
        case
    }

    /// A map for both planners, with room for the plan of each. The limit may be what the first one takes: then the quick
    /// one is spent exactly where it takes more.
    pub fn for_both(&mut self) -> Case {
        let mut case = if self.one_in(64) { self.misled() } else { self.for_settling(512, 4) };
        let first = trials(reference::search_all, &case).unwrap_or(ENOUGH);
        case.limit = self.pick(&[first, 4, 20, 100, ENOUGH]);
        case.directions = self.noise(LENGTH).to_vec();
        case.across = self.noise(LENGTH).to_vec();
        case
    }

    pub fn for_exact_planner(&mut self) -> Case {
        let mut case = self.for_exact_plan(512, 4);
        self.spoil(&mut case, 4, &MAP_DAMAGES);
        case
    }

    /// A map for the exact planner beside the first one, with room for the plan of each. The limit is mostly high enough.
    pub fn for_exact_and_first(&mut self) -> Case {
        let mut case = self.for_exact_plan(512, 4);
        case.limit = self.pick(&[20, ENOUGH, ENOUGH, 10 * ENOUGH]);
        case.across = self.noise(LENGTH).to_vec();
        case
    }

    /// Buffers for a whole run.
    fn with_room(&mut self, mut case: Case) -> Case {
        case.places = self.noise_words();
        case.across = self.noise(LENGTH).to_vec();
        case.down = self.noise(LENGTH).to_vec();
        self.spoil(&mut case, 2, &MAP_DAMAGES);
        case
    }

    pub fn for_run(&mut self) -> Case {
        let case = self.for_plan(8192, 2);
        self.with_room(case)
    }

    pub fn for_quick_run(&mut self) -> Case {
        let case = self.for_quick_plan(8192, 2);
        self.with_room(case)
    }

    pub fn for_exact_run(&mut self) -> Case {
        let case = self.for_exact_plan(8192, 2);
        self.with_room(case)
    }

    // Files.

    /// Every pair of bytes in time, numbers at the edges and bytes of no number, and shorter and longer files between them.
    pub fn for_number(&mut self) -> Case {
        if self.pairs < 1 << 16 && self.one_in(2) {
            self.pairs += 1;
            return Case { file: vec![(self.pairs / 256) as u8, self.pairs as u8], ..Case::default() };
        }
        if self.one_in(4) {
            let (before, after) = (self.below(3), self.pick(&[0, 0, 1, 2]));
            let mut file = self.noise(before).to_vec();
            file.extend(self.edge_bytes());
            file.extend_from_slice(self.noise(after));
            return Case { file, at: before, ..Case::default() };
        }
        let length = self.below(7);
        let mut file = self.noise(length).to_vec();
        for _ in 0..self.below(3) {
            self.change_byte(&mut file);
        }
        let past = [file.len(), file.len() + 1, LENGTH, 1 << 32, usize::MAX - 1, usize::MAX];
        let at = if self.one_in(8) { self.pick(&past) } else { self.below(file.len()) };
        Case { file, at, ..Case::default() }
    }

    /// The bytes of a number at the edges of those of a file, or of no number.
    fn edge_bytes(&mut self) -> Vec<u8> {
        if self.one_in(2) {
            return self.pick(&NO_NUMBERS).to_vec();
        }
        let mut bytes = Vec::new();
        reference::push_number(&mut bytes, self.pick(&EDGES));
        bytes
    }

    /// Trials that a plan file may have, of one, two and three bytes and at the edges of these.
    fn trials_on_record(&mut self) -> u32 {
        let below = self.pick(&[128, 16_384, HIGHEST as usize + 1]);
        if self.one_in(4) { self.pick(&EDGES[..6]) as u32 } else { self.below(below) as u32 }
    }

    /// Sets a byte to one that matters to a number.
    fn change_byte(&mut self, file: &mut [u8]) {
        if !file.is_empty() {
            let at = self.below(file.len());
            file[at] = self.pick(&[0, 1, 2, 4, 30, 31, 127, 128, 129, 255]);
        }
    }

    /// A plan file of these records, or a damaged one. Its trials may be wrong or missing, or have bytes after them.
    fn plan_file(&mut self, array: Array, mut records: Vec<[usize; 3]>) -> Vec<u8> {
        self.damage_records(&mut records);
        let mut file = reference::file_of(array, &records);
        match self.below(8) {
            0 => file.extend(self.edge_bytes()),
            _ => reference::push_number(&mut file, self.trials_on_record() as usize),
        }
        if self.one_in(16) {
            file.extend(self.edge_bytes());
        }
        self.damage_file(&mut file);
        file
    }

    /// The map file of a grid, or a damaged one.
    fn map_bytes(&mut self, array: Array, grid: &[u8]) -> Vec<u8> {
        let mut faults = reference::map_records(array, grid, FAULTY);
        let mut dead = reference::map_records(array, grid, DEAD);
        if dead.is_empty() || self.one_in(4) {
            self.damage_records(&mut faults);
        }
        self.damage_records(&mut dead);
        if self.one_in(8) {
            self.add_place(array, &mut faults, &mut dead);
        }
        let mut file = reference::map_file_of(array, &faults, &dead);
        if self.one_in(16) {
            let more: [&[u8]; 6] = [&[0], &[0, 1, 1], &[0x80], &[0x80, 0], &[1], &[1, 1]];
            file.extend(self.pick(&more));
        }
        self.damage_file(&mut file);
        file
    }

    /// Puts a place of one list into the other too, or a spare or the first inner position into the list of dead processors, in row order.
    fn add_place(&mut self, array: Array, faults: &mut Vec<[usize; 2]>, dead: &mut Vec<[usize; 2]>) {
        let (x, y) = self.spare(array);
        match self.below(4) {
            0 if !dead.is_empty() => faults.push(self.pick(dead)),
            0 | 1 if !faults.is_empty() => dead.push(self.pick(faults)),
            2 => dead.push([x, y]),
            _ if !dead.contains(&[1, 1]) => dead.push([1, 1]),
            _ => {}
        }
        faults.sort();
        dead.sort();
    }

    /// Leaves most lists in the order given, which is row order.
    fn damage_records<const K: usize>(&mut self, records: &mut Vec<[usize; K]>) {
        if self.one_in(6) {
            self.reorder(records);
        }
        if self.one_in(4) {
            self.spoil_records(records);
        }
    }

    fn damage_file(&mut self, file: &mut Vec<u8>) {
        if self.one_in(3) {
            for _ in 0..self.pick(&[1, 1, 1, 2]) {
                self.spoil_file(file);
            }
        }
    }

    /// Exchanges two neighbouring records, moves one anywhere, or takes all of them in any order.
    fn reorder<const K: usize>(&mut self, records: &mut Vec<[usize; K]>) {
        if records.is_empty() {
            return;
        }
        let (from, to) = (self.below(records.len()), self.below(records.len()));
        match self.below(4) {
            0 | 1 => records.swap(from, from.saturating_sub(1)),
            2 => {
                let record = records.remove(from);
                records.insert(to, record);
            }
            _ => (1..records.len()).rev().for_each(|i| records.swap(i, self.below(i + 1))),
        }
    }

    /// Repeats a record, or gives one a number that it should not have.
    fn spoil_records<const K: usize>(&mut self, records: &mut Vec<[usize; K]>) {
        if records.is_empty() {
            return;
        }
        let mut record = self.pick(records);
        if self.one_in(3) {
            record[K - 1] = 1 + self.below(4);
            let at = self.below(records.len()) + 1;
            records.insert(at, record);
        } else {
            // some have the low bits of a right one
            let wrong = [0, 1, 5, 29, 30, 31, 32, 33, 64, 127, 128, 257, 16_383, 16_384, 16_385, 65_537, 2_097_151, 2_097_152];
            record[self.below(K)] = self.pick(&wrong);
            let at = self.below(records.len());
            records[at] = record;
        }
    }

    fn spoil_file(&mut self, file: &mut Vec<u8>) {
        let at = self.below(file.len() + 1);
        match self.below(9) {
            0 => file.truncate(at),
            1 => file.extend_from_slice(self.noise(1 + at % 3)),
            2 if at < file.len() => file[at] ^= 1 << self.below(8),
            3 if at < file.len() => self.long_number(file, at),
            4 => file.insert(at, self.below(256) as u8),
            5 => self.change_byte(&mut file[..at.min(3)]),
            6 if self.one_in(4) => *file = self.noise(at + 4).to_vec(),
            7 if file.len() > 2 => self.other_count(file),
            _ => self.change_byte(file),
        }
    }

    /// Puts more bytes for the number at an offset: not its shortest form, with all top bits set, or a larger number.
    fn long_number(&mut self, file: &mut Vec<u8>, at: usize) {
        let second = self.pick(&[0, 0, 1, 127, 128, 255]);
        file[at] |= 128;
        file.insert(at + 1, second);
        if second >= 128 {
            let third = self.pick(&[0, 0, 1, 127, 128, 255]);
            file.insert(at + 2, third);
        }
    }

    /// Puts another number for the count of a file, far above what can follow or wrong.
    fn other_count(&mut self, file: &mut Vec<u8>) {
        let bytes = self.edge_bytes();
        file.splice(2..3, bytes);
    }

    fn map_file(&mut self, mut case: Case) -> Case {
        let array = Array { rows: case.n, columns: case.m };
        case.file = self.map_bytes(array, &case.grid);
        case.grid = Vec::new();
        case.directions = Vec::new();
        case
    }

    pub fn for_map_file(&mut self) -> Case {
        let array = self.array(512, 4);
        let mut case = self.scattered(array);
        if self.one_in(8) {
            self.any_faults(array, &mut case);
        }
        let mut case = self.map_file(case);
        case.grid = self.noise(LENGTH).to_vec();
        self.spoil(&mut case, 16, &[Maker::bad_length]);
        case
    }

    /// Makes half of all processors faulty, or all of them, and none, some or all of the inner ones dead, for large counts.
    fn any_faults(&mut self, array: Array, case: &mut Case) {
        let (share, dead) = (self.pick(&[1, 2, 2]), self.pick(&[1, 2, 8, LENGTH]));
        for c in array.cells().filter(|&c| array.is_processor(c)) {
            let faulty = if array.is_inner(c) && self.one_in(dead) { DEAD } else { FAULTY };
            case.grid[position(c)] = if self.one_in(share) { faulty } else { HEALTHY };
        }
    }

    /// Directions at any inner positions.
    fn any_directions(&mut self) -> Case {
        let array = self.array(512, 4);
        let mut case = Case { n: array.rows, m: array.columns, directions: vec![0; LENGTH], ..Case::default() };
        let share = self.pick(&[1, 2, 4, 16]);
        for c in array.inner_cells() {
            if self.one_in(share) {
                case.directions[position(c)] = 1 + self.below(4) as u8;
            }
        }
        case
    }

    pub fn for_plan_file(&mut self) -> Case {
        let mut case = self.any_directions();
        let array = Array { rows: case.n, columns: case.m };
        case.file = self.plan_file(array, reference::plan_records(array, &case.directions));
        case.directions = self.noise(LENGTH).to_vec();
        self.spoil(&mut case, 16, &[Maker::bad_length]);
        case
    }

    /// A buffer for `needed` bytes: mostly about as long, or of any length.
    fn room(&mut self, needed: usize) -> Vec<u8> {
        let length = match self.below(8) {
            0 => self.below(needed + 1),
            1 => needed.saturating_sub(1),
            2 | 3 => needed,
            4 => needed + 1,
            _ => needed + self.below(64),
        };
        self.noise(length).to_vec()
    }

    pub fn for_map_writer(&mut self) -> Case {
        let array = self.array(512, 4);
        let mut case = self.scattered(array);
        if self.one_in(16) {
            self.any_faults(array, &mut case);
        }
        let lists = [FAULTY, DEAD].map(|mark| reference::map_records(array, &case.grid, mark));
        let needed = reference::map_file_of(array, &lists[0], &lists[1]).len();
        case.out = self.room(needed);
        self.spoil(&mut case, 4, &MAP_DAMAGES);
        case
    }

    pub fn for_plan_writer(&mut self) -> Case {
        let mut case = self.any_directions();
        let array = Array { rows: case.n, columns: case.m };
        let trials = self.trials_on_record();
        let needed = reference::plan_file_of(array, &reference::plan_records(array, &case.directions), trials as usize).len();
        case.out = self.room(needed);
        case.trials = if self.one_in(8) { self.pick(&TOO_MANY) } else { trials };
        self.spoil(&mut case, 4, &[Maker::bad_size, Maker::other_size, Maker::bad_length, Maker::bad_direction, Maker::lost_direction]);
        case
    }

    /// A map that is decided soon, except once in very many.
    fn for_listing(&mut self) -> Case {
        if self.one_in(25_000) {
            return self.hard();
        }
        let array = self.array(512, 4);
        let case = if self.one_in(4) { self.planned(array) } else { self.scattered(array) };
        if trials(reference::search_all, &case).is_some() { case } else { self.healthy(array) }
    }

    /// The same for the quick planner.
    fn for_quick_listing(&mut self) -> Case {
        if self.one_in(10_000) {
            return self.hard_closed();
        }
        let case = self.for_settling(512, 4);
        let decided = trials(reference::settle_and_search, &case).is_some();
        if decided { case } else { self.healthy(Array { rows: case.n, columns: case.m }) }
    }

    /// The file of a map, with room for its listing.
    fn with_file(&mut self, planner: Planner, case: Case) -> Case {
        let mut case = self.map_file(case);
        let guess = 24 * (case.n * case.m + 4);
        case.out = match self.below(16) {
            0 => self.room(reference::listing(planner, &case.file).len()),
            1 => self.room(guess / 2),
            _ => self.noise(guess + 64).to_vec(),
        };
        case
    }

    pub fn for_report(&mut self) -> Case {
        let case = self.for_listing();
        self.with_file(reference::search_all, case)
    }

    pub fn for_quick_report(&mut self) -> Case {
        let case = self.for_quick_listing();
        self.with_file(reference::settle_and_search, case)
    }

    pub fn for_exact_report(&mut self) -> Case {
        let case = self.for_exact_plan(2048, 3);
        self.with_file(reference::decide, case)
    }
}

fn inner_faults(case: &Case) -> Vec<usize> {
    let array = Array { rows: case.n, columns: case.m };
    array.inner_cells().map(position).filter(|&p| is_faulty(case.grid[p])).collect()
}

/// Makes the spares faulty to which open outward paths of the outermost of these faults lead, except where a fault's own path,
/// of a plan, goes there. Gives a fault of this kind, if there is one.
fn close_lines(array: Array, case: &mut Case, left: &BTreeSet<Cell>) -> Option<Cell> {
    let mut outward = None;
    for &fault in left {
        for side in DIRECTIONS.into_iter().filter(|&side| is_outermost(fault, side, left)) {
            let path = Path::new(array, fault, side);
            let own = case.directions.get(position(fault)) == Some(&(side as u8));
            if own {
                outward = Some(fault);
            } else if path.is_open(&case.grid) {
                path.cells.last().into_iter().for_each(|&spare| case.grid[position(spare)] = FAULTY);
            }
        }
    }
    outward
}

/// The trials that a map takes, where they are not many.
fn trials(planner: Planner, case: &Case) -> Option<u32> {
    match reference::plan(planner, case.n, case.m, &case.grid, &mut [0; LENGTH], ENOUGH) {
        Ok(Outcome::Repaired(t) | Outcome::Beyond(t)) => Some(t),
        _ => None,
    }
}
