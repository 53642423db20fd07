//! Document 01's worked maps, some with dead processors and some for the quick and the exact planner, and bytes of files, on
//! which the reference itself is tried before it judges the library.

use crate::reference::{self, Cell, Decision, LENGTH, Outcome, Planner, decide, position, search_all, settle_and_search};

/// Size, faults, dead processors, limit, the outcome, and the directions in fault order.
struct Example(usize, usize, &'static [Cell], &'static [Cell], u32, Outcome, &'static str);

const LARGE: u32 = 1_000_000;

/// Faults of a 5 x 9 map that takes the quick planner more trials than the first one.
const DEARER_QUICKLY: [Cell; 10] = [(0, 6), (1, 7), (2, 6), (3, 0), (3, 2), (3, 4), (3, 6), (4, 9), (4, 10), (6, 9)];

const EXAMPLES: [Example; 17] = [
    Example(2, 2, &[], &[], LARGE, Outcome::Repaired(0), ""),
    Example(2, 2, &[(1, 1)], &[], LARGE, Outcome::Repaired(1), "S"),
    Example(2, 2, &[(1, 1), (2, 1)], &[], LARGE, Outcome::Repaired(3), "NS"),
    Example(2, 2, &[(1, 1), (1, 2), (2, 1), (2, 2)], &[], LARGE, Outcome::Repaired(6), "NNSS"),
    Example(2, 2, &[(1, 1), (2, 2), (3, 2)], &[], LARGE, Outcome::Repaired(4), "SE"),
    Example(2, 2, &[(1, 1), (1, 2), (3, 2)], &[], LARGE, Outcome::Repaired(3), "SN"),
    Example(2, 2, &[(0, 1), (1, 0), (1, 1), (1, 3), (2, 0), (2, 2), (2, 3), (3, 2)], &[], LARGE, Outcome::Beyond(8), ""),
    Example(1, 1, &[(0, 1), (1, 1), (1, 2), (2, 1)], &[], LARGE, Outcome::Repaired(4), "W"),
    Example(1, 1, &[(0, 1), (1, 1), (1, 2), (2, 1)], &[], 3, Outcome::Spent(3), ""),
    Example(1, 1, &[(0, 1), (1, 0), (1, 1), (1, 2), (2, 1)], &[], LARGE, Outcome::Beyond(4), ""),
    Example(1, 1, &[], &[(1, 1)], LARGE, Outcome::Repaired(1), "S"),
    Example(2, 2, &[(1, 1)], &[(2, 2)], LARGE, Outcome::Repaired(8), "NN"),
    Example(3, 3, &[], &[(3, 2)], LARGE, Outcome::Repaired(2), "N"),
    Example(3, 3, &[], &[(2, 1)], LARGE, Outcome::Repaired(3), "E"),
    Example(3, 3, &[], &[(2, 3)], LARGE, Outcome::Repaired(4), "W"),
    Example(3, 3, &[], &[(2, 2)], LARGE, Outcome::Beyond(4), ""),
    Example(5, 9, &DEARER_QUICKLY, &[], LARGE, Outcome::Repaired(10), "SWSSSN"),
];

/// The same for the quick planner.
const QUICK_EXAMPLES: [Example; 16] = [
    Example(2, 2, &[], &[], LARGE, Outcome::Repaired(0), ""),
    Example(2, 2, &[(1, 1)], &[], 0, Outcome::Repaired(0), "W"),
    // a settled fault still blocks
    Example(2, 3, &[(1, 1), (1, 2)], &[], LARGE, Outcome::Repaired(0), "WE"),
    Example(2, 2, &[(1, 1), (1, 2), (2, 1), (2, 2)], &[], LARGE, Outcome::Repaired(0), "WEWE"),
    // a closed path in the smallest column does not make the next column count
    Example(3, 3, &[(1, 0), (1, 1), (2, 2)], &[], LARGE, Outcome::Repaired(0), "EE"),
    // after a settling north, west comes first again
    Example(3, 3, &[(1, 0), (1, 1), (2, 2), (2, 4)], &[], LARGE, Outcome::Repaired(0), "NW"),
    // nothing is settled
    Example(3, 3, &[(0, 1), (1, 0), (1, 1), (3, 3), (3, 4), (4, 3)], &[], LARGE, Outcome::Repaired(3), "SN"),
    Example(2, 2, &[(0, 1), (1, 0), (1, 1), (1, 3), (2, 0), (2, 2), (2, 3), (3, 2)], &[], LARGE, Outcome::Beyond(8), ""),
    // the first of three faults is settled
    Example(4, 4, &[(0, 1), (1, 4), (2, 0), (2, 1), (4, 3), (4, 5), (5, 3)], &[], LARGE, Outcome::Repaired(3), "ESN"),
    Example(4, 4, &[(0, 1), (1, 4), (2, 0), (2, 1), (4, 3), (4, 5), (5, 3)], &[], 2, Outcome::Spent(2), ""),
    Example(3, 3, &[], &[(2, 3)], LARGE, Outcome::Repaired(0), "W"),
    Example(3, 3, &[], &[(2, 1)], LARGE, Outcome::Repaired(0), "E"),
    Example(3, 3, &[], &[(2, 2)], LARGE, Outcome::Beyond(4), ""),
    Example(2, 2, &[(1, 1)], &[(2, 2)], LARGE, Outcome::Repaired(0), "WW"),
    // only the first fault is settled, and the trials are more than without the settling
    Example(5, 9, &DEARER_QUICKLY, &[], 68, Outcome::Spent(68), ""),
    Example(5, 9, &DEARER_QUICKLY, &[], 69, Outcome::Repaired(69), "NWSSSN"),
];

const REPAIRED: Outcome = Outcome::Decided(Decision::Repaired);
const BEYOND: Outcome = Outcome::Decided(Decision::Beyond);

/// A 28 x 28 map on which both other planners are spent.
const BOTH_SPENT: [Cell; 23] = [
    (0, 12),
    (1, 12),
    (2, 19),
    (8, 28),
    (8, 29),
    (9, 17),
    (11, 2),
    (12, 24),
    (13, 25),
    (14, 9),
    (16, 4),
    (17, 8),
    (18, 21),
    (20, 5),
    (21, 14),
    (22, 27),
    (23, 18),
    (24, 7),
    (26, 22),
    (27, 0),
    (27, 1),
    (28, 13),
    (29, 13),
];

/// The same for the exact planner, whatever the limit is.
const EXACT_EXAMPLES: [Example; 11] = [
    Example(2, 2, &[], &[], 0, REPAIRED, ""),
    Example(2, 2, &[(1, 1)], &[], 0, REPAIRED, "S"),
    Example(2, 2, &[(1, 1), (1, 2), (2, 1), (2, 2)], &[], 0, REPAIRED, "NNSS"),
    Example(2, 2, &[(0, 1), (1, 0), (1, 1), (1, 3), (2, 0), (2, 2), (2, 3), (3, 2)], &[], 0, BEYOND, ""),
    // dead processors
    Example(2, 2, &[(1, 1)], &[(2, 2)], 0, REPAIRED, "NN"),
    Example(3, 3, &[], &[(2, 2)], 0, BEYOND, ""),
    // one or two of the choices are plans
    Example(2, 2, &[(0, 1), (1, 1), (1, 2), (2, 0), (2, 1), (3, 1)], &[], 0, REPAIRED, "WNE"),
    Example(2, 3, &[(0, 1), (0, 3), (1, 0), (1, 1), (1, 2), (1, 3), (1, 4), (2, 2)], &[], 0, REPAIRED, "SNSS"),
    Example(3, 3, &[(0, 2), (1, 2), (2, 0), (2, 1), (2, 3), (2, 4), (3, 2), (4, 2)], &[], 0, REPAIRED, "ENSW"),
    Example(5, 9, &DEARER_QUICKLY, &[], 0, REPAIRED, "SWSSSN"),
    Example(28, 28, &BOTH_SPENT, &[], 0, REPAIRED, "SNNNSNNSSSNSNNNSNSE"),
];

const FIRST_LISTING: &str = "\
map 2 2 1
repaired 1
path 1 1 S
cell 1 1 2 1
cell 1 2 1 2
cell 2 1 3 1
cell 2 2 2 2
across bcdbcdbd
down bbbbbbbb
";

const QUICK_LISTING: &str = "\
map 2 2 1
repaired 0
path 1 1 W
cell 1 1 1 0
cell 1 2 1 2
cell 2 1 2 1
cell 2 2 2 2
across bbbbbbbb
down dbccbbbb
";

impl Example {
    fn file(&self) -> Vec<u8> {
        let [faults, dead] = [self.2, self.3].map(|list| list.iter().map(|&(x, y)| [x, y]).collect::<Vec<[usize; 2]>>());
        reference::map_file_of(reference::Array { rows: self.0, columns: self.1 }, &faults, &dead)
    }

    fn holds(&self, planner: Planner) -> bool {
        let (mut grid, mut directions) = ([0; LENGTH], [9; LENGTH]);
        if reference::read_map(&self.file(), &mut grid).is_err() {
            return false;
        }
        let outcome = reference::plan(planner, self.0, self.1, &grid, &mut directions, self.4);
        let letters: String = directions.iter().filter(|d| **d != 0).map(|d| ['S', 'N', 'E', 'W'][*d as usize - 1]).collect();
        outcome == Ok(self.5) && letters == self.6
    }
}

/// The exact planner's listings are without the number of trials.
fn exact_listings_hold() -> bool {
    reference::listing(decide, &[2, 2, 1, 1, 1]) == FIRST_LISTING.replace("repaired 1\n", "repaired\n")
        && reference::listing(decide, &[3, 3, 0, 1, 2, 2]) == "map 3 3 1\nbeyond\n"
}

/// The across letters of the map that the sixth example plans.
fn letters_hold() -> bool {
    let listing = reference::listing(search_all, &EXAMPLES[5].file());
    listing.contains("\nacross dcaccdbd\n")
}

fn refusals_hold() -> bool {
    let mut grid = [0; LENGTH];
    let mut told = |file: &[u8]| reference::read_map(file, &mut grid).map_err(|e| (e.number, e.place)).err();
    let numbers =
        told(&[0x82, 0]) == Some((9, 0)) && told(&[]) == Some((8, 0)) && told(&[31]) == Some((1, 0)) && told(&[30, 0]) == Some((1, 1));
    let order = told(&[2, 2, 2, 2, 1, 1, 1]) == Some((19, 5)) && told(&[2, 2, 3, 1, 1, 2, 1, 1, 1]) == Some((11, 7));
    let dead = told(&[2, 2, 0, 1, 0, 1]) == Some((20, 4)) && told(&[2, 2, 1, 1, 1, 1, 1, 1]) == Some((11, 6));
    let second = told(&[2, 2, 0, 0]) == Some((12, 3)) && told(&[2, 2, 0, 128]) == Some((8, 4));
    let dead_order = told(&[2, 2, 0, 2, 2, 1, 1, 1]) == Some((19, 6)) && told(&[2, 2, 1, 2, 2, 1, 1, 1]).is_none();
    let count = told(&[2, 2, 0xFF, 0xFF, 0x7F, 1, 1]) == Some((8, 7)) && told(&[2, 2, 0x81, 0x80, 0, 1, 1]) == Some((9, 2));
    numbers && order && dead && second && dead_order && count
}

/// Numbers of one to three bytes, their edges, and bytes of no number.
fn numbers_hold() -> bool {
    let told = |file: &[u8], at: usize| reference::read_number(file, at).map_err(|e| (e.number, e.place));
    let edges = told(&[127], 0) == Ok((127, 1))
        && told(&[9, 0x80, 1], 1) == Ok((128, 3))
        && told(&[0xFF, 0x7F], 0) == Ok((16_383, 2))
        && told(&[0x80, 0x80, 1], 0) == Ok((16_384, 3))
        && told(&[0xFF, 0xFF, 0x7F], 0) == Ok((2_097_151, 3));
    let cut = told(&[5, 0x80], 1) == Err((8, 2)) && told(&[0x80, 0x80], 0) == Err((8, 2)) && told(&[5], 2) == Err((8, 1));
    let wrong = [[0x80, 0, 5], [0x80, 0x80, 0], [0xFF, 0x80, 0], [0x80, 0x80, 0x80]].map(|file| told(&file, 0));
    edges && cut && wrong == [Err((9, 0)); 4]
}

/// T at the end of a plan file, read and written.
fn trials_hold() -> bool {
    let mut directions = [9; LENGTH];
    let mut read = |file: &[u8]| reference::read_plan(file, &mut directions).map(|(_, trials)| trials).map_err(|e| (e.number, e.place));
    let ends = read(&[2, 2, 1, 1, 1, 1, 0xAC, 2]) == Ok(300)
        && read(&[2, 2, 1, 1, 1, 1]) == Err((8, 6))
        && read(&[2, 2, 1, 1, 1, 1, 0x80, 0x80]) == Err((8, 8))
        && read(&[2, 2, 1, 1, 1, 1, 0x80, 0]) == Err((9, 6))
        && read(&[2, 2, 1, 1, 1, 1, 0, 0]) == Err((12, 7));
    let mut plan = [0; LENGTH];
    plan[33] = 1;
    let mut out = [7; 9];
    let mut write = |plan: &[u8], trials: u32, room: usize| {
        let written = reference::write_plan(2, 2, plan, trials, &mut out[..room]);
        written.map(|length| out[..length].to_vec()).map_err(|e| (e.number, e.place))
    };
    let bytes = write(&plan, 2_097_151, 9) == Ok(vec![2, 2, 1, 1, 1, 1, 0xFF, 0xFF, 0x7F]);
    let order = write(&plan, 2_097_152, 0) == Err((21, 0)) && write(&plan, 2_097_151, 8) == Err((14, 9));
    plan[34] = 5;
    ends && bytes && order && write(&plan, 2_097_152, 0) == Err((4, 34))
}

/// A list of reports to a 2 x 2 session without faults: fails or recovers, where, and the answer (the direction, or the refusal and its place),
/// then the counters of the inner processors in row order, south, north, east and west of each. Each is previewed before it is made.
fn reports_hold() -> bool {
    let reports: [(bool, Cell, Result<u8, (u32, usize)>); 14] = [
        (true, (1, 1), Ok(1)),
        (true, (1, 1), Err((22, 33))),
        (true, (2, 1), Err((23, 65))),
        (true, (3, 1), Err((23, 97))),
        (true, (2, 2), Ok(1)),
        (true, (1, 3), Ok(0)),
        (true, (0, 2), Ok(0)),
        (true, (1, 2), Err((24, 34))),
        (false, (1, 3), Ok(0)),
        (true, (1, 2), Ok(3)),
        (false, (1, 1), Ok(1)),
        (false, (1, 1), Err((22, 33))),
        (true, (0, 0), Err((15, 0))),
        (true, (4, 1), Err((15, 0))),
    ];
    let mut grid = [0; LENGTH];
    let map = reference::read_map(&[2, 2, 0], &mut grid);
    let Ok(mut session) = reference::start_session(2, 2, &grid, &[0; LENGTH]) else {
        return false;
    };
    let answered = reports.iter().all(|&(failing, place, wanted)| {
        let seen = reference::preview_processor(&session, failing, position(place));
        let answer = reference::report_processor(&mut session, failing, position(place));
        let seen_answer = seen.as_ref().map(|seen| seen.direction).map_err(|e| (e.number, e.place));
        answer.map(|change| change.direction).map_err(|e| (e.number, e.place)) == wanted
            && seen_answer == wanted.map(|direction| if failing { direction } else { 0 })
            && seen.is_ok_and(|seen| seen.counters == session.counters) == wanted.is_ok()
    });
    let counters = [33, 34, 65, 66].map(|p| [0, 1, 2, 3].map(|d: usize| session.counters[d][p]));
    map.is_ok() && answered && counters == [[0, 0, 1, 0], [1, 0, 0, 0], [0, 0, 1, 0], [0, 1, 0, 0]]
}

/// What does not hold, if anything.
pub fn failing() -> Option<String> {
    let failed = EXAMPLES.iter().position(|e| !e.holds(search_all)).map(|i| format!("example {i}"));
    let quick = QUICK_EXAMPLES.iter().position(|e| !e.holds(settle_and_search)).map(|i| format!("example {i} of the quick planner"));
    let exact = EXACT_EXAMPLES.iter().position(|e| !e.holds(decide)).map(|i| format!("example {i} of the exact planner"));
    failed
        .or(quick)
        .or(exact)
        .or((reference::listing(search_all, &[2, 2, 1, 1, 1]) != FIRST_LISTING).then(|| "the first listing".to_string()))
        .or((reference::listing(settle_and_search, &[2, 2, 1, 1, 1]) != QUICK_LISTING).then(|| "the quick listing".to_string()))
        .or((!exact_listings_hold()).then(|| "the listings of the exact planner".to_string()))
        .or((!letters_hold()).then(|| "the across letters".to_string()))
        .or((!refusals_hold()).then(|| "the refusals".to_string()))
        .or((!numbers_hold()).then(|| "the numbers of files".to_string()))
        .or((!trials_hold()).then(|| "the trials on record".to_string()))
        .or((!reports_hold()).then(|| "the reports to a session".to_string()))
        .or((position((3, 2)) != 98).then(|| "positions".to_string()))
}
