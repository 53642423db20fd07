//! Chantspruce for Rust: the proved repair planner behind functions that are safe to call with slices of any length and numbers of any value.
//!
//! To use it, prove and build the library, which writes `target/staticlib/libcapi.a`, and make a crate of this file that holds the library:
//!
//! ```text
//! tests/archive
//! rustc -O --edition 2024 --crate-type rlib -L native=target/staticlib --out-dir target rust/chantspruce.rs
//! ```
//!
//! A program is then built with `--extern chantspruce=target/libchantspruce.rlib`; `examples/plan.rs` is one. The file needs only `core` and can
//! be a module of another crate instead, which is then built with `-L native=target/staticlib`.
//!
//! Every buffer except file bytes, listings and lists of faults has [`BUFFER`] elements, indexed by position: 32 times the row, plus the column.
//! An accepted call returns `Ok` and fills the buffers lent to it. A refused one returns a [`Refusal`] and leaves them as they were. No function panics.
//! A [`Session`] keeps a plan up to date while processors fail and recover, one report at a time, and tells beforehand what a report would do.
//! In the library a call takes less than 64 KiB of stack; a thread with 128 KiB was enough for those that take most, without optimisation too
//! (measured, not proved).
//!
//! ```
//! use chantspruce::{BUFFER, Outcome, Refusal, direction, plan_repair, read_map};
//!
//! fn main() -> Result<(), Refusal> {
//!     let (mut grid, mut directions) = ([0; BUFFER], [0; BUFFER]);
//!     let head = read_map(&[2, 2, 1, 1, 1], &mut grid)?;
//!     let outcome = plan_repair(head.rows, head.columns, &grid, &mut directions, 1_000_000)?;
//!     assert_eq!(outcome, Outcome::Repaired(1));
//!     assert_eq!(directions[32 * 1 + 1], direction::SOUTH);
//!     Ok(())
//! }
//! ```

use core::fmt;

/// How many elements a buffer has that is indexed by position.
pub const BUFFER: usize = 1024;

/// Room for every map file.
pub const MAP_ROOM: usize = 2046;

/// Room for every plan file.
pub const PLAN_ROOM: usize = 2707;

/// Room for every listing.
pub const LISTING_ROOM: usize = 32768;

/// The bytes of a grid.
pub mod mark {
    /// A healthy processor.
    pub const HEALTHY: u8 = 0;
    /// A faulty processor, which conducts if it is inside the array.
    pub const FAULTY: u8 = 1;
    /// No processor: the corners, and all positions outside the array.
    pub const NONE: u8 = 2;
    /// A dead processor: a faulty one inside the array that conducts nothing.
    pub const DEAD: u8 = 3;
}

/// The bytes of a direction buffer.
pub mod direction {
    /// No path starts here.
    pub const NONE: u8 = 0;
    /// To the spare below.
    pub const SOUTH: u8 = 1;
    /// To the spare above.
    pub const NORTH: u8 = 2;
    /// To the spare on the right.
    pub const EAST: u8 = 3;
    /// To the spare on the left.
    pub const WEST: u8 = 4;
}

/// The sides of a cell that a link can leave by.
pub mod side {
    /// Towards the right neighbour.
    pub const EAST: usize = 0;
    /// Towards the lower neighbour.
    pub const SOUTH: usize = 1;
}

/// Why a call is refused, with the number of the refusal.
#[derive(Clone, Copy, Debug, PartialEq, Eq)]
pub enum Reason {
    /// The array's rows or columns are not 1 to 30.
    Size = 1,
    /// A buffer does not have [`BUFFER`] elements.
    BufferLength = 2,
    /// A grid byte does not fit its position.
    Mark = 3,
    /// A direction byte does not fit its position.
    Direction = 4,
    /// There is another fault on a path, or it starts at a dead processor that a link would run through.
    NotOpen = 5,
    /// Two paths have a processor in common.
    Meeting = 6,
    /// Two paths are a near-miss.
    NearMiss = 7,
    /// The file stops where a number should go on or begin, such as a plan file without its trials.
    FileEnds = 8,
    /// A number of the file has a third byte with its top bit set, or could be written shorter.
    NumberForm = 9,
    /// A record names a place where no fault or path start can be.
    RecordPlace = 10,
    /// A record names the place of an earlier one.
    Repeated = 11,
    /// The file goes on after its last record, or a plan file after its trials, or its second count is 0.
    Trailing = 12,
    /// A record of a plan file has no direction from 1 to 4.
    RecordDirection = 13,
    /// The bytes to be written do not fit; the place is their number.
    Room = 14,
    /// The array has no such cell, or a cell no such side, or the array has no processor at a reported position.
    NoSuchLink = 15,
    /// A switch byte does not fit its position.
    SwitchByte = 16,
    /// The link comes to an end of the track.
    TrackEnds = 17,
    /// The link leads to a fourth switch.
    FourthSwitch = 18,
    /// A record of a file has a lower position than the record before it in its list.
    RecordOrder = 19,
    /// A record names a place for a dead processor that is not inside the array, such as a spare's.
    DeadPlace = 20,
    /// The trials to be written are more than 2,097,151, the highest number of a file.
    Trials = 21,
    /// A processor is reported as failing that is faulty already, or as recovering that is healthy.
    NothingNew = 22,
    /// A processor is reported as failing that lies on a path of the plan, or as recovering that is dead.
    InUseOrDead = 23,
    /// A processor inside the array is reported as failing, and each of its paths is closed or has a counter that is not 0.
    NoDirection = 24,
    /// An answer that the interface does not have. The library gives none.
    Unknown = 0,
}

/// The reasons in the order of their numbers, which begin with 1.
const REASONS: [Reason; 24] = [
    Reason::Size,
    Reason::BufferLength,
    Reason::Mark,
    Reason::Direction,
    Reason::NotOpen,
    Reason::Meeting,
    Reason::NearMiss,
    Reason::FileEnds,
    Reason::NumberForm,
    Reason::RecordPlace,
    Reason::Repeated,
    Reason::Trailing,
    Reason::RecordDirection,
    Reason::Room,
    Reason::NoSuchLink,
    Reason::SwitchByte,
    Reason::TrackEnds,
    Reason::FourthSwitch,
    Reason::RecordOrder,
    Reason::DeadPlace,
    Reason::Trials,
    Reason::NothingNew,
    Reason::InUseOrDead,
    Reason::NoDirection,
];

impl Reason {
    fn of(number: u32) -> Reason {
        let index = (number as usize).wrapping_sub(1);
        REASONS.get(index).copied().unwrap_or(Reason::Unknown)
    }

    /// The number of the refusal, today 1 to 24; 0 for [`Reason::Unknown`].
    pub fn number(self) -> u32 {
        self as u32
    }
}

/// A refused call: why, and where.
#[derive(Clone, Copy, Debug, PartialEq, Eq)]
pub struct Refusal {
    /// Why.
    pub reason: Reason,
    /// A position, an offset in a file, or a length; 0 where there is none.
    pub place: usize,
    /// The start of the second path, for a meeting or a near-miss; else 0.
    pub second: usize,
}

impl Refusal {
    /// The number of the refusal, as [`Reason::number`] gives it.
    pub fn number(&self) -> u32 {
        self.reason.number()
    }
}

impl fmt::Display for Refusal {
    fn fmt(&self, f: &mut fmt::Formatter<'_>) -> fmt::Result {
        write!(f, "refused with {} ({:?}), place {}, second place {}", self.number(), self.reason, self.place, self.second)
    }
}

impl core::error::Error for Refusal {}

/// What a planner found within a limit of trials.
#[derive(Clone, Copy, Debug, PartialEq, Eq)]
pub enum Outcome {
    /// There is a plan, and this many trials found it.
    Repaired(u32),
    /// There is no plan, and this many trials showed it.
    Beyond(u32),
    /// The map needs more trials than this limit.
    Spent(u32),
}

/// What the exact planner found: it is never spent, and counts no trials.
#[derive(Clone, Copy, Debug, PartialEq, Eq)]
pub enum Decision {
    /// There is a plan.
    Repaired,
    /// There is no plan.
    Beyond,
}

/// What a whole run found. With the exact planner it is a `Run<Decision>`.
#[derive(Clone, Copy, Debug, PartialEq, Eq)]
pub struct Run<T = Outcome> {
    /// What the planner found.
    pub outcome: T,
    /// How many links were found to reach their neighbour: all there are after `Repaired`, and 0 otherwise.
    pub links: usize,
}

/// A port of a processor.
#[derive(Clone, Copy, Debug, PartialEq, Eq)]
pub enum Port {
    /// On the left.
    West,
    /// On the right.
    East,
    /// Above.
    North,
    /// Below.
    South,
}

/// Where a link ends.
#[derive(Clone, Copy, Debug, PartialEq, Eq)]
pub struct Link {
    /// The position of the processor that it enters.
    pub position: usize,
    /// The port that it enters by.
    pub port: Port,
    /// How many switches it passes.
    pub switches: u32,
}

/// A number that was read from a file.
#[derive(Clone, Copy, Debug, PartialEq, Eq)]
pub struct Number {
    /// Its value: 0 to 2,097,151.
    pub value: u32,
    /// The offset after it.
    pub next: usize,
}

/// Size and count of a map file.
#[derive(Clone, Copy, Debug, PartialEq, Eq)]
pub struct Head {
    /// The array's rows of cells.
    pub rows: usize,
    /// The array's columns of cells.
    pub columns: usize,
    /// The number of records in both lists.
    pub count: usize,
}

/// Size, count and trials of a plan file.
#[derive(Clone, Copy, Debug, PartialEq, Eq)]
pub struct PlanHead {
    /// The array's rows of cells.
    pub rows: usize,
    /// The array's columns of cells.
    pub columns: usize,
    /// The number of paths.
    pub count: usize,
    /// The trials on record.
    pub trials: u32,
}

/// An inner fault and the direction of its path.
#[repr(C)]
#[derive(Clone, Copy, Debug, PartialEq, Eq)]
pub struct Fault {
    /// The position of the fault.
    pub position: usize,
    /// One of [`direction`].
    pub direction: u8,
}

/// A map with a plan for it, kept up to date by reports, and four counters for each inner processor, by direction: how many paths of the plan
/// that start at other processors meet or nearly miss a path from there. After any reports to a session that [`Session::start`] gave, its
/// directions are a plan for its grid and its counters are right.
///
/// The fields may hold anything: each report and each preview tests size, grid and directions first. Counters are taken as they stand; they stop at
/// 0 and 255.
#[repr(C)]
#[derive(Clone, Debug, PartialEq, Eq)]
pub struct Session {
    /// The array's rows of cells.
    pub rows: usize,
    /// The array's columns of cells.
    pub columns: usize,
    /// The map, see [`mark`].
    pub grid: [u8; BUFFER],
    /// The plan, see [`direction`].
    pub directions: [u8; BUFFER],
    /// The counters of paths south.
    pub south: [u8; BUFFER],
    /// The counters of paths north.
    pub north: [u8; BUFFER],
    /// The counters of paths east.
    pub east: [u8; BUFFER],
    /// The counters of paths west.
    pub west: [u8; BUFFER],
}

/// What a report to a session would leave.
#[derive(Clone, Debug, PartialEq, Eq)]
pub struct Preview {
    /// The direction that the processor would have, see [`direction`]; 0 for a spare and for a recovery.
    pub direction: u8,
    /// The counters of paths south, as they would be.
    pub south: [u8; BUFFER],
    /// The counters of paths north.
    pub north: [u8; BUFFER],
    /// The counters of paths east.
    pub east: [u8; BUFFER],
    /// The counters of paths west.
    pub west: [u8; BUFFER],
}

impl Session {
    /// A session from the plan in `directions`, with every counter made afresh. Refusals: 1 to 7.
    pub fn start(n: usize, m: usize, grid: &[u8], directions: &[u8]) -> Result<Session, Refusal> {
        flat::start_session(n, m, grid, directions).answer()
    }

    /// Reports that the processor at `position` fails. An inner one gets a path, in the first of the directions south, north, east and west that
    /// is open and has counter 0; a spare is only marked. Refusals: 1 to 7, 15 and 22 to 24; then the session is as it was.
    pub fn fail(&mut self, position: usize) -> Result<(), Refusal> {
        flat::report_processor(self, true, position).answer()
    }

    /// Reports that the processor at `position` recovers: it is healthy again, and its path goes, if it has one. Refusals: 1 to 7, 15, 22 and
    /// 23; then the session is as it was.
    pub fn recover(&mut self, position: usize) -> Result<(), Refusal> {
        flat::report_processor(self, false, position).answer()
    }

    /// What [`Session::fail`] would do: the direction that the processor at `position` would get, and all counters as they would be. The session
    /// stays as it is, and a failure that is reported next leaves exactly this. Refusals: those of the report, with the same places.
    pub fn preview_failure(&self, position: usize) -> Result<Preview, Refusal> {
        flat::preview_processor(self, true, position).answer()
    }

    /// What [`Session::recover`] would do: all counters as they would be; the direction is 0. The session stays as it is, and a recovery that is
    /// reported next leaves exactly this. Refusals: those of the report, with the same places.
    pub fn preview_recovery(&self, position: usize) -> Result<Preview, Refusal> {
        flat::preview_processor(self, false, position).answer()
    }
}

/// Whether `directions` holds a plan for the map of `n` rows, `m` columns and `grid`; refused with the first test that fails (1 to 7).
pub fn check_plan(n: usize, m: usize, grid: &[u8], directions: &[u8]) -> Result<(), Refusal> {
    flat::check_plan(n, m, grid, directions).answer()
}

/// Whether `faults` are the inner faults of the map in row order, each with its direction in a plan; refused with the first test that fails (1
/// to 7). The list may have any length.
pub fn check_fault_list(n: usize, m: usize, grid: &[u8], faults: &[Fault]) -> Result<(), Refusal> {
    flat::check_fault_list(n, m, grid, faults).answer()
}

/// Looks for a plan with at most `limit` trials, and fills `directions`: with the plan after `Repaired`, with 0 otherwise. Refusals: 1 to 3.
pub fn plan_repair(n: usize, m: usize, grid: &[u8], directions: &mut [u8], limit: u32) -> Result<Outcome, Refusal> {
    flat::plan_repair(n, m, grid, directions, limit).outcome()
}

/// The same by the quick planner. It settles outer faults first, each with its path straight outward, and tries
/// directions only for the others; only these trials are counted, and they are usually few. Where neither of the two is
/// spent, both say `Beyond` of the same maps; each may decide a map on which the other is spent. The plan may be another
/// one than that of [`plan_repair`].
pub fn plan_quickly(n: usize, m: usize, grid: &[u8], directions: &mut [u8], limit: u32) -> Result<Outcome, Refusal> {
    flat::plan_quickly(n, m, grid, directions, limit).outcome()
}

/// The same by the exact planner, which takes no limit and decides every map. The plan is the first of all plans; where
/// [`plan_repair`] is not spent, both say the same and leave the same bytes in `directions`. Refusals: 1 to 3.
pub fn plan_exactly(n: usize, m: usize, grid: &[u8], directions: &mut [u8]) -> Result<Decision, Refusal> {
    flat::plan_exactly(n, m, grid, directions).decision()
}

/// Fills `places`: at the position of each cell the position of the processor that holds it, 0 elsewhere. Refusals: 1 to 7.
pub fn place_cells(n: usize, m: usize, grid: &[u8], directions: &[u8], places: &mut [u16]) -> Result<(), Refusal> {
    flat::place_cells(n, m, grid, directions, places).answer()
}

/// Fills both switch buffers with the letters `a` to `d` of the plan in `directions`, and 0 where no switch is. Refusals: 1 to 7.
pub fn route_switches(n: usize, m: usize, grid: &[u8], directions: &[u8], across: &mut [u8], down: &mut [u8]) -> Result<(), Refusal> {
    flat::route_switches(n, m, grid, directions, across, down).answer()
}

/// Follows the link that leaves `cell` (the position 32i + j of cell \[i, j\]) by `side` (see [`side`]). Refusals: 1 to 7 and 15 to 18.
#[allow(clippy::too_many_arguments)]
pub fn follow_link(
    n: usize,
    m: usize,
    grid: &[u8],
    directions: &[u8],
    across: &[u8],
    down: &[u8],
    cell: usize,
    side: usize,
) -> Result<Link, Refusal> {
    flat::follow_link(n, m, grid, directions, across, down, cell, side).answer()
}

/// Plans, and after `Repaired` places, routes and follows every link to a neighbour. After any other outcome `directions` holds 0, and
/// the other buffers are as they were. Refusals: 1 to 3.
#[allow(clippy::too_many_arguments)]
pub fn repair_run(
    n: usize,
    m: usize,
    grid: &[u8],
    limit: u32,
    directions: &mut [u8],
    places: &mut [u16],
    across: &mut [u8],
    down: &mut [u8],
) -> Result<Run, Refusal> {
    flat::repair_run(n, m, grid, limit, directions, places, across, down).run()
}

/// The same with the quick planner, as [`plan_quickly`] plans.
#[allow(clippy::too_many_arguments)]
pub fn run_quickly(
    n: usize,
    m: usize,
    grid: &[u8],
    limit: u32,
    directions: &mut [u8],
    places: &mut [u16],
    across: &mut [u8],
    down: &mut [u8],
) -> Result<Run, Refusal> {
    flat::run_quickly(n, m, grid, limit, directions, places, across, down).run()
}

/// The same with the exact planner, as [`plan_exactly`] plans.
#[allow(clippy::too_many_arguments)]
pub fn run_exactly(
    n: usize,
    m: usize,
    grid: &[u8],
    directions: &mut [u8],
    places: &mut [u16],
    across: &mut [u8],
    down: &mut [u8],
) -> Result<Run<Decision>, Refusal> {
    flat::run_exactly(n, m, grid, directions, places, across, down).decided_run()
}

/// Reads the number at the offset `at` of `file`. Refusals: 8 and 9.
pub fn read_number(file: &[u8], at: usize) -> Result<Number, Refusal> {
    flat::read_number(file, at).answer()
}

/// Reads a map file and fills `grid`. A file that is read is byte for byte what [`write_map`] writes of it again. Refusals: 1, 2, 8 to 12,
/// 19 and 20.
pub fn read_map(file: &[u8], grid: &mut [u8]) -> Result<Head, Refusal> {
    flat::read_map(file, grid).answer()
}

/// Reads a plan file and fills `directions`. A file that is read is byte for byte what [`write_plan`] writes of it again,
/// with the same trials. Refusals: 1, 2, 8 to 13 and 19.
pub fn read_plan(file: &[u8], directions: &mut [u8]) -> Result<PlanHead, Refusal> {
    flat::read_plan(file, directions).answer()
}

/// Writes a map file to the front of `out` (see [`MAP_ROOM`]) and returns its length. Refusals: 1 to 3 and 14.
pub fn write_map(n: usize, m: usize, grid: &[u8], out: &mut [u8]) -> Result<usize, Refusal> {
    flat::write_map(n, m, grid, out).answer()
}

/// Writes a plan file, with `trials` on record, to the front of `out` (see [`PLAN_ROOM`]) and returns its length. Refusals:
/// 1, 2, 4, 21 and 14, in this order.
pub fn write_plan(n: usize, m: usize, directions: &[u8], trials: u32, out: &mut [u8]) -> Result<usize, Refusal> {
    flat::write_plan(n, m, directions, trials, out).answer()
}

/// Writes the listing of a map file to the front of `out` (see [`LISTING_ROOM`]) and returns its length. A file that is no map has a listing
/// too, so that the only refusal is 14.
pub fn report(file: &[u8], out: &mut [u8]) -> Result<usize, Refusal> {
    flat::report(file, out).answer()
}

/// The same with the quick planner, as [`plan_quickly`] plans.
pub fn report_quickly(file: &[u8], out: &mut [u8]) -> Result<usize, Refusal> {
    flat::report_quickly(file, out).answer()
}

/// The same with the exact planner, as [`plan_exactly`] plans; no number follows `repaired` or `beyond`.
pub fn report_exactly(file: &[u8], out: &mut [u8]) -> Result<usize, Refusal> {
    flat::report_exactly(file, out).answer()
}

/// The functions by the library's own names and with its own structs, as include/chantspruce.h declares them for C. A struct's `number` is 0
/// for an accepted call and else the number of the refusal; the fields after `second` are 0 for a refused one.
#[allow(clippy::too_many_arguments)]
pub mod flat {
    use super::{BUFFER, Decision, Fault, Head, Link, Number, Outcome, PlanHead, Port, Preview, Reason, Refusal, Run, Session};

    /// Of the plan checks, placement, routing and reports to a session.
    #[repr(C)]
    #[derive(Clone, Copy, Debug, PartialEq, Eq)]
    pub struct Verdict {
        pub number: u32,
        pub place: usize,
        pub second: usize,
    }

    /// Of the planners and the runs. `outcome` is 1 repaired, 2 beyond repair, 3 spent; `count` the trials, or the limit
    /// for spent. The exact planner is never spent, and its `count` is 0.
    #[repr(C)]
    #[derive(Clone, Copy, Debug, PartialEq, Eq)]
    pub struct Planned {
        pub number: u32,
        pub place: usize,
        pub second: usize,
        pub outcome: u32,
        pub count: u32,
        pub links: usize,
    }

    /// Of the follower. `port` is 0 west, 1 east, 2 north, 3 south.
    #[repr(C)]
    #[derive(Clone, Copy, Debug, PartialEq, Eq)]
    pub struct Followed {
        pub number: u32,
        pub place: usize,
        pub second: usize,
        pub position: usize,
        pub port: u32,
        pub switches: u32,
    }

    /// Of the number reader.
    #[repr(C)]
    #[derive(Clone, Copy, Debug, PartialEq, Eq)]
    pub struct NumberRead {
        pub number: u32,
        pub place: usize,
        pub second: usize,
        pub value: u32,
        pub next: usize,
    }

    /// Of the start of a session, which is all 0 where it is refused.
    #[repr(C)]
    #[derive(Clone, Debug, PartialEq, Eq)]
    pub struct Started {
        pub number: u32,
        pub place: usize,
        pub second: usize,
        pub session: Session,
    }

    /// Of the preview of a report: all counters as they would be, and the direction that the processor would have; all 0 where it is refused.
    #[repr(C)]
    #[derive(Clone, Debug, PartialEq, Eq)]
    pub struct Previewed {
        pub number: u32,
        pub place: usize,
        pub second: usize,
        pub direction: u32,
        pub south: [u8; BUFFER],
        pub north: [u8; BUFFER],
        pub east: [u8; BUFFER],
        pub west: [u8; BUFFER],
    }

    /// Of the map reader.
    #[repr(C)]
    #[derive(Clone, Copy, Debug, PartialEq, Eq)]
    pub struct MapRead {
        pub number: u32,
        pub place: usize,
        pub second: usize,
        pub rows: usize,
        pub columns: usize,
        pub count: usize,
    }

    /// Of the plan reader.
    #[repr(C)]
    #[derive(Clone, Copy, Debug, PartialEq, Eq)]
    pub struct PlanRead {
        pub number: u32,
        pub place: usize,
        pub second: usize,
        pub rows: usize,
        pub columns: usize,
        pub count: usize,
        pub trials: u32,
    }

    /// Of the file writers and the listings.
    #[repr(C)]
    #[derive(Clone, Copy, Debug, PartialEq, Eq)]
    pub struct Written {
        pub number: u32,
        pub place: usize,
        pub second: usize,
        pub length: usize,
    }

    /// The value of an accepted call, or the refusal that the first three fields of a struct tell.
    fn answer<T>(number: u32, place: usize, second: usize, value: Option<T>) -> Result<T, Refusal> {
        match (number, value) {
            (0, Some(value)) => Ok(value),
            _ => Err(Refusal { reason: Reason::of(number), place, second }),
        }
    }

    impl Verdict {
        /// The answer as a `Result`, as in the structs below.
        pub fn answer(self) -> Result<(), Refusal> {
            answer(self.number, self.place, self.second, Some(()))
        }
    }

    impl Started {
        pub fn answer(self) -> Result<Session, Refusal> {
            answer(self.number, self.place, self.second, Some(self.session))
        }
    }

    impl Previewed {
        pub fn answer(self) -> Result<Preview, Refusal> {
            let Previewed { south, north, east, west, .. } = self;
            let direction = u8::try_from(self.direction).ok();
            let preview = direction.map(|direction| Preview { direction, south, north, east, west });
            answer(self.number, self.place, self.second, preview)
        }
    }

    impl Planned {
        /// A planner's answer.
        pub fn outcome(self) -> Result<Outcome, Refusal> {
            let outcome = match self.outcome {
                1 => Some(Outcome::Repaired(self.count)),
                2 => Some(Outcome::Beyond(self.count)),
                3 => Some(Outcome::Spent(self.count)),
                _ => None,
            };
            answer(self.number, self.place, self.second, outcome)
        }

        /// A run's answer.
        pub fn run(self) -> Result<Run, Refusal> {
            self.outcome().map(|outcome| Run { outcome, links: self.links })
        }

        /// The exact planner's answer, of its own functions only.
        pub fn decision(self) -> Result<Decision, Refusal> {
            let decision = match self.outcome {
                1 => Some(Decision::Repaired),
                2 => Some(Decision::Beyond),
                _ => None,
            };
            answer(self.number, self.place, self.second, decision)
        }

        /// The answer of a run with the exact planner, of that function only.
        pub fn decided_run(self) -> Result<Run<Decision>, Refusal> {
            self.decision().map(|outcome| Run { outcome, links: self.links })
        }
    }

    impl Followed {
        pub fn answer(self) -> Result<Link, Refusal> {
            let port = match self.port {
                0 => Some(Port::West),
                1 => Some(Port::East),
                2 => Some(Port::North),
                3 => Some(Port::South),
                _ => None,
            };
            let link = port.map(|port| Link { position: self.position, port, switches: self.switches });
            answer(self.number, self.place, self.second, link)
        }
    }

    impl NumberRead {
        pub fn answer(self) -> Result<Number, Refusal> {
            let value = Number { value: self.value, next: self.next };
            answer(self.number, self.place, self.second, Some(value))
        }
    }

    impl MapRead {
        pub fn answer(self) -> Result<Head, Refusal> {
            let head = Head { rows: self.rows, columns: self.columns, count: self.count };
            answer(self.number, self.place, self.second, Some(head))
        }
    }

    impl PlanRead {
        pub fn answer(self) -> Result<PlanHead, Refusal> {
            let head = PlanHead { rows: self.rows, columns: self.columns, count: self.count, trials: self.trials };
            answer(self.number, self.place, self.second, Some(head))
        }
    }

    impl Written {
        pub fn answer(self) -> Result<usize, Refusal> {
            answer(self.number, self.place, self.second, Some(self.length))
        }
    }

    // A slice is a pointer, then its length in elements.
    type Bytes = *const u8;
    type BytesMut = *mut u8;
    type WordsMut = *mut u16;

    #[link(name = "capi", kind = "static")]
    unsafe extern "C" {
        fn chantspruce_check_plan(n: usize, m: usize, grid: Bytes, grid_len: usize, directions: Bytes, directions_len: usize) -> Verdict;
        fn chantspruce_check_fault_list(
            n: usize,
            m: usize,
            grid: Bytes,
            grid_len: usize,
            faults: *const Fault,
            faults_len: usize,
        ) -> Verdict;
        fn chantspruce_plan_repair(
            n: usize,
            m: usize,
            grid: Bytes,
            grid_len: usize,
            directions: BytesMut,
            directions_len: usize,
            limit: u32,
        ) -> Planned;
        fn chantspruce_plan_quickly(
            n: usize,
            m: usize,
            grid: Bytes,
            grid_len: usize,
            directions: BytesMut,
            directions_len: usize,
            limit: u32,
        ) -> Planned;
        fn chantspruce_plan_exactly(
            n: usize,
            m: usize,
            grid: Bytes,
            grid_len: usize,
            directions: BytesMut,
            directions_len: usize,
        ) -> Planned;
        fn chantspruce_place_cells(
            n: usize,
            m: usize,
            grid: Bytes,
            grid_len: usize,
            directions: Bytes,
            directions_len: usize,
            places: WordsMut,
            places_len: usize,
        ) -> Verdict;
        fn chantspruce_route_switches(
            n: usize,
            m: usize,
            grid: Bytes,
            grid_len: usize,
            directions: Bytes,
            directions_len: usize,
            across: BytesMut,
            across_len: usize,
            down: BytesMut,
            down_len: usize,
        ) -> Verdict;
        fn chantspruce_follow_link(
            n: usize,
            m: usize,
            grid: Bytes,
            grid_len: usize,
            directions: Bytes,
            directions_len: usize,
            across: Bytes,
            across_len: usize,
            down: Bytes,
            down_len: usize,
            cell: usize,
            side: usize,
        ) -> Followed;
        fn chantspruce_repair_run(
            n: usize,
            m: usize,
            grid: Bytes,
            grid_len: usize,
            limit: u32,
            directions: BytesMut,
            directions_len: usize,
            places: WordsMut,
            places_len: usize,
            across: BytesMut,
            across_len: usize,
            down: BytesMut,
            down_len: usize,
        ) -> Planned;
        fn chantspruce_run_quickly(
            n: usize,
            m: usize,
            grid: Bytes,
            grid_len: usize,
            limit: u32,
            directions: BytesMut,
            directions_len: usize,
            places: WordsMut,
            places_len: usize,
            across: BytesMut,
            across_len: usize,
            down: BytesMut,
            down_len: usize,
        ) -> Planned;
        fn chantspruce_run_exactly(
            n: usize,
            m: usize,
            grid: Bytes,
            grid_len: usize,
            directions: BytesMut,
            directions_len: usize,
            places: WordsMut,
            places_len: usize,
            across: BytesMut,
            across_len: usize,
            down: BytesMut,
            down_len: usize,
        ) -> Planned;
        fn chantspruce_start_session(n: usize, m: usize, grid: Bytes, grid_len: usize, directions: Bytes, directions_len: usize)
        -> Started;
        fn chantspruce_report_processor(session: *mut Session, failing: bool, position: usize) -> Verdict;
        fn chantspruce_preview_processor(session: *const Session, failing: bool, position: usize) -> Previewed;
        fn chantspruce_read_number(file: Bytes, file_len: usize, at: usize) -> NumberRead;
        fn chantspruce_read_map(file: Bytes, file_len: usize, grid: BytesMut, grid_len: usize) -> MapRead;
        fn chantspruce_read_plan(file: Bytes, file_len: usize, directions: BytesMut, directions_len: usize) -> PlanRead;
        fn chantspruce_write_map(n: usize, m: usize, grid: Bytes, grid_len: usize, out: BytesMut, out_len: usize) -> Written;
        fn chantspruce_write_plan(
            n: usize,
            m: usize,
            directions: Bytes,
            directions_len: usize,
            trials: u32,
            out: BytesMut,
            out_len: usize,
        ) -> Written;
        fn chantspruce_report(file: Bytes, file_len: usize, out: BytesMut, out_len: usize) -> Written;
        fn chantspruce_report_quickly(file: Bytes, file_len: usize, out: BytesMut, out_len: usize) -> Written;
        fn chantspruce_report_exactly(file: Bytes, file_len: usize, out: BytesMut, out_len: usize) -> Written;
    }

    // SAFETY, of each call below: the library reads and writes within the lengths that it is given, or within the session, keeps no pointer, and
    // only reads what is lent by `&`; a slice is valid for its length, and a slice or session lent by `&mut` overlaps no other. All bytes of a
    // session may have any value.

    pub fn check_plan(n: usize, m: usize, grid: &[u8], directions: &[u8]) -> Verdict {
        let (g, d) = (grid, directions);
        unsafe { chantspruce_check_plan(n, m, g.as_ptr(), g.len(), d.as_ptr(), d.len()) }
    }

    pub fn check_fault_list(n: usize, m: usize, grid: &[u8], faults: &[Fault]) -> Verdict {
        let (g, f) = (grid, faults);
        unsafe { chantspruce_check_fault_list(n, m, g.as_ptr(), g.len(), f.as_ptr(), f.len()) }
    }

    pub fn plan_repair(n: usize, m: usize, grid: &[u8], directions: &mut [u8], limit: u32) -> Planned {
        let (g, d) = (grid, directions);
        unsafe { chantspruce_plan_repair(n, m, g.as_ptr(), g.len(), d.as_mut_ptr(), d.len(), limit) }
    }

    pub fn plan_quickly(n: usize, m: usize, grid: &[u8], directions: &mut [u8], limit: u32) -> Planned {
        let (g, d) = (grid, directions);
        unsafe { chantspruce_plan_quickly(n, m, g.as_ptr(), g.len(), d.as_mut_ptr(), d.len(), limit) }
    }

    pub fn plan_exactly(n: usize, m: usize, grid: &[u8], directions: &mut [u8]) -> Planned {
        let (g, d) = (grid, directions);
        unsafe { chantspruce_plan_exactly(n, m, g.as_ptr(), g.len(), d.as_mut_ptr(), d.len()) }
    }

    pub fn place_cells(n: usize, m: usize, grid: &[u8], directions: &[u8], places: &mut [u16]) -> Verdict {
        let (g, d, p) = (grid, directions, places);
        unsafe { chantspruce_place_cells(n, m, g.as_ptr(), g.len(), d.as_ptr(), d.len(), p.as_mut_ptr(), p.len()) }
    }

    pub fn route_switches(n: usize, m: usize, grid: &[u8], directions: &[u8], across: &mut [u8], down: &mut [u8]) -> Verdict {
        let (g, d, a, b) = (grid, directions, across, down);
        unsafe {
            chantspruce_route_switches(n, m, g.as_ptr(), g.len(), d.as_ptr(), d.len(), a.as_mut_ptr(), a.len(), b.as_mut_ptr(), b.len())
        }
    }

    pub fn follow_link(
        n: usize,
        m: usize,
        grid: &[u8],
        directions: &[u8],
        across: &[u8],
        down: &[u8],
        cell: usize,
        side: usize,
    ) -> Followed {
        let (g, d, a, b) = (grid, directions, across, down);
        unsafe {
            chantspruce_follow_link(n, m, g.as_ptr(), g.len(), d.as_ptr(), d.len(), a.as_ptr(), a.len(), b.as_ptr(), b.len(), cell, side)
        }
    }

    pub fn repair_run(
        n: usize,
        m: usize,
        grid: &[u8],
        limit: u32,
        directions: &mut [u8],
        places: &mut [u16],
        across: &mut [u8],
        down: &mut [u8],
    ) -> Planned {
        let (g, d, p, a, b) = (grid, directions, places, across, down);
        unsafe {
            chantspruce_repair_run(
                n,
                m,
                g.as_ptr(),
                g.len(),
                limit,
                d.as_mut_ptr(),
                d.len(),
                p.as_mut_ptr(),
                p.len(),
                a.as_mut_ptr(),
                a.len(),
                b.as_mut_ptr(),
                b.len(),
            )
        }
    }

    pub fn run_quickly(
        n: usize,
        m: usize,
        grid: &[u8],
        limit: u32,
        directions: &mut [u8],
        places: &mut [u16],
        across: &mut [u8],
        down: &mut [u8],
    ) -> Planned {
        let (g, d, p, a, b) = (grid, directions, places, across, down);
        unsafe {
            chantspruce_run_quickly(
                n,
                m,
                g.as_ptr(),
                g.len(),
                limit,
                d.as_mut_ptr(),
                d.len(),
                p.as_mut_ptr(),
                p.len(),
                a.as_mut_ptr(),
                a.len(),
                b.as_mut_ptr(),
                b.len(),
            )
        }
    }

    pub fn run_exactly(
        n: usize,
        m: usize,
        grid: &[u8],
        directions: &mut [u8],
        places: &mut [u16],
        across: &mut [u8],
        down: &mut [u8],
    ) -> Planned {
        let (g, d, p, a, b) = (grid, directions, places, across, down);
        unsafe {
            chantspruce_run_exactly(
                n,
                m,
                g.as_ptr(),
                g.len(),
                d.as_mut_ptr(),
                d.len(),
                p.as_mut_ptr(),
                p.len(),
                a.as_mut_ptr(),
                a.len(),
                b.as_mut_ptr(),
                b.len(),
            )
        }
    }

    pub fn start_session(n: usize, m: usize, grid: &[u8], directions: &[u8]) -> Started {
        let (g, d) = (grid, directions);
        unsafe { chantspruce_start_session(n, m, g.as_ptr(), g.len(), d.as_ptr(), d.len()) }
    }

    pub fn report_processor(session: &mut Session, failing: bool, position: usize) -> Verdict {
        unsafe { chantspruce_report_processor(session, failing, position) }
    }

    pub fn preview_processor(session: &Session, failing: bool, position: usize) -> Previewed {
        unsafe { chantspruce_preview_processor(session, failing, position) }
    }

    pub fn read_number(file: &[u8], at: usize) -> NumberRead {
        unsafe { chantspruce_read_number(file.as_ptr(), file.len(), at) }
    }

    pub fn read_map(file: &[u8], grid: &mut [u8]) -> MapRead {
        unsafe { chantspruce_read_map(file.as_ptr(), file.len(), grid.as_mut_ptr(), grid.len()) }
    }

    pub fn read_plan(file: &[u8], directions: &mut [u8]) -> PlanRead {
        unsafe { chantspruce_read_plan(file.as_ptr(), file.len(), directions.as_mut_ptr(), directions.len()) }
    }

    pub fn write_map(n: usize, m: usize, grid: &[u8], out: &mut [u8]) -> Written {
        unsafe { chantspruce_write_map(n, m, grid.as_ptr(), grid.len(), out.as_mut_ptr(), out.len()) }
    }

    pub fn write_plan(n: usize, m: usize, directions: &[u8], trials: u32, out: &mut [u8]) -> Written {
        unsafe { chantspruce_write_plan(n, m, directions.as_ptr(), directions.len(), trials, out.as_mut_ptr(), out.len()) }
    }

    pub fn report(file: &[u8], out: &mut [u8]) -> Written {
        unsafe { chantspruce_report(file.as_ptr(), file.len(), out.as_mut_ptr(), out.len()) }
    }

    pub fn report_quickly(file: &[u8], out: &mut [u8]) -> Written {
        unsafe { chantspruce_report_quickly(file.as_ptr(), file.len(), out.as_mut_ptr(), out.len()) }
    }

    pub fn report_exactly(file: &[u8], out: &mut [u8]) -> Written {
        unsafe { chantspruce_report_exactly(file.as_ptr(), file.len(), out.as_mut_ptr(), out.len()) }
    }
}
