//! The operations under comparison: how inputs are made, what the reference, the library and the wrapper say, and which answers are possible.

use crate::Buffers;
use crate::inputs::{Case, ENOUGH, Maker};
use crate::reference::{self, Array, Decision, HIGHEST, Planner, decide, search_all, settle_and_search};
use chantspruce::{Reason, flat};

/// The values of an answer, with 0 for those that it does not have.
type Values = [usize; 4];

/// An answer as plain numbers: the number of the refusal (0 for an accepted call), its two places, and the values.
#[derive(Clone, Copy, Debug, PartialEq, Eq)]
pub struct Answer {
    pub number: u32,
    place: usize,
    second: usize,
    values: Values,
}

pub struct Operation {
    pub name: &'static str,
    pub seed: u64,
    pub make: fn(&mut Maker) -> Case,
    /// These three make the call, on the case's own buffers or on the guarded ones.
    pub reference: fn(&mut Case) -> Answer,
    pub flat: fn(&Case, &mut Buffers) -> Answer,
    pub safe: fn(&Case, &mut Buffers) -> Answer,
    /// Which answer it is, for the count; the case is as the call left it.
    pub kind: fn(&Answer, &Case) -> u32,
    /// Whether an answer of this kind is counted apart because of a dead processor; the case is as before the call.
    pub dead: fn(&Operation, u32, &Case) -> bool,
    /// All answers there can be.
    pub kinds: &'static [u32],
    /// Whether it has an array.
    pub sized: bool,
}

/// Kinds of accepted answers that are counted apart; 0 is any other accepted one, and a refusal counts under its number.
const REPAIRED: u32 = 101;
const BEYOND: u32 = 102;
const SPENT: u32 = 103;
pub const REFUSED_MAP: u32 = 104;
const SECOND_COUNT_0: u32 = 105;
const IN_BOTH_LISTS: u32 = 106;

/// Kinds of answers of two planners together. Of the first and the quick one either may be spent alone, of the first and the
/// exact one only the first. The differences should not come.
const BOTH_REPAIRED: u32 = 107;
const BOTH_BEYOND: u32 = 108;
const BOTH_SPENT: u32 = 109;
const FIRST_SPENT: u32 = 110;
const QUICK_SPENT: u32 = 111;
const VERDICTS_DIFFER: u32 = 112;
const NO_PLAN: u32 = 113;
const SPENT_REPAIRED: u32 = 114;
const SPENT_BEYOND: u32 = 115;
const PLANS_DIFFER: u32 = 116;

/// Kinds of answers about a number or the trials on record: accepted, by the bytes of these, or refused.
const TWO_BYTES: u32 = 117;
const THREE_BYTES: u32 = 118;
const NO_TRIALS: u32 = 119;
const DIRECTION_AND_TRIALS: u32 = 120;
const TRIALS_AND_ROOM: u32 = 121;

/// Kinds of reports to a session: a direction is added to the first two, 0 for a spare, and the number of a refusal to the third. The last one
/// should not come.
const TAKES: u32 = 130;
const GIVES_UP: u32 = 135;
const RECOVERING: u32 = 120;
const STOPS_AT_255: u32 = 150;
const STOPS_AT_0: u32 = 151;
const NOT_SOUND: u32 = 152;

/// Added to the kind of an outcome of the quick and of the exact planner where there is an inner fault: the quick one settles
/// none of them, some or all.
/// Each is a multiple of the first, which is above all kinds that have no addition.
const NONE_SETTLED: u32 = 200;
const SOME_SETTLED: u32 = 400;
const ALL_SETTLED: u32 = 600;

/// Added to the kind of a refusal where it is the trials of a plan file that are refused.
const IN_TRIALS: u32 = 800;

/// Added to the kind of an accepted answer, repaired and spent among them, of a map with a dead processor; to that of a refusal and of beyond
/// repair where with ordinary faults in place of the dead processors, and at most `ENOUGH` trials, the answer is of another kind; and to that
/// of a refusal in the second list of a map file.
pub const DEAD: u32 = 1000;

const DIRECTION_NAMES: [&str; 4] = ["south", "north", "east", "west"];

pub fn kind_name(kind: u32) -> String {
    match kind {
        0 => "accepted".to_string(),
        REPAIRED => "repaired".to_string(),
        BEYOND => "beyond repair".to_string(),
        SPENT => "spent".to_string(),
        REFUSED_MAP => "map refused".to_string(),
        SECOND_COUNT_0 => "second count 0".to_string(),
        IN_BOTH_LISTS => "in both lists".to_string(),
        BOTH_REPAIRED => "both repaired".to_string(),
        BOTH_BEYOND => "both beyond repair".to_string(),
        BOTH_SPENT => "both spent".to_string(),
        FIRST_SPENT => "only the first spent".to_string(),
        QUICK_SPENT => "only the quick one spent".to_string(),
        VERDICTS_DIFFER => "verdicts that differ".to_string(),
        NO_PLAN => "a plan that is none".to_string(),
        SPENT_REPAIRED => "the first spent, repaired".to_string(),
        SPENT_BEYOND => "the first spent, beyond repair".to_string(),
        PLANS_DIFFER => "plans that differ".to_string(),
        TWO_BYTES => "accepted, of two bytes".to_string(),
        THREE_BYTES => "accepted, of three bytes".to_string(),
        NO_TRIALS => "refused 8, no trials".to_string(),
        DIRECTION_AND_TRIALS => "refused 4, too many trials too".to_string(),
        TRIALS_AND_ROOM => "refused 21, no room either".to_string(),
        TAKES => "failing, a spare".to_string(),
        131..=134 => format!("failing, takes {}", DIRECTION_NAMES[(kind - TAKES) as usize - 1]),
        GIVES_UP => "recovering, a spare".to_string(),
        136..=139 => format!("recovering, gives up {}", DIRECTION_NAMES[(kind - GIVES_UP) as usize - 1]),
        142 | 143 => format!("recovering, refused {}", kind - RECOVERING),
        STOPS_AT_255 => "failing, a counter stops at 255".to_string(),
        STOPS_AT_0 => "recovering, a counter stops at 0".to_string(),
        NOT_SOUND => "a session that is not sound".to_string(),
        DEAD.. => format!("{}, dead", kind_name(kind - DEAD)),
        IN_TRIALS.. => format!("{}, in the trials", kind_name(kind - IN_TRIALS)),
        ALL_SETTLED.. => format!("{}, all settled", kind_name(kind - ALL_SETTLED)),
        SOME_SETTLED.. => format!("{}, some settled", kind_name(kind - SOME_SETTLED)),
        NONE_SETTLED.. => format!("{}, none settled", kind_name(kind - NONE_SETTLED)),
        number => format!("refused {number}"),
    }
}

fn by_number(answer: &Answer, _: &Case) -> u32 {
    answer.number
}

fn by_outcome(answer: &Answer, _: &Case) -> u32 {
    match answer.values[0] {
        _ if answer.number != 0 => answer.number,
        1 => REPAIRED,
        2 => BEYOND,
        _ => SPENT,
    }
}

/// The kind of a listing, by its second line.
fn by_listing(answer: &Answer, after: &Case) -> u32 {
    let line = after.out.split(|b| *b == b'\n').nth(1).unwrap_or(&[]);
    match line.first() {
        _ if answer.number != 0 => answer.number,
        _ if after.out.starts_with(b"refused") => REFUSED_MAP,
        Some(b'r') => REPAIRED,
        Some(b'b') => BEYOND,
        _ => SPENT,
    }
}

/// The kind of a report's answer, by what it changes.
fn by_report(answer: &Answer, after: &Case) -> u32 {
    let direction = u32::from(after.change.direction);
    match (answer.number, after.failing) {
        (0, true) if after.change.stopped => STOPS_AT_255,
        (0, false) if after.change.stopped => STOPS_AT_0,
        (0, true) => TAKES + direction,
        (0, false) => GIVES_UP + direction,
        (number @ (22 | 23), false) => RECOVERING + number,
        (number, _) => number,
    }
}

/// The same of a list of reports, after each of which the session should be sound.
fn by_sound_report(answer: &Answer, after: &Case) -> u32 {
    if after.session.as_ref().is_some_and(reference::is_sound) { by_report(answer, after) } else { NOT_SOUND }
}

/// The kind of the quick or the exact planner's answer, with how much the quick one settles.
fn by_quick_outcome(answer: &Answer, after: &Case) -> u32 {
    let kind = by_outcome(answer, after);
    if answer.number == 0 { kind + extent(Array { rows: after.n, columns: after.m }, &after.grid) } else { kind }
}

/// The same of a listing.
fn by_quick_listing(answer: &Answer, after: &Case) -> u32 {
    let mut grid = [0; reference::LENGTH];
    match (by_listing(answer, after), reference::read_map(&after.file, &mut grid)) {
        (kind @ (REPAIRED | BEYOND | SPENT), Ok(head)) => kind + extent(Array { rows: head.rows, columns: head.columns }, &grid),
        (kind, _) => kind,
    }
}

/// How much of a map the quick planner settles.
fn extent(array: Array, grid: &[u8]) -> u32 {
    let (settled, unsettled) = reference::settle(array, grid);
    match (settled.len(), unsettled.len()) {
        (0, 0) => 0,
        (0, _) => NONE_SETTLED,
        (_, 0) => ALL_SETTLED,
        _ => SOME_SETTLED,
    }
}

/// The kind of the first and the quick planner's answer: its values are the outcome of each, and whether the quick one's
/// directions pass the plan check.
fn by_verdicts(answer: &Answer, _: &Case) -> u32 {
    match answer.values {
        [_, 1, 0, _] => NO_PLAN,
        [1, 1, ..] => BOTH_REPAIRED,
        [2, 2, ..] => BOTH_BEYOND,
        [3, 3, ..] => BOTH_SPENT,
        [3, ..] => FIRST_SPENT,
        [_, 3, ..] => QUICK_SPENT,
        _ => VERDICTS_DIFFER,
    }
}

/// The kind of the first and the exact planner's answer: its values are the outcome of each, and whether their directions are
/// the same.
fn by_decision(answer: &Answer, _: &Case) -> u32 {
    match answer.values {
        [3, 1, ..] => SPENT_REPAIRED,
        [3, 2, ..] => SPENT_BEYOND,
        [1, 1, 1, _] => BOTH_REPAIRED,
        [2, 2, 1, _] => BOTH_BEYOND,
        [1, 1, ..] | [2, 2, ..] => PLANS_DIFFER,
        _ => VERDICTS_DIFFER,
    }
}

/// The kind of an accepted answer by how many bytes a number has.
fn by_bytes(bytes: usize) -> u32 {
    match bytes {
        3 => THREE_BYTES,
        2 => TWO_BYTES,
        _ => 0,
    }
}

/// How many bytes the number has that is written for these trials.
fn bytes_of(trials: usize) -> usize {
    let mut bytes = Vec::new();
    reference::push_number(&mut bytes, trials);
    bytes.len()
}

/// The kind of the number reader's answer: accepted numbers by their bytes.
fn by_value(answer: &Answer, after: &Case) -> u32 {
    if answer.number == 0 { by_bytes(answer.values[1] - after.at) } else { answer.number }
}

/// The kind of a plan file's answer: accepted ones by the bytes of the trials, refusals in the trials apart from others.
fn by_plan_file(answer: &Answer, after: &Case) -> u32 {
    match (answer.number, trials_part(&after.file)) {
        (0, _) => by_bytes(bytes_of(answer.values[3])),
        (8, Some(at)) if at == after.file.len() => NO_TRIALS,
        (number @ (8 | 9), Some(_)) => IN_TRIALS + number,
        (number, _) => number,
    }
}

/// The offset after the paths of a plan file, where these are accepted.
fn trials_part(file: &[u8]) -> Option<usize> {
    let at = list_end(file, 3)?;
    let with_none = [&file[..at], &[0]].concat();
    reference::read_plan(&with_none, &mut [0; reference::LENGTH]).is_ok().then_some(at)
}

/// The kind of the plan writer's answer: accepted ones by the bytes of the trials, refusals also by the next test.
fn by_plan_written(answer: &Answer, after: &Case) -> u32 {
    match answer.number {
        0 => by_bytes(bytes_of(after.trials as usize)),
        4 if after.trials > HIGHEST => DIRECTION_AND_TRIALS,
        21 if after.out.len() < paths_length(after) => TRIALS_AND_ROOM,
        number => number,
    }
}

/// The length of a plan file without its trials.
fn paths_length(case: &Case) -> usize {
    let array = Array { rows: case.n, columns: case.m };
    reference::file_of(array, &reference::plan_records(array, &case.directions)).len()
}

/// The kind of a map file's answer: refusals in the second list apart from those in the first.
fn by_map_file(answer: &Answer, after: &Case) -> u32 {
    let Some(second) = second_part(&after.file) else {
        return answer.number;
    };
    match answer.number {
        2 => 2,
        11 if repeats_first(&after.file, second, answer.place) => IN_BOTH_LISTS,
        12 if answer.place == second => SECOND_COUNT_0,
        number => DEAD + number,
    }
}

/// The offset after the first list of a map file, where that list is accepted and the file goes on.
fn second_part(file: &[u8]) -> Option<usize> {
    let at = list_end(file, 2)?;
    let first = reference::read_map(&file[..at], &mut [0; reference::LENGTH]);
    (at < file.len() && first.is_ok()).then_some(at)
}

/// The offset after the first list of a file, whose records have so many numbers.
fn list_end(file: &[u8], numbers: u32) -> Option<usize> {
    let number = |at: usize| reference::read_number(file, at).ok();
    let (_, at) = number(0)?;
    let (_, at) = number(at)?;
    let (count, mut at) = number(at)?;
    for _ in 0..numbers * count {
        at = number(at)?.1;
    }
    Some(at)
}

/// Whether the record at an offset has a place of the first list, which ends at `second`.
fn repeats_first(file: &[u8], second: usize, record: usize) -> bool {
    let mut grid = [0; reference::LENGTH];
    let place = reference::read_number(file, record).and_then(|(x, at)| Ok((x, reference::read_number(file, at)?.0)));
    let first = reference::read_map(&file[..second], &mut grid);
    first.is_ok() && place.is_ok_and(|(x, y)| grid[32 * x as usize + y as usize] == reference::FAULTY)
}

// Whether a dead processor matters to an answer.

fn never(_: &Operation, _: u32, _: &Case) -> bool {
    false
}

/// Of an operation that reads a grid.
fn in_grid(operation: &Operation, kind: u32, before: &Case) -> bool {
    let has_dead = before.grid.contains(&reference::DEAD);
    if !has_dead || matches!(verdict_of(kind), 0 | REPAIRED | SPENT) {
        return has_dead;
    }
    let mut ordinary = before.clone();
    make_ordinary(&mut ordinary.grid);
    ordinary.limit = ordinary.limit.min(ENOUGH);
    let answer = (operation.reference)(&mut ordinary);
    verdict_of((operation.kind)(&answer, &ordinary)) != verdict_of(kind)
}

/// A kind without what is added for what is settled.
fn verdict_of(kind: u32) -> u32 {
    kind % NONE_SETTLED
}

/// Of a listing by this planner.
fn in_file(planner: Planner, kind: u32, before: &Case) -> bool {
    let mut grid = [0; reference::LENGTH];
    let Ok(head) = reference::read_map(&before.file, &mut grid) else {
        return false;
    };
    let verdict = verdict_of(kind);
    if !grid.contains(&reference::DEAD) || !matches!(verdict, REPAIRED | SPENT | BEYOND) {
        return false;
    }
    make_ordinary(&mut grid);
    let ordinary = reference::plan(planner, head.rows, head.columns, &grid, &mut [0; reference::LENGTH], ENOUGH);
    verdict != BEYOND || !matches!(ordinary, Ok(reference::Outcome::Beyond(_) | reference::Outcome::Decided(Decision::Beyond)))
}

/// Makes ordinary faults of dead processors.
fn make_ordinary(grid: &mut [u8]) {
    grid.iter_mut().filter(|mark| **mark == reference::DEAD).for_each(|mark| *mark = reference::FAULTY);
}

// The answers of the three as plain numbers.

const NO_VALUES: Values = [0; 4];

/// The reference's.
fn told<T>(result: Result<T, reference::Refusal>, values: impl Fn(T) -> Values) -> Answer {
    match result {
        Ok(value) => Answer { number: 0, place: 0, second: 0, values: values(value) },
        Err(e) => Answer { number: e.number, place: e.place, second: e.second, values: NO_VALUES },
    }
}

/// The wrapper's.
fn said<T>(result: Result<T, chantspruce::Refusal>, values: impl FnOnce(T) -> Values) -> Answer {
    match result {
        Ok(value) => Answer { number: 0, place: 0, second: 0, values: values(value) },
        Err(e) => Answer { number: number_of(e), place: e.place, second: e.second, values: NO_VALUES },
    }
}

/// The number of a reason, which the wrapper has to give too.
fn number_of(refusal: chantspruce::Refusal) -> u32 {
    let number = match refusal.reason {
        Reason::Size => 1,
        Reason::BufferLength => 2,
        Reason::Mark => 3,
        Reason::Direction => 4,
        Reason::NotOpen => 5,
        Reason::Meeting => 6,
        Reason::NearMiss => 7,
        Reason::FileEnds => 8,
        Reason::NumberForm => 9,
        Reason::RecordPlace => 10,
        Reason::Repeated => 11,
        Reason::Trailing => 12,
        Reason::RecordDirection => 13,
        Reason::Room => 14,
        Reason::NoSuchLink => 15,
        Reason::SwitchByte => 16,
        Reason::TrackEnds => 17,
        Reason::FourthSwitch => 18,
        Reason::RecordOrder => 19,
        Reason::DeadPlace => 20,
        Reason::Trials => 21,
        Reason::NothingNew => 22,
        Reason::InUseOrDead => 23,
        Reason::NoDirection => 24,
        Reason::Unknown => u32::MAX,
    };
    if refusal.number() == number { number } else { u32::MAX }
}

/// What was read of a file, where the writer makes the same bytes of it again; else values that no file has.
fn written_again(values: Values, file: &[u8], write: impl Fn(&mut [u8]) -> Result<usize, chantspruce::Refusal>) -> Values {
    let mut out = [0; chantspruce::PLAN_ROOM];
    match write(&mut out) {
        Ok(length) if out[..length] == *file => values,
        _ => [usize::MAX; 4],
    }
}

fn outcome_told(outcome: reference::Outcome, links: usize) -> Values {
    match outcome {
        reference::Outcome::Repaired(trials) => [1, trials as usize, links, 0],
        reference::Outcome::Beyond(trials) => [2, trials as usize, links, 0],
        reference::Outcome::Spent(limit) => [3, limit as usize, links, 0],
        reference::Outcome::Decided(Decision::Repaired) => [1, 0, links, 0],
        reference::Outcome::Decided(Decision::Beyond) => [2, 0, links, 0],
    }
}

fn run_told(planner: Planner, c: &mut Case) -> Answer {
    let (directions, places, across, down) = (&mut c.directions, &mut c.places, &mut c.across, &mut c.down);
    let result = reference::run(planner, c.n, c.m, &c.grid, c.limit, directions, places, across, down);
    told(result, |(outcome, links)| outcome_told(outcome, links))
}

fn outcome_said(outcome: chantspruce::Outcome, links: usize) -> Values {
    match outcome {
        chantspruce::Outcome::Repaired(trials) => [1, trials as usize, links, 0],
        chantspruce::Outcome::Beyond(trials) => [2, trials as usize, links, 0],
        chantspruce::Outcome::Spent(limit) => [3, limit as usize, links, 0],
    }
}

fn decision_said(decision: chantspruce::Decision, links: usize) -> Values {
    match decision {
        chantspruce::Decision::Repaired => [1, 0, links, 0],
        chantspruce::Decision::Beyond => [2, 0, links, 0],
    }
}

fn link_said(link: chantspruce::Link) -> Values {
    let port = match link.port {
        chantspruce::Port::West => 0,
        chantspruce::Port::East => 1,
        chantspruce::Port::North => 2,
        chantspruce::Port::South => 3,
    };
    [link.position, port, link.switches as usize, 0]
}

// The library's: every field of its structs.

fn verdict(a: flat::Verdict) -> Answer {
    Answer { number: a.number, place: a.place, second: a.second, values: NO_VALUES }
}

fn started(a: &flat::Started) -> Answer {
    Answer { number: a.number, place: a.place, second: a.second, values: NO_VALUES }
}

fn planned(a: flat::Planned) -> Answer {
    Answer { number: a.number, place: a.place, second: a.second, values: [a.outcome as usize, a.count as usize, a.links, 0] }
}

fn followed(a: flat::Followed) -> Answer {
    Answer { number: a.number, place: a.place, second: a.second, values: [a.position, a.port as usize, a.switches as usize, 0] }
}

fn number_read(a: flat::NumberRead) -> Answer {
    Answer { number: a.number, place: a.place, second: a.second, values: [a.value as usize, a.next, 0, 0] }
}

fn map_read(a: flat::MapRead) -> Answer {
    Answer { number: a.number, place: a.place, second: a.second, values: [a.rows, a.columns, a.count, 0] }
}

fn plan_read(a: flat::PlanRead) -> Answer {
    Answer { number: a.number, place: a.place, second: a.second, values: [a.rows, a.columns, a.count, a.trials as usize] }
}

fn written(a: flat::Written) -> Answer {
    Answer { number: a.number, place: a.place, second: a.second, values: [a.length, 0, 0, 0] }
}

/// The kinds of the quick planner and of a run with it. Where all inner faults are settled there is no trial.
const QUICK_KINDS: [u32; 19] = [
    REPAIRED,
    REPAIRED + NONE_SETTLED,
    REPAIRED + SOME_SETTLED,
    REPAIRED + ALL_SETTLED,
    BEYOND + NONE_SETTLED,
    BEYOND + SOME_SETTLED,
    SPENT + NONE_SETTLED,
    SPENT + SOME_SETTLED,
    1,
    2,
    3,
    DEAD + REPAIRED + NONE_SETTLED,
    DEAD + REPAIRED + SOME_SETTLED,
    DEAD + REPAIRED + ALL_SETTLED,
    DEAD + BEYOND + NONE_SETTLED,
    DEAD + BEYOND + SOME_SETTLED,
    DEAD + SPENT + NONE_SETTLED,
    DEAD + SPENT + SOME_SETTLED,
    DEAD + 3,
];

/// The kinds of the exact planner and of a run with it.
const EXACT_KINDS: [u32; 15] = [
    REPAIRED,
    REPAIRED + NONE_SETTLED,
    REPAIRED + SOME_SETTLED,
    REPAIRED + ALL_SETTLED,
    BEYOND + NONE_SETTLED,
    BEYOND + SOME_SETTLED,
    1,
    2,
    3,
    DEAD + REPAIRED + NONE_SETTLED,
    DEAD + REPAIRED + SOME_SETTLED,
    DEAD + REPAIRED + ALL_SETTLED,
    DEAD + BEYOND + NONE_SETTLED,
    DEAD + BEYOND + SOME_SETTLED,
    DEAD + 3,
];

pub const OPERATIONS: [Operation; 25] = [
    CHECK_PLAN,
    CHECK_FAULT_LIST,
    PLAN_REPAIR,
    PLAN_QUICKLY,
    BOTH_PLANNERS,
    PLAN_EXACTLY,
    EXACT_AND_FIRST,
    PLACE_CELLS,
    ROUTE_SWITCHES,
    FOLLOW_LINK,
    REPAIR_RUN,
    RUN_QUICKLY,
    RUN_EXACTLY,
    READ_NUMBER,
    READ_MAP,
    READ_PLAN,
    WRITE_MAP,
    WRITE_PLAN,
    REPORT,
    REPORT_QUICKLY,
    REPORT_EXACTLY,
    START_SESSION,
    REPORT_PROCESSOR,
    LIST_OF_REPORTS,
    PREVIEW_PROCESSOR,
];

const CHECK_PLAN: Operation = Operation {
    name: "check_plan",
    seed: 1,
    make: Maker::for_check,
    reference: |c| told(reference::check_plan(c.n, c.m, &c.grid, &c.directions), |()| NO_VALUES),
    flat: |c, b| verdict(flat::check_plan(c.n, c.m, b.grid.lend(), b.directions.lend())),
    safe: |c, b| said(chantspruce::check_plan(c.n, c.m, b.grid.lend(), b.directions.lend()), |()| NO_VALUES),
    kind: by_number,
    dead: in_grid,
    kinds: &[0, 1, 2, 3, 4, 5, 6, 7, DEAD, DEAD + 3, DEAD + 5],
    sized: true,
};

const CHECK_FAULT_LIST: Operation = Operation {
    name: "check_fault_list",
    seed: 13,
    make: Maker::for_list,
    reference: |c| {
        let list: Vec<(usize, u8)> = c.faults.iter().map(|f| (f.position, f.direction)).collect();
        told(reference::check_fault_list(c.n, c.m, &c.grid, &list), |()| NO_VALUES)
    },
    flat: |c, b| verdict(flat::check_fault_list(c.n, c.m, b.grid.lend(), b.faults.lend())),
    safe: |c, b| said(chantspruce::check_fault_list(c.n, c.m, b.grid.lend(), b.faults.lend()), |()| NO_VALUES),
    kind: by_number,
    dead: in_grid,
    kinds: &[0, 1, 2, 3, 4, 5, 6, 7, DEAD, DEAD + 3, DEAD + 5],
    sized: true,
};

const PLAN_REPAIR: Operation = Operation {
    name: "plan_repair",
    seed: 2,
    make: Maker::for_planner,
    reference: |c| told(reference::plan(search_all, c.n, c.m, &c.grid, &mut c.directions, c.limit), |o| outcome_told(o, 0)),
    flat: |c, b| planned(flat::plan_repair(c.n, c.m, b.grid.lend(), b.directions.lend(), c.limit)),
    safe: |c, b| said(chantspruce::plan_repair(c.n, c.m, b.grid.lend(), b.directions.lend(), c.limit), |o| outcome_said(o, 0)),
    kind: by_outcome,
    dead: in_grid,
    kinds: &[REPAIRED, BEYOND, SPENT, 1, 2, 3, DEAD + REPAIRED, DEAD + BEYOND, DEAD + SPENT, DEAD + 3],
    sized: true,
};

const PLAN_QUICKLY: Operation = Operation {
    name: "plan_quickly",
    seed: 14,
    make: Maker::for_quick_planner,
    reference: |c| told(reference::plan(settle_and_search, c.n, c.m, &c.grid, &mut c.directions, c.limit), |o| outcome_told(o, 0)),
    flat: |c, b| planned(flat::plan_quickly(c.n, c.m, b.grid.lend(), b.directions.lend(), c.limit)),
    safe: |c, b| said(chantspruce::plan_quickly(c.n, c.m, b.grid.lend(), b.directions.lend(), c.limit), |o| outcome_said(o, 0)),
    kind: by_quick_outcome,
    dead: in_grid,
    kinds: &QUICK_KINDS,
    sized: true,
};

/// The first and the quick planner on the same map and under the same limit: where neither is spent both call it beyond repair, or neither does.
const BOTH_PLANNERS: Operation = Operation {
    name: "plan_repair beside plan_quickly",
    seed: 15,
    make: Maker::for_both,
    reference: |c| {
        let first = reference::plan(search_all, c.n, c.m, &c.grid, &mut c.across, c.limit);
        let quick = reference::plan(settle_and_search, c.n, c.m, &c.grid, &mut c.directions, c.limit);
        let checked = reference::check_plan(c.n, c.m, &c.grid, &c.directions);
        told(first.and_then(|a| Ok((a, quick?))), |(a, b)| [outcome_told(a, 0)[0], outcome_told(b, 0)[0], usize::from(checked.is_ok()), 0])
    },
    flat: |c, b| {
        let first = planned(flat::plan_repair(c.n, c.m, b.grid.lend(), b.across.lend(), c.limit));
        let quick = planned(flat::plan_quickly(c.n, c.m, b.grid.lend(), b.directions.lend(), c.limit));
        let checked = flat::check_plan(c.n, c.m, b.grid.lend(), b.directions.lend());
        Answer { values: [first.values[0], quick.values[0], usize::from(checked.number == 0), 0], ..first }
    },
    safe: |c, b| {
        let first = chantspruce::plan_repair(c.n, c.m, b.grid.lend(), b.across.lend(), c.limit);
        let quick = chantspruce::plan_quickly(c.n, c.m, b.grid.lend(), b.directions.lend(), c.limit);
        let checked = chantspruce::check_plan(c.n, c.m, b.grid.lend(), b.directions.lend());
        said(first.and_then(|a| Ok((a, quick?))), |(a, b)| [outcome_said(a, 0)[0], outcome_said(b, 0)[0], usize::from(checked.is_ok()), 0])
    },
    kind: by_verdicts,
    dead: never,
    kinds: &[BOTH_REPAIRED, BOTH_BEYOND, BOTH_SPENT, FIRST_SPENT, QUICK_SPENT],
    sized: true,
};

const PLAN_EXACTLY: Operation = Operation {
    name: "plan_exactly",
    seed: 18,
    make: Maker::for_exact_planner,
    reference: |c| told(reference::plan(decide, c.n, c.m, &c.grid, &mut c.directions, 0), |o| outcome_told(o, 0)),
    flat: |c, b| planned(flat::plan_exactly(c.n, c.m, b.grid.lend(), b.directions.lend())),
    safe: |c, b| said(chantspruce::plan_exactly(c.n, c.m, b.grid.lend(), b.directions.lend()), |d| decision_said(d, 0)),
    kind: by_quick_outcome,
    dead: in_grid,
    kinds: &EXACT_KINDS,
    sized: true,
};

/// The first and the exact planner on the same map: where the first one is not spent both say the same and write the same.
const EXACT_AND_FIRST: Operation = Operation {
    name: "plan_repair beside plan_exactly",
    seed: 19,
    make: Maker::for_exact_and_first,
    reference: |c| {
        let first = reference::plan(search_all, c.n, c.m, &c.grid, &mut c.across, c.limit);
        let exact = reference::plan(decide, c.n, c.m, &c.grid, &mut c.directions, 0);
        let same = usize::from(c.across == c.directions);
        told(first.and_then(|a| Ok((a, exact?))), |(a, b)| [outcome_told(a, 0)[0], outcome_told(b, 0)[0], same, 0])
    },
    flat: |c, b| {
        let first = planned(flat::plan_repair(c.n, c.m, b.grid.lend(), b.across.lend(), c.limit));
        let exact = planned(flat::plan_exactly(c.n, c.m, b.grid.lend(), b.directions.lend()));
        let same = usize::from(b.across.lend() == b.directions.lend());
        Answer { values: [first.values[0], exact.values[0], same, 0], ..first }
    },
    safe: |c, b| {
        let first = chantspruce::plan_repair(c.n, c.m, b.grid.lend(), b.across.lend(), c.limit);
        let exact = chantspruce::plan_exactly(c.n, c.m, b.grid.lend(), b.directions.lend());
        let same = usize::from(b.across.lend() == b.directions.lend());
        said(first.and_then(|a| Ok((a, exact?))), |(a, b)| [outcome_said(a, 0)[0], decision_said(b, 0)[0], same, 0])
    },
    kind: by_decision,
    dead: never,
    kinds: &[BOTH_REPAIRED, BOTH_BEYOND, SPENT_REPAIRED, SPENT_BEYOND],
    sized: true,
};

const PLACE_CELLS: Operation = Operation {
    name: "place_cells",
    seed: 3,
    make: Maker::for_placing,
    reference: |c| told(reference::place_cells(c.n, c.m, &c.grid, &c.directions, &mut c.places), |()| NO_VALUES),
    flat: |c, b| verdict(flat::place_cells(c.n, c.m, b.grid.lend(), b.directions.lend(), b.places.lend())),
    safe: |c, b| said(chantspruce::place_cells(c.n, c.m, b.grid.lend(), b.directions.lend(), b.places.lend()), |()| NO_VALUES),
    kind: by_number,
    dead: in_grid,
    kinds: &[0, 1, 2, 3, 4, 5, 6, 7, DEAD, DEAD + 3, DEAD + 5],
    sized: true,
};

const ROUTE_SWITCHES: Operation = Operation {
    name: "route_switches",
    seed: 4,
    make: Maker::for_routing,
    reference: |c| told(reference::route_switches(c.n, c.m, &c.grid, &c.directions, &mut c.across, &mut c.down), |()| NO_VALUES),
    flat: |c, b| verdict(flat::route_switches(c.n, c.m, b.grid.lend(), b.directions.lend(), b.across.lend(), b.down.lend())),
    safe: |c, b| {
        let result = chantspruce::route_switches(c.n, c.m, b.grid.lend(), b.directions.lend(), b.across.lend(), b.down.lend());
        said(result, |()| NO_VALUES)
    },
    kind: by_number,
    dead: in_grid,
    kinds: &[0, 1, 2, 3, 4, 5, 6, 7, DEAD, DEAD + 3, DEAD + 5],
    sized: true,
};

const FOLLOW_LINK: Operation = Operation {
    name: "follow_link",
    seed: 5,
    make: Maker::for_link,
    reference: |c| {
        let result = reference::follow_link(c.n, c.m, &c.grid, &c.directions, &c.across, &c.down, c.cell, c.side);
        told(result, |a| [a.position, a.port, a.switches, 0])
    },
    flat: |c, b| {
        let (grid, directions, across, down) = (b.grid.lend(), b.directions.lend(), b.across.lend(), b.down.lend());
        followed(flat::follow_link(c.n, c.m, grid, directions, across, down, c.cell, c.side))
    },
    safe: |c, b| {
        let (grid, directions, across, down) = (b.grid.lend(), b.directions.lend(), b.across.lend(), b.down.lend());
        said(chantspruce::follow_link(c.n, c.m, grid, directions, across, down, c.cell, c.side), link_said)
    },
    kind: by_number,
    dead: in_grid,
    kinds: &[0, 1, 2, 3, 4, 5, 6, 7, 15, 16, 17, 18, DEAD, DEAD + 3, DEAD + 5, DEAD + 17],
    sized: true,
};

const REPAIR_RUN: Operation = Operation {
    name: "repair_run",
    seed: 6,
    make: Maker::for_run,
    reference: |c| run_told(search_all, c),
    flat: |c, b| {
        let (directions, places, across, down) = (b.directions.lend(), b.places.lend(), b.across.lend(), b.down.lend());
        planned(flat::repair_run(c.n, c.m, b.grid.lend(), c.limit, directions, places, across, down))
    },
    safe: |c, b| {
        let (directions, places, across, down) = (b.directions.lend(), b.places.lend(), b.across.lend(), b.down.lend());
        let result = chantspruce::repair_run(c.n, c.m, b.grid.lend(), c.limit, directions, places, across, down);
        said(result, |run| outcome_said(run.outcome, run.links))
    },
    kind: by_outcome,
    dead: in_grid,
    kinds: &[REPAIRED, BEYOND, SPENT, 1, 2, 3, DEAD + REPAIRED, DEAD + BEYOND, DEAD + SPENT, DEAD + 3],
    sized: true,
};

const RUN_QUICKLY: Operation = Operation {
    name: "run_quickly",
    seed: 16,
    make: Maker::for_quick_run,
    reference: |c| run_told(settle_and_search, c),
    flat: |c, b| {
        let (directions, places, across, down) = (b.directions.lend(), b.places.lend(), b.across.lend(), b.down.lend());
        planned(flat::run_quickly(c.n, c.m, b.grid.lend(), c.limit, directions, places, across, down))
    },
    safe: |c, b| {
        let (directions, places, across, down) = (b.directions.lend(), b.places.lend(), b.across.lend(), b.down.lend());
        let result = chantspruce::run_quickly(c.n, c.m, b.grid.lend(), c.limit, directions, places, across, down);
        said(result, |run| outcome_said(run.outcome, run.links))
    },
    kind: by_quick_outcome,
    dead: in_grid,
    kinds: &QUICK_KINDS,
    sized: true,
};

const RUN_EXACTLY: Operation = Operation {
    name: "run_exactly",
    seed: 20,
    make: Maker::for_exact_run,
    reference: |c| run_told(decide, c),
    flat: |c, b| {
        let (directions, places, across, down) = (b.directions.lend(), b.places.lend(), b.across.lend(), b.down.lend());
        planned(flat::run_exactly(c.n, c.m, b.grid.lend(), directions, places, across, down))
    },
    safe: |c, b| {
        let (directions, places, across, down) = (b.directions.lend(), b.places.lend(), b.across.lend(), b.down.lend());
        let result = chantspruce::run_exactly(c.n, c.m, b.grid.lend(), directions, places, across, down);
        said(result, |run| decision_said(run.outcome, run.links))
    },
    kind: by_quick_outcome,
    dead: in_grid,
    kinds: &EXACT_KINDS,
    sized: true,
};

const READ_NUMBER: Operation = Operation {
    name: "read_number",
    seed: 7,
    make: Maker::for_number,
    reference: |c| told(reference::read_number(&c.file, c.at), |(value, next)| [value as usize, next, 0, 0]),
    flat: |c, b| number_read(flat::read_number(b.file.lend(), c.at)),
    safe: |c, b| said(chantspruce::read_number(b.file.lend(), c.at), |number| [number.value as usize, number.next, 0, 0]),
    kind: by_value,
    dead: never,
    kinds: &[0, TWO_BYTES, THREE_BYTES, 8, 9],
    sized: false,
};

const READ_MAP: Operation = Operation {
    name: "read_map",
    seed: 8,
    make: Maker::for_map_file,
    reference: |c| told(reference::read_map(&c.file, &mut c.grid), |head| [head.rows, head.columns, head.count, 0]),
    flat: |_, b| map_read(flat::read_map(b.file.lend(), b.grid.lend())),
    safe: |_, b| {
        let read = chantspruce::read_map(b.file.lend(), b.grid.lend());
        let (file, grid) = (b.file.lend(), b.grid.lend());
        said(read, |head| {
            let values = [head.rows, head.columns, head.count, 0];
            written_again(values, file, |out| chantspruce::write_map(head.rows, head.columns, grid, out))
        })
    },
    kind: by_map_file,
    dead: never,
    kinds: &[
        0,
        1,
        2,
        8,
        9,
        10,
        11,
        19,
        DEAD,
        DEAD + 8,
        DEAD + 9,
        DEAD + 11,
        DEAD + 12,
        DEAD + 19,
        DEAD + 20,
        SECOND_COUNT_0,
        IN_BOTH_LISTS,
    ],
    sized: true,
};

const READ_PLAN: Operation = Operation {
    name: "read_plan",
    seed: 9,
    make: Maker::for_plan_file,
    reference: |c| {
        let read = reference::read_plan(&c.file, &mut c.directions);
        told(read, |(head, trials)| [head.rows, head.columns, head.count, trials])
    },
    flat: |_, b| plan_read(flat::read_plan(b.file.lend(), b.directions.lend())),
    safe: |_, b| {
        let read = chantspruce::read_plan(b.file.lend(), b.directions.lend());
        let (file, directions) = (b.file.lend(), b.directions.lend());
        said(read, |head| {
            let values = [head.rows, head.columns, head.count, head.trials as usize];
            written_again(values, file, |out| chantspruce::write_plan(head.rows, head.columns, directions, head.trials, out))
        })
    },
    kind: by_plan_file,
    dead: never,
    kinds: &[0, TWO_BYTES, THREE_BYTES, 1, 2, 8, 9, 10, 11, 12, 13, 19, NO_TRIALS, IN_TRIALS + 8, IN_TRIALS + 9],
    sized: true,
};

const WRITE_MAP: Operation = Operation {
    name: "write_map",
    seed: 10,
    make: Maker::for_map_writer,
    reference: |c| told(reference::write_map(c.n, c.m, &c.grid, &mut c.out), |length| [length, 0, 0, 0]),
    flat: |c, b| written(flat::write_map(c.n, c.m, b.grid.lend(), b.out.lend())),
    safe: |c, b| said(chantspruce::write_map(c.n, c.m, b.grid.lend(), b.out.lend()), |length| [length, 0, 0, 0]),
    kind: by_number,
    dead: in_grid,
    kinds: &[0, 1, 2, 3, 14, DEAD, DEAD + 3, DEAD + 14],
    sized: true,
};

const WRITE_PLAN: Operation = Operation {
    name: "write_plan",
    seed: 11,
    make: Maker::for_plan_writer,
    reference: |c| told(reference::write_plan(c.n, c.m, &c.directions, c.trials, &mut c.out), |length| [length, 0, 0, 0]),
    flat: |c, b| written(flat::write_plan(c.n, c.m, b.directions.lend(), c.trials, b.out.lend())),
    safe: |c, b| said(chantspruce::write_plan(c.n, c.m, b.directions.lend(), c.trials, b.out.lend()), |length| [length, 0, 0, 0]),
    kind: by_plan_written,
    dead: never,
    kinds: &[0, TWO_BYTES, THREE_BYTES, 1, 2, 4, 14, 21, DIRECTION_AND_TRIALS, TRIALS_AND_ROOM],
    sized: true,
};

const REPORT: Operation = Operation {
    name: "report",
    seed: 12,
    make: Maker::for_report,
    reference: |c| told(reference::report(search_all, &c.file, &mut c.out), |length| [length, 0, 0, 0]),
    flat: |_, b| written(flat::report(b.file.lend(), b.out.lend())),
    safe: |_, b| said(chantspruce::report(b.file.lend(), b.out.lend()), |length| [length, 0, 0, 0]),
    kind: by_listing,
    dead: |_, kind, before| in_file(search_all, kind, before),
    kinds: &[REPAIRED, BEYOND, SPENT, REFUSED_MAP, 14, DEAD + REPAIRED, DEAD + BEYOND, DEAD + SPENT],
    sized: true,
};

const REPORT_QUICKLY: Operation = Operation {
    name: "report_quickly",
    seed: 17,
    make: Maker::for_quick_report,
    reference: |c| told(reference::report(settle_and_search, &c.file, &mut c.out), |length| [length, 0, 0, 0]),
    flat: |_, b| written(flat::report_quickly(b.file.lend(), b.out.lend())),
    safe: |_, b| said(chantspruce::report_quickly(b.file.lend(), b.out.lend()), |length| [length, 0, 0, 0]),
    kind: by_quick_listing,
    dead: |_, kind, before| in_file(settle_and_search, kind, before),
    kinds: &[
        REPAIRED,
        REPAIRED + NONE_SETTLED,
        REPAIRED + SOME_SETTLED,
        REPAIRED + ALL_SETTLED,
        BEYOND + NONE_SETTLED,
        BEYOND + SOME_SETTLED,
        SPENT + NONE_SETTLED,
        SPENT + SOME_SETTLED,
        REFUSED_MAP,
        14,
        DEAD + REPAIRED + NONE_SETTLED,
        DEAD + REPAIRED + SOME_SETTLED,
        DEAD + REPAIRED + ALL_SETTLED,
        DEAD + BEYOND + NONE_SETTLED,
        DEAD + BEYOND + SOME_SETTLED,
        DEAD + SPENT + NONE_SETTLED,
        DEAD + SPENT + SOME_SETTLED,
    ],
    sized: true,
};

const REPORT_EXACTLY: Operation = Operation {
    name: "report_exactly",
    seed: 21,
    make: Maker::for_exact_report,
    reference: |c| told(reference::report(decide, &c.file, &mut c.out), |length| [length, 0, 0, 0]),
    flat: |_, b| written(flat::report_exactly(b.file.lend(), b.out.lend())),
    safe: |_, b| said(chantspruce::report_exactly(b.file.lend(), b.out.lend()), |length| [length, 0, 0, 0]),
    kind: by_quick_listing,
    dead: |_, kind, before| in_file(decide, kind, before),
    kinds: &[
        REPAIRED,
        REPAIRED + NONE_SETTLED,
        REPAIRED + SOME_SETTLED,
        REPAIRED + ALL_SETTLED,
        BEYOND + NONE_SETTLED,
        BEYOND + SOME_SETTLED,
        REFUSED_MAP,
        14,
        DEAD + REPAIRED + NONE_SETTLED,
        DEAD + REPAIRED + SOME_SETTLED,
        DEAD + REPAIRED + ALL_SETTLED,
        DEAD + BEYOND + NONE_SETTLED,
        DEAD + BEYOND + SOME_SETTLED,
    ],
    sized: true,
};

/// A refused start has a session of zeros beside it; the wrapper's has none.
const START_SESSION: Operation = Operation {
    name: "start_session",
    seed: 22,
    make: Maker::for_check,
    reference: |c| {
        let result = reference::start_session(c.n, c.m, &c.grid, &c.directions);
        c.session = Some(result.clone().unwrap_or_else(|_| reference::no_session()));
        told(result, |_| NO_VALUES)
    },
    flat: |c, b| {
        let result = flat::start_session(c.n, c.m, b.grid.lend(), b.directions.lend());
        *b.session.lend() = result.session.clone();
        started(&result)
    },
    safe: |c, b| {
        let result = chantspruce::Session::start(c.n, c.m, b.grid.lend(), b.directions.lend());
        b.session.set(&reference::no_session());
        said(result, |session| {
            *b.session.lend() = session;
            NO_VALUES
        })
    },
    kind: by_number,
    dead: in_grid,
    kinds: &[0, 1, 2, 3, 4, 5, 6, 7, DEAD, DEAD + 3, DEAD + 5],
    sized: true,
};

/// All answers to a report on any session, and to its preview.
const REPORT_KINDS: [u32; 24] = [
    1,
    3,
    4,
    5,
    6,
    7,
    15,
    22,
    23,
    24,
    RECOVERING + 22,
    RECOVERING + 23,
    TAKES,
    TAKES + 1,
    TAKES + 2,
    TAKES + 3,
    TAKES + 4,
    GIVES_UP,
    GIVES_UP + 1,
    GIVES_UP + 2,
    GIVES_UP + 3,
    GIVES_UP + 4,
    STOPS_AT_255,
    STOPS_AT_0,
];

/// A report to a session that may be damaged or have any counters.
const REPORT_PROCESSOR: Operation = Operation {
    name: "report_processor",
    seed: 23,
    make: Maker::for_report_processor,
    reference: report_told,
    flat: report_flat,
    safe: report_said,
    kind: by_report,
    dead: never,
    kinds: &REPORT_KINDS,
    sized: true,
};

/// Lists of reports from accepted starts on: each report is made to the session that the reports before it have left.
const LIST_OF_REPORTS: Operation = Operation {
    name: "report_processor, in lists",
    seed: 24,
    make: Maker::for_field,
    reference: report_told,
    flat: report_flat,
    safe: report_said,
    kind: by_sound_report,
    dead: never,
    kinds: &[
        15,
        22,
        23,
        24,
        RECOVERING + 22,
        RECOVERING + 23,
        TAKES,
        TAKES + 1,
        TAKES + 2,
        TAKES + 3,
        TAKES + 4,
        GIVES_UP,
        GIVES_UP + 1,
        GIVES_UP + 2,
        GIVES_UP + 3,
        GIVES_UP + 4,
    ],
    sized: true,
};

fn report_told(c: &mut Case) -> Answer {
    let result = c.session.as_mut().map(|session| reference::report_processor(session, c.failing, c.place));
    let result = result.expect("a session");
    c.change = result.unwrap_or_default();
    told(result, |_| NO_VALUES)
}

fn report_flat(c: &Case, b: &mut Buffers) -> Answer {
    verdict(flat::report_processor(b.session.lend(), c.failing, c.place))
}

fn report_said(c: &Case, b: &mut Buffers) -> Answer {
    let session = b.session.lend();
    said(if c.failing { session.fail(c.place) } else { session.recover(c.place) }, |()| NO_VALUES)
}

/// The preview of a report to a session that may be damaged or have any counters. Its values are the direction, and whether all that it tells is
/// what the report leaves on a copy of the session. A refused preview has counters of zeros beside it; the wrapper's has none.
const PREVIEW_PROCESSOR: Operation = Operation {
    name: "preview_processor",
    seed: 25,
    make: Maker::for_report_processor,
    reference: preview_told,
    flat: preview_flat,
    safe: preview_said,
    kind: by_report,
    dead: never,
    kinds: &REPORT_KINDS,
    sized: true,
};

fn no_counters() -> [Vec<u8>; 4] {
    [(); 4].map(|()| vec![0; reference::LENGTH])
}

fn preview_told(c: &mut Case) -> Answer {
    let session = c.session.as_ref().expect("a session");
    let result = reference::preview_processor(session, c.failing, c.place);
    c.change = result.as_ref().map(|seen| seen.change).unwrap_or_default();
    c.counters = result.as_ref().map_or_else(|_| no_counters(), |seen| seen.counters.clone());
    beside_report(told(result, |seen| [seen.direction.into(), 0, 0, 0]), true)
}

/// The answer of a preview, with whether it agrees with the report.
fn beside_report(preview: Answer, agrees: bool) -> Answer {
    Answer { values: [preview.values[0], agrees.into(), 0, 0], ..preview }
}

fn preview_flat(c: &Case, b: &mut Buffers) -> Answer {
    let mut copy = b.session.lend().clone();
    let seen = flat::preview_processor(b.session.lend(), c.failing, c.place);
    let report = flat::report_processor(&mut copy, c.failing, c.place);
    let (direction, counters) = if report.number == 0 { left(&copy, c.place) } else { (0, no_counters()) };
    b.counters = [seen.south, seen.north, seen.east, seen.west].map(|counters| counters.to_vec());
    let first = flat::Verdict { number: seen.number, place: seen.place, second: seen.second };
    let agrees = first == report && seen.direction == u32::from(direction) && b.counters == counters;
    beside_report(Answer { values: [seen.direction as usize, 0, 0, 0], ..verdict(first) }, agrees)
}

fn preview_said(c: &Case, b: &mut Buffers) -> Answer {
    let mut copy = b.session.lend().clone();
    let session = b.session.lend();
    let seen = if c.failing { session.preview_failure(c.place) } else { session.preview_recovery(c.place) };
    let report = if c.failing { copy.fail(c.place) } else { copy.recover(c.place) };
    b.counters = no_counters();
    let seen = seen.map(|seen| {
        b.counters = [seen.south, seen.north, seen.east, seen.west].map(|counters| counters.to_vec());
        seen.direction
    });
    let agrees = match (&seen, report) {
        (Ok(direction), Ok(())) => (*direction, b.counters.clone()) == left(&copy, c.place),
        (Err(preview), Err(report)) => *preview == report,
        _ => false,
    };
    beside_report(said(seen, |direction| [direction.into(), 0, 0, 0]), agrees)
}

/// The direction of a reported processor and all counters, after an accepted report.
fn left(after: &chantspruce::Session, place: usize) -> (u8, [Vec<u8>; 4]) {
    let counters = [&after.south, &after.north, &after.east, &after.west];
    (after.directions[place], counters.map(|counters| counters.to_vec()))
}
