//! Compares every operation of the library with the reference, a million calls each, on sound and damaged inputs from fixed seeds.
//! Every second call goes through the wrapper's safe functions, the others take the library's flat structs as they come. The program prints
//! how often each answer came. An operation fails at its first difference, which is printed with all inputs, and when a possible answer never
//! came. As many operations are compared at a time as the machine has cores.

mod examples;
mod guarded;
mod inputs;
mod operations;
mod reference;

use chantspruce::Fault;
use guarded::{Guarded, GuardedSession};
use inputs::{Case, Maker};
use operations::{Answer, OPERATIONS, Operation};
use std::collections::BTreeMap;
use std::num::NonZero;
use std::process::ExitCode;
use std::sync::OnceLock;
use std::sync::atomic::{AtomicUsize, Ordering};
use std::thread;

/// How often each operation is called.
const CALLS: usize = 1_000_000;

/// The buffers of a call and its session, each between guards.
pub struct Buffers {
    pub grid: Guarded<u8>,
    pub directions: Guarded<u8>,
    pub faults: Guarded<Fault>,
    pub places: Guarded<u16>,
    pub across: Guarded<u8>,
    pub down: Guarded<u8>,
    pub file: Guarded<u8>,
    pub out: Guarded<u8>,
    pub session: GuardedSession,
    /// The counters of a preview, which are given by value and have no guards.
    pub counters: [Vec<u8>; 4],
}

impl Buffers {
    fn new() -> Buffers {
        Buffers {
            grid: Guarded::new(u8::from),
            directions: Guarded::new(u8::from),
            faults: Guarded::new(|b| Fault { position: b as usize, direction: b }),
            places: Guarded::new(u16::from),
            across: Guarded::new(u8::from),
            down: Guarded::new(u8::from),
            file: Guarded::new(u8::from),
            out: Guarded::new(u8::from),
            session: GuardedSession::new(),
            counters: Default::default(),
        }
    }

    fn set(&mut self, case: &Case) {
        self.grid.set(&case.grid);
        self.directions.set(&case.directions);
        self.faults.set(&case.faults);
        self.places.set(&case.places);
        self.across.set(&case.across);
        self.down.set(&case.down);
        self.file.set(&case.file);
        self.out.set(&case.out);
        if let Some(session) = &case.session {
            self.session.set(session);
        }
        self.counters.clone_from(&case.counters);
    }

    /// The first buffer that differs from the case's or has a guard changed.
    fn differing(&self, case: &Case) -> Option<&'static str> {
        let held = [
            ("grid", self.grid.holds(&case.grid)),
            ("directions", self.directions.holds(&case.directions)),
            ("faults", self.faults.holds(&case.faults)),
            ("places", self.places.holds(&case.places)),
            ("across", self.across.holds(&case.across)),
            ("down", self.down.holds(&case.down)),
            ("file", self.file.holds(&case.file)),
            ("out", self.out.holds(&case.out)),
            ("session", case.session.as_ref().is_none_or(|session| self.session.holds(session))),
            ("counters", self.counters == case.counters),
        ];
        held.into_iter().find(|(_, same)| !same).map(|(name, _)| name)
    }
}

/// Makes one call and says what differs from the reference's answer and buffers.
fn difference(
    buffers: &mut Buffers,
    before: &Case,
    after: &Case,
    expected: Answer,
    call: fn(&Case, &mut Buffers) -> Answer,
) -> Option<String> {
    buffers.set(before);
    let answer = call(before, buffers);
    if answer != expected {
        return Some(format!("answer {answer:?}\nshould be {expected:?}"));
    }
    let name = buffers.differing(after)?;
    Some(format!("answer {answer:?}\nthe buffer {name} or a guard beside it is not as it should be\n{}", held(buffers, name, after)))
}

/// What a buffer holds after a call, and what it should.
fn held(buffers: &mut Buffers, name: &str, after: &Case) -> String {
    let (buffer, wanted) = match name {
        "grid" => (&mut buffers.grid, &after.grid),
        "directions" => (&mut buffers.directions, &after.directions),
        "across" => (&mut buffers.across, &after.across),
        "down" => (&mut buffers.down, &after.down),
        "file" => (&mut buffers.file, &after.file),
        "out" => (&mut buffers.out, &after.out),
        "session" => return format!("it holds {:?}\nshould be {:?}", buffers.session.lend(), after.session),
        "faults" => return format!("it holds {:?}\nshould be {:?}", buffers.faults.lend(), after.faults),
        "counters" => return format!("they are {:?}\nshould be {:?}", buffers.counters, after.counters),
        _ => return format!("places {:?}\nshould be {:?}", buffers.places.lend(), after.places),
    };
    format!("it holds {:?}\nshould be {wanted:?}", buffer.lend())
}

/// How often each answer came, and how often an accepted call, of a map that is not refused, had the largest array.
#[derive(Default)]
struct Tally {
    answers: BTreeMap<u32, usize>,
    largest: usize,
}

fn compare(operation: &Operation) -> Result<Tally, String> {
    let mut maker = Maker::new(operation.seed);
    let mut buffers = Buffers::new();
    let mut tally = Tally::default();
    for index in 0..CALLS {
        let before = (operation.make)(&mut maker);
        let mut after = before.clone();
        let expected = (operation.reference)(&mut after);
        let call = if index % 2 == 0 { operation.flat } else { operation.safe };
        if let Some(found) = difference(&mut buffers, &before, &after, expected, call) {
            return Err(format!("call {index}: {found}\nwith {before:?}"));
        }
        let kind = (operation.kind)(&expected, &after);
        let dead = if (operation.dead)(operation, kind, &before) { operations::DEAD } else { 0 };
        *tally.answers.entry(dead + kind).or_default() += 1;
        let accepted = expected.number == 0 && kind != operations::REFUSED_MAP;
        tally.largest += usize::from(accepted && before.n == 30 && before.m == 30);
    }
    Ok(tally)
}

/// What a tally lacks.
fn lacking(operation: &Operation, tally: &Tally) -> Option<String> {
    let missing = operation.kinds.iter().find(|kind| !tally.answers.contains_key(kind));
    let strange = tally.answers.keys().find(|kind| !operation.kinds.contains(kind));
    let total: usize = tally.answers.values().sum();
    missing
        .map(|&kind| format!("{} never came", operations::kind_name(kind)))
        .or(strange.map(|&kind| format!("{} should not come", operations::kind_name(kind))))
        .or((total < CALLS).then(|| format!("only {total} calls")))
        .or((operation.sized && tally.largest == 0).then(|| "no accepted call with the largest array".to_string()))
}

fn print(operation: &Operation, tally: &Tally) {
    let total: usize = tally.answers.values().sum();
    println!("{}: {total} calls, {} of the accepted ones 30 x 30", operation.name, tally.largest);
    for (&kind, count) in &tally.answers {
        println!("    {:<36} {count:>8}", operations::kind_name(kind));
    }
}

/// What each operation's comparison found, in their order.
fn compare_all() -> Vec<OnceLock<Result<Tally, String>>> {
    let found: Vec<_> = OPERATIONS.iter().map(|_| OnceLock::new()).collect();
    let turns: Vec<_> = OPERATIONS.iter().zip(&found).collect();
    let next = AtomicUsize::new(0);
    let cores = thread::available_parallelism().map_or(1, NonZero::get);
    thread::scope(|scope| {
        for _ in 0..cores {
            scope.spawn(|| {
                while let Some(&(operation, place)) = turns.get(next.fetch_add(1, Ordering::Relaxed)) {
                    let _ = place.set(compare(operation));
                }
            });
        }
    });
    found
}

fn passes(operation: &Operation, found: Option<&Result<Tally, String>>) -> bool {
    let problem = match found {
        Some(Ok(tally)) => {
            print(operation, tally);
            lacking(operation, tally)
        }
        Some(Err(found)) => Some(found.clone()),
        None => Some("not compared".to_string()),
    };
    if let Some(problem) = &problem {
        println!("FAILED {}: {problem}", operation.name);
    }
    problem.is_none()
}

fn main() -> ExitCode {
    if let Some(example) = examples::failing() {
        println!("FAILED: the reference does not give {example}");
        return ExitCode::FAILURE;
    }
    let found = compare_all();
    if !OPERATIONS.iter().zip(&found).all(|(operation, found)| passes(operation, found.get())) {
        return ExitCode::FAILURE;
    }
    println!("all {} comparisons agree with the reference", OPERATIONS.len());
    ExitCode::SUCCESS
}
