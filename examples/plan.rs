//! Plans the repair of a map file by the Rust wrapper, rust/chantspruce.rs: prints the outcome, where the trials are spent
//! also that of the exact planner, and where each path goes.

use chantspruce::{BUFFER, Decision, Outcome, direction, plan_exactly, plan_repair, read_map};
use std::error::Error;

fn main() -> Result<(), Box<dyn Error>> {
    let name = std::env::args().nth(1).ok_or("usage: plan FILE")?;
    let (mut grid, mut directions) = ([0; BUFFER], [0; BUFFER]);
    let map = read_map(&std::fs::read(name)?, &mut grid)?;
    match plan_repair(map.rows, map.columns, &grid, &mut directions, 1_000_000)? {
        Outcome::Repaired(trials) => println!("repaired, trials: {trials}"),
        Outcome::Beyond(trials) => println!("beyond repair, trials: {trials}"),
        Outcome::Spent(limit) => {
            println!("not decided within {limit} trials; now the exact planner");
            match plan_exactly(map.rows, map.columns, &grid, &mut directions)? {
                Decision::Repaired => println!("repaired"),
                Decision::Beyond => println!("beyond repair"),
            }
        }
    }
    for (position, &to) in directions.iter().enumerate() {
        let word = match to {
            direction::SOUTH => "south",
            direction::NORTH => "north",
            direction::EAST => "east",
            direction::WEST => "west",
            _ => continue,
        };
        println!("row {}, column {}: {word}", position / 32, position % 32);
    }
    Ok(())
}
