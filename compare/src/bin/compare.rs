//! Compares the static library with the independent version over generated inputs.
//!
//! `compare [count] [seed]` tries so many sessions, and lists of calls and pairs beside them. It ends with status 0 where all
//! answers are the same and every refusal was seen. `compare --self-check` plants errors into the library's answers and ends with
//! status 0 where each of them is found.

use battenlime_compare::comparison::run;
use battenlime_compare::interface::{Independent, Library};
use battenlime_compare::planted::{Plant, Planted};
use std::env;
use std::process::ExitCode;
use std::time::Instant;

const COUNT: u64 = 250_000;
const SEED: u64 = 20_250_101;

fn main() -> ExitCode {
    let arguments: Vec<String> = env::args().skip(1).collect();
    if arguments.iter().any(|argument| argument == "--self-check") {
        return self_check();
    }
    let number = |index: usize, default| arguments.get(index).map_or(Ok(default), |text| text.parse());
    let (Ok(count), Ok(seed)) = (number(0, COUNT), number(1, SEED)) else {
        eprintln!("usage: compare [count] [seed] | --self-check");
        return ExitCode::FAILURE;
    };
    compare(count, seed)
}

fn compare(count: u64, seed: u64) -> ExitCode {
    let begin = Instant::now();
    let (tally, difference) = run(&mut Library, &mut Independent, count, seed);
    println!("{count} sessions, seed {seed}, {} seconds\n\n{tally}", begin.elapsed().as_secs());
    if let Some(difference) = difference {
        println!("{difference}\n1 difference after {} inputs", tally.inputs);
        return ExitCode::FAILURE;
    }
    let unseen = tally.unseen();
    if !unseen.is_empty() {
        println!("never seen: {}", unseen.join(", "));
        println!("{} inputs, 0 differences, but too few kinds of answers", tally.inputs);
        return ExitCode::FAILURE;
    }
    println!("{} inputs, 0 differences", tally.inputs);
    ExitCode::SUCCESS
}

/// Every planted error must show as a difference in its own call.
fn self_check() -> ExitCode {
    let mut found = 0;
    for plant in Plant::ALL {
        let (tally, difference) = run(&mut Planted::new(Library, plant, 50), &mut Independent, 1000, SEED);
        match difference {
            Some(difference) if difference.call == plant.call() => {
                println!("{plant:?}: found in {} after {} inputs", difference.call, tally.inputs);
                found += 1;
            }
            Some(difference) => println!("{plant:?}: another difference\n{difference}"),
            None => println!("{plant:?}: NOT found"),
        }
    }
    println!("{found} of {} planted errors found", Plant::ALL.len());
    if found == Plant::ALL.len() { ExitCode::SUCCESS } else { ExitCode::FAILURE }
}
