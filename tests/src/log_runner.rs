//! Hands logs to a program that replays them, and compares the line that it prints: the claims of request E6, then sweeps and random runs, by the
//! model's judgement.
//!
//!   log_runner [--seed N] [--calls N] COMMAND [WORDS..]
//!
//! COMMAND reads a log from standard input and prints one line. The seed is printed; without one it is taken from the clock. `--calls` are the
//! records of random runs, about. FEWER is a number: but for random runs, of so many logs one is taken, where a program starts slowly. On a
//! difference the log is kept in a file, and printed are what it shows, the line that was expected and the one that was found; the exit status is
//! 1. It is 1 too where the logs lacked a rule to break or a verdict: such a run shows too little.

use difftest::log_cases::{long_logs, sweeps, Random};
use difftest::log_claims::CLAIMS;
use difftest::log_play::{first_difference, Case, Counts, Program};
use difftest::options::Options;
use std::process::ExitCode;
use std::time::Instant;

const CALLS: u64 = 20_000;
/// A random log has about so many records.
const RECORDS_OF_A_LOG: u64 = 20;
/// Where the log of a difference is kept.
const KEPT: &str = "target/tests/difference.log";

/// The program prints what is due of these; else the first log that shows a difference is kept and told.
fn agrees(program: &Program, cases: impl IntoIterator<Item = Case>, counts: &mut Counts) -> bool {
    let Some(difference) = first_difference(program, cases, counts) else {
        return true;
    };
    println!("{difference}");
    let kept = std::fs::create_dir_all("target/tests").and_then(|()| std::fs::write(KEPT, &difference.case.log));
    match kept {
        Ok(()) => println!("the log is in {KEPT}: examples/show-log {KEPT}"),
        Err(why) => println!("the log could not be kept in {KEPT}: {why}"),
    }
    false
}

/// The claims hold of the program.
fn claims_hold(program: &Program) -> bool {
    let case = |says: &str, log: Vec<u8>| Case::new("request E6", says, log);
    for claim in CLAIMS {
        let case = case(claim.says, (claim.log)());
        if case.due.to_string() != claim.line {
            println!("request E6: {}: the model says '{}', and not '{}'", claim.says, case.due, claim.line);
            return false;
        }
        if !agrees(program, [case], &mut Counts::default()) {
            return false;
        }
    }
    println!("request E6: {} claims hold", CLAIMS.len());
    true
}

fn main() -> ExitCode {
    let Options { seed, calls, command } = Options::of_the_command("log_runner", CALLS);
    let fewer = std::env::var("FEWER").ok().and_then(|number| number.parse().ok()).filter(|fewer| *fewer > 0).unwrap_or(1);
    println!("seed {seed}");
    let (began, program) = (Instant::now(), Program { command });
    let mut counts = Counts::default();
    let random = Random::new(seed).take((calls / RECORDS_OF_A_LOG) as usize);
    let agree = claims_hold(&program)
        && agrees(&program, sweeps().step_by(fewer), &mut counts)
        && agrees(&program, random, &mut counts)
        && agrees(&program, long_logs().step_by(fewer), &mut counts);
    println!("{}", counts.lines().join("\n"));
    println!("{} logs of {} bytes together, in {:.1} s", counts.logs(), counts.bytes(), began.elapsed().as_secs_f64());
    if !agree {
        println!("NOT the same (seed {seed})");
        return ExitCode::FAILURE;
    }
    println!("no difference");
    let missing = counts.missing();
    if fewer > 1 || missing.is_empty() {
        return ExitCode::SUCCESS;
    }
    println!("NEVER SEEN (seed {seed}): {}", missing.join("; "));
    ExitCode::FAILURE
}
