//! Plays calls over an area through a host of the static library, and compares the number, both buffers and the guard bytes around them with the
//! model after each call: document 01's run, sweeps, and random runs.
//!
//!   area [--seed N] [--calls N] COMMAND [WORDS..]
//!
//! COMMAND speaks as tests/area_host.c does. The seed is printed; without one it is taken from the clock. `--calls` are those of random runs. On a
//! difference the call is printed with its bytes, what was expected and what was found, and the exit status is 1. It is 1 too where a long run
//! lacked a refusal or a situation: such a run shows too little.

use difftest::area_cases::{documents_run, sweeps, Runs};
use difftest::area_play::{first_difference, Case, Counts, Program};
use difftest::options::Options;
use std::process::ExitCode;
use std::time::Instant;

/// A run of so many random calls must lack nothing.
const LONG_RUN: u64 = 20_000;

/// The host answers these as the model does; else the first call that shows a difference is printed.
fn agrees(host: &Program, cases: impl IntoIterator<Item = Case>, counts: &mut Counts) -> bool {
    let difference = first_difference(host, cases, counts);
    difference.iter().for_each(|difference| println!("{difference}"));
    difference.is_none()
}

/// Document 01's run has the answers and the bytes that it states.
fn run_holds(host: &Program, counts: &mut Counts) -> bool {
    let (cases, is_as_stated) = documents_run();
    let (calls, holds) = (cases.len(), is_as_stated && agrees(host, cases, counts));
    if holds {
        println!("document 01's run: {calls} calls hold, and the bytes after steps 5 and 12");
    }
    holds
}

fn main() -> ExitCode {
    let Options { seed, calls, command } = Options::of_the_command("area", LONG_RUN);
    println!("seed {seed}");
    let (began, host) = (Instant::now(), Program { command });
    let mut counts = Counts::default();
    let agree = run_holds(&host, &mut counts)
        && agrees(&host, sweeps(seed), &mut counts)
        && agrees(&host, Runs::new(seed).take(calls as usize), &mut counts);
    println!("{}", counts.lines().join("\n"));
    println!("{} calls: {} bytes compared, in {:.1} s", counts.calls(), counts.bytes, began.elapsed().as_secs_f64());
    if !agree {
        println!("NOT the same (seed {seed})");
        return ExitCode::FAILURE;
    }
    println!("no difference");
    let missing = counts.missing();
    if calls < LONG_RUN || missing.is_empty() {
        return ExitCode::SUCCESS;
    }
    println!("NEVER SEEN (seed {seed}): {}", missing.join("; "));
    ExitCode::FAILURE
}
