//! Plays the calls of document 01 and of requests E2 and E3, then sweeps, then random scripts through a program that speaks `filespace`'s
//! language, and compares every answer, every word and every number of the summary with the model.
//!
//!   runner [--seed N] [--calls N] COMMAND [WORDS..]
//!
//! The seed is printed; without one it is taken from the clock. On a difference the script is shrunk and printed with what was
//! expected and what was found, and the exit status is 1. It is 1 too where a run of 20,000 calls or more lacked a call, one of its refusals,
//! a situation or an edge of a name: such a run shows too little.

use difftest::document::{script_of, Claim};
use difftest::draw::Draw;
use difftest::generate::script;
use difftest::options::Options;
use difftest::play::{compare, first_difference, shrink, Difference, Program};
use difftest::tally::Tally;
use difftest::{document, request_e2, request_e3, sweep};
use std::process::ExitCode;
use std::time::Instant;

/// Scripts that one run of the program plays, one after the other: each starts with an opening.
const SCRIPTS_IN_A_RUN: usize = 100;

/// A run of so many calls must lack nothing.
const LONG_RUN: u64 = 20_000;

fn report(lines: &[String], difference: &Difference) {
    println!("A difference, shown by these {} lines:", lines.len());
    println!();
    for line in lines {
        println!("    {}", line.trim_end());
    }
    println!();
    println!("expected: {}", difference.expected);
    println!("found:    {}", difference.found);
}

/// The claims of a paper hold of the program.
fn claims_hold(program: &Program, paper: &str, claims: &[Claim]) -> bool {
    for claim in claims {
        let lines = script_of(claim);
        let stated: Vec<_> = claim.calls.iter().map(|(_, answer)| Some(answer.to_string())).collect();
        if let Some(difference) = first_difference(program, &lines, &stated) {
            println!("{paper}: {}", claim.says);
            report(&lines[..lines.len().min(difference.line + 1)], &difference);
            return false;
        }
    }
    println!("{paper}: {} claims hold", claims.len());
    true
}

/// A run of scripts agrees with the model; else the shortest script that shows a difference is printed.
fn run_agrees(program: &Program, scripts: &[Vec<String>], tally: &mut Tally) -> bool {
    let stream: Vec<String> = scripts.iter().flatten().cloned().collect();
    let Some(difference) = compare(program, &stream, tally) else {
        return true;
    };
    let (lines, difference) = shrink(program, &stream, difference);
    report(&lines, &difference);
    false
}

/// The sweeps and random scripts agree with the model, until enough calls of random scripts were compared.
fn scripts_agree(program: &Program, seed: u64, calls: u64, tally: &mut Tally) -> bool {
    let mut draw = Draw::new(seed);
    let mut agree = run_agrees(program, &sweep::scripts(), tally);
    let swept = tally.calls();
    while agree && tally.calls() < swept + calls {
        let scripts: Vec<Vec<String>> = (0..SCRIPTS_IN_A_RUN).map(|_| script(&mut draw)).collect();
        agree = run_agrees(program, &scripts, tally);
    }
    agree
}

/// A long run lacked nothing; else what it lacked is printed.
fn lacks_nothing(seed: u64, calls: u64, tally: &Tally) -> bool {
    let missing = tally.missing();
    if calls < LONG_RUN || missing.is_empty() {
        return true;
    }
    println!("NEVER SEEN (seed {seed}): {}", missing.join("; "));
    false
}

fn main() -> ExitCode {
    let Options { seed, calls, command } = Options::of_the_command("runner", LONG_RUN);
    println!("seed {seed}");
    let (began, program) = (Instant::now(), Program { command });
    let mut tally = Tally::default();
    let papers = [("document 01", document::CLAIMS), ("request E2", request_e2::CLAIMS), ("request E3", request_e3::CLAIMS)];
    let hold = papers.iter().all(|(paper, claims)| claims_hold(&program, paper, claims));
    let agree = hold && scripts_agree(&program, seed, calls, &mut tally);
    println!("{}", tally.lines().join("\n"));
    let Tally { answers, words, summaries, wrong_lines, .. } = tally;
    println!("{} calls and {wrong_lines} wrong lines: {answers} answers, {words} words and {summaries} summaries compared", tally.calls());
    println!("in {:.1} s", began.elapsed().as_secs_f64());
    if !agree {
        println!("NOT the same (seed {seed})");
        return ExitCode::FAILURE;
    }
    println!("no difference");
    if lacks_nothing(seed, calls, &tally) { ExitCode::SUCCESS } else { ExitCode::FAILURE }
}
