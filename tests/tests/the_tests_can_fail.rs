//! The tests of the tests: the runner finds nothing between the model and itself, and finds each of document 01's errors, each error in a
//! summary, each in what is wrong with a name and in the way to it, and another default, by random scripts alone, shrunk to few lines. Those in a
//! name it finds by request E3's claims alone and by the sweep of names alone, too; those in the way to it by the sweep of counts alone; another
//! default by document 01's claims alone.

use difftest::document::{self, script_of, Claim};
use difftest::draw::Draw;
use difftest::generate::script;
use difftest::model::SLIPS;
use difftest::play::{compare, first_difference, shrink, Program};
use difftest::tally::Tally;
use difftest::{request_e3, sweep};
use std::process::Command;

const RUNNER: &str = env!("CARGO_BIN_EXE_runner");
const MODEL: &str = env!("CARGO_BIN_EXE_model_filespace");

/// The slips in what is wrong with a name.
const OF_A_NAME: [&str; 4] = ["free-told-as-inside", "end-told-as-free", "other-size-told-as-inside", "beyond-the-end-a-byte-late"];

/// The slips in the way to a named piece.
const BY_HALVES: [&str; 2] = ["half-passes-over-an-entry", "half-leaves-out-the-last-entry"];

/// The model with a slip.
fn wrong_model(slip: &str) -> Program {
    Program { command: vec![MODEL.to_string(), slip.to_string()] }
}

/// What the claims state, the model with a slip does not answer.
fn claims_find(claims: &[Claim], slip: &str) -> bool {
    let lines: Vec<String> = claims.iter().flat_map(script_of).collect();
    let stated: Vec<_> = claims.iter().flat_map(|claim| claim.calls).map(|(_, answer)| Some(answer.to_string())).collect();
    first_difference(&wrong_model(slip), &lines, &stated).is_some()
}

/// Twenty random scripts, the same ones in every run of the tests.
fn scripts(seed: u64) -> Vec<String> {
    let mut draw = Draw::new(seed);
    (0..20).flat_map(|_| script(&mut draw)).collect()
}

#[test]
fn the_model_does_not_differ_from_itself() {
    let run = Command::new(RUNNER).args(["--seed", "1", "--calls", "20000", MODEL]).output().expect("a run");
    assert!(run.status.success(), "{}", String::from_utf8_lossy(&run.stdout));
}

#[test]
fn the_runner_ends_with_status_1_on_first_fit() {
    let run = Command::new(RUNNER).args(["--seed", "1", MODEL, "first-fit"]).output().expect("a run");
    assert_eq!(run.status.code(), Some(1));
}

#[test]
fn random_scripts_find_every_slip_and_shrink_to_few_lines() {
    for (name, _) in SLIPS {
        let program = wrong_model(name);
        let differs = |seed| {
            let stream = scripts(seed);
            compare(&program, &stream, &mut Tally::default()).map(|difference| (stream, difference))
        };
        let (stream, difference) = (1..=15).find_map(differs).unwrap_or_else(|| panic!("{name} was not found"));
        let (lines, difference) = shrink(&program, &stream, difference);
        assert!(lines.len() <= 5, "{name}: {} lines", lines.len());
        println!("{name}, by {} lines: expected '{}', found '{}'", lines.len(), difference.expected, difference.found);
    }
}

#[test]
fn the_claims_of_request_e3_find_every_slip_in_a_name() {
    for name in OF_A_NAME {
        assert!(claims_find(request_e3::CLAIMS, name), "{name} was not found");
    }
}

#[test]
fn the_claims_of_the_document_find_another_default() {
    assert!(claims_find(document::CLAIMS, "default-page-as-before"));
}

#[test]
fn the_sweep_of_names_finds_every_slip_in_a_name() {
    let lines = sweep::names();
    for name in OF_A_NAME {
        assert!(compare(&wrong_model(name), &lines, &mut Tally::default()).is_some(), "{name} was not found");
    }
}

#[test]
fn the_sweep_of_counts_finds_every_slip_by_halves() {
    let lines = sweep::counts();
    for name in BY_HALVES {
        assert!(compare(&wrong_model(name), &lines, &mut Tally::default()).is_some(), "{name} was not found");
    }
}

#[test]
fn a_program_that_says_nothing_is_found() {
    let program = Program { command: vec!["true".to_string()] };
    let difference = compare(&program, &scripts(1), &mut Tally::default()).expect("a difference");
    assert_eq!((difference.line, difference.found.as_str()), (0, "(no answer)"));
}
