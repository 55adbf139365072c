//! The tests of the tests over logs: the judgement does not differ from itself, and the logs lack nothing; each error in the judgement, and each rule
//! left out of it, is found by the sweeps alone; and what is printed of it names the log and the rule.

use difftest::log_cases::{blind_spots, sweeps, Random};
use difftest::log_claims::CLAIMS;
use difftest::log_judge::{judged, slips, Slip, Verdict};
use difftest::log_play::{first_difference, Case, Counts, Program, Wrong};
use std::process::Command;

const RUNNER: &str = env!("CARGO_BIN_EXE_log_runner");
const MODEL: &str = env!("CARGO_BIN_EXE_model_replay");

/// What is printed of the first difference that a slip makes.
fn shown(slip: Slip, cases: impl IntoIterator<Item = Case>) -> Option<String> {
    first_difference(&Wrong(slip), cases, &mut Counts::default()).map(|difference| difference.to_string())
}

#[test]
fn the_judgement_does_not_differ_from_itself_and_the_logs_lack_nothing() {
    let mut counts = Counts::default();
    assert!(first_difference(&Wrong(Slip::None), sweeps().chain(Random::new(1).take(1_000)), &mut counts).is_none());
    assert_eq!(counts.missing(), [""; 0]);
}

#[test]
fn the_sweeps_find_every_slip() {
    let cases: Vec<Case> = sweeps().collect();
    for slip in slips() {
        let finds = |case: &&Case| judged(&case.log, slip) != case.due;
        let found = cases.iter().find(finds).unwrap_or_else(|| panic!("{slip:?} was not found"));
        println!("{slip:?}: {}, {}", found.kind, found.shows);
    }
}

#[test]
fn the_claims_find_the_slips_that_the_request_names() {
    let named = [
        Slip::Without("its number is not its place in the log"),
        Slip::Without("the check's b is not the sum"),
        Slip::SumsModulo65536,
        Slip::DifferencePastADamagedBlock,
        Slip::Without("an open that is not the first record"),
        Slip::CallsAfterARefusedOpenPlayed,
        Slip::Without("it has fewer than 12 records, and is not the last block"),
        Slip::DifferenceBeforeDamageInOneBlock,
    ];
    for slip in named {
        assert!(slips().contains(&slip), "{slip:?} is no slip");
        assert!(CLAIMS.iter().any(|claim| judged(&(claim.log)(), slip).to_string() != claim.line), "{slip:?} was not found");
    }
}

/// Of the exchanged words that the check cannot see, most break another rule or change an answer. Those that agree change the limit, or a name or
/// a change of a refused call, and no answer with it.
#[test]
fn most_of_the_checks_blind_spots_are_caught_by_other_rules() {
    let mut counts = [0; 3];
    for case in blind_spots() {
        counts[match case.due {
            Verdict::Agrees { .. } => 0,
            Verdict::Differs(_) => 1,
            Verdict::Damaged(_) => 2,
        }] += 1;
    }
    assert_eq!(counts, [29, 154, 494]);
}

#[test]
fn a_difference_names_the_log_and_the_rule() {
    let shown = shown(Slip::Without("its record count is not 1 to 12"), sweeps()).expect("a difference");
    assert!(shown.contains("expected: damaged 1 (its record count is not 1 to 12)\nfound:    agrees 26 3000"), "{shown}");
}

#[test]
fn a_program_that_says_nothing_is_found() {
    let program = Program { command: vec!["true".to_string()] };
    let difference = first_difference(&program, sweeps(), &mut Counts::default()).expect("a difference");
    assert!(difference.to_string().contains("expected: agrees 13 1024\nfound:    "));
}

#[test]
fn the_runner_ends_with_status_1_on_a_slip_and_keeps_the_log() {
    let folder = std::env::temp_dir().join(format!("log_runner-{}", std::process::id()));
    std::fs::create_dir_all(&folder).expect("a folder");
    let words = ["--seed", "1", MODEL, "RefusalNotCompared"];
    let run = Command::new(RUNNER).args(words).current_dir(&folder).output().expect("a run");
    let said = String::from_utf8_lossy(&run.stdout).into_owned();
    let kept = std::fs::read(folder.join("target/tests/difference.log")).expect("a log");
    std::fs::remove_dir_all(&folder).expect("removed");
    assert_eq!(run.status.code(), Some(1), "{said}");
    assert!(said.contains("expected: differs 9\nfound:    agrees 13 1024\n"), "{said}");
    assert_eq!(judged(&kept, Slip::None), Verdict::Differs(9));
}
