//! The tests of the tests over an area: the model in the place of the host does not differ from itself; each error at the edge of the bytes is
//! found by the sweeps alone, and by random runs alone; and what is printed of it names the byte.

use difftest::area::{Slip, SLIPS};
use difftest::area_cases::{documents_run, sweeps, Runs};
use difftest::area_play::{first_difference, Case, Counts, Program, Wrong};
use std::process::Command;

/// What is printed of the first difference that a slip makes.
fn shown(slip: Slip, cases: impl IntoIterator<Item = Case>) -> Option<String> {
    first_difference(&Wrong(slip), cases, &mut Counts::default()).map(|difference| difference.to_string())
}

fn random_calls() -> impl Iterator<Item = Case> {
    Runs::new(1).take(20_000)
}

#[test]
fn the_model_does_not_differ_from_itself_and_the_cases_lack_nothing() {
    let mut counts = Counts::default();
    let cases = sweeps(1).chain(random_calls());
    assert!(first_difference(&Wrong(Slip::None), cases, &mut counts).is_none());
    assert_eq!(counts.missing(), [""; 0]);
}

#[test]
fn the_sweeps_find_every_slip() {
    for slip in SLIPS {
        assert!(shown(slip, sweeps(1)).is_some(), "{slip:?} was not found");
    }
}

#[test]
fn random_runs_find_every_slip() {
    for slip in SLIPS {
        assert!(shown(slip, random_calls()).is_some(), "{slip:?} was not found");
    }
}

#[test]
fn a_difference_names_the_byte() {
    let says = |slip, what: &str| {
        let shown = shown(slip, sweeps(1)).expect("a difference");
        assert!(shown.contains(what), "{shown}");
    };
    says(Slip::GuardBefore, "guard byte 1 before the area: expected ");
    says(Slip::GuardBehind, "guard byte 1 behind the area: expected ");
    says(Slip::NinthByteOfTheResult, "byte 8 of the result: expected ");
    says(Slip::ZerosAtARefusedOpening, "expected: 1\nfound:    1\nbyte 0 of the area: expected ");
    says(Slip::TwoAtAnOpening, "expected: 1\nfound:    2\nno byte of the arenas differs");
}

#[test]
fn a_host_that_says_nothing_is_found() {
    let host = Program { command: vec!["true".to_string()] };
    let difference = first_difference(&host, documents_run().0, &mut Counts::default()).expect("a difference");
    assert!(difference.to_string().contains("found:    no whole answer; the host ended by exit status: 0"));
    let run = Command::new(env!("CARGO_BIN_EXE_area")).args(["--seed", "1", "true"]).output().expect("a run");
    assert_eq!(run.status.code(), Some(1));
}
