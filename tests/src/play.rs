//! Scripts played through a program, and compared with the model.
//!
//!   Program      the command under test
//!   compare      the first difference between the program and the model over a stream of scripts, if there is one
//!   shrink       the shortest script found that still shows a difference

use crate::model::Model;
use crate::script::{state_line, summary_line, words_line, Machine};
use crate::tally::{Met, Tally};
use std::io::{BufRead, BufReader, Write};
use std::process::{Command, Stdio};
use std::sync::mpsc;
use std::thread;
use std::time::{Duration, Instant};

/// No answer for this long, and the program counts as one that answers no more.
const PATIENCE: Duration = Duration::from_secs(30);

/// So many lines before a difference are tried by themselves.
const MOST_BACK: usize = 4;

/// Shrinking stops after this long with what it has.
const SHRINK_TIME: Duration = Duration::from_secs(60);

pub const NO_ANSWER: &str = "(no answer)";

pub struct Program {
    pub command: Vec<String>,
}

/// Line `line` of a stream is answered otherwise than it must be.
#[derive(Clone, Debug, PartialEq, Eq)]
pub struct Difference {
    pub line: usize,
    pub expected: String,
    pub found: String,
}

impl Program {
    /// The lines that the program prints for these lines, as far as they come.
    fn answers(&self, lines: &[String]) -> Vec<String> {
        let (name, args) = self.command.split_first().expect("a command");
        let mut child = Command::new(name)
            .args(args)
            .stdin(Stdio::piped())
            .stdout(Stdio::piped())
            .spawn()
            .unwrap_or_else(|why| panic!("cannot start {name}: {why}"));
        let mut input = child.stdin.take().expect("a pipe");
        let output = BufReader::new(child.stdout.take().expect("a pipe"));
        let text = lines.join("\n") + "\n";
        // A program that ends early closes its input: what could not be written then has no answer, and that is seen.
        let feeder = thread::spawn(move || input.write_all(text.as_bytes()).is_ok());
        let (send, receive) = mpsc::channel();
        let reader = thread::spawn(move || {
            for line in output.split(b'\n') {
                let Ok(line) = line else { break };
                if send.send(String::from_utf8_lossy(&line).into_owned()).is_err() {
                    break;
                }
            }
        });
        let mut answers = Vec::new();
        while let Ok(answer) = receive.recv_timeout(PATIENCE) {
            answers.push(answer);
        }
        drop(receive);
        // A program that has not ended by now is stuck; one that has ended is not hurt.
        let _ = child.kill();
        let _ = child.wait();
        let _ = feeder.join();
        let _ = reader.join();
        answers
    }
}

/// The first line that the program answers otherwise than `expected` says; lines for which it says nothing have no answer.
pub fn first_difference(program: &Program, lines: &[String], expected: &[Option<String>]) -> Option<Difference> {
    differs(program.answers(lines), expected)
}

/// The first line whose answer, of those that were found, is not the one expected.
fn differs(found: Vec<String>, expected: &[Option<String>]) -> Option<Difference> {
    let mut found = found.into_iter();
    for (line, expected) in expected.iter().enumerate() {
        let Some(expected) = expected else { continue };
        let found = found.next().unwrap_or_else(|| NO_ANSWER.to_string());
        if found != *expected {
            return Some(Difference { line, expected: expected.clone(), found });
        }
    }
    found.next().map(|found| Difference { line: expected.len(), expected: NO_ANSWER.to_string(), found })
}

/// The model's answers to a stream of lines, and what each line met.
fn expected(lines: &[String]) -> (Vec<Option<String>>, Vec<Met>) {
    let mut machine = Machine::default();
    let mut play = |line: &String| {
        let before = Met::before(line, &machine.model);
        (machine.answer(line), before.and_after(&machine.model))
    };
    lines.iter().map(&mut play).unzip()
}

pub fn compare(program: &Program, lines: &[String], tally: &mut Tally) -> Option<Difference> {
    // The model answers while the program does.
    let (found, (expected, met)) = thread::scope(|both| {
        let found = both.spawn(|| program.answers(lines));
        let expected = expected(lines);
        (found.join().expect("the program's answers"), expected)
    });
    let difference = differs(found, &expected);
    let compared = difference.as_ref().map_or(lines.len(), |d| d.line);
    for (answer, met) in expected.iter().zip(&met).take(compared) {
        if let Some(answer) = answer {
            tally.count(answer, met);
        }
    }
    difference
}

/// The model's table, state and summary before line `from`, each set by a line, and the lines from there on up to `to`.
fn jumped(lines: &[String], from: usize, to: usize) -> Vec<String> {
    let mut machine = Machine::default();
    for line in &lines[..from] {
        machine.answer(line);
    }
    let Model { table, state, summary, .. } = &machine.model;
    let set = [words_line(table), state_line(state), summary_line(summary)];
    set.into_iter().chain(lines[from..to].iter().cloned()).collect()
}

/// A start for shrinking: the last lines alone, over the state, table and summary that they met, where that still shows a difference.
fn last_lines(program: &Program, lines: &[String], difference: Difference) -> (Vec<String>, Difference) {
    let to = lines.len().min(difference.line + 1);
    for back in 1..=MOST_BACK.min(to) {
        let fewer = jumped(lines, to - back, to);
        if let Some(difference) = compare(program, &fewer, &mut Tally::default()) {
            return (fewer, difference);
        }
    }
    (lines[..to].to_vec(), difference)
}

/// Lines are left out, many at a time and then one by one, as long as a difference stays.
pub fn shrink(program: &Program, lines: &[String], difference: Difference) -> (Vec<String>, Difference) {
    let began = Instant::now();
    let (mut best, mut seen) = last_lines(program, lines, difference);
    let mut part = best.len().div_ceil(2);
    while part > 0 {
        let mut from = 0;
        while from < best.len() && began.elapsed() < SHRINK_TIME {
            let mut fewer = best.clone();
            fewer.drain(from..(from + part).min(best.len()));
            match compare(program, &fewer, &mut Tally::default()) {
                Some(difference) => {
                    fewer.truncate(difference.line + 1);
                    best = fewer;
                    seen = difference;
                }
                None => from += part,
            }
        }
        part /= 2;
    }
    (best, seen)
}
