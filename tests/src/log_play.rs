//! Logs handed to a program that replays them, and the line that it prints compared with the judgement of log_judge.rs.
//!
//!   Case        a log with its kind, what it shows, and the line that is due
//!   Replayer    what judges a log: `Program`, which is `replay` or another command, or `Wrong`, the judgement with a slip
//!   first_difference   the first log of which another line is printed, if there is one
//!   Difference  that log, and what was found; it is shown for a person
//!   Counts      what was compared: logs by kind and verdict, and by the rule that was broken first; `missing` names what never came
//!
//! A program judges one log and ends, so each log is a start of its own.

use crate::log::BLOCK;
use crate::log_judge::{broken, judged, Slip, Verdict, BLOCK_RULES, RECORD_RULES, SHORT};
use std::fmt;
use std::io::{Read, Write};
use std::process::{Child, Command, Stdio};
use std::sync::mpsc;
use std::thread;
use std::time::Duration;

/// No end for this long, and the program counts as one that does not end.
const PATIENCE: Duration = Duration::from_secs(60);
/// As many bytes can be written into a pipe before they are read.
const LEAST_PIPE: usize = 4_096;
/// Between pieces of a log, so that each is read by itself.
const PAUSE: Duration = Duration::from_micros(100);

#[derive(Clone, Debug)]
pub struct Case {
    pub kind: &'static str,
    pub shows: String,
    pub log: Vec<u8>,
    pub due: Verdict,
    /// The log comes in pieces of so many bytes.
    pub piece: Option<usize>,
}

impl Case {
    pub fn new(kind: &'static str, shows: impl Into<String>, log: Vec<u8>) -> Case {
        let due = judged(&log, Slip::None);
        Case { kind, shows: shows.into(), log, due, piece: None }
    }

    /// The rule that makes the first bad block bad. Of an empty log no block is there to break one.
    fn broken(&self) -> Option<&'static str> {
        let Verdict::Damaged(block) = self.due else { return None };
        let blocks: Vec<&[u8]> = self.log.chunks(BLOCK).collect();
        (!blocks.is_empty()).then(|| broken(&blocks, block as usize, Slip::None))?
    }
}

pub trait Replayer {
    /// All that is printed of a log, and how the program ended where that is not as it should be.
    fn said(&self, case: &Case) -> String;
}

/// A command that reads a log from standard input.
pub struct Program {
    pub command: Vec<String>,
}

impl Program {
    fn start(&self) -> Child {
        let (name, args) = self.command.split_first().expect("a command");
        let command = Command::new(name).args(args).stdin(Stdio::piped()).stdout(Stdio::piped()).spawn();
        command.unwrap_or_else(|why| panic!("cannot start {name}: {why}"))
    }
}

/// The log, at once or in its pieces. A program that ends early closes its input: it is judged by what it prints.
fn feed(case: &Case, mut input: impl Write) {
    for piece in case.log.chunks(case.piece.unwrap_or(usize::MAX)) {
        if input.write_all(piece).is_err() {
            return;
        }
        case.piece.iter().for_each(|_| thread::sleep(PAUSE));
    }
}

impl Replayer for Program {
    fn said(&self, case: &Case) -> String {
        let mut child = self.start();
        let (input, mut output) = (child.stdin.take().expect("a pipe"), child.stdout.take().expect("a pipe"));
        let (send, receive) = mpsc::channel();
        thread::scope(|both| {
            both.spawn(move || {
                let mut said = Vec::new();
                let _ = output.read_to_end(&mut said);
                let _ = send.send(said);
            });
            if case.log.len() <= LEAST_PIPE {
                feed(case, input);
            } else {
                both.spawn(move || feed(case, input));
            }
            let said = receive.recv_timeout(PATIENCE);
            if said.is_err() {
                let _ = child.kill();
            }
            let said = said.map_or("(no end)".to_string(), |said| String::from_utf8_lossy(&said).into_owned());
            match child.wait() {
                Ok(status) if status.success() => said,
                ended => format!("{said}(ended by {ended:?})"),
            }
        })
    }
}

/// The judgement with a slip in the place of the program.
pub struct Wrong(pub Slip);

impl Replayer for Wrong {
    fn said(&self, case: &Case) -> String {
        format!("{}\n", judged(&case.log, self.0))
    }
}

pub struct Difference {
    pub case: Case,
    found: String,
}

impl fmt::Display for Difference {
    fn fmt(&self, f: &mut fmt::Formatter) -> fmt::Result {
        let Case { kind, shows, due, .. } = &self.case;
        let rule = self.case.broken().map_or(String::new(), |rule| format!(" ({rule})"));
        writeln!(f, "A difference, shown by a log of {} bytes: {kind}, {shows}\n", self.case.log.len())?;
        write!(f, "expected: {due}{rule}\nfound:    {}", self.found.trim_end_matches('\n'))
    }
}

/// A program prints the line, its newline, and nothing more.
pub fn first_difference(replayer: &impl Replayer, cases: impl IntoIterator<Item = Case>, counts: &mut Counts) -> Option<Difference> {
    for case in cases {
        let found = replayer.said(&case);
        if found != format!("{}\n", case.due) {
            return Some(Difference { case, found });
        }
        counts.count(&case);
    }
    None
}

#[derive(Clone, Debug, Default)]
pub struct Counts {
    kinds: Vec<(&'static str, [u64; 3])>,
    rules: Vec<(&'static str, u64)>,
    bytes: u64,
}

impl Counts {
    fn count(&mut self, case: &Case) {
        self.bytes += case.log.len() as u64;
        let verdict = match case.due {
            Verdict::Agrees { .. } => 0,
            Verdict::Differs(_) => 1,
            Verdict::Damaged(_) => 2,
        };
        of(&mut self.kinds, case.kind)[verdict] += 1;
        if let Some(rule) = case.broken() {
            *of(&mut self.rules, rule) += 1;
        }
    }

    pub fn logs(&self) -> u64 {
        self.kinds.iter().flat_map(|(_, verdicts)| verdicts).sum()
    }

    pub fn bytes(&self) -> u64 {
        self.bytes
    }

    /// A line for each kind of log, with the verdicts; then one for each rule that was the first to be broken.
    pub fn lines(&self) -> Vec<String> {
        let mut lines = vec![format!("{:<56}{:>8}{:>8}{:>8}", "logs", "agrees", "differs", "damaged")];
        lines.extend(self.kinds.iter().map(|(kind, [agrees, differs, damaged])| format!("{kind:<56}{agrees:>8}{differs:>8}{damaged:>8}")));
        lines.push("damaged, and why:".to_string());
        lines.extend(self.rules.iter().map(|(rule, count)| format!("{rule:<56}{count:>24}")));
        lines
    }

    /// Rules that no log was the first to break, and verdicts that were never due.
    pub fn missing(&self) -> Vec<&'static str> {
        let rules = BLOCK_RULES.iter().map(|rule| rule.0).chain(RECORD_RULES.iter().map(|rule| rule.0)).chain([SHORT]);
        let never = rules.filter(|rule| self.rules.iter().all(|(seen, _)| seen != rule));
        let verdicts = ["agrees", "differs", "damaged"].into_iter().enumerate();
        let undue = verdicts.filter(|(i, _)| self.kinds.iter().all(|(_, counts)| counts[*i] == 0));
        never.chain(undue.map(|(_, verdict)| verdict)).collect()
    }
}

/// The count of this name, which is new where there was none.
fn of<'c, T: Default>(counts: &'c mut Vec<(&'static str, T)>, name: &'static str) -> &'c mut T {
    let place = counts.iter().position(|(known, _)| *known == name).unwrap_or_else(|| {
        counts.push((name, T::default()));
        counts.len() - 1
    });
    &mut counts[place].1
}
