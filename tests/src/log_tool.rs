//! Logs for people, and for measuring: it writes the log of a script, shows one as text, and writes a long one.
//!
//!   log write SCRIPT                  the log of a script of calls (examples/log)
//!   log show LOG                      a log as text (examples/show-log)
//!   log long BLOCKS ENTRIES SEED      a log of so many blocks whose table hovers about so many entries; what `replay` must say of it goes to
//!                                     standard error
//!   log refused BLOCKS ENTRIES SEED   the same calls behind a refused opening
//!
//! A file may be -, standard input. What is no text goes to no terminal. A wrong call, script or file is told in a line, and the status is 2.

use difftest::log_long::{write_long, Opening};
use difftest::log_script::log_of_script;
use difftest::log_show::shown;
use std::fs::File;
use std::io::{self, stderr, stdin, stdout, BufWriter, IsTerminal, Read, Write};
use std::process::ExitCode;

const USAGE: &str = "log write SCRIPT | show LOG | long BLOCKS ENTRIES SEED | refused BLOCKS ENTRIES SEED";

fn read(file: &str) -> Result<Vec<u8>, String> {
    let mut bytes = Vec::new();
    let read = match file {
        "-" => stdin().lock().read_to_end(&mut bytes),
        _ => File::open(file).and_then(|mut open| open.read_to_end(&mut bytes)),
    };
    read.map(|_| bytes).map_err(|why| format!("{file}: {why}"))
}

/// Standard output, for bytes that are no text.
fn for_bytes() -> Result<impl Write, String> {
    if stdout().is_terminal() {
        Err("a log is no text: send it to a file".to_string())
    } else {
        Ok(BufWriter::new(stdout().lock()))
    }
}

/// What came of writing; a reader that wants no more is no fault.
fn written(result: io::Result<()>) -> Result<(), String> {
    match result {
        Err(why) if why.kind() != io::ErrorKind::BrokenPipe => Err(why.to_string()),
        _ => Ok(()),
    }
}

fn write(file: &str) -> Result<(), String> {
    let mut output = for_bytes()?;
    let script = String::from_utf8(read(file)?).map_err(|_| format!("{file}: no text"))?;
    let log = log_of_script(&script).map_err(|why| format!("{file}: {why}"))?;
    written(output.write_all(&log).and_then(|()| output.flush()))
}

fn show(file: &str) -> Result<(), String> {
    let log = read(file)?;
    let mut output = BufWriter::new(stdout().lock());
    let mut lines = shown(&log);
    written(lines.try_for_each(|line| writeln!(output, "{line}")).and_then(|()| output.flush()))
}

fn long(blocks: &str, entries: &str, seed: &str, opening: Opening) -> Result<(), String> {
    let number = |word: &str| word.parse::<u32>().map_err(|_| format!("{word}: not a number below 2^32"));
    let (blocks, entries, seed) = (number(blocks)?, number(entries)?, number(seed)?);
    let mut output = for_bytes()?;
    written(write_long(blocks, u64::from(entries), u64::from(seed), opening, &mut output).and_then(|verdict| {
        output.flush()?;
        writeln!(stderr(), "{verdict}")
    }))
}

fn main() -> ExitCode {
    let words: Vec<String> = std::env::args().skip(1).collect();
    let asked: Vec<&str> = words.iter().map(String::as_str).collect();
    let done = match asked[..] {
        ["write", script] => write(script),
        ["show", log] => show(log),
        ["long", blocks, entries, seed] => long(blocks, entries, seed, Opening::Done),
        ["refused", blocks, entries, seed] => long(blocks, entries, seed, Opening::Refused),
        _ => Err(USAGE.to_string()),
    };
    match done {
        Ok(()) => ExitCode::SUCCESS,
        Err(why) => {
            eprintln!("log: {why}");
            ExitCode::from(2)
        }
    }
}
