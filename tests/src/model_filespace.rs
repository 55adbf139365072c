//! Speaks `filespace`'s script language with the model: scripts from standard input, answers to standard output.
//!
//!   model_filespace [SLIP]
//!
//! SLIP names one of the errors that document 01 warns of, one in the summary, one in what is wrong with a name or in the way to it, or the
//! default page size of before request E7 (`model::SLIPS`), so that it can be seen that the runner finds it.

use difftest::model::{Model, Slip, SLIPS};
use difftest::script::Machine;
use std::io::{BufRead, BufWriter, Write};

fn slip_named(name: &str) -> Slip {
    match SLIPS.iter().find(|(known, _)| *known == name) {
        Some((_, slip)) => *slip,
        None => panic!("no slip has the name {name}"),
    }
}

fn main() -> std::io::Result<()> {
    let slip = std::env::args().nth(1).map_or(Slip::None, |name| slip_named(&name));
    if slip != Slip::None {
        // A wrong model may break down. The runner sees that the answers end there, and the tests stay readable.
        std::panic::set_hook(Box::new(|_| {}));
    }
    let mut machine = Machine::new(Model { slip, ..Model::default() });
    let mut output = BufWriter::new(std::io::stdout().lock());
    for line in std::io::stdin().lock().lines() {
        if let Some(answer) = machine.answer(&line?) {
            writeln!(output, "{answer}")?;
        }
    }
    output.flush()
}
