//! Judges a log as `replay` does, by the model: a log from standard input, one line to standard output.
//!
//!   model_replay [SLIP]
//!
//! SLIP names one of the errors of `log_judge::slips`, as Debug prints it, so that it can be seen that the runner finds it.

use difftest::log_judge::{judged, slips, Slip};
use std::io::Read;

fn slip_named(name: &str) -> Slip {
    let is_named = |slip: &Slip| format!("{slip:?}") == name;
    slips().into_iter().find(is_named).unwrap_or_else(|| panic!("no slip has the name {name}"))
}

fn main() -> std::io::Result<()> {
    let slip = std::env::args().nth(1).map_or(Slip::None, |name| slip_named(&name));
    let mut log = Vec::new();
    std::io::stdin().lock().read_to_end(&mut log)?;
    println!("{}", judged(&log, slip));
    Ok(())
}
