//! Differential tests of the programs `filespace` and `replay`, and of the static library over an area of bytes.
//!
//!   model      document 01's space with request E2's summary and request E3's refusals: soundness, opening and the calls, read literally
//!   summary    the numbers of a summary, worked out from entries
//!   message    document 01's File Space Info message
//!   script     the program's script language, answered by the model
//!   document   document 01's own run and sentences, as calls with their answers
//!   request_e2, request_e3   the sentences of these requests, in the same form
//!   sweep      scripts that change a good table, state or message in each place in turn, or name a piece at each address or entry
//!   generate   random scripts, drawn with the model's knowledge of the table
//!   draw       random numbers from a seed
//!   tally      what was compared, and what a run must not lack
//!   play       a script played through a program, compared, and shrunk on a difference
//!   area       request E5's calls over an area of bytes
//!   area_cases document 01's run, sweeps and random runs over an area
//!   area_play  such calls played through a host of the static library, and compared
//!   log        request E6's log of blocks, and what a recorder writes down of a call
//!   log_judge  what is to be said of any bytes that may be a log
//!   log_claims the sentences of request E6: logs with the line that is due
//!   log_cases  logs with every kind of damage, and random ones; log_long   long ones
//!   log_play   logs handed to a program that replays them, and compared
//!   log_script the log of a script; log_show   a log as text
//!   options    the words of a runner's command
//!
//! Programs: `runner` plays scripts through the program that it is given; `model_filespace` speaks the program's script
//! language with the model, right or with one of document 01's errors, one in a summary, or one in what is wrong with a name or in the way to it,
//! so that the runner itself can be tested. `area` plays calls over an area through tests/area_host.c. `log_runner` hands logs to `replay`;
//! `model_replay` judges one as `replay` does, by the model, right or with an error; `log` writes one and shows one.

pub mod area;
pub mod area_cases;
pub mod area_play;
pub mod document;
pub mod draw;
pub mod generate;
pub mod log;
pub mod log_cases;
pub mod log_claims;
pub mod log_judge;
pub mod log_long;
pub mod log_play;
pub mod log_script;
pub mod log_show;
pub mod message;
pub mod model;
pub mod options;
pub mod play;
pub mod request_e2;
pub mod request_e3;
pub mod script;
pub mod summary;
pub mod sweep;
pub mod tally;
