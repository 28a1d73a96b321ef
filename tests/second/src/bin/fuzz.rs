//! `fuzz SEED COUNT` judges random texts and prints what came up.

use std::process::ExitCode;

fn main() -> ExitCode {
    second::fuzz::command(|_, _, _| Ok(()))
}
