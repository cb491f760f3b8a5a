//! `twill` reads plates, has the proved library join them, and shows or writes what it gave.

#![forbid(unsafe_code)]

mod args;
mod damage;
mod failure;
mod help;
mod joined_plate;
mod marks;
mod number;
mod output;
mod passes;
mod plate;
mod plate_file;
mod quote;
mod read;
mod refusals;
mod run;
mod step;
mod tell;
mod verify;
mod view;
mod words;
mod write;

use failure::Failure;
use std::process::ExitCode;

fn main() -> ExitCode {
    let words: Result<Vec<String>, _> =
        std::env::args_os().skip(1).map(|word| word.into_string()).collect();
    let outcome = match words {
        Ok(words) => args::parse(&words).map_err(Failure::usage).and_then(|asked| run::run(&asked)),
        Err(word) => Err(Failure::usage(format!("{word:?} on the command line is no UTF-8 text"))),
    };
    match outcome {
        Ok(()) => ExitCode::SUCCESS,
        Err(failure) => {
            if let Some(line) = &failure.line {
                output::report(line);
            }
            ExitCode::from(failure.status)
        }
    }
}
