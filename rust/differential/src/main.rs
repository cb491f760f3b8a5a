//! Runs the proved library against the reference and compares every bit.
//!
//! Each run is made from a seed alone, whatever the number of threads. It ends with
//! status 1 where an answer differs, and with 2 where the command is not understood.

mod caches;
mod centers;
mod checker;
mod contours;
mod damaged_files;
mod damaged_marks;
mod decoder;
mod distances;
mod files;
mod floats;
mod grids;
mod large_files;
mod layers;
mod leaves;
mod lengths;
mod lent_slices;
mod marked_paths;
mod meeting_plates;
mod mujou;
mod near;
mod other_paths;
mod pairs;
mod parked_points;
mod passed_over;
mod path_check;
mod path_lengths;
mod paths;
mod plate_calls;
mod plate_case;
mod plate_file;
mod plates;
mod record;
mod reference;
mod remainders;
mod retrace_call;
mod retrace_plates;
mod rule;
mod run;
mod small_marks;
mod tally;
mod touches;

use std::env;
use std::fs;
use std::process::ExitCode;
use std::thread;

use run::Plan;

const USAGE: &str = "\
usage: differential distances --pairs N --seed S [--threads T]
       differential lengths --pairs N --seed S [--threads T]
       differential leaves --pairs N --seed S [--threads T]
       differential centers --pairs N --seed S [--threads T]
       differential grids --plates N --seed S [--threads T]
       differential caches --plates N --seed S [--threads T]
       differential plates --plates N --seed S [--threads T]
       differential plate --kind K --seed S
       differential retrace --plates N --seed S [--threads T]
       differential retrace-plate --kind K --seed S
       differential paths --plates N --seed S [--threads T]
       differential paths-plate --kind K --seed S
       differential contours --plates N --seed S [--threads T]
       differential contours-plate --kind K --seed S
       differential files --files N --seed S [--threads T]
       differential file --kind K --seed S
       differential record-distances --out FILE
       differential record-plates --out FILE
       differential record-retrace --out FILE
       differential record-paths --out FILE
       differential record-contours --out FILE
       differential record-files --out FILE";

fn main() -> ExitCode {
    let words: Vec<String> = env::args().skip(1).collect();
    match command(&words) {
        Ok(true) => ExitCode::SUCCESS,
        Ok(false) => ExitCode::FAILURE,
        Err(message) => {
            eprintln!("differential: {message}\n{USAGE}");
            ExitCode::from(2)
        }
    }
}

/// Whether every answer was the same.
fn command(words: &[String]) -> Result<bool, String> {
    let (name, rest) = words.split_first().ok_or("no command")?;
    match name.as_str() {
        "distances" => Ok(distances::run(plan(rest, "--pairs")?)),
        "lengths" => Ok(lengths::run(plan(rest, "--pairs")?)),
        "leaves" => Ok(leaves::run(plan(rest, "--pairs")?)),
        "centers" => Ok(centers::run(plan(rest, "--pairs")?)),
        "grids" => Ok(grids::run(plan(rest, "--plates")?)),
        "caches" => Ok(caches::run(plan(rest, "--plates")?)),
        "plates" => Ok(plate_calls::run(plan(rest, "--plates")?)),
        "plate" => {
            let [kind, seed] = options(rest, ["--kind", "--seed"])?;
            plate_calls::run_one(number("--kind", kind)?, number("--seed", seed)?)
        }
        "retrace" => Ok(retrace_call::run(plan(rest, "--plates")?)),
        "retrace-plate" => {
            let [kind, seed] = options(rest, ["--kind", "--seed"])?;
            retrace_call::run_one(number("--kind", kind)?, number("--seed", seed)?)
        }
        "paths" => Ok(paths::run(plan(rest, "--plates")?)),
        "paths-plate" => {
            let [kind, seed] = options(rest, ["--kind", "--seed"])?;
            paths::run_one(number("--kind", kind)?, number("--seed", seed)?)
        }
        "contours" => Ok(contours::run(plan(rest, "--plates")?)),
        "contours-plate" => {
            let [kind, seed] = options(rest, ["--kind", "--seed"])?;
            contours::run_one(number("--kind", kind)?, number("--seed", seed)?)
        }
        "files" => Ok(files::run(plan(rest, "--files")?)),
        "file" => {
            let [kind, seed] = options(rest, ["--kind", "--seed"])?;
            files::run_one(number("--kind", kind)?, number("--seed", seed)?)
        }
        "record-distances" => record(rest, record::distances),
        "record-plates" => record(rest, record::plates),
        "record-retrace" => record(rest, record::retrace::retraces),
        "record-paths" => record(rest, record::paths::paths),
        "record-contours" => record(rest, record::contours::contours),
        "record-files" => record(rest, record::files::files),
        _ => Err(format!("no command {name}")),
    }
}

/// Writes the rows to the file that is named.
fn record(words: &[String], rows: impl Fn() -> String) -> Result<bool, String> {
    let [file] = options(words, ["--out"])?;
    let file = file.ok_or("--out is missing")?;
    fs::write(file, rows()).map_err(|e| format!("{file}: {e}"))?;
    Ok(true)
}

/// The plan, the number of whose cases follows the option `cases`.
fn plan(words: &[String], cases: &str) -> Result<Plan, String> {
    let [pairs, seed, threads] = options(words, [cases, "--seed", "--threads"])?;
    let threads = match threads {
        Some(_) => number("--threads", threads)?,
        None => thread::available_parallelism().map_or(1, |n| n.get() as u64),
    };
    Ok(Plan {
        pairs: number(cases, pairs)?,
        seed: number("--seed", seed)?,
        threads: threads.clamp(1, 256) as usize,
    })
}

fn number(name: &str, word: Option<&str>) -> Result<u64, String> {
    let word = word.ok_or_else(|| format!("{name} is missing"))?;
    word.parse().map_err(|e| format!("{word}: {e}"))
}

/// The words that follow each of the named options.
fn options<'a, const N: usize>(
    words: &'a [String],
    names: [&str; N],
) -> Result<[Option<&'a str>; N], String> {
    let mut values = [None; N];
    for pair in words.chunks(2) {
        let [name, value] = pair else {
            return Err(format!("{} has no value", pair[0]));
        };
        let at = names.iter().position(|n| n == name);
        values[at.ok_or_else(|| format!("no option {name}"))?] = Some(value.as_str());
    }
    Ok(values)
}
