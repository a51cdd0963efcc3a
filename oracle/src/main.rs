//! The Rust as oracle: answers to lines of the replay form, workloads, and
//! the comparisons with stored files. Called by `oracle/run`.

mod absolute;
mod answer;
mod beside;
mod calls;
mod compare;
mod config;
mod differences;
mod domain;
mod driver;
mod events;
mod feed;
mod files;
mod form;
mod fx;
mod kv_cache;
mod limits;
mod list;
mod maker;
mod pick;
mod plain;
mod program;
mod raw;
mod rng;
mod slips;
mod state;

// radix.rs says `use rustc_hash::FxHashMap`.
extern crate self as rustc_hash;
pub use fx::FxHashMap;

use answer::View;
use list::Mode;
use std::process::ExitCode;

const USAGE: &str = "usage: oracle answer [--absolute | --plain | --raw] FILE
       oracle maker SEED N KIND
       oracle list PLAN FOLDER
       oracle examples EXAMPLES SAMPLES
       oracle differences FOLDER PAGE
       oracle beside [--calls N] [--seed S] [--slip NAME] -- PROGRAM ..
       oracle slips [--calls N] [--seed S] -- PROGRAM ..";

/// What a subcommand comes to: equal or not, or an error with its place.
type Outcome = Result<bool, String>;

fn run(args: &[&str]) -> Option<Outcome> {
    Some(match args {
        ["answer", file] => list::answer_file(file, Mode::Guarded, View::Form),
        ["answer", "--absolute", file] => list::answer_file(file, Mode::Guarded, View::Absolute),
        ["answer", "--plain", file] => list::answer_file(file, Mode::Plain, View::Absolute),
        ["answer", "--raw", file] => list::answer_file(file, Mode::Raw, View::Absolute),
        ["maker", seed, n, kind] => {
            let (seed, n) = (seed.parse().ok()?, n.parse().ok()?);
            list::print_workload(seed, n, kind)
        }
        ["list", plan, folder] => list::make(plan, folder),
        ["examples", examples, samples] => compare::examples(examples, samples),
        ["differences", folder, page] => differences::run(folder, page),
        ["beside", options @ ..] => beside::run(&beside::Options::read(options)?),
        ["slips", options @ ..] => beside::slips(&beside::Options::read(options)?),
        _ => return None,
    })
}

fn main() -> ExitCode {
    let args: Vec<String> = std::env::args().skip(1).collect();
    let args: Vec<&str> = args.iter().map(String::as_str).collect();
    match run(&args) {
        None => {
            eprintln!("{USAGE}");
            ExitCode::from(2)
        }
        Some(Ok(true)) => ExitCode::SUCCESS,
        Some(Ok(false)) => ExitCode::from(1),
        Some(Err(why)) => {
            eprintln!("{why}");
            ExitCode::from(1)
        }
    }
}
