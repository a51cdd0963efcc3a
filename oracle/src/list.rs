//! Answers to a file, workloads, and the stored list.

use crate::answer::{Answer, Answers, View};
use crate::driver::{Driver, Numbered};
use crate::files::{self, Line};
use crate::form::Op;
use crate::maker;
use crate::plain::Plain;
use crate::raw::Raw;

/// How the Rust is called.
#[derive(Debug, Clone, Copy, PartialEq, Eq)]
pub enum Mode {
    Guarded,
    Plain,
    Raw,
}

impl Mode {
    pub fn start(self, ops: &[Op]) -> Box<dyn Numbered> {
        match self {
            Mode::Guarded => Box::new(Driver::for_calls(ops)),
            Mode::Plain => Box::new(Plain::for_calls(ops)),
            Mode::Raw => Box::new(Raw::for_calls(ops)),
        }
    }
}

pub fn answer_file(path: &str, mode: Mode, view: View) -> Result<bool, String> {
    let lines = files::read_trace(path)?;
    let mut answers = mode.start(&files::ops(&lines));
    for line in &lines {
        match answers.call(&line.op) {
            Ok(answer) => println!("{}", answer.text(view)),
            Err(why) => {
                println!("outside: {why}");
                return Err(format!("{path}:{}: outside: {why}", line.number));
            }
        }
    }
    Ok(true)
}

pub fn print_workload(seed: u64, n: usize, kind: &str) -> Result<bool, String> {
    maker::workload(seed, n, kind)?
        .iter()
        .for_each(|op| println!("{op}"));
    Ok(true)
}

/// The answers of a trace, and the state after every so many calls and after
/// the last.
fn answered(path: &str, lines: &[Line], every: usize) -> Result<(String, String), String> {
    let mut driver = Driver::for_calls(&files::ops(lines));
    let (mut expect, mut states) = (String::new(), String::new());
    for (i, line) in lines.iter().enumerate() {
        let place = |why| format!("{path}:{}: outside: {why}", line.number);
        let answer = driver.call(&line.op).map_err(place)?;
        expect += &format!("{}\n", answer.text(View::Form));
        let calls = i + 1;
        if calls % every == 0 || calls == lines.len() {
            if let Answer::State(state) = driver.call(&Op::State)? {
                states += &format!("{calls} {state}\n");
            }
        }
    }
    Ok((expect, states))
}

/// A line of the plan.
struct Entry<'a> {
    name: &'a str,
    seed: u64,
    calls: usize,
    kind: &'a str,
    /// The state is kept after every so many calls.
    every: usize,
}

impl<'a> Entry<'a> {
    fn read(line: &'a str) -> Option<Self> {
        let words: Vec<&str> = line.split_whitespace().collect();
        let [name, seed, calls, kind, every] = words[..] else {
            return None;
        };
        Some(Self {
            name,
            seed: seed.parse().ok()?,
            calls: calls.parse().ok()?,
            kind,
            every: every.parse().ok()?,
        })
    }

    /// Writes the three files and says how many calls they have.
    fn make(&self, folder: &str) -> Result<usize, String> {
        let base = format!("{folder}/{}", self.name);
        let trace = format!("{base}.trace");
        let mut text = String::new();
        for op in maker::workload(self.seed, self.calls, self.kind)? {
            text += &format!("{op}\n");
        }
        files::write(&trace, &text)?;
        let lines = files::read_trace(&trace)?;
        let (expect, states) = answered(&trace, &lines, self.every)?;
        files::write(&format!("{base}.expect"), &expect)?;
        files::write(&format!("{base}.states"), &states)?;
        Ok(lines.len())
    }
}

/// Makes all entries of a plan.
pub fn make(plan: &str, folder: &str) -> Result<bool, String> {
    let text = files::read(plan)?;
    let mut calls = 0;
    for (i, line) in text.lines().enumerate() {
        if line.starts_with('#') {
            continue;
        }
        let odd = || format!("{plan}:{}: a line is NAME SEED N KIND EVERY", i + 1);
        let entry = Entry::read(line).ok_or_else(odd)?;
        let made = entry.make(folder)?;
        println!("{}: {made} calls", entry.name);
        calls += made;
    }
    println!("together: {calls} calls");
    Ok(true)
}
