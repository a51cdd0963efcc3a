//! The examples and the samples on the oracle.

use crate::answer::{Answer, Answers, View};
use crate::domain::listed_difference;
use crate::driver::{Driver, Numbered};
use crate::files;
use crate::state;

/// How far a file agrees.
enum Verdict {
    Equal(usize),
    /// Equal up to this line, where a listed difference begins.
    Upto(usize, &'static str),
    Differs(String),
}

/// Compares every answer line with the stored one; `state` lines without
/// their node numbers and ids.
fn compare(trace: &str, expect: &str) -> Result<Verdict, String> {
    let lines = files::read_trace(trace)?;
    let expect = files::read(expect)?;
    let expected: Vec<&str> = expect.lines().collect();
    if expected.len() != lines.len() {
        return Err(format!(
            "{trace}: {} calls, {} answers",
            lines.len(),
            expected.len()
        ));
    }
    let mut driver = Driver::for_calls(&files::ops(&lines));
    for (line, want) in lines.iter().zip(&expected) {
        if let Some(name) = listed_difference(driver.oracle().ok(), &line.op) {
            return Ok(Verdict::Upto(line.number, name));
        }
        let place = format!("{trace}:{}", line.number);
        let answer = driver.call(&line.op);
        let answer = answer.map_err(|why| format!("{place}: outside: {why}"))?;
        let want = match answer {
            Answer::State(_) => {
                let oracle = driver.oracle()?;
                let want = state::from_form(want, oracle, &oracle.table);
                want.ok_or(format!("{place}: its stored state is unreadable"))?
            }
            _ => want.to_string(),
        };
        let got = answer.text(View::Form);
        if got != want {
            let call = &line.op;
            let text = format!("{place}: {call}\n  want {want}\n  Rust {got}");
            return Ok(Verdict::Differs(text));
        }
    }
    Ok(Verdict::Equal(lines.len()))
}

/// Compares all files of a folder; false where one differs.
fn compare_folder(folder: &str) -> Result<bool, String> {
    let names = files::traces(folder)?;
    if names.is_empty() {
        return Err(format!("{folder}: no .trace files"));
    }
    let mut good = true;
    for name in &names {
        let base = format!("{folder}/{name}");
        match compare(&format!("{base}.trace"), &format!("{base}.expect"))? {
            Verdict::Equal(calls) => println!("{name}: {calls} calls equal"),
            Verdict::Upto(line, why) => {
                println!("{name}: equal up to line {line}, where difference '{why}' begins")
            }
            Verdict::Differs(text) => {
                println!("{name}: differs\n{text}");
                good = false;
            }
        }
    }
    Ok(good)
}

/// E1 to E13 as this project keeps them, then the samples.
pub fn examples(examples: &str, samples: &str) -> Result<bool, String> {
    let own = compare_folder(examples)?;
    let given = compare_folder(samples)?;
    Ok(own && given)
}
