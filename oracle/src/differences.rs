//! The inputs of the listed differences: what the Rust does, beside what
//! document 01 says.

use crate::absolute;
use crate::answer::{Answer, View};
use crate::files;
use crate::list::Mode;
use crate::state;

/// How a trace wants the Rust called: its first line says so.
fn mode_of(trace: &str) -> (Mode, &'static str) {
    match trace.lines().next() {
        Some("# plain") => (Mode::Plain, " (no guards)"),
        Some("# raw") => (Mode::Raw, " (no guards, no tests)"),
        _ => (Mode::Guarded, ""),
    }
}

/// One call on which the two differ, by absolute positions.
struct Differs {
    call: String,
    want: String,
    got: String,
}

/// What a run of one input came to.
struct Shown {
    answers: String,
    differs: Vec<Differs>,
}

/// Runs the trace `base` and holds the answers against document 01's.
fn run_trace(base: &str, trace: &str, mode: Mode) -> Result<Shown, String> {
    let lines = files::read_trace(trace)?;
    let expect = files::read(&format!("{base}.expect"))?;
    let mut wanted = expect.lines();
    let mut rust = mode.start(&files::ops(&lines));
    let (mut answers, mut differs) = (String::new(), Vec::new());
    for line in &lines {
        let place = format!("{trace}:{}", line.number);
        let answer = rust.call(&line.op);
        let answer = answer.map_err(|e| format!("{place}: outside: {e}"))?;
        let want = wanted.next().ok_or(format!("{base}.expect: too short"))?;
        let want = match answer {
            Answer::State(_) => state::from_form(want, rust.oracle()?, &rust.oracle()?.table),
            _ => absolute::line(rust.oracle()?, want),
        };
        let want = want.ok_or(format!("{base}.expect: unreadable answer for {place}"))?;
        let got = answer.text(View::Absolute);
        answers += &format!("{got}\n");
        if got != want {
            let call = line.op.to_string();
            differs.push(Differs { call, want, got });
        }
    }
    Ok(Shown { answers, differs })
}

/// Whether the page names the input and quotes both answers. Refused calls
/// stand in a table instead.
fn on_page(page: &str, name: &str, shown: &Shown) -> bool {
    let says = |text: &str| page.contains(&format!("`{text}`"));
    let quoted = |d: &Differs| says(&d.want) && says(&d.got);
    says(name) && (name.starts_with("refused") || shown.differs.iter().all(quoted))
}

/// Runs one input and prints where the two differ; true if the Rust's
/// answers are as stored and as the page says.
fn show(folder: &str, name: &str, page: &str) -> Result<bool, String> {
    let base = format!("{folder}/{name}");
    let trace = format!("{base}.trace");
    let (mode, remark) = mode_of(&files::read(&trace)?);
    println!("{name}{remark}");
    let shown = run_trace(&base, &trace, mode)?;
    for Differs { call, want, got } in &shown.differs {
        let (call, dots) = match call.get(..100) {
            Some(start) => (start, " .."),
            None => (call.as_str(), ""),
        };
        println!("  {call}{dots}\n    01:   {want}\n    Rust: {got}");
    }
    let stored = files::read(&format!("{base}.rust"))?;
    let faults = [
        (shown.differs.is_empty(), "shows no difference".into()),
        (stored != shown.answers, format!("differs from {base}.rust")),
        (
            !on_page(page, name, &shown),
            "is not what the page says".into(),
        ),
    ];
    for (_, fault) in faults.iter().filter(|f| f.0) {
        println!("  FAULT: {name} {fault}");
    }
    Ok(faults.iter().all(|f| !f.0))
}

/// Runs all inputs of a folder and compares with the stored answers and with
/// the page that lists the differences.
pub fn run(folder: &str, page: &str) -> Result<bool, String> {
    let page = files::read(page)?;
    let names = files::traces(folder)?;
    let mut good = 0;
    for name in &names {
        good += show(folder, name, &page)? as usize;
    }
    println!("{good} of {} as stored and as the page says", names.len());
    Ok(good == names.len())
}
