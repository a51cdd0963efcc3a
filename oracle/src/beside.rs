//! The Rust and a program of the replay form side by side: the same calls to
//! both, and answer and state compared after every one.

use crate::events::{Events, Seen, EVENTS};
use crate::feed::Feed;
use crate::files;
use crate::form::Op;
use crate::maker;
use crate::program::{Answered, Program};
use crate::slips::{Slip, SLIPS};
use std::collections::{BTreeMap, BTreeSet};
use std::sync::mpsc;
use std::thread;
use std::time::{Duration, Instant};

/// Where the calls that led to a difference are kept.
const TRACE: &str = "target/oracle/beside.trace";

const MILLION: usize = 1_000_000;

/// How often each thing has to happen in a million calls.
const LEAST: u64 = 10_000;

/// A planted slip has to be noticed within so many calls.
const SLIP_CALLS: usize = 20_000;

const PROGRESS: Duration = Duration::from_secs(2);

/// Differences that the guards keep the Rust from, so no call is skipped.
const GUARDED: [&str; 7] = [
    "merge-path",
    "merge-mark",
    "merge-join",
    "merge-pins",
    "prune",
    "pins-on-number",
    "reused-number",
];

/// Differences for which a call is not made. Refused calls are put to the
/// Rust never, and to the program where a pool is full.
const SKIPPED: [&str; 4] = ["mark-on-head", "pins-unheld", "bytes-at-0", maker::REFUSED];

pub struct Options {
    calls: Option<usize>,
    seed: u64,
    slip: Option<(&'static str, Slip)>,
    program: Vec<String>,
}

impl Options {
    /// None where the words are no such options.
    pub fn read(words: &[&str]) -> Option<Self> {
        let at = words.iter().position(|w| *w == "--")?;
        let mut options = Self {
            calls: None,
            seed: 1,
            slip: None,
            program: words[at + 1..].iter().map(|w| w.to_string()).collect(),
        };
        for pair in words[..at].chunks(2) {
            match *pair {
                ["--calls", n] => options.calls = Some(n.parse().ok().filter(|n| *n > 0)?),
                ["--seed", s] => options.seed = s.parse().ok()?,
                ["--slip", name] => {
                    let slip = SLIPS.iter().find(|s| s.0 == name);
                    options.slip = Some(*slip?);
                }
                _ => return None,
            }
        }
        (!options.program.is_empty()).then_some(options)
    }
}

/// The first call on which the two sides differ.
struct Difference {
    call: usize,
    /// The answer or the state.
    what: &'static str,
    line: String,
    rust: String,
    program: String,
}

impl Difference {
    fn print(&self, seed: u64) {
        let (call, what) = (self.call, self.what);
        println!(
            "call {call} of seed {seed} differs in its {what}: {}",
            short(&self.line)
        );
        println!("  Rust:    {}", short(&self.rust));
        println!("  program: {}", short(&self.program));
    }
}

/// A text of which a reader can see the start.
fn short(text: &str) -> String {
    match text.char_indices().nth(2000) {
        Some((at, _)) => format!("{} ..", &text[..at]),
        None => text.to_string(),
    }
}

/// The parts of a state line that another does not have.
fn parts_of_one(line: &str, other: &str) -> String {
    let known: BTreeSet<&str> = other.split(" | ").collect();
    let apart = line.split(" | ").filter(|p| !known.contains(p));
    apart.collect::<Vec<_>>().join(" | ")
}

/// Both state lines without the parts they share, or whole where only the
/// order or the number of parts differs.
fn parts_apart(rust: &str, program: &str) -> (String, String) {
    let apart = (parts_of_one(rust, program), parts_of_one(program, rust));
    match apart.0.is_empty() && apart.1.is_empty() {
        true => (rust.to_string(), program.to_string()),
        false => apart,
    }
}

/// What both sides answered alike so far.
#[derive(Default)]
struct Tally {
    calls: usize,
    by_name: BTreeMap<String, u64>,
    events: Events,
    refused: BTreeMap<String, u64>,
}

impl Tally {
    fn count(&mut self, seen: &Seen, line: &str) {
        self.calls += 1;
        let name = line.split(' ').next().unwrap_or("");
        *self.by_name.entry(name.to_string()).or_default() += 1;
        for (all, one) in self.events.iter_mut().zip(seen.events) {
            *all += one;
        }
        if let Some(number) = seen.answer.strip_prefix("refused ") {
            *self.refused.entry(number.to_string()).or_default() += 1;
        }
    }

    /// Prints the counts; false where something happened too seldom.
    fn print(&self, skipped: &BTreeMap<&'static str, u64>) -> bool {
        print_counts("calls", self.by_name.iter().map(|(n, c)| (n.as_str(), *c)));
        let events = EVENTS.iter().copied().zip(self.events);
        print_counts("happened", events.clone());
        print_counts(
            "refusals met",
            self.refused.iter().map(|(n, c)| (n.as_str(), *c)),
        );
        let skipped = SKIPPED.map(|name| (name, skipped.get(name).copied().unwrap_or(0)));
        print_counts("skipped for a listed difference", skipped.into_iter());
        println!("kept from by the guards: {}", GUARDED.join(", "));
        let seldom: Vec<&str> = events.filter(|e| e.1 < LEAST).map(|e| e.0).collect();
        let enough = self.calls < MILLION || seldom.is_empty();
        if !enough {
            println!("happened less than {LEAST} times: {}", seldom.join(", "));
        }
        enough
    }
}

fn print_counts<'a>(title: &str, counts: impl Iterator<Item = (&'a str, u64)>) {
    let counts: Vec<String> = counts.map(|(name, n)| format!("{name} {n}")).collect();
    println!("{title}: {}", counts.join(", "));
}

/// The side that reads answers and compares.
struct Watch {
    program: Program,
    tally: Tally,
    wanted: usize,
    /// The calls since the last set-up.
    since: Vec<String>,
    started: Instant,
    told: Instant,
}

impl Watch {
    fn new(program: Program, wanted: usize) -> Self {
        Self {
            program,
            tally: Tally::default(),
            wanted,
            since: Vec::new(),
            started: Instant::now(),
            told: Instant::now(),
        }
    }

    fn tell(&mut self) {
        if self.told.elapsed() < PROGRESS {
            return;
        }
        self.told = Instant::now();
        let (calls, seconds) = (self.tally.calls, self.started.elapsed().as_secs());
        eprintln!(
            "beside: {calls} of {} calls alike, {seconds} s",
            self.wanted
        );
    }

    fn remember(&mut self, seen: &Seen) {
        if matches!(seen.op, Op::Setup { .. }) {
            self.since.clear();
        }
        self.since.push(seen.op.to_string());
    }

    /// Compares one call; the difference, if there is one.
    fn compare(&mut self, seen: &Seen) -> Result<Option<Difference>, String> {
        self.remember(seen);
        let call = self.tally.calls + 1;
        let answered = self.program.answered(&seen.op).map_err(|e| e.to_string())?;
        let Some(Answered { answer, state }) = answered else {
            return Err(format!("the program ended at call {call}"));
        };
        let line = self.since.last().expect("the call itself");
        let differs = |what, rust: &str, program: &str| {
            Ok(Some(Difference {
                call,
                what,
                line: line.clone(),
                rust: rust.to_string(),
                program: program.to_string(),
            }))
        };
        if seen.answer != answer {
            return differs("answer", &seen.answer, &answer);
        }
        if seen.state != state {
            let (rust, program) = parts_apart(&seen.state, &state);
            return differs("state", &rust, &program);
        }
        self.tally.count(seen, line);
        self.tell();
        Ok(None)
    }
}

/// What a run came to.
struct Ran {
    difference: Option<Difference>,
    tally: Tally,
    skipped: BTreeMap<&'static str, u64>,
    since: Vec<String>,
    seconds: u64,
}

/// Runs both sides; the calls are made in a thread of their own, because the
/// program answers when it has much to say and not call by call.
fn ran(options: &Options, calls: usize) -> Result<Ran, String> {
    let (program, input) = Program::start(&options.program)?;
    let (sender, receiver) = mpsc::channel();
    let plan = (options.seed, options.slip.map(|s| s.1));
    let feed = thread::spawn(move || Feed::new(plan, calls, sender, input).run());
    let mut watch = Watch::new(program, calls);
    let mut difference = None;
    for seen in receiver {
        difference = watch.compare(&seen)?;
        if difference.is_some() {
            break;
        }
    }
    let seconds = watch.started.elapsed().as_secs();
    match difference {
        Some(_) => watch.program.stop(),
        None => watch.program.end()?,
    }
    let skipped = feed.join();
    if difference.is_none() && skipped.is_err() {
        return Err("the Rust stopped".into());
    }
    Ok(Ran {
        difference,
        tally: watch.tally,
        skipped: skipped.unwrap_or_default(),
        since: watch.since,
        seconds,
    })
}

/// A slip makes the Rust stumble soon after it was noticed; that says nothing.
fn quiet_if(slipping: bool) {
    if slipping {
        std::panic::set_hook(Box::new(|_| {}));
    }
}

fn keep_trace(since: &[String]) -> Result<(), String> {
    files::write(TRACE, &format!("{}\nstate\n", since.join("\n")))?;
    println!("the calls since the set-up are in {TRACE}");
    Ok(())
}

/// One run; true if no call differs and each thing happened often enough.
pub fn run(options: &Options) -> Result<bool, String> {
    quiet_if(options.slip.is_some());
    let Ran {
        difference,
        tally,
        skipped,
        since,
        seconds,
    } = ran(options, options.calls.unwrap_or(MILLION))?;
    let (calls, seed) = (tally.calls, options.seed);
    if let Some((name, _)) = options.slip {
        println!("slip planted on the side of the Rust: {name}");
    }
    match &difference {
        None => println!("{calls} calls of seed {seed}: no difference, {seconds} s"),
        Some(difference) => {
            difference.print(seed);
            keep_trace(&since)?;
        }
    }
    let enough = tally.print(&skipped);
    Ok(difference.is_none() && enough)
}

/// Plants each slip in turn; true if all are noticed.
pub fn slips(options: &Options) -> Result<bool, String> {
    quiet_if(true);
    let mut noticed = 0;
    for slip in SLIPS {
        let one = Options {
            calls: options.calls,
            seed: options.seed,
            slip: Some(slip),
            program: options.program.clone(),
        };
        eprintln!("beside: planting {}", slip.0);
        let calls = one.calls.unwrap_or(SLIP_CALLS);
        match ran(&one, calls)?.difference {
            None => println!("{}: not noticed in {calls} calls", slip.0),
            Some(difference) => {
                noticed += 1;
                print!("{}: ", slip.0);
                difference.print(one.seed);
            }
        }
    }
    println!("{noticed} of {} slips noticed", SLIPS.len());
    Ok(noticed == SLIPS.len())
}
