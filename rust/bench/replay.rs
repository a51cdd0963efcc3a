//! What a program takes to answer a file: processor time and memory.

use std::fs::File;
use std::process::{Command, Stdio};

/// C's `struct rusage` on x86-64 Linux: two times, then 14 numbers.
#[repr(C)]
#[derive(Default)]
struct Usage {
    user: [i64; 2],
    system: [i64; 2],
    /// Kilobytes at most.
    memory: i64,
    rest: [i64; 13],
}

extern "C" {
    fn wait4(pid: i32, status: *mut i32, options: i32, usage: *mut Usage) -> i32;
}

fn seconds(time: [i64; 2]) -> f64 {
    time[0] as f64 + time[1] as f64 / 1e6
}

/// Runs a program on the file, which it gets as standard input.
pub fn run(name: &str, lines: f64, file: &str, program: &[String]) {
    let child = Command::new(&program[0])
        .args(&program[1..])
        .stdin(File::open(file).expect("the file is there"))
        .stdout(Stdio::null())
        .spawn()
        .expect("the program is there");
    let (mut status, mut usage) = (0, Usage::default());
    // SAFETY: both places are this function's own, and the child is waited
    // for nowhere else.
    let pid = unsafe { wait4(child.id() as i32, &mut status, 0, &mut usage) };
    assert!(pid > 0 && status == 0, "{name} failed");
    let took = seconds(usage.user) + seconds(usage.system);
    println!(
        "| {name} | {took:.2} | {:.0} | {:.1} |",
        lines / took,
        usage.memory as f64 / 1024.0
    );
}
