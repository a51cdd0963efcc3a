//! Reading and writing, with errors that name the file and the line.

use crate::form::{read_line, Op};
use std::fs;

pub fn read(path: &str) -> Result<String, String> {
    fs::read_to_string(path).map_err(|e| format!("{path}: {e}"))
}

pub fn write(path: &str, text: &str) -> Result<(), String> {
    fs::write(path, text).map_err(|e| format!("{path}: {e}"))
}

/// A call and the number of its line.
pub struct Line {
    pub number: usize,
    pub op: Op,
}

pub fn read_trace(path: &str) -> Result<Vec<Line>, String> {
    let text = read(path)?;
    let mut lines = Vec::new();
    for (i, line) in text.lines().enumerate() {
        let number = i + 1;
        let read = read_line(line).map_err(|e| format!("{path}:{number}: outside: {e}"))?;
        lines.extend(read.map(|op| Line { number, op }));
    }
    Ok(lines)
}

pub fn ops(lines: &[Line]) -> Vec<Op> {
    lines.iter().map(|l| l.op.clone()).collect()
}

/// The files of a folder that end in `.trace`, by name, without the ending.
pub fn traces(folder: &str) -> Result<Vec<String>, String> {
    let entries = fs::read_dir(folder).map_err(|e| format!("{folder}: {e}"))?;
    let mut names: Vec<String> = entries
        .filter_map(|e| e.ok()?.file_name().into_string().ok())
        .filter_map(|n| n.strip_suffix(".trace").map(str::to_string))
        .collect();
    names.sort();
    Ok(names)
}
