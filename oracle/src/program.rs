//! The program beside the Rust: its answer lines, and the tree that its own
//! answers tell of.

use crate::absolute::{self, Blocks};
use crate::form::Op;
use crate::state;
use std::io::{self, BufRead, BufReader};
use std::process::{Child, ChildStdin, ChildStdout, Command, Stdio};

struct Node {
    parent: u32,
    depth: u32,
    hashes: Vec<u64>,
}

/// The nodes by the program's numbers. An insert's answer says which nodes
/// its list lies on, so each node's hashes are known.
#[derive(Default)]
struct Tree {
    nodes: Vec<Node>,
    /// The parts of a `state` line that tell of the nodes.
    text: String,
}

impl Tree {
    fn fresh() -> Self {
        let root = Node {
            parent: 0,
            depth: 0,
            hashes: Vec::new(),
        };
        Self {
            nodes: vec![root],
            text: String::new(),
        }
    }

    fn cut(&mut self, text: &str) -> Option<()> {
        let words: Result<Vec<u32>, _> = text.split(' ').map(str::parse).collect();
        let [node, k, new] = words.ok()?[..] else {
            return None;
        };
        let next = self.nodes.len();
        let head = self.nodes.get_mut(node as usize)?;
        if new as usize != next || k as usize > head.hashes.len() {
            return None;
        }
        let rest = Node {
            parent: node,
            depth: head.depth + k,
            hashes: head.hashes.split_off(k as usize),
        };
        for below in self.nodes.iter_mut().filter(|n| n.parent == node) {
            below.parent = new;
        }
        self.nodes.push(rest);
        Some(())
    }

    /// One segment of an inserted path: a node that is there, or a new leaf.
    fn segment(&mut self, node: u32, parent: u32, depth: u32, hashes: &[u64]) -> Option<()> {
        if node as usize == self.nodes.len() {
            self.nodes.push(Node {
                parent,
                depth,
                hashes: hashes.to_vec(),
            });
        }
        let known = self.nodes.get(node as usize)?;
        (known.depth == depth && known.hashes.starts_with(hashes)).then_some(())
    }

    /// Takes over what an insert's answer says; none where that does not fit
    /// the list or the tree so far.
    fn inserted(&mut self, list: &[u64], answer: &str) -> Option<()> {
        let (path, cut) = answer.split_once(" cut ").unwrap_or((answer, ""));
        if !cut.is_empty() {
            self.cut(cut)?;
        }
        let (mut at, mut parent) = (0, 0);
        for word in path.split(' ').filter(|w| w.contains(':')) {
            let (node, len) = word.split_once(':')?;
            let (node, len): (u32, usize) = (node.parse().ok()?, len.parse().ok()?);
            let hashes = list.get(at..at + len)?;
            self.segment(node, parent, at as u32, hashes)?;
            (at, parent) = (at + len, node);
        }
        self.text = self.nodes_text();
        Some(())
    }

    fn nodes_text(&self) -> String {
        let one = |(i, n): (usize, &Node)| {
            let (first, last) = (n.hashes.first(), n.hashes.last());
            format!(
                " | n {i} p={} d={} l={} h={}..{}",
                n.parent,
                n.depth,
                n.hashes.len(),
                first.unwrap_or(&0),
                last.unwrap_or(&0)
            )
        };
        self.nodes.iter().enumerate().skip(1).map(one).collect()
    }

    /// Whether a `state` line has the nodes that the answers told of.
    fn agrees(&self, line: &str) -> bool {
        let Some((head, _)) = line.split_once(" | ") else {
            return false;
        };
        let words: usize = self.nodes.iter().map(|n| n.hashes.len()).sum();
        let start = format!("state nodes={} words={words} ", self.nodes.len());
        let rest = &line[head.len()..];
        let stores = rest.strip_prefix(self.text.as_str());
        head.starts_with(&start) && stores.is_some_and(|s| s.starts_with(" | s 0 "))
    }
}

impl Blocks for Tree {
    fn depth(&self, node: u32) -> Option<u32> {
        Some(self.nodes.get(node as usize)?.depth)
    }

    fn hash(&self, node: u32, at: u32) -> Option<u64> {
        let node = self.nodes.get(node as usize)?;
        node.hashes.get(at as usize).copied()
    }
}

/// An answer and the state after it, by absolute positions. Where a line is
/// unreadable or speaks of a node that is not there, it stands as it is.
pub struct Answered {
    pub answer: String,
    pub state: String,
}

pub struct Program {
    child: Child,
    lines: BufReader<ChildStdout>,
    tree: Tree,
    table: Vec<u64>,
}

impl Program {
    /// Starts a program, and hands out where its lines are to be written.
    pub fn start(command: &[String]) -> Result<(Self, ChildStdin), String> {
        let name = command.first().ok_or("no program is named")?;
        let mut child = Command::new(name)
            .args(&command[1..])
            .stdin(Stdio::piped())
            .stdout(Stdio::piped())
            .spawn()
            .map_err(|e| format!("{name}: {e}"))?;
        let input = child.stdin.take().expect("piped");
        let output = child.stdout.take().expect("piped");
        let program = Self {
            child,
            lines: BufReader::with_capacity(1 << 18, output),
            tree: Tree::fresh(),
            table: Vec::new(),
        };
        Ok((program, input))
    }

    fn line(&mut self) -> io::Result<Option<String>> {
        let mut line = String::new();
        let n = self.lines.read_line(&mut line)?;
        if line.ends_with('\n') {
            line.pop();
        }
        Ok((n > 0).then_some(line))
    }

    /// The two lines that follow a call and a `state`; none where the program
    /// has ended.
    pub fn answered(&mut self, op: &Op) -> io::Result<Option<Answered>> {
        let (Some(answer), Some(state)) = (self.line()?, self.line()?) else {
            return Ok(None);
        };
        Ok(Some(Answered {
            answer: self.answer(op, &answer).unwrap_or(answer),
            state: self.state(&state).unwrap_or(state),
        }))
    }

    fn answer(&mut self, op: &Op, line: &str) -> Option<String> {
        match op {
            Op::Setup { bytes, .. } if line == "ok" => {
                self.tree = Tree::fresh();
                self.table = bytes.table();
            }
            Op::Insert(list) if line.starts_with("ok ") => self.tree.inserted(list, line)?,
            _ => {}
        }
        absolute::line(&self.tree, line)
    }

    fn state(&self, line: &str) -> Option<String> {
        if !self.tree.agrees(line) {
            return None;
        }
        state::from_form(line, &self.tree, &self.table)
    }

    /// Waits for the program's end; it has to have nothing more to say.
    pub fn end(mut self) -> Result<(), String> {
        let more = self.line().map_err(|e| e.to_string())?;
        if let Some(line) = more {
            return Err(format!("the program wrote one line too many: {line}"));
        }
        let status = self.child.wait().map_err(|e| e.to_string())?;
        match status.success() {
            true => Ok(()),
            false => Err(format!("the program ended with {status}")),
        }
    }

    /// Ends the program where it is.
    pub fn stop(mut self) {
        let _ = self.child.kill();
        let _ = self.child.wait();
    }
}
