//! Answer lines of the replay form by absolute positions and hashes.

/// A tree whose nodes have document 01's numbers: where each begins, and its
/// hashes.
pub trait Blocks {
    fn depth(&self, node: u32) -> Option<u32>;
    fn hash(&self, node: u32, at: u32) -> Option<u64>;
}

/// The absolute ends and the last hash of a span that is not empty.
pub fn key(tree: &impl Blocks, node: u32, start: u32, end: u32) -> Option<(u32, u32, u64)> {
    let depth = tree.depth(node)?;
    let last = tree.hash(node, end.checked_sub(1)?)?;
    Some((depth + start, depth + end, last))
}

fn span(tree: &impl Blocks, node: &str, ends: &str) -> Option<String> {
    let (start, end) = ends.split_once('-').unwrap_or(("0", ends));
    let node = node.parse().ok()?;
    let (from, upto, last) = key(tree, node, start.parse().ok()?, end.parse().ok()?)?;
    Some(format!("{from}-{upto},last={last}"))
}

/// `NODE:LEN`, `NODE:START-END` or `TIER:NODE:START-END` by positions.
fn word(tree: &impl Blocks, word: &str) -> Option<String> {
    match word.split(':').collect::<Vec<_>>()[..] {
        [node, ends] => span(tree, node, ends),
        [tier, node, ends] => Some(format!("{tier}:{}", span(tree, node, ends)?)),
        _ => None,
    }
}

/// `NODE K NEW` by the position and the hash before it.
fn cut(tree: &impl Blocks, text: &str) -> Option<String> {
    let (node, rest) = text.split_once(' ')?;
    let head = span(tree, node, rest.split_once(' ')?.0)?;
    Some(format!(" cut {}", head.split_once('-')?.1))
}

/// An answer line that isn't a state's; none where it names what the tree
/// hasn't.
pub fn line(tree: &impl Blocks, line: &str) -> Option<String> {
    let (line, cut) = match line.split_once(" cut ") {
        None => (line, String::new()),
        Some((line, text)) => (line, cut(tree, text)?),
    };
    let mut out = Vec::new();
    for one in line.split(' ') {
        let (place, rest) = one.split_once(',').unwrap_or((one, ""));
        let comma = if rest.is_empty() { "" } else { "," };
        out.push(match place.contains(':') {
            true => format!("{}{comma}{rest}", word(tree, place)?),
            false => one.to_string(),
        });
    }
    Some(out.join(" ") + &cut)
}
