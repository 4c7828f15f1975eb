//! A pattern as a tree of its nodes, with the part that each took in a stretch.

use crate::calls::{Stretch, Unanswered};

/// A node: how deep it stands below the first, how it is spelt, whether it is a leaf, and its stretch if it took part.
pub struct Node {
    pub depth: usize,
    pub spelt: String,
    pub leaf: bool,
    pub stretch: Option<Stretch>,
}

/// The nodes of an accepted pattern in the order of their numbers, with the stretches shown for an answer; the first has the answer itself.
pub fn explained(pattern: &[u8], answer: Stretch, shown: &[(usize, Stretch)]) -> Result<Vec<Node>, Unanswered> {
    let mut tree = nodes(pattern).ok_or(Unanswered::Broken("a pattern whose nodes are not found"))?;
    for &(number, stretch) in shown {
        match tree.get_mut(number) {
            Some(node) if !node.leaf || stretch.lines() == 1 => node.stretch = Some(stretch),
            _ => return Err(Unanswered::Broken("a stretch shown that does not fit the pattern")),
        }
    }
    if tree[0].stretch == Some(answer) {
        Ok(tree)
    } else {
        Err(Unanswered::Broken("another stretch shown than the answer"))
    }
}

/// None where it is no pattern.
fn nodes(pattern: &[u8]) -> Option<Vec<Node>> {
    let mut words = std::str::from_utf8(pattern).ok()?.split(',');
    let mut nodes = Vec::new();
    take(&mut words, 0, &mut nodes)?;
    words.next().is_none().then_some(nodes)
}

/// Takes a node's word and its numbers, and then its operands.
fn take<'a>(words: &mut impl Iterator<Item = &'a str>, depth: usize, nodes: &mut Vec<Node>) -> Option<()> {
    let word = words.next()?;
    let numbers = match word {
        "ev" | "fr" => vec![words.next()?, words.next()?],
        "or" | "and" | "row" | "then" | "max" => vec![words.next()?],
        "less" | "in" | "out" | "has" => vec![],
        _ => return None,
    };
    let operands = match word {
        "ev" | "fr" => 0,
        "max" => 1,
        "less" | "in" | "out" | "has" => 2,
        _ => numbers[0].parse().ok()?,
    };
    nodes.push(Node { depth, spelt: [vec![word], numbers].concat().join(","), leaf: operands == 0, stretch: None });
    (0..operands).try_for_each(|_| take(words, depth + 1, nodes))
}
