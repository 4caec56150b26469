//! Two texts compared, comments, spaces and the order inside an `after` apart. It looks at tokens only, so that a
//! mistake in the parser or the printer shows.

use super::tokens::tokens;

/// The number of the first text's line where the two differ.
pub fn first_difference(one: &str, other: &str) -> Option<usize> {
    let (one, other) = (said(one), said(other));
    let differs = one.iter().zip(&other).find(|((_, a), (_, b))| a != b);
    match differs {
        Some(((number, _), _)) => Some(*number),
        None if one.len() == other.len() => None,
        None => Some(one.get(other.len()).or(one.last()).map_or(1, |(number, _)| *number)),
    }
}

/// The words of each line that says something, with its number.
fn said(text: &str) -> Vec<(usize, Vec<&str>)> {
    let words =
        |line, number| tokens(line, number).unwrap_or_default().iter().map(|token| token.text).collect();
    let all = (1..).zip(text.lines()).map(|(number, line)| (number, in_order(words(line, number))));
    all.filter(|(_, words)| !words.is_empty()).collect()
}

/// The words of a line, those after a node's `after` sorted. Names may be words like `after` too: the keyword is the
/// first one past the node's kind and what it names.
fn in_order(mut words: Vec<&str>) -> Vec<&str> {
    let named = if words.get(2) == Some(&"action") { 5 } else { 4 };
    let is_node = words.get(1) == Some(&":");
    let keyword = words.iter().skip(named).position(|word| *word == "after").map(|at| at + named);
    if let (true, Some(keyword)) = (is_node, keyword) {
        words[keyword + 1..].sort_unstable();
    }
    words
}
