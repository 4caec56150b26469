//! The known name that is nearest to one that is not known.

use super::tokens::LONGEST_NAME;

/// The nearest by letters put in, left out or changed; none where over half of the letters differ.
pub fn nearest<'a>(name: &str, known: impl Iterator<Item = &'a str>) -> Option<String> {
    if name.chars().count() > LONGEST_NAME {
        return None;
    }
    let found = known.map(|other| (distance(name, other), other)).min()?;
    let longer = name.chars().count().max(found.1.chars().count());
    (2 * found.0 <= longer).then(|| found.1.to_string())
}

/// How many letters to put in, leave out or change, neighbours swapped counting once.
fn distance(one: &str, other: &str) -> usize {
    let (a, b): (Vec<char>, Vec<char>) = (one.chars().collect(), other.chars().collect());
    let mut rows: Vec<Vec<usize>> = vec![(0..=b.len()).collect()];
    for i in 1..=a.len() {
        let mut row = vec![i];
        for j in 1..=b.len() {
            let changed = rows[i - 1][j - 1] + (a[i - 1] != b[j - 1]) as usize;
            let mut least = changed.min(rows[i - 1][j] + 1).min(row[j - 1] + 1);
            if i > 1 && j > 1 && a[i - 1] == b[j - 2] && a[i - 2] == b[j - 1] {
                least = least.min(rows[i - 2][j - 2] + 1);
            }
            row.push(least);
        }
        rows.push(row);
    }
    rows[a.len()][b.len()]
}
