//! The known words nearest to one that is not known.

/// The known words that are nearest, of which there is none where none is near.
pub fn nearest<'a>(word: &str, known: impl IntoIterator<Item = &'a str>) -> Vec<&'a str> {
    let word = word.to_ascii_lowercase();
    let most = match word.len() {
        0 | 1 => return Vec::new(),
        2..=3 => 1,
        4..=7 => 2,
        _ => 3,
    };
    let distance = |other: &str| distance(word.as_bytes(), other.to_ascii_lowercase().as_bytes());
    let mut near: Vec<(usize, &str)> = known.into_iter().map(|k| (distance(k), k)).collect();
    near.sort();
    near.dedup();
    let least = near.first().map_or(usize::MAX, |first| first.0);
    let best = near.into_iter().filter(|(distance, _)| *distance == least && least <= most);
    best.map(|(_, word)| word).collect()
}

/// ` (did you mean ..?)`, or nothing where no known word is near.
pub fn hint<'a>(word: &str, known: impl IntoIterator<Item = &'a str>) -> String {
    let best: Vec<String> =
        nearest(word, known).iter().take(3).map(|word| format!("`{word}`")).collect();
    match best.is_empty() {
        true => String::new(),
        false => format!(" (did you mean {}?)", best.join(" or ")),
    }
}

/// How many letters must be put in, left out, changed or exchanged with a neighbour.
fn distance(a: &[u8], b: &[u8]) -> usize {
    let mut rows = vec![vec![0; b.len() + 1]; a.len() + 1];
    for i in 0..=a.len() {
        for j in 0..=b.len() {
            if i == 0 || j == 0 {
                rows[i][j] = i + j;
                continue;
            }
            let change = usize::from(a[i - 1] != b[j - 1]);
            let least = (rows[i - 1][j] + 1).min(rows[i][j - 1] + 1);
            rows[i][j] = least.min(rows[i - 1][j - 1] + change);
            if i > 1 && j > 1 && a[i - 1] == b[j - 2] && a[i - 2] == b[j - 1] {
                rows[i][j] = rows[i][j].min(rows[i - 2][j - 2] + 1);
            }
        }
    }
    rows[a.len()][b.len()]
}

#[cfg(test)]
mod tests {
    use super::*;

    #[test]
    fn near_words() {
        let cases = [("start", "strat", 1), ("registers", "register", 1), ("rb", "rx", 1)];
        for (a, b, expected) in cases {
            assert_eq!(distance(a.as_bytes(), b.as_bytes()), expected);
        }
        assert_eq!(hint("strat", ["solve", "start"]), " (did you mean `start`?)");
        assert_eq!(hint("rx", ["cb", "rb", "rl"]), " (did you mean `rb` or `rl`?)");
        assert_eq!(hint("judge", ["solve", "start"]), "");
        assert_eq!(hint("", ["a"]), "");
    }
}
