//! The word that was probably meant.

/// The nearest of the words, if it is near enough for a slip of the pen: of short words one letter, of others two.
pub fn nearest<'a>(word: &str, words: impl IntoIterator<Item = &'a str>) -> Option<&'a str> {
    let far = |other: &str| (distance(word, other), other.len());
    let best = words.into_iter().min_by_key(|other| far(other))?;
    let most = if word.chars().count() <= 3 { 1 } else { 2 };
    (1..=most).contains(&distance(word, best)).then_some(best)
}

/// How many letters are to be changed, added, dropped or exchanged with their neighbour.
fn distance(one: &str, other: &str) -> usize {
    let (a, b): (Vec<char>, Vec<char>) = (one.chars().collect(), other.chars().collect());
    let mut rows = vec![(0..=b.len()).collect::<Vec<usize>>()];
    for i in 1..=a.len() {
        let mut row = vec![i];
        for j in 1..=b.len() {
            let change = rows[i - 1][j - 1] + usize::from(a[i - 1] != b[j - 1]);
            let mut best = change.min(rows[i - 1][j] + 1).min(row[j - 1] + 1);
            if i > 1 && j > 1 && a[i - 1] == b[j - 2] && a[i - 2] == b[j - 1] {
                best = best.min(rows[i - 2][j - 2] + 1);
            }
            row.push(best);
        }
        rows.push(row);
    }
    rows[a.len()][b.len()]
}

#[cfg(test)]
mod tests {
    use super::*;

    #[test]
    fn slips_of_the_pen() {
        let words = ["word", "thread", "never", "let", "proof"];
        for (slip, meant) in [
            ("wrod", Some("word")),
            ("wor", Some("word")),
            ("thraed", Some("thread")),
            ("nevr", Some("never")),
            ("lte", Some("let")),
            ("threads", Some("thread")),
            ("word", None),
            ("x", None),
            ("pen", None),
            ("certificate", None),
        ] {
            assert_eq!(nearest(slip, words), meant, "{slip}");
        }
    }
}
