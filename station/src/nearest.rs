//! What a mistyped word may have meant.

/// The word of a list that is nearest to another, if it is near: at most a third of its letters added, left out, exchanged or in another order.
pub fn nearest<'a>(mistyped: &str, words: impl Iterator<Item = &'a str>) -> Option<&'a str> {
    let near = words.map(|word| (distance(mistyped, word), word)).min()?;
    (3 * near.0 <= near.1.chars().count().max(3)).then_some(near.1)
}

/// How many letters have to be added, left out or exchanged, or exchanged with the next one, to make one word of another.
fn distance(one: &str, two: &str) -> usize {
    let (one, two): (Vec<char>, Vec<char>) = (one.chars().collect(), two.chars().collect());
    // Entry (i, j) is the distance of the first i letters from the first j.
    let mut table = vec![vec![0; two.len() + 1]; one.len() + 1];
    for i in 0..=one.len() {
        for j in 0..=two.len() {
            table[i][j] = match (i, j) {
                (0, _) => j,
                (_, 0) => i,
                _ => {
                    let exchanged = table[i - 1][j - 1] + usize::from(one[i - 1] != two[j - 1]);
                    let least = exchanged.min(table[i - 1][j] + 1).min(table[i][j - 1] + 1);
                    let turned = i > 1 && j > 1 && one[i - 1] == two[j - 2] && one[i - 2] == two[j - 1];
                    if turned { least.min(table[i - 2][j - 2] + 1) } else { least }
                }
            };
        }
    }
    table[one.len()][two.len()]
}

#[cfg(test)]
mod tests {
    use super::*;

    #[test]
    fn near_words_are_found_and_far_ones_are_not() {
        let words = || ["key", "explain", "check", "convert"].into_iter();
        for (mistyped, meant) in [("keys", "key"), ("kye", "key"), ("explian", "explain"), ("chekc", "check"), ("covnert", "convert")] {
            assert_eq!(nearest(mistyped, words()), Some(meant));
        }
        for far in ["", "x", "judge", "stations/K.txt"] {
            assert_eq!(nearest(far, words()), None, "{far}");
        }
    }
}
