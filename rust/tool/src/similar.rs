//! "Did you mean": the word of a list that is nearest to one that is none of them.

/// The nearest of the words, where it is near: at most a third of its letters differ, and at most two.
pub fn nearest<'a>(typed: &str, words: impl IntoIterator<Item = &'a str>) -> Option<&'a str> {
    all_nearest(typed, words).first().copied()
}

/// All that are as near as the nearest.
fn all_nearest<'a>(typed: &str, words: impl IntoIterator<Item = &'a str>) -> Vec<&'a str> {
    let words: Vec<(usize, &str)> = words.into_iter().map(|word| (distance(typed, word), word)).collect();
    let least = words.iter().map(|(far, _)| *far).min();
    let near = |far: usize, word: &str| Some(far) == least && far <= (word.chars().count() / 3).clamp(1, 2) && typed.len() > 1;
    words.into_iter().filter(|(far, word)| near(*far, word)).map(|(_, word)| word).collect()
}

/// `; did you mean 'WORD'?`, or nothing.
pub fn hint<'a>(typed: &str, words: impl IntoIterator<Item = &'a str>) -> String {
    let near: Vec<String> = all_nearest(typed, words).into_iter().map(|word| format!("'{word}'")).collect();
    match near.is_empty() {
        true => String::new(),
        false => format!("; did you mean {}?", near.join(" or ")),
    }
}

/// How many letters must be put in, taken out, changed, or swapped with the next.
fn distance(one: &str, other: &str) -> usize {
    let (one, other): (Vec<char>, Vec<char>) = (one.chars().take(40).collect(), other.chars().collect());
    let mut rows = vec![(0..=other.len()).collect::<Vec<_>>()];
    for i in 1..=one.len() {
        let mut row = vec![i];
        for j in 1..=other.len() {
            let changed = rows[i - 1][j - 1] + usize::from(one[i - 1] != other[j - 1]);
            let mut least = changed.min(rows[i - 1][j] + 1).min(row[j - 1] + 1);
            if i > 1 && j > 1 && one[i - 1] == other[j - 2] && one[i - 2] == other[j - 1] {
                least = least.min(rows[i - 2][j - 2] + 1);
            }
            row.push(least);
        }
        rows.push(row);
    }
    rows[one.len()][other.len()]
}

#[test]
fn near_words_are_named_and_far_ones_are_not() {
    let words = ["ask", "degree", "report", "import", "verify"];
    for (typed, word) in [("aks", Some("ask")), ("degre", Some("degree")), ("repotr", Some("report")), ("verfy", Some("verify"))]
    {
        assert_eq!(nearest(typed, words), word, "{typed}");
    }
    for typed in ["nonsense", "x", "", "what", "--json"] {
        assert_eq!(nearest(typed, words), None, "{typed}");
    }
}
