//! The right word that someone may have meant by a wrong one.

/// A near word differs by at most so many letters, however long it is.
const MOST_WRONG: usize = 3;

/// Says that there is no such word, and the nearest of those there are, if one is near.
pub fn no_such<'a>(word: &str, kind: &str, known: impl IntoIterator<Item = &'a str>) -> String {
    let told = format!("{word}: no such {kind}");
    match nearest(word, known) {
        Some(right) => format!("{told}; did you mean {right}?"),
        None => told,
    }
}

/// The first of the nearest words; none if a third of its letters or more are wrong.
fn nearest<'a>(word: &str, known: impl IntoIterator<Item = &'a str>) -> Option<&'a str> {
    let wrong = small_letters(word);
    known
        .into_iter()
        .filter_map(|right| letters_between(&wrong, &small_letters(right)).map(|far| (far, right)))
        .min_by_key(|(far, _)| *far)
        .map(|(_, right)| right)
}

/// Capitals are no difference: the wrong ones are what is to be told.
fn small_letters(word: &str) -> Vec<char> {
    word.to_lowercase().chars().collect()
}

/// How many letters part two words; none if too many for the one to be meant by the other.
fn letters_between(wrong: &[char], right: &[char]) -> Option<usize> {
    let most = (right.len() / 3).clamp(1, MOST_WRONG);
    // A word of any length may come in, and only a short one is worth the table below.
    if wrong.len().abs_diff(right.len()) > most {
        return None;
    }
    Some(distance(wrong, right)).filter(|far| *far <= most)
}

/// The fewest letters to put in, leave out, change, or exchange with the next one.
fn distance(one: &[char], other: &[char]) -> usize {
    let mut far = vec![vec![0; other.len() + 1]; one.len() + 1];
    for i in 0..=one.len() {
        for j in 0..=other.len() {
            far[i][j] = match (i, j) {
                (0, _) | (_, 0) => i + j,
                _ => least_step(&far, &one[..i], &other[..j]),
            };
        }
    }
    far[one.len()][other.len()]
}

/// The distance of two beginnings, from those of shorter ones.
fn least_step(far: &[Vec<usize>], one: &[char], other: &[char]) -> usize {
    let (i, j) = (one.len(), other.len());
    let put_or_left = far[i - 1][j].min(far[i][j - 1]) + 1;
    let changed = far[i - 1][j - 1] + usize::from(one[i - 1] != other[j - 1]);
    match (one, other) {
        ([.., a, b], [.., c, d]) if (a, b) == (d, c) => {
            put_or_left.min(changed).min(far[i - 2][j - 2] + 1)
        }
        _ => put_or_left.min(changed),
    }
}
