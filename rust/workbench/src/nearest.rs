//! Which word was meant: the nearest of those that there are.

/// The nearest word, if it is near enough to be a slip: at most two letters
/// missing, added, changed or swapped, and under half of the longer word.
pub fn nearest<'a>(word: &str, all: impl IntoIterator<Item = &'a str>) -> Option<&'a str> {
    let away = |other: &&str| distance(word, other);
    let found = all.into_iter().min_by_key(away)?;
    let slips = distance(word, found);
    let longer = word.chars().count().max(found.chars().count());
    (slips <= 2 && 2 * slips < longer).then_some(found)
}

/// How a message goes on: with the word that was meant, if one is near.
pub fn meant<'a>(word: &str, all: impl IntoIterator<Item = &'a str>) -> String {
    match nearest(word, all) {
        Some(found) => format!("; is {found} meant?"),
        None => String::new(),
    }
}

/// How many letters are missing, added, changed or swapped with their
/// neighbour.
fn distance(one: &str, other: &str) -> usize {
    let (one, other): (Vec<char>, Vec<char>) = (one.chars().collect(), other.chars().collect());
    let mut rows: Vec<Vec<usize>> = vec![(0..=other.len()).collect()];
    for i in 1..=one.len() {
        let mut row = vec![i];
        for j in 1..=other.len() {
            let changed = usize::from(one[i - 1] != other[j - 1]);
            let mut least = (rows[i - 1][j] + 1).min(row[j - 1] + 1);
            least = least.min(rows[i - 1][j - 1] + changed);
            if i > 1 && j > 1 && one[i - 1] == other[j - 2] && one[i - 2] == other[j - 1] {
                least = least.min(rows[i - 2][j - 2] + 1);
            }
            row.push(least);
        }
        rows.push(row);
    }
    rows[one.len()][other.len()]
}

#[cfg(test)]
mod tests {
    use super::*;

    #[test]
    fn distances() {
        for (one, other, slips) in [
            ("", "", 0),
            ("", "run", 3),
            ("list", "list", 0),
            ("lst", "list", 1),
            ("lists", "list", 1),
            ("lost", "list", 1),
            ("shwo", "show", 1),
            ("timelien", "timeline", 1),
            ("asm", "run", 3),
        ] {
            assert_eq!(distance(one, other), slips, "{one} {other}");
            assert_eq!(distance(other, one), slips, "{other} {one}");
        }
    }

    #[test]
    fn near_and_far() {
        let all = ["asm", "list", "show", "timeline"];
        assert_eq!(nearest("shwo", all), Some("show"));
        assert_eq!(nearest("timlin", all), Some("timeline"));
        assert_eq!(nearest("elision.tape", all), None);
        assert_eq!(nearest("x", all), None);
        assert_eq!(meant("lsit", all), "; is list meant?");
        assert_eq!(meant("elision", all), "");
    }
}
