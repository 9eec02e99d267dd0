//! Which name was meant by one that is not there.

/// The nearest of some names, if one is near enough to be meant.
pub fn nearest<'a>(word: &str, names: impl Iterator<Item = &'a str>) -> Option<&'a str> {
    let allowed = match word.chars().count() {
        0..=2 => 1,
        3..=5 => 2,
        _ => 3,
    };
    let length = word.chars().count();
    let (counts, plain) = (letters(word), normal(word));
    let mut best: Option<(usize, &str)> = None;
    for name in names {
        let most = best.map_or(allowed, |(distance, _)| distance.saturating_sub(1));
        if apart(&counts, &letters(name)) > 2 * most + 2 {
            continue;
        }
        let distance = if normal(name) == plain { 0 } else { strsim::osa_distance(word, name) };
        // A word of one letter is near every other such word.
        if distance <= most && distance < length.max(1) && best.map_or(true, |(d, _)| distance < d) {
            best = Some((distance, name));
        }
    }
    best.map(|(_, name)| name)
}

/// The words are told apart by case, blanks or one letter alone: likely one is a slip of the other.
pub fn is_slip(a: &str, b: &str) -> bool {
    if normal(a) == normal(b) {
        return true;
    }
    let shortest = a.chars().count().min(b.chars().count());
    if shortest < 3 || strsim::osa_distance(a, b) != 1 {
        return false;
    }
    // What differs in a digit is numbered.
    let digits = |s: &str| s.chars().filter(char::is_ascii_digit).collect::<String>();
    digits(a) == digits(b)
}

fn normal(word: &str) -> String {
    word.chars().filter(|c| !c.is_whitespace() && !"-_".contains(*c)).flat_map(char::to_lowercase).collect()
}

/// How often each letter occurs, by its low five bits.
fn letters(word: &str) -> [u8; 32] {
    let mut counts = [0u8; 32];
    for byte in word.bytes() {
        let count = &mut counts[usize::from(byte & 31)];
        *count = count.saturating_add(1);
    }
    counts
}

/// How many letters one word has and the other has not: no more than twice the distance of words of ASCII.
fn apart(a: &[u8; 32], b: &[u8; 32]) -> usize {
    a.iter().zip(b).map(|(&x, &y)| usize::from(x.max(y) - x.min(y))).sum()
}

#[cfg(test)]
mod tests {
    use super::*;

    #[test]
    fn near_and_far() {
        let names = ["motor", "truss", "pin", "lamp"];
        assert_eq!(nearest("motr", names.iter().copied()), Some("motor"));
        assert_eq!(nearest("Motor", names.iter().copied()), Some("motor"));
        assert_eq!(nearest("pni", names.iter().copied()), Some("pin"));
        assert_eq!(nearest("chandelier", names.iter().copied()), None);
        assert_eq!(nearest("x", ["a", "b"].iter().copied()), None);
        assert_eq!(nearest("x", ["a", "X"].iter().copied()), Some("X"));
    }

    #[test]
    fn slips() {
        assert!(is_slip("motor", "motr") && is_slip("Motor", "motor") && is_slip("base plate", "baseplate"));
        assert!(!is_slip("motor1", "motor2") && !is_slip("pin", "motor") && !is_slip("a", "b"));
    }
}
