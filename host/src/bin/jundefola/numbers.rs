//! Numbers as a person writes them.

/// The number that a text is, digits and nothing else.
pub fn number(text: &str) -> Result<u32, String> {
    let digits = text.bytes().all(|byte| byte.is_ascii_digit());
    let value = if digits { text.parse().ok() } else { None };
    value.ok_or_else(|| format!("`{text}` is not a number from 0 to {}", u32::MAX))
}

/// A number and what it counts, as `1 page` or `2 pages`.
pub fn counted(count: usize, one: &str) -> String {
    let plural = if count == 1 { "" } else { "s" };
    format!("{count} {one}{plural}")
}

/// Rising numbers, with neighbours joined, as `0-2 5 7-8`.
pub fn ranges(numbers: &[usize]) -> String {
    let joined = numbers.chunk_by(|number, next| number + 1 == *next);
    let texts: Vec<String> = joined
        .map(|range| match range {
            [first, .., last] => format!("{first}-{last}"),
            alone => alone.iter().map(usize::to_string).collect(),
        })
        .collect();
    texts.join(" ")
}

#[cfg(test)]
mod tests {
    use super::*;

    #[test]
    fn only_digits_are_a_number() {
        assert_eq!(number("0"), Ok(0));
        assert_eq!(number("4294967295"), Ok(u32::MAX));
        for text in ["", "+1", "-1", "4294967296", "1x", "x"] {
            assert!(number(text).is_err(), "{text}");
        }
    }

    #[test]
    fn neighbours_are_joined() {
        assert_eq!(ranges(&[]), "");
        assert_eq!(ranges(&[4]), "4");
        assert_eq!(ranges(&[0, 1, 2, 5, 7, 8]), "0-2 5 7-8");
        assert_eq!(ranges(&[3, 5, 7]), "3 5 7");
    }
}
