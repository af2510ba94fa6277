//! Options among the arguments, each followed by its value.

use std::ffi::OsString;

use crate::numbers::number;
use crate::problem::Problem;

/// The value behind an option, where it is given, and the arguments without both.
pub fn split_option<'a>(
    arguments: &[&'a OsString],
    option: &str,
) -> Result<(Option<&'a OsString>, Vec<&'a OsString>), Problem> {
    let parts: Vec<_> = arguments.split(|word| *word == option).collect();
    match parts[..] {
        [all] => Ok((None, all.to_vec())),
        [before, [value, behind @ ..]] => Ok((Some(value), [before, behind].concat())),
        _ => Err(Problem::Usage),
    }
}

/// The number behind an option, where it is given, and the arguments without both.
pub fn split_number<'a>(
    arguments: &[&'a OsString],
    option: &str,
) -> Result<(Option<u32>, Vec<&'a OsString>), Problem> {
    let (value, others) = split_option(arguments, option)?;
    let value = value.map(|text| number(&text.to_string_lossy()));
    let value = value.transpose().map_err(|_| Problem::Usage)?;
    Ok((value, others))
}

#[cfg(test)]
mod tests {
    use super::*;

    fn arguments(words: &str) -> Vec<OsString> {
        words.split(' ').map(From::from).collect()
    }

    #[test]
    fn an_option_stands_anywhere_and_once() {
        for words in [
            "--names l card rank",
            "card --names l rank",
            "card rank --names l",
        ] {
            let arguments = arguments(words);
            let lent: Vec<&OsString> = arguments.iter().collect();
            let (listing, others) = split_option(&lent, "--names").ok().unwrap();
            assert_eq!(listing, Some(&OsString::from("l")));
            assert_eq!(others, ["card", "rank"]);
            assert!(split_option(&others, "--names").is_ok_and(|(listing, _)| listing.is_none()));
        }
        for words in ["card --names", "--names l --names l card"] {
            let arguments = arguments(words);
            let lent: Vec<&OsString> = arguments.iter().collect();
            let split = split_option(&lent, "--names");
            assert!(matches!(split, Err(Problem::Usage)), "{words}");
        }
    }

    #[test]
    fn only_a_number_is_one() {
        for (words, expected) in [
            ("card", Some(None)),
            ("--rows 0", Some(Some(0))),
            ("--rows 4294967295 card", Some(Some(u32::MAX))),
            ("--rows 4294967296", None),
            ("--rows -1", None),
            ("--rows all", None),
            ("--rows", None),
        ] {
            let arguments = arguments(words);
            let lent: Vec<&OsString> = arguments.iter().collect();
            let split = split_number(&lent, "--rows").ok();
            assert_eq!(split.map(|(value, _)| value), expected, "{words}");
        }
    }
}
