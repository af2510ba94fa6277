//! Answers as a person reads them: the fitter's pages and the inspector's counts.

use std::io::{self, Write};

use jundefola::{Answer, PageStarts, Question, Starts};

use crate::numbers::counted;

/// Prints the answer to a question to the end of its line.
pub fn write_answer(question: &Question, answer: Answer, out: &mut dyn Write) -> io::Result<()> {
    match (question, answer) {
        (Question::Rank { .. }, Answer::Rank(Some(page))) => writeln!(out, "page {page}"),
        (Question::Rank { .. }, Answer::Rank(None)) => writeln!(out, "no page"),
        (Question::Bound { bound, .. }, Answer::Bound { page, below }) => {
            writeln!(out, "{}", bound_text(*bound, page, below))
        }
        (
            Question::Common(_),
            Answer::Common {
                seeks,
                looks,
                pages,
            },
        ) => write_common(pages, [seeks, looks], out),
        (Question::Phrase(_), Answer::Phrase(starts)) => write_starts(starts, out),
        _ => unreachable!("an answer is of its question's kind"),
    }
}

/// The page found for a bound, with its rank, and how many pages lie below the bound.
fn bound_text(bound: u32, page: Option<u32>, below: u32) -> String {
    let below_text = match below {
        0 => format!("no page lies below {bound}"),
        1 => format!("1 page lies below {bound}"),
        _ => format!("{below} pages lie below {bound}"),
    };
    match (page, below) {
        (Some(page), rank) => format!("page {page}, rank {rank}; {below_text}"),
        (None, 0) => "no page; the word is on none".into(),
        (None, _) => format!("no page; {below_text}"),
    }
}

/// Prints common pages, and the seeks and looks that finding them took, to the end of the line.
pub fn write_common(pages: &[u32], counts: [u32; 2], out: &mut dyn Write) -> io::Result<()> {
    write_pages(pages, out)?;
    let [seeks, looks] = counts.map(|count| count as usize);
    let (seeks, looks) = (counted(seeks, "seek"), counted(looks, "look"));
    writeln!(out, " ({seeks}, {looks})")
}

fn write_pages(pages: &[u32], out: &mut dyn Write) -> io::Result<()> {
    write_heading(pages.len(), out)?;
    for page in pages {
        write!(out, " {page}")?;
    }
    Ok(())
}

fn write_starts(starts: Starts, out: &mut dyn Write) -> io::Result<()> {
    write_heading(starts.len(), out)?;
    for (number, PageStarts { page, starts }) in starts.enumerate() {
        let gap = if number == 0 { "" } else { "," };
        write!(out, "{gap} {page} ({})", counted(starts as usize, "start"))?;
    }
    writeln!(out)
}

fn write_heading(pages: usize, out: &mut dyn Write) -> io::Result<()> {
    match pages {
        0 => write!(out, "no page"),
        1 => write!(out, "page"),
        _ => write!(out, "pages"),
    }
}

#[cfg(test)]
mod tests {
    use super::*;

    #[test]
    fn a_bound_tells_how_many_pages_lie_below_it() {
        for (page, below, expected) in [
            (Some(3), 0, "page 3, rank 0; no page lies below 2"),
            (Some(3), 1, "page 3, rank 1; 1 page lies below 2"),
            (Some(3), 2, "page 3, rank 2; 2 pages lie below 2"),
            (None, 1, "no page; 1 page lies below 2"),
            (None, 2, "no page; 2 pages lie below 2"),
            (None, 0, "no page; the word is on none"),
        ] {
            assert_eq!(bound_text(2, page, below), expected);
        }
    }
}
