//! The comparison of one case on both sides.

use crate::case::{run_call, Case, FileGiven, Outcome};
use crate::host_calls::{HostCalls, Plain};
use crate::plain::program::printed;
use crate::screen_calls::ScreenCalls;
use crate::stream_calls::StreamCalls;
use crate::text::{case_text, comment_text, outcome_text, Stored};
use std::fs;
use std::io;
use std::path::{Path, PathBuf};
use std::process::Command;

/// The library, or what stands for it.
#[derive(Clone, Copy)]
pub struct Side<'a> {
    /// The calls that stand alone.
    pub calls: &'a dyn HostCalls,
    /// The calls of a session.
    pub streams: &'a dyn StreamCalls,
    /// The calls for a screen.
    pub screens: &'a dyn ScreenCalls,
}

impl<'a> Side<'a> {
    /// The side that answers all calls by itself.
    pub fn of<T: HostCalls + StreamCalls + ScreenCalls>(library: &'a T) -> Side<'a> {
        Side {
            calls: library,
            streams: library,
            screens: library,
        }
    }
}

/// What the plain program is compared with.
pub struct Other<'a> {
    /// The library.
    pub side: Side<'a>,
    /// The program, if its printed text is compared too.
    pub program: Option<&'a Path>,
    /// A folder for the files that the program is given.
    pub scratch: PathBuf,
}

/// A case with what the plain program gives for it.
pub struct Decided {
    /// The case itself.
    pub stored: Stored,
    /// What the plain program gives.
    pub plain: Outcome,
}

impl Decided {
    /// A case that the plain program decides now.
    pub fn now(stored: Stored) -> Decided {
        let plain = plain_outcome(&stored.case);
        Decided { stored, plain }
    }
}

/// What came of one comparison.
pub struct Compared {
    /// What the plain program gives.
    pub plain: Outcome,
    /// A case file that shows the difference, if there is one.
    pub difference: Option<String>,
}

impl Other<'_> {
    /// Runs a case on both sides; `None` if there is no program to run it.
    pub fn compare(&self, stored: &Stored) -> Option<Compared> {
        let given = self.outcome(&stored.case)?;
        let plain = plain_outcome(&stored.case);
        Some(compared(stored, plain, given))
    }

    /// The same for a case whose plain outcome has been worked out.
    pub fn compare_decided(&self, decided: &Decided) -> Option<Compared> {
        let given = self.outcome(&decided.stored.case)?;
        Some(compared(&decided.stored, decided.plain.clone(), given))
    }

    fn outcome(&self, case: &Case) -> Option<Result<Outcome, String>> {
        match case {
            Case::Program { card, questions } => self
                .program
                .map(|program| run_program(program, &self.scratch, card, questions)),
            Case::Stream(case) => Some(Ok(case.run(self.side.streams))),
            Case::Screen(case) => Some(Ok(case.run(self.side.screens))),
            _ => run_call(self.side.calls, case).map(Ok),
        }
    }
}

fn compared(stored: &Stored, plain: Outcome, given: Result<Outcome, String>) -> Compared {
    let as_stored = stored.gives.as_ref().is_none_or(|gives| *gives == plain);
    let same = as_stored && given.as_ref() == Ok(&plain);
    let difference = (!same).then(|| difference_text(stored, &plain, &given));
    Compared { plain, difference }
}

/// What the plain program gives for a case.
pub fn plain_outcome(case: &Case) -> Outcome {
    match case {
        Case::Program { card, questions } => Outcome::Printed {
            text: printed(card.readable(), questions.readable()),
        },
        Case::Stream(case) => case.run(&Plain),
        Case::Screen(case) => case.run(&Plain),
        _ => run_call(&Plain, case).expect("every other case is a call"),
    }
}

fn difference_text(stored: &Stored, plain: &Outcome, given: &Result<Outcome, String>) -> String {
    let mut text = case_text(&stored.case);
    text += "gives\n";
    text += &outcome_text(stored.gives.as_ref().unwrap_or(plain));
    text += "\n# The plain program gives:\n";
    text += &comment_text(&outcome_text(plain));
    text += "# The library or its program gives:\n";
    text += &comment_text(&match given {
        Ok(outcome) => outcome_text(outcome),
        Err(message) => message.clone(),
    });
    text
}

fn run_program(
    program: &Path,
    scratch: &Path,
    card: &FileGiven,
    questions: &FileGiven,
) -> Result<Outcome, String> {
    let card_path = scratch.join("card");
    let question_path = scratch.join("questions");
    let lay_both = || -> io::Result<()> {
        lay(&card_path, card)?;
        lay(&question_path, questions)
    };
    lay_both().map_err(|e| format!("{}: {e}", scratch.display()))?;
    let output = Command::new(program)
        .arg(&card_path)
        .arg(&question_path)
        .output()
        .map_err(|e| format!("{}: {e}", program.display()))?;
    if output.status.code().is_none() {
        return Err(format!("the program was ended by {}", output.status));
    }
    match String::from_utf8(output.stdout) {
        Ok(text) => Ok(Outcome::Printed { text }),
        Err(_) => Err("the printed text is not text".to_string()),
    }
}

/// Lays a file, a folder or nothing at a path.
fn lay(path: &Path, given: &FileGiven) -> io::Result<()> {
    if path.is_dir() {
        fs::remove_dir(path)?;
    } else if path.exists() {
        fs::remove_file(path)?;
    }
    match given {
        FileGiven::Bytes(bytes) => fs::write(path, bytes),
        FileGiven::Absent => Ok(()),
        FileGiven::Folder => fs::create_dir(path),
    }
}

#[cfg(test)]
mod tests {
    use super::*;
    use crate::gen::calls::call;
    use crate::host_calls::{Asked, Written};
    use crate::stored;

    /// A library with one slip in it, over the plain program.
    enum Slip {
        None,
        RefusesEveryCard,
        WritesNothing,
        AnswersZero,
        AnswersOnlyTheFirst,
        CountsASeekMore,
        TellsNoPagesBelow,
        CountsAPageBelowMore,
        ClosesGaps,
        AcceptsAnyPointer,
        WritesBehindTheBlock,
        TellsALengthOnRefusal,
    }

    impl HostCalls for Slip {
        fn write_list(&self, bound: u32, list: &[u32], room: &mut [u8]) -> Written {
            let before = room.to_vec();
            let written = Plain.write_list(bound, list, room);
            match self {
                Slip::WritesNothing => room.copy_from_slice(&before),
                Slip::WritesBehindTheBlock if written.refusal == 0 => {
                    room[written.length..].fill(0);
                }
                _ => {}
            }
            written
        }

        fn check_list(&self, block: &[u8]) -> u32 {
            match (self, Plain.check_list(block)) {
                (Slip::AcceptsAnyPointer, 6) if block.len() == 97 => 0,
                (_, refusal) => refusal,
            }
        }

        fn write_term(
            &self,
            version: u32,
            card_pages: u32,
            pages: &[u32],
            counts: &[u32],
            positions: &[u32],
            room: &mut [u8],
        ) -> Written {
            let written = Plain.write_term(version, card_pages, pages, counts, positions, room);
            match (self, written.refusal) {
                (Slip::TellsALengthOnRefusal, 9) => Written {
                    length: room.len() + 1,
                    ..written
                },
                _ => written,
            }
        }

        fn check_term(&self, version: u32, block: &[u8]) -> u32 {
            Plain.check_term(version, block)
        }

        fn close_index(
            &self,
            buffer: &mut [u8],
            used: usize,
            version: u32,
            card_pages: u32,
            term_count: u32,
        ) -> Written {
            Plain.close_index(buffer, used, version, card_pages, term_count)
        }

        fn check_index(&self, card: &[u8]) -> u32 {
            match self {
                Slip::RefusesEveryCard => 6,
                _ => Plain.check_index(card),
            }
        }

        fn ask(&self, card: &[u8], questions: &[u32], room: &mut [u32]) -> Asked {
            let before = room.to_vec();
            let asked = Plain.ask(card, questions, room);
            let finds_none = asked.used == 2 && questions[0] == 2;
            match self {
                Slip::AnswersZero => room[..asked.used].fill(0),
                Slip::AnswersOnlyTheFirst if asked.answered > 1 => {
                    let first = room[0] as usize + 1;
                    room[first..asked.used].fill(0);
                }
                Slip::CountsASeekMore if asked.used > 1 && questions[0] == 3 => room[1] += 1,
                Slip::CountsAPageBelowMore if finds_none => room[1] += 1,
                Slip::TellsNoPagesBelow if finds_none => {
                    room.copy_from_slice(&before);
                    room[0] = 0;
                    return Asked { used: 1, ..asked };
                }
                Slip::ClosesGaps if asked.answered > 0 && questions[0] == 4 => {
                    room.copy_from_slice(&before);
                    return Plain.ask(card, &without_gaps(questions), room);
                }
                _ => {}
            }
            asked
        }
    }

    /// The questions with the words of the first, a phrase, right behind one another.
    fn without_gaps(questions: &[u32]) -> Vec<u32> {
        let mut changed = questions.to_vec();
        let pairs = changed[2..2 + questions[1] as usize].chunks_mut(2);
        pairs.zip(0..).for_each(|(pair, offset)| pair[1] = offset);
        changed
    }

    /// The number of differences on the edges and some seeded calls.
    fn differences(slip: &Slip) -> usize {
        let other = Other {
            side: Side {
                calls: slip,
                streams: &Plain,
                screens: &Plain,
            },
            program: None,
            scratch: PathBuf::new(),
        };
        let edges = stored::edges().expect("the edges can be read");
        let small = |stored: &Stored| case_is_small(&stored.case);
        let edges = edges.into_iter().map(|(_, stored)| stored).filter(small);
        let seeded = (0..600).map(|number| Stored {
            case: call(3, number),
            gives: None,
        });
        let compared = edges.chain(seeded).filter_map(|case| other.compare(&case));
        compared.filter(|done| done.difference.is_some()).count()
    }

    fn case_is_small(case: &Case) -> bool {
        !matches!(case, Case::WriteList { list, .. } if list.len() > 1_000_000)
    }

    #[test]
    fn without_a_slip_nothing_differs() {
        assert_eq!(differences(&Slip::None), 0);
    }

    #[test]
    fn every_slip_is_found() {
        let slips = [
            Slip::RefusesEveryCard,
            Slip::WritesNothing,
            Slip::AnswersZero,
            Slip::AnswersOnlyTheFirst,
            Slip::CountsASeekMore,
            Slip::TellsNoPagesBelow,
            Slip::CountsAPageBelowMore,
            Slip::ClosesGaps,
            Slip::AcceptsAnyPointer,
            Slip::WritesBehindTheBlock,
            Slip::TellsALengthOnRefusal,
        ];
        for (number, slip) in slips.iter().enumerate() {
            assert!(differences(slip) > 0, "slip {number} is not found");
        }
    }

    #[test]
    fn a_difference_can_be_read_again() {
        let edge = stored::edges().expect("the edges can be read").remove(0).1;
        let other = Err("nothing".to_string());
        let text = difference_text(&edge, &plain_outcome(&edge.case), &other);
        assert_eq!(crate::text::read_cases(&text), Ok(vec![edge]));
    }
}
