//! The count of what has been compared and seen.

use crate::case::{Case, Kind, Outcome};
use crate::form_sights::{form_sights, FormSight};
use crate::gen::lists::GREATEST_WIDTH;
use crate::plain::list::Shape;
use crate::screen_sights::{screen_sights, ScreenSight};
use crate::sights::{sights, Sight};
use crate::stream_sights::{stream_sights, StreamSight};
use std::fmt::Write;

/// One more than the greatest number of refusal.
const REFUSALS: usize = 11;

/// How often each refusal, each low width and each sight was seen.
#[derive(Clone, Debug, PartialEq, Eq)]
pub struct Tally {
    seen: [[u64; REFUSALS]; Kind::ALL.len()],
    widths: [u64; GREATEST_WIDTH as usize + 1],
    sights: [u64; Sight::ALL.len()],
    stream_sights: [u64; StreamSight::ALL.len()],
    screen_sights: [u64; ScreenSight::ALL.len()],
    form_sights: [u64; FormSight::COUNT],
}

impl Default for Tally {
    fn default() -> Tally {
        Tally::of_each(0)
    }
}

impl Tally {
    /// A tally that has seen everything so many times.
    fn of_each(times: u64) -> Tally {
        Tally {
            seen: [[times; REFUSALS]; Kind::ALL.len()],
            widths: [times; GREATEST_WIDTH as usize + 1],
            sights: [times; Sight::ALL.len()],
            stream_sights: [times; StreamSight::ALL.len()],
            screen_sights: [times; ScreenSight::ALL.len()],
            form_sights: [times; FormSight::COUNT],
        }
    }

    /// Counts a case that has been compared.
    pub fn count(&mut self, case: &Case, plain: &Outcome) {
        self.count_kind(case.kind(), plain.refusal());
        if let (Case::WriteList { bound, list, .. }, 0) = (case, plain.refusal()) {
            if !list.is_empty() {
                let shape = Shape::of(*bound, list.len());
                self.widths[shape.width as usize] += 1;
            }
        }
        for sight in sights(case, plain) {
            self.sights[sight.place()] += 1;
        }
        for sight in stream_sights(case, plain) {
            self.stream_sights[sight.place()] += 1;
        }
        for sight in screen_sights(case, plain) {
            self.screen_sights[sight.place()] += 1;
        }
        for sight in form_sights(case, plain) {
            self.form_sights[sight.place()] += 1;
        }
    }

    /// Counts a comparison by its kind alone.
    pub fn count_kind(&mut self, kind: Kind, refusal: u32) {
        self.seen[kind as usize][refusal as usize] += 1;
    }

    /// Adds what another tally has counted.
    pub fn add(&mut self, other: &Tally) {
        for (own, more) in self.seen.iter_mut().zip(other.seen) {
            add_each(own, &more);
        }
        add_each(&mut self.widths, &other.widths);
        add_each(&mut self.sights, &other.sights);
        add_each(&mut self.stream_sights, &other.stream_sights);
        add_each(&mut self.screen_sights, &other.screen_sights);
        add_each(&mut self.form_sights, &other.form_sights);
    }

    /// How often each sight was seen, by its name.
    fn sights_by_name(&self) -> Vec<(String, u64)> {
        let names = Sight::ALL.into_iter().map(Sight::name);
        let stream_names = StreamSight::ALL.into_iter().map(StreamSight::name);
        let screen_names = ScreenSight::ALL.into_iter().map(ScreenSight::name);
        let form_names = FormSight::all().into_iter().map(|(_, name)| name.into());
        let names = names.chain(stream_names).chain(screen_names);
        let names = names.chain(form_names);
        let times = self.sights.iter().chain(&self.stream_sights);
        let times = times.chain(&self.screen_sights).chain(&self.form_sights);
        let times = times.copied();
        names.zip(times).collect()
    }

    /// The cases of a kind.
    pub fn of_kind(&self, kind: Kind) -> u64 {
        self.seen[kind as usize].iter().sum()
    }

    /// The host calls of all kinds.
    pub fn calls(&self) -> u64 {
        let calls = Kind::ALL.iter().filter(|kind| **kind != Kind::Program);
        calls.map(|kind| self.of_kind(*kind)).sum()
    }

    /// What can occur and was not seen, a line each.
    pub fn unseen(&self, with_program: bool) -> Vec<String> {
        let mut lines = Vec::new();
        for kind in Kind::ALL {
            if kind == Kind::Program && !with_program {
                continue;
            }
            for refusal in kind.can_occur() {
                if self.seen[kind as usize][*refusal as usize] == 0 {
                    lines.push(format!("{} never gave {refusal}", kind.name()));
                }
            }
        }
        for (width, times) in self.widths.iter().enumerate() {
            if *times == 0 {
                lines.push(format!("no list of low width {width} was written"));
            }
        }
        let sights = self.sights_by_name().into_iter();
        lines.extend(
            sights
                .filter(|(_, times)| *times == 0)
                .map(|(name, _)| name),
        );
        lines
    }

    /// The table of calls and refusals, then the widths and the sights.
    pub fn report(&self) -> String {
        let mut text = format!("{:<12}{:>11}", "call", "compared");
        (0..REFUSALS).for_each(|refusal| put(&mut text, &refusal.to_string()));
        text.push('\n');
        for kind in Kind::ALL {
            put_row(
                &mut text,
                kind,
                self.of_kind(kind),
                &self.seen[kind as usize],
            );
        }
        let widths: Vec<String> = self.widths.iter().map(u64::to_string).collect();
        let last = GREATEST_WIDTH;
        text += &format!(
            "lists written of low width 0 to {last}: {}\n",
            widths.join(" ")
        );
        for (name, times) in self.sights_by_name() {
            text += &format!("{name}: {times}\n");
        }
        text
    }
}

fn add_each(own: &mut [u64], more: &[u64]) {
    own.iter_mut()
        .zip(more)
        .for_each(|(own, more)| *own += more);
}

fn put(text: &mut String, cell: &str) {
    write!(text, "{cell:>10}").expect("text takes text");
}

fn put_row(text: &mut String, kind: Kind, compared: u64, seen: &[u64]) {
    write!(text, "{:<12}{compared:>11}", kind.name()).expect("text takes text");
    for (refusal, times) in seen.iter().enumerate() {
        match kind.can_occur().contains(&(refusal as u32)) {
            true => put(text, &times.to_string()),
            false => put(text, "-"),
        }
    }
    text.push('\n');
}

#[cfg(test)]
mod tests {
    use super::*;

    #[test]
    fn a_tally_that_has_seen_everything_lacks_nothing() {
        assert_eq!(Tally::of_each(1).unseen(true), Vec::<String>::new());
    }

    #[test]
    fn a_tally_without_one_sight_lacks_it() {
        for sight in Sight::ALL {
            let mut tally = Tally::of_each(1);
            tally.sights[sight.place()] = 0;
            assert_eq!(tally.unseen(true), [sight.name()]);
        }
    }

    #[test]
    fn a_tally_without_one_sight_of_sessions_lacks_it() {
        for sight in StreamSight::ALL {
            let mut tally = Tally::of_each(1);
            tally.stream_sights[sight.place()] = 0;
            assert_eq!(tally.unseen(true), [sight.name()]);
        }
    }

    #[test]
    fn a_tally_without_one_sight_of_screens_lacks_it() {
        for sight in ScreenSight::ALL {
            let mut tally = Tally::of_each(1);
            tally.screen_sights[sight.place()] = 0;
            assert_eq!(tally.unseen(true), [sight.name()]);
        }
    }

    #[test]
    fn a_tally_without_one_sight_of_forms_lacks_it() {
        for (sight, name) in FormSight::all() {
            let mut tally = Tally::of_each(1);
            tally.form_sights[sight.place()] = 0;
            assert_eq!(tally.unseen(true), [name]);
        }
    }

    #[test]
    fn a_tally_without_one_width_lacks_it() {
        for width in 0..=GREATEST_WIDTH {
            let mut tally = Tally::of_each(1);
            tally.widths[width as usize] = 0;
            let line = format!("no list of low width {width} was written");
            assert_eq!(tally.unseen(true), [line]);
        }
    }

    #[test]
    fn a_tally_without_one_refusal_that_can_occur_lacks_it() {
        for kind in Kind::ALL {
            for refusal in 0..REFUSALS as u32 {
                let mut tally = Tally::of_each(1);
                tally.seen[kind as usize][refusal as usize] = 0;
                let lacks = kind.can_occur().contains(&refusal);
                assert_eq!(tally.unseen(true).len(), usize::from(lacks));
            }
        }
    }

    #[test]
    fn what_is_counted_is_not_lacked_any_more() {
        let mut tally = Tally::default();
        let line = "check_list never gave 1".to_string();
        assert!(tally.unseen(false).contains(&line));
        assert!(!tally
            .unseen(false)
            .iter()
            .any(|line| line.starts_with("program")));
        let case = Case::CheckList { block: Vec::new() };
        tally.count(&case, &Outcome::Checked { refusal: 1 });
        assert!(!tally.unseen(false).contains(&line));
        assert_eq!(tally.calls(), 1);
    }

    #[test]
    fn two_tallies_add_up() {
        let mut tally = Tally::of_each(1);
        tally.add(&Tally::of_each(1));
        assert_eq!(tally, Tally::of_each(2));
    }
}
