//! The work of one start: all jobs on all threads, one job, or a case file.

use crate::options::{Job, Options};
use crate::pace::Pace;
use crate::work_files::{write_case, Scratch};
use crate::worker::Worker;
use second::case::Kind;
use second::compare::{Compared, Decided, Other, Side};
use second::full_size::{FullCard, CALLS};
use second::gen::{calls, cuts, files, limit, screens, streams};
use second::long_closing;
use second::stored;
use second::tally::Tally;
use second::text::{case_text, read_cases, Stored};
use std::fs;
use std::path::Path;
use std::sync::atomic::{AtomicU64, Ordering};

/// The most differences that are written as files.
const GREATEST_DIFFERENCES: u64 = 20;

/// What a thread takes at a time.
pub enum Work {
    /// One job.
    One(Job),
    /// All calls of the card of full size of this number.
    Card(u64),
}

/// The number of the next work and of the differences, shared by all threads.
pub struct Shared<'a> {
    /// The command line.
    pub options: &'a Options,
    side: Side<'a>,
    stored: Vec<Stored>,
    pace: Pace,
    next: AtomicU64,
    differences: AtomicU64,
}

/// Compares stored edges, cards of full size, program runs, sessions, screens and seeded calls.
/// Gives whether all was equal and everything that must be seen was seen.
pub fn compare_all(options: &Options, side: Side) -> Result<bool, String> {
    let shared = Shared::new(options, side)?;
    let mut tally = shared.work_on_all_threads()?;
    shared.compare_long_closings(&mut tally);
    Ok(shared.report(&tally))
}

impl<'a> Shared<'a> {
    fn new(options: &'a Options, side: Side<'a>) -> Result<Shared<'a>, String> {
        fs::create_dir_all(&options.out).map_err(|e| format!("{}: {e}", options.out.display()))?;
        let edges = stored::edges()?;
        let changes = stored::small_changes(&edges);
        let mut stored: Vec<Stored> = edges.into_iter().map(|(_, stored)| stored).collect();
        stored.extend(changes.into_iter().map(Stored::seeded));
        Ok(Shared {
            options,
            side,
            stored,
            pace: Pace::start(options.minutes),
            next: AtomicU64::new(0),
            differences: AtomicU64::new(0),
        })
    }

    /// The next work, unless none is left or the time is up.
    pub fn next_work(&self) -> Option<Work> {
        if self.pace.is_over() {
            return None;
        }
        let number = self.next.fetch_add(1, Ordering::Relaxed);
        self.pace.tell(number, self.differences());
        self.work(number)
    }

    /// The work of this number: stored edges, cards, bitmaps at the limit, runs, sessions, screens, then calls.
    fn work(&self, number: u64) -> Option<Work> {
        let runs = match self.options.program {
            Some(_) => self.options.runs,
            None => 0,
        };
        let stored = |number| Work::One(Job::Stored(number as usize));
        let sections: [(u64, &dyn Fn(u64) -> Work); 8] = [
            (self.stored.len() as u64, &stored),
            (self.options.cards, &Work::Card),
            (limit::SETS, &|number| Work::One(Job::Limit(number))),
            (runs, &|number| Work::One(Job::Run(number))),
            (cuts::SESSIONS, &|number| Work::One(Job::Cut(number))),
            (self.options.streams, &|number| {
                Work::One(Job::Stream(number))
            }),
            (self.options.screens, &|number| {
                Work::One(Job::Screen(number))
            }),
            (self.options.calls, &|number| Work::One(Job::Call(number))),
        ];
        let mut place = number;
        for (length, work) in sections {
            if place < length {
                return Some(work(place));
            }
            place -= length;
        }
        None
    }

    /// The cases of a job, in turn.
    pub fn cases_of(&self, job: Job) -> Option<Vec<Decided>> {
        let seed = self.options.seed;
        let stored = match job {
            Job::Stored(number) => self.stored.get(number)?.clone(),
            Job::Full(number) => {
                let card = FullCard::of(seed, number / CALLS);
                return Some(vec![card.call(number % CALLS)]);
            }
            Job::Long(number) => return Some(FullCard::of(seed, number).session()),
            Job::Limit(number) => return (number < limit::SETS).then(|| limit::set(number)),
            Job::Cut(number) => {
                let in_range = number < cuts::SESSIONS;
                return in_range.then(|| cuts::session(seed, number));
            }
            Job::Stream(number) => return Some(streams::session(seed, number)),
            Job::Screen(number) => return Some(screens::set(seed, number)),
            Job::Call(number) => Stored::seeded(calls::call(seed, number)),
            Job::Run(number) => Stored::seeded(files::run(seed, number)),
        };
        Some(vec![Decided::now(stored)])
    }

    fn differences(&self) -> u64 {
        self.differences.load(Ordering::Relaxed)
    }

    /// Does every job, with this thread as one of those at work, and adds up what they have counted.
    fn work_on_all_threads(&self) -> Result<Tally, String> {
        std::thread::scope(|scope| {
            let start = |number| scope.spawn(move || Worker::work(self, number));
            let others: Vec<_> = (1..self.options.threads).map(start).collect();
            let own = Worker::work(self, 0);
            let ended: Vec<_> = others.into_iter().map(|worker| worker.join()).collect();
            let mut tally = own?;
            for counted in ended {
                tally.add(&counted.map_err(|_| "a thread broke off")??);
            }
            Ok(tally)
        })
    }

    fn compare_long_closings(&self, tally: &mut Tally) {
        match long_closing::compare(self.side.calls, tally) {
            Some(lines) => {
                lines.iter().for_each(|line| println!("difference: {line}"));
                let number = lines.len() as u64;
                self.differences.fetch_add(number, Ordering::Relaxed);
            }
            None => println!("closings past four bytes left out: no addresses for the buffer"),
        }
    }

    /// What the plain program is compared with.
    pub fn other(&self, scratch: &Scratch) -> Other<'_> {
        Other {
            side: self.side,
            program: self.options.program.as_deref(),
            scratch: scratch.0.clone(),
        }
    }

    /// Counts a difference, if there is one, and writes the first few as files.
    pub fn note_difference(&self, name: &str, compared: &Compared) -> Result<(), String> {
        let Some(text) = &compared.difference else {
            return Ok(());
        };
        let number = self.differences.fetch_add(1, Ordering::Relaxed);
        if number < GREATEST_DIFFERENCES {
            let path = write_case(&self.options.out, name, text)?;
            println!("difference at {name}: {}", path.display());
        }
        Ok(())
    }

    fn report(&self, tally: &Tally) -> bool {
        print!("{}", tally.report());
        let (calls, runs) = (tally.calls(), tally.of_kind(Kind::Program));
        let (seed, seconds) = (self.options.seed, self.pace.seconds());
        println!("seed {seed}: {calls} calls and {runs} program runs compared in {seconds:.1} s");
        let begun = self.next.load(Ordering::Relaxed);
        if self.work(begun).is_some() {
            println!("the time was up after {begun} jobs");
        }
        let unseen = tally.unseen(self.options.program.is_some());
        unseen.iter().for_each(|line| println!("not seen: {line}"));
        let differences = self.differences();
        println!("differences: {differences}");
        differences == 0 && unseen.is_empty()
    }
}

/// Compares one job, whose case file is written before it is tried.
pub fn compare_one(options: &Options, side: Side, job: Job) -> Result<bool, String> {
    let shared = Shared::new(options, side)?;
    let cases = shared.cases_of(job).ok_or(format!("there is no {job}"))?;
    let cases: Vec<Stored> = cases.into_iter().map(|call| call.stored).collect();
    let text: String = cases.iter().map(|stored| case_text(&stored.case)).collect();
    let path = write_case(&options.out, &job.to_string(), &text)?;
    println!("case file: {}", path.display());
    compare_cases(&shared, &job.to_string(), &cases)
}

/// Compares the cases of a file.
pub fn replay(options: &Options, side: Side, file: &Path) -> Result<bool, String> {
    let text = fs::read_to_string(file).map_err(|e| format!("{}: {e}", file.display()))?;
    let cases = read_cases(&text).map_err(|e| format!("{}: {e}", file.display()))?;
    let shared = Shared::new(options, side)?;
    compare_cases(&shared, "replay", &cases)
}

fn compare_cases(shared: &Shared, name: &str, cases: &[Stored]) -> Result<bool, String> {
    let scratch = Scratch::new(0)?;
    let other = shared.other(&scratch);
    for (number, stored) in cases.iter().enumerate() {
        let kind = stored.case.kind().name();
        match other.compare(stored) {
            Some(compared) => {
                let equal = if compared.difference.is_none() {
                    "equal"
                } else {
                    "different"
                };
                println!("{kind}: refusal {}, {equal}", compared.plain.refusal());
                shared.note_difference(&format!("{name}-{number}"), &compared)?;
            }
            None => println!("{kind}: left out, as no --program is given"),
        }
    }
    Ok(shared.differences() == 0)
}
