//! The command line.

use second::gen::full_size::SHAPES;
use std::fmt;
use std::path::PathBuf;

/// What the command line takes.
pub const USAGE: &str = "\
usage: second [--seed S] [--calls C] [--streams W] [--screens P] [--cards F]
              [--runs R] [--program PATH] [--minutes M] [--threads K]
              [--out FOLDER] [--replay FILE | --case JOB]

  --seed S        the seed of the cases (default 1)
  --calls C       seeded host calls to compare (default 200000)
  --streams W     seeded sessions that write a word run by run (default 6000)
  --screens P     seeded cards that screens are asked of (default 1500)
  --cards F       cards of full size to make calls with (default 6)
  --runs R        seeded runs of the program to compare (default 1000)
  --program PATH  the program whose printed text is compared
  --minutes M     begin no new job after so many minutes (default: no bound)
  --threads K     threads at work (default: as many as there are cores)
  --out FOLDER    where differences are written (default target/differences)
  --replay FILE   compare the cases of a case file only
  --case JOB      compare one job only, such as call:17, stream:5,
                  screen:6, full:3 or run:4, and write its case file
                  before it is tried";

/// One piece of work, numbered so that it can be done again.
#[derive(Clone, Copy, Debug, PartialEq, Eq)]
pub enum Job {
    /// A stored edge or a small change to one.
    Stored(usize),
    /// A call with a card of full size.
    Full(u64),
    /// The session that writes the longest word of a card of full size.
    Long(u64),
    /// Calls with a bitmap of the greatest U.
    Limit(u64),
    /// A session of a word that is cut in every way.
    Cut(u64),
    /// A seeded session.
    Stream(u64),
    /// The screens of a seeded card.
    Screen(u64),
    /// A seeded host call.
    Call(u64),
    /// A seeded run of the program.
    Run(u64),
}

impl fmt::Display for Job {
    fn fmt(&self, f: &mut fmt::Formatter) -> fmt::Result {
        match self {
            Job::Stored(number) => write!(f, "stored:{number}"),
            Job::Full(number) => write!(f, "full:{number}"),
            Job::Long(number) => write!(f, "long:{number}"),
            Job::Limit(number) => write!(f, "limit:{number}"),
            Job::Cut(number) => write!(f, "cut:{number}"),
            Job::Stream(number) => write!(f, "stream:{number}"),
            Job::Screen(number) => write!(f, "screen:{number}"),
            Job::Call(number) => write!(f, "call:{number}"),
            Job::Run(number) => write!(f, "run:{number}"),
        }
    }
}

impl Job {
    fn read(text: &str) -> Option<Job> {
        let (kind, number) = text.split_once(':')?;
        match kind {
            "stored" => number.parse().ok().map(Job::Stored),
            "full" => number.parse().ok().map(Job::Full),
            "long" => number.parse().ok().map(Job::Long),
            "limit" => number.parse().ok().map(Job::Limit),
            "cut" => number.parse().ok().map(Job::Cut),
            "stream" => number.parse().ok().map(Job::Stream),
            "screen" => number.parse().ok().map(Job::Screen),
            "call" => number.parse().ok().map(Job::Call),
            "run" => number.parse().ok().map(Job::Run),
            _ => None,
        }
    }
}

/// What is to be done.
#[derive(Clone, Debug, PartialEq, Eq)]
pub enum Task {
    /// Compare everything.
    Compare,
    /// Compare one job.
    OneJob(Job),
    /// Compare the cases of a file.
    Replay(PathBuf),
}

/// The command line, read.
#[derive(Clone, Debug, PartialEq, Eq)]
pub struct Options {
    /// The seed of the cases.
    pub seed: u64,
    /// Seeded host calls.
    pub calls: u64,
    /// Seeded sessions.
    pub streams: u64,
    /// Seeded cards that screens are asked of.
    pub screens: u64,
    /// Cards of full size.
    pub cards: u64,
    /// Seeded runs of the program.
    pub runs: u64,
    /// The program, if it is compared.
    pub program: Option<PathBuf>,
    /// The minutes after which no new job is begun.
    pub minutes: Option<u64>,
    /// Threads at work.
    pub threads: usize,
    /// Where differences are written.
    pub out: PathBuf,
    /// What is to be done.
    pub task: Task,
}

impl Options {
    /// Reads the words after the program's name.
    pub fn read(words: impl Iterator<Item = String>) -> Result<Options, String> {
        let mut options = Options {
            seed: 1,
            calls: 200_000,
            streams: 6_000,
            screens: 1_500,
            cards: SHAPES,
            runs: 1_000,
            program: None,
            minutes: None,
            threads: std::thread::available_parallelism().map_or(1, usize::from),
            out: PathBuf::from("target/differences"),
            task: Task::Compare,
        };
        let mut words = words;
        while let Some(name) = words.next() {
            let value = words.next().ok_or(format!("{name} needs a value"))?;
            options.set(&name, &value)?;
        }
        Ok(options)
    }

    fn set(&mut self, name: &str, value: &str) -> Result<(), String> {
        match name {
            "--seed" => self.seed = number(name, value)?,
            "--calls" => self.calls = number(name, value)?,
            "--streams" => self.streams = number(name, value)?,
            "--screens" => self.screens = number(name, value)?,
            "--cards" => self.cards = number(name, value)?,
            "--minutes" => self.minutes = Some(number(name, value)?),
            "--runs" => self.runs = number(name, value)?,
            "--threads" => self.threads = number::<usize>(name, value)?.max(1),
            "--program" => self.program = Some(PathBuf::from(value)),
            "--out" => self.out = PathBuf::from(value),
            "--replay" => self.task = Task::Replay(PathBuf::from(value)),
            "--case" => {
                let job = Job::read(value).ok_or(format!("{value} names no job"))?;
                self.task = Task::OneJob(job);
            }
            _ => return Err(format!("{name} is not known")),
        }
        Ok(())
    }
}

fn number<T: std::str::FromStr>(name: &str, value: &str) -> Result<T, String> {
    let parsed = value.parse();
    parsed.map_err(|_| format!("{name} {value}: not a number"))
}
