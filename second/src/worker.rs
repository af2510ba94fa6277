//! One thread's work: it takes jobs until none is left or the time is up.

use crate::options::Job;
use crate::session::{Shared, Work};
use crate::work_files::{Scratch, UnderWay};
use second::compare::{Decided, Other};
use second::full_size::{FullCard, CALLS};
use second::tally::Tally;

/// What one thread holds while it works.
pub struct Worker<'a> {
    shared: &'a Shared<'a>,
    other: Other<'a>,
    under_way: UnderWay,
    tally: Tally,
}

impl<'a> Worker<'a> {
    /// Takes jobs until there are no more, and gives what it has counted.
    pub fn work(shared: &'a Shared<'a>, number: usize) -> Result<Tally, String> {
        let scratch = Scratch::new(number)?;
        let mut worker = Worker {
            shared,
            other: shared.other(&scratch),
            under_way: UnderWay::new(&shared.options.out, number)?,
            tally: Tally::default(),
        };
        while let Some(work) = shared.next_work() {
            match work {
                Work::One(job) => worker.compare_job(job)?,
                Work::Card(number) => worker.compare_card(number)?,
            }
        }
        worker.under_way.end()?;
        Ok(worker.tally)
    }

    fn compare_job(&mut self, job: Job) -> Result<(), String> {
        self.under_way.note(job)?;
        let cases = self.shared.cases_of(job).ok_or("no such job")?;
        self.compare_cases(job, &cases)
    }

    fn compare_cases(&mut self, job: Job, cases: &[Decided]) -> Result<(), String> {
        for (number, case) in cases.iter().enumerate() {
            let name = match cases.len() {
                1 => job.to_string(),
                _ => format!("{job}-{number}"),
            };
            self.compare_case(&name, case)?;
        }
        Ok(())
    }

    /// Makes every call of a card of full size, which is built once, and writes its longest word run by run.
    fn compare_card(&mut self, number: u64) -> Result<(), String> {
        let first = number * CALLS;
        self.under_way.note(Job::Full(first))?;
        let card = FullCard::of(self.shared.options.seed, number);
        for call in 0..CALLS {
            let job = Job::Full(first + call);
            self.under_way.note(job)?;
            self.compare_case(&job.to_string(), &card.call(call))?;
        }
        let session = Job::Long(number);
        self.under_way.note(session)?;
        self.compare_cases(session, &card.session())
    }

    /// Compares and counts a case, unless there is no program to run it.
    fn compare_case(&mut self, name: &str, case: &Decided) -> Result<(), String> {
        if let Some(compared) = self.other.compare_decided(case) {
            self.tally.count(&case.stored.case, &compared.plain);
            self.shared.note_difference(name, &compared)?;
        }
        Ok(())
    }
}
