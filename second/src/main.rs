//! Compares every host call of the library, and the text its program prints,
//! with the plain program, on stored edges and on seeded cases.

#[cfg(not(feature = "self"))]
mod host;
mod options;
mod pace;
mod session;
mod work_files;
mod worker;

use options::{Options, Task};
use second::compare::Side;
use std::process::ExitCode;

/// The side that the plain program is compared with.
#[cfg(not(feature = "self"))]
static OTHER_SIDE: host::Archive = host::Archive;

/// Without the library, the plain program itself is the other side.
#[cfg(feature = "self")]
static OTHER_SIDE: second::host_calls::Plain = second::host_calls::Plain;

fn main() -> ExitCode {
    let options = match Options::read(std::env::args().skip(1)) {
        Ok(options) => options,
        Err(message) => {
            eprintln!("{message}\n\n{}", options::USAGE);
            return ExitCode::from(2);
        }
    };
    let side = Side::of(&OTHER_SIDE);
    let result = match &options.task {
        Task::Compare => session::compare_all(&options, side),
        Task::OneJob(job) => session::compare_one(&options, side, *job),
        Task::Replay(file) => session::replay(&options, side, file),
    };
    match result {
        Ok(true) => ExitCode::SUCCESS,
        Ok(false) => ExitCode::from(1),
        Err(message) => {
            eprintln!("{message}");
            ExitCode::from(2)
        }
    }
}
