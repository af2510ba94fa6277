//! The files that the work leaves: cases, the job under way, the program's files.

use crate::options::Job;
use std::fs::{self, File};
use std::os::unix::fs::FileExt;
use std::path::{Path, PathBuf};

/// Writes a case file under the name of its job.
pub fn write_case(folder: &Path, name: &str, text: &str) -> Result<PathBuf, String> {
    let path = folder.join(format!("{}.txt", name.replace(':', "-")));
    fs::write(&path, text).map_err(|e| format!("{}: {e}", path.display()))?;
    Ok(path)
}

/// A small file that names the job under way, for when a call never returns.
pub struct UnderWay {
    path: PathBuf,
    file: File,
}

impl UnderWay {
    /// The file of this worker in the folder of differences.
    pub fn new(folder: &Path, worker: usize) -> Result<UnderWay, String> {
        let path = folder.join(format!("under-way-{worker}"));
        let file = File::create(&path).map_err(|e| format!("{}: {e}", path.display()))?;
        Ok(UnderWay { path, file })
    }

    /// Writes a job's name over the one before.
    pub fn note(&self, job: Job) -> Result<(), String> {
        let line = format!("{:<30}\n", job.to_string());
        let written = self.file.write_all_at(line.as_bytes(), 0);
        written.map_err(|e| format!("{}: {e}", self.path.display()))
    }

    /// Takes the file away, as every job has returned.
    pub fn end(self) -> Result<(), String> {
        fs::remove_file(&self.path).map_err(|e| format!("{}: {e}", self.path.display()))
    }
}

/// A folder of this worker's own for the program's files, gone at the end.
pub struct Scratch(pub PathBuf);

impl Scratch {
    /// A folder among the temporary files of this machine.
    pub fn new(worker: usize) -> Result<Scratch, String> {
        let name = format!("jundefola-second-{}-{worker}", std::process::id());
        let folder = std::env::temp_dir().join(name);
        fs::create_dir_all(&folder).map_err(|e| format!("{}: {e}", folder.display()))?;
        Ok(Scratch(folder))
    }
}

impl Drop for Scratch {
    fn drop(&mut self) {
        let _ = fs::remove_dir_all(&self.0);
    }
}
