//! The program, one process for each file.

use std::fs::{self, File};
use std::io::Write;
use std::path::PathBuf;
use std::process::{Command, Stdio};

pub struct Terminal {
    /// The program, with what starts it before it, if anything does.
    pub words: Vec<String>,
    /// Where a file is put that the program reads as its standard input.
    pub scratch: PathBuf,
}

impl Terminal {
    /// What the program writes for a file, from a pipe or straight from the file; or why it could not be run.
    pub fn line(&self, file: &[u8], from_pipe: bool) -> Result<String, String> {
        let mut command = Command::new(&self.words[0]);
        command.args(&self.words[1..]).stdout(Stdio::piped());
        let failed = |error: std::io::Error| format!("{}: {error}", self.words.join(" "));
        if from_pipe {
            command.stdin(Stdio::piped());
        } else {
            fs::write(&self.scratch, file).map_err(failed)?;
            command.stdin(File::open(&self.scratch).map_err(failed)?);
        }
        let mut running = command.spawn().map_err(failed)?;
        if let Some(mut input) = running.stdin.take() {
            // the program may answer before it has read all of a file that is too long
            let _ = input.write_all(file);
        }
        let ended = running.wait_with_output().map_err(failed)?;
        let wrote = String::from_utf8_lossy(&ended.stdout).into_owned();
        match ended.status.success() {
            true => Ok(wrote),
            false => Err(format!("{} after '{wrote}'", ended.status)),
        }
    }
}
