//! The program that is compared, run on one list.

use std::fs::{self, File};
use std::io;
use std::path::{Path, PathBuf};
use std::process::{Command, Stdio};

pub struct Program {
    path: PathBuf,
    /// The list, which the program gets as its standard input.
    input: PathBuf,
}

pub struct Given {
    pub lines: Vec<String>,
    /// How the program ended, if not with status 0.
    pub failure: Option<String>,
}

impl Program {
    /// Each thread has its own program, and so a file of its own.
    pub fn new(path: &Path, folder: &Path, thread: u64) -> Self {
        Self {
            path: path.to_path_buf(),
            input: folder.join(format!("list_{thread}")),
        }
    }

    pub fn run(&self, text: &str) -> io::Result<Given> {
        fs::write(&self.input, text)?;
        let output = Command::new(&self.path)
            .stdin(File::open(&self.input)?)
            .stderr(Stdio::inherit())
            .output()?;
        let text = String::from_utf8_lossy(&output.stdout);
        let failed = !output.status.success();
        Ok(Given {
            // The last line has an end too.
            lines: text.split_terminator('\n').map(str::to_string).collect(),
            failure: failed.then(|| output.status.to_string()),
        })
    }
}
