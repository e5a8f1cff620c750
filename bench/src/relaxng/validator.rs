//! The RELAX NG validators as processes.
use std::collections::HashSet;
use std::path::{Path, PathBuf};
use std::process::Command;
use std::time::Instant;

#[derive(Clone, Copy, PartialEq)]
pub enum Validator {
    Xmllint,
    Jing,
}

impl Validator {
    pub fn name(self) -> &'static str {
        match self {
            Validator::Xmllint => "xmllint",
            Validator::Jing => "jing",
        }
    }

    fn command(self, rng: &Path) -> Command {
        let mut command = Command::new(self.name());
        if self == Validator::Xmllint {
            command.args(["--noout", "--relaxng"]);
        }
        command.arg(rng);
        command
    }

    pub fn installed(self) -> bool {
        Command::new(self.name()).arg("--version").output().is_ok()
    }

    /// The documents that it says are not valid: `xmllint` has a line for each, `jing` for each error.
    pub fn refused(self, rng: &Path, files: &[&Path]) -> HashSet<PathBuf> {
        let ran = self.command(rng).args(files).output().expect("it runs");
        let text = [ran.stdout, ran.stderr].concat();
        let text = String::from_utf8_lossy(&text);
        let file = |line: &str| match self {
            Validator::Xmllint => line.strip_suffix(" fails to validate").map(PathBuf::from),
            Validator::Jing => line
                .find(".xml:")
                .filter(|_| line.contains(": error:"))
                .map(|at| PathBuf::from(&line[..at + 4])),
        };
        text.lines().filter_map(file).collect()
    }

    /// Milliseconds of the whole process, the best of three.
    pub fn time(self, rng: &Path, files: &[&Path]) -> f64 {
        let run = |_| {
            let start = Instant::now();
            let ran = self.command(rng).args(files).output().expect("it runs");
            assert!(ran.status.success(), "{} refuses", self.name());
            start.elapsed().as_secs_f64() * 1e3
        };
        (0..3).map(run).fold(f64::INFINITY, f64::min)
    }
}
