//! The program that lists a proof's nodes, run on files: what it writes must be the second implementation's listing.

use crate::tally::{hex, MOST_SHOWN};
use crate::threads::Counts;
use second::listing;
use std::fs;
use std::path::{Path, PathBuf};
use std::process::{Command, Output};
use std::sync::atomic::{AtomicU32, Ordering};

/// In the repository's root.
const PROGRAM: &str = "target/bin/desk_tree";
/// Lines of an output that are shown, from the one before the first that differs.
const LINES_SHOWN: usize = 6;
const MOST_SHOWN_MESSAGE: usize = 400;

/// The program and a folder of its own for the two files, which is removed at the end.
pub struct Program {
    path: PathBuf,
    folder: PathBuf,
}

impl Program {
    pub fn in_own_folder() -> Program {
        static FOLDERS: AtomicU32 = AtomicU32::new(0);
        let number = FOLDERS.fetch_add(1, Ordering::Relaxed);
        let name = format!("desk_tree-{}-{number}", std::process::id());
        let folder = std::env::temp_dir().join(name);
        fs::create_dir_all(&folder).unwrap_or_else(|error| failed(&folder, error));
        Program {
            path: Path::new(env!("CARGO_MANIFEST_DIR"))
                .join("..")
                .join(PROGRAM),
            folder,
        }
    }

    fn run(&self, obligation: &[u8], proof: &[u8]) -> Output {
        let files = [("obligation", obligation), ("proof", proof)].map(|(name, bytes)| {
            let path = self.folder.join(name);
            fs::write(&path, bytes).unwrap_or_else(|error| failed(&path, error));
            path
        });
        let run = Command::new(&self.path).args(files).output();
        run.unwrap_or_else(|error| {
            panic!("{PROGRAM}: {error}: run `rt ci` and `bash tests/built.sh` in the repository's root")
        })
    }
}

impl Drop for Program {
    fn drop(&mut self) {
        // A folder that stays does no harm, and a panic here would hide the one before.
        let _ = fs::remove_dir_all(&self.folder);
    }
}

fn failed<T>(path: &Path, error: std::io::Error) -> T {
    panic!("{}: {error}", path.display())
}

/// Runs of the program: what they count and which were wrong.
#[derive(Default)]
pub struct Listings {
    pub accepted: u64,
    pub before_walk: u64,
    pub in_walk: u64,
    pub most_lines: usize,
    differences: u64,
    shown: Vec<String>,
}

impl Listings {
    /// Compares the program's output with the second implementation's listing.
    pub fn compare(&mut self, program: &Program, label: &str, obligation: &[u8], proof: &[u8]) {
        let wanted = listing(obligation, proof);
        self.compare_with(program, label, obligation, proof, &wanted);
    }

    /// Compares the program's output with a known one.
    pub fn compare_with(
        &mut self,
        program: &Program,
        label: &str,
        obligation: &[u8],
        proof: &[u8],
        wanted: &[u8],
    ) {
        self.count(&lines(wanted));
        if let Some(fault) = fault(&program.run(obligation, proof), wanted) {
            self.differences += 1;
            if self.shown.len() < MOST_SHOWN {
                let [obligation, proof] = [obligation, proof].map(hex);
                self.shown.push(format!(
                    "{label}: {fault}\n  ob {obligation}\n  second {proof}"
                ));
            }
        }
    }

    fn count(&mut self, lines: &[&[u8]]) {
        let refused = lines
            .last()
            .is_some_and(|line| line.starts_with(b"refused "));
        match (refused, lines.len()) {
            (false, _) => self.accepted += 1,
            (true, ..=2) => self.before_walk += 1,
            (true, _) => self.in_walk += 1,
        }
        self.most_lines = self.most_lines.max(lines.len());
    }

    pub fn cases(&self) -> u64 {
        self.accepted + self.before_walk + self.in_walk
    }

    /// Prints the counts; panics if an output was wrong.
    pub fn report(&self, what: &str) {
        println!(
            "{what}: {} cases, {} accepted, {} refused before the walk, {} in the walk, up to {} lines",
            self.cases(),
            self.accepted,
            self.before_walk,
            self.in_walk,
            self.most_lines
        );
        assert!(self.cases() > 0, "{what}: no case was tried");
        assert!(
            self.differences == 0,
            "{what}: {} differ\n{}",
            self.differences,
            self.shown.join("\n")
        );
    }
}

impl Counts for Listings {
    fn add(&mut self, other: Listings) {
        self.accepted += other.accepted;
        self.before_walk += other.before_walk;
        self.in_walk += other.in_walk;
        self.most_lines = self.most_lines.max(other.most_lines);
        self.differences += other.differences;
        self.shown.extend(other.shown);
    }

    fn too_many(&self) -> bool {
        self.shown.len() >= MOST_SHOWN
    }
}

/// The lines of an output, each with its newline.
fn lines(output: &[u8]) -> Vec<&[u8]> {
    output.split_inclusive(|&byte| byte == b'\n').collect()
}

/// What is wrong about a run. Its exit status says nothing, but it must not be ended by a signal.
fn fault(run: &Output, wanted: &[u8]) -> Option<String> {
    if run.status.code().is_none() {
        return Some(format!("the program ended by {}", run.status));
    }
    if !run.stderr.is_empty() {
        let message = String::from_utf8_lossy(&run.stderr);
        let message: String = message.chars().take(MOST_SHOWN_MESSAGE).collect();
        return Some(format!("a message on standard error: {message:?}"));
    }
    (run.stdout != wanted).then(|| difference(&run.stdout, wanted))
}

/// Both outputs around the first line that differs.
fn difference(found: &[u8], wanted: &[u8]) -> String {
    let [found, wanted] = [found, wanted].map(lines);
    let same = found.iter().zip(&wanted).take_while(|(f, w)| f == w);
    let first = same.count();
    let from = first.saturating_sub(1);
    let [found, wanted] = [found, wanted].map(|lines| {
        let shown: Vec<&[u8]> = lines.iter().skip(from).take(LINES_SHOWN).copied().collect();
        let text = shown.concat();
        let text = String::from_utf8_lossy(&text);
        format!("{} lines, from line {}: {text:?}", lines.len(), from + 1)
    });
    format!(
        "line {} differs\n  wanted {wanted}\n  found {found}",
        first + 1
    )
}
