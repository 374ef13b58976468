//! What a comparison counts and where it found a difference.

use crate::threads::Counts;
use crate::{desk, Asked};
use second::{kinds, Answer};
use std::fmt::Write;

/// Nodes from which on an accepted file counts as large.
pub const LARGE: u64 = 200;
/// Differences that are shown in full.
pub(crate) const MOST_SHOWN: usize = 5;
/// Longest file that is shown in full.
const MOST_SHOWN_BYTES: usize = 4_096;

#[derive(Default)]
pub struct Tally {
    pub cases: u64,
    pub differences: u64,
    /// How often each refusal was the answer, for each file; 0 is none.
    pub refusals: [[u64; 3]; 19],
    /// Most nodes of an accepted file.
    pub most_nodes: u64,
    /// Accepted files of at least [`LARGE`] nodes.
    pub large: u64,
    /// Accepted pairs with a choice among their records.
    pub choices: u64,
    shown: Vec<String>,
}

impl Tally {
    /// Compares the proved code with the second implementation.
    pub fn compare(&mut self, label: &str, asked: Asked, obligation: &[u8], second: &[u8]) {
        let wanted = asked.second(obligation, second);
        self.compare_with(label, asked, obligation, second, wanted);
    }

    /// Compares the proved code with a known answer.
    pub fn compare_with(
        &mut self,
        label: &str,
        asked: Asked,
        obligation: &[u8],
        second: &[u8],
        wanted: Answer,
    ) {
        let found = desk::answer(asked, obligation, second);
        self.cases += 1;
        self.refusals[wanted.refusal as usize][wanted.file as usize] += 1;
        if wanted.is_accepted() {
            self.most_nodes = self.most_nodes.max(wanted.nodes);
            self.large += u64::from(wanted.nodes >= LARGE);
            self.choices += u64::from([obligation, second].into_iter().any(has_choice));
        }
        if found != wanted {
            self.differences += 1;
            self.show(label, asked, [obligation, second], [found, wanted]);
        }
    }

    fn show(&mut self, label: &str, asked: Asked, files: [&[u8]; 2], answers: [Answer; 2]) {
        if self.shown.len() < MOST_SHOWN {
            let [found, wanted] = answers;
            let [obligation, second] = files.map(hex);
            self.shown.push(format!(
                "{label} ({asked:?}): {wanted} is wanted, the proved code gives {found}\n  ob {obligation}\n  second {second}"
            ));
        }
    }

    /// Prints the counts; panics if there was a difference.
    pub fn report(&self, what: &str) {
        println!("{what}: {} cases, {}", self.cases, self.counts());
        assert!(self.cases > 0, "{what}: no case was tried");
        assert!(
            self.differences == 0,
            "{what}: {} differ\n{}",
            self.differences,
            self.shown.join("\n")
        );
    }

    fn counts(&self) -> String {
        let mut text = format!(
            "none {} (up to {} nodes, {} of {LARGE} and more, {} with a choice)",
            self.refusals[0][0], self.most_nodes, self.large, self.choices
        );
        for (refusal, files) in self.refusals.iter().enumerate().skip(1) {
            let _ = write!(text, ", {refusal}: {}+{}", files[1], files[2]);
        }
        text
    }
}

impl Counts for Tally {
    fn add(&mut self, other: Tally) {
        self.cases += other.cases;
        self.differences += other.differences;
        self.most_nodes = self.most_nodes.max(other.most_nodes);
        self.large += other.large;
        self.choices += other.choices;
        for (mine, theirs) in self.refusals.iter_mut().zip(other.refusals) {
            mine.iter_mut().zip(theirs).for_each(|(m, t)| *m += t);
        }
        self.shown.extend(other.shown);
    }

    fn too_many(&self) -> bool {
        self.shown.len() >= MOST_SHOWN
    }
}

/// A record of kind 23 stands in the file.
fn has_choice(file: &[u8]) -> bool {
    let choice = kinds::CHOICE.to_le_bytes();
    file.chunks_exact(16)
        .any(|record| record.starts_with(&choice))
}

pub(crate) fn hex(bytes: &[u8]) -> String {
    if bytes.len() > MOST_SHOWN_BYTES {
        return format!("({} bytes)", bytes.len());
    }
    bytes.iter().map(|byte| format!("{byte:02x}")).collect()
}
