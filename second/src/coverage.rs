//! How well generated cases cover the refusals, the rules and the places of choices.

use crate::generate::{derivation_case, promised, proof_case, Case};
use crate::kinds::CHOICE;
use crate::numbers::Numbers;
use crate::positions::{self, Position};
use crate::reader::Second;
use crate::{check_counting, words, Answer};
use std::collections::BTreeMap;
use std::fmt;

pub const REFUSALS: std::ops::RangeInclusive<usize> = 1..=18;

/// The rule kinds of a second file.
pub fn rules(kind: Second) -> std::ops::RangeInclusive<usize> {
    match kind {
        Second::Proof => 32..=46,
        Second::Derivation => 64..=80,
    }
}

/// Whether a refusal can occur at all: a proof has no limit of depth, so 18 is for derivations only.
pub fn can_occur(kind: Second, refusal: usize) -> bool {
    refusal != 18 || kind == Second::Derivation
}

#[derive(Clone)]
pub struct Coverage {
    pub kind: Second,
    pub cases: u64,
    pub accepted: u64,
    /// Cases by refusal, then by file.
    pub refusals: [[u64; 3]; 20],
    /// Accepted files in which the rule was walked.
    pub files: [u64; 81],
    /// Its nodes in accepted files.
    pub nodes: [u64; 81],
    pub choices: Choices,
    pub numbers: Numbers,
    /// Cases whose label promised another answer.
    pub broken: Vec<String>,
}

/// Choice terms in the cases.
#[derive(Clone, Default)]
pub struct Choices {
    /// Accepted files in which a part, a hypothesis or the goal has one.
    pub accepted: u64,
    /// Their records in accepted files.
    pub records: u64,
    /// Accepted files by where a choice stands.
    pub positions: BTreeMap<Position, u64>,
    /// Refused cases with a choice's record anywhere.
    pub refused: u64,
    /// Cases by refusal whose record is a choice, or whose node has one in a part.
    pub at_fault: BTreeMap<u64, u64>,
}

impl Choices {
    fn add(&mut self, case: &Case, kind: Second, answer: Answer) {
        let (obligation, second) = (&case.obligation, &case.second);
        if !answer.is_accepted() {
            let has_choice = |file| words::records(file).iter().any(|r| r.kind == CHOICE);
            self.refused += u64::from(has_choice(obligation) || has_choice(second));
            if positions::is_at_fault(obligation, second, kind, answer) {
                *self.at_fault.entry(answer.refusal).or_default() += 1;
            }
            return;
        }
        let found = positions::of_case(obligation, second, kind);
        self.accepted += u64::from(found.records > 0);
        self.records += found.records as u64;
        for position in found.positions {
            *self.positions.entry(position).or_default() += 1;
        }
    }

    pub fn files(&self, position: Position) -> u64 {
        self.positions.get(&position).copied().unwrap_or(0)
    }

    pub fn refusals(&self, refusal: u64) -> u64 {
        self.at_fault.get(&refusal).copied().unwrap_or(0)
    }
}

impl fmt::Display for Choices {
    fn fmt(&self, f: &mut fmt::Formatter<'_>) -> fmt::Result {
        let (accepted, records) = (self.accepted, self.records);
        writeln!(f, "  choices: {accepted} accepted files, {records} records")?;
        for (position, files) in &self.positions {
            let name = format!("{position:?}");
            writeln!(f, "  {name:>18} {files:>7}")?;
        }
        writeln!(f, "  choices: {} refused cases; at fault", self.refused)?;
        for (refusal, cases) in &self.at_fault {
            writeln!(f, "  {refusal:>7} {cases:>7}")?;
        }
        Ok(())
    }
}

impl Coverage {
    pub fn new(kind: Second) -> Coverage {
        Coverage {
            kind,
            cases: 0,
            accepted: 0,
            refusals: [[0; 3]; 20],
            files: [0; 81],
            nodes: [0; 81],
            choices: Choices::default(),
            numbers: Numbers::new(rules(kind)),
            broken: Vec::new(),
        }
    }

    pub fn of_seeds(kind: Second, from: u64, count: u64) -> Coverage {
        let mut coverage = Coverage::new(kind);
        for seed in from..from + count {
            let case = match kind {
                Second::Proof => proof_case(seed),
                Second::Derivation => derivation_case(seed),
            };
            let answer = coverage.add(&case);
            if promised(&case.label).is_some_and(|refusal| refusal != answer.refusal) {
                let line = format!("seed {seed}, {}: {answer}", case.label);
                coverage.broken.push(line);
            }
        }
        coverage
    }

    pub fn add(&mut self, case: &Case) -> Answer {
        let (answer, rules) = check_counting(&case.obligation, &case.second, self.kind);
        self.cases += 1;
        self.choices.add(case, self.kind, answer);
        self.numbers.add(case, self.kind, answer);
        if !answer.is_accepted() {
            self.refusals[answer.refusal as usize][answer.file as usize] += 1;
            return answer;
        }
        self.accepted += 1;
        for (kind, &count) in rules.iter().enumerate() {
            self.files[kind] += u64::from(count > 0);
            self.nodes[kind] += count;
        }
        answer
    }

    pub fn cases_of(&self, refusal: usize) -> u64 {
        self.refusals[refusal].iter().sum()
    }

    /// What is covered by fewer cases than wanted.
    pub fn lacking(&self, wanted: u64) -> Vec<String> {
        let refusals = REFUSALS
            .filter(|&r| can_occur(self.kind, r) && self.cases_of(r) < wanted)
            .map(|r| format!("refusal {r}: {} cases", self.cases_of(r)));
        let rules = rules(self.kind)
            .filter(|&k| self.files[k] < wanted)
            .map(|k| format!("rule {k}: {} accepted files", self.files[k]));
        refusals.chain(rules).collect()
    }
}

impl fmt::Display for Coverage {
    fn fmt(&self, f: &mut fmt::Formatter<'_>) -> fmt::Result {
        let kind = match self.kind {
            Second::Proof => "proofs",
            Second::Derivation => "derivations",
        };
        writeln!(
            f,
            "{kind}: {} cases, {} accepted",
            self.cases, self.accepted
        )?;
        writeln!(f, "  refusal   cases   in file 1   in file 2")?;
        for refusal in REFUSALS {
            let [_, first, second] = self.refusals[refusal];
            let note = match can_occur(self.kind, refusal) {
                true => "",
                false => "   cannot occur",
            };
            let cases = self.cases_of(refusal);
            writeln!(
                f,
                "  {refusal:>7} {cases:>7} {first:>11} {second:>11}{note}"
            )?;
        }
        writeln!(f, "     rule   accepted files       nodes")?;
        for rule in rules(self.kind) {
            let (files, nodes) = (self.files[rule], self.nodes[rule]);
            writeln!(f, "  {rule:>7} {files:>16} {nodes:>11}")?;
        }
        write!(f, "{}{}", self.choices, self.numbers)
    }
}
