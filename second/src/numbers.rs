//! Nodes refused by 13 that have one part or one premise fewer or more than their rule.

use crate::generate::Case;
use crate::kinds::ALL_TYPES;
use crate::reader::{self, Book, Second};
use crate::vectors::{rule_bytes, RuleByte};
use crate::Answer;
use std::collections::BTreeMap;
use std::fmt;
use std::ops::RangeInclusive;

/// Has as many types among its parts as its first part's count.
const INSTANCE_OF_TYPES: u32 = 45;
/// Has any number of parts.
const BR2: u32 = 65;

/// How a node's numbers differ from its rule's.
#[derive(Clone, Copy, Debug, PartialEq, Eq, PartialOrd, Ord)]
pub enum Off {
    PartFewer,
    PartMore,
    PremiseFewer,
    PremiseMore,
}

impl Off {
    pub const ALL: [Off; 4] = [
        Off::PartFewer,
        Off::PartMore,
        Off::PremiseFewer,
        Off::PremiseMore,
    ];

    /// Whether a node of a rule with these numbers can be off so.
    pub fn can_occur(self, rule: u32, parts: usize, premises: usize) -> bool {
        match self {
            Off::PartFewer => rule != BR2 && parts > 0,
            Off::PartMore => rule != BR2,
            Off::PremiseFewer => premises > 0,
            Off::PremiseMore => true,
        }
    }

    pub fn name(self) -> &'static str {
        match self {
            Off::PartFewer => "part fewer",
            Off::PartMore => "part more",
            Off::PremiseFewer => "premise fewer",
            Off::PremiseMore => "premise more",
        }
    }
}

/// Refusals by 13, by the rule of the node and how its numbers are off.
#[derive(Clone)]
pub struct Numbers {
    rules: Vec<RuleByte>,
    cases: BTreeMap<(u32, Off), u64>,
}

impl Numbers {
    pub fn new(kinds: RangeInclusive<usize>) -> Numbers {
        let mut rules = rule_bytes();
        rules.retain(|rule| kinds.contains(&(rule.kind as usize)));
        Numbers {
            rules,
            cases: BTreeMap::new(),
        }
    }

    pub fn add(&mut self, case: &Case, kind: Second, answer: Answer) {
        if answer.refusal != 13 {
            return;
        }
        let book = reader::read(&case.obligation, &case.second, kind);
        let found = book.ok().and_then(|book| self.off(&book, answer.record));
        if let Some(found) = found {
            *self.cases.entry(found).or_default() += 1;
        }
    }

    /// The node's rule and how it is off; None if not by one, or in both numbers.
    fn off(&self, book: &Book, node: u64) -> Option<(u32, Off)> {
        let node = book.records[node as usize];
        let rule = self.rules.iter().find(|rule| rule.kind == node.kind)?;
        let parts = book.on_chain(node.parts(), usize::MAX);
        let premises = book.on_chain(node.premises(), usize::MAX);
        let right = match rule.kind {
            BR2 => parts.len(),
            INSTANCE_OF_TYPES => {
                let first = book.records[*parts.first()? as usize];
                (first.kind == ALL_TYPES).then_some(2 + first.a as usize)?
            }
            _ => rule.parts,
        };
        let excess = |list: Vec<u32>, right: usize| list.len() as i64 - right as i64;
        let off = match (excess(parts, right), excess(premises, rule.premises)) {
            (-1, 0) => Off::PartFewer,
            (1, 0) => Off::PartMore,
            (0, -1) => Off::PremiseFewer,
            (0, 1) => Off::PremiseMore,
            _ => return None,
        };
        Some((rule.kind, off))
    }

    /// The cases of a rule that is off so; None where it cannot be.
    fn cases(&self, rule: &RuleByte, off: Off) -> Option<u64> {
        let cases = self.cases.get(&(rule.kind, off)).copied();
        off.can_occur(rule.kind, rule.parts, rule.premises)
            .then_some(cases.unwrap_or(0))
    }

    /// The fewest cases of any rule, in any way that it can be off.
    pub fn fewest(&self) -> u64 {
        let rules = self.rules.iter();
        let cases = rules.flat_map(|rule| Off::ALL.map(|off| self.cases(rule, off)));
        cases.flatten().min().unwrap_or(0)
    }
}

impl fmt::Display for Numbers {
    fn fmt(&self, f: &mut fmt::Formatter<'_>) -> fmt::Result {
        writeln!(f, "  refused by 13 with one part or premise fewer or more")?;
        let names = Off::ALL.map(|off| format!("{:>15}", off.name()));
        writeln!(f, "     rule{}", names.concat())?;
        for rule in &self.rules {
            let cases = Off::ALL.map(|off| match self.cases(rule, off) {
                Some(cases) => format!("{cases:>15}"),
                None => format!("{:>15}", "-"),
            });
            writeln!(f, "  {:>7}{}", rule.kind, cases.concat())?;
        }
        Ok(())
    }
}
