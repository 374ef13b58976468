//! Where choice terms stand in a case. A generator that forgets a place shows in the counts.

use crate::arena::{Id, Seen, NONE};
use crate::kinds::*;
use crate::reader::{self, Book, Second};
use crate::words::{self, Record};
use crate::{typing, Answer};
use std::collections::{BTreeSet, HashMap, HashSet};

/// A place where a choice stands.
#[derive(Clone, Copy, Debug, PartialEq, Eq, PartialOrd, Ord, Hash)]
pub enum Position {
    /// In a hypothesis or the goal.
    Obligation,
    /// In a part of a node.
    Part,
    UnderBinder,
    /// With an unbound index in s.
    OverIndex,
    BeneathChoice,
    InPair,
    InProduct,
    InPowerset,
    Argument,
    SideOfEqual,
    Element,
    Set,
    /// In kind 22, with a type variable in it.
    OverTypeVariable,
    /// The constant of 43 or R7 is beneath it in B(c).
    AboveConstant,
    /// The term of 44 or R8, or within it.
    TermOf44,
    WithinTermOf44,
    /// In the instance of 45.
    InstanceOf45,
    /// t or u of 46, E or F of R9, or within it.
    ReplacedTerm,
    WithinReplacedTerm,
    /// In B of 46 or R9, index 0 beneath it or not.
    AbovePlace,
    BesidePlace,
    /// Rule 44 or R8 has SET5 as its ∀.
    Set5,
    /// The own type is not that of the set's elements: derivations only.
    WrongOwnType,
}

impl Position {
    pub const ALL: [Position; 23] = [
        Position::Obligation,
        Position::Part,
        Position::UnderBinder,
        Position::OverIndex,
        Position::BeneathChoice,
        Position::InPair,
        Position::InProduct,
        Position::InPowerset,
        Position::Argument,
        Position::SideOfEqual,
        Position::Element,
        Position::Set,
        Position::OverTypeVariable,
        Position::AboveConstant,
        Position::TermOf44,
        Position::WithinTermOf44,
        Position::InstanceOf45,
        Position::ReplacedTerm,
        Position::WithinReplacedTerm,
        Position::AbovePlace,
        Position::BesidePlace,
        Position::Set5,
        Position::WrongOwnType,
    ];

    /// Whether a choice can stand there in an accepted file of this kind.
    pub fn can_occur(self, kind: Second) -> bool {
        match self {
            Position::InstanceOf45 => kind == Second::Proof,
            Position::WrongOwnType => kind == Second::Derivation,
            _ => true,
        }
    }
}

/// What was found of choices in one case.
#[derive(Default)]
pub struct Found {
    pub positions: BTreeSet<Position>,
    /// Records of kind 23 that a part, a hypothesis or the goal reaches.
    pub records: usize,
}

/// The choices that the root's nodes, the hypotheses and the goal reach; none if the files can't be read.
pub fn of_case(obligation: &[u8], second: &[u8], kind: Second) -> Found {
    match reader::read(obligation, second, kind) {
        Ok(book) => {
            let mut survey = Survey::new(&book);
            survey.obligation(words::records(obligation)[0]);
            survey.nodes();
            survey.found()
        }
        Err(_) => Found::default(),
    }
}

/// Whether a refusal is about a choice: its record is one, or a part of its node has one. A choice can be the record of
/// 4, 5, 7 and 10 only: 3 is for other kinds, 6, 8 and 9 are for symbols and applications.
pub fn is_at_fault(obligation: &[u8], second: &[u8], kind: Second, answer: Answer) -> bool {
    let records = [obligation, second].map(words::records);
    let first = records[0].len() as u64;
    let number = answer.record;
    match answer.refusal {
        4 | 5 | 7 | 10 => {
            let record = match answer.file {
                1 => records[0].get(number as usize),
                _ => records[1].get((number + 1 - first) as usize),
            };
            record.is_some_and(|record| record.kind == CHOICE)
        }
        13..=16 => {
            let book = reader::read(obligation, second, kind);
            book.is_ok_and(|book| {
                let mut survey = Survey::new(&book);
                survey.node(number as u32);
                !survey.choices.is_empty()
            })
        }
        _ => false,
    }
}

/// What a record stands in.
#[derive(Clone, Copy, Default, PartialEq, Eq, Hash)]
struct Around {
    role: Option<Position>,
    binders: u32,
    choice: bool,
    all_types: bool,
}

/// A choice's record and what is around it.
type Standing = (u32, Around);

struct Survey<'a> {
    book: &'a Book,
    positions: BTreeSet<Position>,
    choices: HashSet<u32>,
    /// Roots looked into, and whether there is a choice.
    done: HashMap<u32, bool>,
}

impl<'a> Survey<'a> {
    fn new(book: &'a Book) -> Survey<'a> {
        Survey {
            book,
            positions: BTreeSet::new(),
            choices: HashSet::new(),
            done: HashMap::new(),
        }
    }

    fn found(self) -> Found {
        Found {
            records: self.choices.len(),
            positions: self.positions,
        }
    }

    fn record(&self, number: u32) -> Record {
        self.book.records[number as usize]
    }

    /// The formula that kind 22 reads as in derivations.
    fn formula(&self, number: u32) -> u32 {
        match self.record(number) {
            Record { kind, b, .. } if kind == ALL_TYPES => b,
            _ => number,
        }
    }

    /// The first two words of a record of this kind.
    fn words(&self, number: u32, kind: u32) -> Option<[u32; 2]> {
        let record = self.record(number);
        (record.kind == kind).then_some([record.a, record.b])
    }

    fn id(&self, number: u32) -> Id {
        self.book.items[number as usize].id().unwrap_or(NONE)
    }

    fn note(&mut self, position: Position, stands: bool) {
        if stands {
            self.positions.insert(position);
        }
    }

    fn obligation(&mut self, header: Record) {
        let mut roots = self.book.on_chain(header.b, usize::MAX);
        roots.push(header.c);
        for root in roots {
            let stands = self.look_into(root);
            self.note(Position::Obligation, stands);
        }
    }

    /// All nodes: each is named once, so all are the root's.
    fn nodes(&mut self) {
        for number in 1..self.book.records.len() as u32 {
            if is_rule(self.record(number).kind) {
                self.node(number);
            }
        }
    }

    fn node(&mut self, number: u32) {
        let node = self.record(number);
        let parts = self.book.on_chain(node.parts(), usize::MAX);
        for &part in &parts {
            let stands = self.look_into(part);
            self.note(Position::Part, stands);
        }
        match (node.kind, &parts[..]) {
            (43, &[_, c, instance]) | (77, &[c, instance]) => {
                let stands = self.has_choice_above(instance, c);
                self.note(Position::AboveConstant, stands);
            }
            (44, &[all, term, _]) | (78, &[all, term]) => {
                self.term(term, Position::TermOf44, Position::WithinTermOf44);
                self.note(Position::Set5, self.is_set5(all));
            }
            (45, &[_, instance, ..]) => {
                let stands = !self.choices_in(instance).is_empty();
                self.note(Position::InstanceOf45, stands);
            }
            (46, &[body, t, u, ..]) => self.replaced(body, [t, u]),
            (79, &[body, equation, _]) => {
                // The node may be one that is refused.
                if let Some(sides) = self.words(self.formula(equation), EQUAL) {
                    self.replaced(body, sides);
                }
            }
            _ => {}
        }
    }

    /// Notes the choices in a type, term or formula; whether there are any.
    fn look_into(&mut self, root: u32) -> bool {
        if let Some(&any) = self.done.get(&root) {
            return any;
        }
        let list = self.choices_in(root);
        self.done.insert(root, !list.is_empty());
        for &(number, around) in &list {
            self.choices.insert(number);
            let facts = self.book.arena.facts(self.id(number));
            self.positions.extend(around.role);
            self.note(Position::UnderBinder, around.binders > 0);
            self.note(Position::OverIndex, facts.free != 0);
            self.note(Position::BeneathChoice, around.choice);
            let over_variable = around.all_types && facts.type_variables != 0;
            self.note(Position::OverTypeVariable, over_variable);
            self.note(Position::WrongOwnType, !self.has_right_own_type(number));
        }
        !list.is_empty()
    }

    fn has_right_own_type(&self, number: u32) -> bool {
        typing::is_typed(&self.book.arena, self.id(number), None)
    }

    /// The choices in it, each once for all that may stand around it.
    fn choices_in(&self, root: u32) -> Vec<Standing> {
        let mut list = Vec::new();
        let mut seen = HashSet::new();
        let mut stack = vec![(root, Around::default())];
        while let Some((number, around)) = stack.pop() {
            if !seen.insert((number, around)) {
                continue;
            }
            let record = self.record(number);
            if record.kind == CHOICE {
                list.push((number, around));
            }
            let inside = Around {
                role: None,
                binders: around.binders + u32::from(record.kind == ALL),
                choice: around.choice || record.kind == CHOICE,
                all_types: around.all_types || record.kind == ALL_TYPES,
            };
            let named = self.named(record).into_iter();
            stack.extend(named.map(|(child, role)| (child, Around { role, ..inside })));
        }
        list
    }

    /// The terms and formulas that a record names, and what a choice would be there.
    fn named(&self, Record { kind, a, b, c }: Record) -> Vec<(u32, Option<Position>)> {
        let both = |role| vec![(a, Some(role)), (b, Some(role))];
        match kind {
            PAIR => both(Position::InPair),
            PRODUCT => both(Position::InProduct),
            POWERSET => vec![(a, Some(Position::InPowerset))],
            CHOICE | NOT => vec![(a, None)],
            APPLICATION => {
                let arguments = self.book.on_chain(c, usize::MAX).into_iter();
                arguments.map(|t| (t, Some(Position::Argument))).collect()
            }
            EQUAL => both(Position::SideOfEqual),
            IN => vec![(a, Some(Position::Element)), (b, Some(Position::Set))],
            AND | IMPLIES => vec![(a, None), (b, None)],
            ALL | ALL_TYPES => vec![(b, None)],
            _ => vec![],
        }
    }

    fn has_choice_above(&self, root: u32, constant: u32) -> bool {
        let arena = &self.book.arena;
        let (constant, mut seen) = (self.id(constant), Seen::default());
        let mut above = |&(number, _): &Standing| {
            let choice = self.id(number);
            arena.occurs(constant, &[choice], &mut seen)
        };
        self.choices_in(root).iter().any(&mut above)
    }

    fn term(&mut self, term: u32, itself: Position, within: Position) {
        let is_choice = self.record(term).kind == CHOICE;
        self.note(itself, is_choice);
        let has_choice = !self.choices_in(term).is_empty();
        self.note(within, has_choice && !is_choice);
    }

    fn replaced(&mut self, body: u32, terms: [u32; 2]) {
        for term in terms {
            self.term(term, Position::ReplacedTerm, Position::WithinReplacedTerm);
        }
        for (number, around) in self.choices_in(body) {
            let free = self.book.arena.facts(self.id(number)).free;
            let above = free.checked_shr(around.binders).unwrap_or(0) & 1 == 1;
            self.note(Position::AbovePlace, above);
            self.note(Position::BesidePlace, !above);
        }
    }

    /// SET5 for sets of any type, ∀s·(¬∀x·¬(x ∈ s) ⇒ choice(s) ∈ s): s is index 1 within ∀x, else index 0.
    fn is_set5(&self, all: u32) -> bool {
        let index = |variable: u32| self.words(variable, BOUND).map(|[index, _]| index);
        let variables = self.variables_of_set5(all);
        variables.is_some_and(|list| list.map(index) == [0, 1, 0, 0].map(Some))
    }

    /// The terms where SET5 has x, s, s and s, in a formula with its signs.
    fn variables_of_set5(&self, all: u32) -> Option<[u32; 4]> {
        let [_, implied] = self.words(self.formula(all), ALL)?;
        let [not_empty, chosen_in] = self.words(implied, IMPLIES)?;
        let [empty, _] = self.words(not_empty, NOT)?;
        let [_, not_in] = self.words(empty, ALL)?;
        let [x_in, _] = self.words(not_in, NOT)?;
        let [x, s_within] = self.words(x_in, IN)?;
        let [chosen, s] = self.words(chosen_in, IN)?;
        let [s_of_choice, _] = self.words(chosen, CHOICE)?;
        Some([x, s_within, s_of_choice, s])
    }
}
