//! The proof check's walk: the fifteen rules of kinds 32 to 46.

use crate::arena::{Arena, Head, Id, Node, Seen, NONE};
use crate::kinds::is_proof_rule;
use crate::reader::{Book, Item};
use crate::replace::{is_replaced, places_bear, Put};
use crate::sequent::Sequent;
use crate::Answer;

const MOST_MEMBERS: usize = 1_024;
/// A kind 22, its instance and four types.
const MOST_PARTS: usize = 6;
const MOST_PREMISES: usize = 2;

/// A rule with its parts, right in number, class and form.
enum Step {
    Bottom,
    NotTop,
    Axiom(Id),
    /// ¬(t=u) with t and u.
    Unequal(Id, Id, Id),
    /// t=u with t and u.
    Symmetry(Id, Id, Id),
    Cut(Id),
    NotNot(Id),
    And(Id),
    NotImplies(Id),
    Implies(Id),
    NotAnd(Id),
    NotAll {
        first: Id,
        constant: Id,
        instance: Id,
    },
    All {
        first: Id,
        term: Id,
        instance: Id,
    },
    AllTypes {
        first: Id,
        instance: Id,
        types: Vec<Id>,
    },
    Substitute {
        body: Id,
        left: Id,
        right: Id,
        with_left: Id,
        with_right: Id,
    },
}

/// What one premise adds to the sequent.
type Added = Vec<Id>;

enum Task {
    Enter { node: u32, depth: u32, added: Added },
    Leave { length: usize },
}

/// A node as it stands in the file when the walk enters it, right or not.
#[derive(Clone, Copy, Debug, PartialEq, Eq)]
pub struct Entered {
    /// The nodes above it on its branch.
    pub depth: u32,
    pub record: u32,
    pub kind: u32,
    /// The record of its first part, of whatever class; 0 if there is none.
    pub first_part: u32,
}

struct Walk {
    book: Book,
    sequent: Sequent,
    seen: Seen,
}

/// Walks the proof from its root; gives back the nodes that it entered too, in the order of the walk.
pub fn walk(book: Book) -> (Answer, Vec<Entered>) {
    let start = [&book.hypotheses[..], &[book.negated_goal]].concat();
    let mut tasks = vec![Task::Enter {
        node: book.root,
        depth: 0,
        added: start,
    }];
    let mut walk = Walk {
        book,
        sequent: Sequent::default(),
        seen: Seen::default(),
    };
    let mut entered = Vec::new();
    while let Some(task) = tasks.pop() {
        let (node, depth, added) = match task {
            Task::Enter { node, depth, added } => (node, depth, added),
            Task::Leave { length } => {
                walk.sequent.shrink_to(length);
                continue;
            }
        };
        entered.push(walk.entered(node, depth));
        let length = walk.sequent.len();
        tasks.push(Task::Leave { length });
        added.into_iter().for_each(|id| walk.sequent.add(id));
        let premises = match walk.enter(node) {
            Ok(premises) => premises.into_iter().rev(),
            Err(refusal) => {
                let answer = Answer::new(refusal, 2, node as u64, entered.len() as u64);
                return (answer, entered);
            }
        };
        let depth = depth + 1;
        tasks.extend(premises.map(|(node, added)| Task::Enter { node, depth, added }));
    }
    (Answer::accepted(entered.len() as u64), entered)
}

impl Walk {
    /// One node: refusals 13 to 17 in this order, then its premises with what they add.
    fn enter(&mut self, node: u32) -> Result<Vec<(u32, Added)>, u64> {
        let record = self.book.records[node as usize];
        let premises = self.book.on_chain(record.premises(), MOST_PREMISES + 1);
        let step = self.step(record.kind, record.parts()).ok_or(13u64)?;
        let right_premises = premises.len() == step.premise_count()
            && premises.iter().all(|&r| self.is_rule_node(r));
        ensure(13, right_premises)?;
        ensure(14, self.has_needed(&step))?;
        ensure(15, self.fits(&step))?;
        ensure(16, self.is_fresh(&step))?;
        let added = self.added(&step);
        let longest = added.iter().map(Vec::len).max();
        let fits = longest.is_none_or(|more| self.sequent.len() + more <= MOST_MEMBERS);
        ensure(17, fits)?;
        Ok(premises.into_iter().zip(added).collect())
    }

    fn entered(&self, node: u32, depth: u32) -> Entered {
        let record = self.book.records[node as usize];
        Entered {
            depth,
            record: node,
            kind: record.kind,
            first_part: self.book.first_on_chain(record.parts()),
        }
    }

    fn is_rule_node(&self, record: u32) -> bool {
        is_proof_rule(self.book.records[record as usize].kind)
    }

    fn arena(&self) -> &Arena {
        &self.book.arena
    }

    fn step(&self, kind: u32, parts: u32) -> Option<Step> {
        let parts = self.book.on_chain(parts, MOST_PARTS + 1);
        let parts: Vec<&Item> = parts
            .iter()
            .map(|&record| &self.book.items[record as usize])
            .collect();
        let arena = self.arena();
        let step = match (kind, &parts[..]) {
            (32, []) => Step::Bottom,
            (33, []) => Step::NotTop,
            (34, [Item::Formula(p)]) => Step::Axiom(*p),
            (35, [Item::Formula(p)]) => {
                let equation = arena.under(*p, Head::Not)?;
                let (t, u) = arena.both(equation, Head::Equal)?;
                Step::Unequal(*p, t, u)
            }
            (36, [Item::Formula(p)]) => {
                let (t, u) = arena.both(*p, Head::Equal)?;
                Step::Symmetry(*p, t, u)
            }
            (37, [Item::Formula(p)]) => Step::Cut(*p),
            (38, [Item::Formula(p)]) => {
                arena.under(arena.under(*p, Head::Not)?, Head::Not)?;
                Step::NotNot(*p)
            }
            (39, [Item::Formula(p)]) => {
                arena.both(*p, Head::And)?;
                Step::And(*p)
            }
            (40, [Item::Formula(p)]) => {
                arena.both(arena.under(*p, Head::Not)?, Head::Implies)?;
                Step::NotImplies(*p)
            }
            (41, [Item::Formula(p)]) => {
                arena.both(*p, Head::Implies)?;
                Step::Implies(*p)
            }
            (42, [Item::Formula(p)]) => {
                arena.both(arena.under(*p, Head::Not)?, Head::And)?;
                Step::NotAnd(*p)
            }
            (43, [Item::Formula(p), Item::Term(c), Item::Formula(instance)]) => {
                arena.both(arena.under(*p, Head::Not)?, Head::All)?;
                matches!(arena.head(*c), Head::Constant(_)).then_some(())?;
                Step::NotAll {
                    first: *p,
                    constant: *c,
                    instance: *instance,
                }
            }
            (44, [Item::Formula(p), Item::Term(t), Item::Formula(instance)]) => {
                arena.both(*p, Head::All)?;
                Step::All {
                    first: *p,
                    term: *t,
                    instance: *instance,
                }
            }
            (45, [Item::AllTypes(h), Item::Formula(instance), types @ ..]) => {
                let types: Option<Vec<Id>> = types.iter().map(|item| as_type(item)).collect();
                let types = types.filter(|t| arena.head(*h) == Head::AllTypes(t.len() as u8))?;
                Step::AllTypes {
                    first: *h,
                    instance: *instance,
                    types,
                }
            }
            (
                46,
                [Item::Formula(body), Item::Term(t), Item::Term(u), Item::Formula(with_t), Item::Formula(with_u)],
            ) => Step::Substitute {
                body: *body,
                left: *t,
                right: *u,
                with_left: *with_t,
                with_right: *with_u,
            },
            _ => return None,
        };
        Some(step)
    }

    fn has(&self, member: Option<Id>) -> bool {
        member.is_some_and(|id| self.sequent.has(id))
    }

    fn has_needed(&self, step: &Step) -> bool {
        let arena = self.arena();
        let constant = |head| arena.find(Node::new(head, &[]));
        match *step {
            Step::Bottom => self.has(constant(Head::Bottom)),
            Step::NotTop => self.has(constant(Head::Top).and_then(|top| arena.find_not(top))),
            Step::Axiom(p) => self.sequent.has(p) && self.has(arena.find_not(p)),
            Step::Symmetry(p, t, u) => {
                let turned = arena.find(Node::new(Head::Equal, &[u, t]));
                self.sequent.has(p) && self.has(turned.and_then(|e| arena.find_not(e)))
            }
            Step::Cut(_) => true,
            Step::Unequal(p, ..)
            | Step::NotNot(p)
            | Step::And(p)
            | Step::NotImplies(p)
            | Step::Implies(p)
            | Step::NotAnd(p) => self.sequent.has(p),
            Step::NotAll { first, .. } | Step::All { first, .. } | Step::AllTypes { first, .. } => {
                self.sequent.has(first)
            }
            Step::Substitute { with_left, .. } => self.sequent.has(with_left),
        }
    }

    fn fits(&self, step: &Step) -> bool {
        let arena = self.arena();
        let closed = |ids: &[Id]| ids.iter().all(|&id| arena.is_closed(id));
        match *step {
            Step::Bottom | Step::NotTop => true,
            Step::Unequal(p, t, u) => closed(&[p]) && t == u,
            Step::Symmetry(p, ..)
            | Step::Axiom(p)
            | Step::Cut(p)
            | Step::NotNot(p)
            | Step::And(p)
            | Step::NotImplies(p)
            | Step::Implies(p)
            | Step::NotAnd(p) => closed(&[p]),
            Step::NotAll {
                first,
                constant: term,
                instance,
            } => {
                let all = arena.child(first, 0);
                closed(&[first, term, instance]) && self.is_instance(all, term, instance)
            }
            Step::All {
                first,
                term,
                instance,
            } => closed(&[first, term, instance]) && self.is_instance(first, term, instance),
            Step::AllTypes {
                first,
                instance,
                ref types,
            } => {
                let body = arena.child(first, 0);
                closed(&[instance])
                    && closed(types)
                    && is_replaced(arena, body, Put::Types(types), instance)
            }
            Step::Substitute {
                body,
                left,
                right,
                with_left,
                with_right,
            } => {
                // Bit 0 is index 0, the only one that may be unbound.
                arena.facts(body).free & !1 == 0
                    && closed(&[left, right, with_left, with_right])
                    && arena.ty(left) == arena.ty(right)
                    && places_bear(arena, body, arena.ty(left))
                    && is_replaced(arena, body, Put::Term(left), with_left)
                    && is_replaced(arena, body, Put::Term(right), with_right)
            }
        }
    }

    /// The instance is ∀B's B with the term, and the term bears the quantifier's type.
    fn is_instance(&self, all: Id, term: Id, instance: Id) -> bool {
        let arena = self.arena();
        let (ty, body) = (arena.child(all, 0), arena.child(all, 1));
        arena.ty(term) == ty && is_replaced(arena, body, Put::Term(term), instance)
    }

    fn is_fresh(&mut self, step: &Step) -> bool {
        match *step {
            Step::NotAll { constant, .. } => {
                let members = self.sequent.members();
                !self.book.arena.occurs(constant, members, &mut self.seen)
            }
            _ => true,
        }
    }

    /// What each premise adds.
    fn added(&mut self, step: &Step) -> Vec<Added> {
        let arena = &mut self.book.arena;
        match *step {
            Step::Bottom | Step::NotTop | Step::Axiom(_) => vec![],
            Step::Unequal(..) | Step::Symmetry(..) => vec![],
            Step::Cut(p) => vec![vec![p], vec![arena.not(p)]],
            Step::NotNot(p) => {
                let inner = arena.child(p, 0);
                vec![vec![arena.child(inner, 0)]]
            }
            Step::And(p) => vec![vec![arena.child(p, 0), arena.child(p, 1)]],
            Step::NotImplies(p) => {
                let inner = arena.child(p, 0);
                let (left, right) = (arena.child(inner, 0), arena.child(inner, 1));
                vec![vec![left, arena.not(right)]]
            }
            Step::Implies(p) => {
                let (left, right) = (arena.child(p, 0), arena.child(p, 1));
                vec![vec![arena.not(left)], vec![right]]
            }
            Step::NotAnd(p) => {
                let inner = arena.child(p, 0);
                let (left, right) = (arena.child(inner, 0), arena.child(inner, 1));
                vec![vec![arena.not(left)], vec![arena.not(right)]]
            }
            Step::NotAll { instance, .. } => vec![vec![arena.not(instance)]],
            Step::All { instance, .. } | Step::AllTypes { instance, .. } => vec![vec![instance]],
            Step::Substitute {
                left,
                right,
                with_right,
                ..
            } => {
                let equation = arena.intern(Node::new(Head::Equal, &[left, right]), NONE);
                vec![vec![arena.not(equation)], vec![with_right]]
            }
        }
    }
}

impl Step {
    fn premise_count(&self) -> usize {
        match self {
            Step::Bottom | Step::NotTop | Step::Axiom(_) => 0,
            Step::Unequal(..) | Step::Symmetry(..) => 0,
            Step::NotNot(_) | Step::And(_) | Step::NotImplies(_) => 1,
            Step::NotAll { .. } | Step::All { .. } | Step::AllTypes { .. } => 1,
            Step::Cut(_) | Step::Implies(_) | Step::NotAnd(_) | Step::Substitute { .. } => 2,
        }
    }
}

pub(crate) fn ensure(refusal: u64, right: bool) -> Result<(), u64> {
    match right {
        true => Ok(()),
        false => Err(refusal),
    }
}

fn as_type(item: &Item) -> Option<Id> {
    match item {
        Item::Type(id) => Some(*id),
        _ => None,
    }
}
