//! The derivation check's walk: the seventeen rules of kinds 64 to 80, types dropped.

use crate::arena::{Arena, Head, Id, Seen};
use crate::kinds::is_derivation_rule;
use crate::proof::ensure;
use crate::reader::{Book, Item};
use crate::replace::{is_replaced, Put};
use crate::sequent::Sequent;
use crate::{Answer, RuleCounts, NO_NODES};

const MOST_MEMBERS: usize = 2_048;
const MOST_DEPTH: usize = 8_192;
const MOST_PREMISES: usize = 2;
/// R9 has three; BR2 alone has any number.
const MOST_PARTS: usize = 3;
const BR2: u32 = 65;

/// A part of the right class, types dropped.
#[derive(Clone, Copy)]
enum Part {
    Term(Id),
    Formula(Id),
}

/// A rule with its parts and the signs of its goal, right in number, class and form.
enum Step {
    Br1,
    Br2 {
        kept: Vec<Id>,
    },
    Br3,
    Br4 {
        p: Id,
    },
    Br6,
    Mp {
        p: Id,
        q: Id,
        part: Id,
    },
    R1 {
        p: Id,
        q: Id,
    },
    R2 {
        p: Id,
        part: Id,
    },
    R2Prime {
        q: Id,
        part: Id,
    },
    R3 {
        p: Id,
        q: Id,
    },
    R4 {
        p: Id,
        q: Id,
        part: Id,
    },
    R5 {
        p: Id,
    },
    R6 {
        p: Id,
        q: Id,
    },
    R7 {
        body: Id,
        constant: Id,
        instance: Id,
    },
    R8 {
        all: Id,
        body: Id,
        term: Id,
    },
    R9 {
        body: Id,
        equation: Id,
        left: Id,
        right: Id,
        with_left: Id,
    },
    R10 {
        left: Id,
        right: Id,
    },
}

/// What a premise makes of the conclusion's members.
enum Members {
    Same,
    With(Id),
    Only(Vec<Id>),
}

struct Premise {
    members: Members,
    goal: Id,
}

enum Task {
    Enter {
        node: u32,
        premise: Premise,
        depth: usize,
    },
    /// Take back the newest members.
    Shrink(usize),
    /// Put back the members that BR2 dropped.
    Restore(Vec<Id>),
}

struct Walk {
    book: Book,
    /// Each identifier of the reader without its types.
    erased: Vec<Id>,
    sequent: Sequent,
    goal: Id,
    seen: Seen,
}

/// Walks the derivation from its root; also counts the nodes of each rule.
pub fn walk(mut book: Book) -> (Answer, RuleCounts) {
    let mut counts = NO_NODES;
    let mut nodes = 0;
    let erased = book.arena.erase_all();
    let start: Vec<Id> = book
        .hypotheses
        .iter()
        .map(|&h| erased[h as usize])
        .collect();
    let goal = erased[book.arena.child(book.negated_goal, 0) as usize];
    let mut tasks = vec![Task::Enter {
        node: book.root,
        premise: Premise {
            members: Members::Only(start),
            goal,
        },
        depth: 1,
    }];
    let mut walk = Walk {
        book,
        erased,
        sequent: Sequent::default(),
        goal,
        seen: Seen::default(),
    };
    while let Some(task) = tasks.pop() {
        let (node, premise, depth) = match task {
            Task::Enter {
                node,
                premise,
                depth,
            } => (node, premise, depth),
            Task::Shrink(length) => {
                walk.sequent.shrink_to(length);
                continue;
            }
            Task::Restore(members) => {
                walk.sequent.exchange(members);
                continue;
            }
        };
        nodes += 1;
        counts[walk.book.records[node as usize].kind as usize] += 1;
        tasks.extend(walk.take_on(premise));
        match walk.enter(node, depth) {
            Err(refusal) => return (Answer::new(refusal, 2, node as u64, nodes), counts),
            Ok(premises) => {
                tasks.extend(
                    premises
                        .into_iter()
                        .rev()
                        .map(|(node, premise)| Task::Enter {
                            node,
                            premise,
                            depth: depth + 1,
                        }),
                )
            }
        }
    }
    (Answer::accepted(nodes), counts)
}

impl Walk {
    /// Makes the premise the sequent at hand; gives back the task that undoes it.
    fn take_on(&mut self, premise: Premise) -> Option<Task> {
        self.goal = premise.goal;
        match premise.members {
            Members::Same => None,
            Members::With(id) => {
                let length = self.sequent.len();
                self.sequent.add(id);
                Some(Task::Shrink(length))
            }
            Members::Only(members) => Some(Task::Restore(self.sequent.exchange(members))),
        }
    }

    /// One node: refusals 13 to 18 in this order, then its premises.
    fn enter(&mut self, node: u32, depth: usize) -> Result<Vec<(u32, Premise)>, u64> {
        let record = self.book.records[node as usize];
        let listed = self.book.on_chain(record.premises(), MOST_PREMISES + 1);
        let step = self.step(record.kind, record.parts()).ok_or(13u64)?;
        let right_premises =
            listed.len() == step.premise_count() && listed.iter().all(|&r| self.is_rule_node(r));
        ensure(13, right_premises)?;
        ensure(14, self.has_needed(&step))?;
        ensure(15, self.fits(&step))?;
        ensure(16, self.is_fresh(&step))?;
        let premises = self.premises(step);
        let fits = premises.iter().all(|p| self.members_of(p) <= MOST_MEMBERS);
        ensure(17, fits)?;
        ensure(18, depth <= MOST_DEPTH)?;
        Ok(listed.into_iter().zip(premises).collect())
    }

    fn is_rule_node(&self, record: u32) -> bool {
        is_derivation_rule(self.book.records[record as usize].kind)
    }

    fn members_of(&self, premise: &Premise) -> usize {
        match &premise.members {
            Members::Same => self.sequent.len(),
            Members::With(_) => self.sequent.len() + 1,
            Members::Only(kept) => kept.len(),
        }
    }

    fn arena(&self) -> &Arena {
        &self.book.arena
    }

    /// A term or formula record without its types; kind 22 reads as its formula.
    fn part(&self, record: u32) -> Option<Part> {
        match self.book.items[record as usize] {
            Item::Term(id) => Some(Part::Term(self.erased[id as usize])),
            Item::Formula(id) | Item::AllTypes(id) => Some(Part::Formula(self.erased[id as usize])),
            _ => None,
        }
    }

    fn step(&self, kind: u32, parts: u32) -> Option<Step> {
        let most = if kind == BR2 {
            usize::MAX
        } else {
            MOST_PARTS + 1
        };
        let listed = self.book.on_chain(parts, most);
        let parts: Option<Vec<Part>> = listed.into_iter().map(|r| self.part(r)).collect();
        let parts = parts?;
        let arena = self.arena();
        let goal = self.goal;
        let goal_sides = |sign| arena.both(goal, sign);
        let step = match (kind, &parts[..]) {
            (64, []) => Step::Br1,
            (BR2, parts) => {
                let kept: Option<Vec<Id>> = parts.iter().map(|&part| as_formula(part)).collect();
                Step::Br2 { kept: kept? }
            }
            (66, []) => Step::Br3,
            (67, &[Part::Formula(p)]) => Step::Br4 { p },
            (68, []) => {
                let inner = arena.under(goal, Head::Not)?;
                (arena.head(inner) == Head::Bottom).then_some(Step::Br6)?
            }
            (69, &[Part::Formula(part)]) => {
                let (p, q) = arena.both(part, Head::Implies)?;
                Step::Mp { p, q, part }
            }
            (70, []) => {
                let (p, q) = goal_sides(Head::And)?;
                Step::R1 { p, q }
            }
            (71, &[Part::Formula(part)]) => {
                let (p, _) = arena.both(part, Head::And)?;
                Step::R2 { p, part }
            }
            (72, &[Part::Formula(part)]) => {
                let (_, q) = arena.both(part, Head::And)?;
                Step::R2Prime { q, part }
            }
            (73, []) => {
                let (p, q) = goal_sides(Head::Implies)?;
                Step::R3 { p, q }
            }
            (74, &[Part::Formula(part)]) => {
                let (p, q) = arena.both(part, Head::Implies)?;
                Step::R4 { p, q, part }
            }
            (75, &[Part::Formula(p)]) => Step::R5 { p },
            (76, &[Part::Formula(p)]) => {
                let q = arena.under(goal, Head::Not)?;
                Step::R6 { p, q }
            }
            (77, &[Part::Term(constant), Part::Formula(instance)]) => {
                matches!(arena.head(constant), Head::Constant(_)).then_some(())?;
                let body = arena.under(goal, Head::All)?;
                Step::R7 {
                    body,
                    constant,
                    instance,
                }
            }
            (78, &[Part::Formula(all), Part::Term(term)]) => {
                let body = arena.under(all, Head::All)?;
                Step::R8 { all, body, term }
            }
            (79, &[Part::Formula(body), Part::Formula(equation), Part::Formula(with_left)]) => {
                let (left, right) = arena.both(equation, Head::Equal)?;
                Step::R9 {
                    body,
                    equation,
                    left,
                    right,
                    with_left,
                }
            }
            (80, []) => {
                let (left, right) = goal_sides(Head::Equal)?;
                Step::R10 { left, right }
            }
            _ => return None,
        };
        Some(step)
    }

    fn has_needed(&self, step: &Step) -> bool {
        match step {
            Step::Br1 => self.sequent.is_only(self.goal),
            Step::Br2 { kept } => kept.iter().all(|&id| self.sequent.has(id)),
            Step::Br3 => self.sequent.has(self.goal),
            Step::R4 { p, .. } => self.sequent.has(*p),
            _ => true,
        }
    }

    fn fits(&self, step: &Step) -> bool {
        let arena = self.arena();
        let goal = self.goal;
        let closed = |id: Id| arena.has_no_free_index(id);
        match *step {
            Step::Br1 | Step::Br3 | Step::Br6 | Step::R1 { .. } | Step::R3 { .. } => true,
            Step::Br2 { ref kept } => kept.iter().all(|&id| closed(id)),
            Step::Br4 { p } | Step::R5 { p } | Step::R6 { p, .. } => closed(p),
            Step::Mp { q, part, .. } | Step::R4 { q, part, .. } => closed(part) && q == goal,
            Step::R2 { p, part } => closed(part) && p == goal,
            Step::R2Prime { q, part } => closed(part) && q == goal,
            Step::R7 {
                body,
                constant,
                instance,
            } => closed(instance) && is_replaced(arena, body, Put::Term(constant), instance),
            Step::R8 { all, body, term } => {
                closed(all) && closed(term) && is_replaced(arena, body, Put::Term(term), goal)
            }
            Step::R9 {
                body,
                equation,
                left,
                right,
                with_left,
            } => {
                // Bit 0 is index 0, the only one that may be unbound.
                arena.facts(body).free & !1 == 0
                    && closed(equation)
                    && closed(with_left)
                    && is_replaced(arena, body, Put::Term(left), with_left)
                    && is_replaced(arena, body, Put::Term(right), goal)
            }
            Step::R10 { left, right } => left == right,
        }
    }

    fn is_fresh(&mut self, step: &Step) -> bool {
        let Step::R7 { constant, .. } = *step else {
            return true;
        };
        let arena = &self.book.arena;
        let in_goal = arena.occurs(constant, &[self.goal], &mut self.seen);
        !in_goal && !arena.occurs(constant, self.sequent.members(), &mut self.seen)
    }

    /// The premises in figure 1's order.
    fn premises(&mut self, step: Step) -> Vec<Premise> {
        use Members::{Only, Same, With};
        let goal = self.goal;
        let arena = &mut self.book.arena;
        let premise = |members, goal| Premise { members, goal };
        match step {
            Step::Br1 | Step::Br3 | Step::Br6 | Step::R10 { .. } => vec![],
            Step::Br2 { kept } => vec![premise(Only(kept), goal)],
            Step::Br4 { p } => vec![premise(Same, p), premise(With(p), goal)],
            Step::Mp { p, part, .. } => vec![premise(Same, p), premise(Same, part)],
            Step::R1 { p, q } => vec![premise(Same, p), premise(Same, q)],
            Step::R2 { part, .. } | Step::R2Prime { part, .. } | Step::R4 { part, .. } => {
                vec![premise(Same, part)]
            }
            Step::R3 { p, q } => vec![premise(With(p), q)],
            Step::R5 { p } => {
                let not_goal = arena.not(goal);
                let not_p = arena.not(p);
                vec![premise(With(not_goal), p), premise(With(not_goal), not_p)]
            }
            Step::R6 { p, q } => {
                let not_p = arena.not(p);
                vec![premise(With(q), p), premise(With(q), not_p)]
            }
            Step::R7 { instance, .. } => vec![premise(Same, instance)],
            Step::R8 { all, .. } => vec![premise(Same, all)],
            Step::R9 {
                equation,
                with_left,
                ..
            } => {
                vec![premise(Same, equation), premise(Same, with_left)]
            }
        }
    }
}

impl Step {
    fn premise_count(&self) -> usize {
        match self {
            Step::Br1 | Step::Br3 | Step::Br6 | Step::R10 { .. } => 0,
            Step::Br2 { .. } | Step::R2 { .. } | Step::R2Prime { .. } | Step::R3 { .. } => 1,
            Step::R4 { .. } | Step::R7 { .. } | Step::R8 { .. } => 1,
            Step::Br4 { .. } | Step::Mp { .. } | Step::R1 { .. } => 2,
            Step::R5 { .. } | Step::R6 { .. } | Step::R9 { .. } => 2,
        }
    }
}

fn as_formula(part: Part) -> Option<Id> {
    match part {
        Part::Formula(id) => Some(id),
        Part::Term(_) => None,
    }
}
