//! Large accepted derivations for measuring their check: of the shape that a translation gives, deep ones, and ones that
//! are costly for a careless check. The goal is ⊥, which is a hypothesis too.

use super::{Shape, Sheet};
use second::kinds::*;
use second::reader::Second;
use std::cell::Cell;

const MOST_MEMBERS: u32 = 2_048;
const MOST_DEPTH: u32 = 8_192;
/// Nodes of a branch at most: the rest of the depth is for what is above and below it.
const BRANCH: u32 = 8_150;

/// Branches beside each other, at most: each is two nodes deeper than the one before.
const MOST_BRANCHES: u32 = MOST_DEPTH - BRANCH - 4;
/// Terms of their own for R9.
const OWN_TERMS: usize = 4_000;
/// Constants of their own for R7: three records each, and a link more.
const OWN_CONSTANTS: usize = 10_000;
/// Records for the members of their own above hostile steps.
const FOR_MEMBERS: u32 = 200;

/// How often a hostile step is repeated.
#[derive(Clone, Copy)]
enum Steps {
    Some(u32),
    /// Up to the file's end.
    All,
}

impl std::fmt::Display for Steps {
    fn fmt(&self, f: &mut std::fmt::Formatter) -> std::fmt::Result {
        match self {
            Steps::Some(count) => write!(f, "{count} times"),
            Steps::All => write!(f, "whole"),
        }
    }
}

/// A derivation in the making, written from its leaves up.
struct Maker {
    sheet: Sheet,
    /// A function of one argument.
    function: u32,
    /// The chain of ⊥ alone, as parts.
    bottom: u32,
}

impl Maker {
    /// An obligation with ⊥ and the formulas given as hypotheses.
    fn new(mut sheet: Sheet, others: &[u32]) -> Maker {
        let hypotheses = [&[sheet.bottom], others].concat();
        sheet.head = sheet.w.chain(&hypotheses);
        let types = sheet.w.chain(&[sheet.given, sheet.given]);
        let name = sheet.w.name(b"f");
        let function = sheet.w.push(FUNCTION, types, 0, name);
        sheet.end_obligation();
        let bottom = sheet.w.push(LINK, sheet.bottom, 0, 0);
        Maker {
            sheet,
            function,
            bottom,
        }
    }

    fn push(&mut self, kind: u32, a: u32, b: u32, c: u32) -> u32 {
        self.sheet.w.push(kind, a, b, c)
    }

    fn node(&mut self, rule: u32, parts: u32, premises: &[u32]) -> u32 {
        let mut chain = 0;
        for &premise in premises.iter().rev() {
            chain = self.push(LINK, premise, 0, chain);
        }
        self.push(rule, parts, chain, 0)
    }

    fn leaf(&mut self, rule: u32) -> u32 {
        self.push(rule, 0, 0, 0)
    }

    /// Any goal, as ⊥ is a member: R5 ⊥ [BR3; BR6].
    fn anything(&mut self) -> u32 {
        let premises = [66, 68].map(|rule| self.leaf(rule));
        self.node(75, self.bottom, &premises)
    }

    /// A formula of its own for each number below 4,096, in a dozen records.
    fn numbered(&mut self, number: u32) -> u32 {
        let truth = [self.sheet.bottom, self.sheet.goal];
        (0..12).fold(self.sheet.bottom, |formula, bit| {
            self.push(AND, truth[(number >> bit & 1) as usize], formula, 0)
        })
    }

    fn has_room(&self, records: u32) -> bool {
        self.sheet.is_before(self.sheet.end(records))
    }

    /// Branches of the formula `goal`, so many at most, as there is room for with so many records left over: each in a BR4
    /// node of its own, so that the goal is a member of none, and these joined by BR4 nodes for ⊥.
    fn branches(
        &mut self,
        goal: u32,
        count: u32,
        spare: u32,
        branch: impl Fn(&mut Maker) -> u32,
    ) -> u32 {
        let parts = self.sheet.w.chain(&[goal]);
        let mut root = self.leaf(66);
        for _ in 0..count {
            if self.has_room(spare + 20) {
                let first = branch(self);
                let closed = self.leaf(66);
                let first = self.node(67, parts, &[first, closed]);
                root = self.node(67, self.bottom, &[first, root]);
            }
        }
        root
    }

    /// A branch of steps of so many nodes from the last, as many as are deep enough, `most` and as there is room for with so many
    /// records left over.
    fn branch(
        &mut self,
        depth: u32,
        most: u32,
        spare: u32,
        step: impl Fn(&mut Maker, u32) -> u32,
    ) -> u32 {
        let mut root = self.anything();
        for _ in 0..most.min(BRANCH / depth) {
            if !self.has_room(spare + 20) {
                break;
            }
            root = step(self, root);
        }
        root
    }

    /// Branches of the same steps over one goal, as many as there is room for with so many records left over.
    fn full(
        &mut self,
        goal: u32,
        depth: u32,
        spare: u32,
        step: impl Fn(&mut Maker, u32) -> u32,
    ) -> u32 {
        let branch = |maker: &mut Maker| maker.branch(depth, BRANCH, spare, &step);
        self.branches(goal, MOST_BRANCHES, spare, branch)
    }

    /// Steps over one goal, in one branch or up to the file's end.
    fn steps(
        mut self,
        name: &str,
        goal: u32,
        depth: u32,
        steps: Steps,
        step: impl Fn(&mut Maker, u32) -> u32,
    ) -> Shape {
        let root = match steps {
            Steps::Some(count) => {
                let branch = |maker: &mut Maker| maker.branch(depth, count, 0, &step);
                self.branches(goal, 1, 0, branch)
            }
            Steps::All => self.full(goal, depth, 0, step),
        };
        self.close(&format!("{name}, {steps}"), root)
    }

    fn close(self, name: &str, root: u32) -> Shape {
        self.sheet.files(&format!("(x) {name}"), root)
    }
}

fn maker() -> Maker {
    Maker::new(Sheet::new(Second::Derivation), &[])
}

/// What the translation makes of 37: BR4 ¬P [R6 ⊥ [p1; BR6]; p2], p1 closed by ⊥.
fn cut(maker: &mut Maker, formula: u32, p2: u32) -> u32 {
    let not = maker.push(NOT, formula, 0, 0);
    let parts = maker.push(LINK, not, 0, 0);
    let premises = [66, 68].map(|rule| maker.leaf(rule));
    let first = maker.node(76, maker.bottom, &premises);
    maker.node(67, parts, &[first, p2])
}

/// What the translation makes of 39: BR4 P [R2 [BR3]; BR4 Q [R2' [BR3]; p1]], P∧Q a member.
fn conjunction(maker: &mut Maker, [both, left, right]: [u32; 3], p1: u32) -> u32 {
    let [both, left, right] = [both, left, right].map(|f| maker.sheet.w.chain(&[f]));
    let [first, second] = [71, 72].map(|rule| {
        let member = maker.leaf(66);
        maker.node(rule, both, &[member])
    });
    let inner = maker.node(67, right, &[second, p1]);
    maker.node(67, left, &[first, inner])
}

/// What the translation makes of 42: BR4 P∧Q [R1 [R5 ⊥ [p1; BR6]; R5 ⊥ [p2; BR6]]; R5 P∧Q [BR3; BR3]], p1 closed by ⊥,
/// ¬(P∧Q) a member.
fn negated_conjunction(maker: &mut Maker, both: u32, p2: u32) -> u32 {
    let parts = maker.sheet.w.chain(&[both]);
    let first = maker.anything();
    let true_goal = maker.leaf(68);
    let second = maker.node(75, maker.bottom, &[p2, true_goal]);
    let joined = maker.node(70, 0, &[first, second]);
    let members = [66, 66].map(|rule| maker.leaf(rule));
    let closed = maker.node(75, parts, &members);
    maker.node(67, parts, &[joined, closed])
}

/// Translated cuts and conjunctions up to 1,024 members, over and over, up to the file's end.
fn translated() -> Shape {
    let mut sheet = Sheet::new(Second::Derivation);
    let (left, right) = (sheet.goal, sheet.bottom);
    let both = sheet.w.push(AND, left, right, 0);
    let neither = sheet.w.push(NOT, both, 0, 0);
    let mut maker = Maker::new(sheet, &[both, neither]);
    let bottom = maker.sheet.bottom;
    let root = maker.branches(bottom, 100, 0, |maker| {
        let mut root = maker.leaf(66);
        for number in 0..250 {
            if !maker.has_room(80) {
                break;
            }
            let formula = maker.numbered(number);
            root = cut(maker, formula, root);
            root = conjunction(maker, [both, left, right], root);
            root = negated_conjunction(maker, both, root);
        }
        root
    });
    maker.close("translated 37, 39, 42, 1,000 members", root)
}

/// What the translation makes of 43: BR4 ∀B [R7 c,B(c) [R5 ⊥ [p1; BR6]]; R5 ∀B [BR3; BR3]], ¬∀B a member.
fn negated_universal(maker: &mut Maker, [all, c, instance]: [u32; 3], p1: u32) -> u32 {
    let parts = maker.sheet.w.chain(&[all]);
    let fresh = maker.sheet.w.chain(&[c, instance]);
    let true_goal = maker.leaf(68);
    let denied = maker.node(75, maker.bottom, &[p1, true_goal]);
    let first = maker.node(77, fresh, &[denied]);
    let members = [66, 66].map(|rule| maker.leaf(rule));
    let second = maker.node(75, parts, &members);
    maker.node(67, parts, &[first, second])
}

/// What the translation makes of 44: BR4 B(t) [R8 ∀B,t [BR3]; p1], ∀B a member.
fn universal(maker: &mut Maker, [all, t, instance]: [u32; 3], p1: u32) -> u32 {
    let parts = maker.sheet.w.chain(&[instance]);
    let of_term = maker.sheet.w.chain(&[all, t]);
    let member = maker.leaf(66);
    let first = maker.node(78, of_term, &[member]);
    maker.node(67, parts, &[first, p1])
}

/// What the translation makes of 46: BR4 B(u) [R9 B,(t=u),B(t) [R5 ⊥ [p1; BR6]; BR3]; p2], p1 closed by ⊥, B(t) a member.
fn equality(maker: &mut Maker, parts: [u32; 3], with_u: u32, p2: u32) -> u32 {
    let replaced = maker.sheet.w.chain(&parts);
    let added = maker.sheet.w.chain(&[with_u]);
    let premises = [maker.anything(), maker.leaf(66)];
    let first = maker.node(79, replaced, &premises);
    maker.node(67, added, &[first, p2])
}

/// Translated instances of ∀ and equalities up to some 450 members, over and over, up to the file's end.
fn translated_terms() -> Shape {
    let mut sheet = Sheet::new(Second::Derivation);
    let (given, c, s) = (sheet.given, sheet.c, sheet.s);
    let x = sheet.w.push(BOUND, 0, given, 0);
    let body = sheet.w.push(IN, x, s, 0);
    let all = sheet.w.push(ALL, given, body, 0);
    let not_all = sheet.w.push(NOT, all, 0, 0);
    let u = sheet.constant(given);
    let mut maker = Maker::new(sheet, &[all, not_all]);
    let [with_c, with_u] = [c, u].map(|term| maker.push(IN, term, s, 0));
    let equation = maker.push(EQUAL, c, u, 0);
    let fresh: Vec<[u32; 3]> = (0..150)
        .map(|_| {
            let d = maker.sheet.constant(given);
            [all, d, maker.push(IN, d, s, 0)]
        })
        .collect();
    let bottom = maker.sheet.bottom;
    let root = maker.branches(bottom, 100, 0, |maker| {
        let mut root = maker.leaf(66);
        for &parts in &fresh {
            if !maker.has_room(80) {
                break;
            }
            root = negated_universal(maker, parts, root);
            root = equality(maker, [body, equation, with_c], with_u, root);
            root = universal(maker, [all, c, with_c], root);
        }
        root
    });
    maker.close("translated 43, 44, 46, 450 members", root)
}

/// The deepest branches: BR2 that keeps ⊥.
fn deep() -> Shape {
    let mut maker = maker();
    let bottom = maker.sheet.bottom;
    let root = maker.full(bottom, 1, 0, |maker, root| {
        maker.node(65, maker.bottom, &[root])
    });
    maker.close("depth 8,192 by BR2", root)
}

/// Members of their own, by BR4 above the root, the last one the first that is added.
fn with_members(maker: &mut Maker, formulas: &[u32], root: u32) -> u32 {
    formulas.iter().fold(root, |root, &formula| {
        let parts = maker.sheet.w.chain(&[formula]);
        let first = maker.anything();
        maker.node(67, parts, &[first, root])
    })
}

/// R1 over and over down to 256 leaves, BR3 for either of two members; as often as there is room for with so many records
/// left over.
fn looked_for(maker: &mut Maker, members: [u32; 2], spare: u32) -> u32 {
    let both = maker.push(AND, members[0], members[1], 0);
    let goal = maker.sheet.doubled(both, 7);
    maker.branches(goal, 500, spare + 1_024, |maker| {
        let mut level: Vec<u32> = (0..256).map(|_| maker.leaf(66)).collect();
        while level.len() > 1 {
            let joined = level.chunks(2).map(|pair| maker.node(70, 0, pair));
            level = joined.collect();
        }
        level[0]
    })
}

/// 1,500 members of their own, and BR3 for the first and the last of them up to the file's end.
fn members() -> Shape {
    let mut maker = maker();
    let formulas: Vec<u32> = (0..1_500).map(|number| maker.numbered(number)).collect();
    let ends = [formulas[0], formulas[formulas.len() - 1]];
    let root = looked_for(&mut maker, ends, 12 * 1_500);
    let root = with_members(&mut maker, &formulas, root);
    maker.close("BR3 among 1,500 members", root)
}

/// Two members that are added 7,600 nodes apart, and BR3 for them below these nodes up to the file's end.
fn deep_members() -> Shape {
    let mut maker = maker();
    let bottom = maker.sheet.bottom;
    let both = maker.push(AND, bottom, bottom, 0);
    let parts = maker.sheet.w.chain(&[both]);
    let ends = [1, 2].map(|number| maker.numbered(number));
    let root = looked_for(&mut maker, ends, 6 * 3_800 + 40);
    let mut root = with_members(&mut maker, &ends[..1], root);
    for _ in 0..3_800 {
        let member = maker.leaf(66);
        let joined = maker.node(70, 0, &[member, root]);
        root = maker.node(71, parts, &[joined]);
    }
    let root = with_members(&mut maker, &ends[1..], root);
    maker.close("BR3 at depth 8,000", root)
}

/// BR2 so often, each keeping 2,048 members, all but one of them the last of those above.
fn kept(steps: Steps) -> Shape {
    let mut maker = maker();
    let (bottom, other) = (maker.sheet.bottom, maker.numbered(1));
    let parts = [[bottom, other], [other, bottom]].map(|[often, once]| {
        let last = maker.push(LINK, once, 0, 0);
        (1..MOST_MEMBERS).fold(last, |next, _| maker.push(LINK, often, 0, next))
    });
    // Each branch ends with BR3: a member more would be one too many.
    let branch = |maker: &mut Maker, most: u32| {
        let mut root = maker.leaf(66);
        for at in 0..most {
            if maker.has_room(FOR_MEMBERS) {
                root = maker.node(65, parts[at as usize % 2], &[root]);
            }
        }
        root
    };
    let root = match steps {
        Steps::Some(count) => branch(&mut maker, count),
        Steps::All => maker.branches(bottom, MOST_BRANCHES, FOR_MEMBERS, |maker| {
            branch(maker, BRANCH)
        }),
    };
    let root = with_members(&mut maker, &[other], root);
    maker.close(&format!("BR2 that keeps 2,048, {steps}"), root)
}

/// A large formula of its own for each number, in some 8,000 records.
fn large(maker: &mut Maker, number: u32) -> u32 {
    let bottom = maker.sheet.bottom;
    let start = maker.numbered(number);
    (0..8_000).fold(start, |formula, _| maker.push(AND, bottom, formula, 0))
}

/// R8 and R7 up to ∀ and down again, so often, beside members that have half of the file's records.
fn fresh(steps: Steps) -> Shape {
    let mut maker = maker();
    let (given, c, bottom) = (maker.sheet.given, maker.sheet.c, maker.sheet.bottom);
    let all = maker.push(ALL, given, bottom, 0);
    let [up, down] = [[all, c], [c, bottom]].map(|parts| maker.sheet.w.chain(&parts));
    let formulas: Vec<u32> = (0..12).map(|number| large(&mut maker, number)).collect();
    let step = |maker: &mut Maker, root: u32| {
        let inner = maker.node(77, down, &[root]);
        maker.node(78, up, &[inner])
    };
    let root = match steps {
        Steps::Some(count) => maker.branch(2, count, 0, step),
        Steps::All => maker.full(bottom, 2, FOR_MEMBERS, step),
    };
    let root = with_members(&mut maker, &formulas, root);
    maker.close(
        &format!("R7 beside 96,000 records of members, {steps}"),
        root,
    )
}

/// The same up to the file's end, each R7 with a constant of its own that is older than the members; or with a small member
/// more above each.
fn fresh_each(growing: bool) -> Shape {
    let mut maker = maker();
    let (given, bottom) = (maker.sheet.given, maker.sheet.bottom);
    let all = maker.push(ALL, given, bottom, 0);
    let last = maker.push(LINK, bottom, 0, 0);
    let parts: Vec<[u32; 2]> = (0..OWN_CONSTANTS)
        .map(|_| {
            let c = maker.sheet.constant(given);
            let down = maker.push(LINK, c, 0, last);
            [maker.sheet.w.chain(&[all, c]), down]
        })
        .collect();
    let formulas: Vec<u32> = (0..12).map(|number| large(&mut maker, number)).collect();
    let next = Cell::new(0);
    // Five nodes a step at most: so that a branch has fewer than 2,048 members.
    let depth = if growing { 5 } else { 2 };
    let root = maker.full(bottom, depth, FOR_MEMBERS, |maker, root| {
        let at = next.replace(next.get() + 1);
        let [up, down] = parts[at % parts.len()];
        let inner = maker.node(77, down, &[root]);
        let outer = maker.node(78, up, &[inner]);
        match growing {
            true => {
                let member = maker.numbered(at as u32 + 12);
                with_members(maker, &[member], outer)
            }
            false => outer,
        }
    });
    let root = with_members(&mut maker, &formulas, root);
    let more = if growing { ", a member more each time" } else { "" };
    maker.close(
        &format!("R7 with constants of their own beside such members{more}, whole"),
        root,
    )
}

/// R9 with B, c=c, B(c) so often, over a goal B(c).
fn equalities(mut maker: Maker, name: &str, [body, instance]: [u32; 2], steps: Steps) -> Shape {
    let c = maker.sheet.c;
    let same = maker.push(EQUAL, c, c, 0);
    let parts = maker.sheet.w.chain(&[body, same, instance]);
    maker.steps(name, instance, 1, steps, |maker, root| {
        let equal = maker.leaf(80);
        maker.node(79, parts, &[equal, root])
    })
}

/// R8 and R7 up to ∀ and down again, so often, over a goal B(c).
fn universals(mut maker: Maker, name: &str, [body, instance]: [u32; 2], steps: Steps) -> Shape {
    let (given, c) = (maker.sheet.given, maker.sheet.c);
    let all = maker.push(ALL, given, body, 0);
    let [up, down] = [[all, c], [c, instance]].map(|parts| maker.sheet.w.chain(&parts));
    maker.steps(name, instance, 2, steps, |maker, root| {
        let inner = maker.node(77, down, &[root]);
        maker.node(78, up, &[inner])
    })
}

/// A body and its instance by c: `grow` of index 0 and of c.
fn grown(maker: &mut Maker, grow: impl Fn(&mut Maker, u32) -> u32) -> [u32; 2] {
    let (given, c) = (maker.sheet.given, maker.sheet.c);
    let x = maker.push(BOUND, 0, given, 0);
    [x, c].map(|term| grow(maker, term))
}

/// t=t doubled up to a weight of 12,287.
fn doubled(maker: &mut Maker, term: u32) -> u32 {
    let same = maker.push(EQUAL, term, term, 0);
    maker.sheet.doubled(same, 11)
}

/// t=t nested in ¬ up to a weight of 16,384.
fn nested_not(maker: &mut Maker, term: u32) -> u32 {
    let same = maker.push(EQUAL, term, term, 0);
    (0..16_370).fold(same, |formula, _| maker.push(NOT, formula, 0, 0))
}

/// t=t nested on the right of ∧ up to a weight of 16,384.
fn nested_and(maker: &mut Maker, term: u32) -> u32 {
    let same = maker.push(EQUAL, term, term, 0);
    let bottom = maker.sheet.bottom;
    (0..8_180).fold(same, |formula, _| maker.push(AND, bottom, formula, 0))
}

/// A function applied to t over and over, up to a weight of 16,384, equal to a constant.
fn nested_terms(maker: &mut Maker, term: u32) -> u32 {
    let (f, given, c) = (maker.function, maker.sheet.given, maker.sheet.c);
    let own = maker.sheet.w.chain(&[given]);
    let applied = (0..8_180).fold(term, |term, _| {
        let arguments = maker.push(LINK, term, 0, 0);
        maker.push(APPLICATION, f, own, arguments)
    });
    maker.push(EQUAL, applied, c, 0)
}

/// R9 from B(t) to B(f(t)), B nested in a function, up a chain of terms that B and all t share, in as many branches as there is room for: no two
/// steps compare the same trees with the same term.
fn own_terms() -> Shape {
    let mut maker = maker();
    let (f, given, c) = (maker.function, maker.sheet.given, maker.sheet.c);
    let own = maker.sheet.w.chain(&[given]);
    let apply = |maker: &mut Maker, term: u32| {
        let arguments = maker.push(LINK, term, 0, 0);
        maker.push(APPLICATION, f, own, arguments)
    };
    let x = maker.push(BOUND, 0, given, 0);
    let nested = (0..OWN_TERMS).fold(x, |term, _| apply(&mut maker, term));
    let body = maker.push(EQUAL, nested, c, 0);
    let mut terms = vec![c];
    for at in 0..2 * OWN_TERMS {
        let next = apply(&mut maker, terms[at]);
        terms.push(next);
    }
    let instances: Vec<u32> = (0..=OWN_TERMS)
        .map(|at| maker.push(EQUAL, terms[OWN_TERMS + at], c, 0))
        .collect();
    let parts: Vec<u32> = (0..OWN_TERMS)
        .map(|at| {
            let equation = maker.push(EQUAL, terms[at], terms[at + 1], 0);
            maker.sheet.w.chain(&[body, equation, instances[at]])
        })
        .collect();
    let room = 10 * OWN_TERMS as u32;
    let root = maker.branches(instances[OWN_TERMS], MOST_BRANCHES, room, |maker| {
        let first = maker.anything();
        parts.iter().fold(first, |root, &parts| {
            let equal = maker.anything();
            maker.node(79, parts, &[equal, root])
        })
    });
    maker.close(
        "R9 with terms of their own over a body nested in f, whole",
        root,
    )
}

fn heavy(
    name: &str,
    nodes: fn(Maker, &str, [u32; 2], Steps) -> Shape,
    grow: fn(&mut Maker, u32) -> u32,
    steps: Steps,
) -> Shape {
    let mut maker = maker();
    let bodies = grown(&mut maker, grow);
    nodes(maker, name, bodies, steps)
}

/// The deepest branch by BR2, and at its end R9 over a body.
fn deepest(name: &str, grow: fn(&mut Maker, u32) -> u32) -> Shape {
    let mut maker = maker();
    let [body, instance] = grown(&mut maker, grow);
    let c = maker.sheet.c;
    let same = maker.push(EQUAL, c, c, 0);
    let parts = maker.sheet.w.chain(&[body, same, instance]);
    let goal = maker.sheet.w.chain(&[instance]);
    let premises = [maker.leaf(80), maker.anything()];
    let first = maker.node(79, parts, &premises);
    let closed = maker.leaf(66);
    // R9 has two nodes below it on the way down, and BR4 above it.
    let mut root = maker.node(67, goal, &[first, closed]);
    for _ in 0..MOST_DEPTH - 4 {
        root = maker.node(65, maker.bottom, &[root]);
    }
    maker.close(
        &format!("depth 8,192, R9 over a body nested in {name}"),
        root,
    )
}

/// One node: what a call takes at least.
fn smallest() -> Shape {
    let mut maker = maker();
    let root = maker.leaf(66);
    maker.close("one node", root)
}

/// The accepted derivations that take the most stack.
pub fn deepest_derivations() -> Vec<Shape> {
    vec![
        smallest(),
        deep(),
        deepest("¬", nested_not),
        deepest("∧", nested_and),
        deepest("f", nested_terms),
    ]
}

/// The hostile steps over heavy bodies.
fn heavy_bodies(steps: Steps) -> Vec<Shape> {
    vec![
        heavy("R9 over a heavy shared body", equalities, doubled, steps),
        heavy("R9 over a body nested in ¬", equalities, nested_not, steps),
        heavy("R9 over a body nested in ∧", equalities, nested_and, steps),
        heavy(
            "R9 over a body nested in f",
            equalities,
            nested_terms,
            steps,
        ),
        heavy("R8 over a heavy shared body", universals, doubled, steps),
        heavy("R8 over a body nested in ¬", universals, nested_not, steps),
    ]
}

/// All accepted derivations that are measured.
pub fn derivations() -> Vec<Shape> {
    let ordinary = vec![
        smallest(),
        translated(),
        translated_terms(),
        deep(),
        deep_members(),
        members(),
        kept(Steps::Some(100)),
        fresh(Steps::Some(200)),
    ];
    let deep = vec![
        deepest("¬", nested_not),
        deepest("∧", nested_and),
        deepest("f", nested_terms),
    ];
    [ordinary, heavy_bodies(Steps::Some(500)), deep].concat()
}

/// The hostile ones again, each step repeated up to the file's end.
pub fn whole_derivations() -> Vec<Shape> {
    let others = vec![
        kept(Steps::All),
        fresh(Steps::All),
        fresh_each(false),
        fresh_each(true),
        own_terms(),
    ];
    [others, heavy_bodies(Steps::All)].concat()
}
