//! Large accepted proofs for measuring the walk: ordinary ones, and ones that are costly for a careless check.

use super::{Shape, Sheet};
use second::kinds::*;
use second::reader::Second;

/// Members of a sequent, the hypotheses ⊥ and one other and the negated goal counted.
pub(super) const MOST_MEMBERS: u32 = 1_024;
const FIRST_MEMBERS: u32 = 3;

/// A proof under a branch: its root so far, to be named by the next node.
pub(super) struct Branch {
    pub(super) sheet: Sheet,
    pub(super) root: u32,
    pub(super) members: u32,
}

impl Branch {
    /// Closes by ⊥, which is a hypothesis beside `other`.
    pub(super) fn new(sheet: Sheet, other: u32) -> Branch {
        let hypotheses = [sheet.bottom, other];
        Branch::closed_by(sheet, &hypotheses, 32, &[])
    }

    /// Closes by a rule without premises, given the hypotheses and the rule's parts.
    pub(super) fn closed_by(
        mut sheet: Sheet,
        hypotheses: &[u32],
        rule: u32,
        parts: &[u32],
    ) -> Branch {
        sheet.head = sheet.w.chain(hypotheses);
        sheet.end_obligation();
        let parts = sheet.w.chain(parts);
        let root = sheet.w.push(rule, parts, 0, 0);
        Branch {
            sheet,
            root,
            members: hypotheses.len() as u32 + 1,
        }
    }

    /// A node before the branch, whose last premise it is; others are closed by ⊥.
    pub(super) fn node(&mut self, rule: u32, parts: u32, premises: u32, added: u32) {
        let closing: Vec<u32> = (1..premises)
            .map(|_| self.sheet.w.push(32, 0, 0, 0))
            .collect();
        self.node_beside(rule, parts, &closing, added);
    }

    /// A node before the branch, whose last premise it is, the nodes given being the others.
    pub(super) fn node_beside(&mut self, rule: u32, parts: u32, others: &[u32], added: u32) {
        let w = &mut self.sheet.w;
        let mut chain = w.push(LINK, self.root, 0, 0);
        for &other in others.iter().rev() {
            chain = w.push(LINK, other, 0, chain);
        }
        self.root = w.push(rule, parts, chain, 0);
        self.members += added;
    }

    /// There is room for a node of so many records that adds so many members.
    pub(super) fn has_room(&self, records: u32, added: u32) -> bool {
        self.members + added <= MOST_MEMBERS && self.sheet.is_before(self.sheet.end(records))
    }

    /// Starts another branch; gives back the root of the one so far.
    fn again(&mut self) -> u32 {
        self.members = FIRST_MEMBERS;
        let closing = self.sheet.w.push(32, 0, 0, 0);
        std::mem::replace(&mut self.root, closing)
    }

    /// Nodes of one rule with one premise and these parts, in two branches of a cut, up to the file's end.
    fn in_two_branches(mut self, rule: u32, parts: u32, name: &str) -> Shape {
        let cut = self.sheet.w.chain(&[self.sheet.bottom]);
        let middle = (self.sheet.w.count() + self.sheet.end(0)) / 2;
        while self.has_room(2, 1) && self.sheet.is_before(middle) {
            self.node(rule, parts, 1, 1);
        }
        let first = self.again();
        while self.has_room(5, 1) {
            self.node(rule, parts, 1, 1);
        }
        self.node_beside(37, cut, &[first], 1);
        self.close(name)
    }

    fn close(self, name: &str) -> Shape {
        self.sheet.files(&format!("(w) {name}"), self.root)
    }
}

/// Cuts and conjunctions up to 1,024 members and the file's end.
fn ordinary() -> Shape {
    let mut sheet = Sheet::new(Second::Proof);
    let both = sheet.w.push(AND, sheet.goal, sheet.goal, 0);
    let mut branch = Branch::new(sheet, both);
    let again = branch.sheet.w.push(LINK, both, 0, 0);
    while branch.has_room(12, 3) {
        let (given, c) = (branch.sheet.given, branch.sheet.c);
        let x = branch.sheet.w.push(BOUND, 0, given, 0);
        let same = branch.sheet.w.push(EQUAL, x, c, 0);
        let all = branch.sheet.w.push(ALL, given, same, 0);
        let parts = branch.sheet.w.push(LINK, all, 0, 0);
        branch.node(37, parts, 2, 1);
        branch.node(39, again, 1, 2);
    }
    branch.close("cuts and conjunctions")
}

/// 1,024 members by one rule.
fn one_rule() -> Shape {
    let mut sheet = Sheet::new(Second::Proof);
    let both = sheet.w.push(AND, sheet.goal, sheet.goal, 0);
    let mut branch = Branch::new(sheet, both);
    let again = branch.sheet.w.push(LINK, both, 0, 0);
    while branch.has_room(4, 2) {
        branch.node(39, again, 1, 2);
    }
    branch.close("1,024 members, one rule")
}

/// 1,024 members, and hundreds of cuts whose other branch looks among them for the newest and an old one.
fn members() -> Shape {
    let mut sheet = Sheet::new(Second::Proof);
    let top = sheet.w.push(TOP, 0, 0, 0);
    let not_top = sheet.w.push(NOT, top, 0, 0);
    let both = sheet.w.push(AND, not_top, not_top, 0);
    let mut branch = Branch::new(sheet, both);
    let [cut, again] = [top, both].map(|f| branch.sheet.w.push(LINK, f, 0, 0));
    while branch.members < MOST_MEMBERS / 2 {
        let closing = branch.sheet.w.push(34, cut, 0, 0);
        branch.node_beside(37, cut, &[closing], 1);
    }
    while branch.has_room(2, 2) {
        branch.node(39, again, 1, 2);
    }
    branch.close("members looked for among 1,024")
}

/// A heavy body without index 0, ∀ over it and the ¬ of that.
fn heavy_negated(sheet: &mut Sheet) -> (u32, u32) {
    let body = sheet.doubled(sheet.goal, 10);
    let all = sheet.w.push(ALL, sheet.given, body, 0);
    (body, sheet.w.push(NOT, all, 0, 0))
}

/// Rule 43, each instance by another constant of the file's beginning.
fn fresh() -> Shape {
    let mut sheet = Sheet::new(Second::Proof);
    let (body, not) = heavy_negated(&mut sheet);
    let mut branch = Branch::new(sheet, not);
    let given = branch.sheet.given;
    let constants: Vec<u32> = (0..430).map(|_| branch.sheet.constant(given)).collect();
    let last = branch.sheet.w.push(LINK, body, 0, 0);
    for c in constants {
        if branch.has_room(4, 1) {
            let parts = branch.sheet.w.push(LINK, c, 0, last);
            let parts = branch.sheet.w.push(LINK, not, 0, parts);
            branch.node(43, parts, 1, 1);
        }
    }
    branch.close("430 early constants, heavy members (43)")
}

/// Rule 43 by one constant, which stays fresh, over and over.
fn fresh_again() -> Shape {
    let mut sheet = Sheet::new(Second::Proof);
    let (body, not) = heavy_negated(&mut sheet);
    let c = sheet.c;
    let mut branch = Branch::new(sheet, not);
    let parts = branch.sheet.w.chain(&[not, c, body]);
    branch.in_two_branches(43, parts, "one early constant, heavy instance (43)")
}

/// A heavy body with index 0 at each of its leaves, and that body with c in its place.
fn heavy_body(sheet: &mut Sheet) -> (u32, u32) {
    let x = sheet.w.push(BOUND, 0, sheet.given, 0);
    let open = sheet.w.push(EQUAL, x, x, 0);
    let closed = sheet.w.push(EQUAL, sheet.c, sheet.c, 0);
    (sheet.doubled(open, 9), sheet.doubled(closed, 9))
}

/// Rule 44 with one heavy ∀ and its instance, over and over.
fn instances() -> Shape {
    let mut sheet = Sheet::new(Second::Proof);
    let (body, instance) = heavy_body(&mut sheet);
    let all = sheet.w.push(ALL, sheet.given, body, 0);
    let c = sheet.c;
    let mut branch = Branch::new(sheet, all);
    let parts = branch.sheet.w.chain(&[all, c, instance]);
    branch.in_two_branches(44, parts, "heavy instance of a for-all (44)")
}

/// Rule 45 with one heavy formula for all types and its instance, over and over.
fn type_instances() -> Shape {
    let mut sheet = Sheet::new(Second::Proof);
    let variable = sheet.w.push(TYPE_VARIABLE, 0, 0, 0);
    let [open, closed] = [variable, sheet.given].map(|ty| {
        let x = sheet.w.push(BOUND, 0, ty, 0);
        let same = sheet.w.push(EQUAL, x, x, 0);
        let all = sheet.w.push(ALL, ty, same, 0);
        sheet.doubled(all, 8)
    });
    let hypothesis = sheet.w.push(ALL_TYPES, 1, open, 0);
    let given = sheet.given;
    let mut branch = Branch::new(sheet, hypothesis);
    let parts = branch.sheet.w.chain(&[hypothesis, closed, given]);
    branch.in_two_branches(45, parts, "heavy instance for a type (45)")
}

/// Rule 45 with four heavy types and a heavy instance, over and over.
fn heavy_types() -> Shape {
    let mut sheet = Sheet::new(Second::Proof);
    let (function, c) = (binary(&mut sheet), sheet.c);
    let (_, formula) = heavy_terms(&mut sheet, function, c);
    let hypothesis = sheet.w.push(ALL_TYPES, 4, formula, 0);
    let ty = sheet.doubled_type(sheet.given, 11);
    let mut branch = Branch::new(sheet, hypothesis);
    let parts = branch.sheet.w.chain(&[hypothesis, formula, ty, ty, ty, ty]);
    branch.in_two_branches(45, parts, "heavy instance for 4 heavy types (45)")
}

/// Rule 46 with one heavy body and its instance, over and over.
fn equalities() -> Shape {
    let mut sheet = Sheet::new(Second::Proof);
    let (body, instance) = heavy_body(&mut sheet);
    let mut branch = Branch::new(sheet, instance);
    let c = branch.sheet.c;
    let parts = branch.sheet.w.chain(&[body, c, c, instance, instance]);
    while branch.has_room(4, 1) {
        branch.node(46, parts, 2, 1);
    }
    branch.close("heavy body with t and u (46)")
}

/// A function of two arguments and the chain of its applications' own type.
pub(super) fn binary(sheet: &mut Sheet) -> (u32, u32) {
    let given = sheet.given;
    let types = sheet.w.chain(&[given, given, given]);
    let name = sheet.w.name(b"f");
    let f = sheet.w.push(FUNCTION, types, 0, name);
    (f, sheet.w.chain(&[given]))
}

/// Heavy terms, such a function applied to one term twice, over and over from a leaf on; the last but one, doubled
/// by =, is as heavy a formula.
fn heavy_terms(sheet: &mut Sheet, (f, own): (u32, u32), leaf: u32) -> (u32, u32) {
    let applied = |sheet: &mut Sheet, term: u32| {
        let arguments = sheet.w.chain(&[term, term]);
        sheet.w.push(APPLICATION, f, own, arguments)
    };
    let half = (0..9).fold(leaf, |term, _| applied(sheet, term));
    let formula = sheet.w.push(EQUAL, half, half, 0);
    (applied(sheet, half), formula)
}

/// Rule 46 with one heavy body of applications, index 0 at each of its leaves, and its instance, over and over.
fn applied_equalities() -> Shape {
    let mut sheet = Sheet::new(Second::Proof);
    let function = binary(&mut sheet);
    let x = sheet.w.push(BOUND, 0, sheet.given, 0);
    let c = sheet.c;
    let [body, instance] = [x, c].map(|leaf| heavy_terms(&mut sheet, function, leaf).1);
    let mut branch = Branch::new(sheet, instance);
    let parts = branch.sheet.w.chain(&[body, c, c, instance, instance]);
    while branch.has_room(4, 1) {
        branch.node(46, parts, 2, 1);
    }
    branch.close("heavy body of applications with t and u (46)")
}

/// Rule 46 with a heavy body without index 0 and a heavy term, over and over.
fn heavy_equalities() -> Shape {
    let mut sheet = Sheet::new(Second::Proof);
    let (function, c) = (binary(&mut sheet), sheet.c);
    let (term, formula) = heavy_terms(&mut sheet, function, c);
    let mut branch = Branch::new(sheet, formula);
    let parts = [formula, term, term, formula, formula];
    let parts = branch.sheet.w.chain(&parts);
    while branch.has_room(4, 1) {
        branch.node(46, parts, 2, 1);
    }
    branch.close("heavy body, t and u (46)")
}

/// Cuts of a heavy formula, each of whose other branches ends by it and its negation.
fn heavy_cuts() -> Shape {
    let mut sheet = Sheet::new(Second::Proof);
    let formula = sheet.doubled(sheet.bottom, 11);
    let not = sheet.w.push(NOT, formula, 0, 0);
    let mut branch = Branch::new(sheet, not);
    let parts = branch.sheet.w.push(LINK, formula, 0, 0);
    while branch.has_room(4, 1) {
        let closing = branch.sheet.w.push(34, parts, 0, 0);
        branch.node_beside(37, parts, &[closing], 1);
    }
    branch.close("heavy part, closed (37, 34)")
}

/// The deepest walk over the deepest parts: a body with index 0 nested as deep as the obligation has room, and the
/// instance of the ∀ over it at each node.
fn deepest() -> Shape {
    let mut sheet = Sheet::new(Second::Proof);
    let (given, c) = (sheet.given, sheet.c);
    let x = sheet.w.push(BOUND, 0, given, 0);
    let open = sheet.w.push(EQUAL, x, x, 0);
    let mut body = open;
    while sheet.is_before(sheet.end(6)) {
        body = sheet.w.push(NOT, body, 0, 0);
    }
    let depth = body - open;
    let all = sheet.w.push(ALL, given, body, 0);
    let mut branch = Branch::new(sheet, all);
    let w = &mut branch.sheet.w;
    let closed = w.push(EQUAL, c, c, 0);
    let instance = (0..depth).fold(closed, |part, _| w.push(NOT, part, 0, 0));
    let parts = w.chain(&[all, c, instance]);
    while branch.has_room(2, 1) {
        branch.node(44, parts, 1, 1);
    }
    branch.close("deepest walk, deepest instance (44)")
}

/// The deepest walk over the deepest types: a type nested as deep as the obligation has room in a formula for
/// all types, and the instance with another such type at each node.
fn deepest_types() -> Shape {
    let mut sheet = Sheet::new(Second::Proof);
    let variable = sheet.w.push(TYPE_VARIABLE, 0, 0, 0);
    let mut open = variable;
    while sheet.is_before(sheet.end(12)) {
        open = sheet.w.push(SET_TYPE, open, 0, 0);
    }
    let depth = open - variable;
    let all = sheet.w.push(ALL, open, sheet.bottom, 0);
    let hypothesis = sheet.w.push(ALL_TYPES, 1, all, 0);
    let (given, bottom) = (sheet.given, sheet.bottom);
    let mut branch = Branch::new(sheet, hypothesis);
    let w = &mut branch.sheet.w;
    let closed = (0..depth).fold(given, |ty, _| w.push(SET_TYPE, ty, 0, 0));
    let instance = w.push(ALL, closed, bottom, 0);
    let parts = w.chain(&[hypothesis, instance, given]);
    while branch.has_room(2, 1) {
        branch.node(45, parts, 1, 1);
    }
    branch.close("deepest walk, deepest types (45)")
}

/// All accepted proofs that are measured.
pub fn walks() -> Vec<Shape> {
    vec![
        ordinary(),
        one_rule(),
        members(),
        fresh(),
        fresh_again(),
        instances(),
        type_instances(),
        heavy_types(),
        equalities(),
        applied_equalities(),
        heavy_equalities(),
        heavy_cuts(),
        deepest(),
        deepest_types(),
    ]
}
