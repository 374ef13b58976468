//! Proofs at the limits that the translation meets: members, records, weights and depth. They are accepted but for those
//! that are asked to have too many members.

use super::walks::{binary, Branch, MOST_MEMBERS};
use super::{Shape, Sheet};
use second::kinds::*;
use second::reader::Second;
use std::collections::HashMap;

const MOST_HYPOTHESES: usize = 256;
/// The rules without premises.
const CLOSING: std::ops::RangeInclusive<u32> = 32..=36;

fn close(branch: Branch, name: &str) -> Shape {
    branch.sheet.files(&format!("(y) {name}"), branch.root)
}

/// Closes a proof whose file is as long as it may be: records of no other use stand at its end.
fn close_full(mut branch: Branch, name: &str) -> Shape {
    pad(&mut branch.sheet);
    close(branch, name)
}

/// Records of no other use, up to the end of the file in the making.
fn pad(sheet: &mut Sheet) {
    while sheet.is_before(sheet.end(0)) {
        sheet.w.push(TOP, 0, 0, 0);
    }
}

/// A node of two premises before the branch, which is the first or the last of them; the other is closed by ⊥.
fn node_of_two(branch: &mut Branch, rule: u32, parts: u32, first: bool) {
    if !first {
        return branch.node(rule, parts, 2, 1);
    }
    let w = &mut branch.sheet.w;
    let closing = w.push(32, 0, 0, 0);
    let last = w.push(LINK, closing, 0, 0);
    let chain = w.push(LINK, branch.root, 0, last);
    branch.root = w.push(rule, parts, chain, 0);
    branch.members += 1;
}

/// t=u and ¬(u=t).
fn turned(sheet: &mut Sheet, t: u32, u: u32) -> [u32; 2] {
    let equation = sheet.w.push(EQUAL, t, u, 0);
    let other = sheet.w.push(EQUAL, u, t, 0);
    [equation, sheet.w.push(NOT, other, 0, 0)]
}

/// What a rule without premises needs among the members, and its parts.
fn needed(sheet: &mut Sheet, rule: u32) -> (Vec<u32>, Vec<u32>) {
    let (given, c, s) = (sheet.given, sheet.c, sheet.s);
    match rule {
        32 => (vec![sheet.bottom], vec![]),
        33 => {
            let top = sheet.w.push(TOP, 0, 0, 0);
            (vec![sheet.w.push(NOT, top, 0, 0)], vec![])
        }
        34 => {
            let member = sheet.w.push(IN, c, s, 0);
            let not = sheet.w.push(NOT, member, 0, 0);
            (vec![member, not], vec![member])
        }
        35 => {
            let same = sheet.w.push(EQUAL, c, c, 0);
            let not = sheet.w.push(NOT, same, 0, 0);
            (vec![not], vec![not])
        }
        _ => {
            let d = sheet.constant(given);
            let both = turned(sheet, c, d);
            (both.to_vec(), vec![both[0]])
        }
    }
}

/// A node of a rule without premises, at a sequent of so many members.
fn closing(rule: u32, members: u32) -> Shape {
    let mut sheet = Sheet::new(Second::Proof);
    let goal = sheet.goal;
    let both = sheet.w.push(AND, goal, goal, 0);
    let not = sheet.w.push(NOT, goal, 0, 0);
    let twice = sheet.w.push(NOT, not, 0, 0);
    let (more, parts) = needed(&mut sheet, rule);
    let hypotheses = [&[both, twice], &more[..]].concat();
    let mut branch = Branch::closed_by(sheet, &hypotheses, rule, &parts);
    let [both, twice] = [both, twice].map(|f| branch.sheet.w.push(LINK, f, 0, 0));
    while branch.members + 2 <= members {
        branch.node(39, both, 1, 2);
    }
    if branch.members < members {
        branch.node(38, twice, 1, 1);
    }
    close(branch, &format!("rule {rule} at {members} members"))
}

/// Closed by ⊥, with ¬(P∧Q) for rule 42, whose parts are given back.
fn negated_conjunction() -> (Branch, u32) {
    let mut sheet = Sheet::new(Second::Proof);
    let both = sheet.w.push(AND, sheet.goal, sheet.bottom, 0);
    let neither = sheet.w.push(NOT, both, 0, 0);
    let mut branch = Branch::new(sheet, neither);
    let parts = branch.sheet.w.push(LINK, neither, 0, 0);
    (branch, parts)
}

/// 500 nodes of rule 42 in a row: each but the last is in the first premise of the one before where `first` says so for its
/// number, else in the second.
fn in_a_row(name: &str, first: fn(u32) -> bool) -> Shape {
    let (mut branch, parts) = negated_conjunction();
    for number in 0..500 {
        node_of_two(&mut branch, 42, parts, first(number));
    }
    close(branch, &format!("500 nodes of 42 in a row, {name}"))
}

/// As many nodes of rule 42 in a row as there is room for, in a full file.
fn full() -> Shape {
    let (mut branch, parts) = negated_conjunction();
    while branch.has_room(3, 1) {
        let first = branch.members.is_multiple_of(2);
        node_of_two(&mut branch, 42, parts, first);
    }
    close_full(branch, "3,072 records, nodes of 42 in a row")
}

/// Closed by ⊥ among so many hypotheses of a full obligation, with ¬∀B for rule 43, whose parts are given back.
fn negated_universal(mut sheet: Sheet, hypotheses: usize) -> (Branch, u32) {
    let (given, c, bottom, goal) = (sheet.given, sheet.c, sheet.bottom, sheet.goal);
    let all = sheet.w.push(ALL, given, goal, 0);
    let not = sheet.w.push(NOT, all, 0, 0);
    let mut listed = vec![goal; hypotheses - 2];
    listed.extend([bottom, not]);
    // The chain of hypotheses comes before the records that fill the obligation; it is found again below.
    sheet.w.chain(&listed);
    pad(&mut sheet);
    let mut branch = Branch::closed_by(sheet, &listed, 32, &[]);
    let parts = branch.sheet.w.chain(&[not, c, goal]);
    (branch, parts)
}

/// Both files full, 256 hypotheses, and nodes of rule 43 up to 1,024 members.
fn both_full() -> Shape {
    let sheet = Sheet::new(Second::Proof);
    let (mut branch, parts) = negated_universal(sheet, MOST_HYPOTHESES);
    while branch.has_room(1, 1) {
        branch.node(43, parts, 1, 1);
    }
    close_full(branch, "1,023 and 3,072 records, nodes of 43 in a row")
}

/// The deepest derivation: three nodes for each node of rule 43, as many as members allow.
fn deepest() -> Shape {
    let (mut branch, parts) = negated_universal(Sheet::new(Second::Proof), 2);
    while branch.has_room(1, 1) {
        branch.node(43, parts, 1, 1);
    }
    close(branch, "1,021 nodes of 43 in a row")
}

/// Closed terms of a function of two arguments and one constant: the one of number k has weight 3k + 1.
struct Terms {
    function: (u32, u32),
    known: HashMap<u32, u32>,
}

impl Terms {
    fn new(function: (u32, u32), constant: u32) -> Terms {
        Terms {
            function,
            known: HashMap::from([(0, constant)]),
        }
    }

    fn of_weight(&mut self, sheet: &mut Sheet, weight: u32) -> u32 {
        assert!(weight % 3 == 1, "no term has weight {weight}");
        self.numbered(sheet, weight / 3)
    }

    fn numbered(&mut self, sheet: &mut Sheet, k: u32) -> u32 {
        if let Some(&term) = self.known.get(&k) {
            return term;
        }
        let left = (k - 1) / 2;
        let arguments = [left, k - 1 - left].map(|k| self.numbered(sheet, k));
        let arguments = sheet.w.chain(&arguments);
        let (f, own) = self.function;
        let term = sheet.w.push(APPLICATION, f, own, arguments);
        self.known.insert(k, term);
        term
    }
}

/// One node of rule 36 for t=u.
fn symmetry(mut sheet: Sheet, t: u32, u: u32, name: &str) -> Shape {
    let both = turned(&mut sheet, t, u);
    let branch = Branch::closed_by(sheet, &both, 36, &both[..1]);
    close(branch, &format!("rule 36, {name}"))
}

/// Rule 36 by each kind of term, whose type the translation looks up.
fn symmetries() -> Vec<Shape> {
    type Make = fn(&mut Sheet, u32) -> u32;
    let makers: [(&str, Make); 5] = [
        ("constants", |_, c| c),
        ("pairs", |sheet, c| {
            let ty = sheet.w.push(PAIR_TYPE, sheet.given, sheet.given, 0);
            sheet.w.push(PAIR, c, c, ty)
        }),
        ("products", |sheet, _| {
            let pairs = sheet.w.push(PAIR_TYPE, sheet.given, sheet.given, 0);
            let ty = sheet.w.push(SET_TYPE, pairs, 0, 0);
            let sets = sheet.w.push(SET_TYPE, sheet.given, 0, 0);
            let set = sheet.constant(sets);
            sheet.w.push(PRODUCT, set, sheet.s, ty)
        }),
        ("powersets", |sheet, _| {
            let sets = sheet.w.push(SET_TYPE, sheet.given, 0, 0);
            let ty = sheet.w.push(SET_TYPE, sets, 0, 0);
            let set = sheet.constant(sets);
            sheet.w.push(POWERSET, set, ty, 0)
        }),
        ("applications", |sheet, c| {
            // A function of one type parameter, whose result is the set type of it.
            let variable = sheet.w.push(TYPE_VARIABLE, 0, 0, 0);
            let result = sheet.w.push(SET_TYPE, variable, 0, 0);
            let types = sheet.w.chain(&[result, variable]);
            sheet.names += 1;
            let name = sheet.w.name(format!("f{}", sheet.names).as_bytes());
            let f = sheet.w.push(FUNCTION, types, 1, name);
            let own = sheet.w.push(SET_TYPE, sheet.given, 0, 0);
            let own = sheet.w.chain(&[own, sheet.given]);
            let arguments = sheet.w.chain(&[c]);
            sheet.w.push(APPLICATION, f, own, arguments)
        }),
    ];
    let made = |(name, make): (&str, Make)| {
        let mut sheet = Sheet::new(Second::Proof);
        let d = sheet.constant(sheet.given);
        let [t, u] = [sheet.c, d].map(|constant| make(&mut sheet, constant));
        symmetry(sheet, t, u, name)
    };
    makers.into_iter().map(made).collect()
}

/// Rule 36 by a heavy term on either side: ¬(u=t) has weight 4,096, and t=t more than a proof's records may have.
fn heavy_symmetry(left: bool) -> Shape {
    let mut sheet = Sheet::new(Second::Proof);
    let mut terms = Terms::new(binary(&mut sheet), sheet.c);
    let heavy = terms.of_weight(&mut sheet, 4_093);
    let d = sheet.constant(sheet.given);
    match left {
        true => symmetry(sheet, heavy, d, "a heavy term on the left"),
        false => symmetry(sheet, d, heavy, "a heavy term on the right"),
    }
}

/// Rule 36 by constants of a type of weight 4,096.
fn heavy_type_symmetry() -> Shape {
    let mut sheet = Sheet::new(Second::Proof);
    let pairs = sheet.doubled_type(sheet.given, 11);
    let heavy = sheet.w.push(SET_TYPE, pairs, 0, 0);
    let [t, u] = [0; 2].map(|_| sheet.constant(heavy));
    symmetry(sheet, t, u, "constants of a heavy type")
}

/// Nodes of rule 46 in a row up to the file's end, in the first and the second premise by turns.
fn substitutions(sheet: Sheet, parts: [u32; 5], name: &str) -> Shape {
    let mut branch = Branch::new(sheet, parts[3]);
    let parts = branch.sheet.w.chain(&parts);
    while branch.has_room(3, 1) {
        let first = branch.members.is_multiple_of(2);
        node_of_two(&mut branch, 46, parts, first);
    }
    close_full(branch, &format!("rule 46, {name}"))
}

/// t, u and a body without index 0, all of weight 4,096: t=u has twice that.
fn heavy_substitutions() -> Shape {
    let mut sheet = Sheet::new(Second::Proof);
    let function = binary(&mut sheet);
    let d = sheet.constant(sheet.given);
    let mut of_c = Terms::new(function, sheet.c);
    let mut of_d = Terms::new(function, d);
    let t = of_c.of_weight(&mut sheet, 4_096);
    let u = of_d.of_weight(&mut sheet, 4_096);
    let sides = [&mut of_c, &mut of_d].map(|terms| terms.of_weight(&mut sheet, 2_047));
    let equation = sheet.w.push(EQUAL, sides[0], sides[1], 0);
    let body = sheet.w.push(NOT, equation, 0, 0);
    substitutions(sheet, [body, t, u, body, body], "heavy body, t and u")
}

/// ¬(index 0 = c) with t and u, each of which makes it weigh 4,096.
fn heavy_instances() -> Shape {
    let mut sheet = Sheet::new(Second::Proof);
    let (given, c) = (sheet.given, sheet.c);
    let function = binary(&mut sheet);
    let d = sheet.constant(given);
    let [t, u] = [c, d].map(|leaf| Terms::new(function, leaf).of_weight(&mut sheet, 4_093));
    let x = sheet.w.push(BOUND, 0, given, 0);
    let [body, with_t, with_u] = [x, t, u].map(|term| {
        let same = sheet.w.push(EQUAL, term, c, 0);
        sheet.w.push(NOT, same, 0, 0)
    });
    substitutions(
        sheet,
        [body, t, u, with_t, with_u],
        "heavy instances by t and u",
    )
}

/// Rule 46 by t and t, the first premise of each node closed by rule 35, whose ¬(t=t) weighs 4,096.
fn heavy_reflexivity() -> Shape {
    let mut sheet = Sheet::new(Second::Proof);
    let mut terms = Terms::new(binary(&mut sheet), sheet.c);
    let t = terms.of_weight(&mut sheet, 2_047);
    let same = sheet.w.push(EQUAL, t, t, 0);
    let not = sheet.w.push(NOT, same, 0, 0);
    let goal = sheet.goal;
    let mut branch = Branch::new(sheet, not);
    let unequal = branch.sheet.w.chain(&[not]);
    let parts = branch.sheet.w.chain(&[goal, t, t, goal, goal]);
    while branch.has_room(3, 1) {
        let closing = branch.sheet.w.push(35, unequal, 0, 0);
        branch.node_beside(46, parts, &[closing], 1);
    }
    close_full(branch, "rules 46 and 35, a heavy term")
}

/// The accepted proofs at the limits.
pub fn edges() -> Vec<Shape> {
    let mut list: Vec<Shape> = CLOSING.map(|rule| closing(rule, MOST_MEMBERS)).collect();
    list.extend([
        in_a_row("first premises", |_| true),
        in_a_row("second premises", |_| false),
        in_a_row("by turns", |number| number.is_multiple_of(2)),
        full(),
        both_full(),
        deepest(),
    ]);
    list.extend(symmetries());
    list.extend([
        heavy_symmetry(true),
        heavy_symmetry(false),
        heavy_type_symmetry(),
        heavy_substitutions(),
        heavy_instances(),
        heavy_reflexivity(),
    ]);
    list
}

/// Proofs of one member too many, which are refused.
pub fn past_members() -> Vec<Shape> {
    CLOSING
        .map(|rule| closing(rule, MOST_MEMBERS + 1))
        .collect()
}
