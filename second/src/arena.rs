//! Types, terms and formulas, hash-consed: equal structure has one identifier.
//!
//! Typed nodes name their types among their children; the nodes of the derivation check (types dropped)
//! live in the same arena without them, so the two never mix.

use std::collections::HashMap;
use std::hash::{BuildHasherDefault, Hash, Hasher};

pub type Id = u32;

/// No node; also the end of a list of children.
pub const NONE: Id = 0;

/// An application has at most five types and four arguments.
pub const MOST_CHILDREN: usize = 9;

/// What stands at the top of a node. Symbols are told apart by their record number.
#[derive(Clone, Copy, Debug, PartialEq, Eq, Hash)]
pub enum Head {
    Given(u32),
    SetType,
    PairType,
    TypeVariable(u8),
    Constant(u32),
    Bound(u8),
    Pair,
    Product,
    Powerset,
    Choice,
    Application { function: u32, types: u8 },
    Bottom,
    Top,
    And,
    Implies,
    Not,
    All,
    Equal,
    In,
    AllTypes(u8),
}

#[derive(Clone, Copy, Debug, PartialEq, Eq)]
pub struct Node {
    pub head: Head,
    children: [Id; MOST_CHILDREN],
}

impl Hash for Node {
    fn hash<H: Hasher>(&self, state: &mut H) {
        self.head.hash(state);
        for &child in self.children() {
            state.write_u32(child);
        }
    }
}

impl Node {
    pub fn new(head: Head, list: &[Id]) -> Node {
        let mut children = [NONE; MOST_CHILDREN];
        children[..list.len()].copy_from_slice(list);
        Node { head, children }
    }

    pub fn children(&self) -> &[Id] {
        let end = self.children.iter().position(|&c| c == NONE);
        &self.children[..end.unwrap_or(MOST_CHILDREN)]
    }
}

/// What is known of a node without looking into it again.
#[derive(Clone, Copy, Debug)]
pub struct Facts {
    /// The type of a term, `NONE` for all else.
    pub ty: Id,
    /// Bit i: index i is unbound in it.
    pub free: u64,
    /// Bit v: type variable v is in it.
    pub type_variables: u8,
    /// A bit for each constant in it, many constants to one bit: a clear bit says "not in it".
    pub constants: u64,
    pub weight: u64,
}

/// A plain multiplicative hasher: the keys are small and not chosen against it to any effect that matters.
#[derive(Default)]
pub struct Mix(u64);

impl Hasher for Mix {
    fn finish(&self) -> u64 {
        self.0 ^ (self.0 >> 29)
    }
    fn write(&mut self, bytes: &[u8]) {
        for &byte in bytes {
            self.write_u64(byte as u64);
        }
    }
    fn write_u8(&mut self, n: u8) {
        self.write_u64(n as u64);
    }
    fn write_u32(&mut self, n: u32) {
        self.write_u64(n as u64);
    }
    fn write_u64(&mut self, n: u64) {
        self.0 = (self.0.rotate_left(5) ^ n).wrapping_mul(0x9E37_79B9_7F4A_7C15);
        self.0 ^= self.0 >> 32;
    }
    fn write_usize(&mut self, n: usize) {
        self.write_u64(n as u64);
    }
    fn write_isize(&mut self, n: isize) {
        self.write_u64(n as u64);
    }
}

pub type Mixing = BuildHasherDefault<Mix>;

pub struct Arena {
    nodes: Vec<Node>,
    facts: Vec<Facts>,
    known: HashMap<Node, Id, Mixing>,
}

impl Default for Arena {
    fn default() -> Self {
        Arena::new()
    }
}

impl Arena {
    pub fn new() -> Arena {
        let nothing = Facts {
            ty: NONE,
            free: 0,
            type_variables: 0,
            constants: 0,
            weight: 0,
        };
        Arena {
            // Identifier 0 is NONE and never handed out.
            nodes: vec![Node::new(Head::Bottom, &[])],
            facts: vec![nothing],
            known: HashMap::default(),
        }
    }

    pub fn len(&self) -> usize {
        self.nodes.len()
    }

    pub fn is_empty(&self) -> bool {
        self.nodes.len() <= 1
    }

    pub fn node(&self, id: Id) -> Node {
        self.nodes[id as usize]
    }

    pub fn head(&self, id: Id) -> Head {
        self.nodes[id as usize].head
    }

    pub fn children(&self, id: Id) -> &[Id] {
        self.nodes[id as usize].children()
    }

    pub fn child(&self, id: Id, which: usize) -> Id {
        self.nodes[id as usize].children[which]
    }

    pub fn facts(&self, id: Id) -> Facts {
        self.facts[id as usize]
    }

    pub fn ty(&self, id: Id) -> Id {
        self.facts[id as usize].ty
    }

    /// No unbound index and no type variable.
    pub fn is_closed(&self, id: Id) -> bool {
        self.has_no_free_index(id) && self.facts(id).type_variables == 0
    }

    pub fn has_no_free_index(&self, id: Id) -> bool {
        self.facts(id).free == 0
    }

    /// The identifier of a node that is there already.
    pub fn find(&self, node: Node) -> Option<Id> {
        self.known.get(&node).copied()
    }

    /// The identifier of a node, made if need be; `ty` is its type if it is a term.
    pub fn intern(&mut self, node: Node, ty: Id) -> Id {
        if let Some(id) = self.find(node) {
            return id;
        }
        let id = self.nodes.len() as Id;
        let facts = self.facts_of(&node, ty);
        self.nodes.push(node);
        self.facts.push(facts);
        self.known.insert(node, id);
        id
    }

    pub fn not(&mut self, formula: Id) -> Id {
        self.intern(Node::new(Head::Not, &[formula]), NONE)
    }

    pub fn find_not(&self, formula: Id) -> Option<Id> {
        self.find(Node::new(Head::Not, &[formula]))
    }

    /// What stands under the sign, if it is the node's.
    pub fn under(&self, id: Id, sign: Head) -> Option<Id> {
        (self.head(id) == sign).then(|| self.child(id, 0))
    }

    /// The two things that the sign joins, if it is the node's.
    pub fn both(&self, id: Id, sign: Head) -> Option<(Id, Id)> {
        (self.head(id) == sign).then(|| (self.child(id, 0), self.child(id, 1)))
    }

    fn facts_of(&self, node: &Node, ty: Id) -> Facts {
        let mut facts = Facts {
            ty,
            free: 0,
            type_variables: 0,
            constants: 0,
            weight: crate::weight::weight(self, node),
        };
        for &child in node.children() {
            let of_child = self.facts(child);
            facts.free |= of_child.free;
            facts.type_variables |= of_child.type_variables;
            facts.constants |= of_child.constants;
        }
        match node.head {
            Head::Bound(index) => facts.free |= 1 << index,
            Head::TypeVariable(variable) => facts.type_variables |= 1 << variable,
            Head::Constant(record) => facts.constants = constant_bit(record),
            Head::All => facts.free >>= 1,
            _ => {}
        }
        facts
    }

    /// Whether the constant is in one of the roots.
    pub fn occurs(&self, constant: Id, roots: &[Id], seen: &mut Seen) -> bool {
        let Head::Constant(record) = self.head(constant) else {
            return false;
        };
        let bit = constant_bit(record);
        seen.start(self.len());
        let mut stack: Vec<Id> = Vec::new();
        for &root in roots {
            stack.push(root);
            while let Some(id) = stack.pop() {
                if id == constant {
                    return true;
                }
                // Children are older than their parents: nothing older than the constant holds it.
                if id > constant && self.facts(id).constants & bit != 0 && seen.first_visit(id) {
                    stack.extend_from_slice(self.children(id));
                }
            }
        }
        false
    }

    /// For each identifier its counterpart without types: ⊤ as ¬⊥, kind 22 as its formula.
    pub fn erase_all(&mut self) -> Vec<Id> {
        let mut erased = vec![NONE; self.len()];
        for id in 1..erased.len() {
            erased[id] = self.erase(id as Id, &erased);
        }
        erased
    }

    fn erase(&mut self, id: Id, erased: &[Id]) -> Id {
        let node = self.node(id);
        let child = |which: usize| erased[node.children[which] as usize];
        let plain = match node.head {
            Head::Given(_) | Head::SetType | Head::PairType | Head::TypeVariable(_) => return NONE,
            Head::Constant(_) => return id,
            Head::AllTypes(_) => return child(0),
            Head::Top => {
                let bottom = self.intern(Node::new(Head::Bottom, &[]), NONE);
                return self.not(bottom);
            }
            Head::Application { function, types } => {
                let arguments: Vec<Id> = node.children()[types as usize..]
                    .iter()
                    .map(|&argument| erased[argument as usize])
                    .collect();
                Node::new(Head::Application { function, types: 0 }, &arguments)
            }
            Head::All => Node::new(Head::All, &[child(1)]),
            Head::Bound(_) | Head::Bottom => Node::new(node.head, &[]),
            Head::Powerset | Head::Choice | Head::Not => Node::new(node.head, &[child(0)]),
            Head::Pair | Head::Product | Head::And | Head::Implies | Head::Equal | Head::In => {
                Node::new(node.head, &[child(0), child(1)])
            }
        };
        self.intern(plain, NONE)
    }
}

fn constant_bit(record: u32) -> u64 {
    1 << (record.wrapping_mul(0x9E37_79B1) >> 26)
}

/// Which identifiers the search under way has visited; cleared in no time by a new round number.
#[derive(Default)]
pub struct Seen {
    round: u32,
    marks: Vec<u32>,
}

impl Seen {
    fn start(&mut self, len: usize) {
        self.round += 1;
        if self.marks.len() < len {
            self.marks.resize(len, 0);
        }
    }

    fn first_visit(&mut self, id: Id) -> bool {
        let mark = &mut self.marks[id as usize];
        let first = *mark != self.round;
        *mark = self.round;
        first
    }
}
