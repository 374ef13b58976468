//! Writing of expressions and trees as records, both files through one numbering.

use super::expr::Expr;
use super::rng::Rng;
use super::world::World;
use crate::arena::Mixing;
use crate::kinds::*;
use crate::words::{to_bytes, Record};
use std::collections::HashMap;

/// One rule node to be: its premises are later nodes of the same tree.
#[derive(Clone, Debug)]
pub struct TreeNode {
    pub kind: u32,
    pub parts: Vec<Expr>,
    pub premises: Vec<usize>,
}

/// A proof or derivation; node 0 is the root.
#[derive(Clone, Debug, Default)]
pub struct Tree {
    pub nodes: Vec<TreeNode>,
}

impl Tree {
    pub fn add(&mut self, kind: u32, parts: Vec<Expr>) -> usize {
        self.nodes.push(TreeNode {
            kind,
            parts,
            premises: Vec::new(),
        });
        self.nodes.len() - 1
    }
}

/// Stands in a premise list for a record that is no rule node.
pub const NO_NODE: usize = usize::MAX;

pub struct Writer {
    /// Record r is `records[r - 1]`.
    pub records: Vec<Record>,
    /// The obligation's count, once it is done.
    pub m: Option<u32>,
    /// How often, in percent, an expression is written anew though a record of it is there.
    pub repeat: usize,
    /// Types are of no account: derivations.
    pub untyped: bool,
    rng: Rng,
    known: HashMap<Expr, Vec<u32>, Mixing>,
    /// Kind 22 records by their formula without types, for parts of derivations.
    polymorphic: HashMap<Expr, Vec<u32>, Mixing>,
    links: HashMap<(u32, u32), u32, Mixing>,
    given: HashMap<u32, u32, Mixing>,
    constants: HashMap<u32, u32, Mixing>,
    functions: HashMap<u32, u32, Mixing>,
}

impl Writer {
    pub fn new(rng: Rng) -> Writer {
        Writer {
            records: Vec::new(),
            m: None,
            repeat: 0,
            untyped: false,
            rng,
            known: HashMap::default(),
            polymorphic: HashMap::default(),
            links: HashMap::default(),
            given: HashMap::default(),
            constants: HashMap::default(),
            functions: HashMap::default(),
        }
    }

    pub fn push(&mut self, kind: u32, a: u32, b: u32, c: u32) -> u32 {
        self.records.push(Record::new(kind, a, b, c));
        self.records.len() as u32
    }

    pub fn count(&self) -> u32 {
        self.records.len() as u32
    }

    /// The chain of these items; 0 if there are none.
    pub fn chain(&mut self, items: &[u32]) -> u32 {
        let mut next = 0;
        for &item in items.iter().rev() {
            next = self.link(item, next);
        }
        next
    }

    fn link(&mut self, item: u32, next: u32) -> u32 {
        let found = self.links.get(&(item, next)).copied();
        match found {
            Some(link) if !self.rng.chance(self.repeat) => link,
            _ => {
                let link = self.push(LINK, item, 0, next);
                self.links.insert((item, next), link);
                link
            }
        }
    }

    pub fn name(&mut self, bytes: &[u8]) -> u32 {
        let mut next = 0;
        for chunk in bytes.chunks(8).rev() {
            let mut eight = [0u8; 8];
            eight[..chunk.len()].copy_from_slice(chunk);
            let low = u32::from_le_bytes([eight[0], eight[1], eight[2], eight[3]]);
            let high = u32::from_le_bytes([eight[4], eight[5], eight[6], eight[7]]);
            next = self.push(NAME, low, high, next);
        }
        next
    }

    /// The bytes of a name that is written.
    pub fn bytes_of(&self, name: u32) -> Vec<u8> {
        let mut bytes = Vec::new();
        let mut next = name;
        while next != 0 {
            let Record { a, b, c, .. } = self.records[next as usize - 1];
            bytes.extend(a.to_le_bytes());
            bytes.extend(b.to_le_bytes());
            next = c;
        }
        bytes.retain(|&byte| byte != 0);
        bytes
    }

    pub fn given(&mut self, world: &World, symbol: u32) -> u32 {
        if let Some(&record) = self.given.get(&symbol) {
            return record;
        }
        let name = self.name(&world.given[symbol as usize]);
        let record = self.push(GIVEN, name, 0, 0);
        self.given.insert(symbol, record);
        record
    }

    pub fn constant(&mut self, world: &World, symbol: u32) -> u32 {
        if let Some(&record) = self.constants.get(&symbol) {
            return record;
        }
        let ty = self.write(world, &world.constants[symbol as usize].ty);
        let name = self.name(&world.constants[symbol as usize].name);
        let record = self.push(CONSTANT, ty, name, 0);
        self.constants.insert(symbol, record);
        record
    }

    pub fn function(&mut self, world: &World, symbol: u32) -> u32 {
        if let Some(&record) = self.functions.get(&symbol) {
            return record;
        }
        let function = &world.functions[symbol as usize];
        let types = self.write_all(world, &function.types);
        let chain = self.chain(&types);
        let name = self.name(&function.name);
        let record = self.push(FUNCTION, chain, function.parameters, name);
        self.functions.insert(symbol, record);
        record
    }

    fn write_all(&mut self, world: &World, list: &[Expr]) -> Vec<u32> {
        list.iter().map(|expr| self.write(world, expr)).collect()
    }

    /// The record of an expression: one that is there, or a new one.
    pub fn write(&mut self, world: &World, expr: &Expr) -> u32 {
        match expr.kind() {
            GIVEN => return self.given(world, expr.number()),
            CONSTANT => return self.constant(world, expr.number()),
            _ => {}
        }
        if !self.rng.chance(self.repeat) {
            if let Some(list) = self.known.get(expr) {
                let which = self.rng.below(list.len());
                return list[which];
            }
        }
        let record = match self.untyped && !is_type(expr.kind()) {
            true => self.write_untyped(world, expr),
            false => self.write_typed(world, expr),
        };
        self.known.entry(expr.clone()).or_default().push(record);
        record
    }

    fn write_typed(&mut self, world: &World, expr: &Expr) -> u32 {
        if expr.is(APPLICATION) {
            let function = self.function(world, expr.number());
            let children = self.write_all(world, expr.children());
            let arguments = self.chain(&children[expr.types()..]);
            let types = self.chain(&children[..expr.types()]);
            return self.push(APPLICATION, function, types, arguments);
        }
        let children = self.write_all(world, expr.children());
        let child = |i: usize| children.get(i).copied().unwrap_or(0);
        match expr.kind() {
            TYPE_VARIABLE => self.push(TYPE_VARIABLE, expr.number(), 0, 0),
            BOUND | ALL_TYPES => self.push(expr.kind(), expr.number(), child(0), 0),
            kind => self.push(kind, child(0), child(1), child(2)),
        }
    }

    /// An expression without types gets types as they come.
    fn write_untyped(&mut self, world: &World, expr: &Expr) -> u32 {
        if expr.is_not(BOTTOM) && self.rng.chance(40) {
            return self.push(TOP, 0, 0, 0);
        }
        let children = self.write_all(world, expr.children());
        let child = |i: usize| children.get(i).copied().unwrap_or(0);
        match expr.kind() {
            APPLICATION => {
                let function = self.function(world, expr.number());
                let arguments = self.chain(&children);
                let count = self.rng.range(1, 5);
                let types: Vec<u32> = (0..count).map(|_| self.some_type(world)).collect();
                let types = self.chain(&types);
                self.push(APPLICATION, function, types, arguments)
            }
            BOUND => {
                let ty = self.some_type(world);
                self.push(BOUND, expr.number(), ty, 0)
            }
            ALL => {
                let ty = self.some_type(world);
                self.push(ALL, ty, child(0), 0)
            }
            PAIR | PRODUCT => {
                let ty = self.some_type(world);
                self.push(expr.kind(), child(0), child(1), ty)
            }
            POWERSET | CHOICE => {
                let ty = self.some_type(world);
                self.push(expr.kind(), child(0), ty, 0)
            }
            kind => self.push(kind, child(0), child(1), 0),
        }
    }

    fn some_type(&mut self, world: &World) -> u32 {
        let first = self.given(world, 0);
        match self.rng.below(8) {
            0 => self.push(SET_TYPE, first, 0, 0),
            1 => {
                let number = self.rng.below(4) as u32;
                self.push(TYPE_VARIABLE, number, 0, 0)
            }
            2 => {
                let symbol = self.rng.below(world.given.len()) as u32;
                self.given(world, symbol)
            }
            _ => first,
        }
    }

    /// Ends the obligation. From here on a derivation's expressions are those without types; the
    /// obligation's records serve them too.
    pub fn end_obligation(&mut self, untyped: bool) {
        self.m = Some(self.count());
        self.untyped = untyped;
        if !untyped {
            return;
        }
        let typed = std::mem::take(&mut self.known);
        let mut typed: Vec<(Expr, Vec<u32>)> = typed.into_iter().collect();
        typed.sort_by(|x, y| x.1.cmp(&y.1));
        for (expr, records) in typed {
            let list = match expr.kind() {
                ALL_TYPES => self.polymorphic.entry(expr.plain()),
                kind if is_type(kind) => self.known.entry(expr),
                _ => self.known.entry(expr.plain()),
            };
            list.or_default().extend(records);
        }
    }

    /// A part of a rule node. In derivations a formula may stand under kind 22.
    fn part(&mut self, world: &World, expr: &Expr) -> u32 {
        let formula = is_formula(expr.kind());
        if self.untyped && formula && self.rng.chance(12) {
            if let Some(list) = self.polymorphic.get(expr) {
                return list[0];
            }
            let inner = self.write(world, expr);
            let count = self.rng.range(1, 4) as u32;
            let record = self.push(ALL_TYPES, count, inner, 0);
            self.polymorphic
                .entry(expr.clone())
                .or_default()
                .push(record);
            return record;
        }
        self.write(world, expr)
    }

    /// The records of all nodes, children first; gives back each node's record.
    pub fn tree(&mut self, world: &World, tree: &Tree) -> Vec<u32> {
        let mut at = vec![0u32; tree.nodes.len()];
        for (number, node) in tree.nodes.iter().enumerate().rev() {
            let parts: Vec<u32> = node
                .parts
                .iter()
                .map(|expr| self.part(world, expr))
                .collect();
            let parts = self.chain(&parts);
            // The obligation's first record is no rule node.
            let record = |p: &usize| at.get(*p).copied().unwrap_or(1);
            let premises: Vec<u32> = node.premises.iter().map(record).collect();
            let premises = self.chain(&premises);
            at[number] = self.push(node.kind, parts, premises, 0);
        }
        at
    }

    /// Both files. `head` and `goal` are the obligation's header words, `root` the second file's.
    pub fn files(&self, head: u32, goal: u32, root: u32) -> (Vec<u8>, Vec<u8>) {
        let m = self.m.unwrap_or(self.count());
        let (first, second) = self.records.split_at(m as usize);
        let obligation = [&[Record::new(1, m, head, goal)], first].concat();
        let n = second.len() as u32;
        let second = [&[Record::new(1, n, root, m)], second].concat();
        (to_bytes(&obligation), to_bytes(&second))
    }
}
