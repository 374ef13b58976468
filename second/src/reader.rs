//! The places before the walk: length, header, records, roots, naming of rule nodes (refusals 1 to 12).

use crate::arena::{Arena, Head, Id, Node, NONE};
use crate::kinds::*;
use crate::names::{self, Taken};
use crate::typing::{self, Signature};
use crate::words::{self, Record, RECORD_BYTES};
use crate::{weight, Answer};

#[derive(Clone, Copy, Debug, PartialEq, Eq)]
pub enum Second {
    Proof,
    Derivation,
}

const MOST_OBLIGATION_RECORDS: usize = 1_024;
const MOST_PROOF_RECORDS: usize = 3_073;
const MOST_DERIVATION_RECORDS: usize = 200_001;
const MOST_HYPOTHESES: usize = 256;
const MOST_TYPES: u32 = 5;
const MOST_ARGUMENTS: u32 = 4;

/// What differs between the three sorts of files.
#[derive(Clone, Copy)]
struct Sort {
    file: u64,
    most_records: usize,
    most_weight: u64,
    typed: bool,
    is_rule: fn(u32) -> bool,
}

const OBLIGATION: Sort = Sort {
    file: 1,
    most_records: MOST_OBLIGATION_RECORDS,
    most_weight: weight::MOST_IN_PROOFS,
    typed: true,
    is_rule: |_| false,
};

const PROOF: Sort = Sort {
    file: 2,
    most_records: MOST_PROOF_RECORDS,
    most_weight: weight::MOST_IN_PROOFS,
    typed: true,
    is_rule: is_proof_rule,
};

const DERIVATION: Sort = Sort {
    file: 2,
    most_records: MOST_DERIVATION_RECORDS,
    most_weight: weight::MOST_IN_DERIVATIONS,
    typed: false,
    is_rule: is_derivation_rule,
};

/// What a record was read as.
#[derive(Clone, Debug)]
pub enum Item {
    Link(Chain),
    Name { records: u32 },
    Type(Id),
    Term(Id),
    Function(Signature),
    Formula(Id),
    AllTypes(Id),
    Rule,
}

/// What is known of the chain that starts at a link; no chain is read through more than once for it.
#[derive(Clone, Copy, Debug)]
pub struct Chain {
    pub length: u32,
    pub all_types: bool,
    pub all_terms: bool,
}

const EMPTY_CHAIN: Chain = Chain {
    length: 0,
    all_types: true,
    all_terms: true,
};

/// Both files, read through one numbering: record r of either file is `records[r]` and `items[r]`.
pub struct Book {
    pub records: Vec<Record>,
    pub items: Vec<Item>,
    pub arena: Arena,
    pub hypotheses: Vec<Id>,
    /// The header's ¬goal, as an identifier.
    pub negated_goal: Id,
    pub root: u32,
    taken: Taken,
}

/// Reads both files through all places before the walk.
pub fn read(obligation: &[u8], second: &[u8], kind: Second) -> Result<Book, Answer> {
    let mut book = Book::new();
    let header = book.read_file(obligation, OBLIGATION, None)?;
    book.read_obligation_roots(header)
        .ok_or(at_header(OBLIGATION, 11))?;
    let sort = match kind {
        Second::Proof => PROOF,
        Second::Derivation => DERIVATION,
    };
    let header = book.read_file(second, sort, Some(header.a))?;
    book.root = header.b;
    match book.items.get(header.b as usize) {
        Some(Item::Rule) if header.b != 0 => {}
        _ => return Err(at_header(sort, 11)),
    }
    match book.misnamed_rule_node() {
        Some(record) => Err(Answer::new(12, sort.file, record as u64, 0)),
        None => Ok(book),
    }
}

fn at_header(sort: Sort, refusal: u64) -> Answer {
    Answer::new(refusal, sort.file, 0, 0)
}

fn length_is_wrong(bytes: &[u8], sort: Sort) -> bool {
    let size = bytes.len();
    size < RECORD_BYTES
        || !size.is_multiple_of(RECORD_BYTES)
        || size / RECORD_BYTES > sort.most_records
}

impl Book {
    fn new() -> Book {
        Book {
            // Record 0 is no record; a name of no records stands in for it.
            records: vec![Record::new(0, 0, 0, 0)],
            items: vec![Item::Name { records: 0 }],
            arena: Arena::new(),
            hypotheses: Vec::new(),
            negated_goal: NONE,
            root: 0,
            taken: Taken::default(),
        }
    }

    /// Length, header and records of one file; `m` is the obligation's count if this is the second file.
    fn read_file(&mut self, bytes: &[u8], sort: Sort, m: Option<u32>) -> Result<Record, Answer> {
        if length_is_wrong(bytes, sort) {
            return Err(at_header(sort, 1));
        }
        let records = words::records(bytes);
        let header = records[0];
        let right_count = header.a as usize == records.len() - 1;
        if header.kind != 1 || !right_count || m.is_some_and(|m| header.c != m) {
            return Err(at_header(sort, 2));
        }
        for &record in &records[1..] {
            let number = self.records.len() as u64;
            let item = self
                .read_record(record, sort)
                .map_err(|refusal| Answer::new(refusal, sort.file, number, 0))?;
            self.records.push(record);
            self.items.push(item);
        }
        Ok(header)
    }

    /// The next record, tested for refusals 3 to 10 in this order.
    fn read_record(&mut self, record: Record, sort: Sort) -> Result<Item, u64> {
        let known = (LINK..=CHOICE).contains(&record.kind) || (sort.is_rule)(record.kind);
        refuse_if(3, !known)?;
        refuse_if(4, !in_range(record))?;
        refuse_if(5, !self.has_right_references(record))?;
        refuse_if(6, !self.has_right_lengths(record))?;
        let item = self.item(record);
        if let Some(id) = item.id() {
            refuse_if(7, self.arena.facts(id).weight > sort.most_weight)?;
        }
        if let Some(first) = name_of(record) {
            let name = names::spell(&self.name_records(first)).ok_or(8u64)?;
            let free = match record.kind {
                GIVEN => self.taken.take_given_type(name),
                _ => self.taken.take_symbol(name),
            };
            refuse_if(9, !free)?;
        }
        refuse_if(10, sort.typed && !self.is_typed(record, &item))?;
        Ok(item)
    }

    fn is_typed(&self, record: Record, item: &Item) -> bool {
        match item {
            Item::Function(signature) => signature.is_typed(&self.arena),
            Item::Term(id) | Item::Formula(id) => {
                let signature = match self.items.get(record.a as usize) {
                    Some(Item::Function(s)) if record.kind == APPLICATION => Some(s),
                    _ => None,
                };
                typing::is_typed(&self.arena, *id, signature)
            }
            _ => true,
        }
    }

    /// An earlier record's kind. The next record to be read is no earlier one, nor is record 0.
    fn earlier(&self, reference: u32) -> Option<u32> {
        let found = self.records.get(reference as usize).map(|r| r.kind);
        found.filter(|_| reference != 0)
    }

    fn refers(&self, reference: u32, class: fn(u32) -> bool) -> bool {
        self.earlier(reference).is_some_and(class)
    }

    fn chain(&self, reference: u32) -> Option<Chain> {
        match self.items.get(reference as usize) {
            Some(Item::Link(chain)) => Some(*chain),
            _ if reference == 0 => Some(EMPTY_CHAIN),
            _ => None,
        }
    }

    fn has_right_references(&self, Record { kind, a, b, c }: Record) -> bool {
        let ty = |r| self.refers(r, is_type);
        let term = |r| self.refers(r, is_term);
        let formula = |r| self.refers(r, is_formula);
        let name = |r| self.refers(r, |kind| kind == NAME);
        let types = |r| r != 0 && self.chain(r).is_some_and(|chain| chain.all_types);
        match kind {
            LINK => self.earlier(a).is_some() && self.chain(c).is_some(),
            NAME => c == 0 || name(c),
            GIVEN => name(a),
            SET_TYPE => ty(a),
            PAIR_TYPE => ty(a) && ty(b),
            CONSTANT => ty(a) && name(b),
            FUNCTION => types(a) && name(c),
            BOUND => ty(b),
            PAIR | PRODUCT => term(a) && term(b) && ty(c),
            POWERSET | CHOICE => term(a) && ty(b),
            APPLICATION => {
                self.refers(a, |kind| kind == FUNCTION)
                    && types(b)
                    && self.chain(c).is_some_and(|chain| chain.all_terms)
            }
            AND | IMPLIES => formula(a) && formula(b),
            NOT => formula(a),
            ALL => ty(a) && formula(b),
            EQUAL | IN => term(a) && term(b),
            ALL_TYPES => formula(b),
            TYPE_VARIABLE | BOTTOM | TOP => true,
            _ => is_rule(kind) && self.chain(a).is_some() && self.chain(b).is_some(),
        }
    }

    fn has_right_lengths(&self, record: Record) -> bool {
        let length = |r| self.chain(r).map_or(0, |chain| chain.length);
        let name_fits = match name_of(record).map(|first| &self.items[first as usize]) {
            Some(Item::Name { records }) => *records as usize <= names::MOST_RECORDS,
            _ => true,
        };
        let chains_fit = match record.kind {
            FUNCTION => (1..=MOST_TYPES).contains(&length(record.a)),
            APPLICATION => {
                (1..=MOST_TYPES).contains(&length(record.b)) && length(record.c) <= MOST_ARGUMENTS
            }
            _ => true,
        };
        name_fits && chains_fit
    }

    /// The bytes of at most one name record too many.
    fn name_records(&self, first: u32) -> Vec<[u8; names::BYTES_PER_RECORD]> {
        let mut records = Vec::with_capacity(names::MOST_RECORDS);
        let mut next = first;
        while next != 0 && records.len() <= names::MOST_RECORDS {
            let Record { a, b, c, .. } = self.records[next as usize];
            let mut bytes = [0; names::BYTES_PER_RECORD];
            bytes[..4].copy_from_slice(&a.to_le_bytes());
            bytes[4..].copy_from_slice(&b.to_le_bytes());
            records.push(bytes);
            next = c;
        }
        records
    }

    /// The records on a chain, at most so many.
    pub fn on_chain(&self, first: u32, most: usize) -> Vec<u32> {
        let mut list = Vec::new();
        let mut next = first;
        while next != 0 && list.len() < most {
            let link = self.records[next as usize];
            list.push(link.a);
            next = link.c;
        }
        list
    }

    /// The first record on a chain; 0 for the chain 0, as the words of record 0 are 0.
    pub fn first_on_chain(&self, first: u32) -> u32 {
        self.records[first as usize].a
    }

    /// The identifier of a type, term, formula or kind 22.
    fn id(&self, record: u32) -> Id {
        self.items[record as usize].id().unwrap_or(NONE)
    }

    fn ids_on_chain(&self, first: u32) -> Vec<Id> {
        let list = self.on_chain(first, MOST_TYPES as usize);
        list.into_iter().map(|record| self.id(record)).collect()
    }

    /// What the record is, once its references and lengths are right.
    fn item(&mut self, record: Record) -> Item {
        let Record { kind, a, b, c } = record;
        match kind {
            LINK => Item::Link(self.chain_from(a, c)),
            NAME => {
                let after = match self.items[c as usize] {
                    Item::Name { records } => records,
                    _ => 0,
                };
                Item::Name { records: after + 1 }
            }
            FUNCTION => Item::Function(Signature {
                types: self.ids_on_chain(a),
                parameters: b,
            }),
            _ if is_type(kind) => Item::Type(self.interned(record)),
            _ if is_term(kind) => Item::Term(self.interned(record)),
            _ if is_formula(kind) => Item::Formula(self.interned(record)),
            ALL_TYPES => Item::AllTypes(self.interned(record)),
            _ => Item::Rule,
        }
    }

    fn chain_from(&self, item: u32, next: u32) -> Chain {
        let rest = self.chain(next).unwrap_or(EMPTY_CHAIN);
        Chain {
            length: rest.length + 1,
            all_types: rest.all_types && self.refers(item, is_type),
            all_terms: rest.all_terms && self.refers(item, is_term),
        }
    }

    fn interned(&mut self, record: Record) -> Id {
        let number = self.records.len() as u32;
        let Record { kind, a, b, c } = record;
        let none = |head| (Node::new(head, &[]), NONE);
        let one = |head, r| (Node::new(head, &[self.id(r)]), NONE);
        let two = |head| (Node::new(head, &[self.id(a), self.id(b)]), NONE);
        let pairing = |head| {
            let own = self.id(c);
            (Node::new(head, &[self.id(a), self.id(b), own]), own)
        };
        let (node, ty) = match kind {
            GIVEN => none(Head::Given(number)),
            SET_TYPE => one(Head::SetType, a),
            PAIR_TYPE => two(Head::PairType),
            TYPE_VARIABLE => none(Head::TypeVariable(a as u8)),
            CONSTANT => (Node::new(Head::Constant(number), &[]), self.id(a)),
            BOUND => (Node::new(Head::Bound(a as u8), &[self.id(b)]), self.id(b)),
            PAIR => pairing(Head::Pair),
            PRODUCT => pairing(Head::Product),
            POWERSET => (two(Head::Powerset).0, self.id(b)),
            CHOICE => (two(Head::Choice).0, self.id(b)),
            APPLICATION => self.application(record),
            BOTTOM => none(Head::Bottom),
            TOP => none(Head::Top),
            AND => two(Head::And),
            IMPLIES => two(Head::Implies),
            NOT => one(Head::Not, a),
            ALL => two(Head::All),
            EQUAL => two(Head::Equal),
            IN => two(Head::In),
            _ => one(Head::AllTypes(a as u8), b),
        };
        self.arena.intern(node, ty)
    }

    /// The node and its type: own type, type arguments, then arguments.
    fn application(&self, Record { a, b, c, .. }: Record) -> (Node, Id) {
        let mut children = self.ids_on_chain(b);
        let head = Head::Application {
            function: a,
            types: children.len() as u8,
        };
        let own = children[0];
        children.extend(self.ids_on_chain(c));
        (Node::new(head, &children), own)
    }

    /// The hypotheses and the negated goal that the obligation's header names; None is refusal 11.
    fn read_obligation_roots(&mut self, header: Record) -> Option<()> {
        let (head, goal) = (header.b, header.c);
        self.refers(goal, |kind| kind == NOT).then_some(())?;
        self.negated_goal = self.id(goal);
        self.arena.is_closed(self.negated_goal).then_some(())?;
        self.chain(head)?;
        let listed = self.on_chain(head, MOST_HYPOTHESES + 1);
        (listed.len() <= MOST_HYPOTHESES).then_some(())?;
        for record in listed {
            let (id, count) = match self.items[record as usize] {
                Item::Formula(id) => (id, 0),
                Item::AllTypes(id) => (id, self.records[record as usize].a),
                _ => return None,
            };
            let closed =
                self.arena.has_no_free_index(id) && typing::variables_below(&self.arena, id, count);
            closed.then_some(())?;
            self.hypotheses.push(id);
        }
        Some(())
    }

    /// The first rule node that is not named exactly once.
    fn misnamed_rule_node(&self) -> Option<u32> {
        let mut named = vec![0u64; self.records.len()];
        // How many premise chains run over each link: falling, as a chain runs to smaller numbers.
        let mut over = vec![0u64; self.records.len()];
        named[self.root as usize] += 1;
        for number in (1..self.records.len()).rev() {
            let record = self.records[number];
            if is_rule(record.kind) {
                over[record.b as usize] += 1;
            } else if record.kind == LINK && over[number] > 0 {
                named[record.a as usize] += over[number];
                over[record.c as usize] += over[number];
            }
        }
        (1..self.records.len())
            .find(|&number| is_rule(self.records[number].kind) && named[number] != 1)
            .map(|number| number as u32)
    }
}

impl Item {
    pub fn id(&self) -> Option<Id> {
        match *self {
            Item::Type(id) | Item::Term(id) | Item::Formula(id) | Item::AllTypes(id) => Some(id),
            _ => None,
        }
    }
}

fn refuse_if(refusal: u64, fault: bool) -> Result<(), u64> {
    match fault {
        true => Err(refusal),
        false => Ok(()),
    }
}

/// The name that a symbol bears.
fn name_of(Record { kind, a, b, c }: Record) -> Option<u32> {
    match kind {
        GIVEN => Some(a),
        CONSTANT => Some(b),
        FUNCTION => Some(c),
        _ => None,
    }
}

/// Numbers in their range and words that are not listed 0.
fn in_range(Record { kind, a, b, c }: Record) -> bool {
    match kind {
        LINK => b == 0,
        NAME | PAIR | PRODUCT | APPLICATION => true,
        GIVEN | SET_TYPE | NOT => b == 0 && c == 0,
        TYPE_VARIABLE => a <= 3 && b == 0 && c == 0,
        FUNCTION => b <= 4,
        BOUND => a <= 63 && c == 0,
        BOTTOM | TOP => a == 0 && b == 0 && c == 0,
        ALL_TYPES => (1..=4).contains(&a) && c == 0,
        _ => c == 0,
    }
}
