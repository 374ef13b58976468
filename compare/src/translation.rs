//! What a translation must answer, and what it must leave in its buffer. How an accepted proof's derivation is made is of no
//! account here but for its length: the second implementation's derivation check tells whether it is right.

use crate::desk;
use crate::tally::{hex, LARGE, MOST_SHOWN};
use crate::threads::Counts;
use second::kinds::is_proof_rule;
use second::reader::Second;
use second::words::{records, RECORD_BYTES};
use second::{check_counting, check_derivation, Answer, RuleCounts};

/// A buffer of so many bytes is never too short.
pub const MOST_ROOM: usize = RECORD_BYTES * (1 + 64 * 3_073);
const TOO_SHORT: u64 = 19;
const FIRST_RULE: usize = 32;
const RULES: usize = 15;
/// Records that are written for a rule node of each kind, from 32 on, and at the end.
const BLOCKS: [usize; RULES] = [1, 7, 6, 6, 17, 10, 10, 15, 16, 14, 21, 18, 9, 5, 17];
const START: usize = 5;
/// Bytes after the buffer that are looked at too.
const BEHIND: usize = 1_024;

/// The least size of a buffer that is not too short for a proof.
pub fn room(proof: &[u8]) -> usize {
    RECORD_BYTES * (1 + 64 * (after_header(proof) + 1))
}

/// The length of an accepted proof's derivation.
pub fn length(proof: &[u8]) -> usize {
    let kinds = records(proof).into_iter().skip(1).map(|r| r.kind);
    let nodes = kinds.filter(|&kind| is_proof_rule(kind));
    let blocks: usize = nodes.map(|kind| BLOCKS[kind as usize - FIRST_RULE]).sum();
    RECORD_BYTES * (1 + after_header(proof) + blocks + START)
}

fn after_header(proof: &[u8]) -> usize {
    (proof.len() / RECORD_BYTES).saturating_sub(1)
}

/// The derivation of an accepted proof.
pub fn translated(obligation: &[u8], proof: &[u8]) -> Vec<u8> {
    let mut buffer = vec![0; room(proof)];
    let (answer, length) = desk::translate(obligation, proof, &mut buffer);
    assert!(answer.is_accepted(), "the translation answers {answer}");
    buffer.truncate(length as usize);
    buffer
}

/// An obligation and a proof, with the second implementation's answer and how many nodes of each rule it walked.
pub struct Pair<'a> {
    pub label: String,
    pub obligation: &'a [u8],
    pub proof: &'a [u8],
    pub answer: Answer,
    rules: RuleCounts,
}

impl<'a> Pair<'a> {
    pub fn new(label: &str, obligation: &'a [u8], proof: &'a [u8]) -> Pair<'a> {
        let (answer, rules) = check_counting(obligation, proof, Second::Proof);
        Pair {
            label: label.to_string(),
            obligation,
            proof,
            answer,
            rules,
        }
    }

    /// The answer and the length that are right with a buffer of so many bytes.
    pub fn wanted(&self, size: usize) -> (Answer, usize) {
        match (self.answer.is_accepted(), size < room(self.proof)) {
            (false, _) => (self.answer, 0),
            (true, true) => (Answer::new(TOO_SHORT, 2, 0, self.answer.nodes), 0),
            (true, false) => (self.answer, length(self.proof)),
        }
    }
}

/// Bytes with a pattern, some of which are lent as a buffer.
#[derive(Default)]
struct Area {
    bytes: Vec<u8>,
    pattern: Vec<u8>,
}

impl Area {
    fn lend(&mut self, from: usize, size: usize) -> &mut [u8] {
        let known = self.pattern.len();
        let more = known..known.max(from + size + BEHIND);
        self.pattern
            .extend(more.map(|place| (place * 37 + place / 256 + 101) as u8));
        self.bytes.extend_from_slice(&self.pattern[known..]);
        &mut self.bytes[from..from + size]
    }

    /// The bytes before the buffer, and those from its first `written` on up to some behind it, are those of the pattern.
    fn is_kept(&self, from: usize, size: usize, written: usize) -> bool {
        let after = from + written..from + size + BEHIND;
        self.bytes[..from] == self.pattern[..from]
            && self.bytes[after.clone()] == self.pattern[after]
    }

    fn restore(&mut self, end: usize) {
        self.bytes[..end].copy_from_slice(&self.pattern[..end]);
    }
}

/// Calls of the translation: what they count and which were wrong.
#[derive(Default)]
pub struct Trials {
    /// Pairs whose proof is accepted, and those whose is refused.
    pub accepted: u64,
    pub refused: u64,
    /// Calls that wrote a derivation, and calls with a buffer that is too short for an accepted proof.
    pub written: u64,
    pub short: u64,
    /// Rule nodes of each kind, from 32 on, in accepted proofs.
    pub rules: [u64; RULES],
    /// Most nodes of an accepted proof, and how many proofs have at least [`LARGE`].
    pub most_nodes: u64,
    pub large: u64,
    /// Most bytes of a derivation.
    pub longest: usize,
    faults: u64,
    shown: Vec<String>,
    area: Area,
}

impl Trials {
    /// A call with a buffer of each of these sizes, at that place of a larger area.
    pub fn pair(&mut self, pair: &Pair, from: usize, sizes: &[usize]) {
        match pair.answer.is_accepted() {
            true => self.count_accepted(pair),
            false => self.refused += 1,
        }
        for &size in sizes {
            let (wanted, length) = pair.wanted(size);
            self.written += u64::from(wanted.is_accepted());
            self.short += u64::from(wanted.refusal == TOO_SHORT);
            self.longest = self.longest.max(length);
            match self.call(pair, from, size, (wanted, length)) {
                Ok(()) => self.area.restore(from + length),
                Err(fault) => {
                    self.area.restore(from + size + BEHIND);
                    self.faults += 1;
                    self.show(pair, size, &fault);
                }
            }
        }
    }

    fn count_accepted(&mut self, pair: &Pair) {
        self.accepted += 1;
        self.most_nodes = self.most_nodes.max(pair.answer.nodes);
        self.large += u64::from(pair.answer.nodes >= LARGE);
        for (mine, more) in self.rules.iter_mut().zip(&pair.rules[FIRST_RULE..]) {
            *mine += more;
        }
    }

    /// One call; what is wrong about it.
    fn call(
        &mut self,
        pair: &Pair,
        from: usize,
        size: usize,
        (wanted, length): (Answer, usize),
    ) -> Result<(), String> {
        let buffer = self.area.lend(from, size);
        let (found, written) = desk::translate(pair.obligation, pair.proof, buffer);
        if found != wanted {
            return Err(format!("{wanted} is wanted, the proved code gives {found}"));
        }
        if written != length as u64 {
            return Err(format!("length {length} is wanted, {written} is given"));
        }
        if !self.area.is_kept(from, size, length) {
            return Err(format!("{found}: a byte past length {length} is changed"));
        }
        if !wanted.is_accepted() {
            return Ok(());
        }
        let derivation = &self.area.bytes[from..from + length];
        let checked = check_derivation(pair.obligation, derivation);
        match checked.is_accepted() {
            true => Ok(()),
            false => Err(format!("the derivation is answered by {checked}")),
        }
    }

    fn show(&mut self, pair: &Pair, size: usize, fault: &str) {
        if self.shown.len() < MOST_SHOWN {
            let [obligation, proof] = [pair.obligation, pair.proof].map(hex);
            self.shown.push(format!(
                "{}, a buffer of {size} bytes: {fault}\n  ob {obligation}\n  second {proof}",
                pair.label
            ));
        }
    }

    /// Prints the counts; panics if a call was wrong.
    pub fn report(&self, what: &str) {
        println!(
            "{what}: {} accepted proofs (up to {} nodes, {} of {LARGE} and more; nodes by rule {:?}), {} refused; \
             {} derivations of up to {} bytes, {} buffers too short",
            self.accepted,
            self.most_nodes,
            self.large,
            self.rules,
            self.refused,
            self.written,
            self.longest,
            self.short
        );
        assert!(
            self.accepted + self.refused > 0,
            "{what}: no pair was tried"
        );
        assert!(
            self.faults == 0,
            "{what}: {} calls are wrong\n{}",
            self.faults,
            self.shown.join("\n")
        );
    }
}

impl Counts for Trials {
    fn add(&mut self, other: Trials) {
        self.accepted += other.accepted;
        self.refused += other.refused;
        self.written += other.written;
        self.short += other.short;
        self.faults += other.faults;
        self.large += other.large;
        self.most_nodes = self.most_nodes.max(other.most_nodes);
        self.longest = self.longest.max(other.longest);
        for (mine, theirs) in self.rules.iter_mut().zip(other.rules) {
            *mine += theirs;
        }
        self.shown.extend(other.shown);
    }

    fn too_many(&self) -> bool {
        self.shown.len() >= MOST_SHOWN
    }
}
