//! The cases D1 to D12 from their words, with their listings, and inputs for readings that need many records.

use second::words::{to_bytes, Record};
use second::{check_derivation, check_proof, listing, Answer};

type Words = [u32; 4];

fn file(words: &[Words]) -> Vec<u8> {
    let records: Vec<Record> = words
        .iter()
        .map(|&[k, a, b, c]| Record::new(k, a, b, c))
        .collect();
    to_bytes(&records)
}

fn answer(numbers: [u64; 4]) -> Answer {
    Answer::new(numbers[0], numbers[1], numbers[2], numbers[3])
}

const D1_OBLIGATION: [Words; 7] = [
    [1, 6, 0, 6],
    [2, 83, 0, 0],
    [3, 1, 0, 0],
    [9, 0, 2, 0],
    [20, 3, 3, 0],
    [19, 2, 4, 0],
    [18, 5, 0, 0],
];

const D1_PROOF: [Words; 12] = [
    [1, 11, 17, 6],
    [2, 99, 0, 0],
    [7, 2, 7, 0],
    [20, 8, 8, 0],
    [18, 9, 0, 0],
    [1, 10, 0, 0],
    [35, 11, 0, 0],
    [1, 9, 0, 0],
    [1, 8, 0, 13],
    [1, 6, 0, 14],
    [1, 12, 0, 0],
    [43, 15, 16, 0],
];

/// D1's proof with one record changed; record 0 is the header.
fn d1_with(record: usize, words: Words) -> Vec<u8> {
    let mut proof = D1_PROOF;
    let place = if record == 0 { 0 } else { record - 6 };
    proof[place] = words;
    file(&proof)
}

/// D1's proof as each of D1 to D11 has it.
fn d1_to_d11() -> [Vec<u8>; 11] {
    [
        file(&D1_PROOF),
        d1_with(0, [1, 11, 12, 6]),
        d1_with(13, [1, 4, 0, 0]),
        d1_with(12, [36, 11, 0, 0]),
        d1_with(12, [34, 11, 0, 0]),
        d1_with(9, [20, 8, 2, 0]),
        d1_with(7, [2, 83, 0, 0]),
        d1_with(7, [2, 99, 1, 0]),
        d1_with(7, [2, 35_267, 0, 0]),
        d1_with(7, [2, 8_506_437, 0, 0]),
        file(&D1_PROOF)[..15].to_vec(),
    ]
}

const D12_OBLIGATION: [Words; 9] = [
    [1, 8, 0, 8],
    [2, 83, 0, 0],
    [3, 1, 0, 0],
    [2, 99, 0, 0],
    [7, 2, 3, 0],
    [9, 0, 2, 0],
    [20, 5, 4, 0],
    [19, 2, 6, 0],
    [18, 7, 0, 0],
];

const D12_PROOF: [Words; 10] = [
    [1, 9, 17, 8],
    [20, 4, 4, 0],
    [18, 9, 0, 0],
    [1, 10, 0, 0],
    [35, 11, 0, 0],
    [1, 9, 0, 0],
    [1, 4, 0, 13],
    [1, 8, 0, 14],
    [1, 12, 0, 0],
    [43, 15, 16, 0],
];

/// Each of D1 to D12 as (name, obligation, proof).
fn d1_to_d12() -> Vec<(String, Vec<u8>, Vec<u8>)> {
    let obligations = [vec![file(&D1_OBLIGATION); 11], vec![file(&D12_OBLIGATION)]].concat();
    let proofs = [&d1_to_d11()[..], &[file(&D12_PROOF)]].concat();
    (1..)
        .zip(obligations.into_iter().zip(proofs))
        .map(|(number, (obligation, proof))| (format!("D{number}"), obligation, proof))
        .collect()
}

#[test]
fn d_cases() {
    let wanted = [
        [0, 0, 0, 2],
        [12, 2, 12, 0],
        [15, 2, 17, 1],
        [13, 2, 12, 2],
        [14, 2, 12, 2],
        [5, 2, 9, 0],
        [0, 0, 0, 2],
        [8, 2, 8, 0],
        [0, 0, 0, 2],
        [0, 0, 0, 2],
        [1, 2, 0, 0],
        [16, 2, 17, 1],
    ];
    for ((name, obligation, proof), numbers) in d1_to_d12().into_iter().zip(wanted) {
        assert_eq!(check_proof(&obligation, &proof), answer(numbers), "{name}");
    }
}

#[test]
fn d_listings() {
    let wanted = [
        "tree 1\n0 17 43 6\n1 12 35 10\n",
        "tree 1\nrefused 12 2 12 0\n",
        "tree 1\n0 17 43 6\nrefused 15 2 17 1\n",
        "tree 1\n0 17 43 6\n1 12 36 10\nrefused 13 2 12 2\n",
        "tree 1\n0 17 43 6\n1 12 34 10\nrefused 14 2 12 2\n",
        "tree 1\nrefused 5 2 9 0\n",
        "tree 1\n0 17 43 6\n1 12 35 10\n",
        "tree 1\nrefused 8 2 8 0\n",
        "tree 1\n0 17 43 6\n1 12 35 10\n",
        "tree 1\n0 17 43 6\n1 12 35 10\n",
        "tree 1\nrefused 1 2 0 0\n",
        "tree 1\n0 17 43 8\nrefused 16 2 17 1\n",
    ];
    for ((name, obligation, proof), lines) in d1_to_d12().into_iter().zip(wanted) {
        let found = String::from_utf8(listing(&obligation, &proof));
        assert_eq!(found.as_deref(), Ok(lines), "{name}");
    }
}

/// ⊥ is goal and hypothesis, `hypotheses` times; further hypotheses are ⊥∧⊥ and ¬¬⊥, once each.
fn obligation(hypotheses: u32) -> Vec<Words> {
    let mut words = vec![
        [1, 0, 0, 2],
        [14, 0, 0, 0],
        [18, 1, 0, 0],
        [16, 1, 1, 0],
        [18, 2, 0, 0],
        [1, 3, 0, 0],
        [1, 4, 0, 5],
    ];
    for _ in 0..hypotheses {
        let next = words.len() as u32 - 1;
        words.push([1, 1, 0, next]);
    }
    let m = words.len() as u32 - 1;
    words[0] = [1, m, m, 2];
    words
}

const AND: u32 = 3;
const NOT_NOT: u32 = 4;

/// A second file in the making: nodes are written from the leaf down.
struct Second {
    m: u32,
    words: Vec<Words>,
}

impl Second {
    fn new(m: u32) -> Second {
        Second {
            m,
            words: vec![[0; 4]],
        }
    }

    fn push(&mut self, words: Words) -> u32 {
        self.words.push(words);
        self.m + self.words.len() as u32 - 1
    }

    fn chain(&mut self, items: &[u32]) -> u32 {
        items
            .iter()
            .rev()
            .fold(0, |next, &item| self.push([1, item, 0, next]))
    }

    fn node(&mut self, kind: u32, parts: &[u32], premises: &[u32]) -> u32 {
        let parts = self.chain(parts);
        let premises = self.chain(premises);
        self.push([kind, parts, premises, 0])
    }

    fn bytes(mut self, root: u32) -> Vec<u8> {
        let n = self.words.len() as u32 - 1;
        self.words[0] = [1, n, root, self.m];
        file(&self.words)
    }
}

/// A36, A37: in proofs 17 is the parent's, before any premise is entered, also where the first premise by
/// itself would be refused for something else.
#[test]
fn too_many_members_is_the_parents() {
    let ob = obligation(250);
    let m = ob.len() as u32 - 1;
    // 252 hypotheses and ¬⊥ are 253 members; 385 times ∧ make 1,023, and a ¬¬ one more.
    for (extra, cut_passes) in [(0, true), (1, false)] {
        let mut p = Second::new(m);
        // A first premise that is wrong in itself: 34 without its part.
        let wrong = p.node(34, &[], &[]);
        let right = p.node(32, &[], &[]);
        let cut = p.node(37, &[1], &[wrong, right]);
        let mut at = cut;
        for _ in 0..extra {
            at = p.node(38, &[NOT_NOT], &[at]);
        }
        for _ in 0..385 {
            at = p.node(39, &[AND], &[at]);
        }
        let found = check_proof(&file(&ob), &p.bytes(at));
        let wanted = match cut_passes {
            true => Answer::new(13, 2, wrong as u64, 387),
            false => Answer::new(17, 2, cut as u64, 387),
        };
        assert_eq!(found, wanted, "extra {extra}");
    }
}

/// 17 in derivations: the goal is no member (A52), BR2's parts count each (A43, A44), the parent is refused.
#[test]
fn members_of_derivations() {
    let ob = obligation(1);
    let m = ob.len() as u32 - 1;
    for (kept, wanted) in [(2_048, 0), (2_049, 17)] {
        let mut d = Second::new(m);
        let leaf = d.node(66, &[], &[]);
        let root = d.node(65, &vec![1; kept], &[leaf]);
        let found = check_derivation(&file(&ob), &d.bytes(root));
        match wanted {
            0 => assert_eq!(found, Answer::accepted(2)),
            _ => assert_eq!(found, Answer::new(17, 2, root as u64, 1)),
        }
    }
    // 2,047 and one added by BR4 pass; 2,048 and one do not, though the first premise adds none.
    for (kept, passes) in [(2_047, true), (2_048, false)] {
        let mut d = Second::new(m);
        let second = d.node(66, &[], &[]);
        let first = d.node(66, &[], &[]);
        let br4 = d.node(67, &[1], &[first, second]);
        let root = d.node(65, &vec![1; kept], &[br4]);
        let found = check_derivation(&file(&ob), &d.bytes(root));
        match passes {
            true => assert_eq!(found, Answer::accepted(4)),
            false => assert_eq!(found, Answer::new(17, 2, br4 as u64, 2)),
        }
    }
}

/// A43: what BR2 does not name is gone, and comes back in the other branch.
#[test]
fn br2_drops_for_its_branch_only() {
    let ob = obligation(1);
    let m = ob.len() as u32 - 1;
    let mut d = Second::new(m);
    // R1-like: BR4 on ⊥∧⊥; first branch keeps ⊥ only and derives ⊥∧⊥ by R1, second still has all.
    let (l, r) = (d.node(64, &[], &[]), d.node(64, &[], &[]));
    let r1 = d.node(70, &[], &[l, r]);
    let kept = d.node(65, &[1, 1], &[r1]);
    let member = d.node(66, &[], &[]);
    let r2 = d.node(71, &[AND], &[member]);
    let root = d.node(67, &[AND], &[kept, r2]);
    assert_eq!(
        check_derivation(&file(&ob), &d.bytes(root)),
        Answer::accepted(7)
    );
    let mut d = Second::new(m);
    let member = d.node(66, &[], &[]);
    let r2 = d.node(71, &[AND], &[member]);
    let root = d.node(65, &[1, NOT_NOT], &[r2]);
    let found = check_derivation(&file(&ob), &d.bytes(root));
    assert_eq!(found, Answer::new(14, 2, member as u64, 3));
}

/// A38: 18 is the last test of a node, and each node on the branch counts.
#[test]
fn depth_of_derivations() {
    let ob = obligation(1);
    let m = ob.len() as u32 - 1;
    let branch = |length: usize, kind: u32, parts: &[u32]| {
        let mut d = Second::new(m);
        let leaf = d.node(kind, parts, &[]);
        let mut at = leaf;
        let keep = d.chain(&[1]);
        for _ in 1..length {
            let premise = d.chain(&[at]);
            at = d.push([65, keep, premise, 0]);
        }
        (check_derivation(&file(&ob), &d.bytes(at)), leaf as u64)
    };
    assert_eq!(branch(8_192, 66, &[]).0, Answer::accepted(8_192));
    let (found, leaf) = branch(8_193, 66, &[]);
    assert_eq!(found, Answer::new(18, 2, leaf, 8_193));
    let (found, leaf) = branch(8_193, 66, &[1]);
    assert_eq!(found, Answer::new(13, 2, leaf, 8_193));
    let (found, leaf) = branch(8_193, 64, &[]);
    assert_eq!(found, Answer::new(18, 2, leaf, 8_193));
    let (found, leaf) = branch(8_193, 68, &[]);
    assert_eq!(found, Answer::new(13, 2, leaf, 8_193));
}

/// A full proof file and a full derivation file take no time to speak of.
#[test]
fn full_files() {
    let ob = obligation(1);
    let m = ob.len() as u32 - 1;
    let mut d = Second::new(m);
    // A comb: at each of 8,190 levels BR4 with a short first premise.
    let keep = d.chain(&[1]);
    let part = d.chain(&[1]);
    let mut at = d.push([66, 0, 0, 0]);
    for _ in 0..4_095 {
        let side = d.push([66, 0, 0, 0]);
        let premises = d.chain(&[side, at]);
        at = d.push([67, part, premises, 0]);
        let premise = d.chain(&[at]);
        at = d.push([65, keep, premise, 0]);
    }
    while d.words.len() < 200_001 {
        d.push([16, 1, 1, 0]);
    }
    let bytes = d.bytes(at);
    let start = std::time::Instant::now();
    assert_eq!(
        check_derivation(&file(&ob), &bytes),
        Answer::accepted(1 + 3 * 4_095)
    );
    println!("full derivation: {:?}", start.elapsed());
    assert!(start.elapsed().as_secs() < 5);
}

/// Records shared over and over: weight 4,096 at each of thousands of uses, and nothing explodes.
#[test]
fn shared_records() {
    let ob = obligation(1);
    let m = ob.len() as u32 - 1;
    let mut d = Second::new(m);
    // ∀ over a formula doubled up to weight 8,191 and more, each used as a part.
    let name = d.push([2, 83, 0, 0]);
    let ty = d.push([3, name, 0, 0]);
    let cname = d.push([2, 99, 0, 0]);
    let c = d.push([7, ty, cname, 0]);
    let x = d.push([9, 0, ty, 0]);
    let mut open = d.push([20, x, x, 0]);
    let mut closed = d.push([20, c, c, 0]);
    for _ in 0..10 {
        open = d.push([16, open, open, 0]);
        closed = d.push([16, closed, closed, 0]);
    }
    let over = d.push([19, ty, open, 0]);
    let leaf = d.push([66, 0, 0, 0]);
    let mut at = leaf;
    let parts = d.chain(&[over, c]);
    let back = d.chain(&[c, closed]);
    // R8 and R7 in turn: goal B(c), ∀B, B(c), ...
    for _ in 0..2_000 {
        let premise = d.chain(&[at]);
        at = d.push([77, back, premise, 0]);
        let premise = d.chain(&[at]);
        at = d.push([78, parts, premise, 0]);
    }
    // BR4 brings the goal in; its premise ends at a leaf that has no such member.
    let side = d.push([66, 0, 0, 0]);
    let premises = d.chain(&[at, side]);
    let part = d.chain(&[closed]);
    let root = d.push([67, part, premises, 0]);
    let start = std::time::Instant::now();
    let found = check_derivation(&file(&ob), &d.bytes(root));
    println!("shared: {:?}", start.elapsed());
    assert_eq!(found, Answer::new(14, 2, leaf as u64, 4_002));
    assert!(start.elapsed().as_secs() < 5);
}
