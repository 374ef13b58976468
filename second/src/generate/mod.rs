//! A generator of cases, each made from a seed alone.
//!
//! A label starts with what is known of the answer: `accepted:`, the refusal's number as in `16:`, or
//! `any:` where nothing is known beforehand.

pub mod big;
pub mod byte_damage;
pub mod choice_limits;
pub mod choices;
pub mod derivations;
pub mod expect;
pub mod expr;
pub mod gadgets;
pub mod limits;
pub mod marks;
pub mod near;
pub mod numbers;
pub mod odd;
pub mod odd_choices;
pub mod proof_limits;
pub mod proofs;
pub mod refute;
pub mod rng;
pub mod root_damage;
pub mod set5;
pub mod spelling;
pub mod tree_damage;
pub mod world;
pub mod writer;

pub use limits::limit_cases;
pub use near::large_cases;

use crate::reader::Second;
use expect::Expect;
use gadgets::{Bench, Place, GADGETS};
use numbers::number_case;
use proofs::{Draft, Shape};
use rng::Rng;
use root_damage::RootDamage;
use tree_damage::TREE_DAMAGE;
use world::World;
use writer::Writer;

#[derive(Clone, Debug)]
pub struct Case {
    pub label: String,
    pub obligation: Vec<u8>,
    pub second: Vec<u8>,
}

pub fn proof_case(seed: u64) -> Case {
    case(Second::Proof, seed)
}

pub fn derivation_case(seed: u64) -> Case {
    case(Second::Derivation, seed)
}

/// What the label promises: the refusal's number, 0 for acceptance; None if nothing is promised.
pub fn promised(label: &str) -> Option<u64> {
    match label.split(':').next() {
        Some("accepted") => Some(0),
        Some(number) => number.parse().ok(),
        None => None,
    }
}

/// One in so many seeds is about the number of parts or premises alone.
const NUMBER_SHARE: u64 = 25;

fn most_records(kind: Second) -> usize {
    match kind {
        Second::Proof => 3_073,
        Second::Derivation => 200_001,
    }
}

/// How the draft is written.
#[derive(Clone, Copy, Default)]
struct Plan {
    /// Which gadget, in the obligation or not, before all else or after.
    gadget: Option<(usize, bool, bool)>,
    roots: Option<RootDamage>,
    /// In percent: expressions written anew though a record is there.
    repeat: usize,
    /// In percent: symbols that the obligation declares though it doesn't use them.
    declare: usize,
}

struct Written {
    obligation: Vec<u8>,
    second: Vec<u8>,
    expect: Option<Expect>,
}

fn case(kind: Second, seed: u64) -> Case {
    let mut rng = Rng::new(seed.wrapping_mul(2) + u64::from(kind == Second::Derivation));
    if seed % NUMBER_SHARE == NUMBER_SHARE - 1 {
        return number_case(kind, seed / NUMBER_SHARE, &mut rng);
    }
    if rng.below(120) == 0 {
        return big_case(kind, &mut rng);
    }
    let mut shape = small_shape(&mut rng);
    loop {
        let attempt = Rng::new(rng.next());
        if let Some(case) = small_case(kind, attempt, shape) {
            return case;
        }
        shape = shape.smaller();
    }
}

fn small_shape(rng: &mut Rng) -> Shape {
    let budget = *rng.pick(&[0, 1, 1, 2, 2, 3, 3, 4, 5, 6, 8, 10, 14]);
    Shape {
        hypotheses: *rng.pick(&[0, 0, 1, 1, 2, 3, 5]),
        depth: *rng.pick(&[1, 1, 2, 2, 3]),
        budget: match rng.below(40) {
            0 => budget * 5,
            _ => budget,
        },
        deep: rng.chance(30),
        weight: *rng.pick(&[40, 40, 60, 60, 100, 100, 100, 700]),
    }
}

fn draft(kind: Second, world: &mut World, shape: Shape) -> Draft {
    match kind {
        Second::Proof => proofs::draft(world, shape),
        Second::Derivation => derivations::draft(world, shape),
    }
}

/// None if it came out too long.
fn small_case(kind: Second, mut rng: Rng, shape: Shape) -> Option<Case> {
    let mut world = World::new(Rng::new(rng.next()));
    let mut draft = draft(kind, &mut world, shape);
    let mut plan = Plan {
        repeat: *rng.pick(&[0, 0, 0, 10, 40, 100]),
        declare: *rng.pick(&[0, 0, 50, 100]),
        ..Plan::default()
    };
    let mut expect = Expect::Accepted;
    let mut what = String::from("whole");
    match rng.below(100) {
        0..=33 => {}
        34..=55 => {
            let (label, damage) = rng.pick(TREE_DAMAGE);
            if let Some(found) = damage(&mut world, &mut draft) {
                expect = found;
                what = label.to_string();
            }
        }
        56..=63 => {
            expect = odd::odd_leaf(&mut world, &mut draft);
            what = String::from("odd leaf");
        }
        64..=79 => {
            let which = rng.below(GADGETS.len());
            plan.gadget = Some((which, rng.chance(40), rng.chance(50)));
            what = GADGETS[which].0.to_string();
        }
        80..=86 => {
            plan.roots = Some(RootDamage::random(&mut rng));
            what = String::from("roots");
        }
        87..=89 => return bytes_case(kind, rng, &world, &draft, plan),
        90..=97 => return words_case(kind, rng, &world, &draft, plan),
        _ => return types_case(kind, rng, &world, &draft, plan),
    }
    let written = write(kind, &mut rng, &world, &draft, plan)?;
    let expect = written.expect.unwrap_or(expect);
    Some(Case {
        label: format!("{} {what}", expect.label()),
        obligation: written.obligation,
        second: written.second,
    })
}

fn bytes_case(
    kind: Second,
    mut rng: Rng,
    world: &World,
    draft: &Draft,
    plan: Plan,
) -> Option<Case> {
    let mut written = write(kind, &mut rng, world, draft, plan)?;
    let expect = byte_damage::bytes_damage(
        &mut rng,
        &mut written.obligation,
        &mut written.second,
        most_records(kind),
    );
    Some(Case {
        label: format!("{} bytes", expect.label()),
        obligation: written.obligation,
        second: written.second,
    })
}

fn words_case(
    kind: Second,
    mut rng: Rng,
    world: &World,
    draft: &Draft,
    plan: Plan,
) -> Option<Case> {
    let mut written = write(kind, &mut rng, world, draft, plan)?;
    let (obligation, second) = (&mut written.obligation, &mut written.second);
    let of_choice = match rng.chance(40) {
        true => byte_damage::choice_damage(&mut rng, kind, obligation, second),
        false => None,
    };
    let label = match of_choice {
        Some(expect) => format!("{} choice's words", expect.label()),
        None => {
            byte_damage::word_damage(&mut rng, obligation, second);
            String::from("any: words")
        }
    };
    Some(Case {
        label,
        obligation: written.obligation,
        second: written.second,
    })
}

fn types_case(
    kind: Second,
    mut rng: Rng,
    world: &World,
    draft: &Draft,
    plan: Plan,
) -> Option<Case> {
    let mut written = write(kind, &mut rng, world, draft, plan)?;
    let m = (written.obligation.len() / 16 - 1) as u32;
    byte_damage::type_damage(&mut rng, &mut written.second, m, &written.obligation);
    // A derivation's types don't count, but a type may grow too heavy.
    Some(Case {
        label: String::from("any: one type"),
        obligation: written.obligation,
        second: written.second,
    })
}

fn big_case(kind: Second, rng: &mut Rng) -> Case {
    let which = rng.below(20);
    let mut shape = Shape {
        hypotheses: rng.below(60),
        depth: 2,
        budget: match (kind, which) {
            (Second::Derivation, 19) => rng.range(2_000, 9_000),
            _ => rng.range(100, 400),
        },
        deep: rng.chance(50),
        weight: *rng.pick(&[60, 200, 700]),
    };
    loop {
        let mut attempt = Rng::new(rng.next());
        let mut world = World::new(Rng::new(attempt.next()));
        let mut plan = Plan::default();
        let (draft, expect, what) = match (kind, which) {
            (Second::Proof, 0..=9) => {
                let (draft, expect) = big::many_members(&mut world);
                (draft, expect, "many members")
            }
            (Second::Derivation, 0..=7) => {
                let depth = *attempt.pick(&[8_000, 8_191, 8_192, 8_193, 8_193, 8_193, 8_194]);
                let (draft, expect) = big::deep(&mut world, depth);
                (draft, expect, "deep")
            }
            (Second::Derivation, 8..=13) => {
                let (draft, expect) = big::many_kept(&mut world);
                (draft, expect, "many kept")
            }
            _ => {
                plan.repeat = *attempt.pick(&[0, 5]);
                (draft(kind, &mut world, shape), Expect::Accepted, "large")
            }
        };
        if let Some(written) = write(kind, &mut attempt, &world, &draft, plan) {
            return Case {
                label: format!("{} {what}", expect.label()),
                obligation: written.obligation,
                second: written.second,
            };
        }
        shape = shape.smaller();
    }
}

/// Writes both files; None if they are too long or too heavy to pass.
fn write(kind: Second, rng: &mut Rng, world: &World, draft: &Draft, plan: Plan) -> Option<Written> {
    let mut w = Writer::new(Rng::new(rng.next()));
    w.repeat = plan.repeat;
    let mut expect = None;
    let mut gadget = |w: &mut Writer, rng: &mut Rng, first: bool, before: bool| {
        let Some((which, in_first, at_start)) = plan.gadget else {
            return;
        };
        if (in_first, at_start) != (first, before) {
            return;
        }
        let place = match (first, kind) {
            (true, _) => Place::Obligation,
            (false, Second::Proof) => Place::Proof,
            (false, Second::Derivation) => Place::Derivation,
        };
        let refusal = (GADGETS[which].1)(&mut Bench { w, rng, place });
        expect = Some(Expect::of(refusal));
    };
    gadget(&mut w, rng, true, true);
    declare(&mut w, rng, world, plan.declare);
    let mut hypotheses: Vec<u32> = draft.hypotheses.iter().map(|h| w.write(world, h)).collect();
    let mut goal = w.write(world, &draft.negated_goal);
    gadget(&mut w, rng, true, false);
    let mut bench = Bench {
        w: &mut w,
        rng,
        place: Place::Obligation,
    };
    let mut from_roots = None;
    match plan.roots {
        Some(RootDamage::Goal(which)) => {
            goal = root_damage::odd_goal(&mut bench, which);
            from_roots = Some(Expect::Refusal(11));
        }
        Some(RootDamage::Hypothesis(which)) => {
            let (item, refusal) = root_damage::odd_hypothesis(&mut bench, which);
            let place = bench.rng.below(hypotheses.len() + 1);
            hypotheses.insert(place, item);
            from_roots = Some(unless_br1(draft, Expect::of(refusal)));
        }
        Some(RootDamage::Many(count)) => {
            let f = bench.bottom();
            let f = bench.push(crate::kinds::IMPLIES, f, f, 0);
            while hypotheses.len() < count {
                hypotheses.push(f);
            }
            let expect = match count > 256 {
                true => Expect::Refusal(11),
                false => Expect::Accepted,
            };
            from_roots = Some(unless_br1(draft, expect));
        }
        _ => {}
    }
    let mut head = w.chain(&hypotheses);
    if let Some(RootDamage::Chain(which)) = plan.roots {
        head = match which {
            0 => goal,
            1 => w.count() + 1 + rng.below(3) as u32,
            2 => rng.word() | 1 << 31,
            _ => 1,
        };
        from_roots = Some(Expect::Refusal(11));
    }
    let most_weight = draft.hypotheses.iter().map(|h| h.weight()).max();
    let heavy = most_weight.unwrap_or(0).max(draft.negated_goal.weight()) > 4_096;
    if w.count() > 1_023 || heavy {
        return None;
    }
    w.end_obligation(kind == Second::Derivation);
    gadget(&mut w, rng, false, true);
    let at = w.tree(world, &draft.tree);
    gadget(&mut w, rng, false, false);
    let mut root = at[0];
    if let Some(RootDamage::Root(which)) = plan.roots {
        let (value, refusal) = match which {
            0 => (0, 11),
            1 => (w.count() + 1 + rng.below(9) as u32, 11),
            2 => (rng.word() | 1 << 31, 11),
            3 => (goal, 11),
            4 => (w.push(crate::kinds::TOP, 0, 0, 0), 11),
            _ if at.len() == 1 => (w.push(crate::kinds::BOTTOM, 0, 0, 0), 11),
            _ => (at[rng.range(1, at.len() - 1)], 12),
        };
        root = value;
        from_roots = Some(Expect::Refusal(refusal));
    }
    let records = w.records.len() - w.m.unwrap_or(0) as usize + 1;
    if records > most_records(kind) {
        return None;
    }
    let (obligation, second) = w.files(head, goal, root);
    Some(Written {
        obligation,
        second,
        expect: from_roots.or(expect),
    })
}

/// With a hypothesis more, BR1 may apply no longer.
fn unless_br1(draft: &Draft, expect: Expect) -> Expect {
    let br1 = draft.tree.nodes.iter().any(|node| node.kind == 64);
    match br1 && expect == Expect::Accepted {
        true => Expect::Any,
        false => expect,
    }
}

/// Some of the symbols, whether the obligation uses them or not.
fn declare(w: &mut Writer, rng: &mut Rng, world: &World, percent: usize) {
    if percent == 0 {
        return;
    }
    for symbol in 0..world.given.len() as u32 {
        if rng.chance(percent) {
            w.given(world, symbol);
        }
    }
    for symbol in 0..world.constants.len().min(40) as u32 {
        if rng.chance(percent) {
            w.constant(world, symbol);
        }
    }
    for symbol in 0..world.functions.len().min(10) as u32 {
        if rng.chance(percent) {
            w.function(world, symbol);
        }
    }
}
