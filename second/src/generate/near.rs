//! Large accepted proofs and derivations, and near misses of each: the same one with a single thing changed.

use super::big::{many_kept, many_members};
use super::expect::Expect;
use super::proofs::{Draft, Shape};
use super::rng::Rng;
use super::tree_damage::TREE_DAMAGE;
use super::world::World;
use super::{draft, write, Case, Plan};
use crate::reader::Second;

/// Near misses of each accepted one.
const MISSES: usize = 7;

/// A proof or derivation of hundreds of nodes that is accepted, and near misses of it. One in ten is of about as many
/// members as there may be, and refused where they are more.
pub fn large_cases(kind: Second, seed: u64) -> Vec<Case> {
    let mut rng = Rng::new(!seed);
    let many = rng.chance(10);
    let mut shape = large_shape(&mut rng);
    loop {
        let mut world = World::new(Rng::new(rng.next()));
        let (draft, expect) = match (many, kind) {
            (true, Second::Proof) => many_members(&mut world),
            (true, Second::Derivation) => many_kept(&mut world),
            (false, _) => (draft(kind, &mut world, shape), Expect::Accepted),
        };
        if let Some(whole) = written(kind, &mut rng, &world, &draft, expect, "large") {
            let misses = match expect {
                Expect::Accepted => MISSES,
                _ => 0,
            };
            let near = (0..misses).filter_map(|_| near_miss(kind, &mut rng, &mut world, &draft));
            return std::iter::once(whole).chain(near).collect();
        }
        shape = shape.smaller();
    }
}

fn large_shape(rng: &mut Rng) -> Shape {
    Shape {
        hypotheses: rng.below(40),
        depth: *rng.pick(&[1, 2]),
        budget: rng.range(200, 700),
        deep: rng.chance(50),
        weight: *rng.pick(&[40, 60, 200]),
    }
}

/// None if it came out too long, or the change can't be made.
fn near_miss(kind: Second, rng: &mut Rng, world: &mut World, draft: &Draft) -> Option<Case> {
    let (what, damage) = rng.pick(TREE_DAMAGE);
    let mut changed = draft.clone();
    let expect = damage(world, &mut changed)?;
    written(
        kind,
        rng,
        world,
        &changed,
        expect,
        &format!("large, {what}"),
    )
}

/// The case as it comes out; None if it is too long.
pub fn written(
    kind: Second,
    rng: &mut Rng,
    world: &World,
    draft: &Draft,
    expect: Expect,
    what: &str,
) -> Option<Case> {
    let plan = Plan {
        repeat: *rng.pick(&[0, 0, 5]),
        ..Plan::default()
    };
    let written = write(kind, rng, world, draft, plan)?;
    Some(Case {
        label: format!("{} {what}", expect.label()),
        obligation: written.obligation,
        second: written.second,
    })
}
