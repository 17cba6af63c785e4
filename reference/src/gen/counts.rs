//! NamedPatternCnt: which Tags of a generated model are temporary.

use super::plan::Plan;
use super::random::Random;

/// Where the count lies among the Tags of the model's edges.
#[derive(Clone, Copy, Debug)]
enum Place {
    Zero,
    /// A Tag, mostly not the largest.
    AtTag,
    /// One below a Tag, mostly not the smallest.
    BelowTag,
    /// Anywhere from the smallest Tag to the largest.
    Between,
    AtLargest,
    AboveLargest,
    AtLimit,
    Huge,
    /// A number that is near a Tag once its high bytes are cut off.
    HugeNearTag,
}

/// So that about half of the edges are temporary.
const PLACES: [(usize, Place); 9] = [
    (22, Place::Zero),
    (25, Place::AtTag),
    (26, Place::BelowTag),
    (6, Place::Between),
    (5, Place::AtLargest),
    (4, Place::AboveLargest),
    (4, Place::AtLimit),
    (4, Place::Huge),
    (4, Place::HugeNearTag),
];

/// Around the largest Tag.
const LIMITS: [u64; 3] = [127, 128, 129];

/// At the borders of the widths of an integer.
const HUGE: [u64; 10] = [
    255,
    256,
    257,
    0x7FFF,
    0xFFFF,
    0x1_0000,
    0xFFFF_FFFF,
    1 << 32,
    1 << 63,
    u64::MAX,
];

/// A count for the plan's edges.
pub fn named_pattern_count(random: &mut Random, plan: &Plan) -> u64 {
    let edges = plan.nodes.iter().flat_map(|node| &node.pattern_edges);
    let mut tags: Vec<u64> = edges.map(|edge| edge.tag).collect();
    if tags.is_empty() {
        tags.push(1);
    }
    tags.sort_unstable();
    let (smallest, largest) = (tags[0], tags[tags.len() - 1]);
    let tag = *random.pick(&tags);
    let other_than = |random: &mut Random, excluded: u64| {
        let others = tags.iter().copied().filter(|&other| other != excluded);
        let others: Vec<u64> = others.collect();
        match others.is_empty() || random.chance(10) {
            true => tag,
            false => *random.pick(&others),
        }
    };
    match random.weighted(&PLACES) {
        Place::Zero => 0,
        Place::AtTag => other_than(random, largest),
        Place::BelowTag => other_than(random, smallest) - 1,
        Place::Between => random.between(smallest as usize, largest as usize) as u64,
        Place::AtLargest => largest,
        Place::AboveLargest => largest + random.between(1, 3) as u64,
        Place::AtLimit => *random.pick(&LIMITS),
        Place::Huge => *random.pick(&HUGE),
        Place::HugeNearTag => {
            let high = *random.pick(&[1 << 7, 1 << 8, 1 << 16, 1 << 32, 1 << 63]);
            high + *random.pick(&[tag, tag - 1])
        }
    }
}
