//! The exact test beside the hardware's root.

use super::{ends, estimated_root, is_estimated, is_root};
use crate::operands::very_near_middle;
use reference::random::Random;
use std::iter::repeat_with;

/// Checks the exact test on `count` random operands between the two ends, and on as many with a root very near a
/// middle.
pub fn check(count: usize) -> bool {
    let mut random = Random::new(21);
    let [low, high] = ends();
    let between = repeat_with(|| low + 1 + random.below(high - low - 1)).map(f64::from_bits);
    let mut random = Random::new(26);
    let near = repeat_with(|| very_near_middle(&mut random)).map(f64::from_bits);
    is_right("random operands", between.take(count))
        && is_right("operands with roots very near middles", near.filter(|&x| is_estimated(x)).take(count))
}

/// Reports whether the exact test accepts every root and nothing else: no other estimate, no neighbour of the root, and
/// no root with a flipped bit.
fn is_right(what: &str, operands: impl Iterator<Item = f64>) -> bool {
    let mut random = Random::new(27);
    let (mut count, mut right) = (0, 0);
    for x in operands {
        let (estimate, root) = (estimated_root(x), x.sqrt());
        let flipped = f64::from_bits(root.to_bits() ^ (1 << random.below(64)));
        for tested in [estimate, root, root.next_down(), root.next_up(), flipped] {
            if is_root(x, tested) != (tested == root) {
                println!("exact test for {x:e}: it is wrong about {tested:e}; the root is {root:e}");
                return false;
            }
        }
        count += 1;
        right += u64::from(estimate == root);
    }
    println!(
        "exact test: {count} {what}, {right} estimates are the root, every root accepted and nothing else"
    );
    true
}
