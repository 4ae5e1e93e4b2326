//! Compares four roots at a time with the hardware's. If one of the four numbers has no root, the call must return false
//! and leave every bit as it is.

use crate::operands::{ordinary, subnormal, INFINITY, LEAST_NORMAL, SIGN};
use crate::{estimates, proved};
use reference::random::{pick, Random};
use reference::root;

/// Makes a number, as bits. The second argument has numbers whose estimate fails.
type Kind = fn(&mut Random, &[u64]) -> u64;

/// What one of the four numbers is. The other three are ordinary.
const KINDS: [(&str, Kind); 8] = [
    ("four ordinary numbers", |random, _| ordinary(random)),
    ("a number whose estimate fails", |random, failing| pick(failing, random)),
    ("a subnormal", |random, _| subnormal(random)),
    ("a zero", |random, _| random.bits(1) << 63),
    ("a negative number", |random, _| SIGN | (1 + random.below(INFINITY - 1))),
    ("an infinity", |random, _| (random.bits(1) << 63) | INFINITY),
    ("a NaN", |random, _| (random.bits(1) << 63) | INFINITY | (1 + random.below(LEAST_NORMAL - 1))),
    ("a number at an end of the estimates", |random, _| {
        pick(&estimates::ends(), random) + random.below(5) - 2
    }),
];

/// Compares `count` calls: an equal share for each kind, with a number of that kind in each of the four positions in
/// turn, and a last share in which each of the four numbers is of a random kind.
pub fn compare(count: u64, failing: &[u64]) -> bool {
    let mut random = Random::new(25);
    let each = count / (KINDS.len() as u64 + 1);
    let mixed = count - each * KINDS.len() as u64;
    KINDS.iter().all(|&(what, kind)| {
        same(what, each, |i| {
            let mut bits = [(); 4].map(|()| ordinary(&mut random));
            bits[i as usize % 4] = kind(&mut random, failing);
            bits
        })
    }) && same("four numbers of any kinds", mixed, |_| {
        [(); 4].map(|()| pick(&KINDS, &mut random).1(&mut random, failing))
    })
}

fn same(what: &str, count: u64, mut bits_of_call: impl FnMut(u64) -> [u64; 4]) -> bool {
    let mut refused = 0;
    for i in 0..count {
        let bits = bits_of_call(i);
        let mut numbers = bits.map(f64::from_bits);
        let found = proved::four_roots(&mut numbers);
        let (ours, theirs) = ((found, numbers.map(f64::to_bits)), expected(bits));
        if ours != theirs {
            println!("four roots of {bits:016x?}: proved {ours:016x?}, hardware {theirs:016x?}");
            return false;
        }
        refused += u64::from(!found);
    }
    println!("four roots: {count} calls with {what}, {refused} of them refused, every bit equal");
    true
}

/// Returns true and the four roots, or false and the numbers as they are if one of them has no root.
fn expected(bits: [u64; 4]) -> (bool, [u64; 4]) {
    let roots = bits.map(root::root_bits);
    if roots.contains(&root::REFUSED) {
        (false, bits)
    } else {
        (true, roots)
    }
}
