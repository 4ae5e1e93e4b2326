//! The share of the estimates that the exact test does not accept.

use super::{fails, is_estimated, places};
use crate::operands::ordinary;
use reference::random::Random;

/// How many random operands there are, how many random places, and for how many lambdas the stations are visited.
const OPERANDS: u64 = 20_000_000;
const PLACES: u64 = 1_000_000;
const LAMBDAS: u64 = 300;

/// How many roots were estimated, and how many of the estimates were not accepted.
#[derive(Clone, Copy, Default)]
struct Share {
    failed: u64,
    estimated: u64,
}

impl Share {
    fn count(&mut self, x: f64) {
        self.estimated += u64::from(is_estimated(x));
        self.failed += u64::from(fails(x));
    }

    fn value(self) -> f64 {
        self.failed as f64 / self.estimated as f64
    }
}

pub fn print_shares() {
    let random = of_random_operands();
    let by_name = of_places();
    let places = by_name.into_iter().fold(Share::default(), |sum, share| Share {
        failed: sum.failed + share.failed,
        estimated: sum.estimated + share.estimated,
    });
    println!(
        "estimates that fail: {:.1e} of {} random operands, {:.1e} of {} operands of places",
        random.value(),
        random.estimated,
        places.value(),
        places.estimated
    );
    let named = places::NAMES.into_iter().zip(by_name);
    let (name, most) =
        named.max_by(|a, b| a.1.value().total_cmp(&b.1.value())).expect("there are five names");
    println!("  the most for {name}: {:.1e} of {} operands", most.value(), most.estimated);
}

fn of_random_operands() -> Share {
    let mut random = Random::new(18);
    let mut share = Share::default();
    (0..OPERANDS).for_each(|_| share.count(f64::from_bits(ordinary(&mut random))));
    share
}

/// Returns the shares for each of the names in `places::NAMES`.
fn of_places() -> [Share; places::NAMES.len()] {
    let mut random = Random::new(19);
    let mut shares = [Share::default(); places::NAMES.len()];
    let mut count = |i: usize, x: f64| shares[i].count(x);
    places::visit_random(PLACES, &mut random, &mut count);
    places::visit_stations(LAMBDAS, &mut random, &mut count);
    shares
}
