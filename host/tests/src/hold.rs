//! Runs cases, and finds the smallest one that fails.

use std::fmt::Debug;
use std::time::{Duration, Instant};

use crate::random::Random;

/// How long the smallest case is looked for.
const PATIENCE: Duration = Duration::from_secs(60);

/// A case of a test: how to make one, which are a step smaller, and what running it shows.
pub trait Case: Clone + Debug {
    /// What a run that holds has to tell.
    type Seen;

    /// The case with this place among the cases.
    fn make(random: &Random, place: u64) -> Self;

    /// Cases a step smaller, the boldest step first.
    fn smaller(&self) -> Vec<Self>;

    /// Runs the case, and says what does not hold, where something does not.
    fn run(&self) -> Result<Self::Seen, String>;
}

/// Goes from a failing case to smaller ones that fail, as long as there are any and patience lasts.
fn smallest<C: Case>(mut case: C, mut wrong: String) -> (C, String) {
    let began = Instant::now();
    let failing = |case: &C| {
        let smaller = case.smaller().into_iter().take_while(|_| began.elapsed() < PATIENCE);
        smaller.map(|case| (case.run(), case)).find_map(|(ran, case)| Some((ran.err()?, case)))
    };
    while let Some((also_wrong, smaller)) = failing(&case) {
        (case, wrong) = (smaller, also_wrong);
    }
    (case, wrong)
}

/// Runs the cases of a seed. `look` is shown each that holds; the first that does not ends the test with its smallest
/// form.
pub fn hold<C: Case>(seed: u64, cases: u64, mut look: impl FnMut(&C, C::Seen)) {
    println!("seed {seed:#x}, {cases} cases");
    for place in 0..cases {
        let case = C::make(&Random::new(seed.wrapping_add(place.wrapping_mul(0xA24B_AED4_963E_E407))), place);
        match case.run() {
            Ok(seen) => look(&case, seen),
            Err(wrong) => {
                let (case, wrong) = smallest(case, wrong);
                panic!("seed {seed:#x}, case {place}; the smallest like it:\n{case:?}\n{wrong}");
            }
        }
    }
}
