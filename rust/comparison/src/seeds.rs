//! The seeds of random tests: a fixed one, and one that is new in each run.
//!
//! Both are printed. `COMPARISON_SEED=N` in the environment repeats a run: N is then in place of the
//! new seed.

use crate::generate::Random;
use crate::reached::Reached;
use std::env;
use std::fmt::Debug;
use std::hash::{BuildHasher, RandomState};
use std::sync::OnceLock;

/// The fixed seed.
pub const FIXED: u64 = 1986;

/// The part of a random test that is made with the new seed, so that it takes little time.
const NEW_SHARE: Share = Share(8);

/// How much of a random test is made with a seed: all of it, or one in so many.
#[derive(Clone, Copy, Debug)]
pub struct Share(usize);

impl Share {
    /// How many of so many inputs are made: at least one, where there is one.
    pub fn of(self, all: usize) -> usize {
        all.div_ceil(self.0)
    }
}

/// The seed that the environment gives, if it does.
pub fn given() -> Option<u64> {
    let seed = env::var("COMPARISON_SEED").ok()?;
    Some(seed.parse().expect("COMPARISON_SEED is a number"))
}

/// Makes a random test with the fixed seed, and a part of it with the new one. Returns what it gives
/// with the fixed seed, which is the same in each run; what a new one reaches is luck.
pub fn with_seeds<R>(test: impl Fn(&mut Random, Share) -> R) -> R {
    static NEW: OnceLock<u64> = OnceLock::new();
    let new = *NEW.get_or_init(|| given().unwrap_or_else(|| RandomState::new().hash_one(FIXED)));
    println!("seed {FIXED}, and COMPARISON_SEED={new}");
    let of_fixed = test(&mut Random::new(FIXED), Share(1));
    test(&mut Random::new(new), NEW_SHARE);
    of_fixed
}

/// As [`with_seeds`], for a test that makes so many random inputs and is passed the number of each.
/// Prints and returns the counts of what they reach.
pub fn count_reached<E: Copy + Debug + Ord>(
    inputs: usize,
    test: impl Fn(&mut Random, usize, &mut Reached<E>),
) -> Reached<E> {
    let reached = with_seeds(|random, share| {
        let mut reached = Reached::default();
        for index in 0..share.of(inputs) {
            test(random, index, &mut reached);
        }
        reached
    });
    reached.print();
    reached
}
