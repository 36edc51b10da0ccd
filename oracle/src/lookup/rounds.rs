//! One round of random lookups.

use super::compare::Lookups;
use super::make;
use crate::random::Random;

pub fn round(lookups: &mut Lookups, random: &mut Random) {
    let made = make::made(random);
    for id in make::asked(random, &made.lists) {
        lookups.ask(&made, id);
    }
}
