//! Routes.

use crate::calls::Case;
use crate::plans;
use crate::random::Random;

#[test]
fn a_route_is_a_walk_of_least_cost() {
    let (mut found, mut far) = (0, 0);
    plans::try_each("routes", 3, |random, case| {
        for (from, to) in pairs(random, case, 40) {
            match try_pair(random, case, from, to) {
                Ok(()) => found += 1,
                Err(answer) => {
                    assert_eq!(answer, 11);
                    far += 1;
                }
            }
        }
    });
    println!("routes: {found} found, {far} far");
}

/// Tries a route into a list for every station, into one that just holds the route, and into one that is a place shorter.
fn try_pair(random: &mut Random, case: &Case, from: u16, to: u16) -> Result<(), u8> {
    let enough = usize::from(case.stations()) + random.below(3);
    let length = case.try_route(from, to, enough, random.below(7))?;
    assert_eq!(case.try_route(from, to, length, random.below(7)), Ok(length));
    assert_eq!(case.try_route(from, to, length - 1, random.below(7)), Err(12));
    Ok(())
}

/// Every pair of stations, or so many at random where there are more.
fn pairs(random: &mut Random, case: &Case, most: usize) -> Vec<(u16, u16)> {
    let size = usize::from(case.stations());
    let mut pairs = random.shuffled(size * size);
    pairs.truncate(most);
    pairs.into_iter().map(|pair| ((pair / size) as u16, (pair % size) as u16)).collect()
}
