//! Turns: which kind of case comes at an index, and the how-manieth of its
//! kind it is, so that a kind can go through a list from end to end.

/// Something that has its turn as often as its weight says.
pub trait Weighted {
    fn weight(&self) -> u64;
}

/// Who has the turn at this index, and how many turns it had before.
pub fn turn<T: Weighted>(takers: &[T], index: u64) -> (&T, u64) {
    let round: u64 = takers.iter().map(Weighted::weight).sum();
    let mut place = index % round;
    for taker in takers {
        if place < taker.weight() {
            return (taker, index / round * taker.weight() + place);
        }
        place -= taker.weight();
    }
    unreachable!("the place is below the sum of the weights")
}
