//! Bytes that are lent to a program that writes, and what it makes of them.
use crate::random::Random;
use crate::rules::Written;
use std::borrow::Borrow;

/// Each case with bytes that are lent for it, where it needs so many: none, one too few, just as many, and some more.
pub fn each<T: Clone>(
    cases: impl Iterator<Item = T>,
    needed: impl Fn(&T) -> usize,
) -> impl Iterator<Item = (T, Vec<u8>)> {
    let mut random = Random::new(22);
    cases.flat_map(move |case| {
        let rooms = random.rooms(needed(&case));
        let mut bytes = |room| (0..room).map(|_| random.number() as u8).collect();
        let lent: Vec<Vec<u8>> = rooms.into_iter().map(&mut bytes).collect();
        lent.into_iter().map(move |lent| (case.clone(), lent))
    })
}

/// What a program answers of a case, and what it makes of the bytes that are lent.
pub fn written<T: ?Sized>(
    program: impl Fn(&T, &mut [u8]) -> Written,
    case: &T,
    lent: &[u8],
) -> (Written, Vec<u8>) {
    let mut after = lent.to_vec();
    (program(case, &mut after), after)
}

/// Whether two programs differ in some case.
pub fn differ<T: Borrow<U>, U: ?Sized>(
    one: impl Fn(&U, &mut [u8]) -> Written,
    other: impl Fn(&U, &mut [u8]) -> Written,
    cases: &[(T, Vec<u8>)],
) -> bool {
    cases.iter().any(|(case, lent)| {
        let case = case.borrow();
        written(&one, case, lent) != written(&other, case, lent)
    })
}
