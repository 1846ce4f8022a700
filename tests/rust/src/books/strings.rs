//! The strings of records that are tried of the writer, by kind.
use super::{in_turn, Books, DAMAGES, FAULTS};
use crate::lent;
use crate::random::Random;
use crate::rules::{self, Section};
use crate::sections;

pub fn all() -> impl Iterator<Item = Vec<u8>> {
    let refused = lone().chain(mixed()).chain(faulty()).chain(damaged());
    accepted().chain(refused).chain(cut()).chain(limits())
}

/// Each of them with what is lent for its book, which has as many bytes as its records, four for each and 16.
pub fn lent() -> impl Iterator<Item = (Vec<u8>, Vec<u8>)> {
    lent::each(all(), |string| {
        string.len() + 4 * rules::records(string).len() + 16
    })
}

/// Of accepted sections alone, or of none.
pub fn accepted() -> impl Iterator<Item = Vec<u8>> {
    let mut books = Books::accepted(23);
    (0..10_000).map(move |_| books.whole(0..=6).records.concat())
}

/// Of one section, accepted or refused.
pub fn lone() -> impl Iterator<Item = Vec<u8>> {
    let mut random = Random::new(35);
    (0..3000).map(move |_| {
        let section = sections::accepted(&mut random);
        sections::damaged(&mut random, section)
    })
}

/// Of accepted sections and of those that are refused.
pub fn mixed() -> impl Iterator<Item = Vec<u8>> {
    let mut books = Books::new(24);
    (0..3000).map(move |_| books.whole(1..=6).records.concat())
}

/// As many with each fault of a book, in turn. One of its index or its last 16 bytes does the string no harm.
pub fn faulty() -> impl Iterator<Item = Vec<u8>> {
    let mut books = Books::accepted(25);
    in_turn(&FAULTS, 100).map(move |fault| books.faulty(fault).records.concat())
}

/// As many with each damage of a book, in turn.
pub fn damaged() -> impl Iterator<Item = Vec<u8>> {
    let mut books = Books::accepted(26);
    in_turn(&DAMAGES, 1700).map(move |damage| books.damaged_string(damage))
}

/// Some good ones, each cut at every byte.
pub fn cut() -> impl Iterator<Item = Vec<u8>> {
    let mut books = Books::accepted(27);
    (0..10).flat_map(move |_| {
        let string = books.whole(2..=3).records.concat();
        (0..string.len()).map(move |len| string[..len].to_vec())
    })
}

/// How long their books would be: as long as one may be, a layer less and more, 44 in the lower 16 bits, and several times as long.
const LENGTHS: [usize; 6] = [65_532, 65_536, 65_540, 65_580, 131_072, 400_000];

/// Good ones of these lengths, or too long by them alone, each also with a bad section behind it and with a byte left over.
pub fn limits() -> impl Iterator<Item = Vec<u8>> {
    let mut books = Books::accepted(28);
    let [plate, _] = sections::figures();
    let bad = Section { fyk: 0, ..plate }.record();
    LENGTHS.into_iter().flat_map(move |length| {
        let string = books.of_length(length).records.concat();
        [&[], bad.as_slice(), &[0]].map(|more| [string.as_slice(), more].concat())
    })
}
