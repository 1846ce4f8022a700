//! The books that are tried, by kind: more than a hundred thousand in all.
use super::{in_turn, pairs, restate, Books, DAMAGES, FAULTS};
use crate::rules::Parts;

pub fn all() -> impl Iterator<Item = Vec<u8>> {
    let faults = faulty().chain(damaged()).chain(twice()).chain(worse());
    let lengths = cut().chain(stumps()).chain(limits());
    whole().chain(faults).chain(lengths)
}

pub fn whole() -> impl Iterator<Item = Vec<u8>> {
    let mut books = Books::new(11);
    (0..20_000).map(move |_| books.whole(0..=6).bytes())
}

/// As many of each fault, in turn.
pub fn faulty() -> impl Iterator<Item = Vec<u8>> {
    let mut books = Books::new(12);
    in_turn(&FAULTS, 2500).map(move |fault| books.faulty(fault).bytes())
}

/// As many of each damage, in turn.
pub fn damaged() -> impl Iterator<Item = Vec<u8>> {
    let mut books = Books::new(13);
    in_turn(&DAMAGES, 2500).map(move |damage| books.damaged(damage))
}

/// As many of each pair of faults, in turn.
pub fn twice() -> impl Iterator<Item = Vec<u8>> {
    let mut books = Books::new(18);
    let pairs = pairs();
    let count = 100 * pairs.len();
    let faults = pairs.into_iter().cycle().take(count);
    faults.map(move |(first, second)| books.twice_faulty(first, second))
}

/// With any faults and a damage together, or none.
pub fn worse() -> impl Iterator<Item = Vec<u8>> {
    let mut books = Books::new(14);
    (0..20_000).map(move |_| books.worse())
}

/// Some good books, each cut at every byte and whole.
pub fn cut() -> impl Iterator<Item = Vec<u8>> {
    let mut books = Books::new(15);
    (0..60).flat_map(move |_| {
        let book = books.whole(0..=6).bytes();
        (0..=book.len()).map(move |len| book[..len].to_vec())
    })
}

/// Books whose last record is cut at every byte, and all that follows right for it: the layer count may then lie in the index or past the
/// end.
pub fn stumps() -> impl Iterator<Item = Vec<u8>> {
    let mut books = Books::new(16);
    (0..60).flat_map(move |_| {
        let records = books.whole(1..=2).records;
        let (last, before) = records.split_last().unwrap();
        let stump = |len| [before, &[last[..len].to_vec()]].concat();
        let stumps: Vec<_> = (0..last.len()).map(stump).collect();
        stumps.into_iter().map(|stump| Parts::of(stump).bytes())
    })
}

/// As short and as long as a book may be, and somewhat more.
pub fn limits() -> impl Iterator<Item = Vec<u8>> {
    let mut books = Books::new(17);
    let shorts = (0..=20).flat_map(|len| [short(len, b"BOOK"), short(len, b"KOOB")]);
    let lengths = [65_532, 65_536, 65_540].into_iter().cycle().take(36);
    shorts.chain(lengths.flat_map(move |length| long(&mut books, length)))
}

/// The letters, before them a length that is right, and before that zeros, as far as there is room.
fn short(len: usize, letters: &[u8; 4]) -> Vec<u8> {
    let mut book = vec![0; 12];
    book.extend((len as u32).to_le_bytes());
    book.extend(letters);
    book.split_off(20 - len)
}

/// One of this length, one with a byte more that its length allows for, one with a byte more that its index allows for too, and one whose
/// length is right in its lower 16 bits.
fn long(books: &mut Books, length: usize) -> [Vec<u8>; 4] {
    let mut parts = books.of_length(length);
    let good = parts.bytes();
    let mut stated = [&[0], good.as_slice()].concat();
    restate(&mut stated);
    parts.records[0].push(0);
    parts.settle();
    let lower = [vec![0; 65_536], books.whole(0..=6).bytes()].concat();
    [good, stated, parts.bytes(), lower]
}
