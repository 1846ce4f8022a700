//! What makes a book wrong: a fault one of its parts, a damage its bytes.
use super::any;
use crate::random::Random;
use crate::rules::{record_length, Parts};

/// What is wrong, the refusals that it leads to in a book of two records or more, and what makes it so. In a book of fewer it may do
/// nothing.
pub type Fault = (&'static str, &'static [u32], fn(&mut Parts, &mut Random));

/// Those that settle the index anew come first, since they would put others right.
pub const FAULTS: [Fault; 20] = [
    // A record is not looked into further than its layer count and whether it has a flange.
    ("the zero of a rib", &[0], |parts, random| {
        if let Some(record) = any_rib(parts, random) {
            let at = record.len() - random.pick(&[1, 2]);
            record[at] = random.pick(&[1, 128, 255]);
        }
    }),
    ("another flange height", &[0], |parts, random| {
        let rib = any_rib(parts, random);
        if let Some(hf) = rib.and_then(|record| field(record, 22)) {
            *hf = other_than(*hf, &HEIGHTS, random);
        }
    }),
    ("nine layers or more", &[4], |parts, random| {
        // 264 is 8 in its lower byte.
        let m: u16 = random.pick(&[9, 10, 264]);
        if let Some(record) = any_record(parts, random) {
            let hf = field(record, 22).map_or(0, |hf| u16::from_le_bytes(*hf));
            record.resize(record_length(m.into(), hf.into()) as usize, 1);
            record[20..22].copy_from_slice(&m.to_le_bytes());
        }
        parts.settle();
    }),
    ("a record longer than its count", &[4], |parts, random| {
        let bytes = vec![0; random.pick(&[1, 4, 24, 28])];
        if let Some(record) = any_record(parts, random) {
            record.extend(bytes);
        }
        parts.settle();
    }),
    ("a record shorter than its count", &[4], |parts, random| {
        let bytes = random.pick(&[1, 2, 4, 24]);
        if let Some(record) = any_record(parts, random) {
            record.truncate(record.len() - bytes);
        }
        parts.settle();
    }),
    ("bytes before the first record", &[4], |parts, random| {
        let bytes = vec![0; random.pick(&[1, 4, 24, 28])];
        let len = bytes.len() as u32;
        if let Some(record) = parts.records.first_mut() {
            record.splice(0..0, bytes);
            parts.settle();
            parts.index[0] = len;
        }
    }),
    ("a layer count", &[4], |parts, random| {
        let record = any_record(parts, random);
        if let Some(count) = record.and_then(|record| field(record, 20)) {
            let m = u16::from_le_bytes(*count);
            let near = [1, 2, 256, u16::MAX].map(|step| m.wrapping_add(step));
            let others = [near, [0, 8, 9, u16::MAX]].concat();
            *count = other_than(m, &others, random).to_le_bytes();
        }
    }),
    ("a flange or none", &[4], |parts, random| {
        let record = any_record(parts, random);
        if let Some(hf) = record.and_then(|record| field(record, 22)) {
            let flange = random.pick(&HEIGHTS);
            *hf = if *hf == [0, 0] { flange } else { [0, 0] };
        }
    }),
    // It does no harm to records of one length.
    ("two records swapped", &[0, 4], |parts, random| {
        swap(&mut parts.records, random)
    }),
    ("two index entries swapped", &[4], |parts, random| {
        swap(&mut parts.index, random)
    }),
    ("an index entry more", &[4], |parts, random| {
        let at = random.number() as usize % (parts.index.len() + 1);
        let bounds = [parts.index.as_slice(), &[parts.place]].concat();
        parts.index.insert(at, *any(random, &bounds));
        parts.n += 1;
        parts.length += 4;
    }),
    ("an index entry less", &[4], |parts, random| {
        if !parts.index.is_empty() {
            let at = random.number() as usize % parts.index.len();
            parts.index.remove(at);
            parts.n -= 1;
            parts.length -= 4;
        }
    }),
    ("no index over the records", &[4], |parts, _| {
        parts.index.clear();
        parts.length -= 4 * parts.n;
        parts.n = 0;
    }),
    ("an index entry", &[4], |parts, random| {
        let elsewhere = [parts.index.as_slice(), &[parts.place, parts.length]].concat();
        let at = random.number() as usize % parts.index.len().max(1);
        if let Some(entry) = parts.index.get_mut(at) {
            change(entry, &elsewhere, random);
        }
    }),
    // The sum with 16 stays the length.
    ("place and n traded", &[4], |parts, random| {
        let down = random.within(0..=1) == 0;
        let most = if down { parts.place / 4 } else { parts.n };
        let entries = random.pick(&[1, 2, most]).min(most);
        if down {
            parts.place -= 4 * entries;
            parts.n += entries;
        } else {
            parts.place += 4 * entries;
            parts.n -= entries;
        }
    }),
    // The sum with 16 stays the length in its lower 32 bits.
    ("place and n wrapped", &[3], |parts, random| {
        let round = parts.place / 4 + random.pick(&[1, 2, 1000]);
        let rounds = random.pick(&[1 << 30, 2 << 30, 3 << 30, round]);
        if rounds == round {
            parts.place = parts.place.wrapping_sub(4 * round);
        }
        parts.n += rounds;
    }),
    ("n", &[3], |parts, random| {
        change(&mut parts.n, &[parts.place, parts.length], random)
    }),
    ("the index's place", &[3], |parts, random| {
        change(&mut parts.place, &[parts.n, parts.length], random)
    }),
    ("the letters", &[2], |parts, random| {
        let letter = random.within(0..=3) as usize;
        let mut flipped = parts.letters;
        flipped[letter] ^= 1 << random.within(0..=7);
        parts.letters = random.pick(&[flipped, flipped, flipped, *b"KOOB", *b"book"]);
    }),
    ("the stated length", &[1], |parts, random| {
        change(&mut parts.length, &[parts.place, parts.n], random)
    }),
];

/// Heights of a flange: 1, 7, 256 and all bits.
const HEIGHTS: [[u8; 2]; 4] = [[1, 0], [7, 0], [0, 1], [255, 255]];

/// The refusal that a fault leads to, where there is one and no other.
pub fn sole((_, to, _): Fault) -> u32 {
    match to {
        [refusal] => *refusal,
        _ => 0,
    }
}

/// Each two faults of which the first leads to a later refusal than the second; their table is in that order.
pub fn pairs() -> Vec<(Fault, Fault)> {
    let faults = FAULTS.into_iter();
    let all = faults.flat_map(|first| FAULTS.map(|second| (first, second)));
    all.filter(|(first, second)| (1..sole(*first)).contains(&sole(*second)))
        .collect()
}

fn any_record<'a>(parts: &'a mut Parts, random: &mut Random) -> Option<&'a mut Vec<u8>> {
    let at = random.number() as usize % parts.records.len().max(1);
    parts.records.get_mut(at)
}

/// One with a flange.
fn any_rib<'a>(parts: &'a mut Parts, random: &mut Random) -> Option<&'a mut Vec<u8>> {
    let is_rib = |record: &&mut Vec<u8>| record.get(22..24).is_some_and(|hf| hf != [0, 0]);
    let ribs: Vec<_> = parts.records.iter_mut().filter(is_rib).collect();
    let at = random.number() as usize % ribs.len().max(1);
    ribs.into_iter().nth(at)
}

/// The 16 bits at a place of a record.
fn field(record: &mut [u8], at: usize) -> Option<&mut [u8; 2]> {
    record.get_mut(at..)?.first_chunk_mut()
}

fn other_than<T: Copy + PartialEq>(was: T, others: &[T], random: &mut Random) -> T {
    let others: Vec<T> = others.iter().copied().filter(|n| *n != was).collect();
    random.pick(&others)
}

/// Puts a number to another: one next to it, one that is the same in its lower half, an end of its range, or one from elsewhere in the book.
fn change(number: &mut u32, elsewhere: &[u32], random: &mut Random) {
    let step = random.pick(&[1, 4, 24, 65_536, 1 << 30, 1 << 31]);
    let near = [number.wrapping_add(step), number.wrapping_sub(step)];
    let ends = [0, u32::MAX - 3, u32::MAX];
    let others = [near.as_slice(), &near, &ends, elsewhere].concat();
    *number = other_than(*number, &others, random);
}

/// Swaps a neighbouring pair.
fn swap<T>(row: &mut [T], random: &mut Random) {
    if let Some(last) = row.len().checked_sub(2) {
        let at = random.number() as usize % (last + 1);
        row.swap(at, at + 1);
    }
}

/// As a fault, of the bytes of a book of any number of records.
pub type Damage = (&'static str, &'static [u32], fn(&mut Vec<u8>, &mut Random));

pub const DAMAGES: [Damage; 6] = [
    ("a bit flipped", &[0, 1, 2, 3, 4], |book, random| {
        let at = random.number() as usize % book.len();
        book[at] ^= 1 << random.within(0..=7);
    }),
    ("bytes cut off the end", &[1], |book, random| {
        let most = book.len() as i32;
        book.truncate(random.within(0..=most - 1) as usize);
    }),
    ("bytes cut off the front", &[1], |book, random| {
        let most = book.len() as i32;
        book.drain(..random.within(1..=most) as usize);
    }),
    ("bytes more at the end", &[1], |book, random| {
        let byte = random.pick(&[0, b'K', 255]);
        // Seven zeros behind BOOK would make a length of 75 of its K.
        let more = random.pick(&[1, 2, 3, 4, 8, 12, 16, 24]);
        book.resize(book.len() + more, byte);
    }),
    ("bytes more at the front", &[1], |book, random| {
        let more = random.within(1..=24) as usize;
        book.splice(0..0, vec![0; more]);
    }),
    (
        "bytes at the front, and the length restated",
        &[3],
        |book, random| {
            let more = random.within(1..=24) as usize;
            book.splice(0..0, vec![0; more]);
            restate(book);
        },
    ),
];

/// Makes the stated length right.
pub fn restate(book: &mut [u8]) {
    let (len, at) = (book.len() as u32, book.len() - 8);
    book[at..at + 4].copy_from_slice(&len.to_le_bytes());
}
