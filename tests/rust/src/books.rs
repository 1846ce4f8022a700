//! Random books and strings of records, for the tests of what is asked of a book and of what makes one.
mod faults;
pub mod strings;
pub mod tried;

use crate::random::Random;
use crate::rules::{self, Parts};
use crate::sections;
use std::collections::BTreeSet;
use std::iter::repeat_with;
use std::ops::RangeInclusive;

pub use faults::{pairs, restate, sole, Damage, Fault, DAMAGES, FAULTS};

/// Document 01's book, and what the book program prints of it.
pub fn sample() -> Parts {
    let [plate, beam] = sections::figures();
    Parts::of(vec![plate.record(), beam.record()])
}

pub const SAMPLE_LINES: &str = "\
0 0 1 14 2 14476473000 16 0
1 14 0 0 0 0 0 1069200000
";

/// Any of a row that is not empty.
fn any<'a, T>(random: &mut Random, row: &'a [T]) -> &'a T {
    &row[random.number() as usize % row.len()]
}

/// As many of each, in turn.
fn in_turn<T: Clone>(row: &[T], times: usize) -> impl Iterator<Item = T> + '_ {
    row.iter().cloned().cycle().take(times * row.len())
}

/// Books that share a few hundred records, since a list is dear.
pub struct Books {
    random: Random,
    records: Vec<Vec<u8>>,
}

/// Records of low sections and a few higher ones, and records that are refused and leave their book good.
fn records() -> Vec<Vec<u8>> {
    let mut random = Random::new(10);
    let mut heights: Vec<i32> = (0..300).map(|_| random.within(50..=64)).collect();
    heights.extend((0..10).map(|_| random.within(65..=160)));
    let accepted = heights
        .into_iter()
        .map(|h| sections::balanced(&mut random, h as u16).record());
    let mut records: Vec<Vec<u8>> = accepted.collect();
    records.extend((0..400).map(|_| {
        let section = sections::accepted_of(&mut random, 50);
        sections::damaged(&mut random, section)
    }));
    records.retain(|record| rules::book(&Parts::of(vec![record.clone()]).bytes()).refusal == 0);
    records
}

impl Books {
    pub fn new(seed: u64) -> Books {
        Books {
            random: Random::new(seed),
            records: records(),
        }
    }

    /// Books of accepted sections alone, of any height.
    pub fn accepted(seed: u64) -> Books {
        let mut random = Random::new(seed);
        let record = |_| sections::accepted(&mut random).record();
        let records = (0..1000).map(record).collect();
        Books { random, records }
    }

    /// A good book of so many records.
    pub fn whole(&mut self, counts: RangeInclusive<i32>) -> Parts {
        let count = self.random.within(counts);
        let records = (0..count).map(|_| any(&mut self.random, &self.records).clone());
        Parts::of(records.collect())
    }

    /// A book of so many bytes, a multiple of 4, that is good unless they are too many: of records without layers and flange, with what
    /// is then left over in the last one's.
    pub fn of_length(&mut self, length: usize) -> Parts {
        let (count, left) = ((length - 16) / 28, (length - 16) % 28);
        let last = |number| if number + 1 == count { left } else { 0 };
        let records = (0..count).map(|number| self.record(24 + last(number)));
        Parts::of(records.collect())
    }

    fn record(&mut self, length: usize) -> Vec<u8> {
        let mut records = repeat_with(|| any(&mut self.random, &self.records));
        let record = records.find(|record| record.len() == length);
        record.unwrap().clone()
    }

    /// A book with this fault.
    pub fn faulty(&mut self, (_, _, make): Fault) -> Parts {
        let mut parts = self.whole(2..=6);
        make(&mut parts, &mut self.random);
        parts
    }

    /// A book with this damage.
    pub fn damaged(&mut self, (_, _, make): Damage) -> Vec<u8> {
        let mut bytes = self.whole(0..=6).bytes();
        make(&mut bytes, &mut self.random);
        bytes
    }

    /// The string of a book's records with this damage.
    pub fn damaged_string(&mut self, (_, _, make): Damage) -> Vec<u8> {
        let mut string = self.whole(1..=6).records.concat();
        make(&mut string, &mut self.random);
        string
    }

    /// A book with both faults, in the order of their table.
    pub fn twice_faulty(&mut self, (_, _, first): Fault, (_, _, second): Fault) -> Vec<u8> {
        let mut parts = self.whole(2..=6);
        first(&mut parts, &mut self.random);
        second(&mut parts, &mut self.random);
        parts.bytes()
    }

    /// A book with up to three faults and, one time in two, a damage.
    pub fn worse(&mut self) -> Vec<u8> {
        let mut parts = self.whole(0..=6);
        let several = self.random.within(0..=3);
        let picked: BTreeSet<usize> = (0..several)
            .map(|_| self.random.number() as usize % FAULTS.len())
            .collect();
        for at in picked {
            FAULTS[at].2(&mut parts, &mut self.random);
        }
        let mut bytes = parts.bytes();
        if self.random.within(0..=1) == 0 {
            self.random.pick(&DAMAGES).2(&mut bytes, &mut self.random);
        }
        bytes
    }
}
