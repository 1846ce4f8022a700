//! Records with their lists of depths, for the tests of what is listed and of what is first.
use crate::random::Random;
use crate::rules::{self, List, Section};
use crate::sections;
use std::sync::LazyLock;

/// A record with its list or its refusal, worked out once for every row and every test.
pub struct Case {
    pub record: Vec<u8>,
    pub list: Result<List, u32>,
}

fn case(record: Vec<u8>) -> Case {
    let list = rules::list_of(&record);
    Case { record, list }
}

/// Many low sections and few high ones: a list takes as many stresses as the square of the height.
pub static ACCEPTED: LazyLock<Vec<(Section, Case)>> = LazyLock::new(|| {
    let mut random = Random::new(5);
    let mut heights = vec![50; 1000];
    heights.extend((0..2000).map(|_| random.within(51..=64) as u16));
    heights.extend((0..60).map(|_| random.within(65..=400) as u16));
    heights.extend([999, 1000, 1000, 1000, 1000]);
    let section = |h| sections::balanced(&mut random, h);
    let sections = heights.into_iter().map(section);
    sections.map(|s| (s.clone(), case(s.record()))).collect()
});

pub static DAMAGED: LazyLock<Vec<Case>> = LazyLock::new(|| {
    let mut random = Random::new(6);
    let mut record = || {
        let section = sections::accepted_of(&mut random, 50);
        sections::damaged(&mut random, section)
    };
    (0..10_000).map(|_| case(record())).collect()
});

/// All of them.
pub fn cases() -> impl Iterator<Item = &'static Case> {
    let accepted = ACCEPTED.iter().map(|(_, case)| case);
    accepted.chain(DAMAGED.iter())
}
