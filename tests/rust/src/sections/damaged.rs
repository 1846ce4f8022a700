//! Records that are refused, and by what.
use crate::random::Random;
use crate::rules::{Layer, Section, REFUSALS};
use std::collections::BTreeSet;

/// What makes a section wrong, in the order of the refusals.
const FAULTS: [fn(&mut Section, &mut Random); 16] = [
    |section, random| {
        let layer = |j| Layer {
            depth: section.h / 2 + j,
            area: 1,
        };
        // 264 is 8 in its lower byte; 16,000 layers are some 64,000 bytes.
        let count = random.pick(&[9, 10, 264, 16_000]);
        section.layers = (1..=count).map(layer).collect();
    },
    |section, random| section.fck = random.pick(&[0, 19, 21, 49, 51, 55, u16::MAX]),
    |section, random| section.b = random.pick(&[0, 49, 2001, u16::MAX]),
    |section, random| section.h = random.pick(&[0, 49, 1001, u16::MAX]),
    |section, random| {
        section.hf = random.pick(&[section.h, section.h.saturating_add(1), u16::MAX]);
        section.bf = section.bf.max(section.b);
    },
    |section, random| {
        section.hf = section.hf.max(1);
        section.bf = random.pick(&[0, section.b.wrapping_sub(1), 2001, u16::MAX]);
    },
    |section, random| section.fyk = random.pick(&[0, 399, 601, u16::MAX]),
    |section, random| section.feq2 = random.pick(&[20_001, u16::MAX]),
    |section, random| section.feq3 = random.pick(&[20_001, u16::MAX]),
    |section, random| section.load = random.pick(&[i32::MIN, -10_000_001, 10_000_001, i32::MAX]),
    |section, random| {
        let depths = [0, section.h, section.h / 2, u16::MAX];
        if let Some(layer) = any_layer(section, random) {
            layer.depth = random.pick(&depths);
        }
    },
    |section, random| {
        if let Some(layer) = any_layer(section, random) {
            layer.area = 0;
        }
    },
    |section, random| {
        let taken = section.layers.first().copied();
        if let (Some(taken), Some(layer)) = (taken, any_layer(section, random)) {
            layer.depth = taken.depth;
        }
    },
    |section, _| section.layers.reverse(),
    |section, _| {
        let middle = section.h / 2;
        section.layers.retain(|layer| layer.depth <= middle);
    },
    |section, random| {
        section.asw = random.pick(&[1, u16::MAX]);
        section.spacing = 0;
    },
];

fn any_layer<'a>(section: &'a mut Section, random: &mut Random) -> Option<&'a mut Layer> {
    let count = section.layers.len();
    let at = random.number() as usize % count.max(1);
    section.layers.get_mut(at)
}

/// What makes a record wrong that no section makes wrong.
const DAMAGES: [fn(&mut Vec<u8>, &mut Random); 7] = [
    |record, random| record.truncate(random.within(0..=record.len() as i32) as usize),
    |record, random| record.extend((0..random.within(1..=8)).map(|_| 0)),
    |record, _| record.truncate(record.len() - 4),
    |record, random| set(record, random.pick(&[22, 23]), random),
    |record, random| set(record, random.pick(&[20, 21]), random),
    // The last two bytes of a rib's record are a zero.
    |record, random| {
        let at = record.len() - random.pick(&[1, 2]);
        set(record, at, random);
    },
    |record, random| {
        let at = random.number() as usize % record.len().max(1);
        set(record, at, random);
    },
];

fn set(record: &mut [u8], at: usize, random: &mut Random) {
    if let Some(byte) = record.get_mut(at) {
        *byte = random.pick(&[0, 1, 8, 9, 128, 255]);
    }
}

/// The record of an accepted section with up to three faults and damages, so that their order counts; some do no harm where they fall.
pub fn damaged(random: &mut Random, mut section: Section) -> Vec<u8> {
    for _ in 0..random.within(0..=3) {
        random.pick(&FAULTS)(&mut section, random);
    }
    let mut record = section.record();
    if random.within(0..=3) == 0 {
        random.pick(&DAMAGES)(&mut record, random);
    }
    record
}

/// The refusals of a lone record, and these.
pub fn refusals_and<const N: usize>(others: [u32; N]) -> BTreeSet<u32> {
    REFUSALS.into_iter().chain(others).collect()
}

/// Panics unless, of each two lines that refuse a section, some record is refused by the first of them and would be by the second: any
/// other order shows in one of these.
pub fn assert_order_shows(records: impl Iterator<Item = Vec<u8>>) {
    let mut reached = BTreeSet::new();
    for section in records.filter_map(|record| Section::read(&record)) {
        if let [first, later @ ..] = section.refusals().as_slice() {
            reached.extend(later.iter().map(|later| (*first, *later)));
        }
    }
    let mut lines = &REFUSALS[1..];
    while let [first, later @ ..] = lines {
        let missed = later
            .iter()
            .find(|later| !reached.contains(&(*first, **later)));
        assert_eq!(missed, None, "after {first}");
        lines = later;
    }
}
