//! `fw_shear` held to document 01's shear.
use fordwhistle_tests::flange;
use fordwhistle_tests::held::Held;
use fordwhistle_tests::random::Random;
use fordwhistle_tests::rules::{self, Amount, Layer, Section, Shear};
use fordwhistle_tests::sections;
use fordwhistle_tests::steel;
use std::cmp::Ordering;
use std::collections::BTreeSet;

fn damaged() -> impl Iterator<Item = Vec<u8>> {
    let mut random = Random::new(9);
    (0..10_000).map(move |_| {
        let section = sections::sheared(&mut random);
        sections::damaged(&mut random, section)
    })
}

fn records() -> impl Iterator<Item = Vec<u8>> {
    let accepted = sections::all_sheared().map(|section| section.record());
    accepted.chain(damaged())
}

#[test]
fn the_face_gives_the_rules_shear() {
    let mut held = Held::new();
    for record in records() {
        held.shear(&record, rules::shear(&record));
    }
    held.finish();
}

#[test]
fn the_rules_give_the_figures() {
    let [_, beam] = sections::figures();
    let Shear { k, c, .. } = Shear::of(&beam);
    let answer = Amount {
        refusal: 0,
        amount: 1_069_200_000,
    };
    assert_eq!((k, c), (1608, 3548));
    assert_eq!(rules::shear(&beam.record()), answer);
}

/// Document 02's: b, d, As, fck, then k and c.
#[test]
fn the_rules_give_the_figures_of_the_roots() {
    for (b, depth, area, fck, k, c) in [
        (300, 999, 1000, 20, 1447, 1882),
        (2000, 26, 65535, 50, 2000, 4641),
        (50, 26, 1, 20, 2000, 1154),
        (300, 400, 2400, 30, 1707, 3914),
        (300, 400, 2401, 30, 1707, 3914),
    ] {
        let [plate, _] = sections::figures();
        let section = Section {
            b,
            h: (depth + 1).max(50),
            fck,
            layers: vec![Layer { depth, area }],
            ..plate
        };
        let shear = Shear::of(&section);
        assert_eq!((shear.k, shear.c), (k, c));
    }
}

fn refusals(records: impl Iterator<Item = Vec<u8>>) -> BTreeSet<u32> {
    records
        .map(|record| rules::shear(&record).refusal)
        .collect()
}

#[test]
fn the_sections_are_accepted_and_the_damaged_records_reach_every_refusal() {
    let sections = sections::all_sheared().map(|section| section.record());
    assert!(refusals(sections).into_iter().eq([0, 16]));
    assert_eq!(refusals(damaged()), sections::refusals_and([0, 16]));
}

#[test]
fn every_error_in_what_is_refused_would_show_in_the_damaged_records() {
    sections::assert_order_shows(damaged());
    flange::assert_refusals_show(damaged(), 10);
}

#[test]
fn the_sections_reach_every_kind_of_steel_and_of_flange() {
    let sections: Vec<Section> = sections::all_sheared().collect();
    steel::assert_every_kind(sections.iter());
    flange::assert_every_kind(sections.iter());
}

/// No amount shows whether c has its limit at 50 As = b d, nor what s is where Asw is 0.
#[test]
fn the_sections_reach_the_limit_on_bars_in_one_layer_and_in_several_and_stirrups_without_area() {
    let (mut limits, mut stirrups) = (BTreeSet::new(), BTreeSet::new());
    for section in sections::all_sheared().filter(|section| !section.layers.is_empty()) {
        let (steel, bd) = (section.steel(), Shear::of(&section).bd);
        limits.insert((steel.len() > 1, (50 * rules::bars(&steel)).cmp(&bd)));
        stirrups.insert((section.asw == 0, section.spacing == 0));
    }
    let sides = [Ordering::Less, Ordering::Equal, Ordering::Greater];
    let every = [false, true].map(|several| sides.map(|side| (several, side)));
    assert!(limits.iter().eq(every.as_flattened()));
    assert_eq!(
        stirrups,
        BTreeSet::from([(false, false), (true, false), (true, true)])
    );
}

/// The library is x86-64 code, so only there can a Rust program link it.
#[cfg(target_arch = "x86_64")]
mod linked {
    use super::{records, rules, Amount};

    #[link(name = "panel", kind = "static")]
    extern "C" {
        fn fw_shear(record: *const u8, len: usize) -> Amount;
    }

    #[test]
    fn the_face_linked_gives_the_rules_shear() {
        for record in records() {
            // It reads the record and touches no other memory of the caller's.
            let amount = unsafe { fw_shear(record.as_ptr(), record.len()) };
            assert_eq!(amount, rules::shear(&record), "{record:?}");
        }
    }
}
