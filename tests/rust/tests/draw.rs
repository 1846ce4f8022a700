//! `fw_draw` held to document 01's law.
use fordwhistle_tests::flange;
use fordwhistle_tests::held::Held;
use fordwhistle_tests::random::Random;
use fordwhistle_tests::rules::{self, Drawn, Law, Section, TABLE};
use fordwhistle_tests::sections;
use fordwhistle_tests::steel;
use std::collections::BTreeSet;
use std::iter::repeat_with;

/// What is done with a case: a record and a strain.
type Take<'a> = &'a mut dyn FnMut(&[u8], i32);

/// Document 01's drawn range and what is next to it, not taken from the rules: it would shrink with an error there.
fn strains() -> impl Iterator<Item = i32> {
    (-10_001..=3501).chain([i32::MIN, i32::MAX])
}

fn accepted() -> Vec<Section> {
    let mut random = Random::new(1);
    (0..300).map(|_| sections::steeled(&mut random)).collect()
}

fn each_strain(take: Take) {
    for section in accepted() {
        let record = section.record();
        strains().for_each(|strain| take(&record, strain));
    }
}

fn each_damaged(take: Take) {
    let mut random = Random::new(2);
    for _ in 0..50_000 {
        let section = sections::accepted(&mut random);
        let record = sections::damaged(&mut random, section);
        let strain = random.within(-12_000..=5000);
        take(&record, strain);
    }
}

/// A record of two layers below mid-height, a rectangle's at one limit of the load and a rib's at the other, with every value in each of
/// its places of 16 bits.
fn each_swept(take: Take) {
    let mut random = Random::new(3);
    for (load, rib) in [(-10_000_000, false), (10_000_000, true)] {
        let mut sections = repeat_with(|| sections::accepted(&mut random));
        let two = |section: &Section| section.layers.len() == 2 && section.steel().len() == 2;
        let kind = |section: &Section| two(section) && (section.b < section.bf) == rib;
        let mut section = sections.find(kind).unwrap();
        section.load = load;
        let record = section.record();
        for at in (0..record.len()).step_by(2) {
            let mut swept = record.clone();
            for word in 0..=u16::MAX {
                swept[at..at + 2].copy_from_slice(&word.to_le_bytes());
                // Every number of the tension law counts at this strain.
                take(&swept, -5000);
            }
        }
    }
}

fn each_case(mut take: impl FnMut(&[u8], i32)) {
    each_strain(&mut take);
    each_damaged(&mut take);
    each_swept(&mut take);
}

/// What document 01 asks of a point, by whole numbers and by bits.
fn assert_right(record: &[u8], strain: i32, drawn: Drawn) {
    let exact = match rules::stress_drawn(record, strain) {
        Ok(exact) => exact,
        Err(refusal) => {
            let zeros = (refusal, 0, 0);
            return assert_eq!(drawn.bits(), zeros, "{record:?} at {strain}");
        }
    };
    let (refusal, at, bits) = drawn.bits();
    let stress = drawn.point.stress;
    let right = refusal == 0
        && at == f64::from(strain).to_bits()
        && exact.is_nearest(stress)
        && exact.is_drawn_by(stress)
        && (stress != 0.0 || bits == 0)
        && (stress <= 0.0 || strain > 0);
    assert!(right, "{record:?} at {strain}: {drawn:?} for {exact:?}");
}

#[test]
fn the_face_gives_the_rules_point() {
    let mut held = Held::new();
    each_case(|record, strain| held.draw(record, strain, rules::draw(record, strain)));
    held.finish();
}

#[test]
fn the_rules_point_is_right() {
    each_case(|record, strain| assert_right(record, strain, rules::draw(record, strain)));
}

#[test]
fn the_strains_reach_every_piece_and_every_kind_of_tension() {
    let mut pieces = BTreeSet::new();
    let mut tensions = BTreeSet::new();
    each_strain(&mut |record, strain| {
        let Ok(stress) = rules::stress_drawn(record, strain) else {
            return;
        };
        let law = Law::of(&Section::of(record).unwrap());
        pieces.insert(law.piece(strain.into(), 1));
        if strain < 0 {
            tensions.insert((stress.is_whole(), stress.is_zero()));
        }
    });
    let kinds = [(false, false), (true, false), (true, true)];
    assert_eq!(pieces, BTreeSet::from([1, 2, 3, 4, 5]));
    assert_eq!(tensions, BTreeSet::from(kinds));
}

fn refusals(each: fn(Take)) -> BTreeSet<u32> {
    let mut refusals = BTreeSet::new();
    each(&mut |record, strain| refusals.extend(rules::stress_drawn(record, strain).err()));
    refusals
}

#[test]
fn the_damaged_and_the_swept_records_reach_every_refusal() {
    assert_eq!(refusals(each_damaged), sections::refusals_and([18]));
    assert_eq!(refusals(each_swept), sections::refusals_and([]));
}

#[test]
fn every_error_in_what_is_refused_would_show_in_the_damaged_records() {
    let mut records = vec![];
    each_damaged(&mut |record, _| records.push(record.to_vec()));
    sections::assert_order_shows(records.iter().cloned());
    flange::assert_refusals_show(records.into_iter(), 50);
}

#[test]
fn the_sections_are_accepted_with_every_concrete_every_count_of_layers_and_no_fibre_help() {
    let sections = accepted();
    for section in &sections {
        assert_eq!(Section::of(&section.record()).as_ref(), Ok(section));
    }
    let concretes: BTreeSet<_> = sections.iter().map(|section| section.fck).collect();
    let counts: BTreeSet<_> = sections
        .iter()
        .map(|section| section.layers.len())
        .collect();
    let without = |section: &Section| (section.feq2 == 0, section.feq3 == 0);
    let helps: BTreeSet<_> = sections.iter().map(without).collect();
    assert!(concretes.into_iter().eq(TABLE.map(|concrete| concrete.fck)));
    assert!(counts.into_iter().eq(0..=8));
    assert_eq!(helps.len(), 4);
}

#[test]
fn the_sections_reach_every_kind_of_steel_and_of_flange() {
    steel::assert_every_kind(accepted().iter());
    flange::assert_every_kind(accepted().iter());
}

/// By the stress at -e1, which is s1.
#[test]
fn every_wrong_effective_depth_would_show_in_many_laws() {
    steel::assert_errors_show(accepted().iter(), 30, |section, wrong| {
        let (strain, stress) = Law::of(section).corners[2];
        let (num, den) = Law::by(section, wrong).stress(strain, 1);
        num != stress * den
    });
}

/// The library is x86-64 code, so only there can a Rust program link it.
#[cfg(target_arch = "x86_64")]
mod linked {
    use super::{assert_right, each_case, Drawn};

    #[link(name = "panel", kind = "static")]
    extern "C" {
        fn fw_draw(record: *const u8, len: usize, strain: i32) -> Drawn;
    }

    #[test]
    fn the_face_linked_gives_a_right_point() {
        each_case(|record, strain| {
            // It reads the record and touches no other memory of the caller's.
            let drawn = unsafe { fw_draw(record.as_ptr(), record.len(), strain) };
            assert_right(record, strain, drawn);
        });
    }
}
