//! `fw_imbalance`, `fw_moment` and `fw_depths` held to document 01's balance.
use fordwhistle_tests::flange::{self, Width};
use fordwhistle_tests::held::Held;
use fordwhistle_tests::lists::{cases, Case, ACCEPTED, DAMAGED};
use fordwhistle_tests::random::Random;
use fordwhistle_tests::rules::{self, Axis, Law, Section};
use fordwhistle_tests::sections;
use fordwhistle_tests::steel;
use std::cmp::Ordering;
use std::collections::BTreeSet;

/// Every depth of the grid and what is next to it, and depths that are on it in their lower 16 bits alone.
fn each_depth(mut take: impl FnMut(&[u8], u32)) {
    for (section, case) in ACCEPTED.iter() {
        let h = u32::from(section.h);
        let far = [65_537, 65_536 + h, u32::MAX];
        (0..=h + 1).chain(far).for_each(|x| take(&case.record, x));
    }
    for (case, x) in DAMAGED.iter().zip((0..=60).cycle()) {
        take(&case.record, x);
    }
}

fn each_row(mut take: impl FnMut(&Case, &[i64])) {
    let mut random = Random::new(7);
    for case in cases() {
        let words = case.list.as_ref().map_or(0, |list| 3 * list.len());
        for words in random.rooms(words) {
            let row: Vec<i64> = (0..words).map(|_| random.number() as i64).collect();
            take(case, &row);
        }
    }
}

#[test]
fn the_face_gives_the_rules_imbalance_and_moment() {
    let mut held = Held::new();
    each_depth(|record, x| held.amounts(record, x, rules::amounts(record, x)));
    held.finish();
}

#[test]
fn the_face_writes_the_rules_list() {
    let mut held = Held::new();
    each_row(|case, before| {
        let mut after = before.to_vec();
        let listed = rules::write(&case.record, &case.list, &mut after);
        held.depths(&case.record, before, listed, &after);
    });
    held.finish();
}

/// Sections of every kind, as many as exact sums have time for.
fn some() -> impl Iterator<Item = &'static (Section, Case)> {
    ACCEPTED.iter().step_by(10)
}

/// Of the answers that the face is held to.
#[test]
fn the_amounts_are_within_their_allowance_of_the_exact_sums() {
    for (section, case) in some() {
        let area = rules::area(section);
        for x in (1..=section.h).step_by(usize::from(section.h / 50)) {
            let exact = rules::exact(section, x);
            let answers = rules::amounts(&case.record, x.into());
            let (imbalance, moment) = (answers.imbalance.amount, answers.moment.amount);
            let within = exact.imbalance.apart(imbalance.into()) < area
                && exact.moment.apart(moment.into()) <= area * i128::from(section.h);
            assert!(within, "{section:?} at {x}: {answers:?} for {exact:?}");
        }
    }
}

/// The depths at which the exact imbalance and the next one are on the two sides of zero, each by the area or more.
fn clear_changes(section: &Section) -> Vec<i64> {
    let area = rules::area(section);
    let side = |x| {
        let exact = rules::exact(section, x).imbalance;
        i32::from(exact >= area) - i32::from(exact <= -area)
    };
    let sides: Vec<i32> = (1..=section.h).map(side).collect();
    let pairs = (1..).zip(sides.windows(2));
    let clear = pairs.filter(|(_, pair)| pair[0] * pair[1] == -1);
    clear.map(|(x, _)| x).collect()
}

#[test]
fn a_clear_change_of_sign_is_listed() {
    let mut clear = 0;
    for (section, case) in some() {
        let list = case.list.as_ref().unwrap();
        for x in clear_changes(section) {
            let listed = list.iter().any(|depth| depth[..2] == [x, 2]);
            assert!(listed, "{section:?} at {x}: {list:?}");
            clear += 1;
        }
    }
    assert!(clear > 100);
}

#[test]
fn the_depths_and_the_rows_reach_every_refusal() {
    let (mut depths, mut rows) = (BTreeSet::new(), BTreeSet::new());
    each_depth(|record, x| {
        depths.insert(rules::amounts(record, x).imbalance.refusal);
    });
    each_row(|case, row| {
        rows.insert(rules::write(&case.record, &case.list, &mut row.to_vec()).refusal);
    });
    assert_eq!(depths, sections::refusals_and([0, 18]));
    assert_eq!(rows, sections::refusals_and([0, 14, 15]));
}

#[test]
fn every_error_in_what_is_refused_would_show_in_the_damaged_records() {
    let records = || DAMAGED.iter().map(|case| case.record.clone());
    sections::assert_order_shows(records());
    flange::assert_refusals_show(records(), 10);
}

#[test]
fn the_lists_reach_both_kinds_alone_and_among_several_and_the_last_depth() {
    let mut reached = BTreeSet::new();
    for (section, case) in ACCEPTED.iter() {
        let list = case.list.as_ref().unwrap();
        for [x, kind, _] in list {
            reached.insert((*kind, *x == i64::from(section.h), list.len() > 2));
        }
    }
    for kind in [1, 2] {
        assert!(reached.contains(&(kind, false, false)));
        assert!(reached.contains(&(kind, false, true)));
    }
    assert!(reached.contains(&(1, true, false)));
}

#[test]
fn the_lists_reach_both_kinds_in_the_flange_at_its_edge_and_below_it() {
    let mut reached = BTreeSet::new();
    for (section, case) in ACCEPTED.iter().filter(|(section, _)| section.hf != 0) {
        for [x, kind, _] in case.list.as_ref().unwrap() {
            reached.insert((*kind, x.cmp(&section.hf.into())));
        }
    }
    let sides = [Ordering::Less, Ordering::Equal, Ordering::Greater];
    let every = [1, 2].map(|kind| sides.map(|side| (kind, side)));
    assert!(reached.iter().eq(every.as_flattened()));
}

#[test]
fn the_sections_reach_the_ends_of_their_ranges() {
    let ends = |number: fn(&Section) -> i32| {
        let numbers = ACCEPTED.iter().map(|(section, _)| number(section));
        (numbers.clone().min().unwrap(), numbers.max().unwrap())
    };
    assert_eq!(ends(|section| section.b.into()), (50, 2000));
    assert_eq!(ends(|section| section.h.into()), (50, 1000));
    assert_eq!(ends(|section| section.fck.into()), (20, 50));
    assert_eq!(ends(|section| section.fyk.into()), (400, 600));
    assert_eq!(ends(|section| section.feq2.into()), (0, 20_000));
    assert_eq!(ends(|section| section.feq3.into()), (0, 20_000));
    assert_eq!(ends(|section| section.load), (-10_000_000, 10_000_000));
    assert_eq!(ends(|section| section.layers.len() as i32), (0, 8));
}

fn sections() -> impl Iterator<Item = &'static Section> {
    ACCEPTED.iter().map(|(section, _)| section)
}

#[test]
fn the_sections_reach_every_kind_of_steel_and_of_flange() {
    steel::assert_every_kind(sections());
    flange::assert_every_kind(sections());
}

/// Whether another depth or kind is listed by another effective depth, limit or width of strips. A wrong program may have its moments from
/// elsewhere.
fn listed_otherwise(section: &Section, d: u16, limit: u16, width: Width) -> bool {
    let list = |d, limit, width: Width| {
        let law = Law::by(section, d);
        let sums = |x| rules::rounded_by(section, &law, &Axis::by(limit, x), width);
        let imbalances: Vec<i64> = (1..=section.h).map(|x| sums(x).imbalance).collect();
        rules::listed(&imbalances, |_| 0)
    };
    let right = list(
        section.effective_depth(),
        section.limit_depth(),
        Section::width,
    );
    list(d, limit, width) != right
}

#[test]
fn every_wrong_effective_depth_would_show_in_many_lists() {
    steel::assert_errors_show(sections(), 30, |section, wrong| {
        listed_otherwise(section, wrong, section.limit_depth(), Section::width)
    });
}

#[test]
fn every_wrong_width_would_show_in_many_lists() {
    flange::assert_widths_show(sections(), 30, |section, wrong| {
        let [d, limit] = [section.effective_depth(), section.limit_depth()];
        listed_otherwise(section, d, limit, wrong)
    });
}

#[test]
fn a_limit_at_the_centroid_would_show_in_many_lists() {
    let shows = |section: &&Section| {
        let d = section.effective_depth();
        listed_otherwise(section, d, d, Section::width)
    };
    let shown = sections().filter(shows).count();
    assert!(shown > 30, "{shown}");
}

/// The library is x86-64 code, so only there can a Rust program link it.
#[cfg(target_arch = "x86_64")]
mod linked {
    use super::{each_depth, each_row, rules};
    use rules::{Amount, Listed, Sums};

    #[link(name = "panel", kind = "static")]
    extern "C" {
        fn fw_imbalance(record: *const u8, len: usize, x: u32) -> Amount;
        fn fw_moment(record: *const u8, len: usize, x: u32) -> Amount;
        fn fw_depths(record: *const u8, len: usize, row: *mut i64, words: usize) -> Listed;
    }

    #[test]
    fn the_face_linked_gives_the_rules_imbalance_and_moment() {
        each_depth(|record, x| {
            // They read the record and touch no other memory of the caller's.
            let amounts = unsafe {
                Sums {
                    imbalance: fw_imbalance(record.as_ptr(), record.len(), x),
                    moment: fw_moment(record.as_ptr(), record.len(), x),
                }
            };
            assert_eq!(amounts, rules::amounts(record, x), "{record:?} at {x}");
        });
    }

    #[test]
    fn the_face_linked_writes_the_rules_list() {
        each_row(|case, before| {
            let (record, mut row, mut after) = (&case.record, before.to_vec(), before.to_vec());
            // It reads the record, writes the row and touches no other memory of the caller's.
            let listed =
                unsafe { fw_depths(record.as_ptr(), record.len(), row.as_mut_ptr(), row.len()) };
            let right = (rules::write(&case.record, &case.list, &mut after), after);
            assert_eq!((listed, row), right, "{record:?} with {before:?}");
        });
    }
}
