//! `fw_first` held to the first depth of document 01's list, and the work that it and the list report.
use fordwhistle_tests::held::Held;
use fordwhistle_tests::lists::{cases, Case, ACCEPTED};
use fordwhistle_tests::rules::{self, First, List, Section};
use fordwhistle_tests::sections;
use std::collections::BTreeSet;

#[test]
fn the_face_gives_the_first_depth_of_the_rules_list() {
    let mut held = Held::new();
    cases().for_each(|case| held.first(&case.record, rules::first(&case.record, &case.list)));
    held.finish();
}

#[test]
fn the_records_reach_every_refusal() {
    let refusals: BTreeSet<u32> = cases()
        .map(|case| rules::first(&case.record, &case.list).refusal)
        .collect();
    assert_eq!(refusals, sections::refusals_and([0, 14]));
}

/// What a wrong program takes for the first of a list that is not empty, or none.
type Error = (&'static str, fn(&Section, &List) -> Option<[i64; 3]>);

fn of_kind(list: &List, wanted: i64) -> Option<[i64; 3]> {
    list.iter().copied().find(|[_, kind, _]| *kind == wanted)
}

fn moment(section: &Section, x: i64) -> i64 {
    rules::rounded(section, x as u16).moment
}

const ERRORS: [Error; 8] = [
    ("the deepest", |_, list| list.last().copied()),
    ("the second", |_, list| {
        Some(*list.get(1).unwrap_or(&list[0]))
    }),
    ("kind 2 at the last depth", |section, list| {
        let ([x, kind, moment], last) = (list[0], i64::from(section.h));
        Some([x, if x == last { 2 } else { kind }, moment])
    }),
    ("the moment at the next depth", |section, list| {
        let [x, kind, _] = list[0];
        let next = (x + 1).min(section.h.into());
        Some([x, kind, moment(section, next)])
    }),
    ("the moment of the deepest", |_, list| {
        let ([x, kind, _], last) = (list[0], list[list.len() - 1]);
        Some([x, kind, last[2]])
    }),
    ("a zero is passed over", |_, list| of_kind(list, 2)),
    ("a change of sign is passed over", |_, list| {
        of_kind(list, 1)
    }),
    ("a zero at the last depth is none", |section, list| {
        let last = i64::from(section.h);
        list.iter().copied().find(|[x, ..]| *x < last)
    }),
];

#[test]
fn every_wrong_first_depth_would_show_in_many_sections() {
    for (error, wrong) in ERRORS {
        let shows = |(section, case): &&(Section, Case)| {
            let list = case.list.as_ref().unwrap();
            let list = Some(list).filter(|list| !list.is_empty());
            list.is_some_and(|list| wrong(section, list) != Some(list[0]))
        };
        let shown = ACCEPTED.iter().filter(shows).count();
        assert!(shown > 30, "{error}: {shown}");
    }
}

/// What a wrong program reports as the work of the first depth and of the list, for these right two.
type WorkError = (&'static str, fn(&Section, &List, [u32; 2]) -> [u32; 2]);

fn each(section: &Section) -> u32 {
    u32::from(section.h) + section.layers.len() as u32
}

const WORK_ERRORS: [WorkError; 6] = [
    (
        "a change of sign at its own depth",
        |section, list, works| match list.first() {
            Some([x, 2, _]) => [*x as u32 * each(section), works[1]],
            _ => works,
        },
    ),
    ("none beside 14", |_, list, works| {
        works.map(|work| if list.is_empty() { 0 } else { work })
    }),
    ("strips alone", |section, _, works| {
        works.map(|work| work / each(section) * u32::from(section.h))
    }),
    (
        "listed depths for those looked at",
        |section, list, works| [works[0], list.len() as u32 * each(section)],
    ),
    ("of the list what the first takes", |_, _, works| {
        [works[0]; 2]
    }),
    ("of the first what the list takes", |_, _, works| {
        [works[1]; 2]
    }),
];

#[test]
fn every_wrong_work_would_show_in_many_sections() {
    for (error, wrong) in WORK_ERRORS {
        let shows = |(section, case): &&(Section, Case)| {
            let first = rules::first(&case.record, &case.list).work;
            let works = [first, rules::write(&case.record, &case.list, &mut []).work];
            wrong(section, case.list.as_ref().unwrap(), works) != works
        };
        let shown = ACCEPTED.iter().filter(shows).count();
        assert!(shown > 30, "{error}: {shown}");
    }
}

#[test]
fn the_first_depths_reach_both_kinds_alone_and_before_others_and_both_ends_of_the_grid() {
    let (mut inside, mut ends) = (BTreeSet::new(), BTreeSet::new());
    for (section, case) in ACCEPTED.iter() {
        let list = case.list.as_ref().unwrap();
        match (list.first(), i64::from(section.h)) {
            (Some([1, kind, _]), _) => ends.insert((*kind, "first")),
            (Some([x, kind, _]), h) if *x == h => ends.insert((*kind, "last")),
            (Some([_, kind, _]), _) => inside.insert((*kind, list.len() > 1)),
            (None, _) => false,
        };
    }
    let both = [1, 2].map(|kind| [false, true].map(|others| (kind, others)));
    assert!(inside.iter().eq(both.as_flattened()));
    assert_eq!(
        ends,
        BTreeSet::from([(1, "first"), (2, "first"), (1, "last")])
    );
}

/// The library is x86-64 code, so only there can a Rust program link it.
#[cfg(target_arch = "x86_64")]
mod linked {
    use super::{cases, rules, First};

    #[link(name = "panel", kind = "static")]
    extern "C" {
        fn fw_first(record: *const u8, len: usize) -> First;
    }

    #[test]
    fn the_face_linked_gives_the_first_depth_of_the_rules_list() {
        for case in cases() {
            // It reads the record and touches no other memory of the caller's.
            let first = unsafe { fw_first(case.record.as_ptr(), case.record.len()) };
            assert_eq!(
                first,
                rules::first(&case.record, &case.list),
                "{:?}",
                case.record
            );
        }
    }
}
