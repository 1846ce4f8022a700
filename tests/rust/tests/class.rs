//! `fw_class` held to document 01's rule.
use fordwhistle_tests::held::Held;
use fordwhistle_tests::rules::{self, LETTERS, STEPS};
use std::collections::BTreeSet;

/// A number and its neighbours, those of 16 bits.
fn around(n: u32) -> impl Iterator<Item = u16> {
    (n.saturating_sub(1)..=n + 1).filter_map(|k| u16::try_from(k).ok())
}

/// Every fR3 at which a letter of some step begins, ± 1, a spread over the rest, and both ends.
fn thirds() -> BTreeSet<u16> {
    let bounds = STEPS.into_iter().flat_map(|step| {
        LETTERS
            .into_iter()
            .flat_map(move |(_, tenths)| around(tenths * step / 10))
    });
    bounds
        .chain((0..=u16::MAX).step_by(331))
        .chain([u16::MAX])
        .collect()
}

/// Every fR1 with those, and every fR3 at each step, ± 1.
fn cases() -> impl Iterator<Item = (u16, u16)> {
    let thirds: Vec<u16> = thirds().into_iter().collect();
    let across =
        (0..=u16::MAX).flat_map(move |fr1| thirds.clone().into_iter().map(move |fr3| (fr1, fr3)));
    let along = STEPS.into_iter().flat_map(around);
    across.chain(along.flat_map(|fr1| (0..=u16::MAX).map(move |fr3| (fr1, fr3))))
}

#[test]
fn the_face_gives_the_rules_class() {
    let mut held = Held::new();
    for (fr1, fr3) in cases() {
        held.class(fr1, fr3, rules::class(fr1, fr3));
    }
    held.finish();
}

#[test]
fn the_cases_reach_every_step_with_every_letter_and_the_refusal() {
    let reached: BTreeSet<_> = cases().map(|(fr1, fr3)| rules::class(fr1, fr3)).collect();
    assert_eq!(reached.len(), STEPS.len() * LETTERS.len() + 1);
}

/// The library is x86-64 code, so only there can a Rust program link it.
#[cfg(target_arch = "x86_64")]
mod linked {
    use super::{cases, rules};

    #[link(name = "panel", kind = "static")]
    extern "C" {
        fn fw_class(fr1: u16, fr3: u16) -> rules::Class;
    }

    #[test]
    fn the_face_linked_gives_the_rules_class() {
        for (fr1, fr3) in cases() {
            // It takes any input and touches no memory of the caller's.
            let class = unsafe { fw_class(fr1, fr3) };
            assert_eq!(class, rules::class(fr1, fr3), "fR1 {fr1}, fR3 {fr3}");
        }
    }
}
