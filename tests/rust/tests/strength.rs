//! `fw_strength` held to document 02's [7].
use fordwhistle_tests::held::Held;
use fordwhistle_tests::random::Random;
use fordwhistle_tests::rules::{self, Numbers, Strength, T10};
use fordwhistle_tests::series;
use std::collections::BTreeSet;
use std::sync::LazyLock;

/// Each series with the same results in another order, and the answer to both.
static CASES: LazyLock<Vec<([Vec<u32>; 2], Strength)>> = LazyLock::new(|| {
    let mut random = Random::new(37);
    let case = |series: Vec<u32>| {
        let answer = rules::strength(&series);
        let shuffled = shuffled(&mut random, series.clone());
        ([series, shuffled], answer)
    };
    series::all().map(case).collect()
});

fn shuffled(random: &mut Random, mut series: Vec<u32>) -> Vec<u32> {
    for place in 1..series.len() {
        series.swap(place, random.within(0..=place as i32) as usize);
    }
    series
}

#[test]
fn the_face_gives_the_rules_strength_in_any_order() {
    let mut held = Held::new();
    for (orders, answer) in CASES.iter() {
        for series in orders {
            held.strength(series, *answer);
        }
    }
    held.finish();
}

#[test]
fn the_rules_give_the_figures() {
    let Numbers { s, a, g, .. } = Numbers::of(&[4000, 4200, 4400]);
    assert_eq!((s, a, g), (200, 219, 347));
    for (series, refusal, value) in [
        (vec![4000, 4200, 4400], 0, 3634),
        (vec![3000, 4000, 5000, 6000], 0, 821),
        (vec![1718, 2734, 3256], 0, 0),
        (vec![2698, 4495, 5098], 23, 0),
        (vec![1, 1, 2], 0, 1),
        (vec![0; 7], 21, 0),
        (vec![0, 1, 2], 22, 0),
    ] {
        let answer = rules::strength(&series);
        assert_eq!((answer.refusal, answer.value), (refusal, value));
    }
}

#[test]
fn the_series_reach_every_refusal_of_every_number_of_results() {
    let reached: BTreeSet<(usize, u32)> = (CASES.iter())
        .map(|([series, _], answer)| (series.len(), answer.refusal))
        .collect();
    let is_column = |n: usize| T10.iter().any(|(column, _)| *column == n as i128);
    let refusals = |n: usize| match is_column(n) {
        true => [0, 22, 23].as_slice(),
        false => &[21],
    };
    let every = (0..=20).flat_map(|n| refusals(n).iter().map(move |refusal| (n, *refusal)));
    assert!(reached.into_iter().eq(every));
    assert!(CASES.len() >= 100_000);
}

/// Where it is the only one, so that nothing else refuses the series.
#[test]
fn the_series_have_a_bad_result_at_every_place() {
    let mut reached = BTreeSet::new();
    for ([series, _], _) in CASES.iter().filter(|(_, answer)| answer.refusal == 22) {
        let is_bad = |(_, result): &(usize, &u32)| !(1..=20_000).contains(*result);
        let bad: Vec<_> = series.iter().enumerate().filter(is_bad).collect();
        if let [(place, result)] = bad[..] {
            reached.insert((series.len(), place, *result));
        }
    }
    for (n, _) in T10 {
        for place in 0..n as usize {
            for result in [0, 20_001, 65_536, u32::MAX] {
                assert!(reached.contains(&(n as usize, place, result)));
            }
        }
    }
}

#[test]
fn the_series_have_what_is_exact_with_every_number_of_results_that_can() {
    let passed = (CASES.iter()).filter(|(_, answer)| [0, 23].contains(&answer.refusal));
    let numbers: Vec<Numbers> = passed.map(|([series, _], _)| Numbers::of(series)).collect();
    for (name, can_have, has) in series::EXACTS {
        for (n, _) in T10 {
            let reached = numbers.iter().filter(|of| of.n == n && has(of)).count();
            assert_eq!(
                reached > 20,
                can_have(n as usize),
                "{name}: {reached} of {n}"
            );
        }
    }
}

/// The library is x86-64 code, so only there can a Rust program link it.
#[cfg(target_arch = "x86_64")]
mod linked {
    use super::{Strength, CASES};

    #[link(name = "panel", kind = "static")]
    extern "C" {
        fn fw_strength(results: *const u32, n: usize) -> Strength;
    }

    #[test]
    fn the_face_linked_gives_the_rules_strength() {
        for ([series, _], answer) in CASES.iter() {
            // It reads the results and touches no other memory of the caller's.
            let given = unsafe { fw_strength(series.as_ptr(), series.len()) };
            assert_eq!(given, *answer, "{series:?}");
        }
    }
}
