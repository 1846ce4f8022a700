//! Series of beam results, for the tests of `fw_strength`.
use crate::random::Random;
use crate::rules::{Numbers, T10};
use std::iter::{repeat_n, successors};

/// Those that are tried, by kind.
pub fn all() -> impl Iterator<Item = Vec<u32>> {
    accepted()
        .chain(of_every_number())
        .chain(out_of_range())
        .chain(beside_steps())
        .chain(exact())
        .chain(of_exact_g())
}

/// So many results, each in its range: equal ones or close ones, those whose value is about 0, and those of which most have an end of the
/// range.
fn series(random: &mut Random, n: usize) -> Vec<u32> {
    let most = random.pick(&[50, 500, 5000, 20_000]);
    let below = random.within(1..=most);
    let middle = random.pick(&[below, below, below, below, 20_000]);
    let spread = random.pick(&[0, 1, 3, 10, middle / 4, middle / 2, middle, 40_000]);
    let result = |_| random.within(middle - spread..=middle + spread);
    let results = (0..n).map(result);
    results.map(|kpa| kpa.clamp(1, 20_000) as u32).collect()
}

/// Each number of results that Table 2 has, so many times.
fn columns(times: usize) -> impl Iterator<Item = usize> {
    let columns = T10.map(|(n, _)| n as usize);
    columns.into_iter().flat_map(move |n| repeat_n(n, times))
}

fn accepted() -> impl Iterator<Item = Vec<u32>> {
    let mut random = Random::new(31);
    columns(7500).map(move |n| series(&mut random, n))
}

/// Just outside the range, or far, or in it if only some of the bits counted.
fn bad(random: &mut Random) -> [u32; 6] {
    let good = random.within(1..=20_000) as u32;
    [0, 20_001, 65_536, good + 65_536, good | 1 << 31, u32::MAX]
}

/// Of as many results as Table 2 has, of any other number and of none: good ones, one that is bad among them, and bad ones alone.
fn of_every_number() -> impl Iterator<Item = Vec<u32>> {
    let mut random = Random::new(32);
    let numbers = (0..=20).flat_map(|n| repeat_n(n, 100));
    numbers.flat_map(move |n| {
        let good = series(&mut random, n);
        let bad = bad(&mut random);
        let mut mixed = good.clone();
        if let Some(last) = mixed.last_mut() {
            *last = random.pick(&bad);
        }
        let alone = bad.map(|bad| vec![bad; n]);
        [good, mixed].into_iter().chain(alone)
    })
}

/// One bad result, at each place.
fn out_of_range() -> impl Iterator<Item = Vec<u32>> {
    let mut random = Random::new(33);
    let places = columns(10).flat_map(|n| (0..n).map(move |place| (n, place)));
    places.flat_map(move |(n, place)| {
        let good = series(&mut random, n);
        bad(&mut random).map(|bad| {
            let mut series = good.clone();
            series[place] = bad;
            series
        })
    })
}

/// A series, then the same with one of its results 1 kPa on, or all of them, again and again to an end of the range, or for a while. Where
/// all go on, only f changes, and g and the value with it.
fn walk(random: &mut Random, n: usize) -> impl Iterator<Item = (Vec<u32>, Numbers)> {
    let place = random.within(0..=n as i32 - 1) as usize;
    let (from, to) = random.pick(&[(place, place + 1), (0, n)]);
    let on = random.pick(&[1, -1]);
    let walk = successors(Some(series(random, n)), move |series| {
        let mut next = series.clone();
        for result in &mut next[from..to] {
            *result = result.saturating_add_signed(on);
        }
        let within = next.iter().all(|result| (1..=20_000).contains(result));
        within.then_some(next)
    });
    walk.take(300).map(|series| {
        let numbers = Numbers::of(&series);
        (series, numbers)
    })
}

/// The numbers that go in steps of 1, or from 0 to 1.
const STEPS: [fn(&Numbers) -> i128; 5] = [
    |of| of.f,
    |of| of.s,
    |of| of.a,
    |of| of.g,
    |of| i128::from(of.value() < 0),
];

/// The last series before a step and the first after it, where a walk comes to one.
fn step(random: &mut Random, n: usize, number: fn(&Numbers) -> i128) -> Option<[Vec<u32>; 2]> {
    let mut walk = walk(random, n);
    let mut before = walk.next()?;
    for after in walk {
        if number(&after.1) != number(&before.1) {
            return Some([before.0, after.0]);
        }
        before = after;
    }
    None
}

fn beside_steps() -> impl Iterator<Item = Vec<u32>> {
    let mut random = Random::new(34);
    let cases = columns(500).flat_map(|n| STEPS.map(|number| (n, number)));
    let steps = cases.filter_map(move |(n, number)| step(&mut random, n, number));
    steps.flatten()
}

/// What chance hardly makes of a series: a name, the numbers of results that can have it, and whether a series has it.
pub type Exact = (&'static str, fn(usize) -> bool, fn(&Numbers) -> bool);

/// Where s is 0 a and g are too, which is not meant. Else a is exact with 4 results alone: no other number of them is a square.
pub const EXACTS: [Exact; 5] = [
    (
        "s is an exact root",
        |_| true,
        |of| of.s > 0 && of.has_exact_s(),
    ),
    (
        "a is an exact root",
        |n| n == 4,
        |of| of.s > 0 && of.has_exact_a(),
    ),
    (
        "g is an exact quotient",
        |_| true,
        |of| of.s > 0 && of.has_exact_g(),
    ),
    ("the value is 0", |_| true, |of| of.value() == 0),
    ("the value would be -1", |_| true, |of| of.value() == -1),
];

/// The first series of a walk that has it, where it comes to one soon.
fn exact() -> impl Iterator<Item = Vec<u32>> {
    let mut random = Random::new(35);
    let cases = columns(500).flat_map(|n| EXACTS.map(|exact| (n, exact)));
    let can_have = cases.filter(|(n, (_, can_have, _))| can_have(*n));
    can_have.filter_map(move |(n, (_, _, has))| {
        let mut walk = walk(&mut random, n);
        let (series, _) = walk.find(|(_, numbers)| has(numbers))?;
        Some(series)
    })
}

/// A series with all its results moved by as much, which leaves s and a, to an f at which g is exact; or none, where there is no such f.
fn moved_to_exact_g(random: &mut Random, n: usize) -> Option<Vec<u32>> {
    let series = series(random, n);
    let numbers = Numbers::of(&series);
    let [lowest, highest] = [series.iter().min()?, series.iter().max()?].map(|kpa| *kpa as i32);
    let is_exact = |by: &i32| {
        let f = numbers.f + i128::from(*by);
        numbers.s > 0 && Numbers { f, ..numbers }.has_exact_g()
    };
    let moves: Vec<i32> = (1 - lowest..=20_000 - highest).filter(is_exact).collect();
    (!moves.is_empty()).then(|| {
        let by = random.pick(&moves);
        let moved = series.iter().map(|kpa| kpa.saturating_add_signed(by));
        moved.collect()
    })
}

fn of_exact_g() -> impl Iterator<Item = Vec<u32>> {
    let mut random = Random::new(36);
    columns(250).filter_map(move |n| moved_to_exact_g(&mut random, n))
}
