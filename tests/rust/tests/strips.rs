//! The sums over a section's strips, as `fw_imbalance` shows them, held to a division a strip at every depth; and the
//! signs of these sums, as `fw_depths` and `fw_first` show them, under loads that leave zero or next to it.
use fordwhistle_tests::held::Held;
use fordwhistle_tests::random::Random;
use fordwhistle_tests::rules::{self, Amount, List, Section};
use fordwhistle_tests::sections;
use std::collections::{BTreeMap, BTreeSet};
use std::sync::LazyLock;
use std::thread;

/// Some whose imbalances are next to each other at many depths, and low ones whose sums come near to a bound. Both bear
/// whole N, so that a load can leave exactly zero.
fn whole_sections() -> impl Iterator<Item = Section> {
    let mut random = Random::new(12);
    let level = (50..=1000).step_by(2).map(|h| (h, true));
    let low = (50..=150).flat_map(|h| [(h, false); 30]);
    level.chain(low).map(move |(h, level)| {
        let mut section = sections::accepted_of(&mut random, h);
        match level {
            true => sections::level(&mut section, &mut random),
            false => sections::flatten(&mut section, &mut random),
        }
        sections::bear_whole_newtons(&mut section, &mut random);
        section
    })
}

/// A section with its imbalances at the depths from 1 on.
struct Case {
    section: Section,
    imbalances: Vec<i64>,
}

impl Case {
    fn of(section: Section) -> Case {
        let imbalance = |x| rules::rounded(&section, x).imbalance;
        Case {
            imbalances: (1..=section.h).map(imbalance).collect(),
            section,
        }
    }

    /// The same with this load, each N of which takes 1000 mN off.
    fn under(&self, load: i32) -> Case {
        let more = 1000 * i64::from(load - self.section.load);
        Case {
            section: Section {
                load,
                ..self.section.clone()
            },
            imbalances: self.imbalances.iter().map(|n| n - more).collect(),
        }
    }

    /// The load in whole N that leaves the least at a depth, unless it or one next to it is out of range.
    fn load_at(&self, x: u16) -> Option<i32> {
        let left = (self.imbalances[usize::from(x) - 1] + 500).div_euclid(1000);
        let load = i64::from(self.section.load) + left;
        i32::try_from(load)
            .ok()
            .filter(|load| load.abs() < 10_000_000)
    }

    /// The depths to aim at, of those that a load balances: where the imbalances are flattest, since neighbours are
    /// then near to zero together; and the first, one of the first, the last or any. Above a shallow axis few strips
    /// are rounded, and the lower bound is as near to the sum as it comes.
    fn targets(&self, random: &mut Random) -> BTreeSet<u16> {
        let balanced = |x: &u16| self.load_at(*x).is_some();
        let depths: Vec<u16> = (1..=self.section.h).filter(balanced).collect();
        let [first @ .., last] = depths.as_slice() else {
            return BTreeSet::new();
        };
        let climb = |x: &&u16| {
            let at = usize::from(**x);
            (self.imbalances[at] - self.imbalances[at - 1]).abs()
        };
        let flattest = first.iter().min_by_key(climb).unwrap_or(last);
        let shallow = random.pick(&depths[..depths.len().min(10)]);
        let other = [depths[0], shallow, *last, random.pick(&depths)];
        BTreeSet::from([*flattest, random.pick(&other)])
    }

    fn list(&self) -> Result<List, u32> {
        let moment = |x| rules::rounded(&self.section, x).moment;
        Ok(rules::listed(&self.imbalances, moment))
    }

    fn amounts(&self) -> Vec<Amount> {
        let amount = |imbalance: &i64| Amount::of(Ok((*imbalance).into()));
        self.imbalances.iter().map(amount).collect()
    }
}

/// The first, the second and the third of every height: each has its own places where the law's pieces and the flange
/// end, and a strip that is counted with the wrong piece or width shows at some of them alone. Worked out once for every
/// load and every test, by threads of their own, since most tests have to wait for them.
static RANDOM: LazyLock<[Vec<Case>; 3]> = LazyLock::new(|| {
    let sections = |first| sections::of_every_height().skip(first).step_by(3);
    let cases = move |first| sections(first).map(Case::of).collect();
    thread::scope(|scope| {
        let threads = [0, 1, 2].map(|first| scope.spawn(move || cases(first)));
        threads.map(|thread| thread.join().unwrap())
    })
});

static WHOLE: LazyLock<Vec<Case>> = LazyLock::new(|| whole_sections().map(Case::of).collect());

/// Sections with loads that are aimed at zero: those that leave the least at a depth, 1 N less and 1 N more. Where zero
/// is near, a piece's boundary that is a strip off, or a bound that is too narrow, gives a wrong sign.
fn aimed() -> impl Iterator<Item = Case> {
    let mut random = Random::new(13);
    RANDOM[0].iter().chain(WHOLE.iter()).flat_map(move |case| {
        let loads = case.targets(&mut random).into_iter();
        let loads = loads.filter_map(|x| case.load_at(x));
        loads.flat_map(|load| [-1, 0, 1].map(|more| case.under(load + more)))
    })
}

/// A row with a word more than the list has, and what `fw_depths` makes of it.
fn row(record: &[u8], list: &Result<List, u32>) -> (Vec<i64>, rules::Listed, Vec<i64>) {
    let words = list.as_ref().map_or(0, |list| 3 * list.len());
    let before = vec![-1; words + 1];
    let mut after = before.clone();
    (before, rules::write(record, list, &mut after), after)
}

#[test]
fn the_face_sums_as_a_division_a_strip_does() {
    let mut held = Held::new();
    for case in RANDOM.iter().flatten() {
        held.imbalances(&case.section.record(), &case.amounts());
    }
    held.finish();
}

#[test]
fn the_face_has_the_signs_of_sums_that_are_aimed_at_zero() {
    let mut held = Held::new();
    for case in aimed().step_by(10) {
        held.imbalances(&case.section.record(), &case.amounts());
    }
    held.finish();
}

#[test]
fn the_face_lists_the_depths_of_sections_that_are_aimed_at_zero() {
    let mut held = Held::new();
    for case in aimed() {
        let (record, list) = (case.section.record(), case.list());
        let (before, listed, after) = row(&record, &list);
        held.first(&record, rules::first(&record, &list));
        held.depths(&record, &before, listed, &after);
    }
    held.finish();
}

/// Rounding moves a sum by less than the true area, and bounds are no further apart: an imbalance of more has its sign by
/// them, one of zero by its strips alone. One that is next to zero, or an open one, has it by either.
#[test]
fn the_bounds_and_the_strips_decide_thousands_of_the_aimed_signs() {
    let mut reached = BTreeMap::new();
    for case in aimed() {
        let area = case.section.true_area() as i64;
        let rib = case.section.b < case.section.bf;
        for imbalance in &case.imbalances {
            let far = match imbalance.abs() {
                0..=1500 => "at zero",
                size if size > area => "by bounds",
                _ => "open",
            };
            *reached.entry((rib, imbalance.signum(), far)).or_insert(0) += 1;
        }
    }
    // Of sections as wide all over, then of ribs.
    for (sign, far, least) in [
        (0, "at zero", [4915, 2486]),
        (-1, "at zero", [6621, 3582]),
        (1, "at zero", [6600, 3583]),
        (-1, "open", [37_018, 16_796]),
        (1, "open", [28_543, 14_434]),
        (-1, "by bounds", [1_344_481, 778_803]),
        (1, "by bounds", [2_535_194, 1_359_930]),
    ] {
        let depths = [false, true].map(|rib| reached[&(rib, sign, far)]);
        let enough = depths
            .iter()
            .zip(least)
            .all(|(depths, least)| *depths >= least);
        assert!(enough, "{depths:?} {far} of sign {sign}");
    }
}

/// The library is x86-64 code, so only there can a Rust program link it.
#[cfg(target_arch = "x86_64")]
mod linked {
    use super::{aimed, row, rules::Listed};

    #[link(name = "panel", kind = "static")]
    extern "C" {
        fn fw_depths(record: *const u8, len: usize, row: *mut i64, words: usize) -> Listed;
    }

    #[test]
    fn the_face_linked_lists_the_depths_of_sections_that_are_aimed_at_zero() {
        for case in aimed() {
            let record = case.section.record();
            let (mut written, listed, after) = row(&record, &case.list());
            let words = written.len();
            // It reads the record, writes the row and touches no other memory of the caller's.
            let answer =
                unsafe { fw_depths(record.as_ptr(), record.len(), written.as_mut_ptr(), words) };
            assert_eq!((answer, written), (listed, after), "{:?}", case.section);
        }
    }
}
