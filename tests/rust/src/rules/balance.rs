//! Strains, strips and balance. Each strip and bar layer keeps its exact stress; it is rounded where the rules' sums are asked for, and the
//! exact sums are made of the same.
use super::law::Law;
use super::section::{bars, Section};
use crate::fraction::Fraction;

/// `fw_amount`, as the header lays it out.
#[repr(C)]
#[derive(Debug, Clone, Copy, PartialEq, Eq)]
pub struct Amount {
    pub refusal: u32,
    pub amount: i64,
}

impl Amount {
    /// Of a sum or a refusal.
    pub fn of(sum: Result<i128, u32>) -> Amount {
        let (refusal, amount) = match sum {
            Ok(sum) => (0, i64::try_from(sum).expect("amounts fit in 64 bits")),
            Err(refusal) => (refusal, 0),
        };
        Amount { refusal, amount }
    }
}

/// `fw_listed`.
#[repr(C)]
#[derive(Debug, Clone, Copy, PartialEq, Eq)]
pub struct Listed {
    pub refusal: u32,
    pub count: u32,
    pub work: u32,
}

/// `fw_first_depth`.
#[repr(C)]
#[derive(Debug, Clone, Copy, PartialEq, Eq)]
pub struct First {
    pub refusal: u32,
    pub depth: u32,
    pub kind: u32,
    pub work: u32,
    pub moment: i64,
}

/// Imbalance in mN and moment in mN half-mm.
#[derive(Debug, Clone, Copy, PartialEq, Eq)]
pub struct Sums<T> {
    pub imbalance: T,
    pub moment: T,
}

/// A strip or a bar layer: its area, twice its distance above mid-height, its exact stress.
struct Share {
    area: i64,
    lever: i64,
    stress: (i64, i64),
}

/// The neutral axis at depth x: the strain at depth y is slope (x - y) / over.
pub struct Axis {
    x: i64,
    pub slope: i64,
    over: i64,
}

impl Axis {
    /// Of an accepted section at a depth on the grid.
    pub fn of(section: &Section, x: u16) -> Axis {
        Axis::by(section.limit_depth(), x)
    }

    /// Where the strain is 10 per mille at this depth.
    pub fn by(limit: u16, x: u16) -> Axis {
        let [limit, x] = [limit, x].map(i64::from);
        let (slope, over) = match 7 * limit > 27 * x {
            true => (10_000, limit - x),
            false => (3500, x),
        };
        Axis { x, slope, over }
    }

    /// Numerator and denominator of the strain at half of this: twice a depth is whole in the middle of a strip too.
    pub fn strain(&self, twice: i64) -> (i64, i64) {
        (self.slope * (2 * self.x - twice), 2 * self.over)
    }
}

/// Every strip and bar layer of an accepted section, by this law, this neutral axis and these widths.
fn shares(
    section: &Section,
    law: &Law,
    axis: &Axis,
    width: impl Fn(&Section, u16) -> u16,
) -> Vec<Share> {
    let h = i64::from(section.h);
    let share = |area, twice, stress: fn(&Law, i64, i64) -> (i64, i64)| {
        let (p, q) = axis.strain(twice);
        Share {
            area,
            lever: h - twice,
            stress: stress(law, p, q),
        }
    };
    let strips = (0..section.h).map(|strip| {
        let width = width(section, strip);
        share(width.into(), 2 * i64::from(strip) + 1, Law::stress)
    });
    let bars = section.layers.iter().map(|layer| {
        share(
            layer.area.into(),
            2 * i64::from(layer.depth),
            Law::bar_stress,
        )
    });
    strips.chain(bars).collect()
}

/// The rules' sums of an accepted section at a depth on the grid: a division for each strip and bar layer.
pub fn rounded(section: &Section, x: u16) -> Sums<i64> {
    let (law, axis) = (Law::of(section), Axis::of(section, x));
    rounded_by(section, &law, &axis, Section::width)
}

/// The same by another law, another neutral axis or other widths, for a test to put them wrong.
pub fn rounded_by(
    section: &Section,
    law: &Law,
    axis: &Axis,
    width: impl Fn(&Section, u16) -> u16,
) -> Sums<i64> {
    let mut sums = Sums {
        imbalance: -1000 * i64::from(section.load),
        moment: 0,
    };
    for share in shares(section, law, axis, width) {
        let (num, den) = share.stress;
        let force = share.area * (num / den);
        sums.imbalance += force;
        sums.moment += share.lever * force;
    }
    sums
}

/// The exact sums: the same with unrounded stresses.
pub fn exact(section: &Section, x: u16) -> Sums<Fraction> {
    let (law, axis) = (Law::of(section), Axis::of(section, x));
    let shares = shares(section, &law, &axis, Section::width);
    let force = |share: &Share| Fraction::from(share.stress).times(share.area.into());
    let load = Fraction::new(-1000 * i128::from(section.load), 1);
    Sums {
        imbalance: shares.iter().map(force).chain([load]).sum(),
        moment: shares
            .iter()
            .map(|share| force(share).times(share.lever.into()))
            .sum(),
    }
}

/// The area of concrete and bars: rounding may take one kPa from all of it.
pub fn area(section: &Section) -> i128 {
    section.true_area() + bars(&section.layers)
}

/// Listed depths: x, kind, moment.
pub type List = Vec<[i64; 3]>;

/// Those of an accepted section.
fn list(section: &Section) -> List {
    let sums: Vec<Sums<i64>> = (1..=section.h).map(|x| rounded(section, x)).collect();
    let imbalances: Vec<i64> = sums.iter().map(|sums| sums.imbalance).collect();
    listed(&imbalances, |x| sums[usize::from(x) - 1].moment)
}

/// Those where the imbalances at the depths from 1 on are these.
pub fn listed(imbalances: &[i64], moment: impl Fn(u16) -> i64) -> List {
    let signs = imbalances.iter().map(|imbalance| imbalance.signum());
    // What stands after the last depth is opposite to nothing.
    let signs: Vec<i64> = signs.chain([0]).collect();
    let kind = |pair: &[i64]| match (pair[0], pair[0] * pair[1]) {
        (0, _) => Some(1),
        (_, -1) => Some(2),
        _ => None,
    };
    (1..)
        .zip(signs.windows(2).map(kind))
        .filter_map(|(x, kind)| Some([x.into(), kind?, moment(x)]))
        .collect()
}

/// What `fw_imbalance` and `fw_moment` answer.
pub fn amounts(record: &[u8], x: u32) -> Sums<Amount> {
    let sums = Section::of(record).and_then(|section| {
        let on_grid = (1..=u32::from(section.h)).contains(&x);
        on_grid.then(|| rounded(&section, x as u16)).ok_or(18)
    });
    Sums {
        imbalance: Amount::of(sums.map(|sums| sums.imbalance.into())),
        moment: Amount::of(sums.map(|sums| sums.moment.into())),
    }
}

/// The listed depths of a record's section, or the refusal.
pub fn list_of(record: &[u8]) -> Result<List, u32> {
    Section::of(record).map(|section| list(&section))
}

/// The stresses of the imbalances at the depths from 1 to the last that is looked at: strips plus layers at each. None are taken of a
/// section that is refused.
fn work(record: &[u8], last: impl Fn(&Section) -> i64) -> u32 {
    let each = |section: &Section| i64::from(section.h) + section.layers.len() as i64;
    Section::of(record).map_or(0, |section| (last(&section) * each(&section)) as u32)
}

/// What `fw_first` answers of a record where this is the list.
pub fn first(record: &[u8], list: &Result<List, u32>) -> First {
    let refused = |refusal| (refusal, [0; 3]);
    let (refusal, [depth, kind, moment]) = match list {
        Ok(list) => list.first().map_or(refused(14), |first| (0, *first)),
        Err(refusal) => refused(*refusal),
    };
    // A zero shows at its own depth, a change of sign at the next, and that there is none at the last.
    let last = |section: &Section| match kind {
        1 => depth,
        2 => depth + 1,
        _ => section.h.into(),
    };
    First {
        refusal,
        depth: depth as u32,
        kind: kind as u32,
        work: work(record, last),
        moment,
    }
}

/// What `fw_depths` answers of a record and writes where this is the list.
pub fn write(record: &[u8], list: &Result<List, u32>, row: &mut [i64]) -> Listed {
    let (refusal, count) = match list {
        Ok(list) => (write_words(list.as_flattened(), row), list.len() as u32),
        Err(refusal) => (*refusal, 0),
    };
    Listed {
        refusal,
        count,
        work: work(record, |section| section.h.into()),
    }
}

/// Writes the words of a list, or refuses.
fn write_words(words: &[i64], row: &mut [i64]) -> u32 {
    match row.get_mut(..words.len()) {
        _ if words.is_empty() => 14,
        None => 15,
        Some(start) => {
            start.copy_from_slice(words);
            0
        }
    }
}
