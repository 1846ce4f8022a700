//! Shear. Roots are floating ones that are corrected, and not found by their digits; the numbers stay apart until they are summed, so that
//! a test can put one of them wrong.
use super::balance::Amount;
use super::law::Law;
use super::section::{bars, Section};

/// k, c and kf in thousandths, axial and fibres in kPa, b d in mm², stirrups and struts in mN.
#[derive(Debug, Clone, Copy)]
pub struct Shear {
    pub k: i128,
    pub c: i128,
    pub axial: i128,
    pub kf: i128,
    pub fibres: i128,
    pub bd: i128,
    pub stirrups: i128,
    pub struts: i128,
}

impl Shear {
    /// Of an accepted section with bars.
    pub fn of(section: &Section) -> Shear {
        Shear::by(section, section.effective_depth())
    }

    /// The same with another effective depth, for a test to put it wrong.
    pub fn by(section: &Section, d: u16) -> Shear {
        let [b, d] = [section.b, d].map(i128::from);
        let [fck, feq3, asw, s] =
            [section.fck, section.feq3, section.asw, section.spacing].map(i128::from);
        let (bd, load) = (b * d, 1000 * i128::from(section.load));
        let kf = unlimited_kf(section, q(section), bd).min(1500);
        Shear {
            k: unlimited_k(d).min(2000),
            c: c(bars(&section.steel()), bd, fck),
            axial: (15 * load).div_euclid(100 * section.true_area()),
            kf,
            fibres: 12 * feq3 / 100 * (1600 - d).max(1000) * kf / 1_000_000,
            bd,
            stirrups: match asw {
                0 => 0,
                _ => 9 * asw * d * i128::from(Law::of(section).fyd) / (10 * s),
            },
            struts: (700 - 5 * fck).max(500) * (2000 * fck / 3) * 9 * bd / 20_000,
        }
    }

    /// With its axial share, in kPa. What is below 0 counts as 0.
    pub fn concrete(&self) -> i128 {
        12 * self.k * self.c / 100_000 + self.axial
    }

    pub fn resistance(&self) -> i128 {
        let sum = (self.concrete().max(0) + self.fibres) * self.bd + self.stirrups;
        sum.min(self.struts)
    }
}

/// k before its limit.
pub fn unlimited_k(d: i128) -> i128 {
    1000 + root(2, d, 200_000_000)
}

/// c, which rises with As over b d, so that its limit is the root at 2 %.
pub fn c(bars: i128, bd: i128, fck: i128) -> i128 {
    unlimited_c(bars, bd, fck).min(unlimited_c(1, 50, fck))
}

/// c before its limit.
pub fn unlimited_c(bars: i128, bd: i128, fck: i128) -> i128 {
    root(3, bd, 100_000_000_000 * bars * fck)
}

pub fn q(section: &Section) -> i128 {
    let [b, hf, bf] = [section.b, section.hf, section.bf].map(i128::from);
    (bf - b).min(3 * hf).min(3 * b)
}

/// kf before its limit, by q. Where hf is 0 it is 1000 by any.
pub fn unlimited_kf(section: &Section, q: i128, bd: i128) -> i128 {
    1000 + 1000 * q * i128::from(section.hf) / bd
}

/// The largest number that fits: its square or cube, times `by`, is at most `bound`. The floating root is within 1 of it.
fn root(power: u32, by: i128, bound: i128) -> i128 {
    let fits = |n: &i128| n.pow(power) * by <= bound;
    let floating = (bound as f64 / by as f64).powf(1.0 / f64::from(power));
    let root = (0..floating as i128 + 2).rev().find(fits).unwrap();
    assert!(!fits(&(root + 1)));
    root
}

/// What `fw_shear` answers.
pub fn shear(record: &[u8]) -> Amount {
    let section = Section::of(record);
    Amount::of(section.and_then(|section| match section.layers.is_empty() {
        true => Err(16),
        false => Ok(Shear::of(&section).resistance()),
    }))
}
