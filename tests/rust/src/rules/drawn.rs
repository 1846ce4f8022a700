//! The point that the panel draws, as the header lays it out.
use super::law::Law;
use super::section::Section;
use crate::fraction::Fraction;

#[repr(C)]
#[derive(Debug, Clone, Copy)]
pub struct Point {
    pub strain: f64,
    pub stress: f64,
}

/// `fw_drawn`.
#[repr(C)]
#[derive(Debug, Clone, Copy)]
pub struct Drawn {
    pub refusal: u32,
    pub point: Point,
}

impl Drawn {
    /// To compare by: floats are equal where one is minus zero and the other plus zero.
    pub fn bits(&self) -> (u32, u64, u64) {
        let Point { strain, stress } = self.point;
        (self.refusal, strain.to_bits(), stress.to_bits())
    }
}

/// The exact stress of a record's section at a strain, or the refusal.
pub fn stress_drawn(record: &[u8], strain: i32) -> Result<Fraction, u32> {
    let section = Section::of(record)?;
    if !(-10_000..=3500).contains(&strain) {
        return Err(18);
    }
    Ok(Law::of(&section).stress(strain.into(), 1).into())
}

pub fn draw(record: &[u8], strain: i32) -> Drawn {
    let (refusal, strain, stress) = match stress_drawn(record, strain) {
        Ok(stress) => (0, f64::from(strain), stress.nearest()),
        Err(refusal) => (refusal, 0.0, 0.0),
    };
    Drawn {
        refusal,
        point: Point { strain, stress },
    }
}
