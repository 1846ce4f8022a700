//! What a section is, what is refused of it, and its record.
use super::law::TABLE;
use crate::fraction::Fraction;
use std::ops::RangeInclusive;

#[derive(Debug, Clone, Copy, PartialEq, Eq)]
pub struct Layer {
    pub depth: u16,
    pub area: u16,
}

#[derive(Debug, Clone, PartialEq, Eq)]
pub struct Section {
    pub b: u16,
    pub h: u16,
    pub fck: u16,
    pub fyk: u16,
    pub feq2: u16,
    pub feq3: u16,
    pub load: i32,
    pub asw: u16,
    pub spacing: u16,
    pub layers: Vec<Layer>,
    /// The flange's height, 0 where there is none.
    pub hf: u16,
    /// The flange's width, 0 where there is none.
    pub bf: u16,
}

/// What a lone record is refused by, in the order of the tests.
pub const REFUSALS: [u32; 9] = [6, 7, 8, 20, 9, 10, 11, 12, 13];

/// How long a record of so many layers is. A flange, where its height is not 0, takes as many bytes as a layer.
pub fn record_length(m: u64, hf: u64) -> u64 {
    24 + 4 * (m + u64::from(hf != 0))
}

impl Section {
    /// The section of a lone record, or its refusal.
    pub fn of(record: &[u8]) -> Result<Section, u32> {
        let section = Section::read(record).ok_or(6u32)?;
        section.refusal().map_or(Ok(section), Err)
    }

    /// The section of a lone record, unless that is refused 6.
    pub fn read(record: &[u8]) -> Option<Section> {
        let words: Vec<u16> = record
            .chunks_exact(2)
            .map(|word| u16::from_le_bytes([word[0], word[1]]))
            .collect();
        let &[b, h, fck, fyk, feq2, feq3, low, high, asw, spacing, m, hf, ref rest @ ..] =
            words.as_slice()
        else {
            return None;
        };
        let (bars, flange) = rest.split_at_checked(2 * usize::from(m))?;
        let bf = match (hf, flange) {
            (0, []) => 0,
            (1.., &[bf, 0]) => bf,
            _ => return None,
        };
        let layer = |bar: &[u16]| Layer {
            depth: bar[0],
            area: bar[1],
        };
        let right = m <= 8 && record.len().is_multiple_of(2);
        right.then(|| Section {
            b,
            h,
            fck,
            fyk,
            feq2,
            feq3,
            load: (u32::from(high) << 16 | u32::from(low)) as i32,
            asw,
            spacing,
            layers: bars.chunks_exact(2).map(layer).collect(),
            hf,
            bf,
        })
    }

    /// The bytes of its record.
    pub fn record(&self) -> Vec<u8> {
        let load = self.load as u32;
        let head = [
            self.b,
            self.h,
            self.fck,
            self.fyk,
            self.feq2,
            self.feq3,
            load as u16,
            (load >> 16) as u16,
            self.asw,
            self.spacing,
            self.layers.len() as u16,
            self.hf,
        ];
        let bars = self.layers.iter().flat_map(|bar| [bar.depth, bar.area]);
        let flange = [self.bf, 0].into_iter().filter(|_| self.hf != 0);
        head.into_iter()
            .chain(bars)
            .chain(flange)
            .flat_map(u16::to_le_bytes)
            .collect()
    }

    /// The first of its refusals.
    pub fn refusal(&self) -> Option<u32> {
        self.refusals().first().copied()
    }

    /// Those of 7 to 13 and 20 that hold, in the order of the tests.
    pub fn refusals(&self) -> Vec<u32> {
        let inside = |limits: RangeInclusive<u16>, n| limits.contains(&n);
        let lines = [
            (7, TABLE.iter().any(|concrete| concrete.fck == self.fck)),
            (8, inside(50..=2000, self.b) && inside(50..=1000, self.h)),
            (20, self.hf == 0 || self.flange_right()),
            (9, inside(400..=600, self.fyk)),
            (10, self.feq2.max(self.feq3) <= 20_000),
            (11, self.load.unsigned_abs() <= 10_000_000),
            (12, self.bars_right()),
            (13, self.asw == 0 || self.spacing != 0),
        ];
        let failed = lines.into_iter().filter(|(_, passes)| !passes);
        failed.map(|(number, _)| number).collect()
    }

    /// Whether its flange is in range. There has to be one.
    pub fn flange_right(&self) -> bool {
        self.hf < self.h && (self.b..=2000).contains(&self.bf)
    }

    fn bars_right(&self) -> bool {
        self.layers_right()
            && (self.depths().max()).is_none_or(|depth| self.below_mid_height(depth))
    }

    /// Whether its layers are in range and their depths rise.
    fn layers_right(&self) -> bool {
        self.layers.is_sorted_by(|a, b| a.depth < b.depth)
            && self.depths().all(|depth| (1..self.h).contains(&depth))
            && self.layers.iter().all(|layer| layer.area != 0)
    }

    /// With a layer more, in its place by depth, unless that is refused 12.
    pub fn with_layer(&self, layer: Layer) -> Option<Section> {
        let mut added = self.clone();
        added.layers.push(layer);
        added.layers.sort_by_key(|layer| layer.depth);
        let right = added.layers.len() <= 8 && self.layers_right() && added.layers_right();
        right.then_some(added)
    }

    /// As it is written into a book: spacing 0 where there are no stirrups.
    pub fn as_written(mut self) -> Section {
        if self.asw == 0 {
            self.spacing = 0;
        }
        self
    }

    /// The width of a strip. Strips are counted from 0 at the compressed face.
    pub fn width(&self, strip: u16) -> u16 {
        match strip < self.hf {
            true => self.bf,
            false => self.b,
        }
    }

    /// The true area, that of all strips, which are 1 mm high.
    pub fn true_area(&self) -> i128 {
        (0..self.h).map(|strip| i128::from(self.width(strip))).sum()
    }

    pub fn below_mid_height(&self, depth: u16) -> bool {
        2 * u32::from(depth) > u32::from(self.h)
    }

    /// The layers below mid-height, which are one steel.
    pub fn steel(&self) -> Vec<Layer> {
        let below = |layer: &Layer| self.below_mid_height(layer.depth);
        self.layers.iter().copied().filter(below).collect()
    }

    fn depths(&self) -> impl Iterator<Item = u16> + '_ {
        self.layers.iter().map(|layer| layer.depth)
    }

    /// d of an accepted section: the centroid of its steel, rounded, or h without bars.
    pub fn effective_depth(&self) -> u16 {
        match self.layers.is_empty() {
            true => self.h,
            false => centroid(&self.steel()).rounded_down() as u16,
        }
    }

    /// Where the strain is 10 per mille: the depth of the deepest layer, or h without bars.
    pub fn limit_depth(&self) -> u16 {
        self.depths().max().unwrap_or(self.h)
    }
}

/// The area of some layers.
pub fn bars(layers: &[Layer]) -> i128 {
    layers.iter().map(|layer| i128::from(layer.area)).sum()
}

/// Their centroid, exactly. There has to be one.
pub fn centroid(layers: &[Layer]) -> Fraction {
    let moment = |layer: &Layer| i128::from(layer.area) * i128::from(layer.depth);
    Fraction::new(layers.iter().map(moment).sum(), bars(layers))
}
