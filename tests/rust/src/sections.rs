//! The documents' sections, and random sections and records, for the tests of what is asked of a record.
mod balanced;
mod damaged;
mod sheared;

use crate::random::Random;
use crate::rules::{Layer, Section, TABLE};
use std::collections::BTreeSet;

pub use balanced::{balanced, bear_whole_newtons, flatten, level};
pub use damaged::{assert_order_shows, damaged, refusals_and};
pub use sheared::{all_sheared, sheared};

/// The plate and the beam of document 01's book.
pub fn figures() -> [Section; 2] {
    let plate = Section {
        b: 1000,
        h: 100,
        fck: 30,
        fyk: 500,
        feq2: 3700,
        feq3: 4500,
        load: 0,
        asw: 0,
        spacing: 0,
        layers: vec![],
        hf: 0,
        bf: 0,
    };
    let beam = Section {
        b: 400,
        h: 600,
        feq2: 2000,
        feq3: 2000,
        load: 10_000_000,
        layers: vec![Layer {
            depth: 540,
            area: 3216,
        }],
        ..plate
    };
    [plate, beam]
}

/// The rib of document 02's [4].
pub fn rib() -> Section {
    let [_, beam] = figures();
    Section {
        b: 200,
        h: 400,
        load: 100_000,
        layers: vec![Layer {
            depth: 360,
            area: 1000,
        }],
        hf: 80,
        bf: 800,
        ..beam
    }
}

/// A number of a range, one time in four an end of it: there a wrong comparison shows.
fn number(random: &mut Random, low: u16, high: u16) -> u16 {
    let inside = random.within(low.into()..=high.into()) as u16;
    random.pick(&[low, high, inside, inside, inside, inside, inside, inside])
}

fn layers(random: &mut Random, h: u16) -> Vec<Layer> {
    let count = random.within(0..=8) as usize;
    let deepest = number(random, h / 2 + 1, h - 1);
    let mut depths = BTreeSet::from([deepest]);
    while depths.len() < count {
        depths.insert(number(random, 1, deepest));
    }
    let layer = |depth| Layer {
        depth,
        area: number(random, 1, u16::MAX),
    };
    depths.into_iter().take(count).map(layer).collect()
}

/// Height and width of a flange, or zeros: half of the sections have none.
fn flange(random: &mut Random, b: u16, h: u16) -> [u16; 2] {
    let flange = [number(random, 1, h - 1), number(random, b, 2000)];
    random.pick(&[[0, 0], flange])
}

/// A section that is accepted.
pub fn accepted(random: &mut Random) -> Section {
    let h = number(random, 50, 1000);
    accepted_of(random, h)
}

/// One of this height.
pub fn accepted_of(random: &mut Random, h: u16) -> Section {
    let load = random.within(-10_000_000..=10_000_000);
    let asw = number(random, 0, u16::MAX);
    let b = number(random, 50, 2000);
    let [hf, bf] = flange(random, b, h);
    Section {
        b,
        h,
        fck: TABLE[random.within(0..=6) as usize].fck,
        fyk: number(random, 400, 600),
        feq2: number(random, 0, 20_000),
        feq3: number(random, 0, 20_000),
        load: random.pick(&[-10_000_000, 10_000_000, load, load, load, load]),
        asw,
        spacing: number(random, u16::from(asw != 0), u16::MAX),
        layers: layers(random, h),
        hf,
        bf,
    }
}

/// Three of every height that a section may have.
pub fn of_every_height() -> impl Iterator<Item = Section> {
    let mut random = Random::new(11);
    let heights = (50..=1000).flat_map(|h| [h; 3]);
    heights.map(move |h| accepted_of(&mut random, h))
}

fn set_areas(section: &mut Section, area: fn(u16) -> u16) {
    for layer in &mut section.layers {
        layer.area = area(layer.area);
    }
}

/// Makes the first layer one at mid-height, or half a mm above it: it is not below it.
fn start_at_mid_height(section: &mut Section, random: &mut Random) {
    let layer = Layer {
        depth: section.h / 2,
        area: number(random, 1, 1000),
    };
    section.layers.retain(|below| below.depth > layer.depth);
    if (1..8).contains(&section.layers.len()) {
        section.layers.insert(0, layer);
    }
}

/// What makes steel of a section that chance hardly makes: beside a layer at mid-height, without one above it, and with a centroid at a
/// whole depth, as that of equal areas often is.
const STEELS: [fn(&mut Section, &mut Random); 3] = [
    start_at_mid_height,
    |section, _| section.layers = section.steel(),
    |section, _| set_areas(section, |_| 1000),
];

/// An accepted section with up to two of these.
pub fn steeled(random: &mut Random) -> Section {
    let mut section = accepted(random);
    for _ in 0..random.within(0..=2) {
        random.pick(&STEELS)(&mut section, random);
    }
    section
}
