//! Accepted sections whose forces balance at a depth, or nearly do at many.
use super::{accepted_of, number, set_areas};
use crate::random::Random;
use crate::rules::{self, Law, Layer, Section};

/// What makes the forces of a section balance at a depth, or at several, more often than chance does.
const BALANCES: [fn(&mut Section, &mut Random); 6] = [
    |_, _| {},
    |section, _| section.load = 0,
    |section, random| balance(section, number(random, 1, section.h)),
    |section, random| {
        bear_whole_newtons(section, random);
        balance(section, number(random, 1, section.h));
    },
    // Where the flange ends, if there is one.
    |section, random| {
        bear_whole_newtons(section, random);
        let edge = [section.hf.max(1), section.hf + 1];
        balance(section, random.pick(&edge));
    },
    // The concrete below light bars is torn at first; it comes back into tension where the neutral axis passes a quarter of their depth.
    |section, random| {
        let middle = section.h / 2;
        section.layers.retain(|layer| layer.depth <= middle);
        section.layers.push(Layer {
            depth: middle + 1,
            area: 1,
        });
        set_areas(section, |area| area % 20 + 1);
        section.feq3 = number(random, 5000, 20_000);
        balance(section, number(random, middle / 4, middle / 2));
    },
];

/// Makes every force a whole number of N, so that a load can leave an imbalance of exactly zero at any depth.
pub fn bear_whole_newtons(section: &mut Section, random: &mut Random) {
    let [b, bf] = random.pick(&[[1000, 2000], [1000, 2000], [2000, 2000]]);
    section.b = b;
    if section.hf != 0 {
        section.bf = bf;
    }
    set_areas(section, |area| 1000 * (area % 5 + 1));
}

/// Makes the tension beyond e2 the same up to e3 and a whole number, 45 x 37 k / 100 of either strength: rounding takes
/// nothing off a strip there.
pub fn flatten(section: &mut Section, random: &mut Random) {
    let k = number(random, 0, 444);
    (section.feq2, section.feq3) = (37 * k, 45 * k);
}

/// Makes the law bear as much in tension as in compression up to 3500. With bars just below mid-height, which yield,
/// the imbalance hardly moves while the axis is at 7/27 of a depth between theirs and h.
pub fn level(section: &mut Section, random: &mut Random) {
    let depth = section.h / 2 + 1;
    section.layers = vec![Layer { depth, area: 1 }];
    // As high a flange as bears fcd at all of these depths: it shifts the imbalance and leaves it level.
    section.hf = section.hf.min(section.h / 18);
    section.fck = random.pick(&[20, 25]);
    let Law { fcd, corners, .. } = Law::of(section);
    let [e1, s1] = [-corners[2].0, -corners[2].1];
    // Twice the areas under the law's pieces are equal; without feq3 the stress has no jump at e3.
    let s2 = (fcd * 17_000 / 3 - s1 * e1 - 100 * s1) / (10_000 - e1);
    section.feq2 = (100 * s2 as u32).div_ceil(45) as u16;
    section.feq3 = 0;
}

/// Puts the load to what the forces at a depth carry, in whole N, or to its limit.
fn balance(section: &mut Section, x: u16) {
    section.load = 0;
    let carried = rules::rounded(section, x).imbalance / 1000;
    section.load = carried.clamp(-10_000_000, 10_000_000) as i32;
}

/// An accepted section of this height whose forces often balance.
pub fn balanced(random: &mut Random, h: u16) -> Section {
    let mut section = accepted_of(random, h);
    random.pick(&BALANCES)(&mut section, random);
    section
}
