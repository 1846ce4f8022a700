//! Accepted sections for the tests of the shear.
use super::{accepted, number, set_areas, start_at_mid_height};
use crate::random::Random;
use crate::rules::{Layer, Section};

/// What lets each number of a section's shear decide, and brings it to its limit or to a whole number, where chance hardly does.
const SHEARS: [fn(&mut Section, &mut Random); 8] = [
    // The axial share is then a whole number of kPa, or next to one where a part of the load's last N is lost.
    |section, random| {
        let share = random.within(-750..=750);
        section.load = share * section.true_area() as i32 / 150;
    },
    |section, _| section.asw = 0,
    |section, random| {
        section.asw = number(random, 0, 300);
        section.spacing = number(random, 50, 500);
    },
    |section, _| set_areas(section, |area| area % 500 + 1),
    start_at_mid_height,
    // As is 2 % of b d, or next to it; or of b times a greater depth, as the deepest layer's may be.
    |section, random| {
        widen(section, section.b.next_multiple_of(50));
        let depth = section.effective_depth();
        let greater = number(random, depth, section.h);
        let area = section.b / 50 * random.pick(&[depth, greater]) + 1 - random.pick(&[0, 1, 2]);
        centre(section, random, Layer { depth, area });
    },
    // Both roots are exact: r is 625 or 500, c 1000, 2000 or 3000.
    |section, random| {
        widen(section, 2000);
        (section.h, section.fck) = (1000, 20);
        let depth = random.pick(&[512, 800]);
        let area = random.pick(&[1, 8, 27]) * depth;
        centre(section, random, Layer { depth, area });
    },
    // Of a slender rib each of the three may be q, and kf is mostly below its limit.
    |section, random| {
        section.b = number(random, 50, 80);
        section.hf = number(random, section.h / 16, section.h / 8);
        section.bf = number(random, section.b, 10 * section.b);
    },
];

/// Makes a section as wide as this, and its flange no less.
fn widen(section: &mut Section, b: u16) {
    section.b = b;
    if section.hf != 0 {
        section.bf = section.bf.max(b);
    }
}

/// Puts this layer in the place of all, or two that share its area, one as far above its depth as the other below. Of an odd area the lower
/// has more, so that d is that depth. A section without bars stays without.
fn centre(section: &mut Section, random: &mut Random, layer: Layer) {
    if section.layers.is_empty() {
        return;
    }
    let Layer { depth, area } = layer;
    let most = (depth - section.h / 2 - 1).min(section.h - 1 - depth);
    let at = |depth, area| Layer { depth, area };
    section.layers = match number(random, 0, most) {
        0 => vec![layer],
        apart => vec![
            at(depth - apart, area / 2),
            at(depth + apart, area - area / 2),
        ],
    };
}

/// An accepted section with up to four of these.
pub fn sheared(random: &mut Random) -> Section {
    let mut section = accepted(random);
    for _ in 0..random.within(0..=4) {
        random.pick(&SHEARS)(&mut section, random);
    }
    section
}

/// Those that are tried, with and without bars.
pub fn all_sheared() -> impl Iterator<Item = Section> {
    let mut random = Random::new(8);
    (0..20_000).map(move |_| sheared(&mut random))
}
