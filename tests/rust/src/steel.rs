//! Document 02's [2], by which the layers below mid-height are one steel: how it lies in sections, and what a wrong program takes for its
//! depth.
use crate::rules::{centroid, Layer, Section};
use std::collections::BTreeSet;

/// How many layers are below mid-height, 2 for several; whether others are not; whether the centroid lies between whole depths.
type Kind = (usize, bool, bool);

/// Those of accepted sections: without bars, with one layer below mid-height, with several.
const KINDS: [Kind; 7] = [
    (0, false, false),
    (1, false, false),
    (1, true, false),
    (2, false, false),
    (2, false, true),
    (2, true, false),
    (2, true, true),
];

fn kind(section: &Section) -> Kind {
    let (steel, layers) = (section.steel(), section.layers.len());
    let between = !steel.is_empty() && !centroid(&steel).is_whole();
    (steel.len().min(2), steel.len() < layers, between)
}

/// Panics unless sections of every kind are among them, and of no other.
pub fn assert_every_kind<'a>(sections: impl Iterator<Item = &'a Section>) {
    let kinds: BTreeSet<Kind> = sections.map(kind).collect();
    assert_eq!(kinds, BTreeSet::from(KINDS));
}

/// What a wrong program takes for the effective depth of an accepted section with bars.
type Error = (&'static str, fn(&Section) -> u16);

const ERRORS: [Error; 6] = [
    ("it is the deepest layer's depth", Section::limit_depth),
    ("every layer is in the centroid", |section| {
        rounded(&section.layers)
    }),
    ("a layer at mid-height is in the centroid", |section| {
        rounded(&down_from_mid_height(section))
    }),
    ("two layers at most are in the centroid", |section| {
        let steel = section.steel();
        rounded(&steel[steel.len().saturating_sub(2)..])
    }),
    ("the areas do not count", |section| {
        let mut steel = section.steel();
        steel.iter_mut().for_each(|layer| layer.area = 1);
        rounded(&steel)
    }),
    ("the centroid is rounded up", |section| {
        let whole = centroid(&section.steel()).is_whole();
        section.effective_depth() + u16::from(!whole)
    }),
];

fn rounded(layers: &[Layer]) -> u16 {
    centroid(layers).rounded_down() as u16
}

/// The layers at mid-height or below it.
pub fn down_from_mid_height(section: &Section) -> Vec<Layer> {
    let mut layers = section.layers.clone();
    layers.retain(|layer| 2 * layer.depth >= section.h);
    layers
}

/// Panics unless each error would show in more sections than `least`, where `shows` says of a section whether a wrong effective depth does.
pub fn assert_errors_show<'a>(
    sections: impl Iterator<Item = &'a Section>,
    least: usize,
    shows: impl Fn(&Section, u16) -> bool,
) {
    let with_bars = sections.filter(|section| !section.layers.is_empty());
    let with_bars: Vec<&Section> = with_bars.collect();
    for (error, wrong) in ERRORS {
        let shows = |section: &&&Section| {
            let d = wrong(section);
            d != section.effective_depth() && shows(section, d)
        };
        let shown = with_bars.iter().filter(shows).count();
        assert!(shown > least, "{error}: {shown}");
    }
}
