//! Document 02's [2]: the layers below mid-height are one steel, whose centroid is d; the limit stays at the deepest layer.
use fordwhistle_tests::held::Held;
use fordwhistle_tests::random::Random;
use fordwhistle_tests::rules::{self, Amount, Drawn, Law, Layer, Listed, Point, Section};
use fordwhistle_tests::sections;

/// A section of a height with these layers, each a depth and an area.
fn section<const M: usize>(h: u16, layers: [(u16, u16); M]) -> Section {
    let [_, beam] = sections::figures();
    let layer = |(depth, area)| Layer { depth, area };
    Section {
        b: 300,
        h,
        load: 0,
        layers: layers.map(layer).to_vec(),
        ..beam
    }
}

/// A beam with one layer above mid-height and two below, and a low one whose centroid lies at 51.25 mm.
fn figures() -> [Section; 2] {
    let beam = section(500, [(40, 400), (400, 1000), (460, 600)]);
    [beam, section(101, [(51, 3), (52, 1)])]
}

/// The corner of their laws at -e1.
const CORNERS: [(i16, i16); 2] = [(-123, -3958), (-162, -5204)];

/// Of the beam.
const LISTED: [i64; 3] = [148, 2, 554_830_765_200];
const SHEAR: Amount = Amount {
    refusal: 0,
    amount: 121_789_200,
};

#[test]
fn the_rules_give_the_figures() {
    let [beam, low] = figures();
    assert_eq!([&beam, &low].map(Section::effective_depth), [422, 51]);
    assert_eq!([&beam, &low].map(Section::limit_depth), [460, 52]);
    let corner = |section| Law::of(section).corners[2];
    let corners = CORNERS.map(|(strain, stress)| (strain.into(), stress.into()));
    assert_eq!([&beam, &low].map(corner), corners);
    assert_eq!(rules::list_of(&beam.record()), Ok(vec![LISTED]));
    assert_eq!(rules::shear(&beam.record()), SHEAR);
}

#[test]
fn the_face_gives_the_figures() {
    let mut held = Held::new();
    let [beam, low] = figures().map(|section| section.record());
    for (record, (strain, stress)) in [&beam, &low].into_iter().zip(CORNERS) {
        let point = Point {
            strain: strain.into(),
            stress: stress.into(),
        };
        held.draw(record, strain.into(), Drawn { refusal: 0, point });
    }
    let listed = Listed {
        refusal: 0,
        count: 1,
        work: 500 * 503,
    };
    held.depths(&beam, &[0; 3], listed, &LISTED);
    held.shear(&beam, SHEAR);
    held.finish();
}

/// So that they keep every figure: the face is held to the rules on such sections too.
#[test]
fn sections_with_one_layer_below_mid_height_or_without_bars_have_their_limit_for_d() {
    let mut random = Random::new(33);
    let mut kept = 0;
    for _ in 0..10_000 {
        let section = sections::accepted(&mut random);
        if section.steel().len() < 2 {
            let [d, limit] = [section.effective_depth(), section.limit_depth()];
            assert_eq!(d, limit, "{section:?}");
            kept += 1;
        }
    }
    assert!(kept > 1000, "{kept}");
}
