//! Wrong programs that the sections tried of `fw_shear` would show.
use fordwhistle_tests::rules::{self, Section, Shear};
use fordwhistle_tests::sections;
use fordwhistle_tests::steel;
use std::sync::LazyLock;

fn fck(section: &Section) -> i128 {
    section.fck.into()
}

fn d(section: &Section) -> i128 {
    section.effective_depth().into()
}

fn t(section: &Section) -> i128 {
    12 * i128::from(section.feq3) / 100
}

/// The fibres' factor.
fn factor(section: &Section) -> i128 {
    (1600 - d(section)).max(1000)
}

fn fibres(section: &Section, kf: i128) -> i128 {
    t(section) * factor(section) * kf / 1_000_000
}

/// By a wrong q, with its limit.
fn kf(section: &Section, q: i128) -> i128 {
    let bd = i128::from(section.b) * d(section);
    rules::unlimited_kf(section, q, bd).min(1500)
}

/// As.
fn bars(section: &Section) -> i128 {
    rules::bars(&section.steel())
}

/// Numerator and denominator of the axial share.
fn axial(section: &Section) -> (i128, i128) {
    (15_000 * i128::from(section.load), 100 * section.true_area())
}

/// The numbers by the deepest layer's depth.
fn deepest(section: &Section) -> Shear {
    Shear::by(section, section.limit_depth())
}

/// What a wrong program makes of the right numbers.
type Error = (&'static str, fn(&Section, &mut Shear));

const CONCRETE: [Error; 15] = [
    ("every layer is below mid-height", |section, shear| {
        shear.c = rules::c(rules::bars(&section.layers), shear.bd, fck(section))
    }),
    ("a layer at mid-height is below it", |section, shear| {
        let layers = steel::down_from_mid_height(section);
        shear.c = rules::c(rules::bars(&layers), shear.bd, fck(section))
    }),
    ("k has no limit", |section, shear| {
        shear.k = rules::unlimited_k(d(section))
    }),
    ("k is its limit", |_, shear| shear.k = 2000),
    ("r is less than an exact root", |section, shear| {
        let exact = (shear.k - 1000).pow(2) * d(section) == 200_000_000;
        shear.k -= i128::from(exact)
    }),
    ("r has 9 binary digits", |_, shear| {
        shear.k = shear.k.min(1511)
    }),
    ("c has 12 binary digits", |_, shear| {
        shear.c = shear.c.min(4095)
    }),
    ("c has no limit", |section, shear| {
        shear.c = rules::unlimited_c(bars(section), shear.bd, fck(section))
    }),
    ("c is its limit", |section, shear| {
        shear.c = rules::unlimited_c(1, 50, fck(section))
    }),
    ("c is less than an exact root", |section, shear| {
        let most = 100_000_000_000 * bars(section) * fck(section);
        shear.c -= i128::from(shear.c.pow(3) * shear.bd == most)
    }),
    (
        "the limit of c goes by the deepest layer",
        |section, shear| {
            if 50 * bars(section) <= deepest(section).bd {
                shear.c = rules::unlimited_c(bars(section), shear.bd, fck(section))
            }
        },
    ),
    ("tension is rounded towards zero", |section, shear| {
        let (num, den) = axial(section);
        shear.axial = num / den
    }),
    ("whole tension is rounded too", |section, shear| {
        let (num, den) = axial(section);
        shear.axial = num / den - i128::from(num < 0)
    }),
    ("the load is in N", |section, shear| {
        let (num, den) = axial(section);
        shear.axial = num.div_euclid(1000 * den)
    }),
    ("the concrete bears less than 0", |_, shear| {
        shear.fibres += shear.concrete().min(0)
    }),
];

const FIBRES: [Error; 3] = [
    ("the fibres' factor has no least", |section, shear| {
        shear.fibres = t(section) * (1600 - d(section)) * shear.kf / 1_000_000
    }),
    ("the fibres' factor is its least", |section, shear| {
        shear.fibres = t(section) * shear.kf / 1000
    }),
    ("t is not rounded", |section, shear| {
        let feq3 = i128::from(section.feq3);
        shear.fibres = 12 * feq3 * factor(section) * shear.kf / 100_000_000
    }),
];

const FLANGES: [Error; 11] = [
    ("kf is its limit", |section, shear| {
        if section.hf != 0 {
            shear.fibres = fibres(section, 1500)
        }
    }),
    ("kf has no limit", |section, shear| {
        let kf = rules::unlimited_kf(section, rules::q(section), shear.bd);
        shear.fibres = fibres(section, kf)
    }),
    ("q may be more than bf - b", |section, shear| {
        let q = 3 * i128::from(section.hf.min(section.b));
        shear.fibres = fibres(section, kf(section, q))
    }),
    ("q may be more than 3 hf", |section, shear| {
        let [b, bf] = [section.b, section.bf].map(i128::from);
        shear.fibres = fibres(section, kf(section, (bf - b).min(3 * b)))
    }),
    ("q may be more than 3 b", |section, shear| {
        let [b, hf, bf] = [section.b, section.hf, section.bf].map(i128::from);
        shear.fibres = fibres(section, kf(section, (bf - b).min(3 * hf)))
    }),
    ("kf is rounded up", |section, shear| {
        let exact = 1000 * rules::q(section) * i128::from(section.hf) % shear.bd == 0;
        let kf = (shear.kf + i128::from(!exact)).min(1500);
        shear.fibres = fibres(section, kf)
    }),
    ("the fibres are rounded before kf", |section, shear| {
        shear.fibres = fibres(section, 1000) * shear.kf / 1000
    }),
    ("kf is in t", |section, shear| {
        let t = 12 * i128::from(section.feq3) * shear.kf / 100_000;
        shear.fibres = t * factor(section) / 1000
    }),
    ("the concrete is multiplied by kf too", |_, shear| {
        shear.fibres += shear.concrete().max(0) * (shear.kf - 1000) / 1000
    }),
    ("kf goes by h", |section, shear| {
        let bh = i128::from(section.b) * i128::from(section.h);
        let kf = rules::unlimited_kf(section, rules::q(section), bh);
        shear.fibres = fibres(section, kf.min(1500))
    }),
    ("kf goes by the deepest layer", |section, shear| {
        shear.fibres = fibres(section, deepest(section).kf)
    }),
];

const FORCES: [Error; 7] = [
    ("there are no stirrups", |_, shear| shear.stirrups = 0),
    ("the stirrups are 1 mm apart", |section, shear| {
        shear.stirrups *= i128::from(section.spacing)
    }),
    ("there are no struts", |_, shear| shear.struts = i128::MAX),
    ("only the struts count", |_, shear| {
        shear.stirrups = shear.struts
    }),
    ("the struts' factor has no least", |section, shear| {
        let fck = fck(section);
        shear.struts = (700 - 5 * fck) * (2000 * fck / 3) * 9 * shear.bd / 20_000
    }),
    ("the struts' factor is its least", |section, shear| {
        shear.struts = 500 * (2000 * fck(section) / 3) * 9 * shear.bd / 20_000
    }),
    ("2000 fck / 3 is not rounded", |section, shear| {
        let fck = fck(section);
        shear.struts = (700 - 5 * fck).max(500) * 2000 * fck * 9 * shear.bd / 60_000
    }),
];

/// A number of the shear.
type Number = (&'static str, fn(&mut Shear) -> &mut i128);

const K: Number = ("k", |shear| &mut shear.k);
const C: Number = ("c", |shear| &mut shear.c);
const AXIAL: Number = ("the axial share", |shear| &mut shear.axial);
const FIBRES_SHARE: Number = ("the fibres", |shear| &mut shear.fibres);
const BD: Number = ("b d", |shear| &mut shear.bd);
const STIRRUPS: Number = ("the stirrups", |shear| &mut shear.stirrups);
const STRUTS: Number = ("the struts", |shear| &mut shear.struts);

/// What a wrong program takes some number from, and which.
type Source = (&'static str, fn(&Section) -> Shear, &'static [Number]);

const SOURCES: [Source; 3] = [
    (
        "by the deepest layer",
        deepest,
        &[K, C, FIBRES_SHARE, BD, STIRRUPS, STRUTS],
    ),
    (
        "without the flange",
        |section| {
            Shear::of(&Section {
                hf: 0,
                ..section.clone()
            })
        },
        &[AXIAL, FIBRES_SHARE],
    ),
    (
        "with a web as wide as the flange",
        |section| {
            let b = section.b.max(section.bf);
            Shear::of(&Section {
                b,
                ..section.clone()
            })
        },
        &[C, AXIAL, BD, STRUTS],
    ),
];

/// Those with bars, each with its numbers.
static SECTIONS: LazyLock<Vec<(Section, Shear)>> = LazyLock::new(|| {
    let with_bars = sections::all_sheared().filter(|section| !section.layers.is_empty());
    with_bars.map(|s| (s.clone(), Shear::of(&s))).collect()
});

fn assert_shows(error: &str, make: impl Fn(&Section, &mut Shear)) {
    let shows = |(section, right): &&(Section, Shear)| {
        let mut wrong = *right;
        make(section, &mut wrong);
        wrong.resistance() != right.resistance()
    };
    let shown = SECTIONS.iter().filter(shows).count();
    assert!(shown > 100, "{error}: {shown}");
}

#[test]
fn every_error_would_show_in_many_sections() {
    let errors: [&[Error]; 4] = [&CONCRETE, &FIBRES, &FLANGES, &FORCES];
    for (error, make) in errors.concat() {
        assert_shows(error, make);
    }
}

#[test]
fn every_number_from_elsewhere_would_show_in_many_sections() {
    for (source, of, numbers) in SOURCES {
        for (name, number) in numbers {
            assert_shows(&format!("{name} {source}"), |section, shear| {
                *number(shear) = *number(&mut of(section))
            });
        }
    }
}

#[test]
fn every_wrong_effective_depth_would_show_in_many_sections() {
    let sections: Vec<Section> = sections::all_sheared().collect();
    steel::assert_errors_show(sections.iter(), 100, |section, wrong| {
        Shear::by(section, wrong).resistance() != Shear::of(section).resistance()
    });
}
