//! `fw_add_layer` held to document 01's adding of a layer.
use fordwhistle_tests::held::Held;
use fordwhistle_tests::lent::{self, differ, written};
use fordwhistle_tests::random::Random;
use fordwhistle_tests::rules::{self, Layer, Section, Written};
use fordwhistle_tests::sections;
use std::collections::BTreeSet;

/// A record and the layer that is to be added.
type Case = (Vec<u8>, Layer);

/// A layer for a section: one in range, at an end of it or beyond, at another's depth or next to it.
fn layer(random: &mut Random, section: &Section) -> Layer {
    let inside = random.within(1..=i32::from(section.h) - 1) as u16;
    let taken = section.layers.iter().map(|layer| layer.depth);
    let taken = random.pick(&taken.chain([inside]).collect::<Vec<u16>>());
    let ends = [0, 1, section.h - 1, section.h, u16::MAX];
    let near = [taken - 1, taken, taken + 1];
    let area = random.number() as u16;
    Layer {
        depth: random.pick(&[ends.as_slice(), &near, &[inside; 8]].concat()),
        area: random.pick(&[0, 1, u16::MAX, area, area, area, area, area]),
    }
}

/// Records, whole and damaged, each with a layer.
fn damaged() -> impl Iterator<Item = Case> {
    let mut random = Random::new(29);
    (0..10_000).map(move |_| {
        let section = sections::accepted(&mut random);
        let layer = layer(&mut random, &section);
        (sections::damaged(&mut random, section), layer)
    })
}

fn without_bars(section: &Section) -> Section {
    let mut without = section.clone();
    without.layers.clear();
    without
}

/// The layers of a section in any order.
fn shuffled(random: &mut Random, section: &Section) -> Vec<Layer> {
    let mut layers = section.layers.clone();
    for last in (1..layers.len()).rev() {
        layers.swap(last, random.within(0..=last as i32) as usize);
    }
    layers
}

/// The records of a section while these layers are added to it in turn, from none on.
fn built(section: &Section, layers: &[Layer]) -> Vec<Vec<u8>> {
    let mut records = vec![without_bars(section).record()];
    for layer in layers {
        let mut record = vec![0; 60];
        let written = rules::add_layer(records.last().unwrap(), *layer, &mut record);
        record.truncate(written.len as usize);
        records.push(record);
    }
    records
}

/// Sections that are built layer by layer.
fn steps() -> impl Iterator<Item = Case> {
    let mut random = Random::new(30);
    (0..1000).flat_map(move |_| {
        let section = sections::accepted(&mut random);
        let layers = shuffled(&mut random, &section);
        built(&section, &layers).into_iter().zip(layers)
    })
}

/// Each case with what is lent for the new record. One that is refused for its length needs no more than the longest with a ninth layer.
fn lent() -> impl Iterator<Item = (Case, Vec<u8>)> {
    let cases = damaged().chain(steps());
    lent::each(cases, |(record, _)| (record.len() + 4).min(64))
}

fn add_layer((record, layer): &Case, out: &mut [u8]) -> Written {
    rules::add_layer(record, *layer, out)
}

#[test]
fn the_face_adds_the_rules_layer() {
    let mut held = Held::new();
    for (case, before) in lent() {
        let (written, after) = written(add_layer, &case, &before);
        held.add_layer((&case.0, case.1), &before, written, &after);
    }
    held.finish();
}

#[test]
fn layers_added_in_any_order_make_one_section() {
    let mut random = Random::new(32);
    for _ in 0..1000 {
        let section = sections::accepted(&mut random);
        let layers = shuffled(&mut random, &section);
        let records = built(&section, &layers);
        assert_eq!(records.last(), Some(&section.record()), "{layers:?}");
    }
}

#[test]
fn the_layers_reach_every_refusal_every_count_and_every_place_with_and_without_a_flange() {
    let (mut refusals, mut places) = (BTreeSet::new(), BTreeSet::new());
    for (case, lent) in lent() {
        let (written, out) = written(add_layer, &case, &lent);
        refusals.insert(written.refusal);
        if let Some(section) = Section::read(&out[..written.len as usize]) {
            let place = section.layers.iter().position(|layer| *layer == case.1);
            places.insert((section.hf != 0, section.layers.len(), place.unwrap()));
        }
    }
    assert!(refusals.into_iter().eq([0, 6, 12, 19]));
    for rib in [false, true] {
        let every = (1..=8).flat_map(|count| (0..count).map(move |place| (rib, count, place)));
        assert!(every.into_iter().all(|place| places.contains(&place)));
    }
}

/// Adds a layer to the section of a record as a wrong program does, which refuses 12 where it makes none.
fn with(
    (record, layer): &Case,
    out: &mut [u8],
    wrong: fn(Section, Layer) -> Option<Section>,
) -> Written {
    let section = Section::read(record).ok_or(6);
    let added = section.and_then(|section| wrong(section, *layer).ok_or(12));
    Written::of(added.map(|section| section.record()), out)
}

/// Whether it is refused or not.
fn in_place(mut section: Section, layer: Layer) -> Section {
    section.layers.push(layer);
    section.layers.sort_by_key(|layer| layer.depth);
    section
}

/// How a wrong program adds a layer.
type Error = (&'static str, fn(&Case, &mut [u8]) -> Written);

const ERRORS: [Error; 16] = [
    ("the layer is put last", |case, out| {
        with(case, out, |section, layer| {
            let mut added = section.with_layer(layer)?;
            added.layers = [section.layers, vec![layer]].concat();
            Some(added)
        })
    }),
    ("the old count is copied", |case, out| {
        let written = add_layer(case, out);
        if written.refusal == 0 {
            out[20..22].copy_from_slice(&case.0[20..22]);
        }
        written
    }),
    ("the flange is lost", |case, out| {
        with(case, out, |mut section, layer| {
            section.hf = 0;
            section.with_layer(layer)
        })
    }),
    ("the flange is put before the layers", |case, out| {
        let written = add_layer(case, out);
        let record = &mut out[..written.len as usize];
        if record.get(22..24).is_some_and(|hf| hf != [0, 0]) {
            record[24..].rotate_right(4);
        }
        written
    }),
    (
        "a layer takes the place of one at its depth",
        |case, out| {
            with(case, out, |mut section, layer| {
                section.layers.retain(|other| other.depth != layer.depth);
                section.with_layer(layer)
            })
        },
    ),
    ("a ninth layer is added", |case, out| {
        with(case, out, |section, layer| match section.layers.len() {
            8 => Some(in_place(section, layer)),
            _ => section.with_layer(layer),
        })
    }),
    ("the layers there are not looked at", |case, out| {
        with(case, out, |section, layer| {
            let alone = without_bars(&section).with_layer(layer);
            alone.map(|_| in_place(section, layer))
        })
    }),
    ("a layer may lie at h", |case, out| {
        with(case, out, |section, layer| match layer.depth == section.h {
            true => Some(in_place(section, layer)),
            false => section.with_layer(layer),
        })
    }),
    ("a layer may have no area", |case, out| {
        with(case, out, |section, layer| match layer.area {
            0 => Some(in_place(section, layer)),
            _ => section.with_layer(layer),
        })
    }),
    ("the deepest layer lies below mid-height", |case, out| {
        with(case, out, |section, layer| {
            let added = section.with_layer(layer);
            added.filter(|added| added.below_mid_height(added.limit_depth()))
        })
    }),
    ("the flange is tested", |case, out| {
        with(case, out, |section, layer| {
            let right = section.hf == 0 || section.flange_right();
            right.then(|| section.with_layer(layer)).flatten()
        })
    }),
    ("the section is tested 7 to 13 with 20", |case, out| {
        with(case, out, |section, layer| match section.refusal() {
            None => section.with_layer(layer),
            Some(_) => None,
        })
    }),
    ("spacing is 0 without stirrups", |case, out| {
        with(case, out, |section, layer| {
            section.as_written().with_layer(layer)
        })
    }),
    ("19 comes before 12", |case, out| {
        let any = |section, layer| Some(in_place(section, layer));
        let fits = with(case, &mut out.to_vec(), any);
        match fits.refusal {
            19 => fits,
            _ => add_layer(case, out),
        }
    }),
    ("a byte is written on a refusal", |case, out| {
        let written = add_layer(case, out);
        if let (1.., Some(byte)) = (written.refusal, out.first_mut()) {
            *byte = !*byte;
        }
        written
    }),
    ("the bytes past the record are cleared", |case, out| {
        let written = add_layer(case, out);
        if written.refusal == 0 {
            out[written.len as usize..].fill(0);
        }
        written
    }),
];

#[test]
fn every_error_would_show_in_some_records() {
    let cases: Vec<_> = lent().collect();
    for (error, wrong) in ERRORS {
        assert!(differ(wrong, add_layer, &cases), "{error}");
    }
}

/// The library is x86-64 code, so only there can a Rust program link it.
#[cfg(target_arch = "x86_64")]
mod linked {
    use super::{add_layer, lent, written, Case, Written};

    #[link(name = "panel", kind = "static")]
    extern "C" {
        fn fw_add_layer(
            record: *const u8,
            len: usize,
            depth: u16,
            area: u16,
            out: *mut u8,
            room: usize,
        ) -> Written;
    }

    fn add_layer_linked((record, layer): &Case, out: &mut [u8]) -> Written {
        let (start, len, room) = (record.as_ptr(), record.len(), out.len());
        // It reads the record, writes the new one and touches no other memory of the caller's.
        unsafe { fw_add_layer(start, len, layer.depth, layer.area, out.as_mut_ptr(), room) }
    }

    #[test]
    fn the_face_linked_adds_the_rules_layer() {
        for (case, lent) in lent() {
            let right = written(add_layer, &case, &lent);
            assert_eq!(written(add_layer_linked, &case, &lent), right, "{case:?}");
        }
    }
}
