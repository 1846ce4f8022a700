//! Document 02's [4], by which a section may be a rib with a flange: how flanges lie in sections, and what a wrong program takes for the
//! width of a strip, for a flange that is in range and for a rib's record.
use crate::rules::Section;
use std::collections::BTreeSet;

/// How high a flange is: 0 where there is none, 1 for one strip, 3 for all strips but one. And how wide: 0 for the web's width, 2 for 2000.
type Kind = (u8, u8);

fn kind(section: &Section) -> Kind {
    let high = match section.hf {
        0 => return (0, 0),
        1 => 1,
        hf => 2 + u8::from(hf + 1 == section.h),
    };
    let wide = match section.bf {
        bf if bf == section.b => 0,
        bf => 1 + u8::from(bf == 2000),
    };
    (high, wide)
}

/// Panics unless sections of every kind are among them.
pub fn assert_every_kind<'a>(sections: impl Iterator<Item = &'a Section>) {
    let kinds: BTreeSet<Kind> = sections.map(kind).collect();
    let ribs = (1..=3).flat_map(|high| [0, 1, 2].map(|wide| (high, wide)));
    assert!(kinds.into_iter().eq([(0, 0)].into_iter().chain(ribs)));
}

/// Panics unless each error would show more often than `least`.
fn assert_each_shows<T: Copy>(errors: &[(&str, T)], least: usize, shown: impl Fn(T) -> usize) {
    for (error, wrong) in errors {
        let shown = shown(*wrong);
        assert!(shown > least, "{error}: {shown}");
    }
}

/// The width of a strip.
pub type Width = fn(&Section, u16) -> u16;

/// What a wrong program takes for it in a rib.
const WIDTHS: [(&str, Width); 6] = [
    ("every strip has the web's width", |rib, _| rib.b),
    ("every strip has the flange's width", |rib, _| rib.bf),
    ("the flange is a strip too deep", |rib, strip| {
        rib.width(strip.saturating_sub(1))
    }),
    ("strips are counted from 1", |rib, strip| {
        rib.width(strip + 1)
    }),
    ("the flange is at the other face", |rib, strip| {
        rib.width(rib.h - 1 - strip)
    }),
    ("the flange's width is beside the web", |rib, strip| {
        rib.b + u16::from(strip < rib.hf) * rib.bf
    }),
];

/// Panics unless each error would show in more ribs than `least`, where `shows` says of a rib whether wrong widths do.
pub fn assert_widths_show<'a>(
    sections: impl Iterator<Item = &'a Section>,
    least: usize,
    shows: impl Fn(&Section, Width) -> bool,
) {
    let ribs: Vec<&Section> = sections.filter(|section| section.hf != 0).collect();
    assert_each_shows(&WIDTHS, least, |wrong| {
        ribs.iter().filter(|rib| shows(rib, wrong)).count()
    });
}

/// Whether a rib's flange is right.
type Right = fn(&Section) -> bool;

/// What a wrong program takes for right.
const FLANGES: [(&str, Right); 7] = [
    ("hf may be h", |rib| rib.hf <= rib.h && is_wide(rib, 2000)),
    ("hf has no limit", |rib| is_wide(rib, 2000)),
    ("hf is below h - 1", |rib| {
        rib.flange_right() && rib.hf != rib.h - 1
    }),
    ("bf may be below b", |rib| rib.hf < rib.h && rib.bf <= 2000),
    ("bf is above b", |rib| rib.flange_right() && rib.bf != rib.b),
    ("bf may be 2001", |rib| rib.hf < rib.h && is_wide(rib, 2001)),
    ("bf is below 2000", |rib| {
        rib.flange_right() && rib.bf != 2000
    }),
];

fn is_wide(rib: &Section, most: u16) -> bool {
    (rib.b..=most).contains(&rib.bf)
}

/// What puts a record right that a wrong program does not refuse 6, and whether it is then a rib's.
type Mend = (fn(&mut Vec<u8>), bool);

const RECORDS: [(&str, Mend); 4] = [
    ("the new zero is ignored", (|record| clear(record, 2), true)),
    ("the new zero has 8 bits", (|record| clear(record, 1), true)),
    (
        "a rib's record is as long as another",
        (|record| record.extend([0; 4]), true),
    ),
    (
        "another's record is as long as a rib's",
        (|record| record.truncate(record.len().max(4) - 4), false),
    ),
];

fn clear(record: &mut [u8], last: usize) {
    record
        .iter_mut()
        .rev()
        .take(last)
        .for_each(|byte| *byte = 0);
}

/// Panics unless each error in what is refused of a rib would show in more records than `least`.
pub fn assert_refusals_show(records: impl Iterator<Item = Vec<u8>>, least: usize) {
    let records: Vec<Vec<u8>> = records.collect();
    let (read, refused): (Vec<_>, Vec<_>) =
        (records.into_iter()).partition(|record| Section::read(record).is_some());
    let ribs = read.iter().filter_map(|record| Section::read(record));
    let ribs: Vec<Section> = ribs.filter(|section| section.hf != 0).collect();
    assert_each_shows(&FLANGES, least, |wrong| {
        let differs = |rib: &&Section| wrong(rib) != rib.flange_right();
        let asked = |rib: &&Section| !matches!(rib.refusal(), Some(7 | 8));
        ribs.iter().filter(differs).filter(asked).count()
    });
    assert_each_shows(&RECORDS, least, |(mend, of_rib)| {
        let mended = |record: &&Vec<u8>| {
            let mut mended = record.to_vec();
            mend(&mut mended);
            Section::read(&mended).is_some_and(|section| (section.hf != 0) == of_rib)
        };
        refused.iter().filter(mended).count()
    });
}
