//! Document 02's [4]: a section may be a rib with a flange.
use fordwhistle_tests::held::Held;
use fordwhistle_tests::random::Random;
use fordwhistle_tests::rules::{self, Amount, Listed, Section, Shear, Sums};
use fordwhistle_tests::sections;

/// The rib's record in words of 16 bits: its flange height is the last before the bars, its flange width and a zero are behind them.
const RECORD: [u16; 16] = [
    200, 400, 30, 500, 2000, 2000, 0x86a0, 0x0001, 0, 0, 1, 80, 360, 1000, 800, 0,
];

const LISTED: [i64; 3] = [63, 2, 342_369_284_200];

/// With the axis in the flange.
const X: u16 = 40;
const SUMS: Sums<i64> = Sums {
    imbalance: -347_694_800,
    moment: 230_065_267_200,
};
const SHEAR: i64 = 87_696_000;

#[test]
fn the_rules_give_the_figures() {
    let rib = sections::rib();
    let record = rib.record();
    assert_eq!(record, RECORD.map(u16::to_le_bytes).as_flattened());
    assert_eq!(Section::of(&record).as_ref(), Ok(&rib));
    assert_eq!((rib.true_area(), Shear::of(&rib).kf), (128_000, 1266));
    assert_eq!(rules::area(&rib), 129_000);
    assert_eq!(rules::list_of(&record), Ok(vec![LISTED]));
    assert_eq!(rules::rounded(&rib, X), SUMS);
    assert_eq!(rules::shear(&record), amount(SHEAR));
}

fn amount(amount: i64) -> Amount {
    Amount { refusal: 0, amount }
}

#[test]
fn the_face_gives_the_figures() {
    let mut held = Held::new();
    let record = sections::rib().record();
    let sums = Sums {
        imbalance: amount(SUMS.imbalance),
        moment: amount(SUMS.moment),
    };
    let listed = Listed {
        refusal: 0,
        count: 1,
        work: 400 * 401,
    };
    held.depths(&record, &[0; 3], listed, &LISTED);
    held.amounts(&record, X.into(), sums);
    held.shear(&record, amount(SHEAR));
    held.finish();
}

/// The rectangle's answers are asked of the rib.
#[test]
fn a_flange_as_wide_as_the_web_changes_no_answer() {
    let mut held = Held::new();
    let mut random = Random::new(34);
    for h in (50..=100).flat_map(|h| [h; 20]) {
        let mut section = sections::balanced(&mut random, h);
        (section.hf, section.bf) = (0, 0);
        let rectangle = section.record();
        (section.hf, section.bf) = (random.within(1..=i32::from(h) - 1) as u16, section.b);
        let rib = section.record();
        let x = random.within(1..=h.into()) as u32;
        let mut row = [0; 3 * 100];
        let listed = rules::write(&rectangle, &rules::list_of(&rectangle), &mut row);
        held.amounts(&rib, x, rules::amounts(&rectangle, x));
        held.depths(&rib, &[0; 3 * 100], listed, &row);
        held.shear(&rib, rules::shear(&rectangle));
    }
    held.finish();
}
