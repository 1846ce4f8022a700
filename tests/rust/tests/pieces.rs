//! Where the strips and the flanges of the sections of every height lie on the law's pieces: `strips.rs` holds the sums over them.
use fordwhistle_tests::rules::{Axis, Law, Section};
use fordwhistle_tests::sections;
use std::cmp::Ordering::{self, Equal, Greater, Less};
use std::collections::BTreeMap;

/// A piece of the law as strips lie on it: the slope of their strain, the piece's number, and whether the size of the
/// stress is less or greater at the end that is further from the axis.
type Piece = (i64, usize, Ordering);

/// The most strips on a piece at one depth, and at all depths those whose exact stress is whole: rounding takes nothing
/// off them, and one that is taken to be less by the least comes out wrong.
#[derive(Debug, Default)]
struct Reached {
    most: usize,
    whole: usize,
}

/// Adds what the strips of a section reach with the neutral axis at depth x.
fn reach(reached: &mut BTreeMap<Piece, Reached>, section: &Section, x: u16) {
    let (law, axis) = (Law::of(section), Axis::of(section, x));
    let (mut strips, mut whole) = ([0; 6], [0; 6]);
    for strip in 0..i64::from(section.h) {
        let (p, q) = axis.strain(2 * strip + 1);
        let (num, den) = law.stress(p, q);
        strips[law.piece(p, q)] += 1;
        whole[law.piece(p, q)] += usize::from(num % den == 0);
    }
    for piece in 0..=5 {
        let end = match piece {
            0 | 5 => Equal,
            4 => Greater,
            // Of two stresses in tension, the one of greater size is the lesser.
            line => law.corners[line].1.cmp(&law.corners[line - 1].1),
        };
        let reached = reached.entry((axis.slope, piece, end)).or_default();
        reached.most = reached.most.max(strips[piece]);
        reached.whole += whole[piece];
    }
}

/// The line from zero can only rise. It spans 53 to 202 µ and the next 100, few strips of even a high section.
#[test]
fn the_strips_reach_each_piece_rising_and_falling_in_both_strains() {
    let mut reached = BTreeMap::new();
    for section in sections::of_every_height().step_by(4) {
        (1..=section.h).for_each(|x| reach(&mut reached, &section, x));
    }
    for (slope, bent) in [(10_000, 150), (3500, 500)] {
        for (piece, end, most, whole) in [
            (0, Equal, 400, 1000),
            (1, Less, 700, 100),
            (1, Greater, 700, 100),
            (2, Less, 9, 100),
            (2, Greater, 9, 100),
            (3, Greater, 7, 100),
            (4, Greater, bent, if slope == 3500 { 0 } else { 100 }),
            (5, Equal, 100, 1000),
        ] {
            let reached = &reached[&(slope, piece, end)];
            let enough = reached.most >= most && reached.whole >= whole;
            assert!(enough, "{slope} {piece} {end:?}: {reached:?}");
        }
    }
    // For a whole stress on that parabola fcd would have to be a multiple of 64.
    assert_eq!(reached[&(3500, 4, Greater)].whole, 0);
}

/// By the pieces of the strips above and below the flange's edge.
#[test]
fn the_flange_ends_on_each_piece_and_where_two_meet_in_both_strains() {
    let mut reached = BTreeMap::new();
    for section in sections::of_every_height() {
        let (law, hf) = (Law::of(&section), i64::from(section.hf));
        for x in (1..=section.h).filter(|_| section.b < section.bf) {
            let axis = Axis::of(&section, x);
            let pieces = [2 * hf - 1, 2 * hf + 1].map(|twice| {
                let (p, q) = axis.strain(twice);
                law.piece(p, q)
            });
            *reached.entry((axis.slope, pieces)).or_insert(0) += 1;
        }
    }
    for slope in [10_000, 3500] {
        let meet = (0..5).map(|piece| [piece + 1, piece]);
        for pieces in (0..=5).map(|piece| [piece; 2]).chain(meet) {
            let depths = reached[&(slope, pieces)];
            assert!(depths >= 50, "{slope} {pieces:?}: {depths}");
        }
    }
}
