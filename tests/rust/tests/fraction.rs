//! The nearest double and document 01's bound, where the answer is known in another way than theirs.
use fordwhistle_tests::fraction::Fraction;
use fordwhistle_tests::random::Random;

/// Fractions over powers of ten, each with the double that its decimal is read as.
fn decimals() -> impl Iterator<Item = (Fraction, f64)> {
    let mut random = Random::new(4);
    (0..200_000).map(move |_| {
        let places = random.within(0..=18) as u32;
        let num = random.number() as i64 >> random.within(0..=60);
        let read = format!("{num}e-{places}").parse().unwrap();
        (Fraction::new(num.into(), 10i128.pow(places)), read)
    })
}

#[test]
fn the_nearest_double_is_the_one_that_a_decimal_is_read_as() {
    for (exact, read) in decimals() {
        assert_eq!(exact.nearest().to_bits(), read.to_bits(), "{exact:?}");
    }
}

#[test]
fn its_neighbours_are_not_nearest() {
    for (exact, read) in decimals().filter(|(exact, _)| !exact.is_zero()) {
        assert!(exact.is_nearest(read), "{exact:?}");
        assert!(!exact.is_nearest(read.next_up()), "{exact:?}");
        assert!(!exact.is_nearest(read.next_down()), "{exact:?}");
    }
}

#[test]
fn of_two_doubles_as_near_the_even_one_is_nearest() {
    let low = 1i128 << 53;
    for (odd, even) in [(1, 0), (3, 4), (5, 4), (low - 1, low)] {
        let exact = Fraction::new(-3 * (low + odd), 3);
        let double = -((low + even) as f64);
        assert_eq!(exact.nearest(), double);
        assert!(exact.is_nearest(double));
        assert!(!exact.is_nearest(double.next_up()) && !exact.is_nearest(double.next_down()));
    }
}

#[test]
fn zero_is_plus_zero() {
    let zero = Fraction::new(0, 7);
    assert_eq!(zero.nearest().to_bits(), 0);
    assert!(zero.is_nearest(0.0) && !zero.is_nearest(-0.0));
    assert!(!zero.is_nearest(f64::from_bits(1)) && !Fraction::new(1, 7).is_nearest(0.0));
}

#[test]
fn a_drawn_float_is_within_one_millionth_and_no_further() {
    let third = Fraction::new(-1, 3);
    assert!(third.is_drawn_by(-0.333_332_4) && third.is_drawn_by(-0.333_334_3));
    assert!(!third.is_drawn_by(-0.333_332_3) && !third.is_drawn_by(-0.333_334_4));
    assert!(!third.is_drawn_by(third.nearest().abs()));
    assert!(Fraction::new(1, 1_000_000).is_drawn_by(0.0));
    assert!(!Fraction::new(1, 999_999).is_drawn_by(0.0));
}

#[test]
fn where_the_fraction_is_whole_a_drawn_float_equals_it() {
    let three = Fraction::new(6, 2);
    assert!(three.is_drawn_by(3.0) && !three.is_drawn_by(3f64.next_up()));
    assert!(Fraction::new(0, 5).is_drawn_by(0.0) && !Fraction::new(0, 5).is_drawn_by(1e-9));
}

#[test]
fn a_sum_is_exact() {
    // 1/2 + 1/6 + 1/12 + .. falls short of 1 by the last of 1/2, 1/3, 1/4 ..
    let sum: Fraction = (1..=30).map(|k| Fraction::new(1, k * (k + 1))).sum();
    assert!(sum + Fraction::new(1, 31) == 1);
    assert!(sum + Fraction::new(-1, 31) < 1 && sum + Fraction::new(2, 31) > 1);
}

#[test]
fn a_fraction_is_held_to_whole_numbers() {
    let below = Fraction::new(-7, 2);
    assert!(below > -4 && below < -3 && below.times(-4) == 14);
    assert!(below.rounded_down() == -4 && below.times(-2).rounded_down() == 7);
    assert!(below.apart(-3) < 1 && below.apart(-3).times(2) == 1 && below.apart(-5).times(2) == 3);
}
