//! Wrong programs that the series tried of `fw_strength` would show.
use fordwhistle_tests::rules::{self, count, Numbers, Rule, Strength, RULE, T10};
use fordwhistle_tests::series;
use std::ops::RangeInclusive;
use std::sync::LazyLock;

/// What a wrong program makes of the right rule.
type Error = (&'static str, fn(&mut Rule));

fn sum(results: &[i128]) -> i128 {
    results.iter().sum()
}

/// The rule's sum of squares, for a mean that is wrong there alone.
fn squares(results: &[i128], from: i128) -> i128 {
    (RULE.squares)(results, from)
}

/// The results before the last.
fn without_last(results: &[i128]) -> &[i128] {
    &results[..results.len() - 1]
}

/// The mean rounded up.
fn up(results: &[i128]) -> i128 {
    -(-sum(results)).div_euclid(count(results))
}

const SUMS: [Error; 10] = [
    ("f is rounded up", |rule| rule.f = up),
    ("f is rounded to the nearest", |rule| {
        rule.f = |results| (2 * sum(results) + count(results)) / (2 * count(results))
    }),
    ("f is the first result", |rule| {
        rule.f = |results| results[0]
    }),
    ("the last result is not in f", |rule| {
        rule.f = |results| (sum(without_last(results)) / count(results)).max(1)
    }),
    ("the last result has no distance", |rule| {
        rule.squares = |results, f| squares(without_last(results), f)
    }),
    ("distances are from the first result", |rule| {
        rule.squares = |results, _| squares(results, results[0])
    }),
    ("distances are from the result before", |rule| {
        rule.squares = |results, _| {
            let pairs = results.windows(2);
            pairs.map(|pair| (pair[1] - pair[0]).pow(2)).sum()
        }
    }),
    ("distances are from the mean rounded up", |rule| {
        rule.squares = |results, _| squares(results, up(results))
    }),
    ("distances are from the exact mean", |rule| {
        rule.squares = |results, _| squares(results, 0) - sum(results).pow(2) / count(results)
    }),
    ("distances are not squared", |rule| {
        rule.squares = |results, f| results.iter().map(|result| (result - f).abs()).sum()
    }),
];

/// With the right s.
fn with_s(of: &Numbers) -> Numbers {
    let s = (RULE.s)(of);
    Numbers { s, ..*of }
}

/// With the right a.
fn with_a(of: &Numbers) -> Numbers {
    let a = (RULE.a)(of);
    Numbers { a, ..*of }
}

/// Where a value is answered s is at most 7370 and a at most 5653, and with roots of at most 13 binary digits the same series are refused:
/// no answer shows whether a root may have more.
const S: [Error; 4] = [
    ("s goes by n", |rule| {
        rule.s = |of| (RULE.s)(&Numbers { n: of.n + 1, ..*of })
    }),
    ("s is rounded up", |rule| {
        rule.s = |of| (RULE.s)(of) + i128::from(!with_s(of).has_exact_s())
    }),
    ("s is less than an exact root", |rule| {
        rule.s = |of| ((RULE.s)(of) - i128::from(with_s(of).has_exact_s())).max(0)
    }),
    ("s has 12 binary digits", |rule| {
        rule.s = |of| (RULE.s)(of).min(4095)
    }),
];

const A: [Error; 7] = [
    ("a is one too small", |rule| {
        rule.a = |of| ((RULE.a)(of) - 1).max(0)
    }),
    ("a is rounded down", |rule| {
        rule.a = |of| (RULE.a)(of) - i128::from(!with_a(of).has_exact_a())
    }),
    ("a is more than an exact root", |rule| {
        rule.a = |of| (RULE.a)(of) + i128::from(of.s > 0 && with_a(of).has_exact_a())
    }),
    ("a has 12 binary digits", |rule| {
        rule.a = |of| (RULE.a)(of).min(4095)
    }),
    ("a goes by n - 1", |rule| {
        rule.a = |of| (RULE.a)(&Numbers { n: of.n - 1, ..*of })
    }),
    ("s t10 is rounded to whole kPa", |rule| {
        rule.a = |of| {
            let s = of.s * of.t10 / 100;
            (RULE.a)(&Numbers { s, t10: 100, ..*of })
        }
    }),
    ("the square of s t10 has 32 bits", |rule| {
        rule.a = |of| {
            let bound = i128::from((of.s * of.t10).pow(2) as u32);
            rules::squares_while(|square| 10_000 * square * of.n < bound)
        }
    }),
];

const G: [Error; 7] = [
    ("g is rounded down", |rule| {
        rule.g = |of| {
            let (num, den) = of.quotient();
            num / den
        }
    }),
    ("g is more than an exact quotient", |rule| {
        rule.g = |of| {
            let (num, den) = of.quotient();
            num / den + i128::from(of.s > 0)
        }
    }),
    ("g takes f alone", |rule| {
        rule.g = |of| (RULE.g)(&Numbers { a: 0, ..*of })
    }),
    ("g takes f - a", |rule| {
        rule.g = |of| (RULE.g)(&Numbers { a: -of.a, ..*of })
    }),
    ("g goes by 1.64", |rule| {
        rule.g = |of| -(-164 * of.s * (of.f + of.a)).div_euclid(100 * of.f)
    }),
    ("g is rounded before f + a", |rule| {
        rule.g = |of| {
            let s = -(-329 * of.s).div_euclid(200);
            -(-s * (of.f + of.a)).div_euclid(of.f)
        }
    }),
    ("g has a product of 32 bits", |rule| {
        rule.g = |of| {
            let (num, den) = of.quotient();
            -(-i128::from(num as u32)).div_euclid(den)
        }
    }),
];

const VALUES: [Error; 6] = [
    ("the value is f - a", |rule| {
        rule.answer = |of| (RULE.answer)(&Numbers { g: 0, ..*of })
    }),
    ("the value is f - g", |rule| {
        rule.answer = |of| (RULE.answer)(&Numbers { a: 0, ..*of })
    }),
    ("a value of 0 is refused", |rule| {
        rule.answer = |of| match of.value() {
            0 => Strength::refused(23),
            _ => (RULE.answer)(of),
        }
    }),
    ("a value below 0 is answered as 0", |rule| {
        rule.answer = |of| {
            let most = of.g.min(of.f - of.a);
            (RULE.answer)(&Numbers { g: most, ..*of })
        }
    }),
    ("the mean stands beside 23", |rule| {
        rule.answer = |of| Strength {
            mean: of.f as u32,
            ..(RULE.answer)(of)
        }
    }),
    ("the deviation stands beside 23", |rule| {
        rule.answer = |of| Strength {
            deviation: of.s as u32,
            ..(RULE.answer)(of)
        }
    }),
];

const COUNTS: [Error; 6] = [
    ("22 comes before 21", |rule| rule.lines.swap(0, 1)),
    ("7 results are accepted", |rule| {
        rule.lines[0].1 = |results| is_column(results) || count(results) == 7
    }),
    ("any number from 3 to 15 is accepted", |rule| {
        rule.lines[0].1 = |results| (3..=15).contains(&count(results))
    }),
    ("2 results are accepted", |rule| {
        rule.lines[0].1 = |results| is_column(results) || count(results) == 2
    }),
    ("more than 15 results are accepted", |rule| {
        rule.lines[0].1 = |results| is_column(results) || count(results) > 15
    }),
    ("15 results are refused", |rule| {
        rule.lines[0].1 = |results| is_column(results) && count(results) < 15
    }),
];

fn is_column(results: &[i128]) -> bool {
    T10.iter().any(|(n, _)| *n == count(results))
}

fn are_within(results: &[i128], range: RangeInclusive<i128>) -> bool {
    results.iter().all(|result| range.contains(result))
}

const RANGES: [Error; 9] = [
    ("a result of 20,000 is refused", |rule| {
        rule.lines[1].1 = |results| are_within(results, 1..=19_999)
    }),
    ("a result of 20,001 is accepted", |rule| {
        rule.lines[1].1 = |results| are_within(results, 1..=20_001)
    }),
    ("a result of 1 is refused", |rule| {
        rule.lines[1].1 = |results| are_within(results, 2..=20_000)
    }),
    ("a result of 0 is accepted", |rule| {
        rule.lines[1].1 = |results| are_within(results, 0..=20_000)
    }),
    ("the first result alone is tested", |rule| {
        rule.lines[1].1 = |results| are_within(&results[..1], 1..=20_000)
    }),
    ("the last result alone is tested", |rule| {
        rule.lines[1].1 = |results| are_within(&results[results.len() - 1..], 1..=20_000)
    }),
    ("the last result is not tested", |rule| {
        rule.lines[1].1 = |results| are_within(without_last(results), 1..=20_000)
    }),
    ("a result has 16 bits", |rule| {
        rule.result = |result| i128::from(result as u16)
    }),
    ("a result has 31 bits", |rule| {
        rule.result = |result| i128::from(result & i32::MAX as u32)
    }),
];

/// Each series with its answer.
static SERIES: LazyLock<Vec<(Vec<u32>, Strength)>> = LazyLock::new(|| {
    let answered = series::all().map(|series| (series.clone(), rules::strength(&series)));
    answered.collect()
});

fn assert_shown(error: &str, shows: impl Fn(&[u32], Strength) -> bool) {
    let shown = SERIES
        .iter()
        .filter(|(series, right)| shows(series, *right));
    let count = shown.count();
    assert!(count > 100, "{error}: {count}");
}

/// What passes where it should not has numbers beyond any table, and shows whatever is made of them.
#[test]
fn every_error_would_show_in_many_series() {
    let errors: [&[Error]; 7] = [&SUMS, &S, &A, &G, &VALUES, &COUNTS, &RANGES];
    for (error, make) in errors.concat() {
        let mut wrong = RULE;
        make(&mut wrong);
        assert_shown(error, |series, right| {
            wrong.refusal(series) != RULE.refusal(series) || wrong.strength(series) != right
        });
    }
}

/// So also a table that is a column off.
#[test]
fn every_t10_of_another_column_would_show_in_many_series() {
    for (n, right_t10) in T10 {
        for (other, t10) in T10.into_iter().filter(|(_, t10)| *t10 != right_t10) {
            assert_shown(&format!("t10 of {other} for {n}"), |series, right| {
                if series.len() as i128 != n || right.refusal == 22 {
                    return false;
                }
                let mut wrong = Numbers {
                    t10,
                    ..Numbers::of(series)
                };
                wrong.a = (RULE.a)(&wrong);
                wrong.g = (RULE.g)(&wrong);
                (RULE.answer)(&wrong) != right
            });
        }
    }
}
