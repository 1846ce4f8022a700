//! The characteristic strength of a series, document 02's [7]. Its roots are searched in a table of squares, and not found by their digits.
//! Each step stands alone, so that a test can put one of them wrong.
use std::sync::LazyLock;

/// `fw_strength_answer`, as the header lays it out.
#[repr(C)]
#[derive(Debug, Clone, Copy, PartialEq, Eq)]
pub struct Strength {
    pub refusal: u32,
    pub mean: u32,
    pub deviation: u32,
    pub value: u32,
}

impl Strength {
    pub fn refused(refusal: u32) -> Strength {
        Strength {
            refusal,
            mean: 0,
            deviation: 0,
            value: 0,
        }
    }
}

/// Table 2: each number of results with its t10 in hundredths.
pub const T10: [(i128, i128); 8] = [
    (3, 189),
    (4, 164),
    (5, 153),
    (6, 148),
    (8, 142),
    (10, 138),
    (12, 136),
    (15, 134),
];

/// The numbers of a series: n and t10, f, the sum of the squared distances from f, s, a and g. In a step those that come later are 0.
#[derive(Debug, Clone, Copy, Default)]
pub struct Numbers {
    pub n: i128,
    pub t10: i128,
    pub f: i128,
    pub squares: i128,
    pub s: i128,
    pub a: i128,
    pub g: i128,
}

impl Numbers {
    /// Of an accepted series.
    pub fn of(series: &[u32]) -> Numbers {
        RULE.numbers(&RULE.read(series))
    }

    /// Below 0 where it is refused.
    pub fn value(&self) -> i128 {
        self.f - self.a - self.g
    }

    /// Numerator and denominator of g.
    pub fn quotient(&self) -> (i128, i128) {
        (329 * self.s * (self.f + self.a), 200 * self.f)
    }

    pub fn has_exact_s(&self) -> bool {
        self.s.pow(2) * (self.n - 1) == self.squares
    }

    pub fn has_exact_a(&self) -> bool {
        10_000 * self.a.pow(2) * self.n == (self.s * self.t10).pow(2)
    }

    pub fn has_exact_g(&self) -> bool {
        let (num, den) = self.quotient();
        num % den == 0
    }
}

/// A number of the table and what a series that passes does.
pub type Line = (u32, fn(&[i128]) -> bool);

#[derive(Clone, Copy)]
pub struct Rule {
    pub result: fn(u32) -> i128,
    /// The tests of a series, in their order.
    pub lines: [Line; 2],
    pub f: fn(&[i128]) -> i128,
    pub squares: fn(&[i128], i128) -> i128,
    pub s: fn(&Numbers) -> i128,
    pub a: fn(&Numbers) -> i128,
    pub g: fn(&Numbers) -> i128,
    pub answer: fn(&Numbers) -> Strength,
}

pub const RULE: Rule = Rule {
    result: i128::from,
    lines: [
        (21, |results| t10(count(results)).is_some()),
        (22, |results| {
            results.iter().all(|result| (1..=20_000).contains(result))
        }),
    ],
    f: |results| results.iter().sum::<i128>() / count(results),
    squares: |results, f| results.iter().map(|result| (result - f).pow(2)).sum(),
    s: |of| squares_while(|square| square * (of.n - 1) <= of.squares) - 1,
    a: |of| squares_while(|square| 10_000 * square * of.n < (of.s * of.t10).pow(2)),
    g: |of| {
        let (num, den) = of.quotient();
        -(-num).div_euclid(den)
    },
    answer: |of| match u32::try_from(of.value()) {
        Ok(value) => Strength {
            refusal: 0,
            mean: of.f as u32,
            deviation: of.s as u32,
            value,
        },
        Err(_) => Strength::refused(23),
    },
};

impl Rule {
    fn read(&self, series: &[u32]) -> Vec<i128> {
        series.iter().map(|result| (self.result)(*result)).collect()
    }

    fn numbers(&self, results: &[i128]) -> Numbers {
        let n = count(results);
        let f = (self.f)(results);
        let mut numbers = Numbers {
            n,
            t10: t10(n).expect("n is a column of Table 2"),
            f,
            squares: (self.squares)(results, f),
            ..Numbers::default()
        };
        numbers.s = (self.s)(&numbers);
        numbers.a = (self.a)(&numbers);
        numbers.g = (self.g)(&numbers);
        numbers
    }

    /// The first of 21 and 22 that holds.
    pub fn refusal(&self, series: &[u32]) -> Option<u32> {
        let results = self.read(series);
        let failed = self.lines.iter().find(|(_, passes)| !passes(&results));
        failed.map(|(refusal, _)| *refusal)
    }

    pub fn strength(&self, series: &[u32]) -> Strength {
        match self.refusal(series) {
            Some(refusal) => Strength::refused(refusal),
            None => (self.answer)(&self.numbers(&self.read(series))),
        }
    }
}

/// n.
pub fn count(results: &[i128]) -> i128 {
    results.len() as i128
}

fn t10(n: i128) -> Option<i128> {
    let column = T10.into_iter().find(|(results, _)| *results == n);
    column.map(|(_, t10)| t10)
}

/// 0, 1, 4 and so on, far beyond any root here.
static SQUARES: LazyLock<Vec<i128>> = LazyLock::new(|| (0..32_768).map(|n| n * n).collect());

/// How many of them fit, from the first on: the least number whose square does not.
pub fn squares_while(fit: impl Fn(i128) -> bool) -> i128 {
    let count = SQUARES.partition_point(|square| fit(*square));
    assert!(count < SQUARES.len());
    count as i128
}

/// What `fw_strength` answers.
pub fn strength(series: &[u32]) -> Strength {
    RULE.strength(series)
}
