//! The section book. It is read word by word from its end, and what starts where is one row of bounds, where the proved code walks from
//! record to record. Each test of the table stands alone, so that a test of these can put one of them wrong.
use super::balance::{list_of, Amount};
use super::section::record_length;
use super::shear::shear;
use std::collections::HashMap;

/// `fw_book_answer`, as the header lays it out.
#[repr(C)]
#[derive(Debug, Clone, Copy, PartialEq, Eq)]
pub struct BookAnswer {
    pub refusal: u32,
    pub count: u32,
}

/// `fw_record_answer`.
#[repr(C)]
#[derive(Debug, Clone, Copy, PartialEq, Eq)]
pub struct RecordAnswer {
    pub refusal: u32,
    pub at: u32,
    pub len: u32,
}

impl RecordAnswer {
    /// The record's part of the book that was asked, an empty one where it is refused.
    pub fn part(self, book: &[u8]) -> &[u8] {
        &book[self.at as usize..][..self.len as usize]
    }
}

/// What any bytes say as a book. A byte that is not there counts as 0, and no number here leaves 64 bits.
#[derive(Debug)]
pub struct Book<'a> {
    pub bytes: &'a [u8],
    pub letters: u64,
    pub stated: u64,
    pub n: u64,
    pub place: u64,
    /// Where each record starts, and after the last of them where the index does.
    pub bounds: Vec<u64>,
}

/// A record by where it starts, its layer count, its flange height and what starts next.
#[derive(Debug, Clone, Copy)]
pub struct Bound {
    pub at: u64,
    pub m: u64,
    pub hf: u64,
    pub next: u64,
}

impl Bound {
    pub fn end(&self) -> u64 {
        self.at + record_length(self.m, self.hf)
    }
}

/// The number that bytes are, little-endian.
fn number(bytes: &[u8]) -> u64 {
    let add = |n, byte: &u8| n << 8 | u64::from(*byte);
    bytes.iter().rev().fold(0, add)
}

/// The layer count and the flange height of the record that bytes start with. A byte that is not there counts as 0.
fn counts(bytes: &[u8]) -> [u64; 2] {
    [20, 22].map(|place| {
        let from = bytes.get(place..).unwrap_or(&[]);
        number(&from[..from.len().min(2)])
    })
}

/// How long the record that bytes start with is, by its own two.
pub fn own_length(bytes: &[u8]) -> u64 {
    let [m, hf] = counts(bytes);
    record_length(m, hf)
}

impl Book<'_> {
    pub fn of(bytes: &[u8]) -> Book<'_> {
        let mut words = bytes.rchunks(4).map(number);
        let mut last = || words.next().unwrap_or(0);
        let [letters, stated, n, place] = [last(), last(), last(), last()];
        let starts = words.take(n as usize);
        let mut bounds: Vec<u64> = [place].into_iter().chain(starts).collect();
        bounds.reverse();
        Book {
            bytes,
            letters,
            stated,
            n,
            place,
            bounds,
        }
    }

    pub fn length(&self) -> u64 {
        self.bytes.len() as u64
    }

    /// The bytes from a place on.
    pub fn from(&self, at: u64) -> &[u8] {
        self.bytes.get(at as usize..).unwrap_or(&[])
    }

    pub fn records(&self) -> impl DoubleEndedIterator<Item = Bound> + '_ {
        self.bounds.windows(2).map(|pair| {
            let [m, hf] = counts(self.from(pair[0]));
            Bound {
                at: pair[0],
                m,
                hf,
                next: pair[1],
            }
        })
    }
}

/// A number of the table and what a book that passes does.
pub type Line = (u32, fn(&Book) -> bool);

/// The table's tests that concern a book, in their order.
#[derive(Clone, Copy)]
pub struct Lines {
    pub length: Line,
    pub stated: Line,
    pub letters: Line,
    pub index: Line,
    pub first: Line,
    pub layers: Line,
    pub ends: Line,
    /// Whether a book has the record asked for.
    pub has: fn(&Book, u32) -> bool,
}

/// Where each record ends at the next and the last at the index, none runs past the index. The first bound is the index where n is 0.
pub const LINES: Lines = Lines {
    length: (1, |book| (16..=65_536).contains(&book.length())),
    stated: (1, |book| book.stated == book.length()),
    letters: (2, |book| book.letters == number(b"BOOK")),
    index: (3, |book| book.place + 4 * book.n + 16 == book.length()),
    first: (4, |book| book.bounds[0] == 0),
    layers: (4, |book| book.records().all(|record| record.m <= 8)),
    ends: (4, |book| {
        book.records().all(|record| record.end() == record.next)
    }),
    has: |book, number| u64::from(number) < book.n,
};

impl Lines {
    /// That a book passes, or the first of 1 to 4 that holds.
    fn pass(&self, book: &Book) -> Result<(), u32> {
        let lines = [
            self.length,
            self.stated,
            self.letters,
            self.index,
            self.first,
            self.layers,
            self.ends,
        ];
        let failed = lines.into_iter().find(|(_, passes)| !passes(book));
        failed.map_or(Ok(()), |(refusal, _)| Err(refusal))
    }

    pub fn book(&self, book: &Book) -> BookAnswer {
        let (refusal, count) = match self.pass(book) {
            Ok(()) => (0, book.n as u32),
            Err(refusal) => (refusal, 0),
        };
        BookAnswer { refusal, count }
    }

    pub fn record(&self, book: &Book, number: u32) -> RecordAnswer {
        let passed = self.pass(book);
        let has = passed.and_then(|()| (self.has)(book, number).then_some(()).ok_or(5));
        let (refusal, at, len) = match has {
            Ok(()) => {
                let at = book.bounds.get(number as usize).map_or(0, |at| *at);
                (0, at as u32, own_length(book.from(at)) as u32)
            }
            Err(refusal) => (refusal, 0, 0),
        };
        RecordAnswer { refusal, at, len }
    }
}

/// What `fw_book` answers.
pub fn book(bytes: &[u8]) -> BookAnswer {
    LINES.book(&Book::of(bytes))
}

/// What `fw_record` answers.
pub fn record(bytes: &[u8], number: u32) -> RecordAnswer {
    LINES.record(&Book::of(bytes), number)
}

/// What the book program prints of a record behind its number.
fn line(record: &[u8]) -> String {
    let listed = list_of(record).map(|list| {
        let least = list.iter().map(|depth| depth[2]).min();
        least.map(|moment| [0, list.len() as i64, list[0][0], list[0][1], moment])
    });
    let refused = |refusal: u32| [refusal.into(), 0, 0, 0, 0];
    let bending = listed.map_or_else(refused, |first| first.unwrap_or(refused(14)));
    let Amount { refusal, amount } = shear(record);
    let numbers = bending.into_iter().chain([refusal.into(), amount]);
    let words: Vec<String> = numbers.map(|number: i64| number.to_string()).collect();
    words.join(" ")
}

/// All that it prints of a book. A list is dear, so a record that stands there twice is looked at once.
pub fn lines(bytes: &[u8]) -> String {
    let BookAnswer { refusal, count } = book(bytes);
    if refusal != 0 {
        return format!("B {refusal}\n");
    }
    let mut known = HashMap::new();
    let mut print = |number| {
        let part = record(bytes, number).part(bytes);
        let line = known.entry(part).or_insert_with(|| line(part));
        format!("{number} {line}\n")
    };
    (0..count).map(&mut print).collect()
}
