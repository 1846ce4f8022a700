//! Wrong programs that the books tried of `fw_book` and `fw_record` would show.
use fordwhistle_tests::books::tried;
use fordwhistle_tests::rules::{self, Book, Bound, Lines, Section, LINES};
use std::mem::swap;

/// What a wrong program makes of the right tests.
type Error = (&'static str, fn(&mut Lines));

const LENGTHS: [Error; 9] = [
    ("a book may be shorter than 16", |lines| {
        lines.length.1 = |book| book.length() <= 65_536
    }),
    ("a book is longer than 16", |lines| {
        lines.length.1 = |book| (17..=65_536).contains(&book.length())
    }),
    ("a book is shorter than 65,536", |lines| {
        lines.length.1 = |book| (16..65_536).contains(&book.length())
    }),
    ("a book may have 65,537 bytes", |lines| {
        lines.length.1 = |book| (16..=65_537).contains(&book.length())
    }),
    ("a book may have any length from 16 on", |lines| {
        lines.length.1 = |book| 16 <= book.length()
    }),
    ("a length has 16 bits", |lines| {
        lines.length.1 = |book| 16 <= book.length();
        lines.stated.1 = |book| low(book.stated) == low(book.length());
    }),
    ("the stated length is ignored", |lines| {
        lines.stated.1 = |_| true
    }),
    ("the stated length may be less", |lines| {
        lines.stated.1 = |book| book.stated <= book.length()
    }),
    ("the stated length may be more", |lines| {
        lines.stated.1 = |book| book.stated >= book.length()
    }),
];

const ORDERS: [Error; 4] = [
    ("2 comes before 1", |lines| {
        swap(&mut lines.stated, &mut lines.letters)
    }),
    ("3 comes before 2", |lines| {
        swap(&mut lines.letters, &mut lines.index)
    }),
    ("3 comes before 1", |lines| {
        swap(&mut lines.stated, &mut lines.index)
    }),
    ("4 comes before 3", |lines| {
        swap(&mut lines.index, &mut lines.first)
    }),
];

const LETTERS: [Error; 4] = [
    ("the letters are ignored", |lines| {
        lines.letters.1 = |_| true
    }),
    ("the first letter counts alone", |lines| {
        lines.letters.1 = |book| book.letters.to_le_bytes()[0] == b'B'
    }),
    ("the last letter is ignored", |lines| {
        lines.letters.1 = |book| book.letters.to_le_bytes()[..3] == *b"BOO"
    }),
    ("the letters may be small", |lines| {
        lines.letters.1 = |book| book.letters.to_le_bytes()[..4].eq_ignore_ascii_case(b"BOOK")
    }),
];

const INDICES: [Error; 7] = [
    ("the index's place is ignored", |lines| {
        lines.index.1 = |book| 4 * book.n + 16 <= book.length()
    }),
    ("the sum has 32 bits", |lines| {
        lines.index.1 = |book| (book.place + 4 * book.n + 16) as u32 as u64 == book.length()
    }),
    ("4n has 32 bits", |lines| {
        lines.index.1 = |book| book.place + (4 * book.n) as u32 as u64 + 16 == book.length()
    }),
    ("n has 16 bits", |lines| {
        lines.index.1 = |book| book.place + 4 * low(book.n) + 16 == book.length()
    }),
    ("the index's place has 16 bits", |lines| {
        lines.index.1 = |book| low(book.place) + 4 * book.n + 16 == book.length()
    }),
    ("bytes may follow the index", |lines| {
        lines.index.1 = |book| book.place + 4 * book.n + 16 <= book.length()
    }),
    ("the index may overlap the last 16 bytes", |lines| {
        lines.index.1 = |book| book.place + 4 * book.n + 16 >= book.length()
    }),
];

const RECORDS: [Error; 16] = [
    ("the first record starts anywhere", |lines| {
        lines.first.1 = |_| true
    }),
    ("the index is anywhere where n is 0", |lines| {
        lines.first.1 = |book| book.n == 0 || book.bounds[0] == 0
    }),
    ("n is not 0", |lines| {
        lines.first.1 = |book| book.n != 0 && book.bounds[0] == 0
    }),
    ("there may be 9 layers", |lines| {
        lines.layers.1 = |book| book.records().all(|record| record.m <= 9)
    }),
    ("there may be any layers", |lines| lines.layers.1 = |_| true),
    ("a layer count has 8 bits", |lines| {
        lines.layers.1 = |book| book.records().all(|record| record.m as u8 <= 8)
    }),
    ("there are at most 7 layers", |lines| {
        lines.layers.1 = |book| book.records().all(|record| record.m <= 7)
    }),
    ("a rib's record is as long as another", |lines| {
        lines.ends.1 = |book| (book.records()).all(|record| ends_at_next(Bound { hf: 0, ..record }))
    }),
    ("a flange height has 8 bits", |lines| {
        lines.ends.1 = |book| {
            let low = |record: Bound| Bound {
                hf: record.hf % 256,
                ..record
            };
            book.records().map(low).all(ends_at_next)
        }
    }),
    ("a record may stop short of the next", |lines| {
        lines.ends.1 = |book| book.records().all(|record| record.end() <= record.next)
    }),
    ("a record may run into the next", |lines| {
        lines.ends.1 = |book| book.records().all(|record| record.end() >= record.next)
    }),
    ("the last record ends anywhere", |lines| {
        lines.ends.1 = |book| book.records().rev().skip(1).all(ends_at_next)
    }),
    ("records before the last end anywhere", |lines| {
        lines.ends.1 = |book| book.records().next_back().is_none_or(ends_at_next)
    }),
    ("the index is not looked into", |lines| {
        lines.first.1 = |_| true;
        lines.ends.1 = |book| {
            let ends = (0..book.n).fold(0, |at, _| at + rules::own_length(book.from(at)));
            ends == book.place
        }
    }),
    ("a rib with its zero not zero refuses the book", |lines| {
        lines.ends.1 = |book| (LINES.ends.1)(book) && sections(book).all(|s| s != Err(6))
    }),
    ("a section that is refused refuses the book", |lines| {
        lines.ends.1 = |book| (LINES.ends.1)(book) && sections(book).all(|s| s.is_ok())
    }),
];

const NUMBERS: [Error; 4] = [
    ("record n is there", |lines| {
        lines.has = |book, number| u64::from(number) <= book.n
    }),
    ("the last record is not there", |lines| {
        lines.has = |book, number| u64::from(number) + 1 < book.n
    }),
    ("every record is there", |lines| lines.has = |_, _| true),
    ("a record's number has 16 bits", |lines| {
        lines.has = |book, number| low(number.into()) < book.n
    }),
];

/// In 16 bits.
fn low(n: u64) -> u64 {
    n % 65_536
}

fn ends_at_next(record: Bound) -> bool {
    record.end() == record.next
}

/// The sections of a book that passes, or their refusals.
fn sections<'a>(book: &'a Book) -> impl Iterator<Item = Result<Section, u32>> + 'a {
    let part = |record: Bound| &book.bytes[record.at as usize..record.end() as usize];
    book.records().map(part).map(Section::of)
}

/// Whether another answer is given of a book, or of a record of it or next to it.
fn shows(wrong: &Lines, book: &Book) -> bool {
    let n = book.n as u32;
    let numbers = [0, n.wrapping_sub(1), n, 65_536];
    wrong.book(book) != LINES.book(book)
        || (numbers.into_iter())
            .any(|number| wrong.record(book, number) != LINES.record(book, number))
}

#[test]
fn every_error_would_show_in_some_books() {
    let bytes: Vec<Vec<u8>> = tried::all().collect();
    let books: Vec<Book> = bytes.iter().map(|bytes| Book::of(bytes)).collect();
    let errors: [&[Error]; 6] = [&LENGTHS, &ORDERS, &LETTERS, &INDICES, &RECORDS, &NUMBERS];
    for (error, make) in errors.concat() {
        let mut wrong = LINES;
        make(&mut wrong);
        let shown = books.iter().filter(|book| shows(&wrong, book)).count();
        assert!(shown >= 10, "{error}: {shown}");
    }
}
