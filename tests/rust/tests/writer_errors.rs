//! Wrong programs that the strings tried of `fw_write_book` would show.
use fordwhistle_tests::books::strings;
use fordwhistle_tests::lent::differ;
use fordwhistle_tests::rules::{self, Parts, Section, Written};

/// How a wrong program writes.
type Error = (&'static str, fn(&[u8], &mut [u8]) -> Written);

const ERRORS: [Error; 20] = [
    ("the index is one record short", |string, book| {
        with(string, book, |parts| {
            parts.length -= 4 * u32::from(parts.index.pop().is_some());
            parts.n = parts.index.len() as u32;
        })
    }),
    ("places count from 1", |string, book| {
        with(string, book, |parts| {
            parts.index.iter_mut().for_each(|place| *place += 1)
        })
    }),
    ("the index has the records' ends", |string, book| {
        with(string, book, |parts| {
            parts.index.push(parts.place);
            parts.index.remove(0);
        })
    }),
    ("the length is without the last 16 bytes", |string, book| {
        with(string, book, |parts| parts.length -= 16)
    }),
    ("the index's place is the last record's", |string, book| {
        with(string, book, |parts| {
            parts.place = parts.index.pop().unwrap_or(0)
        })
    }),
    ("n is the last record's number", |string, book| {
        with(string, book, |parts| parts.n = parts.n.saturating_sub(1))
    }),
    ("BOOK is written backwards", |string, book| {
        with(string, book, |parts| parts.letters.reverse())
    }),
    ("the first section is written n times", |string, book| {
        with(string, book, |parts| {
            let first = parts.records.first().cloned();
            parts.records.fill(first.unwrap_or_default());
            parts.settle();
        })
    }),
    ("a flange's bytes are not written", |string, book| {
        with_ribs(string, book, |rib| rib.truncate(rib.len() - 4))
    }),
    ("a flange is not written", |string, book| {
        with_ribs(string, book, |rib| {
            rib[22..24].fill(0);
            rib.truncate(rib.len() - 4);
        })
    }),
    ("a flange is written before the layers", |string, book| {
        with_ribs(string, book, |rib| rib[24..].rotate_right(4))
    }),
    ("spacing is kept without stirrups", |string, book| {
        let kept = rules::book_of(string).map(|_| as_filed(string));
        Written::of(kept, book)
    }),
    ("19 comes before a bad section", |string, book| {
        let fits = Written::of(Ok(as_filed(string)), &mut book.to_vec());
        match fits.refusal {
            19 => fits,
            _ => rules::write_book(string, book),
        }
    }),
    ("6 comes before another bad section", |string, book| {
        let records = rules::records(string);
        let read = records.into_iter().map(Section::read);
        let all: Option<Vec<Section>> = read.collect();
        let bytes = all.ok_or(6).and_then(|_| rules::book_of(string));
        Written::of(bytes.map(|parts| parts.bytes()), book)
    }),
    ("the last bad section refuses", |string, book| {
        let records = rules::records(string).into_iter().rev();
        let last = records.map(Section::of).find_map(Result::err);
        let bytes = last.map_or_else(|| rules::book_of(string), Err);
        Written::of(bytes.map(|parts| parts.bytes()), book)
    }),
    ("a byte is written on a refusal", |string, book| {
        let written = rules::write_book(string, book);
        if let (1.., Some(byte)) = (written.refusal, book.first_mut()) {
            *byte = !*byte;
        }
        written
    }),
    ("what is left over is ignored", |string, book| {
        let last = rules::records(string).pop().unwrap_or(&[]);
        let left = if last.len() < 24 { last.len() } else { 0 };
        rules::write_book(&string[..string.len() - left], book)
    }),
    ("a book may be longer than 65,536", |string, book| {
        let bytes = rules::book_of(string).map_or(vec![], |parts| parts.bytes());
        match book.get_mut(..bytes.len()) {
            Some(start) if bytes.len() > 65_536 => {
                start.copy_from_slice(&bytes);
                Written {
                    refusal: 0,
                    len: bytes.len() as u32,
                }
            }
            _ => rules::write_book(string, book),
        }
    }),
    ("a book is shorter than 65,536", |string, book| {
        let room = book.len().min(65_535);
        rules::write_book(string, &mut book[..room])
    }),
    ("the bytes past the book are cleared", |string, book| {
        let written = rules::write_book(string, book);
        if written.refusal == 0 {
            book[written.len as usize..].fill(0);
        }
        written
    }),
];

/// The book of a string's records as they are.
fn as_filed(string: &[u8]) -> Vec<u8> {
    let records = rules::records(string).into_iter();
    Parts::of(records.map(<[u8]>::to_vec).collect()).bytes()
}

/// Writes the right book with a part of it put wrong.
fn with(string: &[u8], book: &mut [u8], wrong: impl Fn(&mut Parts)) -> Written {
    let parts = rules::book_of(string).map(|mut parts| {
        wrong(&mut parts);
        parts.bytes()
    });
    Written::of(parts, book)
}

/// The same with each record of a rib.
fn with_ribs(string: &[u8], book: &mut [u8], wrong: fn(&mut Vec<u8>)) -> Written {
    let is_rib = |record: &&mut Vec<u8>| record[22..24] != [0, 0];
    with(string, book, |parts| {
        parts.records.iter_mut().filter(is_rib).for_each(wrong);
        parts.settle();
    })
}

#[test]
fn every_error_would_show_in_some_books() {
    let cases: Vec<_> = strings::lent().collect();
    for (error, wrong) in ERRORS {
        assert!(differ(wrong, rules::write_book, &cases), "{error}");
    }
}
