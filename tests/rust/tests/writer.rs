//! `fw_write_book` held to document 01's section book; what it writes goes there and back.
use fordwhistle_tests::books::{self, strings};
use fordwhistle_tests::flange;
use fordwhistle_tests::held::Held;
use fordwhistle_tests::lent::written;
use fordwhistle_tests::rules::{self, Section};
use fordwhistle_tests::sections;
use std::collections::{BTreeMap, BTreeSet};

#[test]
fn the_face_writes_the_rules_book() {
    let mut held = Held::new();
    for (string, before) in strings::lent() {
        let (written, after) = written(rules::write_book, &string, &before);
        held.write_book(&string, &before, written, &after);
    }
    held.finish();
}

/// The sections of a string that is not refused, as they are written.
fn sections_of(string: &[u8]) -> Vec<Section> {
    let records = rules::records(string).into_iter();
    let section = |record| Section::of(record).unwrap().as_written();
    records.map(section).collect()
}

/// The parts of a good book that are its records. The face is held to the same, and to none behind them.
fn parts<'a>(held: &mut Held, book: &'a [u8]) -> Vec<&'a [u8]> {
    let answer = rules::book(book);
    assert_eq!(answer.refusal, 0, "{book:?}");
    held.book(book, answer);
    held.record(answer.count, rules::record(book, answer.count));
    let part = |number| {
        let found = rules::record(book, number);
        held.record(number, found);
        found.part(book)
    };
    (0..answer.count).map(part).collect()
}

#[test]
fn books_go_there_and_back() {
    let mut held = Held::new();
    for string in strings::accepted() {
        let book = rules::book_of(&string).unwrap().bytes();
        let (parts, sections) = (parts(&mut held, &book), sections_of(&string));
        let records: Vec<Vec<u8>> = sections.iter().map(Section::record).collect();
        let (read, lent) = (parts.concat(), vec![0; book.len()]);
        let (written, again) = written(rules::write_book, &read, &lent);
        assert_eq!(parts, records, "{string:?}");
        assert_eq!(sections_of(&read), sections, "{string:?}");
        assert_eq!(again, book, "{string:?}");
        held.write_book(&read, &lent, written, &book);
    }
    held.finish();
}

#[test]
fn the_rules_give_the_figures() {
    let [plate, beam] = sections::figures();
    let [first, second] = [plate.record(), beam.record()];
    let bad = Section { fyk: 0, ..plate }.record();
    let both = [first.as_slice(), &second].concat();
    let third = [first.repeat(2), bad, first.repeat(2997)].concat();
    let sample = books::sample().bytes();
    let none = b"\0\0\0\0\0\0\0\0\x10\0\0\0BOOK";
    let lent = [170; 70_000];
    let write = |string: &[u8], room| {
        let (written, book) = written(rules::write_book, string, &lent[..room]);
        (written.refusal, written.len, book)
    };
    assert_eq!(write(&both, 76), (0, 76, sample));
    assert_eq!(write(&[], 16), (0, 16, none.to_vec()));
    assert_eq!(write(&[], 15), (19, 0, lent[..15].to_vec()));
    assert_eq!(write(&first.repeat(2340), 65_536).1, 65_536);
    assert_eq!(write(&first.repeat(2341), 70_000), (19, 0, lent.to_vec()));
    assert_eq!(write(&third, 70_000), (9, 0, lent.to_vec()));
}

#[test]
fn the_strings_are_as_many_as_is_said() {
    let [accepted, damaged] = [strings::accepted().count(), strings::damaged().count()];
    assert_eq!((accepted, damaged), (10_000, 10_200));
    assert_eq!(strings::all().count(), 29_274);
}

/// The refusals of strings, each lent what any book may have.
fn refusals(strings: impl Iterator<Item = Vec<u8>>) -> BTreeSet<u32> {
    let mut lent = vec![0; 65_536];
    let mut refusal = |string: Vec<u8>| rules::write_book(&string, &mut lent).refusal;
    strings.map(&mut refusal).collect()
}

#[test]
fn the_strings_and_what_is_lent_reach_every_refusal() {
    let mut reached = BTreeMap::new();
    for (string, mut lent) in strings::lent() {
        let written = rules::write_book(&string, &mut lent);
        *reached.entry(written.refusal).or_insert(0) += 1;
    }
    let many = reached.values().all(|count| *count >= 10);
    let every = sections::refusals_and([0, 19]);
    assert!(many && reached.keys().eq(every.iter()), "{reached:?}");
}

#[test]
fn each_kind_of_string_leads_where_it_should() {
    let of_records = sections::refusals_and([0]);
    assert_eq!(refusals(strings::accepted()), BTreeSet::from([0]));
    assert_eq!(refusals(strings::lone()), of_records);
    assert_eq!(refusals(strings::mixed()), of_records);
    assert_eq!(refusals(strings::damaged()), of_records);
    assert!(refusals(strings::faulty()).is_superset(&BTreeSet::from([0, 6])));
    assert_eq!(refusals(strings::cut()), BTreeSet::from([0, 6]));
    assert_eq!(refusals(strings::limits()), BTreeSet::from([0, 6, 9, 19]));
}

#[test]
fn every_error_in_what_is_refused_would_show_in_the_lone_sections() {
    sections::assert_order_shows(strings::lone());
    flange::assert_refusals_show(strings::lone(), 5);
}

/// Only there does it show what is done with the spacing.
#[test]
fn the_sections_without_stirrups_have_spacing_or_none() {
    let strings: Vec<Vec<u8>> = strings::accepted().collect();
    let records = strings.iter().flat_map(|string| rules::records(string));
    let sections = records.map(|record| Section::of(record).unwrap());
    let without = sections.filter(|section| section.asw == 0);
    let spacings: BTreeSet<bool> = without.map(|section| section.spacing == 0).collect();
    assert_eq!(spacings.len(), 2);
}

/// The library is x86-64 code, so only there can a Rust program link it.
#[cfg(target_arch = "x86_64")]
mod linked {
    use super::{rules, sections_of, strings, written, Section};
    use rules::{BookAnswer, RecordAnswer, Written};

    #[link(name = "panel", kind = "static")]
    extern "C" {
        fn fw_write_book(records: *const u8, len: usize, book: *mut u8, room: usize) -> Written;
        fn fw_book(book: *const u8, len: usize) -> BookAnswer;
        fn fw_record(book: *const u8, len: usize, number: u32) -> RecordAnswer;
    }

    fn write_book(string: &[u8], book: &mut [u8]) -> Written {
        // It reads the string, writes the book and touches no other memory of the caller's.
        unsafe { fw_write_book(string.as_ptr(), string.len(), book.as_mut_ptr(), book.len()) }
    }

    #[test]
    fn the_face_linked_writes_the_rules_book() {
        for (string, lent) in strings::lent() {
            let right = written(rules::write_book, &string, &lent);
            assert_eq!(written(write_book, &string, &lent), right, "{string:?}");
        }
    }

    /// The parts of a book that are its records.
    fn parts(book: &[u8]) -> Vec<&[u8]> {
        // They read the book and touch no other memory of the caller's.
        let BookAnswer { refusal, count } = unsafe { fw_book(book.as_ptr(), book.len()) };
        assert_eq!(refusal, 0, "{book:?}");
        let part = |number| unsafe { fw_record(book.as_ptr(), book.len(), number) }.part(book);
        (0..count).map(part).collect()
    }

    #[test]
    fn books_linked_go_there_and_back() {
        for string in strings::accepted() {
            let lent = vec![0; 2 * string.len() + 16];
            let (first, mut book) = written(write_book, &string, &lent);
            book.truncate(first.len as usize);
            let (parts, sections) = (parts(&book), sections_of(&string));
            let records: Vec<Vec<u8>> = sections.iter().map(Section::record).collect();
            let again = written(write_book, &parts.concat(), &vec![0; book.len()]);
            assert_eq!(parts, records, "{string:?}");
            assert_eq!(again, (first, book.clone()), "{string:?}");
        }
    }
}
