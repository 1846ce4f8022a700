//! `fw_book` and `fw_record` held to document 01's section book, and what is asked of a record held to the part that `fw_record` gives.
use fordwhistle_tests::books::{self, pairs, sole, tried, DAMAGES, FAULTS};
use fordwhistle_tests::held::Held;
use fordwhistle_tests::rules::{self, Amount, Drawn, Listed, RecordAnswer, Sums};
use fordwhistle_tests::sections;
use std::collections::{BTreeMap, BTreeSet, HashMap};
use std::sync::LazyLock;

static BOOKS: LazyLock<Vec<Vec<u8>>> = LazyLock::new(|| tried::all().collect());

/// What is asked of a record that is found: a drawn point, imbalance and moment at a depth, the depths into a row, and the shear.
const STRAIN: i32 = -5000;
const X: u32 = 20;
const ROW: [i64; 20] = [i64::MIN; 20];

#[derive(Debug)]
struct Answers {
    drawn: Drawn,
    amounts: Sums<Amount>,
    listed: Listed,
    row: [i64; 20],
    shear: Amount,
}

impl Answers {
    fn of(record: &[u8]) -> Answers {
        let mut row = ROW;
        Answers {
            drawn: rules::draw(record, STRAIN),
            amounts: rules::amounts(record, X),
            listed: rules::write(record, &rules::list_of(record), &mut row),
            row,
            shear: rules::shear(record),
        }
    }
}

/// Those of each record that is found, worked out once for every book and every test.
static ANSWERS: LazyLock<HashMap<&[u8], Answers>> = LazyLock::new(|| {
    let mut answers = HashMap::new();
    for book in BOOKS.iter() {
        for (_, answer) in asked(book).filter(|(_, answer)| answer.refusal == 0) {
            let record = answer.part(book);
            answers.entry(record).or_insert_with(|| Answers::of(record));
        }
    }
    answers
});

/// Every record of a book of few and some of a book of many, numbers that no record has, and one that is 0 in its lower 16 bits.
fn asked(book: &[u8]) -> impl Iterator<Item = (u32, RecordAnswer)> + '_ {
    let n = rules::book(book).count;
    let last = n.saturating_sub(1);
    let some = [n / 2, last, n, n + 1, 65_536, u32::MAX];
    let numbers: BTreeSet<u32> = (0..n.min(6)).chain(some).collect();
    let answer = |number| (number, rules::record(book, number));
    numbers.into_iter().map(answer)
}

#[test]
fn the_face_gives_the_rules_books_and_records() {
    let mut held = Held::new();
    for book in BOOKS.iter() {
        held.book(book, rules::book(book));
        asked(book).for_each(|(number, answer)| held.record(number, answer));
    }
    held.finish();
}

#[test]
fn the_face_gives_the_rules_answers_of_every_record_found() {
    let mut held = Held::new();
    for (record, answers) in ANSWERS.iter() {
        held.draw(record, STRAIN, answers.drawn);
        held.amounts(record, X, answers.amounts);
        held.depths(record, &ROW, answers.listed, &answers.row);
        held.shear(record, answers.shear);
    }
    held.finish();
}

#[test]
fn the_books_are_as_many_as_is_said() {
    let counts = [
        tried::whole().count(),
        tried::faulty().count(),
        tried::damaged().count(),
        tried::twice().count(),
        tried::worse().count(),
        tried::cut().count(),
        tried::stumps().count(),
        tried::limits().count(),
    ];
    let said = [20_000, 50_000, 15_000, 6700, 20_000, 9532, 2516, 186];
    assert_eq!(counts, said);
    assert_eq!(BOOKS.len(), 123_934);
}

/// How many books each refusal has.
fn refusals(books: impl Iterator<Item = Vec<u8>>) -> BTreeMap<u32, usize> {
    let mut refusals = BTreeMap::new();
    for book in books {
        *refusals.entry(rules::book(&book).refusal).or_default() += 1;
    }
    refusals
}

fn assert_leads(to: &[u32], books: impl Iterator<Item = Vec<u8>>, what: &str) {
    let refusals = refusals(books);
    let many = refusals.values().all(|count| *count >= 10);
    assert!(refusals.keys().eq(to) && many, "{what}: {refusals:?}");
}

#[test]
fn each_fault_and_each_damage_leads_where_it_should() {
    for (at, (fault, to, _)) in FAULTS.iter().enumerate() {
        assert_leads(to, tried::faulty().skip(at).step_by(FAULTS.len()), fault);
    }
    for (at, (damage, to, _)) in DAMAGES.iter().enumerate() {
        assert_leads(to, tried::damaged().skip(at).step_by(DAMAGES.len()), damage);
    }
    assert_leads(&[0], tried::whole(), "none");
    assert_leads(&[0, 1, 2, 3, 4], tried::worse(), "several");
    assert_leads(&[0, 1], tried::cut(), "a cut");
    assert_leads(&[4], tried::stumps(), "a stump");
    assert!(refusals(tried::limits()).into_keys().eq(0..=4));
}

#[test]
fn of_two_faults_the_first_line_that_holds_refuses() {
    let mut reached = BTreeSet::new();
    for ((first, second), book) in pairs().into_iter().cycle().zip(tried::twice()) {
        let refusal = rules::book(&book).refusal;
        assert_eq!(refusal, sole(second), "{} and {}", first.0, second.0);
        reached.insert((sole(second), sole(first)));
    }
    let every = [(1, 2), (1, 3), (1, 4), (2, 3), (2, 4), (3, 4)];
    assert_eq!(reached, BTreeSet::from(every));
}

#[test]
fn the_numbers_asked_reach_every_refusal_and_the_records_found_theirs() {
    let asked = BOOKS.iter().flat_map(|book| asked(book));
    let refused: BTreeSet<u32> = asked.map(|(_, answer)| answer.refusal).collect();
    let listed: BTreeSet<u32> = ANSWERS.values().map(|found| found.listed.refusal).collect();
    let sheared: BTreeSet<u32> = ANSWERS.values().map(|found| found.shear.refusal).collect();
    assert!(refused.into_iter().eq(0..=5));
    assert_eq!(listed, sections::refusals_and([0, 14]));
    assert_eq!(sheared, sections::refusals_and([0, 16]));
}

/// Document 01's book in words of 16 bits: its two records, the index at 52, the last 16 bytes with a length of 76.
const FIGURES: [u16; 38] = [
    1000, 100, 30, 500, 3700, 4500, 0, 0, 0, 0, 0, 0, 400, 600, 30, 500, 2000, 2000, 0x9680,
    0x0098, 0, 0, 1, 0, 540, 3216, 0, 0, 24, 0, 52, 0, 2, 0, 76, 0, 0x4f42, 0x4b4f,
];

#[test]
fn the_rules_give_the_figures() {
    let book = books::sample().bytes();
    assert_eq!(book, FIGURES.map(u16::to_le_bytes).as_flattened());
    assert_eq!(rules::lines(&book), books::SAMPLE_LINES);
}

/// The library is x86-64 code, so only there can a Rust program link it.
#[cfg(target_arch = "x86_64")]
mod linked {
    use super::{asked, rules, ANSWERS, BOOKS, ROW, STRAIN, X};
    use rules::{Amount, BookAnswer, Drawn, Listed, RecordAnswer, Sums};

    #[link(name = "panel", kind = "static")]
    extern "C" {
        fn fw_book(book: *const u8, len: usize) -> BookAnswer;
        fn fw_record(book: *const u8, len: usize, number: u32) -> RecordAnswer;
        fn fw_draw(record: *const u8, len: usize, strain: i32) -> Drawn;
        fn fw_imbalance(record: *const u8, len: usize, x: u32) -> Amount;
        fn fw_moment(record: *const u8, len: usize, x: u32) -> Amount;
        fn fw_depths(record: *const u8, len: usize, row: *mut i64, words: usize) -> Listed;
        fn fw_shear(record: *const u8, len: usize) -> Amount;
    }

    /// That the face gives the rules' answers of a record, where it stands.
    fn assert_right(record: &[u8]) {
        let (start, len, mut row) = (record.as_ptr(), record.len(), ROW);
        // They read the record, one writes the row, and they touch no other memory of the caller's.
        let (drawn, amounts, listed, shear) = unsafe {
            let amounts = Sums {
                imbalance: fw_imbalance(start, len, X),
                moment: fw_moment(start, len, X),
            };
            let listed = fw_depths(start, len, row.as_mut_ptr(), row.len());
            let drawn = fw_draw(start, len, STRAIN);
            (drawn, amounts, listed, fw_shear(start, len))
        };
        let right = &ANSWERS[record];
        assert_eq!(drawn.bits(), right.drawn.bits(), "{record:?}");
        assert_eq!(amounts, right.amounts, "{record:?}");
        assert_eq!((listed, row), (right.listed, right.row), "{record:?}");
        assert_eq!(shear, right.shear, "{record:?}");
    }

    #[test]
    fn the_face_linked_gives_the_rules_books_records_and_answers_at_any_address() {
        for (book, shift) in BOOKS.iter().zip((0..8).cycle()) {
            let mut lent = vec![0; shift];
            lent.extend(book);
            let (start, len) = (lent[shift..].as_mut_ptr().cast_const(), book.len());
            // They read the book and touch no other memory of the caller's.
            let answer = unsafe { fw_book(start, len) };
            assert_eq!(answer, rules::book(book), "{book:?}");
            for (number, right) in asked(book) {
                let answer = unsafe { fw_record(start, len, number) };
                assert_eq!(answer, right, "record {number} of {book:?}");
                if answer.refusal == 0 {
                    assert_right(answer.part(&lent[shift..]));
                }
            }
            assert!(lent[..shift].iter().all(|byte| *byte == 0));
            assert_eq!(lent[shift..], **book, "the book is no more as it was");
        }
    }
}
