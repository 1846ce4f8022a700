//! Cases for `tests/c/held.c`, the program that calls the C face and compares. It is a process of its own since the static library is
//! x86-64 code and these tests are code for the machine at hand.
use crate::rules::{
    Amount, BookAnswer, Class, Drawn, First, Layer, Listed, RecordAnswer, Strength, Sums, Written,
};
use std::io::{BufWriter, Write};
use std::process::{Child, ChildStdin, Command, Stdio};

const PROGRAM: &str = concat!(env!("CARGO_MANIFEST_DIR"), "/../../target/tests/held");

fn length<T>(of: &[T]) -> [u8; 2] {
    u16::try_from(of.len()).unwrap().to_le_bytes()
}

/// How a case of a function begins that takes a record.
fn of_record(function: u8, record: &[u8]) -> Vec<u8> {
    [&[function], length(record).as_slice(), record].concat()
}

/// How a case of a function begins that takes a book or a string of records.
fn of_string(function: u8, string: &[u8]) -> Vec<u8> {
    let length = (string.len() as u32).to_le_bytes();
    [&[function], length.as_slice(), string].concat()
}

pub struct Held {
    program: Child,
    input: BufWriter<ChildStdin>,
    cases: u64,
}

impl Held {
    pub fn new() -> Held {
        let mut program = Command::new(PROGRAM)
            .stdin(Stdio::piped())
            .stdout(Stdio::piped())
            .spawn()
            .unwrap_or_else(|e| panic!("{PROGRAM}: {e}; `make test` builds it"));
        let input = BufWriter::new(program.stdin.take().unwrap());
        Held {
            program,
            input,
            cases: 0,
        }
    }

    /// That `fw_class` gives this class.
    pub fn class(&mut self, fr1: u16, fr3: u16, class: Class) {
        let mut case = vec![b'c'];
        case.extend(fr1.to_le_bytes());
        case.extend(fr3.to_le_bytes());
        for number in [class.refusal, class.step, class.letter] {
            case.extend(number.to_le_bytes());
        }
        self.case(&case);
    }

    /// That `fw_strength` gives this answer.
    pub fn strength(&mut self, series: &[u32], answer: Strength) {
        let mut case = vec![b'k'];
        case.extend(length(series));
        let Strength {
            refusal,
            mean,
            deviation,
            value,
        } = answer;
        for number in series.iter().chain(&[refusal, mean, deviation, value]) {
            case.extend(number.to_le_bytes());
        }
        self.case(&case);
    }

    /// That `fw_draw` gives this point, bit for bit.
    pub fn draw(&mut self, record: &[u8], strain: i32, drawn: Drawn) {
        let (refusal, drawn_strain, stress) = drawn.bits();
        let mut case = of_record(b'd', record);
        case.extend(strain.to_le_bytes());
        case.extend(refusal.to_le_bytes());
        case.extend(drawn_strain.to_le_bytes());
        case.extend(stress.to_le_bytes());
        self.case(&case);
    }

    /// That `fw_imbalance` and `fw_moment` give these amounts.
    pub fn amounts(&mut self, record: &[u8], x: u32, amounts: Sums<Amount>) {
        for (function, answer) in [(b'i', amounts.imbalance), (b'm', amounts.moment)] {
            let mut case = of_record(function, record);
            case.extend(x.to_le_bytes());
            self.answers(case, &[answer]);
        }
    }

    /// That `fw_imbalance` gives these at the depths from 1 on: one case, so that the record is handed over once.
    pub fn imbalances(&mut self, record: &[u8], imbalances: &[Amount]) {
        let mut case = of_record(b'e', record);
        case.extend((imbalances.len() as u32).to_le_bytes());
        self.answers(case, imbalances);
    }

    /// That `fw_first` gives this depth.
    pub fn first(&mut self, record: &[u8], first: First) {
        let mut case = of_record(b'f', record);
        for number in [first.refusal, first.depth, first.kind, first.work] {
            case.extend(number.to_le_bytes());
        }
        case.extend(first.moment.to_le_bytes());
        self.case(&case);
    }

    /// That `fw_shear` gives this amount.
    pub fn shear(&mut self, record: &[u8], answer: Amount) {
        self.answers(of_record(b's', record), &[answer]);
    }

    /// Ends a case whose answers are amounts.
    fn answers(&mut self, mut case: Vec<u8>, answers: &[Amount]) {
        for answer in answers {
            case.extend(answer.refusal.to_le_bytes());
            case.extend(answer.amount.to_le_bytes());
        }
        self.case(&case);
    }

    /// That `fw_depths` gives this, and makes of the row `before` the row `after`.
    pub fn depths(&mut self, record: &[u8], before: &[i64], listed: Listed, after: &[i64]) {
        let mut case = of_record(b'l', record);
        case.extend(length(before));
        let [before, after] = [before, after].map(|row| -> Vec<u8> {
            let words = row.iter();
            words.flat_map(|word| word.to_le_bytes()).collect()
        });
        let numbers = [listed.refusal, listed.count, listed.work];
        self.writes(case, &before, &numbers, &after);
    }

    /// That `fw_write_book` gives this, and makes of the bytes `before` the bytes `after`.
    pub fn write_book(&mut self, records: &[u8], before: &[u8], written: Written, after: &[u8]) {
        let mut case = of_string(b'w', records);
        case.extend((before.len() as u32).to_le_bytes());
        self.writes(case, before, &[written.refusal, written.len], after);
    }

    /// That `fw_add_layer` gives this, and makes of the bytes `before` the bytes `after`.
    pub fn add_layer(
        &mut self,
        (record, layer): (&[u8], Layer),
        before: &[u8],
        written: Written,
        after: &[u8],
    ) {
        let mut case = of_record(b'a', record);
        for number in [layer.depth, layer.area] {
            case.extend(number.to_le_bytes());
        }
        case.extend(length(before));
        self.writes(case, before, &[written.refusal, written.len], after);
    }

    /// Ends a case of a function that writes into what it is lent.
    fn writes(&mut self, mut case: Vec<u8>, before: &[u8], answer: &[u32], after: &[u8]) {
        assert_eq!(before.len(), after.len());
        case.extend(before);
        case.extend(after);
        case.extend(answer.iter().flat_map(|number| number.to_le_bytes()));
        self.case(&case);
    }

    /// That `fw_book` gives this answer.
    pub fn book(&mut self, book: &[u8], answer: BookAnswer) {
        let mut case = of_string(b'b', book);
        for number in [answer.refusal, answer.count] {
            case.extend(number.to_le_bytes());
        }
        self.case(&case);
    }

    /// That `fw_record` gives this answer, of the last book.
    pub fn record(&mut self, number: u32, answer: RecordAnswer) {
        let mut case = vec![b'r'];
        for number in [number, answer.refusal, answer.at, answer.len] {
            case.extend(number.to_le_bytes());
        }
        self.case(&case);
    }

    fn case(&mut self, bytes: &[u8]) {
        self.input
            .write_all(bytes)
            .expect("the program that compares has ended early");
        self.cases += 1;
    }

    /// Panics unless each case was compared and held.
    pub fn finish(self) {
        drop(self.input);
        let output = self.program.wait_with_output().unwrap();
        let said = String::from_utf8_lossy(&output.stdout).into_owned();
        let verdict = format!("{} held, 0 not\n", self.cases);
        assert!(
            output.status.success() && said == verdict,
            "of {} cases: {said}",
            self.cases
        );
    }
}
