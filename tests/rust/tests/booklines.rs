//! The book program: what it prints of the book on its standard input held to document 01's lines.
use fordwhistle_tests::books::{self, tried, Books};
use fordwhistle_tests::rules::{self, Layer, Parts, Section};
use fordwhistle_tests::sections;
use std::io::{self, ErrorKind, Read, Write};
use std::os::unix::process::ExitStatusExt;
use std::process::{Child, ChildStdin, Command, ExitStatus, Stdio};
use std::thread::{sleep, spawn};
use std::time::{Duration, Instant};

const PROGRAM: &str = concat!(env!("CARGO_MANIFEST_DIR"), "/../../target/tests/booklines");

/// What ends a program that writes to nobody.
const SIGPIPE: i32 = 13;

/// Far longer than it takes: what has not ended by then hangs.
const PATIENCE: Duration = Duration::from_secs(60);

fn started(command: &mut Command) -> Child {
    command
        .stdin(Stdio::piped())
        .stdout(Stdio::piped())
        .spawn()
        .unwrap_or_else(|e| panic!("{command:?}: {e}; `make test` builds it"))
}

/// Writes the pieces one after another, with a pause after each. The program need not read further than it has to, and may end before.
fn write(mut input: ChildStdin, pieces: Vec<Vec<u8>>, pause: Duration) -> io::Result<()> {
    for piece in pieces {
        match input.write_all(&piece) {
            Err(error) if error.kind() == ErrorKind::BrokenPipe => return Ok(()),
            written => written?,
        }
        sleep(pause);
    }
    Ok(())
}

/// How it ends. It panics where it does not.
fn end(program: &mut Child) -> ExitStatus {
    let start = Instant::now();
    while start.elapsed() < PATIENCE {
        if let Some(status) = program.try_wait().unwrap() {
            return status;
        }
        sleep(Duration::from_millis(1));
    }
    program.kill().unwrap();
    panic!("the program does not end");
}

/// What it prints of a book that comes in pieces.
fn printed(pieces: Vec<Vec<u8>>, pause: Duration) -> String {
    let mut program = started(&mut Command::new(PROGRAM));
    let (input, output) = (program.stdin.take(), program.stdout.take());
    let writer = spawn(move || write(input.unwrap(), pieces, pause));
    let reader = spawn(move || {
        let mut text = String::new();
        output.unwrap().read_to_string(&mut text).map(|_| text)
    });
    let status = end(&mut program);
    assert!(status.success(), "{status}");
    writer.join().unwrap().unwrap();
    reader.join().unwrap().unwrap()
}

fn assert_prints(book: &[u8], lines: &str) {
    let text = printed(vec![book.to_vec()], Duration::ZERO);
    assert!(text == lines, "{text} and not {lines} of {book:?}");
}

#[test]
fn the_sample_book_has_its_two_lines() {
    assert_prints(&books::sample().bytes(), books::SAMPLE_LINES);
}

#[test]
fn a_book_of_no_records_has_no_line_and_no_bytes_have_one() {
    assert_prints(&Parts::of(vec![]).bytes(), "");
    assert_prints(&[], "B 1\n");
}

#[test]
fn the_lines_are_the_rules() {
    let faulty = tried::faulty().take(90).chain(tried::damaged().take(60));
    let some = tried::whole().take(100).chain(faulty);
    for book in some.chain(tried::worse().take(100)) {
        assert_prints(&book, &rules::lines(&book));
    }
}

#[test]
fn every_cut_of_a_book_is_refused() {
    let book = books::sample().bytes();
    for len in 0..book.len() {
        assert_prints(&book[..len], "B 1\n");
    }
}

#[test]
fn a_high_section_has_the_first_of_its_depths_and_a_moment_below_zero() {
    let wall = Section {
        b: 500,
        h: 1000,
        fck: 20,
        fyk: 500,
        feq2: 20_000,
        feq3: 12_000,
        load: -928_799,
        asw: 0,
        spacing: 0,
        layers: vec![Layer {
            depth: 501,
            area: 20,
        }],
        hf: 0,
        bf: 0,
    };
    let book = Parts::of(vec![wall.record()]).bytes();
    let lines = rules::lines(&book);
    assert!(lines.starts_with("0 0 3 100 2 -203982147720 0 "), "{lines}");
    assert_prints(&book, &lines);
}

/// Document 02's rib behind document 01's two, the same with a part put wrong, and a flange without its bytes.
#[test]
fn a_rib_has_its_line_among_rectangles() {
    let prints = |rib: Vec<u8>, line: &str| {
        let mut records = books::sample().records;
        records.push(rib);
        let lines = [books::SAMPLE_LINES, line, "\n"].concat();
        assert_prints(&Parts::of(records).bytes(), &lines);
    };
    let rib = sections::rib();
    prints(rib.record(), "2 0 1 63 2 342369284200 0 87696000");
    prints(
        Section {
            bf: 199,
            ..rib.clone()
        }
        .record(),
        "2 20 0 0 0 0 20 0",
    );
    let [mut zero, mut without] = [rib.record(), Section { hf: 0, ..rib }.record()];
    zero[30] = 1;
    prints(zero, "2 6 0 0 0 0 6 0");
    without[22] = 7;
    assert_prints(&Parts::of(vec![without]).bytes(), "B 4\n");
}

#[test]
fn a_book_may_be_as_long_as_65536_bytes() {
    let mut books = Books::new(19);
    let longest = books.of_length(65_536).bytes();
    let lines = rules::lines(&longest);
    assert_eq!(lines.lines().count(), 2340);
    assert_prints(&longest, &lines);
    assert_prints(&books.of_length(65_540).bytes(), "B 1\n");
    for length in [65_537, 65_538, 131_072, 200_000] {
        let longer = [longest.as_slice(), &vec![0; length - 65_536]].concat();
        assert_prints(&longer, "B 1\n");
        let front = [vec![0; length - 65_536], longest.clone()].concat();
        assert_prints(&front, "B 1\n");
    }
}

#[test]
fn a_book_may_come_in_pieces() {
    let pause = Duration::from_millis(1);
    for (book, size) in tried::whole().zip([1, 2, 3, 7, 16, 64]) {
        let pieces = book.chunks(size).map(<[u8]>::to_vec).collect();
        assert_eq!(printed(pieces, pause), rules::lines(&book));
    }
    let longest = Books::new(20).of_length(65_536).bytes();
    let pieces = longest.chunks(1000).map(<[u8]>::to_vec).collect();
    assert_eq!(printed(pieces, pause), rules::lines(&longest));
}

/// How a shell starts it so that its output takes nothing, once nobody reads that, and the signal that may end it: closed, full, without a
/// reader where that does not end a program, and where it does.
const STARTS: [(&str, Option<i32>); 4] = [
    (r#"exec "$0" >&-"#, None),
    (r#"exec "$0" >/dev/full"#, None),
    (r#"trap '' PIPE; exec "$0""#, None),
    (r#"exec "$0""#, Some(SIGPIPE)),
];

#[test]
fn it_ends_where_its_output_takes_nothing() {
    let longest = Books::new(21).of_length(65_536);
    for book in [longest, books::sample(), Parts::of(vec![])] {
        for (start, signal) in STARTS {
            let mut program = started(Command::new("sh").args(["-c", start, PROGRAM]));
            drop(program.stdout.take());
            let (input, pieces) = (program.stdin.take(), vec![book.bytes()]);
            let writer = spawn(move || write(input.unwrap(), pieces, Duration::ZERO));
            let status = end(&mut program);
            let ended = status.success() || signal.is_some() && status.signal() == signal;
            assert!(ended, "{start}: {status}");
            writer.join().unwrap().unwrap();
        }
    }
}
