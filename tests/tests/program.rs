//! The program `desk` held against the second implementation: for what it reads on standard input it
//! prints the second implementation's lines and charge, or its refusal. WEIGHTROSE_DESK names the
//! program, or it is ../target/bin/desk.

use std::collections::BTreeSet;
use std::env;
use std::io::Write;
use std::path::{Path, PathBuf};
use std::process::{Command, Stdio};
use std::thread;
use weightrose_tests::inputs::{largest_report_book, Inputs};
use weightrose_tests::raw::RawBook;
use weightrose_tests::second;
use weightrose_tests::weightrose::{published, Answer, HEADER, LARGEST_BOOK, LINE, SCHEDULE};

/// The buffer that document 01 has the program lend.
const BUFFER: usize = 65_536;

fn program() -> PathBuf {
    match env::var_os("WEIGHTROSE_DESK") {
        Some(program) => program.into(),
        None => Path::new(env!("CARGO_MANIFEST_DIR")).join("../target/bin/desk"),
    }
}

/// What the program prints for an input. It stops reading behind the longest book, so that the rest
/// of a longer input may find nobody.
fn printed(input: &[u8]) -> String {
    let mut child = Command::new(program())
        .stdin(Stdio::piped())
        .stdout(Stdio::piped())
        .spawn()
        .expect("target/bin/desk: 'make target/bin/desk' makes it");
    let mut stdin = child.stdin.take().unwrap();
    let output = thread::scope(|scope| {
        scope.spawn(move || stdin.write_all(input));
        child.wait_with_output().unwrap()
    });
    assert!(output.status.success());
    String::from_utf8(output.stdout).unwrap()
}

fn number(bytes: &[u8]) -> u64 {
    bytes.iter().rev().fold(0, |number, &byte| number << 8 | u64::from(byte))
}

/// What document 01 has it print, by the second implementation's report.
fn expected(input: &[u8]) -> String {
    let (schedule, book) = input.split_at(input.len().min(SCHEDULE));
    let mut report = vec![0; BUFFER];
    let length = match second::report(schedule, book, &mut report) {
        Answer::Written(length) => length,
        Answer::Refused(why) => return format!("refused {} {}\n", why.number(), why.place()),
    };
    let mut text = String::new();
    for line in report[HEADER..length].chunks(LINE) {
        let amounts = line[8..].chunks(8).map(|amount| number(amount).to_string());
        let places = [number(&line[..2]).to_string(), line[2].to_string()];
        let words: Vec<String> = places.into_iter().chain(amounts).collect();
        text += &(words.join(" ") + "\n");
    }
    text + &format!("charge {}\n", number(&report[HEADER - 8..HEADER]))
}

fn agrees(input: &[u8]) -> String {
    let expected = expected(input);
    assert_eq!(printed(input), expected, "input of {} bytes", input.len());
    expected
}

/// Of every family some: reports and most refusals among them.
#[test]
fn inputs() {
    let inputs = Inputs::new(32);
    let fixed = (0..inputs.fixed()).step_by(41);
    let seeded = inputs.fixed()..inputs.fixed() + 600;
    let mut lines = 0;
    let mut refusals = BTreeSet::new();
    for number in fixed.chain(seeded) {
        let input = inputs.get(number);
        let text = agrees(&[input.schedule, input.book].concat());
        match text.strip_prefix("refused ") {
            Some(rest) => {
                refusals.insert(rest.split(' ').next().unwrap().to_string());
            }
            None => lines += text.lines().count() - 1,
        }
    }
    assert!(lines > 1_000, "only {lines} lines printed");
    assert!(refusals.len() >= 12, "only the refusals {refusals:?} met");
}

/// An input that ends anywhere: in the schedule, behind it, in the header and in a record.
#[test]
fn cut_short() {
    let whole = [&published()[..], &RawBook::empty(10_000, 0, 0).bytes()].concat();
    for end in 0..=whole.len() {
        agrees(&whole[..end]);
    }
}

/// A book whose report is longer than the buffer, and inputs longer than the longest book: with the
/// byte behind it, with more than the program reads, and with more than a pipe holds.
#[test]
fn too_long() {
    let largest = largest_report_book().bytes();
    assert_eq!(agrees(&[&published()[..], &largest].concat()), "refused 16 0\n");
    for more in [LARGEST_BOOK + 1, LARGEST_BOOK + 2, 2 * LARGEST_BOOK, 10 * LARGEST_BOOK] {
        let mut book = largest.clone();
        book.resize(more, 7);
        assert_eq!(agrees(&[&published()[..], &book].concat()), "refused 8 0\n");
    }
}
