//! Times the library beside the second implementation and, where the build was given one, a
//! yardstick, on four books; then the library alone: on the same books as version 2, its converter,
//! its bills, its answers to dealers, its movements, and how its time grows with the book.
//!
//! Rounds of about a millisecond are taken in turn (the slow second implementation in every tenth
//! alone), and each subject's best round counts. A call is a whole one: checks, report and all.
//! Every call writes into the same buffer, which is not cleared in between. Before anything is
//! timed, all subjects must agree on each book.

use std::borrow::Borrow;
use std::hint::black_box;
use std::time::{Duration, Instant};
use weightrose_tests::inputs::{at_desks, lifelike, Parents, Shape, KINDS};
use weightrose_tests::random::Random;
use weightrose_tests::raw::{Movement, RawAsset, RawQuestion};
use weightrose_tests::weightrose::{
    amount, bill, packed_add, packed_bills, packed_convert, packed_headroom, packed_remove,
    packed_report, published, Answer, ANSWER, ASSET, BILLS, LARGEST_REPORT, MOST_QUESTIONS,
    QUESTION,
};
#[cfg(yardstick)]
use weightrose_tests::yardstick;
use weightrose_tests::{second, weightrose};

/// Books of each shape, so that no call meets the book of the call before.
const BOOKS: u64 = 16;
const ROUNDS: usize = 300;
const ROUND: Duration = Duration::from_millis(1);
/// The cost rate of the bills: 4.37 per cent.
const RATE: u64 = 437;

type Report = fn(&[u8], &[u8], &mut [u8]) -> u64;

struct Subject {
    name: &'static str,
    report: Report,
    /// It takes part in each round whose number this divides.
    every: usize,
}

fn subjects() -> Vec<Subject> {
    let second: Report = |schedule, book, buffer| second::report(schedule, book, buffer).packed();
    #[allow(unused_mut)]
    let mut subjects = vec![
        Subject { name: "library", report: packed_report, every: 1 },
        Subject { name: "second", report: second, every: 10 },
    ];
    #[cfg(yardstick)]
    subjects.push(Subject { name: "yardstick", report: yardstick::report, every: 1 });
    subjects
}

struct Case {
    name: &'static str,
    shape: Shape,
}

fn case(name: &'static str, records: [u64; 3], parents: Parents) -> Case {
    let [counterparties, assets, mitigants] = records;
    Case { name, shape: Shape { counterparties, assets, mitigants, parents } }
}

const EIGHTH: [u64; 3] = [62, 112, 187];
const WHOLE: [u64; 3] = [500, 900, 1_500];

fn cases() -> Vec<Case> {
    vec![
        case("small", [5, 20, 10], Parents::Some),
        case("typical", [120, 400, 300], Parents::Some),
        case("maximal", WHOLE, Parents::None),
        case("maximal, chain of parents", WHOLE, Parents::Chain),
    ]
}

fn books(shape: &Shape) -> Vec<Vec<u8>> {
    (0..BOOKS).map(|number| lifelike(&mut Random::new(117, number), shape).bytes()).collect()
}

/// All subjects must accept each book and write the same report.
fn check(name: &str, subjects: &[Subject], books: &[Vec<u8>]) {
    let schedule = published();
    for book in books {
        let run = |subject: &Subject| {
            let mut buffer = vec![0xa5; LARGEST_REPORT];
            ((subject.report)(&schedule, book, &mut buffer), buffer)
        };
        let first = run(&subjects[0]);
        assert!(matches!(Answer::unpacked(first.0), Some(Answer::Written(_))), "{name}: refused");
        assert!(subjects.iter().all(|subject| run(subject) == first), "{name}: the reports differ");
    }
}

/// Time of one call, over so many turns of all books.
fn time(report: Report, books: &[Vec<u8>], buffer: &mut [u8], turns: u32) -> f64 {
    let schedule = published();
    let start = Instant::now();
    for _ in 0..turns {
        for book in books {
            black_box(report(black_box(&schedule), black_box(book), buffer));
        }
    }
    start.elapsed().as_nanos() as f64 / f64::from(turns) / books.len() as f64
}

/// Nanoseconds of a call, for each subject: the best of interleaved rounds.
fn best(subjects: &[Subject], books: &[Vec<u8>]) -> Vec<f64> {
    let mut buffer = vec![0; LARGEST_REPORT];
    let mut best: Vec<f64> =
        subjects.iter().map(|subject| time(subject.report, books, &mut buffer, 2)).collect();
    let turn = |call: &f64| 1 + (ROUND.as_nanos() as f64 / (call * books.len() as f64)) as u32;
    let turns: Vec<u32> = best.iter().map(turn).collect();
    for round in 0..ROUNDS {
        let order = (0..subjects.len()).map(|place| (round + place) % subjects.len());
        for number in order.filter(|&number| round % subjects[number].every == 0) {
            let call = time(subjects[number].report, books, &mut buffer, turns[number]);
            best[number] = best[number].min(call);
        }
    }
    best
}

fn print_row<S: Borrow<str>>(cells: &[S]) {
    println!("| {} |", cells.join(" | "));
}

fn print_head<S: Borrow<str>>(cells: &[S]) {
    print_row(cells);
    print_row(&vec!["---"; cells.len()]);
}

fn compare_subjects(subjects: &[Subject]) {
    let mut head = vec!["book".to_string(), "bytes".to_string()];
    head.extend(subjects.iter().map(|subject| format!("{}, µs", subject.name)));
    head.extend(subjects[1..].iter().map(|subject| format!("library / {}", subject.name)));
    print_head(&head);
    for Case { name, shape } in cases() {
        let books = books(&shape);
        check(name, subjects, &books);
        let best = best(subjects, &books);
        let mut row = vec![name.to_string(), books[0].len().to_string()];
        row.extend(best.iter().map(|call| format!("{:.2}", call / 1_000.0)));
        row.extend(best[1..].iter().map(|call| format!("{:.3}", best[0] / call)));
        print_row(&row);
    }
}

/// Whether each asset of a book has no more than 255 mitigants is the shapes' to say: all do.
fn as_version_2(book: &[u8]) -> Vec<u8> {
    let mut new = vec![0; book.len()];
    assert_eq!(packed_convert(book, &mut new), book.len() as u64);
    new
}

/// The report of books of both versions, and the converter, as multiples of the report's time.
fn versions_and_converter() {
    let convert: Report = |_, book, buffer| packed_convert(book, buffer);
    println!("\nThe library on both versions of the same books, and its converter:\n");
    print_head(&[
        "book",
        "report, version 1, µs",
        "version 2 / version 1",
        "converter, µs",
        "converter / report",
    ]);
    for Case { name, shape } in cases() {
        let old = books(&shape);
        let new: Vec<Vec<u8>> = old.iter().map(|book| as_version_2(book)).collect();
        let [first, second, converter] =
            best_of([(packed_report, &old), (packed_report, &new), (convert, &old)]);
        print_row(&[
            name.to_string(),
            format!("{:.2}", first / 1_000.0),
            format!("{:.3}", second / first),
            format!("{:.2}", converter / 1_000.0),
            format!("{:.3}", converter / first),
        ]);
    }
}

/// The same books as version 2, their assets at any desks.
fn books_at_desks(shape: &Shape) -> Vec<Vec<u8>> {
    let book = |number| {
        let random = &mut Random::new(117, number);
        let mut book = lifelike(random, shape);
        at_desks(random, &mut book);
        book.bytes()
    };
    (0..BOOKS).map(book).collect()
}

/// How many desks are billed, on average. The library and the second implementation must agree on
/// the bills of each book.
fn desks_billed(name: &str, books: &[Vec<u8>]) -> usize {
    let billed = |book: &Vec<u8>| {
        let [mut bills, mut same] = [[0xa5; BILLS]; 2];
        assert_eq!(packed_bills(&published(), book, RATE, &mut bills), BILLS as u64, "{name}");
        second::bills(&published(), book, RATE, &mut same);
        assert!(bills == same, "{name}: the bills differ");
        (0..=255).filter(|&desk| bill(&bills, desk) > 0).count()
    };
    books.iter().map(billed).sum::<usize>() / books.len()
}

/// The bills of books at desks, and of the same books of version 1, as multiples of the report's
/// time on the same books.
fn bills() {
    let bills: Report = |schedule, book, buffer| packed_bills(schedule, book, RATE, buffer);
    println!("\nThe library's bills, of books at desks and of the same books of version 1:\n");
    print_head(&[
        "book",
        "desks billed",
        "report, version 2, µs",
        "bills, version 2, µs",
        "bills / report, version 2",
        "bills / report, version 1",
    ]);
    for Case { name, shape } in cases() {
        let (old, new) = (books(&shape), books_at_desks(&shape));
        let desks = desks_billed(name, &new);
        let [report, billed, old_report, old_billed] =
            best_of([(packed_report, &new), (bills, &new), (packed_report, &old), (bills, &old)]);
        print_row(&[
            name.to_string(),
            desks.to_string(),
            format!("{:.2}", report / 1_000.0),
            format!("{:.2}", billed / 1_000.0),
            format!("{:.3}", billed / report),
            format!("{:.3}", old_billed / old_report),
        ]);
    }
}

/// As many questions of any kind as may be sent, about any counterparties.
fn list(counterparties: u64) -> Vec<u8> {
    let random = &mut Random::new(117, counterparties);
    let question = |_| RawQuestion {
        counterparty: random.between(1, counterparties) as u16,
        kind: random.pick(&KINDS),
    };
    RawQuestion::list(&(0..MOST_QUESTIONS).map(question).collect::<Vec<_>>())
}

/// How many questions have room, on average. The library and the second implementation must agree
/// on the answers of each book.
fn with_room(name: &str, books: &[Vec<u8>]) -> usize {
    let answered = |book: &Vec<u8>| {
        let (list, book) = behind_list(book);
        let [mut answers, mut same] = [[0xa5; ANSWER * MOST_QUESTIONS]; 2];
        let length = packed_headroom(&published(), book, list, &mut answers);
        assert_eq!(length, answers.len() as u64, "{name}");
        second::headroom(&published(), book, list, &mut same);
        assert!(answers == same, "{name}: the answers differ");
        (0..MOST_QUESTIONS).filter(|&number| amount(&answers, number) > 0).count()
    };
    books.iter().map(answered).sum::<usize>() / books.len()
}

/// A list of questions, and the book behind it.
fn behind_list(bytes: &[u8]) -> (&[u8], &[u8]) {
    bytes.split_at(QUESTION * MOST_QUESTIONS)
}

/// The answers to a list of 200, of 1 and of no questions, as multiples of the report's time on the
/// same books.
fn answers() {
    let report: Report = |schedule, bytes, buffer| {
        let (_, book) = behind_list(bytes);
        packed_report(schedule, book, buffer)
    };
    fn headroom<const N: usize>(schedule: &[u8], bytes: &[u8], buffer: &mut [u8]) -> u64 {
        let (list, book) = behind_list(bytes);
        packed_headroom(schedule, book, &list[..QUESTION * N], buffer)
    }
    println!("\nThe library's answers to dealers:\n");
    print_head(&[
        "book",
        "questions with room, of 200",
        "report, µs",
        "200 answers, µs",
        "200 answers / report",
        "1 answer / report",
        "no answers / report",
    ]);
    for Case { name, shape } in cases() {
        let list = list(shape.counterparties);
        let books: Vec<Vec<u8>> =
            books(&shape).iter().map(|book| [&list[..], book].concat()).collect();
        let rooms = with_room(name, &books);
        let [reported, all, one, none] = best_of([
            (report, &books),
            (headroom::<MOST_QUESTIONS>, &books),
            (headroom::<1>, &books),
            (headroom::<0>, &books),
        ]);
        print_row(&[
            name.to_string(),
            rooms.to_string(),
            format!("{:.2}", reported / 1_000.0),
            format!("{:.2}", all / 1_000.0),
            format!("{:.3}", all / reported),
            format!("{:.3}", one / reported),
            format!("{:.3}", none / reported),
        ]);
    }
}

/// A book's bytes with room for one more asset.
fn lent(book: &[u8]) -> Vec<u8> {
    [book, &[0; ASSET]].concat()
}

/// The place behind a book's last asset, where the next one comes.
fn next_place(book: &[u8]) -> u64 {
    u64::from(u16::from_le_bytes([book[8], book[9]])) + 1
}

/// An asset comes to the book in a buffer and goes again.
fn comes_and_goes(schedule: &[u8], record: &[u8], book: &mut [u8], report: &mut [u8]) -> [u64; 2] {
    let place = next_place(book);
    [packed_add(schedule, record, book, report), packed_remove(schedule, place, book, report)]
}

/// The library and the second implementation must agree on both movements of each book, which is
/// then as it was.
fn check_movements(name: &str, record: &[u8], books: &[Vec<u8>]) {
    for book in books {
        let [mut one, mut other] = [lent(book), lent(book)];
        let [mut report, mut same] = [(); 2].map(|()| vec![0xa5; LARGEST_REPORT]);
        let answers = comes_and_goes(&published(), record, &mut one, &mut report);
        for (movement, answer) in
            [Movement::Add(record.to_vec()), Movement::Remove(next_place(book))].iter().zip(answers)
        {
            let answered = second::moved(&published(), movement, &mut other, &mut same);
            assert!(answer >> 32 == 0 && answered.packed() == answer, "{name}: the answers differ");
        }
        assert!(one == other && report == same, "{name}: the movements differ");
        assert!(one[..book.len()] == book[..], "{name}: another book");
    }
}

/// A movement as a multiple of the report's time on the same books, which have 899 assets at most, so
/// that one more may come. Timed is an asset that comes and goes again, after which the book is as it
/// was, and half of that is a movement.
fn movements() {
    println!("\nThe library's movements, half the time of an asset that comes and goes:\n");
    print_head(&["book", "assets", "report, µs", "movement, µs", "movement / report"]);
    let record = RawAsset { kind: 11, counterparty: 1, value: 1_000_000, ..Default::default() };
    let (schedule, record) = (published(), record.bytes());
    for Case { name, shape } in cases() {
        let books = books(&Shape { assets: shape.assets.min(899), ..shape });
        check_movements(name, &record, &books);
        let mut moved: Vec<Vec<u8>> = books.iter().map(|book| lent(book)).collect();
        let [mut buffer, mut report] = [(); 2].map(|()| vec![0; LARGEST_REPORT]);
        let [reported, both] = best_by([
            &mut |number| {
                black_box(packed_report(&schedule, black_box(&books[number]), &mut buffer));
            },
            &mut |number| {
                let book = black_box(&mut moved[number]);
                black_box(comes_and_goes(&schedule, &record, book, &mut report));
            },
        ]);
        print_row(&[
            name.to_string(),
            shape.assets.min(899).to_string(),
            format!("{:.2}", reported / 1_000.0),
            format!("{:.2}", both / 2_000.0),
            format!("{:.3}", both / 2.0 / reported),
        ]);
    }
}

/// Nanoseconds of a call of each function on the book of a number: the best of interleaved rounds.
fn best_by<const N: usize>(mut calls: [&mut dyn FnMut(usize); N]) -> [f64; N] {
    let time = |call: &mut dyn FnMut(usize), turns: u32| {
        let start = Instant::now();
        for _ in 0..turns {
            (0..BOOKS as usize).for_each(&mut *call);
        }
        start.elapsed().as_nanos() as f64 / f64::from(turns) / BOOKS as f64
    };
    let mut best: [f64; N] = std::array::from_fn(|number| time(calls[number], 2));
    let turns = best.map(|call| 1 + (ROUND.as_nanos() as f64 / (call * BOOKS as f64)) as u32);
    for round in 0..ROUNDS {
        for place in 0..N {
            let number = (round + place) % N;
            best[number] = best[number].min(time(calls[number], turns[number]));
        }
    }
    best
}

/// Nanoseconds of a call of each function on its books: the best of interleaved rounds.
fn best_of<const N: usize>(calls: [(Report, &Vec<Vec<u8>>); N]) -> [f64; N] {
    let mut buffer = vec![0; LARGEST_REPORT];
    let mut best = calls.map(|(call, books)| time(call, books, &mut buffer, 2));
    let turns = best.map(|call| 1 + (ROUND.as_nanos() as f64 / (call * BOOKS as f64)) as u32);
    for round in 0..ROUNDS {
        for place in 0..N {
            let number = (round + place) % N;
            let (call, books) = calls[number];
            best[number] = best[number].min(time(call, books, &mut buffer, turns[number]));
        }
    }
    best
}

/// From an eighth of the maximal book to the whole: 8 is growth in step with the book.
fn growth(library: &[Subject]) {
    println!("\nThe library from an eighth of the maximal book to the whole:");
    for (name, parents) in
        [("without parents", Parents::None), ("chain of parents", Parents::Chain)]
    {
        let [eighth, whole] = [EIGHTH, WHOLE].map(|records| {
            let books = books(&case(name, records, parents).shape);
            best(library, &books)[0]
        });
        let times = whole / eighth;
        println!(
            "- {name}: {:.2} to {:.2} µs, {times:.1} times",
            eighth / 1_000.0,
            whole / 1_000.0
        );
    }
}

fn main() {
    println!("Best of {ROUNDS} interleaved rounds over {BOOKS} books each; one buffer of");
    println!("{} bytes, not cleared between calls.\n", weightrose::LARGEST_REPORT);
    let subjects = subjects();
    compare_subjects(&subjects);
    versions_and_converter();
    bills();
    answers();
    movements();
    growth(&subjects[..1]);
}
