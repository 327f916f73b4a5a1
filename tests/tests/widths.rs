//! The width of a file's numbers: the page for receivers' staff has the cases of the code, of their definition and of the trials, and every file keeps to them.
use spoutbasket::Extent;
use spoutbasket_tests::command::{count, counts, spoutbasket};
use spoutbasket_tests::ffi;
use spoutbasket_tests::header;
use spoutbasket_tests::random::Random;
use spoutbasket_tests::reference::{self, EDITION_STEPS, LONGEST_FILE};
use spoutbasket_tests::reference::{MOST_COLUMNS, MOST_PAYSLIPS};
use spoutbasket_tests::sources::text;

/// The numbers from first to last take so many bits.
#[derive(Debug, PartialEq)]
struct Case {
    first: usize,
    last: usize,
    width: usize,
}

/// A case by its range and its width as some source writes them; a range of one number may be that number alone.
fn case(range: &str, between: &str, width: &str) -> Case {
    let number = |word: &str| word.trim().replace(',', "").parse().unwrap();
    let (first, last) = range.split_once(between).unwrap_or((range, range));
    Case {
        first: number(first),
        last: number(last),
        width: number(width),
    }
}

/// The cases in the lines of a source that begin with a number, or with some words before it.
fn cases(source: &str, words: &str, between: &str, gives: &str) -> Vec<Case> {
    let source = text(source);
    let lines = source.lines().map(|line| {
        let line = line.trim();
        line.strip_prefix("∷ ").unwrap_or(line)
    });
    lines
        .filter_map(|line| line.strip_prefix(words))
        .filter(|line| line.starts_with(|c: char| c.is_ascii_digit()))
        .filter_map(|line| line.trim_end_matches(',').split_once(gives))
        .map(|(range, width)| case(range, between, width))
        .collect()
}

/// The cases on the page: a table with two of them a row, the later ones on the right.
fn page() -> Vec<Case> {
    let page = text("docs/FORMAT.md");
    let (_, table) = page.split_once("| p + n | W | p + n | W |\n").unwrap();
    let rows = table.lines().skip(1).take_while(|row| row.starts_with('|'));
    let (mut left, mut right) = (vec![], vec![]);
    for row in rows {
        let cells: Vec<&str> = row.split('|').map(str::trim).collect();
        left.push(case(cells[1], " to ", cells[2]));
        right.push(case(cells[3], " to ", cells[4]));
    }
    left.append(&mut right);
    left
}

#[test]
fn one_table() {
    let page = page();
    assert_eq!(page, cases("crates/width/src/lib.rt", "", "..=", " => "));
    let definition = "crates/width/specs/Cases.antt";
    assert_eq!(page, cases(definition, "", " to ", " gives "));
    let trials = "crates/trials_width/specs/Widths.antt";
    assert_eq!(page, cases(trials, "ends ", " ", " gives each "));
}

/// Every number from 1 to 16,383 is in one case of the page, with its digits in base 2 for the width.
#[test]
fn bit_lengths() {
    let mut next = 1;
    for case in page() {
        assert_eq!(case.first, next, "{case:?}");
        for number in case.first..=case.last {
            assert_eq!(format!("{number:b}").len(), case.width, "{number}");
        }
        next = case.last + 1;
    }
    assert_eq!(next, 16_384);
}

/// What the library tells of a file from its sizes is what the reference finds.
fn same_extent(p: usize, q: usize, n: usize) {
    assert_eq!(
        ffi::extent(p, q, n),
        reference::extent(p, q, n),
        "{p} {q} {n}"
    );
}

/// All columns and payslips at both ends of each case, sizes around their limits, and any at all.
#[test]
fn extents() {
    for case in page() {
        for last in [case.first, case.last] {
            for p in 1..=last.min(MOST_COLUMNS) {
                let told = ffi::extent(p, 1, last - p);
                let wanted = (last - p <= EDITION_STEPS).then_some(case.width as u64);
                assert_eq!(told.ok().map(|values| values[0]), wanted, "{p} of {last}");
                (0..=MOST_PAYSLIPS + 1).for_each(|q| same_extent(p, q, last - p));
            }
        }
    }
    let edges = [
        0, 1, 2, 15, 16, 17, 63, 64, 65, 15_999, 16_000, 16_001, 200_000,
    ];
    let edges = edges.into_iter().chain([1 << 31, 1 << 32, usize::MAX]);
    for p in edges.clone() {
        for q in edges.clone() {
            edges.clone().for_each(|n| same_extent(p, q, n));
        }
    }
    let mut r = Random(31);
    for _ in 0..20_000 {
        let n = r.below(17_000);
        same_extent(r.below(18), r.below(67), n);
    }
}

/// The header's own function: the bytes at both ends of each case, and 0 where no file has such sizes.
#[test]
fn lengths_of_the_header() {
    let ends = page().into_iter().flat_map(|case| [case.first, case.last]);
    let held = ends.map(|last| [1, 1, last.min(1 + EDITION_STEPS) - 1]);
    let held: Vec<[usize; 3]> = held.chain([[16, 64, 16_000]]).collect();
    let lengths = held
        .iter()
        .map(|&[p, q, n]| reference::file_length(p, q, n));
    assert!(header::file_lengths(&held).into_iter().eq(lengths));
    let none = [
        [0, 1, 0],
        [17, 1, 0],
        [1, 0, 0],
        [1, 65, 0],
        [16, 64, 16_001],
    ];
    assert_eq!(header::file_lengths(&none), [0; 5]);
}

/// The numbers in bits from `at` on, `width` each.
fn fields(bytes: &[u8], at: usize, width: usize, count: usize) -> Vec<usize> {
    let bit = |at: usize| (bytes[at / 8] >> (7 - at % 8) & 1) as usize;
    let field = |i: usize| (at + i * width..at + (i + 1) * width).fold(0, |x, i| 2 * x + bit(i));
    (0..count).map(field).collect()
}

/// What the command tells of files at both ends of each case.
#[test]
fn told_to_staff() {
    for case in page() {
        for last in [case.first, case.last.min(MOST_COLUMNS + EDITION_STEPS)] {
            let p = last.min(MOST_COLUMNS);
            let mut file = vec![0; LONGEST_FILE];
            let steps = vec![1; 2 * (last - p)];
            let bytes = ffi::write(p, &steps, &[last as u32], &mut file).unwrap()[0] as usize;
            let told = spoutbasket(&["list", "--verbose"], &file[..bytes]);
            let (width, bytes) = (case.width, count(bytes, "byte"));
            // every step squares base 1
            let n = (last - p) as u64;
            let steps = counts("step", &[n, n, 0]);
            let line = format!("standard input: p + n is {last}, W is {width}, {bytes}; {steps}");
            assert_eq!((told.status, told.line()), (0, line));
        }
    }
}

/// A chain of n squares of base 1, whose output is its last value, is written in the page's width and read again. Of another width's length it is refused.
fn keeps_to(case: &Case, p: usize, n: usize) {
    let bytes_in = |width: usize| (28 + (2 * n + 1) * width).div_ceil(8);
    let steps = vec![1; 2 * n];
    let mut file = vec![0xa5; LONGEST_FILE];
    let written = ffi::write(p, &steps, &[(p + n) as u32], &mut file);
    let long = bytes_in(case.width);
    let extent = Extent::of(p, 1, n).unwrap();
    assert_eq!((extent.width, extent.bytes), (case.width, long));
    assert_eq!(written, Ok(vec![long as u64]), "p {p}, n {n}");
    let output = fields(&file, 28 + 2 * n * case.width, case.width, 1);
    assert_eq!(output, [p + n], "p {p}, n {n}");

    let (mut steps, mut outputs) = (vec![0; 2 * n], [0]);
    let mut read = |long: usize| ffi::read(&file[..long], &mut steps, &mut outputs);
    for other in [case.width - 1, case.width + 1].map(bytes_in) {
        if other != long && other <= LONGEST_FILE {
            assert_eq!(read(other), Err((6, 0)), "p {p}, n {n}");
        }
    }
    let squares = vec![p as u64, 1, n as u64, n as u64, 0];
    assert_eq!(read(long), Ok(squares));
    assert_eq!(outputs, [(p + n) as u32]);
    assert!(steps.iter().all(|&operand| operand == 1));
}

/// Every p + n of a chain, with one column and with as many as there can be.
#[test]
fn every_file() {
    for case in page() {
        for last in case.first..=case.last.min(MOST_COLUMNS + EDITION_STEPS) {
            if last <= 1 + EDITION_STEPS {
                keeps_to(&case, 1, last - 1);
            }
            let p = last.min(MOST_COLUMNS);
            keeps_to(&case, p, last - p);
        }
    }
}

/// Every field of files at both ends of each case: operands that rise with the steps, and all values as outputs, as many as there can be.
#[test]
fn every_field_at_the_ends() {
    for case in page() {
        for last in [case.first, case.last.min(EDITION_STEPS + 1)] {
            let steps: Vec<u32> = (1..last as u32).flat_map(|v| [v, v.div_ceil(2)]).collect();
            let outputs: Vec<u32> = (0..=last as u32).rev().take(64).collect();
            let mut file = vec![0xa5; LONGEST_FILE];
            let written = ffi::write(1, &steps, &outputs, &mut file).unwrap();
            let count = steps.len() + outputs.len();
            let end = 28 + count * case.width;
            assert_eq!(written, [end.div_ceil(8) as u64], "{case:?}");
            let numbers: Vec<usize> = steps
                .iter()
                .chain(&outputs)
                .map(|&number| number as usize)
                .collect();
            assert_eq!(fields(&file, 28, case.width, count), numbers, "{case:?}");
            let filling = 8 * end.div_ceil(8) - end;
            assert_eq!(fields(&file, end, 1, filling), vec![0; filling]);
        }
    }
}
