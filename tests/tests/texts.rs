//! Texts of numbers, tables and phrases by the library against the plain reference: the number, the eight words and every lent cell.
use spoutbasket::slices;
use spoutbasket_tests::random::Random;
use spoutbasket_tests::reference::{words, MOST_COLUMNS, MOST_PAYSLIPS};
use spoutbasket_tests::texts::{self, Outcome, PHRASES};
use std::collections::BTreeMap;

const MARK: &[u8] = b"\xEF\xBB\xBF";

/// What a cell holds before a call.
const BEFORE: u32 = 0xA5A5_A5A5;

type Read = fn(&[u8], &mut [u32], &mut [u64; 8]) -> u32;
type Expect = fn(&[u8], &mut [u32]) -> Outcome;

const NUMBERS: (Read, Expect) = (slices::numbers, texts::numbers);
const TABLE: (Read, Expect) = (slices::table, texts::table);

/// One text by both into as many cells: the same number, words and cells. Tells the number.
fn same((read, expect): (Read, Expect), text: &[u8], cells: usize) -> u32 {
    let (mut ours, mut theirs) = (vec![BEFORE; cells], vec![BEFORE; cells]);
    let mut answer = [7; 8];
    let number = read(text, &mut ours, &mut answer);
    let expected = expect(text, &mut theirs);
    let shown = || String::from_utf8_lossy(text).into_owned();
    assert_eq!((number, answer), expected, "{cells} cells: {:?}", shown());
    assert_eq!(ours, theirs, "{cells} cells: {:?}", shown());
    number
}

/// Every text of so many bytes of an alphabet.
fn every(alphabet: &[u8], length: usize, mut each: impl FnMut(&[u8])) {
    for number in 0..alphabet.len().pow(length as u32) {
        let mut left = number;
        let text: Vec<u8> = (0..length)
            .map(|_| {
                let byte = alphabet[left % alphabet.len()];
                left /= alphabet.len();
                byte
            })
            .collect();
        each(&text);
    }
}

/// Every short text, as it is, behind a mark, and with a newline at its end.
fn short_texts(call: (Read, Expect), alphabet: &[u8], length: usize) -> BTreeMap<u32, usize> {
    let mut seen = BTreeMap::new();
    for length in 0..=length {
        every(alphabet, length, |text| {
            for (before, after) in [("", ""), ("", "\n"), ("\u{feff}", "")] {
                let text = [before.as_bytes(), text, after.as_bytes()].concat();
                for cells in [8, 2] {
                    *seen.entry(same(call, &text, cells)).or_insert(0) += 1;
                }
            }
        });
    }
    seen
}

fn kinds(seen: &BTreeMap<u32, usize>) -> Vec<u32> {
    seen.keys().copied().collect()
}

#[test]
fn every_short_text_of_numbers() {
    let seen = short_texts(NUMBERS, b"07 \t\n\r.+x", 6);
    assert_eq!(kinds(&seen), [0, 5, 101, 103, 105, 106], "{seen:?}");
}

#[test]
fn every_short_table() {
    let seen = short_texts(TABLE, b"07 \n\r;,.x", 6);
    let all = [0, 1, 5, 101, 103, 104, 105, 107];
    assert_eq!(kinds(&seen), all, "{seen:?}");
    let seen = short_texts(TABLE, b"5 \n\t;-", 6);
    let all = [0, 1, 5, 101, 103, 104, 105, 106, 107];
    assert_eq!(kinds(&seen), all, "{seen:?}");
}

/// Every byte by itself between two numbers, and at the start of a text.
#[test]
fn every_byte() {
    for byte in 0..=255 {
        for (before, after) in [
            ("1", "2\n"),
            ("", "1\n"),
            ("12", ""),
            ("1;2\n3", ";4\n"),
            ("1,2\n", "3,4\n"),
            ("1\t2\n3\t4", "\n"),
            ("1 2\n3 4", "\r\n"),
        ] {
            let text = [before.as_bytes(), &[byte], after.as_bytes()].concat();
            same(NUMBERS, &text, 8);
            same(TABLE, &text, 8);
        }
        // a mark that is none
        let text = [&MARK[..2], &[byte], b"1\n"].concat();
        same(NUMBERS, &text, 8);
        same(TABLE, &text, 8);
    }
}

/// A number near the largest, with zeros before it now and then, or any other.
fn number(r: &mut Random) -> String {
    let zeros = "0".repeat(if r.one_in(6) { r.below(12) } else { 0 });
    let near = r.within(4_294_967_280, 4_294_967_310);
    let any = r.word() as u32 as usize;
    let small = r.below(300);
    let longer = r.word() as usize;
    let edge = if r.one_in(12) { near } else { small };
    let rare = if r.one_in(40) { longer } else { any };
    format!("{zeros}{}", r.pick(&[small, small, edge, any, rare]))
}

/// Changes, adds or leaves out a byte.
fn damage(r: &mut Random, text: &mut Vec<u8>) {
    if text.is_empty() {
        return;
    }
    let at = r.below(text.len());
    let telling = b"0 9\t\n\r;,.'_+-x\xEF\xBB\xBF\0";
    match r.below(3) {
        0 => text[at] = r.pick(telling),
        1 => text.insert(at, r.pick(telling)),
        _ => {
            text.remove(at);
        }
    }
}

fn some_numbers(r: &mut Random) -> Vec<u8> {
    let mut text = vec![];
    if r.one_in(5) {
        text.extend(MARK);
    }
    for _ in 0..r.pick(&[0, 1, 3, 20]) {
        text.extend(number(r).bytes());
        for _ in 0..r.within(1, 3) {
            text.push(r.pick(b"  \n\t\r"));
        }
    }
    text.push(b'\n');
    text
}

#[test]
fn random_numbers() {
    let mut r = Random(101);
    let mut seen = BTreeMap::new();
    for _ in 0..60_000 {
        let mut text = some_numbers(&mut r);
        if r.one_in(3) {
            damage(&mut r, &mut text);
        }
        let cells = r.pick(&[0, 1, 5, 30]);
        *seen.entry(same(NUMBERS, &text, cells)).or_insert(0) += 1;
    }
    let all = [0, 5, 101, 102, 103, 105, 106];
    assert_eq!(kinds(&seen), all, "{seen:?}");
}

fn some_table(r: &mut Random) -> Vec<u8> {
    let separator = r.pick(b"\t;, ");
    let end: &[u8] = if r.one_in(3) { b"\r\n" } else { b"\n" };
    let p = r.pick(&[1, 2, 3, 9, MOST_COLUMNS, MOST_COLUMNS + 1]);
    let q = r.pick(&[0, 1, 2, 5, MOST_PAYSLIPS, MOST_PAYSLIPS + 1]);
    let named = r.one_in(3);
    let padded = r.one_in(3);
    let mut text = vec![];
    if r.one_in(5) {
        text.extend(MARK);
    }
    for line in 0..q + named as usize {
        for field in 0..p {
            if field > 0 {
                text.push(separator);
            }
            if padded {
                text.extend(" ".repeat(r.below(3)).bytes());
            }
            if named && line == 0 {
                text.extend(r.pick(&["gross", "\u{fc}ber", "\"net\"", "n-e.t'"]).bytes());
            } else {
                text.extend(number(r).bytes());
            }
            if padded {
                text.extend(" ".repeat(r.below(3)).bytes());
            }
        }
        text.extend(end);
    }
    text
}

#[test]
fn random_tables() {
    let mut r = Random(102);
    let mut seen = BTreeMap::new();
    for _ in 0..60_000 {
        let mut text = some_table(&mut r);
        for _ in 0..r.pick(&[0, 0, 1, 2]) {
            damage(&mut r, &mut text);
        }
        let cells = r.pick(&[0, 1, 10, 200, MOST_COLUMNS * MOST_PAYSLIPS]);
        *seen.entry(same(TABLE, &text, cells)).or_insert(0) += 1;
    }
    let all = [0, 1, 5, 101, 102, 103, 104, 105, 106, 107];
    assert_eq!(kinds(&seen), all, "{seen:?}");
}

/// The sizes at their edges, and what comes first where two refusals apply.
#[test]
fn tables_at_the_edges() {
    let line = |p: usize| format!("{}\n", vec!["7"; p].join(";"));
    let table = |p: usize, q: usize| line(p).repeat(q);
    for (p, q, (number, four)) in [
        (16, 64, (0, [16, 64, 0, 0])),
        (17, 1, (1, [1, 34, 17, 16])),
        (16, 65, (1, [65, 1, 65, 64])),
        (2, 0, (1, [1, 1, 0, 1])),
    ] {
        let text = table(p, q);
        let mut cells = [0; MOST_COLUMNS * MOST_PAYSLIPS];
        let outcome = (number, words(&four));
        assert_eq!(texts::table(text.as_bytes(), &mut cells), outcome);
        same(TABLE, text.as_bytes(), cells.len());
    }
    for (text, (number, four)) in [
        // a comma is a fault where semicolons part
        ("187,50;20,00\n", (105, [1, 4, b',' as u64, 0])),
        ("1 875;20\n", (105, [1, 3, b'8' as u64, 0])),
        // names without amounts, and a first line of nothing
        ("gross;net\n", (1, [2, 1, 0, 1])),
        ("\n", (1, [1, 1, 0, 16])),
        (" \r\n1\n", (1, [1, 2, 0, 16])),
        // more fields before the fault of a byte, which is before a line that follows
        ("1;2\n3;x;4\n", (104, [2, 6, 3, 2])),
        ("1;2\n3;x\n5\n", (101, [2, 3, b'x' as u64, 0])),
        ("1;2\n3;\r\n", (107, [2, 3, 0, 0])),
        ("1;2\n;3\n", (107, [2, 1, 0, 0])),
        ("1;2\n\n", (104, [2, 1, 1, 2])),
        // a cut before all else
        ("x;y\n1;2;3", (103, [2, 6, 0, 0])),
        ("1\r2\n", (101, [1, 2, b'\r' as u64, 0])),
    ] {
        let mut cells = [0; 8];
        assert_eq!(
            texts::table(text.as_bytes(), &mut cells),
            (number, words(&four)),
            "{text:?}"
        );
        same(TABLE, text.as_bytes(), cells.len());
    }
}

/// Every number's words, and room for one byte too few.
#[test]
fn phrases() {
    let numbers = (0..300).chain([1 << 20, u32::MAX]);
    for number in numbers {
        let expected = texts::phrase(number);
        let (mut text, mut answer) = ([0xA5; 64], [7; 8]);
        assert_eq!(slices::phrase(number, &mut text, &mut answer), 0);
        assert_eq!(answer, words(&[expected.len() as u64]), "{number}");
        let (front, back) = text.split_at(expected.len());
        assert_eq!(String::from_utf8_lossy(front), expected, "{number}");
        assert!(back.iter().all(|&cell| cell == 0xA5), "{number}");

        let (mut text, mut answer) = (vec![0xA5; expected.len()], [7; 8]);
        assert_eq!(slices::phrase(number, &mut text, &mut answer), 0);
        assert_eq!(text, expected.as_bytes());
        let (mut text, mut answer) = (vec![0xA5; expected.len() - 1], [7; 8]);
        assert_eq!(slices::phrase(number, &mut text, &mut answer), 5);
        assert_eq!(answer, [0; 8], "{number}");
        assert!(text.iter().all(|&cell| cell == 0xA5), "{number}");
    }
    assert_eq!(PHRASES.len(), 20 + 7);
}
