//! Packed fields read and written against the reference, every lent cell included; what each field says, by all bytes that there are; and that amounts read
//! are amounts like any others.
use spoutbasket_tests::compiler::{methods, Job};
use spoutbasket_tests::ffi;
use spoutbasket_tests::random::{bases, fields, modulus, Random};
use spoutbasket_tests::reference::{self, Answer, Lent, FIELD_BYTES, MOST_PACKED};
use spoutbasket_tests::reference::{LONGEST_FILE, MOST_COLUMNS, MOST_PAYSLIPS, MOST_STEPS};
use std::collections::BTreeMap;

/// Fields read by the library and by the reference, on equal slices: the same answer and the same cells, which are given back.
fn same_unpack(p: usize, q: usize, bytes: &[u8], amounts: &[u32]) -> (Answer, Vec<u32>) {
    let (mut ours, mut theirs) = (amounts.to_vec(), amounts.to_vec());
    let got = ffi::unpack(p, q, bytes, &mut ours);
    let want = reference::unpack(p, q, bytes, &mut theirs);
    assert_eq!(got, want, "{p} {q} {bytes:x?}");
    assert_eq!(ours, theirs, "{p} {q} {bytes:x?}");
    (got, ours)
}

/// Amounts written by both, likewise.
fn same_pack(p: usize, q: usize, amounts: &[u32], bytes: &[u8]) -> (Answer, Vec<u8>) {
    let (mut ours, mut theirs) = (bytes.to_vec(), bytes.to_vec());
    let got = ffi::pack(p, q, amounts, &mut ours);
    let want = reference::pack(p, q, amounts, &mut theirs);
    assert_eq!(got, want, "{p} {q} {amounts:?}");
    assert_eq!(ours, theirs, "{p} {q} {amounts:?}");
    (got, ours)
}

/// The amount of one field, or the refusal.
fn amount(field: [u8; FIELD_BYTES]) -> Result<u32, (u32, u64)> {
    let (answer, amounts) = same_unpack(1, 1, &field, &[77]);
    match answer {
        Ok(values) => {
            assert_eq!(values, [1]);
            Ok(amounts[0])
        }
        Err(refusal) => {
            assert_eq!(amounts, [77]);
            Err(refusal)
        }
    }
}

/// A field of ten halves in hexadecimal.
fn field(halves: &str) -> [u8; FIELD_BYTES] {
    let number = u64::from_str_radix(halves, 16).unwrap();
    assert_eq!(halves.len(), 2 * FIELD_BYTES);
    number.to_be_bytes()[8 - FIELD_BYTES..].try_into().unwrap()
}

/// A sheet of fields, each in hexadecimal.
fn sheet(halves: &[&str]) -> Vec<u8> {
    halves.iter().flat_map(|halves| field(halves)).collect()
}

/// What is written once it was read: of all bytes only signs F change, into C.
fn with_plus(fields: &[u8]) -> Vec<u8> {
    let mut fields = fields.to_vec();
    for byte in fields.iter_mut().skip(4).step_by(5) {
        if *byte % 16 == 0xF {
            *byte -= 3;
        }
    }
    fields
}

/// The number of a refusal, or 0.
fn number<T>(answer: Result<T, (u32, u64)>) -> u32 {
    answer.map_or_else(|(number, _)| number, |_| 0)
}

/// Each of these answers came often enough to mean something.
fn often(seen: &BTreeMap<u32, usize>, numbers: &[u32]) {
    for number in numbers {
        assert!(seen.get(number) > Some(&500), "{number}: {seen:?}");
    }
}

/// The sizes of a sheet, seldom large.
fn some_sizes(r: &mut Random) -> (usize, usize) {
    match r.below(100) {
        0 => (MOST_COLUMNS, MOST_PAYSLIPS),
        1..10 => (r.within(1, MOST_COLUMNS), r.within(1, MOST_PAYSLIPS)),
        _ => (r.within(1, 6), r.within(1, 6)),
    }
}

/// Fields read, written and read again, with room for just them and for more.
#[test]
fn there_and_back() {
    let mut r = Random(71);
    let mut unsigned = 0;
    for round in 0..4000 {
        let (p, q) = some_sizes(&mut r);
        let count = p * q;
        let bytes = fields(&mut r, p, q);
        let lent = r.words(count + round % 4);
        let (answer, read) = same_unpack(p, q, &bytes, &lent);
        assert_eq!(answer, Ok(vec![count as u64]));
        assert_eq!(read[count..], lent[count..]);
        assert!(read[..count].iter().all(|&amount| amount <= MOST_PACKED));

        let lent = r.bytes(bytes.len() + round % 7);
        let (answer, written) = same_pack(p, q, &read[..count], &lent);
        assert_eq!(answer, Ok(vec![count as u64]));
        assert_eq!(written[..bytes.len()], with_plus(&bytes));
        assert_eq!(written[bytes.len()..], lent[bytes.len()..]);
        unsigned += (written[..bytes.len()] != bytes) as usize;

        let (_, again) = same_unpack(p, q, &written[..bytes.len()], &vec![7; count]);
        assert_eq!(again, read[..count]);
    }
    assert!(unsigned > 3000, "{unsigned} sheets had a sign F");
}

/// One fault or two: the sizes, the number of bytes, a half of a field, its sign, the room.
#[test]
fn damaged_fields_and_short_slices() {
    let mut r = Random(72);
    let mut seen = BTreeMap::new();
    for _ in 0..40_000 {
        let (mut p, mut q) = some_sizes(&mut r);
        let count = p * q;
        let mut bytes = fields(&mut r, p, q);
        let mut cells = count + r.below(3);
        for _ in 0..r.below(3) {
            let at = r.below(count) * FIELD_BYTES;
            match r.below(12) {
                0 => p = r.pick(&[0, 17, usize::MAX, p.wrapping_add(1)]),
                1 => q = r.pick(&[0, 65, usize::MAX, q.wrapping_add(1)]),
                2 => bytes.truncate(bytes.len().saturating_sub(r.pick(&[1, 4, 5]))),
                3 => bytes.extend(&[0x1C; 5][r.pick(&[0, 1, 4])..]),
                4 => cells = r.pick(&[0, count - 1, count]),
                5..8 if at + 4 < bytes.len() => {
                    let half = r.below(9);
                    let shift = [4, 0][half % 2];
                    let byte = &mut bytes[at + half / 2];
                    *byte = *byte & !(0xF << shift) | (r.within(9, 15) as u8) << shift;
                }
                8.. if at + 4 < bytes.len() => {
                    let sign = r.pick(&[0x0, 0x9, 0xA, 0xB, 0xD, 0xD, 0xD, 0xE]);
                    bytes[at + 4] = bytes[at + 4] & 0xF0 | sign;
                }
                _ => {}
            }
        }
        let lent = r.words(cells);
        let (answer, read) = same_unpack(p, q, &bytes, &lent);
        if answer.is_err() {
            assert_eq!(read, lent);
        }
        *seen.entry(number(answer)).or_insert(0) += 1;
    }
    often(&seen, &[0, 1, 2, 5, 18, 19]);
}

#[test]
fn unfit_amounts_and_short_slices() {
    let mut r = Random(73);
    let mut seen = BTreeMap::new();
    for _ in 0..20_000 {
        let (mut p, mut q) = some_sizes(&mut r);
        let count = p * q;
        let mut amounts: Vec<u32> = (0..count)
            .map(|_| r.below(MOST_PACKED as usize + 1) as u32)
            .collect();
        let mut room = FIELD_BYTES * count + r.below(7);
        for _ in 0..r.below(3) {
            match r.below(8) {
                0 => p = r.pick(&[0, 17, usize::MAX, p.wrapping_add(1)]),
                1 => q = r.pick(&[0, 65, usize::MAX, q.wrapping_add(1)]),
                2 => amounts.push(7),
                3 => drop(amounts.pop()),
                4 => room = r.pick(&[0, count, FIELD_BYTES * count - 1, FIELD_BYTES * count]),
                _ if amounts.is_empty() => {}
                _ => {
                    let at = r.below(amounts.len());
                    let above = r.pick(&[MOST_PACKED + 1, u32::MAX, 1 << 30, 1 << 31]);
                    amounts[at] = r.pick(&[above, above, MOST_PACKED]);
                }
            }
        }
        let lent = r.bytes(room);
        let (answer, written) = same_pack(p, q, &amounts, &lent);
        if answer.is_err() {
            assert_eq!(written, lent);
        }
        *seen.entry(number(answer)).or_insert(0) += 1;
    }
    often(&seen, &[0, 1, 2, 5, 20]);
}

/// The last digit and the sign: of all 256 bytes, ten with each of two signs are amounts, and ten are negative.
#[test]
fn every_last_byte() {
    let mut seen = BTreeMap::new();
    for last in 0..=255_u8 {
        let mut bytes = field("120340560C");
        bytes[4] = last;
        let said = amount(bytes);
        let expected = match (last >> 4, last & 15) {
            (digit, 0xC | 0xF) if digit < 10 => Ok(120_340_560 + u32::from(digit)),
            (digit, 0xD) if digit < 10 => Err((19, 1)),
            _ => Err((18, 1)),
        };
        assert_eq!(said, expected, "{last:#x}");
        *seen.entry(number(said)).or_insert(0) += 1;
    }
    assert_eq!(seen, BTreeMap::from([(0, 20), (18, 226), (19, 10)]));
}

/// The first four digits: all 65,536 pairs of bytes, before other digits and either sign.
#[test]
fn every_two_first_bytes() {
    let mut amounts = 0;
    for front in 0..=u16::MAX {
        let halves = format!("{front:04x}");
        for rest in ["00000C", "00000F", "98765C"] {
            let said = amount(field(&format!("{halves}{rest}")));
            let expected = match halves.parse::<u32>() {
                Ok(digits) => Ok(digits * 100_000 + rest[..5].parse::<u32>().unwrap()),
                Err(_) => Err((18, 1)),
            };
            assert_eq!(said, expected, "{halves}{rest}");
            amounts += said.is_ok() as usize;
        }
    }
    assert_eq!(amounts, 3 * 10_000);
}

#[test]
fn every_sign() {
    for (sign, expected) in [
        ("0", Err((18, 1))),
        ("1", Err((18, 1))),
        ("2", Err((18, 1))),
        ("3", Err((18, 1))),
        ("4", Err((18, 1))),
        ("5", Err((18, 1))),
        ("6", Err((18, 1))),
        ("7", Err((18, 1))),
        ("8", Err((18, 1))),
        ("9", Err((18, 1))),
        ("A", Err((18, 1))),
        ("B", Err((18, 1))),
        ("C", Ok(())),
        ("D", Err((19, 1))),
        ("E", Err((18, 1))),
        ("F", Ok(())),
    ] {
        for digits in [0, 1, 168_233, MOST_PACKED] {
            let said = amount(field(&format!("{digits:09}{sign}")));
            assert_eq!(said, expected.map(|()| digits), "{digits} {sign}");
        }
    }
}

/// Each of the nine places: a digit counts by its place, 9 is one, and A to F are none, whatever the sign is.
#[test]
fn every_digit_in_every_place() {
    for place in 0..9 {
        let with = |half: u32, sign: char| {
            let digit = char::from_digit(half, 16).unwrap();
            let digits: String = (0..9)
                .map(|i| if i == place { digit } else { '0' })
                .collect();
            amount(field(&format!("{digits}{sign}")))
        };
        for half in 0..10 {
            let said = half * 10_u32.pow(8 - place);
            assert_eq!(with(half, 'C'), Ok(said));
            assert_eq!(with(half, 'F'), Ok(said));
            assert_eq!(with(half, 'D'), Err((19, 1)));
        }
        for half in 10..16 {
            for sign in ['C', 'D', 'F', '0'] {
                assert_eq!(with(half, sign), Err((18, 1)), "{place} {half} {sign}");
            }
        }
    }
}

/// Amounts as they are written, digit by digit; the largest, and one more.
#[test]
fn written_amounts() {
    for (amount, halves) in [
        (0, "000000000C"),
        (1, "000000001C"),
        (10, "000000010C"),
        (168_233, "000168233C"),
        (123_456_789, "123456789C"),
        (987_654_321, "987654321C"),
        (999_999_999, "999999999C"),
    ] {
        let (answer, written) = same_pack(1, 1, &[amount], &[7; 6]);
        assert_eq!(answer, Ok(vec![1]));
        assert_eq!(written, [&field(halves)[..], &[7]].concat(), "{amount}");
    }
    for amount in [1_000_000_000, 1_000_000_001, 1 << 30, u32::MAX] {
        let (answer, written) = same_pack(1, 1, &[amount], &[7; 6]);
        assert_eq!((answer, written), (Err((20, 1)), vec![7; 6]));
    }
}

/// Fields lie payslip by payslip, column by column, and are counted as they lie, from 1.
#[test]
fn payslip_by_payslip() {
    let halves = ["000000011C", "000000012F", "000000021C"];
    let more = ["000000022C", "000000031F", "000000032C"];
    let fit = sheet(&[halves, more].concat());
    let amounts = [11, 12, 21, 22, 31, 32];
    for (p, q) in [(2, 3), (3, 2), (1, 6), (6, 1)] {
        let (answer, read) = same_unpack(p, q, &fit, &[9; 8]);
        assert_eq!(answer, Ok(vec![6]));
        assert_eq!(read, [&amounts[..], &[9, 9]].concat());
        let (answer, written) = same_pack(p, q, &amounts, &[9; 31]);
        assert_eq!(answer, Ok(vec![6]));
        assert_eq!(written, [&with_plus(&fit)[..], &[9]].concat());
        for at in 0..6 {
            for (unfit, number) in [("00000000AC", 18), ("0000000000", 18), ("000000000D", 19)] {
                let mut bytes = fit.clone();
                bytes[5 * at..5 * at + 5].copy_from_slice(&field(unfit));
                let (answer, read) = same_unpack(p, q, &bytes, &[9; 6]);
                assert_eq!(answer, Err((number, at as u64 + 1)));
                assert_eq!(read, [9; 6]);
            }
            let mut large = amounts;
            large[at] = MOST_PACKED + 1;
            let (answer, written) = same_pack(p, q, &large, &[9; 30]);
            assert_eq!(answer, Err((20, at as u64 + 1)));
            assert_eq!(written, [9; 30]);
        }
    }
}

/// In a field 18 comes before 19; of two fields the first is told, whatever the second is.
#[test]
fn faults_in_one_field_and_in_two() {
    let (one, digit, sign) = ("000000001C", "00000B001C", "000000001E");
    let (minus, zero, both) = ("000000001D", "000000000D", "0A0000001D");
    for (halves, refusal) in [
        ([one, both], (18, 2)),
        ([both, one], (18, 1)),
        ([minus, digit], (19, 1)),
        ([digit, minus], (18, 1)),
        ([zero, sign], (19, 1)),
        ([sign, zero], (18, 1)),
        ([minus, both], (19, 1)),
        ([both, minus], (18, 1)),
        ([minus, zero], (19, 1)),
        ([digit, sign], (18, 1)),
        ([one, zero], (19, 2)),
    ] {
        for (p, q) in [(2, 1), (1, 2)] {
            let (answer, read) = same_unpack(p, q, &sheet(&halves), &[9; 2]);
            assert_eq!((answer, read), (Err(refusal), vec![9; 2]), "{halves:?}");
        }
    }
    // the first amount too large
    let large = [7, 1 << 30, MOST_PACKED + 1, u32::MAX];
    assert_eq!(same_pack(2, 2, &large, &[9; 20]).0, Err((20, 2)));
}

/// Any number of bytes but five for each of p times q, and any number of amounts but that, is 2; p and q by themselves do not matter.
#[test]
fn counts() {
    let fields = sheet(&["000000007C"; 6]);
    for (p, q) in [(2, 3), (3, 2), (1, 6), (6, 1)] {
        for length in 0..=36 {
            let bytes = [&fields[..], &fields].concat();
            let (answer, _) = same_unpack(p, q, &bytes[..length], &[9; 12]);
            let fits = length == 30;
            assert_eq!(answer, if fits { Ok(vec![6]) } else { Err((2, 0)) });
            let (answer, _) = same_pack(p, q, &vec![7; length], &[9; 180]);
            let fits = length == 6;
            assert_eq!(answer, if fits { Ok(vec![6]) } else { Err((2, 0)) });
        }
        // room for just so much, and for one less
        let (answer, _) = same_unpack(p, q, &fields, &[9; 6]);
        assert_eq!(answer, Ok(vec![6]));
        for cells in 0..6 {
            let (answer, read) = same_unpack(p, q, &fields, &vec![9; cells]);
            assert_eq!((answer, read), (Err((5, 0)), vec![9; cells]));
        }
        for room in 0..30 {
            let (answer, written) = same_pack(p, q, &[7; 6], &vec![9; room]);
            assert_eq!((answer, written), (Err((5, 0)), vec![9; room]));
        }
    }
}

/// Both ends of p and of q, with as many bytes or amounts as they ask for where there are so many.
#[test]
fn sizes() {
    for p in [0, 1, 16, 17, 1 << 32, usize::MAX] {
        for q in [0, 1, 64, 65, 1 << 32, usize::MAX] {
            let fits = (1..=16).contains(&p) && (1..=64).contains(&q);
            let count = p.saturating_mul(q).min(17 * 65);
            let want = if fits {
                Ok(vec![count as u64])
            } else {
                Err((1, 0))
            };
            let fields = sheet(&["000000007C"].repeat(count));
            assert_eq!(same_unpack(p, q, &fields, &vec![9; count]).0, want);
            let room = vec![9; fields.len()];
            assert_eq!(same_pack(p, q, &vec![7; count], &room).0, want);
        }
    }
}

/// Where two refusals apply, the one that comes first in the order is the answer.
#[test]
fn orders() {
    let (digit, minus) = ("00000000AC", "000000000D");
    let (one, both) = ("000000001C", "00000000AD");
    for (p, q, halves, cells, refusal) in [
        (17, 1, vec![one], 17, (1, 0)),
        (0, 1, vec![digit], 9, (1, 0)),
        (1, 0, vec![minus], 9, (1, 0)),
        (1, 65, vec![one; 65], 0, (1, 0)),
        (2, 1, vec![digit], 9, (2, 0)),
        (2, 1, vec![minus], 9, (2, 0)),
        (2, 1, vec![minus, digit, one], 9, (2, 0)),
        (2, 1, vec![one], 0, (2, 0)),
        (2, 1, vec![one, both], 9, (18, 2)),
        (2, 1, vec![one, digit], 0, (18, 2)),
        (2, 1, vec![one, digit], 1, (18, 2)),
        (2, 1, vec![one, minus], 0, (19, 2)),
        (2, 1, vec![one, minus], 1, (19, 2)),
        (2, 1, vec![one, one], 1, (5, 0)),
    ] {
        let (answer, read) = same_unpack(p, q, &sheet(&halves), &vec![9; cells]);
        assert_eq!((answer, read), (Err(refusal), vec![9; cells]), "{halves:?}");
    }
    let large = MOST_PACKED + 1;
    for (p, q, amounts, room, refusal) in [
        (17, 1, vec![7], 99, (1, 0)),
        (0, 1, vec![large], 99, (1, 0)),
        (1, 65, vec![7; 65], 0, (1, 0)),
        (2, 1, vec![large], 99, (2, 0)),
        (2, 1, vec![large; 3], 99, (2, 0)),
        (2, 1, vec![7], 0, (2, 0)),
        (2, 1, vec![7, large], 0, (20, 2)),
        (2, 1, vec![7, large], 9, (20, 2)),
        (2, 1, vec![7, 7], 9, (5, 0)),
    ] {
        let (answer, written) = same_pack(p, q, &amounts, &vec![9; room]);
        assert_eq!(
            (answer, written),
            (Err(refusal), vec![9; room]),
            "{amounts:?}"
        );
    }
}

/// The host's bytes to figures: what is read goes the whole path, by every method, to the powers of the bases.
#[test]
fn from_fields_to_figures() {
    let mut r = Random(74);
    for round in 0..300 {
        let (p, q) = (r.within(1, 6), r.within(1, 6));
        let (_, amounts) = same_unpack(p, q, &fields(&mut r, p, q), &vec![9; p * q]);
        let m = if round % 20 == 0 { 1 } else { modulus(&mut r) };
        let bases = bases(&mut r, p, m);
        let (method, parameter) = r.pick(&methods(p));
        let job = Job::new(p, q, &amounts, method, parameter);
        let mut lent = Lent {
            steps: vec![9; 2 * MOST_STEPS],
            outputs: vec![9; q],
            bytes: vec![9; LONGEST_FILE],
            read_steps: vec![9; 2 * MOST_STEPS],
            read_outputs: vec![9; q],
            scratch: vec![9; p + MOST_STEPS + 1],
            values: vec![9; p + MOST_STEPS + 1],
            figures: vec![9; q],
        };
        let n = job.count() as u64;
        assert_eq!(ffi::path(&job, m, &bases, &mut lent), Ok(vec![n; 3]));
        let payslips = amounts.chunks(p);
        let figures = payslips.map(|payslip| reference::figure(m, &bases, payslip));
        assert!(figures.eq(lent.figures.iter().copied()));
    }
}
