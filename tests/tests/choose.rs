//! The chooser against the reference, over pairs of good, bad and mismatched files.
use spoutbasket_tests::ffi::{self, Scratch};
use spoutbasket_tests::random::Random;
use spoutbasket_tests::reference::{self, EDITION_STEPS, EDITION_VALUES, MOST_PAYSLIPS};

/// A file for the sheet by some method, damaged or of another shape now and then.
fn some_file(r: &mut Random, p: usize, q: usize, amounts: &[u32]) -> Vec<u8> {
    let (method, k) = r.pick(&[(1, 1), (2, 1), (2, 2), (2, 3), (3, 1), (3, 2), (3, 4)]);
    let mut amounts = amounts.to_vec();
    let (mut p, mut q) = (p, q);
    match r.below(8) {
        0 => {
            let i = r.below(amounts.len());
            amounts[i] ^= 1 << r.below(8);
        }
        1 if p > 1 => std::mem::swap(&mut p, &mut q),
        2 => {
            amounts.truncate(p);
            q = 1;
        }
        _ => {}
    }
    let (steps, outputs) = reference::make(p, q, &amounts, method, k);
    let flat: Vec<u32> = steps.iter().flat_map(|&(a, b)| [a, b]).collect();
    let mut bytes = vec![0; reference::LONGEST_FILE];
    let length = reference::write(p, &flat, &outputs, &mut bytes).unwrap()[0] as usize;
    bytes.truncate(length);
    match r.below(8) {
        0 => {
            let at = r.below(bytes.len());
            bytes[at] ^= 1 << r.below(8);
        }
        1 => bytes.truncate(r.below(length)),
        _ => {}
    }
    bytes
}

#[test]
fn pairs_of_files() {
    let mut r = Random(31);
    let mut seen = std::collections::BTreeMap::new();
    let mut scratch = Scratch {
        steps: r.words(32_001),
        outputs: r.words(MOST_PAYSLIPS),
        numbers: r.words(EDITION_VALUES),
    };
    for _ in 0..6000 {
        let (p, q) = (r.within(1, 6), r.within(1, 6));
        let mut amounts: Vec<u32> = (0..p * q).map(|_| r.below(300) as u32).collect();
        let (a, b) = (
            some_file(&mut r, p, q, &amounts),
            some_file(&mut r, p, q, &amounts),
        );
        if r.one_in(20) {
            amounts.push(0);
        }
        let got = ffi::choose(p, q, &amounts, &a, &b, &mut scratch);
        assert_eq!(
            got,
            reference::choose(
                p,
                q,
                &amounts,
                &a,
                &b,
                (EDITION_STEPS, MOST_PAYSLIPS, EDITION_VALUES)
            ),
            "{p} {q} {amounts:?} {a:02x?} {b:02x?}"
        );
        *seen
            .entry(got.map(|v| v[0]).map_err(|(number, _)| number))
            .or_insert(0) += 1;
    }
    for answer in [Ok(1), Ok(2), Err(2), Err(6), Err(14)] {
        assert!(
            seen.get(&answer).copied().unwrap_or(0) > 20,
            "{answer:?} in {seen:?}"
        );
    }
}

#[test]
fn scratch_of_full_size() {
    let file = [0x11, 0x00, 0x00, 0x34, 0x5b, 0x86, 0x80];
    for (pairs, outputs, numbers, want) in [
        (EDITION_STEPS, MOST_PAYSLIPS, EDITION_VALUES, Ok(vec![1])),
        (
            EDITION_STEPS - 1,
            MOST_PAYSLIPS,
            EDITION_VALUES,
            Err((5, 0)),
        ),
        (
            EDITION_STEPS,
            MOST_PAYSLIPS - 1,
            EDITION_VALUES,
            Err((5, 0)),
        ),
        (
            EDITION_STEPS,
            MOST_PAYSLIPS,
            EDITION_VALUES - 1,
            Err((5, 0)),
        ),
    ] {
        let mut scratch = Scratch {
            steps: vec![9; 2 * pairs],
            outputs: vec![9; outputs],
            numbers: vec![9; numbers],
        };
        assert_eq!(ffi::choose(2, 1, &[3, 2], &file, &file, &mut scratch), want);
        assert_eq!(
            ffi::choose(0, 1, &[], &file, &file, &mut scratch),
            Err((1, 0))
        );
        assert_eq!(
            ffi::choose(2, 1, &[3], &file, &file, &mut scratch),
            Err((2, 0))
        );
    }
}
