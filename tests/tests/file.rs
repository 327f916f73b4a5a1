//! Write and read against the reference, every lent cell included.
use spoutbasket_tests::ffi;
use spoutbasket_tests::random::{legal_chain, Chain, Random};
use spoutbasket_tests::reference::{self, words, Answer};
use spoutbasket_tests::reference::{EDITION_STEPS, MOST_COLUMNS, MOST_PAYSLIPS};

/// Write by the library and by the reference into equal bytes: the same answer and the same bytes.
fn same_write(c: &Chain, bytes: &[u8]) -> (Answer, Vec<u8>) {
    let (mut ours, mut theirs) = (bytes.to_vec(), bytes.to_vec());
    let got = ffi::write(c.p, &c.steps, &c.outputs, &mut ours);
    assert_eq!(
        got,
        reference::write(c.p, &c.steps, &c.outputs, &mut theirs),
        "{c:?}"
    );
    assert_eq!(ours, theirs, "{c:?}");
    (got, ours)
}

/// Read likewise; and what is read is a chain whose file is just those bytes.
fn same_read(bytes: &[u8], steps: &[u32], outputs: &[u32]) -> Answer {
    let (mut ours, mut theirs) = (steps.to_vec(), steps.to_vec());
    let (mut our_outputs, mut their_outputs) = (outputs.to_vec(), outputs.to_vec());
    let got = ffi::read(bytes, &mut ours, &mut our_outputs);
    assert_eq!(
        got,
        reference::read(bytes, &mut theirs, &mut their_outputs),
        "{bytes:02x?}"
    );
    assert_eq!(ours, theirs, "{bytes:02x?}");
    assert_eq!(our_outputs, their_outputs, "{bytes:02x?}");
    if let Ok(read) = &got {
        let (p, q, n) = (read[0] as usize, read[1] as usize, read[2] as usize);
        let mut again = vec![0xa5; bytes.len()];
        assert_eq!(
            ffi::write(p, &ours[..2 * n], &our_outputs[..q], &mut again),
            Ok(vec![bytes.len() as u64])
        );
        assert_eq!(again, bytes);
    }
    got
}

fn file_of(c: &Chain) -> Vec<u8> {
    let mut bytes = vec![0; reference::LONGEST_FILE];
    let n = reference::write(c.p, &c.steps, &c.outputs, &mut bytes).unwrap()[0] as usize;
    bytes.truncate(n);
    bytes
}

#[test]
fn there_and_back() {
    let mut r = Random(21);
    for round in 0..4000 {
        let (p, q) = (r.within(1, MOST_COLUMNS), r.within(1, MOST_PAYSLIPS));
        let n = if round % 400 == 0 {
            r.within(15_900, EDITION_STEPS)
        } else {
            r.below(300)
        };
        let c = legal_chain(&mut r, p, q, n, true);
        let file = file_of(&c);
        let spare = round % 3;
        let lent: Vec<u8> = (0..file.len() + spare).map(|_| r.word() as u8).collect();
        let (answer, bytes) = same_write(&c, &lent);
        assert_eq!(answer, Ok(vec![file.len() as u64]));
        assert_eq!(bytes[..file.len()], file);
        let (steps, outputs) = (r.words(2 * n + spare), r.words(q + spare));
        assert_eq!(
            same_read(&file, &steps, &outputs),
            Ok([vec![p as u64, q as u64], c.counts()].concat())
        );
    }
}

#[test]
fn refused_writes() {
    let mut r = Random(22);
    for _ in 0..20_000 {
        let (p, q, n) = (r.within(1, MOST_COLUMNS), r.within(1, 8), r.below(12));
        let mut c = legal_chain(&mut r, p, q, n, false);
        let mut room = file_of(&c).len();
        match r.below(7) {
            0 => c.p = r.pick(&[0, 17, usize::MAX]),
            1 => c.outputs = vec![0; r.pick(&[0, 65])],
            2 if n > 0 => c.steps[r.below(2 * n)] = r.pick(&[0, u32::MAX, (p + n) as u32]),
            3 if n > 0 => {
                let s = r.below(n);
                c.steps.swap(2 * s, 2 * s + 1);
            }
            4 if !c.outputs.is_empty() => c.outputs[r.below(q)] = (p + n + 1) as u32,
            5 => room -= r.within(1, room),
            _ => c.steps.push(r.word() as u32),
        }
        let lent: Vec<u8> = (0..room).map(|_| r.word() as u8).collect();
        let _ = same_write(&c, &lent);
    }
    let long = Chain {
        p: 1,
        steps: vec![1; 2 * (EDITION_STEPS + 1)],
        outputs: vec![1],
    };
    assert_eq!(same_write(&long, &[9; 60_000]).0, Err((4, 0)));
}

/// Every one-bit change, every cut and every extension of some files.
#[test]
fn damaged_files() {
    let mut r = Random(23);
    for round in 0..60 {
        let (p, q, n) = (
            r.within(1, MOST_COLUMNS),
            r.within(1, MOST_PAYSLIPS),
            r.below(if round < 50 { 12 } else { 120 }),
        );
        let c = legal_chain(&mut r, p, q, n, false);
        let file = file_of(&c);
        // room for what a changed header may say, and too little
        for (pairs, outputs) in [
            (EDITION_STEPS, MOST_PAYSLIPS),
            (n, q),
            (n.saturating_sub(1), q),
            (n, q - 1),
        ] {
            let (steps, outputs) = (r.words(2 * pairs), r.words(outputs));
            let _ = same_read(&file, &steps, &outputs);
            if pairs == EDITION_STEPS && round % 10 != 0 {
                continue;
            }
            for bit in 0..8 * file.len() {
                let mut changed = file.clone();
                changed[bit / 8] ^= 0x80 >> (bit % 8);
                let _ = same_read(&changed, &steps, &outputs);
            }
            for end in 0..file.len() {
                let _ = same_read(&file[..end], &steps, &outputs);
            }
            for more in [vec![0], vec![0xff], vec![0; 100]] {
                let _ = same_read(&[&file[..], &more[..]].concat(), &steps, &outputs);
            }
        }
    }
}

/// All files of 4 bytes.
#[test]
fn every_file_of_four_bytes() {
    let worker = |half: u32| {
        let (mut steps, mut outputs) = ([9u32; 2], [9u32; MOST_PAYSLIPS]);
        let (mut other_steps, mut other_outputs) = ([9u32; 2], [9u32; MOST_PAYSLIPS]);
        let mut read = 0;
        for low in 0..1u32 << 31 {
            let bytes = (half << 31 | low).to_be_bytes();
            let want = reference::read(&bytes, &mut other_steps, &mut other_outputs);
            // whatever a refused file stored would still stand here
            assert!(want.is_err() || outputs == [9; MOST_PAYSLIPS]);
            let answer = ffi::read_words(&bytes, &mut steps, &mut outputs);
            match want {
                Ok(values) => {
                    assert_eq!(answer, (0, words(&values)));
                    assert_eq!((steps, outputs), (other_steps, other_outputs));
                    outputs.fill(9);
                    other_outputs.fill(9);
                    read += 1;
                }
                Err((refused, place)) => assert_eq!(answer, (refused, words(&[place]))),
            }
        }
        assert_eq!(outputs, [9; MOST_PAYSLIPS]);
        read
    };
    let read: usize = std::thread::scope(|s| {
        let halves = [0, 1].map(|half| s.spawn(move || worker(half)));
        halves.into_iter().map(|h| h.join().unwrap()).sum()
    });
    // n = 0 and 4 bits for q outputs of the bit length of p: p = 1 with q from 1 to 4, p = 2 or 3 with q 1 or 2, p = 4 to 15 with q = 1
    let legal: usize = (1..=16usize)
        .flat_map(|p| (1..=4u32).map(move |q| (p, q)))
        .filter(|&(p, q)| (usize::BITS - p.leading_zeros()) * q <= 4)
        .map(|(p, q)| (p + 1).pow(q))
        .sum();
    assert_eq!(read, legal);
}

/// Files of 5 bytes: the first 28 bits decide unless they state 5 bytes, so there is one file for each such header, and all files for the others.
#[test]
fn files_of_five_bytes() {
    let (steps, outputs) = (vec![9; 20], vec![9; MOST_PAYSLIPS]);
    let mut read = 0;
    for header in 0..1u64 << 28 {
        let edition = header >> 24;
        if edition != 1 && header & 0xfff != 0 {
            continue;
        }
        let (p, q, n) = (
            (header >> 20 & 15) as usize + 1,
            (header >> 14 & 63) as usize + 1,
            (header & 0x3fff) as usize,
        );
        let width = (usize::BITS - (p + n).leading_zeros()) as usize;
        let states_five = edition == 1 && (28 + width * (2 * n + q)).div_ceil(8) == 5;
        for rest in 0..if states_five { 1u64 << 12 } else { 1 } {
            let all = header << 12
                | if states_five {
                    rest
                } else {
                    (header * 0x9e37) & 0xfff
                };
            let bytes = &all.to_be_bytes()[3..];
            if states_five {
                read += same_read(bytes, &steps, &outputs).is_ok() as usize;
            } else {
                let (mut ours, mut their_outputs) = ([9u32; 2], [9u32; 1]);
                let answer = ffi::read_words(bytes, &mut ours, &mut their_outputs);
                let want = reference::read(bytes, &mut [9; 2], &mut [9; 1]);
                let (refused, place) = want.unwrap_err();
                assert_eq!(answer, (refused, words(&[place])));
                assert_eq!((ours, their_outputs), ([9; 2], [9; 1]));
            }
        }
    }
    assert!(read > 1000, "{read}");
}

/// Worked example A's file, and the small examples of refusals.
#[test]
fn examples() {
    let a = Chain {
        p: 2,
        steps: vec![2, 1, 3, 3, 4, 1],
        outputs: vec![5],
    };
    let file = [0x11, 0x00, 0x00, 0x34, 0x5b, 0x86, 0x80];
    assert_eq!(
        same_write(&a, &[9; 8]).1,
        [0x11, 0x00, 0x00, 0x34, 0x5b, 0x86, 0x80, 9]
    );
    let lent = [[9; 7], [8; 7]];
    let read = |bytes: &[u8]| same_read(bytes, &lent[0], &lent[1][..2]);
    assert_eq!(read(&file), Ok(vec![2, 1, 3, 1, 2]));
    assert_eq!(read(&[]), Err((6, 0)));
    assert_eq!(read(&[0x20, 0, 0, 0]), Err((7, 0)));
    assert_eq!(
        read(&[0x11, 0x00, 0x00, 0x34, 0x5b, 0x86, 0x81]),
        Err((8, 0))
    );
    assert_eq!(read(&[0x10, 0x03, 0xe8, 0x10]), Err((4, 0)));
    assert_eq!(same_read(&file, &[9; 5], &[9]), Err((5, 0)));
    assert_eq!(same_read(&file, &[9; 6], &[]), Err((5, 0)));
}

/// The longest file.
#[test]
fn longest() {
    let c = legal_chain(
        &mut Random(24),
        MOST_COLUMNS,
        MOST_PAYSLIPS,
        EDITION_STEPS,
        true,
    );
    assert_eq!(file_of(&c).len(), reference::LONGEST_FILE);
    assert_eq!(
        same_write(&c, &vec![7; reference::LONGEST_FILE]).0,
        Ok(vec![56_116])
    );
}
