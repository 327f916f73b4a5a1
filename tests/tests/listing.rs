//! The listing, as a function and as the program, against the reference.
use spoutbasket::LONGEST_LISTING;
use spoutbasket_tests::command::lister;
use spoutbasket_tests::ffi;
use spoutbasket_tests::random::{legal_chain, Chain, Random};
use spoutbasket_tests::reference::{
    self, EDITION_STEPS, LONGEST_FILE, MOST_COLUMNS, MOST_PAYSLIPS,
};
use std::process::Command;

fn file_of(chain: &Chain) -> Vec<u8> {
    let mut bytes = vec![0; LONGEST_FILE];
    let written = reference::write(chain.p, &chain.steps, &chain.outputs, &mut bytes).unwrap();
    bytes.truncate(written[0] as usize);
    bytes
}

/// The largest sheet that a listing can have to show: each of its amounts has ten digits.
fn largest() -> Chain {
    let (p, q) = (MOST_COLUMNS, MOST_PAYSLIPS);
    let amounts = vec![u32::MAX - 1; p * q];
    let (steps, outputs) = reference::make(p, q, &amounts, 3, 4);
    let steps = steps.iter().flat_map(|&(a, b)| [a, b]).collect();
    Chain { p, steps, outputs }
}

/// Files good and bad: chains with small and with large exponents, damaged, cut, too long.
fn files() -> Vec<Vec<u8>> {
    let mut r = Random(47);
    let mut all = vec![
        vec![],
        vec![0x11, 0, 0, 0x34, 0x5B, 0x86, 0x80],
        vec![0x11, 0, 0, 0x34, 0x5B, 0x86, 0x81],
        vec![0x20, 0, 0, 0],
        vec![0x10, 0x03, 0xFF, 0xF0],
        vec![0x10; LONGEST_FILE],
        vec![0x10; LONGEST_FILE + 1],
        vec![0x10; 100_000],
        file_of(&largest()),
    ];
    for _ in 0..3000 {
        let (p, q) = (r.within(1, MOST_COLUMNS), r.within(1, MOST_PAYSLIPS));
        let n = r.pick(&[0, 1, 5, 40, 400]);
        let slow = !r.one_in(4);
        let mut bytes = file_of(&legal_chain(&mut r, p, q, n, slow));
        match r.below(10) {
            0 => {
                let at = r.below(bytes.len());
                bytes[at] ^= 1 << r.below(8);
            }
            1 => bytes.truncate(r.below(bytes.len())),
            2 => bytes.push(0),
            _ => {}
        }
        all.push(bytes);
    }
    all
}

#[test]
fn every_cell_of_the_text() {
    let mut seen = std::collections::BTreeMap::new();
    let mut text = Box::new([0; LONGEST_LISTING]);
    for (i, bytes) in files().iter().enumerate() {
        text.fill(i as u8);
        let length = ffi::list(bytes, &mut text).unwrap()[0] as usize;
        let expected = reference::listing(bytes);
        assert_eq!(String::from_utf8_lossy(&text[..length]), expected);
        assert!(text[length..].iter().all(|&cell| cell == i as u8));
        let kind = expected.split_whitespace().take(2).collect::<Vec<_>>();
        let kind = if kind[0] == "refused" {
            kind[1]
        } else {
            "listed"
        };
        *seen.entry(kind.to_string()).or_insert(0) += 1;
    }
    for kind in ["listed", "4", "6", "7", "8", "9", "10", "11", "12", "13"] {
        assert!(seen.contains_key(kind), "no file was {kind}: {seen:?}");
    }
}

#[test]
fn the_largest_listing() {
    let text = reference::listing(&file_of(&largest()));
    assert_eq!(text.lines().count(), 65);
    // payslips 1 to 9 have one digit less than the room that is asked for
    let first_line = text.lines().next().unwrap().len() + 1;
    assert_eq!(
        text.len() - first_line,
        LONGEST_LISTING - format!("{MOST_COLUMNS} {MOST_PAYSLIPS} {EDITION_STEPS}\n").len() - 9
    );
}

#[test]
fn the_program() {
    for bytes in files().iter().take(60) {
        let expected = reference::listing(bytes);
        assert_eq!(lister(bytes).done(), expected);
    }
}

/// What breaks the program's reading or writing is said on standard error, and nothing is listed; it ends with status 1.
#[test]
fn what_breaks_the_program() {
    let program = concat!(env!("CARGO_MANIFEST_DIR"), "/../crates/lister/out/lister");
    for (script, line) in [
        ("\"$0\" < .", "standard input: Is a directory\n"),
        (
            "\"$0\" > /dev/full < \"$0\"",
            "standard output: No space left on device\n",
        ),
    ] {
        let ended = Command::new("sh")
            .args(["-c", script, program])
            .output()
            .unwrap();
        let told = String::from_utf8(ended.stderr).unwrap();
        assert_eq!((&ended.stdout[..], told.as_str()), (&b""[..], line));
        assert_eq!(ended.status.code(), Some(1));
    }
}
