//! What the header and the pages say, against the library.
use spoutbasket::{Reason, TextReason};
use spoutbasket_tests::header;
use spoutbasket_tests::sources::text;
use std::collections::BTreeMap;

#[test]
fn version() {
    let numbers = header::numbers();
    let [major, minor, patch] =
        ["VERSION_MAJOR", "VERSION_MINOR", "VERSION_PATCH"].map(|name| numbers[name]);
    let version = format!("{major}.{minor}.{patch}");
    assert_eq!(version, spoutbasket::VERSION);
    let line = format!("#define SPOUTBASKET_VERSION \"{version}\"");
    assert!(header::text().lines().any(|other| other == line));
}

/// Every limit of the header is the wrapper's.
#[test]
fn limits() {
    let numbers = header::numbers();
    for (name, number) in [
        ("MOST_COLUMNS", spoutbasket::MOST_COLUMNS),
        ("MOST_PAYSLIPS", spoutbasket::MOST_PAYSLIPS),
        ("MOST_STEPS", spoutbasket::MOST_STEPS),
        ("MOST_STEPS_EDITION_1", spoutbasket::MOST_STEPS_EDITION_1),
        ("MOST_VALUES", spoutbasket::MOST_VALUES),
        ("MOST_VALUES_EDITION_1", spoutbasket::MOST_VALUES_EDITION_1),
        ("LONGEST_FILE", spoutbasket::LONGEST_FILE),
        ("LONGEST_LISTING", spoutbasket::LONGEST_LISTING),
        ("LONGEST_PHRASE", spoutbasket::LONGEST_PHRASE),
        ("FIELD_BYTES", spoutbasket::FIELD_BYTES),
    ] {
        assert_eq!(numbers.get(name), Some(&number), "{name}");
    }
}

/// The library's words for every number that it has words for.
fn phrases() -> BTreeMap<u32, &'static str> {
    let none = Reason::from(0).phrase();
    let known = |&number: &u32| Reason::from(number).phrase() != none;
    let phrases: BTreeMap<u32, &str> = (0..256)
        .filter(known)
        .map(|number| (number, Reason::from(number).phrase()))
        .collect();
    assert!(phrases.keys().copied().eq((1..=20).chain(101..=107)));
    phrases
}

/// The comment at each number of the header's two enums is the library's phrase.
#[test]
fn phrases_of_the_header() {
    let mut seen = BTreeMap::new();
    for line in header::text().lines() {
        let line = line.trim();
        if line.starts_with("SPOUTBASKET_REFUSED_") || line.starts_with("SPOUTBASKET_FAULT_") {
            let (_, rest) = line.split_once(" = ").unwrap();
            let (number, comment) = rest.split_once("/*").unwrap();
            let number: u32 = number.trim().trim_end_matches(',').parse().unwrap();
            let phrase = comment.strip_suffix("*/").unwrap().trim();
            assert_eq!(seen.insert(number, phrase.to_string()), None, "{number}");
        }
    }
    let wanted: BTreeMap<u32, String> = phrases()
        .into_iter()
        .map(|(number, phrase)| (number, phrase.to_string()))
        .collect();
    assert_eq!(seen, wanted);
}

/// The rows of a page's table of phrases by number: the cell behind each number.
fn table_of(page: &str) -> BTreeMap<u32, String> {
    let page = text(page);
    let lines = page.lines();
    let table = lines.skip_while(|line| !line.starts_with("| number | phrase"));
    let rows = table.skip(2).take_while(|line| line.starts_with('|'));
    rows.filter_map(|row| {
        let cells: Vec<&str> = row.split('|').map(str::trim).collect();
        // a row for all other numbers has none
        let number = cells[1].parse().ok()?;
        Some((number, cells[2].to_string()))
    })
    .collect()
}

/// The tables of phrases have a row for each number, with the library's phrase; the manual's may say more behind it.
#[test]
fn phrases_of_the_pages() {
    let phrases = phrases();
    for page in ["docs/MANUAL.md", "docs/SPEC.md"] {
        let rows = table_of(page);
        assert!(rows.keys().eq(phrases.keys()), "{page}: {:?}", rows.keys());
        for (number, phrase) in &phrases {
            let row = &rows[number];
            assert!(
                row.starts_with(phrase),
                "{page}, {number}: {row}, not {phrase}"
            );
        }
    }
}

/// The words for a text's faults are the library's, and every fault has some.
#[test]
fn phrases_of_faults() {
    let phrases = phrases();
    for number in [1, 5].into_iter().chain(101..=107) {
        let reason = TextReason::from(number);
        assert_eq!(reason.number(), number);
        assert!(!matches!(reason, TextReason::Other(_)), "{number}");
        assert_eq!(reason.phrase(), phrases[&number]);
    }
    assert_eq!(TextReason::from(108), TextReason::Other(108));
}
