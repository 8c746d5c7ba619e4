//! What the crate repeats: the names and numbers of include/vurelika.h, and the words of the launcher; and that
//! README has the refusals too.

use vurelika::{Refusal, COMPUTED, DEFAULTED, FILLED, FOLDED};
use vurelika_sys::{VURELIKA_CODES, VURELIKA_NEIGHBOURS};

const HEADER: &str = include_str!("../../../include/vurelika.h");
const WORDS: &str = include_str!("../../../host/vurelika/common/refusal.c");
const MODE_WORDS: &str = include_str!("../../../host/vurelika/common/request.c");
const HELP: &str = include_str!("../../../host/vurelika/shift.c");
const LAUNCHER: &str = include_str!("../../../vurelika");
const README: &str = include_str!("../../../README.md");

/// The modes, in the order of their numbers.
const MODES: [&str; 6] = [
    "CONSTANT",
    "MIRROR",
    "NEAREST",
    "REFLECT",
    "WRAP",
    "REPLICATE",
];

/// A refusal as the header has it: `OutputLength` is `OUTPUT_LENGTH`.
fn name(refusal: Refusal) -> String {
    let mut name = String::new();
    for letter in format!("{refusal:?}").chars() {
        if letter.is_uppercase() && !name.is_empty() {
            name.push('_');
        }
        name.push(letter.to_ascii_uppercase());
    }
    name
}

/// A line `VURELIKA_NAME = NUMBER` of the header's enums.
fn member(line: &str) -> Option<(String, u32)> {
    let (name, rest) = line.trim().strip_prefix("VURELIKA_")?.split_once(" = ")?;
    let number = rest.split(|sign: char| !sign.is_ascii_digit()).next()?;
    Some((name.into(), number.parse().ok()?))
}

/// Each name of a C file that stands between the two, with the text in quotes that follows it.
fn named_strings(file: &str, before: &str, after: char) -> Vec<(String, String)> {
    file.split(before)
        .skip(1)
        .map(|rest| {
            let name = rest.split(after).next().unwrap_or_default();
            let text = rest.split('"').nth(1).unwrap_or_default();
            (name.into(), text.into())
        })
        .collect()
}

#[test]
fn names_and_numbers() {
    let mut expected: Vec<(String, u32)> = MODES.map(String::from).into_iter().zip(0..).collect();
    expected.extend([("DONE".into(), 0), ("MODE".into(), 255)]);
    expected.extend(Refusal::ALL.map(|refusal| (name(refusal), refusal.number())));
    let codes = [
        ("COMPUTED", COMPUTED),
        ("FILLED", FILLED),
        ("DEFAULTED", DEFAULTED),
        ("FOLDED", FOLDED),
    ];
    assert_eq!(codes.len(), VURELIKA_CODES);
    expected.extend(codes.map(|(name, code)| (name.into(), code.into())));
    let members: Vec<_> = HEADER.lines().filter_map(member).collect();
    assert_eq!(members, expected);
}

#[test]
fn definitions() {
    for line in [
        format!("#define VURELIKA_VERSION \"{}\"", env!("CARGO_PKG_VERSION")),
        format!("#define VURELIKA_CODES {VURELIKA_CODES}"),
        format!("#define VURELIKA_NEIGHBOURS {VURELIKA_NEIGHBOURS}"),
    ] {
        assert!(
            HEADER.lines().any(|l| l == line),
            "vurelika.h has no {line}"
        );
    }
}

/// The launcher takes each mode by its name in small letters; its help and its complaint list them.
#[test]
fn mode_words() {
    let expected = MODES.map(|name| (name.to_string(), name.to_lowercase()));
    assert_eq!(named_strings(MODE_WORDS, "[VURELIKA_", ']'), expected);

    let [first @ .., last] = MODES.map(str::to_lowercase);
    let list = format!("{} or {last}", first.join(", "));
    assert!(MODE_WORDS.contains(&list), "request.c has no {list}");
    assert!(HELP.contains(&list), "shift.c has no {list}");
}

/// The launcher's meaning of each refusal, and no refusal that one of the two lacks.
#[test]
fn words() {
    let mut meanings = named_strings(WORDS, "case VURELIKA_", ':');
    meanings.retain(|(name, _)| name != "DONE" && name != "MODE");
    let expected = Refusal::ALL.map(|refusal| {
        let said = refusal.to_string();
        let meaning = said.strip_prefix(&format!("refusal {}: ", refusal.number()));
        (name(refusal), meaning.unwrap_or(&said).to_string())
    });
    assert_eq!(meanings, expected);
}

/// A refusal's number is the launcher's status, and README's table has each in the order of the checks.
#[test]
fn refusals_elsewhere() {
    let numbers = Refusal::ALL.map(Refusal::number);
    let statuses = format!("1 to {} a refusal", numbers.iter().max().unwrap());
    assert!(LAUNCHER.contains(&statuses), "vurelika has no {statuses}");

    let (_, table) = README.split_once("| Refusal |").expect("the table");
    let rows = table.lines().skip(2).map_while(|l| l.strip_prefix("| "));
    let listed: Vec<u32> = rows
        .map(|row| row.split(' ').next().unwrap_or_default().parse())
        .collect::<Result<_, _>>()
        .expect("a number in each row");
    assert_eq!(listed, numbers);
}
