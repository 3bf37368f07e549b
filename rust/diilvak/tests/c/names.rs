//! Names with their numbers, read off source files and headers.
use super::read;
use std::collections::BTreeMap;

pub type Numbers = BTreeMap<String, i64>;

/// Adds a number to those of `file`; a name that comes twice is an error.
pub fn add(numbers: &mut Numbers, file: &str, name: &str, value: &str) {
    let digits = value.trim_matches(['(', ')']).replace('_', "");
    let number = digits.parse().unwrap_or_else(|_| panic!("{file}: {name} is {value}"));
    assert_eq!(numbers.insert(name.to_string(), number), None, "{file}: {name} comes twice");
}

/// The constants of source files, Rattle's or Rust's: `const NAME: TYPE = VALUE;`.
pub fn constants(files: &[&str]) -> Numbers {
    let mut numbers = Numbers::new();
    for file in files {
        for line in read(file).lines() {
            let line = line.trim();
            let open = ["pub ", "pub(crate) "].iter().find_map(|word| line.strip_prefix(word));
            let rest = open.unwrap_or(line).strip_prefix("const ");
            let parts = rest.and_then(|rest| rest.split_once(": "));
            if let Some((name, rest)) = parts {
                let (_, value) = rest.split_once(" = ").expect("a constant has a value");
                let value = value.strip_suffix(';').expect("on one line");
                add(&mut numbers, file, name, value);
            }
        }
    }
    assert!(!numbers.is_empty(), "{files:?}");
    numbers
}

/// The cases of an enum in a source file, with their numbers: `Name = NUMBER,` after its first line.
pub fn cases(file: &str, first_line: &str) -> Numbers {
    let source = read(file);
    let (_, after) = source.split_once(&format!("{first_line}\n")).expect(first_line);
    let (inside, _) = after.split_once("\n}").expect("an enum has an end");
    let mut numbers = Numbers::new();
    for line in inside.lines() {
        let (name, value) = line.trim().split_once(" = ").expect("each case has a number");
        let value = value.strip_suffix(',').expect("and a comma");
        add(&mut numbers, file, &upper(name), value);
    }
    numbers
}

/// The numbers of headers' macros, by their names after `DIILVAK_`. Those without a number guard a header.
pub fn macros(headers: &[&str]) -> Numbers {
    let mut numbers = Numbers::new();
    for header in headers {
        for line in read(header).lines() {
            let mut words = line.strip_prefix("#define DIILVAK_").unwrap_or("").split(' ');
            match (words.next(), words.next()) {
                (Some("H" | "BOOK_H" | "METER_H" | ""), None) => {}
                (Some(name), Some(value)) => add(&mut numbers, header, name, value),
                (name, value) => panic!("a macro {name:?} with {value:?}"),
            }
        }
    }
    numbers
}

/// The numbers in the first column of a header's table, which stands under one heading and before the next.
pub fn first_column(header: &str, under: &str, before: &str) -> Vec<i64> {
    let header = read(header);
    let (_, after) = header.split_once(&format!(" * {under}\n")).expect(under);
    let (paragraph, _) = after.split_once(&format!(" * {before}\n")).expect(before);
    let rows = paragraph.lines().filter_map(|line| line.strip_prefix(" *     "));
    rows.filter_map(|row| row.split(' ').next()?.parse().ok()).collect()
}

/// The macros of some kind, each taken out of the rest.
pub fn taken(rest: &mut Numbers, kind: impl Fn(&str) -> bool) -> Numbers {
    let all = std::mem::take(rest);
    let (found, others) = all.into_iter().partition(|(name, _)| kind(name));
    *rest = others;
    found
}

/// `NO_PATH` of `NoPath`.
fn upper(name: &str) -> String {
    let mut upper = String::new();
    for letter in name.chars() {
        if letter.is_uppercase() && !upper.is_empty() {
            upper.push('_');
        }
        upper.push(letter.to_ascii_uppercase());
    }
    upper
}

/// The name of an enum's case, without the values in it.
pub fn case(shown: impl std::fmt::Debug) -> String {
    let shown = format!("{shown:?}");
    upper(shown.split([' ', '(']).next().unwrap())
}
