//! The crate declares what the header does: each call with as many arguments, each constant with
//! its value.

const HEADER: &str = include_str!("../../../include/newaksu.h");
const CRATE: &str = include_str!("../src/lib.rs");

/// The text without white space, so that layout does not matter.
fn close(text: &str) -> String {
    text.split_whitespace().collect()
}

fn arguments(list: &str) -> usize {
    list.split(',')
        .filter(|argument| !argument.trim().is_empty() && argument.trim() != "void")
        .count()
}

#[test]
fn every_call_is_declared() {
    let mut calls = 0;
    for declaration in HEADER.split("\nuint32_t ").skip(1) {
        let (name, rest) = declaration.split_once('(').unwrap();
        let (list, _) = rest.split_once(')').unwrap();
        let declared = CRATE
            .split_once(&format!("pub fn {name}("))
            .unwrap_or_else(|| panic!("{name} is missing"))
            .1;
        let (ours, _) = declared.split_once(')').unwrap();
        assert_eq!(arguments(ours), arguments(list), "{name}");
        calls += 1;
    }
    assert_eq!(calls, CRATE.matches("    pub fn newaksu_").count());
}

#[test]
fn every_constant_has_its_number() {
    let crate_text = close(CRATE).replace('_', "");
    let mut constants = 0;
    for line in HEADER
        .lines()
        .filter(|line| line.starts_with("#define NEWAKSU_"))
    {
        let mut words = line.split_whitespace().skip(1);
        let (name, number) = (words.next().unwrap(), words.next().unwrap_or_default());
        if !number.ends_with('u') {
            continue;
        }
        let wanted =
            format!("pubconst{name}:u32={};", number.trim_end_matches('u')).replace('_', "");
        assert!(crate_text.contains(&wanted), "{name} {number}");
        constants += 1;
    }
    assert!(constants > 60);
}
