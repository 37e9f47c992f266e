//! `include/mill.h` as it stands, and its named numbers.

use std::collections::BTreeMap;

pub const TEXT: &str = include_str!("../../../include/mill.h");

/// The named numbers of the header.
pub fn numbers() -> BTreeMap<String, i64> {
    let mut found = BTreeMap::new();
    for line in TEXT.lines().filter_map(|line| line.strip_prefix("#define MILL_")) {
        let mut words = line.split_whitespace();
        let (name, value) = (words.next().unwrap(), words.next());
        let number = value.and_then(|value| value.trim_matches(|c| c == '(' || c == ')').parse().ok());
        // `MILL_H` has no value, that of `MILL_VERSION` is a text, and some take a return value.
        match number {
            Some(number) => assert_eq!(found.insert(format!("MILL_{name}"), number), None, "{name} twice"),
            None => assert!(name == "H" || name == "VERSION" || name.ends_with("(returned)"), "{line}"),
        }
    }
    found
}

/// The version that the header names.
pub fn version() -> &'static str {
    let after = TEXT.split_once("\n#define MILL_VERSION \"").expect("a version").1;
    after.split_once("\"\n").expect("its end").0
}

/// The sentences of `mill_sentence`, one a line: those of the numbers from 0 on, then that of a number which is not known.
pub fn sentences() -> Vec<&'static str> {
    let body = TEXT.split_once("\nstatic inline const char *mill_sentence(uint32_t number)\n{\n").expect("the function").1;
    let body = body.split_once("\n}\n").expect("its end").0;
    body.lines().filter_map(|line| line.split_once('"')?.1.rsplit_once('"')).map(|(sentence, _)| sentence).collect()
}

/// The bytes of stack with which a call does, by the header: `QUESTION`, `DEGREE`, `LAB_PAIR` and so on.
pub fn stack(call: &str) -> usize {
    numbers()[&format!("MILL_STACK_{call}")].try_into().unwrap()
}
