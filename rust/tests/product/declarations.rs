//! Covers: that the calls of `include/mill.h`, those of `src/sys.rs` and the exported functions of the proved library are the
//! same, parameter by parameter, name and type; and that a difference is seen.

use crate::support::header;

const RUST: &str = include_str!("../../mill/src/sys.rs");
const RATTLE: &str = include_str!("../../../crates/mill/src/lib.rt");

/// A call: its name, its parameters as names and types, what it returns.
#[derive(Clone, PartialEq, Eq, Debug)]
struct Call {
    name: String,
    parameters: Vec<(String, String)>,
    returned: String,
}

/// A type of C, and what it is in Rust.
const IN_RUST: [(&str, &str); 11] = [
    ("size_t", "usize"),
    ("uint32_t", "u32"),
    ("uint64_t", "u64"),
    ("int64_t", "i64"),
    ("const uint8_t *", "*const u8"),
    ("uint8_t *", "*mut u8"),
    ("uint32_t *", "*mut u32"),
    ("uint64_t *", "*mut u64"),
    ("int32_t *", "*mut i32"),
    ("int64_t *", "*mut i64"),
    ("double *", "*mut f64"),
];

/// A type of Rattle, and what it may be in C. A slice is a pointer with a length behind it; 64 bits may stand for a double, and
/// 32 bits for a signed number.
const IN_C: [(&str, &[&str]); 10] = [
    ("u32", &["uint32_t"]),
    ("u64", &["uint64_t"]),
    ("i64", &["int64_t"]),
    ("&[u8]", &["const uint8_t *"]),
    ("&mut [u8]", &["uint8_t *"]),
    ("&mut [u32]", &["uint32_t *"]),
    ("&mut u32", &["uint32_t *", "int32_t *"]),
    ("&mut u64", &["uint64_t *", "double *"]),
    ("&mut i32", &["int32_t *"]),
    ("&mut i64", &["int64_t *"]),
];

/// A parameter's name in Rattle, and what it is in C and in Rust where that is another.
const NAMED: [(&str, &str); 2] = [("rec", "recording"), ("s", "text")];

// ---- reading declarations

/// The text without what stands between `from` and `to`.
fn without(text: &str, from: &str, to: &str) -> String {
    let mut pieces = text.split(from);
    let first = pieces.next().unwrap().to_string();
    pieces.fold(first, |kept, piece| kept + " " + piece.split_once(to).expect(to).1)
}

/// The text without the comments of C, or of Rust and Rattle.
fn c_code(text: &str) -> String {
    without(text, "/*", "*/")
}

fn code(text: &str) -> String {
    without(text, "//", "\n")
}

/// The words of a text, one blank between them.
fn words(text: &str) -> String {
    text.split_whitespace().collect::<Vec<_>>().join(" ")
}

/// `name(parameters)`, each parameter told by `one`.
fn call(name: &str, parameters: &str, returned: &str, one: impl Fn(&str) -> (String, String)) -> Call {
    let each = parameters.split(',').map(words).filter(|parameter| !matches!(parameter.as_str(), "" | "void"));
    Call { name: words(name), parameters: each.map(|parameter| one(&parameter)).collect(), returned: words(returned) }
}

/// `name: type`.
fn named(parameter: &str) -> (String, String) {
    let (name, kind) = parameter.split_once(": ").expect(parameter);
    (name.into(), kind.into())
}

/// `type name` in C.
fn typed(declared: &str) -> (String, String) {
    let at = declared.rfind(|c: char| !c.is_ascii_alphanumeric() && c != '_').expect(declared) + 1;
    (declared[at..].into(), declared[..at].trim_end().into())
}

/// The declarations of a C header, which has nothing else outside its comments and directives but functions `static inline`.
fn in_c(text: &str) -> Vec<Call> {
    let code = without(&c_code(text), "static inline ", "\n}\n");
    let code: Vec<&str> = code.lines().filter(|line| !line.starts_with('#')).collect();
    let code = code.join("\n").replacen("extern \"C\" {", "", 1).replacen('}', "", 1);
    let declarations = code.split(';').filter(|declaration| !declaration.trim().is_empty());
    declarations
        .map(|declaration| {
            let (head, parameters) = declaration.split_once('(').expect(declaration);
            let (name, returned) = typed(&words(head));
            call(&name, parameters.trim_end().strip_suffix(')').expect(declaration), &returned, typed)
        })
        .collect()
}

/// The functions of a Rust file's `extern "C"` block.
fn in_rust(text: &str) -> Vec<Call> {
    let code = code(text);
    let blocks: Vec<&str> = code.split("extern \"C\" {").skip(1).collect();
    assert_eq!(blocks.len(), 1, "one block");
    let block = blocks[0].split('}').next().unwrap();
    let declarations = block.split(';').filter(|declaration| !declaration.trim().is_empty());
    declarations
        .map(|declaration| {
            let (head, rest) = declaration.split_once('(').expect(declaration);
            let name = words(head);
            let (parameters, returned) = rest.split_once(") ->").expect(declaration);
            call(name.trim_start_matches("pub ").strip_prefix("fn ").expect(declaration), parameters, returned, named)
        })
        .collect()
}

/// The exported functions of a Rattle file.
fn in_rattle(text: &str) -> Vec<Call> {
    let code = code(text);
    let functions: Vec<&str> = code.split("#[unsafe(no_mangle)]").skip(1).collect();
    assert_eq!(functions.len(), code.matches("extern \"C\"").count(), "each is exported by its name");
    functions
        .iter()
        .map(|function| {
            let (head, rest) = function.split_once('(').expect(function);
            let name = words(head);
            let (parameters, rest) = rest.split_once(") ->").expect(function);
            let returned = rest.split_whitespace().next().expect(function);
            call(name.strip_prefix("pub extern \"C\" fn ").expect(function), parameters, returned, named)
        })
        .collect()
}

// ---- comparing them

fn other(table: &[(&'static str, &'static str)], one: &str) -> Option<&'static str> {
    table.iter().find(|row| row.0 == one).map(|row| row.1)
}

/// A call of C as Rust declares it.
fn as_rust(call: &Call) -> Call {
    let kind = |kind: &str| other(&IN_RUST, kind).unwrap_or("no type of the table").to_string();
    let parameters = call.parameters.iter().map(|(name, c)| (name.clone(), kind(c))).collect();
    Call { name: call.name.clone(), parameters, returned: kind(&call.returned) }
}

/// The parameters of a function of Rattle as C passes them: each name with the types that it may have.
fn passed(function: &Call) -> Vec<(String, &'static [&'static str])> {
    let mut passed = Vec::new();
    for (name, kind) in &function.parameters {
        let name = other(&NAMED, name).unwrap_or(name);
        let types = IN_C.iter().find(|row| row.0 == kind).map_or(&[][..], |row| row.1);
        passed.push((name.to_string(), types));
        if kind.ends_with(']') {
            passed.push((format!("{name}_len"), &["size_t"][..]));
        }
    }
    passed
}

/// True where a declaration in C fits a function of Rattle.
fn fits(declared: &Call, function: &Call) -> bool {
    let passed = passed(function);
    let returned = IN_C.iter().find(|row| row.0 == function.returned);
    declared.name == function.name
        && declared.parameters.len() == passed.len()
        && declared.parameters.iter().zip(&passed).all(|(one, two)| one.0 == two.0 && two.1.contains(&one.1.as_str()))
        && returned.is_some_and(|row| row.1.contains(&declared.returned.as_str()))
}

fn by_name(mut calls: Vec<Call>) -> Vec<Call> {
    calls.sort_by(|one, two| one.name.cmp(&two.name));
    calls
}

/// What differs between the declarations of a header, those of Rust and the exported functions.
fn differences(header: &str, rust: &str, rattle: &str) -> Vec<String> {
    let [header, rust, rattle] = [in_c(header), in_rust(rust), in_rattle(rattle)].map(by_name);
    let mut found = Vec::new();
    if (header.len(), header.len()) != (rust.len(), rattle.len()) || header.is_empty() {
        found.push(format!("{} calls in C, {} in Rust, {} in Rattle", header.len(), rust.len(), rattle.len()));
    }
    for (i, declared) in header.iter().enumerate() {
        if rust.get(i) != Some(&as_rust(declared)) {
            found.push(format!("in C:    {declared:?}\nin Rust: {:?}", rust.get(i)));
        }
        if !rattle.get(i).is_some_and(|function| fits(declared, function)) {
            found.push(format!("in C:      {declared:?}\nin Rattle: {:?}", rattle.get(i)));
        }
    }
    found
}

#[test]
fn the_declarations_are_the_same() {
    let found = differences(header::TEXT, RUST, RATTLE);
    assert!(found.is_empty(), "{}", found.join("\n"));
    let calls: Vec<String> = in_c(header::TEXT).into_iter().map(|call| call.name).collect();
    let of_laboratory = ["mill_lab_question", "mill_lab_degree", "mill_lab_pair"];
    assert_eq!(calls[..6], ["mill_question", "mill_degree", "mill_pair", "mill_thin", "mill_band", "mill_order"]);
    assert_eq!(calls[6..9], of_laboratory);
    assert_eq!(calls[9..11], ["mill_report_start", "mill_report_add"]);
    assert_eq!(calls[11..16], ["mill_live_start", "mill_live_add", "mill_live_save", "mill_live_restore", "mill_live_kept"]);
    assert_eq!(calls[16..], ["mill_entry", "mill_find", "mill_live_entry", "mill_assured", "mill_version"]);
}

/// The libraries that open a layer to the tests are declared in Rust alone.
#[test]
fn the_layers_are_declared_as_they_are() {
    for (rust, rattle) in [
        (include_str!("../../runset/src/lib.rs"), include_str!("../../../crates/runset_c/src/lib.rt")),
        (include_str!("../../text/src/lib.rs"), include_str!("../../../crates/text_c/src/lib.rt")),
    ] {
        let [rust, rattle] = [in_rust(rust), in_rattle(rattle)].map(by_name);
        assert_eq!(rust.len(), rattle.len());
        for (declared, function) in rust.iter().zip(&rattle) {
            let c = |kind: &str| IN_RUST.iter().find(|row| row.1 == kind).expect(kind).0.to_string();
            let parameters = declared.parameters.iter().map(|(name, kind)| (name.clone(), c(kind))).collect();
            let in_c = Call { name: declared.name.clone(), parameters, returned: c(&declared.returned) };
            assert!(fits(&in_c, function), "{declared:?}\n{function:?}");
        }
    }
}

/// The code with one change.
#[track_caller]
fn changed(code: &str, old: &str, new: &str) -> String {
    let changed = code.replacen(old, new, 1);
    assert_ne!(changed, code, "'{old}' is not there");
    changed
}

#[test]
fn a_difference_in_c_is_seen() {
    let code = c_code(header::TEXT);
    for (old, new) in [
        ("uint64_t mill_pair(", "uint32_t mill_pair("),
        ("uint64_t mill_pair(", "uint64_t mill_pairs("),
        ("uint64_t mill_pair(", "uint64_t mill_two(uint32_t curve);\nuint64_t mill_pair("),
        ("uint32_t curve", "uint64_t curve"),
        ("uint32_t curve", "int32_t curve"),
        ("uint32_t curve, ", ""),
        ("uint32_t curve, int64_t target", "int64_t target, uint32_t curve"),
        ("uint32_t *earlier", "uint64_t *earlier"),
        ("uint32_t *earlier", "uint32_t earlier"),
        ("uint32_t *earlier", "const uint32_t *earlier"),
        ("uint32_t *earlier", "uint32_t *later"),
        ("double *degree", "float *degree"),
        ("double *degree", "uint64_t *degree"),
        ("const uint8_t *marks", "uint8_t *marks"),
        ("const uint8_t *marks", "const char *marks"),
        ("size_t marks_len", "uint32_t marks_len"),
        ("const uint8_t *marks, size_t marks_len", "size_t marks_len, const uint8_t *marks"),
        ("uint8_t *out, size_t", "const uint8_t *out, size_t"),
    ] {
        assert!(!differences(&changed(&code, old, new), RUST, RATTLE).is_empty(), "'{new}' for '{old}'");
    }
}

#[test]
fn a_difference_in_rust_is_seen() {
    let code = code(RUST);
    for (old, new) in [
        ("fn mill_thin(", "fn mill_thins("),
        ("curve: u32", "curve: u64"),
        ("curve: u32", "curve: i32"),
        ("earlier: *mut u32", "earlier: *mut u64"),
        ("earlier: *mut u32", "later: *mut u32"),
        ("degree: *mut f64", "degree: *mut u64"),
        ("degree: *mut f64", "degree: *mut f32"),
        ("marks: *const u8", "marks: *mut u8"),
        ("marks_len: usize", "marks_len: u32"),
        ("marks_len: usize,", ""),
        (") -> u64;", ") -> u32;"),
    ] {
        assert!(!differences(header::TEXT, &changed(&code, old, new), RATTLE).is_empty(), "'{new}' for '{old}'");
    }
}

#[test]
fn a_difference_in_rattle_is_seen() {
    let code = code(RATTLE);
    for (old, new) in [
        ("fn mill_thin(", "fn mill_thins("),
        ("curve: u32", "curve: u64"),
        ("target: i64", "target: u64"),
        ("earlier: &mut u32", "earlier: &mut u64"),
        ("earlier: &mut u32", "earlier: &u32"),
        ("earlier: &mut u32", "later: &mut u32"),
        ("degree: &mut u64", "degree: &mut u32"),
        ("degree: &mut u64", "degree: u64"),
        ("marks: &[u8]", "marks: &mut [u8]"),
        ("marks: &[u8]", "marks: &[u32]"),
        ("marks: &[u8], out: &mut [u8]", "out: &mut [u8], marks: &[u8]"),
        (") -> u64\n    ensures", ") -> u32\n    ensures"),
    ] {
        assert!(!differences(header::TEXT, RUST, &changed(&code, old, new)).is_empty(), "'{new}' for '{old}'");
    }
}
