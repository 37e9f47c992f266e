//! Covers: entry and find, beside the independent implementation, and beside asking each recording.

use super::folder::Folder;
use super::json;
use crate::support::random::Random;
use crate::support::recordings;
use reference::recording::bytes;

#[test]
fn entries_of_r1_and_r2() {
    let folder = Folder::with_recordings("entry");
    folder.mill(&["entry", "r1.rec", "r2.rec"]).answers(
        "\
number  first_time  last_time  greatest_a  least_a  greatest_b  least_b  tops_a  tops_b  recording
     0           0         70          90       30          50       50       2       0  r1.rec
     1           0         80          10        2           0        0       1       0  r2.rec
",
    );
    folder.mill(&["entry", "--json", "r2.rec"]).answers(
        "{\"entries\":[{\"first_time\":0,\"last_time\":80,\"greatest_a\":10,\"least_a\":2,\"greatest_b\":0,\"least_b\":0,\"tops_a\":1,\
         \"tops_b\":0,\"recording\":\"r2.rec\"}]}\n",
    );
    folder.mill(&["entry", "-o", "tins", "r1.rec", "r2.rec"]).answers("entries 2\n");
    folder.mill(&["entry", "--json", "-o", "one", "r1.rec"]).answers("{\"entries\":1}\n");
    let tins = folder.read("tins").unwrap();
    let entries = ["r1.rec", "r2.rec"].map(|name| mill::entry(&folder.read(name).unwrap()).unwrap().to_bytes());
    assert_eq!(tins[32..96], *entries.as_flattened());
    assert_eq!(folder.read("one").unwrap()[32..64], entries[0]);
    folder.mill(&["find", "A", "10", "tins"]).answers("0 r1.rec\n1 r2.rec\n");
    folder.mill(&["find", "A", "11", "tins"]).answers("0 r1.rec\n");
    folder.mill(&["find", "A", "91", "tins"]).answers("");
    folder.mill(&["find", "B", "-5", "--json", "tins"]).answers("{\"found\":[0,1],\"names\":[\"r1.rec\",\"r2.rec\"]}\n");
    folder.mill(&["find", "B", "51", "--json", "tins"]).answers("{\"found\":[],\"names\":[]}\n");
    folder.mill_reads(&["find", "B", "50", "-"], &tins).answers("0 r1.rec\n");
    // Bare entries, as summaries were before.
    folder.mill(&["entry", "--raw", "-o", "bare", "r1.rec", "r2.rec"]).answers("entries 2\n");
    assert_eq!(folder.read("bare").as_deref(), Some(entries.as_flattened()));
    folder.mill(&["find", "--raw", "A", "10", "bare"]).answers("0\n1\n");
    folder.mill(&["find", "--raw", "--json", "A", "10", "bare"]).answers("{\"found\":[0,1]}\n");
    // Kept readings give the same entry.
    assert_eq!(folder.mill(&["thin", "r2.rec", "-o", "kept.rec"]).status, Some(0));
    let [full, kept] = ["r2.rec", "kept.rec"].map(|name| folder.mill(&["entry", "--json", name]).text().replace(name, ""));
    assert_eq!(full, kept);
}

#[test]
fn what_is_refused() {
    let folder = Folder::with_recordings("entry_refused");
    folder.put("tins", b"old");
    folder.mill(&["entry", "-o", "tins", "r1.rec", "empty.rec"]).troubles("empty.rec: is empty: neither a recording nor a tin");
    folder.mill(&["entry", "-o", "tins", "r1.rec", "bad.rec", "short.rec"]).refused("bad.rec", 3, 2);
    folder.mill(&["entry", "-o", "tins", "r1.rec", "none.rec"]).troubles("none.rec: No such file or directory");
    folder.mill(&["entry"]).troubles_with("RECORDING is missing");
    folder.mill(&["find", "--raw", "A", "5", "tins"]).refused("tins", 20, 0);
    for level in ["2000000001", "-2000000001", "99999999999999999999"] {
        folder.mill(&["find", "--raw", "A", level, "empty.rec"]).refused("empty.rec", 12, 0);
    }
    folder.mill(&["find", "C", "5", "tins"]).troubles_with("curve 'C' is neither A nor B");
    folder.mill(&["find", "A", "five", "tins"]).troubles_with("LEVEL 'five' is not a whole number");
    assert_eq!(folder.read("tins").as_deref(), Some(&b"old"[..]));
}

#[test]
fn a_summary_has_at_most_2048_entries() {
    let folder = Folder::with_recordings("entry_many");
    let names: Vec<String> = (0..2049).map(|number| format!("{number}.rec")).collect();
    for name in &names {
        folder.put(name, &folder.read("r1.rec").unwrap());
    }
    let mut words = vec!["entry", "-o", "tins"];
    words.extend(names[..2048].iter().map(String::as_str));
    folder.mill(&words).answers("entries 2048\n");
    let found = folder.mill(&["find", "A", "90", "tins"]);
    assert_eq!(found.text().lines().count(), 2048);
    words.push(&names[2048]);
    let tins = folder.read("tins");
    folder.mill(&[&words[..], &["--force"]].concat()).refused("", 20, 0);
    folder.mill(&["entry", "--append", "-o", "tins", "r2.rec"]).refused("", 20, 0);
    assert_eq!(folder.read("tins"), tins);
    folder.put("bare", &vec![0; 2049 * 32]);
    folder.mill(&["find", "--raw", "A", "90", "bare"]).refused("bare", 20, 0);
}

#[test]
fn what_is_found_is_what_asking_each_finds() {
    let folder = Folder::new("find_random");
    let names: Vec<String> = (0..30).map(|case| format!("{case}.rec")).collect();
    let mut greatest = Vec::new();
    for (case, name) in names.iter().enumerate() {
        let mut random = Random::of_case("tool find", case as u64);
        let count = 1 + random.below(60);
        let records = recordings::accepted(&mut random, count);
        folder.put(name, &bytes(&records));
        greatest.push([0, 1].map(|curve| records.iter().map(|record| record.value[curve]).max().unwrap()));
    }
    let words: Vec<&str> = ["entry", "-o", "tins"].into_iter().chain(names.iter().map(String::as_str)).collect();
    folder.mill(&words).answers("entries 30\n");
    let mut some = 0;
    for (curve, name) in ["A", "B"].into_iter().enumerate() {
        for level in greatest.iter().map(|both| both[curve]) {
            let ran = folder.mill(&["find", "--json", name, &level.to_string(), "tins"]);
            let expected: Vec<_> = (0..30).filter(|case| greatest[*case][curve] >= level).map(json::number).collect();
            assert_eq!(json::line(&ran.out).at("found").list(), expected, "{name} {level}");
            some += usize::from(expected.len() < 30);
        }
    }
    assert!(some > 20, "{some} lists have not all");
}

/// What `find` is given by mistake: a recording is an even number of bare entries, often enough.
#[test]
fn what_is_no_summary_is_named() {
    let folder = Folder::with_recordings("no_summary");
    let line = "is no summary: 'mill entry -o' writes one; --raw reads bare entries";
    folder.mill(&["find", "A", "5", "r1.rec"]).troubles(&format!("r1.rec: {line}"));
    folder.mill(&["thin", "-o", "tin", "r2.rec"]).answers("readings 9\nkept     6\n");
    for name in ["tin", "empty.rec"] {
        folder.mill(&["find", "A", "5", name]).troubles(&format!("{name}: {line}"));
    }
    folder.mill(&["entry", "-o", "tins", "r1.rec"]).answers("entries 1\n");
    folder.mill(&["find", "--raw", "A", "5", "tins"]).troubles("tins: is a summary with names: leave --raw out");
    // Nor is a tin read as bare entries, nor either of them with a damaged magic word, whatever its length.
    for (name, line) in [("tin", "is a tin, and no summary"), ("tins", "is a summary with names: leave --raw out")] {
        let whole = folder.read(name).unwrap();
        for bit in 0..128 {
            let mut flipped = whole.clone();
            flipped[bit / 8] ^= 1 << (bit % 8);
            flipped.truncate(flipped.len() / 32 * 32);
            folder.put("flipped", &flipped);
            folder.mill(&["find", "--raw", "A", "5", "flipped"]).troubles(&format!("flipped: {line}"));
        }
        folder.mill(&["find", "--raw", "A", "5", name]).troubles(&format!("{name}: {line}"));
    }
    for words in [&["ask", "high(A)", "tins"][..], &["show", "tins"], &["add", "kept", "tins"], &["entry", "tins"]] {
        let ran = folder.mill(words);
        assert_ne!(ran.status, Some(0), "mill {}", ran.words);
    }
    folder.mill(&["ask", "high(A)", "tins"]).troubles("tins: is a summary, and no recording");
    let mut damaged = folder.read("tins").unwrap();
    damaged[40] ^= 1;
    folder.put("tins", &damaged);
    folder.mill(&["find", "A", "5", "tins"]).troubles("tins: is a damaged summary");
    folder.mill(&["entry", "--append", "-o", "tins", "r2.rec"]).troubles("tins: is a damaged summary");
    assert_eq!(folder.read("tins"), Some(damaged));
}

#[test]
fn entries_are_added_by_their_names() {
    let folder = Folder::with_recordings("append");
    folder.mill(&["entry", "--append", "-o", "tins", "r2.rec"]).answers("entries 1\n");
    folder.mill(&["entry", "--append", "-o", "tins", "r1.rec", "r3.rec"]).answers("entries 3\n");
    folder.mill(&["find", "A", "10", "tins"]).answers("0 r2.rec\n1 r1.rec\n2 r3.rec\n");
    // A name that is there keeps its number and gets its new entry.
    folder.put("r2.rec", &folder.read("r1.rec").unwrap());
    folder.mill(&["entry", "--append", "--json", "-o", "tins", "r2.rec"]).answers("{\"entries\":3}\n");
    folder.mill(&["find", "A", "11", "tins"]).answers("0 r2.rec\n1 r1.rec\n");
    // The same as if all were named again.
    folder.mill(&["entry", "-o", "all", "r2.rec", "r1.rec", "r3.rec"]).answers("entries 3\n");
    assert_eq!(folder.read("all"), folder.read("tins"));
    folder.mill(&["entry", "--append", "r1.rec"]).troubles_with("--append and --raw want a summary, with -o");
    folder.mill(&["entry", "--append", "--raw", "-o", "tins", "r1.rec"]).troubles_with("--append goes with no --raw");
    folder.mill(&["entry", "--append", "-o", "r1.rec", "r2.rec"]).troubles_with("r1.rec: is no summary");
}

/// Each name once, however a summary is written; bare entries have no names.
#[test]
fn a_name_is_in_a_summary_once() {
    let folder = Folder::with_recordings("names_once");
    folder.mill(&["entry", "-o", "tins", "r1.rec", "./r1.rec", "r1.rec", "r2.rec"]).answers("entries 3\n");
    folder.mill(&["find", "A", "10", "tins"]).answers("0 r1.rec\n1 ./r1.rec\n2 r2.rec\n");
    folder.mill(&["entry", "--append", "-o", "tins", "r1.rec"]).answers("entries 3\n");
    folder.mill(&["entry", "--raw", "-o", "bare", "r1.rec", "r1.rec"]).answers("entries 2\n");
}

/// The names that `add` uses are none of a summary: the next `add` would take it away, or a tin would seem to have other marks.
#[test]
fn what_add_keeps_is_not_added_to() {
    let folder = Folder::with_recordings("append_of_add");
    folder.mill(&["add", "tin", "r2.rec"]).answers("taken 9\nheld  6\n");
    folder.put("pair", &folder.kept("tin").unwrap());
    folder.put("pair.marks", b"mill marks\n");
    let there = folder.names();
    for name in ["tin.mill-new", "tin.marks", "tin.lock", "pair", "pair.marks", "pair.lock"] {
        let append = folder.mill(&["entry", "--append", "-o", name, "r1.rec"]);
        append.troubles_with(": only 'mill add' writes it");
        assert_eq!(folder.mill(&["entry", "--force", "-o", name, "r1.rec"]).err, append.err);
        assert_eq!(folder.names(), there, "{name}");
    }
    // Only names: nothing that is kept stands there.
    folder.mill(&["entry", "--append", "-o", "other.marks", "r1.rec"]).answers("entries 1\n");
}

/// Each waits for the one before it.
#[test]
fn entries_added_at_once_are_all_there() {
    let folder = Folder::with_recordings("append_at_once");
    let names: Vec<String> = (0..12).map(|number| format!("{number}.rec")).collect();
    for name in &names {
        folder.put(name, &folder.read("r1.rec").unwrap());
    }
    let runs: Vec<_> = names
        .iter()
        .map(|name| {
            folder.command(std::path::Path::new(super::folder::MILL), &["entry", "--append", "-o", "tins", name]).spawn().unwrap()
        })
        .collect();
    for run in runs {
        assert_eq!(super::folder::Ran::of(run, &["entry"]).status, Some(0));
    }
    assert_eq!(folder.mill(&["find", "A", "10", "tins"]).text().lines().count(), 12);
}
