//! Covers: thin, its bytes and its file, beside the independent implementation.

use super::folder::Folder;
use super::json;
use super::tin::Tin;
use crate::support::r2::r2_bytes;
use crate::support::random::Random;
use crate::support::recordings;
use reference::kept::mark_bytes;
use reference::recording::bytes;

#[test]
fn the_kept_readings_are_the_answer_or_a_file() {
    let folder = Folder::with_recordings("thin");
    let kept = reference::thin(&r2_bytes(), &[], 4096).unwrap();
    let marked = reference::thin(&r2_bytes(), &mark_bytes(&[10]), 4096).unwrap();
    assert_eq!((kept.len(), marked.len()), (6 * 16, 7 * 16));
    folder.mill(&["thin", "r2.rec"]).gives(&kept);
    folder.mill(&["thin", "-o", "-", "r2.rec"]).gives(&kept);
    folder.mill(&["thin", "--mark=10", "r2.rec"]).gives(&marked);
    folder.mill(&["thin", "-m10", "-o", "kept.rec", "r2.rec"]).answers("readings 9\nkept     7\n");
    assert_eq!(folder.tin("kept.rec"), Some(Tin::of(&[10], 9, &marked)));
    folder.mill(&["thin", "-m10", "--raw", "--force", "-o", "kept.rec", "r2.rec"]).answers("readings 9\nkept     7\n");
    assert_eq!(folder.read("kept.rec"), Some(marked.clone()));
    folder.mill(&["thin", "--json", "--force", "-okept.rec", "r2.rec"]).answers("{\"readings\":9,\"kept\":6}\n");
    assert_eq!(folder.tin("kept.rec"), Some(Tin::of(&[], 9, &kept)));
    folder.mill(&["thin", "--output=kept.rec", "--force", "empty.rec"]).answers("readings 0\nkept     0\n");
    assert_eq!(folder.tin("kept.rec"), Some(Tin::of(&[], 0, &[])));
    // Marks are noted once each, ascending.
    folder.mill(&["thin", "-m40", "-m10", "-m40", "--force", "-o", "kept.rec", "r2.rec"]).answers("readings 9\nkept     8\n");
    assert_eq!(folder.tin("kept.rec").unwrap().marks, [10, 40]);
    let told = json::line(&folder.mill(&["thin", "--json", "r2.rec"]).out);
    let times: Vec<_> = told.at("readings").list().iter().map(|reading| reading.at("time").clone()).collect();
    assert_eq!(times, [0, 10, 30, 40, 60, 80].map(json::number));
    assert_eq!(folder.names(), ["bad.rec", "empty.rec", "kept.rec", "r1.rec", "r2.rec", "r3.rec", "short.rec"]);
}

/// What is kept under some marks may lack what others would keep.
#[test]
fn a_tin_is_thinned_under_its_own_marks() {
    let folder = Folder::with_recordings("thin_tin");
    folder.mill(&["thin", "-m10", "-m40", "-o", "two", "r2.rec"]).answers("readings 9\nkept     8\n");
    let kept = |marks: &[i64]| reference::thin(&r2_bytes(), &mark_bytes(marks), 4096).unwrap();
    folder.mill(&["thin", "two"]).gives(&kept(&[10, 40]));
    folder.mill(&["thin", "-m40", "two"]).gives(&kept(&[40]));
    folder.mill(&["thin", "-m40", "-o", "one", "two"]).answers("readings 8\nkept     7\n");
    assert_eq!(folder.tin("one"), Some(Tin::of(&[40], 9, &kept(&[40]))));
    for marks in [&["-m50"][..], &["-m40", "-m50"]] {
        folder.mill(&[&["thin", "two"][..], marks].concat()).troubles_with("two: its marks are 10 40, and not ");
    }
    // So it is with readings that have their marks beside them.
    folder.put("pair", &kept(&[40]));
    folder.put("pair.marks", b"mill marks\n40\n");
    folder.mill(&["thin", "pair"]).gives(&kept(&[40]));
    folder.mill(&["thin", "-m10", "pair"]).troubles("pair: its marks are 40, as pair.marks says, and not 10");
    // And nobody counted of how many these were.
    folder.mill(&["thin", "-o", "of_pair", "pair"]).answers("readings 7\nkept     7\n");
    assert_eq!(folder.tin("of_pair"), Some(Tin { taken: None, ..Tin::of(&[40], 0, &kept(&[40])) }));
}

#[test]
fn a_refusal_leaves_the_file() {
    let folder = Folder::with_recordings("thin_refused");
    folder.put("kept.rec", b"old");
    folder.mill(&["thin", "-o", "kept.rec", "bad.rec"]).refused("bad.rec", 3, 2);
    folder.mill(&["thin", "-o", "kept.rec", "-m", "4294967296", "r1.rec"]).refused("r1.rec", 11, 0);
    let nine = ["-m1"; 9];
    folder.mill(&[&["thin", "-o", "kept.rec", "r1.rec"][..], &nine].concat()).refused("r1.rec", 11, 0);
    assert_eq!(folder.read("kept.rec").as_deref(), Some(&b"old"[..]));
}

#[test]
fn what_is_kept_is_what_the_independent_implementation_keeps() {
    let folder = Folder::new("thin_random");
    for case in 0..60 {
        let mut random = Random::of_case("tool thin", case);
        let count = random.below(200);
        let records = recordings::accepted(&mut random, count);
        let marks = recordings::marks(&mut random, &records);
        let recording = bytes(&records);
        let kept = reference::thin(&recording, &mark_bytes(&marks), recording.len()).unwrap();
        let given: Vec<String> = marks.iter().map(|mark| format!("--mark={mark}")).collect();
        let mut words = vec!["thin", "-"];
        words.extend(given.iter().map(String::as_str));
        let ran = folder.mill_reads(&words, &recording);
        assert_eq!((ran.status, &ran.out), (Some(0), &kept));
        // A word about noise is all that may be said.
        assert!(ran.err.is_empty() || ran.err.contains("readings are kept, for it is noisy"), "{}", ran.err);
    }
}
