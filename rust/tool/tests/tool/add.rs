//! Covers: add, piece by piece beside the independent implementation; its marks; what it refuses; wrong files in its place.

use super::folder::Folder;
use super::tin::Tin;
use crate::support::r2::r2_bytes;
use crate::support::random::Random;
use crate::support::recordings;
use reference::kept::mark_bytes;
use reference::recording::bytes;
use std::os::unix::fs::PermissionsExt;

fn kept(recording: &[u8], marks: &[i64]) -> Vec<u8> {
    reference::thin(recording, &mark_bytes(marks), recording.len()).unwrap()
}

/// What `add` leaves beside other files: the tin and its lock.
const FILES: [&str; 2] = ["kept", "kept.lock"];

fn only(folder: &Folder) -> Vec<String> {
    folder.names().into_iter().filter(|name| name.starts_with("kept")).collect()
}

#[test]
fn pieces_join_to_the_kept_readings() {
    let folder = Folder::with_recordings("add");
    let r2 = r2_bytes();
    folder.put("piece.1", &r2[..48]);
    folder.put("piece.2", &r2[48..96]);
    folder.put("piece.3", &r2[96..]);
    folder.mill(&["add", "-m", "40", "kept", "piece.1"]).answers("taken 3\nheld  3\n");
    assert_eq!(only(&folder), FILES);
    assert_eq!(folder.tin("kept"), Some(Tin::of(&[40], 3, &kept(&r2[..48], &[40]))));
    folder.mill(&["add", "kept", "piece.2"]).answers("taken 3\nheld  5\n");
    folder.mill(&["add", "-m", "40", "--json", "kept", "piece.3"]).answers("{\"taken\":3,\"held\":7,\"marks\":[40]}\n");
    assert_eq!(folder.tin("kept"), Some(Tin::of(&[40], 9, &kept(&r2, &[40]))));
    folder.mill(&["add", "kept", "empty.rec"]).answers("taken 0\nheld  7\n");
    assert_eq!(folder.tin("kept"), Some(Tin::of(&[40], 9, &kept(&r2, &[40]))));
    assert_eq!(only(&folder), FILES);
    assert_eq!(folder.read("kept.lock"), Some(Vec::new()));
}

#[test]
fn any_cut_gives_the_kept_readings_of_the_whole() {
    let folder = Folder::new("add_random");
    for case in 0..25 {
        let mut random = Random::of_case("tool add", case);
        let count = random.below(120);
        let records = recordings::accepted(&mut random, count);
        let marks = recordings::marks(&mut random, &records);
        let recording = bytes(&records);
        let name = format!("kept {case}");
        let given: Vec<String> = marks.iter().map(|mark| format!("-m{mark}")).collect();
        let mut rest = &recording[..];
        let mut first = true;
        while first || !rest.is_empty() {
            let (piece, behind) = rest.split_at(16 * random.below(1 + rest.len() / 16));
            let mut words = vec!["add", name.as_str(), "-"];
            if first || random.once_in(2) {
                words.extend(given.iter().map(String::as_str));
            }
            let ran = folder.mill_reads(&words, piece);
            assert_eq!(ran.status, Some(0), "case {case}: {}", ran.err);
            // A word about noise is all that may be said.
            assert!(ran.err.is_empty() || ran.err.contains("readings are kept, for it is noisy"), "case {case}: {}", ran.err);
            rest = behind;
            first = false;
            let so_far = &recording[..recording.len() - rest.len()];
            assert_eq!(folder.kept(&name), Some(kept(so_far, &marks)), "case {case}");
        }
    }
}

/// A call takes at most 4,096 readings; a piece may have more, or leave no room for all of it behind those held.
#[test]
fn long_pieces_are_taken_in_parts() {
    let folder = Folder::new("add_long");
    let calm = bytes(&recordings::with_tops(60_000, [90, 30]));
    folder.mill_reads(&["add", "kept", "-"], &calm[..16]).answers("taken 1\nheld  1\n");
    let ran = folder.mill_reads(&["add", "kept", "-"], &calm[16..]);
    assert_eq!((ran.status, ran.err.as_str()), (Some(0), ""));
    let mut held = Vec::new();
    for piece in calm.chunks(16 * 1000) {
        held.extend_from_slice(piece);
        held = kept(&held, &[]);
    }
    assert_eq!(folder.kept("kept"), Some(held));
    // All have a pigment, so all are kept.
    let additions = bytes(&recordings::with_additions(4097, 4097, 3));
    folder.put("full", b"");
    let full = folder.mill_reads(&["add", "full", "-"], &additions[..4096 * 16]);
    assert_eq!((full.status, full.text()), (Some(0), "taken 4096\nheld  4096\n"));
    folder.mill_reads(&["add", "full", "-"], &additions[4096 * 16..]).refused("standard input", 2, 0);
    assert_eq!(folder.kept("full").as_deref(), Some(&additions[..4096 * 16]));
}

#[test]
fn a_refused_piece_changes_nothing() {
    let folder = Folder::with_recordings("add_refused");
    folder.mill(&["add", "kept", "bad.rec"]).refused("bad.rec", 3, 2);
    folder.mill(&["add", "kept", "short.rec"]).refused("short.rec", 1, 0);
    folder.mill(&["add", "-m", "2000000001", "kept", "r1.rec"]).refused("kept", 11, 0);
    folder.mill(&[&["add", "kept", "r1.rec"][..], &["-m7"; 9]].concat()).refused("kept", 11, 0);
    assert_eq!(only(&folder), ["kept.lock"]);
    assert_eq!(folder.mill(&["add", "-m", "40", "kept", "r2.rec"]).status, Some(0));
    let held = folder.read("kept");
    // Its first reading is not after the last that is held.
    folder.mill(&["add", "kept", "r2.rec"]).refused("r2.rec", 3, 0);
    folder.mill(&["add", "kept", "short.rec"]).refused("short.rec", 1, 0);
    assert_eq!(folder.read("kept"), held);
    assert_eq!(only(&folder), FILES);
}

#[test]
fn marks_stay_as_they_were_set() {
    let folder = Folder::with_recordings("add_marks");
    let later: Vec<u8> = [1, 1, 0, 0, 5, 0, 0, 0, 5, 0, 0, 0, 1, 1, 0, 0].to_vec();
    folder.put("later.rec", &later);
    folder.mill(&["add", "-m", "40", "-m", "10", "-m", "40", "kept", "r2.rec"]).answers("taken 9\nheld  8\n");
    assert_eq!(folder.tin("kept").unwrap().marks, [10, 40]);
    let held = folder.read("kept");
    for other in [&["-m10"][..], &["-m40"], &["-m10", "-m50"], &["-m10", "-m40", "-m50"], &["-m0"]] {
        let ran = folder.mill(&[&["add", "kept", "later.rec"][..], other].concat());
        ran.troubles_with("kept: its marks are 10 40, and not ");
    }
    assert_eq!(folder.read("kept"), held);
    let ran = folder.mill(&["add", "kept", "later.rec", "-m10", "-m40", "-m10"]);
    assert_eq!((ran.status, ran.err.as_str()), (Some(0), ""));
    assert_ne!(folder.read("kept"), held);
    // Marks without readings were left by a run that was stopped: what it began goes on under them.
    for words in [&["add", "kept", "r2.rec"][..], &["add", "-m40", "kept", "r2.rec", "-m10"]] {
        std::fs::remove_file(folder.at("kept")).unwrap();
        folder.put("kept.marks", b"mill marks\n10\n40\n");
        folder.mill(&["add", "-m", "50", "kept", "r2.rec"]).troubles("kept: its marks are 10 40, as kept.marks says, and not 50");
        assert_eq!(folder.read("kept"), None);
        folder.mill(words).answers("taken 9\nheld  8\n");
        assert_eq!(folder.tin("kept").unwrap().marks, [10, 40]);
        assert_eq!(folder.read("kept.marks"), None);
    }
    // An empty file without marks holds nothing either.
    folder.put("none", b"");
    folder.mill(&["add", "-m", "60", "none", "r1.rec"]).answers("taken 8\nheld  8\n");
    assert_eq!(folder.tin("none").unwrap().marks, [60]);
}

#[test]
fn a_wrong_file_is_named_and_left() {
    let folder = Folder::with_recordings("add_wrong");
    let says = |held: &[u8], marks: Option<&[u8]>, line: &str| {
        folder.put("kept", held);
        let _ = std::fs::remove_file(folder.at("kept.marks"));
        if let Some(marks) = marks {
            folder.put("kept.marks", marks);
        }
        folder.mill(&["add", "kept", "r1.rec"]).troubles_with(line);
        assert_eq!(folder.read("kept").as_deref(), Some(held));
        assert_eq!(folder.read("kept.marks").as_deref(), marks);
        assert_eq!(only(&folder).len(), if marks.is_some() { 3 } else { 2 });
    };
    let (full, thinned) = (r2_bytes(), kept(&r2_bytes(), &[]));
    says(&thinned, None, "kept: holds readings, and kept.marks, which would tell their marks, is not there");
    says(&full, Some(b"mill marks\n"), "kept: holds readings that are not those kept under its marks");
    says(&kept(&full, &[10]), Some(b"mill marks\n"), "kept: holds readings that are not those kept under its marks");
    says(b"no readings", Some(b"mill marks\n"), "kept: holds no readings: ");
    says(&[255; 32], Some(b"mill marks\n"), "kept: holds no readings: ");
    says(&vec![0; 65_552], Some(b"mill marks\n"), "kept: holds no readings: ");
    // A summary is neither a tin nor a piece of a recording.
    folder.mill(&["entry", "-o", "sum", "r1.rec"]).answers("entries 1\n");
    let sum = folder.read("sum").unwrap();
    std::fs::remove_file(folder.at("sum")).unwrap();
    says(&sum, None, "kept: is a summary, and no tin");
    folder.mill_reads(&["add", "none", "-"], &sum).troubles("standard input: is a summary, and no recording");
    assert_eq!(folder.read("none"), None);
    let _ = std::fs::remove_file(folder.at("none.lock"));
    let no_marks: [&[u8]; 14] = [
        b"",
        b"mill marks",
        b"mill marks\n\n",
        b"mill marks\n40",
        b"mill marks\r\n40\r\n",
        b"mill marks\n40\n40\n",
        b"mill marks\n40\n10\n",
        b"mill marks\n040\n",
        b"mill marks\n+40\n",
        b"mill marks\n-40\n",
        b"mill marks\n2000000001\n",
        b"mill marks\n1\n2\n3\n4\n5\n6\n7\n8\n9\n",
        b"40\n",
        b"\xff\xfe",
    ];
    for marks in no_marks {
        says(&thinned, Some(marks), "kept.marks: holds no list of marks");
    }
}

#[test]
fn what_is_no_file_is_left() {
    let folder = Folder::with_recordings("add_no_file");
    std::fs::create_dir(folder.at("kept")).unwrap();
    folder.mill(&["add", "kept", "r1.rec"]).troubles("kept: Is a directory");
    assert_eq!(only(&folder), ["kept"]);
    folder.mill(&["add", "/dev/null", "r1.rec"]).troubles("/dev/null: is no plain file");
    folder.mill(&["add", "r1.rec/kept", "r1.rec"]).troubles_with("r1.rec/kept");
    folder.mill(&["add", "no_folder/kept", "r1.rec"]).troubles_with("no_folder/kept.lock: No such file or directory");
    let before = folder.names();
    folder.mill(&["add", "", "r1.rec"]).troubles("add: KEPT must be a file; see 'mill add --help'");
    folder.mill(&["add", "kept.mill-new", "r1.rec"]).troubles("add: KEPT must not end with .mill-new; see 'mill add --help'");
    assert_eq!(folder.names(), before);
    std::fs::remove_dir(folder.at("kept")).unwrap();
    let lines = [
        ("kept.lock", "kept.lock: Is a directory"),
        ("kept.marks", "kept.marks: Is a directory"),
        ("kept.mill-new", "kept: not written: kept.mill-new: Is a directory"),
    ];
    for (name, line) in lines {
        std::fs::create_dir(folder.at(name)).unwrap();
        folder.mill(&["add", "kept", "r1.rec"]).troubles(line);
        assert_eq!(folder.read("kept"), None);
        std::fs::remove_dir(folder.at(name)).unwrap();
        for left in only(&folder) {
            std::fs::remove_file(folder.at(&left)).unwrap();
        }
    }
    folder.mill(&["add", "kept", "r1.rec"]).answers("taken 8\nheld  8\n");
}

#[test]
fn a_link_stays_and_its_file_is_written() {
    let folder = Folder::with_recordings("add_link");
    std::fs::create_dir(folder.at("store")).unwrap();
    let r2 = r2_bytes();
    folder.put("first", &r2[..64]);
    folder.put("second", &r2[64..]);
    assert_eq!(folder.mill(&["add", "store/kept", "first"]).status, Some(0));
    std::os::unix::fs::symlink("store/kept", folder.at("link")).unwrap();
    assert_eq!(folder.mill(&["add", "link", "second"]).status, Some(0));
    assert!(folder.at("link").symlink_metadata().unwrap().is_symlink());
    assert_eq!(folder.kept("store/kept"), Some(kept(&r2, &[])));
    assert_eq!(
        folder.names(),
        ["bad.rec", "empty.rec", "first", "link", "r1.rec", "r2.rec", "r3.rec", "second", "short.rec", "store"]
    );
    std::os::unix::fs::symlink("nowhere", folder.at("broken")).unwrap();
    folder.mill(&["add", "broken", "first"]).troubles("broken: No such file or directory");
}

#[test]
fn the_permissions_of_the_file_stay() {
    let folder = Folder::with_recordings("add_mode");
    let r2 = r2_bytes();
    folder.put("first", &r2[..64]);
    folder.put("second", &r2[64..]);
    assert_eq!(folder.mill(&["add", "kept", "first"]).status, Some(0));
    for mode in [0o640, 0o600, 0o444] {
        std::fs::set_permissions(folder.at("kept"), std::fs::Permissions::from_mode(mode)).unwrap();
        assert_eq!(folder.mill(&["add", "kept", if mode == 0o640 { "second" } else { "empty.rec" }]).status, Some(0));
        assert_eq!(folder.at("kept").metadata().unwrap().permissions().mode() & 0o777, mode);
    }
    assert_eq!(folder.kept("kept"), Some(kept(&r2, &[])));
}

#[test]
fn what_an_earlier_run_left_is_no_hindrance() {
    let folder = Folder::with_recordings("add_left");
    folder.put("kept.mill-new", b"half");
    folder.put("kept.lock", b"");
    folder.mill(&["add", "-m", "40", "kept", "r2.rec"]).answers("taken 9\nheld  7\n");
    assert_eq!(folder.kept("kept"), Some(kept(&r2_bytes(), &[40])));
    assert_eq!(only(&folder), FILES);
}

#[test]
fn what_is_anothers_stays() {
    let folder = Folder::with_recordings("add_others");
    // Kept readings whose name is another's with something behind it.
    for other in ["kept.new", "kept.marks.new", "kept.new-1"] {
        assert_eq!(folder.mill(&["add", other, "r2.rec"]).status, Some(0));
    }
    let held = Some(kept(&r2_bytes(), &[]));
    folder.mill(&["add", "-m", "40", "kept", "r2.rec"]).answers("taken 9\nheld  7\n");
    for other in ["kept.new", "kept.marks.new", "kept.new-1"] {
        assert_eq!(folder.kept(other), held);
    }
    // What is no list of marks, where marks are to be.
    let notes = b"what was talked of that day\n";
    for name in ["begun", "empty"] {
        folder.put("empty", b"");
        let marks = format!("{name}.marks");
        folder.put(&marks, notes);
        for given in [&[][..], &["-m", "40"]] {
            let ran = folder.mill(&[&["add", name, "r1.rec"][..], given].concat());
            ran.troubles(&format!("{marks}: holds no list of marks"));
            assert_eq!(folder.read(&marks).as_deref(), Some(&notes[..]));
        }
    }
    assert_eq!(folder.read("begun"), None);
    // The lock of a tin, and of readings with marks beside them, and these.
    folder.put("pair", &kept(&r2_bytes(), &[]));
    folder.put("pair.marks", b"mill marks\n");
    folder.put("pair.lock", b"");
    for name in ["pair.marks", "pair.lock"] {
        let before = folder.read(name);
        folder.mill(&["add", name, "r1.rec"]).troubles(&format!("{name}: belongs to the kept readings of pair"));
        assert_eq!(folder.read(name), before);
    }
    for name in ["kept.lock"] {
        let before = folder.read(name);
        folder.mill(&["add", name, "r1.rec"]).troubles(&format!("{name}: belongs to the kept readings of kept"));
        assert_eq!(folder.read(name), before);
    }
}
