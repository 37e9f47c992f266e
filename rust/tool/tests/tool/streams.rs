//! Covers: streams that do not end are given up, and a file is not read to see that it is too long.

use super::folder::{Folder, Ran, MILL};
use std::path::Path;
use std::process::{Command, Stdio};
use std::time::{Duration, Instant};

/// With a standard input that never ends.
fn endless(folder: &Folder, words: &[&str]) -> Ran {
    endless_of(folder, words, "y")
}

/// With this line on it again and again.
fn endless_of(folder: &Folder, words: &[&str], line: &str) -> Ran {
    let mut yes = Command::new("yes").arg(line).stdout(Stdio::piped()).stderr(Stdio::null()).spawn().unwrap();
    let child = folder.command(Path::new(MILL), words).stdin(yes.stdout.take().unwrap()).spawn().unwrap();
    let ran = Ran::of(child, words);
    let _ = yes.wait();
    ran
}

#[test]
fn a_stream_that_does_not_end_is_given_up() {
    let folder = Folder::with_recordings("endless");
    let long = "standard input: is longer than 67108864 bytes";
    for words in [
        &["ask", "high(A)", "-"][..],
        &["thin", "-"],
        &["show", "-"],
        &["report", "high(A)", "3", "-"],
        &["add", "kept", "-"],
        &["import", "-"],
        &["find", "A", "3", "-"],
        &["order", "-", "r3.rec"],
    ] {
        endless(&folder, words).troubles(long);
    }
    endless(&folder, &["ask", "-", "r1.rec"]).refused("r1.rec", 5, 0);
    let lines = endless(&folder, &["live"]);
    assert_eq!((lines.status, lines.err.lines().count()), (Some(2), 101));
    assert!(lines.err.ends_with("mill: standard input: given up after 100 bad lines\n"), "{}", lines.err);
    assert_eq!(folder.read("kept"), None);
}

/// Nor does a run go on for ever that takes no step: blank lines, questions, and a reading that is refused again and again. The lines
/// are wide, so that there are few answers.
#[test]
fn a_run_that_does_not_end_is_given_up() {
    let folder = Folder::with_recordings("endless_run");
    let long = "mill: standard input: is longer than 67108864 bytes\n";
    for line in ["", "entry", "0,10,0,rising,flat", "save 1"] {
        let ran = endless_of(&folder, &["live", "-o", "tin"], &format!("{line}{}", " ".repeat(4000)));
        assert_eq!(ran.status, Some(2), "{line}");
        assert!(ran.err.ends_with(long), "{line}");
        assert_eq!(folder.read("tin"), None);
    }
    // Blank lines alone are no work.
    endless_of(&folder, &["live"], "").troubles("standard input: is longer than 67108864 bytes");
    // What is one line is one.
    let zero = std::fs::File::open("/dev/zero").unwrap();
    let child = folder.command(Path::new(MILL), &["live"]).stdin(zero).spawn().unwrap();
    Ran::of(child, &["live"]).troubles("standard input: is longer than 67108864 bytes");
}

/// 100 TiB of nothing: no one reads that, nor 64 MiB of it.
#[test]
fn the_size_of_a_file_is_looked_at_first() {
    let folder = Folder::with_recordings("huge");
    std::fs::File::create(folder.at("huge")).unwrap().set_len(1 << 43).unwrap();
    let began = Instant::now();
    folder.mill(&["ask", "high(A)", "huge"]).refused("huge", 2, 0);
    folder.mill(&["add", "kept", "huge"]).troubles("huge: is longer than 67108864 bytes");
    folder.mill(&["import", "huge"]).troubles("huge: is longer than 67108864 bytes");
    folder.mill(&["find", "A", "3", "huge"]).troubles("huge: is longer than 67108864 bytes");
    folder.mill(&["verify", "huge"]).with_status(1, "huge: is no tin, and has no checksum\n");
    assert!(began.elapsed() < Duration::from_secs(5), "{:?}", began.elapsed());
}
