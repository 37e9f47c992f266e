//! Covers: several `add`s at once. Each waits for the one before it, and no piece that is taken is lost.

use super::folder::{Folder, Ran, MILL};
use crate::support::random::Random;
use crate::support::recordings;
use reference::kept::mark_bytes;
use reference::recording::bytes;
use std::fs::File;
use std::io::Write;
use std::path::Path;
use std::process::{Child, Stdio};
use std::time::Duration;

fn started(folder: &Folder, words: &[&str]) -> Child {
    folder.command(Path::new(MILL), words).stdin(Stdio::piped()).spawn().unwrap()
}

/// Pieces come in the order of time, each a moment after the last; the runs overlap. One that comes too late is refused with 3; all
/// others are taken, and what is held is what they join to.
#[test]
fn eight_at_once_lose_no_piece() {
    let folder = Folder::new("eight");
    const ROUNDS: u64 = 25;
    let mut taken_in_all = 0;
    for round in 0..ROUNDS {
        let mut random = Random::of_case("tool at once", round);
        let recording = bytes(&recordings::accepted(&mut random, 240));
        let marks = [random.between(0, 1000)];
        let (name, mark) = (format!("kept.{round}"), format!("-m{}", marks[0]));
        let mut runs: Vec<Child> = (0..8).map(|_| started(&folder, &["add", &mark, &name, "-"])).collect();
        for (run, piece) in runs.iter_mut().zip(recording.chunks(30 * 16)) {
            run.stdin.take().unwrap().write_all(piece).unwrap();
            std::thread::sleep(Duration::from_micros(random.below(900) as u64));
        }
        let mut joined = Vec::new();
        for (run, piece) in runs.into_iter().zip(recording.chunks(30 * 16)) {
            let ran = Ran::of(run, &["add"]);
            match ran.status {
                Some(0) => {
                    joined.extend_from_slice(piece);
                    taken_in_all += 1;
                }
                _ => ran.refused("standard input", 3, 0),
            }
        }
        let kept = reference::thin(&joined, &mark_bytes(&marks), joined.len()).unwrap();
        assert_eq!(folder.kept(&name), Some(kept), "round {round}");
        // The first that has the lock finds nothing held.
        assert!(!joined.is_empty(), "round {round}");
    }
    println!("{taken_in_all} of {} pieces were taken", 8 * ROUNDS);
}

#[test]
fn add_waits_for_the_lock_and_reads_what_was_written_meanwhile() {
    let folder = Folder::with_recordings("waits");
    let r2 = folder.read("r2.rec").unwrap();
    folder.put("first", &r2[..64]);
    folder.put("second", &r2[64..]);
    let lock = File::create(folder.at("kept.lock")).unwrap();
    lock.lock().unwrap();
    let mut second = started(&folder, &["add", "kept", "second"]);
    std::thread::sleep(Duration::from_millis(300));
    assert!(second.try_wait().unwrap().is_none(), "it does not wait");
    assert_eq!(folder.names().iter().filter(|name| name.starts_with("kept")).count(), 1);
    // As another run does that holds the lock.
    folder.put("kept.marks", b"mill marks\n10\n");
    folder.put("kept", &r2[..64]);
    drop(lock);
    Ran::of(second, &["add", "kept", "second"]).answers("taken 5\nheld  7\n");
    let kept = reference::thin(&r2, &mark_bytes(&[10]), r2.len()).unwrap();
    assert_eq!(folder.kept("kept"), Some(kept));
}

/// Whoever waits for a lock file that is taken away meanwhile holds nothing with it: others lock the one that is there now.
#[test]
fn a_lock_that_was_taken_away_is_no_lock() {
    let folder = Folder::with_recordings("no_lock");
    let old = File::create(folder.at("kept.lock")).unwrap();
    old.lock().unwrap();
    let mut run = started(&folder, &["add", "kept", "r2.rec"]);
    std::thread::sleep(Duration::from_millis(300));
    // At no moment there is none, which the run would make and lock.
    let new = File::create(folder.at("other")).unwrap();
    new.lock().unwrap();
    std::fs::rename(folder.at("other"), folder.at("kept.lock")).unwrap();
    drop(old);
    std::thread::sleep(Duration::from_millis(300));
    assert!(run.try_wait().unwrap().is_none(), "it does not wait for the new lock");
    assert_eq!(folder.read("kept"), None);
    std::fs::remove_file(folder.at("kept.lock")).unwrap();
    drop(new);
    Ran::of(run, &["add", "kept", "r2.rec"]).answers("taken 9\nheld  6\n");
    assert_eq!(folder.read("kept.lock"), Some(Vec::new()));
}

/// Questions need no lock: while `add` works they see the old readings or the new.
#[test]
fn questions_do_not_wait() {
    let folder = Folder::with_recordings("no_wait");
    assert_eq!(folder.mill(&["add", "kept", "r2.rec"]).status, Some(0));
    let lock = File::options().write(true).open(folder.at("kept.lock")).unwrap();
    lock.lock().unwrap();
    folder.mill(&["ask", "peaks(A)", "kept"]).answers("runs 1\n40 40\n");
}

/// A pair that becomes a tin while it is read is seen as the pair: the list of marks, which goes last, is looked for first. The
/// readings come through a pipe, so that they are opened before the list is taken away and end after that.
#[test]
fn a_pair_that_loses_its_marks_while_it_is_read_is_no_bare_recording() {
    let folder = Folder::with_recordings("pair_read");
    let kept = reference::thin(&folder.read("r2.rec").unwrap(), &mark_bytes(&[40]), 4096).unwrap();
    assert!(folder.command(Path::new("mkfifo"), &["kept"]).status().unwrap().success());
    for words in [["ask", "--json", "lowafter(A,40)", "kept"], ["ask", "--assured", "lowafter(A,40)", "kept"]] {
        folder.put("kept.marks", b"mill marks\n40\n");
        let run = started(&folder, &words);
        // This waits until the run opens the pipe.
        let mut readings = File::options().write(true).open(folder.at("kept")).unwrap();
        std::fs::remove_file(folder.at("kept.marks")).unwrap();
        readings.write_all(&kept).unwrap();
        drop(readings);
        let ran = Ran::of(run, &words);
        assert_eq!((ran.status, ran.err.as_str()), (Some(0), ""), "mill {}", ran.words);
        assert!(words[1] != "--json" || ran.text().contains("\"assured\":true"), "{}", ran.text());
    }
}
