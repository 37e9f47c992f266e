//! Covers: runs that are killed at each of their system calls, and runs of which one call on files fails, each in turn. After each
//! the file is what it was or what it was to be, and the next run goes on from there.

use super::folder::{Folder, Ran, MILL};
use super::tin::Tin;
use crate::support::r1::r1_bytes;
use crate::support::r2::r2_bytes;
use std::path::PathBuf;

const KILLED: i32 = 137;
const ENOSPC: &str = "28";
const EIO: &str = "5";
const EACCES: &str = "13";

struct Stopped {
    folder: Folder,
    stop_at: PathBuf,
}

impl Stopped {
    fn new(name: &str) -> Stopped {
        let folder = Folder::with_recordings(name);
        folder.put("first", &r2_bytes()[..64]);
        folder.put("second", &r2_bytes()[64..]);
        let stop_at = folder.compiled("stop_at");
        Stopped { folder, stop_at }
    }

    fn run(&self, how: &[&str], words: &[&str]) -> Ran {
        let _ = std::fs::remove_file(self.folder.at("report"));
        let all = [how, &[MILL], words].concat();
        Ran::of(self.folder.command(&self.stop_at, &all).spawn().unwrap(), &all)
    }

    /// The number of the system call that was met, if the run came so far.
    fn met(&self) -> Option<u32> {
        let report = self.folder.read("report")?;
        Some(String::from_utf8(report).unwrap().trim().parse().unwrap())
    }

    /// Kills a run at each call in turn; how many there are. What each left is looked at.
    fn killed(&self, words: &[&str], before: impl Fn(), after: impl Fn(u32)) -> usize {
        for n in 1.. {
            before();
            let ran = self.run(&["kill", &n.to_string(), "report"], words);
            let Some(call) = self.met() else {
                assert_eq!((ran.status, ran.err.as_str()), (Some(0), ""), "the run that is not stopped");
                return n - 1;
            };
            assert_eq!(ran.status, Some(KILLED), "call {n}, {call}: {}", ran.err);
            after(call);
        }
        unreachable!()
    }

    /// Makes each call on files fail in turn, from that on which opens `from`; how many there are.
    fn failed(&self, errno: &str, from: &str, words: &[&str], before: impl Fn(), after: impl Fn(u32, &Ran)) -> usize {
        for n in 1.. {
            before();
            let ran = self.run(&[errno, &n.to_string(), "report", from], words);
            let Some(call) = self.met() else {
                assert_eq!((ran.status, ran.err.as_str()), (Some(0), ""), "the run without a fault");
                return n - 1;
            };
            let lines = ran.err.lines().count();
            match ran.status {
                Some(0) => assert_eq!(lines, 0, "call {n}, {call}: {}", ran.err),
                Some(2) => assert!(lines == 1 && ran.err.starts_with("mill: "), "call {n}, {call}: {}", ran.err),
                other => panic!("call {n}, {call}: status {other:?}: {}", ran.err),
            }
            after(call, &ran);
        }
        unreachable!()
    }

    fn clear(&self) {
        for name in self.folder.names().iter().filter(|name| name.starts_with("kept")) {
            std::fs::remove_file(self.folder.at(name)).unwrap();
        }
    }

    fn holds(&self, bytes: &[u8]) -> bool {
        self.folder.read("kept").as_deref() == Some(bytes)
    }
}

fn kept(recording: &[u8]) -> Vec<u8> {
    reference::thin(recording, &40u32.to_le_bytes(), recording.len()).unwrap()
}

/// The tin before the second piece, and after it.
fn old_and_new() -> [Vec<u8>; 2] {
    [(4, kept(&r2_bytes()[..64])), (9, kept(&r2_bytes()))].map(|(taken, kept)| Tin::of(&[40], taken, &kept).bytes())
}

#[test]
fn add_killed_at_every_call_leaves_the_old_or_the_new() {
    let stopped = Stopped::new("kill_add");
    let [old, new] = old_and_new();
    let words = ["add", "kept", "second"];
    let before = || {
        stopped.clear();
        assert_eq!(stopped.folder.mill(&["add", "-m", "40", "kept", "first"]).status, Some(0));
        assert!(stopped.holds(&old));
    };
    let counts = [0, 1].map(|_| std::cell::Cell::new(0));
    let calls = stopped.killed(&words, before, |call| {
        let again = stopped.folder.mill(&words);
        match again.status {
            // It was the old, and goes on from there.
            Some(0) => counts[0].set(counts[0].get() + 1),
            // It was the new: the piece is there already.
            _ => {
                again.refused("second", 3, 0);
                counts[1].set(counts[1].get() + 1);
            }
        }
        assert!(stopped.holds(&new), "call {call}");
    });
    // Nothing at once but the old or the new: this is asked of the file itself, before any other run.
    let untouched = stopped.killed(&words, before, |call| assert!(stopped.holds(&old) || stopped.holds(&new), "call {call}"));
    assert!(untouched >= 20, "{untouched} calls");
    let [olds, news] = counts.map(std::cell::Cell::into_inner);
    assert!(olds >= 20 && news >= 3, "{olds} old and {news} new of {calls}");
    println!("killed at each of {calls} calls: {olds} times the old, {news} times the new");
}

#[test]
fn the_first_add_killed_at_every_call_leaves_none_or_all() {
    let stopped = Stopped::new("kill_first");
    let [first, _] = old_and_new();
    let words = ["add", "-m", "40", "kept", "first"];
    let calls = stopped.killed(
        &words,
        || stopped.clear(),
        |call| {
            let none = stopped.folder.read("kept").is_none();
            assert!(none || stopped.holds(&first), "call {call}");
            let again = stopped.folder.mill(&words);
            match none {
                true => again.answers("taken 4\nheld  3\n"),
                false => again.refused("first", 3, 0),
            }
            assert!(stopped.holds(&first), "call {call}");
            assert_eq!(stopped.folder.names().iter().filter(|name| name.starts_with("kept")).count(), 2);
        },
    );
    assert!(calls >= 30, "{calls} calls");
}

/// Readings with marks beside them, as they were kept before, become a tin: at no moment are both gone.
#[test]
fn a_pair_of_before_killed_at_every_call_is_the_pair_or_the_tin() {
    let stopped = Stopped::new("kill_pair");
    let [_, new] = old_and_new();
    // Of a pair nobody counted what was taken.
    let new = Tin { taken: None, ..Tin::read(&new).unwrap() }.bytes();
    let readings = kept(&r2_bytes()[..64]);
    let before = || {
        stopped.clear();
        stopped.folder.put("kept", &readings);
        stopped.folder.put("kept.marks", b"mill marks\n40\n");
    };
    let [pairs, both, tins] = [0, 1, 2].map(|_| std::cell::Cell::new(0));
    let words = ["add", "kept", "second"];
    let calls = stopped.killed(&words, before, |call| {
        let marked = stopped.folder.read("kept.marks").as_deref() == Some(b"mill marks\n40\n");
        let pair = stopped.holds(&readings) && marked;
        assert!(pair || stopped.holds(&new), "call {call}");
        let which = if pair {
            &pairs
        } else if marked {
            &both
        } else {
            &tins
        };
        which.set(which.get() + 1);
        // Either answers, and goes on.
        let asked = stopped.folder.mill(&["ask", "--json", "--assured", "lowafter(A,40)", "kept"]);
        assert_eq!(asked.status, Some(0), "call {call}: {}", asked.err);
        let again = stopped.folder.mill(&words);
        match pair {
            true => again.answers("taken 5\nheld  7\n"),
            false => again.refused("second", 3, 0),
        }
        assert!(stopped.holds(&new), "call {call}");
        stopped.folder.mill(&["add", "kept", "empty.rec"]).answers("taken 0\nheld  7\n");
        assert!(stopped.holds(&new) && stopped.folder.read("kept.marks").is_none(), "call {call}");
    });
    let counts = [pairs, both, tins].map(std::cell::Cell::into_inner);
    assert!(counts.iter().all(|count| *count >= 2), "{counts:?} of {calls}");
}

/// What else works on a file that is kept.
#[test]
fn pins_and_entries_killed_at_every_call_are_there_or_not() {
    let stopped = Stopped::new("kill_others");
    let tin = Tin::of(&[40], 9, &kept(&r2_bytes()));
    let pinned = Tin { pins: 2, readings: r2_bytes(), ..tin.clone() }.bytes();
    let before = || {
        stopped.clear();
        stopped.folder.put("kept", &tin.bytes());
    };
    let calls = stopped.killed(&["pin", "kept", "r2.rec", "20", "70"], before, |call| {
        assert!(stopped.holds(&tin.bytes()) || stopped.holds(&pinned), "call {call}");
        stopped.folder.mill(&["pin", "kept", "r2.rec", "20", "70"]).answers("pinned 2\nheld   9\n");
    });
    assert!(calls >= 20, "{calls} calls");
    let summary = |words: &[&str]| {
        stopped.clear();
        assert_eq!(stopped.folder.mill(&[&["entry", "-o", "kept"][..], words].concat()).status, Some(0));
        stopped.folder.read("kept").unwrap()
    };
    let [one, both] = [summary(&["r1.rec"]), summary(&["r1.rec", "r2.rec"])];
    let before = || {
        stopped.clear();
        stopped.folder.put("kept", &one);
    };
    let words = ["entry", "--append", "-o", "kept", "r2.rec"];
    let calls = stopped.killed(&words, before, |call| {
        assert!(stopped.holds(&one) || stopped.holds(&both), "call {call}");
        stopped.folder.mill(&words).answers("entries 2\n");
        assert!(stopped.holds(&both), "call {call}");
    });
    assert!(calls >= 20, "{calls} calls");
}

#[test]
fn files_of_o_killed_at_every_call_are_the_old_or_the_new() {
    let stopped = Stopped::new("kill_output");
    stopped.folder.put("r1.csv", b"time,a,b,slope_a,slope_b\n1,2,3,0,1\n");
    let one = [1, 0, 0, 0, 2, 0, 0, 0, 3, 0, 0, 0, 0, 1, 0, 0];
    let thinned = Tin::of(&[], 8, &r1_bytes()).bytes();
    for (words, new) in
        [(["thin", "r1.rec", "-o", "kept", "--force"], &thinned[..]), (["import", "r1.csv", "-o", "kept", "--force"], &one)]
    {
        for old in [None, Some(&b"what was there"[..])] {
            let before = || {
                stopped.clear();
                if let Some(old) = old {
                    stopped.folder.put("kept", old);
                }
            };
            let words = if old.is_none() { &words[..4] } else { &words[..] };
            let calls = stopped.killed(words, before, |call| {
                let there = stopped.folder.read("kept");
                assert!(there.as_deref() == old || there.as_deref() == Some(new), "call {call}");
            });
            assert!(calls >= 20, "{calls} calls");
        }
    }
}

#[test]
fn add_with_any_call_failing_says_so_and_loses_nothing() {
    let stopped = Stopped::new("fail_add");
    let [old, new] = old_and_new();
    let words = ["add", "kept", "second"];
    let before = || {
        stopped.clear();
        assert_eq!(stopped.folder.mill(&["add", "-m", "40", "kept", "first"]).status, Some(0));
    };
    for errno in [ENOSPC, EIO, EACCES] {
        let troubled = std::cell::Cell::new(0);
        let calls = stopped.failed(errno, "second", &words, before, |call, ran| {
            let taken = stopped.holds(&new);
            assert!(taken || stopped.holds(&old), "call {call}");
            assert!(ran.status != Some(0) || taken, "call {call}: {}", ran.err);
            assert!(!ran.err.contains("not written") || !taken, "call {call}: {}", ran.err);
            troubled.set(troubled.get() + usize::from(ran.status == Some(2)));
            let again = stopped.folder.mill(&words);
            match taken {
                true => again.refused("second", 3, 0),
                false => again.answers("taken 5\nheld  7\n"),
            }
            assert!(stopped.holds(&new), "call {call}");
            assert_eq!(stopped.folder.names().iter().filter(|name| name.starts_with("kept")).count(), 2);
        });
        assert!(calls >= 15 && troubled.get() >= 10, "{} of {calls} calls", troubled.get());
    }
}

#[test]
fn the_first_add_with_any_call_failing_loses_nothing() {
    let stopped = Stopped::new("fail_first");
    let [first, _] = old_and_new();
    let words = ["add", "-m", "40", "kept", "first"];
    for errno in [ENOSPC, EIO] {
        let calls = stopped.failed(
            errno,
            "first",
            &words,
            || stopped.clear(),
            |call, ran| {
                let taken = stopped.holds(&first);
                assert!(taken || stopped.folder.read("kept").is_none(), "call {call}");
                assert!(ran.status != Some(0) || taken, "call {call}: {}", ran.err);
                let again = stopped.folder.mill(&words);
                match taken {
                    true => again.refused("first", 3, 0),
                    false => again.answers("taken 4\nheld  3\n"),
                }
                assert!(stopped.holds(&first), "call {call}");
            },
        );
        assert!(calls >= 15, "{calls} calls");
    }
}

#[test]
fn files_of_o_with_any_call_failing_are_the_old_or_the_new() {
    let stopped = Stopped::new("fail_output");
    let new = Tin::of(&[], 8, &r1_bytes()).bytes();
    for (errno, old) in [(ENOSPC, Some(&b"old"[..])), (EIO, Some(b"old")), (ENOSPC, None), (EIO, None)] {
        let words = ["thin", "r1.rec", "-o", "kept", "--force"];
        let words = if old.is_none() { &words[..4] } else { &words[..] };
        let before = || {
            stopped.clear();
            if let Some(old) = old {
                stopped.folder.put("kept", old);
            }
        };
        let calls = stopped.failed(errno, "r1.rec", words, before, |call, ran| {
            let there = stopped.folder.read("kept");
            let as_it_was = there.as_deref() == old;
            assert!(as_it_was || there.as_deref() == Some(&new), "call {call}");
            assert!(ran.status != Some(0) || !as_it_was, "call {call}");
            assert!(!ran.err.contains("not written") || as_it_was, "call {call}: {}", ran.err);
            // The second name of a file that could not be taken away is all that may be left.
            let beside: Vec<String> = stopped.folder.names().into_iter().filter(|name| name.contains("-new")).collect();
            assert!(beside.is_empty() || old.is_none() && !as_it_was, "call {call}: {beside:?}");
            for left in beside {
                std::fs::remove_file(stopped.folder.at(&left)).unwrap();
            }
        });
        assert!(calls >= 10, "{calls} calls");
    }
}

/// What is flushed to disk before the file is put in its place, and the folder after it, by the order of the calls.
#[test]
fn the_bytes_are_on_disk_before_the_name_is() {
    const WRITE: u32 = 1;
    const FSYNC: u32 = 74;
    const RENAME: u32 = 82;
    let stopped = Stopped::new("order_of_calls");
    assert_eq!(stopped.folder.mill(&["add", "-m", "40", "kept", "first"]).status, Some(0));
    stopped.run(&["list", "0", "report"], &["add", "kept", "second"]).answers("taken 5\nheld  7\n");
    let report = String::from_utf8(stopped.folder.read("report").unwrap()).unwrap();
    let calls = report.lines().map(|line| line.parse::<u32>().unwrap());
    let told: Vec<u32> = calls.filter(|call| [WRITE, FSYNC, RENAME].contains(call)).collect();
    assert_eq!(told, [WRITE, FSYNC, RENAME, FSYNC, WRITE]);
}
