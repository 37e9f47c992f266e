//! Covers: the line about recordings that hardly thin, and about a tin that is nearly full.

use super::folder::Folder;
use crate::support::recordings;
use reference::recording::bytes;

#[test]
fn a_noisy_recording_is_named_and_why() {
    let folder = Folder::new("noise");
    folder.put("noisy", &bytes(&recordings::with_most_tops(0, 400)));
    let line =
        "noisy: 400 of 400 readings are kept, for it is noisy (A turns 399 times, B 0 times, they cross 0 times, 0 additions)";
    folder.mill(&["thin", "-o", "tin", "noisy"]).answers_noting("readings 400\nkept     400\n", line);
    let ran = folder.mill(&["thin", "noisy"]);
    assert_eq!((ran.status, ran.err.as_str()), (Some(0), format!("mill: {line}\n").as_str()));
    folder.mill(&["add", "kept", "noisy"]).answers_noting("taken 400\nheld  400\n", &line.replacen("noisy", "kept", 1));
    // What is pinned is not noise: only what had to be kept is counted.
    folder.mill(&["pin", "kept", "noisy", "10"]).answers_noting("pinned 0\nheld   400\n", &line.replacen("noisy", "kept", 1));
    folder.put("some", &bytes(&recordings::with_additions(100, 88, 3)));
    assert_eq!(folder.mill(&["thin", "-o", "some.tin", "some"]).err, "");
    let times = folder
        .mill(&["export", "some"])
        .text()
        .lines()
        .skip(1)
        .map(|line| line.split(',').next().unwrap().to_string())
        .collect::<Vec<_>>();
    let words: Vec<&str> = ["pin", "some.tin", "some"].into_iter().chain(times.iter().map(String::as_str)).collect();
    let ran = folder.mill(&words);
    assert_eq!((ran.status, ran.err.as_str(), ran.text().contains("held   100")), (Some(0), "", true), "{}", ran.text());
    // One that thins well, and one that is short.
    folder.put("calm", &bytes(&recordings::with_tops(400, [10, 5])));
    folder.put("short", &bytes(&recordings::with_most_tops(0, 99)));
    for name in ["calm", "short"] {
        let ran = folder.mill(&["thin", "--json", name]);
        assert_eq!((ran.status, ran.err.as_str()), (Some(0), ""));
    }
    // Nine of ten are nearly all, a reading less is not.
    for (additions, noisy) in [(899, true), (898, false)] {
        folder.put("part", &bytes(&recordings::with_additions(1000, additions, 3)));
        let ran = folder.mill(&["thin", "-o", "/dev/null", "part"]);
        assert_eq!(!ran.err.is_empty(), noisy, "{additions}: {} {}", ran.text(), ran.err);
    }
}

#[test]
fn a_tin_that_is_nearly_full_is_named() {
    let folder = Folder::new("nearly_full");
    let all = bytes(&recordings::with_additions(3900, 3900, 3));
    let ran = folder.mill_reads(&["add", "tin", "-"], &all[..3839 * 16]);
    assert_eq!((ran.status, ran.err.lines().count()), (Some(0), 1), "{}", ran.err);
    let ran = folder.mill_reads(&["add", "tin", "-"], &all[3839 * 16..3840 * 16]);
    assert_eq!((ran.status, ran.err.lines().count()), (Some(0), 2), "{}", ran.err);
    let line = "mill: tin: holds 3840 of at most 4096 readings (A turns 0 times, B 0 times, they cross 0 times, 3840 additions): begin another tin soon";
    assert_eq!(ran.err.lines().last(), Some(line));
    let ran = folder.mill(&["thin", "-o", "other", "tin"]);
    assert_eq!((ran.status, ran.err.lines().last()), (Some(0), Some(line)));
}
