//! Covers: live, its steps beside thinning each run so far, its moments, its refusals and what it writes.

use super::folder::Folder;
use super::json;
use super::tin::Tin;
use crate::support::r3::r3_bytes;
use reference::kept::mark_bytes;

/// The readings of R3 as steps.
fn steps(folder: &Folder) -> Vec<String> {
    folder.put("r3", &r3_bytes());
    folder.mill(&["export", "r3"]).text().lines().skip(1).map(str::to_string).collect()
}

#[test]
fn what_is_kept_is_what_thinning_keeps() {
    let folder = Folder::with_recordings("live");
    let mut typed = String::new();
    let mut expected = String::new();
    for (count, step) in (1..).zip(steps(&folder)) {
        typed += &format!("{step}\nkept\n");
        folder.put("so_far", &reference::thin(&r3_bytes()[..16 * count], &mark_bytes(&[10]), 4096).unwrap());
        expected += folder.mill(&["export", "so_far"]).text();
    }
    folder.mill_reads(&["live", "-m", "10"], typed.as_bytes()).answers(&expected);
    // And so the tin that is written at the end, which goes on.
    let ran = folder.mill_reads(&["live", "-m10", "-m10", "-o", "tin"], steps(&folder)[..5].join("\n").as_bytes());
    ran.answers("readings 5\nkept     5\n");
    folder.put("rest", &r3_bytes()[80..]);
    assert_eq!(folder.mill(&["add", "tin", "rest"]).status, Some(0));
    assert_eq!(folder.tin("tin"), Some(Tin::of(&[10], 9, &reference::thin(&r3_bytes(), &mark_bytes(&[10]), 4096).unwrap())));
    // Said at once, and not when the run is at its end.
    folder.mill_reads(&["live", "-o", "tin"], b"kept\n").troubles("tin: is there already; --force writes over it");
    let told = folder.mill_reads(&["live", "--force", "--json", "-o", "tin"], b"");
    told.answers("{\"readings\":0,\"kept\":0}\n");
}

#[test]
fn moments_are_set_and_gone_back_to() {
    let folder = Folder::with_recordings("live_moments");
    let steps = steps(&folder);
    let typed = format!("{}\nsave 1\n{}\nback 1\nkept\nentry\nask dose(7)\n", steps[..4].join("\n"), steps[4..].join("\n"));
    folder.mill_reads(&["live"], typed.as_bytes()).answers(
        "\
time,a,b,slope_a,slope_b,pigment
0,10,0,rising,flat,0
10,9,0,rising,flat,0
20,8,0,flat,flat,7
30,7,0,flat,flat,0
first_time 0  last_time 30  greatest_a 10  least_a 7  greatest_b 0  least_b 0  tops_a 0  tops_b 0
runs 1
20 20
",
    );
    // How many readings the run has goes back as well.
    folder
        .mill_reads(&["live", "-o", "tin"], typed.replace("kept\nentry\nask dose(7)\n", "").as_bytes())
        .answers("readings 4\nkept     4\n");
    assert_eq!(folder.tin("tin").unwrap().taken, Some(4));
    let json = folder.mill_reads(&["live", "--json"], format!("{}\nkept\nentry\nask A=v\n", steps[0]).as_bytes());
    let lines: Vec<json::Value> = json.text().lines().map(|line| json::line(format!("{line}\n").as_bytes())).collect();
    assert_eq!(lines[0].at("readings").list().len(), 1);
    assert_eq!(lines[1].at("first_time"), &json::number(0));
    assert_eq!(lines[2].at("assured"), &json::Value::Truth(true));
}

#[test]
fn a_step_that_is_refused_or_none_changes_nothing() {
    let folder = Folder::with_recordings("live_refused");
    let steps = steps(&folder);
    let typed = format!("{}\n{}\nback 3\nsave 9\nkept\n", steps[0], steps[0]);
    let ran = folder.mill_reads(&["live"], typed.as_bytes());
    assert_eq!((ran.status, ran.text()), (Some(1), "time,a,b,slope_a,slope_b,pigment\n0,10,0,rising,flat,0\n"));
    let lines: Vec<&str> = ran.err.lines().collect();
    assert_eq!(lines.len(), 3);
    assert!(lines[0].starts_with("mill: standard input: line 2: refused 3 1: "), "{}", lines[0]);
    assert!(lines[1].starts_with("mill: standard input: line 3: refused 18 0: "), "{}", lines[1]);
    assert!(lines[2].starts_with("mill: standard input: line 4: refused 18 0: "), "{}", lines[2]);
    let typed = format!("{}\nsve 1\nsave x\n\n1,2,3\nask peaks(a)\nentry\n", steps[0]);
    let ran = folder.mill_reads(&["live"], typed.as_bytes());
    assert_eq!(ran.status, Some(2));
    let lines: Vec<&str> = ran.err.lines().collect();
    assert_eq!(lines.len(), 6, "{}", ran.err);
    assert_eq!(lines[5], "mill:         ^ a curve is A or B: write peaks(A)");
    let steps_are = "neither a reading nor one of save, back, kept, entry, ask";
    assert_eq!(lines[0], format!("mill: standard input: line 2: 'sve 1' is no step: {steps_are}; did you mean 'save'?"));
    assert_eq!(lines[2], "mill: standard input: line 5: '1,2,3' is no step: has 3 fields, and there are 6 columns");
    assert_eq!(lines[1], "mill: standard input: line 3: 'x' is no moment");
    assert!(lines[3].starts_with("mill: standard input: line 6: refused 6 0: "));
    assert!(ran.text().starts_with("first_time 0"));
    folder.mill_reads(&["live", "-m", "2000000001"], b"").refused("", 11, 0);
    folder.mill_reads(&["live"], b"ask high(A)\n").with_lines(1, "mill: standard input: line 1: refused 4 0: ");
    // An answer that is not assured says so here too.
    let ran = folder.mill_reads(&["live"], format!("{}\nask lowafter(A,5)\n", steps[0]).as_bytes());
    ran.answers_noting("runs 0\n", "standard input: not assured: 5 is no mark of it; it has no marks");
}

/// A run has room for 128 kept readings.
#[test]
fn a_full_run_says_so() {
    let folder = Folder::new("live_full");
    let typed: String = (0..130).map(|time| format!("{time},0,0,1,1,3\n")).collect();
    let ran = folder.mill_reads(&["live", "-o", "tin"], typed.as_bytes());
    assert_eq!((ran.status, ran.text()), (Some(1), ""));
    assert_eq!(ran.err.lines().count(), 3);
    assert!(ran.err.contains("line 129: refused 19 0: "), "{}", ran.err);
    assert!(ran.err.ends_with("mill: tin: not written, for 2 steps were not taken\n"), "{}", ran.err);
    assert_eq!(folder.read("tin"), None);
    // One that is just full is written, with a word about noise.
    let full: String = typed.lines().take(128).map(|line| format!("{line}\n")).collect();
    let noisy = "tin: 128 of 128 readings are kept, for it is noisy \
                 (A turns 0 times, B 0 times, they cross 0 times, 128 additions)";
    folder.mill_reads(&["live", "-o", "tin"], full.as_bytes()).answers_noting("readings 128\nkept     128\n", noisy);
    assert_eq!(folder.tin("tin").unwrap().readings.len(), 128 * 16);
}

/// What the run lacks a tin would lack unseen.
#[test]
fn a_run_that_lacks_a_step_makes_no_tin() {
    let folder = Folder::with_recordings("live_lacks");
    let steps = steps(&folder);
    folder.put("old", b"old");
    let there = folder.names();
    for (lost, status) in [(steps[0].as_str(), 1), ("save 9", 1), ("back 3", 1), ("10,9", 2), ("kpt", 2), ("kept x", 2)] {
        let typed = format!("{}\n{lost}\n{}\n", steps[0], steps[2]);
        let ran = folder.mill_reads(&["live", "-o", "tin"], typed.as_bytes());
        assert_eq!((ran.status, ran.text(), ran.err.lines().count()), (Some(status), "", 2), "{lost}: {}", ran.err);
        assert_eq!(ran.err.lines().last(), Some("mill: tin: not written, for 1 steps were not taken"));
        assert_eq!(folder.mill_reads(&["live", "--force", "--json", "-o", "old"], typed.as_bytes()).status, Some(status));
    }
    assert_eq!(folder.read("old").as_deref(), Some(&b"old"[..]));
    assert_eq!(folder.names(), there);
    // A question that is refused takes nothing from the run.
    let ran = folder.mill_reads(&["live", "-o", "tin"], format!("entry\n{}\nask peaks(a)\n", steps[0]).as_bytes());
    assert_eq!((ran.status, ran.text()), (Some(1), "readings 1\nkept     1\n"));
    // Bad lines are given up after 100, and no tin is made of what stood before them.
    let typed = format!("{}\n{}", steps[0], "nonsense\n".repeat(200));
    let ran = folder.mill_reads(&["live", "-o", "none"], typed.as_bytes());
    assert_eq!((ran.status, ran.text(), ran.err.lines().count()), (Some(2), "", 102));
    let end = "mill: standard input: given up after 100 bad lines\nmill: none: not written, for 100 steps were not taken\n";
    assert!(ran.err.ends_with(end), "{}", ran.err);
    assert_eq!(folder.read("none"), None);
    let ran = folder.mill_reads(&["live"], "kept x\n".as_bytes());
    ran.with_lines(2, "mill: standard input: line 1: 'kept x' is no step: kept stands alone\n");
}

/// Nothing of a line that is too long is a step, wherever it is cut.
#[test]
fn a_line_that_is_too_long_is_named_and_passed_over() {
    let folder = Folder::with_recordings("live_long");
    let steps = steps(&folder);
    for blanks in [4096 - 5, 4096 - 4, 4096, 3 * 4096, 1 << 20] {
        let typed = format!("{}\nkept{}{}\nentry\n", steps[0], " ".repeat(blanks), steps[1]);
        let ran = folder.mill_reads(&["live"], typed.as_bytes());
        assert!(ran.text().contains("last_time 0 ") && ran.text().lines().count() == 1, "{blanks}: {}", ran.text());
        assert_eq!(
            (ran.status, ran.err.as_str()),
            (Some(2), "mill: standard input: line 2: is longer than 4095 bytes\n"),
            "{blanks}"
        );
    }
    // As long as a line may be, with its end.
    let typed = format!("kept{}\n{}{}\nkept", " ".repeat(4091), " ".repeat(4095 - steps[0].len()), steps[0]);
    folder
        .mill_reads(&["live"], typed.as_bytes())
        .answers(&format!("time,a,b,slope_a,slope_b,pigment\ntime,a,b,slope_a,slope_b,pigment\n{}\n", steps[0]));
}
